#!/bin/sh
# sheets.sh list|assemble: a sheet's listing, or a text's sheet, from standard input to standard output (docs/LISTING.md). A refusal's line goes where
# the program writes it: `list` to standard output, `assemble` to standard error. Exit status 1 where the call was refused, 2 for wrong use or a
# program that is not built. Build them first: tools/build.sh list assemble. Works from any directory.
set -eu
root=$(dirname -- "$(dirname -- "$(readlink -f -- "$0")")")
case ${1:-} in
list | assemble) [ $# = 1 ] || set -- ;;
*) set -- ;;
esac
[ $# = 1 ] || { echo "usage: sheets.sh list|assemble" >&2; exit 2; }
program=$root/crates/$1/out/$1
[ -x "$program" ] || { echo "sheets.sh: no program $program; run 'tools/build.sh $1' first" >&2; exit 2; }
work=$(mktemp -d)
trap 'rm -rf -- "$work"' EXIT
trap 'exit 1' HUP INT TERM

"$root/tools/x86run.sh" "$program" >"$work/out" 2>"$work/refusal" || { cat "$work/refusal" >&2; exit 2; }
cat "$work/out"
cat "$work/refusal" >&2
case $1 in
list) [ "$(head -c 8 "$work/out")" = version= ] || exit 1 ;;
assemble) [ ! -s "$work/refusal" ] || exit 1 ;;
esac
