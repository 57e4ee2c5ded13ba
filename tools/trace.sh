#!/bin/sh
# trace.sh LISTING [REGISTER..]: assembles a listing (docs/LISTING.md), puts the registers that it starts with after it, eight hex digits each, and
# traces it. First build the two programs: tools/build.sh assemble trace. Exit status 1 where the listing is refused. With -o FILE the trace's input is
# written there instead: trace.sh -o FILE LISTING [REGISTER..].
set -eu
here=$(cd -- "$(dirname -- "$0")" && pwd)
root=$(dirname -- "$here")
output=
if [ "${1:-}" = -o ]; then
    [ $# -gt 1 ] || { echo "usage: trace.sh [-o FILE] LISTING [REGISTER..]" >&2; exit 2; }
    output=$2
    shift 2
fi
[ $# -gt 0 ] || { echo "usage: trace.sh [-o FILE] LISTING [REGISTER..]" >&2; exit 2; }
listing=$1
shift
program=$root/crates/trace/out/trace
[ -n "$output" ] || [ -x "$program" ] || { echo "trace.sh: no program $program; run 'tools/build.sh assemble trace' first" >&2; exit 2; }
work=$(mktemp -d)
trap 'rm -rf -- "$work"' EXIT
trap 'exit 1' HUP INT TERM

"$here/sheets.sh" assemble <"$listing" >"$work/input"
for register; do
    case $register in
    *[!0-9A-Fa-f]* | "") echo "trace.sh: $register is no hex number" >&2; exit 2 ;;
    esac
    [ ${#register} = 8 ] || { echo "trace.sh: $register has not eight hex digits" >&2; exit 2; }
    n=$((0x$register))
    printf "$(printf '\\%03o\\%03o\\%03o\\%03o' $((n >> 24 & 255)) $((n >> 16 & 255)) $((n >> 8 & 255)) $((n & 255)))" >>"$work/input"
done

if [ -n "$output" ]; then
    cp "$work/input" "$output"
else
    "$here/x86run.sh" "$program" <"$work/input"
fi
