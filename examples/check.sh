#!/bin/sh
# Holds the examples to one another: each listing assembles to its sheet, each sheet lists to its listing, and each trace is the stored one; sees that
# the first example is what the gate runs, and that the lines of C in README.md compile. First build the programs: tools/build.sh list assemble trace. Works
# from any directory; CC may name the C compiler.
set -eu
here=$(cd -- "$(dirname -- "$0")" && pwd)
root=$(dirname -- "$here")
for program in list assemble trace; do
    [ -x "$root/crates/$program/out/$program" ] || { echo "check.sh: no program $program; run 'tools/build.sh list assemble trace' first" >&2; exit 2; }
done
work=$(mktemp -d)
trap 'rm -rf -- "$work"' EXIT
trap 'exit 1' HUP INT TERM

count=0
for listing in "$here"/first/*.words "$here"/sheets/*.words; do
    stored=${listing%.words}
    # the registers are numbers of eight digits between blanks, so the shell may split them
    "$root/tools/trace.sh" -o "$work/again.sheet" "$listing" $(cat "$stored.registers")
    cmp "$work/again.sheet" "$stored.sheet"
    "$root/tools/sheets.sh" assemble <"$listing" >"$work/alone.sheet"
    "$root/tools/sheets.sh" list <"$work/alone.sheet" | cmp - "$listing"
    "$root/tools/x86run.sh" "$root/crates/trace/out/trace" <"$stored.sheet" | cmp - "$stored.trace"
    count=$((count + 1))
done
cmp "$here/first/and.sheet" "$root/crates/trace/stdin"

sed -n '/^```c$/,/^```$/p' "$root/README.md" | sed '/^```/d' >"$work/readme.c"
[ -s "$work/readme.c" ] || { echo "check.sh: no lines of C in README.md" >&2; exit 1; }
"${CC:-cc}" -std=c11 -Wall -Wextra -Wpedantic -Werror -I "$root/include" -fsyntax-only "$work/readme.c"
echo "$count examples: listing and sheet are each the other's, and each trace is the stored one; the C of README.md compiles"
