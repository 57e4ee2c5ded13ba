#!/bin/sh
# build.sh NAME ..: proves the crates of these names, with all below them, and builds them. A program is crates/NAME/out/NAME then; it is run on the
# crate's stdin, and what it prints is held to the crate's stdout. A static library is crates/NAME/out/libNAME.a, compiled for every x86-64 processor:
# by itself rt takes x86-64-v2, which the library would not check, and for which the compiler stores masks (docs/MEMORY.md). What is proved already is
# not proved again. Exit status 1 where a crate is not proved or a program prints something else, 2 for a name that is no crate. Works from any directory.
set -eu
root=$(dirname -- "$(dirname -- "$(readlink -f -- "$0")")")
[ $# -gt 0 ] || { echo "usage: build.sh NAME .." >&2; exit 2; }
for name; do
    [ -d "$root/crates/$name/src" ] || { echo "build.sh: $name is no crate" >&2; exit 2; }
done
work=$(mktemp -d)
trap 'rm -rf -- "$work"' EXIT
trap 'exit 1' HUP INT TERM

for name; do
    cd "$root/crates/$name"
    if [ ! -e src/main.rt ]; then
        rt lib --cpu x86-64 || { echo "build.sh: $name is not built" >&2; exit 1; }
        continue
    fi
    given=/dev/null wanted=/dev/null
    [ ! -e stdin ] || given=stdin
    [ ! -e stdout ] || wanted=stdout
    # rt's own lines are those on standard error
    rt run <"$given" 2>&1 >"$work/printed" || { echo "build.sh: $name is not proved and run to its end" >&2; exit 1; }
    cmp -- "$work/printed" "$wanted" || { echo "build.sh: $name does not print what its stdout has" >&2; exit 1; }
done
