#!/bin/sh
# Builds the benchmark at -O3 and runs it:
#
#   bench/run.sh [--native] [--no-jump-tables] [--each [all] | --listing] [REPEATS]
#
# Works from any directory. CC may name the compiler.
#
# The proved library, crates/am29332/out/libam29332.a, is x86-64 code, and the kit
# that proves and builds it is for such machines alone. With --no-jump-tables it
# makes decisions by comparisons: see compile.sh. --each times the operations one
# by one, --listing the listing of a sheet and its reading.
#
# The kit has no emulator for a machine of another kind. There the table can be
# had in that machine's own code, by --native, if PROVED names a library that
# `compile.sh MACHINE OUT.a` made on an x86-64 machine.
set -eu
here=$(cd -- "$(dirname -- "$0")" && pwd)
archive=$here/../crates/am29332/out/libam29332.a
machine=$(uname -m)
fail() { echo "run.sh: $*" >&2; exit 1; }

native=
tables=
for word in "$@"; do
    shift
    case $word in
    --native) native=yes ;;
    --no-jump-tables) tables=$word ;;
    --each | all | --listing | [1-9]*) set -- "$@" "$word" ;;
    *) echo "usage: run.sh [--native] [--no-jump-tables] [--each [all] | --listing] [REPEATS]" >&2; exit 2 ;;
    esac
done

without=${tables:+, the proved library without jump tables}

work=$(mktemp -d)
trap 'rm -rf -- "$work"' EXIT
trap 'exit 1' HUP INT TERM

compiler=${CC:-$(command -v cc || command -v gcc || command -v clang)}

# compile WORDS..: the objects of the benchmark, in the work folder.
objects=
compile() {
    for part in harness model listing sheets; do
        "$compiler" "$@" -std=c11 -O3 -Wall -Wextra -Werror -fPIE \
            -c "$here/$part.c" -o "$work/$part.o"
        objects="$objects $work/$part.o"
    done
}

# The two ways; each is given the harness's words.

plain() {
    if [ "$tables" ]; then
        archive=$work/proved.a
        "$here/compile.sh" "$tables" x86_64 "$archive"
    fi
    [ -e "$archive" ] || fail "first: tools/build.sh am29332"
    echo "$machine$without, $("$compiler" --version | head -n 1)"
    compile
    "$compiler" -o "$work/harness" $objects "$archive"
    "$work/harness" "$@"
}

native() {
    [ -z "$tables" ] || fail "--no-jump-tables is for compile.sh to say, where PROVED is made"
    [ -e "${PROVED-}" ] || fail "--native wants in PROVED what compile.sh $machine made on an x86-64 machine"
    echo "$machine code without an emulator, $PROVED, $("$compiler" --version | head -n 1)"
    compile -DBENCH_NATIVE
    "$compiler" -o "$work/harness" $objects "$PROVED"
    "$work/harness" "$@"
}

if [ "$machine" = x86_64 ]; then
    [ -z "$native" ] || echo "on this machine --native is the plain table"
    plain "$@"
elif [ "$native" ]; then
    native "$@"
else
    fail "the proved library is x86-64 code, and the kit has no emulator for $machine: see --native"
fi
