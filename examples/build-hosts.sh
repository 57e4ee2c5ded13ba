#!/bin/sh
# Builds the C host and the Rust host and runs both: examples/build-hosts.sh [FILE.sheet].
# Works from any directory; without a file it is sheets/fifteen.sheet, and what the hosts print is held to c-host/expected.txt.
#
# The proved library is x86-64 code, and the kit that proves and builds it is for such machines alone: it has no emulator for another one. There the
# hosts are built for the machine itself, on the C model of bench/ behind the same header (rust-host/stand-in.c), so that all of them runs but the link
# with the proved library; the script says so. CC may name the C compiler and CXX the C++ compiler.
set -eu
here=$(cd -- "$(dirname -- "$0")" && pwd)
root=$(dirname -- "$here")
archive=$root/crates/am29332/out/libam29332.a
machine=$(uname -m)
sheet=${1:-$here/sheets/fifteen.sheet}

work=$(mktemp -d)
trap 'rm -rf -- "$work"' EXIT
trap 'exit 1' HUP INT TERM

compiler=${CC:-$(command -v cc || command -v gcc || command -v clang)}
flags="-std=c11 -O2 -Wall -Wextra -Wpedantic -Werror"

if [ "$machine" = x86_64 ]; then
    echo "-- the library: tools/build.sh am29332"
    "$root/tools/build.sh" am29332 >"$work/build.log" 2>&1 || { cat "$work/build.log" >&2; exit 1; }
fi

"$root/tools/header_check.py"
# A constant whose use is not known, a stored mask say, is told here.
[ "$machine" != x86_64 ] || "$root/tools/memory.py" >"$work/memory.txt" || { cat "$work/memory.txt" >&2; exit 1; }

# show FILE COMMAND..: runs a host, and shows and keeps what it prints.
show() {
    file=$1
    shift
    "$@" >"$file" || { cat "$file"; exit 1; }
    cat "$file"
}

# The library over the C model, in a folder of its own.
stand_in() {
    mkdir "$work/stand-in"
    "$compiler" $flags -I "$root/include" -c "$here/rust-host/stand-in.c" -o "$work/stand-in/stand-in.o"
    for part in model listing; do
        "$compiler" -std=c11 -O2 -c "$root/bench/$part.c" -o "$work/stand-in/$part.o"
    done
    ar rc "$work/stand-in/libam29332.a" "$work/stand-in/stand-in.o" "$work/stand-in/model.o" "$work/stand-in/listing.o"
}

tried=
if [ "$machine" = x86_64 ]; then
    library=$archive
    with="with the proved library"
else
    stand_in
    library=$work/stand-in/libam29332.a
    with="$machine code, on the C model behind the same header"
    tried="
not tried: the hosts with the proved library (it is x86-64 code, and the kit has no emulator for $machine)"
fi

"$compiler" $flags -I "$root/include" "$here/c-host/main.c" "$library" -o "$work/c-host"
echo "-- C host, $with"
show "$work/c.txt" "$work/c-host" "$sheet"

if command -v cargo >/dev/null; then
    AM29332_LIB=$(dirname -- "$library") CARGO_TARGET_DIR=$work/cargo \
        cargo build --quiet --release --offline --locked --manifest-path "$here/rust-host/Cargo.toml"
    echo "-- Rust host, $with"
    show "$work/rust.txt" "$work/cargo/release/rust-host" "$sheet"
else
    tried="$tried
not tried: the Rust host (there is no cargo here)"
fi

other=${CXX:-$(command -v c++ || command -v g++ || command -v clang++ || true)}
if [ -n "$other" ]; then
    "$other" -Wall -Wextra -Wpedantic -Werror -fsyntax-only -x c++ "$root/include/am29332.h"
    echo "-- the header is C++ too"
else
    tried="$tried
not tried: the header in C++ (there is no C++ compiler here)"
fi

[ ! -e "$work/rust.txt" ] || cmp "$work/c.txt" "$work/rust.txt"
[ $# -gt 0 ] || cmp "$here/c-host/expected.txt" "$work/c.txt"
echo "-- ok: the hosts print the same$tried"
