#!/bin/sh
# Builds the reference program, runs its self-test and its planted faults, and
# makes the gate's data again where they are committed.
set -eu
cd -- "$(dirname -- "$0")"

echo "== build"
cargo build --release --offline
program=${CARGO_TARGET_DIR:-target}/release/oracle

echo "== selftest"
"$program" selftest

echo "== faults"
"$program" faults

# same MODE FILE: what the mode prints is what is committed.
same() {
    if [ ! -e "$2" ]; then
        echo "$1: $2 not there yet"
    elif "$program" "$1" | cmp - "$2"; then
        echo "$1: same as $2"
    else
        echo "$1: differs from $2"
        exit 1
    fi
}

echo "== data"
same digest ../crates/digest/stdout
same vectors ../crates/vectors/stdin
same pairs-sheets ../crates/pairs/stdin
same pairs ../crates/pairs/stdout
./interrupts.sh --same
echo "interrupts: same as ../crates/interrupts/stdin"
./traces.sh --same
echo "traces: same as ../crates/traces/stdin and stdout"
./listings.sh --same
echo "listings: same as ../crates/listings/stdin and stdout"
echo "== all good"
