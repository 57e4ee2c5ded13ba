#!/bin/sh
# Runs the reference program: ./run.sh selftest, ./run.sh digest, and so on.
# Without arguments it runs the self-test. Works from any directory, but a
# folder named for trace-inputs is taken from the caller's.
set -eu
manifest=$(dirname -- "$0")/Cargo.toml
[ $# -gt 0 ] || set -- selftest
exec cargo run --quiet --release --offline --manifest-path "$manifest" -- "$@"
