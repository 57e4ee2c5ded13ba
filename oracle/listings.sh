#!/bin/sh
# The cases that crates/listings lists and reads, and the reference program's answers: the example sheets and those that stand in the program.
# listings.sh --store writes both, listings.sh --same compares them with what is committed. The form of both is in README.md.
set -eu
cd -- "$(dirname -- "$0")"
LC_ALL=C
export LC_ALL
cargo build --quiet --release --offline
program=${CARGO_TARGET_DIR:-target}/release/oracle
work=$(mktemp -d)
trap 'rm -rf -- "$work"' EXIT
trap 'exit 1' HUP INT TERM

"$program" listing-cases ../examples/first/*.sheet ../examples/sheets/*.sheet >"$work/bundle"
"$program" listing-answers <"$work/bundle" >"$work/answers"

case ${1:---same} in
--store)
    mkdir -p ../crates/listings
    cp "$work/bundle" ../crates/listings/stdin
    cp "$work/answers" ../crates/listings/stdout
    ;;
--same)
    cmp "$work/bundle" ../crates/listings/stdin
    cmp "$work/answers" ../crates/listings/stdout
    ;;
*)
    echo "usage: listings.sh --store | --same" >&2
    exit 2
    ;;
esac
