#!/bin/sh
# The inputs that crates/traces traces, and their text by the reference program: the example sheets, a sheet of version 2, a sheet without words,
# and one of 4,095 words. traces.sh --store writes both, traces.sh --same compares them with what is committed.
set -eu
cd -- "$(dirname -- "$0")"
cargo build --quiet --release --offline
program=${CARGO_TARGET_DIR:-target}/release/oracle
work=$(mktemp -d)
trap 'rm -rf -- "$work"' EXIT
trap 'exit 1' HUP INT TERM

# add FILE: its length in four bytes and its bytes to the bundle, its trace to the text.
add() {
    n=$(wc -c <"$1")
    printf "$(printf '\\%03o\\%03o\\%03o\\%03o' $((n >> 24 & 255)) $((n >> 16 & 255)) $((n >> 8 & 255)) $((n & 255)))" >>"$work/bundle"
    cat "$1" >>"$work/bundle"
    "$program" trace <"$1" >>"$work/text"
}

for sheet in ../examples/sheets/*.sheet; do
    add "$sheet"
done
printf '\040\000\000\000' >"$work/version-2"
printf '\020\000\002\000\000\000\000\017' >"$work/empty"
"$program" longest >"$work/longest"
for input in version-2 empty longest; do
    add "$work/$input"
done

case ${1:---same} in
--store)
    cp "$work/bundle" ../crates/traces/stdin
    cp "$work/text" ../crates/traces/stdout
    ;;
--same)
    cmp "$work/bundle" ../crates/traces/stdin
    cmp "$work/text" ../crates/traces/stdout
    ;;
*)
    echo "usage: traces.sh --store | --same" >&2
    exit 2
    ;;
esac
