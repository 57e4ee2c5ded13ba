#!/bin/sh
# compare-listings.sh [COUNT]: runs the program listings on COUNT drawn sheets and texts (20,000 if not said), most of them damaged, and compares its
# answers with the reference program's, byte for byte. Exit status 1 if one is unlike; then the first such case is told and kept.
# Build the program first: tools/build.sh listings. Works from any directory.
set -eu
here=$(cd -- "$(dirname -- "$0")" && pwd)
root=$(dirname -- "$here")
count=${1:-20000}
listings=$root/crates/listings/out/listings
[ -x "$listings" ] || { echo "compare-listings.sh: no program $listings; run 'tools/build.sh listings' first" >&2; exit 2; }
work=$(mktemp -d)
trap 'rm -rf -- "$work"' EXIT
trap 'exit 1' HUP INT TERM

"$here/run.sh" random-texts "$count" > "$work/bundle"
"$here/run.sh" listing-answers < "$work/bundle" > "$work/right"
status=0
"$root/tools/x86run.sh" "$listings" < "$work/bundle" > "$work/said" || status=$?

# The answers side by side: how many are unlike, and the first of them. A line that one of the two lacks is empty.
awk -v said="$work/said" '
    { line = ""; getline line < said }
    line != $0 { unlike++; if (unlike == 1) first = NR }
    END {
        while ((getline line < said) > 0) more++
        print NR, unlike + more, first + 0
    }' "$work/right" > "$work/counts"
read -r asked unlike first < "$work/counts"
echo "$asked cases, of them $(grep -vc '^. 00 ' "$work/right" || true) refused; $unlike unlike"
[ "$status" = 0 ] || echo "the program ended with status $status"
if [ "$first" -gt 0 ]; then
    kept=$(mktemp -d)
    "$here/run.sh" case "$first" < "$work/bundle" > "$kept/case"
    echo "the first of them, number $first: $kept/case"
    echo "  should be: $(sed -n "${first}p" "$work/right")"
    echo "  but is:    $(sed -n "${first}p" "$work/said")"
fi
[ "$unlike" = 0 ] && [ "$status" = 0 ] && cmp "$work/right" "$work/said"
