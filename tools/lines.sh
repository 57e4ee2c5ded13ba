#!/bin/sh
# A row for each crate, in the order of crates.txt: lines of code, of definitions, of proof, and the number of edits that must be refused: those
# that the gate tries, and those that edits.sh does.
# docs/CHECKS.md has these beside the seconds that the gate prints.
set -eu
here=$(cd -- "$(dirname -- "$0")/.." && pwd)

# lines FOLDER PATTERN: the lines of the files below it that are not blank.
lines() {
    [ -d "$1" ] || { echo 0; return; }
    find "$1" -type f -name "$2" -exec cat {} + | grep -c '[^[:space:]]' || true
}

# edits FOLDER: how many it has.
edits() {
    find "$1" -name '*.edit' 2>/dev/null | wc -l
}

row() {
    printf '%-11s %6s %12s %7s %6s %6s\n' "$@"
}

row crate code definitions proofs edits more
sed -n 's/^\([a-z0-9_]*\)[^#:]*:.*/\1/p' "$here/crates.txt" | {
    code=0 definitions=0 proofs=0 gate=0 more=0
    while read -r crate; do
        folder=$here/crates/$crate
        c=$(lines "$folder/src" '*.rt')
        d=$(lines "$folder/specs" '*.antt')
        p=$(lines "$folder/proofs" '*.antt')
        g=$(edits "$folder/must-fail") m=$(edits "$folder/more-edits")
        row "$crate" "$c" "$d" "$p" "$g" "$m"
        code=$((code + c)) definitions=$((definitions + d)) proofs=$((proofs + p)) gate=$((gate + g)) more=$((more + m))
    done
    row all "$code" "$definitions" "$proofs" "$gate" "$more"
}
