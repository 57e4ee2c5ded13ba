#!/bin/sh
# Builds the hand-written C model and holds it to the independent program in
# ../oracle: its vectors, its digests, its interrupted runs, its traces and its
# listings.
# Works from any directory. CC may name the compiler. Exit status 1 on a miss.
set -eu
here=$(cd -- "$(dirname -- "$0")" && pwd)
oracle=$here/../oracle/run.sh
compiler=${CC:-$(command -v cc || command -v gcc)}

work=$(mktemp -d)
trap 'rm -rf -- "$work"' EXIT
trap 'exit 1' HUP INT TERM
test=$work/test-model

echo "== build: ${compiler##*/} -O3"
"$compiler" -std=c11 -O3 -Wall -Wextra -Werror -o "$test" \
    "$here/model.c" "$here/listing.c" "$here/test-model.c"

echo "== single word, and words run on registers"
"$oracle" vectors >"$work/vectors"
"$test" vectors <"$work/vectors"
"$oracle" digest >"$work/expected"
"$test" digest >"$work/digest"
cmp "$work/expected" "$work/digest"
echo "digest: $(wc -l <"$work/digest" | tr -d ' ') opcode numbers, 102,400 cases each, as single words and run on registers, 0 misses"

echo "== words and sheets"
"$test" words
"$oracle" trace-inputs "$work/inputs" "${TRACES:-600}"
"$test" traces "$work"/inputs/*.in

# Document 01's example, through the trace program; its status and its pins are
# document 02's.
printf '\020\001\010\000\200\200\000\102\016\000\000\000\000\000\000\000\000\363\022\064\126\074\000\000\000\000' >"$work/example"
"$test" trace <"$work/example" >"$work/text"
"$oracle" trace <"$work/example" | cmp - "$work/text"
printf '0000 12345630 00000000 00002000 00000\n00 0001\n' | cmp - "$work/text"
echo "trace: document 01's example, with the status and the pins that document 02 gives it"

echo "== handlers and interrupted runs"
"$test" forms
"$oracle" interrupts "${INTERRUPTS:-2000}" >"$work/lines"
"$test" interrupts <"$work/lines"
for reason in 00 01 03 04 05 06 07 08 09 0B 0C 0D 11; do
    grep -q "^[^ ]* [^ ]* [^ ]* [^ ]* [^ ]* [^ ]* $reason " "$work/lines" ||
        { echo "interrupts: no line with reason $reason"; exit 1; }
done
echo "interrupts: every reason of an interrupted run is among them"

echo "== listings"
"$oracle" listing-cases >"$work/bundle"
"$oracle" random-texts "${TEXTS:-20000}" >>"$work/bundle"
"$oracle" listing-answers <"$work/bundle" >"$work/answers"
"$test" listings <"$work/bundle" | cmp "$work/answers" -
echo "listings: $(wc -l <"$work/answers" | tr -d ' ') sheets and texts, 0 misses"
echo "== all good"
