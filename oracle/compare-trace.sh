#!/bin/sh
# compare-trace.sh [COUNT]: runs the program trace on COUNT inputs that the reference program makes (20,000 if not said), every other one damaged,
# and on some of the largest lengths; compares what it writes with the reference program's text, byte for byte. Exit status 1 if one is unlike.
# Build the program first: tools/build.sh trace. Works from any directory.
set -eu
here=$(cd -- "$(dirname -- "$0")" && pwd)
root=$(dirname -- "$here")
count=${1:-20000}
trace=$root/crates/trace/out/trace
[ -x "$trace" ] || { echo "compare-trace.sh: no program $trace; run 'tools/build.sh trace' first" >&2; exit 2; }
work=$(mktemp -d)
trap 'rm -rf -- "$work"' EXIT
mkdir "$work/in"

"$here/run.sh" trace-inputs "$work/in" "$count" > "$work/said"

# The largest valid input: 4,095 words INCR-A on register 0, and 64 registers. Then one, two and 40,000 bytes more, one less, and no byte at all.
printf '\044\000\000\000\002\000' > "$work/words"
for i in 1 2 3 4 5 6 7 8 9 10 11 12; do
    cat "$work/words" "$work/words" > "$work/twice"
    mv "$work/twice" "$work/words"
done
{ printf '\037\377\200\000'; head -c 24570 "$work/words"; head -c 256 /dev/zero; } > "$work/in/large.in"
head -c 24829 "$work/in/large.in" > "$work/in/large-less.in"
for more in 1 2 40000; do
    { cat "$work/in/large.in"; head -c "$more" /dev/zero; } > "$work/in/large-$more.in"
done
: > "$work/in/empty.in"
for name in large large-less large-1 large-2 large-40000 empty; do
    "$here/run.sh" trace < "$work/in/$name.in" > "$work/in/$name.out"
done

# One input: writes its name where the two texts are unlike.
cat > "$work/one.sh" <<'ONE'
run=$1
trace=$2
shift 2
for input do
    "$run" "$trace" < "$input" | cmp -s - "${input%.in}.out" || echo "$input"
done
ONE
find "$work/in" -name '*.in' -print0 | xargs -0 -n 100 -P "$(nproc)" sh "$work/one.sh" "$root/tools/x86run.sh" "$trace" > "$work/unlike"

refused=$(find "$work/in" -name '*.out' -print0 | xargs -0 -n 1000 tail -q -n 1 | grep -vc '^00 ' || true)
echo "$(find "$work/in" -name '*.in' | wc -l) inputs, of them $refused refused; $(wc -l < "$work/unlike") unlike"
if [ -s "$work/unlike" ]; then
    kept=$(mktemp -d)
    head -n 5 "$work/unlike" | while read -r input; do cp "$input" "${input%.in}.out" "$kept"; done
    echo "the first of them: $kept"
    exit 1
fi
