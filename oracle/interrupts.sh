#!/bin/sh
# Random main lists, handlers and schedules, legal ones and every kind of fault: the reference program's answers beside the proved program's.
# interrupts.sh COUNT tries COUNT of them on crates/interrupts, which has to be built (tools/build.sh interrupts); 20,000 where no count is given.
# interrupts.sh --store writes the gate's few (`oracle interrupt-cases`), interrupts.sh --same compares them with what is committed.
# The lines are those of `oracle interrupts`, the lists filled up with `-` to one width: 256 characters a sheet, 4,120 the schedule, 128 the
# registers.
set -eu
cd -- "$(dirname -- "$0")"
cargo build --quiet --release --offline
program=${CARGO_TARGET_DIR:-target}/release/oracle

widen() {
    awk '
        function wide(field, width,  n) {
            if (field == "-") field = ""
            n = width - length(field)
            return field substr(dashes, 1, n)
        }
        BEGIN { dashes = "-"; while (length(dashes) < 4120) dashes = dashes dashes }
        { print wide($1, 256), wide($2, 256), wide($3, 4120), wide($4, 128), $5, $6, $7, $8, $9, wide($10, 128), $11, $12 }'
}

few() {
    "$program" interrupt-cases | widen
}

case ${1:-20000} in
--same)
    few | cmp - ../crates/interrupts/stdin
    ;;
--store)
    few > ../crates/interrupts/stdin
    awk 'END { print NR " cases, 0 missed" }' ../crates/interrupts/stdin > ../crates/interrupts/stdout
    ;;
*)
    interrupts=../crates/interrupts/out/interrupts
    [ -x "$interrupts" ] || { echo "interrupts.sh: no program crates/interrupts/out/interrupts; run 'tools/build.sh interrupts' first" >&2; exit 2; }
    said=$("$program" interrupts "${1:-20000}" | widen | ../tools/x86run.sh "$interrupts")
    echo "$said"
    [ "$said" = "${1:-20000} cases, 0 missed" ]
    ;;
esac
