#!/usr/bin/env bash
# What a damaged line costs beside a good one of its length: as many reports of 2,048 tasks each, the largest that can be done, whose last
# readiness is neither 1 nor 0. Not in the gate: times differ from run to run.
# Usage: tests/cost.sh PATH-OF-HERD [LINES]
set -euo pipefail
herd=$(realpath "$1")
lines=${2:-500}
work=$(mktemp -d)
trap 'rm -rf "$work"' EXIT
cd "$work"

tasks=$(for i in $(seq 1 2047); do printf '%016x01' "$i"; done)
# reports LAST: of machine 1 in life 1, the last task's readiness being LAST
reports() {
    echo 'time 1'
    echo 'in 00000010000000010300010000000a0000000a00'
    for n in $(seq 1 "$lines"); do
        printf 'in %08x%08x070001%016x%016x0800%s%016x%s\n' $((24 + 9 * 2048 + 1)) "$n" 1 "$n" "$tasks" 2048 "$1"
    done
}
reports 01 >good
reports 02 >damaged

# took NAME: milliseconds of processor time for the lines of that file
took() {
    mkdir -p "kept.$1"
    TIMEFORMAT='%U %S'
    { time "$herd" "kept.$1" <"$1" >"$1.out"; } 2>&1 | awk '{ printf "%d", ($1 + $2) * 1000 }'
}
good=$(took good)
damaged=$(took damaged)
echo "$lines good reports: $good ms, $(grep -c '^out ................02' good.out) answered by a run"
echo "$lines damaged ones: $damaged ms, $(grep -c '^out 00000006........0001$' damaged.out) turned away by 1"
# A tenth more is allowed for the clock.
[ "$damaged" -le $((good + good / 10 + 20)) ]
