#!/usr/bin/env bash
# What the calls of `herd` cost: plays a house and the limits with it and with the second program, side by side, and counts instructions with
# callgrind where that is on the machine. Prints tables; docs/PERFORMANCE.md has one run of it. By hand, not in the gate.
# Usage: bench/run.sh PATH-OF-HERD
set -euo pipefail
herd=$(realpath "$1")
top=$(realpath "$(dirname "$0")")
work=$(mktemp -d)
trap 'rm -rf "$work"' EXIT
cargo build --release --offline --quiet --manifest-path "$top/Cargo.toml"
bench="$top/target/release/bench"
mkdir "$work/play" "$work/record"
"$bench" play "$herd" "$work/play"
command -v valgrind >/dev/null || exit 0

# instructions FOLDER KIND N: those of a herd that wakes with what is kept there, hears all machines, and then N lines of that kind
instructions() {
    local at
    at=$(mktemp -d -p "$work")
    cp "$1/kept.set" "$at/kept"
    { cat "$1/wake" && head -n "$3" "$1/$2"; } |
        valgrind --tool=callgrind --callgrind-out-file="$at/out" "$herd" "$at" 2>&1 >/dev/null |
        awk '/Collected/ { print $4 }'
}

"$bench" record "$herd" "$work/record"
echo
echo '### Instructions of a call, in thousands'
echo
echo '| | show an empty name | show a job | time | steady report |'
echo '|---|---|---|---|---|'
for size in house base machines tasks jobs limits; do
    # At the limits waking and hearing all takes callgrind a minute or more each time.
    lines=20
    [ "$size" != limits ] || lines=2
    row="| $size |"
    none=$(instructions "$work/record/$size" time 0)
    for kind in show-empty show-job time report; do
        some=$(instructions "$work/record/$size" "$kind" "$lines")
        row+=$(awk -v n="$lines" -v none="$none" -v some="$some" 'BEGIN { printf " %.1f |", (some - none) / n / 1000 }')
    done
    echo "$row"
done
