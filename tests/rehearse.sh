#!/usr/bin/env bash
# Plays scripts with `rehearse` and with the second program, as many at once as there are processors, and fails on the first line in
# which they differ: those in examples/, three calls with the power failing after each number of their stores, then COUNT scripts that the
# second program writes, by the seeds from FIRST on.
# Usage: tests/rehearse.sh PATH-OF-REHEARSE [FIRST [COUNT]]
set -euo pipefail
rehearse=$(realpath "$1")
first=${2:-1}
count=${3:-150}
top=$(realpath "$(dirname "$0")/..")
work=$(mktemp -d)
trap 'rm -rf "$work"' EXIT
cargo build --release --offline --quiet --manifest-path "$top/second/Cargo.toml"
second="$top/second/target/release/second"

# Plays a script with a program: what it prints, and its status as a last line.
play() {
    local status=0
    timeout 60 "${@:3}" <"$1" >"$2" || status=$?
    echo "status $status" >>"$2"
}

# Says the first line in which two files differ. A line that only one has differs, too.
differ() {
    local n
    n=$(paste -d '\n' "$2" "$3" | awk 'NR % 2 { ours = $0; next } !n && ours != $0 { n = NR / 2 } END { print n }')
    echo "$1: line $n of what is printed differs:"
    echo "  second   $(sed -n "${n}p" "$2" | cut -c1-300)"
    echo "  rehearse $(sed -n "${n}p" "$3" | cut -c1-300)"
}

# Compares both on a script, by a name for it. That of a seed is still to be written.
compare() {
    [ -e "$2" ] || "$second" generate "${1#seed }" >"$2"
    play "$2" "$2.ours" "$second" play
    play "$2" "$2.theirs" "$rehearse"
    cmp -s "$2.ours" "$2.theirs" || differ "$1" "$2.ours" "$2.theirs" >"$2.differs"
}
export -f play differ compare
export second rehearse

# What is to be compared, in order: a name, and where the script is.
items=0
item() {
    items=$((items + 1))
    script=$(printf '%s/%05d' "$work" "$items")
    printf '%s\0' "$1" "$script" >>"$work/items"
}
stories=0
for story in "$top"/examples/*.script; do
    printed=${story%.script}.out
    "$second" play <"$story" | diff - "$printed" >"$work/diff" || {
        echo "$story prints other than what stands in $printed:"
        head -n 5 "$work/diff"
        exit 1
    }
    item "${story#"$top"/}"
    cp "$story" "$script"
    stories=$((stories + 1))
done
mkdir "$work/cuts"
"$second" cuts "$work/cuts"
cuts=0
for cut in "$work"/cuts/*; do
    item "${cut##*/}"
    mv "$cut" "$script"
    cuts=$((cuts + 1))
done
for seed in $(seq "$first" $((first + count - 1))); do
    item "seed $seed"
done
xargs -0 -n 2 -P "$(nproc)" bash -euo pipefail -c 'compare "$@"' compare <"$work/items"
for differs in "$work"/*.differs; do
    [ -e "$differs" ] || break
    cat "$differs"
    exit 1
done
echo "rehearse: $stories stories, $cuts calls cut in the dark and $count seeds from $first on agree"
