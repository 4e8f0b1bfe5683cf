#!/usr/bin/env bash
# What the program agent does outside its lines: the file life, its arguments, its end, lines of any length, and that
# no life is used twice, however often it is killed while it comes up.
# Usage: tests/agent.sh PATH-OF-AGENT
set -uo pipefail
agent=$(realpath "$1")
work=$(mktemp -d)
trap 'rm -rf "$work"' EXIT
cd "$work"
failed=0

# check NAME EXPECTED GOT
check() {
    if [ "$2" = "$3" ]; then
        echo "ok: $1"
    else
        echo "FAILED: $1: expected '$2', got '$3'"
        failed=1
    fi
}

# life FILE: the number that it says, twice, in hexadecimal
life() {
    od -An -v -tx1 "$1" | tr -d ' \n'
}

mkdir made && "$agent" 7 made </dev/null >out
check "no file: status 0" 0 $?
check "and the first life" "up 1" "$(cat out)"
check "which is kept twice" 00000000000000010000000000000001 "$(life made/life)"
check "nothing else is left beside it" life "$(ls made)"
check "the next time, the next life" "up 2" "$("$agent" 7 made </dev/null)"
printf 'left over' >made/life.new
check "what is left aside doesn't count" "up 3" "$("$agent" 7 made </dev/null)"

mkdir here && (cd here && "$agent" 7 </dev/null >/dev/null)
check "no directory: the current one" life "$(ls here)"

# refused NAME: the life in bad is refused, with nothing on standard output, and left alone
refused() {
    cp bad/life before
    echo report | "$agent" 7 bad >out 2>err
    check "$1: status 1" 1 $?
    check "$1: no report" "" "$(cat out)"
    check "$1: left alone" "" "$(cmp bad/life before 2>&1)"
    check "$1: said" 1 "$(grep -c "$2" err)"
}

mkdir bad && printf '\0\0\0\0\0\0\1\0\0\0\0\0\0\0\1\0' >bad/whole
for n in 0 1 7 8 9 15; do
    head -c "$n" bad/whole >bad/life
    refused "the first $n bytes" damaged
done
head -c 16 /dev/zero >bad/life
refused "all 0" damaged
{ head -c 8 bad/whole; head -c 8 /dev/zero; } >bad/life
refused "a half that is 0" damaged
printf '\0\0\0\0\0\0\1\0\0\0\0\0\0\0\2\0' >bad/life
refused "two halves that differ" damaged
{ cat bad/whole; printf '\0'; } >bad/life
refused "a byte more" damaged
printf '1\n' >bad/life
refused "text" damaged
printf '\100\0\0\0\0\0\0\0\100\0\0\0\0\0\0\0' >bad/life
refused "the last life" "last life"
printf '\100\0\0\0\0\0\0\1\100\0\0\0\0\0\0\1' >bad/life
refused "a life above the last" damaged
printf '\77\377\377\377\377\377\377\377\77\377\377\377\377\377\377\377' >bad/life
check "the last but one: the last comes" "up 4611686018427387904" "$("$agent" 7 bad </dev/null)"
refused "and then no more" "last life"

mkdir -p folder/life
"$agent" 7 folder </dev/null >out 2>err
check "life is a folder: status 1" 1 $?
check "and no report" "" "$(cat out)"
"$agent" 7 nowhere </dev/null >out 2>err
check "no such directory: status 1" 1 $?
check "and said" 1 "$(grep -c 'cannot be kept' err)"

for args in "" "x" "65536" "-1" "7 made more"; do
    # shellcheck disable=SC2086
    "$agent" $args </dev/null >out 2>err
    check "arguments '$args': status 1" 1 $?
    check "and said how to call it" 1 "$(grep -c 'agent MACHINE' err)"
done

# A line far longer than memory allows is passed over, and the next is followed.
{ printf 'answer '; head -c 300000000 /dev/zero | tr '\0' a; printf '\nreport'; } >long
(ulimit -v 200000 && "$agent" 7 made <long >out 2>err)
check "a line of 300 MB: status 0" 0 $?
check "and the next line is followed" 1 "$(grep -c '^send ' out)"
check "and said" 1 "$(grep -c 'passed over' err)"
head -c 1000000 /dev/urandom >noise
"$agent" 7 made <noise >out 2>err
check "noise: status 0" 0 $?
check "and nothing but its life" 1 "$(wc -l <out)"

# Killed at any moment while it comes up, the file is whole, and no life is said twice.
mkdir killed && : >lives
for i in $(seq 1 300); do
    "$agent" 7 killed </dev/null >>lives 2>>complaints &
    child=$!
    perl -e "select(undef, undef, undef, rand(0.004))"
    kill -9 "$child" 2>/dev/null
    wait "$child" 2>/dev/null
done
"$agent" 7 killed </dev/null >>lives
check "killed 300 times: it comes up" 0 $?
check "and never complained" "" "$(cat complaints 2>/dev/null)"
check "lives only rise" "$(cut -d' ' -f2 lives | sort -n -u)" "$(cut -d' ' -f2 lives)"
echo "$(wc -l <lives) of 301 came up, the last with $(tail -n 1 lives)"

# Cut at each of its calls of the system in turn, as by a failing power.
if command -v strace >/dev/null && strace -o /dev/null true 2>/dev/null; then
    mkdir cut && : >lives
    for call in openat write fsync rename close; do
        for n in 1 2 3 4; do
            (
                strace -qq -o /dev/null -e "inject=$call:signal=KILL:when=$n" "$agent" 7 cut </dev/null >>lives
                true
            ) 2>/dev/null
            "$agent" 7 cut </dev/null >>lives
        done
    done
    check "cut at its calls: lives only rise" "$(cut -d' ' -f2 lives | sort -n -u)" "$(cut -d' ' -f2 lives)"
fi

[ "$failed" = 0 ]
