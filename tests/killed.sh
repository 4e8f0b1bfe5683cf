#!/usr/bin/env bash
# Kills the program herd at random moments under load and starts it again on the same file kept: all that was answered is there.
# Usage: tests/killed.sh PATH-OF-HERD [ROUNDS]
#
# Each round adds a machine and then sets a job again and again, each time with another image, so that each call that is done makes a new
# version. What was answered stands in the output; the call after the last answer may be done or not; none behind it is.
set -uo pipefail
herd=$(realpath "$1")
rounds=${2:-200}
calls=400
work=$(mktemp -d)
trap 'rm -rf "$work"' EXIT
cd "$work"
mkdir store
cut=0

fail() {
    echo "FAILED: round $round: $1"
    exit 1
}

# load ROUND: a time, a machine of that number, and a job with other images.
load() {
    echo 'time 1'
    printf 'in 0000001000000000%s%04x%08x%08x00\n' 03 "$1" 1 1
    awk -v from=$(($1 * calls)) -v calls=$calls 'BEGIN {
        for (i = 1; i <= calls; i++) printf "in 0000001d%08x0103636c6b%08x00000001000000010000000100000002\n", i, from + i
    }'
}

# shown: the version of the job's only task, or 0 where there is no such job.
shown() {
    printf 'time 1\nin 000000090000000009%s\n' 03636c6b | "$herd" store | awk 'NR == 2 { print substr($2, 17, 6) == "030001" ? "0x" substr($2, 39, 8) : "0x0" }'
}

version=0
for round in $(seq 1 "$rounds"); do
    load "$round" >lines
    # Emptied here: who is killed at once may not have come to it, and the answers of the round before would count again.
    : >out
    "$herd" store <lines >out &
    pid=$!
    sleep "0.$(printf '%03d' $((RANDOM % 60)))"
    if kill -9 "$pid" 2>/dev/null; then cut=$((cut + 1)); fi
    wait "$pid" 2>/dev/null
    # Whole lines, of which the first is the time's and the second the machine's.
    lines=$(wc -l <out)
    yes=$(head -n "$lines" out | tail -n +3 | grep -c '^out 00000005........01$')
    [ "$yes" = $((lines > 2 ? lines - 2 : 0)) ] || fail "a call was not answered by yes: $(grep -v '01$' out | head -n 1)"
    now=$(($(shown)))
    [ "$now" -ge $((version + yes)) ] || fail "$yes new versions were answered after $version, and $now is shown"
    [ "$now" -le $((version + yes + 1)) ] || fail "$now is shown, and only $yes were answered after $version"
    again=$(sed -n 2p lines | cat <(echo 'time 1') - | "$herd" store | tail -n 1)
    case $lines:$again in
    [01]:*01 | *:*0003) ;;
    *) fail "the machine was answered, and then: $again" ;;
    esac
    version=$now
done
echo "ok: $rounds starts, $cut of them killed, $version versions: all that was answered was there"
