#!/usr/bin/env bash
# What the program herd does outside its lines: the file kept, its arguments, its end, lines of any length.
# Usage: tests/herd.sh PATH-OF-HERD
set -uo pipefail
herd=$(realpath "$1")
vectors=$(realpath "$(dirname "$0")/vectors.txt")
work=$(mktemp -d)
trap 'rm -rf "$work"' EXIT
cd "$work"
failed=0

# check NAME EXPECTED GOT
check() {
    if [ "$2" = "$3" ]; then
        echo "ok: $1"
    else
        echo "FAILED: $1: expected '$2', got '$3'"
        failed=1
    fi
}

mkdir made && "$herd" made </dev/null
check "no input: status 0" 0 $?
check "kept is made whole" 2097152 "$(stat -c %s made/kept)"
check "kept is all 0" 0 "$(tr -d '\0' <made/kept | wc -c)"
check "nothing else is left beside it" kept "$(ls made)"

mkdir here && (cd here && "$herd" </dev/null)
check "no argument: the current directory" kept "$(ls here)"

mkdir short && printf 'abc' >short/kept
echo 'time 1' | "$herd" short >out 2>err
check "kept of another length: status 1" 1 $?
check "and no answer" "" "$(cat out)"
check "and it is left alone" abc "$(cat short/kept)"
check "and said" 1 "$(grep -c 'kept.*3 bytes' err)"

mkdir -p folder/kept
"$herd" folder </dev/null 2>err
check "kept is a folder: status 1" 1 $?
check "and said" 1 "$(grep -c 'cannot be opened' err)"

"$herd" nowhere </dev/null 2>err
check "no such directory: status 1" 1 $?
check "and said" 1 "$(grep -c 'cannot be made' err)"

"$herd" made here </dev/null 2>err
check "two arguments: status 1" 1 $?
check "and said how to call it" 1 "$(grep -c 'herd DIR' err)"

# A line far longer than memory allows is one line, with one answer, and the next is answered too.
{ head -c 300000000 /dev/zero | tr '\0' a; printf '\nin 000000050000000763'; } >long
(ulimit -v 200000 && "$herd" made <long >out)
check "a line of 300 MB: status 0" 0 $?
check "and two lines, two answers" 2 "$(wc -l <out)"
check "of which the second bears its tag" "out 0000000600000007000a" "$(tail -n 1 out)"

# The largest report that can be done has 2,048 tasks, and needs no more stack than there is; one more task is one too many.
# report NUMBER TASKS: machine 1, life 1, in its frame with that number as tag
report() {
    printf 'in %08x%08x070001%016x%016x%04x' $((24 + 9 * $2 + 1)) "$1" 1 "$1" "$2"
    for i in $(seq 1 "$2"); do printf '%016x01' "$i"; done
    echo
}
mkdir large
{
    echo 'time 1'
    echo 'in 00000010000000010300010000000a0000000a00'
    report 2 2048
    report 3 2049
    report 4 2048
} >lines
(ulimit -s 8192 && "$herd" large <lines >out)
check "a stack of 8 MiB is enough" 0 $?
check "and a report of 2,048 tasks is taken" "out 00000019000000020200010000000000000001000000000000000200""00" "$(sed -n 3p out)"
check "one of 2,049 isn't" "out 00000006000000030001" "$(sed -n 4p out)"
check "and the next one is" "out 00000019000000040200010000000000000001000000000000000400""00" "$(sed -n 5p out)"

# 256 machines and 256 jobs are as many as there may be; one more is turned away by 8.
mkdir many
{
    echo 'time 1'
    for n in $(seq 0 256); do printf 'in 00000010%08x03%04x000000000000000000\n' "$n" "$n"; done
    for n in $(seq 0 256); do printf 'in 0000001c%08x0102%04x0000000100000001000000010000000000000000\n' "$n" "$n"; done
} >lines
"$herd" many <lines >out
check "256 machines and 256 jobs are taken" 512 "$(sed 1d out | grep -c '^out 00000005........01$')"
check "the next machine isn't" "out 00000006000001000008" "$(sed -n 258p out)"
check "nor is the next job" "out 00000006000001000008" "$(sed -n 515p out)"

# Words that no herd stored.
mkdir damaged && head -c 2097152 /dev/zero | tr '\0' '\377' >damaged/kept
before=$(cksum <damaged/kept)
echo 'time 1' | "$herd" damaged >out 2>err
check "damaged words: status 1" 1 $?
check "and no answer" "" "$(cat out)"
check "and they are left alone" "$before" "$(cksum <damaged/kept)"
check "and said" 1 "$(grep -c 'kept: damaged' err)"

# A word that can't be stored: no file of this process may grow beyond 1 KiB, and words behind that are refused.
mkdir full && "$herd" full </dev/null
(trap '' XFSZ && ulimit -f 1 && printf 'time 1\nin 00000010000000010300010000000a0000000a00\ntime 2\n' | "$herd" full >out 2>err)
check "a word that can't be stored: status 1" 1 $?
check "what was answered before is" "out 000000050000000001" "$(cat out)"
check "and said" 1 "$(grep -c 'could not be stored' err)"
printf 'time 1\nin 00000010000000010300010000000a0000000a00\n' | "$herd" full >out
check "and it wakes as before that call" "out 000000050000000101" "$(tail -n 1 out)"

# Every front part of a call that can be done is none.
mkdir fronts
awk '/^call/ { $1 = ""; gsub(/ /, ""); call = $0 } /^= 0[123]/ && call != "" { print call; call = "" }' "$vectors" | sort -u |
    awk '{ for (n = 2; n < length($0); n += 2) printf "in %08x%08x%s\n", 4 + n / 2, NR, substr($0, 1, n) }' >lines
{ echo 'time 1'; cat lines; } | "$herd" fronts >out
check "every front part of a call is turned away by 1" "$(wc -l <lines)" "$(grep -c '^out 00000006........0001$' out)"

[ "$failed" = 0 ]
