#!/usr/bin/env bash
# Plays tests/vectors.txt, bytes that were worked out by hand, against the program herd.
# Usage: tests/vectors.sh PATH-OF-HERD [VECTORS]
set -euo pipefail
herd=$(realpath "$1")
vectors=$(realpath "${2:-$(dirname "$0")/vectors.txt}")
work=$(mktemp -d)
trap 'rm -rf "$work"' EXIT
cd "$work"

# Parts of the file, a herd each: where it runs, what it is given, what it must answer, and which line of the file that is.
awk '
function hex(words, from,   s, i) { s = ""; for (i = from; i <= NF; i++) s = s words[i]; return s }
/^#/ || NF == 0 { next }
$1 == "new" { part++; home++; print home > (part ".home"); next }
$1 == "again" { part++; print home > (part ".home"); next }
{ for (i = 1; i <= NF; i++) w[i] = $i }
$1 == "call" { h = hex(w, 2); tag++; printf "in %08x%08x%s\n", 4 + length(h) / 2, tag, h > (part ".in"); framed = 1; next }
$1 == "line" { print "in " hex(w, 2) > (part ".in"); framed = 0; next }
$1 == "text" { sub(/^text /, ""); print > (part ".in"); framed = 0; next }
$1 == "=" {
    h = hex(w, 2)
    if (framed) printf "out %08x%08x%s\n", 4 + length(h) / 2, tag, h > (part ".want")
    else print "out " h > (part ".want")
    print NR > (part ".at"); count++
    next
}
{ print "line " NR " of the vectors is none: " $0 > "/dev/stderr"; exit 1 }
END { print part > "parts"; print count > "count" }
' "$vectors"

for part in $(seq 1 "$(cat parts)"); do
    dir="herd$(cat "$part.home")"
    mkdir -p "$dir"
    "$herd" "$dir" <"$part.in" >"$part.got"
    if ! cmp -s "$part.want" "$part.got"; then
        n=$(cmp "$part.want" "$part.got" 2>/dev/null | sed 's/.*line //' || true)
        echo "line $(sed -n "${n}p" "$part.at") of $vectors differs:"
        echo "  wanted $(sed -n "${n}p" "$part.want")"
        echo "  got    $(sed -n "${n}p" "$part.got")"
        exit 1
    fi
done
echo "vectors: $(cat count) agree"
