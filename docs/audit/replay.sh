#!/usr/bin/env bash
# Plants each mistake of this folder in a copy of the model's definitions, and proves there that the promise it names is false.
# Then tries the same proof on the definitions as they are, where it must fail.
# Usage: docs/audit/replay.sh [NAME..]
set -euo pipefail
here=$(cd "$(dirname "$0")" && pwd)
crates=$here/../../crates
model=$crates/model
work=$(mktemp -d)
trap 'rm -rf "$work"' EXIT
crate=$work/crates/model
rest=$work/crates/rest
printf 'model:\nrest: model\n' > "$work/crates.txt"

field() { sed -n "s/^$2: //p" "$here/$1.edit"; }

# a crate of the definitions alone, with one function: that the promise of mistake $1 is false
lay_out() {
    rm -rf "$crate"
    mkdir -p "$crate/proofs/refuted" "$crate/src"
    cp -r "$model/specs" "$crate/specs"
    read -r module promise <<< "$(field "$1" falls)"
    {
        cat "$here/prelude.txt"
        echo
        grep -q '^obey :' "$here/$1.txt" || { cat "$here/obey.txt"; echo; }
        sed 's/^refuted :/pub refuted :/' "$here/$1.txt"
    } > "$crate/proofs/Mistake.antt"
    echo 'pub mod Mistake' > "$crate/proofs/Lib.antt"
    printf 'use Rattle.model.proofs.Mistake.{refuted}\nuse Rattle.model.proofs.refuted.Goals as goal\n\npub returns : goal.returns\nreturns c = refuted\n' > "$crate/proofs/refuted/Answers.antt"
    printf '#![tactic(auto)]\nghost use Rattle.model.specs.%s.{%s};\n\npub fn refuted() -> u8\n    ensures { %s → ⊥ }\n{\n    0\n}\n' "$module" "$promise" "$promise" > "$crate/src/lib.rt"
}

# the same for a promise of the crate rest: the definitions of both crates, the lemmas on lists, and those that play rounds
lay_out_rest() {
    rm -rf "$work/crates"
    mkdir -p "$crate/proofs" "$crate/src" "$rest/proofs/refuted" "$rest/src"
    cp -r "$model/specs" "$crate/specs"
    cp -r "$model/proofs/Lists" "$model/proofs/Lists.antt" "$crate/proofs"
    echo 'pub mod Lists' > "$crate/proofs/Lib.antt"
    printf '#![tactic(auto)]\n\n// The definitions alone.\npub fn none() -> u8 {\n    0\n}\n' > "$crate/src/lib.rt"
    cp -r "$crates/rest/specs" "$rest/specs"
    cp "$crates/rest/proofs/Play.antt" "$rest/proofs"
    read -r module promise <<< "$(field "$1" falls)"
    { cat "$here/prelude-rest.txt"; echo; sed 's/^refuted :/pub refuted :/' "$here/$1.txt"; } > "$rest/proofs/Mistake.antt"
    printf 'mod Play\nmod Mistake\n' > "$rest/proofs/Lib.antt"
    printf 'use Rattle.rest.proofs.Mistake.{refuted}\nuse Rattle.rest.proofs.refuted.Goals as goal\n\npub returns : goal.returns\nreturns c = refuted\n' > "$rest/proofs/refuted/Answers.antt"
    printf '#![tactic(auto)]\nghost use Rattle.rest.specs.%s.{%s};\n\npub fn refuted() -> u8\n    ensures { %s → ⊥ }\n{\n    0\n}\n' "$module" "$promise" "$promise" > "$rest/src/lib.rt"
}

plant() {
    local file=$crate/$(field "$1" file) old new text
    old=$(field "$1" old) new=$(field "$1" new) text=$(cat "$file")
    [[ $text == *"$old"* ]] || { echo "$1: the text to change isn't there"; exit 1; }
    printf '%s\n' "${text/"$old"/"$new"}" > "$file"
}

# of a promise of rest the crate below is checked first, since rest stands on it
proved() {
    local over=$(field "$1" over)
    if [[ $over == rest ]]; then
        (cd "$rest" && RT_JOBS=1 rt check 2>&1) | grep '^fn rest::refuted: proved$' >/dev/null
    else
        (cd "$crate" && RT_JOBS=1 rt check 2>&1) | grep '^fn model::refuted: proved$' >/dev/null
    fi
}

names=("$@")
[[ $# -gt 0 ]] || names=($(cd "$here" && ls -- *.edit | sed 's/\.edit$//'))
for name in "${names[@]}"; do
    if [[ $(field "$name" over) == rest ]]; then lay_out_rest "$name"; else lay_out "$name"; fi
    ! proved "$name" || { echo "$name: proved without the mistake"; exit 1; }
    plant "$name"
    proved "$name" || { echo "$name: not proved with the mistake"; exit 1; }
    echo "$name: $(field "$name" falls | cut -d' ' -f2) is false"
done
