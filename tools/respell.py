#!/usr/bin/env python3
"""Spells this repository's own definitions and lemmas as today's Rattle does: snake case, types in camel case.

usage: python3 tools/respell.py [--check]     at the top, once, right after the kit's port.py

What it turns: names that specs/ and proofs/ declare, with camel case or a dash in them, in every .antt file and in the clauses,
ghost blocks and ghost use lines of every .rt file. A name that a function's proof answers for a goal stays, as does one that the
kit's library declares. A function into Type gets a capital. The crate `bytes`, whose name is the kit's, is called `octets`.
A new name that something else has already gets `_lem`; each such is printed. --check writes nothing.
"""
import collections
import os
import re
import subprocess
import sys

NAME = r'[^\s(){}.;,@"«»]+'
WORD = re.compile(NAME)
DECLARED = re.compile(
    rf"(?m)^ *(?:(?:pub|abbrev|unfoldable|data|record|mutual|pattern) )*({NAME})((?: {NAME})*)(?: \{{[^{{}}\n]*\}}| \([^()\n]*\))* : (.*)$"
)
CLAUSE = re.compile(r"\b(?:requires\*?|ensures\*?)(?:\s+\w+)?\s*\{|\bghost\s+(?:\w+\s*[:=]\s*)?\{")
USE = re.compile(r"ghost use [^;]*;")
# Names that fall together, or that read better otherwise.
BY_HAND = {"isSet": "IsSet", "is_set": "IsSet"}
# Words that Rattle's generated records use behind a dot, and that no definition here may turn.
STAY = set()


def texts(ending):
    for above, folders, files in os.walk("crates"):
        folders[:] = sorted(it for it in folders if it != "out")
        for it in sorted(files):
            if it.endswith(ending):
                yield os.path.join(above, it)


def read(path):
    with open(path, encoding="utf-8") as f:
        return f.read()


def snake(name):
    name = re.sub(r"(?<=[a-z0-9'])([A-Z])", lambda m: "_" + m.group(1).lower(), name)
    return name.replace("-", "_")


def declared():
    names, answered = collections.defaultdict(set), set()
    for path in texts(".antt"):
        for m in DECLARED.finditer(read(path)):
            if m.group(3).startswith("goal."):
                answered.add(m.group(1))
                continue
            for it in [m.group(1)] + m.group(2).split():
                names[it].add(m.group(3))
    return {n: s for n, s in names.items() if n not in answered}


def imported():
    """Names that come from the kit's library somewhere: they keep the library's spelling."""
    found = set()
    use = re.compile(r"use ((?:Rattle\.std|native|mathlib|borrow|Prim)[\w.]*)\.\{([^}]*)\}", re.S)
    for path in list(texts(".antt")) + list(texts(".rt")):
        for m in use.finditer(read(path)):
            found |= {it.split(" as ")[0].strip() for it in m.group(2).split(",")}
    return found


def tokens_of_code():
    found = set()
    for path in texts(".rt"):
        found |= set(re.findall(r"[A-Za-z_]\w*", re.sub(r"//[^\n]*", "", outside(read(path)))))
    return found


def spans(text):
    """The places of clauses, ghost blocks and ghost use lines."""
    found = [(m.start(), m.end()) for m in USE.finditer(text)]
    for m in CLAUSE.finditer(text):
        depth, i = 1, m.end()
        while depth and i < len(text):
            depth += {"{": 1, "}": -1}.get(text[i], 0)
            i += 1
        found.append((m.end(), i))
    return sorted(found)


def outside(text):
    parts, at = [], 0
    for a, b in spans(text):
        if a > at:
            parts.append(text[at:a])
        at = max(at, b)
    return "".join(parts) + text[at:]


def table():
    names, std, code = declared(), imported(), tokens_of_code()
    every = set()
    for path in texts(".antt"):
        every |= set(WORD.findall(re.sub(r"(?m)--[^\n]*", "", read(path))))
    turn = {}
    for n, says in sorted(names.items()):
        if n in std or n in STAY or not n[0].islower():
            continue
        if n in BY_HAND:
            turn[n] = BY_HAND[n]
        elif re.search(r"[a-z0-9'][A-Z]|-", n):
            turn[n] = snake(n)
    taken = collections.Counter(turn.values())
    given = set()
    # A definition in camel case comes before a lemma with a dash.
    for n, to in sorted(turn.items(), key=lambda it: ("-" in it[0], it[0])):
        if n in BY_HAND:
            continue
        why = [w for w, bad in (("antt", to in every), ("src", to in code), ("std", to in std), ("twice", to in given)) if bad]
        new = to
        for ending in ("_lem", "_fact"):
            if why and new == to or new in given:
                new = to + ending
        given.add(new)
        turn[n] = new
        if why:
            print(f"meets another ({', '.join(why)}): {n} -> {new}")
    if len(set(turn.values())) != len({n for n in turn if n not in BY_HAND}) + len({turn[n] for n in turn if n in BY_HAND}):
        sys.exit("two names fall together")
    return turn


def turned(text, turn):
    return WORD.sub(lambda m: turn.get(m.group(0), m.group(0)), text)


def turn_antt(text, turn):
    lines = []
    for line in text.split("\n"):
        code, mark, rest = line.partition("--") if line.lstrip().startswith("--") or " --" in line else (line, "", "")
        lines.append(turned(code, turn) + mark + rest)
    return "\n".join(lines)


def turn_rt(text, turn):
    parts, at = [], 0
    for a, b in spans(text):
        if a < at:
            continue
        parts += [text[at:a], turned(text[a:b], turn)]
        at = b
    return "".join(parts) + text[at:]


def rename_crate(old, new):
    if not os.path.isdir(f"crates/{old}"):
        return
    subprocess.run(["git", "mv", f"crates/{old}", f"crates/{new}"], check=True)
    text = re.sub(rf"\b{old}\b", new, read("crates.txt"))
    with open("crates.txt", "w", encoding="utf-8") as f:
        f.write(text)
    for path in list(texts(".antt")) + list(texts(".rt")):
        text = read(path)
        to = re.sub(rf"Rattle\.{old}\b", f"Rattle.{new}", text)
        if path.endswith(".rt"):
            to = re.sub(rf"(?m)^(\s*(?:pub )?use ){old}::", rf"\g<1>{new}::", to)
        if to != text:
            with open(path, "w", encoding="utf-8") as f:
                f.write(to)


def main():
    check = "--check" in sys.argv
    turn = table()
    print(f"{len(turn)} names")
    if check:
        return
    for path in list(texts(".antt")) + list(texts(".rt")):
        text = read(path)
        to = turn_antt(text, turn) if path.endswith(".antt") else turn_rt(text, turn)
        if to != text:
            with open(path, "w", encoding="utf-8") as f:
                f.write(to)
    rename_crate("bytes", "octets")


main()
