#!/usr/bin/env python3
"""Lists the places in crates/*/src that the points of docs/DESIGN-PASS.md speak of.

    tools/places.py [FOLDER] [POINT]

FOLDER is a checkout (default: this one), POINT one of the names below (default: all, with counts only).
A line that it lists is a place to look at, not a verdict: the page says which of them count and what became of them.
"""
import collections
import glob
import os
import re
import sys

CLAUSE = re.compile(r"^\s*(requires|ensures|ghost|//)")
CALL = re.compile(r"^\s*(requires|ensures)\*?\s+(?:[a-z_]+ )?\{ (.*) \}$")

POINTS = {
    # enums, to be read for the shape of Option or Result
    "1-enums": r"^\s*(pub )?enum ",
    # functions that answer by a flag, or by the refusal alone
    "1-flags": r"-> (io::Result<)?(Option<)?(bool|Option<Refusal>|Option<bool>|Refusal>)",
    # numbers for kinds and refusals, and codes in words
    "1-codes": r"\b(kind|why): u8\b|\bRefused\(u8\)|\b(row|home|kind|words)\[[^\]]*\] (==|!=) \d|\] = [1-9];",
    # loops that count
    "3-loops": r"\bfor \w+ in .*\.\.|\bwhile\b|\bloop \{",
    # numbers taken out of their types to be compared
    "4-compared": r"\.0 (==|!=|<=|>=|<|>) |(==|!=|<=|>=|<|>) [\w.]+\.0\b",
    # casts that a From says, and bytes of words
    "4-casts": r" as (u16|u32|u64|usize)\b|(to|from)_be_bytes",
    # texts chosen case by case where they are printed
    "4-printed": r"\bcomplain\(|eprintln!|let id = ",
    # matches that only pass on, refuse or wrap
    "4-passed-on": r"=> (None|return Err\(|return None|\{\})|Err\(e\) => (return )?Err\(|None => Err\(|return None;|Some\(_\) => \{\}",
    # a length beside a buffer
    "6-buffers": r"^\s*(pub )?(len|count): (u8|u64|usize),|^\s*(pub )?\w+: \[u(8|32|64); \w+\],",
    # steps by number or by function values
    "7-steps": r"\bfn\(|\bdyn |\bBox<|: impl Fn|F: Fn",
}


def sources(root):
    return sorted(glob.glob(os.path.join(root, "crates/*/src/*.rt")))


def code(path):
    """The lines of a file that are no comments and no clauses, each with its number."""
    for number, line in enumerate(open(path, encoding="utf-8").read().split("\n"), 1):
        if not CLAUSE.match(line):
            yield number, line


def lines(root, pattern):
    found = []
    for path in sources(root):
        for number, line in code(path):
            if re.search(pattern, line):
                found.append("%s:%d: %s" % (os.path.relpath(path, root), number, line.strip()))
    return found


def facts(root):
    """Facts that stand in three contracts or more, and in how many."""
    count = collections.Counter()
    for path in sources(root):
        for line in open(path, encoding="utf-8").read().split("\n"):
            clause = CALL.match(line)
            if clause:
                count[clause.group(1) + " " + clause.group(2)] += 1
    return ["%4d  %s" % (n, fact) for fact, n in count.most_common() if n >= 3]


def proofs(root):
    """Lines and files of answers, invariants and lemmas, by crate."""
    out = []
    for crate in sorted(glob.glob(os.path.join(root, "crates/*/proofs"))):
        files = glob.glob(os.path.join(crate, "**/*.antt"), recursive=True)
        answers = [f for f in files if os.path.basename(f) in ("Answers.antt", "Invariants.antt")]
        size = lambda fs: sum(open(f, encoding="utf-8").read().count("\n") for f in fs)
        lemmas = [f for f in files if f not in answers]
        out.append("%s: %d lines of answers in %d files, %d lines of lemmas" % (crate.split("/")[-2], size(answers), len(answers), size(lemmas)))
    return out


def main():
    root = sys.argv[1] if len(sys.argv) > 1 else os.path.join(os.path.dirname(os.path.abspath(__file__)), "..")
    root = os.path.normpath(root)
    wanted = sys.argv[2] if len(sys.argv) > 2 else None
    every = {name: lines(root, pattern) for name, pattern in POINTS.items()}
    every["5-facts"] = facts(root)
    every["8-proofs"] = proofs(root)
    for name in sorted(every):
        if wanted is None:
            print("%-12s %d" % (name, len(every[name])))
        elif wanted == name:
            print("\n".join(every[name]))


main()
