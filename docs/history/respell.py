#!/usr/bin/env python3
"""Brings the repository's own definitions, lemmas and local names to the spelling of today's Rattle.

usage: python3 tools/respell.py        at the top of the repository, once, after the toolchain's own port.py

A fact or a record, whose name begins with a capital, goes to camel case, and every other name to snake case. Only names
that specs/ and proofs/ of this repository define or bind are turned, in these folders, in the clauses of src/ and in
must-fail edits; names of the library, of goals and of src/ stay.
"""

import glob
import re
import sys

# What a name is made of, in antt and in clauses.
TOKEN = re.compile(r"[^\s(){}\[\];,.:λ⟨⟩\"«»|`]+")
DEFINED = re.compile(r"^\s*(?:abbrev |unfoldable |pub |record |data )*([^\s:(){}]+)\s*(?:[({].*)?\s*: ")
BOUND = re.compile(r"\blet ([^\s:(){}]+) :")
DASHED = re.compile(r"[A-Za-z]-[A-Za-z]")
# What the toolchain names: goals, steps and invariants.
MADE = re.compile(r"^(returns|invariant|decreases|loop|overflow|in|if|then|else|match|not|nonzero|bounds)-.*|.*-(requires|residual|reader|size)$")
# Names of ours that look made.
OURS = {"in-range", "not-both"}
# Names that lambdas and patterns bind.
LOCAL = ["d-is", "g-is", "is-left", "m-is", "more-text", "n-is", "q-is", "rest-is", "said-is", "told-left"]


def read(path):
    with open(path, encoding="utf-8") as f:
        return f.read()


def files(pattern):
    return sorted(glob.glob("crates/*/" + pattern, recursive=True))


def code_lines(text):
    return [l for l in text.splitlines() if not l.lstrip().startswith("--") and not l.startswith("use ")]


def own_names():
    found = set(LOCAL)
    for path in files("specs/**/*.antt") + files("proofs/**/*.antt"):
        for line in code_lines(read(path)):
            defined = DEFINED.match(line)
            names = ([defined.group(1)] if defined else []) + BOUND.findall(line)
            found.update(n for n in names if DASHED.search(n) and (n in OURS or not MADE.match(n)))
    return found


def today(name):
    words = name.split("-")
    if name[0].isupper():
        return "".join(w[0].upper() + w[1:] for w in words)
    return "_".join(words)


def main():
    turned = {name: today(name) for name in own_names()}
    paths = files("specs/**/*.antt") + files("proofs/**/*.antt") + files("src/**/*.rt") + files("must-fail/*.edit")
    taken = {t for path in paths for t in TOKEN.findall(read(path))}
    for name, new in sorted(turned.items()):
        if new in taken:
            print(f"look: {name} and {new} fall together")
    for path in paths:
        old = read(path)
        new = TOKEN.sub(lambda m: turned.get(m.group(0), m.group(0)), old)
        if new != old:
            with open(path, "w", encoding="utf-8") as f:
                f.write(new)
    print(f"{len(turned)} names turned")


sys.exit(main())
