#!/usr/bin/env python3
"""Turns the names that the toolchain makes of the source, where proof files cite them, to the spelling it has now.

usage: python3 tools/mend_names.py GENERATED    in a crate's folder, after 'rt check --generated GENERATED'

A name after a dot, at the head of an answer, in a case or in an import of a function's goals, which the files made for
that function do not have, is turned to the one name there that differs from it in dashes and underscores only.
"""

import collections
import os
import re
import sys

WORDS = re.compile(r"([\s(){}\[\];,.λ«»|]+)")


def plain(name):
    return re.sub(r"_lem$", "", name).replace("-", "_").replace("·", "")


def made(folder):
    words = set()
    for root, _, names in os.walk(folder):
        for f in names:
            if f in ("Answers.antt", "Invariants.antt"):
                continue
            with open(os.path.join(root, f), encoding="utf-8") as it:
                words.update(WORDS.split(it.read()))
    return {w for w in words if re.match(r"[A-Za-z]", w) and ("-" in w or "_" in w)}


def imported(text):
    names = set()
    for m in re.finditer(r"(?m)^use (\S+)\.\{([^}]*)\}", text):
        if ".Goals" not in m.group(1) and ".Given" not in m.group(1):
            names.update(w.split(" as ")[-1].strip() for w in m.group(2).split(","))
    return names


def mend(path, have):
    by = collections.defaultdict(set)
    for w in have:
        by[plain(w)].add(w)
    with open(path, encoding="utf-8") as f:
        text = f.read()
    taken = imported(text)
    parts = WORDS.split(text)
    n = 0
    for k, w in enumerate(parts):
        if w in have or not ("-" in w or "_" in w):
            continue
        dotted = k > 0 and parts[k - 1].endswith(".")
        if not dotted and w in taken:
            continue
        if not dotted and w.endswith("_lem"):
            continue
        fits = by.get(plain(w), set())
        if len(fits) == 1:
            parts[k] = next(iter(fits))
            n += 1
        elif len(fits) > 1:
            print(f"left: {path}: {w}: {sorted(fits)}")
    if n:
        with open(path, "w", encoding="utf-8") as f:
            f.write("".join(parts))
    return n


def main(generated):
    crate = os.path.basename(os.getcwd())
    top = os.path.join(generated, f"Rattle-{crate}-proofs")
    n = 0
    for root, _, names in os.walk("proofs"):
        for f in sorted(names):
            if f in ("Answers.antt", "Invariants.antt", "Proof.antt"):
                there = os.path.join(top, os.path.relpath(root, "proofs"))
                if os.path.isdir(there):
                    n += mend(os.path.join(root, f), made(there))
                else:
                    print(f"left: {root}: nothing was made for it")
    print(f"{n} places")


if __name__ == "__main__":
    main(sys.argv[1])
