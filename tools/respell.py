#!/usr/bin/env python3
"""Respells this repository's own definitions and lemmas: words in snake case, types in camel case.

usage: python3 tools/respell.py        at the top of the repository, once, right after port.py

Turns the names that the files of specs/ and proofs/ declare, at the top level, as a constructor or as a field of a
record, where they have a dash. The names of goals, which are made of the source, stay. Prints each name that falls
together with one that stands in a file where it is written.
"""

import collections
import os
import re

SPLIT = re.compile(r"([\s(){}\[\];,.λ«»]+)")
TOP = re.compile(r"^(?:abbrev |unfoldable |pub |data |record |ruleset )*([^\s(){};,.]+)(?: .*)? :(?: |$)")
FIELD = re.compile(r"^\s+(?:pub )?([^\s(){};,.]+) :(?: |$)")
GOALS = re.compile(r"/proofs/.*/(Answers|Invariants|Choices)\.antt$")
# a definition beside the function of the source that it describes gets the ending that a lemma would get
BESIDE = """aim-of blank-record goal-of goes-round is-begin is-box is-end is-entry is-item is-last is-pass is-watch
least-refusal-first next-phase set-edge set-leave stored-files-load structure-behind tree-of with-edge with-lane
with-leave with-place with-spot""".split()
# where the plain respelling is a name of the library
APART = {n: n.replace("-", "_") + "_lem" for n in BESIDE} | {"bit-xor": "bit_of_xor"}


def files(*endings):
    for root, dirs, names in os.walk("crates"):
        dirs[:] = sorted(d for d in dirs if d != "out")
        for f in sorted(names):
            if f.endswith(endings):
                yield os.path.join(root, f)


def read(p):
    with open(p, encoding="utf-8") as f:
        return f.read()


def own_names():
    at = collections.defaultdict(set)
    for p in files(".antt"):
        for line in read(p).split("\n"):
            m = TOP.match(line) or FIELD.match(line)
            if m and not line.startswith("--") and "-" in m.group(1):
                at[m.group(1)].add(p)
    # and the names that an import gives
    for p in files(".antt", ".rt"):
        for n in re.findall(r" as ([A-Za-z]\w*(?:-\w+)+)\b", "\n".join(re.findall(r"(?m)^(?:ghost )?use .*$", read(p)))):
            at[n].add(p)
    goal = {n for n, ps in at.items() if all(GOALS.search(p) for p in ps) and is_goal(n, ps)}
    return sorted(set(at) - goal)


def is_goal(name, paths):
    """A goal's answer says 'name : goal.name'; a lemma in the same file has a statement of its own."""
    for p in paths:
        if not re.search(r"(?m)^(?:abbrev |pub )*" + re.escape(name) + r" : (?:goal|need|rule|[a-z]+)\." + re.escape(name), read(p)):
            return False
    return True


def turned(name):
    if name in APART:
        return APART[name]
    if name[0].isupper():
        return "".join(w[0].upper() + w[1:] for w in name.split("-"))
    return name.replace("-", "_")


def respell(text, table):
    """The names that a file takes from the library are the library's there."""
    for m in re.finditer(r"(?m)^use (?:Rattle\.std|native)\.\S+\.\{([^}]*)\}", text):
        theirs = {w.strip() for w in m.group(1).split(",")}
        table = {n: t for n, t in table.items() if n not in theirs}
    return "".join(table.get(w, w) for w in SPLIT.split(text))


def in_source(text, table):
    """Clauses, ghost items and ghost imports; code, strings and comments stay."""
    out = []
    for line in text.split("\n"):
        ghost = re.match(r"\s*(pub )?(ghost|requires|ensures)\b", line)
        out.append(respell(line, table) if ghost else line)
    return "\n".join(out)


def main():
    table = {n: turned(n) for n in own_names()}
    back = collections.defaultdict(list)
    for n, t in table.items():
        back[t].append(n)
    for t, ns in back.items():
        if len(ns) > 1:
            print(f"falls together: {ns} are {t}")
    for p in files(".antt", ".rt"):
        text = read(p)
        words = set(SPLIT.split(text))
        for n in words & set(table):
            if table[n] in words:
                print(f"falls together: {p}: {n} with {table[n]}")
        new = in_source(text, table) if p.endswith(".rt") else respell(text, table)
        if new != text:
            with open(p, "w", encoding="utf-8") as f:
                f.write(new)
    print(f"{len(table)} names respelled")


if __name__ == "__main__":
    main()
