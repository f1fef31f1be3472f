#!/usr/bin/env python3
"""Counts the places of older forms in crates/*/src, one list for each form.

    python3 tools/count_forms.py [-v] [FOLDER]

FOLDER is a checkout of the repository, the current folder if none is given; -v prints each place.
The lists are by text: docs/DESIGN-PASS.md says which of the places listed are meant, and why the others are none.
"""
import glob
import os
import re
import sys
from collections import defaultdict

verbose = "-v" in sys.argv[1:]
folders = [a for a in sys.argv[1:] if a != "-v"]
root = folders[0] if folders else "."
files = sorted(glob.glob(os.path.join(root, "crates", "*", "src", "**", "*.rt"), recursive=True))
text = {os.path.relpath(f, root): open(f).read() for f in files}


def lines(pattern, only=lambda path: True, flags=0):
    found = []
    for path, body in text.items():
        if not only(path):
            continue
        for m in re.finditer(pattern, body, flags | re.M):
            n = body.count("\n", 0, m.start()) + 1
            found.append(f"{path}:{n}: {m.group(0).strip().splitlines()[0][:100]}")
    return found


def functions():
    """Each function: path, name, its parameters and its clauses."""
    out = []
    for path, body in text.items():
        for m in re.finditer(r"^( *)(?:pub(?:\(crate\))? )?fn (\w+)", body, re.M):
            rest = body[m.end():]
            end = re.search(r"^%s(?:\{|\{\})|;\n|[^=]\{\n" % m.group(1), rest, re.M)
            head = rest[: end.start() + 1] if end else rest
            params = re.search(r"\((.*?)\)(?: ->|\n|$)", head, re.S)
            out.append((path, m.group(2), params.group(1) if params else "", head))
    return out


def repeated_requires():
    by_crate = defaultdict(lambda: defaultdict(list))
    for path, name, _, head in functions():
        crate = path.split(os.sep)[1]
        for clause in re.findall(r"requires (?:\w+ )?\{ (.*) \}$", head, re.M):
            clause = re.sub(r"\.(old|now|new)\b", ".now", clause)
            by_crate[crate][clause].append(f"{path}: {name}")
    return [
        f"{crate}: {len(who)} times: {clause[:110]}"
        for crate, clauses in sorted(by_crate.items())
        for clause, who in clauses.items()
        if len(who) >= 3
    ]


def travelling():
    found = []
    for path, name, params, _ in functions():
        names = re.findall(r"(\w+):", params)
        for pair in [("structures", "places"), ("guide", "plan"), ("output", "at"), ("places", "row")]:
            if all(p in names for p in pair):
                found.append(f"{path}: {name}: {', '.join(pair)}")
    return found


def same_names():
    where = defaultdict(set)
    for path, name, _, _ in functions():
        where[name].add(path)
    trait = {"size", "place", "entry", "is_exit", "look", "has_edge", "has_leave", "main", "fmt", "new"}
    return [f"{n}: {', '.join(sorted(p))}" for n, p in sorted(where.items()) if len(p) > 1 and n not in trait]


def like_bodies():
    """Pairs of functions of a crate whose bodies differ in a few words only."""
    bodies = defaultdict(list)
    for path, body in text.items():
        for m in re.finditer(r"^( *)(?:pub(?:\(crate\))? )?fn (\w+)", body, re.M):
            rest = body[m.end():]
            start = re.search(r"^%s\{|[^=]\{\n" % m.group(1), rest, re.M)
            stop = re.search(r"^%s\}" % m.group(1), rest, re.M)
            if start and stop and stop.start() > start.end():
                words = re.findall(r"\w+|\S", rest[start.end():stop.start()])
                if len(words) >= 25:
                    bodies[path.split(os.sep)[1]].append((f"{path}: {m.group(2)}", words))
    found = []
    for fs in bodies.values():
        for i, (a, wa) in enumerate(fs):
            for b, wb in fs[i + 1:]:
                if abs(len(wa) - len(wb)) <= 6:
                    same = sum(x == y for x, y in zip(wa, wb))
                    if same >= 0.8 * max(len(wa), len(wb)):
                        found.append(f"{a} and {b}")
    return found


forms = [
    ("1a own enums (those of the shape of Option or Result are meant)", lines(r"^(?:pub(?:\(crate\))? )?enum \w+")),
    ("1b refusals answered as an Option", lines(r"-> Option<Refusal>")),
    ("1c Ok, Err, Some or None passed on by hand",
     lines(r"Ok\((\w+)\) => Ok\(\1\)|Ok\(_\) => Ok\(\(\)\)|Ok\(\(\)\) => Ok\(\(\)\)|Err\((\w+)\) => Err\(\2\)|(?<!return )None => None|"
           r"None => Ok\(None\)|Ok\(_\) => None|None => (?:false|0|Place::Absent|Look::default\(\)),|TooLarge => (?:false|Place::Absent)|"
           r"if let Some\(refusal\)|else \{\s*return None;\s*\}|=> return None|Err\(refusal\) => Err\(")),
    ("1d fields that are flags", lines(r"^ +(?:pub )?\w+: bool,")),
    ("1e numbers for kinds or refusals",
     lines(r"^ +\d+(?:\.\.=\d+)? => |^ +\(\d+, (?:\[|rest)|\w+ => \d+,$|=> \(\d, \[\d+,|\(\d, \[\d+, q, care|fn answer\(.*-> u8")),
    ("2a functions of one name in two files", same_names()),
    ("2b functions of a crate with like bodies", like_bodies()),
    ("3a while and loop", lines(r"^ *(?:while|loop)\b.*\{")),
    ("3b for over a range of numbers", lines(r"for \w+ in [^{]*\.\.[^{]*\{")),
    ("3c for with a test and an early return or a running value", lines(
        r"for [^\n]*\{\n(?:(?!^ {4}\}|^ {8}\}).*\n){1,6}?.*(?:return (?:Some\(\w+\)|true|false|end);|most = size)")),
    ("4a impls of std's traits by hand", lines(r"^impl(?:<[^>]*>)? (?!Hierarchy)[\w:]+(?:<.*>)? for .*\{")),
    ("4b a match that only tells, converts or copies", lines(
        r"^ +(?:Some\()?\w+::\w+(?: \{[^}]*\}|\([^)]*\))?\)? => (?:true|false|0|\w+::\w+|[a-z]\w*\.\w+),$")),
    ("4c a blank value written field by field", lines(r"mark: false,|reached: false,|blank\(\),$|aim: 0,")),
    ("5a a requires that three or more functions of a crate repeat", repeated_requires()),
    ("5b parameters that travel together", travelling()),
    ("6a arrays of fixed length in a type or a result", lines(r"^ +(?:pub(?:\(crate\))? )?\w+: \[[^\]]*; \w+\],|-> \(?(?:usize, )?\[\w+; \w+\]")),
    ("6b position worked out by hand", lines(r"\w+ \* (?:places|plan\.places|16) \+ |\) \* 16 \+ ")),
    ("7 function tables, switches on a kind of step", lines(r"\bdyn \w|: fn\(|-> fn\(|match kind|match \*kind|match \(kind")),
    ("8a lines that are there for the prover alone", lines(r"let _\w* = \w+(?:\.\w+)*(?:\[0\]|\.len\(\));")),
    ("8b | or & between tests", lines(r"\([^()\n]*(?:\([^()]*\)[^()\n]*)*\) [|&] [\(!]|\) & self\.|\) \| self\.")),
]

for name, found in forms:
    print(f"{len(found):4}  {name}")
    if verbose:
        for f in found:
            print(f"        {f}")

answers = glob.glob(os.path.join(root, "crates", "*", "proofs", "**", "*.antt"), recursive=True)
answers = [a for a in answers if os.path.basename(a) in ("Answers.antt", "Invariants.antt", "Proof.antt")]
lemmas = [a for a in glob.glob(os.path.join(root, "crates", "*", "proofs", "*.antt"))]
count = lambda fs: sum(len(open(f).read().splitlines()) for f in fs)
print(f"{count(answers):4}  8c lines of answers and invariants, in {len(answers)} files")
print(f"{count(lemmas):4}  8d lines of lemmas, in {len(lemmas)} files")
