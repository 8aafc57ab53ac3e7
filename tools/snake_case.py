#!/usr/bin/env python3
"""Spells this repository's own definitions and lemmas as the Rattle of rattle-kit-13f does: words in snake case.

Run once at the top of the repository, after /opt/rattle/port/port.py. It takes each name in lower camel case that a file of specs/ or proofs/
defines, and writes it in snake case wherever it stands: in specs/, proofs/, the clauses of src/, must-fail edits and the documents. Names of
types and facts (upper camel case) and of Rust items stay. No two names fall together: EXCEPT has those whose plain spelling is a field or
another definition.
"""
import glob
import re
import sys

EXCEPT = {
    "goesOn": "number_goes_on",
    "inReach": "is_in_reach",
    "meteredWh": "metered_wh_of",
    "meteredCost": "metered_cost_of",
    "estimatedWh": "estimated_wh_of",
    "estimateCost": "estimate_cost_of",
}
# variables of proofs, which no signature defines
MORE = ["roomC", "roomR", "weekdayAt", "meteredUse", "estimatedUse"]

NAME = re.compile(r"[A-Za-z_ℕℤ][\w'’₀-₉-]*")
DEF = re.compile(r"\s*(?:(?:pub|abbrev|unfoldable|record|data)\s+)*([A-Za-z_][^\s:({]*)\s*:")


def snake(name):
    return EXCEPT.get(name) or re.sub(r"(?<=[a-z0-9])([A-Z])", lambda m: "_" + m.group(1).lower(), name)


def files(*patterns):
    return sorted({f for p in patterns for f in glob.glob(p, recursive=True)})


antt = files("crates/*/specs/**/*.antt", "crates/*/proofs/**/*.antt")
names = set(MORE)
for f in antt:
    for line in open(f, encoding="utf-8"):
        m = DEF.match(line)
        if m and m.group(1)[0].islower() and re.search(r"[a-z0-9][A-Z]", m.group(1)):
            names.add(m.group(1))
table = {n: snake(n) for n in names}
if len(set(table.values())) != len(table):
    sys.exit("two names fall together")
defined = {DEF.match(l).group(1) for f in antt for l in open(f, encoding="utf-8") if DEF.match(l)}
clash = {n: s for n, s in table.items() if s in defined}
if clash:
    sys.exit(f"already defined: {clash}")

changed = 0
for f in antt + files("crates/*/src/**/*.rt", "crates/*/must-fail/*.edit", "README.md", "docs/*.md"):
    text = open(f, encoding="utf-8").read()
    new = NAME.sub(lambda m: table.get(m.group(0), m.group(0)), text)
    if new != text:
        open(f, "w", encoding="utf-8").write(new)
        changed += 1
print(f"{len(table)} names, {changed} files")
