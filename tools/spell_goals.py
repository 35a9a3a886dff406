#!/usr/bin/env python3
"""Spells the names of goals and steps in proof files as the installed Rattle makes them: what comes from the source keeps its
underscores, and Rattle's own words have them too.

usage: python3 tools/spell_goals.py      at the top of the repository, after spell_names.py
"""

import glob
import re

WORDS = ["overflow-add", "overflow-sub", "overflow-mul", "overflow-cast", "overflow-step", "invariant-of", "in-err", "in-ok", "in-default", "is-ascii-digit", "slice-bounds", "nonzero-div", "nonzero-rem"]
GOALS = re.compile(r"(?:Answers|Invariants)\.antt$")


def names():
    found = set()
    for path in glob.glob("crates/*/src/**/*.rt", recursive=True):
        with open(path, encoding="utf-8") as f:
            found |= set(re.findall(r"\b[a-zA-Z][a-zA-Z0-9]*(?:_[a-zA-Z0-9]+)+\b", f.read()))
    return {n.replace("_", "-"): n for n in found} | {w: w.replace("-", "_") for w in WORDS}


def main():
    spelled = names()
    any_of = "|".join(re.escape(n) for n in sorted(spelled, key=len, reverse=True))
    pattern = re.compile(r"(?<![\w'])(" + any_of + r")(?![\w'])")
    for path in sorted(glob.glob("crates/*/proofs/**/*.antt", recursive=True)):
        if not GOALS.search(path):
            continue
        with open(path, encoding="utf-8") as f:
            old = f.read()
        new = pattern.sub(lambda m: spelled[m[1]], old)
        if new != old:
            with open(path, "w", encoding="utf-8") as f:
                f.write(new)


main()
