#!/usr/bin/env python3
"""Spells the repository's own definitions, fields, constructors and lemmas of specs/ and proofs/ in snake case.

usage: python3 tools/spell_names.py            at the top of the repository, once, after port.py
       python3 tools/spell_names.py --dry      says what it would do

Types and modules keep their capitals, and names that Rattle makes of the source (goals, their steps) keep their dashes. A
name that would then be that of a function of src/ gets `_lem`, and so does a lemma that would be named as a definition.
Where two names of a file would fall together, nothing is written, and the script says which.
"""

import glob
import re
import sys

TOKEN = re.compile(r"[A-Za-z_][\w'\-]*")
HEAD = re.compile(r"^\s*(?:(?:abbrev|pub|unfoldable)\s+)*([A-Za-z][\w'\-]*)(?:\s+(?=\{|\())?\s*:(?!:)")
# two whose plain spelling has another meaning in a file that uses them
CHOSEN = {"windowEnd": "window_end_lem", "ends-line": "line_at_end"}
NOT_DEFINED = {"use", "mod", "let", "in", "elim", "record", "data", "module", "where"}


def texts(pattern):
    return [p for p in sorted(glob.glob(pattern, recursive=True)) if "/out/" not in p]


def snake(name):
    spaced = re.sub(r"(?<=[a-z0-9])([A-Z])", lambda m: "_" + m[1].lower(), name) if name[0].islower() else name
    return spaced.replace("-", "_") if name[0].islower() else name


def defined():
    """The names that the repository defines."""
    names = set()
    for path in texts("crates/*/specs/**/*.antt") + texts("crates/*/proofs/**/*.antt"):
        with open(path, encoding="utf-8") as f:
            for line in f:
                m = HEAD.match(line.split("--")[0])
                if m and m[1] not in NOT_DEFINED and not re.search(r":\s*goal\.", line):
                    names.add(m[1])
    return names


def functions():
    """The names of the functions of src/."""
    names = set()
    for path in texts("crates/*/src/**/*.rt"):
        with open(path, encoding="utf-8") as f:
            names |= set(re.findall(r"\bfn ([a-z_0-9]+)", f.read()))
    return names


def pieces(path, text):
    """The parts of a text that may hold such names: of a source file without its strings and comments."""
    if not path.endswith(".rt"):
        return [(0, len(text))]
    spans, at = [], 0
    for m in re.finditer(r'b?"(?:\\.|[^"\\])*"|//[^\n]*', text):
        spans.append((at, m.start()))
        at = m.end()
    return spans + [(at, len(text))]


def main():
    dry = "--dry" in sys.argv[1:]
    own, code = defined(), functions()
    words = {snake(name) for name in own if "-" not in name}
    renamed = {}
    for name in own:
        new = snake(name)
        if new != name:
            renamed[name] = CHOSEN[name] if name in CHOSEN else new + "_lem" if new in code or ("-" in name and new in words) else new
    for old, new in sorted(renamed.items()):
        print(f"{old} -> {new}")
    wrong, written = [], {}
    for path in texts("crates/*/specs/**/*.antt") + texts("crates/*/proofs/**/*.antt") + texts("crates/*/src/**/*.rt") + texts("crates/*/must-fail/*.edit"):
        with open(path, encoding="utf-8") as f:
            text = f.read()
        out, at, seen = [], 0, {}
        for a, b in pieces(path, text):
            out.append(text[at:a])
            part = text[a:b]
            for m in TOKEN.finditer(part):
                seen.setdefault(renamed.get(m[0], m[0]), set()).add(m[0])
            out.append(TOKEN.sub(lambda m: renamed.get(m[0], m[0]), part))
            at = b
        out.append(text[at:])
        wrong += [f"{path}: {new} would stand for {', '.join(sorted(olds))}" for new, olds in sorted(seen.items()) if len(olds) > 1]
        written[path] = (text, "".join(out))
    for line in wrong:
        print("falls together: " + line)
    if wrong:
        raise SystemExit(1)
    if not dry:
        for path, (old, new) in written.items():
            if old != new:
                with open(path, "w", encoding="utf-8") as f:
                    f.write(new)


main()
