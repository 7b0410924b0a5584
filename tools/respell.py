#!/usr/bin/env python3
"""Brings the repository's own definitions, lemmas, record fields and constructors to one spelling, in every crate.

usage: python3 tools/respell.py            rewrites crates/*/specs, proofs, src and must-fail, once, behind the change of older names
       python3 tools/respell.py --list     prints each name that changes and what it becomes, and writes nothing

A word is in snake case (`levelStart` is `level_start`, `levels-none` is `levels_none`), a function into types is in camel case, and no
other name changes: functions of src/, exported names, strings, inputs and outputs keep theirs. A name that a library has too is left
alone in each file that takes it from that library. It stops where two names of one module would fall together.
"""

import collections
import os
import re
import sys

ROOT = os.path.dirname(os.path.dirname(os.path.abspath(__file__)))
TOKEN = re.compile(r"(?<![\w'])[^\W\d][\w'₀₁₂₃₄₅₆₇₈₉-]*")
DECLARED = re.compile(
    r"^(?:(?:pub|abbrev|unfoldable|pattern)\s+)*(?:(?:data|record)\s+)?(?:pub\s+)?([^\W\d][\w'-]*)\s*(?:\{[^}]*\})?\s*(?:[({].*)?:(?:\s|$)"
)
MEMBER = re.compile(r"^\s+(?:\|\s*)?(?:(?:pub|abbrev|unfoldable)\s+)*([^\W\d][\w'-]*)\s*:\s")
IMPORT = re.compile(r"^(?:ghost )?use ([\w.'-]+)\.\{([^}]*)\}", re.S | re.M)
# Functions into types whose names began with a small letter.
TYPES = {"clear": "IsClear", "clearGroup": "IsClearGroup", "scanFine": "IsScanFine"}
# Parameters that several files name alike.
PARAMETERS = ["atA", "freeNext", "lowCurrent", "lowNext", "onlyCurrent", "onlyNext", "wordCap", "searchCap", "positionCap", "wordsAfter", "flagsAfter"]
# A lemma that would have its function's name ends in `_lem`.
LEMMAS = {"length-at": "length_at_lem"}


def snake(name):
    out = re.sub(r"(?<=[a-z0-9])([A-Z])", lambda m: "_" + m.group(1).lower(), name)
    return out.replace("-", "_")


def files(*kinds):
    for folder, folders, names in os.walk(os.path.join(ROOT, "crates")):
        folders[:] = sorted(f for f in folders if f != "out")
        for name in sorted(names):
            if name.endswith(kinds):
                yield os.path.join(folder, name)


def read(path):
    with open(path, encoding="utf-8") as f:
        return f.read()


def declared(text):
    """The names that a file declares: at its left edge, in a module's block, a record's fields, constructors."""
    names = []
    for line in text.split("\n"):
        if not line.startswith(("--", "use ", "//")):
            m = DECLARED.match(line) or MEMBER.match(line)
            if m:
                names.append(m.group(1))
    return names


def own_names():
    names = []
    for path in files(".antt"):
        if os.path.basename(path) not in ("Proof.antt", "Invariants.antt", "Answers.antt"):
            names += [n for n in declared(read(path)) if not n[0].isupper()]
    # Functions come first, in whichever form they were; then names that are in snake case already; then the other lemmas.
    order = lambda n: (2 if "-" in n else 1 if snake(n) == n else 0, n)
    own, came = {name: snake(name) for name in PARAMETERS}, {}
    for name in sorted(set(names), key=order):
        to = LEMMAS.get(name) or TYPES.get(name) or snake(name)
        if to in came:
            to += "_lem"
        if came.setdefault(to, name) != name:
            sys.exit(f"respell: {came[to]} and {name} would both be {to}")
        if to != name:
            own[name] = to
    return own


def taken(text):
    """The names that a file takes from a library that is not this repository's."""
    out = set()
    for module, items in IMPORT.findall(text):
        crate = module.split(".")[1] if module.startswith("Rattle.") and "." in module else ""
        if not os.path.isdir(os.path.join(ROOT, "crates", crate)) or not crate:
            out |= {i.strip().split(" ")[0] for i in items.split(",")}
    return out


def main():
    own = own_names()
    if "--list" in sys.argv:
        for name in sorted(own):
            print(name, own[name])
        return
    changed = 0
    for path in files(".antt", ".rt", ".edit"):
        text = read(path)
        leave = taken(text) - set(declared(text)) if not path.endswith(".edit") else set()

        def turn(m):
            name = m.group(0)
            near = text[m.start() - 1 : m.start()] + text[m.end() : m.end() + 1]
            line = text[text.rfind("\n", 0, m.start()) + 1 : m.start()].lstrip()
            if name == "clear" and (path.endswith(".rt") or "." in near or line.startswith("--")):
                return name
            return own[name] if name in own and name not in leave else name

        new = TOKEN.sub(turn, text)
        if new != text:
            changed += 1
            with open(path, "w", encoding="utf-8") as f:
                f.write(new)
    print(f"respell: {len(own)} names, {changed} files changed")


main()
