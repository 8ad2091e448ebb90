#!/usr/bin/env python3
"""Brings the names of this repository to the spelling of today's Rattle: words in snake case, types and facts as they are.

usage: tools/respell.py [FOLDER]     (the repository, by default the current folder)

It was run once, after the kit's own port.py, and is kept so that the step can be made again on an older commit.
It rewrites every name that is written in lower camel case in crates/, in the must-fail edits there and under tests/edits, and on the pages.
Two names that would fall together are told apart: a lemma that would have the name of a definition gets `_lem`.
"""

import os
import re
import sys

CAMEL = re.compile(r"(?<![A-Za-z0-9_])[a-z][a-z0-9]*(?:[A-Z][a-z0-9]*)+")

# the kit's port.py gave these names of lemmas the spelling of a definition
LEMMAS = ["refers_to", "field_in", "from_cell", "same_heap", "in_stack", "no_cell", "in_control"]

# names of the library whose own new spelling is no mere change of case
LIBRARY = {"getD": "get_or"}

SOURCES = (".antt", ".rt")
EDITS = (".edit",)
PAGES = (".md",)


def snake(name):
    return LIBRARY.get(name) or re.sub(r"(?<=[a-z0-9])?([A-Z])", lambda m: "_" + m.group(1).lower(), name)


def files(root, folders, endings):
    for top in folders:
        start = os.path.join(root, top)
        if os.path.isfile(start):
            yield start
        for folder, inside, names in os.walk(start):
            inside[:] = sorted(d for d in inside if d not in ("out", ".git", "target"))
            for name in sorted(names):
                if name.endswith(endings):
                    yield os.path.join(folder, name)


def read(path):
    with open(path, encoding="utf-8") as f:
        return f.read()


def write(path, old, new):
    if new != old:
        with open(path, "w", encoding="utf-8") as f:
            f.write(new)
    return new != old


def main(root):
    names = set()
    for path in files(root, ["crates"], SOURCES):
        names |= set(CAMEL.findall(read(path)))
    changed = 0
    for path in files(root, ["crates"], (".antt",)):
        old = read(path)
        new = old
        for lemma in LEMMAS:
            new = re.sub(rf"(?<![A-Za-z0-9_.-]){lemma}(?![A-Za-z0-9_'-])", lemma + "_lem", new)
        changed += write(path, old, new)
    everywhere = list(files(root, ["crates"], SOURCES + EDITS))
    everywhere += list(files(root, ["tests/edits"], EDITS))
    everywhere += list(files(root, ["docs", "README.md", "tests/README.md", "bench/README.md"], PAGES))
    for path in everywhere:
        old = read(path)
        changed += write(path, old, CAMEL.sub(lambda m: snake(m.group()) if m.group() in names else m.group(), old))
    print(f"respell: {len(names)} names, {changed} files changed")


if __name__ == "__main__":
    main(sys.argv[1] if len(sys.argv) > 1 else ".")
