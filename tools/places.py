#!/usr/bin/env python3
"""Counts, in crates/*/src/*.rt, the places of the points that docs/DESIGN-PASS.md speaks of: tools/places.py [-l] [FOLDER].

With -l it lists them. Each count is of what a pattern finds; what a found place is, and why it stays, is on the page.
"""
import glob
import os
import re
import sys

args = [a for a in sys.argv[1:] if a != "-l"]
LIST = "-l" in sys.argv
os.chdir(args[0] if args else os.path.join(os.path.dirname(os.path.abspath(__file__)), ".."))


def functions(text):
    """Each function with its line, header (up to the clauses) and body."""
    for m in re.finditer(r"^( *)(?:pub(?:\(super\))? )?(?:extern \"C\" )?fn (\w+)[^\n]*", text, re.M):
        rest = text[m.start():]
        head = re.split(r"\n\s*(?:requires|ensures)\b|\n?\{\n|\{$", rest, maxsplit=1)[0]
        end = re.search(r"^%s\}" % m.group(1), rest, re.M)
        yield text[:m.start()].count("\n") + 1, m.group(2), head, rest[:end.end()] if end else rest


found = {}


def place(key, path, line, what):
    found.setdefault(key, []).append(f"{path}:{line}: {what}")


KEYS = [
    ("1 enum", "enums (those of the shape of Option or Result are told by hand)"),
    ("1 flag", "struct fields that are a bool"),
    ("1 end", "searches that answer an index or the end, NONE or a mark as a number"),
    ("1 number", "number constants for kinds: tags, roles, kinds, areas, refusals"),
    ("2 twin", "functions whose bodies are alike but for names and numbers"),
    ("3 while", "loops whose index is counted by hand"),
    ("3 walk", "other while loops"),
    ("4 hand", "minimum, maximum, fill, copy and bytes of a word written by hand"),
    ("4 chain", "functions of tests one under the other that could be one conjunction"),
    ("5 areas", "functions that take control, stack and heap apart"),
    ("5 notes", "functions that take work and notes"),
    ("5 fact", "conjuncts of a requires that stand in three functions or more"),
    ("6 offset", "reads and writes of the work words, or of saved arguments, at an offset that is added by hand"),
    ("7 switch", "a byte or flag that says which step to run"),
]

bodies = {}
for path in sorted(glob.glob("crates/*/src/*.rt")):
    text = open(path).read()
    for m in re.finditer(r"^ *(?:pub )?enum (\w+)", text, re.M):
        place("1 enum", path, text[:m.start()].count("\n") + 1, m.group(1))
    for m in re.finditer(r"^ +pub (\w+): bool,", text, re.M):
        place("1 flag", path, text[:m.start()].count("\n") + 1, m.group(1))
    for m in re.finditer(r"^(?:pub )?const (\w+): u(?:8|32) = (?:\d+|OWN[^;]*);", text, re.M):
        if not re.search(r"BASE|NONE|ZERO|MOST|LIMIT|WORD", m.group(1)):
            place("1 number", path, text[:m.start()].count("\n") + 1, m.group(1))
    lines = text.split("\n")
    for line, name, head, body in functions(text):
        params = set(re.findall(r"(\w+): &", head)) | set(re.findall(r"(\w+): (?:usize|u32)", head))
        comment = " ".join(l.strip("/ ") for l in lines[max(0, line - 4):line - 1] if l.strip().startswith("//"))
        if re.search(r"-> (?:usize|u32)", head) and re.search(r",? or (?:[a-z]\b|NONE|`count`|the stack's length|its end|how many there are|the mark)", comment):
            place("1 end", path, line, name)
        for m in re.finditer(r"^( *)while ([^\n]*)\{\n", body, re.M):
            inner = body[m.end():]
            inner = inner[:re.search(r"^%s\}" % m.group(1), inner, re.M).start()]
            counted = re.search(r"^ *(\w+) [+-]= 1;", inner, re.M)
            mark = re.findall(r"^ *(\w+) [+-]= 1;", inner, re.M)
            names = re.findall(r"\w+", m.group(2))
            place("3 while" if counted and any(k in names for k in mark) else "3 walk", path, line, f"{name}: while {m.group(2).strip()}")
        if re.match(r"^(?:least|greatest|larger|clear|copy|move_front|is_digit)$", name) and not re.search(r"fill\(|copy_|\.min\(|\.max\(", body):
            place("4 hand", path, line, name)
        for m in re.finditer(r"\* 16777216|/ 16777216", body):
            place("4 hand", path, line, name + ": bytes of a word")
        if len(re.findall(r"\{\s*return (?:true|false);\s*\}", body)) >= 2:
            place("4 chain", path, line, name)
        if {"control", "stack", "heap"} <= params:
            place("5 areas", path, line, name)
        if {"work", "notes"} <= params:
            place("5 notes", path, line, name)
        for m in re.finditer(r"\w+\[(?:notes|from|FIXED|a|heap\.len\(\)|view\.heap\.len\(\)) \+ [^\]]*\]", body):
            place("6 offset", path, line, f"{name}: {m.group(0)}")
        if re.search(r"\bbyte == 0\b|\bmatch byte\b|\.more\b(?!\()", body):
            place("7 switch", path, line, name)
        key = re.sub(r"\b\d+\b", "0", re.sub(r"b?\"[^\"]*\"", '""', re.sub(r"\b[A-Za-z_]\w*\b", lambda m: m.group(0) if m.group(0) in ("if", "else", "while", "for", "in", "return", "let", "mut", "match", "as") else "x", body.split("\n{\n", 1)[-1])))
        if len(key) > 60:
            bodies.setdefault(key, []).append((path, line, name))
facts = {}
for path in sorted(glob.glob("crates/*/src/*.rt")):
    for m in re.finditer(r"requires (?:\w+ )?\{ (.*?) \}\n", open(path).read(), re.S):
        for fact in re.split(r" × (?![^()]*\))", m.group(1)):
            fact = re.sub(r"^\((.*)\)$", r"\1", re.sub(r"\s+", " ", fact.strip())).replace(".old", ".now")
            facts.setdefault(fact, []).append(path)
for fact, paths in sorted(facts.items()):
    if len(paths) > 2:
        for path in paths:
            place("5 fact", path, 0, fact)
for same in bodies.values():
    if len(same) > 1:
        for path, line, name in same:
            place("2 twin", path, line, name + " (" + ", ".join(n for p, l, n in same if (p, l) != (path, line)) + ")")
for key, what in KEYS:
    print(f"{key:10} {len(found.get(key, [])):4}  {what}")
    if LIST:
        for line in found.get(key, []):
            print("     " + line)
