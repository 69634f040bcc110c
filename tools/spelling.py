#!/usr/bin/env python3
"""Brings the names of the definitions and lemmas of crates/ to the library's spelling: words in snake case, types in camel case.

usage: python3 tools/spelling.py        once, at the top of the repository, after the toolchain's own port.py

A definition in camel case (textFault) becomes text_fault. A dash stays where it joins the names of two functions, as in length-append, and is
an underscore elsewhere. Names that the toolchain makes (those of goals and of steps), functions of src/, strings and must-fail edits stay.
"""

import os
import re
import sys

HEAD = re.compile(r"^(?:(?:abbrev|unfoldable|pub|private|ghost) +)*([A-Za-z_][A-Za-z0-9_'-]*)(?: [^:]*)? : (.*)$")
FIELD = re.compile(r"^\s+(?:pub )?([a-z][A-Za-z0-9_'-]*) : ")
TOKEN = re.compile(r"[A-Za-z_][A-Za-z0-9_'\u00b7-]*")
# the functions of the library whose names a dash joins to another name
LIBRARY = {"append", "cond", "cons", "drop", "length", "map", "nil", "snoc", "take"}
# lemmas that would have the name of a definition
LEMMAS = {"at-node", "has-depth", "in-front", "line-feed", "of-depth", "tag-fits"}


def texts(folder, ending):
    for at, dirs, files in os.walk(folder):
        dirs[:] = sorted(d for d in dirs if d != "out")
        for f in sorted(files):
            if f.endswith(ending):
                yield os.path.join(at, f)


def read(path):
    with open(path, encoding="utf-8") as f:
        return f.read()


def declared(root):
    """The names that specs/ and proofs/ declare, but for answers to goals and for invariants, which the toolchain names."""
    names, functions = set(), set()
    for path in texts(os.path.join(root, "crates"), ".antt"):
        if path.endswith("/Invariants.antt"):
            continue
        for line in read(path).split("\n"):
            m = HEAD.match(line)
            if m and not m[2].startswith("goal."):
                names.add(m[1])
                if "/specs/" in path and not m[1][0].isupper():
                    functions.add(m[1])
            elif FIELD.match(line) and not line.lstrip().startswith(("let ", "|")):
                names.add(FIELD.match(line)[1])
    return names, functions


def snake(name):
    name = re.sub(r"(?<=[a-z0-9])([A-Z]+)(?=[A-Z][a-z]|$)", lambda m: "_" + m[1].lower(), name)
    return re.sub(r"(?<=[a-z0-9])([A-Z])(?=[a-z0-9])", lambda m: "_" + m[1].lower(), name)


def respelled(name, functions):
    if name[0].isupper():
        return name
    if name in LEMMAS:
        return name.replace("-", "_") + "_lem"
    parts = name.split("-")
    out = snake(parts[0])
    for i in range(1, len(parts)):
        joins = parts[i - 1] in functions | LIBRARY and parts[i] in functions | LIBRARY
        out += ("-" if joins else "_") + snake(parts[i])
    return out


def turned(text, names):
    return TOKEN.sub(lambda m: names.get(m[0], m[0]), text)


def outside_strings(line, names):
    return "".join(p if p.startswith('"') else turned(p, names) for p in re.split(r'("(?:\\.|[^"\\])*")', line))


def main():
    root = os.path.abspath(".")
    known, functions = declared(root)
    names = {n: respelled(n, functions) for n in known}
    names = {a: b for a, b in names.items() if a != b}
    together = sorted(b for b in set(names.values()) if sum(c == b for c in names.values()) + (b in known) > 1)
    for path in texts(os.path.join(root, "crates"), (".antt", ".rt")):
        text = read(path)
        new = "\n".join(outside_strings(line, names) if path.endswith(".rt") else turned(line, names) for line in text.split("\n"))
        if new != text:
            with open(path, "w", encoding="utf-8") as f:
                f.write(new)
    for a in sorted(names):
        print(a, "→", names[a])
    if together:
        print("names that fall together:", " ".join(together), file=sys.stderr)


if __name__ == "__main__":
    main()
