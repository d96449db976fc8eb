#!/usr/bin/env python3
"""Spells the repository's own definitions, fields and lemmas as today's Rattle does: `sqrtOf` becomes `sqrt_of`.

usage: tools/port/spelling.py          turns each crate's .antt and .rt files, after the kit's port.py has run
       tools/port/spelling.py --look   says which new names stand in a file already

In an .rt file only text outside of string literals is turned. Functions of src/, exported names, inputs and outputs have no such name.
"""

import os
import re
import sys

HUMP = re.compile(r"(?<![\w'.·])[a-z][a-z0-9]*[A-Z][A-Za-z0-9]*|(?<=\.)[a-z][a-z0-9]*[A-Z][A-Za-z0-9]*")
TEXT = re.compile(r'"(?:[^"\\\n]|\\.)*"')
# a lemma that would have its definition's name
MET = {"hermitian_eigen/proofs": ("shifted_at", "shifted_at_lem")}


def snake(name):
    name = re.sub(r"([a-z0-9])([A-Z])", r"\1_\2", name)
    name = re.sub(r"([A-Z])([A-Z][a-z])", r"\1_\2", name)
    return name.lower()


def files(root):
    for folder, dirs, names in os.walk(os.path.join(root, "crates")):
        dirs[:] = sorted(d for d in dirs if d != "out")
        for f in sorted(names):
            if f.endswith((".antt", ".rt")):
                yield os.path.join(folder, f)


def turned(text):
    return HUMP.sub(lambda m: snake(m.group(0)), text)


def turn(path, text):
    for folder, (old, new) in MET.items():
        if folder in path:
            text = re.sub(rf"(?<![\w'.-]){old}(?![\w'-])|(?<=\{{){old}(?![\w'-])", new, text)
    if not path.endswith(".rt"):
        return turned(text)
    parts, at = [], 0
    for m in TEXT.finditer(text):
        parts += [turned(text[at : m.start()]), m.group(0)]
        at = m.end()
    return "".join(parts) + turned(text[at:])


def main(argv):
    root = os.path.dirname(os.path.dirname(os.path.dirname(os.path.realpath(__file__))))
    n = 0
    for path in files(root):
        with open(path, encoding="utf-8") as f:
            text = f.read()
        new = turn(path, text)
        if argv == ["--look"]:
            words = set(re.findall(r"(?<![\w'])[a-z_][\w']*", text))
            met = sorted({snake(m.group(0)) for m in HUMP.finditer(text)} & words)
            if met:
                print(f"{os.path.relpath(path, root)}: {', '.join(met)}")
        elif new != text:
            with open(path, "w", encoding="utf-8") as f:
                f.write(new)
            n += 1
    if argv != ["--look"]:
        print(f"{n} files turned")


main(sys.argv[1:])
