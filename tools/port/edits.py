#!/usr/bin/env python3
"""Brings each edit whose text no longer stands to the text as it stands now, with the same wrong meaning.

usage: tools/port/edits.py [--write]

An edit's `old` and `new` are spelled as today's Rattle has them; where the old text then stands once in its file, the edit is turned.
Prints each pair that it turned, and each that is left to do by hand: clauses in Rust, and imports of what is now in std's Prelude.
An edit with a pair that is left stays as it is.
"""

import glob
import os
import re
import sys

ROOT = os.path.dirname(os.path.dirname(os.path.dirname(os.path.realpath(__file__))))
HUMP = re.compile(r"(?<![\w'])[a-z][a-z0-9]*[A-Z][A-Za-z0-9]*")
TOKEN = re.compile(r"\s+\.[\w'-]+|\s+|[(){}\[\]]|[\w'.◌]*[\w'◌](?:-[\w']+)*|[^\w\s(){}\[\]]+")
ENDS = {"(": ")", "{": "}", "[": "]"}


def snake(name):
    if name == "getD":
        return "get_or"
    name = re.sub(r"([a-z0-9])([A-Z])", r"\1_\2", name)
    name = re.sub(r"([A-Z])([A-Z][a-z])", r"\1_\2", name)
    return name.lower()


class Frame:
    """What stands inside of one bracket: the text that is done, and the application that is being read, with its number of parts."""

    def __init__(self, bracket):
        self.bracket, self.done, self.parts, self.atoms, self.projected = bracket, "", "", 0, False

    def atom(self, text):
        self.parts += text
        self.atoms += 1

    def project(self, field):
        head = self.parts.strip()
        gap = self.parts[: len(self.parts) - len(self.parts.lstrip())]
        if self.atoms > 1:
            head = f"({head})"
        self.parts, self.atoms, self.projected = f"{gap}{head}{field}", min(self.atoms, 1), True

    def part(self, text):
        self.done += self.parts + text
        self.parts, self.atoms = "", 0

    def whole(self, close):
        """The text with its brackets, which a projection alone doesn't need."""
        alone = close == ")" and self.projected and not self.done and self.atoms == 1
        return self.parts.strip() if alone else self.bracket + self.done + self.parts + close


def tight(text):
    """Projections as they are written today: `f x .y` is `(f x).y`, and `(p .k)` is `p.k`."""
    stack = [Frame("")]
    for token in TOKEN.findall(text):
        top = stack[-1]
        if re.match(r"\s+\.", token):
            top.project(token.strip())
        elif re.match(r"\s|\.[\w']", token):
            top.parts += token
        elif token in ENDS:
            stack.append(Frame(token))
        elif token in ENDS.values() and len(stack) > 1:
            stack.pop()
            stack[-1].atom(top.whole(token))
        elif re.match(r"[\w'◌]", token) and token not in ("λ", "record", "let", "in"):
            top.atom(token)
        else:
            top.part(token)
    return "".join(f.bracket + f.done + f.parts for f in stack)


def spelled(text):
    """A text of a definition or a lemma as it is written today."""
    text = HUMP.sub(lambda m: snake(m.group(0)), text)
    text = re.sub(r"Rattle·(\w+)·specs\.specs", r"Rattle.\1.specs", text).replace("Rattle·", "Rattle.")
    text = re.sub(r"(?<=[{ ])_([^\w\s,}]+)_(?=[,}])", r"◌\1◌", text)
    text = text.replace("′", "'").replace("«", "").replace("»", "")
    return text if text.startswith("use ") else tight(text)


def main(argv):
    left = turned = 0
    for path in sorted(glob.glob(os.path.join(ROOT, "crates/*/must-fail/*.edit")) + glob.glob(os.path.join(ROOT, "crates/*/edits/*.edit"))):
        crate, name = os.path.relpath(path, ROOT).split("/")[1], os.path.relpath(path, ROOT)
        with open(path, encoding="utf-8") as f:
            lines = f.read().split("\n")
        texts, changed, bad = {}, False, False
        for i, line in enumerate(lines):
            if line.startswith("file: "):
                where = os.path.join(ROOT, "crates", crate, line[6:])
                if where not in texts:
                    with open(where, encoding="utf-8") as f:
                        texts[where] = f.read()
            elif line.startswith("old: "):
                text = texts[where]
                was = old, new = line[5:], lines[i + 1][5:]
                if text.count(old) != 1:
                    old = spelled(old)
                if text.count(old) != 1:
                    print(f"{name}: LEFT\n  old: {was[0]}\n  new: {was[1]}")
                    left, bad = left + 1, True
                    continue
                if where.endswith(".antt"):
                    new = spelled(new)
                if (old, new) != was:
                    lines[i], lines[i + 1] = "old: " + old, "new: " + new
                    print(f"{name}\n  was old: {was[0]}\n  now old: {old}\n  was new: {was[1]}\n  now new: {new}")
                    turned, changed = turned + 1, True
                texts[where] = text.replace(old, new)
        if changed and not bad and argv == ["--write"]:
            with open(path, "w", encoding="utf-8") as f:
                f.write("\n".join(lines))
    print(f"{turned} turned, {left} left")


if __name__ == "__main__":
    main(sys.argv[1:])
