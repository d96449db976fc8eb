#!/usr/bin/env python3
"""What was renamed between two commits, by crate: definitions, fields and lemmas of specs/ and proofs/, and clauses that got names.

usage: tools/port/renamed.py OLD NEW
"""

import collections
import re
import subprocess
import sys

def text(commit, path):
    return subprocess.run(["git", "show", f"{commit}:{path}"], capture_output=True, text=True, check=True).stdout


def names(source):
    out = []
    for line in source.split("\n"):
        if line.startswith(("use ", "pub use ", "--", "unfoldable pub use ")):
            continue
        m = re.match(r"^ {0,4}(?:(?:abbrev|unfoldable|private|pub) )*(?:(?:record|data) )?([^\s:(){}.,;=λ]+)(?: .*?)? :(?: |$)", line)
        if m and m.group(1) not in ("let", "in", "module", "→", "×", "elim", "rw", "open"):
            out.append(m.group(1))
    return out


def main(old, new):
    files = subprocess.run(["git", "ls-tree", "-r", "--name-only", old, "crates"], capture_output=True, text=True, check=True).stdout.split("\n")
    by_crate = collections.OrderedDict()
    for path in files:
        parts = path.split("/")
        if not path.endswith(".antt") or path.endswith("/Proof.antt"):
            continue
        try:
            now = text(new, path)
        except subprocess.CalledProcessError:
            print(f"- {path}: gone")
            continue
        a, b = names(text(old, path)), names(now)
        if len(a) == len(b):
            pairs = zip(a, b)
        else:
            bare = {re.sub("[-_]", "", y).lower(): y for y in b}
            pairs = [(x, bare[re.sub("[-_]", "", x).lower()]) for x in a if re.sub("[-_]", "", x).lower() in bare]
        for x, y in pairs:
            if x == y:
                continue
            it = f"{x} → {y}"
            if it not in by_crate.setdefault(parts[1], []):
                by_crate[parts[1]].append(it)
    for crate in sorted(by_crate):
        if by_crate[crate]:
            print(f"- **{crate}**: {', '.join(by_crate[crate])}")


main(*sys.argv[1:])
