#!/usr/bin/env python3
"""Writes into a crate's lemmas the clauses that a check asks for and prints.

usage: tools/port/clauses.py CRATE LOG    LOG is what `rt check` said in the crate's folder
"""

import os
import re
import sys

ROOT = os.path.dirname(os.path.dirname(os.path.dirname(os.path.realpath(__file__))))


def main(crate, log):
    lines = open(log, encoding="utf-8").read().split("\n")
    wanted = {}
    for i, line in enumerate(lines):
        m = re.match(r"\./(\S+?):(\d+):\d+: error: `([^`]+)`: write the clauses?", line)
        if not m:
            continue
        path, at, name = m.groups()
        got = [c for c in re.findall(r"write the clause `([^`]+)`", line) if " = " in c]
        for l in lines[i + 1 :]:
            if not l.startswith("  "):
                break
            l = l[2:]
            if l.startswith(name + " ") and " = " in l:
                got.append(l)
        if got:
            wanted.setdefault(path, []).append((int(at), name, got))
    for path, asked in wanted.items():
        where = os.path.join(ROOT, "crates", crate, path)
        text = open(where, encoding="utf-8").read().split("\n")
        for at, name, got in sorted(asked, reverse=True):
            # the end of the definition's last clause
            end = None
            for j, l in enumerate(text):
                if re.match(re.escape(name) + r"(?![\w'-])", l) and not re.match(re.escape(name) + r"\s*:", l):
                    end = j + 1
                    while end < len(text) and text[end].startswith((" ", ")", "]")):
                        end += 1
            if end is None:
                # the signature alone
                for j, l in enumerate(text):
                    if re.match(r"((pub|abbrev|unfoldable) )*" + re.escape(name) + r"\s*:", l):
                        end = j + 1
                        while end < len(text) and text[end].startswith((" ", "unfolding ")):
                            end += 1
            text[end:end] = got
            print(f"{crate}/{path}: {name}: {len(got)} clauses")
        open(where, "w", encoding="utf-8").write("\n".join(text))


main(*sys.argv[1:])
