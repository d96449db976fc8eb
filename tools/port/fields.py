#!/usr/bin/env python3
"""Names a field by its name where a proof still has its number, as the check says.

usage: tools/port/fields.py CRATE LOG    LOG is what `rt check` said in the crate's folder
"""

import os
import re
import sys

ROOT = os.path.dirname(os.path.dirname(os.path.dirname(os.path.realpath(__file__))))


def main(crate, log):
    said = open(log, encoding="utf-8").read()
    wanted = {}
    for m in re.finditer(r"^\./(\S+?):(\d+):(\d+): error: [^\n]*has no field `(\d+|[\w-]+)`[^\n]*?(?: — |\n\s*)(?:the|its) fields (?:that can be named here )?are ([^\n]*)", said, re.M):
        path, line, col, bad, names = m.groups()
        wanted.setdefault(path, []).append((int(line), int(col), bad, re.findall(r"`([^`]+)`", names)))
    for path, spots in wanted.items():
        where = os.path.join(ROOT, "crates", crate, path)
        lines = open(where, encoding="utf-8").read().split("\n")
        for line, col, bad, names in sorted(spots, reverse=True):
            text = lines[line - 1]
            # the projection that holds the column
            for p in re.finditer(r"(?<![\w'.-])([A-Za-z][\w'-]*|\))((?:\.[\w'-]+)+)", text):
                if not (p.start() <= col - 1 <= p.end()):
                    continue
                comps = p.group(2)[1:].split(".")
                spot = None
                pos = p.start(2)
                for i, c in enumerate(comps):
                    at = pos + 1
                    pos = at + len(c)
                    if at <= col - 1 < pos or at == col - 1 or (c == bad and pos >= col - 1 and spot is None and bad.isdigit() and i and comps[i - 1] in ("auto", "new", "ensures", "requires", "type_inv", "args")):
                        spot = i
                        break
                if spot is None:
                    spot = next((i for i, c in enumerate(comps) if c == bad and i and comps[i - 1] in ("auto", "new", "ensures", "requires", "type_inv")), None)
                if spot is None or comps[spot] != bad:
                    continue
                if bad.isdigit():
                    k, used = 0, spot
                    while used < len(comps) and comps[used] == "1":
                        k, used = k + 1, used + 1
                    if used < len(comps) and comps[used] == "0":
                        used += 1
                    elif comps[spot - 1] in ("auto", "new"):
                        continue
                    else:
                        k = min(k, len(names) - 1)
                    if comps[spot - 1] in ("ensures", "requires") and k >= len(names):
                        continue
                    if k >= len(names):
                        continue
                    comps[spot:used] = [names[k]]
                else:
                    close = [n for n in names if re.sub("[-_]", "", n) == re.sub("[-_]", "", bad)]
                    if not close:
                        continue
                    comps[spot] = close[0]
                text = text[: p.start(2)] + "." + ".".join(comps) + text[p.end(2) :]
                print(f"{crate}/{path}:{line}: {p.group(0)} -> {'.'.join(comps)}")
                break
            lines[line - 1] = text
        open(where, "w", encoding="utf-8").write("\n".join(lines))


main(*sys.argv[1:])
