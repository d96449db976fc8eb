#!/usr/bin/env python3
"""Turns each function's Proof.antt into Invariants.antt and Answers.antt, by the names that `rt names FOLDER` has written.

usage: tools/port/answers.py NAMES CRATE..
"""

import json
import os
import re
import sys

ROOT = os.path.dirname(os.path.dirname(os.path.dirname(os.path.realpath(__file__))))
WORD = r"[^\s(){}\[\],;.λ]+"


def plain(name):
    name = re.sub(r"[-_]", "_", name).lower()
    return name[:-4] if name.endswith("_lem") else name


def need_key(name):
    name = plain(name)
    if name.startswith("overflow_"):
        return name[9:]
    return "part" + name[12:] if name.startswith("slice_bounds_") else name


def blocks(text):
    """The file as (header lines, use lines, [block]), a block being {name, sig, unfolding, equations, comments}."""
    lines = text.split("\n")
    head, uses, out = [], [], []
    at = 0
    pending = []
    while at < len(lines):
        line = lines[at]
        if line.startswith("--"):
            (head if not uses and not out else pending).append(line)
            at += 1
            continue
        if not line.strip():
            at += 1
            continue
        group = [line]
        at += 1
        while at < len(lines) and lines[at].startswith((" ", "\t", ")", "]", "}")):
            group.append((" " if lines[at][0] in ")]}" else "") + lines[at])
            at += 1
        whole = "\n".join(group)
        if re.match(r"(pub |unfoldable )*use ", whole):
            uses.append(whole)
            continue
        if whole.startswith("unfolding "):
            out[-1]["unfolding"].append(whole)
            continue
        m = re.match(r"((?:(?:abbrev|unfoldable|pub|private) )*)(" + WORD + r")\s*:(?!:)\s", whole + " ")
        if m and not (out and out[-1]["name"] == m.group(2)):
            out.append({"name": m.group(2), "marks": m.group(1), "sig": whole, "unfolding": [], "equations": [], "comments": pending})
            pending = []
            continue
        if out and out[-1]["name"] and re.match(re.escape(out[-1]["name"]) + r"(?![\w'-])", whole):
            out[-1]["equations"].append(whole)
            continue
        out.append({"name": None, "marks": "", "sig": whole, "unfolding": [], "equations": [], "comments": pending})
        pending = []
    return head, uses, out


def tokens_in(text):
    return set(re.findall(r"[^\s(){}\[\],;.]+", text)) | set(re.findall(r"[^\s(){}\[\],;]+", text))


def used(name, text, words):
    name = name.split(" as ")[-1].strip()
    if "◌" in name:
        return all(p in text for p in name.split("◌") if p)
    return name in words or name in text


def kept_uses(uses, text):
    words = tokens_in(text)
    out = []
    for u in uses:
        if re.search(r"\.(Tie|Statement)(\.| |$)", u):
            continue
        m = re.match(r"((?:pub |unfoldable )*use )([\w.+'-]+)\.\{([^}]*)\}$", u.replace("\n", " "))
        if not m:
            m2 = re.match(r"use ([\w.+'-]+) as ([\w'-]+)", u)
            if not m2 or re.search(r"(?<![\w'.-])" + re.escape(m2.group(2)) + r"\.", text):
                out.append(u)
            continue
        names = [n.strip() for n in m.group(3).split(",") if n.strip()]
        names = [n for n in names if used(n, text, words)]
        if names:
            out.append(f"{m.group(1)}{m.group(2)}.{{{', '.join(names)}}}")
    return out


class Names:
    def __init__(self, entry, requires):
        self.entry = entry
        self.requires = requires
        self.needs = {need_key(old): (old, new, i) for i, (old, new) in enumerate(entry["needs"])}
        self.parent, self.fields, self.place_index = {}, {}, {}
        for i, (name, parent, pair, callee, _) in enumerate(entry["places"]):
            self.parent[name] = parent
            self.place_index[name] = i
            self.fields[name] = (pair[0], pair[1], callee)
        self.by_plain = {}
        for name, (old, new, callee) in self.fields.items():
            if old:
                self.by_plain.setdefault(plain(old), []).append((name, old, new, callee))
        # what an arm's place gives: old step and path, the arm's name and the field there
        self.arms = {}
        for i, a in enumerate(entry["arms"]):
            if a:
                self.arms[entry["places"][i][0]] = a
        pre = entry["pre"]
        self.pre = pre["fields"] if pre else []

    def up(self, place, n):
        for _ in range(n):
            place = self.parent.get(place) if place else None
        return place

    def clause_fields(self, place, comp):
        at = place
        while at:
            old = self.fields[at][0]
            if old and plain(old) == plain(comp):
                told = self.entry["clauses"][self.place_index[at]]
                return told["fields"] if told else None
            at = self.parent[at]
        return None

    def arm(self, place, comps):
        """The new path for a path into an arm, or None."""
        at = place
        while at:
            a = self.arms.get(at)
            if a:
                best = None
                for sub, step, path in a[2]:
                    if plain(comps[0]) == plain(step) and comps[1 : 1 + len(path)] == path and (best is None or len(path) > len(best[1])):
                        best = (sub, path)
                if best:
                    return [a[0], best[0]] + comps[1 + len(best[1]) :]
            at = self.parent[at]
        return None

    def field(self, place, comp):
        """The new name of the step called comp, seen from the place, and its callee."""
        at = place
        while at:
            old, new, callee = self.fields[at]
            if old and plain(old) == plain(comp):
                return new, callee
            at = self.parent[at]
        found = self.by_plain.get(plain(comp))
        if found:
            return found[0][2], found[0][3]
        return None, None


def picked(names, comps):
    """A projection out of a pair of clauses, as the record of them: comps without the word before."""
    if len(names) < 2 or not comps or not comps[0].isdigit():
        return comps
    k, used = 0, 0
    while k < len(names) - 1 and used < len(comps) and comps[used] == "1":
        k, used = k + 1, used + 1
    if k < len(names) - 1:
        if used >= len(comps) or comps[used] != "0":
            return comps
        used += 1
    return [names[k]] + comps[used:]


class Turn:
    def __init__(self, names, contracts):
        self.n = names
        self.contracts = contracts
        self.said = []
        self.missing = []

    def body(self, text, place, var="c"):
        """The text of an answer, with each path from its record flattened and renamed."""
        return self.told(text, {var: place})

    def told(self, text, known):
        main = list(known)[0] if len(known) == 1 else None
        known = dict(known)
        # variables bound to an outer record
        for m in re.finditer(r"let ([\w'-]+) =\s+([\w'-]+)((?:\.before)*)\s+in\b", text):
            if m.group(2) in known:
                known[m.group(1)] = self.n.up(known[m.group(2)], m.group(3).count(".before"))

        def within(at, first, callee, rest):
            """The path inside a step, with clauses and lent slices by their names."""
            if rest and rest[0] == "ensures":
                fields = self.n.clause_fields(at, first)
                if fields and len(fields) == 1 and (len(rest) == 1 or rest[1] != fields[0]):
                    return [rest[0], fields[0]] + rest[1:]
                return [rest[0]] + picked(fields or self.contracts.get(callee, {}).get("ensures", []), rest[1:])
            if rest and rest[0] in ("auto", "new") and len(rest) > 1 and rest[1].isdigit():
                lent = self.n.entry["params"].get(callee)
                if plain(first).startswith("loop"):
                    lent = None
                k, used = 0, 1
                while used < len(rest) and rest[used] == "1":
                    k, used = k + 1, used + 1
                if lent and used < len(rest) and rest[used] == "0" and k < len(lent):
                    return [rest[0], lent[k]] + rest[used + 1 :]
            return rest

        # variables bound to a step
        steps = {}
        for m in re.finditer(r"let ([\w'-]+) =\s+([\w'-]+)((?:\.before)*)\.([\w'-]+)\s+in\b", text):
            if m.group(2) in known and m.group(4) not in ("args", "requires", "ranges", "well_formed", "before"):
                at = known[main] if main else known[m.group(2)]
                if self.n.arm(at, [m.group(4)]) is None:
                    new, callee = self.n.field(at, m.group(4))
                    if new:
                        steps[m.group(1)] = (at, m.group(4), callee)

        def path(m):
            head, rest = m.group(1), m.group(2)
            if head in steps and head not in known:
                return ".".join([head] + within(*steps[head], rest[1:].split(".")))
            if head not in known:
                return m.group(0)
            at = known[main] if main else known[head]
            comps = rest[1:].split(".")
            ups = 0
            while comps and comps[0] == "before":
                if not main:
                    at = self.n.up(at, 1)
                comps = comps[1:]
                ups += 1
            if not comps:
                return head + ".before" * ups
            if main:
                head = main
            first = comps[0]
            if first == "requires":
                comps = [first] + picked(self.n.pre, comps[1:])
                return ".".join([head] + comps)
            if first in ("args", "well_formed", "well-formed", "ranges", "utf8"):
                return ".".join([head, first.replace("-", "_")] + comps[1:])
            armed = self.n.arm(at, comps)
            if armed:
                return ".".join([head] + armed)
            new, callee = self.n.field(at, first)
            if new is None:
                self.missing.append(".".join(comps))
                return ".".join([head] + comps)
            return ".".join([head, new] + within(at, first, callee, comps[1:]))

        text = re.sub(r"(?<![\w'.-])([A-Za-z][\w'-]*)((?:\.[\w'-]+)+)", path, text)
        for m in list(re.finditer(r"let ([\w'-]+) =\s+([\w'-]+)((?:\.before)*)\s+in\b\s*", text)):
            if main and m.group(1) in known and m.group(1) != main and len(re.findall(rf"(?<![\w'.-]){re.escape(m.group(1))}(?![\w'-])", text)) == 1:
                text = text.replace(m.group(0), "", 1)
        return re.sub(r"\(not-(?:true|false) (?:_|[\w.'-]+) (c\.if-not-[\w-]+\.(?:true|false))\)", r"\1", text)


def contracts_of(root):
    """The names of each function's clauses, by crate::path."""
    out = {}
    for crate in os.listdir(os.path.join(root, "crates")):
        for base, dirs, files in os.walk(os.path.join(root, "crates", crate, "src")):
            for f in files:
                if not f.endswith(".rt"):
                    continue
                impl = None
                fn = None
                source = open(os.path.join(base, f), encoding="utf-8").read()
                for line in source.split("\n"):
                    m = re.match(r"impl(?:<[^>]*>)? (\w+)", line)
                    if m:
                        impl = m.group(1)
                    if line.startswith("}"):
                        impl = None if impl and not line.strip("}\n") else impl
                    m = re.match(r"\s*(?:pub )?(?:unsafe )?(?:extern \"C\" )?fn (\w+)", line)
                    if m:
                        fn = f"{crate}::" + (f"{impl}::" if impl and line.startswith(" ") else "") + m.group(1)
                        out[fn] = {"requires": [], "ensures": []}
                    m = re.match(r"\s*(requires|ensures) (\w+ )?\{", line)
                    if m and fn:
                        out[fn][m.group(1)].append((m.group(2) or "").strip())
    return out


def split_pair(text):
    """The parts of a tuple in parentheses, or None."""
    text = text.strip()
    if not (text.startswith("(") and text.endswith(")")):
        return None
    depth, parts, last = 0, [], 1
    for i, ch in enumerate(text):
        if ch in "([{":
            depth += 1
        elif ch in ")]}":
            depth -= 1
            if depth == 0 and i != len(text) - 1:
                return None
        elif ch == "," and depth == 1:
            parts.append(text[last:i])
            last = i + 1
    parts.append(text[last:-1])
    parts = [p.strip() for p in parts if p.strip()]
    return parts if len(parts) > 1 else None


def lets(text):
    """The `let .. in` prefix of a term, and what follows it."""
    text = text.strip()
    at = 0
    prefix = ""
    while True:
        m = re.match(r"\s*let\s", text[at:])
        if not m:
            break
        depth, i, level = 0, at, 0
        j = at
        count = 0
        while j < len(text):
            ch = text[j]
            if ch in "([{":
                depth += 1
            elif ch in ")]}":
                depth -= 1
            if depth == 0:
                if re.match(r"let\b", text[j:]) and (j == 0 or not re.match(r"[\w'-]", text[j - 1])):
                    count += 1
                if re.match(r"in\b(?![\w'-])", text[j:]) and not re.match(r"[\w'.-]", text[j - 1]):
                    count -= 1
                    if count == 0:
                        break
            j += 1
        else:
            break
        at = j + 2
    return text[:at], text[at:].strip()


def record_of(fields, body):
    prefix, rest = lets(body)
    parts = split_pair(rest)
    if parts is None:
        return None
    if len(parts) > len(fields):
        head = parts[: len(fields) - 1]
        parts = head + ["(" + ", ".join(parts[len(fields) - 1 :]) + ")"]
    while len(parts) < len(fields):
        more = split_pair(parts[-1])
        if not more:
            return None
        parts = parts[:-1] + more
    made = "; ".join(f"{f} = {p}" for f, p in zip(fields, parts))
    return (prefix + " " if prefix else "") + "record { " + made + " }"


def invariant(block, names, crate, said):
    m = re.search(r"tie\.(invariant|decreases)-([\w'-]+)", block["sig"])
    if not m:
        return None
    kind, loop = m.groups()
    found = [(i, l) for i, l in enumerate(names.entry["loops"]) if plain(l[0][0]) == plain(loop)]
    if not found:
        if kind == "decreases":
            said.append(f"measure {loop}: no loop of that name: {[l[0] for l in names.entry['loops']]}")
        else:
            said.append(f"invariant {loop}: no loop of that name: {[l[0] for l in names.entry['loops']]}")
        return None
    index, (pair, variables) = found[0]
    changed = names.entry["changed"][index]
    eq = block["equations"][0]
    left, body = eq.split("=", 1) if " =\n" in eq or " = " in eq else (eq, "")
    params = left.split()[1:]
    flow = list(zip(variables, changed))
    if len(params) != len(variables) + sum(changed):
        said.append(f"{kind} {loop}: {len(params)} arguments for {len(variables)} variables, {sum(changed)} changed: {params} {variables}")
        return None
    var = "l"
    while re.search(rf"(?<![\w'.-]){var}(?![\w'-])", body) and var not in params or var in re.findall(r"λ \(?([\w']+)", body):
        var = {"l": "at", "at": "here", "here": "turn"}[var]
    to = {}
    for (v, c), p in zip(flow, params):
        to[p] = f"{var}.initial.{v}" if c else f"{var}.{v}"
    for (v, c), p in zip([x for x in flow if x[1]], params[len(variables) :]):
        to[p] = f"{var}.{v}"
    to.pop("_", None)

    def sub(m):
        return to.get(m.group(0), m.group(0))

    bound = set(re.findall(r"λ \(?([\w'₀-₉]+(?: [\w'₀-₉]+)*)", body)) | set(re.findall(r"\(([\w'₀-₉]+(?: [\w'₀-₉]+)*) : ", body))
    bound = {w for b in bound for w in b.split()}
    clash = bound & set(to)
    if clash:
        said.append(f"{kind} {loop}: bound again: {clash}")
    body = re.sub(r"(?<![\w'.₀-₉·-])[^\W\d][\w'₀-₉]*(?:-[\w'₀-₉]+)*(?![\w'₀-₉-])", sub, body)
    text = f"abbrev pub {kind}-{pair[1]} : goal.{kind}-{pair[1]}\n" + "".join(u + "\n" for u in block["unfolding"]) + f"{kind}-{pair[1]} {var} ={body}"
    return text


def function(crate, folder, path, entry, contracts, said):
    where = os.path.join(folder, "Proof.antt")
    text = open(where, encoding="utf-8").read()
    names = Names(entry, None)
    turn = Turn(names, contracts)
    head, uses, found = blocks(text)
    invariants, answers, helpers, places = [], [], [], set()
    inner = {}

    def with_inner(body, var):
        """The body with the helpers that it uses bound before it, and their unfoldings."""
        needed, unfold = [], []

        def call(text):
            for name in inner:
                pat = rf"(?<![\w'.-]){re.escape(name)} \(?({var}|[\w'-]+)((?:\.before)*)\)?(?![\w'.-])"
                if re.search(rf"(?<![\w'.-]){re.escape(name)}(?![\w'-])", text):
                    if name not in [x for x, _ in needed]:
                        kind, term, un, _ = inner[name]
                        needed.append((name, None))
                        k, tm = call(kind), call(term)
                        needed.remove((name, None))
                        needed.append((name, (k, tm)))
                        unfold.extend(un)
                    text = re.sub(rf"(?<![\w'.-]){re.escape(name)} (?:[\w']+)(?:\.before)*(?![\w'.-])", name, text)
            return text

        body = call(body)
        pre = "".join(f"\n    let {n} : {re.sub(chr(10) + ' *', ' ', k)} = {re.sub(chr(10) + ' *', ' ', tm)} in" for n, (k, tm) in needed)
        return (pre + "\n    " + body.strip() if pre else body), unfold
    done = set()
    for b in found:
        sig = b["sig"]
        if b["name"] is None:
            said.append(f"not read: {sig[:80]}")
            helpers.append(b)
            continue
        if re.search(r"tie\.(invariant|decreases)-", sig) and "tie.Need" not in sig and b["equations"] and re.match(r"((abbrev|pub|unfoldable) )*[\w'-]+ :\s+tie\.(invariant|decreases)-[\w'-]+$", sig.strip()):
            it = invariant(b, names, crate, said)
            if it:
                invariants.append(("\n".join(b["comments"]) + "\n" if b["comments"] else "") + it)
            else:
                invariants.append("-- LEFT\n" + "\n".join([sig] + b["unfolding"] + b["equations"]))
            continue
        m = re.search(r":\s+tie\.Need-([\w'-]+)", sig)
        if m:
            key = need_key(m.group(1))
            if key not in names.needs:
                said.append(f"no need {m.group(1)}")
                it = turn.body("\n".join(b["equations"]), "Start")
                if not re.search(r"=\s+search rules$", it):
                    answers.append(f"-- LEFT: no goal {m.group(1)}\n" + "\n".join("-- " + x for x in (it).split("\n")))
                continue
            old, new, i = names.needs[key]
            done.add(key)
            place = entry["asked_at"][i][0]
            if len(b["equations"]) != 1:
                said.append(f"{new}: {len(b['equations'])} equations")
            eq = b["equations"][0]
            m2 = re.match(re.escape(b["name"]) + r"((?:\s+[^\s=]+)*)\s+=(\s.*)$", eq, re.S)
            if not m2:
                said.append(f"{new}: not read: {eq[:60]}")
                continue
            params = m2.group(1).split()
            body = m2.group(2)
            if params and params[-1] == "κs":
                params = params[:-1]
            if len(params) != 1:
                said.append(f"{new}: params {params}")
            var = params[-1] if params else "c"
            body = turn.body(body, place, var)
            body, unfold = with_inner(body, var)
            b["unfolding"] = b["unfolding"] + unfold
            bare = body.strip()
            if bare == "search rules" or (bare == "omega arith" and not b["unfolding"]):
                if not b["unfolding"]:
                    continue
            fields = entry["asked"].get(old)
            if fields and len(fields) > 1:
                made = record_of(fields, bare)
                if made:
                    body = " " + made
                else:
                    said.append(f"{new}: wants a record {fields}")
            if "⊎_elim" in body and ".branch" in body:
                said.append(f"{new}: a branch")
            answers.append(
                ("\n".join(b["comments"]) + "\n" if b["comments"] else "")
                + f"pub {new} : goal.{new}\n"
                + "".join(u + "\n" for u in b["unfolding"])
                + f"{new} {' '.join(params)} ={body}"
            )
            continue
        if re.search(r"\bstatement\b", sig) and "tie.close" in "\n".join(b["equations"]):
            continue
        hm = re.match(r"((?:(?:abbrev|pub|unfoldable|private) )*)[\w'-]+\s*:\s*\(([\w']+) : tie\.([\w'-]+)((?: (?:invariant|decreases)-[\w'-]+)*)\)\s*→(.*)$", sig, re.S)
        if hm and len(b["equations"]) == 1:
            spot = [p for p in names.parent if plain(p) == plain(hm.group(3))]
            hq = re.match(re.escape(b["name"]) + r"\s+([\w']+)((?:\s+[\w'₀-₉-]+)*)\s+=(\s.*)$", b["equations"][0], re.S)
            if spot and hq:
                kind = turn.told(hm.group(5).strip(), {hm.group(2): spot[0]})
                term = turn.told(hq.group(3).strip(), {hq.group(1): spot[0]})
                if hm.group(2) != "c":
                    kind = re.sub(rf"(?<![\w'.-]){hm.group(2)}(?=\.)", "c", kind)
                if hq.group(1) != "c":
                    term = re.sub(rf"(?<![\w'.-]){hq.group(1)}(?=\.)", "c", term)
                more = hq.group(2).split()
                if more:
                    term = "λ " + " ".join(more) + ". " + term
                inner[b["name"]] = (kind, term, b["unfolding"], b["comments"])
                continue
        it = "\n".join([sig] + b["unfolding"] + b["equations"])
        held = {}
        for var, place in re.findall(r"\(([\w']+) : tie\.([\w'-]+)", it):
            found_at = [p for p in names.parent if plain(p) == plain(place)]
            if found_at:
                held[var] = found_at[0]
        if held:
            it = turn.told(it, held)

        def placed(m):
            found_at = [p for p in names.parent if plain(p) == plain(m.group(1))]
            if not found_at:
                said.append(f"helper {b['name']} names tie.{m.group(1)}")
                return m.group(0)
            new = entry["places_by_name"][names.place_index[found_at[0]]]
            places.add(new)
            return new

        it = re.sub(r"tie\.([\w'-]+)((?: (?:invariant|decreases)-[\w'-]+)*)", placed, it)
        answers.append("\n".join(b["comments"] + [it]))
    for what in turn.missing:
        said.append(f"no step {what}")
    title = "\n".join(head)
    made = []
    goal_path = f"Rattle.{crate}.proofs.{path}"
    if invariants:
        body = "\n\n".join(invariants)
        u = kept_uses(uses, body)
        u.append(f"use {goal_path}.Given as goal")
        made.append(("Invariants.antt", (title + "\n" if title else "") + "\n".join(u) + "\n\n" + body + "\n"))
        title = ""
    if answers:
        body = "\n\n".join(answers)
        u = kept_uses(uses, body)
        u.append(f"use {goal_path}.Goals as goal")
        if places:
            u.append(f"use {goal_path}.Goals.{{{', '.join(sorted(places))}}}")
        made.append(("Answers.antt", (title + "\n" if title else "") + "\n".join(u) + "\n\n" + body + "\n"))
    os.remove(where)
    for name, t in made:
        with open(os.path.join(folder, name), "w", encoding="utf-8") as f:
            f.write(t)
    if not made:
        try:
            os.removedirs(folder)
        except OSError:
            pass


def main(argv):
    named, crates = argv[0], argv[1:]
    contracts = contracts_of(ROOT)
    for crate in crates:
        data = json.load(open(os.path.join(named, "crates", crate, "names.json")))
        proofs = os.path.join(ROOT, "crates", crate, "proofs")
        for base, dirs, files in os.walk(proofs, topdown=False):
            if "Proof.antt" not in files:
                continue
            with open(os.path.join(base, "Proof.antt"), encoding="utf-8") as f:
                if "tie.close" not in f.read():
                    continue  # it walks the code
            path = os.path.relpath(base, proofs).replace("/", ".")
            entry = data.get(f"Rattle-{crate}-proofs.{path}.Lts")
            said = []
            if entry is None:
                print(f"{crate}/{path}: no names")
                continue
            try:
                function(crate, base, path, entry, contracts, said)
            except Exception as e:  # say which file it was
                print(f"{crate}/{path}: FAILED {type(e).__name__}: {e}")
                raise
            for s in said:
                print(f"{crate}/{path}: {s}")


main(sys.argv[1:])
