#!/usr/bin/env python3
"""Turns a crate's old Proof.antt files into Invariants.antt and Answers.antt.

usage: turn_proofs.py NAME [--again]     at the top of the repository; --again writes Answers.antt anew

Each Proof.antt moves to the folder oldproofs/<repository>/NAME/ of the system's temporary folder; its invariants and measures are respelled; what the check
leaves open is answered by the old answer, respelled: places are flat now (`c.before.before.f` is `c.f`), and a goal
has its new name. What does not fit is left for the hand, and the check says so.
"""
import json
import os
import re
import shutil
import subprocess
import sys
import tempfile

ROOT = os.getcwd()
IDENT = r"[A-Za-z_μκ][\w'′₀-₉-]*"


def rt(crate, *words):
    r = subprocess.run(["rt", *words], cwd=os.path.join(ROOT, "crates", crate), stdout=subprocess.PIPE, stderr=subprocess.STDOUT, text=True, errors="replace", env=dict(os.environ, RT_CUT="0"))
    return r.stdout


def norm(s):
    return s.replace("-", "_")


def blocks(text):
    """Top-level declarations of a proof file: (name, signature, unfolding line, body, whole text)."""
    out = []
    for chunk in re.split(r"\n(?=\S)", text):
        out.append(chunk.rstrip())
    merged, i = [], 0
    decls = []
    head = []
    cur = None
    for chunk in out:
        chunk = re.sub(r"^((?:pub )?)\+(\S+-spec\b)", r"\1\2", chunk)
        if not chunk or chunk.startswith("--") or chunk.startswith("use "):
            head.append(chunk)
            continue
        m = re.match(r"(?:(?:abbrev|pub|unfoldable)\s+)*(" + IDENT + r")\s*(?:\{[^}]*\})?\s*:(.*)", chunk, re.S)
        if m and not re.match(r"unfolding ", chunk):
            cur = {"name": m[1], "sig": m[2].strip(), "marks": chunk[: m.start(1)], "unfolding": "", "body": "", "raw": chunk}
            decls.append(cur)
        elif chunk.startswith("unfolding ") and cur:
            cur["unfolding"] = chunk.strip()
            cur["raw"] += "\n" + chunk
        elif cur is not None:
            cur["body"] += ("\n" if cur["body"] else "") + chunk
            cur["raw"] += "\n" + chunk
    return head, decls


class Fn:
    def __init__(self, entry):
        self.e = entry
        self.labels = {}
        for p in entry["places"]:
            old, new = p[2]
            if old:
                self.labels.setdefault(norm(old), new)
        self.arms = []
        for a in entry["arms"]:
            if not a:
                continue
            for field in a[2]:
                new, old, path = field
                self.arms.append((tuple([norm(old)] + [str(x) for x in path]), a[0], new))
        self.arms.sort(key=lambda t: -len(t[0]))
        self.needs = dict((norm(o), n) for o, n in entry["needs"])
        self.placenames = {}
        for i, p in enumerate(entry["places"]):
            self.placenames[p[0]] = entry["places_by_name"][i]

    def chain(self, fields):
        """Fields after a place: without .before, labels respelled."""
        while fields and fields[0] == "before":
            fields = fields[1:]
        if not fields:
            return None
        f = norm(fields[0])
        rest = list(fields[1:])
        if fields[0] == "pre":
            return ["requires"] + rest
        if fields[0] in ("args", "ranges"):
            return [fields[0]] + [norm(x) for x in rest[:1]] + rest[1:]
        if f.endswith("_lem") and f not in self.labels and f[:-4] in self.labels:
            f = f[:-4]
        key = tuple([f] + rest)
        for path, lab, new in self.arms:
            if len(path) > 1 and key[: len(path)] == path:
                return [lab, new] + rest[len(path) - 1:]
        if f in self.labels:
            lab = self.labels[f]
            if rest and rest[0] == "left":
                rest[0] = "true"
            if rest and rest[0] == "right" and lab.startswith(("if", "loop")):
                rest[0] = "false"
            if rest and rest[0] == "inv":
                rest[0] = "invariant"
            if rest and rest[0] not in ("ensures", "result"):
                rest[0] = rest[0] if rest[0] in ("true", "false", "invariant", "branch") else norm(rest[0])
            return [lab] + rest
        for path, lab, new in self.arms:
            if len(path) == 1 and path[0] == f:
                return [lab] + rest
        return [fields[0]] + rest

    def body(self, text, need, start="c"):
        places = {start}
        # places bound by let
        changed = True
        while changed:
            changed = False
            for m in re.finditer(r"let\s+(" + IDENT + r")\s*=\s*(" + IDENT + r")((?:\.before)*)\s+in\b", text):
                if m[2] in places and m[1] not in places:
                    places.add(m[1])
                    changed = True
        text = re.sub(r"let\s+(" + IDENT + r")\s*=\s*(" + IDENT + r")((?:\.before)*)\s+in\s*\(?", lambda m: ("" if not m[0].rstrip().endswith("(") else "(") if m[1] in places and m[2] in places else m[0], text)
        names = "|".join(sorted((re.escape(p) for p in places), key=len, reverse=True))

        def one(m):
            fields = m[2].split(".")[1:] if m[2] else []
            new = self.chain(fields)
            if new is None:
                return "c" if need is None else "c{-" + "place" + "-}" if fields else "c"
            return ".".join(["c"] + new)

        text = re.sub(r"(?<![\w.'′₀-₉-])(" + names + r")((?:\.[\w'′₀-₉-]+)*)(?![\w'′₀-₉-])", one, text)
        text = re.sub(r"\(not-(?:true|false) _ (c\.if-not-[\w-]+\.(?:true|false))\)", r"\1", text)
        return text.replace("c{-place-}", "c")


def subst(text, table):
    keys = "|".join(sorted((re.escape(k) for k in table), key=len, reverse=True))
    if not keys:
        return text
    return re.sub(r"(?<![\w.'′₀-₉-])(" + keys + r")(?![\w'′₀-₉-])", lambda m: table[m[1]], text)


def entry_of(names, crate, folder):
    path = folder.replace("/", ".")
    key = f"Rattle-{crate}-proofs.{path}.Lts"
    if key in names:
        return names[key]
    last = folder.split("/")[-1].lstrip("+")
    for k in names:
        if k.startswith(f"Rattle-{crate}-proofs.{path}") or k.endswith(f"Lts-{last}"):
            return names[k]
    return None


def fn_args(crate, folder):
    name = folder.split("/")[-1].lstrip("+")
    for d, _, fs in os.walk(os.path.join(ROOT, "crates", crate, "src")):
        for f in fs:
            t = open(os.path.join(d, f)).read()
            m = re.search(r"fn " + name + r"\(([^)]*)\)", t)
            if m:
                return [re.sub(r"^mut ", "", a.split(":")[0].strip()) for a in m[1].split(",") if ":" in a]
    return []


def uses_of(head):
    keep = []
    for h in head:
        if h.startswith("use "):
            one = " ".join(h.split())
            if re.search(r"borrow\.Fn|\.(Tie|Statement|Lts|Reads|Kinds)\b|Lts-| as (tie|own|kinds|lts)\b|\.\{statement\}|Tie\.\{close\}", one):
                continue
            keep.append(one)
    return keep


def needed(uses, text):
    out = []
    for u in uses:
        m = re.match(r"(use\s+[^\s{]+\.)\{([^}]*)\}", u)
        if not m:
            if re.search(r" as ([\w-]+)$", u):
                a = re.search(r" as ([\w-]+)$", u)[1]
                if re.search(r"(?<![\w.-])" + re.escape(a) + r"\.", text):
                    out.append(u)
            else:
                out.append(u)
            continue
        items = [x.strip() for x in m[2].split(",") if x.strip()]
        keep = [x for x in items if re.search(r"(?<![\w'-])" + re.escape(x.split(" as ")[-1].replace("◌", "").strip()) + (r"(?![\w'-])" if x[-1].isalnum() else ""), text)]
        if keep:
            out.append(m[1] + "{" + ", ".join(keep) + "}")
    return out


def invariants(crate, folder, old, fn, path):
    head, decls = old
    comments = []
    for h in head:
        if h.startswith("--"):
            comments.append(h)
        else:
            break
    out = []
    if fn:
        loops = {norm(l[0][0]): l for l in fn.e["loops"]}
        for d in decls:
            m = re.match(r"(invariant|decreases)-(loop\S*)$", d["name"])
            if not m:
                continue
            lab = norm(m[2])
            if lab not in loops:
                out.append("-- left: " + d["raw"].replace("\n", "\n-- "))
                continue
            new, fields = loops[lab][0][1], loops[lab][1]
            lhs, _, body = d["body"].partition("=")
            params = lhs.split()[1:]
            other = [x for x in decls if x["name"] == body.strip()]
            if not params and other:
                lhs, _, body = other[0]["body"].partition("=")
                params = lhs.split()[1:]
            table = {}
            for p in params:
                base = p.rstrip("₀₁₂₃₄")
                q = norm(base)
                if p.endswith("₀"):
                    table[p] = "l.initial." + q
                elif q in fields:
                    table[p] = "l." + q
                else:
                    table[p] = "l.fn." + q
            out.append(f"abbrev pub {m[1]}-{new} : goal.{m[1]}-{new}\n{m[1]}-{new} l = {subst(body.strip(), table)}")
    if "+" in folder:
        name = folder.split("/")[-1].lstrip("+")
        args = fn_args(crate, folder)
        for d in decls:
            if d["name"] == "μ":
                body = d["body"].partition("=")[2].strip()
                lhs = d["body"].partition("=")[0].split()
                v = lhs[-1] if lhs else "a"

                def idx(m):
                    parts = [int(x) for x in m[1].split(".") if x]
                    n = sum(1 for x in parts if x == 1)
                    return "l." + args[n] if n < len(args) else m[0]

                body = re.sub(r"\b" + re.escape(v) + r"((?:\.[01])+)", idx, body)
                out.append(f"abbrev pub decreases-{name} : goal.decreases-{name}\ndecreases-{name} l = {body}")
    if not out:
        return
    text = "\n\n".join(out) + "\n"
    uses = needed(uses_of(head), text)
    base = f"Rattle.{crate}.proofs.{folder.replace('/', '.')}.Given"
    uses.append(f"use {base} as goal")
    with open(os.path.join(path, "Invariants.antt"), "w") as f:
        f.write("\n".join(comments) + ("\n" if comments else "") + "\n".join(uses) + "\n\n" + text)


def lead_and_parts(body, n):
    """What stands before the tuple that a body ends with, and the tuple's parts."""
    if not body.endswith(")"):
        return "", []
    depth, start = 0, None
    for i in range(len(body) - 1, -1, -1):
        if body[i] in ")]}":
            depth += 1
        if body[i] in "([{":
            depth -= 1
            if depth == 0:
                start = i
                break
    lead = body[:start]
    if start is None or (lead.strip() and not re.search(r"\bin\s*$", lead)):
        return "", []
    comps = split_tuple(body[start:])
    while 1 < len(comps) < n and len(split_tuple(comps[-1])) > 1:
        comps = comps[:-1] + split_tuple(comps[-1])
    return lead, comps


def split_tuple(text):
    text = text.strip()
    if not (text.startswith("(") and text.endswith(")")):
        return [text]
    depth, out, last = 0, [], 1
    for i, ch in enumerate(text):
        if ch in "([{":
            depth += 1
        elif ch in ")]}":
            depth -= 1
            if depth == 0 and i != len(text) - 1:
                return [text]
        elif ch == "," and depth == 1:
            out.append(text[last:i].strip())
            last = i + 1
    out.append(text[last:-1].strip())
    if len(out) > 1 and not out[-1]:
        out.pop()
    return out


def clauses_of(crate, folder, goal):
    """The names of the clauses that a goal covers, in their order."""
    if goal.startswith("returns"):
        name, word, crates = folder.split("/")[-1].lstrip("+"), "ensures", [crate]
    elif "-requires" in goal:
        name, word, crates = goal.split("-")[0], "requires", [crate] + sorted(os.listdir(os.path.join(ROOT, "crates")))
    else:
        return []
    for c in crates:
        for d, _, fs in os.walk(os.path.join(ROOT, "crates", c, "src")):
            for f in sorted(fs):
                t = open(os.path.join(d, f)).read()
                m = re.search(r"fn " + re.escape(name) + r"[(<]", t)
                if m:
                    head = re.split(r"\n\{|\n\s*\}?\s*\n(?=pub |fn |//)", t[m.start():])[0]
                    return re.findall(r"\n\s*" + word + r"\s+(\w+)\s*\{", "\n" + head)
    return []


def field_of(fields, path):
    """The clause that a path of old projections names (`.1.0` is the second of three), and the rest of the path."""
    ones = 0
    while ones < len(path) and path[ones] == "1" and ones < len(fields) - 1:
        ones += 1
    if ones == len(fields) - 1:
        return fields[ones], path[ones:]
    if ones < len(path) and path[ones] == "0":
        return fields[ones], path[ones + 1:]
    return None, path


ALL_CLAUSES = {}


def clause_names(crate):
    """The named clauses of each function, by its crate's or else by the only crate's that has it."""
    if not ALL_CLAUSES:
        for c in sorted(os.listdir(os.path.join(ROOT, "crates"))):
            for d, _, fs in os.walk(os.path.join(ROOT, "crates", c, "src")):
                for f in sorted(fs):
                    if not f.endswith(".rt"):
                        continue
                    for m in re.finditer(r"fn (\w+)[(<]((?:(?!\nfn |\npub fn |\n\s*\{\n).)*)", open(os.path.join(d, f)).read(), re.S):
                        got = {w: re.findall(r"\n\s*" + w + r"\s+(\w+)\s*\{", "\n" + m[2]) for w in ("ensures", "requires")}
                        ALL_CLAUSES.setdefault(m[1], {})[c] = got
    out = {}
    for name, by in ALL_CLAUSES.items():
        got = by.get(crate) or (next(iter(by.values())) if len({json.dumps(v) for v in by.values()}) == 1 else None)
        if got:
            out[name] = got
    return out


def clause_fields(crate, body):
    names = clause_names(crate)

    def one(m):
        got = names.get(m[1].split("-")[0])
        if not got or len(got[m[2]]) < 2:
            return m[0]
        f, rest = field_of(got[m[2]], m[3].split(".")[1:])
        return f"c.{m[1]}.{m[2]}." + ".".join([f] + rest) if f else m[0]

    return re.sub(r"(?<![\w.'-])c\.([\w-]+)\.(ensures|requires)((?:\.[01])+)", one, body)


def field_answers(crate, said):
    """Projections by a number, where a record has named fields now."""
    todo = {}
    for m in re.finditer(r"\./(proofs/\S+\.antt):(\d+):(\d+): error: [^\n]*\n  has no field `([01])`\n  its fields are ([^\n]*)", said):
        todo.setdefault(m[1], []).append((int(m[2]), int(m[3]), re.findall(r"`([^`]+)`", m[5])))
    for path, places in todo.items():
        p = os.path.join(ROOT, "crates", crate, path)
        lines = open(p).read().split("\n")
        for row, col, fields in sorted(set((a, b, tuple(f)) for a, b, f in places), reverse=True):
            line = lines[row - 1]
            m = re.match(r"(?:\.[01](?![\w]))+", line[col - 1:])
            if not m:
                continue
            f, rest = field_of(list(fields), m[0].split(".")[1:])
            if f:
                lines[row - 1] = line[: col - 1] + "." + ".".join([f] + rest) + line[col - 1 + m.end():]
        open(p, "w").write("\n".join(lines))
    return bool(todo)


def product_paths(kind, n):
    """The projections that take apart a product of n facts, as a type's text shows it."""
    if n == 1:
        return [""]
    s, depth, parts, start = kind.strip(), 0, [], 0
    for i, ch in enumerate(s):
        if ch in "([{":
            depth += 1
        elif ch in ")]}":
            depth -= 1
        elif ch == "×" and depth == 0:
            parts.append(s[start:i].strip())
            start = i + 1
    parts.append(s[start:].strip())
    if len(parts) == n:
        return [f".{i}" for i in range(n)]
    if 1 < len(parts) < n and parts[-1].startswith("(") and parts[-1].endswith(")"):
        rest = product_paths(parts[-1][1:-1], n - len(parts) + 1)
        if rest:
            return [f".{i}" for i in range(len(parts) - 1)] + [f".{len(parts) - 1}" + r for r in rest]
    return None


def product_answers(crate, said):
    """A lemma that gives a product, where a goal asks a record now."""
    todo = {}
    for m in re.finditer(r"\./(proofs/\S+/Answers\.antt):(\d+):(\d+): error: `([^`]+)`:((?:[^\n]*\n(?!\./|fn ))*?)\s+but this has type `([^\n]*)`\n", said):
        if "Asks-" + m[4] not in m[5]:
            continue
        f = re.search(r"two types are `record \{([^\n]*)", m[5])
        todo.setdefault(m[1], []).append((m[4], int(m[2]), int(m[3]), m[6]))
    changed = False
    for path, places in todo.items():
        p = os.path.join(ROOT, "crates", crate, path)
        folder = os.path.dirname(path)[len("proofs/"):]
        text = open(p).read()
        lines = text.split("\n")
        for name, row, col, kind in sorted(set(places), key=lambda t: -t[1]):
            fields = clauses_of(crate, folder, name)
            paths = product_paths(kind, len(fields)) if len(fields) > 1 else None
            if not paths:
                continue
            at = sum(len(x) + 1 for x in lines[: row - 1]) + col - 1
            end = re.search(r"\n\n\S|\Z", text[at:]).start() + at
            term = text[at:end].rstrip()
            text = text[:at] + f"let both = {term} in record {{ " + "; ".join(f"{f} = both{q}" for f, q in zip(fields, paths)) + " }" + text[end:]
            changed = True
        open(p, "w").write(text)
    return changed


def answers(crate, folder, old, fn, path, wanted):
    head, decls = old
    rest, done = [], []
    helpers = []
    texts = []
    for d in decls:
        m = re.search(r"(?:tie|lts)\.Need-(\S+)", d["sig"])
        if not m:
            if re.match(r"(invariant|decreases)-", d["name"]) or d["name"] in ("μ", "entered", "deeper", "called", "started", "below") or d["name"].endswith("spec") or "statement" in d["sig"]:
                continue
            helpers.append(d)
            continue
        o = norm(m[1])
        o2 = re.sub(r"^overflow_", "", o)
        new = fn.needs.get(o) or fn.needs.get(o2)
        lhs, _, body = d["body"].partition("=")
        body = body.strip()
        if not new or (re.match(r"search rules$", body) and not d["unfolding"]):
            continue
        params = [p for p in lhs.split()[1:] if p != "κs"]
        var = params[-1] if params else "c"
        body = fn.body(body, new, var)
        body = re.sub(r"\s+κs\b", "", body) if "κs" in lhs else body
        if "+" in folder:
            body = re.sub(r"(?<![\w.-])c\.requires\.([01])(?![\w])", lambda m: "c.decreases" if m[1] == "0" else "c.requires", body)
        body = clause_fields(crate, body)
        texts.append((new, d, params[:-1], body))
    helptext = ""
    for h in helpers:
        raw = h["raw"]
        raw = re.sub(r"(?:tie|lts)\.(After|Then|Else|At|In|Start)(\S*)( invariant\S*| decreases\S*| \(called t\)| \(entered t\)| own\.Post)*", lambda m: fn.placenames.get(m[1] + m[2], m[1] + m[2]), raw)
        raw = fn.body(raw, None)
        helptext += raw + "\n\n"
    picked = [t for t in texts if any(w == t[0] or w.startswith(t[0] + "-clause") for w in wanted)]
    parted = []
    for new, d, extra, body in picked:
        mine = [w for w in wanted if w.startswith(new + "-clause-")]
        names_of = clauses_of(crate, folder, new)
        lead, comps = lead_and_parts(body, len(names_of))
        if new in wanted or not mine or len(comps) != len(names_of):
            if mine and new not in wanted and re.match(r"search \S+$|search \([^()]*\)$", body):
                parted += [(w, d, extra, body) for w in mine]
            else:
                parted.append((new, d, extra, body))
            continue
        for w in mine:
            n = w[len(new) + 8:]
            if n in names_of:
                parted.append((w, d, extra, lead + comps[names_of.index(n)]))
    picked = parted
    out = []
    used = " ".join(t[3] for t in picked)
    if any(re.search(r"(?<![\w.-])" + re.escape(h["name"]) + r"(?![\w-])", used) for h in helpers):
        out.append(helptext.rstrip())
    for new, d, extra, body in picked:
        unf = "\n" + d["unfolding"] if d["unfolding"] else ""
        out.append(f"pub {new} : goal.{new}{unf}\n{new} {' '.join(extra + ['c'])} = {body}")
    left = [w for w in wanted if "::" not in w and not any(w == t[0] or w.startswith(t[0] + "-clause") for t in picked)]
    if not out:
        return left
    text = "\n\n".join(out) + "\n"
    uses = needed(uses_of(head), text)
    base = f"Rattle.{crate}.proofs.{folder.replace('/', '.')}.Goals"
    uses.append(f"use {base} as goal")
    target = os.path.join(path, "Answers.antt")
    if os.path.exists(target) and "--again" not in sys.argv:
        print("answers stand already:", target)
        return left
    with open(target, "w") as f:
        f.write("\n".join(uses) + "\n\n" + text)
    return left


def open_goals(said):
    """fn folder -> goals that are left."""
    out = {}
    for m in re.finditer(r"help: write \./proofs/(\S+)/(Answers|Invariants)\.antt with these lines[^\n]*\n((?:    [^\n]*\n|\n)+)", said):
        goals = re.findall(r"    (?:abbrev )?pub (\S+) : goal\.", m[3])
        out.setdefault(m[1], []).extend(goals)
    for m in re.finditer(r"fn \S+: no proof: expected answers in \./proofs/(\S+)/Answers\.antt; ([^\n]*)", said):
        for g in re.findall(r"`([^`]+)`", m[2]):
            if g != "search" and g not in out.setdefault(m[1], []):
                out[m[1]].append(g)
    return out


def tuple_parts(tuple_text):
    """The components of a tuple's text `(a, (b, c))`, flattened, or None where it is none."""
    s = tuple_text.strip()
    if not (s.startswith("(") and s.endswith(")")):
        return None
    depth, parts, start = 0, [], 1
    for i, ch in enumerate(s):
        if ch in "([{":
            depth += 1
        elif ch in ")]}":
            depth -= 1
            if depth == 0 and i < len(s) - 1:
                return None
        elif ch == "," and depth == 1:
            parts.append(s[start:i].strip())
            start = i + 1
    parts.append(s[start:-1].strip())
    parts = [x for x in parts if x]
    return parts if len(parts) > 1 else None


def clause_answers(crate, said, wanted):
    """Answers that are tuples where a goal now asks a record: one answer for each clause that is left."""
    changed = False
    for m in re.finditer(r"\./proofs/(\S+)/Answers\.antt:\d+:\d+: error: `([^`]+)`: a value of [^\n]*\n\s*is built with `record \{ ([^`]*) \}`", said):
        folder, name = m[1], m[2]
        fields = [f.split("=")[0].strip() for f in m[3].split(";")]
        path = os.path.join(ROOT, "crates", crate, "proofs", folder, "Answers.antt")
        text = open(path).read()
        d = re.search(r"pub " + re.escape(name) + r" : goal\." + re.escape(name) + r"((?:\nunfolding[^\n]*)?)\n" + re.escape(name) + r"( [^=\n]*)=(.*?)(?=\n\n\S|\Z)", text, re.S)
        if not d:
            continue
        body = d[3].strip()
        prefix = ""
        at = 0
        while True:
            parts = tuple_parts(body[at:])
            if parts:
                break
            nxt = re.search(r"\bin\s*(?=\()", body[at:])
            if not nxt:
                break
            at += nxt.end()
        if not parts:
            continue
        prefix = body[:at]
        while len(parts) < len(fields) and tuple_parts(parts[-1]):
            parts = parts[:-1] + tuple_parts(parts[-1])
        if len(parts) == len(fields) + 1 and parts[-1] == "tt":
            parts.pop()
        if len(parts) != len(fields):
            continue
        ask = [w[len(name) + 8:] for w in wanted.get(folder, []) if w.startswith(name + "-clause-")] or fields
        out = []
        for f, part in zip(fields, parts):
            if f in ask and not re.match(r"search rules$", part):
                g = f"{name}-clause-{f}"
                out.append(f"pub {g} : goal.{g}{d[1]}\n{g}{d[2]}= {prefix}{part}")
        text = text[: d.start()] + "\n\n".join(out) + text[d.end():]
        open(path, "w").write(text)
        changed = True
    return changed


def main():
    crate = sys.argv[1]
    proofs = os.path.join(ROOT, "crates", crate, "proofs")
    store = os.path.join(tempfile.gettempdir(), "oldproofs", os.path.basename(ROOT), crate)
    os.makedirs(store, exist_ok=True)
    found = []
    for d, dirs, fs in os.walk(proofs):
        if "Proof.antt" in fs:
            found.append(os.path.relpath(d, proofs))
    namesfile = os.path.join(store, "names.json")
    if not os.path.exists(namesfile) or found:
        d = tempfile.mkdtemp()
        said = rt(crate, "check", "--generated", d, "--old-names")
        if not os.path.exists(os.path.join(d, "names.json")):
            print(said[-3000:])
            sys.exit("no names: mend the crates below, or the sources, first")
        shutil.copy(os.path.join(d, "names.json"), namesfile)
    names = json.load(open(namesfile))
    olds = {}
    for folder in found:
        p = os.path.join(proofs, folder, "Proof.antt")
        keep = os.path.join(store, folder)
        os.makedirs(keep, exist_ok=True)
        shutil.move(p, os.path.join(keep, "Proof.antt"))
    for d, dirs, fs in os.walk(store):
        if "Proof.antt" in fs:
            folder = os.path.relpath(d, store)
            olds[folder] = blocks(open(os.path.join(d, "Proof.antt")).read())
    for folder in found:
        e = entry_of(names, crate, folder)
        fn = Fn(e) if e else None
        path = os.path.join(proofs, folder)
        invariants(crate, folder, olds[folder], fn, path)
        if not os.listdir(path):
            os.rmdir(path)
    if "--again" in sys.argv and os.path.exists(os.path.join(store, "said1.txt")):
        said = open(os.path.join(store, "said1.txt")).read()
    else:
        said = rt(crate, "check")
    open(os.path.join(store, "said1.txt"), "w").write(said)
    goals = open_goals(said)
    print("open after invariants:", {k: len(v) for k, v in goals.items()})
    if not goals:
        print("\n".join(l[:300] for l in said.split("\n") if "error" in l or l.startswith("logic=") or "not proved" in l or "no proof" in l))
        return
    for folder, wanted in goals.items():
        if folder not in olds:
            print("no old proof:", folder, wanted)
            continue
        e = entry_of(names, crate, folder)
        if not e:
            print("no names:", folder)
            continue
        path = os.path.join(proofs, folder)
        os.makedirs(path, exist_ok=True)
        left = answers(crate, folder, olds[folder], Fn(e), path, wanted)
        if left:
            print("left by hand:", folder, left)
    rt(crate, "fmt")
    said = rt(crate, "check")
    open(os.path.join(store, "said2.txt"), "w").write(said)
    for _ in range(6):
        mended = clause_answers(crate, said, goals)
        mended = field_answers(crate, said) or mended
        if not product_answers(crate, said) and not mended:
            break
        rt(crate, "fmt")
        said = rt(crate, "check")
        open(os.path.join(store, "said2.txt"), "w").write(said)
    print("\n".join(l[:400] for l in said.split("\n") if ": error" in l or l.startswith("logic=") or "not proved" in l or "no proof" in l))


main()
