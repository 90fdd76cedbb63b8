#!/usr/bin/env python3
"""Respells the names that this repository declares in specs/ and proofs/ as today's Rattle spells them.

usage: respell.py [--dry]      at the top of the repository, once, after port.py

Definitions in camel case (`tableLength`) and lemmas, fields and constructors with dashes (`height-of-rotated`) get snake
case; types and modules keep theirs. Names of the libraries, functions of src/, strings, inputs and outputs keep their
names. Two names that would fall together are told apart: the lemma gets the ending `_lem`. Comments and pages follow.
"""
import collections
import os
import re
import sys

TOKEN = re.compile(r"[^\s(){}\[\];,.:=→λ×⊎|↦\\\"«»`?<>]+")
CAMEL = re.compile(r"[a-z][a-z0-9]*(?:[A-Z][A-Za-z0-9]*)+['′₀-₉]*")
KEBAB = re.compile(r"[a-z][A-Za-z0-9_]*(?:-[A-Za-z0-9_]+)+['′₀-₉]*")
# Lemmas whose snake spelling is that of a definition: they end in `_lem`. Filled from what stands in one file.
APART = {}
# Names in snake case already, by the file where a definition now falls on them.
LOCAL = {
    "crates/rewritten/proofs/Naming.antt": {"above_in": "above_in_lem", "below_in": "below_in_lem"},
    "crates/rewritten/proofs/Leaves.antt": {"leaf_fields": "leaf_fields_lem"},
    "crates/gaps/proofs/GapLaws.antt": {"gap_by": "gap_by_lem"},
    "crates/nodes/proofs/Turns.antt": {"row_step": "row_step_lem"},
    "crates/demands/proofs/Computed.antt": {"laid_out": "laid_out_done"},
    "crates/demands/proofs/RefutedCalls.antt": {"laid_out": "laid_out_done"},
}


def walk(root, *ends):
    for folder, dirs, names in os.walk(root):
        dirs[:] = sorted(d for d in dirs if d not in ("out", ".git", "target"))
        for n in sorted(names):
            if n.endswith(ends):
                yield os.path.join(folder, n)


def code_of(line, mark):
    m = re.search(r"(^|\s)" + mark + r"(\s|$)", line)
    return (line[: m.start()], line[m.start():]) if m else (line, "")


def kind(t):
    return "camel" if CAMEL.fullmatch(t) else "kebab" if KEBAB.fullmatch(t) else None


def snake(t):
    if t in APART:
        return APART[t]
    t = t.replace("-", "_").replace("′", "'")
    t = re.sub(r"(?<=[a-z0-9])([A-Z])(?=[a-z])", lambda m: "_" + m[1].lower(), t)
    return t if "-" in t or not re.search(r"[A-Z]", t) else t


def survey(root):
    crates = set(os.listdir(os.path.join(root, "crates")))
    outside, ours = set(), set()
    for p in walk(os.path.join(root, "crates"), ".antt"):
        text = open(p, encoding="utf-8").read()
        body = "\n".join(code_of(l, "--")[0] for l in text.split("\n"))
        for m in re.finditer(r"use\s+([\w.·+'-]+?)\.?\{([^}]*)\}", body):
            path = m[1].split(".")
            own = path[0] == "Rattle" and len(path) > 1 and path[1] in crates
            made = "Goals" in path or "Given" in path and "proofs" in path or "Tie" in path or "Statement" in path
            for t in TOKEN.findall(m[2]):
                if not own or made:
                    outside.add(t)
        if p.endswith("/Proof.antt"):
            continue
        rest = re.sub(r"use\s+[\w.·+'-]+?\.?\{[^}]*\}", "", body)
        for t in TOKEN.findall(re.sub(r"\.[^\s(){}\[\];,:=→λ×⊎|↦\\\"«»`?<>]+", " ", rest)):
            if kind(t):
                ours.add(t)
    return {t for t in ours if t not in outside}, outside


def turn_code(line, names):
    return TOKEN.sub(lambda m: names.get(m[0], m[0]), line)


def turn_comment(text, names, tops):
    text = re.sub(r"`([^`]+)`", lambda m: "`" + turn_code(m[1], names) + "`", text)

    def one(m):
        t = m[0].strip("'")
        if t in names and (kind(t) == "camel" or t in tops):
            return m[0].replace(t, names[t])
        return m[0]

    return re.sub(r"[A-Za-z][A-Za-z0-9_'′₀-₉-]*[A-Za-z0-9'′₀-₉]", one, text)


def turned(p, text, names):
    out = []
    if p.endswith(".antt"):
        tops = set(re.findall(r"(?m)^(?:(?:pattern|unfoldable|abbrev|pub)\s+)*([^\s(){}:]+)\s*(?:\{[^}]*\})?\s*:", text))
        for l in text.split("\n"):
            code, comment = code_of(l, "--")
            out.append(turn_code(code, names) + turn_comment(comment, names, tops))
        return "\n".join(out)
    if p.endswith(".rt"):
        camel = {a: b for a, b in names.items() if kind(a) == "camel"}
        for l in text.split("\n"):
            code, comment = code_of(l, "//")
            ghost = re.match(r"\s*(ghost use|pub ghost use|requires|ensures)\b", code)
            out.append(turn_code(code, names if ghost else camel) + turn_comment(comment, names, set()))
        return "\n".join(out)
    if p.endswith(".edit"):
        camel = {a: b for a, b in names.items() if kind(a) == "camel"}
        return turn_code(text, camel)
    return re.sub(r"`([^`\n]+)`", lambda m: "`" + turn_code(m[1], names) + "`", text)


def main():
    root = "."
    mine, outside = survey(root)
    taken = {snake(t) for t in mine if kind(t) == "camel"} | {"pair_at"}
    APART.update({t: snake(t) + "_lem" for t in mine if kind(t) == "kebab" and snake(t) in taken})
    names = {t: snake(t) for t in mine if snake(t) != t}
    bad = collections.defaultdict(set)
    todo = list(walk("crates", ".antt", ".rt", ".edit")) + ["README.md"] + [p for p in walk("docs", ".md")]
    for p in todo:
        if p.endswith(".md"):
            continue
        text = open(p, encoding="utf-8").read()
        lines = [code_of(l, "--" if p.endswith(".antt") else "//")[0] for l in text.split("\n")]
        there = set(TOKEN.findall("\n".join(lines)))
        back = collections.defaultdict(set)
        for t in there:
            back[LOCAL.get(p, {}).get(t) or names.get(t, t)].add(t)
        for new, old in back.items():
            if len(old) > 1 and any(o in names for o in old):
                bad[tuple(sorted(old))].add(p)
    if "--dry" in sys.argv:
        for old, where in sorted(bad.items()):
            print(old, len(where), sorted(where)[:3])
        print(len(names), "names")
        left = sorted(t for t in mine if snake(t) == t)
        print("unchanged:", left)
        return
    for p in todo:
        text = open(p, encoding="utf-8").read()
        new = turned(p, text, names | LOCAL.get(p, {}))
        if new != text:
            with open(p, "w", encoding="utf-8") as f:
                f.write(new)


main()
