#!/usr/bin/env python3
"""Turns proofs of the older form, proofs/F/Proof.antt over a `Tie`, into proofs/F/Invariants.antt and proofs/F/Answers.antt.

usage: tools/answers.py CRATE_FOLDER NAMES [--keep] [F ..]

NAMES is the names.json that `rt check --generated FOLDER --old-names` writes for the crate. Answers that name no fact are left out, since the check
finds them by itself; --keep leaves them in. With F, only these functions, as their folders are called. What could not be turned is said, a line each.
It is used while docs/PORT.md is written, and no more.
"""

import json
import os
import re
import sys

NAME = r"[A-Za-z0-9_'«»-]+"
HEAD = re.compile(r"^((?:abbrev |unfoldable |pub )*)(" + NAME + r")\s*:\s*(.*)$", re.S)
PATH = re.compile(r"(?<![\w'.-])c((?:\.before)*)\.(" + NAME + r")(\.given\.1(?![\w.]))?")
TRIVIAL = re.compile(r"^(?:omega arith|search rules|refl|search \(rules\))$")
START = ("args", "requires", "ranges", "well_formed", "lifetimes", "type_inv", "utf8", "auto")


def norm(name):
    return name.replace("-", "_").replace("_", "")


def blocks(text):
    """The top-level blocks of an .antt file: [comment lines, declaration lines]."""
    out, current = [], []
    for line in text.split("\n"):
        if line.strip() == "" and current and not current[-1].startswith("--"):
            out.append("\n".join(current))
            current = []
        elif line.strip() != "":
            current.append(line)
    if current:
        out.append("\n".join(current))
    return out


class Places:
    def __init__(self, entry):
        self.parent = {p[0]: p[1] for p in entry["places"]}
        self.step = {p[0]: p[2] for p in entry["places"]}

    def chain(self, place):
        while place is not None and place in self.parent:
            yield place
            place = self.parent[place]

    def field(self, place, ups, name):
        chain = list(self.chain(place))
        at = chain[ups] if ups < len(chain) else None
        if at and norm(self.step[at][0]) == norm(name):
            return self.step[at][1]
        if name in START:
            return name
        for q in chain:
            if norm(self.step[q][0]) == norm(name):
                return self.step[q][1]
        # A name that the toolchain's script took for one of the library's: the place says which step it is.
        return self.step[at][1] if at and self.step[at][1] else None


def inlined(body):
    """`let x = c.before.before in` is written out where x is used."""
    while True:
        m = re.search(r"let (" + NAME + r") = (c(?:\.before)+) in\s*", body)
        if not m:
            return body
        rest = re.sub(r"(?<![\w'.-])" + re.escape(m.group(1)) + r"(?=\.)", m.group(2), body[m.end() :])
        body = body[: m.start()] + rest


def turned(body, places, place, said):
    body = inlined(body)

    def one(m):
        ups = m.group(1).count(".before")
        if m.group(3):
            # What said which arm of a `match` it is, is a field of the arm.
            arm = next((places.step[q][1] for q in list(places.chain(place))[ups:] if places.step[q][1].startswith("in-")), None)
            if arm:
                return f"c.{arm}.is"
        new = places.field(place, ups, m.group(2))
        if new is None:
            said.append(f"at {place}: no step {m.group()}")
            return "c." + m.group(2)
        return "c." + new + (m.group(3) or "")

    text = PATH.sub(one, body)
    # The test of `if !x` says now what x is.
    return re.sub(r"not-(?:true|false) (?:_|c[\w.-]*) (c\.if-not[\w.-]*)", r"\1", text).replace(".type-inv", ".type_inv").replace(".type-id", ".type_id").replace(".field-id", ".field_id").replace(".def-index", ".def_index")


def loop_names(entry, k):
    (old, new), names = entry["loops"][k][0], entry["loops"][k][1]
    changed = entry["changed"][k]
    first = [("l.initial." if ch else "l.") + n for n, ch in zip(names, changed)]
    return old, new, first + ["l." + n for n, ch in zip(names, changed) if ch]


def substituted(text, names, values):
    table = {n: v for n, v in zip(names, values) if n != "_"}
    if not table:
        return text
    word = re.compile(r"(?<![\w'.₀-])(" + "|".join(re.escape(n) for n in sorted(table, key=len, reverse=True)) + r")(?![\w'₀-])")
    return word.sub(lambda m: table[m.group(1)], text)


def convert(path, entry, module, keep):
    with open(path, encoding="utf-8") as f:
        text = f.read()
    said, uses, invariants, answers, others = [], [], [], [], []
    places = Places(entry)
    found = re.search(r"\(tie\.spec\s+([^)]*)\)", text) or re.search(r"tie\.spec\s+([^)\n]*)", text)
    order = found.group(1).split() if found else []
    loops = [loop_names(entry, k) for k in range(len(entry["loops"]))]
    by_old = {norm(o): (o, n, at[0]) for (o, n), at in zip(entry["needs"], entry["asked_at"])}
    lead = ""
    heads = []
    for block in blocks(text):
        lines = block.split("\n")
        comment = [l for l in lines if l.startswith("--")]
        lines = [l for l in lines if not l.startswith("--")]
        heads.append((comment, "\n".join(lines)))
    definitions = {}
    for comment, block in heads:
        for use in [l for l in block.split("\n") if l.startswith("use ")]:
            if " as tie" not in use and ".Statement." not in use:
                uses.append(use)
        block = "\n".join(l for l in block.split("\n") if not l.startswith("use "))
        if not block.strip():
            lead += "".join(l + "\n" for l in comment)
            continue
        first, _, rest = block.partition("\n")
        m = HEAD.match(first)
        if not m:
            others.append("\n".join(comment + [block]))
            continue
        name, ty = m.group(2), m.group(3)
        if "statement" in ty.split():
            continue
        if not ty.startswith("tie."):
            others.append("\n".join(comment + [block]))
            continue
        definitions[name] = (comment, ty, rest)
    names = [n for n in order if n in definitions and definitions[n][1].startswith("tie.Need")]
    by_order = {}
    if len(names) == len(entry["needs"]):
        by_order = {n: (o, w, at[0]) for n, (o, w), at in zip(names, entry["needs"], entry["asked_at"])}
    answered = {}
    for name, (comment, ty, rest) in definitions.items():
        target = ty.split()[0]
        if not target.startswith("tie.Need-"):
            which = "invariant" if "invariant" in target else "decreases"
            suffix = target[len("tie." + which + "-") :]
            k = next((i for i, l in enumerate(loops) if norm(l[0]) == norm(suffix)), None)
            if k is None:
                said.append(f"no loop for {name}")
                continue
            m = re.match(r"^" + re.escape(name) + r"((?:\s+[^\s=]+)*)\s*=\s*(.*)$", rest, re.S)
            if not m:
                said.append(f"unread {name}")
                continue
            new = which + "-" + loops[k][1]
            bound = m.group(1).split()
            if len(bound) != len(loops[k][2]):
                said.append(f"{name}: {len(bound)} names for {loops[k][2]}")
            invariants.append("".join(l + "\n" for l in comment) + f"abbrev pub {new} : goal.{new}\n{new} l = " + substituted(m.group(2), bound, loops[k][2]))
            continue
        old = target[len("tie.Need-") :]
        got = by_order.get(name) or by_old.get(norm(old)) or next((by_old[norm(old[len(p) :])] for p in ("overflow-", "overflow_", "slice-bounds-", "slice_bounds-", "nonzero-") if old.startswith(p) and norm(old[len(p) :]) in by_old), None)
        if got is None:
            said.append(f"no goal for {name} : {old}")
            continue
        answered[name] = (comment, rest, got)
    renamed = {n: got[1] for n, (_, _, got) in answered.items()}
    for name, (comment, rest, got) in answered.items():
        unfolding = [l for l in rest.split("\n") if l.startswith("unfolding ")]
        rest = "\n".join(l for l in rest.split("\n") if not l.startswith("unfolding "))
        m = re.match(r"^" + re.escape(name) + r"((?:\s+[^\s=]+)*)\s*=\s*(.*)$", rest, re.S)
        if not m:
            said.append(f"unread {name}")
            continue
        body = m.group(2).strip()
        if TRIVIAL.match(body) and not unfolding and not keep:
            continue
        bound = [b for b in m.group(1).split() if b not in ("κs", "ks")]
        if "c" in bound and bound[-1] != "c":
            bound = bound[: bound.index("c") + 1]
        body = turned(m.group(2), places, got[2], said)
        body = re.sub(r"(?<![\w'.-])(" + NAME + r")(?![\w'-])", lambda w: renamed.get(w.group(1), w.group(1)) if w.group(1) in renamed and w.group(1) != "c" else w.group(1), body) if any(n in body for n in renamed) else body
        answers.append("".join(l + "\n" for l in comment) + f"pub {got[1]} : goal.{got[1]}\n" + "".join(l + "\n" for l in unfolding) + f"{got[1]} {' '.join(bound)} = {body}")
    folder = os.path.dirname(path)
    where = lambda kind: f"use {module}.{kind} as goal\n"
    os.remove(path)
    wrote = []
    for kind, given, items in (("Invariants", "Given", invariants), ("Answers", "Goals", answers)):
        extra = others if kind == ("Answers" if answers else "Invariants") else []
        if not items:
            continue
        body = "\n\n".join(extra + items)
        with open(os.path.join(folder, kind + ".antt"), "w", encoding="utf-8") as f:
            f.write((lead if kind == "Invariants" or not invariants else "") + "".join(u + "\n" for u in sorted(set(uses))) + where(given) + "\n" + body + "\n")
        wrote.append(kind)
    if not answers and not invariants and others:
        said.append("helpers dropped: " + "; ".join(o.split("\n")[0] for o in others))
    if not wrote and not os.listdir(folder):
        os.rmdir(folder)
    return wrote, said


def main(argv):
    keep = "--keep" in argv
    argv = [a for a in argv if a != "--keep"]
    crate, names, only = argv[0], argv[1], argv[2:]
    with open(names) as f:
        table = json.load(f)
    name = os.path.basename(os.path.abspath(crate))
    entries = {}
    for key, entry in table.items():
        m = re.match(r"Rattle-(\w+)-proofs\.(.*)\.Lts$", key)
        if m and m.group(1) == name:
            entries[m.group(2)] = entry
    top = os.path.join(crate, "proofs")
    for at, dirs, files in os.walk(top):
        dirs.sort()
        if "Proof.antt" not in files:
            continue
        f = os.path.relpath(at, top).replace("/", ".")
        if only and f not in only:
            continue
        if f not in entries:
            print(f"{f}: no names")
            continue
        wrote, said = convert(os.path.join(at, "Proof.antt"), entries[f], f"Rattle.{name}.proofs.{f}", keep)
        print(f"{f}: {', '.join(wrote) or 'nothing needed'}")
        for s in said:
            print(f"  {s}")


if __name__ == "__main__":
    main(sys.argv[1:])
