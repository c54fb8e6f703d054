#!/usr/bin/env python3
"""Gives the definitions and lemmas of specs/ and proofs/ names in snake case, here and in the contracts, edits and errors that cite them.

usage: tools/snake_names.py [FOLDER]      in place, over the checkout at FOLDER (here by default)

A name is a word of some .antt file that begins with a small letter and has a capital inside; a predicate that stands alone gets a capital in front.
A lemma whose name would fall together with a definition's gets another first. Text between quotes in code stays.
It was run once, right behind the toolchain's own script (docs/PORT.md).
"""

import os
import re
import sys

# Lemmas that the toolchain's script left under a name that a definition is about to get.
LEMMAS = {"is_digit": "digit-passes", "has_room": "room-there", "head_as": "head-drawn", "slot_ok": "slot-passes", "head_in": "head-laid", "body_ok": "body-passes"}
# A type among the definitions, and the crates that speak of it.
TYPE, SPEAKERS = re.compile(r"(?<![\w'.-])near(?![\w'-])"), ("layout", "hash_rules", "planner")
CAMEL = re.compile(r"[a-z][a-z0-9]*[a-z][A-Z]|u16Step")
WORD = re.compile(r"[A-Za-z][A-Za-z0-9_'-]*")
STRING = re.compile(r'"(?:[^"\\\n]|\\.)*"')


def snake(name):
    return re.sub(r"(?<=[a-z0-9])([A-Z])", lambda m: "_" + m.group(1).lower(), name)


def texts(root, folders, endings):
    for top in folders:
        for at, dirs, files in os.walk(os.path.join(root, top)):
            dirs[:] = sorted(d for d in dirs if d not in ("out", "target", ".git"))
            yield from (os.path.join(at, f) for f in sorted(files) if f.endswith(endings))


def read(path):
    with open(path, encoding="utf-8") as f:
        return f.read()


def names(root):
    found = {n for path in texts(root, ["crates"], (".antt",)) for n in WORD.findall(read(path))}
    return {n: snake(n) for n in found if CAMEL.match(n) or any(CAMEL.match(part) for part in n.split("-"))}


def lemmas(text):
    return re.sub(r"(?<![\w'.`-])(" + "|".join(LEMMAS) + r")(?![\w'-])", lambda m: LEMMAS[m.group()], text)


def typed(text):
    return "".join(l if l.lstrip().startswith(("--", "//")) else TYPE.sub("Near", l) for l in text.splitlines(keepends=True))


def turned(text, to, keep):
    out, at = [], 0
    for m in keep.finditer(text) if keep else ():
        out += [WORD.sub(lambda w: to.get(w.group(), w.group()), text[at : m.start()]), m.group()]
        at = m.end()
    return "".join(out) + WORD.sub(lambda w: to.get(w.group(), w.group()), text[at:])


def main(root="."):
    to = names(root)
    if not to:
        raise SystemExit("nothing to turn: no word of the .antt files has a capital inside")
    for path in list(texts(root, ["crates"], (".antt", ".rt", ".edit"))) + list(texts(root, ["tests/errors.d"], ("",))):
        old = read(path)
        if path.endswith((".antt", ".rt")):
            new = turned(lemmas(old) if path.endswith(".antt") else old, to, None if path.endswith(".antt") else STRING)
        else:
            # An edit or an error that is tried: it may cite names that the toolchain's script turned before.
            new = WORD.sub(lambda w: snake(w.group()) if CAMEL.match(w.group()) else w.group(), old)
        if path.startswith(tuple(os.path.join(root, "crates", c, "") for c in SPEAKERS)):
            new = typed(new)
        if new != old:
            with open(path, "w", encoding="utf-8") as f:
                f.write(new)
    for n in sorted(to):
        print(n, to[n])


if __name__ == "__main__":
    main(*sys.argv[1:])
