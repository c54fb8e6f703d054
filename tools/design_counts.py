#!/usr/bin/env python3
"""Counts the places that docs/DESIGN-PASS.md speaks of, in the crates of a checkout: tools/design_counts.py [-v] [FOLDER]"""
import collections
import pathlib
import re
import sys

verbose = "-v" in sys.argv
rest = [a for a in sys.argv[1:] if a != "-v"]
top = pathlib.Path(rest[0] if rest else ".") / "crates"
files = sorted(top.glob("*/src/**/*.rt"))
text = {f: f.read_text() for f in files}


def code(s):
    return re.sub(r"//[^\n]*", "", s)


def show(point, name, found):
    print(f"{point}  {len(found):4}  {name}")
    if verbose:
        for x in found:
            print("            " + x)


def place(f, s, at):
    return f"{f.relative_to(top)}:{s.count(chr(10), 0, at) + 1}"


def lines(pattern, where=lambda f: True):
    out = []
    for f, s in text.items():
        if where(f):
            t = code(s)
            out += [f"{place(f, t, m.start())} {' '.join(m.group(0).split())[:90]}" for m in re.finditer(pattern, t, re.M)]
    return out


def enums():
    """Enums of two or three cases of which one carries what was found: the shape of Option or Result."""
    out = []
    for f, s in text.items():
        t = code(s)
        for m in re.finditer(r"enum (\w+)(?:<[^>]*>)? \{([^{}]*)\}", t):
            cases = re.findall(r"(\w+)(\([^)]*\))?\s*,", m.group(2))
            full = [c for c in cases if c[1]]
            if 2 <= len(cases) <= 4 and (any(c[0] == "Refused" for c in cases) or len(full) == 1 and len(cases) == 2):
                out.append(f"{place(f, t, m.start())} {m.group(1)} {' '.join(c[0] + c[1] for c in cases)}")
    return out


def clauses():
    """Facts that stand in the `requires` of three or more functions of src/, names of arguments set aside."""
    seen = collections.defaultdict(list)
    for f, s in text.items():
        t = code(s)
        for m in re.finditer(r"requires(?: \w+)? \{(.*)\}", t):
            for fact in m.group(1).split("×"):
                fact = fact.strip()
                while fact.startswith("(") and fact.endswith(")"):
                    fact = fact[1:-1].strip()
                key = re.sub(r"\b[a-z_]+\.(now|old|new)\b", "_", fact)
                key = re.sub(r"\b(h|g|from|to|at|n|m|k|source|target)\b", "_", key)
                seen[key].append(place(f, t, m.start()))
    return [f"{len(v)} × {k}" for k, v in sorted(seen.items(), key=lambda x: -len(x[1])) if len(v) >= 3]


def together():
    """Runs of four or more arguments that three or more functions of one crate take alike."""
    seen = collections.defaultdict(set)
    for f, s in text.items():
        t = code(s)
        crate = f.relative_to(top).parts[0]
        for m in re.finditer(r"fn (\w+)(?:<[^>]*>)?\(([^)]*)\)", t):
            args = [" ".join(a.split()) for a in m.group(2).split(",") if ":" in a]
            for i in range(len(args) - 3):
                seen[(crate, tuple(args[i : i + 4]))].add(m.group(1))
    return [f"{c}: {', '.join(a)}  in {len(fs)}" for (c, a), fs in sorted(seen.items()) if len(fs) >= 3]


show(1, "own enums of the shape of Option or Result", enums())
show(1, "numbers that name a kind, a word, an item or a fault", lines(r"^\s*pub const [A-Z_]+: (?:usize|u8|i32) = \d+;", lambda f: f.relative_to(top).parts[0] in ("catalogue", "cases", "owl", "owl_check", "owl_blocks") and not re.search(r"room|kept", f.name)))
show(1, "a flag, as a field or an argument", lines(r"\b[a-z_]+: bool\b"))
show(2, "functions that say a type or a width in their names", lines(r"fn \w*?(?:u8|u16|u32|u64|16|32|_8|two|four|eight)\w*\("))
show(3, "loops by `while`", lines(r"\bwhile\b[^{;]*\{"))
show(4, "equality, conversion or printing by hand", lines(r"fn (?:same|number|decimal|signed|next|hex|octets|narrow|in_two_bytes|in_a_byte|one|wide8|wide16|lesser|greater|low|high|text|glyph|hex_digit|digit|put_mark|column)\("))
show(5, "facts in three or more `requires`", clauses())
show(5, "four arguments that travel together in three or more functions", together())
show(6, "an array or a slice with a number beside it that says how much of it is meant", lines(r"(?:: &(?:mut )?\[[^\]]+\]|: &(?:mut )?(?:Text|Room|Steps)),\s*(?:n|count|have|m)\s*: usize") + lines(r"count: usize,\s*\n\s*(?:pub )?\w+: \["))
show(7, "a match or a chain of comparisons on a number that says what to run", lines(r"match (?:k|item|blanks::which\([^)]*\)) \{|if (?:k|item) < "))
proofs = [f for f in top.glob("*/proofs/**/*.antt")]
print(f"8  {sum(f.read_text().count(chr(10)) for f in proofs):6}  lines of proofs, in {len(proofs)} files, {sum(1 for f in proofs if f.name == 'Answers.antt')} of them answers")
