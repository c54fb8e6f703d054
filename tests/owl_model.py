#!/usr/bin/env python3
"""Compares the command owl with a model of it: texts of layouts read anew and answered by the models of the field cursor, the planner and the upgrade.

  tests/owl_model.py [N] [SEED]     the samples, then N random texts (default 200)

Of each text: plan, hash, map, the upgrade of records of every length around the steps, and the check of damaged plans. Needs target/bin/owl."""
import os, random, subprocess, sys, tempfile

import model_text
from model import *
from model_cursor import Cursor, structs_of
from model_plan import planned, select_text
from model_upgrade import Plan, upgraded

ROOT = os.path.join(os.path.dirname(os.path.abspath(__file__)), "..")
OWL = os.path.join(ROOT, "target", "bin", "owl")
TYPES = dict(
    u8=1, u16=2, u32=3, u64=4, i8=17, i16=18, i32=19, i64=20, price=33, cstr=49, symbol=50, char=96, enum16=97, enumchar=98, enum8=99,
    bits8=100, bits16=101, bits32=102, bits64=103, f32=104, f64=105, timestamp=106,
)
KINDS = {**GOOD_KINDS, 98: (OTHER, 1), 99: (OTHER, 1), 100: (OTHER, 1), 101: (OTHER, 2), 102: (OTHER, 4), 103: (OTHER, 8), 104: (OTHER, 4), 105: (OTHER, 8), 106: (OTHER, 8)}
CAT = catalogue(KINDS)


class Refused(Exception):
    pass


# ---- a text of layouts

class Layouts:
    def __init__(self, text):
        self.sides, self.structs, self.header, self.wanted, self.chosen, self.open = dict(source=[], target=[]), [], 16, None, None, None
        for line in text.split("\n"):
            words = line.split("#")[0].split()
            if words:
                self.take(words)
        self.close()

    def block(self, side):
        return layout(self.sides[side], self.structs)

    def close(self):
        if self.open is None:
            return
        self.call(self.cursor.finish([]))
        fields = [field(*f) for f, _ in self.cursor.fields]
        side, head = self.open
        if side == "struct":
            self.structs.append(nested(fields, self.cursor.at, head[0]))
        else:
            built = record(fields, self.cursor.base, head[0], int(head[1]), int(head[2]), names=[n for _, n in self.cursor.fields])
            self.sides[side].append({**built, "marks": self.marks, "defaults": self.defaults})
        self.open = None

    def call(self, answer):
        if answer.startswith("r"):
            raise Refused(answer)

    def take(self, words):
        item, *more = words
        if item in ("struct", "source", "target", "plan"):
            self.close()
        if item in ("struct", "source", "target"):
            self.open, self.cursor, self.marks, self.defaults = (item, more), Cursor(CAT), {}, {}
            self.cursor.begin("struct" if item == "struct" else "record")
        elif item == "plan":
            self.chosen = [next(i for i, r in enumerate(self.sides[s]) if r["name"] == n) for s, n in zip(("source", "target"), more)]
        elif item == "field":
            self.field(*more)
        elif item == "at":
            self.call(self.cursor.move(int(more[0])))
        elif item == "base":
            self.call(self.cursor.finish_base())
        else:
            setattr(self, item, int(more[0]))

    def field(self, title, field_id, kind, *more):
        more = list(more)
        many = int(more.pop(0)) if more and more[0].isdigit() else None
        title, field_id = title.encode(), int(field_id)
        if kind in TYPES:
            type_id = TYPES[kind]
            width = CAT[type_id] % 16
            flags = ARRAY if many is not None and width else 0
            size = many * (width or 1) if many is not None else width
            call = self.cursor.scalar if width else self.cursor.string
            self.call(call((field_id, 0, size, type_id, flags, 0, 0), title))
        else:
            k = [s["name"] for s in self.structs].index(kind)
            sizes = structs_of(CAT, layout([], self.structs))
            self.call(self.cursor.nested(sizes, (field_id, 0, many, 0, 0, k, 0), title, many is not None))
        (_, offset, size, type_id, *_), _ = self.cursor.fields[-1]
        if "mark" in more:
            self.marks[len(self.cursor.fields) - 1] = 1
            self.defaults[offset] = b"\xff" * (size - 1) + (b"\x7f" if CAT[type_id] // 16 == SIGNED else b"\xff")
        if "default" in more:
            self.defaults[offset] = bytes.fromhex(more[-1])

    # ---- what the command answers

    def plan(self):
        source, target = self.block("source"), self.block("target")
        k, to = self.chosen or (0, None)
        if to is None:
            chosen = select_text(CAT, source, 0, target, self.wanted)
            if not chosen.startswith("="):
                return None
            to = int(chosen[1:])
        r = self.sides["target"][to]
        body = bytearray(int(record_size(CAT, target, to)[1:]))
        for at, content in r["defaults"].items():
            body[at : at + len(content)] = content
        marks = bytes(r["marks"].get(i, 0) for i in range(128))
        slot = planned(CAT, source, k, target, to, self.header, bytes(body[self.header :]), marks, 6160)
        return None if isinstance(slot, str) else slot

    def hashes(self):
        out = ""
        for side in ("source", "target"):
            for k, r in enumerate(self.sides[side]):
                fp, visits = hash_within(CAT, self.block(side), k, DEFAULT_BUDGET)
                out += f"{side} {r['name']} rtype {r['rtype']} hash {fp:016x} visits {visits}\n"
        return out


def letters(slot):
    """the strip of the map, by what each byte is"""
    p = Plan(slot)
    cells = list("H" * p.header + "." * (p.size - p.header))
    for step in p.steps():
        n = step[3] if step[0] == 0 else step[4]
        cells[step[2] : step[2] + n] = ("C" if step[0] == 0 else "I") + ("c" if step[0] == 0 else "i") * (n - 1)
    return "".join(cells)


def upgrades(slot, tape, header):
    p, out = Plan(slot), ""
    for content in tape:
        target = bytearray(4096)
        answer = upgraded(slot, [], p.src_rtype, (header, p.header), content, len(content), target)
        out += f"{answer}\n" if answer.startswith("r") else f"b{target[p.header : p.size].hex()}\n"
    return out


# ---- random texts

def random_field(rng, field_id, target, structs):
    kind = rng.choice(list(TYPES) + ["u32", "u64", "i32", "cstr"] + structs)
    words = ["field", f"f{field_id}", str(field_id), kind]
    many = None
    if kind in ("cstr", "symbol"):
        many = rng.choice((1, 5, 8, 22))
    elif rng.random() < 0.15:
        many = rng.choice((1, 2, 3))
    if many is not None:
        words.append(str(many))
    integer = kind[0] in "ui" and kind[1:].isdigit() and many is None
    if target and integer and rng.random() < 0.4:
        words.append("mark")
    elif target and kind in TYPES and rng.random() < 0.3:
        n = (CAT[TYPES[kind]] % 16 or 1) * (many or 1)
        words += ["default", rng.randbytes(n).hex()]
    return words


def random_text(rng):
    lines, structs = [], []
    for i in range(rng.choice((0, 1, 2))):
        lines.append(f"struct s{i}")
        lines += [" ".join(random_field(rng, 50 + j, False, list(structs))) for j in range(rng.choice((1, 2, 4)))]
        structs.append(f"s{i}")
    ids = rng.sample(range(2, 40), rng.randrange(1, 12))
    kept = {}
    for side in ("source", "target"):
        for k in range(rng.choice((1, 1, 1, 2))):
            lines += [f"{side} r{k} {k + 1} {rng.choice((1, 7))}", "field hd 1 u64 2"]
            rng.shuffle(ids)
            for j, field_id in enumerate(ids):
                words = random_field(rng, field_id, side == "target", structs)
                if side == "target" and field_id in kept and rng.random() < 0.7:
                    words = kept[field_id] + [w for w in words[4:] if w == "mark" and kept[field_id][3][0] in "ui" and kept[field_id][3][1:].isdigit() and len(kept[field_id]) == 4]
                kept.setdefault(field_id, words[:4] + [w for w in words[4:5] if w.isdigit()])
                lines.append(" ".join(words))
                if rng.random() < 0.1:
                    lines.append("base")
    if rng.random() < 0.3:
        lines.append("plan r0 r0")
    if rng.random() < 0.2:
        lines.append("wanted 7")
    if rng.random() < 0.2:
        lines.append(f"header {rng.choice((0, 8, 16, 24))}")
    return "\n".join(lines) + "\n"


# ---- the comparison

def owl(*words, given=""):
    return subprocess.run([OWL, *words], input=given, capture_output=True, text=True).stdout


def strip_of(drawn):
    rows = drawn.split("\n\n")[2].split("\n")
    return "".join(row[5:].replace(" ", "") for row in rows)


def tape_for(rng, slot):
    p = Plan(slot)
    ends = {16, 15, p.src_base, 4096, 4097} | {s[1] + s[3] + d for s in p.steps() for d in (-1, 0)}
    tape = [rng.randbytes(max(1, n)) for n in sorted(ends)]
    return tape + [b"\xff" * p.src_base]


NUMBERS = (0, 1, 2, 3, 4, 8, 16, 24, 63, 64, 65, 128, 129, 4095, 4096, 4097, 65535, 65536)


def damaged(rng, text):
    """a plan's text with a character, a field or a line changed"""
    style, lines, words = rng.randrange(5), text.split("\n"), text.split("\t")
    i, k, w = rng.randrange(len(text)), rng.randrange(len(lines)), rng.randrange(len(words))
    if style == 0:
        return text[:i] + rng.choice("0123456789abcdefus\t\n pyl") + text[i + 1 :]
    if style == 1:
        return text[:i] + text[i + 1 :]
    if style == 2:
        words[w] = str(rng.choice(NUMBERS))
        return "\t".join(words)
    if style == 3:
        lines.insert(k, rng.choice(lines))
    else:
        lines.pop(k)
    return "\n".join(lines)


def compare_check(text, path):
    """the verdict is the model's, and what is no plan has a line to show"""
    open(path, "w").write(text)
    said = owl("check", path)
    if model_text.plan_of(text.encode()) is None:
        assert not text or said.startswith(path + ":") and ": no plan (r16): " in said, (text, said)
    else:
        assert said.startswith("plan of "), (text, said)


def compare(text, folder, rng):
    """how many answers were the same; stops at the first other one"""
    path = os.path.join(folder, "a.layouts")
    open(path, "w").write(text)
    try:
        model = Layouts(text)
    except Refused as why:
        assert owl("plan", path) == "", (why, text)
        return 1
    assert owl("hash", path) == model.hashes(), text
    slot = model.plan()
    written = owl("plan", path)
    if slot is None:
        assert written == "", text
        return 2
    assert written.encode() == model_text.text_of(model_text.plan_in(slot)), (text, written)
    path = os.path.join(folder, "a.plan")
    open(path, "w").write(written)
    assert strip_of(owl("map", path)) == letters(slot), text
    tape = tape_for(rng, slot)
    given = "".join(r.hex() + "\n" for r in tape)
    said = "".join((line.split()[0] if line[0] == "r" else line) + "\n" for line in owl("upgrade", path, given=given).splitlines())
    assert said == upgrades(slot, tape, 16), text
    for _ in range(4):
        compare_check(damaged(rng, written), path)
    return 7 + len(tape)


def main():
    n, seed = (int(a) for a in (sys.argv[1:] + ["200", "1"][len(sys.argv) - 1 :])[:2])
    rng, same, plans = random.Random(seed), 0, 0
    texts = [open(os.path.join(ROOT, "examples", f)).read() for f in ("mbo.layouts", "trade.layouts")]
    with tempfile.TemporaryDirectory() as folder:
        for text in texts + [random_text(rng) for _ in range(n)]:
            more = compare(text, folder, rng)
            same, plans = same + more, plans + (more > 2)
    print(f"{len(texts) + n} texts, {plans} plans, {same} answers the same")


main()
