"""Cases of selection, the planner, the interpreter and the dispatch for the list of tests/ground.py, and the answers that the Rust gave."""
import os, random

from model import *
from model_plan import BODY_FROM, COPY, INT, SLOT, front, slot_of
from model_upgrade import sum_of
from upgrades import BREAKS, broken, bytes_of

HERE = os.path.dirname(os.path.abspath(__file__))


class Asked:
    """puts cases whose answers are stated here into the list, and asserts that the model gives the same"""

    def __init__(self, cases):
        self.c, self.model = cases, cases.slots

    def ask(self, line, answer):
        self.model.cat, self.model.block = self.c.cat, self.c.block
        stated = self.model.answer(line)
        assert answer == stated, (self.c.lines[-2:], line, answer, stated)
        self.c.put(line, answer)

    def source(self, title, *records, refusal=0):
        self.c.layout(title, refusal, records[0] if isinstance(records[0], bytes) else layout(records))

    # ---- the planner

    def plan(self, answer, target, body, marks=b"", header=24, k=0, to=0, at=0, room=SLOT):
        block = target if isinstance(target, bytes) else layout([target])
        self.ask(f"plan\t{k}\t{to}\t{header}\t{body.hex()}\t{marks.hex()}\t{at}\t{room}\t{block.hex()}", answer)

    def made(self, source, target, steps, body=None, marks=b"", header=24, at=0):
        """the plan has these steps, the numbers of the two records, and zeros wherever it does not reach"""
        size = max([target["base"]] + [sum(decode(row)[1:3]) for row in target["fields"]])
        body = bytes(size - header) if body is None else body
        numbers = front(source["rtype"], target["rtype"], source["base"], header, target["base"], size, steps)
        self.plan(f"{numbers.hex()} {body.hex()} {sum_of(slot_of(numbers, body))}", target, body, marks, header, at=at)

    def select(self, answer, k, schema, *records):
        self.ask(f"select\t{k}\t{schema}\t{layout(records).hex()}", answer)

    # ---- the interpreter and the dispatch

    def put(self, k, steps, body=b"", header=24, size=None, src_rtype=1, rtype=2, src_base=0, base=0):
        size = header + len(body) if size is None else size
        self.ask(f"put\t{SLOT * k}\t{front(src_rtype, rtype, src_base, header, base, size, steps).hex()}", "ok")
        self.ask(f"put\t{SLOT * k + BODY_FROM}\t{body.hex()}", "ok")

    def apply(self, answer, content, target, stated=None, at=0, n=SLOT):
        """where it is refused the target is as it was"""
        whole = f"{answer} {target.hex()}" if answer[0] == "r" else answer
        self.ask(f"apply\t{at}\t{n}\t{content.hex()}\t{len(content) if stated is None else stated}\t{target.hex()}", whole)

    def upgrade(self, answer, content, target, rtype=1, stated=None, headers=(16, 24), plans=1, unplanned=(), rest=0):
        ids = b"".join(struct.pack("<H", i) for i in unplanned).hex()
        whole = f"{answer} {target.hex()}" if answer[0] == "r" else answer
        stated = len(content) if stated is None else stated
        self.ask(f"upgrade\t{SLOT * plans + rest}\t{ids}\t{rtype}\t{headers[0]}\t{headers[1]}\t{content.hex()}\t{stated}\t{target.hex()}", whole)


# ---- selection

def titled(name, rtype, schema):
    return record([], 24, name, rtype, schema)


def selections(a):
    a.source("sources x and y of rtypes 1 and 9", titled("x", 1, 0), titled("y", 9, 0))
    a.select("unplanned", 1, 1, titled("x", 5, 1), titled("y", 6, 1))
    a.select("=0", 1, 1, titled("y", 5, 1), titled("y", 9, 0))
    a.select("=1", 1, "-", titled("y", 5, 1), titled("y", 9, 0))
    a.select("=1", 1, 2, titled("y", 5, 1), titled("y", 9, 0))
    a.select("=2", 1, 1, titled("x", 5, 1), titled("y", 6, 1), titled("z", 9, 7), titled("y", 9, 8))
    a.select("=0", 0, "-", titled("z", 1, 1), titled("x", 1, 1))
    a.select("=1", 0, 0, titled("z", 1, 1), titled("x", 7, 0))
    a.select("unplanned", 0, "-")
    a.select("none", 2, "-", titled("x", 1, 1))
    a.select("none", 999999999, "-", titled("x", 1, 1))
    a.select("r2", 0, "-", record([], 4097))
    a.select("r2", 2, "-", record([], 4097))
    a.source("a source of refusal 4", record([field(5, 16, 0, CSTR)]), refusal=4)
    a.select("r4", 0, "-", titled("x", 1, 1))
    a.select("r3", 0, "-", record([field(5, 0, 1, U8, reserved=b"\1\0\0\0\0")]))


# ---- the planner

CHECKED = record([field(5, 16, 6, CSTR), field(6, 22, 2, U16)], 24)
CHECKED_TARGET = record([field(5, 24, 6, CSTR), field(6, 32, 4, U32), field(7, 36, 2, U16)], 40)
CHECKED_STEPS = [(COPY, 16, 24, 6), (INT, 22, 32, 2, 4, False, True)]
CHECKED_BODY = bytes(8) + b"\xff" * 6 + bytes(2)
CHECKED_RECORD = bytes(16) + bytes([1, 2, 3, 4, 5, 6, 7, 0])


def rules(a):
    """the field rule, one source field and one target field at a time: what it is asked, and the step"""
    largest = b"\xff" * 7 + b"\x7f"
    asked = (
        ("the same", field(5, 16, 8, U64), field(5, 32, 8, U64), b"", [(COPY, 16, 32, 8)]),
        ("other flags and def_index", field(5, 16, 8, U64, EXTENSION, 3), field(5, 32, 8, U64, 1, 4), b"", [(COPY, 16, 32, 8)]),
        ("another id", field(5, 16, 8, U64), field(6, 32, 8, U64), b"", []),
        ("another sign", field(5, 16, 8, U64), field(5, 32, 8, I64), b"", []),
        ("another scale", field(5, 16, 4, U32, scale=1), field(5, 32, 8, U64), b"", []),
        ("the same but for the scale", field(5, 16, 8, PRICE, scale=-9), field(5, 32, 8, PRICE, scale=-8), b"", []),
        ("arrays", field(5, 16, 6, U16, ARRAY), field(5, 32, 6, U16, ARRAY), b"", [(COPY, 16, 32, 6)]),
        ("a longer array", field(5, 16, 6, U16, ARRAY), field(5, 32, 8, U16, ARRAY), b"", []),
        ("an array of one and none", field(5, 16, 2, U16, ARRAY), field(5, 32, 2, U16), b"", []),
        ("none and an array of a wider one", field(5, 16, 2, U16), field(5, 32, 4, U32, ARRAY), b"", []),
        ("wider", field(5, 16, 2, I16), field(5, 32, 8, I64), b"", [(INT, 16, 32, 2, 8, True, False)]),
        ("wider and marked", field(5, 16, 2, I16), field(5, 32, 8, I64), b"\1", [(INT, 16, 32, 2, 8, True, True)]),
        ("narrower", field(5, 16, 8, U64), field(5, 32, 4, U32), b"", []),
        ("narrower and marked", field(5, 16, 8, U64), field(5, 32, 4, U32), b"\xff", [(INT, 16, 32, 8, 4, False, True)]),
        ("the same and marked", field(5, 16, 8, U64), field(5, 32, 8, U64), b"\2", [(COPY, 16, 32, 8)]),
        ("marked with no bit but the highest", field(5, 16, 8, I64), field(5, 32, 1, I8), b"\x80", [(INT, 16, 32, 8, 1, True, True)]),
        ("a mark of another field", field(5, 16, 8, I64), field(5, 32, 1, I8), b"\0\1", []),
        ("a string of another kind", field(5, 16, 6, CSTR), field(5, 32, 6, SYMBOL), b"", [(COPY, 16, 32, 6)]),
        ("a longer string", field(5, 16, 5, SYMBOL), field(5, 32, 6, SYMBOL), b"", [(COPY, 16, 32, 5)]),
        ("a shorter string", field(5, 16, 7, CSTR), field(5, 32, 6, SYMBOL), b"", []),
        ("strings as arrays", field(5, 16, 5, CSTR, ARRAY), field(5, 32, 6, CSTR, ARRAY), b"", []),
        ("an integer and a decimal", field(5, 16, 4, I32), field(5, 32, 8, PRICE), b"\1", []),
        ("an integer and a character", field(5, 16, 1, U8), field(5, 32, 1, CHAR), b"\1", []),
        ("characters", field(5, 16, 1, CHAR), field(5, 32, 1, CHAR), b"", [(COPY, 16, 32, 1)]),
        ("structs of other indexes", field(5, 16, 9, NESTED, 0, 1), field(5, 32, 9, NESTED, 0, 2), b"", [(COPY, 16, 32, 9)]),
        ("the header's id", field(1, 16, 8, U64), field(1, 32, 8, U64), b"\1", []),
        ("target padding", field(5, 16, 8, PAD), field(5, 32, 8, PAD), b"\1", []),
        ("source padding", field(5, 16, 8, PAD), field(5, 32, 8, U64), b"", []),
        ("inside the source header", field(5, 0, 8, U64), field(5, 32, 8, U64), b"", [(COPY, 0, 32, 8)]),
    )
    for title, have, want, marks, steps in asked:
        source, target = record([have], 24), record([want], 24)
        _, offset, size, type_id, flags, *_ = decode(want)
        plain = GOOD_KINDS[type_id][0] in (UNSIGNED, SIGNED) and not flags & ARRAY and want[:2] != b"\1\0"
        top = (largest[-size:] if GOOD_KINDS[type_id][0] == SIGNED else b"\xff" * size) if marks[:1] not in (b"", b"\0") and plain else bytes(size)
        a.source(f"the field rule: {title}", source)
        a.made(source, target, steps, bytes(8) + top, marks)


def firsts(a):
    source = record([field(5, 16, 4, PAD), field(5, 20, 4, U32)], 24)
    a.source("the first source field of an id: padding hides what stands behind it", source)
    a.made(source, record([field(5, 24, 4, U32)], 28), [])
    source = record([field(5, 20, 4, U32), field(5, 16, 4, PAD), field(6, 24, 8, I64), field(6, 32, 4, U32)], 40)
    a.source("and it is the first in the table, not in the record", source)
    a.made(source, record([field(6, 24, 4, U32), field(5, 28, 4, U32), field(5, 40, 8, U64)], 28), [(COPY, 20, 28, 4), (INT, 20, 40, 4, 8, False, False)])


def joins(a):
    haves = [field(5, 16, 1, U8), field(6, 17, 2, U16), field(7, 19, 1, U8), field(8, 20, 4, U32)]
    wants = [field(5, 24, 1, U8), field(6, 25, 2, U16), field(7, 27, 1, U8), field(8, 28, 4, U32)]
    for src_base, base, steps in (
        (24, 32, [(COPY, 16, 24, 8)]), (23, 32, [(COPY, 16, 24, 4), (COPY, 20, 28, 4)]), (24, 31, [(COPY, 16, 24, 4), (COPY, 20, 28, 4)]),
        (20, 28, [(COPY, 16, 24, 4), (COPY, 20, 28, 4)]), (19, 32, [(COPY, 16, 24, 3), (COPY, 19, 27, 1), (COPY, 20, 28, 4)]),
        (0, 32, [(COPY, 16, 24, 1), (COPY, 17, 25, 2), (COPY, 19, 27, 1), (COPY, 20, 28, 4)]), (24, 0, [(COPY, 16, 24, 1), (COPY, 17, 25, 2), (COPY, 19, 27, 1), (COPY, 20, 28, 4)]),
    ):
        source = record(haves, src_base)
        a.source(f"neighbours join inside both bases, {src_base} and {base}", source)
        a.made(source, record(wants, base), steps)
    source = record(haves, 24)
    a.source("target order, whatever the table's", source)
    a.made(source, record([wants[3], wants[0], wants[2], wants[1]], 32), [(COPY, 16, 24, 8)])
    a.made(source, record([field(5, 28, 1, U8), field(6, 25, 2, U16), field(7, 27, 1, U8)], 32), [(COPY, 17, 25, 3), (COPY, 16, 28, 1)])
    a.made(source, record([wants[0], field(6, 25, 4, U32), field(7, 29, 1, U8)], 32), [(COPY, 16, 24, 1), (INT, 17, 25, 2, 4, False, False), (COPY, 19, 29, 1)])
    a.made(source, record([wants[0], field(6, 26, 2, U16)], 32), [(COPY, 16, 24, 1), (COPY, 17, 26, 2)])
    a.made(source, record([wants[0], field(0, 25, 2, PAD), wants[2]], 32), [(COPY, 16, 24, 1), (COPY, 19, 27, 1)])
    a.made(source, record([field(5, 24, 1, U8), field(5, 25, 1, U8), field(5, 26, 1, U8)], 32), [(COPY, 16, 24, 1), (COPY, 16, 25, 1), (COPY, 16, 26, 1)])
    source = record([field(5, 16, 3, CSTR), field(6, 19, 3, CSTR)], 22)
    a.source("a shorter string ends before the next field, and joins nothing", source)
    a.made(source, record([field(5, 24, 4, CSTR), field(6, 28, 3, CSTR)], 31), [(COPY, 16, 24, 3), (COPY, 19, 28, 3)])
    many = [field(2 + i, 16 + i, 1, U8) for i in range(128)]
    source = record(many, 144)
    a.source("128 steps, and one", source)
    a.made(source, record([field(2 + i, 24 + 2 * i, 2, U16) for i in range(128)], 0), [(INT, 16 + i, 24 + 2 * i, 1, 2, False, False) for i in range(128)])
    a.made(source, record([field(2 + i, 24 + i, 1, U8) for i in range(128)], 152), [(COPY, 16, 24, 128)])


def bodies(a):
    a.source("the checked plan", CHECKED)
    a.made(CHECKED, CHECKED_TARGET, CHECKED_STEPS, CHECKED_BODY, b"\0\1\1")
    a.made(CHECKED, CHECKED_TARGET, CHECKED_STEPS, CHECKED_BODY, b"\1\1\1\1\1", at=SLOT)
    a.plan("r8", CHECKED_TARGET, CHECKED_BODY[:-1], b"\0\1\1")
    a.plan("r8", CHECKED_TARGET, CHECKED_BODY + b"\0", b"\0\1\1")
    a.plan("r8", CHECKED_TARGET, b"", b"\0\1\1")
    for at in (6, 7, 14, 15):
        a.plan("r8", CHECKED_TARGET, CHECKED_BODY[:at] + b"\1" + CHECKED_BODY[at + 1 :], b"\0\1\1")
    for at in (8, 11, 12, 13):
        a.plan("r8", CHECKED_TARGET, CHECKED_BODY[:at] + b"\x7f" + CHECKED_BODY[at + 1 :], b"\0\1\1")
    body = b"string" + CHECKED_BODY[6:]
    a.made(CHECKED, CHECKED_TARGET, CHECKED_STEPS, body, b"\0\1\1")
    a.made(CHECKED, CHECKED_TARGET, [(COPY, 16, 24, 6), (INT, 22, 32, 2, 4, False, False)], b"string\0\0\1\2\3\4\5\6\0\0")
    a.made(CHECKED, CHECKED_TARGET, [(COPY, 16, 24, 6), (INT, 22, 32, 2, 4, False, False)], b"string\0\0\1\2\3\4\xff\xff\0\0", b"\0\0\1")
    signed = record([field(5, 24, 1, I8), field(6, 25, 2, I16), field(7, 27, 8, PRICE), field(8, 35, 2, I16, ARRAY), field(1, 37, 2, U16), field(2, 39, 1, PAD)], 44)
    a.made(CHECKED, signed, [], b"\x7f\xff\x7f" + bytes(17), b"\1" * 6)
    a.plan("r8", signed, b"\xff\xff\x7f" + bytes(17), b"\1" * 6)
    a.plan("r8", signed, b"\x7f\xff\xff" + bytes(17), b"\1" * 6)
    a.plan("r8", signed, b"\x7f\xff\x7f" + bytes(10) + b"\1" + bytes(6), b"\1" * 6)
    a.plan("r8", signed, b"\x7f\xff\x7f" + bytes(12) + b"\1" + bytes(4), b"\1" * 6)


def headers(a):
    a.source("headers of the target", CHECKED)
    across = record([field(1, 20, 8, NESTED), field(5, 28, 6, CSTR), field(0, 34, 30, PAD)], 24)
    a.made(CHECKED, across, [(COPY, 16, 28, 6)])
    a.made(CHECKED, across, [(COPY, 16, 28, 6)], header=28)
    a.plan("r7", across, bytes(35), header=29)
    a.made(CHECKED, record([field(5, 64, 6, CSTR)], 0), [(COPY, 16, 64, 6)], header=64)
    a.plan("r7", record([field(5, 65, 6, CSTR)], 0), bytes(6), header=65)
    a.plan("r7", record([field(5, 65, 6, CSTR)], 0), bytes(6), header=999999999)
    a.made(CHECKED, record([field(5, 0, 6, CSTR)], 0), [(COPY, 16, 0, 6)], header=0)
    a.made(CHECKED, record([], 24), [])
    a.plan("r7", record([], 23), b"")
    a.made(CHECKED, record([], 0), [], header=0)
    a.plan("r7", record([], 0), b"", header=1)
    a.made(CHECKED, record([field(0, 0, 40, PAD)], 0), [])
    a.made(CHECKED, record([field(1, 0, 40, U8, ARRAY)], 0), [])
    a.plan("r7", record([field(9, 23, 1, U8)], 40), bytes(16))


def plan_refusals(a):
    bad = record([field(5, 24, 6, CSTR), field(6, 29, 4, U32)], 40)
    a.source("refusals of the planner in their order", CHECKED)
    before = sum_of(a.model.part(0, SLOT))
    a.plan("r5", bad, b"", header=70, k=5, room=0)
    a.plan("none", CHECKED_TARGET, b"", header=70, k=1, room=0)
    a.plan("none", CHECKED_TARGET, b"", header=70, to=1, room=0)
    a.plan("none", CHECKED_TARGET, CHECKED_BODY, b"\0\1\1", k=1)
    a.plan("none", layout([]), CHECKED_BODY, b"\0\1\1")
    a.plan("r7", CHECKED_TARGET, b"", header=70, room=0)
    a.plan("r8", CHECKED_TARGET, b"", room=0)
    for room in (0, 1, SLOT - 1):
        a.plan("r11", CHECKED_TARGET, CHECKED_BODY, b"\0\1\1", room=room)
    a.ask(f"slots\t0\t{SLOT}", before)
    a.source("a source of refusal 6", record([field(6, 22, 3, U16)], 24), refusal=6)
    a.plan("r6", CHECKED_TARGET, CHECKED_BODY, b"\0\1\1")
    a.plan("r5", bad, CHECKED_BODY, b"\0\1\1")
    a.ask(f"slots\t0\t{SLOT}", before)


# ---- the interpreter

def checked(a):
    """the checked cases of the rules"""
    def mapped(title, step, content, answer):
        a.c.title(title)
        a.put(0, [step], bytes(len(answer)))
        a.apply(f"2 {24 + len(answer)} {(b'h' * 24 + answer).hex()}", bytes(16) + content, b"h" * 24 + b"x" * len(answer))

    mapped("-200 of two bytes to one, marked", (INT, 16, 24, 2, 1, True, True), (-200 % 65536).to_bytes(2, "little"), b"\x7f")
    mapped("-1 of four bytes to eight", (INT, 16, 24, 4, 8, True, False), b"\xff" * 4, b"\xff" * 8)
    mapped("4,294,967,295 of four bytes to eight", (INT, 16, 24, 4, 8, False, False), b"\xff" * 4, b"\xff" * 4 + bytes(4))
    mapped("the same, marked", (INT, 16, 24, 4, 8, False, True), b"\xff" * 4, b"\xff" * 8)
    mapped("one less, marked", (INT, 16, 24, 4, 8, False, True), b"\xfe" + b"\xff" * 3, b"\xfe" + b"\xff" * 3 + bytes(4))
    mapped("256 to one byte, marked", (INT, 16, 24, 2, 1, False, True), b"\0\1", b"\xff")
    mapped("254 to one byte, marked", (INT, 16, 24, 2, 1, False, True), b"\xfe\0", b"\xfe")
    mapped("-128 to one byte, marked", (INT, 16, 24, 8, 1, True, True), b"\x80" + b"\xff" * 7, b"\x80")
    mapped("-129 to one byte, marked", (INT, 16, 24, 8, 1, True, True), b"\x7f" + b"\xff" * 7, b"\x7f")
    mapped("the largest of eight bytes to one, marked", (INT, 16, 24, 8, 1, True, True), b"\xff" * 7 + b"\x7f", b"\x7f")
    mapped("the largest of one byte to two, marked", (INT, 16, 24, 1, 2, True, True), b"\x7f", b"\xff\x7f")
    mapped("the same without a mark", (INT, 16, 24, 1, 2, True, False), b"\x7f", b"\x7f\0")
    a.c.title("the checked plan on records of 24, 23, 22, 21 and no bytes")
    a.put(0, CHECKED_STEPS, CHECKED_BODY, rtype=1, src_base=24, base=40)
    head = b"h" * 24
    for n, body in ((24, "01020304050600000700 0000ffff0000"), (23, "0102030405060000ffffffffffff0000"), (22, "0102030405060000ffffffffffff0000"), (21, CHECKED_BODY.hex()), (0, CHECKED_BODY.hex())):
        a.apply(f"1 40 {(head + bytes.fromhex(body)).hex()}", CHECKED_RECORD, head + b"x" * 16, stated=n)
    a.apply(f"1 40 {(head + bytes.fromhex('0102030405060000070000 00ffff0000') + b'tail').hex()}", CHECKED_RECORD + b"more", head + b"x" * 16 + b"tail", stated=24)


def whole_steps(a):
    a.c.title("a joined copy is skipped whole, two are not")
    a.put(0, [(COPY, 16, 24, 2)], b"ab")
    a.apply(f"2 26 {(b'h' * 24 + b'ab').hex()}", bytes(16) + b"1", b"h" * 24 + b"xx")
    a.put(0, [(COPY, 16, 24, 1), (COPY, 17, 25, 1)], b"ab")
    a.apply(f"2 26 {(b'h' * 24 + b'1b').hex()}", bytes(16) + b"1", b"h" * 24 + b"xx")
    a.c.title("a copy of all that a record may have")
    a.put(0, [(COPY, 0, 0, 4096)], bytes(4096), header=0)
    content = bytes(i * i // 3 % 256 for i in range(4096))
    a.apply(f"2 4096 {content.hex()}", content, bytes(4096))
    a.apply(f"2 4096 {bytes(4096).hex()}", content, b"x" * 4096, stated=4095)


def apply_refusals(a):
    a.c.title("refusals of the interpreter in their order")
    a.put(0, CHECKED_STEPS, CHECKED_BODY, src_base=24, base=40)
    for stated, content in ((25, CHECKED_RECORD), (999999999, CHECKED_RECORD), (4097, bytes(4097)), (1, b"")):
        a.apply("r9", content, b"x" * 40, stated=stated)
        a.apply("r9", content, b"x" * 39, stated=stated, n=0)
    a.apply("r11", CHECKED_RECORD, b"x" * 39)
    a.apply("r11", CHECKED_RECORD, b"")
    for n in (0, 5, 12, SLOT - 1, SLOT + 1):
        a.apply("r16", CHECKED_RECORD, b"x" * 40, n=n)
    a.apply("r11", CHECKED_RECORD, b"x" * 39, n=SLOT - 1)
    rng = random.Random(9)
    for style in BREAKS:
        a.c.title(f"a plan that breaks a rule: {style}")
        plan = broken(rng, style=style, most=6)
        numbers, body = bytes_of(plan)
        a.ask(f"put\t0\t{numbers.hex()}", "ok")
        a.ask(f"put\t{BODY_FROM}\t{body.hex()}", "ok")
        a.apply("r16", bytes(8), b"x" * plan["size"])
        a.apply("r11", bytes(8), b"x" * (plan["size"] - 1))


# ---- the dispatch

def dispatches(a):
    head, content = b"h" * 24, bytes(16) + b"body"
    a.c.title("the first plan of the rtype, then the list, then the bytes as they are")
    a.put(0, [], b"first", src_rtype=1, rtype=7)
    a.put(1, [], b"other", src_rtype=2, rtype=8)
    a.put(2, [], b"later", src_rtype=1, rtype=9)
    x = head + b"xxxxxx"
    a.upgrade(f"7 29 {(head + b'firstx').hex()}", content, x, 1, plans=3)
    a.upgrade(f"8 29 {(head + b'otherx').hex()}", content, x, 2, plans=3)
    a.upgrade(f"8 29 {(head + b'otherx').hex()}", content, x, 2, plans=3, unplanned=(2, 1))
    a.upgrade("r10", content, x, 3, plans=3, unplanned=(5, 3))
    a.upgrade("r10", content, x, 2, plans=1, unplanned=(2,))
    a.upgrade(f"3 28 {(head + b'bodyxx').hex()}", content, x, 3, plans=3, unplanned=(5, 4))
    a.upgrade(f"2 28 {(head + b'bodyxx').hex()}", content, x, 2, plans=1)
    a.upgrade(f"1 28 {(head + b'bodyxx').hex()}", content, x, 1, plans=0)
    a.upgrade(f"65535 26 {(head + b'boxxxx').hex()}", content, x, 65535, stated=18, plans=3)
    a.upgrade(f"3 24 {x.hex()}", content, x, 3, stated=16, plans=3)
    a.upgrade(f"3 20 {(bytes(16) + b'body' + x[20:]).hex()}", content, x, 3, headers=(0, 0), plans=3)
    a.upgrade(f"3 4 {(b'body' + x[4:]).hex()}", content, x, 3, headers=(16, 0), plans=3)
    a.upgrade(f"7 29 {(head + b'firstx').hex()}", content, x, 1, headers=(0, 64), plans=3)
    a.c.title("a rest behind the last whole slot is no plan")
    a.upgrade(f"2 28 {(head + b'bodyxx').hex()}", content, x, 2, plans=1, rest=SLOT - 1)
    a.upgrade("r10", content, x, 2, plans=1, unplanned=(2,), rest=SLOT - 1)
    a.upgrade(f"8 29 {(head + b'otherx').hex()}", content, x, 2, plans=2, rest=1)
    a.c.title("4,096 bytes without a plan")
    whole = bytes(i % 251 for i in range(4096))
    a.upgrade(f"3 4104 {(head + whole[16:]).hex()}", whole, head + b"x" * 4080, 3, plans=3)
    a.upgrade("r11", whole, head + b"x" * 4079, 3, plans=3)


def dispatch_refusals(a):
    x, content = b"x" * 40, bytes(16) + b"body"
    a.c.title("refusals of the dispatch in their order")
    a.put(0, [(COPY, 16, 24, 0)], b"12345678", src_rtype=1)
    a.put(1, [(COPY, 16, 24, 4)], b"12345678", src_rtype=2, rtype=8)
    for headers in ((65, 24), (16, 65), (999999999, 0), (0, 999999999)):
        a.upgrade("r7", content, b"", 3, stated=4097, headers=headers, plans=2, unplanned=(3,))
    for stated in (0, 15, 21, 4097, 999999999):
        a.upgrade("r9", content, b"", 3, stated=stated, plans=2, unplanned=(3,))
        a.upgrade("r9", content, x, 2, stated=stated, plans=2)
    a.upgrade("r9", bytes(4097), x, 2, plans=2)
    a.upgrade("r9", bytes(63), x, 2, headers=(64, 24), plans=2)
    a.upgrade("r10", content, b"", 3, plans=2, unplanned=(3,))
    a.upgrade("r11", content, x[:31], 1, plans=2, unplanned=(1,))
    a.upgrade("r11", content, x[:31], 2, plans=2)
    a.upgrade("r11", content, x[:27], 3, plans=2)
    a.upgrade("r16", content, x[:32], 1, plans=2)
    a.upgrade(f"8 32 {(x[:24] + b'body5678').hex()}", content, x[:32], 2, plans=2)
    a.upgrade(f"3 28 {(x[:24] + b'body').hex()}", content, x[:28], 3, plans=2)


def under_no_catalogue(a):
    a.c.catalogue("a catalogue that is not valid", 1, catalogue(array=0))
    a.c.layout("a layout under it", 1, layout([CHECKED]))
    a.select("r1", 0, "-", titled("x", 1, 1))
    a.plan("r1", CHECKED_TARGET, CHECKED_BODY, b"\0\1\1")
    a.plan("r1", record([], 4097), CHECKED_BODY, b"\0\1\1", header=70)


def recorded(a, name):
    """what the Rust answered (tests/compare --record-plans, --record-upgrades), to a memory of zeros"""
    lines = open(os.path.join(HERE, name)).read().split("\n")[:-1]
    for line, answer in zip(lines[::2], lines[1::2]):
        word, *more = line.split("\t")
        if word in ("catalogue", "layout"):
            getattr(a.c, word)("answered by the Rust", 0, bytes.fromhex(more[0]))
        else:
            a.ask(line, answer)


def plannings(c):
    a = Asked(c)
    recorded(a, "recorded_plans.cases")
    c.catalogue("a valid catalogue", 0, catalogue())
    for some in (selections, rules, firsts, joins, bodies, headers, plan_refusals, under_no_catalogue):
        some(a)


def upgradings(c):
    a = Asked(c)
    recorded(a, "recorded_upgrades.cases")
    for some in (checked, whole_steps, apply_refusals, dispatches, dispatch_refusals):
        some(a)
