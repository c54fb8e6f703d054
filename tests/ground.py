#!/usr/bin/env python3
"""The ground's cases: catalogues and layouts with each refusal alone, in pairs and at the limits.

  tests/ground.py            writes crates/cases/stdin and crates/cases/stdout
  tests/ground.py --check    says whether the two files are what it would write
  tests/ground.py --random N [SEED]
                             runs the built program on N damaged layouts and compares it with the model

Each case states its answer; the model (tests/model.py), written from the rules and not from the code, must give the same.
"""
import os, random, struct, subprocess, sys

from building_cases import buildings
from comparing_cases import comparings, recorded_pairs
from cutting_cases import cuttings
from model import *
from model_upgrade import Slots
from text_cases import texts as plan_texts
from upgrading_cases import plannings, upgradings

ROOT = os.path.join(os.path.dirname(os.path.abspath(__file__)), "..")


# ---- the list

class Cases:
    def __init__(self):
        self.lines, self.answers, self.cat, self.block, self.slots = [], [], b"", b"", Slots()

    def put(self, line, answer):
        self.lines.append(line)
        self.answers.append(answer)

    def title(self, text):
        self.put("# " + text, "# " + text)

    def said(self, refusal):
        return f"r{refusal}" if refusal else "ok"

    def catalogue(self, title, refusal, cat):
        self.title(title)
        assert refusal == (0 if valid(cat) else 1), title
        self.cat = cat
        self.put("catalogue\t" + cat.hex(), self.said(refusal))

    def layout(self, title, refusal, block):
        self.title(title)
        assert refusal == admit(self.cat, block), (title, admit(self.cat, block))
        self.block = block
        self.put("layout\t" + block.hex(), self.said(refusal))

    def size(self, k, answer):
        assert answer == record_size(self.cat, self.block, k), (k, record_size(self.cat, self.block, k))
        self.put(f"size\t{k}", answer)

    def window(self, content, offset, size, answer):
        self.put(f"window\t{content.hex()}\t{offset}\t{size}", answer)

    def field(self, table, k, answer):
        assert answer == field_of(table, k), field_of(table, k)
        self.put(f"field\t{table.hex()}\t{k}", answer)

    def sum(self, content, answer):
        assert answer == sum_text(content), (content, sum_text(content))
        self.put(f"sum\t{content.hex()}", answer)

    def hash(self, k, answer):
        assert answer == hash_text(self.cat, self.block, k), (k, hash_text(self.cat, self.block, k))
        self.put(f"hash\t{k}", answer)

    def visits(self, k, budget, answer):
        assert answer == visits_text(self.cat, self.block, k, budget), (k, budget, visits_text(self.cat, self.block, k, budget))
        self.put(f"visits\t{k}\t{budget}", answer)

    def boot(self, k, answer):
        assert answer == boot_text(self.cat, self.block, k), (k, boot_text(self.cat, self.block, k))
        self.put(f"boot\t{k}", answer)


def with_kind(type_id, kind, width):
    return catalogue({**GOOD_KINDS, type_id: (kind, width)})


def without(type_id):
    return catalogue({k: v for k, v in GOOD_KINDS.items() if k != type_id})


def catalogues(c):
    c.catalogue("a valid catalogue", 0, catalogue())
    c.catalogue("flags at other bits", 0, catalogue(array=1, extension=2))
    c.catalogue("one byte short", 1, catalogue(cut=261))
    c.catalogue("one byte too many", 1, catalogue(more=b"\0"))
    c.catalogue("no bytes", 1, b"")
    c.catalogue("class 7", 1, with_kind(200, 7, 0))
    c.catalogue("class 15", 1, with_kind(200, 15, 8))
    for width in (3, 5, 6, 7, 9, 15):
        c.catalogue(f"an other of width {width}", 1, with_kind(200, OTHER, width))
    c.catalogue("an other of width 4", 0, with_kind(200, OTHER, 4))
    for word, ids, kind in (("unsigned", (U8, U16, U32, U64), UNSIGNED), ("signed", (I8, I16, I32, I64), SIGNED)):
        for type_id, width in zip(ids, (1, 2, 4, 8)):
            c.catalogue(f"no {word} id of width {width}", 1, without(type_id))
            c.catalogue(f"two {word} ids of width {width}", 1, with_kind(255, kind, width))
        c.catalogue(f"a {word} id of width 0", 1, with_kind(200, kind, 0))
    c.catalogue("no decimal id", 1, without(PRICE))
    c.catalogue("two decimal ids", 1, with_kind(200, DECIMAL, 4))
    c.catalogue("the decimal id of width 0", 1, with_kind(PRICE, DECIMAL, 0))
    c.catalogue("the decimal id of width 2", 0, with_kind(PRICE, DECIMAL, 2))
    c.catalogue("one string id", 1, without(CSTR))
    c.catalogue("three string ids", 1, with_kind(200, STRING, 0))
    c.catalogue("a string id of width 1", 1, with_kind(CSTR, STRING, 1))
    for word, type_id, kind in (("struct", NESTED, STRUCT), ("padding", PAD, PADDING)):
        c.catalogue(f"no {word} id", 1, without(type_id))
        c.catalogue(f"two {word} ids", 1, with_kind(0, kind, 0))
        c.catalogue(f"the {word} id of width 8", 1, with_kind(type_id, kind, 8))
    c.catalogue("every id a padding id", 1, catalogue({i: (PADDING, 0) for i in range(256)}))
    for array, extension in ((0, 64), (128, 0), (128, 128), (3, 64), (128, 96), (255, 64)):
        c.catalogue(f"array flag {array}, extension flag {extension}", 1, catalogue(array=array, extension=extension))


# a layout with two records and two structs, every table of more than one field
HD = field(1, 0, 16, NESTED)
SEQUENCE = field(2, 16, 8, U64)


def sample():
    return (
        [
            record([HD, SEQUENCE, field(3, 24, 8, PRICE, scale=-9), field(4, 32, 22, CSTR), field(0, 54, 2, PAD)], 56, "mbo"),
            record([SEQUENCE, HD, field(5, 24, 8, U32, ARRAY)], 32, "trade", rtype=2, names=["sequence", "hd", "levels"]),
        ],
        [nested([field(6, 0, 1, U8), field(7, 8, 8, I64)], 16, "header"), nested([field(8, 0, 2, I16), field(9, 2, 2, ENUM)], 4)],
    )


# the earlier and the later refusals, each at a place in the first record and at one in the last struct
BREAKS = {
    2: (lambda r, s: r[0].update(base=4097), lambda r, s: s[1].update(size=5000)),
    3: (lambda r, s: r[0]["fields"].__setitem__(0, HD[:11] + b"\0\0\x01\0\0"), lambda r, s: s[1]["fields"].__setitem__(1, field(9, 2, 2, ENUM, reserved=b"\0\0\0\0\x80"))),
    4: (lambda r, s: r[0]["fields"].append(field(10, 4000, 97, CSTR)) or r[0]["names"].append("x"), lambda r, s: s[1]["fields"].append(field(10, 4, 1, U8))),
    5: (lambda r, s: r[0]["fields"].append(field(0, 15, 1, PAD)) or r[0]["names"].append("x"), lambda r, s: s[1]["fields"].append(field(0, 3, 1, PAD))),
    6: (lambda r, s: r[0]["fields"].append(field(10, 60, 4, U16)) or r[0]["names"].append("x"), lambda r, s: (s[1].update(size=8), s[1]["fields"].append(field(10, 4, 1, I32)))),
}


def broken(*which):
    r, s = sample()
    for refusal, place in which:
        BREAKS[refusal][place](r, s)
    return layout(r, s)


def pairs(c):
    for refusal in BREAKS:
        c.layout(f"refusal {refusal} in the first record", refusal, broken((refusal, 0)))
        c.layout(f"refusal {refusal} in the last struct", refusal, broken((refusal, 1)))
    for first in BREAKS:
        for later in BREAKS:
            if first < later:
                c.layout(f"{later} in the first record, {first} in the last struct", first, broken((later, 0), (first, 1)))
                c.layout(f"{first} in the first record, {later} in the last struct", first, broken((first, 0), (later, 1)))
    c.layout("all of them", 2, broken(*((refusal, refusal % 2) for refusal in BREAKS)))
    c.catalogue("a catalogue that is not valid", 1, catalogue(array=0))
    c.layout("a good layout under it", 1, layout(*sample()))
    for refusal in BREAKS:
        c.layout(f"refusal {refusal} under it", 1, broken((refusal, 0)))
    c.layout("no layout under it", 1, b"")
    c.catalogue("a valid catalogue", 0, catalogue())


def shapes(c):
    good = layout(*sample())
    c.layout("the sample", 0, good)
    c.layout("the same, bytes that nobody reads set", 0, layout(*sample(), head=b"\xff\xff\xff\xff", patch=[(8 + 65, b"\xff" * 7), (8 + 144 + 45, b"\xff" * 3)]))
    c.layout("no bytes", 2, b"")
    c.layout("seven zeros", 2, bytes(7))
    c.layout("eight zeros: no records, no structs", 0, bytes(8))
    c.layout("heads one byte short", 2, bytes([1]) + bytes(78))
    c.layout("a head of zeros: no fields", 0, bytes([1]) + bytes(79))
    c.layout("the last byte of the block is missing", 2, good[:-1])
    c.layout("bytes after the last part", 0, good + b"\xff")
    c.layout("counts of 65,535", 2, layout(*sample(), counts=(65535, 65535)))
    c.layout("a table that starts far outside", 2, layout(*sample(), patch=[(8 + 16, b"\xff\xff\xff\xff")]))
    c.layout("a table that ends far outside", 2, layout(*sample(), patch=[(8 + 20, b"\xf0\xff\xff\xff")]))
    c.layout("names that start far outside", 2, layout(*sample(), patch=[(8 + 24, b"\xff\xff\xff\xff")]))
    c.layout("a struct's table far outside", 2, layout(*sample(), patch=[(8 + 144 + 4, b"\xff\xff\xff\xff")]))
    for cut in (1, 8, 15):
        r, s = sample()
        r[1]["fields"][-1] = r[1]["fields"][-1][:-cut]
        c.layout(f"a record's table {cut} bytes short of whole fields", 2, layout(r, s))
        r, s = sample()
        s[1]["fields"][-1] = s[1]["fields"][-1][:-cut]
        c.layout(f"a struct's table {cut} bytes short of whole fields", 2, layout(r, s))
    for more in (-1, 1):
        r, s = sample()
        r[1]["names"] = ["n"] * (len(r[1]["fields"]) + more)
        c.layout(f"{more} names more than fields", 2, layout(r, s))


def limits(c):
    tiny = lambda n: [field(i, i, 1, CHAR) for i in range(n)]
    for n in (127, 128, 129):
        c.layout(f"{n} fields in a record", 2 if n > 128 else 0, layout([record(tiny(n), 128)]))
    c.layout("128 fields, from the last to the first", 0, layout([record(reversed(tiny(128)), 128)]))
    c.layout("128 fields, the first two sharing a byte", 5, layout([record(tiny(127) + [field(200, 0, 1, PAD)], 128)]))
    for n in (32, 33):
        c.layout(f"{n} fields in a struct", 2 if n > 32 else 0, layout([], [nested(tiny(n), 40)]))
    for n in (15, 16, 17):
        c.layout(f"{n} records", 2 if n > 16 else 0, layout([record(tiny(1))] * n))
        c.layout(f"{n} structs", 2 if n > 16 else 0, layout([], [nested(tiny(1))] * n))
    for n in (32, 33, 255):
        refusal = 2 if n > 32 else 0
        c.layout(f"a record's name of {n} bytes", refusal, layout([record(tiny(2), title="n" * n)]))
        c.layout(f"a field's name of {n} bytes", refusal, layout([record(tiny(2), names=["a", "n" * n])]))
        c.layout(f"a struct's name of {n} bytes", refusal, layout([], [nested(tiny(1), title="n" * n)]))
    for n in (4096, 4097, 70000):
        c.layout(f"a base of {n}", 2 if n > 4096 else 0, layout([record(tiny(1), n)]))
        c.layout(f"a struct of {n} bytes", 2 if n > 4096 else 0, layout([], [nested(tiny(1), n)]))
    for offset, size, refusal in ((0, 4096, 0), (4095, 1, 0), (4095, 2, 4), (0, 4097, 4), (4096, 1, 4), (65535, 65535, 4), (0, 0, 4), (4096, 0, 4)):
        c.layout(f"a record's field of {size} bytes at {offset}", refusal, layout([record([field(1, offset, size, CSTR)])]))
    for offset, size, refusal in ((0, 16, 0), (15, 1, 0), (15, 2, 4), (16, 1, 4), (0, 17, 4), (3, 0, 4)):
        c.layout(f"a field of {size} bytes at {offset} in a struct of 16", refusal, layout([], [nested([field(1, offset, size, CSTR)])]))
    c.layout("a field in a struct of 0 bytes", 4, layout([], [nested(tiny(1), 0)]))
    c.layout("a struct of 0 bytes with no fields", 0, layout([], [nested([], 0)]))


def overlaps(c):
    a = field(1, 8, 8, CSTR)
    for offset, size, shared in ((0, 8, False), (16, 1, False), (0, 9, True), (15, 1, True), (10, 2, True), (0, 32, True), (8, 8, True)):
        for type_id, word in ((CSTR, "a field"), (PAD, "padding")):
            b = field(2, offset, size, type_id)
            c.layout(f"bytes 8 to 15, and {word} of {size} at {offset}", 5 if shared else 0, layout([record([a, b])]))
    c.layout("three fields, the first and the last sharing a byte", 5, layout([record([a, field(2, 0, 4, CSTR), field(3, 15, 4, CSTR)])]))
    c.layout("two records may use the same bytes", 0, layout([record([a]), record([a])]))


def widths(c):
    ints = ((U8, 1), (U16, 2), (U32, 4), (U64, 8), (I8, 1), (I16, 2), (I32, 4), (I64, 8))
    for type_id, width in ints:
        c.layout(f"type {type_id}, {width} bytes", 0, layout([record([field(1, 0, width, type_id)])]))
        for size in (width - 1, width + 1, 2 * width):
            if size:
                c.layout(f"type {type_id}, {size} bytes", 6, layout([record([field(1, 0, size, type_id)])]))
        c.layout(f"an array of type {type_id}, 3 bytes", 0, layout([record([field(1, 0, 3, type_id, ARRAY)])]))
        c.layout(f"type {type_id}, 3 bytes, every flag but the array's", 6, layout([record([field(1, 0, 3, type_id, 255 - ARRAY)])]))
    for type_id in (PRICE, CSTR, NESTED, PAD, CHAR, 222):
        c.layout(f"type {type_id} of any size", 0, layout([record([field(1, 0, 3, type_id)])]))


def sizes(c):
    c.title("record sizes")
    c.layout("the sample", 0, layout(*sample()))
    for k, answer in ((0, "=56"), (1, "=32"), (2, "none"), (65536, "none"), (999999999, "none")):
        c.size(k, answer)
    c.layout("a field past the base", 0, layout([record([HD, field(2, 16, 4, U32), field(3, 100, 9, CSTR)], 64)]))
    c.size(0, "=109")
    c.layout("padding past the base", 0, layout([record([field(0, 60, 8, PAD), HD], 64)]))
    c.size(0, "=68")
    c.layout("the header field past the base", 0, layout([record([field(1, 0, 80, NESTED)], 64)]))
    c.size(0, "=80")
    c.layout("no fields, base 0", 0, layout([record([], 0)]))
    c.size(0, "=0")
    c.layout("a field to the last byte", 0, layout([record([field(1, 4095, 1, CHAR)], 0)]))
    c.size(0, "=4096")
    c.layout("a layout that is not admitted", 4, layout([record([field(1, 4095, 2, CSTR)], 0)]))
    c.size(0, "r4")
    c.size(7, "r4")


def windows(c):
    c.title("windows")
    for offset, size, answer in ((0, 4, "0 4"), (1, 3, "1 4"), (1, 4, "none"), (4, 0, "4 4"), (0, 0, "0 0"), (5, 0, "none"), (0, 5, "none"), (999999999, 0, "none"), (2, 999999999, "none")):
        c.window(b"\1\2\3\4", offset, size, answer)
    c.window(b"", 0, 0, "0 0")
    c.window(b"", 0, 1, "none")


def fields(c):
    c.title("fields, decoded")
    table = field(0x1234, 4095, 0xFEDC, 7, 0x81, 0xABCD, -9) + field(65535, 65535, 65535, 255, 255, 65535, -128) + field(0, 0, 0, 0, 0, 0, 127)
    c.field(table, 0, "4660 4095 65244 7 129 43981 -9 0")
    c.field(table, 1, "65535 65535 65535 255 255 65535 -128 0")
    c.field(table, 2, "0 0 0 0 0 0 127 0")
    c.field(table, 3, "none")
    c.field(b"", 0, "none")
    c.field(table[:-1], 0, "r2")
    c.field(bytes(16 * 128), 127, "0 0 0 0 0 0 0 0")
    c.field(bytes(16 * 129), 0, "r2")
    for place in range(11, 16):
        c.field(table[:32] + bytes(place) + b"\1" + bytes(15 - place), 0, "r3")


# ---- sums and hashes

NO_BYTES = "c15d213aa4d7a795"
IN_STRUCT = field(6, 0, 1, NESTED)


def fed(*parts):
    """the sum of parts: fields without their def_index, and structs' sizes"""
    return sum_text(b"".join(p[:8] + p[10:11] if len(p) == 16 else p for p in parts))


def two(size):
    return struct.pack("<H", size)


def naming(index, offset=0, field_id=6):
    return field(field_id, offset, 1, NESTED, def_index=index)


def chain(count, last):
    """structs that each hold the next one, and the last of them: a record that names the first has it at level count + 1"""
    return [nested([naming(i + 1)]) for i in range(count - 1)] + [last]


def sums(c):
    c.title("sums: the four fingerprints of the Avro specification, no bytes, and what leaves only the shift")
    for text, answer in (("null", "63dd24e7cc258f8a"), ("boolean", "9f42fc78a4d4f764"), ("int", "7275d51a3f395c8f"), ("string", "8f014872634503c7")):
        c.sum(f'"{text}"'.encode(), answer)
    c.sum(b"", NO_BYTES)
    c.sum(b"\x95", "00c15d213aa4d7a7")
    c.sum(bytes(range(256)), fed(bytes(range(256))))
    for line in ("sum", "sum\tzz", "sum\t0", "sum\t00\t00", "hash", "hash\t", "hash\tx", "visits\t0", "visits\t0\t-1", "boot", "boot\t0\t0"):
        c.put(line, "?")


def levels(c):
    byte_field = field(7, 3, 1, U8)
    c.layout("a record with no fields", 0, layout([record([])]))
    c.hash(0, NO_BYTES)
    c.hash(1, "none")
    for budget in (0, 1, 999999999):
        c.visits(0, budget, NO_BYTES + " 0")
    c.visits(1, 0, "none")
    deep = layout([record([IN_STRUCT])], chain(7, nested([byte_field])))
    c.layout("structs down to level 8", 0, deep)
    down = fed(*[IN_STRUCT, two(16)] * 7, byte_field)
    c.hash(0, down)
    c.visits(0, 8, down + " 8")
    for last, word in ((nested([byte_field]), "a struct with a field"), (nested([], 0), "an empty struct"), (nested([naming(8)]), "a struct that names none")):
        c.layout(f"{word} at level 8, and at level 9", 0, layout([record([naming(1)]), record([naming(0)])], chain(8, last)))
        c.hash(0, fed(*[IN_STRUCT, two(16)] * 6, IN_STRUCT, two(last["size"]), *last["fields"]))
        c.hash(1, "r12")
        c.visits(1, 999999999, "r12")
    c.layout("a struct that holds itself", 0, layout([record([IN_STRUCT])], [nested([IN_STRUCT])]))
    c.hash(0, "r12")
    c.boot(0, "r12")
    c.layout("two structs that hold each other, and a record beside them", 0, layout([record([naming(1)]), record([byte_field])], [nested([naming(1)]), nested([naming(0)])]))
    c.hash(0, "r12")
    c.hash(1, fed(byte_field))


def walks(c):
    a, b = field(3, 8, 8, U64, EXTENSION, 3, -9), field(2, 16, 2, I16, ARRAY, 4, 5)
    for index in (0, 1, 256, 65535):
        c.layout(f"no structs, and a field that names struct {index}", 0, layout([record([naming(index)])]))
        c.hash(0, fed(IN_STRUCT))
    for index in (1, 2, 16, 256, 65535):
        c.layout(f"one struct, and a field that names struct {index}", 0, layout([record([naming(index)])], [nested([a], 300)]))
        c.visits(0, 1, fed(IN_STRUCT) + " 1")
    c.layout("the same that names the struct", 0, layout([record([naming(0)])], [nested([a], 300)]))
    c.visits(0, 2, fed(IN_STRUCT, two(300), a) + " 2")
    one, other = [a, b, naming(0)], [b, naming(0), a]
    for fields in (one, other, one[::-1]):
        c.layout("fields in some order", 0, layout([record(fields)], [nested([b, a], 4096)]))
        c.hash(0, fed(naming(0), two(4096), a, b, a, b))
        c.layout("and in the struct", 0, layout([record(fields)], [nested([a, b], 4096)]))
        c.hash(0, fed(naming(0), two(4096), a, b, a, b))
    c.layout("names, base, rtype, schema and the stored hash go unread", 0, layout([record([a], 9, "q", 7, 8, 9, ["z"])]))
    c.hash(0, fed(a))
    c.layout("every number at its highest", 0, layout([record([field(65535, 4095, 1, 255, 255, 65535, -1)])]))
    c.hash(0, sum_text(b"\xff\xff\xff\x0f\x01\0\xff\xff\xff"))


def budgets(c):
    c.layout("the sample", 0, layout(*sample()))
    r, s = sample()
    header = (two(16), *s[0]["fields"])
    first, second = fed(HD, *header, *r[0]["fields"][1:]), fed(HD, *header, *r[1]["fields"][::2])
    for k, visits, answer in ((0, 7, first), (1, 5, second)):
        c.hash(k, answer)
        c.visits(k, visits, f"{answer} {visits}")
        c.visits(k, visits + 1, f"{answer} {visits}")
        c.visits(k, visits - 1, "r13")
        c.visits(k, 0, "r13")
    c.hash(2, "none")
    c.visits(2, 0, "none")
    c.layout("one field", 0, layout([record([SEQUENCE])]))
    c.visits(0, 0, "r13")
    c.visits(0, 1, fed(SEQUENCE) + " 1")
    c.layout("too deep, or too many visits: the walk tells which comes first", 0, layout([record([IN_STRUCT]), record([field(1, 0, 1, U8), naming(0, 1)]), record([naming(0), field(1, 1, 1, U8)])], [nested([IN_STRUCT])]))
    for k, budget, answer in ((0, 7, "r13"), (0, 8, "r12"), (1, 8, "r13"), (1, 9, "r12"), (2, 7, "r13"), (2, 8, "r12")):
        c.visits(k, budget, answer)


def full_budget(c):
    """structs of 32 fields that name the next: 33 visits, 1,057 and 33,825"""
    lists, structs = [[]], []
    for index in (16, 2, 1):
        row = [naming(index, i) for i in range(32)]
        lists.append([two(32), *(p for f in row for p in (f, *lists[-1]))])
        structs.insert(0, nested(row, 32))
    middle, large = lists[2:]
    some = [naming(1, i) for i in range(1, 31)]
    last, more = field(1, 31, 1, U8), field(2, 32, 1, U8)
    c.layout("65,536 visits, one more, and 33,825", 0, layout([record([naming(0), *some, last]), record([naming(0), *some, last, more]), record([naming(0)])], structs))
    whole = [naming(0), *large, *(p for f in some for p in (f, *middle)), last]
    c.hash(0, fed(*whole))
    c.visits(0, 65536, fed(*whole) + " 65536")
    c.visits(0, 65535, "r13")
    c.hash(1, "r13")
    c.boot(1, "r13")
    c.visits(1, 65537, fed(*whole, more) + " 65537")
    c.visits(2, 33825, fed(naming(0), *large) + " 33825")
    c.visits(2, 33824, "r13")


def boots(c):
    right = int(fed(SEQUENCE), 16)
    stored = [right, right ^ 1, right ^ 1 << 63, 0]
    c.layout("stored hashes: right, the lowest bit wrong, the highest bit wrong, none", 0, layout([record([SEQUENCE], stored=h) for h in stored]))
    for k, answer in enumerate(("same", "different", "different", "different", "none")):
        c.boot(k, answer)
    c.layout("no fields, and the sum of nothing stored", 0, layout([record([], stored=int(NO_BYTES, 16))]))
    c.boot(0, "same")
    c.layout("a layout that is not admitted", 4, layout([record([field(1, 4095, 2, CSTR)], 0)]))
    for ask in (c.hash, c.boot, lambda k, answer: c.visits(k, 0, answer)):
        ask(0, "r4")
        ask(7, "r4")


def hashes(c):
    for some in (sums, levels, walks, budgets, full_budget, boots):
        some(c)


def recorded(c):
    """what the Rust answered (tests/compare --record)"""
    lines = open(os.path.join(ROOT, "tests", "recorded.cases")).read().split("\n")[:-1]
    for line, answer in zip(lines[::2], lines[1::2]):
        word, content = line.split("\t")
        content = int(content) if word in ("hash", "size") else bytes.fromhex(content)
        if word in ("catalogue", "layout"):
            getattr(c, word)("answered by the Rust", 0, content)
        else:
            getattr(c, word)(content, answer)


def fixed():
    c = Cases()
    for part_of_list in (catalogues, pairs, shapes, limits, overlaps, widths, sizes, windows, fields, hashes, recorded, comparings, recorded_pairs, buildings, plannings,
                         upgradings, cuttings, plan_texts):
        if part_of_list is not catalogues and not valid(c.cat):
            c.catalogue("a valid catalogue", 0, catalogue())
        part_of_list(c)
    return c


# ---- damaged layouts, compared with the model

def damaged(rng):
    r, s = sample()
    if rng.random() < 0.5:
        r = [record([field(rng.randrange(5), rng.randrange(0, 64, 4), rng.choice((1, 2, 4, 8)), rng.choice(list(GOOD_KINDS))) for _ in range(rng.randrange(6))]) for _ in range(rng.randrange(4))]
    for refusal in rng.sample(list(BREAKS), rng.randrange(3)):
        if r and len(s) > 1 and r[0]["fields"]:
            BREAKS[refusal][rng.randrange(2)](r, s)
    block = bytearray(layout(r, s))
    for _ in range(rng.choice((0, 0, 1, 1, 2, 5))):
        block[rng.randrange(len(block))] = rng.choice((0, 1, 16, 33, 128, 255, rng.randrange(256)))
    if rng.random() < 0.1:
        del block[rng.randrange(len(block) + 1) :]
    return bytes(block)


def random_run(n, seed):
    rng = random.Random(seed)
    cat = catalogue()
    lines, answers, told = ["catalogue\t" + cat.hex()], ["ok"], {}
    for _ in range(n):
        if rng.random() < 0.02:
            raw = bytearray(catalogue())
            raw[rng.randrange(262)] = rng.choice((0, 0x11, 0x28, 0x40, 0x60, rng.randrange(256)))
            cat = bytes(raw)
            lines.append("catalogue\t" + cat.hex())
            answers.append("ok" if valid(cat) else "r1")
            if not valid(cat) and rng.random() < 0.9:
                cat = catalogue()
                lines.append("catalogue\t" + cat.hex())
                answers.append("ok")
        block = damaged(rng)
        refusal = admit(cat, block)
        told[refusal] = told.get(refusal, 0) + 1
        lines += ["layout\t" + block.hex(), "size\t0"]
        answers += [f"r{refusal}" if refusal else "ok", record_size(cat, block, 0)]
    program = os.path.join(ROOT, "target", "bin", "cases")
    got = subprocess.run([program], input="\n".join(lines) + "\n", capture_output=True, text=True).stdout.split("\n")[:-1]
    wrong = [i for i in range(len(lines)) if i >= len(got) or got[i] != answers[i]]
    for i in wrong[:5]:
        print(lines[i][:2000], "expected", answers[i], "got", got[i] if i < len(got) else "nothing")
    print(f"{n} layouts, seed {seed}: {len(wrong)} differ; by answer:", dict(sorted(told.items())))
    return 1 if wrong else 0


def main():
    if len(sys.argv) > 2 and sys.argv[1] == "--random":
        sys.exit(random_run(int(sys.argv[2]), int(sys.argv[3]) if len(sys.argv) > 3 else 1))
    c = fixed()
    paths = [os.path.join(ROOT, "crates", "cases", which) for which in ("stdin", "stdout")]
    texts = ["\n".join(lines) + "\n" for lines in (c.lines, c.answers)]
    if sys.argv[1:] == ["--check"]:
        same = all(os.path.exists(p) and open(p).read() == t for p, t in zip(paths, texts))
        print("the files are", "as" if same else "NOT what", "this script writes them" if same else "it would write")
        sys.exit(0 if same else 1)
    for p, t in zip(paths, texts):
        open(p, "w").write(t)
    asked = sum(1 for line in c.lines if not line.startswith("#"))
    print(f"{asked} cases, {sum(map(len, texts))} bytes")


main()
