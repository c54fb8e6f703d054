"""Random pairs of admitted layouts that are equal or nearly so, and case lines that ask for verdicts and fields of them."""
from generate import CATALOGUE, any_flags, any_size, ordered
from model import *


TYPES = (U8, U16, U32, U64, I8, I32, I64, PRICE, CSTR, SYMBOL, NESTED, NESTED, NESTED, PAD, PAD, CHAR, ENUM)
NAMES = [b"a", b"b", b"ab", b"", b"price", b"n" * 32, b"n" * 31 + b"m"]
RTYPES = (1, 1, 2, 3, 65535)


def some_fields(rng, count, end, structs):
    fields, at = [], rng.choice((0, 0, 3))
    for _ in range(count):
        type_id, flags = rng.choice(TYPES), any_flags(rng)
        size = any_size(rng, type_id, flags, min(end - at, 16)) if at < end else 0
        if size == 0:
            continue
        index = rng.choice((*range(structs + 1), 65535)) if type_id == NESTED else rng.choice((0, 0, 7))
        fields.append(field(rng.randrange(2, 7), at, size, type_id, flags, index, rng.choice((0, 0, -9, 5, -128))))
        at += size + rng.choice((0, 0, 4))
    return ordered(rng, fields)


def some_record(rng, structs):
    fields = some_fields(rng, rng.choice((0, 1, 2, 3, 5, 9)), rng.choice((64, 400)), structs)
    ends = [sum(decode(f)[1:3]) for f in fields]
    base = rng.choice((0, 64, max(ends, default=0)))
    return record(fields, base, rng.choice(NAMES), rng.choice(RTYPES), 1, rng.randrange(3), [rng.choice(NAMES) for _ in fields])


def some_layout(rng):
    structs = rng.choice((0, 1, 2, 3))
    made = []
    for _ in range(structs):
        size = rng.choice((8, 24, 64))
        made.append(nested(some_fields(rng, rng.choice((0, 1, 2, 4)), size, structs), size, rng.choice(NAMES)))
    return [some_record(rng, structs) for _ in range(rng.choice((0, 1, 1, 1, 2, 3)))], made


# ---- near misses: each changes one thing of a layout, given its tables as lists of rows

def changed_number(rng, row):
    """one number of a field: id, offset, size, type, flags, def_index or scale"""
    values = list(decode(row))
    which = rng.randrange(7)
    if which == 3:
        values[3] = rng.choice(TYPES)
    elif which == 4:
        values[4] ^= 1 << rng.randrange(8)
    elif which == 6:
        values[6] = (values[6] + rng.choice((1, -1, 128)) + 128) % 256 - 128
    else:
        values[which] = min(65535, max(0, values[which] + rng.choice((1, -1, 256))))
    return field(*values)


def tables(records, structs):
    return [t for t in (*records, *structs) if t["fields"]]


def change(rng, records, structs):
    style = rng.choice(("none", "number", "number", "number", "struct", "size", "base", "order", "order", "drop", "pad", "hash", "more", "rtype", "indexes"))
    held = tables(records, structs if style != "number" else ())
    if style == "number" and held:
        fields = rng.choice(held)["fields"]
        i = rng.randrange(len(fields))
        fields[i] = changed_number(rng, fields[i])
    elif style == "struct" and any(s["fields"] for s in structs):
        fields = rng.choice([s for s in structs if s["fields"]])["fields"]
        i = rng.randrange(len(fields))
        fields[i] = changed_number(rng, fields[i])
    elif style == "size" and structs:
        rng.choice(structs)["size"] += rng.choice((1, 8))
    elif style == "base" and records:
        one = rng.choice(records)
        one["base"] = max(0, one["base"] + rng.choice((1, -1)))
    elif style == "order" and held:
        rng.shuffle(rng.choice(held)["fields"])
    elif style == "drop" and held:
        one = rng.choice(held)
        i = rng.randrange(len(one["fields"]))
        del one["fields"][i]
        if "names" in one:
            del one["names"][i]
    elif style == "pad" and records:
        one = rng.choice(records)
        one["fields"].append(field(rng.randrange(2, 7), rng.choice((500, 600)), 4, PAD))
        one["names"].append(rng.choice(NAMES))
    elif style == "hash" and records:
        rng.choice(records)["hash"] ^= rng.choice((1, 1 << 63))
    elif style == "more" and records:
        records.insert(rng.randrange(len(records) + 1), copied([rng.choice(records)])[0])
    elif style == "rtype" and records:
        rng.choice(records)["rtype"] = rng.choice(RTYPES)
    elif style == "indexes" and records and structs:
        # the structs stand elsewhere, and the fields name them there
        structs.insert(0, structs.pop())
        n = len(structs)
        for one in records:
            one["fields"] = [moved(row, n) for row in one["fields"]]


def moved(row, n):
    values = list(decode(row))
    if values[3] == NESTED and values[5] < n:
        values[5] = (values[5] + 1) % n
    return field(*values)


def copied(tables):
    return [{what: list(x) if isinstance(x, list) else x for what, x in t.items()} for t in tables]


def pair(rng):
    """a stream's layout and a compiled one, both admitted"""
    while True:
        records, structs = some_layout(rng)
        one = layout(records, structs)
        if admit(CATALOGUE, one):
            continue
        for _ in range(6):
            others = copied(records), copied(structs)
            for _ in range(rng.choice((0, 1, 1, 1, 2))):
                change(rng, *others)
            for r in others[0]:
                r["hash"] = r["hash"] if rng.random() < 0.3 else 9
            other = layout(*others)
            if not admit(CATALOGUE, other):
                return (one, other) if rng.random() < 0.5 else (other, one)


def ask_pair(rng):
    stream, compiled = pair(rng)
    records = [8 + 72 * k for k in range(number(stream, 0, 2))]
    rtypes = {number(stream, h, 2) for h in records} | {rng.choice(RTYPES)}
    lines = ["layout\t" + stream.hex()]
    lines += [f"verdict\t{k}\t{compiled.hex()}" for k in range(len(records) + 1)]
    lines += [f"verdict_of\t{t}\t{compiled.hex()}" for t in sorted(rtypes)]
    for t in sorted(rtypes):
        lines += [f"by_id\t{t}\t{rng.randrange(2, 7)}" for _ in range(2)]
        lines += [f"by_name\t{t}\t{rng.choice(NAMES + [b'n' * 33]).hex()}" for _ in range(2)]
    return lines
