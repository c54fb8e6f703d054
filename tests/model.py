"""The bytes of catalogues and layouts, and a model of the ground's rules: written from the rules and not from the code."""
import functools, struct

OTHER, UNSIGNED, SIGNED, DECIMAL, STRING, STRUCT, PADDING = range(7)
ARRAY, EXTENSION = 128, 64

# ---- bytes of a catalogue and of a layout (docs/FORMATS.md)

U8, U16, U32, U64, I8, I16, I32, I64, PRICE, CSTR, SYMBOL, NESTED, PAD, CHAR, ENUM = 1, 2, 3, 4, 17, 18, 19, 20, 33, 49, 50, 65, 80, 96, 97
GOOD_KINDS = {
    U8: (UNSIGNED, 1), U16: (UNSIGNED, 2), U32: (UNSIGNED, 4), U64: (UNSIGNED, 8),
    I8: (SIGNED, 1), I16: (SIGNED, 2), I32: (SIGNED, 4), I64: (SIGNED, 8),
    PRICE: (DECIMAL, 8), CSTR: (STRING, 0), SYMBOL: (STRING, 0), NESTED: (STRUCT, 0), PAD: (PADDING, 0),
    CHAR: (OTHER, 1), ENUM: (OTHER, 2),
}


def catalogue(kinds=GOOD_KINDS, array=ARRAY, extension=EXTENSION, header=1, padding=0, cut=None, more=b""):
    table = bytearray(256)
    for type_id, (kind, width) in kinds.items():
        table[type_id] = 16 * kind + width
    whole = bytes(table) + struct.pack("<BBHH", array, extension, header, padding) + more
    return whole[:cut]


def field(field_id, offset, size, type_id, flags=0, def_index=0, scale=0, reserved=bytes(5)):
    return struct.pack("<HHHBBHb", field_id, offset, size, type_id, flags, def_index, scale) + reserved


def name(text):
    text = text if isinstance(text, bytes) else text.encode()
    return bytes([min(len(text), 255)]) + text[:32].ljust(32, b"\0")


def record(fields, base=64, title="r", rtype=1, schema=1, stored=0, names=None):
    fields = list(fields)
    names = [b"f"] * len(fields) if names is None else names
    return dict(fields=fields, base=base, name=title, rtype=rtype, schema=schema, hash=stored, names=names)


def nested(fields, size=16, title="s"):
    return dict(fields=list(fields), size=size, name=title)


def layout(records, structs=(), counts=None, head=b"\0\0\0\0", patch=()):
    """patch: (place, bytes) laid over the block, a place below 0 counted from its end"""
    at = 8 + 72 * len(records) + 48 * len(structs)
    heads, parts = b"", b""

    def part(content):
        nonlocal parts
        start = at + len(parts)
        parts += content
        return struct.pack("<II", start, len(content))

    for r in records:
        table, names = part(b"".join(r["fields"])), part(b"".join(name(n) for n in r["names"]))
        heads += struct.pack("<HHIQ", r["rtype"], r["schema"], r["base"], r["hash"]) + table + names + name(r["name"]) + bytes(7)
    for s in structs:
        heads += struct.pack("<I", s["size"]) + part(b"".join(s["fields"])) + name(s["name"]) + bytes(3)
    counts = counts or (len(records), len(structs))
    block = bytearray(struct.pack("<HH", *counts) + head + heads + parts)
    for place, content in patch:
        place = place if place >= 0 else len(block) + place
        block[place : place + len(content)] = content
    return bytes(block)


# ---- the model: the rules, read afresh

def number(b, at, n):
    return sum((b[at + i] if at + i < len(b) else 0) << 8 * i for i in range(n))


@functools.cache
def valid(cat):
    if len(cat) != 262:
        return False
    kinds = [divmod(k, 16) for k in cat[:256]]
    if any(k > PADDING or w not in (0, 1, 2, 4, 8) for k, w in kinds):
        return False
    for sign in (UNSIGNED, SIGNED):
        if sorted(w for k, w in kinds if k == sign) != [1, 2, 4, 8]:
            return False
    decimals = [w for k, w in kinds if k == DECIMAL]
    if len(decimals) != 1 or decimals[0] == 0:
        return False
    for kind, many in ((STRING, 2), (STRUCT, 1), (PADDING, 1)):
        if [w for k, w in kinds if k == kind] != [0] * many:
            return False
    bits = [1 << i for i in range(8)]
    return cat[256] in bits and cat[257] in bits and cat[256] != cat[257]


def part(l, at):
    start, size = number(l, at, 4), number(l, at + 4, 4)
    return l[start : start + size] if start + size <= len(l) else None


def table_shape(l, at, most):
    table = part(l, at)
    return table is not None and len(table) % 16 == 0 and len(table) // 16 <= most


def byte(l, at):
    return number(l, at, 1)


def shape(l):
    records, structs = number(l, 0, 2), number(l, 2, 2)
    if records > 16 or structs > 16 or 8 + 72 * records + 48 * structs > len(l):
        return None
    tables = []
    for k in range(records):
        h = 8 + 72 * k
        if number(l, h + 4, 4) > 4096 or byte(l, h + 32) > 32 or not table_shape(l, h + 16, 128):
            return None
        fields, names = len(part(l, h + 16)) // 16, part(l, h + 24)
        if names is None or len(names) != 33 * fields or any(names[33 * i] > 32 for i in range(fields)):
            return None
        tables.append((part(l, h + 16), 4096))
    for k in range(structs):
        h = 8 + 72 * records + 48 * k
        if number(l, h, 4) > 4096 or byte(l, h + 12) > 32 or not table_shape(l, h + 4, 32):
            return None
        tables.append((part(l, h + 4), number(l, h, 4)))
    return tables


def decode(row):
    return struct.unpack("<HHHBBHb", row[:11])


def rows(table):
    return [table[i : i + 16] for i in range(0, len(table) - 15, 16)]


def overlap(table):
    seen = set()
    for row in rows(table):
        _, offset, size, *_ = decode(row)
        for b in range(offset, offset + size):
            if b in seen:
                return True
            seen.add(b)
    return False


def wrong_width(cat, row):
    _, _, size, type_id, flags, _, _ = decode(row)
    kind, width = divmod(cat[type_id], 16)
    return kind in (UNSIGNED, SIGNED) and not flags & cat[256] and size != width


def admit(cat, l):
    if not valid(cat):
        return 1
    tables = shape(l)
    if tables is None:
        return 2
    if any(any(row[11:]) for table, _ in tables for row in rows(table)):
        return 3
    for table, most in tables:
        for row in rows(table):
            _, offset, size, *_ = decode(row)
            if size == 0 or offset + size > most:
                return 4
    if any(overlap(table) for table, _ in tables):
        return 5
    if any(wrong_width(cat, row) for table, _ in tables for row in rows(table)):
        return 6
    return 0


def record_size(cat, l, k):
    refusal = admit(cat, l)
    if refusal:
        return f"r{refusal}"
    if k >= number(l, 0, 2):
        return "none"
    h = 8 + 72 * k
    ends = [decode(row)[1] + decode(row)[2] for row in rows(part(l, h + 16))]
    return f"={max([number(l, h + 4, 4)] + ends)}"


def field_of(table, k):
    if len(table) % 16 or len(table) > 16 * 128:
        return "r2"
    if any(any(row[11:]) for row in rows(table)):
        return "r3"
    if k >= len(table) // 16:
        return "none"
    return " ".join(map(str, decode(table[16 * k :]) + (0,)))


# ---- the layout hash: bits, levels and a budget, read afresh

EMPTY_SUM, MOST_LEVELS, DEFAULT_BUDGET = 0xC15D213AA4D7A795, 8, 65536
TOO_DEEP, OVER_BUDGET = 12, 13


def crc(content):
    """CRC-64-AVRO, a bit at a time"""
    fp = EMPTY_SUM
    for b in content:
        fp ^= b
        for _ in range(8):
            fp = (fp >> 1) ^ (EMPTY_SUM if fp & 1 else 0)
    return fp


def shifted(b):
    for _ in range(8):
        b = (b >> 1) ^ (EMPTY_SUM if b & 1 else 0)
    return b


ENTRIES = [shifted(b) for b in range(256)]


def quick_crc(content):
    """the same, a byte at a time: a slot has six thousand bytes"""
    fp = EMPTY_SUM
    for b in content:
        fp = (fp >> 8) ^ ENTRIES[(fp ^ b) & 255]
    return fp


assert quick_crc(bytes(range(256))) == crc(bytes(range(256)))


class Stopped(Exception):
    pass


class Walk:
    """the bytes that a hash is the sum of, and the visits"""

    def __init__(self, cat, l, budget):
        self.cat, self.l, self.budget, self.visits, self.fed = cat, l, budget, 0, bytearray()

    def struct_named(self, row):
        type_id, def_index = row[6], number(row, 8, 2)
        if self.cat[type_id] >> 4 != STRUCT or def_index >= number(self.l, 2, 2):
            return None
        return 8 + 72 * number(self.l, 0, 2) + 48 * def_index

    def table(self, table, level):
        if level > MOST_LEVELS:
            raise Stopped(TOO_DEEP)
        for row in sorted(rows(table), key=lambda row: number(row, 2, 2)):
            if self.visits == self.budget:
                raise Stopped(OVER_BUDGET)
            self.visits += 1
            self.fed += row[:8] + row[10:11]
            head = self.struct_named(row)
            if head is not None:
                self.fed += self.l[head : head + 2]
                self.table(part(self.l, head + 4), level + 1)


def hash_within(cat, l, k, budget):
    """the hash and the visits, or what is said instead"""
    refusal = admit(cat, l)
    if refusal:
        return f"r{refusal}"
    if k >= number(l, 0, 2):
        return "none"
    walk = Walk(cat, l, budget)
    try:
        walk.table(part(l, 8 + 72 * k + 16), 1)
    except Stopped as stopped:
        return f"r{stopped.args[0]}"
    return crc(walk.fed), walk.visits


def sum_text(content):
    return f"{crc(content):016x}"


def hash_text(cat, l, k):
    got = hash_within(cat, l, k, DEFAULT_BUDGET)
    return got if isinstance(got, str) else f"{got[0]:016x}"


def visits_text(cat, l, k, budget):
    got = hash_within(cat, l, k, budget)
    return got if isinstance(got, str) else f"{got[0]:016x} {got[1]}"


def boot_text(cat, l, k):
    got = hash_within(cat, l, k, DEFAULT_BUDGET)
    if isinstance(got, str):
        return got
    return "same" if got[0] == number(l, 8 + 72 * k + 8, 8) else "different"
