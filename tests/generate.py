"""Random admitted layouts, and case lines that ask about them and about bytes. All from one random.Random."""
from model import *

MOST_BLOCK = 32768

# with the ids of enums, bit sets, floats and timestamps, which the judge knows too (judge/src/v4/fields.rs)
KINDS = {
    **GOOD_KINDS, 98: (OTHER, 1), 99: (OTHER, 1), 100: (OTHER, 1), 101: (OTHER, 2), 102: (OTHER, 4), 103: (OTHER, 8),
    104: (OTHER, 4), 105: (OTHER, 8), 106: (OTHER, 8),
}
CATALOGUE = catalogue(KINDS)
UNKNOWN = 222


class Structs:
    """What a struct field may name: the struct's height (1 holds no other) and how many fields a walk of it visits."""

    def __init__(self, count):
        self.count, self.height, self.visits = count, {}, {}

    def add(self, index, fields):
        named = [decode(f) for f in fields]
        inner = [f[5] for f in named if f[3] == NESTED and f[5] in self.height]
        self.height[index] = 1 + max([self.height[i] for i in inner], default=0)
        self.visits[index] = len(fields) + sum(self.visits[i] for i in inner)

    def choose(self, rng, below, budget):
        """an index of a struct lower than `below`, the highest more often; or one past the table"""
        known = sorted((i for i in self.height if self.height[i] < below and self.visits[i] <= budget), key=self.height.get)
        if not known or rng.random() < 0.15:
            return rng.choice((self.count, self.count + 1, 255, 256, 65535))
        return known[-1] if rng.random() < 0.5 else rng.choice(known)


def any_id(rng, style):
    if style == "few":
        return rng.choice((0, 1, 2, 3, 256, 65535))
    return rng.randrange(65536) if style == "wide" else rng.randrange(2, 200)


def any_type(rng, structs):
    roll = rng.random()
    if roll < 0.2 and structs.count:
        return NESTED
    if roll < 0.3:
        return PAD
    if roll < 0.35:
        return rng.choice((NESTED, UNKNOWN, rng.randrange(256)))
    return rng.choice(list(KINDS))


def any_flags(rng):
    flags = rng.choice((0, 0, 0, ARRAY)) | rng.choice((0, 0, EXTENSION))
    return flags | rng.randrange(64) if rng.random() < 0.1 else flags


def any_size(rng, type_id, flags, most):
    """the width where the rules ask for it, else any; 0 where nothing fits"""
    kind, width = divmod(CATALOGUE[type_id], 16)
    if kind in (UNSIGNED, SIGNED) and not flags & ARRAY:
        return width if width <= most else 0
    want = rng.choice((width or 1, 2 * width or 3, rng.randrange(1, 9), rng.randrange(1, 72)))
    return min(want, most)


def ordered(rng, fields):
    """as they lie, from the last to the first, with two exchanged, or anyhow"""
    style = rng.choice(("as they lie", "as they lie", "reversed", "exchanged", "shuffled", "shuffled"))
    if style == "reversed":
        fields.reverse()
    elif style == "shuffled":
        rng.shuffle(fields)
    elif style == "exchanged" and len(fields) > 1:
        i, j = rng.randrange(len(fields)), rng.randrange(len(fields))
        fields[i], fields[j] = fields[j], fields[i]
    return fields


def any_fields(rng, count, end, structs, below, budget):
    """up to `count` fields that share no byte, none past `end`; their structs are lower than `below`, their visits within budget"""
    fields, at, style = [], rng.choice((0, 0, 0, rng.randrange(64))), rng.choice(("few", "wide", "plain"))
    gap, close = rng.choice((0, 0, 1, 40, end // max(count, 1))), rng.random() < 0.5
    for _ in range(count):
        at += rng.choice((0, rng.randrange(gap + 1)))
        type_id, flags = any_type(rng, structs), any_flags(rng)
        room = min(end - at, (end // max(count, 1)) or 1) if close else end - at
        size = any_size(rng, type_id, flags, room) if room > 0 else 0
        if size == 0:
            continue
        index = structs.choose(rng, below, budget) if type_id == NESTED else rng.choice((0, 0, 65535, rng.randrange(20)))
        budget -= 1 + (structs.visits.get(index, 0) if type_id == NESTED else 0)
        if budget < 0:
            break
        scale = rng.choice((0, 0, -9, rng.randrange(-128, 128)))
        fields.append(field(any_id(rng, style), at, size, type_id, flags, index, scale))
        at += size
    if fields and rng.random() < 0.05 and at < end:
        fields.append(field(9, end - 1, 1, CHAR))
    return ordered(rng, fields[:count])


def any_name(rng):
    return bytes(rng.randrange(256) for _ in range(rng.choice((0, 1, 2, 5, 31, 32))))


def any_structs(rng):
    """from the lowest to the highest, each at a place of its own in the table"""
    count = rng.choice((0, 1, 2, 4, 8, 16))
    places, made, structs = list(range(count)), {}, Structs(count)
    rng.shuffle(places)
    deep = rng.random() < 0.5
    for place in places:
        size = rng.choice((1, 8, 24, 64, 200, 4096))
        many = rng.choice((0, 1, 2, 4)) if deep else rng.choice((0, 1, 3, 8, 31, 32))
        fields = any_fields(rng, many, size, structs, MOST_LEVELS - 1, rng.choice((40, 400, 4000)))
        if deep and structs.height and rng.random() < 0.8:
            fields = chained(rng, fields, size, structs)
        structs.add(place, fields)
        made[place] = nested(fields, size, any_name(rng))
    return [made[place] for place in range(count)], structs


def chained(rng, fields, size, structs):
    """the same with a first byte that names the highest struct that may still be named"""
    taken = any(decode(f)[1] == 0 for f in fields)
    known = [i for i in structs.height if structs.height[i] < MOST_LEVELS - 1 and structs.visits[i] < 2000]
    if taken or not known or len(fields) > 31:
        return fields
    return [field(7, 0, 1, NESTED, 0, max(known, key=structs.height.get))] + fields


def any_record(rng, structs):
    count = rng.choice((0, 1, 2, 5, 5, 12, 12, 30, 30, 64, 127, 128))
    budget = rng.choice((300, 300, 3000, 65536))
    fields = any_fields(rng, count, rng.choice((64, 400, 4096, 4096)), structs, MOST_LEVELS, budget)
    ends = [0] + [sum(decode(f)[1:3]) for f in fields]
    base = rng.choice((0, max(ends), max(0, max(ends) - 8), rng.randrange(4097), 4096, sum(sorted(ends)[-2:-1])))
    names = [any_name(rng) for _ in fields]
    return record(fields, base, any_name(rng), rng.choice((1, 2, 160, rng.randrange(65536))), rng.choice((0, 1, 65535)), rng.getrandbits(64), names)


def any_layout(rng):
    """an admitted layout: its block, its records and what its structs are"""
    made, structs = any_structs(rng)
    records = []
    for _ in range(rng.choice((0, 1, 1, 2, 3, 16))):
        more = records + [any_record(rng, structs)]
        if len(layout(more, made)) > MOST_BLOCK:
            break
        records = more
    block = layout(records, made)
    assert admit(CATALOGUE, block) == 0, admit(CATALOGUE, block)
    return block, records, structs


def levels(records, structs):
    """how deep the deepest walk of a record goes"""
    named = [decode(f) for r in records for f in r["fields"]]
    return 1 + max([structs.height.get(f[5], 0) for f in named if f[3] == NESTED], default=0)


# ---- lines

def any_bytes(rng, most):
    return bytes(rng.randrange(256) for _ in range(rng.choice((0, 1, 2, rng.randrange(16), rng.randrange(most + 1)))))


def ask_records(rng, word, block):
    count = number(block, 0, 2)
    return [f"{word}\t{k}" for k in (*range(count), count, rng.choice((count + 1, 16, 65535, 65536, 999999999)))]


def ask_window(rng):
    content = any_bytes(rng, 300)
    n = len(content)
    around = (0, 1, max(0, n - 1), n, n + 1, rng.randrange(n + 1), 65535, rng.randrange(65536))
    offset = rng.choice(around)
    size = rng.choice((*around, max(0, n - offset), max(0, n - offset) + 1, max(0, n - offset - 1)))
    return f"window\t{content.hex()}\t{offset}\t{size}"


def ask_sum(rng):
    return f"sum\t{any_bytes(rng, 400).hex()}"
