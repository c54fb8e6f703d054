"""Random sequences of the field cursor's calls, as case lines. A model of the cursor goes along, so that calls meet the cursor's limits."""
import struct

import generate
from model import *
from model_cursor import Cursor, called, structs_of, up

CAT = generate.CATALOGUE
SCALARS = [i for i, b in enumerate(CAT[:256]) if b // 16 <= DECIMAL and b % 16]
TYPES = SCALARS + [CSTR, SYMBOL, PAD, PAD, generate.UNKNOWN]
FEW_IDS = (0, 0, 1, 2, 3, 4, 5, 6, 7)
MOST_IDS = 64


def any_id(rng):
    return rng.choice(FEW_IDS) if rng.random() < 0.9 else rng.randrange(65536)


def any_name(rng):
    if rng.random() < 0.03:
        return rng.randbytes(rng.choice((33, 34, 60)))
    return rng.randbytes(rng.choice((0, 1, 2, 3, 5, 8, 31, 32)))


def line(rng, word, size, type_id, flags=0, def_index=None, scale=None):
    """offset and reserved bytes are given too, and mean nothing"""
    def_index = rng.choice((0, 1, 65535, rng.randrange(65536))) if def_index is None else def_index
    scale = rng.randrange(-128, 128) if scale is None else scale
    reserved = rng.randbytes(5) if rng.random() < 0.1 else bytes(5)
    row = field(any_id(rng), rng.choice((0, rng.randrange(65536))), size % 65536, type_id, flags, def_index, scale, reserved)
    return f"{word}\t{row.hex()}\t{any_name(rng).hex()}"


def size_of(rng, type_id, flags):
    width = CAT[type_id] % 16
    if rng.random() < 0.05:
        return rng.choice((0, width + 1, 2 * width, max(0, width - 1), 65535))
    if flags & ARRAY:
        return rng.choice((max(width, 1) * rng.choice((1, 2, 3, 10)), rng.randrange(1, 40)))
    return width or rng.choice((1, 2, 3, 7, 8, 22, 71))


def any_scalar(rng, m):
    type_id = rng.choice(SCALARS) if rng.random() < 0.95 else rng.choice((CSTR, NESTED, PAD, generate.UNKNOWN, rng.randrange(256)))
    flags = generate.any_flags(rng) if rng.random() < 0.5 else 0
    return line(rng, "scalar", size_of(rng, type_id, flags), type_id, flags)


def any_string(rng, m):
    type_id = rng.choice((CSTR, SYMBOL)) if rng.random() < 0.95 else rng.choice((U8, NESTED, PAD, CHAR))
    return line(rng, "string", size_of(rng, type_id, 0), type_id, generate.any_flags(rng) if rng.random() < 0.3 else 0)


def any_like(rng, m):
    type_id = rng.choice(TYPES) if rng.random() < 0.95 else rng.choice((NESTED, rng.randrange(256)))
    flags = generate.any_flags(rng)
    return line(rng, "like", size_of(rng, type_id, flags), type_id, flags)


def any_nested(rng, m):
    k = rng.randrange(len(m.structs)) if m.structs and rng.random() < 0.93 else rng.choice((len(m.structs), len(m.structs) + 1, 65535))
    if rng.random() < 0.5:
        return line(rng, "nested", rng.randrange(65536), rng.randrange(256), rng.randrange(256), k)
    return line(rng, "nested_array", rng.choice((0, 1, 1, 1, 2, 2, 3, 10, 16, 4096, 65535)), rng.randrange(256), rng.randrange(256), k)


def any_at(rng, m):
    roll = rng.random()
    if roll < 0.2:
        return f"at\t{m.at}"
    if roll < 0.35:
        return f"at\t{max(0, m.at - rng.choice((1, 2, 8)))}"
    if roll < 0.42:
        return f"at\t{rng.choice((4096, 4097, 65535, 65536, 65536 + m.at, 999999999))}"
    return f"at\t{m.at + rng.choice((1, 2, 3, 5, 8, 40))}"


def to_limit(rng, m):
    """a string that ends at 4,096, one short of it or one past it, or the same by a call of at"""
    end = 4096 + rng.choice((-8, -7, -1, -1, 0, 0, 0, 1, 1, 2))
    if rng.random() < 0.5:
        return f"at\t{end}"
    return line(rng, "string", max(0, end - m.at), CSTR)


def base(rng, m):
    return "finish_base"


KINDS = (any_scalar, any_string, any_like, any_nested, any_at, base, to_limit)
# how often each comes in a sequence of a style
STYLES = {
    "mixed": (40, 12, 20, 10, 12, 4, 1), "near the end": (30, 15, 15, 10, 10, 5, 15), "many": (70, 5, 20, 0, 4, 1, 0), "bytes": (0, 0, 1, 0, 0, 0, 0),
}


def byte(rng, m):
    """one byte each, so that the table's limit is met exactly"""
    return line(rng, rng.choice(("scalar", "like")), 1, rng.choice((U8, I8, CHAR)))


def any_order(rng):
    ids = [any_id(rng) for _ in range(rng.choice((0, 1, 3, 6, 12)) if rng.random() < 0.98 else MOST_IDS)]
    return "finish\t" + b"".join(struct.pack("<H", i) for i in ids).hex()


def any_call(rng, m, style):
    if style == "bytes" and rng.random() < 0.97:
        return byte(rng, m)
    return rng.choices(KINDS, STYLES["mixed" if style == "bytes" else style])[0](rng, m)


def sequence(rng, m):
    """lines, and the model's answers to them"""
    style = rng.choices(list(STYLES), (70, 15, 10, 5))[0]
    n = rng.choice((31, 32, 33, 127, 128, 129, 140)) if style in ("many", "bytes") else rng.choice((1, 3, 6, 10, 15, 25))
    lines, answers = [], []

    def say(text):
        lines.append(text)
        answers.append(called(m, m.structs, text))

    say("begin\t" + rng.choice(("record", "record", "struct")))
    for _ in range(n):
        say(any_call(rng, m, style))
        if rng.random() < 0.05:
            say(f"built\t{min(128, len(m.fields) + 2)}")
    for _ in range(rng.choice((0, 1, 1, 1, 1, 2))):
        say(any_order(rng))
        if rng.random() < 0.3:
            say(any_call(rng, m, style))
    say(f"built\t{min(128, len(m.fields) + 2)}")
    return lines, answers


def calls(rng, n, most=generate.MOST_BLOCK):
    """n sequences, under another layout every twenty; the lines, and the model's answers"""
    m = Cursor(CAT)
    lines, answers = ["catalogue\t" + CAT.hex()], ["ok"]
    for i in range(n):
        if i % 20 == 0:
            block = any_block(rng, most)
            m.structs = structs_of(CAT, block)
            lines.append("layout\t" + block.hex())
            answers.append("ok")
        some, said = sequence(rng, m)
        lines += some
        answers += said
    return lines, answers


def any_block(rng, most):
    """a layout without records, mostly with structs"""
    while True:
        made, _ = generate.any_structs(rng)
        if len(made) < 16 and rng.random() < 0.2:
            made.append(nested([], 0))
        block = layout([], made)
        if len(block) <= most and (made or rng.random() < 0.1):
            return block
