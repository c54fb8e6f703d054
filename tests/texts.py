"""Random plans and damaged texts as case lines, with the answers of the model."""
from model_text import *

WIDTHS = (1, 2, 4, 8)


def any_step(rng, low, size):
    """a step from `low` on, or none where nothing fits"""
    target = low + rng.choice((0, 0, 0, 1, 2, rng.randrange(16)))
    room = size - target
    if room < 1:
        return None
    if rng.random() < 0.5:
        n = min(room, rng.choice((1, 2, 3, 8, 22, 71, rng.randrange(1, 300))))
        return Step(rng.randrange(MAX_BYTES - n + 1), target, n)
    to = rng.choice([w for w in WIDTHS if w <= room])
    marked = rng.random() < 0.5
    sizes = [w for w in WIDTHS if w != to and (marked or w < to)]
    if not sizes:
        return None
    n = rng.choice(sizes)
    return Step(rng.choice((rng.randrange(MAX_BYTES - n + 1), MAX_BYTES - n)), target, n, to, rng.random() < 0.5, marked)


def any_plan(rng):
    size = rng.choice((0, 1, 9, 10, 40, 64, 99, 100, 256, rng.randrange(400), 999, 1000, MAX_BYTES if rng.random() < 0.1 else 80))
    header = rng.choice((0, min(size, 16), min(size, 24), min(size, MAX_HEADER), rng.randrange(min(size, MAX_HEADER) + 1)))
    low, steps = header, []
    for _ in range(rng.choice((0, 1, 2, 3, 5, 9, 128 if rng.random() < 0.1 else 4))):
        s = any_step(rng, low, size)
        if s is None:
            break
        steps.append(s)
        low = s.target + (s.size if s.to is None else s.to)
    rtypes = [rng.choice((0, 1, 9, 10, 99, 100, 999, 1000, 9999, 10000, 65535, rng.randrange(65536))) for _ in range(2)]
    body = rng.choice((bytes(size - header), b"\xff" * (size - header), rng.randbytes(size - header)))
    return Plan(*rtypes, rng.choice((0, 24, MAX_BYTES, rng.randrange(MAX_BYTES + 1))), header, rng.choice((0, size, rng.randrange(size + 1))), size, body, steps)


ODD = [b"\0", b"\t", b"\n", b"\r", b" ", b"+", b"-", b"0", b"1", b"9", b"A", b"F", b"a", b"g", b"s", b"u", b"\xff"]


def damaged(rng, text):
    """a text with a few bytes changed, put in, left out, or lines moved"""
    for _ in range(rng.choice((1, 1, 1, 2, 3))):
        at, odd = rng.randrange(len(text) + 1), rng.choice(ODD + [rng.randbytes(1)])
        kind = rng.randrange(6)
        if kind == 0:
            text = text[:at] + odd + text[at + 1:]
        elif kind == 1:
            text = text[:at] + odd + text[at:]
        elif kind == 2:
            text = text[:at] + text[at + 1:]
        elif kind == 3:
            text = text[:at]
        elif kind == 4:
            lines = text.split(b"\n")
            i, j = rng.randrange(len(lines)), rng.randrange(len(lines))
            lines[i], lines[j] = lines[j], lines[i]
            text = b"\n".join(lines)
        else:
            fields = text.split(b"\t")
            i = rng.randrange(len(fields))
            fields[i] = rng.choice((b"0", b"1", b"2", b"3", b"128", b"129", b"4096", b"4097", b"65535", b"65536", b"65537", b"4294967297", b"0" + fields[i]))
            text = b"\t".join(fields)
    return text


def write_line(room, slot):
    return f"write_plan\t{room}\t{len(slot)}\t{slot[:BODY_FROM].rstrip(bytes(1)).hex()}\t{slot[BODY_FROM:].rstrip(bytes(1)).hex()}"


def read_line(room, text):
    return f"read_plan\t{room}\t{text.hex()}"


def any_slot(rng, p):
    """the plan's own slot, or one with a byte changed; a few of a wrong length"""
    slot = bytearray(slot_of(p))
    if rng.random() < 0.3:
        slot[rng.randrange(STEPS_FROM + 16 * len(p.steps) + 16)] = rng.choice((0, 1, 2, rng.randrange(256)))
    return bytes(slot[:SLOT - 1]) if rng.random() < 0.02 else bytes(slot)


def asked(rng):
    """lines about one plan, and their answers"""
    p = any_plan(rng)
    text, slot = text_of(p), any_slot(rng, p)
    room = len(text) + rng.choice((0, 0, 1, 7, -1))
    broken = damaged(rng, text)
    read_room = rng.choice((SLOT, SLOT, SLOT + 5, SLOT - 1) if rng.random() < 0.2 else (SLOT,))
    return [
        (write_line(room, slot), write_text(room, slot)),
        (read_line(read_room, text), read_text(read_room, text)),
        (read_line(SLOT, broken), read_text(SLOT, broken)),
    ]


SHORT = Plan(7, 0, 9, 2, 3, 4, b"\x0a\xf0", [Step(3, 2, 1, 2, True, False)])


def changes(values):
    """a short text with one byte changed, at each place to each of the values"""
    text = text_of(SHORT)
    for at in range(len(text)):
        for value in sorted(set(values(text[at])) - {text[at]}):
            yield text[:at] + bytes([value]) + text[at + 1:]


def every_change():
    return [(read_line(SLOT, text), read_text(SLOT, text)) for text in changes(lambda b: range(256))]
