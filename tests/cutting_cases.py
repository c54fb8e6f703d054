"""Cases of a promise (docs/PROMISES.md): however the copies of a plan are cut or joined inside the source base, the upgraded body is the same.

Two pairs of layouts of the size of dbn's MBO and trade records. The planner's plan, and then every other list of steps below, upgrades the same records; the
body is stated field by field, from values and not from steps.
"""
from model import *
from model_plan import COPY, INT, MOST_STEPS, front, joined, rows, steps_of
from upgrading_cases import Asked

HEADER = 24
LARGEST = 0xFFFFFFFF

# name, id, type and size; offsets follow from the order, each field on a multiple of its size
MBO = (("order_id", 10, U64, 8), ("price", 11, PRICE, 8), ("size", 12, U32, 4), ("flags", 13, U8, 1), ("channel_id", 14, U8, 1), ("action", 15, CHAR, 1), ("side", 16, CHAR, 1),
       ("ts_recv", 17, U64, 8), ("ts_in_delta", 18, I32, 4), ("sequence", 19, U32, 4))
NEW_MBO = (("order_id", 10, U64, 8), ("price", 11, PRICE, 8), ("size", 12, U32, 4), ("flags", 13, U8, 1), ("action", 15, CHAR, 1), ("side", 16, CHAR, 1), ("ts_recv", 17, U64, 8),
           ("ts_in_delta", 18, I32, 4), ("channel_id", 14, U16, 2), ("sequence", 19, U64, 8), ("venue", 20, U16, 2), ("symbol", 21, CSTR, 8))
TRADE = (("price", 11, PRICE, 8), ("size", 12, U32, 4), ("action", 15, CHAR, 1), ("side", 16, CHAR, 1), ("flags", 13, U8, 1), ("depth", 22, U8, 1), ("ts_recv", 17, U64, 8),
         ("ts_in_delta", 18, I32, 4), ("level", 24, I32, 4), ("sequence", 19, U64, 8), ("symbol", 21, CSTR, 6))
NEW_TRADE = (("sequence", 19, U64, 8), ("price", 11, PRICE, 8), ("size", 12, U32, 4), ("action", 15, CHAR, 1), ("side", 16, CHAR, 1), ("flags", 13, U8, 1), ("depth", 22, U8, 1),
             ("ts_recv", 17, U64, 8), ("level", 24, I16, 2), ("ts_in_delta", 18, I64, 8), ("symbol", 21, CSTR, 11), ("count", 23, U32, 4))

# what a field holds in the records below, as the bytes that it has there
VALUES = dict(order_id=0x1122334455667788, price=-9_000_000_001, size=LARGEST, flags=0x82, channel_id=9, action=ord("A"), side=ord("B"), ts_recv=0x17A0B1C2D3E4F506, ts_in_delta=-77,
              sequence=4_000_000_321, depth=3, level=-2, symbol=b"OWL\0\0\0")


def table_of(fields, start):
    """the rows of a table, and where each field stands"""
    at, table, places = start, [], {}
    for name, id_, type_id, size in fields:
        align = 1 if type_id == CSTR else size
        at = -(-at // align) * align
        table.append(field(id_, at, size, type_id))
        places[name] = at, size, type_id
        at += size
    return table, places, at


def bytes_of(value, size):
    return value[:size].ljust(size, b"\0") if isinstance(value, bytes) else (value % 256**size).to_bytes(size, "little")


def record_of(places, size):
    content = bytearray(b"\xee" * size)
    for name, (at, n, _) in places.items():
        content[at : at + n] = bytes_of(VALUES[name], n)
    return bytes(content)


def body_of(have, want, marks, size):
    """field by field: the carried value, else the default, which is the largest value where a field is marked"""
    body = bytearray(size - HEADER)
    default = bytearray(body)
    for name, (at, n, type_id) in want.items():
        signed = GOOD_KINDS[type_id][0] == SIGNED
        top = (256**n // (2 if signed else 1)) - 1
        if name in marks:
            default[at - HEADER : at - HEADER + n] = bytes_of(top, n)
        value = bytes_of(0, n) if name not in marks else bytes_of(top, n)
        if name in have:
            value = bytes_of(VALUES[name], n)
            if name in marks and VALUES[name] == 256 ** have[name][1] // (2 if signed else 1) - 1:
                value = bytes_of(top, n)
        body[at - HEADER : at - HEADER + n] = value
    return bytes(body), bytes(default)


def cuts(steps, base):
    """other lists of steps for the same fields: each copy inside the source base cut in two at every place, and all of them cut small"""
    for k, step in enumerate(steps):
        if step[0] == COPY and step[1] + step[3] <= base:
            for n in range(1, step[3]):
                yield f"step {k} cut at {n}", steps[:k] + [(COPY, step[1], step[2], n), (COPY, step[1] + n, step[2] + n, step[3] - n)] + steps[k + 1 :]
    for width in (1, 2, 3, 7):
        small = []
        for step in steps:
            inside = step[0] == COPY and step[1] + step[3] <= base
            small += [(COPY, step[1] + i, step[2] + i, min(width, step[3] - i)) for i in range(0, step[3], width)] if inside else [step]
        assert len(small) <= MOST_STEPS
        yield f"every copy cut into {width}", small


def pair(a, name, source, target, marks):
    have_rows, have, base = table_of(source, 16)
    want_rows, want, size = table_of(target, HEADER)
    body, default = body_of(have, want, marks, size)
    flags = bytes(int(f[0] in marks) for f in target)
    old, new = record(have_rows, base, name, 160), record(want_rows, size, name, 161)
    fieldwise = steps_of(a.c.cat, have_rows, want_rows, flags)
    steps = joined(fieldwise, base, size)
    assert len(steps) < len(fieldwise) and any(step[0] == INT for step in steps)
    a.source(f"{name}: {base} bytes to {size}, the planner's plan", old)
    a.made(old, new, steps, default, flags)
    head, tail = b"h" * HEADER, b"tail"
    found = head + b"x" * (size - HEADER) + tail
    answer = f"161 {size} {(head + body + tail).hex()}"
    content = record_of(have, base)

    def upgrades():
        a.apply(answer, content, found)
        a.apply(answer, content + b"more", found)

    upgrades()
    tried = 0
    for title, other in [("the fields' own steps, nothing joined", fieldwise), *cuts(steps, base)]:
        a.c.title(f"{name}: {title}")
        a.ask(f"put\t0\t{front(160, 161, base, HEADER, size, size, other).hex()}", "ok")
        upgrades()
        tried += 1
    return tried


def cuttings(c):
    a = Asked(c)
    c.catalogue("a valid catalogue", 0, catalogue())
    tried = pair(a, "mbo", MBO, NEW_MBO, ("size", "sequence", "venue")), pair(a, "trade", TRADE, NEW_TRADE, ("level", "ts_in_delta", "count"))
    assert min(tried) > 20, tried
