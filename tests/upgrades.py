"""Random plans by hand, kept and broken, and records for the interpreter and the dispatch, as case lines."""
from model import *
from model_plan import BODY_FROM, COPY, INT, SLOT, packed_step
from model_upgrade import Plan
from plans import HEADER, SOURCE_HEADER, Lines, any_length, any_source

RTYPES = (1, 1, 2, 3, 65535)


# ---- plans that keep the rules, as dicts of their numbers

def any_int(rng, source, target):
    takes, gives = rng.choice([(a, b) for a in (1, 2, 4, 8) for b in (1, 2, 4, 8) if a != b])
    return INT, source, target, takes, gives, rng.random() < 0.5, rng.random() < 0.5 or takes > gives


def any_steps(rng, many, at, size):
    """up to so many steps, from `at` on; a copy may go on where the last one ended, as a joined one cut there"""
    steps, source = [], rng.randrange(64)
    for _ in range(many):
        if rng.random() < 0.3:
            at += rng.choice((1, 2, 8))
            source = rng.choice((0, source + 1, rng.randrange(80), rng.randrange(4096)))
        step = (COPY, source, at, rng.choice((1, 1, 2, 3, 8, 20))) if rng.random() < 0.5 else any_int(rng, source, at)
        end = at + (step[3] if step[0] == COPY else step[4])
        if end > size or source + step[3] > 4096:
            break
        steps.append(step)
        at, source = end, source + step[3]
    return steps


def any_plan(rng, header=HEADER):
    many = rng.choice((0, 1, 2, 3, 5, 5, 9, 20, 127, 128))
    size = min(4096, header + rng.choice((0, 1, 8, 16, 40, 64, 64, 100, 300 if many < 100 else 2000)))
    steps = any_steps(rng, many, header + rng.choice((0, 0, 0, 1, 5)), size)
    base = rng.choice((0, size, size, header, rng.randrange(size + 1)))
    src_base = rng.choice((0, 16, 56, 4096, rng.randrange(200)))
    return dict(src_rtype=rng.choice(RTYPES), rtype=rng.choice((1, 2, 300, 65535)), src_base=src_base, header=header, base=base, size=size,
                body=rng.randbytes(size - header), rows=[packed_step(s) for s in steps])


def at_limits(rng, header=HEADER):
    """a number at its limit"""
    plan = any_plan(rng, header)
    style = rng.choice(("size", "source", "base", "header", "empty", "last"))
    if style == "size":
        plan.update(size=4096, body=rng.randbytes(4096 - header))
    elif style == "source":
        plan.update(rows=[packed_step((COPY, 4096 - 3, header, 3))], size=header + 8, base=0, body=bytes(8))
    elif style == "base":
        plan.update(src_base=4096, base=plan["size"])
    elif style == "header" and header != HEADER:
        plan.update(header=64, size=64 + 8, base=0, body=bytes(8), rows=[packed_step((INT, 5, 64, 2, 4, True, False))])
    elif style == "empty":
        plan.update(size=header, base=rng.choice((0, header)), body=b"", rows=[])
    elif style == "last":
        plan.update(rows=[packed_step((INT, 4088, header, 8, 4, False, True))], size=header + 4, base=0, body=b"abcd")
    return plan


def cut(rng, plan):
    """the same with a copy cut in two, somewhere; the body it makes of a long enough record is the same"""
    places = [i for i, row in enumerate(plan["rows"]) if row[0] == COPY and number(row, 8, 2) > 1]
    if not places or len(plan["rows"]) >= 128:
        return plan
    i = rng.choice(places)
    source, target, size = (number(plan["rows"][i], at, 2) for at in (4, 6, 8))
    n = rng.randrange(1, size)
    halves = [packed_step((COPY, source, target, n)), packed_step((COPY, source + n, target + n, size - n))]
    return {**plan, "rows": plan["rows"][:i] + halves + plan["rows"][i + 1 :]}


def bytes_of(plan):
    """the numbers and the steps, and the body"""
    numbers = [plan[what] for what in ("src_rtype", "rtype", "src_base", "header", "base", "size")]
    count = plan.get("count", len(plan["rows"]))
    return struct.pack("<8H", *numbers, count, plan.get("last", 0)) + b"".join(plan["rows"]), plan["body"]


# ---- plans that break one rule

def shifted(row, at, by):
    """a number of a step moved"""
    return row[:at] + struct.pack("<H", (number(row, at, 2) + by) % 65536) + row[at + 2 :]


def with_byte(row, at, b):
    return row[:at] + bytes([b]) + row[at + 1 :]


def of_step(change):
    """a break of any step"""
    def broken(rng, plan):
        i = rng.randrange(len(plan["rows"]))
        plan["rows"][i] = change(rng, plan, i, plan["rows"][i])

    return broken


def ends_of(plan):
    return [number(row, 6, 2) + number(row, 8 if row[0] == COPY else 10, 2) for row in plan["rows"]]


def widths(*choices):
    def change(rng, plan, i, row):
        takes, gives, mark = rng.choice(choices)
        return struct.pack("<BBBBHHHHI", INT, rng.randrange(2), mark, 0, number(row, 4, 2) % 4000, number(row, 6, 2), takes, gives, 0)

    return of_step(change)


def exchanged(rng, plan):
    """of one step two are made"""
    plan["rows"] = plan["rows"] if len(plan["rows"]) > 1 else plan["rows"] * 2
    i = rng.randrange(1, len(plan["rows"]))
    plan["rows"][i - 1 : i + 1] = plan["rows"][i], plan["rows"][i - 1]


def one_more(plan):
    """a good step behind the room for steps, where the body starts"""
    header = plan["header"]
    rows = [packed_step((COPY, i, header + i, 1)) for i in range(129)]
    return dict(rows=rows[:128], count=129, size=header + 200, base=0, body=rows[128] + bytes(184))


BREAKS = {
    "source base": lambda rng, p: p.update(src_base=rng.choice((4097, 65535))),
    "record size": lambda rng, p: p.update(size=4097, body=bytes(4096 - p["header"])),
    "header above 64": lambda rng, p: p.update(any_plan(rng, rng.choice((65, 70)))),
    "header above the size": lambda rng, p: p.update(header=9, size=8, base=rng.choice((0, 8)), rows=[], body=b""),
    "target base": lambda rng, p: p.update(base=p["size"] + 1),
    "129 steps": lambda rng, p: p.update(one_more(p)),
    "65,535 steps": lambda rng, p: p.update(count=65535),
    "a step too few": lambda rng, p: p.update(count=len(p["rows"]) + 1),
    "size 0": of_step(lambda rng, p, i, row: row[:8] + bytes(2) + row[10:] if row[0] == COPY else row[:8] + bytes(4) + row[12:]),
    "source end": of_step(lambda rng, p, i, row: row[:4] + struct.pack("<H", 4097 - number(row, 8, 2)) + row[6:]),
    "inside the header": lambda rng, p: p["rows"].__setitem__(0, shifted(p["rows"][0], 6, p["header"] - 1 - number(p["rows"][0], 6, 2))),
    "overlap": of_step(lambda rng, p, i, row: shifted(row, 6, (ends_of(p)[i - 1] if i else p["header"]) - 1 - number(row, 6, 2))),
    "past the size": lambda rng, p: p["rows"].__setitem__(-1, shifted(p["rows"][-1], 6, p["size"] - ends_of(p)[-1] + 1)),
    "order": exchanged,
    "widths": widths((3, 4, 1), (4, 3, 1), (0, 4, 1), (4, 0, 1), (16, 8, 1), (8, 16, 1), (5, 8, 0)),
    "equal widths": widths((1, 1, 1), (4, 4, 1), (8, 8, 0)),
    "unmarked narrowing": widths((2, 1, 0), (8, 4, 0), (4, 2, 0)),
    "kind": of_step(lambda rng, p, i, row: with_byte(row, 0, rng.choice((2, 255)))),
    "sign": of_step(lambda rng, p, i, row: with_byte(row, 1, rng.choice((2, 255)))),
    "mark": of_step(lambda rng, p, i, row: with_byte(row, 2, rng.choice((2, 255)))),
}


def broken(rng, header=HEADER, style=None, most=127):
    """of at most so many steps; all else is as it was"""
    while True:
        plan = any_plan(rng, header)
        if 0 < len(plan["rows"]) <= most:
            BREAKS[style or rng.choice(list(BREAKS))](rng, plan)
            return plan


def unread(rng, plan):
    """bytes that nobody reads: the eighth number, those of a step, a copy's target size"""
    plan["last"] = rng.choice((1, 65535))
    plan["rows"] = [row[:3] + rng.randbytes(1) + row[4 : 10 if row[0] == COPY else 12] + rng.randbytes(6 if row[0] == COPY else 4) for row in plan["rows"]]
    return plan


# ---- lines

def some_plan(rng, header=HEADER, most=SLOT):
    """one that keeps the rules, of at most so many bytes"""
    while True:
        plan = styled_plan(rng, header)
        if sum(map(len, bytes_of(plan))) <= most:
            return plan


def styled_plan(rng, header):
    roll = rng.random()
    if roll < 0.5:
        return any_plan(rng, header)
    if roll < 0.7:
        return cut(rng, cut(rng, any_plan(rng, header)))
    return at_limits(rng, header) if roll < 0.85 else unread(rng, any_plan(rng, header))


def put(out, k, plan):
    numbers, body = bytes_of(plan)
    out.say(f"put\t{SLOT * k}\t{numbers.hex()}")
    if body:
        out.say(f"put\t{SLOT * k + BODY_FROM}\t{body.hex()}")


def room_for(rng, size):
    return rng.randbytes(max(0, size + rng.choice((0, 0, 0, 0, 0, 0, 0, 1, 7, 7, -1, -size))))


def any_stated(rng, out, k, least):
    """a plan's lengths, or one that is not taken"""
    plan = Plan(out.model.part(SLOT * k, SLOT))
    roll = rng.random()
    if roll < 0.05:
        return rng.choice((0, max(0, least - 1), 4096, 4097, 65535))
    return max(any_length(rng, plan.steps()[:128], plan.src_base), least if roll < 0.9 else 0)


def content_for(rng, out, k, stated):
    """as many bytes as are stated, or more, or fewer"""
    steps = Plan(out.model.part(SLOT * k, SLOT)).steps()[:128]
    return any_source(rng, steps, min(4200, max(0, stated + rng.choice((0, 0, 0, 0, 0, 1, 9, -1)))))


def ask_apply(rng, out, k, by_rust):
    stated = any_stated(rng, out, k, 0)
    content = content_for(rng, out, k, stated)
    size = number(out.model.part(SLOT * k, SLOT), 10, 2)
    n = SLOT if by_rust or rng.random() < 0.9 else rng.choice((0, 12, SLOT - 1, SLOT + 1))
    out.say(f"apply\t{SLOT * k}\t{n}\t{content.hex()}\t{stated}\t{room_for(rng, min(size, 4100)).hex()}", by_rust)


def ask_upgrade(rng, out, used, by_rust, headers=(SOURCE_HEADER, HEADER)):
    """by one of the plans' rtypes, or another"""
    k = rng.randrange(max(1, used))
    held = [number(out.model.part(SLOT * i, 2), 0, 2) for i in range(used)]
    rtype = rng.choice(held) if held and rng.random() < 0.7 else rng.choice((*RTYPES, 7))
    found = held.index(rtype) if rtype in held else k
    stated = any_stated(rng, out, found, headers[0])
    content = content_for(rng, out, found, stated)
    size = number(out.model.part(SLOT * found, SLOT), 10, 2) if rtype in held else max(0, headers[1] + stated - headers[0])
    unplanned = b"".join(struct.pack("<H", rng.choice((*RTYPES, 7, 300))) for _ in range(rng.choice((0, 0, 1, 2, 5))))
    target = room_for(rng, min(size, 4200)).hex()
    # a rest behind the last whole slot is no plan
    n = SLOT * used + (0 if by_rust else rng.choice((0, 0, 0, -1, 1, 6159)))
    out.say(f"upgrade\t{n}\t{unplanned.hex()}\t{rtype}\t{headers[0]}\t{headers[1]}\t{content.hex()}\t{stated}\t{target}", by_rust)


def ask_kept(rng, out, most):
    """plans that the Rust can have"""
    used = rng.choice((0, 1, 1, 2, 3, 3))
    for k in range(used):
        put(out, k, some_plan(rng, HEADER, most))
    for k in range(used):
        for _ in range(2):
            ask_apply(rng, out, k, True)
    for _ in range(4):
        ask_upgrade(rng, out, used, True)


def ask_others(rng, out, most):
    """broken plans among others, and other headers"""
    used = rng.choice((1, 1, 2, 3))
    for k in range(used):
        header = rng.choice((HEADER, HEADER, 0, 1, 16, 63, 64))
        put(out, k, broken(rng, header) if rng.random() < 0.7 else some_plan(rng, header, most))
    for k in range(used):
        ask_apply(rng, out, k, False)
    for _ in range(3):
        headers = rng.choice((16, 16, 0, 1, 20, 63, 64, 65, 70)), rng.choice((24, 24, 0, 1, 63, 64, 65, 70))
        ask_upgrade(rng, out, used, False, headers)


def upgrading(rng, n, most=SLOT):
    out = Lines()
    for _ in range(n):
        (ask_kept if rng.random() < 0.6 else ask_others)(rng, out, most)
    return out
