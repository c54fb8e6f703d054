"""Random sources and targets for the planner, as case lines: tables that differ field by field, defaults by a registry, records cut around every window.

A case is a line and whether the Rust can be asked it: it has headers of 16 and 24 bytes, takes defaults by field id, and admits everything."""
import collections

import generate
from generate import CATALOGUE, ordered
from model import *
from model_plan import counts, kind_of, place
from model_upgrade import COPY, SLOT, Plan, Slots

HEADER, SOURCE_HEADER = 24, 16
FAR = 3 * SLOT  # where plans go that the Rust is not asked for
TIMESTAMP = 106
HEADER_ID = number(CATALOGUE, 258, 2)
INTEGERS = {U8: 1, U16: 2, U32: 4, U64: 8, I8: 1, I16: 2, I32: 4, I64: 8}
UNSIGNEDS, SIGNEDS = (U8, U16, U32, U64), (I8, I16, I32, I64)
WIDTHS = {**INTEGERS, **{i: w for i, (_, w) in generate.KINDS.items() if w}}
TYPES = (*INTEGERS, *INTEGERS, PRICE, TIMESTAMP, CSTR, CSTR, SYMBOL, SYMBOL, NESTED, PAD, PAD, CHAR, ENUM, generate.UNKNOWN)
NAMES = (b"mbo", b"trade", b"mb", b"")


# ---- fields, as lists [id, size, type, flags, def_index, scale] before they are placed

def size_for(rng, type_id, flags):
    width = WIDTHS.get(type_id, 0)
    if type_id in INTEGERS and not flags & ARRAY:
        return width
    if width and rng.random() < 0.7:
        return width * (rng.choice((1, 2, 3)) if flags & ARRAY else 1)
    return rng.choice((1, 2, 3, 5, 8, 8, 9, 22, 71))


def any_field(rng, field_id):
    type_id, flags = rng.choice(TYPES), rng.choice((0, 0, 0, 0, ARRAY)) | rng.choice((0, 0, EXTENSION, 1))
    return [field_id, size_for(rng, type_id, flags), type_id, flags, rng.choice((0, 0, 1, 65535)), rng.choice((0, 0, 0, -9, 5))]


def changed(rng, f):
    """a target field for a source field: the same, or another in one thing that the rule looks at, or in one that it does not"""
    f = list(f)
    style = rng.choice(("same", "same", "same", "width", "width", "width", "sign", "scale", "array", "type", "string", "string", "size", "flags", "index", "id"))
    if style == "width" and f[2] in INTEGERS:
        f[2] = rng.choice(UNSIGNEDS if f[2] in UNSIGNEDS else SIGNEDS)
        f[1] = f[1] if f[3] & ARRAY else INTEGERS[f[2]]
    elif style == "sign" and f[2] in INTEGERS:
        f[2] = rng.choice(SIGNEDS if f[2] in UNSIGNEDS else UNSIGNEDS)
        f[1] = f[1] if f[3] & ARRAY else INTEGERS[f[2]]
    elif style == "scale":
        f[5] = rng.choice((0, -9, f[5] + 1))
    elif style == "array":
        f[3] ^= ARRAY
        f[1] = INTEGERS[f[2]] if f[2] in INTEGERS and not f[3] & ARRAY else f[1]
    elif style == "type":
        f[2] = rng.choice(TYPES)
        f[1] = INTEGERS[f[2]] if f[2] in INTEGERS and not f[3] & ARRAY else f[1]
    elif style == "string":
        f[2] = rng.choice((CSTR, SYMBOL))
        f[1] = max(1, f[1] + rng.choice((-1, 0, 0, 1, 5)))
    elif style == "size" and (f[2] not in INTEGERS or f[3] & ARRAY):
        f[1] = max(1, f[1] + rng.choice((-1, 1, 8)))
    elif style == "flags":
        f[3] ^= rng.choice((EXTENSION, 1, 32))
    elif style == "index":
        f[4] ^= 1
    elif style == "id":
        f[0] = rng.randrange(2, 40)
    return f


def placed(rng, fields, at, gap):
    """one behind the other from `at` on, as many as fit, some with a gap before them"""
    out = []
    for field_id, size, type_id, flags, index, scale in fields[:128]:
        at += rng.choice((0, 0, 0, gap))
        if at + size > 4096:
            break
        out.append(field(field_id, at, size, type_id, flags, index, scale))
        at += size
    return out


def any_base(rng, rows):
    """around the ends of fields, so that joining meets it"""
    ends = sorted(sum(place(row)) for row in rows) or [24]
    some = rng.choice(ends)
    return min(4096, max(0, rng.choice((0, ends[-1], ends[-1], ends[-1] + 8, some, some, some - 1, some + 1, ends[len(ends) // 2]))))


def sources(rng):
    many = rng.choice((0, 1, 2, 3, 5, 5, 8, 12, 12, 30, 64, 128))
    ids = rng.choice((3, 8, 40, 200))
    fields = [any_field(rng, rng.randrange(ids) + rng.choice((0, 2, 2, 2))) for _ in range(many)]
    if many > 60:
        fields = [f if f[1] < 32 else [f[0], 1, CHAR, 0, 0, 0] for f in fields]
    return fields


def targets(rng, fields):
    wants = [changed(rng, f) for f in fields if rng.random() < 0.95]
    if rng.random() < 0.25:
        rng.shuffle(wants)
    for _ in range(rng.choice((0, 0, 1, 2))):
        wants.insert(rng.randrange(len(wants) + 1), any_field(rng, rng.randrange(40)))
    for _ in range(rng.choice((0, 0, 1))):
        wants.insert(rng.randrange(len(wants) + 1), [rng.randrange(2, 12), rng.choice((1, 4, 9)), PAD, 0, 0, 0])
    return wants[:126]


def header_fields(rng):
    """what may stand inside the header: HD and padding"""
    style = rng.choice(("none", "hd", "hd", "padding", "both"))
    if style == "none":
        return []
    if style == "both":
        return [field(HEADER_ID, 0, 16, NESTED), field(0, 16, 8, PAD)]
    return [field(HEADER_ID, 0, 24, NESTED) if style == "hd" else field(5, rng.randrange(20), rng.choice((1, 4, 20)), PAD)]


def any_record(rng, rows, base, names=NAMES):
    return record(rows, base, rng.choice(names), rng.choice((1, 1, 2, 3, 65535)), rng.choice((1, 2, 65535)), 0, [b"f"] * len(rows))


def pair(rng):
    """a source record and a target record"""
    fields = sources(rng)
    haves = placed(rng, fields, rng.choice((0, 8, 16, 16, 16, 16)), rng.choice((0, 0, 1, 7)))
    inside = header_fields(rng)
    at = max([HEADER] + [sum(place(row)) for row in inside])
    wants = inside + placed(rng, targets(rng, fields), at, rng.choice((0, 0, 1, 7)))
    a, b = any_record(rng, ordered(rng, haves), any_base(rng, haves)), any_record(rng, ordered(rng, wants), any_base(rng, wants))
    if b["base"] < HEADER and not wants:
        b["base"] = HEADER
    return a, b


# ---- defaults: those of the judge's registry

def default_of(registry, row):
    field_id, type_id = number(row, 0, 2), row[6]
    return registry.get(field_id, "max" if type_id in (PRICE, TIMESTAMP) else 0)


def written(default, row):
    _, size = place(row)
    if default == "max":
        return b"\xff" * (size - 1) + (b"\x7f" if kind_of(CATALOGUE, row) in (SIGNED, DECIMAL) else b"\xff")
    return (default % 2**64).to_bytes(8, "little")[:size].ljust(size, b"\0")


def any_registry(rng, rows):
    """ids that several fields have are always in it, since their types may have other defaults without it"""
    ids = collections.Counter(number(row, 0, 2) for row in rows)
    values = "max", "max", 0, 1, 255, -1, 2**63 - 1, rng.getrandbits(64)
    return {i: rng.choice(values) for i, n in ids.items() if n > 1 or rng.random() < 0.6}


def size_of(target):
    return max([target["base"]] + [sum(place(row)) for row in target["fields"]])


def body_of(registry, target, header=HEADER):
    body = bytearray(max(0, size_of(target) - header))
    for row in target["fields"]:
        start, size = place(row)
        if counts(CATALOGUE, row) and start >= header:
            body[start - header : start - header + size] = written(default_of(registry, row), row)
    return bytes(body)


def marks_of(rng, registry, target):
    """any byte but 0 is a mark; those of padding and HD mean nothing, nor do those past the fields"""
    def mark(row):
        counted = counts(CATALOGUE, row)
        return rng.choice((1, 1, 2, 255)) if (default_of(registry, row) == "max" if counted else rng.random() < 0.3) else 0

    marks = bytes(map(mark, target["fields"]))
    return marks.rstrip(b"\0") if rng.random() < 0.3 else marks + rng.choice((b"", b"", b"\1\1"))


def known_by(target, body, marks):
    """the body that the judge's registry makes, when it is read off this body and these marks"""
    registry, wants = {}, [(i, row) for i, row in enumerate(target["fields"]) if counts(CATALOGUE, row)]
    for i, row in sorted(wants, key=lambda want: place(want[1])[1]):
        start, size = place(row)
        held = body[max(0, start - HEADER) :][: min(8, size)]
        registry[number(row, 0, 2)] = "max" if i < len(marks) and marks[i] else int.from_bytes(held, "little")
    return body_of(registry, target)


# ---- lines of the planner

def plan_line(k, to, header, body, marks, at, room, block):
    return f"plan\t{k}\t{to}\t{header}\t{body.hex()}\t{marks.hex()}\t{at}\t{room}\t{block.hex()}"


def broken_body(rng, target, body, marks):
    """one thing that refusal 8 is about, or a change of a default that it is not about"""
    style, body = rng.choice(("short", "long", "gap", "gap", "mark", "mark", "free")), bytearray(body)
    wants = [(i, row) for i, row in enumerate(target["fields"]) if counts(CATALOGUE, row) and place(row)[0] >= HEADER]
    covered = {b for _, row in wants for b in range(place(row)[0], sum(place(row)))}
    gaps = [b for b in range(HEADER, HEADER + len(body)) if b not in covered]
    marked = [row for i, row in wants if i < len(marks) and marks[i]]
    if style == "short":
        return bytes(body[:-1]) if body else b"\0"
    if style == "long":
        return bytes(body) + bytes(rng.choice((1, 24)))
    if style == "gap" and gaps:
        body[rng.choice(gaps) - HEADER] = rng.choice((1, 128, 255))
    elif style == "mark" and marked:
        start, size = place(rng.choice(marked))
        body[start - HEADER + rng.randrange(size)] ^= rng.choice((1, 128))
    elif wants:
        start, size = place(rng.choice(wants)[1])
        body[start - HEADER : start - HEADER + size] = rng.randbytes(size)
    return bytes(body)


def broken_target(rng, target):
    """one thing that refusal 7 is about"""
    target = {**target, "fields": list(target["fields"]), "names": list(target["names"])}
    taken = {b for row in target["fields"] for b in range(place(row)[0], sum(place(row)))}
    free = [b for b in range(HEADER) if b not in taken]
    if rng.random() < 0.3 or not free:
        target["fields"], target["names"], target["base"] = [], [], rng.choice((0, 1, 23, 24))
    else:
        target["fields"].insert(rng.randrange(len(target["fields"]) + 1), field(rng.choice((1, 2, 3)), rng.choice(free), 1, rng.choice((U8, CHAR, PAD))))
        target["names"].append(b"f")
    return target


def damaged(rng, records):
    """a layout with one or two things that refusals 2 to 6 are about, or with any byte changed"""
    records = [{**r, "fields": list(r["fields"])} for r in records]
    held = [r for r in records if r["fields"]]
    for _ in range(rng.choice((1, 1, 2))):
        one, style = rng.choice(held or records or [{}]), rng.choice((2, 3, 4, 4, 5, 6, 0))
        if style == 2 or not one.get("fields"):
            one["base"] = rng.choice((4097, 70000))
        else:
            i = rng.randrange(len(one["fields"]))
            one["fields"][i] = damaged_row(rng, style, one["fields"][i])
    block = bytearray(layout(records))
    if rng.random() < 0.2:
        block[rng.randrange(len(block))] ^= rng.choice((1, 16, 128, 255))
    return bytes(block)


def damaged_row(rng, style, row):
    values = list(decode(row))
    if style == 3:
        return row[:11] + bytes(4) + b"\1"
    if style == 4:
        values[2] = rng.choice((0, 4096, 65535))
    elif style == 5:
        values[1] = max(0, values[1] + rng.choice((-1, 1)))
    elif style == 6:
        values[2:4] = 3, rng.choice(list(INTEGERS))
    return field(*values)


class Lines:
    """lines, the model's answers, and whether the Rust can be asked"""

    def __init__(self):
        self.model, self.lines, self.answers, self.by_rust = Slots(), [], [], []
        self.say("catalogue\t" + CATALOGUE.hex())

    def say(self, line, by_rust=True):
        self.lines.append(line)
        self.answers.append(self.model.answer(line))
        self.by_rust.append(by_rust)
        return self.answers[-1]

    def plan(self, k, to, header, body, marks, at, room, targets):
        """whether the Rust can be asked shows by the answer: where it is refusal 8 the Rust's own body is another, else it has to be the same"""
        target = targets[to] if to < len(targets) else None
        same = target is not None and known_by(target, body, marks) == body
        told = self.say(plan_line(k, to, header, body, marks, at, room, layout(targets)))
        self.by_rust[-1] = header == HEADER and (same or told in ("none", "r7", "r8"))
        assert self.by_rust[-1] or at == FAR or told[0] in "rn"
        return told


def small_pair(rng, most):
    """blocks of at most so many bytes"""
    while True:
        source, target = pair(rng)
        if max(len(layout([source])), len(layout([target]))) <= most:
            return source, target


def ask_plans(rng, out, most):
    """a pair planned as it is and with no base, and with one thing broken"""
    source, target = small_pair(rng, most)
    more = [small_pair(rng, most)[1]] if rng.random() < 0.1 else []
    targets, to = (more + [target], len(more)) if rng.random() < 0.5 else ([target] + more, 0)
    registry = any_registry(rng, target["fields"])
    body, marks = body_of(registry, target), marks_of(rng, registry, target)
    fit = known_by(target, body, marks) == body
    at = rng.choice((0, SLOT, 5, 2 * SLOT)) if fit else FAR
    out.say("layout\t" + layout([source]).hex())
    told = out.plan(0, to, HEADER, body, marks, at, SLOT, targets)
    if told[:1] not in "rn":
        ask_applies(rng, out, at, source, fit)
    roll = rng.random()
    if roll < 0.25:
        out.plan(0, to, HEADER, broken_body(rng, target, body, marks), marks, FAR, SLOT, targets)
    elif roll < 0.4:
        other = broken_target(rng, target)
        out.plan(0, 0, HEADER, body_of(registry, other), marks_of(rng, registry, other), FAR, SLOT, [other])
    elif roll < 0.5:
        room = rng.choice((0, 6159, 6160, 6161, SLOT + 100))
        out.plan(rng.choice((0, 0, 1)), rng.choice((to, to, 1, 2)), HEADER, body, marks, at if at + room <= FAR and fit else 0, room if fit else 0, targets)
    elif roll < 0.65:
        header = rng.choice((0, 8, 16, 23, 25, 63, 64, 65, 70))
        out.plan(0, to, header, body_of(registry, target, header), marks, FAR, SLOT, targets)
    elif roll < 0.75:
        which = rng.choice((0, 1, 2))
        out.say("layout\t" + (damaged(rng, [source]) if which != 1 else layout([source])).hex(), False)
        block = damaged(rng, targets) if which != 0 else layout(targets)
        out.say(plan_line(0, to, HEADER, body, marks, FAR, SLOT, block), False)
    else:
        out.say("layout\t" + layout([{**source, "base": 0}]).hex())
        out.plan(0, to, HEADER, body, marks, at, SLOT, targets)
    if rng.random() < 0.1:
        out.say(f"slots\t{rng.choice((0, 5, SLOT))}\t{rng.choice((SLOT, SLOT + 7, 1))}")


# ---- records

def special(rng, size):
    """around the largest and the least of any width"""
    bits = 8 * rng.choice((1, 2, 4, 8, size or 1, size or 1))
    edge = rng.choice((0, 2 ** (bits - 1), 2**bits)) * rng.choice((1, -1))
    return ((edge + rng.choice((-2, -1, -1, -1, 0, 0, 1))) % 2 ** (8 * size)).to_bytes(size, "little")


def any_source(rng, steps, size):
    content = bytearray(rng.randbytes(size))
    for step in steps:
        if step[0] != COPY and step[1] + step[3] <= size and rng.random() < 0.7:
            content[step[1] : step[1] + step[3]] = special(rng, step[3])
    return bytes(content)


def any_length(rng, steps, base):
    """around the end or the start of a window, or around the base"""
    around = [base, base] + [at for step in steps for at in (step[1], step[1] + step[3])]
    return min(4096, max(0, rng.choice(around) + rng.choice((-1, -1, 0, 0, 0, 1, 1, 2))))


def ask_applies(rng, out, at, source, by_rust):
    """the plan that stands there, on records of lengths around its windows"""
    plan = Plan(out.model.part(at, SLOT))
    steps = plan.steps()
    for _ in range(3):
        stated = any_length(rng, steps, source["base"])
        content = any_source(rng, steps, stated + rng.choice((0, 0, 0, 1, 9)))
        target = rng.randbytes(plan.size + rng.choice((0, 0, 3)))
        out.say(f"apply\t{at}\t{SLOT}\t{content.hex()}\t{stated}\t{target.hex()}", by_rust)


# ---- selection

def some_records(rng):
    def one():
        rows = [field(2, 24, 4, U32)] if rng.random() < 0.3 else []
        made = any_record(rng, rows, rng.choice((24, 32)))
        return {**made, "rtype": rng.choice((1, 2, 3, 65535)), "schema": rng.choice((0, 1, 2, 65535))}

    return [one() for _ in range(rng.choice((0, 1, 2, 3, 5, 16)))]


def ask_selects(rng, out, most):
    sources, targets = ([r for r, _ in zip(some_records(rng), range(most // 100))] for _ in range(2))
    target = layout(targets)
    out.say("layout\t" + layout(sources).hex())
    for k in range(min(4, len(sources) + 1)):
        out.say(f"select\t{k}\t{rng.choice(('-', 0, 1, 2, 65535, 7))}\t{target.hex()}")
    if rng.random() < 0.1:
        out.say(f"select\t0\t{rng.choice(('-', 1))}\t{damaged(rng, targets).hex()}", False)


def planning(rng, n, most=generate.MOST_BLOCK):
    out = Lines()
    for _ in range(n):
        (ask_selects if rng.random() < 0.2 else ask_plans)(rng, out, most)
    return out
