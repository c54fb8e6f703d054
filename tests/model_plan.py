"""A model of selection and of the planner, written from the rules and not from the code."""
from model import *
from model_compare import is_padding, records_of, refused as refused_afresh

MOST_HEADER, MOST_BYTES, MOST_STEPS = 64, 4096, 128
STEPS_FROM, BODY_FROM, SLOT = 16, 16 + 16 * 128, 16 + 16 * 128 + 4096
COPY, INT = 0, 1

# a layout is mostly asked about several times
refused = functools.lru_cache(64)(refused_afresh)


# ---- selection

def title(l, h):
    return l[h + 33 : h + 33 + l[h + 32]]


def select_text(cat, s, k, t, schema):
    """schema None where none is wanted"""
    refusal = refused(cat, s, t)
    if refusal:
        return f"r{refusal}"
    if k >= number(s, 0, 2):
        return "none"
    source = 8 + 72 * k
    rtypes, schemas = ([number(t, h + at, 2) for h in records_of(t)] for at in (0, 2))
    if schema in schemas and title(t, records_of(t)[schemas.index(schema)]) == title(s, source):
        return f"={schemas.index(schema)}"
    rtype = number(s, source, 2)
    return f"={rtypes.index(rtype)}" if rtype in rtypes else "unplanned"


# ---- fields

def counts(cat, row):
    """neither padding nor the header"""
    return not is_padding(cat, row) and number(row, 0, 2) != number(cat, 258, 2)


def kind_of(cat, row):
    return cat[row[6]] >> 4


def is_array(cat, row):
    return bool(row[7] & cat[256])


def is_marked(cat, marks, i, row):
    """marks that are not there are none"""
    plain = kind_of(cat, row) in (UNSIGNED, SIGNED) and not is_array(cat, row)
    return plain and i < len(marks) and marks[i] != 0


def place(row):
    return number(row, 2, 2), number(row, 4, 2)


# ---- steps: (COPY, source, target, size) or (INT, source, target, from, to, signed, marked)

def step_for(cat, have, want, marked):
    (source, have_size), (target, want_size) = place(have), place(want)
    same_scale, arrays = have[10] == want[10], (is_array(cat, have), is_array(cat, want))
    if have_size == want_size and have[6] == want[6] and same_scale and arrays[0] == arrays[1]:
        return COPY, source, target, want_size
    if not same_scale or any(arrays):
        return None
    kinds = kind_of(cat, have), kind_of(cat, want)
    if kinds == (STRING, STRING):
        return (COPY, source, target, have_size) if have_size <= want_size else None
    if kinds not in ((UNSIGNED, UNSIGNED), (SIGNED, SIGNED)):
        return None
    if want_size > have_size or marked:
        return INT, source, target, have_size, want_size, kinds[0] == SIGNED, marked
    return None


def steps_of(cat, haves, wants, marks):
    steps = []
    for i, want in enumerate(wants):
        have = next((have for have in haves if have[:2] == want[:2]), None)
        if counts(cat, want) and have is not None:
            steps.append(step_for(cat, have, want, is_marked(cat, marks, i, want)))
    return sorted((step for step in steps if step), key=lambda step: step[2])


def joined(steps, src_base, base):
    out = []
    for step in steps:
        last = out[-1] if out else None
        if last and last[0] == step[0] == COPY and (last[1] + last[3], last[2] + last[3]) == step[1:3]:
            if all(s[1] + s[3] <= src_base and s[2] + s[3] <= base for s in (last, step)):
                out[-1] = COPY, last[1], last[2], last[3] + step[3]
                continue
        out.append(step)
    return out


# ---- a plan in a slot

def packed_step(step):
    if step[0] == COPY:
        return struct.pack("<BBBBHHHHI", COPY, 0, 0, 0, *step[1:4], 0, 0)
    return struct.pack("<BBBBHHHHI", INT, step[5], step[6], 0, *step[1:5], 0)


def front(src_rtype, rtype, src_base, header, base, size, steps):
    """the numbers and the steps"""
    numbers = struct.pack("<8H", src_rtype, rtype, src_base, header, base, size, len(steps), 0)
    return numbers + b"".join(packed_step(step) for step in steps)


def slot_of(front, body):
    return front.ljust(BODY_FROM, b"\0") + body.ljust(MOST_BYTES, b"\0")


# ---- the planner

def largest(cat, row):
    return b"\xff" * (place(row)[1] - 1) + (b"\x7f" if kind_of(cat, row) == SIGNED else b"\xff")


def body_fits(cat, wants, marks, header, size, body):
    if len(body) != size - header:
        return False
    covered = set()
    for i, row in enumerate(wants):
        start, n = place(row)
        if not counts(cat, row):
            continue
        covered.update(range(start, start + n))
        if is_marked(cat, marks, i, row) and body[start - header : start - header + n] != largest(cat, row):
            return False
    return all(b == 0 or header + i in covered for i, b in enumerate(body))


def planned(cat, s, k, t, to, header, body, marks, room):
    """the slot's bytes, or what is said instead"""
    refusal = refused(cat, s, t)
    if refusal:
        return f"r{refusal}"
    if k >= number(s, 0, 2) or to >= number(t, 0, 2):
        return "none"
    source, target = 8 + 72 * k, 8 + 72 * to
    haves, wants = rows(part(s, source + 16)), rows(part(t, target + 16))
    size = int(record_size(cat, t, to)[1:])
    if header > MOST_HEADER or size < header or any(counts(cat, row) and place(row)[0] < header for row in wants):
        return "r7"
    if not body_fits(cat, wants, marks, header, size, body):
        return "r8"
    if room < SLOT:
        return "r11"
    src_base, base = number(s, source + 4, 4), number(t, target + 4, 4)
    steps = joined(steps_of(cat, haves, wants, marks), src_base, base)
    return slot_of(front(number(s, source, 2), number(t, target, 2), src_base, header, base, size, steps), body)
