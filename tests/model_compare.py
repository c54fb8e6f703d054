"""A model of the verdict and the lookups, written from the rules and not from the code."""
from model import *


def records_of(l):
    return [8 + 72 * k for k in range(number(l, 0, 2))]


def fields_at(l, h):
    return rows(part(l, h + 16))


def struct_at(l, row):
    k = number(row, 8, 2)
    return 8 + 72 * number(l, 0, 2) + 48 * k if k < number(l, 2, 2) else None


def six(row):
    return row[:8] + row[10:11]


def struct_six(l, h):
    return number(l, h, 4), [six(row) for row in sorted(rows(part(l, h + 4)), key=lambda row: number(row, 2, 2))]


def equal(cat, s, have, c, want):
    if six(have) != six(want):
        return False
    if cat[have[6]] >> 4 != STRUCT:
        return True
    a, b = struct_at(s, have), struct_at(c, want)
    return a is not None and b is not None and struct_six(s, a) == struct_six(c, b)


def is_padding(cat, row):
    return cat[row[6]] >> 4 == PADDING


def judged(cat, s, h, c):
    first = next((g for g in records_of(c) if number(c, g, 2) == number(s, h, 2)), None)
    if first is None:
        return "dynamic"
    if s[h + 8 : h + 16] == c[first + 8 : first + 16]:
        return "compiled"
    wants = [row for row in fields_at(c, first) if not is_padding(cat, row)]
    met = all(any(equal(cat, s, have, c, want) for have in fields_at(s, h)) for want in wants)
    return "compiled" if number(s, h + 4, 4) >= number(c, first + 4, 4) and met else "dynamic"


def refused(cat, *layouts):
    """the first refusal that either layout has"""
    return min((r for r in (admit(cat, l) for l in layouts) if r), default=0)


def verdict_text(cat, s, k, c):
    refusal = refused(cat, s, c)
    if refusal:
        return f"r{refusal}"
    return judged(cat, s, 8 + 72 * k, c) if k < number(s, 0, 2) else "none"


def verdict_of_text(cat, s, rtype, c):
    refusal = refused(cat, s, c)
    if refusal:
        return f"r{refusal}"
    heads = [h for h in records_of(s) if number(s, h, 2) == rtype]
    return judged(cat, s, heads[-1], c) if heads else "none"


def by_id_text(cat, l, rtype, field_id):
    refusal = refused(cat, l)
    if refusal:
        return f"r{refusal}"
    found = [row for h in records_of(l) if number(l, h, 2) == rtype for row in fields_at(l, h)]
    found = [row for row in found if number(row, 0, 2) == field_id and not is_padding(cat, row)]
    return " ".join(map(str, decode(found[-1]) + (0,))) if found else "none"


def by_name_text(cat, l, rtype, text):
    refusal = refused(cat, l)
    if refusal:
        return f"r{refusal}"
    for h in [h for h in records_of(l) if number(l, h, 2) == rtype][:1]:
        start = number(l, h + 24, 4)
        for k, row in enumerate(fields_at(l, h)):
            slot = start + 33 * k
            if l[slot + 1 : slot + 1 + l[slot]] == text and not is_padding(cat, row):
                return by_id_text(cat, l, rtype, number(row, 0, 2))
    return "none"
