"""A model of plan text, written from the rules and not from the code: plans, their slots, the writer and the reader."""
import re, struct
from collections import namedtuple

from model import quick_crc

MAX_BYTES, MAX_HEADER, MAX_STEPS = 4096, 64, 128
SLOT, STEPS_FROM, BODY_FROM = 6160, 16, 2064
FOUND = b"\xaa"

Plan = namedtuple("Plan", "src_rtype rtype src_base header base size body steps")
# a copy has no `to`; its sign and its mark are None
Step = namedtuple("Step", "source target size to signed marked", defaults=(None, None, None))


def keeps(p):
    """every rule under Plan text"""
    if not all(0 <= n <= 65535 for n in (p.src_rtype, p.rtype)) or p.src_base > MAX_BYTES or p.size > MAX_BYTES:
        return False
    if p.header > MAX_HEADER or p.header > p.size or p.base > p.size or len(p.body) != p.size - p.header or len(p.steps) > MAX_STEPS:
        return False
    low = p.header
    for s in p.steps:
        gives = s.size if s.to is None else s.to
        if s.size < 1 or s.source + s.size > MAX_BYTES or s.target < low or s.target + gives > p.size:
            return False
        if s.to is not None and (s.size not in (1, 2, 4, 8) or s.to not in (1, 2, 4, 8) or s.size == s.to or not s.marked and s.size > s.to):
            return False
        low = s.target + gives
    return True


# ---- text

def line(*fields):
    return "\t".join(str(f) for f in fields) + "\n"


def text_of(p):
    lines = line("plan", 1, *p[:6], len(p.steps)) + line("body", p.body.hex())
    for s in p.steps:
        if s.to is None:
            lines += line("copy", s.source, s.target, s.size)
        else:
            lines += line("int", s.source, s.target, s.size, s.to, "s" if s.signed else "u", int(s.marked))
    return lines.encode()


NUMBER = rb"(0|[1-9][0-9]*)"
HEAD = re.compile(rb"plan\t1" + rb"\t" .join([b""] + [NUMBER] * 7) + rb"\nbody\t((?:[0-9a-f]{2})*)\n")
COPY = re.compile(rb"copy\t" + rb"\t".join([NUMBER] * 3) + rb"\n")
INT = re.compile(rb"int\t" + rb"\t".join([NUMBER] * 4) + rb"\t([us])\t([01])\n")


def plan_of(text):
    """the plan whose text this is, or none"""
    head = HEAD.match(text)
    if not head:
        return None
    *numbers, count = (int(n) for n in head.groups()[:7])
    steps, at = [], head.end()
    while at < len(text):
        copy, whole = COPY.match(text, at), INT.match(text, at)
        if copy:
            steps.append(Step(*map(int, copy.groups())))
        elif whole:
            steps.append(Step(*map(int, whole.groups()[:4]), whole[5] == b"s", whole[6] == b"1"))
        else:
            return None
        at = (copy or whole).end()
    p = Plan(*numbers, bytes.fromhex(head[8].decode()), steps)
    return p if len(steps) == count and keeps(p) else None


# ---- slots

def packed(s):
    flags = (0, 0, 0, 0) if s.to is None else (1, s.signed, s.marked, 0)
    return struct.pack("<4B4H4x", *flags, s.source, s.target, s.size, s.to or 0)


def front(p):
    """the numbers and the steps"""
    return struct.pack("<8H", *p[:6], len(p.steps), 0) + b"".join(map(packed, p.steps))


def slot_of(p):
    return front(p).ljust(BODY_FROM, b"\0") + p.body.ljust(MAX_BYTES, b"\0")


def plan_in(slot):
    """the plan that a slot holds, or none"""
    if len(slot) != SLOT:
        return None
    *numbers, count, _ = struct.unpack_from("<8H", slot)
    if count > MAX_STEPS or numbers[5] > MAX_BYTES:
        return None
    steps = []
    for k in range(count):
        kind, sign, mark, _, *four = struct.unpack_from("<4B4H", slot, STEPS_FROM + 16 * k)
        if max(kind, sign, mark) > 1:
            return None
        steps.append(Step(*four, bool(sign), bool(mark)) if kind else Step(*four[:3]))
    p = Plan(*numbers, slot[BODY_FROM:BODY_FROM + max(0, numbers[5] - numbers[3])], steps)
    return p if keeps(p) else None


# ---- answers: the sum of all that is lent, and how much was stored

def told(lent, n):
    return f"{quick_crc(lent):016x} {n}"


def write_text(room, slot):
    p = plan_in(slot)
    if p is None:
        return "r16"
    text = text_of(p)
    return told(text + FOUND * (room - len(text)), len(text)) if len(text) <= room else "r11"


def read_text(room, text):
    if room < SLOT:
        return "r11"
    p = plan_of(text)
    return "r16" if p is None else told(slot_of(p) + FOUND * (room - SLOT), SLOT)
