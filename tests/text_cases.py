"""Cases of plan text for the list of tests/ground.py."""
from model_text import *
from texts import SHORT, changes, read_line, write_line

# the document's case whole
WHOLE = Plan(1, 1, 24, 24, 40, 40, bytes.fromhex("0000000000000000ffffffffffff0000"), [Step(16, 24, 6), Step(22, 32, 2, 4, False, True)])
WHOLE_TEXT = (b"plan\t1\t1\t1\t24\t24\t40\t40\t2\nbody\t0000000000000000ffffffffffff0000\ncopy\t16\t24\t6\nint\t22\t32\t2\t4\tu\t1\n")
EMPTY = Plan(65535, 65535, 4096, 0, 0, 0, b"", [])


class Texts:
    """a good text is read to the plan and the plan written to it; any other is refused or is another plan's, as the model says"""

    def __init__(self, cases):
        self.c = cases

    def good(self, title, p, text=None):
        self.c.title(title)
        text = text or text_of(p)
        assert text == text_of(p) and plan_of(text) == p and keeps(p), title
        for room in (len(text), len(text) + 3, len(text) - 1):
            self.write(room, slot_of(p))
        for room in (SLOT, SLOT + 9, SLOT - 1):
            self.c.put(read_line(room, text), read_text(room, text))

    def write(self, room, slot):
        self.c.put(write_line(room, slot), write_text(room, slot))

    def refused(self, title, text):
        self.c.title(title)
        assert plan_of(text) is None, title
        self.c.put(read_line(SLOT, text), "r16")

    def read(self, text):
        self.c.put(read_line(SLOT, text), read_text(SLOT, text))


def wrong_forms(t):
    good = WHOLE_TEXT
    for title, old, new in (
        ("a leading zero", b"\t24\t24", b"\t024\t24"), ("two zeros", b"copy\t16", b"copy\t00"), ("a plus", b"copy\t16", b"copy\t+16"), ("a minus", b"copy\t16", b"copy\t-16"),
        ("upper-case hex", b"ffff", b"FFff"), ("a carriage return", b"2\nbody", b"2\r\nbody"), ("a newline too many", b"\nbody", b"\n\nbody"), ("a newline missing", b"6\nint", b"6int"),
        ("a tab too many", b"copy\t", b"copy\t\t"), ("a tab missing", b"copy\t", b"copy"), ("a tab before a newline", b"\t6\n", b"\t6\t\n"), ("a space for a tab", b"copy\t", b"copy "),
        ("edition 2", b"plan\t1", b"plan\t2"), ("edition 01", b"plan\t1", b"plan\t01"), ("one step counted too few", b"\t2\n", b"\t1\n"), ("one step counted too many", b"\t2\n", b"\t3\n"),
        ("129 steps counted", b"\t2\n", b"\t129\n"), ("65,536 steps counted", b"\t2\n", b"\t65536\n"), ("65,538 steps counted", b"\t2\n", b"\t65538\n"),
        ("an rtype that does not fit", b"1\t1\t1", b"1\t65536\t1"), ("an rtype far too large", b"1\t1\t1", b"1\t18446744073709551617\t1"), ("mark 2", b"u\t1", b"u\t2"), ("sign x", b"u\t1", b"x\t1"),
        ("half a byte", b"0000\n", b"000\n"), ("a byte too many", b"0000\n", b"000000\n"), ("a byte too few", b"0000\n", b"00\n"), ("another word", b"copy", b"move"), ("a body that is named otherwise", b"body", b"bodY"),
    ):
        assert good.count(old) >= 1, title
        t.refused(title, good.replace(old, new, 1))
    t.refused("bytes after the end", good + b"x")
    t.refused("a newline after the end", good + b"\n")
    t.refused("the last newline missing", good[:-1])
    t.refused("no text", b"")
    t.refused("a zero byte in front", b"\0" + good)


def broken_rules(t):
    def changed(title, **new):
        p = WHOLE._replace(**new)
        assert not keeps(p)
        t.refused(title, text_of(p))
        if all(n < 65536 for n in p[:6]) and len(p.steps) <= MAX_STEPS:
            t.write(400, slot_of(p._replace(body=p.body[:MAX_BYTES])))
    copy, whole = WHOLE.steps
    changed("a source base of 4,097", src_base=4097)
    changed("a record size of 4,097", size=4097, body=bytes(4073))
    changed("a header of 65", header=65, size=81)
    changed("a header above the size", header=41, body=b"")
    changed("a target base above the size", base=41)
    changed("steps out of order", steps=[whole, copy])
    changed("steps that overlap", steps=[copy._replace(size=9), whole])
    changed("a step inside the header", steps=[copy._replace(target=23), whole])
    changed("a step past the size", steps=[copy, whole._replace(target=37)])
    changed("a source end of 4,097", steps=[copy._replace(source=4091), whole])
    changed("a copy of no bytes", steps=[copy._replace(size=0), whole])
    changed("an integer of 3 bytes", steps=[copy, whole._replace(size=3)])
    changed("an integer to 8 bytes past the size", steps=[copy, whole._replace(target=33, to=8)])
    changed("integers of equal sizes", steps=[copy, whole._replace(size=4)])
    changed("a narrower integer without a mark", steps=[copy, whole._replace(size=8, marked=False)])


def slots(t):
    t.c.title("slots that hold no plan: lengths, kinds, signs and marks")
    slot = slot_of(WHOLE)
    for other in (slot[:-1], slot + b"\0", slot[:16], b""):
        t.write(400, other)
    for at, value in ((16, 2), (33, 2), (34, 2), (12, 3), (12, 255)):
        t.write(400, slot[:at] + bytes([value]) + slot[at + 1:])
    t.c.title("bytes that are not looked at: the last number, a step's zeros, what lies past the steps and the body")
    for at in (14, 15, 19, 28, 31, 48, 2063, 2080, 6159):
        t.write(400, slot[:at] + b"\x07" + slot[at + 1:])


def each_changed(t):
    """each byte of a short good text changed to a few others (tests/compare --texts tries all): no plan's text, or another plan's"""
    t.c.title("every byte of a short text changed")
    some = list(changes(lambda b: (b ^ 1, b ^ 2, b ^ 32, 9, 10, 48, 49, 57, 97, 0, 255)))
    assert sum(plan_of(text) is not None for text in some) > 10
    for text in some:
        t.read(text)


def texts(c):
    t = Texts(c)
    t.good("the case whole", WHOLE, WHOLE_TEXT)
    t.good("a short plan", SHORT)
    t.good("no body and no steps", EMPTY)
    full = [Step(4088, 64 + 8 * k, 8 - k % 2) for k in range(128)]
    t.good("128 steps and 4,096 bytes", Plan(10, 100, 1000, 64, 4096, 4096, bytes(range(256)) * 15 + bytes(192), full))
    wrong_forms(t)
    broken_rules(t)
    slots(t)
    each_changed(t)
    for line in ("write_plan", "write_plan\t1\t1\t", "read_plan\t6160", "read_plan\tx\t", "read_plan\t6160\tzz"):
        c.put(line, "?")
