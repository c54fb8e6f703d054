"""Cases of the verdict and the lookups for the list of tests/ground.py, and the answers that the Rust gave to pairs of layouts."""
import os

from model import *
from model_compare import *

HERE = os.path.dirname(os.path.abspath(__file__))
TEXT = dict(verdict=verdict_text, verdict_of=verdict_of_text, by_id=by_id_text, by_name=by_name_text)


class Asked:
    """puts cases whose answers are stated here into the list, and asserts that the model gives the same"""

    def __init__(self, cases):
        self.c = cases

    def stream(self, title, *given, refusal=0):
        self.c.layout(title, refusal, given[0] if isinstance(given[0], bytes) else layout(*given))

    def ask(self, word, what, more, answer):
        stated = TEXT[word](self.c.cat, self.c.block, what, more)
        assert answer == stated, (self.c.lines[-2:], word, what, answer, stated)
        self.c.put(f"{word}\t{what}\t{more.hex() if isinstance(more, bytes) else more}", answer)

    def verdict(self, answer, *compiled, k=0):
        self.ask("verdict", k, layout(*compiled), answer)


def plain(hash_, *fields, base=64, rtype=1):
    return [record(fields, base, rtype=rtype, stored=hash_)]


A, B = field(5, 0, 4, U32), field(6, 4, 8, I64, 0, 3, -2)
GAP = field(0, 12, 4, PAD)


def verdicts(a):
    a.stream("a stream's record and compiled ones", plain(1, A, B))
    a.verdict("compiled", plain(2, A, B))
    a.verdict("compiled", plain(2, B, A))
    a.verdict("compiled", plain(2, A, B, GAP))
    a.verdict("compiled", plain(2))
    a.verdict("compiled", plain(1, GAP, field(9, 40, 4, U32)))
    a.verdict("dynamic", plain(2, A, B, field(9, 40, 4, U32)))
    a.verdict("dynamic", plain(2, A, rtype=2))
    a.verdict("dynamic", [])
    a.verdict("compiled", plain(2, A, base=63))
    a.verdict("dynamic", plain(2, A, base=65))
    a.verdict("compiled", plain(2, field(6, 4, 8, I64, 0, 4, -2)))
    for other in (field(7, 4, 8, I64, 0, 3, -2), field(6, 12, 8, I64, 0, 3, -2), field(6, 4, 8, U64, 0, 3, -2),
                  field(6, 4, 8, I64, EXTENSION, 3, -2), field(6, 4, 8, I64, 0, 3, -1), field(6, 4, 16, I64, ARRAY, 3, -2)):
        a.verdict("dynamic", plain(2, other))
    a.verdict("none", plain(2, A), k=1)
    a.verdict("dynamic", plain(2, field(9, 0, 4, U32)) + plain(2, A))
    a.stream("padding of the stream alone", plain(1, A, GAP))
    a.verdict("compiled", plain(2, A))


def structs_compared(a):
    inner, x, y = field(2, 8, 8, NESTED, 0, 1), field(3, 0, 4, U32), field(4, 4, 4, I32)
    outer = field(5, 0, 16, NESTED, 0, 0)
    one = nested([x, y, inner], 16)
    a.stream("structs one level deep", plain(1, outer), [one, nested([field(1, 0, 8, U64)], 8)])
    held = plain(2, outer)
    a.verdict("compiled", held, [one, nested([field(1, 0, 8, U64)], 8)])
    a.verdict("compiled", held, [nested([inner, y, x], 16)])
    a.verdict("compiled", held, [one, nested([field(1, 0, 1, U8)], 4)])
    a.verdict("compiled", held, [nested([x, y, field(2, 8, 8, NESTED, 0, 7)], 16)])
    a.verdict("compiled", plain(2, field(5, 0, 16, NESTED, 0, 1)), [nested([]), one])
    a.verdict("dynamic", held, [nested([x, y, inner], 24)])
    a.verdict("dynamic", held, [nested([x, y], 16)])
    a.verdict("dynamic", held, [nested([x, y, inner, field(9, 16, 1, PAD)], 24)])
    a.verdict("dynamic", held, [nested([x, field(4, 4, 4, U32), inner], 16)])
    a.verdict("dynamic", held, [])
    a.stream("a struct past the table", plain(1, outer))
    a.verdict("dynamic", held)
    a.verdict("dynamic", held, [one])


def refusals_of_both(a):
    late, broken = plain(1, field(5, 0, 4, U32, reserved=b"\0\0\0\0\1")), plain(1, field(5, 0, 3, U32))
    a.stream("a stream of refusal 3", late, refusal=3)
    a.verdict("r2", plain(1, A, base=4097))
    a.verdict("r3", broken)
    a.verdict("r3", plain(1, A))
    a.ask("verdict_of", 1, layout(plain(1, A)), "r3")
    a.ask("by_id", 1, 5, "r3")
    a.ask("by_name", 1, b"f", "r3")
    a.stream("a stream of refusal 6", broken, refusal=6)
    a.verdict("r3", late)
    a.stream("an admitted stream", plain(1, A))
    a.verdict("r6", broken)


def rtypes(a):
    a.stream("several records of an rtype", plain(1, A) + plain(1, A, rtype=2) + plain(1, B))
    for rtype, compiled, answer in ((1, plain(2, B), "compiled"), (1, plain(2, A), "dynamic"), (2, plain(2, A), "dynamic"), (3, plain(2, A), "none")):
        a.ask("verdict_of", rtype, layout(compiled), answer)


def lookups(a):
    first = record([A, field(5, 8, 4, I32), field(6, 16, 4, U32), field(7, 20, 4, PAD)], names=[b"a", b"b", b"c", b"d"])
    other = record([field(6, 0, 1, U8)], rtype=2, names=[b"c"])
    last = record([field(6, 40, 8, U64), field(5, 30, 2, PAD), field(9, 50, 1, U8)], names=[b"x", b"a", b"y"])
    a.stream("fields by id and by name", [first, other, last])
    for rtype, field_id, answer in ((1, 5, "5 8 4 19 0 0 0 0"), (1, 6, "6 40 8 4 0 0 0 0"), (1, 7, "none"), (1, 8, "none"),
                                    (2, 6, "6 0 1 1 0 0 0 0"), (3, 6, "none"), (1, 9, "9 50 1 1 0 0 0 0")):
        a.ask("by_id", rtype, field_id, answer)
    for rtype, text, answer in ((1, b"a", "5 8 4 19 0 0 0 0"), (1, b"b", "5 8 4 19 0 0 0 0"), (1, b"c", "6 40 8 4 0 0 0 0"), (1, b"d", "none"),
                                (1, b"x", "none"), (2, b"c", "6 0 1 1 0 0 0 0"), (3, b"c", "none"), (1, b"", "none"), (1, b"ab", "none")):
        a.ask("by_name", rtype, text, answer)
    long = record([A, B], names=[b"n" * 32, b""])
    a.stream("names of no byte and of 32", [long])
    for text, answer in ((b"n" * 32, "5 0 4 3 0 0 0 0"), (b"n" * 31, "none"), (b"n" * 33, "none"), (b"", "6 4 8 20 0 3 -2 0")):
        a.ask("by_name", 1, text, answer)
    a.stream("a name that padding has first", [record([field(4, 0, 4, PAD), B], names=[b"a", b"a"])])
    a.ask("by_name", 1, b"a", "6 4 8 20 0 3 -2 0")


def comparings(c):
    for some in (verdicts, structs_compared, refusals_of_both, rtypes, lookups):
        some(Asked(c))


def recorded_pairs(c):
    """what the Rust answered (tests/compare --record-pairs)"""
    lines = open(os.path.join(HERE, "recorded_pairs.cases")).read().split("\n")[:-1]
    a = Asked(c)
    for line, answer in zip(lines[::2], lines[1::2]):
        word, *more = line.split("\t")
        if word in ("catalogue", "layout"):
            getattr(c, word)("answered by the Rust", 0, bytes.fromhex(more[0]))
        else:
            a.ask(word, int(more[0]), int(more[1]) if word == "by_id" else bytes.fromhex(more[1]), answer)
