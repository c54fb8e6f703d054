"""Cases of the field cursor for the list of tests/ground.py, and the answers that the Rust gave to sequences of calls."""
import os, struct

from model import *
from model_cursor import Cursor, called, structs_of

HERE = os.path.dirname(os.path.abspath(__file__))


class Asked:
    """puts cases whose answers are stated here into the list, and asserts that the model gives the same"""

    def __init__(self, cases):
        self.c, self.model = cases, Cursor(cases.cat)

    def structs(self, title, block):
        self.c.layout(title, 0, block)
        self.model.structs = structs_of(self.c.cat, block)

    def ask(self, line, answer):
        stated = called(self.model, self.model.structs, line)
        assert answer == stated, (self.c.lines[-3:], line, answer, stated)
        self.c.put(line, answer)

    def begin(self, title, holder="record"):
        self.c.title(title)
        self.ask(f"begin\t{holder}", "ok")

    def place(self, word, answer, *given, name=b"n"):
        self.ask(f"{word}\t{field(*given).hex()}\t{name.hex()}", answer)

    def scalar(self, answer, field_id, size, type_id, *more, name=b"n"):
        self.place("scalar", answer, field_id, 0, size, type_id, *more, name=name)

    def finish(self, answer, *ids):
        self.ask("finish\t" + b"".join(struct.pack("<H", i) for i in ids).hex(), answer)

    def built(self, state, *fields):
        """fields: their numbers and their names"""
        table, names = b"".join(f for f, _ in fields), b"".join(name(text) for _, text in fields)
        self.ask(f"built\t{len(fields)}", f"{state} {table.hex()} {names.hex()}")


def aligned(a):
    a.begin("scalars: padding up to the width, a decimal's scale, an array, the extension flag")
    a.scalar("1 1 -", 5, 1, U8, name=b"")
    a.scalar("3 16 -", 6, 8, PRICE, 0, 9, 4, name=b"p" * 32)
    a.scalar("4 22 -", 7, 6, U16, ARRAY)
    a.ask("finish_base", "5 24 24")
    a.ask("finish_base", "5 24 24")
    a.scalar("6 25 24", 8, 1, CHAR)
    a.ask("finish_base", "6 25 24")
    a.scalar("8 32 24", 9, 4, I32, 1)
    a.built("8 32 24", (field(5, 0, 1, U8), b""), (field(0, 1, 7, PAD), b""), (field(6, 8, 8, PRICE, 0, 9, -9), b"p" * 32), (field(7, 16, 6, U16, ARRAY), b"n"),
            (field(0, 22, 2, PAD), b""), (field(8, 24, 1, CHAR, EXTENSION), b"n"), (field(0, 25, 3, PAD), b""), (field(9, 28, 4, I32, EXTENSION | 1), b"n"))


def strings_and_likes(a):
    a.begin("strings lie anywhere; like keeps size, flags and scale, and stays padding where it is")
    a.place("string", "1 3 -", 5, 0, 3, CSTR, 0, 7, 7)
    a.place("like", "3 8 -", 6, 77, 4, I32, EXTENSION, 3, -5)
    a.place("like", "4 13 -", 7, 0, 5, PAD, EXTENSION | 1, 2, 1)
    a.ask("finish_base", "5 16 16")
    a.place("like", "6 17 16", 8, 0, 1, PAD, ARRAY)
    a.place("like", "7 20 16", 9, 0, 3, 222, 0, 0, 127)
    a.built("7 20 16", (field(5, 0, 3, CSTR), b"n"), (field(0, 3, 1, PAD), b""), (field(6, 4, 4, I32, EXTENSION, 3, -5), b"n"), (field(7, 8, 5, PAD, EXTENSION | 1, 2, 1), b"n"),
            (field(0, 13, 3, PAD), b""), (field(8, 16, 1, PAD, ARRAY), b"n"), (field(9, 17, 3, 222, EXTENSION, 0, 127), b"n"))


def structs(a):
    a.begin("a struct alone, and arrays of it, one of a single struct", "struct")
    a.scalar("1 1 -", 1, 1, U8)
    a.place("nested", "3 14 -", 5, 0, 0, 0, 255, 0)
    a.place("nested_array", "4 26 -", 6, 0, 1, 0, 0, 0)
    a.place("nested_array", "5 62 -", 7, 0, 3, 0, 0, 0)
    a.place("nested", "6 63 -", 8, 0, 9, 0, 0, 1)
    a.built("6 63 -", (field(1, 0, 1, U8), b"n"), (field(0, 1, 1, PAD), b""), (field(5, 2, 12, NESTED), b"n"), (field(6, 14, 12, NESTED, ARRAY), b"n"),
            (field(7, 26, 36, NESTED, ARRAY), b"n"), (field(8, 62, 1, NESTED, 0, 1), b"n"))
    for word, k, count, answer in (("nested", 3, 0, "r15"), ("nested", 65535, 0, "r15"), ("nested_array", 0, 0, "r15"), ("nested", 2, 0, "r15"), ("nested_array", 2, 9, "r15"),
                                   ("nested_array", 0, 65535, "r14"), ("nested_array", 1, 4034, "r14"), ("nested_array", 1, 4033, "7 4096 -")):
        a.place(word, answer, 9, 0, count, 0, 0, k)


def refusals(a):
    a.begin("2 before 15, 15 before 14, and nothing changes")
    a.ask("at\t4095", "1 4095 -")
    for given, answer in (((5, 4, U8), "r15"), ((5, 0, U8), "r15"), ((5, 1, CSTR), "r15"), ((5, 8, NESTED), "r15"), ((5, 4, PAD), "r15"), ((5, 3, 222), "r15"), ((5, 2, U16), "r14")):
        a.scalar(answer, *given)
        a.scalar("r2", *given, name=b"n" * 33)
    for word, size, type_id, answer in (("string", 2, CSTR, "r14"), ("string", 0, CSTR, "r15"), ("string", 1, CHAR, "r15"), ("like", 8, NESTED, "r15"), ("like", 2, U8, "r15"),
                                        ("like", 2, PAD, "r14"), ("like", 0, PAD, "r15"), ("string", 65535, SYMBOL, "r14"), ("like", 65535, PAD, "r14")):
        a.place(word, answer, 5, 0, size, type_id)
    for offset in (4094, 0, 4097, 65536 + 4095, 999999999):
        a.ask(f"at\t{offset}", "r14")
    a.ask("at\t4095", "1 4095 -")
    a.scalar("2 4096 -", 5, 1, U8)
    a.scalar("r14", 6, 1, U8)
    a.built("2 4096 -", (field(0, 0, 4095, PAD), b""), (field(5, 4095, 1, U8), b"n"))
    a.finish("2 4096 4096", 5)
    a.built("2 4096 4096", (field(5, 4095, 1, U8), b"n"), (field(0, 0, 4095, PAD), b""))


def full(a):
    for holder, most in (("record", 128), ("struct", 32)):
        a.begin(f"{most} fields of a {holder}, and one more", holder)
        for i in range(most - 2):
            a.scalar(f"{i + 1} {i + 1} -", i, 1, U8, name=b"")
        at = most - 2
        a.ask(f"at\t{at + 1}", f"{most - 1} {at + 1} -")
        if holder == "struct":
            a.scalar("r14", 5, 8, U64)
        a.scalar(f"{most} {most} -", 5, 1, U8)
        a.scalar("r14", 5, 1, U8)
        a.ask(f"at\t{most}", f"{most} {most} -")
        a.ask(f"at\t{most + 1}", "r14")
        a.finish(f"{most} {most} {most}", 5, 3)


def orders(a):
    a.begin("an order: listed ids by first place, the rest and padding behind as they stood, names with them")
    for field_id, size, type_id, answer in ((5, 1, U8, "1 1 -"), (6, 2, U16, "3 4 -"), (5, 4, U32, "4 8 -"), (0, 1, I8, "5 9 -"), (7, 1, U8, "6 10 -")):
        a.scalar(answer, field_id, size, type_id, name=b"%d" % (10 * field_id + size))
    a.place("like", "7 12 -", 7, 0, 2, PAD, name=b"pad")
    five, six, again, none, seven = (field(5, 0, 1, U8), b"51"), (field(6, 2, 2, U16), b"62"), (field(5, 4, 4, U32), b"54"), (field(0, 8, 1, I8), b"1"), (field(7, 9, 1, U8), b"71")
    gaps = (field(0, 1, 1, PAD), b""), (field(7, 10, 2, PAD), b"pad"), (field(0, 12, 4, PAD), b"")
    a.finish("8 16 16", 7, 0, 7, 5, 99)
    a.built("8 16 16", seven, none, five, again, gaps[0], six, gaps[1], gaps[2])
    a.finish("8 16 16")
    a.built("8 16 16", seven, none, five, again, gaps[0], six, gaps[1], gaps[2])
    a.scalar("9 17 16", 6, 1, U8, name=b"late")
    a.finish("10 24 16", 6)
    late = field(6, 16, 1, U8, EXTENSION), b"late"
    a.built("10 24 16", six, late, seven, none, five, again, *gaps, (field(0, 17, 7, PAD), b""))


def recorded(a):
    """what the Rust answered (tests/compare --record-calls), to a memory of zeros"""
    lines = open(os.path.join(HERE, "recorded_calls.cases")).read().split("\n")[:-1]
    for line, answer in zip(lines[::2], lines[1::2]):
        word, *more = line.split("\t")
        if word == "catalogue":
            a.c.catalogue("answered by the Rust", 0, bytes.fromhex(more[0]))
            a.model.under(a.c.cat)
        elif word == "layout":
            a.structs("answered by the Rust", bytes.fromhex(more[0]))
        else:
            a.ask(line, answer)


def buildings(c):
    a = Asked(c)
    recorded(a)
    a.structs("structs for the field cursor", layout([], [nested([field(3, 0, 1, U8), field(4, 2, 2, I16)], 12), nested([field(3, 0, 1, CSTR)], 1), nested([], 0)]))
    for some in (aligned, strings_and_likes, structs, refusals, full, orders):
        some(a)
