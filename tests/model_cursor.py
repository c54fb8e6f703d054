"""A model of the field cursor, from the rules and not from the code: each call answers the state, or a refusal that leaves everything as it was."""
from model import *

MOST_BYTES, MOST_NAME = 4096, 32
MOST_FIELDS = dict(record=128, struct=32)
ROW, SLOT = 16, 33


def up(at, align):
    return -(-at // align) * align


def structs_of(cat, l):
    """the size and the alignment of each struct of a layout"""
    first, found = 8 + 72 * number(l, 0, 2), []
    for h in range(first, first + 48 * number(l, 2, 2), 48):
        widths = [cat[decode(row)[3]] % 16 for row in rows(part(l, h + 4))]
        found.append((number(l, h, 4), max(widths, default=0) or 1))
    return found


class Cursor:
    def __init__(self, cat):
        self.table, self.names = bytearray(ROW * 128), bytearray(SLOT * 128)
        self.under(cat)

    def under(self, cat):
        self.cat = cat
        self.array, self.extension, _, self.padding_id = struct.unpack("<BBHH", cat[256:262])
        ids = {kind: i for i, (kind, _) in enumerate(divmod(b, 16) for b in cat[:256])}
        self.struct_type, self.padding_type = ids[STRUCT], ids[PADDING]

    def begin(self, holder):
        self.most, self.fields, self.at, self.base = MOST_FIELDS[holder], [], 0, None
        return "ok"

    def state(self):
        return f"{len(self.fields)} {self.at} {'-' if self.base is None else self.base}"

    def built(self, k):
        return f"{self.state()} {self.table[:ROW * k].hex()} {self.names[:SLOT * k].hex()}"

    # ---- what every call goes through

    def write(self, start=0):
        for i, (f, text) in enumerate(self.fields[start:], start):
            self.table[ROW * i : ROW * i + ROW] = field(*f)
            self.names[SLOT * i : SLOT * i + SLOT] = name(text)

    def gap(self, to):
        return [((self.padding_id, self.at, to - self.at, self.padding_type), b"")] if to > self.at else []

    def push(self, more, end):
        if end > MOST_BYTES or len(self.fields) + len(more) > self.most:
            return "r14"
        self.fields += more
        self.at = end
        self.write(len(self.fields) - len(more))
        return self.state()

    def place(self, taken, align, f, text):
        field_id, size, type_id, flags, def_index, scale = f
        kind, width = divmod(self.cat[type_id], 16)
        if len(text) > MOST_NAME:
            return "r2"
        if not taken or size == 0 or width and not flags & self.array and size != width:
            return "r15"
        start = up(self.at, align)
        if self.base is not None and kind != PADDING:
            flags |= self.extension
        return self.push(self.gap(start) + [((field_id, start, size, type_id, flags, def_index, scale), text)], start + size)

    # ---- the calls

    def scalar(self, row, text):
        field_id, _, size, type_id, flags, def_index, _ = row
        kind, width = divmod(self.cat[type_id], 16)
        scale = -9 if kind == DECIMAL else 0
        return self.place(kind <= DECIMAL and width, width or 1, (field_id, size, type_id, flags, def_index, scale), text)

    def string(self, row, text):
        field_id, _, size, type_id, flags, _, _ = row
        return self.place(self.cat[type_id] // 16 == STRING, 1, (field_id, size, type_id, flags, 0, 0), text)

    def like(self, row, text):
        field_id, _, size, type_id, flags, def_index, scale = row
        kind, width = divmod(self.cat[type_id], 16)
        return self.place(kind != STRUCT, width or 1, (field_id, size, type_id, flags, def_index, scale), text)

    def nested(self, structs, row, text, array):
        field_id, _, count, _, _, k, _ = row
        size, align = structs[k] if k < len(structs) else (0, 1)
        times, flags = (count, self.array) if array else (1, 0)
        return self.place(k < len(structs), align, (field_id, size * times, self.struct_type, flags, k, 0), text)

    def move(self, to):
        return "r14" if to < self.at else self.push(self.gap(to), to)

    def finish_base(self):
        if self.base is not None:
            return self.state()
        answer = self.move(up(self.at, 8))
        if not answer.startswith("r"):
            self.base = self.at
            answer = self.state()
        return answer

    def finish(self, ids):
        answer = self.move(up(self.at, 8))
        if answer.startswith("r"):
            return answer
        self.base = self.at if self.base is None else self.base
        place = lambda f: len(ids) if self.cat[f[3]] // 16 == PADDING or f[0] not in ids else ids.index(f[0])
        self.fields.sort(key=lambda placed: place(placed[0]))
        self.write()
        return self.state()


def called(cursor, structs, line):
    """the answer to a line with one of the cursor's words"""
    word, *more = line.split("\t")
    if word == "begin":
        return cursor.begin(more[0])
    if word in ("at", "built"):
        return (cursor.move if word == "at" else cursor.built)(int(more[0]))
    if word == "finish_base":
        return cursor.finish_base()
    if word == "finish":
        given = bytes.fromhex(more[0])
        return cursor.finish([number(given, i, 2) for i in range(0, len(given), 2)])
    row, text = decode(bytes.fromhex(more[0])), bytes.fromhex(more[1])
    if word in ("nested", "nested_array"):
        return cursor.nested(structs, row, text, word == "nested_array")
    return getattr(cursor, word)(row, text)
