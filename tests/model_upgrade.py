"""A model of the interpreter and of the dispatch, written from the rules and not from the code; and of the memory that plans stand in."""
from model_plan import *

MEMORY = 4 * SLOT


# ---- a plan out of a slot

class Plan:
    """what stands in any bytes: those past their end read as 0, and a body that passes it is empty"""

    def __init__(self, slot):
        self.src_rtype, self.rtype, self.src_base, self.header, self.base, self.size, self.count = (number(slot, 2 * i, 2) for i in range(7))
        end = BODY_FROM + max(0, self.size - self.header)
        self.body = slot[BODY_FROM:end] if end <= len(slot) else b""
        self.rows = [slot[at : at + 16].ljust(16, b"\0") for at in range(STEPS_FROM, STEPS_FROM + 16 * self.count, 16)]
        self.whole = len(slot) == SLOT

    def step(self, row):
        source, target, size, to = struct.unpack("<4H", row[4:12])
        return (COPY, source, target, size) if row[0] == COPY else (INT, source, target, size, to, row[1] == 1, row[2] == 1)

    def steps(self):
        return [self.step(row) for row in self.rows]

    def numbers_keep_rules(self):
        sizes = self.src_base <= MOST_BYTES and self.size <= MOST_BYTES and self.base <= self.size
        return sizes and self.header <= MOST_HEADER and self.header <= self.size and self.count <= MOST_STEPS

    def keeps_rules(self):
        if not self.whole or not self.numbers_keep_rules() or any(max(row[:3]) > 1 for row in self.rows):
            return False
        end = self.header
        for step in self.steps():
            takes, gives = step[3], step[3] if step[0] == COPY else step[4]
            if step[0] == INT and not ints_keep_rules(*step[3:5], step[6]):
                return False
            if takes < 1 or step[1] + takes > MOST_BYTES or step[2] < end or step[2] + gives > self.size:
                return False
            end = step[2] + gives
        return True


def ints_keep_rules(takes, gives, marked):
    widths = 1, 2, 4, 8
    return takes in widths and gives in widths and takes != gives and (marked or takes < gives)


# ---- the interpreter

def mapped(record, source, takes, gives, signed, marked):
    def top(n):
        return 2 ** (8 * n - signed) - 1

    value = int.from_bytes(record[source : source + takes], "little", signed=signed)
    if marked and value == top(takes) or not -(top(gives) + 1) * signed <= value <= top(gives):
        value = top(gives)
    return value.to_bytes(gives, "little", signed=signed)


def run(plan, record, target):
    target[plan.header : plan.size] = plan.body
    for step in plan.steps():
        _, source, to, takes, *more = step
        if source + takes <= len(record):
            bytes_ = record[source : source + takes] if step[0] == COPY else mapped(record, source, takes, *more)
            target[to : to + len(bytes_)] = bytes_


def told(answer, target):
    return f"{answer} {target.hex()}"


def done(plan, record, target):
    """11 and 16, and the run"""
    if len(target) < plan.size:
        return "r11"
    if not plan.keeps_rules():
        return "r16"
    run(plan, record, target)
    return f"{plan.rtype} {plan.size}"


def apply_text(slot, record, stated, target):
    target = bytearray(target)
    if stated > len(record) or stated > MOST_BYTES:
        return told("r9", target)
    return told(done(Plan(slot), record[:stated], target), target)


# ---- the dispatch

def upgraded(plans, unplanned, rtype, headers, record, stated, target):
    source_header, target_header = headers
    if source_header > MOST_HEADER or target_header > MOST_HEADER:
        return "r7"
    if stated > len(record) or stated > MOST_BYTES or stated < source_header:
        return "r9"
    slots = [plans[at : at + SLOT] for at in range(0, len(plans), SLOT)]
    found = next((slot for slot in slots if len(slot) == SLOT and number(slot, 0, 2) == rtype), None)
    if found is not None:
        return done(Plan(found), record[:stated], target)
    if rtype in unplanned:
        return "r10"
    size = target_header + stated - source_header
    if len(target) < size:
        return "r11"
    target[target_header:size] = record[source_header:stated]
    return f"{rtype} {size}"


# ---- lines

def sum_of(content):
    return f"{quick_crc(content):016x}"


class Slots:
    """the memory that plans stand in, and the answers to the lines of planning and upgrading; a catalogue and a layout are kept"""

    def __init__(self):
        self.memory, self.cat, self.block = bytearray(MEMORY), b"", b""

    def part(self, at, n):
        return bytes(self.memory[at : at + n]) if at + n <= MEMORY else b""

    def put(self, at, content):
        if at + len(content) > MEMORY:
            return "?"
        self.memory[at : at + len(content)] = content
        return "ok"

    def plan(self, k, to, header, body, marks, at, room, target):
        slot = planned(self.cat, self.block, k, target, to, header, body, marks, room)
        if isinstance(slot, str):
            return slot
        self.memory[at : at + SLOT] = slot
        plan = Plan(slot)
        return f"{slot[: STEPS_FROM + 16 * plan.count].hex()} {plan.body.hex()} {sum_of(self.memory[at : at + room])}"

    def answer(self, line):
        word, *more = line.split("\t")
        octets = bytes.fromhex
        if word == "catalogue":
            self.cat = octets(more[0])
            return "ok" if valid(self.cat) else "r1"
        if word == "layout":
            self.block = octets(more[0])
            refusal = admit(self.cat, self.block)
            return f"r{refusal}" if refusal else "ok"
        if word == "select":
            return select_text(self.cat, self.block, int(more[0]), octets(more[2]), None if more[1] == "-" else int(more[1]))
        if word == "plan":
            return self.plan(*map(int, more[:3]), octets(more[3]), octets(more[4]), *map(int, more[5:7]), octets(more[7]))
        if word == "put":
            return self.put(int(more[0]), octets(more[1]))
        if word == "slots":
            return sum_of(self.part(*map(int, more)))
        if word == "apply":
            return apply_text(self.part(*map(int, more[:2])), octets(more[2]), int(more[3]), octets(more[4]))
        assert word == "upgrade", word
        ids, target = octets(more[1]), bytearray(octets(more[7]))
        unplanned = [number(ids, i, 2) for i in range(0, len(ids), 2)]
        plans = self.part(0, int(more[0]))
        return told(upgraded(plans, unplanned, int(more[2]), (int(more[3]), int(more[4])), octets(more[5]), int(more[6]), target), target)

