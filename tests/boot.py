#!/usr/bin/env python3
"""Writes crates/boot/stdin and crates/boot/stdout: a layout whose records store the right hash, a wrong one, and none worked out."""
import os
from model import *

HERE = os.path.join(os.path.dirname(os.path.abspath(__file__)), "..", "crates", "boot")
TEXTS = {"same": "its hash is the stored one", "different": "its hash is NOT the stored one"}


def block(stored):
    tables = [
        [field(1, 0, 16, NESTED), field(2, 16, 8, U64), field(3, 24, 8, PRICE, scale=-9)],
        [field(2, 16, 8, U64), field(1, 0, 16, NESTED)],
        [field(4, 0, 4, U32)],
    ]
    records = [record(fields, 32, rtype=k, stored=stored[k]) for k, fields in enumerate(tables)]
    return layout(records, [nested([field(6, 0, 1, U8), field(7, 8, 8, I64)])])


def main():
    cat, plain = catalogue(), block([0, 0, 0])
    right = [hash_within(cat, plain, k, DEFAULT_BUDGET)[0] for k in range(3)]
    l = block([right[0], right[1] ^ 1, 0])
    with open(os.path.join(HERE, "stdin"), "wb") as out:
        out.write(cat + l)
    with open(os.path.join(HERE, "stdout"), "w") as out:
        for k in range(3):
            out.write(f"record {k}: {TEXTS[boot_text(cat, l, k)]}\n")


main()
