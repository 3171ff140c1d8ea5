#!/usr/bin/env python3
"""Writes the sample images of this folder, and all but the longest, each after its name, for the listing tests: python3 samples/make.py"""
import os

R = [5, 4, 8, 2, 1, 2, 1, 1, 1, 1]
S = [3, 3] + 3 * [2, 2, 1, 1, 1]
K = [2, 1, 2, 1, 0, 1]
G = [2, 1, 8, 2, 1, 1, 1]
# codewords of the Golay code of 8, 64 and 7 levels: odd are, of the last twelve cells, those where the generator has a coefficient
OF_8 = [6, 2, 4, 6, 0, 2, 4, 6, 0, 2, 4, 1, 6, 3, 0, 5, 7, 1, 4, 2, 0, 3, 1]
OF_64 = [62, 2, 40, 60, 0, 18, 4, 46, 0, 22, 24, 1, 36, 63, 10, 55, 7, 31, 44, 20, 0, 63, 1]
OF_7 = [6, 2, 4, 6, 0, 2, 4, 6, 0, 2, 4, 1, 4, 3, 0, 5, 5, 1, 4, 2, 0, 3, 1]
PLAN, STACK, ROW = 1, 2, 3


def image(entries, gap=0, after=0):
    """The bytes of an image: entries are (kind, reference, body); gap bytes stand before the last body and after bytes behind it."""
    place = 1 + 6 * len(entries)
    directory, bodies = [len(entries)], []
    for i, (kind, reference, body) in enumerate(entries):
        if i == len(entries) - 1:
            bodies += gap * [0]
            place += gap
        directory += [kind, reference, place % 256, place // 256, len(body) % 256, len(body) // 256]
        bodies += body
        place += len(body)
    return bytes(directory + bodies + after * [0])


def golay(q):
    """The binary Golay code of 23 cells and q levels: the column of cell j is the remainder of x^(23-j) by
    x^11 + x^9 + x^7 + x^6 + x^5 + x + 1, and row k has the coefficients of x^(11-k)."""
    remainders = [1]
    for _ in range(22):
        left = 2 * remainders[-1]
        remainders.append(left ^ 0b1010_1110_0011 if left >> 11 else left)
    return [23, 11, q, 2, 1, 3] + [remainders[23 - j] >> (11 - k) & 1 for k in range(1, 12) for j in range(1, 13)]


def risen(row, *cells):
    return [level + (cell in cells) for cell, level in enumerate(row, 1)]


SAMPLES = {
    # document 01's image
    "document": image([(PLAN, 0, R), (ROW, 1, [4, 5, 3, 2, 1])]),
    # the row that reading in a circle turned into another: 0 1 1 1 1 into 7 1 1 1 1; here it is refused 11
    "turned": image([(PLAN, 0, R), (ROW, 1, [0, 1, 1, 1, 1])]),
    # a stack that mends a row (examples i and j), and rows refused 8, 10 and, in plane 0, 11
    "rows": image([
        (PLAN, 0, R),
        (STACK, 0, S),
        (STACK, 0, K),
        (ROW, 1, [4, 5, 3, 2, 1]),
        (ROW, 1, [1, 0, 0, 0, 0]),
        (ROW, 1, [4, 5, 3, 2]),
        (ROW, 1, [8, 0, 0, 0, 0]),
        (ROW, 1, [0, 1, 1, 1, 1]),
        (ROW, 2, [5, 5, 4]),
        (ROW, 2, [0, 1, 7]),
        (ROW, 2, [0, 1, 8]),
        (ROW, 2, []),
        (ROW, 3, [0, 1]),
    ]),
    # the Golay code: rows with no, one, two and three cells risen; a row refused 11, whose cell 12 was read at 0, rows refused 8 and 10;
    # a row of R between; 64 levels; and 7 levels, where the check cells of codewords stay below 6, one risen to 6
    "golay": image([
        (PLAN, 0, golay(8)),
        (ROW, 1, OF_8),
        (ROW, 1, risen(OF_8, 5)),
        (ROW, 1, risen(OF_8, 12, 20)),
        (ROW, 1, risen(OF_8, 1, 14, 23)),
        (ROW, 1, OF_8[:11] + [0] + OF_8[12:]),
        (ROW, 1, OF_8[:22]),
        (ROW, 1, [8] + OF_8[1:]),
        (PLAN, 0, R),
        (ROW, 9, [4, 5, 3, 2, 1]),
        (PLAN, 0, golay(64)),
        (ROW, 11, risen(OF_64, 1, 2, 21)),
        (ROW, 11, risen(OF_64, 6, 7, 8, 9)),
        (PLAN, 0, golay(7)),
        (ROW, 14, risen(OF_7, 2, 16)),
    ]),
    # no row entry, so no line
    "no-rows": image([(PLAN, 0, R), (STACK, 0, S)]),
    # 32 entries, and the longest lines: 31 rows of 64 cells
    "longest-lines": image([(PLAN, 0, [64, 0, 64, 64, 1, 0])] + 31 * [(ROW, 1, 64 * [63])]),
    # 15
    "empty": b"",
    "no-entries": bytes([0]),
    "33-entries": image([(PLAN, 0, R)] + 32 * [(ROW, 1, [])]),
    "cut-short": image([(PLAN, 0, R), (ROW, 1, [4, 5, 3, 2, 1])])[:12],
    "kind-0": image([(PLAN, 0, R), (0, 0, [1])]),
    "kind-4": image([(PLAN, 0, R), (4, 0, [1])]),
    "gap": image([(PLAN, 0, R), (ROW, 1, [4, 5, 3, 2, 1])], gap=1),
    "bytes-after": image([(PLAN, 0, R), (ROW, 1, [4, 5, 3, 2, 1])], after=1),
    "too-long": image([(PLAN, 0, R), (ROW, 1, 65513 * [0])]),
    # 15 comes before 16
    "both-wrong": image([(PLAN, 0, G), (4, 0, [1])]),
    # 16
    "not-accepted": image([(PLAN, 0, G), (ROW, 1, [0, 1])]),
    "empty-plan": image([(PLAN, 0, []), (ROW, 1, [0, 1])]),
    "stack-refused": image([(STACK, 0, S[:-1]), (ROW, 1, [5, 5, 4])]),
    "stack-reference": image([(PLAN, 0, R), (STACK, 1, S), (ROW, 2, [5, 5, 4])]),
    "plan-reference": image([(PLAN, 1, R), (ROW, 1, [4, 5, 3, 2, 1])]),
    "reference-0": image([(PLAN, 0, R), (ROW, 0, [4, 5, 3, 2, 1])]),
    "reference-itself": image([(PLAN, 0, R), (ROW, 2, [4, 5, 3, 2, 1])]),
    "reference-later": image([(ROW, 2, [4, 5, 3, 2, 1]), (PLAN, 0, R)]),
    "reference-row": image([(PLAN, 0, R), (ROW, 1, [4, 5, 3, 2, 1]), (ROW, 2, [4, 5, 3, 2, 1])]),
}

if __name__ == "__main__":
    folder = os.path.dirname(os.path.abspath(__file__))
    for name, data in SAMPLES.items():
        with open(os.path.join(folder, name), "wb") as f:
            f.write(data)
    with open(os.path.join(folder, "..", "crates", "listing_tests", "stdin"), "wb") as f:
        for name, data in SAMPLES.items():
            if len(data) < 65536:
                f.write(bytes([len(name)]) + name.encode() + bytes([len(data) % 256, len(data) // 256]) + data)
