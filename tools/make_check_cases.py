#!/usr/bin/env python3
"""Writes crates/test_checks/data/cases.bin and crates/test_checks/stdout: files for both checks, and the answer due for each.

Run from the repository's root. Every answer here is written out by hand from documents 01 and 02, but those of the small files, which the
judges find; these are held to all the others. No part of the library is run. A case: what it is, the file's bytes, the answer.
"""
import itertools
import os
import sys

import judges
from frames import CLOSE, EXCHANGED, G, OPEN
from usage import answered

GRAMMAR, HISTORY = 0, 1
CASES = []


def judged(kind, file):
    """The answer, by the judges."""
    try:
        if kind == HISTORY:
            return "accepted %d" % len(judges.judge_history(judges.Bytes(file)))
        stages, _, rules = judges.judge_grammar(judges.Bytes(file))
        return "accepted %d %d" % (stages, len(rules))
    except judges.Refused as e:
        return "refused %d" % e.args[0]


def case(kind, label, file, answer):
    if judged(kind, file) != answer:
        sys.exit("make_check_cases: %s: %s, and by the judges %s" % (label, answer, judged(kind, file)))
    CASES.append((kind, label, bytes(file), answer))


def grammar(label, file, answer):
    case(GRAMMAR, "grammar, " + label, file, answer)


def history(label, file, answer):
    case(HISTORY, "history, " + label, file, answer)


# Shorthands for long files.
def marks(n):
    """n form 1 rules, no two equal: names 0 to 63 with L 0, then with L 1, then with L 2."""
    return [byte for k in range(n) for byte in (1, k // 64, k % 64, 0)]


def steps(n, stage=0):
    """n form 2 rules that differ in the close name, then in the open name."""
    return [byte for k in range(n) for byte in (2, stage, k // 64, stage, k % 64, stage)]


def wide_steps(n, stage=0):
    """The same with names from 49,152 to 49,279, of three bytes each: rules of ten bytes, and no rule has more."""
    return [byte for k in range(n) for byte in (2, stage, 128 + k // 64, 128, 3, stage, 128 + k % 64, 128, 3, stage)]


# ---- document 01's own examples
grammar("G", G, "accepted 3 7")
grammar("1 2 0 0 0 0", [1, 2, 0, 0, 0, 0], "refused 8")
grammar("1 0", [1, 0], "refused 4")
grammar("1 1 1 0 0 0", [1, 1, 1, 0, 0, 0], "accepted 1 1")
history("0", [0], "accepted 0")
history("3 1 0 2", [3, 1, 0, 2], "accepted 3")
history("2 1 2", [2, 1, 2], "accepted 2")
history("4 1 2 1 2", [4, 1, 2, 1, 2], "accepted 4")
history("1 0", [1, 0], "accepted 1")
history("1 2", [1, 2], "refused 12")
history("1 1", [1, 1], "refused 13")
history("1 3", [1, 3], "refused 11")
history("128 alone", [128], "refused 1")
history("128 0", [128, 0], "refused 2")
history("1,024 tokens", [128, 8] + [0] * 1024, "accepted 1024")
history("1,025 tokens", [129, 8] + [0] * 1025, "refused 10")
history("128 nested steps", [128, 2] + OPEN * 128 + CLOSE * 128, "accepted 256")
history("129 nested steps", [130, 2] + OPEN * 129 + CLOSE * 129, "refused 14")

# ---- document 02's 2.4: numbers of three bytes, names up to 65,535
grammar("marks 1 and 257", [1, 3, 0, 0, 1, 0, 1, 0, 1, 0, 129, 2, 0], "accepted 1 3")
CLOSES = [2, 0, 192, 184, 2, 0, 255, 255, 3, 0] + [2, 0, 192, 184, 2, 0, 255, 255, 1, 0]
grammar("open 40,000, closes 65,535 and 32,767", [1, 3, 0, 0] + CLOSES, "accepted 1 3")
grammar("128 128 alone", [128, 128], "refused 1")
grammar("128 0 alone", [128, 0], "refused 2")
grammar("128 128 0", [128, 128, 0], "refused 2")
grammar("128 128 128", [128, 128, 128], "refused 2")
history("1 128 128 1", [1, 128, 128, 1], "accepted 1")
history("2 253 255 15 254 255 15", [2, 253, 255, 15, 254, 255, 15], "accepted 2")
history("1 252 255 15", [1, 252, 255, 15], "accepted 1")
history("1 255 255 15", [1, 255, 255, 15], "refused 11")
history("1 128 128 16", [1, 128, 128, 16], "refused 11")
history("open 40,000, close 65,535", [2, 129, 226, 9, 254, 255, 15], "accepted 2")
history("3 129 226 9 172 2 254 255 15", [3, 129, 226, 9, 172, 2, 254, 255, 15], "accepted 3")
history("128 128 1", [128, 128, 1], "refused 10")
history("128 128 alone", [128, 128], "refused 1")
history("128 128 0", [128, 128, 0], "refused 2")
history("128 128 128", [128, 128, 128], "refused 2")

# ---- grammar, 1: the bytes end before a rule that is due; the numbers themselves are below
grammar("ends before the last of 128 rules", [2, 128, 1] + marks(127), "refused 1")

# ---- grammar, 3: stage count not 1 to 32
grammar("1 stage", [1, 1, 0, 0], "accepted 1 1")
grammar("32 stages", [32, 1, 0, 31], "accepted 32 1")
grammar("33 stages", [33, 1, 0, 0], "refused 3")
grammar("127 stages", [127, 1, 0, 0], "refused 3")
grammar("128 stages", [128, 1, 1, 0, 0], "refused 3")
grammar("16,383 stages", [255, 127, 1, 0, 0], "refused 3")
grammar("16,384 stages", [128, 128, 1, 1, 0, 0], "refused 3")
grammar("16,385 stages", [129, 128, 1, 1, 0, 0], "refused 3")
grammar("65,537 stages", [129, 128, 4, 1, 0, 0], "refused 3")
grammar("2,097,151 stages", [255, 255, 127, 1, 0, 0], "refused 3")

# ---- grammar, 4: rule count not 1 to 128
grammar("0 rules", [32, 0], "refused 4")
grammar("1 rule", [2, 1, 0, 1], "accepted 2 1")
grammar("127 rules", [2, 127] + marks(127), "accepted 2 127")
grammar("128 rules", [2, 128, 1] + marks(128), "accepted 2 128")
grammar("128 rules of six bytes", [1, 128, 1] + steps(128), "accepted 1 128")
grammar("129 rules", [3, 129, 1] + marks(129), "refused 4")
grammar("16,383 rules", [3, 255, 127] + marks(128), "refused 4")
grammar("16,384 rules", [1, 128, 128, 1, 0, 0], "refused 4")
grammar("16,385 rules", [1, 129, 128, 1, 0, 0], "refused 4")
grammar("65,537 rules", [1, 129, 128, 4, 0, 0], "refused 4")
grammar("2,097,151 rules", [1, 255, 255, 127, 0, 0], "refused 4")

# ---- grammar, 5: form above 2
grammar("form 0", [3, 1, 0, 2], "accepted 3 1")
grammar("form 1", [3, 1, 1, 2, 5, 1], "accepted 3 1")
grammar("form 2", [3, 1, 2, 2, 5, 1, 6, 0], "accepted 3 1")
grammar("form 3", [1, 1, 3, 0, 0, 0, 0, 0], "refused 5")
grammar("form 4", [1, 1, 4, 0, 0, 0, 0, 0], "refused 5")
grammar("form 127", [1, 1, 127, 0], "refused 5")
grammar("form 128", [1, 1, 128, 1, 0], "refused 5")
grammar("form 256", [1, 1, 128, 2, 0], "refused 5")
grammar("form 16,384", [1, 1, 128, 128, 1, 0], "refused 5")
grammar("form 65,537", [1, 1, 129, 128, 4, 0, 0, 0], "refused 5")
grammar("form 2,097,151", [1, 1, 255, 255, 127, 0], "refused 5")
grammar("form 3 in the second rule", [1, 2, 0, 0, 3, 0], "refused 5")

# ---- grammar, 6: a stage number not below the stage count
grammar("form 0, L 1 of 1", [1, 1, 0, 1], "refused 6")
grammar("form 0, L 2 of 3", [3, 1, 0, 2], "accepted 3 1")
grammar("form 0, L 3 of 3", [3, 1, 0, 3], "refused 6")
grammar("form 0, L 32 of 32", [32, 1, 0, 32], "refused 6")
grammar("form 0, L 128 of 32", [32, 1, 0, 128, 1], "refused 6")
grammar("form 0, L 256 of 32", [32, 1, 0, 128, 2], "refused 6")
grammar("form 0, L 16,384 of 32", [32, 1, 0, 128, 128, 1], "refused 6")
grammar("form 0, L 65,536 of 32", [32, 1, 0, 128, 128, 4], "refused 6")
grammar("form 0, L 2,097,151 of 32", [32, 1, 0, 255, 255, 127], "refused 6")
grammar("form 1, L 16,384 of 32", [32, 1, 1, 128, 128, 1, 0, 0], "refused 6")
grammar("form 1, L1 65,536 of 32", [32, 1, 1, 0, 0, 128, 128, 4], "refused 6")
grammar("form 2, L 16,384 of 32", [32, 1, 2, 128, 128, 1, 0, 0, 0, 0], "refused 6")
grammar("form 2, L1 65,536 of 32", [32, 1, 2, 0, 0, 128, 128, 4, 0, 0], "refused 6")
grammar("form 2, L2 2,097,151 of 32", [32, 1, 2, 0, 0, 0, 0, 255, 255, 127], "refused 6")
grammar("form 1, L 1 of 1", [1, 1, 1, 1, 0, 0], "refused 6")
grammar("form 1, L1 1 of 1", [1, 1, 1, 0, 0, 1], "refused 6")
grammar("form 1, L1 1 of 2", [2, 1, 1, 0, 0, 1], "accepted 2 1")
grammar("form 2, L 1 of 1", [1, 1, 2, 1, 0, 0, 0, 0], "refused 6")
grammar("form 2, L1 1 of 1", [1, 1, 2, 0, 0, 1, 0, 0], "refused 6")
grammar("form 2, L2 1 of 1", [1, 1, 2, 0, 0, 0, 0, 1], "refused 6")
grammar("form 2, L2 2 of 2", [2, 1, 2, 1, 0, 1, 0, 2], "refused 6")
grammar("form 2, L2 1 of 2", [2, 1, 2, 1, 0, 1, 0, 1], "accepted 2 1")

# ---- grammar, 7: a name above 65,535
NAMES = [
    ("0", [0]), ("63", [63]), ("64", [64]), ("127", [127]), ("128", [128, 1]), ("255", [255, 1]), ("256", [128, 2]), ("8,192", [128, 64]),
    ("16,383", [255, 127]), ("16,384", [128, 128, 1]), ("32,768", [128, 128, 2]), ("65,534", [254, 255, 3]), ("65,535", [255, 255, 3]),
]
TOO_LARGE = [
    ("65,536", [128, 128, 4]), ("65,537", [129, 128, 4]), ("65,663", [255, 128, 4]), ("65,664", [128, 129, 4]), ("81,919", [255, 255, 4]),
    ("131,072", [128, 128, 8]), ("262,143", [255, 255, 15]), ("262,144", [128, 128, 16]), ("1,048,576", [128, 128, 64]),
    ("2,097,151", [255, 255, 127]),
]
for names, answer in [(NAMES, "accepted 1 1"), (TOO_LARGE, "refused 7")]:
    for label, name in names:
        grammar("mark name " + label, [1, 1, 1, 0] + name + [0], answer)
        grammar("open name " + label, [1, 1, 2, 0] + name + [0, 0, 0], answer)
        grammar("close name " + label, [1, 1, 2, 0, 0, 0] + name + [0], answer)
grammar("open and close name 65,535", [1, 1, 2, 0, 255, 255, 3, 0, 255, 255, 3, 0], "accepted 1 1")

# ---- grammar, 8: a rule equal in form and all fields to an earlier rule
grammar("form 1 twice", [2, 2, 1, 1, 5, 0, 1, 1, 5, 0], "refused 8")
grammar("form 2 twice", [2, 2, 2, 1, 5, 0, 6, 1, 2, 1, 5, 0, 6, 1], "refused 8")
grammar("the first again after another", [1, 3, 0, 0, 1, 0, 0, 0, 0, 0], "refused 8")
grammar("the second again", [1, 3, 0, 0, 1, 0, 0, 0, 1, 0, 0, 0], "refused 8")
grammar("the first again as the 128th", [2, 128, 1] + marks(127) + marks(1), "refused 8")
grammar("the 127th again as the 128th", [2, 128, 1] + marks(127) + marks(127)[-4:], "refused 8")
grammar("form 0, two stages", [2, 2, 0, 0, 0, 1], "accepted 2 2")
grammar("form 1, only L differs", [2, 2, 1, 0, 5, 0, 1, 1, 5, 0], "accepted 2 2")
grammar("form 1, only c differs", [2, 2, 1, 0, 5, 0, 1, 0, 6, 0], "accepted 2 2")
grammar("form 1, only L1 differs", [2, 2, 1, 0, 5, 0, 1, 0, 5, 1], "accepted 2 2")
grammar("form 2, only L differs", [2, 2, 2, 0, 5, 0, 6, 0, 2, 1, 5, 0, 6, 0], "accepted 2 2")
grammar("form 2, only a differs", [2, 2, 2, 0, 5, 0, 6, 0, 2, 0, 6, 0, 6, 0], "accepted 2 2")
grammar("form 2, only L1 differs", [2, 2, 2, 0, 5, 0, 6, 0, 2, 0, 5, 1, 6, 0], "accepted 2 2")
grammar("form 2, only b differs", [2, 2, 2, 0, 5, 0, 6, 0, 2, 0, 5, 0, 7, 0], "accepted 2 2")
grammar("form 2, only L2 differs", [2, 2, 2, 0, 5, 0, 6, 0, 2, 0, 5, 0, 6, 1], "accepted 2 2")
grammar("three forms, all fields 0", [1, 3, 0, 0, 1, 0, 0, 0, 2, 0, 0, 0, 0, 0], "accepted 1 3")
# names that differ in one bit are two; a name of three bytes is equal to itself
ONE_BIT = [[1 << k] for k in range(7)] + [[128, 1 << k] for k in range(7)] + [[128, 128, 1], [128, 128, 2]]
grammar("form 1, c 0 and each of the 16 bits", [1, 17] + [byte for name in [[0]] + ONE_BIT for byte in [1, 0] + name + [0]], "accepted 1 17")
grammar("form 2, a 0 and each of the 16 bits", [1, 17] + [byte for name in [[0]] + ONE_BIT for byte in [2, 0] + name + [0, 0, 0]], "accepted 1 17")
grammar("form 2, b 0 and each of the 16 bits", [1, 17] + [byte for name in [[0]] + ONE_BIT for byte in [2, 0, 0, 0] + name + [0]], "accepted 1 17")
FULL = [[255, 255, 3]] + [[255 - (1 << k), 255, 3] for k in range(7)] + [[255, 255 - (1 << k), 3] for k in range(7)] + [[255, 255, 2], [255, 255, 1]]
grammar("form 1, c 65,535 and each of the 16 bits off", [1, 17] + [byte for name in FULL for byte in [1, 0] + name + [0]], "accepted 1 17")
grammar("form 2, a 65,535 and each of the 16 bits off", [1, 17] + [byte for name in FULL for byte in [2, 0] + name + [0, 0, 0]], "accepted 1 17")
grammar("form 2, b 65,535 and each of the 16 bits off", [1, 17] + [byte for name in FULL for byte in [2, 0, 0, 0] + name + [0]], "accepted 1 17")
grammar("form 1, only c differs, by 256", [1, 2, 1, 0, 1, 0, 1, 0, 129, 2, 0], "accepted 1 2")
grammar("form 1, only c differs, by 16,384", [1, 2, 1, 0, 1, 0, 1, 0, 129, 128, 1, 0], "accepted 1 2")
grammar("form 2, only a differs, by 256", [1, 2, 2, 0, 1, 0, 0, 0, 2, 0, 129, 2, 0, 0, 0], "accepted 1 2")
grammar("form 2, only a differs, by 16,384", [1, 2, 2, 0, 1, 0, 0, 0, 2, 0, 129, 128, 1, 0, 0, 0], "accepted 1 2")
grammar("form 2, only b differs, by 256", [1, 2, 2, 0, 0, 0, 1, 0, 2, 0, 0, 0, 129, 2, 0], "accepted 1 2")
grammar("form 2, only b differs, by 16,384", [1, 2, 2, 0, 0, 0, 1, 0, 2, 0, 0, 0, 129, 128, 1, 0], "accepted 1 2")
grammar("names 8,192 and 16,384", [1, 2, 1, 0, 128, 64, 0, 1, 0, 128, 128, 1, 0], "accepted 1 2")
grammar("form 1 twice, c 257", [1, 2, 1, 0, 129, 2, 0, 1, 0, 129, 2, 0], "refused 8")
grammar("form 1 twice, c 65,535", [1, 2, 1, 0, 255, 255, 3, 0, 1, 0, 255, 255, 3, 0], "refused 8")
grammar("form 2 twice, a 40,000, b 65,535", [1, 2] + [2, 0, 192, 184, 2, 0, 255, 255, 3, 0] * 2, "refused 8")
grammar("the 127th again as the 128th, names of three bytes", [1, 128, 1] + wide_steps(127) + wide_steps(127)[-10:], "refused 8")

# ---- grammar, 9: bytes follow the last rule
grammar("a byte after the last rule", [1, 1, 0, 0, 0], "refused 9")
grammar("a rule too many", [1, 1, 0, 0, 1, 0, 0, 0], "refused 9")
grammar("128 after the last rule", [1, 1, 0, 0, 128], "refused 9")
grammar("128 128 after the last rule", [1, 1, 0, 0, 128, 128], "refused 9")
grammar("128 128 128 after the last rule", [1, 1, 0, 0, 128, 128, 128], "refused 9")
grammar("a byte after a name of three bytes and L1", [1, 1, 1, 0, 255, 255, 3, 0, 0], "refused 9")
grammar("G and a byte", G + bytes([0]), "refused 9")
grammar("128 rules and a byte", [2, 128, 1] + marks(128) + [255], "refused 9")

# ---- grammar, the order: 1 or 2 before the range, the fields one after another, 8 after the last field, 8 before 9
LARGE = [128, 128, 4]  # the name 65,536
grammar("2 before 3: 0 stages in two bytes", [128, 0, 1, 0, 0], "refused 2")
grammar("2 before 3: 33 stages in two bytes with 0", [161, 0, 1, 0, 0], "refused 2")
grammar("2 before 3: 0 stages in three bytes", [128, 128, 0, 1, 0, 0], "refused 2")
grammar("2 before 3: a stage count of more than three bytes", [161, 128, 128, 1, 1, 0, 0], "refused 2")
grammar("1 before 3", [255], "refused 1")
grammar("1 before 3: behind two bytes", [255, 255], "refused 1")
grammar("2 before 4: 0 rules in two bytes", [1, 128, 0, 0, 0], "refused 2")
grammar("1 before 4", [1, 255], "refused 1")
grammar("2 before 5", [1, 1, 131, 0, 0], "refused 2")
grammar("1 before 5", [1, 1, 255], "refused 1")
grammar("2 before 6", [1, 1, 0, 129, 0], "refused 2")
grammar("1 before 6", [1, 1, 0, 255], "refused 1")
grammar("2 before 7: a last byte of 0", [1, 1, 1, 0, 255, 255, 0, 0], "refused 2")
grammar("2 before 7: a third byte with its top bit set", [1, 1, 1, 0, 128, 128, 132, 0], "refused 2")
grammar("1 before 7", [1, 1, 1, 0, 255, 255], "refused 1")
grammar("3 before 4", [33, 0], "refused 3")
grammar("3 before a missing rule count", [33], "refused 3")
grammar("4 before a missing rule", [1, 129, 1], "refused 4")
grammar("4 before a fault of a rule", [1, 0, 3], "refused 4")
grammar("5 before 6", [1, 1, 3, 1], "refused 5")
grammar("5 before a missing L", [1, 1, 3], "refused 5")
grammar("form 1: 6 of L before 7", [1, 1, 1, 1, *LARGE, 1], "refused 6")
grammar("form 1: 7 before 6 of L1", [1, 1, 1, 0, *LARGE, 1], "refused 7")
grammar("form 1: 7 before a missing L1", [1, 1, 1, 0, *LARGE], "refused 7")
grammar("form 2: 6 of L before 7 of a", [1, 1, 2, 1, *LARGE, 1, *LARGE, 1], "refused 6")
grammar("form 2: 7 of a before 6 of L1", [1, 1, 2, 0, *LARGE, 1, *LARGE, 1], "refused 7")
grammar("form 2: 6 of L1 before 7 of b", [1, 1, 2, 0, 0, 1, *LARGE, 1], "refused 6")
grammar("form 2: 7 of b before 6 of L2", [1, 1, 2, 0, 0, 0, *LARGE, 1], "refused 7")
grammar("form 2: 7 of b before a missing L2", [1, 1, 2, 0, 0, 0, *LARGE], "refused 7")
grammar("1 before 8: equal but for a missing L2", [1, 2, 2, 0, 0, 0, 0, 0, 2, 0, 0, 0, 0], "refused 1")
grammar("2 before 8: equal but for L2 128 0", [1, 2, 2, 0, 0, 0, 0, 0, 2, 0, 0, 0, 0, 128, 0], "refused 2")
grammar("6 before 8: equal but for L2 out of range", [1, 2, 2, 0, 0, 0, 0, 0, 2, 0, 0, 0, 0, 1], "refused 6")
grammar("8 before a fault of a later rule", [1, 3, 0, 0, 0, 0, 3], "refused 8")
grammar("8 before a missing rule", [1, 3, 0, 0, 0, 0], "refused 8")
grammar("a fault of a rule before a later 8", [1, 3, 0, 0, 3, 0, 0, 0], "refused 5")
grammar("8 before 9", [1, 2, 0, 0, 0, 0, 7], "refused 8")
grammar("7 before 9", [1, 1, 1, 0, *LARGE, 0, 7], "refused 7")

# ---- grammar with a start, document 02's 2.3: the 0, stage count (3), start (6), rule count (4)
R = list(G[2:])
grammar("G with its start", [0, 3, 0, 7] + R, "accepted 3 7")
grammar("G with start 1", [0, 3, 1, 7] + R, "accepted 3 7")
grammar("G with start 2", [0, 3, 2, 7] + R, "accepted 3 7")
grammar("G with stages 0 and 1 exchanged", EXCHANGED, "accepted 3 7")
grammar("the same without its start", EXCHANGED[1:2] + EXCHANGED[3:], "accepted 3 7")
grammar("0", [0], "refused 1")
grammar("0 0", [0, 0], "refused 3")
grammar("0 0 0 0", [0, 0, 0, 0], "refused 3")
grammar("0 1", [0, 1], "refused 1")
grammar("0 1 0", [0, 1, 0], "refused 1")
grammar("0 1 0 0", [0, 1, 0, 0], "refused 4")
grammar("0 1 1", [0, 1, 1], "refused 6")
grammar("0 33", [0, 33], "refused 3")
grammar("0 128 0", [0, 128, 0], "refused 2")

# ---- grammar with a start, each number of the head: cut off, in more bytes than it needs, out of range
grammar("0, ends inside the stage count", [0, 131], "refused 1")
grammar("0, ends before the start", [0, 3], "refused 1")
grammar("0, ends inside the start", [0, 3, 129], "refused 1")
grammar("0, ends before the rule count", [0, 3, 1], "refused 1")
grammar("0, ends inside the rule count", [0, 3, 1, 129], "refused 1")
grammar("0, ends before a form", [0, 3, 1, 1], "refused 1")
grammar("the 0 in two bytes", [128, 0, 3, 1, 1, 0, 0], "refused 2")
grammar("the 0 in three bytes", [128, 128, 0, 3, 1, 1, 0, 0], "refused 2")
grammar("the 0 in four bytes", [128, 128, 128, 0, 3, 1, 1, 0, 0], "refused 2")
grammar("49,152 in front", [128, 128, 3, 1, 1, 0, 0], "refused 3")
grammar("0, stage count 3 in two bytes", [0, 131, 0, 1, 1, 0, 0], "refused 2")
grammar("0, stage count 3 in three bytes", [0, 131, 128, 0, 1, 1, 0, 0], "refused 2")
grammar("0, start 0 in two bytes", [0, 3, 128, 0, 1, 0, 0], "refused 2")
grammar("0, start 1 in two bytes", [0, 3, 129, 0, 1, 0, 0], "refused 2")
grammar("0, start 1 in three bytes", [0, 3, 129, 128, 0, 1, 0, 0], "refused 2")
grammar("0, rule count 1 in two bytes", [0, 3, 1, 129, 0, 0, 0], "refused 2")
grammar("0, rule count 1 in three bytes", [0, 3, 1, 129, 128, 0, 0, 0], "refused 2")
grammar("0, 0 stages", [0, 0, 0, 1, 0, 0], "refused 3")
grammar("0, 33 stages", [0, 33, 0, 1, 0, 0], "refused 3")
grammar("0, 127 stages", [0, 127, 0, 1, 0, 0], "refused 3")
grammar("0, 128 stages", [0, 128, 1, 0, 1, 0, 0], "refused 3")
grammar("0, 16,383 stages", [0, 255, 127, 0, 1, 0, 0], "refused 3")
grammar("0, 16,385 stages", [0, 129, 128, 1, 0, 1, 0, 0], "refused 3")
grammar("0, 65,537 stages", [0, 129, 128, 4, 0, 1, 0, 0], "refused 3")
grammar("0, 2,097,151 stages", [0, 255, 255, 127, 0, 1, 0, 0], "refused 3")
grammar("0, start 0 of 1", [0, 1, 0, 1, 0, 0], "accepted 1 1")
grammar("0, start 1 of 1", [0, 1, 1, 1, 0, 0], "refused 6")
grammar("0, start 1 of 2", [0, 2, 1, 1, 0, 0], "accepted 2 1")
grammar("0, start 2 of 2", [0, 2, 2, 1, 0, 0], "refused 6")
grammar("0, start 0 of 32", [0, 32, 0, 1, 0, 31], "accepted 32 1")
grammar("0, start 31 of 32", [0, 32, 31, 1, 0, 0], "accepted 32 1")
grammar("0, start 32 of 32", [0, 32, 32, 1, 0, 0], "refused 6")
grammar("0, start 31 of 31", [0, 31, 31, 1, 0, 0], "refused 6")
grammar("0, start 127 of 32", [0, 32, 127, 1, 0, 0], "refused 6")
grammar("0, start 128 of 32", [0, 32, 128, 1, 1, 0, 0], "refused 6")
grammar("0, start 256 of 32", [0, 32, 128, 2, 1, 0, 0], "refused 6")
grammar("0, start 16,383 of 32", [0, 32, 255, 127, 1, 0, 0], "refused 6")
grammar("0, start 16,384 of 32", [0, 32, 128, 128, 1, 1, 0, 0], "refused 6")
grammar("0, start 65,536 of 32", [0, 32, 128, 128, 4, 1, 0, 0], "refused 6")
grammar("0, start 2,097,151 of 32", [0, 32, 255, 255, 127, 1, 0, 0], "refused 6")
grammar("0, 0 rules", [0, 32, 31, 0, 0, 0], "refused 4")
grammar("0, 129 rules", [0, 3, 2, 129, 1] + marks(129), "refused 4")
grammar("0, 16,383 rules", [0, 3, 2, 255, 127] + marks(1), "refused 4")
grammar("0, 16,385 rules", [0, 3, 2, 129, 128, 1] + marks(1), "refused 4")
grammar("0, 65,537 rules", [0, 3, 2, 129, 128, 4] + marks(1), "refused 4")
grammar("0, 2,097,151 rules", [0, 3, 2, 255, 255, 127] + marks(1), "refused 4")

# ---- grammar with a start, the order: each number judged before the next is read; numbers that are not there or stand in each other's place
grammar("0, 1 before 3", [0, 161], "refused 1")
grammar("0, 2 before 3", [0, 161, 0, 0, 1, 0, 0], "refused 2")
grammar("0, 3 before 6", [0, 33, 33, 1, 0, 0], "refused 3")
grammar("0, 3 before 4: 0 0 0 0 and more", [0, 0, 0, 0, 0, 0], "refused 3")
grammar("0, 3 before a missing start", [0, 127], "refused 3")
grammar("0, 3 before a start in two bytes", [0, 33, 128, 0, 1, 0, 0], "refused 3")
grammar("0, 1 before 6", [0, 1, 255], "refused 1")
grammar("0, 2 before 6", [0, 1, 129, 0, 1, 0, 0], "refused 2")
grammar("0, 6 before a missing rule count", [0, 3, 3], "refused 6")
grammar("0, 6 before a rule count cut off", [0, 3, 3, 128], "refused 6")
grammar("0, 6 before a rule count in two bytes", [0, 3, 3, 128, 0], "refused 6")
grammar("0, 6 before 4", [0, 1, 1, 0], "refused 6")
grammar("0, 6 before a fault of a rule", [0, 1, 1, 1, 3], "refused 6")
grammar("0, 1 before 4", [0, 1, 0, 255], "refused 1")
grammar("0, 2 before 4", [0, 1, 0, 128, 0, 0, 0], "refused 2")
grammar("0, 4 before a missing rule", [0, 1, 0, 129, 1], "refused 4")
grammar("0, 4 before 5", [0, 1, 0, 0, 3], "refused 4")
grammar("0, a rule before 9", [0, 1, 0, 1, 0, 0, 0], "refused 9")
grammar("a 0 before G", bytes([0]) + G, "refused 6")
grammar("a 0 before 8 stages and 7 rules", [0, 8, 7] + R, "refused 4")
grammar("two zeros before G with its start", [0, 0, 3, 0, 7] + R, "refused 3")
grammar("start before stage count", [0, 1, 3, 7] + R, "refused 6")
grammar("rule count before start", [0, 3, 7, 1] + R, "refused 6")

# ---- the longest files
grammar("128 rules of ten bytes, 1,283 bytes", [1, 128, 1] + wide_steps(128), "accepted 1 128")
grammar("0, 128 rules of six bytes", [0, 1, 0, 128, 1] + steps(128), "accepted 1 128")
grammar("0, 1,285 bytes, the last stage the start", [0, 32, 31, 128, 1] + wide_steps(128, 31), "accepted 32 128")
grammar("0, 1,285 bytes and a byte", [0, 32, 31, 128, 1] + wide_steps(128, 31) + [0], "refused 9")
grammar("0, 1,285 bytes but the last", [0, 32, 31, 128, 1] + wide_steps(128, 31)[:-1], "refused 1")
grammar("0, 1,285 bytes, the last name 65,664", [0, 32, 31, 128, 1] + wide_steps(128, 31)[:-4] + [128, 129, 4, 31], "refused 7")


# ---- grammars of both beginnings
def others(kind, files):
    """Those that are no case yet, each as its label, its bytes and its answer."""
    there = {file for other, _, file, _ in CASES if other == kind}
    return [(label, file, answer) for label, file, answer in files if bytes(file) not in there]


def with_starts():
    """Every file above whose stage count passes, with its last stage as start: the answer stays."""
    for kind, label, file, answer in CASES:
        if kind == GRAMMAR and file[:1] and 1 <= file[0] <= 32:
            yield "start %d, %s" % (file[0] - 1, label[len("grammar, "):]), bytes([0, file[0], file[0] - 1]) + file[1:], answer


def small_files(kind):
    """Every file of up to four bytes that are 0, 1, 2 or 128; and for a grammar of five or six, a 0 and then 0, 1 or 2."""
    files = [file for n in range(1, 5) for file in itertools.product([0, 1, 2, 128], repeat=n)]
    if kind == GRAMMAR:
        files += [(0,) + rest for n in (4, 5) for rest in itertools.product([0, 1, 2], repeat=n)]
    for file in files:
        yield "bytes " + " ".join(map(str, file)), file, judged(kind, file)


for more in (with_starts(), small_files(GRAMMAR)):
    for label, file, answer in others(GRAMMAR, more):
        grammar(label, file, answer)

# ---- 1 and 2: every way in which a number can be wrong, at each place where one is due
# A number that the file's end cuts off.
CUT_OFF = [[], [128], [255], [128, 128], [255, 128], [128, 255], [255, 255]]
# A number in more bytes than it needs, its last one 0; and one whose third byte has its top bit set. Whatever follows is not looked at.
LAST_0 = [[128, 0], [129, 0], [255, 0], [128, 128, 0], [129, 128, 0], [128, 129, 0], [255, 255, 0]]
TOP_BIT = [[128, 128, 128], [128, 128, 129], [129, 129, 255], [255, 255, 255]]

# Each place of a file: which number it is, what stands before it, and what stands behind it where the number is whole.
GRAMMAR_PLACES = [
    ("stage count", [], [1, 0, 0]),
    ("rule count", [1], [0, 0]),
    ("form", [1, 1], [0, 0]),
    ("form 0, L", [1, 1, 0], []),
    ("form 1, L", [1, 1, 1], [0, 0]),
    ("form 1, c", [1, 1, 1, 0], [0]),
    ("form 1, L1", [1, 1, 1, 0, 0], []),
    ("form 2, L", [1, 1, 2], [0, 0, 0, 0]),
    ("form 2, a", [1, 1, 2, 0], [0, 0, 0]),
    ("form 2, L1", [1, 1, 2, 0, 0], [0, 0]),
    ("form 2, b", [1, 1, 2, 0, 0, 0], [0]),
    ("form 2, L2", [1, 1, 2, 0, 0, 0, 0], []),
    ("the second form", [1, 2, 0, 0], [0, 0]),
    ("the second c, behind one of three bytes", [1, 2, 1, 0, 128, 128, 1, 0, 1, 0], [0]),
    ("0, stage count", [0], [0, 1, 0, 0]),
    ("0, start", [0, 1], [1, 0, 0]),
    ("0, rule count", [0, 1, 0], [0, 0]),
    ("0, form", [0, 1, 0, 1], [0, 0]),
    ("0, form 1, c", [0, 1, 0, 1, 1, 0], [0]),
    ("0, form 2, b", [0, 1, 0, 1, 2, 0, 0, 0], [0]),
]
HISTORY_PLACES = [
    ("count", [], [0, 0]),
    ("token", [1], []),
    ("the second token", [2, 0], []),
    ("a token in a step", [3, 1], [2]),
    ("a token behind one of three bytes", [2, 128, 128, 1], []),
]


def wrong_numbers(put, places):
    for place, before, behind in places:
        for number in CUT_OFF:
            ends = "ends inside it, behind " + " ".join(map(str, number)) if number else "ends before it"
            put("%s: %s" % (place, ends), before + number, "refused 1")
        for number in LAST_0 + TOP_BIT:
            put("%s: %s" % (place, " ".join(map(str, number))), before + number + behind, "refused 2")
        for number in [[128, 0], [128, 128, 0], [128, 128, 128]]:
            if behind:
                put("%s: %s and no more" % (place, " ".join(map(str, number))), before + number, "refused 2")


wrong_numbers(grammar, GRAMMAR_PLACES)
wrong_numbers(history, HISTORY_PLACES)

# ---- history, 1: the bytes end
history("ends before the last of 1,024 tokens", [128, 8] + [0] * 1023, "refused 1")
history("ends inside the last of 1,024 tokens", [128, 8] + [0] * 1023 + [128, 128], "refused 1")

# ---- history, 10: token count above 1,024
history("128 tokens", [128, 1] + [0] * 128, "accepted 128")
history("1,023 tokens", [255, 7] + [0] * 1023, "accepted 1023")
history("1,024 tokens of two bytes each", [128, 8] + [252, 1] * 1024, "accepted 1024")
history("1,024 tokens of three bytes each", [128, 8] + [252, 255, 15] * 1024, "accepted 1024")
history("1,026 tokens", [130, 8] + [0] * 1026, "refused 10")
history("16,383 tokens", [255, 127], "refused 10")
history("16,385 tokens", [129, 128, 1, 0], "refused 10")
history("65,537 tokens", [129, 128, 4, 0], "refused 10")
history("2,097,151 tokens", [255, 255, 127], "refused 10")

# ---- history, 11: a token number with a name above 65,535, or one that leaves 3 when divided by 4
MARKS = [
    ("name 31 (124)", [124]), ("name 32 (128)", [128, 1]), ("name 63 (252)", [252, 1]), ("name 64 (256)", [128, 2]), ("name 255 (1,020)", [252, 7]),
    ("name 256 (1,024)", [128, 8]), ("name 4,095 (16,380)", [252, 127]), ("name 4,096 (16,384)", [128, 128, 1]),
    ("name 16,383 (65,532)", [252, 255, 3]), ("name 16,384 (65,536)", [128, 128, 4]), ("name 32,768 (131,072)", [128, 128, 8]), ("name 65,535 (262,140)", [252, 255, 15]),
]
for label, token in MARKS:
    # the token above it is the open of the same name, the one above that the close
    open_name, close_name = ([token[0] + kind] + token[1:] for kind in (1, 2))
    history("mark " + label, [1] + token, "accepted 1")
    history("open and close, mark " + label, [2] + open_name + close_name, "accepted 2")
    history("open alone, mark " + label, [1] + open_name, "refused 13")
    history("close alone, mark " + label, [1] + close_name, "refused 12")
    history("kind 3, mark " + label, [1] + [token[0] + 3] + token[1:], "refused 11")
for label, token in [
    ("262,144", [128, 128, 16]), ("262,145", [129, 128, 16]), ("262,146", [130, 128, 16]), ("262,147", [131, 128, 16]), ("262,272", [128, 129, 16]),
    ("278,528", [128, 128, 17]), ("524,288", [128, 128, 32]), ("1,048,576", [128, 128, 64]), ("2,097,148", [252, 255, 127]),
    ("2,097,151", [255, 255, 127]),
]:
    history("token " + label, [1] + token, "refused 11")
    history("in a step, token " + label, [3, 1] + token + [2], "refused 11")
history("token 7", [1, 7], "refused 11")
history("token 127", [1, 127], "refused 11")
history("token 16,383", [1, 255, 127], "refused 11")
history("token 65,535", [1, 255, 255, 3], "refused 11")
history("token 262,139", [1, 251, 255, 15], "refused 11")
history("kind 3 inside a step", [3, 1, 3, 2], "refused 11")
history("kind 3 of three bytes inside a step", [3, 1, 131, 128, 1, 2], "refused 11")

# ---- history, 12: a close with no step open
history("a close after a step", [3, 1, 2, 2], "refused 12")
history("a close after a mark", [2, 0, 2], "refused 12")
history("close name 63 first (254)", [1, 254, 1], "refused 12")
history("close name 65,535 after a step", [3, 1, 2, 254, 255, 15], "refused 12")
history("a close of another name", [2, 1, 6], "accepted 2")

# ---- history, 13: a step still open after the last token
history("two steps left open", [2, 1, 1], "refused 13")
history("one of two steps left open", [3, 1, 1, 2], "refused 13")
history("a step open after a mark", [3, 0, 1, 0], "refused 13")
history("a step of name 65,535 open after a mark", [3, 0, 253, 255, 15, 128, 128, 1], "refused 13")
history("128 steps left open", [128, 1] + OPEN * 128, "refused 13")

# ---- history, 14: an open while 128 steps are open
history("129 opens", [129, 1] + OPEN * 129, "refused 14")
history("128 nested steps of name 65,535", [128, 2] + [253, 255, 15] * 128 + [254, 255, 15] * 128, "accepted 256")
history("129 opens of name 65,535", [129, 1] + [253, 255, 15] * 129, "refused 14")
history("128 open, one closed, one opened", [130, 2] + OPEN * 128 + CLOSE + OPEN + CLOSE * 128, "accepted 258")
history("a mark while 128 are open", [129, 2] + OPEN * 128 + [0] + CLOSE * 128, "accepted 257")
history("512 steps one after another", [128, 8] + (OPEN + CLOSE) * 512, "accepted 1024")

# ---- history, 9: bytes follow the last token
history("a byte after no token", [0, 0], "refused 9")
history("128 after no token", [0, 128], "refused 9")
history("a byte after a token", [1, 0, 0], "refused 9")
history("3 1 0 2 and a byte", [3, 1, 0, 2, 0], "refused 9")
history("1,024 tokens and a byte", [128, 8] + [0] * 1025, "refused 9")
history("3,074 bytes and a byte", [128, 8] + [252, 255, 15] * 1024 + [0], "refused 9")
history("3,074 bytes but the last", [128, 8] + [252, 255, 15] * 1023 + [252, 255], "refused 1")
history("128 128 128 after a token of three bytes", [1, 128, 128, 1, 128, 128, 128], "refused 9")

# ---- history, the order: 1 or 2 before the range, 12 and 14 at the token, 13 before 9
history("1 before 10", [129], "refused 1")
history("1 before 10: behind two bytes", [129, 136], "refused 1")
history("2 before 10", [255, 128, 0], "refused 2")
history("2 before 10: a third byte with its top bit set", [129, 136, 128], "refused 2")
history("10 before a missing token", [129, 8], "refused 10")
history("10 before a fault of a token", [129, 8, 3], "refused 10")
history("1 before 11", [1, 131], "refused 1")
history("1 before 11: behind two bytes", [1, 131, 255], "refused 1")
history("2 before 11", [1, 131, 0], "refused 2")
history("2 before 11: a last byte of 0", [1, 131, 128, 0], "refused 2")
history("2 before 11: a third byte with its top bit set", [1, 128, 128, 144], "refused 2")
history("2 before 12", [1, 130, 0], "refused 2")
history("2 before 12: a last byte of 0", [1, 130, 128, 0], "refused 2")
history("11 before 12 at one token", [1, 130, 128, 16], "refused 11")
history("11 before 14 at one token", [129, 1] + OPEN * 128 + [129, 128, 16], "refused 11")
history("12 before a later 11", [2, 2, 3], "refused 12")
history("11 before a later 12", [2, 3, 2], "refused 11")
history("12 before a missing token", [2, 2], "refused 12")
history("12 before a later 2", [2, 2, 128, 0], "refused 12")
history("12 before a later open", [2, 2, 1], "refused 12")
history("12 before 9", [1, 2, 0], "refused 12")
history("14 before a missing token", [130, 1] + OPEN * 129, "refused 14")
history("14 before a later 11", [130, 1] + OPEN * 129 + [3], "refused 14")
history("14 before 13 and 9", [129, 1] + OPEN * 129 + [0], "refused 14")
history("1 before 13", [2, 1], "refused 1")
history("2 before 13", [2, 1, 128, 0], "refused 2")
history("11 before 13", [2, 1, 3], "refused 11")
history("11 before 9", [1, 3, 0], "refused 11")
history("13 before 9", [1, 1, 0], "refused 13")
history("13 before 9: the close stands after the last token", [1, 1, 2], "refused 13")

# ---- small histories
for label, file, answer in others(HISTORY, small_files(HISTORY)):
    history(label, file, answer)


def main():
    answered(__doc__, sys.argv[1:], not sys.argv[1:])
    labels = [label for _, label, _, _ in CASES]
    assert len(labels) == len(set(labels)), "a label stands twice"
    assert all(len(label) < 256 and len(file) <= 4096 for _, label, file, _ in CASES)
    here = os.path.join("crates", "test_checks")
    os.makedirs(os.path.join(here, "data"), exist_ok=True)
    with open(os.path.join(here, "data", "cases.bin"), "wb") as packed:
        for kind, label, file, _ in CASES:
            packed.write(bytes([kind, len(label), len(file) % 256, len(file) // 256]) + label.encode("ascii") + file)
    with open(os.path.join(here, "stdout"), "w", encoding="ascii") as lines:
        for _, label, _, answer in CASES:
            lines.write(label + ": " + answer + "\n")
    print(len(CASES), "cases")


main()
