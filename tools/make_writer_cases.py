#!/usr/bin/env python3
"""Writes crates/test_writers/data/cases.bin and crates/test_writers/stdout: elements and a buffer for a writer, and what is due of it.

Run from the repository's root, when the cases change. The answers to the examples, limits, orders and large elements are written out
by hand; the others are found by the judges of judges.py, which are held to the former, and to frames.py where three bytes can hold every
element. No part of the library is run. A case: which file, what it is, the elements, the buffer's bytes before the call, the number of
the refusal or 0, the file's length or 0, the buffer's bytes after the call.
"""
import random
import sys

import frames
import judges
from case_files import write_cases
from frames import CLOSE, EXCHANGED, G, MARK, MOST, OPEN
from usage import answered

GRAMMAR, HISTORY = 0, 1
KINDS = ["grammar", "history"]
WRITTEN = 0
CASES = []

# What each of the two writers can answer: a file is written, or the number of a refusal. 2 is never given.
NUMBERS = [{WRITTEN, 1, 3, 4, 5, 6, 7, 8, 9, 15}, {WRITTEN, 1, 9, 10, 11, 12, 13, 14, 15}]

# Numbers on both sides of every limit: of two bytes, of a name, of a token, of three bytes, and of an element.
LARGE = [16383, 16384, 65535, 65536, 262142, 262143, 262144, 2097151, 2097152, 1 << 31, (1 << 32) - 1]

# The bytes of those that a file can hold, and of some others, by hand.
BYTES = {
    0: [0], 31: [31], 32: [32], 63: [63], 64: [64], 127: [127], 128: [128, 1], 255: [255, 1], 256: [128, 2], 8192: [128, 64], 16383: [255, 127],
    16384: [128, 128, 1], 16385: [129, 128, 1], 32767: [255, 255, 1], 32768: [128, 128, 2], 40000: [192, 184, 2], 65279: [255, 253, 3],
    65534: [254, 255, 3], 65535: [255, 255, 3], 65536: [128, 128, 4], 262142: [254, 255, 15],
}


# ---- what is due, by the judges
def numbers_due(which, elements):
    """The numbers of the file to be written. A grammar's file says its start, also where its elements don't."""
    if which == HISTORY:
        tokens = judges.judge_history(judges.Elements(elements))
        return [len(tokens)] + tokens
    stages, start, rules = judges.judge_grammar(judges.Elements(elements))
    return [0, stages, start, len(rules)] + [n for rule in rules for n in rule]


def number_bytes(n):
    """Groups of seven bits, lowest first; each byte but the last has its top bit set."""
    groups = [n % 128]
    while n >= 128:
        n //= 128
        groups.append(n % 128)
    return bytes([group + 128 for group in groups[:-1]] + groups[-1:])


def judged(which, elements, before):
    """The number of the refusal, the length, the buffer afterwards."""
    try:
        file = b"".join(map(number_bytes, numbers_due(which, elements)))
    except judges.Refused as e:
        return e.args[0], 0, before
    if len(before) < len(file):
        return 15, 0, before
    return WRITTEN, len(file), file + before[len(file):]


# ---- the same by frames.py, which has a writer of its own and a reader of bytes
def read(which, elements, before):
    file = frames.numbers_bytes(elements)
    try:
        if which == GRAMMAR:
            grammar = frames.read_grammar(file)
            file = frames.grammar_bytes(grammar.stages, grammar.rules, grammar.start)
        else:
            frames.read_history(file)
    except frames.Refused as e:
        return e.number, 0, before
    return (WRITTEN, len(file), file + before[len(file):]) if len(file) <= len(before) else (15, 0, before)


def hold_to_reader(which, label, elements, before, due):
    """A writer turns down what the reader would. Three bytes have to hold every element, so that there is a file to read."""
    if max(elements, default=0) <= MOST and read(which, elements, before) != due:
        sys.exit("make_writer_cases: %s: %s, and by the reader %s" % (label, due, read(which, elements, before)))


# ---- putting a case down
def plain(size, byte=170):
    return bytes([byte] * size)


def mixed(size):
    """No byte is like its neighbours."""
    return bytes((37 * i + 11) % 256 for i in range(size))


def size_of(n):
    """How many bytes an element takes; three where it is too large for any."""
    return 1 if n < 128 else 2 if n < 16384 else 3


def room(elements):
    """As many bytes as the elements take; or some more than any file has."""
    return min(sum(map(size_of, elements)), 3084)


def case(which, label, elements, before):
    label = KINDS[which] + ", " + label
    due = judged(which, elements, before)
    hold_to_reader(which, label, elements, before, due)
    CASES.append((which, label, list(elements), before) + due)


def by_hand(which, label, elements, before, answer):
    """answer: the bytes that are written; or the number of the refusal."""
    if isinstance(answer, int):
        due = answer, 0, before
    else:
        due = WRITTEN, len(answer), bytes(answer) + before[len(answer):]
    case(which, label, elements, before)
    if CASES[-1][4:] != due:
        sys.exit("make_writer_cases: %s: %s, not %s" % (label, CASES[-1][4:], due))


def refused(which, label, elements, number):
    """With room for all and some to spare, and with no buffer: the file's own number comes before 15."""
    by_hand(which, label, elements, plain(room(elements) + 3), number)
    by_hand(which, label, elements, b"", number)


def written(which, label, elements, file):
    """As many bytes as it takes, some more, and one too few."""
    by_hand(which, label, elements, plain(len(file)), file)
    by_hand(which, label, elements, mixed(len(file) + 5), file)
    by_hand(which, label, elements, plain(len(file) - 1), 15)


def last_start(elements):
    """The numbers of a grammar that doesn't say its start, with its last stage as start."""
    return [0, elements[0], elements[0] - 1] + elements[1:]


def rules_refused(label, elements, number):
    """A grammar with a fault behind its stage count: with a start it has the same."""
    refused(GRAMMAR, label, elements, number)
    by_hand(GRAMMAR, "start, " + label, last_start(elements), plain(room(elements) + 3), number)


def rules_written(label, elements):
    """A grammar of numbers below 128. One that doesn't say its start gets a 0 in front and a 0 behind the stage count, and takes two bytes
    more than it has numbers; one that says it is written as it is."""
    file = [0, elements[0], 0] + elements[1:]
    written(GRAMMAR, label, elements, file)
    by_hand(GRAMMAR, label, elements, plain(len(elements)), 15)
    by_hand(GRAMMAR, "start, " + label, last_start(elements), mixed(len(file) + 1), last_start(elements))
    by_hand(GRAMMAR, "start, " + label, last_start(elements), plain(len(file) - 1), 15)


def lengths(which, label, elements, sizes):
    """Buffers of several lengths, for elements that pass."""
    for size in sizes:
        case(which, label, elements, plain(size) if size % 2 else mixed(size))


# ---- shorthands for long files
def marks(n):
    """n form 1 rules, no two equal: names 0 to 63 with L 0, then with L 1, then with L 2."""
    return [number for k in range(n) for number in (1, k // 64, k % 64, 0)]


def steps(n, stage=0):
    """n form 2 rules that differ in the close name, then in the open name."""
    return [number for k in range(n) for number in (2, stage, k // 64, stage, k % 64, stage)]


def wide_steps(n, stage=0):
    """The same with names from 49,152 on, of three bytes each."""
    return [number for k in range(n) for number in (2, stage, 49152 + k // 64, stage, 49152 + k % 64, stage)]


def wide_step_bytes(n, stage=0):
    """The ten bytes of each of these rules."""
    return [byte for k in range(n) for byte in (2, stage, 128 + k // 64, 128, 3, stage, 128 + k % 64, 128, 3, stage)]


# ---- the examples
def examples():
    g, rules = list(G), list(G[2:])
    longer = [0, 3, 0, 7] + rules
    by_hand(GRAMMAR, "G", g, plain(30), longer)
    by_hand(GRAMMAR, "G", g, plain(29), 15)
    by_hand(GRAMMAR, "G", g, plain(28), 15)
    by_hand(GRAMMAR, "G, written again", longer, plain(30), longer)
    by_hand(GRAMMAR, "G, written again", longer, plain(29), 15)
    by_hand(GRAMMAR, "0 3 1 7 and G's rules", [0, 3, 1, 7] + rules, plain(30), [0, 3, 1, 7] + rules)
    exchanged = list(EXCHANGED)
    by_hand(GRAMMAR, "G with stages 0 and 1 exchanged", exchanged, plain(30), exchanged)
    by_hand(GRAMMAR, "the same without its start", [3] + exchanged[3:], plain(30), [0, 3, 0] + exchanged[3:])
    by_hand(GRAMMAR, "G without its last number", g[:27], plain(30), 1)
    by_hand(GRAMMAR, "G with a 5 behind", g + [5], plain(31), 9)
    by_hand(GRAMMAR, "1 1 1 0 70000 0", [1, 1, 1, 0, 70000, 0], plain(12), 7)
    by_hand(GRAMMAR, "4294967295", [4294967295], plain(12), 3)
    by_hand(GRAMMAR, "1 128 0 0 0 0", [1, 128, 0, 0, 0, 0], plain(12), 8)
    by_hand(GRAMMAR, "no element", [], plain(4), 1)
    by_hand(GRAMMAR, "no element", [], b"", 1)
    by_hand(HISTORY, "2 161 134", [2, 161, 134], plain(5), [2, 161, 1, 134, 1])
    by_hand(HISTORY, "2 161 134", [2, 161, 134], plain(8), [2, 161, 1, 134, 1])
    by_hand(HISTORY, "2 161 134", [2, 161, 134], plain(4), 15)
    by_hand(HISTORY, "2 1 1 0", [2, 1, 1, 0], plain(8), 13)
    by_hand(HISTORY, "1 0 0", [1, 0, 0], plain(6), 9)
    by_hand(HISTORY, "0", [0], b"", 15)
    by_hand(HISTORY, "0", [0], plain(1), [0])
    by_hand(HISTORY, "no element", [], plain(4), 1)
    by_hand(HISTORY, "no element", [], b"", 1)


def wide_examples():
    """Names and tokens of three bytes."""
    by_hand(GRAMMAR, "1 1 1 0 65535 0", [1, 1, 1, 0, 65535, 0], plain(12), [0, 1, 0, 1, 1, 0, 255, 255, 3, 0])
    by_hand(GRAMMAR, "1 1 1 0 65536 0", [1, 1, 1, 0, 65536, 0], plain(12), 7)
    by_hand(GRAMMAR, "marks 1 and 257", [1, 3, 0, 0, 1, 0, 1, 0, 1, 0, 257, 0], plain(15), [0, 1, 0, 3, 0, 0, 1, 0, 1, 0, 1, 0, 129, 2, 0])
    two_closes = [0, 0, 2, 0, 40000, 0, 65535, 0, 2, 0, 40000, 0, 32767, 0]
    two_closes_bytes = [0, 1, 0, 3, 0, 0, 2, 0, 192, 184, 2, 0, 255, 255, 3, 0, 2, 0, 192, 184, 2, 0, 255, 255, 1, 0]
    by_hand(GRAMMAR, "open 40,000, closes 65,535 and 32,767", [1, 3] + two_closes, plain(26), two_closes_bytes)
    by_hand(GRAMMAR, "open 40,000, closes 65,535 and 32,767", [1, 3] + two_closes, plain(25), 15)
    by_hand(HISTORY, "1 16384", [1, 16384], plain(6), [1, 128, 128, 1])
    by_hand(HISTORY, "1 16384", [1, 16384], plain(3), 15)
    by_hand(HISTORY, "1 262143", [1, 262143], plain(6), 11)
    by_hand(HISTORY, "1 262144", [1, 262144], plain(6), 11)
    by_hand(HISTORY, "1 262140", [1, 262140], plain(4), [1, 252, 255, 15])
    by_hand(HISTORY, "2 262141 262142", [2, 262141, 262142], plain(7), [2, 253, 255, 15, 254, 255, 15])
    by_hand(HISTORY, "2 262141 262142", [2, 262141, 262142], plain(6), 15)
    by_hand(HISTORY, "3 160001 300 262142", [3, 160001, 300, 262142], plain(9), [3, 129, 226, 9, 172, 2, 254, 255, 15])
    by_hand(HISTORY, "16384", [16384], plain(6), 10)


# ---- a grammar's numbers
def too_few_or_too_many_rules():
    one_of_each = [3, 3, 0, 2, 1, 1, 5, 0, 2, 0, 6, 1, 7, 2]
    for elements in (one_of_each, last_start(one_of_each)):
        for end in range(1, len(elements)):
            refused(GRAMMAR, "one rule of each form, %d of %d elements" % (end, len(elements)), elements[:end], 1)
    refused(GRAMMAR, "the last of 128 rules is not there", [2, 128] + marks(127), 1)
    refused(GRAMMAR, "the last number of 128 rules is not there", [0, 2, 1, 128] + marks(128)[:-1], 1)
    rules_refused("an element behind one rule", [1, 1, 0, 0, 0], 9)
    rules_refused("a rule behind one rule", [1, 1, 0, 0, 1, 0, 0, 0], 9)
    for n in LARGE:
        rules_refused("%d behind the last rule" % n, one_of_each + [n], 9)


def grammar_heads():
    """A 0 in front: then stage count, start and rule count, each judged before the next is read."""
    for elements, number in [([0], 1), ([0, 0], 3), ([0, 0, 0, 0], 3), ([0, 1, 1], 6), ([0, 1], 1), ([0, 33], 3), ([0, 1, 0, 0], 4), ([0, 1, 0], 1)]:
        refused(GRAMMAR, " ".join(map(str, elements)), elements, number)
    for stages in (0, 33, 127, 128, 129, 256, 257, 288):
        refused(GRAMMAR, "a 0, %d stages" % stages, [0, stages, 0, 1, 0, 0], 3)
    for stages in (1, 2, 3, 31, 32):
        for start in sorted({0, 1, stages - 2, stages - 1} & set(range(stages))):
            written(GRAMMAR, "start %d of %d" % (start, stages), [0, stages, start, 1, 0, 0], [0, stages, start, 1, 0, 0])
        for start in (stages, stages + 1, 63, 127, 128, 256, 16384):
            refused(GRAMMAR, "start %d of %d" % (start, stages), [0, stages, start, 1, 0, 0], 6)
    refused(GRAMMAR, "3 before 6", [0, 33, 33, 1, 0, 0], 3)
    refused(GRAMMAR, "3 before a large start", [0, 0, 65536], 3)
    refused(GRAMMAR, "6 before a missing rule count", [0, 3, 3], 6)
    refused(GRAMMAR, "6 before 4", [0, 3, 3, 0], 6)
    refused(GRAMMAR, "6 before a large rule count", [0, 3, 3, 65536], 6)
    refused(GRAMMAR, "a 0 before G", [0] + list(G), 6)
    refused(GRAMMAR, "two zeros before 3 1 7 and G's rules", [0, 0, 3, 1] + list(G[1:]), 3)
    refused(GRAMMAR, "start before stage count", [0, 1, 3] + list(G[1:]), 6)
    refused(GRAMMAR, "rule count before start", [0, 3, 7, 1] + list(G[2:]), 6)


def grammar_limits():
    rules_written("1 stage", [1, 1, 0, 0])
    rules_written("32 stages", [32, 1, 0, 31])
    for stages in (33, 127, 128, 129, 256, 257):
        refused(GRAMMAR, "%d stages" % stages, [stages, 1, 0, 0], 3)
    written(GRAMMAR, "127 rules", [2, 127] + marks(127), [0, 2, 0, 127] + marks(127))
    written(GRAMMAR, "128 rules", [2, 128] + marks(128), [0, 2, 0, 128, 1] + marks(128))
    by_hand(GRAMMAR, "start, 128 rules", [0, 2, 1, 128] + marks(128), plain(517), [0, 2, 1, 128, 1] + marks(128))
    refused(GRAMMAR, "129 rules, all there", [3, 129] + marks(129), 4)
    for rules in (0, 129, 130, 255, 256, 257, 384):
        rules_refused("%d rules" % rules, [3, rules] + marks(1), 4)
    rules_written("form 0", [3, 1, 0, 2])
    rules_written("form 1", [3, 1, 1, 2, 5, 1])
    rules_written("form 2", [3, 1, 2, 2, 5, 1, 6, 0])
    for form in (3, 4, 127, 128, 130, 256, 258):
        rules_refused("form %d" % form, [1, 1, form, 0, 0, 0, 0, 0], 5)
    rules_written("names 63", [1, 2, 1, 0, 63, 0, 2, 0, 63, 0, 63, 0])
    for name in (65536, 65537, 65663, 65792, 70000, 81920, 131071, 262144):
        rules_refused("mark name %d" % name, [1, 1, 1, 0, name, 0], 7)
        rules_refused("open name %d" % name, [1, 1, 2, 0, name, 0, 0, 0], 7)
        rules_refused("close name %d" % name, [1, 1, 2, 0, 0, 0, name, 0], 7)


def names():
    """Names of one, two and three bytes, in each place of a rule that has one."""
    for name in [name for name in BYTES if name < 65536]:
        head, n = [0, 1, 0, 1], BYTES[name]
        written(GRAMMAR, "mark name %d" % name, [1, 1, 1, 0, name, 0], head + [1, 0] + n + [0])
        written(GRAMMAR, "open name %d" % name, [1, 1, 2, 0, name, 0, 5, 0], head + [2, 0] + n + [0, 5, 0])
        written(GRAMMAR, "close name %d" % name, [1, 1, 2, 0, 5, 0, name, 0], head + [2, 0, 5, 0] + n + [0])
    sizes = [63, 300, 40000]
    for a in sizes:
        for b in sizes:
            rule = {63: [63], 300: [172, 2], 40000: [192, 184, 2]}
            written(GRAMMAR, "names %d and %d" % (a, b), [0, 1, 0, 1, 2, 0, a, 0, b, 0], [0, 1, 0, 1, 2, 0] + rule[a] + [0] + rule[b] + [0])


def stages_of_rules():
    """Each field that is a stage, with the largest one and the one above it."""
    for stages in (1, 3, 32):
        s = stages - 1
        for rule, places in [([0, s], [1]), ([1, s, 0, s], [1, 3]), ([2, s, 0, s, 0, s], [1, 3, 5])]:
            rules_written("form %d, stages %d of %d" % (rule[0], s, stages), [stages, 1] + rule)
            for i in places:
                rules_refused("form %d, field %d is %d of %d" % (rule[0], i, stages, stages), [stages, 1] + rule[:i] + [stages] + rule[i + 1:], 6)


def equal_rules():
    rules_refused("form 0 twice", [1, 2, 0, 0, 0, 0], 8)
    rules_refused("form 1 twice", [2, 2, 1, 1, 5, 0, 1, 1, 5, 0], 8)
    rules_refused("form 2 twice", [2, 2, 2, 1, 5, 0, 6, 1, 2, 1, 5, 0, 6, 1], 8)
    rules_refused("the first again behind another", [1, 3, 0, 0, 1, 0, 0, 0, 0, 0], 8)
    refused(GRAMMAR, "the first again as the 128th", [2, 128] + marks(127) + [1, 0, 0, 0], 8)
    refused(GRAMMAR, "the 127th again as the 128th", [0, 2, 1, 128] + marks(127) + [1, 1, 62, 0], 8)
    for i in range(1, 6):
        rules = [2, 0, 5, 0, 6, 0] * 2
        rules[6 + i] = [0, 1, 7, 1, 7, 1][i]
        rules_written("form 2, only field %d differs" % i, [2, 2] + rules)
    for i in range(1, 4):
        rules = [1, 0, 5, 0] * 2
        rules[4 + i] = [0, 1, 7, 1][i]
        rules_written("form 1, only field %d differs" % i, [2, 2] + rules)
    rules_refused("form 1 twice, c 65535", [1, 2] + [1, 0, 65535, 0] * 2, 8)
    rules_refused("form 2 twice, names of three bytes", [1, 2] + [2, 0, 40000, 0, 65535, 0] * 2, 8)


def names_of_one_bit():
    """0 and the names of one bit, in 17 rules that differ in this alone: no two are equal, and every bit is written."""
    bits = [1 << b for b in range(16)]
    shown = [[n] for n in bits[:7]] + [[128, n] for n in bits[:7]] + [[128, 128, 1], [128, 128, 2]]
    for label, before, behind in [("c", [1, 0], [0]), ("a", [2, 0], [0, 5, 0]), ("b", [2, 0, 5, 0], [0])]:
        elements = [n for name in [0] + bits for n in before + [name] + behind]
        file = [byte for name in [[0]] + shown for byte in before + name + behind]
        written(GRAMMAR, "%s 0 and each of the 16 bits" % label, [0, 1, 0, 17] + elements, [0, 1, 0, 17] + file)
    marks_of_bits = [[4 * n] for n in bits[:5]] + [[128, n] for n in bits[:7]] + [[128, 128, n] for n in bits[:4]]
    written(HISTORY, "marks of one bit", [16] + [4 * n for n in bits], [16] + [byte for mark in marks_of_bits for byte in mark])


def order_in_a_grammar():
    refused(GRAMMAR, "3 before a missing rule count", [33], 3)
    refused(GRAMMAR, "3 before 4", [33, 0], 3)
    refused(GRAMMAR, "3 before a later 9", [33, 1, 0, 0, 0], 3)
    rules_refused("4 before a missing rule", [1, 129], 4)
    rules_refused("4 before 5", [1, 0, 3], 4)
    rules_refused("5 before a missing L", [1, 1, 3], 5)
    rules_refused("5 before 6", [1, 1, 3, 1], 5)
    rules_refused("form 1: 6 of L before 7", [1, 1, 1, 1, 65536, 1], 6)
    rules_refused("form 1: 7 before 6 of L1", [1, 1, 1, 0, 65536, 1], 7)
    rules_refused("form 1: 7 before a missing L1", [1, 1, 1, 0, 65536], 7)
    rules_refused("form 2: 6 of L before 7 of a", [1, 1, 2, 1, 65536, 1, 65536, 1], 6)
    rules_refused("form 2: 7 of a before 6 of L1", [1, 1, 2, 0, 65536, 1, 65536, 1], 7)
    rules_refused("form 2: 6 of L1 before 7 of b", [1, 1, 2, 0, 0, 1, 65536, 1], 6)
    rules_refused("form 2: 7 of b before 6 of L2", [1, 1, 2, 0, 0, 0, 65536, 1], 7)
    rules_refused("6 before a missing field", [1, 1, 2, 1], 6)
    rules_refused("1 before 8: equal but for a missing L2", [1, 2, 2, 0, 0, 0, 0, 0, 2, 0, 0, 0, 0], 1)
    rules_refused("6 before 8: equal but for L2", [1, 2, 2, 0, 0, 0, 0, 0, 2, 0, 0, 0, 0, 1], 6)
    rules_refused("8 before a later 1", [1, 3, 0, 0, 0, 0], 8)
    rules_refused("8 before a later 5", [1, 3, 0, 0, 0, 0, 3], 8)
    rules_refused("8 before a later 7", [1, 3, 0, 0, 0, 0, 1, 0, 70000, 0], 8)
    rules_refused("5 before a later 8", [1, 3, 0, 0, 3, 0, 0, 0], 5)
    rules_refused("8 before a later 9", [1, 2, 0, 0, 0, 0, 7], 8)
    rules_refused("7 before a later 9", [1, 1, 1, 0, 65536, 0, 7], 7)
    rules_refused("7 before a later 1", [1, 2, 1, 0, 65536, 0], 7)
    rules_refused("a large name before a later 9", [1, 1, 1, 0, 4294967295, 0, 7], 7)
    rules_refused("a large stage before a large name", [1, 1, 1, 65536, 65536, 0], 6)


# ---- a history's numbers
def too_few_or_too_many_tokens():
    refused(HISTORY, "one token, none there", [1], 1)
    refused(HISTORY, "two tokens, one there", [2, 0], 1)
    refused(HISTORY, "two tokens of two bytes, one there", [2, 128], 1)
    for count in (127, 128, 129, 1023, 1024):
        refused(HISTORY, "%d tokens, none there" % count, [count], 1)
    refused(HISTORY, "the last of 1,024 tokens is not there", [1024] + MARK * 1023, 1)
    refused(HISTORY, "an element behind no token", [0, 0], 9)
    refused(HISTORY, "an element behind a step", [2, 1, 2, 0], 9)
    refused(HISTORY, "a step behind a step", [2, 1, 2, 1, 2], 9)
    for n in [3, 128, 255, 256] + LARGE:
        refused(HISTORY, "%d behind no token" % n, [0, n], 9)
        refused(HISTORY, "%d behind 128" % n, [1, 128, n], 9)


def history_limits():
    # the count takes two bytes from 128 on
    counts = [[1], [126], [127], [128, 1], [129, 1], [255, 1], [128, 2], [129, 2], [128, 4]]
    for count, first in zip([1, 126, 127, 128, 129, 255, 256, 257, 512], counts):
        written(HISTORY, "%d marks" % count, [count] + MARK * count, first + MARK * count)
    for count in (1025, 1026, 1152, 2048):
        refused(HISTORY, "%d tokens, none there" % count, [count], 10)
    for token in (0, 4, 120, 124):
        written(HISTORY, "mark %d" % token, [1, token], [1, token])
    for token in (128, 132, 188, 192, 248, 252):
        written(HISTORY, "mark %d" % token, [1, token], [1, token, 1])
    wide = [(256, [128, 2]), (1020, [252, 7]), (1024, [128, 8]), (16380, [252, 127]), (16384, [128, 128, 1]), (32768, [128, 128, 2])]
    wide += [(65532, [252, 255, 3]), (65536, [128, 128, 4]), (131072, [128, 128, 8]), (262140, [252, 255, 15])]
    for token, number in wide:
        written(HISTORY, "mark %d" % token, [1, token], [1] + number)
        a, b = [number[0] + 1] + number[1:], [number[0] + 2] + number[1:]
        written(HISTORY, "open %d, close %d" % (token + 1, token + 2), [2, token + 1, token + 2], [2] + a + b)
        refused(HISTORY, "token %d" % (token + 3), [1, token + 3], 11)
    written(HISTORY, "open 125, close 126", [2, 125, 126], [2, 125, 126])
    written(HISTORY, "open 129, close 130", [2, 129, 130], [2, 129, 1, 130, 1])
    written(HISTORY, "open 253, close 254", [2, 253, 254], [2, 253, 1, 254, 1])
    written(HISTORY, "open 1, close 254", [2, 1, 254], [2, 1, 254, 1])
    for token in (3, 7, 123, 127, 131, 191, 195, 255, 262139, 262144, 262145, 262146, 262147, 262400, 327680, 524288):
        refused(HISTORY, "token %d" % token, [1, token], 11)
        refused(HISTORY, "token %d in a step" % token, [3, 1, token, 2], 11)


def history_steps():
    refused(HISTORY, "a close alone", [1, 2], 12)
    refused(HISTORY, "close 254 alone", [1, 254], 12)
    refused(HISTORY, "close 262142 alone", [1, 262142], 12)
    refused(HISTORY, "a close behind a mark", [2, 0, 2], 12)
    refused(HISTORY, "a close behind a step", [3, 1, 2, 2], 12)
    refused(HISTORY, "a close before a step", [3, 2, 1, 2], 12)
    refused(HISTORY, "an open alone", [1, 1], 13)
    refused(HISTORY, "open 253 alone", [1, 253], 13)
    refused(HISTORY, "open 262141 alone", [1, 262141], 13)
    refused(HISTORY, "an open behind a step", [3, 1, 2, 1], 13)
    refused(HISTORY, "one of two steps is open", [3, 1, 1, 2], 13)
    refused(HISTORY, "128 opens", [128] + OPEN * 128, 13)
    refused(HISTORY, "129 opens", [129] + OPEN * 129, 14)
    refused(HISTORY, "129 opens of two bytes", [129] + [253] * 129, 14)
    refused(HISTORY, "129 opens of three bytes", [129] + [262141] * 129, 14)
    refused(HISTORY, "129 nested steps", [258] + OPEN * 129 + CLOSE * 129, 14)
    refused(HISTORY, "a step, then 129 nested ones", [260] + OPEN + CLOSE + OPEN * 129 + CLOSE * 129, 14)
    written(HISTORY, "127 nested steps", [254] + OPEN * 127 + CLOSE * 127, [254, 1] + OPEN * 127 + CLOSE * 127)
    written(HISTORY, "128 nested steps", [256] + OPEN * 128 + CLOSE * 128, [128, 2] + OPEN * 128 + CLOSE * 128)
    written(HISTORY, "a mark while 128 are open", [257] + OPEN * 128 + MARK + CLOSE * 128, [129, 2] + OPEN * 128 + MARK + CLOSE * 128)
    one_closed = OPEN * 128 + CLOSE + OPEN + CLOSE * 128
    written(HISTORY, "128 open, one closed, one opened", [258] + one_closed, [130, 2] + one_closed)


def order_in_a_history():
    refused(HISTORY, "10 before a missing token", [1025], 10)
    refused(HISTORY, "10 before 11", [1025, 3], 10)
    refused(HISTORY, "11 before 12 at one token", [1, 262146], 11)
    refused(HISTORY, "11 before 14 at one token", [129] + OPEN * 128 + [262145], 11)
    refused(HISTORY, "12 before a later 11", [2, 2, 3], 12)
    refused(HISTORY, "11 before a later 12", [2, 3, 2], 11)
    refused(HISTORY, "12 before a missing token", [2, 2], 12)
    refused(HISTORY, "12 before a later open", [2, 2, 1], 12)
    refused(HISTORY, "12 before a later 9", [1, 2, 0], 12)
    refused(HISTORY, "14 before a missing token", [130] + OPEN * 129, 14)
    refused(HISTORY, "14 before a later 11", [130] + OPEN * 129 + [3], 14)
    refused(HISTORY, "14 before 13 and 9", [129] + OPEN * 129 + [0], 14)
    refused(HISTORY, "1 before 13", [2, 1], 1)
    refused(HISTORY, "11 before 13", [2, 1, 3], 11)
    refused(HISTORY, "11 before a later 1", [3, 3], 11)
    refused(HISTORY, "11 before a later 9", [1, 3, 0], 11)
    refused(HISTORY, "a large token before a later 9", [1, 262144, 0], 11)
    refused(HISTORY, "13 before 9", [1, 1, 0], 13)
    refused(HISTORY, "13 before 9: the close is behind the last token", [1, 1, 2], 13)
    refused(HISTORY, "13 before 9: a large element", [1, 1, 4294967295], 13)
    refused(HISTORY, "13 before many", [1, 1] + MARK * 1200, 13)


# ---- large elements, at each place of a file: which number it is, one that is right there, and the refusal of one that isn't
GRAMMAR_PLACES = [
    ("the 0", 0, 3), ("stage count", 4, 3), ("start", 1, 6), ("rule count", 4, 4),
    ("form 0", 0, 5), ("its L", 3, 6),
    ("form 1", 1, 5), ("L before c", 2, 6), ("c", 5, 7), ("L1 behind c", 1, 6),
    ("form 2", 2, 5), ("L before a", 1, 6), ("a", 6, 7), ("L1 inside", 2, 6), ("b", 7, 7), ("L2", 3, 6),
    ("the last form", 0, 5), ("the last L", 0, 6),
]
# The same for tokens: which one it is, one that is right there, and what comes of a mark, an open and a close in its place.
HISTORY_PLACES = [
    ("a mark", 0, (WRITTEN, 13, 12)), ("an open", 1, (12, WRITTEN, 12)), ("a mark of two bytes", 128, (WRITTEN, 13, 12)),
    ("an open in a step", 5, (12, WRITTEN, 12)), ("a close in a step", 6, (13, 13, WRITTEN)), ("the last close", 2, (13, 13, WRITTEN)),
]


def like(n, least):
    """Those that are n to a writer who drops their high bits, from bit `least` on."""
    return [n + (1 << bits) for bits in (8, 14, 16, 18, 21, 28, 31) if bits >= least] + [(1 << 32) - 256 + n]


def put_in_place(which, label, elements, i, n, number, file):
    """Another element in the place of element i. The number of its refusal; or 0, and the file has its bytes there."""
    elements = elements[:i] + [n] + elements[i + 1:]
    answer = number or [byte for k, group in enumerate(file) for byte in (BYTES[n] if k == i else group)]
    by_hand(which, "%d as %s" % (n, label), elements, plain(40), answer)


def large_in_a_grammar():
    elements = [n for _, n, _ in GRAMMAR_PLACES]
    written(GRAMMAR, "elements as they should be", elements, elements)
    for i, (label, n, number) in enumerate(GRAMMAR_PLACES):
        name = number == 7
        for other in sorted(set(LARGE + like(n, 16 if name else 8))):
            put_in_place(GRAMMAR, label, elements, i, other, 0 if name and other < 65536 else number, [[n] for n in elements])
        for other in [n + 128, n + 256, n + 16384] if name else [n + 128]:
            case(GRAMMAR, "%d as %s" % (other, label), elements[:i] + [other] + elements[i + 1:], plain(40))
    for other in sorted(set(LARGE + like(1, 8))):
        by_hand(GRAMMAR, "%d as stage count, no start" % other, [other, 1, 0, 0], plain(40), 3)
        by_hand(GRAMMAR, "%d as rule count, no start" % other, [1, other, 0, 0], plain(40), 4)


def large_in_a_history():
    tokens = [n for _, n, _ in HISTORY_PLACES]
    elements, file = [6] + tokens, [[6]] + [[n] if n < 128 else [n, 1] for n in tokens]
    written(HISTORY, "elements as they should be", elements, [6, 0, 1, 128, 1, 5, 6, 2])
    for other in sorted(set(LARGE + like(6, 14))):
        put_in_place(HISTORY, "token count", elements, 0, other, 10, file)
    for i, (label, n, answers) in enumerate(HISTORY_PLACES):
        for other in sorted(set(LARGE + like(n, 18))):
            number = 11 if other >= 262144 or other % 4 == 3 else answers[other % 4]
            put_in_place(HISTORY, label, elements, i + 1, other, number, file)
        for other in sorted({n + 128, n + 256, n + 16384, n + 65536} - set(LARGE)):
            case(HISTORY, "%d as %s" % (other, label), elements[:i + 1] + [other] + elements[i + 2:], plain(40))


# ---- files at every limit, and elements behind them
def full_grammar():
    no_start, from_last = [1, 128] + wide_steps(128), [0, 32, 31, 128] + wide_steps(128, 31)
    for size in (1285, 1286):
        by_hand(GRAMMAR, "128 rules of ten bytes", no_start, mixed(size), [0, 1, 0, 128, 1] + wide_step_bytes(128))
    for size in (1284, 1283, 773, 0):
        by_hand(GRAMMAR, "128 rules of ten bytes", no_start, mixed(size), 15)
    for size in (1285, 1541):
        by_hand(GRAMMAR, "128 rules of ten bytes, start 31", from_last, mixed(size), [0, 32, 31, 128, 1] + wide_step_bytes(128, 31))
    for size in (1284, 1029):
        by_hand(GRAMMAR, "128 rules of ten bytes, start 31", from_last, mixed(size), 15)
    small = [1, 128] + steps(128)
    by_hand(GRAMMAR, "128 rules of six bytes", small, mixed(773), [0, 1, 0, 128, 1] + steps(128))
    by_hand(GRAMMAR, "128 rules of six bytes", small, mixed(772), 15)
    by_hand(GRAMMAR, "128 rules of six bytes, and large elements", small + LARGE, plain(790), 9)
    by_hand(GRAMMAR, "128 rules of ten bytes, the last one twice, and more", from_last[:-6] + from_last[-12:-6] + [0], plain(9), 8)
    by_hand(GRAMMAR, "128 rules of ten bytes, a fault at the end", no_start[:-1] + [1], plain(9), 6)
    by_hand(GRAMMAR, "128 rules of ten bytes, a name too large at the end", from_last[:-2] + [65536, 31], plain(9), 7)


def behind_a_full_grammar():
    no_start, from_last = [1, 128] + steps(128), [0, 32, 31, 128] + steps(128, 31)
    for elements, count in [(no_start, 771), (from_last, 773), (no_start, 1026), (from_last, 3000)]:
        by_hand(GRAMMAR, "128 rules of six bytes, %d elements" % count, elements + [0] * (count - len(elements)), plain(780 if count < 1000 else 9), 9)
    for count in (1025, 1026, 1027, 1028):
        rule = [1, 1, 0, 0] if count % 2 else [0, 1, 0, 1, 0, 0]
        by_hand(GRAMMAR, "a rule, %d elements" % count, rule + [0] * (count - len(rule)), plain(9), 9)


def full_history():
    longest, file = [1024] + [262140] * 1024, [128, 8] + [252, 255, 15] * 1024
    for size in (3074, 3075, 3330):
        by_hand(HISTORY, "1,024 tokens of three bytes", longest, mixed(size), file)
    for size in (3073, 2050, 2, 0):
        by_hand(HISTORY, "1,024 tokens of three bytes", longest, mixed(size), 15)
    by_hand(HISTORY, "1,024 tokens of two bytes", [1024] + [252] * 1024, mixed(2050), [128, 8] + [252, 1] * 1024)
    by_hand(HISTORY, "1,024 tokens of two bytes", [1024] + [252] * 1024, mixed(2049), 15)
    by_hand(HISTORY, "1,024 tokens of one byte", [1024] + MARK * 1024, plain(1026), [128, 8] + MARK * 1024)
    by_hand(HISTORY, "1,024 tokens of one byte", [1024] + MARK * 1024, plain(1025), 15)
    by_hand(HISTORY, "1,023 tokens of two bytes", [1023] + [128] * 1023, plain(2050), [255, 7] + [128, 1] * 1023)
    by_hand(HISTORY, "512 steps", [1024] + [129, 2] * 512, plain(1540), [128, 8] + [129, 1, 2] * 512)
    by_hand(HISTORY, "512 steps", [1024] + [129, 2] * 512, plain(1537), 15)


def behind_a_full_history():
    by_hand(HISTORY, "1,024 tokens of three bytes, 1026 elements", [1024] + [262140] * 1025, mixed(9), 9)
    for count in (1026, 1027, 5000):
        by_hand(HISTORY, "1,024 tokens of one byte, %d elements" % count, [1024] + MARK * (count - 1), plain(1030 if count < 5000 else 9), 9)
    for count in (1026, 1027):
        by_hand(HISTORY, "1,024 tokens, then large elements, %d in all" % count, [1024] + MARK * 1024 + [4294967295] * (count - 1025), plain(1030), 9)
    for count in (1025, 1026, 1027):
        by_hand(HISTORY, "no token, %d elements" % count, [0] * count, plain(9), 9)
    by_hand(HISTORY, "the 1,024th is an open, and a close follows", [1024] + MARK * 1023 + OPEN + CLOSE, plain(1030), 13)
    by_hand(HISTORY, "the 1,024th is a close", [1024] + MARK * 1023 + CLOSE, plain(1030), 12)
    by_hand(HISTORY, "the 1,024th is of kind 3, and more follows", [1024] + MARK * 1023 + [3, 0, 0], plain(1030), 11)
    by_hand(HISTORY, "1,025 tokens, all there", [1025] + MARK * 1025, plain(1030), 10)


# ---- every length of a buffer
def buffers():
    g, longer = list(G), [0, 3, 0] + list(G[1:])
    lengths(GRAMMAR, "G, any buffer", g, range(42))
    lengths(GRAMMAR, "G with stages 0 and 1 exchanged, any buffer", list(EXCHANGED), range(42))
    lengths(GRAMMAR, "1 1 0 0, any buffer", [1, 1, 0, 0], range(10))
    lengths(GRAMMAR, "0 2 1 1 0 0, any buffer", [0, 2, 1, 1, 0, 0], range(10))
    for byte in (0, 1, 127, 128, 255):
        by_hand(GRAMMAR, "G, buffer filled with %d" % byte, g, plain(33, byte), longer)
        by_hand(GRAMMAR, "G, buffer of 29 filled with %d" % byte, g, plain(29, byte), 15)
        by_hand(GRAMMAR, "G and a 5, buffer filled with %d" % byte, g + [5], plain(33, byte), 9)
        by_hand(HISTORY, "2 161 134, buffer filled with %d" % byte, [2, 161, 134], plain(9, byte), [2, 161, 1, 134, 1])
        by_hand(HISTORY, "2 161, buffer filled with %d" % byte, [2, 161], plain(9, byte), 1)
    lengths(HISTORY, "0, any buffer", [0], range(6))
    lengths(HISTORY, "3 1 0 2, any buffer", [3, 1, 0, 2], range(10))
    lengths(HISTORY, "5 0 161 252 134 0, any buffer", [5, 0, 161, 252, 134, 0], range(16))
    lengths(HISTORY, "3 160001 300 262142, any buffer", [3, 160001, 300, 262142], range(16))
    lengths(GRAMMAR, "a step of names 40000 and 65535, any buffer", [1, 1, 2, 0, 40000, 0, 65535, 0], range(20))
    lengths(HISTORY, "3 1 0 2, a long buffer", [3, 1, 0, 2], [255, 256, 257, 260, 3074, 4096])
    lengths(GRAMMAR, "G, a long buffer", g, [255, 256, 257, 286, 1285, 4096])
    # a length whose low byte is that of the file's, or 0
    for count in (253, 254, 255):
        elements = [count] + MARK * count
        lengths(HISTORY, "%d marks, any buffer" % count, elements, [1] + list(range(count, count + 4)) + [512])


def each_token():
    """Every token number of one and two bytes with a name below 64, those of a kind together; each open is closed."""
    plain_ones = list(range(0, 256, 4))
    written(HISTORY, "marks 0 to 63", [64] + plain_ones, [64] + [byte for n in plain_ones for byte in ([n] if n < 128 else [n, 1])])
    nested = list(range(1, 256, 4)) + list(range(2, 256, 4))
    written(HISTORY, "opens and closes 0 to 63", [128] + nested, [128, 1] + [byte for n in nested for byte in ([n] if n < 128 else [n, 1])])
    for token in [3, 127, 131, 255, 259, 16383, 16387, 65535, 65539, 131071, 262139, 262143]:
        by_hand(HISTORY, "token %d behind a mark" % token, [2, 0, token], plain(6), 11)


# ---- drawn ones, the same at every run
class Draw:
    def __init__(self, seed):
        self.r = random.Random(seed)
        self.names = self.r.choice([range(2), range(33), range(64), range(65536), [63, 64, 127, 128, 255, 256, 16383, 16384, 65535]])
        self.stages = self.r.choice([1, 2, 5, 32])

    def name(self):
        return self.r.choice(self.names)

    def rule(self):
        fields = self.r.choice(["L", "L c L1", "L c L1", "L a L1 b L2", "L a L1 b L2"]).split()
        return [len(fields) // 2] + [self.name() if field in "abc" else self.r.randrange(self.stages) for field in fields]

    def rules(self):
        rules = []
        for _ in range(self.r.choice([1, 3, 8, 14])):
            rule = self.rule()
            if rule not in rules:
                rules.append(rule)
        return rules

    def repeated(self, rules):
        """One of the rules a second time, somewhere."""
        i = self.r.randrange(len(rules) + 1)
        return rules[:i] + [self.r.choice(rules)] + rules[i:]

    def grammar(self, rules, with_start):
        head = [0, self.stages, self.r.randrange(self.stages), len(rules)] if with_start else [self.stages, len(rules)]
        return head + [n for rule in rules for n in rule]

    def level(self, left):
        """A level of at most so many tokens."""
        tokens = []
        while left - len(tokens) > 1 and self.r.random() < 0.85:
            if self.r.random() < 0.4:
                tokens.append(4 * self.name())
            else:
                tokens += [4 * self.name() + 1] + self.level(left - len(tokens) - 2) + [4 * self.name() + 2]
        return tokens

    def history(self):
        tokens = self.level(self.r.choice([4, 12, 40, 140]))
        return [len(tokens)] + tokens

    def other(self, n):
        """Another element in an element's place."""
        return self.r.choice([n + 1, max(n - 1, 0), n + 4, n ^ 1, n + 256, n + 65536, self.r.choice(LARGE), self.r.randrange(70), self.r.randrange(1 << 32)])

    def damaged(self, elements):
        """An element changed, left out, put in or moved; or an end cut off or put on. Now and then it is one of the first."""
        i, j = self.r.randrange(len(elements)), self.r.randrange(len(elements))
        if self.r.random() < 0.3:
            i %= 4
        changed = elements[:i] + [self.other(elements[i])] + elements[i + 1:]
        left_out = elements[:i] + elements[i + 1:]
        put_in = elements[:i] + [self.r.choice(elements)] + elements[i:]
        moved = left_out[:j] + [elements[i]] + left_out[j:]
        put_on = elements + [self.other(elements[i]) for _ in range(self.r.randrange(1, 4))]
        return self.r.choice([changed, changed, changed, changed, left_out, put_in, moved, elements[:i], put_on])

    def buffer(self, elements, more=0):
        """Mostly about as long as the file would be, which may take more bytes than its elements."""
        size = sum(map(size_of, elements)) + more + self.r.choice([-2, -1, 0, 0, 1, 2, 7, -len(elements)])
        return self.r.choice([plain(max(size, 0)), mixed(max(size, 0)), plain(max(size, 0), 0), self.r.randbytes(max(size, 0))])


def drawn():
    """A third of them as they should be, the others damaged. Every other grammar says its start."""
    for seed in range(540):
        draw = Draw(seed)
        rules, history, with_start = draw.rules(), draw.history(), seed % 2 == 1
        if seed < 180:
            grammar = draw.grammar(rules, with_start)
        elif seed % 8 < 2:
            grammar = draw.grammar(draw.repeated(rules), with_start)
        else:
            grammar = draw.damaged(draw.grammar(rules, with_start))
        if seed >= 180:
            history = draw.damaged(history)
        case(GRAMMAR, "drawn %d" % seed, grammar, draw.buffer(grammar, 0 if with_start else 2))
        case(HISTORY, "drawn %d" % seed, history, draw.buffer(history))


def written_again():
    """The numbers of what a writer makes of grammars without a start: the same bytes."""
    made = [c for c in CASES if c[1].startswith("grammar, drawn") and c[4] == WRITTEN and c[2][0] != 0]
    for _, label, elements, before, _, length, after in made[:40]:
        again = [0, elements[0], 0] + elements[1:]
        by_hand(GRAMMAR, label[len("grammar, "):] + ", written again", again, before, after[:length])


# ---- the files
def hold_to_limits():
    """What the program and the form of a case can take; and no number of a writer is without a case."""
    asked = [(label, before) for _, label, _, before, _, _, _ in CASES]
    assert len(asked) == len(set(asked)), "a label and buffer stand twice"
    assert len(CASES) <= 10000, "more than the program compares"
    for which, label, elements, before, number, length, after in CASES:
        assert len(label) < 256 and len(elements) <= 5000 and len(before) == len(after) <= 4096, label
        assert all(0 <= n < 1 << 32 for n in elements), label
    for which in (GRAMMAR, HISTORY):
        seen = {number for kind, _, _, _, number, _, _ in CASES if kind == which}
        if seen != NUMBERS[which]:
            sys.exit("make_writer_cases: %s: the cases have %s, and should have %s" % (KINDS[which], sorted(seen), sorted(NUMBERS[which])))


def two(n):
    return n.to_bytes(2, "little")


def packed(which, label, elements, before, number, length, after):
    head = bytes([which, number, len(label)]) + two(length) + two(4 * len(elements)) + two(len(before))
    return head + label.encode("ascii") + b"".join(n.to_bytes(4, "little") for n in elements) + before + after


def main():
    answered(__doc__, sys.argv[1:], not sys.argv[1:])
    examples()
    wide_examples()
    for part in (too_few_or_too_many_rules, grammar_heads, grammar_limits, names, stages_of_rules, equal_rules, names_of_one_bit):
        part()
    for part in (order_in_a_grammar, too_few_or_too_many_tokens, history_limits, history_steps, order_in_a_history):
        part()
    for part in (large_in_a_grammar, large_in_a_history, full_grammar, behind_a_full_grammar, full_history, behind_a_full_history):
        part()
    for part in (buffers, each_token, drawn, written_again):
        part()
    hold_to_limits()
    write_cases("test_writers", [packed(*c) for c in CASES])


main()
