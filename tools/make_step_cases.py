#!/usr/bin/env python3
"""Writes crates/test_steps/data/cases.bin and crates/test_steps/stdout: histories and positions, and the step's bytes or the number due.

Run from the repository's root, when the cases change. The answers to the examples and those with a refusal of the file are written
out by hand; the others are found by the search below, which goes by documents 01 and 02 alone and is held to the former. No part of
the library is run. A case: what it is, the history's bytes, the position, the answer. An answer: the number of the refusal or 0,
the first byte of the part, how many there are.
"""
import itertools
import random
import sys

from case_files import write_cases
from frames import CLOSE, MARK, OPEN, Refused, history_bytes, read_history
from usage import answered

HALF, LAST = 1 << 63, (1 << 64) - 1
CASES = []


# ---- the search
def closes(tokens):
    """The position of each open's close, by the open's: the opens whose steps are open are kept in a stack."""
    opens, found = [], {}
    for p, t in enumerate(tokens):
        if t % 4 == 1:
            opens.append(p)
        elif t % 4 == 2:
            found[opens.pop()] = p
    return found


def searched(file, position):
    try:
        tokens = read_history(file)
    except Refused as e:
        return e.number, 0, 0
    close = closes(tokens).get(position)
    if close is None:
        return 17, 0, 0
    # where each number begins, the count's first, and the end of the file: behind every byte whose top bit is not set
    begins = [0] + [i + 1 for i, byte in enumerate(file) if byte < 128]
    first = begins[1 + position]
    return 0, first, begins[1 + close + 1] - first


# ---- putting a case down
def case(label, file, position):
    CASES.append((label, bytes(file), position, searched(bytes(file), position)))


def every(label, file, positions):
    for position in positions:
        case(label, file, position)


def by_hand(label, file, position, due):
    """due: the part as the file's bytes from the first one on and before the end; or the number of the refusal."""
    answer = (due, 0, 0) if isinstance(due, int) else (0, due[0], due[1] - due[0])
    case(label, file, position)
    if CASES[-1][3] != answer:
        sys.exit("make_step_cases: %s, position %d: %s, not %s" % (label, position, CASES[-1][3], answer))


def around(n):
    """Each position of n tokens, the two behind them, and the two that are hardest to hold."""
    return list(range(n + 2)) + [HALF, LAST]


def like(p):
    """Positions that are p to a reader who drops their high bits."""
    return [p + (1 << bits) for bits in (8, 16, 31, 32, 63)]


# ---- the examples
def examples():
    one = [3, 1, 0, 2]
    by_hand("3 1 0 2", one, 0, (1, 4))
    for position in [1, 2, 3, 4, HALF]:
        by_hand("3 1 0 2", one, position, 17)
    two_inside = [6, 1, 1, 2, 1, 2, 2]
    by_hand("6 1 1 2 1 2 2", two_inside, 0, (1, 7))
    by_hand("6 1 1 2 1 2 2", two_inside, 1, (2, 4))
    by_hand("6 1 1 2 1 2 2", two_inside, 3, (4, 6))
    by_hand("6 1 1 2 1 2 2", two_inside, 2, 17)
    by_hand("5 0 161 1 252 1 134 1 0", [5, 0, 161, 1, 252, 1, 134, 1, 0], 1, (2, 8))
    by_hand("1 1", [1, 1], 5, 13)
    by_hand("1,024 tokens, 512 steps", [128, 8] + [161, 1, 134, 1] * 512, 1022, (2046, 2050))
    by_hand("3 129 226 9 172 2 254 255 15", [3, 129, 226, 9, 172, 2, 254, 255, 15], 0, (1, 9))
    for position in [1, 2, 3, HALF]:
        by_hand("3 129 226 9 172 2 254 255 15", [3, 129, 226, 9, 172, 2, 254, 255, 15], position, 17)
    by_hand("2 253 255 15 254 255 15", [2, 253, 255, 15, 254, 255, 15], 0, (1, 7))
    by_hand("1 128 128 1", [1, 128, 128, 1], 0, 17)
    by_hand("4 128 128 1 129 226 9 254 255 15 0", [4, 128, 128, 1, 129, 226, 9, 254, 255, 15, 0], 1, (4, 10))


# ---- the history's own refusals, before 17: at an open's position, at others, and behind the tokens
def refused(label, file, number, positions):
    for position in list(positions) + [HALF, LAST]:
        by_hand("%s: %d" % (label, number), file, position, number)


def refused_numbers():
    refused("no byte", [], 1, [0, 1])
    refused("128 alone", [128], 1, [0, 1])
    refused("ends before the close", [3, 1, 0], 1, [0, 1, 2, 3, 4])
    refused("ends inside the close", [3, 1, 0, 130], 1, [0, 1, 2, 3, 4])
    refused("ends behind a step", [3, 1, 2], 1, [0, 1, 2, 3])
    refused("count 3 in two bytes", [131, 0, 1, 0, 2], 2, [0, 1, 2, 3])
    refused("128 128", [128, 128], 1, [0, 1])
    refused("128 128 0", [128, 128, 0], 2, [0, 1])
    refused("128 128 128", [128, 128, 128], 2, [0, 1])
    refused("the open in two bytes", [3, 129, 0, 0, 2], 2, [0, 1, 2, 3])
    refused("the open in three bytes", [3, 129, 128, 0, 0, 2], 2, [0, 1, 2, 3])
    refused("the close in three bytes", [3, 1, 0, 130, 128, 0], 2, [0, 1, 2, 3])
    refused("the close in four bytes", [3, 1, 0, 130, 128, 128, 1], 2, [0, 1, 2, 3])
    refused("ends inside the close, behind two bytes", [3, 1, 0, 254, 255], 1, [0, 1, 2, 3])
    refused("a mark 128 128 behind a step", [3, 1, 2, 128, 128], 1, [0, 1, 2, 3])
    refused("a mark 128 128 128 behind a step", [3, 1, 2, 128, 128, 128], 2, [0, 1, 2, 3])


def refused_tokens():
    refused("a byte behind 3 1 0 2", [3, 1, 0, 2, 0], 9, [0, 1, 2, 3, 4])
    refused("a step behind a step", [2, 1, 2, 1, 2], 9, [0, 1, 2, 3, 4])
    refused("a byte behind no token", [0, 1], 9, [0, 1])
    refused("1,025 tokens", [129, 8] + MARK + (OPEN + CLOSE) * 512, 10, [0, 1, 1023, 1024, 1025])
    refused("16,383 tokens", [255, 127], 10, [0, 16382, 16383])
    refused("16,384 tokens", [128, 128, 1], 10, [0, 16383, 16384])
    refused("kind 3", [1, 3], 11, [0, 1])
    refused("kind 3 inside a step", [3, 1, 3, 2], 11, [0, 1, 2, 3])
    refused("262,145 behind a step", [3, 1, 2, 129, 128, 16], 11, [0, 1, 2, 3])
    refused("262,145 for an open", [2, 129, 128, 16, 2], 11, [0, 1, 2])
    refused("262,146 for a close", [2, 1, 130, 128, 16], 11, [0, 1, 2])
    refused("262,143 in a step", [3, 1, 255, 255, 15, 2], 11, [0, 1, 2, 3])
    refused("a close alone", [1, 2], 12, [0, 1])
    refused("a close behind a step", [3, 1, 2, 2], 12, [0, 1, 2, 3])
    refused("a close before a step", [3, 2, 1, 2], 12, [0, 1, 2, 3])
    refused("an open alone", [1, 1], 13, [0, 1])
    refused("an open behind a step", [3, 1, 2, 1], 13, [0, 1, 2, 3])
    refused("a step in an open one", [3, 1, 1, 2], 13, [0, 1, 2, 3])
    refused("129 nested steps", [130, 2] + OPEN * 129 + CLOSE * 129, 14, [0, 127, 128, 129, 257, 258])
    refused("129 opens", [129, 1] + OPEN * 129, 14, [0, 128, 129])
    refused("a step, then 129 nested ones", [132, 2] + OPEN + CLOSE + OPEN * 129 + CLOSE * 129, 14, [0, 1, 2, 260])


# ---- histories that pass
def mark(name):
    return [4 * name]


def step(open_name, inside, close_name):
    return [4 * open_name + 1] + inside + [4 * close_name + 2]


# A name below 32 makes a token of one byte, one below 4,096 a token of two, any other a token of three.
ONE, TWO, THREE = (0, 31), (32, 4095), (4096, 65535)


def widths():
    """Tokens of one, two and three bytes before a step, as its open, in it, as its close and behind it: every combination of these."""
    for sizes in itertools.product((1, 2, 3), repeat=5):
        before, a, c, b, behind = ([ONE, TWO, THREE][size - 1][place % 2] for place, size in enumerate(sizes))
        file = history_bytes(mark(before) + step(a, mark(c), b) + mark(behind))
        start = 1 + sizes[0]
        by_hand("names %d %d %d %d %d" % (before, a, c, b, behind), file, 1, (start, start + sum(sizes[1:4])))


def whole():
    """Small histories, at every position."""

    def asked(label, tokens):
        every(label, history_bytes(tokens), around(len(tokens)))

    asked("no token", [])
    asked("a mark", mark(0))
    asked("a mark of two bytes", mark(63))
    asked("a mark of three bytes", mark(65535))
    asked("a step with nothing inside", step(0, [], 0))
    asked("a step of other names", step(5, [], 9))
    for a, b in [(31, 32), (32, 31), (4095, 4096), (4096, 4095), (31, 4096), (65535, 0)]:
        asked("names %d and %d" % (a, b), mark(b) + step(a, mark(b), b) + mark(a))
    asked("neighbours", step(1, [], 2) + step(3, [], 4) + step(40, [], 41) + step(5, [], 6))
    asked("neighbours of three bytes", step(65535, [], 4096) + step(1, [], 65279) + step(16385, [], 2) + step(32767, [], 40000))
    asked("neighbours, all alike", step(0, [], 0) * 4)
    asked("marks between neighbours", mark(1) + step(2, mark(50), 3) + mark(4) + mark(51) + step(52, [], 5) + mark(6))
    asked("three nested", step(1, step(40, step(3, [], 41), 5), 6))
    asked("three nested, of three bytes, two and one", step(40000, step(300, step(3, [], 301), 5), 65535))
    asked("nested with marks between", mark(7) + step(1, mark(8) + step(40, mark(42) + step(3, mark(9), 41) + mark(43), 5) + mark(10), 6) + mark(44))
    asked("neighbours in a step", step(33, step(1, [], 34) + mark(2) + step(35, [], 3) + step(36, step(4, [], 5), 37), 38))
    asked("a step behind deep ones", step(1, step(2, step(3, step(4, [], 60), 61), 62), 63) + step(5, [], 6))
    asked("a step before deep ones", step(5, [], 6) + step(63, step(62, step(61, step(60, [], 4), 3), 2), 1))
    every("high bits dropped", history_bytes(mark(0) + step(1, mark(2), 3)), like(1))


def large():
    # the count takes one byte up to 127 tokens and two from 128 on
    for n in (127, 128, 129):
        tokens = step(1, mark(0) * (n - 4), 2) + step(3, [], 4)
        every("%d tokens" % n, history_bytes(tokens), [0, 1, n - 3, n - 2, n - 1, n, n + 1] + like(n - 2))
    every("a step of all 128 tokens", history_bytes(step(40, mark(41) * 126, 42)), [0, 127, 128])

    # every depth, each step with names of its own
    nested = []
    for depth in range(127, -1, -1):
        nested = step(depth % 64, nested, 63 - depth % 64)
    every("128 nested steps", history_bytes(nested), list(range(129)) + [255, 256, 257] + like(127))

    # 1,024 tokens
    every("1,024 tokens, 512 steps", history_bytes(step(40, [], 33) * 512), [0, 512, 1021, 1024, HALF, LAST])
    every("1,024 tokens of three bytes, 512 steps", history_bytes(step(65535, [], 4096) * 512), [510, 1023])
    by_hand("1,024 tokens of three bytes", [128, 8] + [253, 255, 15, 254, 255, 15] * 512, 1022, (3068, 3074))
    every("1,024 tokens, all marks", history_bytes(mark(0) * 1024), [0, 1023, 1024])
    every("1,024 tokens, one step", history_bytes(step(1, mark(63) * 1022, 63)), [0, 1, 1023, 1024])
    every("1,024 tokens of three bytes, one step", history_bytes(step(16384, mark(65535) * 1022, 65535)), [0, 1023])
    every("1,024 tokens, the last step", history_bytes(mark(31) * 1022 + step(32, [], 31)), [1021, 1022, 1023, 1024])
    every("1,024 tokens, 128 nested steps", history_bytes(mark(50) * 384 + nested + mark(51) * 384), [383, 384, 448, 511, 512, 639, 640])


# ---- drawn ones, the same at every run
class Draw:
    def __init__(self, seed):
        self.r = random.Random(seed)
        self.names = self.r.choice([range(4), range(32), range(64), range(65536), [31, 32, 63, 64, 4095, 4096, 65535]])

    def name(self):
        return self.r.choice(self.names)

    def level(self, left):
        """A level of at most so many tokens."""
        tokens = []
        while left - len(tokens) > 1 and self.r.random() < 0.8:
            if self.r.random() < 0.4:
                tokens += mark(self.name())
            else:
                tokens += step(self.name(), self.level(left - len(tokens) - 2), self.name())
        return tokens

    def position(self, tokens):
        """Mostly an open's, else any about the tokens."""
        opens = [p for p, t in enumerate(tokens) if t % 4 == 1]
        if opens and self.r.random() < 0.7:
            return self.r.choice(opens)
        return self.r.randrange(len(tokens) + 2)

    def other_tokens(self, tokens):
        """One token fewer, more or changed; the count fits."""
        i = self.r.randrange(len(tokens) + 1)
        put = [self.r.choice([self.r.randrange(260), self.r.randrange(262140, 262150)]) for _ in range(self.r.randrange(2))]
        return tokens[:i] + put + tokens[i + self.r.randrange(2):]

    def other_bytes(self, file):
        """One byte fewer, more or changed, or an end cut off."""
        i = self.r.randrange(len(file))
        if self.r.random() < 0.2:
            return file[:i]
        put = [self.r.choice([0, 1, 2, 3, 127, 128, 129, 255, self.r.randrange(256)]) for _ in range(self.r.randrange(2))]
        return file[:i] + bytes(put) + file[i + self.r.randrange(2):]


def drawn():
    for seed in range(400):
        draw = Draw(seed)
        tokens = draw.level(draw.r.choice([6, 20, 60, 160]))
        every("drawn %d" % seed, history_bytes(tokens), sorted({draw.position(tokens) for _ in range(3)}))
    for seed in range(400, 800):
        draw = Draw(seed)
        tokens = draw.level(40)
        file = history_bytes(draw.other_tokens(tokens)) if seed % 2 else draw.other_bytes(history_bytes(tokens))
        every("drawn %d" % seed, file, sorted({draw.position(tokens) for _ in range(2)}))


# ---- the files
def two(n):
    return bytes([n % 256, n // 256])


def packed(label, file, position, answer):
    number, first, length = answer
    head = position.to_bytes(8, "little") + bytes([number, len(label)]) + two(first) + two(length) + two(len(file))
    return head + label.encode("ascii") + file


def main():
    answered(__doc__, sys.argv[1:], not sys.argv[1:])
    examples()
    refused_numbers()
    refused_tokens()
    widths()
    whole()
    large()
    drawn()
    asked = [(label, position) for label, _, position, _ in CASES]
    assert len(asked) == len(set(asked)), "a label and position stand twice"
    assert len(CASES) <= 10000, "more than the program compares"
    assert all(len(label) < 256 and len(file) <= 4096 for label, file, _, _ in CASES)
    write_cases("test_steps", [packed(*c) for c in CASES])


main()
