#!/usr/bin/env python3
"""Writes crates/test_counts/data/cases.bin and crates/test_counts/stdout: pairs of files, and the counts and readings due for them.

Run from the repository's root, when the cases change. The answers are found by the sums and products below, which go by documents 01 and 02
alone, with numbers of any size. The answers to the examples are written out by hand as well. Wherever a pair of files has few readings all
that is found of it is held to the search of make_listings.py, which lists them one by one. No part of the library is run.
"""
import itertools
import sys

from case_files import write_cases
from choice_frames import choice_frames
from frames import CLOSE, EXCHANGED, G, MARK, OPEN, grammar_bytes, history_bytes
from judges import Bytes, Refused, judge_grammar, judge_history
from make_listings import readings
from make_vectors import Draw
from wide_names import chains
from usage import answered

HALF, LAST = 1 << 63, (1 << 64) - 1

# What is asked.
COUNT, COUNT_AT, READING, SUMS, EVERY_READING = range(5)

# An answer is two numbers: 0, or 102 for over, as for C, or the refusal's; and the count, 0 where none is given.
OVER = (102, 0)

# So many readings are searched for and held to what is found, and so many a case may have for which the program goes through them all.
SEARCHED, LISTED = 100, 50

# The cases in packed form by their labels, and the pairs of files by their names.
CASES, FRAMES = {}, {}


def exact(count):
    return 0, count


def refusal(number):
    return number, 0


def told(count):
    return exact(count) if count <= LAST else OVER


# ---- how many readings there are
def closes(tokens):
    """The position of each open's close, by the open's."""
    opens, found = [], {}
    for p, token in enumerate(tokens):
        if token % 4 == 1:
            opens.append(p)
        elif token % 4 == 2:
            found[opens.pop()] = p
    return found


class Frame:
    """A grammar and a history. Either the number by which one of them is refused; or

    ways      for each position and stage, in how many ways the stage makes the tokens from there to the end of their level
    by_rule   the same for each position and rule, the rule standing at the position
    around    for each position and stage, in how many ways all the other tokens are made around these
    """

    def __init__(self, name, g, h):
        self.name, self.g, self.h, self.refused = name, bytes(g), bytes(h), None
        try:
            stages, self.start, self.rules = judge_grammar(Bytes(self.g))
            self.tokens = judge_history(Bytes(self.h))
        except Refused as e:
            self.refused = e.args[0]
            return
        self.n, self.closes = len(self.tokens), closes(self.tokens)
        self.ways = [[0] * stages for _ in range(self.n + 1)]
        self.by_rule = [[0] * len(self.rules) for _ in range(self.n + 1)]
        self.around = [[0] * stages for _ in range(self.n + 1)]
        self.find_ways()
        self.find_around()
        self.total = self.ways[0][self.start]

    def parts(self, p, rule):
        """What the rule at p leaves to be made, each part as its position and stage; None where the rule doesn't make the token at p."""
        token = self.tokens[p] if p < self.n else None
        if rule[0] == 0:
            return [] if token is None or token % 4 == 2 else None
        if rule[0] == 1:
            return [(p + 1, rule[3])] if token == 4 * rule[2] else None
        if token != 4 * rule[2] + 1 or self.tokens[self.closes[p]] != 4 * rule[4] + 2:
            return None
        return [(p + 1, rule[3]), (self.closes[p] + 1, rule[5])]

    def find_ways(self):
        for p in range(self.n, -1, -1):
            for r, rule in enumerate(self.rules):
                parts = self.parts(p, rule)
                if parts is None:
                    continue
                product = 1
                for position, stage in parts:
                    product *= self.ways[position][stage]
                self.by_rule[p][r] = product
                self.ways[p][rule[1]] += product

    def find_around(self):
        self.around[0][self.start] = 1
        for p, r in itertools.product(range(self.n + 1), range(len(self.rules))):
            rule = self.rules[r]
            parts = self.parts(p, rule) or []
            for part in parts:
                product = self.around[p][rule[1]]
                for position, stage in parts:
                    if (position, stage) != part:
                        product *= self.ways[position][stage]
                self.around[part[0]][part[1]] += product

    def at(self, p, r):
        """How many readings have the rule at the position."""
        return self.around[p][self.rules[r][1]] * self.by_rule[p][r] if r < len(self.rules) else 0

    def reading(self, k):
        """Reading k: at each position the rule with which the number falls. What is due behind the steps that are open is made in `behind` ways."""
        before, behind, stage, due, found = k - 1, 1, self.start, [], []
        for p in range(self.n + 1):
            for r, rule in enumerate(self.rules):
                if rule[1] != stage:
                    continue
                here = self.by_rule[p][r] * behind
                if before < here:
                    break
                before -= here
            found.append(r)
            if rule[0] == 1:
                stage = rule[3]
            elif rule[0] == 2:
                stage = rule[3]
                due.append((rule[5], behind))
                behind *= self.ways[self.closes[p] + 1][rule[5]]
            elif due:
                stage, behind = due.pop()
        return found

    def hold(self):
        """What is found is what the search finds, as far as it goes: the readings by their numbers, and where these are all, every count."""
        if self.refused:
            return
        listed = list(itertools.islice(readings(self, self.tokens), SEARCHED + 1))
        counted = [self.reading(k + 1) for k in range(min(self.total, SEARCHED + 1))]
        if listed != counted:
            sys.exit("make_count_cases: %s: %s, not %s" % (self.name, counted, listed))
        if len(listed) > SEARCHED:
            return
        for p in range(self.n + 1):
            column = [reading[p] for reading in listed]
            for r in range(len(self.rules)):
                if self.at(p, r) != column.count(r):
                    sys.exit("make_count_cases: %s: %d at (%d, %d), not %d" % (self.name, self.at(p, r), p, r, column.count(r)))


# ---- putting a case down
def two(n):
    return n.to_bytes(2, "little")


def eight(n):
    return n.to_bytes(8, "little")


def put(frame, question, what, place, rule, due, before=b"", after=b""):
    """A question that is put down already, as an example, is the same once more."""
    label = frame.name + question
    head = bytes([what, due[0], len(label)]) + eight(place) + eight(rule) + eight(due[1])
    head += two(len(frame.g)) + two(len(frame.h)) + two(len(before))
    case = head + label.encode("ascii") + frame.g + frame.h + before + after
    if CASES.setdefault(label, case) != case:
        sys.exit("make_count_cases: two cases are called %s" % label)
    FRAMES[frame.name] = frame


def agree(frame, question, due, by_hand):
    if by_hand not in (None, due):
        sys.exit("make_count_cases: %s%s: %s, not %s" % (frame.name, question, due, by_hand))


def count(frame, by_hand=None):
    due = refusal(frame.refused) if frame.refused else told(frame.total)
    agree(frame, "", due, by_hand)
    put(frame, "", COUNT, 0, 0, due)


def count_at(frame, p, r, by_hand=None):
    question = "; position %d, rule %d" % (p, r)
    if frame.refused:
        due = refusal(frame.refused)
    else:
        due = refusal(18) if p > frame.n else told(frame.at(p, r))
    agree(frame, question, due, by_hand)
    put(frame, question, COUNT_AT, p, r, due)


def number_due(frame, k, size):
    """The refusal that is due, or 0."""
    if frame.refused:
        return frame.refused
    if size < frame.n + 1:
        return 15
    return 0 if 1 <= k <= frame.total else 18


def reading(frame, k, size, by_hand=None):
    """By hand: the reading, or the number of the refusal."""
    question = "; reading %d, buffer of %d" % (k, size)
    number = number_due(frame, k, size)
    # no rule has such a number, and bytes near each other differ
    before = bytes(128 + i * 37 % 128 for i in range(size))
    entry = [] if number else frame.reading(k)
    agree(frame, question, number or entry, by_hand)
    put(frame, question, READING, k, 0, refusal(number), before, bytes(entry) + before[len(entry):])


def sums(frame):
    """The program adds up the counts of all rules, at each position."""
    put(frame, "; sums", SUMS, 0, 0, exact(frame.total))


def every_reading(frame):
    """The program goes through all readings."""
    put(frame, "; every reading", EVERY_READING, 0, 0, exact(frame.total))


# ---- questions at the limits
def numbers_around(total):
    """0, the first and last numbers, those in the middle, and those that are hardest to hold."""
    ks = [0, 1, 2, total // 2, total // 2 + 1, total - 1, total, total + 1, (1 << 32) + 1, HALF - 1, HALF, HALF + 1, LAST - 1, LAST]
    return sorted({k for k in ks if 0 <= k <= LAST})


def rules_around(rules):
    """The first and the last rule, those behind it, and others that are one of the rules to a reader who drops their high bits."""
    return sorted({0, rules - 1, rules, rules + 1, 127, 128, 255, 256, 257, 1 << 16, 1 << 32, HALF, LAST})


def positions_above(n):
    return sorted({n + 1, n + 2, 1025, 1026, 1 << 16, 1 << 32, HALF, HALF + n, LAST})


def places(frame):
    """The first position, the middle one and the last."""
    return sorted({0, frame.n // 2, frame.n})


def few(frame):
    """Where a number of readings is hard to hold."""
    count(frame)
    for p in places(frame):
        stand = [r for r in range(len(frame.rules)) if frame.at(p, r)]
        for r in sorted({0, len(frame.rules), *stand[:3]}):
            count_at(frame, p, r)
    for k in numbers_around(frame.total):
        reading(frame, k, frame.n + 1)


def limits(frame):
    """Every service at its limits."""
    count(frame)
    for p in places(frame):
        for r in rules_around(len(frame.rules)):
            count_at(frame, p, r)
    for p in positions_above(frame.n):
        count_at(frame, p, 0)
        count_at(frame, p, LAST)
    for k in numbers_around(frame.total):
        reading(frame, k, frame.n + 1)
    for k in (0, 1, LAST):
        for size in sorted({frame.n + 4, frame.n, 0}):
            reading(frame, k, size)
    whole(frame)


def standing(frame):
    """Each rule at each position, of few."""
    count(frame)
    for p in range(frame.n + 1):
        for r in range(len(frame.rules) + 1):
            count_at(frame, p, r)
    whole(frame)


def whole(frame):
    """What the program goes through by itself."""
    if frame.total <= LAST:
        sums(frame)
    if frame.total <= LISTED:
        every_reading(frame)


# ---- the examples
def words(numbers):
    return " ".join(map(str, numbers))


def of_g(h):
    return Frame("G, " + words(h), G, h)


def steps_of_g(k):
    return Frame("%d steps of G" % k, G, history_bytes((OPEN + CLOSE) * k))


def examples():
    one = of_g([3, 1, 0, 2])
    count(one, exact(2))
    for p, r, due in [(0, 1, exact(1)), (3, 0, exact(2)), (0, 128, exact(0)), (4, 200, refusal(18))]:
        count_at(one, p, r, due)
    for k, size, due in [(2, 4, [2, 5, 6, 0]), (0, 4, 18), (3, 4, 18), (0, 3, 15)]:
        reading(one, k, size, due)
    reading(of_g([4, 1, 2, 1, 2]), 3, 5, [2, 6, 1, 4, 0])
    steps = steps_of_g(64)
    count(steps, OVER)
    count_at(steps, 0, 1, exact(HALF))
    count_at(steps, 128, 0, OVER)
    reading(steps, HALF, 129, [1, 4] + [2, 6] * 63 + [0])
    reading(steps, LAST, 129, [2, 6] * 63 + [1, 4, 0])
    fewer = steps_of_g(63)
    count(fewer, exact(HALF))
    reading(fewer, HALF + 1, 127, 18)


# All but one of the ways through marks: from stage 0 to stage 1 at one of them, from there on two rules at each.
TOP = [[1, 0, 0, 0], [1, 0, 0, 1], [1, 1, 0, 1], [1, 1, 0, 2], [0, 1], [1, 2, 0, 1], [1, 2, 0, 2], [0, 2]]


def top(marks):
    return Frame("top, %d marks" % marks, grammar_bytes(3, TOP), history_bytes(MARK * marks))


# A step with two rules at each mark inside, and behind it marks 1.
INSIDE_OVER = [[2, 0, 0, 1, 0, 2], [1, 1, 0, 1], [1, 1, 0, 3], [0, 1], [1, 3, 0, 1], [1, 3, 0, 3], [0, 3], [1, 2, 1, 2], [0, 2]]


def inside_over(behind, marks=70):
    tokens = OPEN + MARK * marks + CLOSE + behind
    return Frame("%d marks in a step, behind it %s" % (marks, words(behind) or "nothing"), grammar_bytes(4, INSIDE_OVER), history_bytes(tokens))


def examples_at_the_top():
    last = top(64)
    count(last, exact(LAST))
    reading(last, LAST, 65, [1, 3] + [6] * 62 + [7])
    over = top(65)
    count(over, OVER)
    count_at(over, 0, 0, exact(LAST))
    count_at(over, 0, 1, OVER)
    count(inside_over([]), OVER)
    count(inside_over(MARK), exact(0))
    count(inside_over([4]), OVER)


# ---- frames at the limits
def small():
    for name, g in [("G", G), ("G with its start", [0, 3, 0] + list(G[1:])), ("G exchanged", EXCHANGED)]:
        limits(Frame("%s, 6 1 2 1 0 0 2" % name, g, [6, 1, 2, 1, 0, 0, 2]))
        for h in [[0], [1, 0], [2, 1, 2]]:
            standing(Frame("%s, %s" % (name, words(h)), g, h))
    limits(Frame("G from stage 2, no token", [0, 3, 2] + list(G[1:]), [0]))
    for start in (1, 2):
        for h in [[2, 0, 0], [3, 1, 0, 2]]:
            standing(Frame("G from stage %d, %s" % (start, words(h)), [0, 3, start] + list(G[1:]), h))
    standing(Frame("1 1 1 0 0 0, no token", [1, 1, 1, 0, 0, 0], [0]))


def near_the_top():
    for frame in [steps_of_g(64), top(64)]:
        limits(frame)
    for frame in [steps_of_g(62), steps_of_g(63), steps_of_g(65), top(63), top(65), top(66)]:
        few(frame)
    for marks, behind in itertools.product((62, 64, 70), ([], MARK, [4])):
        few(inside_over(behind, marks))


def products():
    """The ways inside a step times those behind it: 2^64 - 1, which is (2^32 + 1)(2^32 - 1), then 2^64 and numbers about both."""
    # stage 3 has 2^m + 1 ways through m marks, stage 4 one
    rules = TOP + [[1, 3, 0, 1], [1, 3, 0, 2], [1, 3, 0, 4], [1, 4, 0, 4], [0, 4]]
    for what, inside, behind in [("2^m + 1", 3, 0), ("2^m", 1, 1), ("2^m - 1", 0, 0), ("one", 4, 0)]:
        g = grammar_bytes(6, rules + [[2, 5, 7, inside, 65535, behind], [0, 5]], 5)
        for m, k in [(32, 32), (31, 33), (32, 33), (1, 64)]:
            tokens = [4 * 7 + 1] + MARK * m + [4 * 65535 + 2] + MARK * k
            frame = Frame("a step of %s ways, m = %d, %d behind" % (what, m, k), g, history_bytes(tokens))
            few(frame)
            if frame.total == LAST and m == k:
                sums(frame)


def dues():
    """Two rules at each mark: in a step in a step, behind the inner one and behind the outer one."""
    rules = [[1, 0, 0, 0], [1, 0, 0, 1], [1, 1, 0, 0], [1, 1, 0, 1], [0, 0], [0, 1], [2, 0, 0, 0, 0, 1], [2, 1, 0, 1, 0, 0]]
    for a, b, c in [(1, 1, 1), (1, 2, 2), (2, 0, 62), (20, 21, 22), (10, 27, 27), (1, 64, 1), (1, 1, 64)]:
        tokens = OPEN * 2 + MARK * a + CLOSE + MARK * b + CLOSE + MARK * c
        frame = Frame("%d marks in two steps, %d in one, %d behind" % (a, b, c), grammar_bytes(2, rules), history_bytes(tokens))
        few(frame)
        if frame.total <= LISTED:
            whole(frame)


def nested():
    """Two rules for each of nested steps, which differ in the stage inside."""
    rules = [[0, 0], [0, 1], [2, 0, 0, 0, 0, 0], [2, 0, 0, 1, 0, 0], [2, 1, 0, 0, 0, 1], [2, 1, 0, 1, 0, 0]]
    for depth in (5, 63, 64, 65, 128):
        few(Frame("%d nested steps" % depth, grammar_bytes(2, rules), history_bytes(OPEN * depth + CLOSE * depth)))
    # one rule for each of 126, the largest names
    single = [[2, 0, 65535 - k, 0, 65535 - k, 1] for k in range(126)] + [[0, 0], [0, 1]]
    tokens = [4 * (65535 - k) + 1 for k in range(126)] + [4 * (65535 - k) + 2 for k in range(125, -1, -1)]
    frame = Frame("126 nested steps of names of their own", grammar_bytes(2, single), history_bytes(tokens))
    count(frame, exact(1))
    for p, r in [(0, 0), (125, 125), (126, 126), (127, 127), (252, 127), (126, 127), (0, 128)]:
        count_at(frame, p, r)
    for k in (0, 1, 2):
        reading(frame, k, frame.n + 1)
    every_reading(frame)


def longest():
    def asked(frame, places, total):
        count(frame, total)
        for p, r in places:
            count_at(frame, p, r)
        for k in (0, 1, 500, LAST):
            reading(frame, k, frame.n + 1)
        reading(frame, 1, frame.n)
        reading(frame, 3, frame.n + 3)

    asked(steps_of_g(512), [(0, 1), (1, 4), (1023, 6), (1024, 0), (1024, 6), (1025, 0)], OVER)
    # a mark leads from stage 0 to stage 1 at any place
    once = Frame("1,024 marks, one of them other", grammar_bytes(2, TOP[:3] + [[0, 1]]), history_bytes(MARK * 1024))
    asked(once, [(0, 0), (0, 1), (500, 0), (500, 1), (500, 2), (1023, 1), (1024, 3), (1024, 4)], exact(1024))
    either = grammar_bytes(2, [[1, 0, 0, 0], [1, 0, 0, 1], [1, 1, 0, 0], [1, 1, 0, 1], [0, 0]])
    asked(Frame("1,024 marks, 2^1,023 readings", either, history_bytes(MARK * 1024)), [(0, 0), (1023, 0), (1023, 1), (1024, 4)], OVER)
    wide = grammar_bytes(1, [[0, 0], [1, 0, 65535, 0], [2, 0, 65535, 0, 65535, 0]])
    three_bytes = Frame("1,024 tokens of three bytes", wide, history_bytes([262140, 262141, 262142, 262140] * 256))
    asked(three_bytes, [(0, 1), (1, 2), (2, 0), (1023, 1), (1024, 0), (1024, 1)], exact(1))
    deep = [[0, 0], [0, 1], [2, 0, 0, 0, 0, 0], [2, 0, 0, 1, 0, 0], [1, 1, 0, 1]]
    tokens = OPEN * 128 + MARK * 768 + CLOSE * 128
    asked(Frame("128 nested steps about 768 marks", grammar_bytes(2, deep), history_bytes(tokens)), [(0, 2), (127, 3), (128, 4), (1023, 0)], exact(1))


def by_their_readings(what, grammar, tokens, entries):
    """A pair of files whose readings are written out by hand."""
    frame = Frame(what, grammar_bytes(*grammar), history_bytes(tokens))
    count(frame, exact(len(entries)))
    for k, entry in enumerate(entries, 1):
        reading(frame, k, frame.n + 1, entry)
    reading(frame, len(entries) + 1, frame.n + 2, 18)
    every_reading(frame)
    # a call of the service for each rule at each position
    if (frame.n + 1) * len(frame.rules) <= 400:
        sums(frame)


def other_frames():
    # 128 rules, each start, readings that differ in one place
    for what, grammar, tokens, entries, _ in choice_frames():
        by_their_readings(what, grammar, tokens, entries)
    # names that differ in one bit, or above a bit alone
    for what, _, _, grammar, tokens, entries in chains():
        by_their_readings(what, grammar, tokens, entries)
    # 31 ways through every step, behind 65 rules that no reading has
    ways = [[1, 0, k, 0] for k in range(65)] + [[2, 31, 0, k, 0, 31] for k in range(31)] + [[0, 31 - k] for k in range(32)]
    frame = Frame("31 ways through a step, 128 rules", grammar_bytes(32, ways, 31), history_bytes((OPEN + CLOSE) * 3))
    limits(frame)
    for r in (64, 65, 95, 96, 126, 127):
        count_at(frame, 1, r)


# ---- refusals
MANY_NESTED = history_bytes(OPEN * 129 + CLOSE * 129)
NAME = [128, 128, 4]  # 65,536
REFUSED_GRAMMARS = [
    ([], 1), ([128], 1), ([3], 1), ([3, 1, 0], 1), ([0], 1), ([0, 3, 1], 1), ([128, 0], 2), ([3, 135, 0], 2), ([1, 1, 1, 0, 128, 128, 128], 2),
    ([33, 1, 0, 0], 3), ([0, 0], 3), ([0, 33], 3), ([1, 0], 4), ([1, 129, 1], 4), ([0, 1, 0, 0], 4), ([1, 1, 3], 5), ([1, 1, 0, 1], 6),
    ([0, 1, 1], 6), ([1, 1, 1, 0] + NAME + [0], 7), ([1, 1, 2, 0, 0, 0] + NAME + [0], 7), ([1, 2, 0, 0, 0, 0], 8), (list(G) + [0], 9),
    ([0, 3, 1] + list(G[1:]) + [0], 9),
]
REFUSED_HISTORIES = [
    ([], 1), ([128], 1), ([1], 1), ([3, 1, 0], 1), ([128, 0], 2), ([131, 0, 1, 0, 2], 2), ([1, 128, 128, 128], 2), ([129, 8] + MARK * 1025, 10),
    ([1, 3], 11), ([1, 128, 128, 16], 11), ([1, 2], 12), ([3, 1, 2, 2], 12), ([1, 1], 13), ([2, 1, 1, 0], 13), (MANY_NESTED, 14), ([0, 0], 9),
    ([3, 1, 0, 2, 0], 9),
]


def refused(name, g, h, number):
    """Before 15 and before 18: with room and without, at numbers and positions that would be refused."""
    frame = Frame("%s: %d" % (name, number), g, h)
    count(frame, refusal(number))
    for p, r in [(0, 0), (0, 200), (2000, 0), (LAST, LAST)]:
        count_at(frame, p, r, refusal(number))
    for k, size in [(1, 8), (0, 8), (0, 0), (LAST, 3)]:
        reading(frame, k, size, number)


def refusals():
    for i, (g, number) in enumerate(REFUSED_GRAMMARS):
        refused("refused grammar %d" % i, g, [0], number)
    for i, (h, number) in enumerate(REFUSED_HISTORIES):
        refused("refused history %d" % i, G, h, number)
    refused("both files at fault", [1, 0], [1, 3], 4)
    refused("both files at fault, the grammar at its end", list(G) + [0], [128], 9)


# ---- drawn ones, the same at every run
class Questions:
    """What is asked of a drawn pair of files."""

    def __init__(self, frame, r):
        self.frame, self.r = frame, r

    def places(self):
        """A rule that stands at a position in some reading, and any."""
        frame = self.frame
        p = self.r.randrange(frame.n + 1)
        stand = [r for r in range(len(frame.rules)) if frame.at(p, r)]
        return {(p, self.r.choice(stand or [0])), (self.r.randrange(frame.n + 1), self.r.randrange(len(frame.rules)))}

    def numbers(self):
        most = min(self.frame.total, LAST)
        return sorted({most, self.r.randint(1, max(most, 1)), self.r.choice([0, 1, min(most + 1, LAST)])})

    def ask(self):
        frame = self.frame
        count(frame)
        for p, r in sorted(self.places()):
            count_at(frame, p, r)
        for k in self.numbers():
            reading(frame, k, frame.n + self.r.choice([0, 1, 1, 1, 2, 5]))


def drawn_small(wanted):
    seed = 20000
    while wanted > 0:
        seed += 1
        draw, most = Draw(seed, with_start=seed % 2 == 1), (6, 12, 18)[seed % 3]
        tokens = draw.changed(draw.tokens(draw.start or 0, most))
        frame = Frame("drawn %d" % seed, grammar_bytes(draw.stages, draw.rules, draw.start), history_bytes(tokens))
        # few of those with no reading or one
        if frame.total < 2 and draw.r.random() < 0.9:
            continue
        Questions(frame, draw.r).ask()
        whole(frame)
        wanted -= 1


def drawn_large(wanted):
    """A level again and again: as often as it has an exact count, and once more, so that it is over."""
    seed = 40000
    while wanted > 0:
        seed += 1
        draw = Draw(seed, with_start=seed % 2 == 1)
        g, level, times = grammar_bytes(draw.stages, draw.rules, draw.start), draw.tokens(draw.start or 0, 10), 1
        frames = []
        while len(level) * times < 200 and (times < 4 or frames[-1].total > 1):
            frames.append(Frame("drawn %d, %d times" % (seed, times), g, history_bytes(level * times)))
            if frames[-1].total > LAST:
                break
            times += 1
        if not frames or frames[-1].total <= LAST:
            continue
        for frame in frames[-2:]:
            Questions(frame, draw.r).ask()
        wanted -= 1


def main():
    answered(__doc__, sys.argv[1:], not sys.argv[1:])
    examples()
    examples_at_the_top()
    small()
    near_the_top()
    products()
    dues()
    nested()
    longest()
    other_frames()
    refusals()
    drawn_small(150)
    drawn_large(16)
    assert len(CASES) <= 10000, "more than the program compares"
    assert max(map(len, CASES)) < 256, "a label is too long"
    for frame in FRAMES.values():
        frame.hold()
    write_cases("test_counts", list(CASES.values()))


if __name__ == "__main__":
    main()
