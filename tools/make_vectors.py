#!/usr/bin/env python3
"""Writes crates/test_vectors/data/cases.bin and crates/test_vectors/stdout: cases for the services, and the line due for each.

Run from the repository's root, when the cases change. The readings of document 01's examples, of those with a recorded start, of those with
names above 63 and of those for the count of choices are written out by hand; those of the others are found by the search of
make_listings.py. No part of the library is run.
"""
import itertools
import random
import sys

from choice_frames import choice_frames
from frames import CLOSE, EXCHANGED, G, MARK, OPEN, Refused, grammar_bytes, history_bytes, read_grammar, read_history
from make_listings import choices, readings
from wide_names import PAIRS, chains, lost, masks
from usage import answered

SHOW, MARKS = 1, 2
ALL = 65535
CASES, DUE = [], []


def two(n):
    return bytes([n % 256, n // 256])


def put(due, what, limit, label, g, h, buffer, calls):
    head = bytes([due, what]) + two(limit) + two(len(label)) + two(len(g)) + two(len(h)) + two(len(buffer)) + bytes([len(calls)])
    CASES.append(head + label.encode() + bytes(g) + bytes(h) + bytes(buffer) + bytes(calls))


def refused(label, g, h, due):
    put(due, 0, 0, label, g, h, [], [])
    DUE.append("%s: refused same;" % label)


def words(numbers):
    return " ".join(map(str, numbers))


def plain_listing(entries, size, buffer, calls):
    """Document 01's plain listing: the answers to a list of calls."""
    if len(buffer) < size:
        return [15] * len(calls)
    k = next((i + 1 for i, entry in enumerate(entries) if list(buffer[:size]) == entry), 0)
    out = []
    for kind in calls:
        if kind == 0:
            out.append(0 if entries else 100)
            k = 1 if entries else k
        elif k == 0:
            out.append(16)
        else:
            out.append(0 if k < len(entries) else 101)
            k = min(k + 1, len(entries))
    return out


def count_due(label, rules, found, whole, by_hand):
    """The choices that all readings have; where only some of them were found, as they are counted by hand."""
    count = choices(rules, found) if whole else by_hand
    if by_hand not in (None, count) or (count > 0) != (len(found) > 1):
        sys.exit("make_vectors: %s: %s choices, by hand %s" % (label, count, by_hand))
    return count


def passed(label, g, h, what=MARKS, limit=ALL, buffer=(), calls=(), due=None, count=None):
    """due: the readings and the marks as they are written out by hand, or as another form of the grammar has them; count: the choices by hand."""
    grammar, tokens = read_grammar(bytes(g)), read_history(bytes(h))
    size = len(tokens) + 1
    room = limit // size
    found = list(itertools.islice(readings(grammar, tokens), room + 1))
    whole, entries = len(found) <= room, found[:room]
    put(0, what, limit, label, g, h, buffer, calls)
    line = "%s: readings %d%s; list same; short buffers same; short answers same;" % (label, len(entries), "" if whole else " and more")
    line += " marks same;" if what & MARKS else ""
    line += " choices %d; with sets same; several readings same;" % count_due(label, grammar.rules, found, whole, count)
    line += " choice count same; sets same; calls same;" if whole else ""
    DUE.append(line)
    if what & SHOW:
        marks = [int(any(True for _ in readings(grammar, tokens[:i]))) for i in range(size)]
        if due is not None and due != (entries, marks):
            sys.exit("make_vectors: %s: %s, not %s" % (label, (entries, marks), due))
        DUE.extend("  reading " + words(entry) for entry in entries)
        DUE.append("  marks " + words(marks))
        DUE.append("  answers" + "".join(" %d" % a for a in plain_listing(entries, size, buffer, calls)))


def shown(name, g, h, entries, marks, buffer, calls, count=None):
    label = name + ", " + words(h)
    if calls:
        label += "; %s on %s" % (" ".join("first next".split()[kind > 0] for kind in calls), words(buffer))
    passed(label, g, h, SHOW | MARKS, ALL, buffer, calls, (entries, marks), count)


def of_document_01():
    # G, G with its start written out, and G with two stages exchanged have the same readings; a step of G is one choice, at its open
    for name, g in [("G", G), ("G with its start", [0, 3, 0] + list(G[1:])), ("G exchanged", EXCHANGED)]:
        shown(name, g, [0], [[0]], [1], [9], [0, 1], 0)
        two_of_3 = [[1, 3, 4, 0], [2, 5, 6, 0]]
        shown(name, g, [3, 1, 0, 2], two_of_3, [1, 0, 0, 1], [9] * 4, [0, 1, 1], 1)
        shown(name, g, [3, 1, 0, 2], two_of_3, [1, 0, 0, 1], [1, 5, 4, 0], [1], 1)  # no reading combines the sets freely
        shown(name, g, [2, 1, 2], [[1, 4, 0], [2, 6, 0]], [1, 0, 1], [9] * 5, [0, 1, 1], 1)
        four = [[1, 4, 1, 4, 0], [1, 4, 2, 6, 0], [2, 6, 1, 4, 0], [2, 6, 2, 6, 0]]
        marks = [1, 0, 1, 0, 1]
        shown(name, g, [4, 1, 2, 1, 2], four, marks, [9] * 5, [0, 1, 1, 1, 1, 0], 2)
        shown(name, g, [4, 1, 2, 1, 2], four, marks, [2, 6, 2, 6, 0], [1, 1], 2)
        shown(name, g, [4, 1, 2, 1, 2], four, marks, [1, 4, 1, 4, 1], [1, 0, 1], 2)
        shown(name, g, [4, 1, 2, 1, 2], four, marks, [2, 6, 2, 6], [1, 0], 2)
        shown(name, g, [1, 0], [], [1, 0], [9] * 3, [0, 1], 0)
        for h, due in [([1, 2], 12), ([1, 1], 13), ([1, 3], 11), ([128], 1), ([128, 0], 2)]:
            refused("%s, %s: %d" % (name, words(h), due), g, h, due)


def limits_of_document_01():
    refused("grammar 1 2 0 0 0 0: 8", [1, 2, 0, 0, 0, 0], [0], 8)
    refused("grammar 1 0: 4", [1, 0], [0], 4)
    passed("grammar 1 1 1 0 0 0, 0", [1, 1, 1, 0, 0, 0], [0], SHOW | MARKS, ALL, [9], [0, 1], ([], [0]))
    passed("1,024 tokens", grammar_bytes(1, [[0, 0], [1, 0, 0, 0]]), history_bytes(MARK * 1024), MARKS, ALL, [1] * 1024 + [0], [1, 0, 1])
    passed("G, 1,024 tokens", G, history_bytes((OPEN + CLOSE) * 512), 0, ALL, count=512)
    refused("1,025 tokens: 10", G, [129, 8] + MARK * 1025, 10)
    passed("128 nested steps", grammar_bytes(1, [[0, 0], [2, 0, 0, 0, 0, 0]]), history_bytes(OPEN * 128 + CLOSE * 128), MARKS, ALL, [0] * 300, [1, 0, 1])
    refused("129 nested steps: 14", G, history_bytes(OPEN * 129 + CLOSE * 129), 14)
    refused("grammar before history: 4", [1, 0], [1, 3], 4)


def recorded_starts():
    # by another start than its own G reads other histories; so does G with two stages exchanged that doesn't say its start
    inside = [("G from stage 1", [0, 3, 1] + list(G[1:]), 3, 4), ("G from stage 2", [0, 3, 2] + list(G[1:]), 5, 6)]
    inside += [("G exchanged without its start", EXCHANGED[1:2] + EXCHANGED[3:], 3, 4)]
    for name, g, mark, end in inside:
        shown(name, g, [0], [[end]], [1], [9], [0, 1])
        shown(name, g, [2, 0, 0], [[mark, mark, end]], [1, 1, 1], [mark, mark, end, 9], [1, 0])
        shown(name, g, [3, 1, 0, 2], [], [1, 0, 0, 0], [1, 3, 4, 0], [1, 0])
    # stage k goes on to stage k + 1 by a mark, the last to the first, and stage 7 can end: so every start has its own length
    circle = [[1, k, 0, (k + 1) % 32] for k in range(32)] + [[0, 7]]
    for start in range(32):
        n = (7 - start) % 32
        g = grammar_bytes(32, circle, start)
        reading = [(start + i) % 32 for i in range(n)] + [32]
        passed("a circle of 32 stages, start %d" % start, g, history_bytes(MARK * n), SHOW | MARKS, ALL, reading, [1, 0], ([reading], [0] * n + [1]))


def wide_names():
    """Document 02's examples of names above 63, and others like them."""
    marks = [1, 3, 0, 0, 1, 0, 1, 0, 1, 0, 129, 2, 0]
    shown("marks 1 and 257", marks, [1, 4], [[1, 0]], [1, 1], [1, 0], [1, 0])
    shown("marks 1 and 257", marks, [1, 132, 8], [[2, 0]], [1, 1], [1, 0], [1, 0])
    opens = [1, 3, 0, 0, 2, 0, 1, 0, 0, 0, 2, 0, 129, 2, 0, 0, 0]
    shown("opens 1 and 257", opens, [2, 5, 2], [[1, 0, 0]], [1, 0, 1], [1, 0, 0], [1, 0])
    shown("opens 1 and 257", opens, [2, 133, 8, 2], [[2, 0, 0]], [1, 0, 1], [1, 0, 0], [1, 0])
    # 16,385 and 65,281 are 1 to a reader who drops high bits
    for high in ([128, 4], [248, 15]):
        shown("marks 1 and 257", marks, [1, 132] + high, [], [1, 0], [1, 0], [1, 0])
        shown("opens 1 and 257", opens, [2, 133] + high + [2], [], [1, 0, 0], [1, 0, 0], [1, 0])
    closes = [1, 3, 0, 0, 2, 0, 192, 184, 2, 0, 255, 255, 3, 0, 2, 0, 192, 184, 2, 0, 255, 255, 1, 0]
    for close, entries in [([254, 255, 15], [[1, 0, 0]]), ([254, 255, 7], [[2, 0, 0]]), ([254, 247, 15], [])]:
        shown("closes 65,535 and 32,767", closes, [2, 129, 226, 9] + close, entries, [1, 0, len(entries)], [1, 0, 0], [1, 0])
    # a mark, an open and a close of one name have nothing to do with each other
    three = grammar_bytes(1, [[0, 0], [1, 0, 65535, 0], [2, 0, 65535, 0, 65535, 0]])
    mark, step_open, step_close = [252, 255, 15], [253, 255, 15], [254, 255, 15]
    shown("all of name 65,535", three, [4] + mark + step_open + mark + step_close, [[1, 2, 1, 0, 0]], [1, 1, 0, 0, 1], [9] * 5, [0, 1])


def refused_names():
    """Numbers of three bytes and names that are turned down, in the grammar and in the history."""
    histories = [([128, 128], 1), ([128, 128, 0], 2), ([128, 128, 128], 2), ([128, 128, 1], 10)]
    for h, due in histories + [([1, 255, 255, 15], 11), ([1, 128, 128, 16], 11), ([1, 251, 255, 15], 11)]:
        refused("G, %s: %d" % (words(h), due), G, h, due)
    for n, due in [([128, 128], 1), ([128, 128, 0], 2), ([128, 128, 128], 2), ([128, 128, 4], 7), ([255, 255, 127], 7)]:
        rest = [] if due == 1 else [0]
        for g in ([1, 1, 1, 0] + n + rest, [1, 1, 2, 0] + n + rest * 3, [1, 1, 2, 0, 0, 0] + n + rest):
            refused("grammar %s: %d" % (words(g), due), g, [0], due)
    for g, due in [([128, 128], 1), ([128, 128, 0], 2), ([128, 128, 128], 2), ([128, 128, 1], 3), ([0, 1, 128, 128, 1], 6)]:
        refused("grammar %s: %d" % (words(g), due), g, [0], due)


# ---- names that differ in one bit, or above a bit alone
def answers(grammar, tokens, right, calls):
    """What each service gives: next reading after each of the right ones, a list of calls on the first of them."""
    found = list(readings(grammar, tokens))
    size = len(tokens) + 1
    return {
        "first reading": found[:1],
        "next reading": [found[found.index(entry) + 1:][:1] if entry in found else 16 for entry in right],
        "list of calls": plain_listing(found, size, right[0], calls),
        "sets": [set(column) for column in zip(*found)],
        "choice count": choices(grammar.rules, found),
        "stop marks": [int(any(True for _ in readings(grammar, tokens[:i]))) for i in range(size)],
    }


def told_apart():
    """Each service would answer otherwise if it lost a bit of a name, in the grammar, in the history or in both."""
    calls = [1, 1, 0, 1]
    for label, kind, names, grammar, tokens, entries in chains():
        due = answers(grammar, tokens, entries, calls)
        for mask in masks(names):
            for where, other_grammar, other_tokens in lost(kind, grammar, tokens, mask):
                other = answers(other_grammar, other_tokens, entries, calls)
                same = [service for service in due if due[service] == other[service]]
                if same:
                    sys.exit("make_vectors: %s, cut to %x in %s: the same %s" % (label, mask, where, same))
        marks = [0] * len(tokens) + [1]
        passed(label, grammar_bytes(*grammar), history_bytes(tokens), SHOW | MARKS, ALL, entries[0], calls, (entries, marks))


def heads():
    """Faults before the rules, with a history that passes and with one that doesn't."""
    heads = [([0], 1), ([0, 0], 3), ([0, 0, 0, 0], 3), ([128, 0], 2), ([0, 1, 1], 6), ([0, 1], 1), ([0, 33], 3), ([0, 128, 0], 2), ([0, 1, 0, 0], 4), ([0, 1, 0], 1)]
    heads += [([0, 131], 1), ([0, 3, 129], 1), ([0, 3, 1, 129], 1), ([0, 3, 1, 1], 1), ([0, 131, 0, 1, 1, 0, 0], 2), ([0, 3, 129, 0, 1, 0, 0], 2)]
    heads += [([0, 3, 1, 129, 0, 0, 0], 2), ([0, 32, 32, 1, 0, 0], 6), ([0, 3, 128, 1, 1, 0, 0], 6), ([0, 3, 3, 0], 6), ([0, 33, 33, 0], 3), ([0, 3, 2, 129, 1, 0, 0], 4)]
    heads += [([0] + list(G), 6), ([0, 1, 3] + list(G[1:]), 6), ([0, 0, 3, 0] + list(G[1:]), 3), ([0, 3, 1] + list(G[1:]) + [0], 9)]
    for g, due in heads:
        refused("grammar %s: %d" % (words(g), due), g, [0], due)
        refused("grammar %s, history 1 3: %d" % (words(g), due), g, [1, 3], due)


def largest():
    # 1,285 bytes: no stage can end, so there is no reading
    steps = [[2, 31, 49152 + k // 64, 31, 49152 + k % 64, 31] for k in range(128)]
    tokens = [4 * 49152 + 1, 4 * (49152 + 62) + 2, 4 * 49153 + 1, 4 * (49152 + 61) + 2, 4 * 49152 + 1, 4 * 49152 + 2]
    endless = grammar_bytes(32, steps, 31)
    passed("128 rules of ten bytes, start 31", endless, history_bytes(tokens[4:]), SHOW | MARKS, ALL, [9] * 3, [0, 1], ([], [0, 0, 0]))
    # as large but for one rule: a step of two names by its own rule, and the start can end
    ended = steps[:127] + [[0, 31]]
    reading = [62, 127, 125, 127, 0, 127, 127]
    passed("127 steps, start 31", grammar_bytes(32, ended, 31), history_bytes(tokens), SHOW | MARKS, ALL, reading, [1, 0], ([reading], [1, 0, 1, 0, 1, 0, 1]))
    # 3,074 bytes
    wide = [[0, 0], [1, 0, 65535, 0], [2, 0, 65535, 0, 65535, 0]]
    tokens = [262140, 262141, 262142, 262140] * 256
    passed("1,024 tokens of three bytes", grammar_bytes(1, wide), history_bytes(tokens), 0, ALL, [1, 2, 0, 1] * 256 + [0], [1, 0, 1])
    # 31 ways through every step, behind 64 rules that no reading has
    ways = [[1, 0, k, 0] for k in range(64)] + [[2, 31, 0, k, 0, 31] for k in range(31)] + [[0, 31 - k] for k in range(32)]
    for start in (31, 0):
        passed("31 ways through a step, start %d" % start, grammar_bytes(32, ways, start), history_bytes(OPEN + CLOSE), MARKS, ALL, [64, 126, 95], [1, 1, 0])


def wrong_turns():
    # two form 2 rules that differ only in the close name are two rules, and the name at the close decides
    closes = grammar_bytes(1, [[0, 0], [2, 0, 0, 0, 0, 0], [2, 0, 0, 0, 1, 0]])
    passed("close names 0 and 1", closes, history_bytes([1, 1, 6, 2, 1, 2]), SHOW | MARKS, ALL, [1, 2, 0, 0, 1, 0, 0], [1, 0])
    # a mark that leads to a nonterminal with no way on is kept by no reading
    passed("a mark that leads nowhere", grammar_bytes(3, [[1, 0, 0, 1], [1, 0, 0, 2], [0, 1], [1, 2, 0, 2]]), history_bytes(MARK), SHOW | MARKS, ALL, [1, 2], [1, 0, 1])
    # a return goes to the nonterminal of the rule that opened this step
    opened = grammar_bytes(4, [[2, 0, 0, 1, 0, 2], [2, 0, 1, 1, 0, 3], [0, 1], [1, 2, 0, 1], [1, 3, 1, 1]])
    passed("the rule that opened the step", opened, history_bytes([1, 2, 4]), SHOW | MARKS, ALL, [0, 2, 4, 2], [1, 0])
    passed("the same, with its own mark", opened, history_bytes([1, 2, 0]), SHOW | MARKS, ALL, [0, 2, 3, 2], [1, 0])
    # an inside that stops early
    early = grammar_bytes(2, [[0, 0], [2, 0, 0, 1, 0, 0], [1, 1, 0, 1], [1, 1, 1, 0]])
    passed("an inside that stops early", early, history_bytes([1, 0, 2]), SHOW | MARKS, ALL, [1, 2, 0, 0], [1, 0])
    passed("the same inside to its end", early, history_bytes([1, 0, 4, 2]), SHOW | MARKS, ALL, [1, 2, 3, 0, 0], [1, 0])


def counted_by_hand():
    for what, grammar, tokens, entries, count in choice_frames():
        # the list of calls begins on the last reading, or on bytes that are none
        buffer = (entries or [[9] * (len(tokens) + 1)])[-1]
        marks = [int(any(True for _ in readings(grammar, tokens[:i]))) for i in range(len(tokens) + 1)]
        passed(what, grammar_bytes(*grammar), history_bytes(tokens), SHOW | MARKS, ALL, buffer, [1, 0, 1, 1], (entries, marks), count)


def many_readings():
    for k in range(1, 11):
        h = history_bytes((OPEN + CLOSE) * k)
        last = [2, 6] * k + [0]
        passed("%d steps of G, 2^%d readings" % (k, k), G, h, MARKS if k < 8 else 0, ALL, last, [1, 0, 1, 1], count=k)
    passed("340 ambiguous steps", G, history_bytes((OPEN + MARK + CLOSE) * 340), 0, ALL, count=340)
    # a mark leads to either stage, and the last to the stage that can end: by a rule of either stage, which is no choice
    either = [[1, 0, 0, 0], [1, 0, 0, 1], [1, 1, 0, 0], [1, 1, 0, 1], [0, 0]]
    passed("1,024 marks, 2^1,023 readings", grammar_bytes(2, either), history_bytes(MARK * 1024), 0, ALL, count=1023)
    passed("128 nested steps of two rules", grammar_bytes(1, [[0, 0], [2, 0, 0, 0, 0, 0], [1, 0, 0, 0]]), history_bytes(OPEN * 128 + MARK * 700 + CLOSE * 128), MARKS, ALL)


class Draw:
    """A random grammar with few names and nonterminals, so that readings are many, and a history that is likely to have some."""

    def __init__(self, seed, with_start=False):
        self.r = random.Random(seed)
        self.names = ([(0, 1)] + PAIRS)[seed % (1 + len(PAIRS))]
        self.stages = self.r.randint(1, 4)
        self.start = self.r.randrange(self.stages) if with_start else None
        self.rules = []
        for _ in range(self.r.randint(2, 11)):
            rule = self.rule()
            if rule not in self.rules:
                self.rules.append(rule)

    def stage(self):
        return self.r.randrange(self.stages)

    def name(self):
        return self.names[self.r.randrange(2)]

    def rule(self):
        form = self.r.choice([0, 1, 1, 2, 2])
        if form == 0:
            return [0, self.stage()]
        if form == 1:
            return [1, self.stage(), self.name(), self.stage()]
        return [2, self.stage(), self.name(), self.stage(), self.name(), self.stage()]

    def tokens(self, stage, left):
        """Tokens that a stage derives, or nearly: where no rule ends it the level just stops."""
        fits = [rule for rule in self.rules if rule[1] == stage and (rule[0] == 0 or left > 0)]
        if not fits:
            return []
        rule = self.r.choice(fits)
        if rule[0] == 0:
            return []
        if rule[0] == 1:
            return [4 * rule[2]] + self.tokens(rule[3], left - 1)
        inside = self.tokens(rule[3], left // 2)
        return [4 * rule[2] + 1] + inside + [4 * rule[4] + 2] + self.tokens(rule[5], left - len(inside) - 2)

    def changed(self, tokens):
        """Now and then one token has another name."""
        if tokens and self.r.random() < 0.2:
            i = self.r.randrange(len(tokens))
            name, kind = tokens[i] // 4, tokens[i] % 4
            tokens[i] = 4 * self.names[name == self.names[0]] + kind
        return tokens

    def buffer(self, entries, size):
        choice = self.r.random()
        if entries and choice < 0.5:
            return self.r.choice(entries) + [self.r.randrange(256) for _ in range(self.r.randrange(4))]
        if entries and choice < 0.6:
            near = list(self.r.choice(entries))
            near[self.r.randrange(size)] = self.r.randrange(len(self.rules))
            return near
        return [self.r.randrange(len(self.rules)) for _ in range(self.r.randrange(size + 4))]

    def calls(self):
        return [self.r.choice([0, 1, 1, 1, 2]) for _ in range(self.r.randrange(30))]

    def renumbered(self):
        """The same grammar with its stages in another order and the start where stage 0 has come to be."""
        order = self.r.sample(range(self.stages), self.stages)
        places = [{1}, {1, 3}, {1, 3, 5}]
        rules = [[order[n] if i in places[rule[0]] else n for i, n in enumerate(rule)] for rule in self.rules]
        return grammar_bytes(self.stages, rules, order[0])


def drawn(wanted):
    """Every other one says its start, which may be any stage."""
    seed = made = 0
    while made < wanted:
        seed += 1
        draw = Draw(seed, seed % 2 == 0)
        h = history_bytes(draw.changed(draw.tokens(draw.start or 0, 12))[:40])
        g = grammar_bytes(draw.stages, draw.rules, draw.start)
        try:
            tokens = read_history(h)
        except Refused as e:
            refused("drawn %d: %d" % (seed, e.args[0]), g, h, e.args[0])
            made += 1
            continue
        entries = list(itertools.islice(readings(read_grammar(g), tokens), 1001))
        # of those with none or one reading only some, so that most have several
        if len(entries) > 1000 or len(entries) < 2 and draw.r.random() < 0.8:
            continue
        passed("drawn %d" % seed, g, h, MARKS, ALL, draw.buffer(entries, len(tokens) + 1), draw.calls())
        made += 1


def drawn_thrice(wanted):
    """A grammar that doesn't say its start, the same with its start, 0, and with its stages in another order: the same readings and marks."""
    seed = 10000
    while wanted > 0:
        seed += 1
        draw = Draw(seed)
        tokens = draw.tokens(0, 12)[:20]
        g = grammar_bytes(draw.stages, draw.rules)
        entries = list(itertools.islice(readings(read_grammar(g), tokens), 11))
        if draw.stages < 2 or not 2 <= len(entries) <= 10:
            continue
        marks = [int(any(True for _ in readings(read_grammar(g), tokens[:i]))) for i in range(len(tokens) + 1)]
        buffer, calls = draw.buffer(entries, len(tokens) + 1), draw.calls()
        forms = [("", g), (", with its start", grammar_bytes(draw.stages, draw.rules, 0)), (", in another order", draw.renumbered())]
        for form, same in forms:
            passed("drawn %d%s" % (seed, form), same, history_bytes(tokens), SHOW | MARKS, ALL, buffer, calls, (entries, marks))
        wanted -= 1


if __name__ == "__main__":
    answered(__doc__, sys.argv[1:], not sys.argv[1:])
    of_document_01()
    limits_of_document_01()
    recorded_starts()
    wide_names()
    refused_names()
    told_apart()
    heads()
    largest()
    wrong_turns()
    counted_by_hand()
    many_readings()
    drawn(820)
    drawn_thrice(60)
    with open("crates/test_vectors/data/cases.bin", "wb") as f:
        f.write(b"".join(CASES))
    with open("crates/test_vectors/stdout", "w") as f:
        f.write("".join(line + "\n" for line in DUE))
