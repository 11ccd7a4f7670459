"""What the tests in Python share: the library made, its module and the reader of tools/ at hand, frames by fixed seeds, and choices found
from readings alone."""
import itertools
import os
import random
import shutil
import subprocess
import sys
import tempfile
import unittest

ROOT = os.path.dirname(os.path.dirname(os.path.realpath(__file__)))
sys.path[:0] = [os.path.join(ROOT, "python"), os.path.join(ROOT, "tools")]
subprocess.run([os.path.join(ROOT, "tools", "build"), "library"], check=True, stdin=subprocess.DEVNULL)

from commands import command, started  # noqa: E402
from frames import CLOSE, EXCHANGED, G, MARK, OPEN, grammar_bytes, history_bytes, read_grammar, read_history  # noqa: E402

# G with its start written out, G's rules from stage 1 on, and the grammar with two stages exchanged as if it started at stage 0.
LONG_G, G_FROM_1, NOT_EXCHANGED = bytes([0, 3, 0]) + G[1:], bytes([0, 3, 1]) + G[1:], EXCHANGED[1:2] + EXCHANGED[3:]
# Beginnings of a grammar file at fault, and the number of each.
FAULTY_BEGINNINGS = [([0], 1), ([0, 0], 3), ([0, 0, 0, 0], 3), ([128, 0], 2), ([0, 1], 1), ([0, 1, 1], 6), ([0, 33], 3), ([0, 128, 0], 2),
                     ([0, 1, 0, 0], 4), ([0, 1, 0], 1), ([0, 1, 1, 0], 6), ([0, 3, 3] + list(G[1:]), 6)]

# Pairs of names: small ones, and such as differ in a single high bit, or in all above the lowest eight.
NAME_PAIRS = [(0, 1), (0, 1), (1, 257), (1, 16385), (65535, 32767), (40000, 7232), (1, 65281), (65280, 0)]
# Marks 1 and 257; then steps that open by 40,000 and close by 65,535 or by 32,767.
WIDE_MARKS = bytes([1, 3, 0, 0, 1, 0, 1, 0, 1, 0, 129, 2, 0])
WIDE_STEPS = bytes([1, 3, 0, 0, 2, 0, 192, 184, 2, 0, 255, 255, 3, 0, 2, 0, 192, 184, 2, 0, 255, 255, 1, 0])
# Grammar, history and listing of frames with wide names, by hand. Where there is none, a name is another than that of each rule: mark
# 16,385 and 65,281, close 65,279, open 7,232 and 65,344.
WIDE_FRAMES = [
    (WIDE_MARKS, [1, 4], "tokens 1\nchoices 0\n1: 1 0\nend 1\n"),
    (WIDE_MARKS, [1, 132, 8], "tokens 1\nchoices 0\n1: 2 0\nend 1\n"),
    (WIDE_MARKS, [3, 132, 8, 4, 132, 8], "tokens 3\nchoices 0\n1: 2 1 2 0\nend 1\n"),
    (WIDE_MARKS, [1, 132, 128, 4], "tokens 1\nnone\n"),
    (WIDE_MARKS, [1, 132, 248, 15], "tokens 1\nnone\n"),
    (WIDE_STEPS, [2, 129, 226, 9, 254, 255, 15], "tokens 2\nchoices 0\n1: 1 0 0\nend 1\n"),
    (WIDE_STEPS, [2, 129, 226, 9, 254, 255, 7], "tokens 2\nchoices 0\n1: 2 0 0\nend 1\n"),
    (WIDE_STEPS, [2, 129, 226, 9, 254, 247, 15], "tokens 2\nnone\n"),
    (WIDE_STEPS, [2, 129, 226, 1, 254, 255, 15], "tokens 2\nnone\n"),
    (WIDE_STEPS, [2, 129, 250, 15, 254, 255, 15], "tokens 2\nnone\n"),
    (WIDE_STEPS, [4, 129, 226, 9, 129, 226, 9, 254, 255, 7, 254, 255, 15], "tokens 4\nchoices 0\n1: 1 2 0 0 0\nend 1\n"),
]
# A step of two kinds, of which the first goes on in two ways, so positions 0 and 1 are choices: grammar and history. The set of position 1
# is {2, 3, 5}, where 2 and 3 are of stage 1 and 5 is of stage 2; position 2 follows.
TWO_CHOICES = bytes([4, 8, 2, 0, 0, 1, 0, 3, 2, 0, 0, 2, 0, 3, 1, 1, 0, 3, 1, 1, 0, 1, 0, 1, 1, 2, 0, 3, 0, 3, 0, 2]), bytes([3, 1, 0, 2])
# The same with rules 3 and 5 exchanged: between the two rules of stage 1 stands that of stage 2.
APART = bytes([4, 8, 2, 0, 0, 1, 0, 3, 2, 0, 0, 2, 0, 3, 1, 1, 0, 3, 1, 2, 0, 3, 0, 1, 1, 1, 0, 1, 0, 3, 0, 2]), bytes([3, 1, 0, 2])
# n marks 0 have 2^n - 1 readings: by rule 0 up to some mark, rule 1 there, and from then on either of two rules.
ALL_BUT_ONE = bytes([3, 8, 1, 0, 0, 0, 1, 0, 0, 1, 1, 1, 0, 1, 1, 1, 0, 2, 0, 1, 1, 2, 0, 1, 1, 2, 0, 2, 0, 2])
# A step with any number of marks 0 inside, each by either of two rules, and marks 1 behind it.
STEP_AND_MARKS = bytes([4, 9, 2, 0, 0, 1, 0, 2, 1, 1, 0, 1, 1, 1, 0, 3, 0, 1, 1, 3, 0, 1, 1, 3, 0, 3, 0, 3, 1, 2, 1, 2, 0, 2])
# First numbers of a file at fault, whichever file it is, and the number of each.
FAULTY_NUMBERS = [([128], 1), ([128, 128], 1), ([128, 0], 2), ([128, 128, 0], 2), ([128, 128, 128], 2), ([128, 128, 128, 1], 2), ([255, 255, 255], 2)]

LIBRARY = os.path.join(ROOT, "target", "shared", "libgaffmedlar.so")
# The library that has just been made; so nothing has to look whether it is new.
os.environ["GAFFMEDLAR_LIBRARY"] = LIBRARY
# Each runs in a child of the test.
PROGRAMS = {path: command(path) for path in (os.path.join(ROOT, "survey"), os.path.join(ROOT, "explain"))}
SAMPLES = sorted(os.listdir(os.path.join(ROOT, "samples")))


def sample(name, file):
    with open(os.path.join(ROOT, "samples", name, file), "rb") as f:
        return f.read()


def random_tokens(draw, length, names=(0, 1)):
    """A well-matched row of tokens with these two names."""
    tokens, opens = [], 0
    while len(tokens) + opens < length:
        kind = draw.choice((0, 0, 1, 2))
        if kind == 2 and opens == 0:
            continue
        opens += (kind == 1) - (kind == 2)
        tokens.append(4 * draw.choice(names) + kind)
    return tokens + [4 * names[0] + 2] * opens


def random_frame(draw):
    """A grammar of either beginning, with any start, and a history; both pass, and most of these have readings. All names are two."""
    stages, names = draw.randint(1, 3), draw.choice(NAME_PAIRS)
    def stage():
        return draw.randrange(stages)
    def name():
        return draw.choice(names)
    def rule():
        form = draw.choice((1, 1, 2, 2, 2))
        if form == 1:
            return (1, stage(), name(), stage())
        return (2, stage(), name(), stage(), name(), stage())
    rules = {(0, k): None for k in range(stages)}
    rules.update((rule(), None) for _ in range(draw.randint(4, 24)))
    rules = list(rules)
    draw.shuffle(rules)
    start = draw.choice((None, 0, stage(), stage()))
    return grammar_bytes(stages, rules, start), history_bytes(random_tokens(draw, draw.randint(0, 12), names))


def ambiguous_frame(draw):
    """A grammar with many of the rules that there can be for one name, and a history of up to 150 tokens: with 2^64 readings more or less."""
    stages = range(draw.randint(1, 4))
    rules = [(0, k) for k in stages if draw.randrange(8)] + [(1, k, 0, m) for k in stages for m in stages]
    rules += [(2, k, 0, m, 0, s) for k in stages for m in stages for s in stages]
    kept = draw.choice((0.2, 0.4, 0.8))
    rules = [rule for rule in rules if rule[0] == 0 or draw.random() < kept] or [(0, 0)]
    draw.shuffle(rules)
    tokens = random_tokens(draw, draw.randint(1, 150), (0, 0))
    return grammar_bytes(len(stages), rules, draw.choice((None, draw.choice(stages)))), history_bytes(tokens)


def long_form(grammar):
    """A grammar file that passes, as a writer gives it: with its start written out."""
    read = read_grammar(grammar)
    return grammar_bytes(read.stages, read.rules, read.start)


def damaged(draw, data):
    """A file with a few bytes changed, left out, put in, or with its end cut off."""
    data = bytearray(data)
    for _ in range(draw.randint(1, 3)):
        at, byte = draw.randint(0, len(data)), draw.choice((0, 1, 2, 3, 4, 15, 16, 31, 32, 33, 127, 128, 129, 255, draw.randrange(256)))
        what = draw.randrange(4)
        if what == 0:
            data[at:at + 1] = [byte]
        elif what == 1:
            data[at:at] = [byte]
        elif what == 2:
            del data[at:at + 1]
        elif draw.randrange(4) == 0:
            del data[at:]
    return bytes(data)


def frame_with(*widths):
    """One step behind the other, each with a name of its own and as many rules as its width: the product of the widths is how many
    readings there are."""
    stages = 1 + max(widths)
    steps = [[2, 0, name, 1 + k, name, 0] for name, width in enumerate(widths) for k in range(width)]
    rules = [[0, 0]] + steps + [[0, 1 + k] for k in range(stages - 1)]
    return grammar_bytes(stages, rules), history_bytes([t for name in range(len(widths)) for t in (4 * name + 1, 4 * name + 2)])


# ---- choices, from all readings of a frame
def left_sides(grammar):
    """The stage on the left of each rule of a grammar that passes, by a reader that shares no code with others."""
    numbers, number, place = [], 0, 0
    for byte in grammar:
        number, place = number + (byte % 128 << place), place + 7
        if byte < 128:
            numbers.append(number)
            number = place = 0
    stages, at = [], 2 if numbers[0] else 4
    while at < len(numbers):
        stages.append(numbers[at + 1])
        at += (2, 4, 6)[numbers[at]]
    return stages


def choice_positions(grammar, readings):
    """The positions at which two rules of one stage stand, each in some reading."""
    stages = left_sides(grammar)
    sets = [set(rules) for rules in zip(*readings)]
    return [position for position, rules in enumerate(sets) if any(stages[a] == stages[b] for a, b in itertools.combinations(rules, 2))]


def first_differences(readings):
    """The positions at which a reading first differs from the one before it, in the order of readings. These are the choices too: two
    readings that are the same up to a position are at one stage there. No stage is looked at for it."""
    pairs = zip(readings, readings[1:])
    return sorted({next(position for position, (a, b) in enumerate(zip(*pair)) if a != b) for pair in pairs})


# ---- counts, in whole numbers of any size
class Counted:
    """How many readings a frame has, in all and with each rule at each position, and which number a reading has.

    onward[p][s] is how many ways there are to derive the rest of the level at position p from stage s, around[p][s] how many ways there are
    to derive all else of the history, where s derives that rest. So the readings with a rule at a position are found from both sides of it.
    """

    def __init__(self, grammar, history):
        self.grammar, self.tokens = read_grammar(grammar), read_history(history)
        self.close, opens = {}, []
        for position, token in enumerate(self.tokens):
            if token % 4 == 1:
                opens.append(position)
            elif token % 4 == 2:
                self.close[opens.pop()] = position
        positions = range(len(self.tokens) + 1)
        self.onward, self.around = ([[0] * self.grammar.stages for _ in positions] for _ in range(2))
        for position in reversed(positions):
            for rule in self.grammar.rules:
                self.onward[position][rule[1]] += self.ways(position, rule)
        self.around[0][self.grammar.start] = 1
        for position in positions:
            for rule in self.grammar.rules:
                self.spread(position, rule)
        self.total = self.onward[0][self.grammar.start]

    def fits(self, position, rule):
        """Whether the rule can stand at the position, by its form and its names."""
        token = self.tokens[position] if position < len(self.tokens) else 2
        form = {0: 1, 1: 2, 2: 0}[token % 4]
        names = {0: [], 1: rule[2:3], 2: rule[2:5:2]}[rule[0]]
        there = [token // 4] + ([self.tokens[self.close[position]] // 4] if form == 2 else [])
        return rule[0] == form and (form == 0 or names == there)

    def ways(self, position, rule):
        """How many ways there are to derive the rest of the level by this rule first."""
        if not self.fits(position, rule):
            return 0
        if rule[0] == 0:
            return 1
        inside = self.onward[position + 1][rule[3]]
        return inside if rule[0] == 1 else inside * self.onward[self.close[position] + 1][rule[5]]

    def spread(self, position, rule):
        around = self.around[position][rule[1]]
        if rule[0] == 0 or not around or not self.fits(position, rule):
            return
        if rule[0] == 1:
            self.around[position + 1][rule[3]] += around
        else:
            behind = self.close[position] + 1
            self.around[position + 1][rule[3]] += around * self.onward[behind][rule[5]]
            self.around[behind][rule[5]] += around * self.onward[position + 1][rule[3]]

    def at(self, position, number):
        """How many readings have the rule of this number at the position."""
        rule = self.grammar.rules[number]
        return self.around[position][rule[1]] * self.ways(position, rule)

    def number_of(self, reading):
        """The number of a reading, from 1: one more than there are readings that first differ from it by a smaller rule."""
        before, stage, behind, pending = 0, self.grammar.start, 1, []
        for position, number in enumerate(reading):
            rules = self.grammar.rules
            before += behind * sum(self.ways(position, rule) for rule in rules[:number] if rule[1] == stage)
            rule = rules[number]
            assert rule[1] == stage and self.fits(position, rule), (reading, position)
            if rule[0] == 0 and pending:
                stage, behind = pending.pop()
            elif rule[0] == 1:
                stage = rule[3]
            elif rule[0] == 2:
                pending.append((rule[5], behind))
                stage, behind = rule[3], behind * self.onward[self.close[position] + 1][rule[5]]
        return before + 1


class Listing:
    """What a listing says."""

    def __init__(self, text):
        self.lines = text.splitlines()
        self.last = self.lines[-1]
        said = dict(line.split(" ", 1) for line in self.lines if ":" not in line and " " in line)
        self.refused = self.last if self.last.startswith("refused") else None
        self.tokens, self.choices = (int(said.get(word, 0)) for word in ("tokens", "choices"))
        self.readings = [tuple(map(int, line.partition(":")[2].split())) for line in self.lines if ":" in line]
        self.more = self.last == "more 1000"


class InRoom(unittest.TestCase):
    """A test with a temporary folder, in which commands run."""

    def setUp(self):
        self.room = os.path.realpath(tempfile.mkdtemp())
        self.addCleanup(self.clear)

    def clear(self):
        for folder, below, _ in os.walk(self.room):
            for name in below:
                path = os.path.join(folder, name)
                if not os.path.islink(path):
                    os.chmod(path, 0o700)
        shutil.rmtree(self.room)

    def path(self, *names):
        return os.path.join(self.room, *names)

    def frame(self, name, grammar=None, history=None, grammar_text=None, history_text=None):
        """A folder with these files; None for one that isn't there."""
        os.makedirs(self.path(name), exist_ok=True)
        for file, data in [("grammar.bin", grammar), ("history.bin", history), ("grammar.txt", grammar_text), ("history.txt", history_text)]:
            if data is not None:
                with open(self.path(name, file), "wb") as f:
                    f.write(data.encode() if isinstance(data, str) else data)
        return self.path(name)

    def run_command(self, status, *words, cwd=None, env=None):
        """What a command prints and says; its status is the one due."""
        if words[0] in PROGRAMS and env is None:
            os.chdir(cwd or self.room)
            said = PROGRAMS[words[0]](*words[1:])
            os.chdir(ROOT)
        else:
            said = started(words, cwd=cwd or self.room, env=env)
        out = said.out.decode()
        self.assertEqual(said.status, status, out[-2000:] + said.err[-2000:])
        self.assertFalse(said.traceback, said.err)
        return out, said.err


def seeded(seed):
    return random.Random(seed)
