"""The two files, both ways: numbers, grammars and histories to bytes, and bytes back or the number of the refusal.

Every script of tools/ that writes or reads a grammar or a history does it by this module, which is written from documents 01
and 02 alone. A rule is a list of numbers, its form and then its fields in file order; a token is its number, 4 x name + kind.
"""
from typing import List, NamedTuple, Optional

# Document 01's grammar G: each of its steps has two readings. It has the short beginning.
G = bytes([3, 7, 0, 0, 2, 0, 0, 1, 0, 0, 2, 0, 0, 2, 0, 0, 1, 1, 0, 1, 0, 1, 1, 2, 0, 2, 0, 2])

# G with its stages 0 and 1 exchanged, so that stage 1 is the start: the same readings by the same rule numbers.
EXCHANGED = bytes([0, 3, 1, 7, 0, 1, 2, 1, 0, 0, 0, 1, 2, 1, 0, 2, 0, 1, 1, 0, 0, 0, 0, 0, 1, 2, 0, 2, 0, 2])

# Tokens of name 0, as lists, so that they can be repeated and joined.
MARK, OPEN, CLOSE = [0], [1], [2]

# The kinds of a token, by their number.
KINDS = ["mark", "open", "close"]

# The fields behind a rule's form, by form and in file order, with document 01's letters: L, L1 and L2 are stages, c, a and b names.
FIELDS = [
    {"L": "the stage on the left"},
    {"L": "the stage on the left", "c": "the mark's name", "L1": "the stage behind the mark"},
    {"L": "the stage on the left", "a": "the open's name", "L1": "the stage inside the step", "b": "the close's name", "L2": "the stage behind the close"},
]
NAMES = ["c", "a", "b"]

# The most bytes of a number, and the largest number that they can hold.
NUMBER_BYTES = 3
MOST = (1 << 7 * NUMBER_BYTES) - 1

# The largest name of a mark, an open or a close, and the largest token: the close of that name.
NAME_MOST = 65535
TOKEN_MOST = 4 * NAME_MOST + 2

# The most stages and rules of a grammar, tokens of a history, and steps that are open at once.
STAGES_MOST = 32
RULES_MOST = 128
TOKENS_MOST = 1024
OPEN_STEPS_MOST = 128

# As many bytes of a file the listing program reads, and the commands too. No file that passes is longer, and what stands behind these bytes
# changes no answer.
FILE_BYTES = 4096


class Grammar(NamedTuple):
    """What a grammar file says, in the order of grammar_bytes, so that grammar_bytes(*grammar) is the file again.

    `recorded` is the start stage as the long beginning has it: 0, stage count, start, rule count. It is None where the file has the short
    one, stage count and rule count; there stage 0 is the start.
    """
    stages: int
    rules: List[List[int]]
    recorded: Optional[int] = None

    @property
    def start(self):
        return 0 if self.recorded is None else self.recorded


def token_words(token):
    """A token as its kind and its name, for a number that is one."""
    return "%s %d" % (KINDS[token % 4], token // 4)


class Refused(Exception):
    """A file is turned down. The one argument is document 01's number; the attributes say where.

    number    that number
    at, end   the bytes at fault: from `at` on and before `end`; all that is there of a number which the end of the file cuts off (1)
    item      the number of the rule or token, from 0; None before the first one and behind the last
    first     the byte where that rule or token begins
    form      the rule's form, once it is read
    field     "stage count", "start", "rule count", "token count", "form", "token" or a letter of FIELDS; None where no single number is
              at fault
    value     the number found
    allowed   the least and the largest number that would do
    due       how many rules or tokens the file says it has, once that is read
    others    rules or tokens that explain it, each as its number and the byte where it begins: the rule before (5), the earlier rule (8),
              the opens of the steps that are open, outermost first (13, 14)
    """

    def __init__(self, number, at, end, place, field=None, value=None, allowed=None, others=()):
        super().__init__(number)
        self.number, self.at, self.end = number, at, end
        self.item, self.first, self.form, self.due = place
        self.field, self.value, self.allowed, self.others = field, value, allowed, list(others)


# ---- to bytes
def number_bytes(n):
    """A number below 128 is its own byte; otherwise its low group with 128 added, and behind it the bytes of the number above it."""
    if not 0 <= n <= MOST:
        raise ValueError("%d does not fit in three bytes of seven bits" % n)
    return bytes([n]) if n < 128 else bytes([n % 128 + 128]) + number_bytes(n // 128)


def numbers_bytes(numbers):
    return b"".join(map(number_bytes, numbers))


def grammar_bytes(stages, rules, start=None):
    """With a start the long form, as a writer writes it; without one the short form, whose start is stage 0."""
    beginning = [stages, len(rules)] if start is None else [0, stages, start, len(rules)]
    return numbers_bytes(beginning + [n for rule in rules for n in rule])


def history_bytes(tokens):
    return numbers_bytes([len(tokens)] + tokens)


# ---- from bytes, with the refusals in document 01's order
def number_from(groups):
    """The number that these bytes are: groups of seven bits, the lowest first, whatever their top bits."""
    return sum(group % 128 << 7 * place for place, group in enumerate(groups))


class Reader:
    """The numbers of a file one behind the other, and where the next one begins.

    With `lax` only those faults are refused that the readable form (frame_text.py) can't hold.
    """

    def __init__(self, data, lax=False):
        self.data, self.lax, self.at = data, lax, 0
        self.item = self.first = self.form = self.due = None

    def begin(self, item):
        self.item, self.first, self.form = item, self.at, None

    def refuse(self, number, at, must=False, **more):
        if must or not self.lax:
            raise Refused(number, at, self.at, (self.item, self.first, self.form, self.due), **more)

    def number(self, field):
        """One to three groups of seven bits, the lowest first: 128 is added to each but the last, which is 0 only where it is alone."""
        at, before = self.at, 0
        there = self.data[at:at + NUMBER_BYTES]
        while before < len(there) and there[before] >= 128:
            before += 1
        groups = there[:before + 1]
        self.at += len(groups)
        if before == len(groups):
            self.refuse(2 if before == NUMBER_BYTES else 1, at, must=True, field=field)
        if before and groups[-1] == 0:
            self.refuse(2, at, must=True, field=field)
        return number_from(groups)

    def within(self, field, least, most, refusal, must=False, others=()):
        """A number that has to be one from least to most."""
        at = self.at
        n = self.number(field)
        if not least <= n <= most:
            self.refuse(refusal, at, must, field=field, value=n, allowed=(least, most), others=others)
        return n

    def end(self):
        """Nothing follows."""
        self.item = self.first = self.form = None
        if self.at < len(self.data):
            at, self.at = self.at, len(self.data)
            self.refuse(9, at, must=True)


def read_rule(reader, stages, before):
    form = reader.within("form", 0, 2, 5, must=True, others=before)
    reader.form = form
    rule = [form]
    for field in FIELDS[form]:
        rule.append(reader.within(field, 0, NAME_MOST, 7) if field in NAMES else reader.within(field, 0, stages - 1, 6))
    return rule


def read_beginning(reader):
    """What stands before the rules: the stage count, and the start where it is recorded. The reader keeps the rule count."""
    # a 0 in the shortest form is this byte, and no other number begins with it
    recorded = reader.data[:1] == b"\x00"
    if recorded:
        reader.number("leading 0")
    stages = reader.within("stage count", 1, STAGES_MOST, 3)
    start = reader.within("start", 0, stages - 1, 6) if recorded else None
    reader.due = reader.within("rule count", 1, RULES_MOST, 4)
    return stages, start


def read_grammar(data, lax=False):
    """A grammar file, of either beginning."""
    reader = Reader(data, lax)
    stages, start = read_beginning(reader)
    rules, places, before = [], {}, []
    for item in range(reader.due):
        reader.begin(item)
        rule = read_rule(reader, stages, before)
        before = [(item, reader.first)]
        earlier = places.setdefault(tuple(rule), before[0])
        if earlier != before[0]:
            reader.refuse(8, reader.first, others=[earlier])
        rules.append(rule)
    reader.end()
    return Grammar(stages, rules, start)


def read_history(data, lax=False):
    """A history file's tokens."""
    reader = Reader(data, lax)
    reader.due = reader.within("token count", 0, TOKENS_MOST, 10)
    tokens, opens = [], []
    for item in range(reader.due):
        reader.begin(item)
        t = reader.within("token", 0, TOKEN_MOST, 11)
        at = reader.first
        if t % 4 == 3:
            reader.refuse(11, at, must=True, field="token", value=t, allowed=(0, TOKEN_MOST))
        if t % 4 == 1:
            if len(opens) == OPEN_STEPS_MOST:
                reader.refuse(14, at, field="token", value=t, others=opens)
            opens.append((item, at))
        if t % 4 == 2:
            if not opens:
                reader.refuse(12, at, field="token", value=t)
            opens[-1:] = []
        tokens.append(t)
    if opens:
        still_open(reader, opens)
    reader.end()
    return tokens


def still_open(reader, opens):
    """The place of the refusal is the outermost of the opens."""
    item, at = opens[0]
    after, reader.at = reader.at, at
    reader.begin(item)
    value = reader.number("token")
    reader.refuse(13, at, field="token", value=value, others=opens)
    reader.at = after
