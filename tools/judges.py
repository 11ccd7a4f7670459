"""Judges both files by documents 01 and 02 alone, number by number in file order, from their bytes or from their numbers as elements.

The scripts that make cases find answers by these judges and hold them to the answers that they have by hand. frames.py, which the commands
go by, has a reader of its own.
"""

# Every name and every token number that there is.
NAMES = range(65536)
TOKENS = {4 * name + kind for name in NAMES for kind in range(3)}


class Refused(Exception):
    """The one argument is document 01's number."""


class Elements:
    """The numbers one behind the other, an element each."""

    def __init__(self, elements):
        self.left = iter(elements)

    def due(self):
        """The next number: "1 for too few"."""
        n = next(self.left, None)
        if n is None:
            raise Refused(1)
        return n

    def number(self, allowed, otherwise):
        """The next number; the other refusal where it isn't one of those allowed."""
        n = self.due()
        if n not in allowed:
            raise Refused(otherwise)
        return n

    def end(self):
        """Nothing follows: "9 for too many"."""
        if next(self.left, None) is not None:
            raise Refused(9)


class Bytes(Elements):
    """The numbers of a file: 1 where the bytes end, 2 for "a last byte of 0 after another byte, or a third byte with its top bit set"."""

    def due(self):
        first = super().due()
        if first < 128:
            return first
        second = super().due()
        if second == 0:
            raise Refused(2)
        if second < 128:
            return first - 128 + 128 * second
        third = super().due()
        if third == 0 or third >= 128:
            raise Refused(2)
        return first - 128 + 128 * (second - 128) + 16384 * third


def judge_grammar(source):
    """The stage count, the start and the rules."""
    # a 0 in the stage count's place: the stage count comes next, and then the start
    stages, start = source.number(range(33), 3), 0
    if stages == 0:
        stages = source.number(range(1, 33), 3)
        start = source.number(range(stages), 6)
    rules = []
    for _ in range(source.number(range(1, 129), 4)):
        form = source.number(range(3), 5)
        rule = [form]
        for field in ["L", "L c L1", "L a L1 b L2"][form].split():
            rule.append(source.number(NAMES, 7) if field in "abc" else source.number(range(stages), 6))
        if rule in rules:
            raise Refused(8)
        rules.append(rule)
    source.end()
    return stages, start, rules


def judge_history(source):
    """The tokens."""
    tokens, still_open = [], 0
    for _ in range(source.number(range(1025), 10)):
        token = source.number(TOKENS, 11)
        kind = token % 4
        if kind == 1 and still_open == 128:
            raise Refused(14)
        if kind == 2 and still_open == 0:
            raise Refused(12)
        still_open += [0, 1, -1][kind]
        tokens.append(token)
    if still_open:
        raise Refused(13)
    source.end()
    return tokens
