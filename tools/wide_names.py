"""Grammars and histories for names up to 65,535: names that differ in one bit, or above a bit alone, have to be told apart.

A rule and a token are lists of numbers and a number, as in frames.py. `chain` makes a grammar and a history whose answers all change where
a name loses that bit, in the grammar, in the history or in both; `lost` makes of them what a service would see that loses it.
"""
from frames import KINDS, Grammar

# Two names that have to be told apart: neighbours at each limit of a byte, of seven and of fourteen bits; those that differ above bit 8
# alone and above bit 14 alone; those that are one if the third group counts half of its worth; and three that the library's index of rules
# keeps together, so that the comparison of names alone decides.
PAIRS = [
    (63, 64), (127, 128), (255, 256), (16383, 16384), (0, 65535), (1, 257), (257, 1), (1, 65281), (65279, 65535), (1, 16385), (16385, 1),
    (32767, 65535), (65535, 49151), (8192, 16384), (1, 64), (1, 20225), (36353, 1),
]

# Every bit of a name is 0 in one of these and 1 in the other.
BASES = [0b0101010101010101, 0b1010101010101010]


def of_one_bit(base):
    """The sixteen names that differ from the base in one bit, the lowest first."""
    return [base ^ 1 << bit for bit in range(16)]


def tokens_of(kind, name):
    """A mark of the name, or a step whose open or whose close has it."""
    return [[4 * name], [4 * name + 1, 2], [1, 4 * name + 2]][kind]


def rule_of(kind, stage, name, inside, to):
    """The rule that makes these tokens."""
    return [[1, stage, name, to], [2, stage, name, inside, 0, to], [2, stage, 0, inside, name, to]][kind]


def chain(kind, base, others):
    """The grammar, its history's tokens, and the two readings that there are. The history has the others in their order, then the base.

    Each of the others leads from a stage to the next, and so does the base, by a rule before it; by a rule behind it the base leads to a
    stage that goes on by every name. This and the last stage can end. So where another is taken for the base there is a smaller reading,
    a larger one, and one that ends early; and where it is taken for a third name there is none.
    """
    m = len(others)
    last, anywhere, inside = m + 1, m + 2, m + 3
    rules = []
    for k, name in enumerate(others):
        rules += [rule_of(kind, k, base, inside, k + 1), rule_of(kind, k, name, inside, k + 1), rule_of(kind, k, base, inside, anywhere)]
    rules += [rule_of(kind, m, base, inside, last), rule_of(kind, m, base, inside, anywhere)]
    rules += [rule_of(kind, anywhere, name, inside, anywhere) for name in others + [base]]
    ends = len(rules)
    rules += [[0, last], [0, anywhere], [0, inside]]
    tokens = [token for name in others + [base] for token in tokens_of(kind, name)]
    # a step ends its inside at its close
    closed = [] if kind == 0 else [ends + 2]
    row = [n for k in range(m) for n in [3 * k + 1] + closed]
    return Grammar(m + 4, rules), tokens, [row + [3 * m + way] + closed + [ends + way] for way in (0, 1)]


def cut(kind, rules, mask):
    """The rules with the names of one alphabet cut to the bits of the mask."""
    form, place = [(1, 2), (2, 2), (2, 4)][kind]
    return [rule[:place] + [rule[place] & mask] + rule[place + 1:] if rule[0] == form else rule for rule in rules]


def lost(kind, grammar, tokens, mask):
    """What a service would see that loses bits of the names in the grammar, in the history, and in both."""
    other_rules = grammar._replace(rules=cut(kind, grammar.rules, mask))
    other_tokens = [4 * (t // 4 & mask) + kind if t % 4 == kind else t for t in tokens]
    return [("the grammar", other_rules, tokens), ("the history", grammar, other_tokens), ("both", other_rules, other_tokens)]


def masks(names):
    """What is left of a name that is cut to 6, 7, 8, 12 or 14 bits or loses one bit, where two of the names become one by that."""
    several = [(1 << bits) - 1 for bits in (6, 7, 8, 12, 14)] + [65535 ^ 1 << bit for bit in range(16)]
    return [mask for mask in several if len({name & mask for name in names}) == len(names) - 1]


def chains():
    """What each is, its alphabet, its names, its grammar, its tokens and its readings: two names, then every bit of a name."""
    for kind, word in enumerate(KINDS):
        for base, other in PAIRS:
            yield ("%ss %d and %d" % (word, base, other), kind, [base, other]) + chain(kind, base, [other])
        for base in BASES:
            yield ("%ss, each bit of %d" % (word, base), kind, [base] + of_one_bit(base)) + chain(kind, base, of_one_bit(base))
