"""Grammars and histories for the count of choices, each with its readings and its count as they are found by hand.

A position is a choice when its set, the rules that stand there in some reading, holds two rules of one stage. Two readings differ first at a
choice; where they differ behind it the rules may be of different stages, and then that position is none. Each pair of files is here for a
count that goes wrong: one that doesn't look at stages, looks at neighbours in the set alone, leaves out a position or forgets a stage.
"""
from frames import CLOSE, MARK, OPEN, Grammar


def end(stage):
    return [0, stage]


def mark(stage, to):
    return [1, stage, 0, to]


def step(stage, inside, to):
    return [2, stage, 0, inside, 0, to]


# What each is for, its stage count, its rules, its history's tokens, its readings, and how many of its positions are a choice.
SMALL = [
    ("a choice and its echo", 3, [mark(0, 1), mark(0, 2), end(1), end(2)],
     MARK, [[0, 2], [1, 3]], 1),
    ("a choice inside another's echo", 4, [step(0, 1, 3), step(0, 2, 3), mark(1, 3), mark(1, 1), end(1), mark(2, 3), end(3), end(2)],
     OPEN + MARK + CLOSE, [[0, 2, 6, 6], [0, 3, 4, 6], [1, 5, 6, 6]], 2),
    ("a rule of another stage between two of one", 4, [mark(0, 1), mark(0, 2), mark(1, 3), mark(2, 3), mark(1, 1), end(3), end(1)],
     MARK * 2, [[0, 2, 5], [0, 4, 6], [1, 3, 5]], 2),
    ("a rule of another stage before two of one", 4, [mark(0, 1), mark(0, 2), mark(1, 3), mark(2, 3), mark(2, 2), end(3), end(2)],
     MARK * 2, [[0, 2, 5], [1, 3, 5], [1, 4, 6]], 2),
    ("a rule of another stage behind two of one", 4, [mark(0, 1), mark(0, 2), mark(1, 3), mark(1, 1), mark(2, 3), end(3), end(1)],
     MARK * 2, [[0, 2, 5], [0, 3, 6], [1, 4, 5]], 2),
    ("three rules of three stages", 5, [mark(0, 1), mark(0, 2), mark(0, 3), mark(1, 4), mark(2, 4), mark(3, 4), end(4)],
     MARK * 2, [[0, 3, 6], [1, 4, 6], [2, 5, 6]], 1),
    ("three rules of one stage", 4, [mark(0, 1), mark(0, 2), mark(0, 3), end(1), end(2), end(3)],
     MARK, [[0, 3], [1, 4], [2, 5]], 1),
    ("two rules each of two stages", 5, [mark(0, 1), mark(0, 2), mark(1, 3), mark(1, 4), mark(2, 3), mark(2, 4), end(3), end(4)],
     MARK * 2, [[0, 2, 6], [0, 3, 7], [1, 4, 6], [1, 5, 7]], 2),
    ("the first position alone", 3, [mark(0, 1), mark(0, 2), mark(1, 1), mark(2, 2), end(1), end(2)],
     MARK * 4, [[0, 2, 2, 2, 4], [1, 3, 3, 3, 5]], 1),
    ("the last mark alone", 3, [mark(0, 0), mark(0, 1), mark(0, 2), end(1), end(2)],
     MARK * 4, [[0, 0, 0, 1, 3], [0, 0, 0, 2, 4]], 1),
    ("all marks but the last", 2, [mark(0, 0), mark(0, 1), mark(1, 0), mark(1, 1), end(0)],
     MARK * 3, [[0, 0, 0, 4], [0, 1, 2, 4], [1, 2, 0, 4], [1, 3, 2, 4]], 2),
    ("an open alone, the inside certain", 4, [mark(0, 0), step(0, 1, 2), step(0, 1, 3), end(1), end(2), end(3)],
     MARK + OPEN + CLOSE, [[0, 1, 3, 4], [0, 2, 3, 5]], 1),
    ("the inside of the second step alone", 3, [end(0), step(0, 1, 0), end(1), mark(1, 1), mark(1, 2), end(2)],
     OPEN + CLOSE + OPEN + MARK + CLOSE, [[1, 2, 1, 3, 2, 0], [1, 2, 1, 4, 5, 0]], 1),
    ("a rule beside it that leads nowhere", 3, [mark(0, 1), mark(0, 2), end(1), mark(2, 2)],
     MARK, [[0, 2]], 0),
    ("two rules that lead nowhere", 3, [mark(0, 1), mark(0, 2), mark(1, 1), mark(2, 2)],
     MARK, [], 0),
]


def far_apart(places):
    """Of 128 rules two at the first two places, which lead to stages 1 and 2; then two of stage 1 with one of stage 2 between them, at the last
    three. Where these are in different words of the sets, a stage that was met in one word has to be known in the next."""
    rules = [[1, 3, 1 + k, 3] for k in range(128)]
    for place, rule in zip(places, [mark(0, 1), mark(0, 2), mark(1, 3), mark(2, 3), mark(1, 1)]):
        rules[place] = rule
    # the two ends stand where there is no other of these rules
    free = [place for place in (126, 125, 124) if place not in places][:2]
    rules[free[0]], rules[free[1]] = end(3), end(1)
    a, b, c, d, e = places
    return Grammar(4, rules), MARK * 2, [[a, c, free[0]], [a, e, free[1]], [b, d, free[0]]]


FAR_APART = [
    (0, 127, 1, 2, 3), (31, 32, 33, 34, 35), (0, 1, 31, 32, 33), (0, 1, 5, 40, 70), (2, 100, 63, 64, 127), (0, 95, 1, 97, 127),
    (63, 64, 95, 96, 97),
]


def longest():
    """The first of 1,025 positions alone."""
    _, stages, rules, _, _, _ = next(frame for frame in SMALL if frame[0] == "the first position alone")
    return Grammar(stages, rules), MARK * 1024, [[0] + [2] * 1023 + [4], [1] + [3] * 1023 + [5]]


def from_stage(stage):
    """A choice between two rules of this stage, which is the start."""
    one, other = (stage + 1) % 32, (stage + 2) % 32
    return Grammar(32, [mark(stage, one), mark(stage, other), end(one), end(other)], stage), MARK, [[0, 2], [1, 3]]


def two_stages(one, other):
    """A choice that leads to one of two stages, whose rules at the next position are no choice."""
    start, last = [stage for stage in (2, 5, 11, 17) if stage not in (one, other)][:2]
    rules = [mark(start, one), mark(start, other), mark(one, last), mark(other, last), end(last)]
    return Grammar(32, rules, start), MARK * 2, [[0, 2, 4], [1, 3, 4]]


def choice_frames():
    """What each is for, its grammar, its tokens, its readings and its count of choices."""
    for what, stages, rules, tokens, readings, count in SMALL:
        yield what, Grammar(stages, rules), tokens, readings, count
    yield ("the first of 1,025 positions alone",) + longest() + (1,)
    for places in FAR_APART:
        yield ("rules %d, %d, %d, %d and %d" % places,) + far_apart(places) + (2,)
    for stage in range(32):
        yield ("two rules of stage %d" % stage,) + from_stage(stage) + (1,)
    # stages that differ in one bit are two stages
    for base in (0, 31):
        for bit in range(5):
            yield ("stages %d and %d" % (base, base ^ 1 << bit),) + two_stages(base, base ^ 1 << bit) + (1,)
