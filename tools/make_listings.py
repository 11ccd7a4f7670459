#!/usr/bin/env python3
"""Writes crates/test_listings/data/cases.bin and crates/test_listings/stdout: pairs of files, and the listing due for each.

Run from the repository's root, when the cases change. A case in cases.bin is four bytes (the grammar's length and the
history's, low byte first), then both files. random.bin beside it has 1,500 more in the same form, drawn once, every other
one of them with its stages in another order and its start recorded; this tool only lists them. No part of the library is
run: the checks (frames.py), which are held to judges.py, and the search below are written from documents 01 and 02 alone,
and the search tries every rule at every token, with no table of what can follow.
"""
import itertools
import os
import sys

import judges
from choice_frames import choice_frames
from frames import CLOSE, EXCHANGED, G, MARK, OPEN, Refused, grammar_bytes, history_bytes, read_grammar, read_history
from wide_names import chains, lost, masks
from usage import answered


# ---- readings: from a stage at a position, what is still due being a chain of (close name, stage after it)
def readings(grammar, tokens):
    """Every reading in order, as a generator: from the grammar's start, and nothing due behind it."""
    n = len(tokens)
    dead = set()  # (position, stage, chain) from which no reading goes on

    def moves(p, stage, due):
        for r, rule in enumerate(grammar.rules):
            if rule[1] != stage:
                continue
            if rule[0] == 0:
                if p == n and due is None:
                    yield r, None
                elif p < n and tokens[p] % 4 == 2 and due is not None and due[0] == tokens[p] // 4:
                    yield r, (p + 1, due[1], due[2])
            elif p < n and rule[0] == 1:
                if tokens[p] == 4 * rule[2]:
                    yield r, (p + 1, rule[3], due)
            elif p < n and rule[0] == 2:
                if tokens[p] == 4 * rule[2] + 1:
                    yield r, (p + 1, rule[3], (rule[4], rule[5], due))

    # depth-first, smaller rule numbers first; a stack of iterators, so that length is no matter
    path, stack, found = [], [(None, moves(0, grammar.start, None), [False])], []
    while stack:
        key, it, any_found = stack[-1]
        step = next(it, None)
        if step is None:
            stack.pop()
            if not any_found[0] and key is not None:
                dead.add(key)
            if stack:
                path.pop()
                stack[-1][2][0] |= any_found[0]
            continue
        r, to = step
        if to is None:
            any_found[0] = True
            yield path + [r]
        elif to not in dead:
            path.append(r)
            stack.append((to, moves(*to), [False]))


def is_choice(rules, kept):
    """Whether a set holds two rules of one stage."""
    stages = [rules[r][1] for r in kept]
    return len(set(stages)) < len(stages)


def choices(rules, every):
    """How many positions are a choice; `every` is all readings, so that the rules that stand at a position are its set."""
    return sum(is_choice(rules, set(column)) for column in zip(*every))


def listing(grammar, history):
    try:
        read = read_grammar(grammar)
    except Refused as e:
        return "refused grammar %d\n" % e.args[0]
    try:
        tokens = read_history(history)
    except Refused as e:
        return "refused history %d\n" % e.args[0]
    return listing_of(read, tokens)


def listing_of(read, tokens):
    """The listing of files that pass."""
    every = list(itertools.islice(readings(read, tokens), 200000))
    if len(every) == 200000:
        sys.exit("make_listings: too many readings to count")
    count = choices(read.rules, every)
    if (count > 0) != (len(every) > 1):
        sys.exit("make_listings: %d choices with %d readings" % (count, len(every)))
    return listing_text(len(tokens), count, every)


def listing_text(n, count, every):
    """The lines of a listing: the number of tokens, the choices of all readings, and the first 1,000 of these."""
    out = ["tokens %d" % n]
    if not every:
        return "\n".join(out + ["none"]) + "\n"
    out.append("choices %d" % count)
    for k, reading in enumerate(every[:1000]):
        out.append("%d: %s" % (k + 1, " ".join(map(str, reading))))
    out.append("more 1000" if len(every) > 1000 else "end %d" % len(every))
    return "\n".join(out) + "\n"


# ---- the cases
CASES = []


def case(g, h):
    """The program reads the first 4,096 bytes of a file, so no more of it is kept."""
    CASES.append((bytes(g)[:4096], bytes(h)[:4096]))


def samples():
    for name in sorted(os.listdir("samples")):
        folder = os.path.join("samples", name)
        if os.path.isdir(folder):
            case(open(os.path.join(folder, "grammar.bin"), "rb").read(), open(os.path.join(folder, "history.bin"), "rb").read())


def of_document_01():
    # G with 3 1 0 2 is among the samples
    for h in [[0], [2, 1, 2], [4, 1, 2, 1, 2], [1, 0], [1, 2], [1, 1], [1, 3], [128], [128, 0]]:
        case(G, h)
    case([1, 2, 0, 0, 0, 0], [0])
    case([1, 0], [0])
    case([1, 1, 1, 0, 0, 0], [0])
    case(G, [129, 8] + MARK * 1025)
    case(G, history_bytes(OPEN * 128 + CLOSE * 128)[:2] + bytes(OPEN * 128 + CLOSE * 127))
    case(G, history_bytes(OPEN * 129 + CLOSE * 129))
    # 128 nested steps and 1,024 tokens, each with one reading
    case(grammar_bytes(1, [[0, 0], [2, 0, 0, 0, 0, 0]]), history_bytes(OPEN * 128 + CLOSE * 128))
    case(grammar_bytes(1, [[0, 0], [1, 0, 0, 0]]), history_bytes(MARK * 1024))
    case(grammar_bytes(1, [[0, 0], [2, 0, 0, 0, 0, 0]]), history_bytes((OPEN + CLOSE) * 512))


def recorded_starts():
    # G's histories by the same grammar with two stages exchanged, and by its rules from stages that are not its start
    rules = list(G[1:])
    exchanged = EXCHANGED[1:2] + EXCHANGED[3:]
    for h in [[0], [2, 1, 2], [3, 1, 0, 2], [4, 1, 2, 1, 2], [1, 0], [2, 0, 0], [1, 1]]:
        if listing(EXCHANGED, bytes(h)) != listing(G, bytes(h)):
            sys.exit("make_listings: %s: another listing with stages 0 and 1 exchanged" % h)
        for g in [EXCHANGED, exchanged, [0, 3, 0] + rules, [0, 3, 1] + rules, [0, 3, 2] + rules]:
            case(g, h)
    # every stage of 32 as the start: stage k ends by rule k
    ends = [[0, k] for k in range(32)]
    for start in range(32):
        case(grammar_bytes(32, ends, start), [0])
    # 1,285 bytes, with no rule that ends a stage; and all but the last of them
    longest = grammar_bytes(32, [[2, 31, 49152 + k // 64, 31, 49152 + k % 64, 31] for k in range(128)], 31)
    case(longest, history_bytes([4 * 49152 + 1, 4 * 49152 + 2]))
    case(longest[:-1], history_bytes(OPEN + CLOSE))


def wide_names():
    # document 02's examples of names above 63
    marks = [1, 3, 0, 0, 1, 0, 1, 0, 1, 0, 129, 2, 0]
    for token in ([4], [132, 8], [132, 128, 4], [132, 248, 15]):
        case(marks, [1] + token)
    closes = [1, 3, 0, 0, 2, 0, 192, 184, 2, 0, 255, 255, 3, 0, 2, 0, 192, 184, 2, 0, 255, 255, 1, 0]
    for close in ([254, 255, 15], [254, 255, 7], [254, 247, 15]):
        case(closes, [2, 129, 226, 9] + close)
    for h in ([1, 128, 128, 1], [2, 253, 255, 15, 254, 255, 15], [3, 129, 226, 9, 172, 2, 254, 255, 15], [1, 252, 255, 15]):
        case(G, h)
    # 3,074 bytes
    case(grammar_bytes(1, [[0, 0], [1, 0, 65535, 0]]), history_bytes([262140] * 1024))


def told_apart():
    """The listing would be another one if the program lost a bit of a name, in the grammar, in the history or in both."""
    for label, kind, names, grammar, tokens, _ in chains():
        text = listing_of(grammar, tokens)
        for mask in masks(names):
            for where, other_grammar, other_tokens in lost(kind, grammar, tokens, mask):
                if listing_of(other_grammar, other_tokens) == text:
                    sys.exit("make_listings: %s, cut to %x in %s: the same listing" % (label, mask, where))
        case(grammar_bytes(*grammar), history_bytes(tokens))


def with_names(grammar, tokens, name):
    """The two files with each name n as name(n)."""
    places = [set(), {2}, {2, 4}]
    rules = [[name(n) if i in places[rule[0]] else n for i, n in enumerate(rule)] for rule in grammar.rules]
    return grammar_bytes(grammar.stages, rules, grammar.recorded), history_bytes([4 * name(t // 4) + t % 4 for t in tokens])


def renamed():
    """Every twentieth of the pairs that were drawn, with names that differ above bit 8 alone or above bit 10 alone: the same listing."""
    for k, (g, h) in enumerate(itertools.islice(written("random.bin"), 0, None, 20)):
        text = listing(g, h)
        if text.startswith("refused"):
            continue
        # each n up to 63 has a name of its own
        files = with_names(read_grammar(g), read_history(h), [lambda n: 1 + 256 * (n % 64), lambda n: 65535 - 1024 * (n % 64)][k % 2])
        if listing(*files) != text:
            sys.exit("make_listings: drawn pair %d: another listing with other names" % (20 * k))
        case(*files)


def refusals():
    fine = [1]
    files = [[], [128], [0], [33, 1], [1], [1, 0], [1, 129, 1], [1, 1], [1, 1, 3], [1, 1, 0, 1], [1, 1, 0, 128, 0], [1, 1, 0, 0, 0], [2, 3, 0, 0, 0, 1, 0, 0]]
    files += [[1, 1, 1, 0, 128, 128, 4, 0], [1, 1, 2, 0, 128, 128, 4], [1, 1, 2, 0, 0, 0, 128, 128, 4, 0]]
    files += [[1, 1, 1, 0, 128, 128], [1, 1, 1, 0, 128, 128, 0, 0], [1, 1, 1, 0, 128, 128, 128, 0]]
    for g in files:
        case(g, fine)
        case(g, [0])
    # the head of a grammar with its start
    heads = [[0, 0], [0, 0, 0, 0], [128, 0], [128, 128], [128, 128, 0], [128, 128, 128], [0, 1, 1], [0, 1], [0, 33], [0, 128, 0], [0, 1, 0, 0], [0, 1, 0]]
    heads += [[0, 3, 129, 0, 1, 0, 0], [0, 3, 3, 0], [0, 2, 1, 1], [0, 2, 1, 1, 0, 2], [0] + list(G), [0, 2, 1, 1, 0, 1, 0]]
    for g in heads:
        case(g, fine)
    numbers = [[], [128], [128, 128], [128, 128, 0], [128, 128, 128], [128, 128, 1], [129, 8], [1], [1, 128, 128, 16], [1, 255, 255, 15]]
    for h in numbers + [[1, 255, 1], [1, 3], [1, 7], [1, 2], [1, 1], [0, 0], [2, 1, 2, 0], [3, 1, 2, 2]]:
        case(G, h)
    case(G, history_bytes(OPEN * 129 + CLOSE * 129))
    case([], [])
    # longer than 4,096 bytes: the first 4,096 decide
    case(G, [0] * 5000)
    case(G + bytes(5000), [0])
    case(G, [128, 8] + MARK * 1024 + [0] * 4000)


def counted_by_hand():
    for what, grammar, tokens, every, count in choice_frames():
        if listing_of(grammar, tokens) != listing_text(len(tokens), count, every):
            sys.exit("make_listings: %s: another listing than by hand" % what)
        case(grammar_bytes(*grammar), history_bytes(tokens))


def many_readings():
    # each mark goes to either of two stages: twice as many readings with every further one, 2,048 with the last
    two = grammar_bytes(2, [[0, 0], [1, 0, 0, 0], [1, 0, 0, 1], [1, 1, 0, 0], [1, 1, 0, 1]])
    for n in range(1, 12):
        case(two, history_bytes(MARK * n))

    # one step behind the other, each with its own open name and as many rules as its width: the product of all widths
    def steps(*widths):
        stages = 1 + max(widths)
        rules = [[0, 0]] + [[2, 0, name, 1 + k, name, 0] for name, width in enumerate(widths) for k in range(width)] + [[0, 1 + k] for k in range(stages - 1)]
        return grammar_bytes(stages, rules), history_bytes([t for name in range(len(widths)) for t in (4 * name + 1, 4 * name + 2)])

    case(*steps(10, 10, 10))  # 1,000 readings: the last line is `end 1000`
    case(*steps(7, 11, 13))  # 1,001: `more 1000`
    case(*steps(27, 31))  # 837
    # a choice at the very end of a long history
    end = grammar_bytes(3, [[0, 0], [1, 0, 0, 0], [1, 0, 1, 1], [1, 0, 1, 2], [0, 1], [0, 2]])
    case(end, history_bytes(MARK * 1023 + [4]))
    # a choice in the innermost of 128 steps, by a start that is the last stage
    deep = grammar_bytes(3, [[0, 2], [2, 2, 0, 2, 0, 2], [1, 2, 0, 1], [1, 2, 0, 0], [0, 1], [0, 0]], 2)
    case(deep, history_bytes(OPEN * 128 + MARK + CLOSE * 128))


def written(name):
    data, at = open("crates/test_listings/data/" + name, "rb").read(), 0
    while at < len(data):
        g, h = data[at] + 256 * data[at + 1], data[at + 2] + 256 * data[at + 3]
        yield data[at + 4:at + 4 + g], data[at + 4 + g:at + 4 + g + h]
        at += 4 + g + h


def judged(grammar, history):
    """The refusal by the judges, as a listing has it; None where both files pass."""
    for word, judge, file in [("grammar", judges.judge_grammar, grammar), ("history", judges.judge_history, history)]:
        try:
            judge(judges.Bytes(file))
        except judges.Refused as e:
            return "refused %s %d\n" % (word, e.args[0])
    return None


def listing_held(grammar, history):
    """The listing, whose refusal has to be that of the judges."""
    text = listing(grammar, history)
    if (text if text.startswith("refused") else None) != judged(grammar, history):
        sys.exit("make_listings: %s %s: %s, and by the judges %s" % (list(grammar), list(history), text, judged(grammar, history)))
    return text


if __name__ == "__main__":
    answered(__doc__, sys.argv[1:], not sys.argv[1:])
    for part in (samples, of_document_01, recorded_starts, wide_names, told_apart, renamed, refusals, many_readings, counted_by_hand):
        part()
    with open("crates/test_listings/data/cases.bin", "wb") as f:
        for g, h in CASES:
            f.write(bytes([len(g) % 256, len(g) // 256, len(h) % 256, len(h) // 256]) + g + h)
    with open("crates/test_listings/stdout", "w") as f:
        for g, h in itertools.chain(written("cases.bin"), written("random.bin")):
            f.write(listing_held(g, h))
