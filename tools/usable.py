"""What of a grammar no history can use: stages that derive nothing, stages that are never reached, rules that stand in no reading.

It goes by the rules alone, and by the 1,024 tokens that a history has at most. The steps of the shortest histories are never as deep as a
history may be: on the way from the start no stage comes twice, and there are 32 at most.
"""
import heapq

from frames import FIELDS, TOKENS_MOST

NEVER = float("inf")


def parts(rule):
    """The stages that a rule goes on with, and how many tokens it makes itself."""
    by_letter = dict(zip(FIELDS[rule[0]], rule[1:]))
    return [by_letter[letter] for letter in ("L1", "L2") if letter in by_letter], rule[0]


def shortest(grammar):
    """For each stage the tokens of the shortest row that it derives; NEVER where it derives none."""
    least = [NEVER] * grammar.stages
    changed = True
    while changed:
        changed = False
        for rule in grammar.rules:
            inner, own = parts(rule)
            length = own + sum(least[stage] for stage in inner)
            if length < least[rule[1]]:
                least[rule[1]], changed = length, True
    return least


def around(grammar, least):
    """For each stage the fewest tokens that stand around it in a history that the start derives; NEVER where it comes in none."""
    outside, waiting = [NEVER] * grammar.stages, [(0, grammar.start)]
    while waiting:
        tokens, stage = heapq.heappop(waiting)
        if tokens >= outside[stage]:
            continue
        outside[stage] = tokens
        for rule in grammar.rules:
            inner, own = parts(rule)
            if rule[1] == stage:
                for place, other in enumerate(inner):
                    beside = sum(least[k] for at, k in enumerate(inner) if at != place)
                    if tokens + own + beside < NEVER:
                        heapq.heappush(waiting, (tokens + own + beside, other))
    return outside


def listed(word, numbers):
    """'stage 3', 'stages 3 and 5', 'stages 1, 4 to 9 and 31'; the numbers are in rising order."""
    runs = []
    for number in numbers:
        if runs and runs[-1][1] == number - 1:
            runs[-1][1] = number
        else:
            runs.append([number, number])
    said = [part for first, last in runs for part in (["%d to %d" % (first, last)] if last > first + 1 else map(str, range(first, last + 1)))]
    return "%s%s %s" % (word, "" if len(numbers) == 1 else "s", " and ".join([", ".join(said[:-1])] * (len(said) > 1) + said[-1:]))


def plural(numbers, one, several):
    return one if len(numbers) == 1 else several


def unused_rules(grammar, least, outside):
    """The rules that no history of TOKENS_MOST tokens or fewer can use."""
    for number, rule in enumerate(grammar.rules):
        inner, own = parts(rule)
        if outside[rule[1]] + own + sum(least[stage] for stage in inner) > TOKENS_MOST:
            yield number


def warnings(grammar):
    """A line for each thing that can't be meant; none where every stage and every rule is of use."""
    least = shortest(grammar)
    outside = around(grammar, least)
    dead = [stage for stage in range(grammar.stages) if least[stage] > TOKENS_MOST]
    if dead:
        yield "%s %s nothing: no way from there comes to an end within %s tokens" % (
            listed("stage", dead), plural(dead, "derives", "derive"), format(TOKENS_MOST, ","))
    if grammar.start in dead:
        yield "the start is stage %d, so no history has a reading by this grammar" % grammar.start
        return
    missed = [stage for stage in range(grammar.stages) if outside[stage] + least[stage] > TOKENS_MOST and stage not in dead]
    if missed:
        yield "%s %s never reached from the start, stage %d" % (listed("stage", missed), plural(missed, "is", "are"), grammar.start)
    unused = list(unused_rules(grammar, least, outside))
    if unused:
        yield "%s %s in no reading of any history" % (listed("rule", unused), plural(unused, "stands", "stand"))
