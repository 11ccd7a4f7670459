"""A frame as plain values, for ./explain --json and ./explain --html: its tokens and rules in words, and what the library says of it.

The values are numbers, texts, lists and dicts alone, so they can be written as JSON. Like the programs that use it, this module is outside
what is proved; readings, sets and counts are those that the library gives.
"""
from built import FILE_BYTES
from frame_words import FrameWords, rule_sentence
from streams import CouldNotRun, printable, read_start

# Of the readings that nobody asked for by number the first ones are told: so many at most, and so many rule numbers at most in all.
MOST_READINGS, MOST_NUMBERS = 100, 20000


def refused(name, refusal):
    return {"frame": name, "result": "refused", "file": refusal.file, "number": refusal.number, "words": refusal.words}


def rules_of(words):
    """Each rule: its stage, what it says, and its line and comment in the text beside the file."""
    notes = words.grammar_text.notes
    return [{"rule": rule, "stage": words.stage(rule), "says": rule_sentence(fields), "line": notes[rule].line if notes else None,
             "comment": words.rule_comment(rule)} for rule, fields in enumerate(words.grammar.rules)]


def position_of(words, position):
    """A position: its token, and its place among the steps."""
    notes, end = words.history_text.notes, position == len(words.tokens)
    return {"position": position, "kind": words.kind(position), "name": None if end else words.tokens[position] // 4,
            "partner": None if end else words.partner[position], "around": None if end else words.around[position],
            "depth": 0 if end else words.depth[position], "line": notes[position].line if position < len(notes) else None,
            "comment": words.token_comment(position)}


def with_rules(words, position, rules):
    """A position with the rules that can stand there. It is a choice where two of them are of one stage."""
    stages = [words.stage(rule) for rule in rules]
    return dict(position_of(words, position), rules=rules, choice=len(set(stages)) < len(stages))


def reading(gaffmedlar, name, files, number, count):
    try:
        return {"reading": number, "rules": list(gaffmedlar.reading_at(*files, number))}
    except (gaffmedlar.Refusal, OverflowError):
        there = "more than 2^64 - 1" if count is gaffmedlar.OVER else format(count, ",")
        raise CouldNotRun("reading %d: %s has %s reading%s, numbered from 1" % (number, name, there, "" if count == 1 else "s"))


def first_numbers(gaffmedlar, positions, count):
    most = max(2, min(MOST_READINGS, MOST_NUMBERS // positions))
    return range(1, (most if count is gaffmedlar.OVER else min(most, count)) + 1)


def readings_of(gaffmedlar, name, files, positions, numbers, first):
    """How many readings there are, and some of them: those with these numbers; with `first`, or where there are none, the first ones too."""
    count = gaffmedlar.reading_count(*files)
    told = set(numbers).union(first_numbers(gaffmedlar, positions, count) if first or not numbers else ())
    return {"readings": None if count is gaffmedlar.OVER else count, "over": count is gaffmedlar.OVER,
            "told": [reading(gaffmedlar, name, files, number, count) for number in sorted(told)]}


def without_reading(gaffmedlar, files, words):
    """How far a history without a reading can be read: the most tokens at its beginning that have a reading by themselves."""
    longest = gaffmedlar.stop_marks(*files).rfind(1)
    positions = [dict(position_of(words, position), rules=[], choice=False) for position in range(len(words.tokens) + 1)]
    return {"result": "none", "choices": 0, "readings": 0, "over": False, "told": [], "readable": None if longest < 0 else longest, "positions": positions}


def view(gaffmedlar, name, paths, numbers, first=False):
    """What there is to say of the frame with these two files, and some of its readings (see readings_of)."""
    name, files = printable(name), [read_start(path, FILE_BYTES)[0] for path in paths]
    try:
        gaffmedlar.grammar_check(files[0])
        tokens = gaffmedlar.history_check(files[1])
    except gaffmedlar.Refusal as refusal:
        return refused(name, refusal)
    words, sets = FrameWords(paths[0], files[0], paths[1], files[1]), gaffmedlar.sets(*files)
    found = {"frame": name, "result": None, "tokens": tokens, "stages": words.grammar.stages, "start": words.grammar.start,
             "start_recorded": words.grammar.recorded is not None, "texts": words.faults(), "rules": rules_of(words)}
    if not sets.rules(0):
        return dict(found, **without_reading(gaffmedlar, files, words))
    found.update(readings_of(gaffmedlar, name, files, tokens + 1, numbers, first), choices=sets.choices(), result="several" if sets.choices() else "one")
    return dict(found, positions=[with_rules(words, position, sets.rules(position)) for position in range(tokens + 1)])
