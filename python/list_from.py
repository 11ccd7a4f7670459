"""list_from K GRAMMAR HISTORY: a listing that begins at reading K, for ./list --from K.

Its lines are those of the listing program, but that readings have their numbers from K on, and that the last line is 'more k' with the
number of the last one listed. This script is outside what is proved. What it lists comes from the library: reading_at and next_reading.
"""
import os
import sys

sys.path[:0] = [os.path.join(os.path.dirname(os.path.dirname(os.path.realpath(__file__))), "tools")]
from built import FILE_BYTES, LIMIT, library  # noqa: E402
from streams import COULD_NOT_RUN, DONE, REFUSED, CouldNotRun, read_start, run, say  # noqa: E402

NO_READING = 1


def file_bytes(path):
    """A file's bytes; None where it can't be read, which ./list has said: it counts as empty."""
    try:
        return read_start(path, FILE_BYTES)[0]
    except CouldNotRun:
        return None


def readings_from(gaffmedlar, grammar, history, first, tokens):
    """The lines of the readings from the first on, at most LIMIT of them, and the last line."""
    buffer, number = bytearray(tokens + 1), first
    gaffmedlar.reading_at_into(grammar, history, first, buffer)
    while True:
        yield "%d: %s" % (number, " ".join(map(str, buffer)))
        if gaffmedlar.next_reading(grammar, history, buffer) is gaffmedlar.Next.NO_FURTHER:
            yield "end %d" % number
            return
        if number == first + LIMIT - 1:
            yield "more %d" % number
            return
        number += 1


def listed(gaffmedlar, grammar, history, first):
    """The lines, and the status."""
    try:
        gaffmedlar.grammar_check(grammar)
        tokens = gaffmedlar.history_check(history)
    except gaffmedlar.Refusal as refusal:
        return ["refused %s %d" % (refusal.file, refusal.number)], REFUSED
    count = gaffmedlar.reading_count(grammar, history)
    if count == 0:
        return ["tokens %d" % tokens, "none"], NO_READING
    if count is gaffmedlar.OVER and first >= 1 << 64:
        raise CouldNotRun("there is no reading %d to be had: numbers go to 2^64 - 1" % first)
    if count is not gaffmedlar.OVER and first > count:
        raise CouldNotRun("there is no reading %d: there are %d" % (first, count))
    head = ["tokens %d" % tokens, "choices %d" % gaffmedlar.choice_count(grammar, history)]
    return head + list(readings_from(gaffmedlar, grammar, history, first, tokens)), DONE


def main(words):
    files = [file_bytes(path) for path in words[1:]]
    lines, status = listed(library(), *(file or b"" for file in files), int(words[0]))
    say(lines)
    return COULD_NOT_RUN if None in files else status


if __name__ == "__main__":
    run("list", main)
