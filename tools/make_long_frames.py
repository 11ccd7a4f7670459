#!/usr/bin/env python3
"""Writes two frames with long listings into a folder, each with the listing that is due: a subfolder with grammar.bin, history.bin and
expected.txt. The program writes a listing a megabyte at a time; the first of these takes two pieces, the second four. So the gate sees that
pieces follow each other without a gap and without an overlap. The second history is as long as one can be, 3,074 bytes.

    tools/make_long_frames.py FOLDER

No part of the library is run: the listings are those of the search in make_listings.py.
"""
import os
import sys

from frames import grammar_bytes, history_bytes
from make_listings import listing
from usage import answered

PIECE = 1 << 20


def frame(before, start, name):
    """Ten steps with two readings each and as many marks as there is room for, all of one name; `before` rules that nothing uses stand before
    the others. Without a start the grammar doesn't say it, and it is stage 0."""
    unused = [(1, 3, k % 64, 3 + k // 64) for k in range(before)]
    s = start or 0
    used = [(0, s), (1, s, name, s), (2, s, name, 1, name, s), (2, s, name, 2, name, s), (0, 1), (0, 2)]
    tokens = [4 * name + 1, 4 * name + 2] * 10 + [4 * name] * 1004
    return grammar_bytes(8, unused + used, start), history_bytes(tokens)


def main(folder):
    for place, before, start, name, pieces in [("two_pieces", 0, None, 0, 2), ("four_pieces", 110, 7, 65535, 4)]:
        grammar, history = frame(before, start, name)
        text = listing(grammar, history)
        if not (pieces - 1) * PIECE < len(text) < pieces * PIECE:
            sys.exit("make_long_frames: the listing of %s has %d bytes" % (place, len(text)))
        into = os.path.join(folder, place)
        os.makedirs(into, exist_ok=True)
        for file, data in [("grammar.bin", grammar), ("history.bin", history), ("expected.txt", text.encode())]:
            with open(os.path.join(into, file), "wb") as f:
                f.write(data)


if __name__ == "__main__":
    answered(__doc__, sys.argv[1:], len(sys.argv) == 2 and not sys.argv[1].startswith("-"))
    main(sys.argv[1])
