"""Text laid out for a screen of 100 columns: paragraphs, tables, rows of positions in few words; bold and faint on a terminal."""
import os
import sys
import textwrap

WIDTH = 100


def colour_is_due():
    """On a terminal, unless the environment says no."""
    terminal = sys.stdout is not None and sys.stdout.isatty()
    return terminal and not os.environ.get("NO_COLOR") and os.environ.get("TERM") not in (None, "dumb")


def styled(code, lines):
    return ["\033[%sm%s\033[0m" % (code, line) for line in lines] if colour_is_due() else lines


def bold(lines):
    return styled("1", lines)


def faint(lines):
    return styled("2", lines)


def wrapped(text, width=WIDTH, first="", rest=None):
    """A paragraph's lines; `first` stands before the first of them, `rest` before each other one."""
    rest = " " * len(first) if rest is None else rest
    return textwrap.wrap(text, width, initial_indent=first, subsequent_indent=rest, break_on_hyphens=False) or [first.rstrip()]


def cell(text, width):
    """A cell's lines; the blanks before its text stand before each line."""
    indent = " " * (len(text) - len(text.lstrip()))
    return wrapped(text.strip(), width, indent, indent)


def table(head, rows, widths):
    """Lines of a table: columns of these widths, two blanks apart; a long cell takes several lines."""
    lines = []
    for number, row in enumerate([head] + rows):
        cells = [cell(text, width) for text, width in zip(row, widths)]
        for k in range(max(map(len, cells))):
            parts = [(part[k] if k < len(part) else "").ljust(width) for part, width in zip(cells, widths)]
            line = "  ".join(parts).rstrip()
            lines += bold([line]) if number == 0 else [line]
    return lines


def run_length(pairs, start):
    """How many pairs from `start` on are apart by the same steps."""
    def step(k):
        (a, b), (c, d) = pairs[k], pairs[k + 1]
        return c - a, None if b is None or d is None else d - b, b is None, d is None
    end = start + 1
    while end < len(pairs) and step(end - 1) == step(start):
        end += 1
    return end - start


def in_few_words(pairs):
    """Positions, each with another one in brackets where it isn't None; '0 (2), 3 (5) .. 9 (11)' for four or more at equal distances."""
    def one(pair):
        return "%d" % pair[0] if pair[1] is None else "%d (%d)" % pair
    words, at = [], 0
    while at < len(pairs):
        length = run_length(pairs, at)
        if length >= 4:
            words.append("%s, %s .. %s" % (one(pairs[at]), one(pairs[at + 1]), one(pairs[at + length - 1])))
            at += length
        else:
            words.append(one(pairs[at]))
            at += 1
    return ", ".join(words)
