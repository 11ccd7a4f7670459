"""docs/refusals.tsv, the one table of refusals: a row for each, with its number, whose it is, its words and what to do."""
import os
import sys

TABLE = "docs/refusals.tsv"
WHOSE = ("both", "grammar", "history", "call")
FIELDS = ("number", "whose", "words", "do")


def table(root):
    """The rows, each a dict with FIELDS as its keys, in the order of their numbers."""
    with open(os.path.join(root, TABLE), encoding="utf-8") as f:
        lines = f.read().rstrip("\n").split("\n")
    rows = [dict(zip(FIELDS, line.split("\t"))) for line in lines[1:]]
    if lines[0] != "number\twhose\twords\twhat to do" or any(line.count("\t") != 3 for line in lines):
        sys.exit("refusals: %s: a line has number, whose, words and what to do" % TABLE)
    for place, row in enumerate(rows):
        if row["number"] != str(place + 1) or row["whose"] not in WHOSE or not all(row.values()):
            sys.exit("refusals: %s: not in order: %s" % (TABLE, lines[place + 1]))
    return rows
