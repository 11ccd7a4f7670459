"""What is wrong with a grammar or a history, and where, in words: for ./check and tools/text.

The fault is the one that the reader of frames.py finds; the refusal's words and what to do are those of docs/refusals.tsv.
"""
import os

from frame_text import PARSE, TextFault, decoded, rule_text
from frames import FIELDS, NAME_MOST, Reader, Refused, number_bytes, number_from, read_grammar, read_history, token_words
from refusal_table import table
from streams import CouldNotRun, printable, read_text, why

ROOT = os.path.join(os.path.dirname(os.path.realpath(__file__)), "..")

# A rule or a token, by the kind of file.
ITEM = {"grammar": "rule", "history": "token"}

# As many bytes of a row, steps, and characters of a line are shown.
SHOWN_BYTES, SHOWN_STEPS, SHOWN_LINE = 16, 8, 72


def count(n, what):
    return "%s %s%s" % ("{:,}".format(n), what, "" if n == 1 else "s")


class Text:
    """A readable form and what it says; raises TextFault where it can't be read."""

    def __init__(self, kind, data, name=None):
        self.name = name
        self.parsed = PARSE[kind](data)
        self.files = self.parsed.files()
        self.data = self.files[0]
        self.lines = decoded(data).split("\n")
        self.items = self.parsed.rules if kind == "grammar" else self.parsed.tokens

    def line(self, refused):
        """The number of the line at fault. A count that is too large is at fault where the first one too many stands."""
        if refused.item is not None:
            return self.items[refused.item].line
        if refused.field == "start":
            return self.parsed.start_line
        if refused.field != "stage count" and len(self.items) > refused.allowed[1]:
            return self.items[refused.allowed[1]].line
        return self.parsed.stages_line

    def named(self, line):
        return "line %d" % line + (" of %s" % self.name if self.name else "")

    def shown(self, line):
        said = printable(self.lines[line - 1].strip().replace("\t", " "))
        return "%s: %s" % (self.named(line), said if len(said) <= SHOWN_LINE else said[:SHOWN_LINE] + " ..")


def text_beside(path, kind, data, size, name_of=str):
    """The readable form beside a file where it says the same, and a word where it doesn't; its path is told by name_of. `data` are the
    file's bytes, or as many as have to be looked at, and `size` is its length."""
    beside = os.path.splitext(path)[0] + ".txt"
    if path == "-" or beside == path or not os.path.isfile(beside):
        return None, None
    name = printable(name_of(beside))
    try:
        text = Text(kind, read_text(beside), name)
    except (CouldNotRun, TextFault):
        return None, "%s lies beside it and can't be read as a %s" % (name, kind)
    if not any(len(same) == size and same.startswith(data) for same in text.files):
        return None, "%s lies beside it and says something else" % name
    return text, None


class File:
    """The bytes of a file, or as many as have to be looked at, and its length (None: longer than these).

    `text` is the readable form that says the same, where there is one; `bytes_shown` is off where there is only that.
    """

    def __init__(self, kind, data, size, text=None, bytes_shown=True):
        self.kind, self.data, self.size, self.text, self.bytes_shown = kind, data, size, text, bytes_shown

    def verdict(self):
        """The counts of a file that is in order, and the start that it records, in words; and the refusal. One of them is None."""
        try:
            if self.kind == "grammar":
                grammar = read_grammar(self.data)
                start = "" if grammar.recorded is None else ", start %d" % grammar.start
                return count(grammar.stages, "stage") + start + ", " + count(len(grammar.rules), "rule"), None
            return count(len(read_history(self.data)), "token"), None
        except Refused as refused:
            return None, refused

    def bytes(self, at, end):
        """The bytes from `at` on and before `end`, with where they are."""
        there = " ".join(map(str, self.data[at:min(end, at + SHOWN_BYTES)])) + (" .." if end > at + SHOWN_BYTES else "")
        if end - at == 1:
            return "byte %d: %s" % (at, there)
        return "bytes %d %s %d: %s" % (at, "and" if end - at == 2 else "to", end - 1, there)

    def item(self, item, at):
        """A rule or token that passed by itself, with where it is."""
        reader = Reader(self.data)
        reader.at = at
        if self.kind == "grammar":
            rule = [reader.number("form")]
            words = rule_text(rule + [reader.number(field) for field in FIELDS[rule[0]]])
        else:
            words = token_words(reader.number("token"))
        places = [self.text.named(self.text.items[item].line)] if self.text else []
        places += [self.bytes(at, reader.at)] if self.bytes_shown else []
        return "%s %d (%s), %s" % (ITEM[self.kind], item, words, ", ".join(places))

    def place(self, refused):
        """The bytes at fault and the line."""
        if self.bytes_shown:
            yield self.bytes(refused.at, refused.end)
            if self.kind == "grammar" and refused.item is not None and refused.first < refused.at:
                yield "the rule begins at byte %d: %s" % (refused.first, " ".join(map(str, self.data[refused.first:refused.end])))
        if self.text:
            yield self.text.shown(self.text.line(refused))


# ---- what is found, for each refusal
def field_words(file, refused):
    """The number at fault: of which rule or token it is, and which of its fields."""
    if refused.item is None:
        return "the " + refused.field
    if file.kind == "history":
        return "token %d" % refused.item
    if refused.field == "form":
        return "rule %d, its form" % refused.item
    return "rule %d (form %d), field %s (%s)" % (refused.item, refused.form, refused.field, FIELDS[refused.form][refused.field])


def cut_off(file, refused):
    """1: what is due, and how much of it is there."""
    what = field_words(file, refused)
    there = "and the file ends there, after %s" % count(len(file.data), "byte") if file.data else "and the file is empty"
    if refused.at == refused.end:
        yield "%s is due at byte %d, %s" % (what, refused.at, there)
    else:
        yield "%s: byte %d says that another follows, %s" % (what, refused.end - 1, there)
        yield from file.place(refused)
    if refused.item is not None:
        yield "%ss due by the count: %d; there, and whole: %d" % (ITEM[file.kind], refused.due, refused.item)


def number_form(file, refused):
    """2: what is wrong with the last byte, which is the second or the third."""
    groups = file.data[refused.at:refused.end]
    said = "its %s byte is %d" % ("second" if len(groups) == 2 else "third", groups[-1])
    if groups[-1] == 0:
        shortest = number_bytes(number_from(groups))
        said += "; in the shortest form it is the %s %s" % ("one byte" if len(shortest) == 1 else "two bytes", " ".join(map(str, shortest)))
    else:
        said += ", which says that a fourth follows, and three are the most"
    yield "%s: %s" % (field_words(file, refused), said)
    yield from file.place(refused)


def out_of_range(file, refused):
    """3 to 7 and 10: the number found, and those that are allowed."""
    least, most = refused.allowed
    allowed = "%d alone is" % least if least == most else "%d to %s are" % (least, "{:,}".format(most))
    said = "%s: %s, where %s allowed" % (field_words(file, refused), "{:,}".format(refused.value), allowed)
    yield said + (", the stage count being %d" % (most + 1) if refused.number == 6 else "")
    yield from file.place(refused)
    for item, at in refused.others:
        yield "before it: " + file.item(item, at)


def rule_twice(file, refused):
    """8: this rule and the earlier one."""
    earlier = refused.others[0]
    yield "rule %d (form %d) equals rule %d" % (refused.item, refused.form, earlier[0])
    yield file.item(refused.item, refused.at)
    yield file.item(*earlier)


def bytes_follow(file, refused):
    """9: how many, and where they begin."""
    size = len(file.data) if file.size is None else file.size
    many = ("more than " if file.size is None else "") + count(size - refused.at, "byte")
    item = "%s %d, the last of %d" % (ITEM[file.kind], refused.due - 1, refused.due) if refused.due else "the token count, which is 0"
    yield "%s too many, from byte %d on, behind %s" % (many, refused.at, item)
    yield file.bytes(refused.at, size)


def no_token(file, refused):
    """11: with a name that is too large, or of kind 3."""
    token, value, name, most = "token %d" % refused.item, refused.value, refused.value // 4, NAME_MOST
    if name > most:
        token += " (%s)" % token_words(value) if value % 4 < 3 else ""
        yield "{}: {:,}, which is above {:,}; names 0 to {:,} are allowed".format(token, value, 4 * most + 3, most)
    else:
        yield "{}: {:,}, which is 4 × {:,} + 3: name {:,} and kind 3, where kinds 0, 1 and 2 are allowed".format(token, value, name, name)
    yield from file.place(refused)


def no_step_open(file, refused):
    """12: the close."""
    yield "token %d (%s): a close, and no step is open there" % (refused.item, token_words(refused.value))
    yield from file.place(refused)


def still_open(file, refused):
    """13: the opens of the steps that are still open."""
    steps, last = refused.others, refused.due - 1
    if len(steps) == 1:
        yield "1 step is still open after token %d, the last; its open is" % last
    else:
        yield "%d steps are still open after token %d, the last; their opens are, the outermost first," % (len(steps), last)
    for item, at in steps[:SHOWN_STEPS]:
        yield "  " + file.item(item, at)
    if len(steps) > SHOWN_STEPS:
        yield "  and %d more; the innermost is %s" % (len(steps) - SHOWN_STEPS, file.item(*steps[-1]))


def too_deep(file, refused):
    """14: the open that is one too many."""
    yield "token %d (%s): an open, and %d steps are open there" % (refused.item, token_words(refused.value), len(refused.others))
    yield from file.place(refused)
    yield "the outermost open step began with " + file.item(*refused.others[0])
    yield "the innermost open step began with " + file.item(*refused.others[-1])


FOUND = {1: cut_off, 2: number_form, 8: rule_twice, 9: bytes_follow, 11: no_token, 12: no_step_open, 13: still_open, 14: too_deep}


def row_of(number):
    """The row of docs/refusals.tsv."""
    try:
        return table(ROOT)[number - 1]
    except OSError as e:
        raise CouldNotRun("docs/refusals.tsv: can't be read: %s" % why(e))


def report(name, file, refused):
    """The lines on a file that is refused."""
    row = row_of(refused.number)
    line = "" if file.bytes_shown else "line %d: " % file.text.line(refused)
    yield "%s: %srefused by %d: %s" % (name, line, refused.number, row["words"])
    for said in FOUND.get(refused.number, out_of_range)(file, refused):
        yield "  " + said
    yield "  what to do: " + row["do"]
