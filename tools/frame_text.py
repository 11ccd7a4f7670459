"""The readable form of a grammar or a history, both ways: text to the bytes of its file, and rules or tokens to text.

A '#' starts a comment, and blank lines are skipped. Words are parted by blanks and tabs. Numbers are the digits 0 to 9 alone.

A grammar: a line 'stages N', then 'start N' where the file records its start, then one line for each rule. Rules are numbered from 0 in
the order of their lines.
    L ->                       L becomes nothing                                  (form 0)
    L -> mark C L1             L becomes mark C, then L1                           (form 1)
    L -> open A L1 close B L2  L becomes open A, L1, close B, then L2              (form 2)
L, L1, L2 are stage numbers; A, B, C are names, numbers too.
With a line 'start N' the file has the long form, which begins with a 0. Without one it has the short form, and stage 0 is the start; but
0 stages, which no file may have, are written in the long form with the start 0, since a file that begins with a 0 is of that form.

A history: 'mark N', 'open N' or 'close N' for each token, any number of them to a line.

A text is UTF-8, with or without a byte order mark, its lines ended by LF or CR LF. Only what can't be written as numbers is a fault
here; whether the numbers are in their ranges is told by the reader of frames.py. There are never too many rules or tokens to be counted
by a number of a file: a text that had so many is longer than the commands read (streams.py).
"""
import re
from typing import List, NamedTuple, Optional

from frames import FIELDS, KINDS, MOST, Grammar, grammar_bytes, history_bytes, token_words

# A rule's line, by form; the letters are the fields in file order.
PATTERNS = [["L", "->"], ["L", "->", "mark", "c", "L1"], ["L", "->", "open", "a", "L1", "close", "b", "L2"]]
RULE_HELP = "a rule is 'L ->', 'L -> mark C L1' or 'L -> open A L1 close B L2'"
START_HELP = "the start is told by one line 'start N', directly behind 'stages N'"
TOKEN_HELP = "a token is 'mark N', 'open N' or 'close N'"

# Characters that a person doesn't see, or sees as the end of a line where none is: they would hide what is read.
HIDDEN = re.compile("[\x00-\x08\x0b-\x1f\x7f-\x9f\u2028\u2029\ufeff]")


class TextFault(Exception):
    """What is wrong with a text; begins with the number of the line."""

    def __init__(self, line, words):
        super().__init__("line %d: %s" % (line, words))
        self.line = line


class RuleLine(NamedTuple):
    line: int
    words: List[str]
    comment: str


class TokenLine(NamedTuple):
    line: int
    comment: str


class GrammarText(NamedTuple):
    grammar: Grammar
    rules: List[RuleLine]
    stages_line: int
    start_line: Optional[int]

    def files(self):
        """The bytes of each file that says the same, that of the text itself first: a start of 0 may stand in the file or not."""
        stages, rules, _ = self.grammar
        both = [grammar_bytes(stages, rules), grammar_bytes(stages, rules, 0)]
        return [grammar_bytes(*self.grammar)] + (both if stages and not self.grammar.start else [])


class HistoryText(NamedTuple):
    numbers: List[int]
    tokens: List[TokenLine]

    def files(self):
        return [history_bytes(self.numbers)]


# ---- from text
def quoted(word):
    """A word for a message: hidden and foreign characters escaped, cut where it is long."""
    shown = ascii(word)[1:-1]
    return "'%s'" % (shown if len(shown) <= 40 else shown[:40] + "..")


def decoded(data):
    """The text of a file's bytes, without a byte order mark."""
    if data[:2] in (b"\xff\xfe", b"\xfe\xff"):
        raise TextFault(1, "the text is UTF-16; save it as UTF-8")
    try:
        text = data.decode("utf-8")
    except UnicodeDecodeError as e:
        before = data[:e.start]
        column = e.start - (before.rfind(b"\n") + 1) + 1
        raise TextFault(before.count(b"\n") + 1, "byte %d of the line (%d) is no UTF-8; save the text as UTF-8" % (column, data[e.start]))
    return text[1:] if text.startswith("\ufeff") else text


def lines_of(text):
    """Each line that says something, from a text or the bytes of one: its number, its words, its comment."""
    text = decoded(text if isinstance(text, bytes) else text.encode("utf-8", "surrogatepass"))
    for number, line in enumerate(text.split("\n"), 1):
        line = line[:-1] if line.endswith("\r") else line
        hidden = HIDDEN.search(line)
        if hidden:
            raise TextFault(number, "character %d is the control character U+%04X; is this a text?" % (hidden.start() + 1, ord(hidden.group())))
        said, _, comment = line.partition("#")
        words = re.findall("[^ \t]+", said)
        if words:
            yield number, words, comment.strip()


def number_of(word, line, what, most=MOST):
    if not re.fullmatch("[0-9]+", word):
        raise TextFault(line, "%s is no number, and %s is due, in the digits 0 to 9" % (quoted(word), what))
    digits = word.lstrip("0") or "0"
    if len(digits) > len(str(most)) or int(digits) > most:
        raise TextFault(line, "%s is too large for %s: a file can hold no more than %s there" % (quoted(word), what, "{:,}".format(most)))
    return int(digits)


def rule_numbers(line, words):
    """The form of a rule, and its fields."""
    for form, pattern in enumerate(PATTERNS):
        pairs = list(zip(pattern, words))
        if len(words) == len(pattern) and all(due == word for due, word in pairs if due not in FIELDS[form]):
            return [form] + [number_of(word, line, FIELDS[form][due]) for due, word in pairs if due in FIELDS[form]]
    raise TextFault(line, "no rule: %s; %s" % (quoted(" ".join(words)), RULE_HELP))


def stage_count(line, words):
    if words[:1] != ["stages"] or len(words) != 2:
        raise TextFault(line, "a grammar begins with a line 'stages N'" + ("; here it is %s" % quoted(" ".join(words)) if words else ""))
    return number_of(words[1], line, "the stage count")


def start_stage(line, words, earlier, rules):
    """The number of a line 'start N'; `earlier` is the line of another one or None, `rules` those before it."""
    if len(words) != 2:
        raise TextFault(line, "no start: %s; %s" % (quoted(" ".join(words)), START_HELP))
    if earlier is not None:
        raise TextFault(line, "a second start; line %d has the first, and %s" % (earlier, START_HELP))
    if rules:
        raise TextFault(line, "a start behind a rule; %s" % START_HELP)
    return number_of(words[1], line, "the start")


def parse_grammar(text):
    """What a grammar's text says, and the line of each part."""
    lines = lines_of(text)
    stages_line, words, _ = next(lines, (1, [], ""))
    stages, start, start_line = stage_count(stages_line, words), None, None
    rules, rule_lines = [], []
    for line, words, comment in lines:
        if words[0] == "start":
            start, start_line = start_stage(line, words, start_line, rules), line
            continue
        rules.append(rule_numbers(line, words))
        rule_lines.append(RuleLine(line, words, comment))
    # 0 stages in the short form would be read as the 0 of the long one
    return GrammarText(Grammar(stages, rules, 0 if stages == 0 and start is None else start), rule_lines, stages_line, start_line)


def parse_history(text):
    """The numbers of a history's tokens, and the line of each."""
    numbers, tokens = [], []
    for line, words, comment in lines_of(text):
        for at in range(0, len(words), 2):
            kind, name = words[at], words[at + 1:at + 2]
            if kind not in KINDS:
                raise TextFault(line, "no kind of token: %s; %s" % (quoted(kind), TOKEN_HELP))
            if not name:
                raise TextFault(line, "the line ends behind %s; %s" % (quoted(kind), TOKEN_HELP))
            numbers.append(4 * number_of(name[0], line, "the %s's name" % kind, MOST // 4) + KINDS.index(kind))
            tokens.append(TokenLine(line, comment))
    return HistoryText(numbers, tokens)


PARSE = {"grammar": parse_grammar, "history": parse_history}


# ---- to text
def rule_text(rule):
    """A rule as its line; a rule is its form and its fields."""
    fields = iter(rule[1:])
    return " ".join(str(next(fields)) if word in FIELDS[rule[0]] else word for word in PATTERNS[rule[0]])


def grammar_text(stages, rules, start=None):
    """The start is told where the file records it."""
    lines = ["stages %d" % stages] + ([] if start is None else ["start %d" % start])
    for number, rule in enumerate(rules):
        lines.append("%-35s # rule %d" % (rule_text(rule), number))
    return "\n".join(lines) + "\n"


def history_text(tokens):
    """A line for each token, moved in by the steps around it, of which no history that passes has more than 128."""
    lines, depth = [], 0
    for token in tokens:
        depth -= token % 4 == 2
        lines.append("  " * min(max(depth, 0), 128) + token_words(token))
        depth += token % 4 == 1
    return "\n".join(lines) + "\n"
