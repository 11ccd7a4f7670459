"""A frame's tokens and rules in words, with what grammar.txt and history.txt say of them where these are the texts of the files.

The bytes are read by tools/frames.py, the texts by tools/frame_text.py.
"""
import os
import re
from typing import NamedTuple, Optional

from faults import text_beside
from frames import KINDS, read_grammar, read_history, token_words
from streams import printable


class Note(NamedTuple):
    """What a readable form says of a rule or a token."""
    line: int
    comment: str


class Notes(NamedTuple):
    """The readable form beside a file: its name, a note for each rule or token, and why there are none."""
    name: str
    notes: list
    fault: Optional[str]


def notes_beside(path, kind, data):
    """Those of the text that has the file's name but .txt at its end, where it is there and says the same."""
    text, fault = text_beside(path, kind, data, len(data), os.path.basename)
    if text is None:
        return Notes("", [], fault)
    return Notes(text.name, [Note(item.line, printable(item.comment.replace("\t", " "))) for item in text.items], None)


def rule_sentence(rule):
    """A rule in words."""
    if rule[0] == 0:
        return "stage %d becomes nothing" % rule[1]
    if rule[0] == 1:
        return "stage %d becomes mark %d, then stage %d" % tuple(rule[1:])
    return "stage %d becomes open %d, stage %d, close %d, then stage %d" % tuple(rule[1:])


class FrameWords:
    """The words for a frame whose files both pass."""

    def __init__(self, grammar_path, grammar, history_path, history):
        self.grammar, self.tokens = read_grammar(grammar), read_history(history)
        self.partner, self.around, self.depth = structure(self.tokens)
        self.grammar_text = notes_beside(grammar_path, "grammar", grammar)
        self.history_text = notes_beside(history_path, "history", history)

    def faults(self):
        """Why a text beside a file is not used."""
        return [text.fault for text in (self.grammar_text, self.history_text) if text.fault]

    def start_sentence(self):
        """At which stage readings start, and whether the grammar's file says so."""
        if self.grammar.recorded is None:
            return "The grammar's file records no start, so readings start at stage 0."
        return "Readings start at stage %d, as the grammar's file records." % self.grammar.start

    # ---- tokens
    def kind(self, position):
        """mark, open, close, or end for the position behind the last token."""
        return KINDS[self.tokens[position] % 4] if position < len(self.tokens) else "end"

    def token(self, position):
        """The token at a position."""
        return token_words(self.tokens[position]) if position < len(self.tokens) else "the end, behind the last token"

    def token_comment(self, position):
        """What history.txt says of the token."""
        notes = self.history_text.notes
        return notes[position].comment if position < len(notes) else ""

    def token_note(self, position):
        """The token's line in history.txt, in brackets."""
        notes = self.history_text.notes
        if position >= len(notes):
            return ""
        comment = self.token_comment(position)
        return " (%s line %d%s)" % (self.history_text.name, notes[position].line, ": " + comment if comment else "")

    def token_place(self, position):
        """The token with its place among the steps."""
        token, kind = self.token(position), self.kind(position)
        if kind == "mark":
            around = self.around[position]
            return token + (", in no step" if around is None else ", in the step opened at position %d" % around)
        if kind == "open":
            return "%s, closed at position %d" % (token, self.partner[position])
        if kind == "close":
            return "%s, opened at position %d" % (token, self.partner[position])
        return token

    def token_brief(self, position):
        """The same in few words, moved in by its depth; never so far that the kind and the name take two lines of a table."""
        kind, token = self.kind(position), self.token(position)
        if kind == "end":
            return "the end"
        partner = {"open": ", to %s", "close": ", from %s", "mark": "%.0s"}[kind] % self.partner[position]
        comment = self.token_comment(position)
        return "  " * min(self.depth[position], 6) + token + partner + (": " + comment if comment else "")

    # ---- rules
    def stage(self, rule):
        """The stage that the rule is of: the one on its left."""
        return self.grammar.rules[rule][1]

    def rule_comment(self, rule):
        """What grammar.txt says of the rule, without its number in front."""
        notes = self.grammar_text.notes
        if not notes:
            return ""
        return re.sub(r"^rule %d *: *" % rule, "", notes[rule].comment)

    def rule_label(self, rule):
        """The rule in words: those of grammar.txt, else by its fields."""
        return self.rule_comment(rule) or rule_sentence(self.grammar.rules[rule])

    def rule_lines(self, rule):
        """The rule in words, and where it stands."""
        comment, sentence = self.rule_comment(rule), rule_sentence(self.grammar.rules[rule])
        notes = self.grammar_text.notes
        if not notes:
            return [sentence]
        place = "%s line %d" % (self.grammar_text.name, notes[rule].line)
        return [comment, "%s: %s" % (place, sentence)] if comment else ["%s (%s)" % (sentence, place)]


def structure(tokens):
    """For each token the position of its partner, where it is an open or a close; that of the open of the step around it, or None;
    and in how many steps it is."""
    partner, around, depth, opens = [None] * len(tokens), [None] * len(tokens), [0] * len(tokens), []
    for position, token in enumerate(tokens):
        if token % 4 == 2:
            partner[position] = opens.pop()
            partner[partner[position]] = position
        around[position], depth[position] = (opens[-1] if opens else None), len(opens)
        if token % 4 == 1:
            opens.append(position)
    return partner, around, depth
