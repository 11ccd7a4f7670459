"""What ./check finds in a file, as plain values for ./check --json."""
from faults import row_of
from frames import read_grammar, read_history


def counts_of(kind, data):
    """The counts of a file that is in order, and the start of a grammar."""
    if kind == "history":
        return {"tokens": len(read_history(data))}
    grammar = read_grammar(data)
    return {"stages": grammar.stages, "start": grammar.start, "start_recorded": grammar.recorded is not None, "rules": len(grammar.rules)}


def place_of(file, refused):
    """A refusal with its place: the rule or token, its field, the value found, what is allowed, the bytes from `at` on and before `end`."""
    row = row_of(refused.number)
    allowed = list(refused.allowed) if refused.allowed else None
    place = {"at": refused.at, "end": refused.end} if file.bytes_shown else {"at": None, "end": None}
    return dict({"number": refused.number, "words": row["words"], "do": row["do"], "item": refused.item, "field": refused.field, "value": refused.value,
                 "allowed": allowed, "line": file.text.line(refused) if file.text else None}, **place)
