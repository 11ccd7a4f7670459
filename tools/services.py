"""The public services: a crate, and its functions; none named stands for all that are public."""

SERVICES = [
    ("files", ["grammar_check", "history_check"]),
    ("readings", []),
    ("calls", []),
    ("sets", []),
    ("stop_marks", []),
    ("reading_counts", []),
    ("step_bytes", ["step_bytes", "step_check"]),
    ("writers", []),
    ("gaffmedlar", []),
    ("listing_output", []),
]
