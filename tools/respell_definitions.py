#!/usr/bin/env python3
"""Behind tools/respell.py: ten definitions whose plain name a lemma had get that name, and the lemma, where both are used in one file, the ending `_lem`;
and five fields and constructors theirs. To be run once; of one
name of NAMES, given as an argument, any number of times.

usage: tools/respell_definitions.py [NAME..]
"""
import glob
import os
import re
import sys

TOP = os.path.dirname(os.path.dirname(os.path.abspath(__file__)))
NAMES = "close_of finished_of goes_on is_open no_room rule_fits stands_at step_in test_at two_bytes".split()
# fields and constructors, which are found by their type
MEMBERS = {
    "start_in_lem": "start_in",
    "inside_in_lem": "inside_in",
    "is_mark_lem": "is_mark",
    "is_close_lem": "is_close",
    "no-further": "no_further",
}
# where the lemma of that name is used beside the definition
BOTH = {
    "close_of": ["levels/proofs/Levels.antt"],
    "stands_at": ["sets_theory/proofs/Sets.antt", "sets_theory/specs/KeptTest.antt"],
    "step_in": ["step_bytes/proofs/Whole.antt", "step_bytes/proofs/Parts.antt", "refusals/proofs/Steps.antt"],
    "test_at": ["level_theory/proofs/Local.antt"],
}


def main():
    names = sys.argv[1:] or NAMES
    paths = [p for end in ("antt", "rt", "edit") for p in glob.glob(f"{TOP}/crates/*/**/*.{end}", recursive=True) if "/out/" not in p]
    paths += glob.glob(f"{TOP}/docs/**/*.md", recursive=True)
    count = 0
    for path in sorted(paths):
        with open(path, encoding="utf-8") as f:
            old = text = f.read()
        for name in names:
            both = any(path.endswith("/crates/" + it) for it in BOTH.get(name, []))
            word = r"(?<![\w.'-])" + name + r"(_lem)?(?![\w'-])"
            if both:
                text = re.sub(word, lambda m: name if m[1] else name + "_lem", text)
            elif "/docs/" not in path or name not in BOTH:
                text = re.sub(word, name, text)
            else:
                text = re.sub("`" + name + "(_lem)?`", lambda m: f"`{name}`" if m[1] else f"`{name}_lem`", text)
        for before, after in () if sys.argv[1:] else MEMBERS.items():
            text = re.sub(r"(?<![\w'-])" + before + r"(?![\w'-])", after, text)
        if text != old:
            count += 1
            with open(path, "w", encoding="utf-8") as f:
                f.write(text)
    print(f"{count} files")


main()
