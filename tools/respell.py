#!/usr/bin/env python3
"""Brings the repository's own antt names to today's spelling, once, behind the kit's port.py: definitions, fields and constructors in snake case, lemmas with
an underscore before a plain word and a dash between two names, the proof of a function f as f_spec. Types, modules, names of functions of src/, exported C
names and strings keep their names. It prints each name that it changes. To be run once.

usage: tools/respell.py [--dry]
"""
import collections
import glob
import os
import re
import sys

TOP = os.path.dirname(os.path.dirname(os.path.abspath(__file__)))
OPEN = re.compile(r"[^\s(){}\[\],;.`\"|]+")
SIGNATURE = re.compile(r"(\s*)((?:(?:pub|abbrev|unfoldable|pattern|record|data) )*)([^\s:(){}=.]+)((?: ?[({][^:]*:.*?[)}])*)\s*:(?:\s|$)")
CAMEL = re.compile(r"[a-z][A-Za-z0-9']*[a-z0-9][A-Z][A-Za-z0-9']*(?:-[A-Za-z0-9'-]*)?|[a-z]+[A-Z][A-Za-z0-9']*(?:-[A-Za-z0-9'-]*)?")
# the library's functions, which a dash may join to one of this repository's
WORDS = set(
    "length drop take append add sub mul div mod pow or and not map get get_or set any all zero suc cond cap sum reverse concat eqb ltb leb min max last init"
    " fold filter le lt eq ne mem count bit some none cons nil".split()
)
# what the library calls so already where these lemmas are used
KEPT = {"getD-listed": "get_or-listed", "getD-seam": "get_or-seam"}


def files():
    for ending in ("antt", "rt", "edit"):
        yield from sorted(glob.glob(f"{TOP}/crates/*/**/*.{ending}", recursive=True))


def read(path):
    with open(path, encoding="utf-8") as f:
        return f.read()


def is_own_proof(path):
    """Whether a file is one of a function's proof, whose names the library makes."""
    return path.endswith("/Proof.antt")


def snake(name):
    return re.sub(r"(?<=[a-z0-9'])[A-Z]+", lambda it: "_" + it[0].lower(), name)


def declared(texts):
    """The names that the repository declares, those of functions' proofs left out: all of them, and those of definitions."""
    names, definitions = set(), set()
    for path, text in texts.items():
        if not path.endswith(".antt") or is_own_proof(path):
            continue
        for line in text.split("\n"):
            m = SIGNATURE.match(line)
            if not m or line.lstrip().startswith("--"):
                continue
            names.add(m[3])
            if "/specs/" in path and not m[1]:
                definitions.add(m[3])
    return names, definitions


def in_scope(path, text):
    """The names that stand alone in a file, not behind a dot; of code those that a clause would read as a value."""
    if path.endswith(".antt"):
        local = set(re.findall(r"^([^\s:]+) : tie\.", text, re.M)) if is_own_proof(path) else set()
        return {m[0] for m in OPEN.finditer(text) if text[m.start() - 1 : m.start()] != "."} - local
    code = re.sub(r"^\s*(pub )?use .*$|//.*$", "", text, flags=re.M)
    return set(re.findall(r"(?<![\w.:])(?<!fn )[a-z]\w*(?![\w(]|::|!)|[a-z]+[A-Z]\w*|[\w]+(?:-[\w]+)+", code))


def functions():
    found = set()
    for path in glob.glob(f"{TOP}/crates/*/src/**/*.rt", recursive=True):
        found.update(re.findall(r"\bfn (\w+)", read(path)))
    return found


def respelled(name, known):
    """The name with an underscore before a plain word, and a dash where it joins two names that are known."""
    parts = snake(name).split("-")
    chunks, at = [], 0
    while at < len(parts):
        for end in range(len(parts), at, -1):
            joined = "_".join(parts[at:end])
            if joined in known:
                break
        else:
            end = at + 1
            joined = parts[at]
        chunks.append((joined, joined in known))
        at = end
    new = chunks[0][0]
    for before, here in zip(chunks, chunks[1:]):
        new += ("-" if before[1] and here[1] else "_") + here[0]
    return new


def table(texts):
    names, definitions = declared(texts)
    known = WORDS | functions() | {snake(it) for it in definitions if it[0].islower() and "-" not in it}
    tokens = {path: in_scope(path, text) for path, text in texts.items()}
    where = collections.defaultdict(set)
    for path, found in tokens.items():
        for it in found:
            where[it].add(path)
    taken = set(names)
    new = {}
    # definitions first: a lemma that would have a definition's name gets another one
    for name in sorted(names, key=lambda it: ("-" in it, it)):
        if name in KEPT:
            new[name] = KEPT[name]
            continue
        if not name[0].islower() and "-" not in name:
            continue
        if "-" in name and re.match(r"[A-Z]\w*-", name):
            continue
        if "-" not in name and not CAMEL.fullmatch(name):
            continue
        first = respelled(name, known)
        if first == name:
            continue
        for to in (first, first + "_lem"):
            near = [path for path in where[name] if to in tokens[path]]
            if near:
                print(f"near: {name} {to} {near[0]}")
            if to in taken:
                print(f"taken: {name} {to}")
            if to not in taken and not near:
                new[name] = to
                taken.add(to)
                break
        else:
            if "-" not in name:
                print(f"stays: {name}")
    # names that are bound, not declared
    for path, found in tokens.items():
        if path.endswith(".antt"):
            for it in found:
                if CAMEL.fullmatch(it) and "-" not in it and it not in new:
                    to = snake(it)
                    if to in found:
                        print(f"stays: {it} of {path}")
                    else:
                        new[it] = to
    return {a: b for a, b in new.items() if a != b}


def turned(path, text, new):
    aliases = set(re.findall(r"^use [^{}\n]* as ([\w-]+)$", text, re.M)) - {"tie", "goal"}
    local = set()
    if is_own_proof(path):
        # the goals' names there are the library's
        local = set(re.findall(r"^([^\s:]+) : tie\.", text, re.M))

    def one(m):
        it, start = m[0], m.start()
        if it not in new or it in local:
            return it
        before = text[max(0, start - 60) : start]
        if "-" in it and before.endswith("."):
            owner = re.search(r"([^\s(){}\[\],;]*)\.$", before)[1]
            if is_own_proof(path) and owner.split(".")[-1] not in aliases and it not in FIELDS:
                return it
            if owner.split(".")[0] == "tie":
                return it
        return new[it]

    text = OPEN.sub(one, text)
    if is_own_proof(path):
        name = os.path.basename(os.path.dirname(path))
        dashed = name.replace("_", "-")
        text = re.sub(rf"(?<![\w.-]){re.escape(dashed)}-spec(?![\w-])", f"{name}_spec", text)
    return text


def fields(texts):
    found = set()
    for path, text in texts.items():
        inside = None
        for line in text.split("\n") if path.endswith(".antt") else ():
            indent = len(line) - len(line.lstrip())
            if re.match(r"\s*(pub )?(pattern )?record ", line):
                inside = indent
            elif inside is not None and line.strip():
                m = re.match(r"\s*(?:pub )?([^\s:(){}]+) :", line)
                if indent <= inside:
                    inside = None
                elif m:
                    found.add(m[1])
    return found


def pages(new):
    """The names in the documents: what stands alone between backticks, or in a comment's line of laws."""
    for path in sorted(glob.glob(f"{TOP}/docs/**/*.md", recursive=True)) + [f"{TOP}/README.md", f"{TOP}/CHANGELOG.md"]:
        if path.endswith(("/PORT.md", "/DESIGN-PASS.md")):
            continue
        text = read(path)
        turned_text = re.sub(r"`[^`\n]+`", lambda m: "`" + OPEN.sub(lambda it: new.get(it[0], it[0]), m[0][1:-1]) + "`", text)
        if turned_text != text:
            yield path, turned_text


def main():
    global FIELDS
    texts = {path: read(path) for path in files()}
    FIELDS = fields(texts)
    new = table(texts)
    changed = [(path, turned(path, text, new)) for path, text in texts.items()]
    changed += list(pages(new))
    for a, b in sorted(new.items()):
        print(f"{a} -> {b}")
    count = 0
    for path, text in changed:
        if text != texts.get(path, ""):
            count += 1
            if "--dry" not in sys.argv:
                with open(path, "w", encoding="utf-8") as f:
                    f.write(text)
    print(f"{len(new)} names in {count} files")


main()
