"""Which folders are frames, for ./survey and ./explain --html, and the files of a frame.

A frame is a folder with a history.bin: the folder itself that is named, or any below it.
"""
import errno
import os
from typing import NamedTuple, Optional

from built import FILE_BYTES
from streams import open_plain, why

GRAMMAR, HISTORY = "grammar.bin", "history.bin"


class Place(NamedTuple):
    """A frame's folder, or one that should be a frame's; `fault` says why it can't be read."""
    path: str
    fault: Optional[str]


def is_folder(entry):
    """Whether it is a folder or a link to one. What can't be told counts as one, so that the try to enter it says why."""
    try:
        return entry.is_dir()
    except OSError as e:
        return e.errno != errno.ELOOP


def names_and_folders(path):
    """The names in a folder, and those of them that are folders, sorted."""
    with os.scandir(path) as entries:
        found = sorted((os.fsencode(entry.name), entry.name, is_folder(entry)) for entry in entries)
    return [name for _, name, _ in found], [name for _, name, folder in found if folder and name != HISTORY]


def missing(file, names):
    others = [name for name in names if name.lower() == file]
    return "no %s%s" % (file, ", but %s" % others[0] if others else "")


def places_in(path, names, own_grammar):
    """The folder where it is a frame's, or lacks one of a frame's files. With one grammar for all, a grammar.bin makes no frame."""
    if HISTORY in names:
        return [Place(path, missing(GRAMMAR, names) if own_grammar and GRAMMAR not in names else None)]
    wanting = own_grammar and GRAMMAR in names or HISTORY in (name.lower() for name in names)
    return [Place(path, missing(HISTORY, names))] if wanting else []


def places(folders, own_grammar, tell=lambda said: None):
    """Every frame below the folders, each folder once, in the order of the paths; meanwhile `tell` is told how many there are."""
    seen, found, waiting = set(), [], list(reversed(folders))
    while waiting:
        path = waiting.pop()
        try:
            about = os.stat(path)
            if (about.st_dev, about.st_ino) in seen:
                continue
            seen.add((about.st_dev, about.st_ino))
            names, below = names_and_folders(path)
        except OSError as e:
            found.append(Place(path, why(e)))
            continue
        found += places_in(path, names, own_grammar)
        tell("%d frames found" % len(found))
        waiting.extend(os.path.join(path, name) for name in reversed(below))
    return found


def plain_file(folder, name):
    """A file's bytes."""
    try:
        with open_plain(os.path.join(folder, name)) as file:
            return file.read(FILE_BYTES)
    except OSError as e:
        raise OSError("%s: %s" % (name, why(e)))
