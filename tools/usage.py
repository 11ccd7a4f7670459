"""What every tool of this folder answers: --help and --version; words that it doesn't know are refused, with status 2."""
import os
import signal
import sys

ROOT = os.path.join(os.path.dirname(os.path.abspath(__file__)), "..")


def version():
    with open(os.path.join(ROOT, "VERSION"), encoding="ascii") as f:
        return "gaffmedlar " + f.read().strip()


def answered(doc, words, known):
    """Ends the program where the words ask what it is, or where they are none of those that it knows: `known` says it of them."""
    # whoever reads the first lines only is no fault
    signal.signal(signal.SIGPIPE, signal.SIG_DFL)
    if words in (["-h"], ["--help"]):
        print(doc.strip())
        sys.exit(0)
    if words == ["--version"]:
        print(version())
        sys.exit(0)
    if not known:
        print("no such words: %s\n\n%s" % (" ".join(words), doc.strip()), file=sys.stderr)
        sys.exit(2)
