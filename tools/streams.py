"""Files in and out for the commands: a clear message for whatever goes wrong, and nothing half written."""
import errno
import os
import re
import signal
import stat
import sys
import tempfile
import traceback

# The statuses of a command. 1 is left to those that read frames: there is no reading.
DONE, REFUSED, COULD_NOT_RUN = 0, 2, 3

ROOT = os.path.dirname(os.path.dirname(os.path.realpath(__file__)))
# In an installed copy nothing can be built, and the commands have other names.
INSTALLED = not os.path.exists(os.path.join(ROOT, "tools", "build"))

# A longer text is no readable form of a grammar or a history.
MOST_TEXT = 1 << 22


class CouldNotRun(Exception):
    """A file can't be read or written, or the call is no good; the message says which and why."""


class CouldNotWrite(CouldNotRun):
    """What was to be said or written is not, so there is no use in going on."""


def printable(text):
    """A name as it can be shown: what can't be printed is escaped."""
    return "".join(c if c.isprintable() else c.encode("unicode_escape").decode("ascii") for c in text)


def shown(path):
    return "standard input" if path == "-" else printable(path)


def called(text):
    """A text of ours with the commands by the names that they have here: ./check is gaffmedlar-check where it is installed."""
    return re.sub(r"(?:\./|tools/)(list|survey|explain|check|text)\b", r"gaffmedlar-\1", text) if INSTALLED else text


def about(words, doc):
    """Says what a command is, or its version, where the words ask for that and nothing else; whether they do."""
    if words in (["-h"], ["--help"]):
        say([called(doc.strip())])
    elif words == ["--version"]:
        with open(os.path.join(ROOT, "VERSION"), encoding="ascii") as file:
            say(["gaffmedlar " + file.read().strip()])
    else:
        return False
    return True


def taken(words, option):
    """Whether an option stands among the words, before a '--', and the words without it."""
    end = words.index("--") if "--" in words else len(words)
    return option in words[:end], [word for word in words[:end] if word != option] + words[end:]


def why(error):
    return "a loop of links" if error.errno == errno.ELOOP else error.strerror or str(error)


def open_plain(path):
    """A file to be read. What is no plain file is not opened, since it could keep us waiting, but for a pipe that the shell hands over."""
    mode = os.stat(path).st_mode
    handed_over = path == "/dev/stdin" or path.startswith("/dev/fd/")
    if not stat.S_ISREG(mode) and not stat.S_ISDIR(mode) and not (handed_over and stat.S_ISFIFO(mode)):
        raise OSError("no plain file")
    return open(path, "rb")


def read_start(path, most):
    """The first `most` bytes of a file ('-' is standard input), and its length; None where it is longer and that is all one knows."""
    try:
        if path == "-":
            return start_of(standard("stdin"), most)
        with open_plain(path) as file:
            return start_of(file, most)
    except OSError as e:
        raise CouldNotRun("%s: can't be read: %s" % (shown(path), why(e)))


def read_text(path):
    """The bytes of a readable form."""
    data, size = read_start(path, MOST_TEXT)
    if size != len(data):
        raise CouldNotRun("%s: longer than %d bytes, which no readable form is" % (shown(path), MOST_TEXT))
    return data


def start_of(file, most):
    data = file.read(most + 1)
    status = os.fstat(file.fileno())
    if len(data) <= most:
        return data, len(data)
    return data[:most], status.st_size if stat.S_ISREG(status.st_mode) and status.st_size > most else None


def standard(name):
    """The bytes of a standard stream, which is not there where it was closed."""
    stream = getattr(sys, name)
    if stream is None:
        raise OSError("it is closed")
    return stream.buffer


def write_whole(path, data):
    """Writes a file ('-' is standard output). A file that is there keeps its content until all of the new one is written."""
    try:
        if path == "-":
            standard("stdout").write(data)
            standard("stdout").flush()
        elif os.path.exists(path) and not os.path.isfile(path):
            with open(path, "wb") as file:
                file.write(data)
        else:
            replace(os.path.realpath(path), data)
    except OSError as e:
        raise CouldNotWrite("%s: can't be written: %s" % ("standard output" if path == "-" else printable(path), why(e)))


def replace(path, data):
    """A new file beside the old one takes its place and its permissions."""
    umask = os.umask(0)
    os.umask(umask)
    mode = stat.S_IMODE(os.stat(path).st_mode) if os.path.exists(path) else 0o666 & ~umask
    handle, beside = tempfile.mkstemp(dir=os.path.dirname(path), prefix=".gaffmedlar-")
    try:
        with os.fdopen(handle, "wb") as file:
            file.write(data)
        os.chmod(beside, mode)
        os.replace(beside, path)
    except BaseException:
        os.unlink(beside)
        raise


def encoded(text, stream):
    """A text in the encoding of a standard stream, which need not hold every character of it."""
    encoding = getattr(stream, "encoding", None) or "utf-8"
    try:
        return text.encode(encoding)
    except UnicodeEncodeError:
        return text.replace("×", "x").encode(encoding, "backslashreplace")


def say(lines):
    """Lines to standard output."""
    write_whole("-", encoded("".join(line + "\n" for line in lines), sys.stdout))


def complain(command, message):
    """A message to standard error, where it is open."""
    name = "gaffmedlar-" + command if INSTALLED else command
    try:
        standard("stderr").write(encoded("%s: %s\n" % (name, message), sys.stderr))
        standard("stderr").flush()
    except OSError:
        pass


def run(command, main):
    """Runs a command to its end: its status, or COULD_NOT_RUN with a message. An interrupt ends it without one.

    What nobody foresaw ends it by that status too: Python's own would be 1, which says that there is no reading.
    """
    signal.signal(signal.SIGINT, signal.SIG_DFL)
    try:
        status = main(sys.argv[1:])
    except CouldNotRun as e:
        complain(command, e)
        status = COULD_NOT_RUN
    except Exception as e:
        complain(command, "a fault of the program itself: %r\n%s" % (e, traceback.format_exc().rstrip()))
        status = COULD_NOT_RUN
    # What could not be written is told already, and Python need not try it again.
    os._exit(status)
