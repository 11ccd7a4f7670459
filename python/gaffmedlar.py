"""Reads edit histories by a visibly pushdown grammar: the proved library, from Python.

    import gaffmedlar
    for reading in gaffmedlar.readings(grammar, history):
        print(*reading)

Every function here calls one proved service of libgaffmedlar.so and turns its number into a value, or into the exception
Refusal; `numbers` alone is plain Python. The services are proved; this module is outside the proofs, and tested.

Files are bytes of any content: a bytes object, a bytearray, a memoryview of bytes. What is not a bytes object is copied
before the call, so nothing can change it meanwhile. A buffer is memory of the caller's that a service writes: a bytearray
or another writable row of bytes. A bytes object is never written: where one is handed over as a buffer, that is a
TypeError. No other thread may use a buffer during the call; otherwise calls from several threads don't disturb each other,
and they run side by side, since the interpreter's lock is released during a call.

A history of n tokens has positions 0 to n. A reading has one rule number for each of them, so it is n + 1 bytes. A call
that answers a refusal, "none" or "no further" writes nothing.

The set of a position is the rules that stand there in some reading. A position is a choice where two rules of its set are
of one and the same stage. A history has more than one reading exactly when it has a choice. One call of `sets` or `sets_into`
gives the sets and how many choices there are; `choice_count` gives that count alone.

A count of readings is an int where it is at most 2^64 - 1, and OVER where there are more. `reading_count`,
`reading_count_at`, `reading_at` and `reading_at_into` take up to 308 KiB of the stack of the thread that calls them, all
others up to 40 KiB. A thread that Python starts has more, unless threading.stack_size has made it less; where it has less
left than a call takes, and the system can tell, the call is not made and a RuntimeError says so.

The library is the file that the environment variable GAFFMEDLAR_LIBRARY names; otherwise the one that the repository has
built, where this module lies in it, or the one that was installed with this module. Its version has to be the module's:
another one is an ImportError that names both.
"""
from __future__ import annotations

import ctypes
import enum
import operator
import os
import platform
import sys
import threading
from array import array
from typing import Any, Iterable, Iterator, List, NamedTuple, Optional, Union

__version__ = "0.3.0"

__all__ = [
    "Call", "CallAnswer", "First", "GRAMMAR_BYTES_MAX", "GrammarCounts", "HISTORY_BYTES_MAX", "Next", "OVER", "Over",
    "READING_MAX", "REFUSALS", "Refusal", "RefusalRow", "Sets", "WORDS_MAX", "choice_count", "first_reading",
    "grammar_check", "history_check", "next_reading", "numbers", "reading_at", "reading_at_into", "reading_count",
    "reading_count_at", "readings", "run_calls", "sets", "sets_into", "step_bytes", "step_range", "stop_marks",
    "write_grammar", "write_grammar_into", "write_history", "write_history_into",
]

READING_MAX = 1025
"""Bytes of the longest reading: of a history of 1,024 tokens."""
WORDS_MAX = 4 * READING_MAX
"""Words of the sets of such a history."""
GRAMMAR_BYTES_MAX = 1285
"""Bytes of the longest grammar file that passes, which is one with its start written out."""
HISTORY_BYTES_MAX = 3074
"""Bytes of the longest history file that passes."""


# ---- refusals
class RefusalRow(NamedTuple):
    """A row of the table of refusals; `whose` is grammar, history, both (either file) or call."""
    number: int
    name: str
    whose: str
    words: str


REFUSALS = tuple(RefusalRow(*row) for row in (
    (1, "BYTES_END", "both", "the bytes end inside a number or before one that is due"),
    (2, "NUMBER_FORM", "both", "a last byte of 0 after another byte, or a third byte with its top bit set"),
    (3, "STAGE_COUNT", "grammar", "stage count not 1 to 32"),
    (4, "RULE_COUNT", "grammar", "rule count not 1 to 128"),
    (5, "FORM", "grammar", "form above 2"),
    (6, "STAGE", "grammar", "a stage number not below the stage count"),
    (7, "NAME", "grammar", "a name above 65,535"),
    (8, "RULE_TWICE", "grammar", "a rule equal in form and all fields to an earlier rule"),
    (9, "BYTES_FOLLOW", "both", "bytes follow the last rule or token"),
    (10, "TOKEN_COUNT", "history", "token count above 1,024"),
    (11, "TOKEN", "history", "a token number with a name above 65,535, or one that leaves 3 when divided by 4"),
    (12, "CLOSE_WITHOUT_OPEN", "history", "a close with no step open"),
    (13, "STILL_OPEN", "history", "a step still open after the last token"),
    (14, "TOO_DEEP", "history", "an open while 128 steps are open"),
    (15, "BUFFER_SHORT", "call", "a lent buffer shorter than its service writes or reads"),
    (16, "NOT_A_READING", "call", "the first n + 1 bytes handed to \"next reading\" are no reading of this history"),
    (17, "NOT_AN_OPEN", "call", "the position is not that of an open"),
    (18, "OUT_OF_RANGE", "call", "k is 0 or above the count of readings, or the position is above n"),
))
"""All refusals, in the order of their numbers. The table is that of docs/refusals.tsv."""


class Refusal(Exception):
    """A file, its numbers, a buffer, a position or a k was turned down.

    number   the documents' number, 1 to 18
    name     the number's name, as in the C header: "STILL_OPEN"
    words    what is wrong, in words
    file     "grammar" or "history", whichever file is at fault, or was to be written; None where it is the call (15 to 18)
    element  of a writer: which of the numbers is at fault, counted from 0 (as many as there are, where one is missing); else None
    place    of a writer: that element in words, with its rule or token and its field; else None
    """

    def __init__(self, number: int, file: Optional[str], element: Optional[int] = None, place: Optional[str] = None):
        super().__init__(number, file, element, place)
        row = REFUSALS[number - 1]
        self.number, self.name, self.words, self.file = row.number, row.name, row.words, file
        self.element, self.place = element, place

    def __str__(self) -> str:
        said = ["the %s: " % self.file] if self.file else []
        said += [self.place + ": "] if self.place else []
        return "%s%s (%d)" % ("".join(said), self.words, self.number)


# ---- answers
class GrammarCounts(NamedTuple):
    """The counts of a grammar that passes."""
    stages: int
    rules: int


class First(enum.Enum):
    """What first_reading answers."""
    WRITTEN = 0
    """The first n + 1 bytes of the buffer are the first reading."""
    NO_READING = 100
    """"None": the history has no reading; no byte is written."""


class Next(enum.Enum):
    """What next_reading answers."""
    WRITTEN = 0
    """The first n + 1 bytes of the buffer are the reading after the one that they held."""
    NO_FURTHER = 101
    """"No further": they hold the last reading; no byte is written."""


class Over(enum.Enum):
    """The class of OVER, which stands in the place of a count."""
    OVER = 102

    def __str__(self) -> str:
        return "over"


OVER = Over.OVER
""""Over": there are more than 2^64 - 1 readings. It is no number, so sums and comparisons with one are a TypeError, and it
counts as true, as every count of at least 1 does. Test for it by `is`."""


class Call(enum.Enum):
    """A call of a list for run_calls."""
    FIRST = 0
    NEXT = 1


class CallAnswer(enum.Enum):
    """What a call of a list answers, where it isn't refused."""
    WRITTEN = 0
    NO_READING = 100
    NO_FURTHER = 101


# ---- the shared library
class _GrammarReply(ctypes.Structure):
    _fields_ = [("answer", ctypes.c_uint8), ("stages", ctypes.c_uint16), ("rules", ctypes.c_uint16)]


class _HistoryReply(ctypes.Structure):
    _fields_ = [("answer", ctypes.c_uint8), ("tokens", ctypes.c_uint16)]


class _CountReply(ctypes.Structure):
    _fields_ = [("answer", ctypes.c_uint8), ("count", ctypes.c_uint32)]


class _ReadingsReply(ctypes.Structure):
    _fields_ = [("answer", ctypes.c_uint8), ("count", ctypes.c_uint64)]


class _PartReply(ctypes.Structure):
    _fields_ = [("start", ctypes.c_size_t), ("length", ctypes.c_size_t)]


class _WriteReply(ctypes.Structure):
    _fields_ = [("answer", ctypes.c_uint8), ("length", ctypes.c_size_t)]


_READ = [ctypes.c_char_p, ctypes.c_size_t]
_LENT = [ctypes.c_void_p, ctypes.c_size_t]
_ELEMENTS = [ctypes.c_void_p, ctypes.c_size_t]
_ELEMENT_MAX = ctypes.c_uint32(-1).value
_POSITION = [ctypes.c_size_t]
_POSITION_MAX = ctypes.c_size_t(-1).value
_RULE = [ctypes.c_size_t]
_RULE_MAX = ctypes.c_size_t(-1).value
_K = [ctypes.c_uint64]
_K_MAX = ctypes.c_uint64(-1).value
# What include/gaffmedlar.h declares: the reply, a pointer and a number of elements for each file, list and buffer, and the KiB of stack.
_SERVICES = {
    "version": (ctypes.c_uint32, [], 8),
    "grammar_check": (_GrammarReply, _READ, 8),
    "history_check": (_HistoryReply, _READ, 8),
    "first_reading": (ctypes.c_uint8, _READ + _READ + _LENT, 28),
    "next_reading": (ctypes.c_uint8, _READ + _READ + _LENT, 32),
    "run_calls": (ctypes.c_uint8, _READ + _READ + _READ + _LENT + _LENT, 40),
    "sets": (_CountReply, _READ + _READ + _LENT, 28),
    "choice_count": (_CountReply, _READ + _READ, 28),
    "reading_count": (_ReadingsReply, _READ + _READ, 288),
    "reading_count_at": (_ReadingsReply, _READ + _READ + _POSITION + _RULE, 288),
    "reading_at": (ctypes.c_uint8, _READ + _READ + _K + _LENT, 308),
    "stop_marks": (ctypes.c_uint8, _READ + _READ + _LENT, 28),
    "step_bytes": (_PartReply, _READ + _POSITION, 12),
    "step_refusal": (ctypes.c_uint8, _READ + _POSITION, 12),
    "write_grammar": (_WriteReply, _ELEMENTS + _LENT, 12),
    "write_history": (_WriteReply, _ELEMENTS + _LENT, 12),
}
# Where the library lies, seen from this module's folder: in the repository its own build, and installed PREFIX/lib.
_OWN_BUILD, _INSTALLED = "../target/shared/libgaffmedlar.so", "../../libgaffmedlar.so"


def _library_path() -> str:
    """The library's file. What lies elsewhere is not looked for: it could be of another version."""
    named = os.environ.get("GAFFMEDLAR_LIBRARY")
    if named:
        return named
    here = os.path.dirname(os.path.realpath(__file__))
    in_repository = os.path.exists(os.path.join(here, "..", "tools", "build"))
    place = os.path.normpath(os.path.join(here, _OWN_BUILD if in_repository else _INSTALLED))
    if os.path.exists(place):
        return place
    raise ImportError("libgaffmedlar.so is not there. In Gaffmedlar's folder run 'tools/build library', which makes it; or set "
                      "GAFFMEDLAR_LIBRARY to its path. Looked for: " + place)


def _version_words(number: int) -> str:
    """300 as 0.3.0."""
    return "%d.%d.%d" % (number // 10000, number // 100 % 100, number % 100)


def _compare_version(library: ctypes.CDLL, path: str) -> None:
    """Refuses a library of another version than this module's: its answers could mean something else."""
    library.gaffmedlar_grammar_check  # where it lacks this too, it is no library of this name at all
    try:
        function = library.gaffmedlar_version
    except AttributeError:
        said = "older than 0.3.0: it doesn't say its version"
    else:
        function.restype, function.argtypes = ctypes.c_uint32, []
        said = "version " + _version_words(function())
    if said != "version " + __version__:
        raise ImportError("%s is %s, and the module %s is version %s. They belong together: in Gaffmedlar's folder 'tools/build library' makes "
                          "the library of that version; GAFFMEDLAR_LIBRARY names another file" % (path, said, os.path.realpath(__file__), __version__))


def _load(path: str) -> ctypes.CDLL:
    try:
        # with a slash in it the name is a path, and the system's own folders are not searched
        library = ctypes.CDLL(os.path.abspath(path))
        _compare_version(library, path)
        for name, (reply, arguments, _) in _SERVICES.items():
            function = getattr(library, "gaffmedlar_" + name)
            function.restype, function.argtypes = reply, arguments
    except (OSError, AttributeError) as e:
        raise ImportError("%s can't be used as libgaffmedlar.so: %s" % (path, e)) from None
    return library


_library = _load(_library_path())


# ---- what is handed over
def _file(data: Any) -> bytes:
    """A file's bytes; a copy where they could change during the call."""
    if type(data) is bytes:
        return data
    with memoryview(data) as view:
        if view.itemsize != 1:
            raise TypeError("a file is bytes, and this has elements of %d bytes" % view.itemsize)
        return view.tobytes()


def _lent(buffer: Any, item: Any = ctypes.c_uint8, formats: str = "Bc", what: str = "bytes: a bytearray, for instance") -> Any:
    """The caller's buffer as an array over the same memory."""
    with memoryview(buffer) as view:
        fits = view.format.lstrip("@=<") in formats and view.itemsize == ctypes.sizeof(item)
        if view.readonly or not fits or not view.c_contiguous:
            raise TypeError("a buffer is a writable row of " + what)
        length = view.nbytes // view.itemsize
    if length == 0:
        return (item * 0)()  # some address: the library takes no null pointer
    lent = (item * length).from_buffer(buffer)
    if ctypes.addressof(lent) % ctypes.alignment(item):
        del lent
        raise ValueError("the buffer's words are not aligned")
    return lent


def _lent_words(buffer: Any) -> Any:
    return _lent(buffer, ctypes.c_uint32, "IL", "32-bit words: array('I', ..), for instance")


def _elements(values: Iterable[int]) -> Any:
    """The numbers of a file as an array of 32-bit words."""
    elements = [operator.index(value) for value in values]
    for place, element in enumerate(elements):
        if not 0 <= element <= _ELEMENT_MAX:
            raise ValueError("element %d of the numbers is %d, and 0 to %d can be handed over" % (place, element, _ELEMENT_MAX))
    return (ctypes.c_uint32 * len(elements))(*elements)


# ---- the stack of the thread that calls
class _Context(ctypes.Structure):
    """The beginning of what getcontext writes on x86-64 Linux, as far as the stack pointer, and room for the rest."""
    _fields_ = [("before", ctypes.c_uint64 * 20), ("stack_pointer", ctypes.c_uint64), ("rest", ctypes.c_uint64 * 235)]


_STACK_BESIDE = 12 << 10  # for ctypes, for what is bound at the first call, and for memcpy and memset
_thread = threading.local()


def _libc() -> Any:
    """C's library where it can tell a thread's stack, else None."""
    try:
        libc = ctypes.CDLL(None)
        known = libc.pthread_getattr_np, libc.pthread_attr_getstack, libc.pthread_attr_destroy, libc.pthread_self, libc.getcontext
    except (OSError, AttributeError):
        return None
    libc.pthread_self.restype = ctypes.c_ulong
    libc.pthread_getattr_np.argtypes = [ctypes.c_ulong, ctypes.c_void_p]
    return libc if known and sys.platform == "linux" and platform.machine() == "x86_64" else None


_c = _libc()


def _stack() -> range:
    """The addresses of this thread's stack; none where they aren't told. They are asked for once in each thread."""
    if not hasattr(_thread, "stack"):
        attributes, begins, size = (ctypes.c_uint64 * 16)(), ctypes.c_void_p(), ctypes.c_size_t()
        told = _c.pthread_getattr_np(_c.pthread_self(), attributes) == 0
        if told:
            told = _c.pthread_attr_getstack(attributes, ctypes.byref(begins), ctypes.byref(size)) == 0
            _c.pthread_attr_destroy(attributes)
        first = begins.value or 0
        _thread.stack = range(first, first + size.value) if told else range(0)
    return _thread.stack


def _need_stack(service: str) -> None:
    """Raises where the service takes more of the stack than this thread has left: the call would end the whole program."""
    if _c is None:
        return
    stack, context = _stack(), _Context()
    if not stack or _c.getcontext(ctypes.byref(context)) != 0 or context.stack_pointer not in stack:
        return
    kib, left = _SERVICES[service][2], context.stack_pointer - stack.start
    if left < (kib << 10) + _STACK_BESIDE:
        raise RuntimeError("%s takes up to %d KiB of the stack, and this thread has %d KiB left: call it in a thread that is started after "
                           "threading.stack_size(%d << 10)" % (service, kib, left >> 10, kib + 208))


def _call(service: str, *values: Any) -> Any:
    """Calls a service with the address and the number of elements of each value, and a position, a rule or a k as it is.

    A buffer's array is an argument of this function alone, so that an exception which is raised for the answer doesn't
    keep it, and with it the caller's buffer, from being released.
    """
    _need_stack(service)
    arguments = [part for value in values for part in ((value,) if isinstance(value, int) else (value, len(value)))]
    return getattr(_library, "gaffmedlar_" + service)(*arguments)


# ---- answers from numbers
def _whose(number: int) -> str:
    if not 1 <= number <= len(REFUSALS):
        raise RuntimeError("libgaffmedlar.so answered %d, which no promise allows: was another library loaded?" % number)
    return REFUSALS[number - 1].whose


def _refusal(number: int, grammar: Optional[bytes], history: Optional[bytes]) -> Refusal:
    """The refusal of a call with these files; None for a file that the service doesn't take."""
    whose = _whose(number)
    if whose == "both":
        of_grammar = grammar is not None and _call("grammar_check", grammar).answer != 0
        whose = "grammar" if of_grammar else "history"
    return Refusal(number, None if whose == "call" else whose)


def _done(number: int, grammar: Optional[bytes], history: Optional[bytes]) -> None:
    if number != 0:
        raise _refusal(number, grammar, history)


# ---- the services
def grammar_check(grammar: Any) -> GrammarCounts:
    """Checks a grammar file and gives its counts. Raises Refusal (1 to 9)."""
    grammar = _file(grammar)
    reply = _call("grammar_check", grammar)
    _done(reply.answer, grammar, None)
    return GrammarCounts(reply.stages, reply.rules)


def history_check(history: Any) -> int:
    """Checks a history file and gives its number of tokens. Raises Refusal (1, 2, 9 to 14)."""
    history = _file(history)
    reply = _call("history_check", history)
    _done(reply.answer, None, history)
    return reply.tokens


def first_reading(grammar: Any, history: Any, reading: Any) -> First:
    """Writes the first reading into the first n + 1 bytes of the buffer `reading`. Raises Refusal (1 to 15)."""
    grammar, history = _file(grammar), _file(history)
    number = _call("first_reading", grammar, history, _lent(reading))
    if number == First.NO_READING.value:
        return First.NO_READING
    _done(number, grammar, history)
    return First.WRITTEN


def next_reading(grammar: Any, history: Any, reading: Any) -> Next:
    """Overwrites the reading in the first n + 1 bytes of the buffer `reading` by the next one. Raises Refusal (1 to 16).

    The buffer itself is written, so it has to be a bytearray or another writable row of bytes.
    """
    grammar, history = _file(grammar), _file(history)
    number = _call("next_reading", grammar, history, _lent(reading))
    if number == Next.NO_FURTHER.value:
        return Next.NO_FURTHER
    _done(number, grammar, history)
    return Next.WRITTEN


def run_calls(grammar: Any, history: Any, calls: Iterable[Call], buffer: Any) -> List[Union[CallAnswer, Refusal]]:
    """Makes the calls of a list, each on the buffer as the one before left it, and gives the answer to each.

    A refusal is such an answer, and is not raised.
    """
    grammar, history = _file(grammar), _file(history)
    kinds = bytes(Call(call).value for call in calls)
    answers = bytearray(len(kinds))
    _done(_call("run_calls", grammar, history, kinds, _lent(answers), _lent(buffer)), grammar, history)
    known = {answer.value: answer for answer in CallAnswer}
    for number in set(answers) - set(known):
        known[number] = _refusal(number, grammar, history)
    return [known[number] for number in answers]


class Sets:
    """What `sets` gives: the rules that stand at each position in some reading, and the count of choices."""

    def __init__(self, words: array, choices: int):
        self._words, self._choices = words, choices

    def positions(self) -> int:
        """How many positions there are: n + 1."""
        return len(self._words) // 4

    def contains(self, position: int, rule: int) -> bool:
        """Whether the rule stands at the position in some reading; False where there is no such position or rule."""
        if not (0 <= position < self.positions() and 0 <= rule < 128):
            return False
        return self._words[4 * position + rule // 32] >> rule % 32 & 1 == 1

    def rules(self, position: int) -> List[int]:
        """The rules that stand at the position in some reading, smaller numbers first."""
        if not 0 <= position < self.positions():
            return []
        words = enumerate(self._words[4 * position:4 * position + 4])
        return [32 * k + b for k, word in words if word for b in range(32) if word >> b & 1]

    def choices(self) -> int:
        """How many positions are choices: what choice_count gives for the same files."""
        return self._choices

    def words(self) -> array:
        """Four words for each position, as sets_into writes them; a copy."""
        return self._words[:]


def _word_array(length: int) -> array:
    """So many words of 32 bits, all 0."""
    code = "I" if array("I").itemsize == 4 else "L"
    return array(code, bytes(4 * length))


def sets(grammar: Any, history: Any) -> Sets:
    """The set of each position, the rules that stand there in some reading, and the count of choices. Raises Refusal (1 to 14).

    One call of the library gives both, so choice_count isn't needed beside it.

        sets = gaffmedlar.sets(grammar, history)
        print(sets.choices(), sets.rules(0))
    """
    grammar, history = _file(grammar), _file(history)
    words = _word_array(WORDS_MAX)
    choices = sets_into(grammar, history, words)
    return Sets(words[:4 * (history_check(history) + 1)], choices)


def sets_into(grammar: Any, history: Any, words: Any) -> int:
    """Writes the sets into a buffer of 32-bit words and gives the count of choices. Raises Refusal (1 to 15).

    Rule 32 k + b stands at position p in some reading exactly when bit b of word 4 p + k is 1. The buffer `words`,
    array('I', ..) for instance, needs 4 (n + 1) words; WORDS_MAX are enough for every history. The count is what choice_count
    gives for the same files.
    """
    grammar, history = _file(grammar), _file(history)
    reply = _call("sets", grammar, history, _lent_words(words))
    _done(reply.answer, grammar, history)
    return reply.count


def choice_count(grammar: Any, history: Any) -> int:
    """How many positions are choices: two rules of their set are of one and the same stage. Raises Refusal (1 to 14).

    A rule is of the stage on its left. At a choice the history leaves undecided which of the rules it was. Readings differ
    at other positions too, but those have one rule for each stage: they follow from the choices before them, and are not
    counted. The count is 0 exactly when there is one reading or none. `sets` gives it too, with the sets.
    """
    grammar, history = _file(grammar), _file(history)
    reply = _call("choice_count", grammar, history)
    _done(reply.answer, grammar, history)
    return reply.count


def _readings_told(reply: Any, grammar: bytes, history: bytes) -> Union[int, Over]:
    if reply.answer == OVER.value:
        return OVER
    _done(reply.answer, grammar, history)
    return reply.count


def reading_count(grammar: Any, history: Any) -> Union[int, Over]:
    """How many readings there are: exactly where they are at most 2^64 - 1, else OVER. Raises Refusal (1 to 14).

    No reading is stepped through for it, however many there are.
    """
    grammar, history = _file(grammar), _file(history)
    return _readings_told(_call("reading_count", grammar, history), grammar, history)


def reading_count_at(grammar: Any, history: Any, position: int, rule: int) -> Union[int, Over]:
    """How many readings have the rule at the position, as reading_count says it. Raises Refusal (1 to 14, 18).

    18 says that the position is above n; so it does for a number that is no position at all, -1 for instance. A rule that the
    grammar doesn't have stands nowhere: its count is 0, whatever number it is. Each count is told by itself: it may be an int
    where reading_count gives OVER. Where that gives an int, the counts of all rules at a position add up to it.
    """
    grammar, history = _file(grammar), _file(history)
    position, rule = operator.index(position), operator.index(rule)
    # a number that doesn't fit is handed over as the largest one, which is above every n, and no rule either
    position = position if 0 <= position <= _POSITION_MAX else _POSITION_MAX
    rule = rule if 0 <= rule <= _RULE_MAX else _RULE_MAX
    return _readings_told(_call("reading_count_at", grammar, history, position, rule), grammar, history)


def reading_at(grammar: Any, history: Any, k: int) -> bytes:
    """Reading k, counted from 1: the k-th that `readings` gives. Raises Refusal (1 to 14, 18).

    The readings before it are not stepped through. 18 says that k is 0 or above the count, or a number that is no k at all,
    -1 for instance. Where reading_count gives OVER, each k from 1 to 2^64 - 1 is served, and none above.
    """
    grammar, history = _file(grammar), _file(history)
    grammar_check(grammar)
    reading = bytearray(history_check(history) + 1)
    reading_at_into(grammar, history, k, reading)
    return bytes(reading)


def reading_at_into(grammar: Any, history: Any, k: int, reading: Any) -> None:
    """Writes reading k into the first n + 1 bytes of the buffer `reading`. Raises Refusal (1 to 15, 18; 15 before 18).

    From there next_reading goes on in the same buffer.
    """
    grammar, history, k = _file(grammar), _file(history), operator.index(k)
    # a number that doesn't fit is handed over as 0, which no reading has
    k = k if 0 <= k <= _K_MAX else 0
    _done(_call("reading_at", grammar, history, k, _lent(reading)), grammar, history)


def stop_marks(grammar: Any, history: Any, marks: Any = None) -> Any:
    """Writes n + 1 bytes: byte i is 1 where the first i tokens alone have a reading, else 0. Raises Refusal (1 to 15).

    They are written into the buffer `marks`, and into a new bytearray of n + 1 bytes where none is handed over. Gives the
    buffer.
    """
    grammar, history = _file(grammar), _file(history)
    if marks is None:
        grammar_check(grammar)
        marks = bytearray(history_check(history) + 1)
    _done(_call("stop_marks", grammar, history, _lent(marks)), grammar, history)
    return marks


def step_range(history: Any, position: int) -> range:
    """Where in the history file the bytes of the step stand whose open is at the position. Raises Refusal (1, 2, 9 to 14, 17).

    They go from the first byte of that open through the last byte of its close. Positions are counted in tokens, from 0; a
    number that is no position at all, -1 for instance, is refused by 17 too.
    """
    history, position = _file(history), operator.index(position)
    # a number that doesn't fit is handed over as the largest one, where no open can stand
    position = position if 0 <= position <= _POSITION_MAX else _POSITION_MAX
    part = _call("step_bytes", history, position)
    if part.length == 0:  # a step has two bytes at least
        raise _refusal(_call("step_refusal", history, position), None, history)
    return range(part.start, part.start + part.length)


def step_bytes(history: Any, position: int) -> memoryview:
    """The bytes of the step whose open stands at the position, as part of the caller's own. Raises Refusal as step_range does.

    It is a memoryview of the object that was handed over, not a copy; bytes(..) of it is one. A bytearray can't change its
    length as long as such a view of it is held.
    """
    place = step_range(history, position)
    view = memoryview(history)
    if view.ndim != 1:
        view = view.cast("B")
    return view[place.start:place.stop]


def numbers(file: Any) -> List[int]:
    """The numbers of a file in their order, as write_grammar and write_history take them.

    It is for a file that has passed its check: such a file, written again from its numbers, is the same byte for byte, but
    that a grammar without its start gets it written out. This function is plain Python, outside what is proved. It takes any
    bytes and judges none: a number in a longer form than the shortest is that number, and one above 4,294,967,295, or one
    inside which the bytes end, is given as 4,294,967,295. No writer takes that, wherever it stands, so what was cut off is not
    written as if it were whole.
    """
    found, number, place = [], 0, 0
    for byte in _file(file):
        number += (byte & 127) << min(place, 35)  # a group behind the fifth is too large wherever it stands
        place += 7
        if byte < 128:
            found.append(min(number, _ELEMENT_MAX))
            number, place = 0, 0
    return found + [_ELEMENT_MAX] * (place > 0)


# ---- which element a writer's refusal is about; plain Python beside the proved services, which give the refusal alone
_STAGES_MAX = 32
_RULES_MAX = 128
_TOKENS_MAX = 1024
_OPEN_STEPS_MAX = 128
_NAME_MAX = 65535
# The fields behind a rule's form, by form: the letter of document 01, and what it is.
_FIELDS = (
    {"L": "the stage on the left"},
    {"L": "the stage on the left", "c": "the mark's name", "L1": "the stage behind the mark"},
    {"L": "the stage on the left", "a": "the open's name", "L1": "the stage inside the step", "b": "the close's name", "L2": "the stage behind the close"},
)


class _Found(Exception):
    """The first fault of some numbers: the number of the refusal, the element, and its place in words."""


class _Walk:
    """Goes through the numbers of a file and raises _Found at the first fault."""

    def __init__(self, numbers: List[int]):
        self.numbers, self.at = numbers, 0

    def next(self, what: str, least: int, most: int, refusal: int) -> int:
        if self.at == len(self.numbers):
            raise _Found(1, self.at, "element %d is missing: %s" % (self.at, what))
        number = self.numbers[self.at]
        if not least <= number <= most:
            raise _Found(refusal, self.at, "element %d is %d: %s" % (self.at, number, what))
        self.at += 1
        return number

    def ends(self, item: str) -> None:
        if self.at < len(self.numbers):
            raise _Found(9, self.at, "element %d stands behind the last %s" % (self.at, item))


def _rule_walked(walk: _Walk, rule: int, stages: int) -> List[int]:
    first = walk.at
    form = walk.next("the form of rule %d" % rule, 0, 2, 5)
    for letter, words in _FIELDS[form].items():
        most, refusal = (stages - 1, 6) if letter.startswith("L") else (_NAME_MAX, 7)
        walk.next("field %s of rule %d, %s" % (letter, rule, words), 0, most, refusal)
    return walk.numbers[first:walk.at]


def _grammar_walked(walk: _Walk) -> None:
    says_start = walk.numbers[:1] == [0]
    walk.at += says_start
    stages = walk.next("the stage count", 1, _STAGES_MAX, 3)
    if says_start:
        walk.next("the start stage", 0, stages - 1, 6)
    seen: List[List[int]] = []
    for rule in range(walk.next("the rule count", 1, _RULES_MAX, 4)):
        first, own = walk.at, _rule_walked(walk, rule, stages)
        if own in seen:
            raise _Found(8, first, "elements %d to %d, rule %d, are those of rule %d" % (first, walk.at - 1, rule, seen.index(own)))
        seen.append(own)
    walk.ends("rule")


def _token_walked(walk: _Walk, token: int, opens: List[int]) -> None:
    at, number = walk.at, walk.next("token %d" % token, 0, 4 * _NAME_MAX + 3, 11)
    kind = ("mark", "open", "close", None)[number % 4]
    said = "element %d is %d: token %d, " % (at, number, token) + ("%s %d" % (kind, number // 4) if kind else "of kind 3")
    if kind is None:
        raise _Found(11, at, said)
    if kind == "open":
        if len(opens) == _OPEN_STEPS_MAX:
            raise _Found(14, at, said)
        opens.append(at)
    elif kind == "close":
        if not opens:
            raise _Found(12, at, said)
        opens.pop()


def _history_walked(walk: _Walk) -> None:
    opens: List[int] = []
    for token in range(walk.next("the token count", 0, _TOKENS_MAX, 10)):
        _token_walked(walk, token, opens)
    if opens:
        number = walk.numbers[opens[-1]]
        raise _Found(13, opens[-1], "element %d is %d: token %d, open %d, which nothing closes" % (opens[-1], number, opens[-1] - 1, number // 4))
    walk.ends("token")


def _not_written(number: int, kind: str, numbers: List[int]) -> Refusal:
    """A writer's refusal, with its element where the walk finds the same fault."""
    if _whose(number) == "call":
        return Refusal(number, None)
    try:
        {"grammar": _grammar_walked, "history": _history_walked}[kind](_Walk(numbers))
    except _Found as found:
        if found.args[0] == number:
            return Refusal(number, kind, *found.args[1:])
    return Refusal(number, kind)


def _written(kind: str, values: Iterable[int], file: Any) -> int:
    """The length of the grammar or the history that is written into the buffer `file`."""
    elements = _elements(values)
    reply = _call("write_" + kind, elements, _lent(file))
    if reply.answer != 0:
        raise _not_written(reply.answer, kind, list(elements))
    return reply.length


def write_grammar_into(numbers: Iterable[int], file: Any) -> int:
    """Writes a grammar file into the first bytes of the buffer `file` and gives its length. Raises Refusal (1, 3 to 9, 15).

    `numbers` are those of a file in their order, with either beginning: 0, the stage count, the start stage, the rule count;
    or the stage count and the rule count alone, where stage 0 is the start. Behind it stand the numbers of each rule. What is
    written always has its start: from numbers without one the file is two bytes longer than in the short form, and the buffer
    has to hold that. 1 says that there are too few numbers, 9 that there are too many. Bytes behind the file stay;
    GRAMMAR_BYTES_MAX bytes are enough for every grammar. A number below 0 or above 4,294,967,295 is a ValueError. The refusal
    says which element is at fault: its `element`, and its `place` in words.
    """
    return _written("grammar", numbers, file)


def write_history_into(numbers: Iterable[int], file: Any) -> int:
    """Writes a history file into the first bytes of the buffer `file` and gives its length. Raises Refusal (1, 9 to 15).

    `numbers` are those of the file in their order: the token count, and the number of each token. 1 says that there are too
    few, 9 that there are too many. Bytes behind the file stay; HISTORY_BYTES_MAX bytes are enough for every history. A number
    below 0 or above 4,294,967,295 is a ValueError.
    """
    return _written("history", numbers, file)


def write_grammar(numbers: Iterable[int]) -> bytes:
    """The grammar file of these numbers, as write_grammar_into writes it. Raises Refusal (1, 3 to 9).

        numbers = gaffmedlar.numbers(gaffmedlar.write_grammar(gaffmedlar.numbers(grammar)))
        numbers[2] = 1                                  # 0, stage count, start: the same rules, from stage 1 on
        grammar = gaffmedlar.write_grammar(numbers)
    """
    file = bytearray(GRAMMAR_BYTES_MAX)
    return bytes(file[:write_grammar_into(numbers, file)])


def write_history(numbers: Iterable[int]) -> bytes:
    """The history file of these numbers, as write_history_into writes it. Raises Refusal (1, 9 to 14).

        numbers = gaffmedlar.numbers(history)
        numbers[0] += 2
        numbers += [4 * 40 + 1, 4 * 33 + 2]             # a step: open 40, close 33
        history = gaffmedlar.write_history(numbers)
    """
    file = bytearray(HISTORY_BYTES_MAX)
    return bytes(file[:write_history_into(numbers, file)])


def readings(grammar: Any, history: Any) -> Iterator[bytes]:
    """The readings of a history in their order, each made by one call when it is asked for.

    A reading is a bytes object: reading[p] is the rule at position p. Refusal (1 to 14) is raised by the call itself, not by
    the first step of the iteration.
    """
    grammar, history = _file(grammar), _file(history)
    grammar_check(grammar)
    buffer = bytearray(history_check(history) + 1)
    written = first_reading(grammar, history, buffer) is First.WRITTEN
    return _each_reading(grammar, history, buffer, written)


def _each_reading(grammar: bytes, history: bytes, buffer: bytearray, written: bool) -> Iterator[bytes]:
    while written:
        yield bytes(buffer)
        written = next_reading(grammar, history, buffer) is Next.WRITTEN
