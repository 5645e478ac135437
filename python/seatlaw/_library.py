"""The C library behind the package, by ctypes: a request of words and files gets a reply. ctypes holds no lock of Python's meanwhile."""
import ctypes
import ctypes.util
import os
import pathlib
from typing import Mapping, NamedTuple, Sequence, Tuple

DONE, WRONG_WORDS, REFUSED, LEGAL_FAULT, OUT_OF_BUDGET, FAILED, OTHER_SHAPE = 0, 1, 2, 3, 4, 5, 8
NAME = "libseatlaw.so"


class Text(ctypes.Structure):
    """Bytes, and how many."""

    _fields_ = [("bytes", ctypes.c_char_p), ("length", ctypes.c_size_t)]


class File(ctypes.Structure):
    """A file that words may name, and its bytes."""

    _fields_ = [("name", Text), ("bytes", Text)]


class Answer(ctypes.Structure):
    """What came of a request."""

    _fields_ = [("status", ctypes.c_uint32), ("out", Text), ("err", Text), ("made", Text)]


class Template(ctypes.Structure):
    """Returns in which numbers are left open."""

    _fields_ = [
        ("text", ctypes.c_char_p), ("length", ctypes.c_size_t), ("places", ctypes.c_void_p), ("columns", ctypes.c_void_p),
        ("count", ctypes.c_size_t), ("width", ctypes.c_size_t),
    ]


def _opened() -> ctypes.CDLL:
    """The library that SEATLAW_LIBRARY names, the one of this package, or the one that the system has."""
    named, own = os.environ.get("SEATLAW_LIBRARY"), pathlib.Path(__file__).parent / NAME
    path = named or (str(own) if own.exists() else ctypes.util.find_library("seatlaw") or NAME)
    try:
        return ctypes.CDLL(path)
    except OSError as error:
        raise ImportError("the library of seatlaw cannot be opened: %s. SEATLAW_LIBRARY may name another file" % error) from None


_library = _opened()
_ask, _free, counts, _statutes = _library.seatlaw_ask, _library.seatlaw_free, _library.seatlaw_counts, _library.seatlaw_statutes
_ask.argtypes = [ctypes.POINTER(Text), ctypes.c_size_t, ctypes.POINTER(File), ctypes.c_size_t, ctypes.POINTER(Answer)]
_free.argtypes, _free.restype = [ctypes.POINTER(Answer)], None
counts.argtypes = [Text, ctypes.POINTER(Template), ctypes.c_void_p, ctypes.c_size_t, ctypes.c_void_p, ctypes.c_size_t, ctypes.c_void_p]
_statutes.argtypes, _statutes.restype = [], ctypes.c_char_p

# The names of the statutes of the library, in its order.
STATUTES: Tuple[str, ...] = tuple(_statutes().decode().split())


class Reply(NamedTuple):
    """What the program does for a request: its exit status, what it writes to standard output and to standard error, and the file that `code` makes."""

    status: int
    out: str
    err: str
    made: bytes


def text_of(data: bytes) -> Text:
    """The text of bytes, which it keeps."""
    return Text(data, len(data))


def _bytes(text: Text) -> bytes:
    """All bytes of a text of the library: its field gives those before the first byte 0."""
    return ctypes.string_at(ctypes.c_void_p.from_buffer(text), text.length)


def ask(words: Sequence[str], files: Mapping[str, bytes] = {}) -> Reply:
    """What the program does for these words behind its name, and for files of these names.

    >>> ask(["stage", "@2013", "returns.csv", "floor"], {"returns.csv": open("examples/six-laws/returns.csv", "rb").read()}).out
    'A 9\\nB 3\\n'
    >>> ask(["explain", "B99"]).status
    1
    """
    asked = [text_of(word.encode()) for word in words]
    handed = [File(text_of(name.encode()), text_of(data)) for name, data in files.items()]
    answer = Answer()
    _ask((Text * len(asked))(*asked), len(asked), (File * len(handed))(*handed), len(handed), answer)
    try:
        return Reply(answer.status, _bytes(answer.out).decode(), _bytes(answer.err).decode(), _bytes(answer.made))
    finally:
        _free(answer)
