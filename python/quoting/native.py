"""libquoting: where it is found, its calls with their types, and a refusal as an exception.

Every call answers one number of 64 bits; from 2^32 on it is a refusal and its place (include/quoting.h). Numbers are checked before they
come here (`quoting.ranges`): a ctypes number would cut them silently. Bytes and buffers are given as the objects that they are, so that no
address outlives them.

A call works on the stack of its thread, with QUOTING_STACK_BYTES of the header at most. A thread of Python has more unless
`threading.stack_size` was set lower.
"""

import ctypes
import ctypes.util
import os
from functools import lru_cache
from pathlib import Path
from typing import Any

from quoting import ranges

HERE = Path(__file__).resolve().parent
ROOT = HERE.parent.parent  # of the tree, where the package is in one
MAJOR = 1

BYTES = ctypes.c_void_p  # to bytes, words or prices that are lent
SIZE = ctypes.c_size_t
WORD = ctypes.c_uint32

# The types of each call's arguments, as include/quoting.h declares them; each answers a number of 64 bits.
CALLS: dict[str, list[Any]] = {
    "quoting_session": [BYTES, SIZE, BYTES, SIZE],
    "quoting_session_pairs": [BYTES, SIZE, BYTES, SIZE, BYTES, SIZE],
    "quoting_weight": [WORD, WORD, WORD],
    "quoting_choose_row": [BYTES, SIZE, BYTES, SIZE, WORD, WORD, WORD, BYTES, SIZE],
    "quoting_fix": [BYTES, SIZE, BYTES, SIZE],
    "quoting_fix_write": [BYTES, SIZE, BYTES, SIZE, BYTES, SIZE],
    "quoting_fix_scan": [BYTES, SIZE, BYTES, SIZE, BYTES, SIZE],
    "quoting_board": [BYTES, SIZE, WORD, WORD],
    "quoting_sigma": [BYTES, SIZE, BYTES, SIZE],
    "quoting_volatile": [BYTES, SIZE, WORD],
    "quoting_ease": [BYTES, SIZE, WORD, BYTES, SIZE, WORD],
    "quoting_safe_minutes": [WORD, WORD, WORD],
    "quoting_month_fresh": [BYTES, SIZE],
    "quoting_month_call": [BYTES, SIZE, BYTES, SIZE, BYTES, SIZE, BYTES, SIZE],
    "quoting_month_view": [BYTES, SIZE, BYTES, SIZE],
    "quoting_month_records": [BYTES, SIZE, BYTES, SIZE, BYTES, SIZE, BYTES, SIZE],
    "quoting_calls": [BYTES, SIZE, BYTES, SIZE],
    "quoting_calls_words": [BYTES, SIZE],
    "quoting_account": [BYTES, SIZE, WORD, WORD, WORD, WORD, WORD, WORD, BYTES, SIZE, BYTES, SIZE],
    "quoting_standing": [BYTES, SIZE, SIZE, BYTES, SIZE, BYTES, SIZE],
}

# Calls of some microseconds that keep the interpreter's lock (ctypes.PyDLL), so that no other thread of Python runs during one. Two threads
# may then use one month. Measured against a lock in the month and a call that releases the interpreter's: a call takes 1.9 µs instead of
# 2.0, and 1.6 times as many calls are made beside a thread that works in Python.
KEEPS_LOCK = ("quoting_month_fresh", "quoting_month_call", "quoting_month_records", "quoting_month_view")


class Missing(Exception):
    """The library, or a call of it, is not there; the message says what to run."""


class Refused(Exception):
    """A refused call: its number, its place (a record counted from 1 in a session, else 0) and the library's sentence.

    >>> Refused.of(10, 3)
    Refused(10, 3, 'an order with this id is live')
    """

    def __init__(self, number: int, place: int, sentence: str) -> None:
        super().__init__(number, place, sentence)
        self.number, self.place, self.sentence = number, place, sentence

    @classmethod
    def of(cls, number: int, place: int = 0) -> "Refused":
        return cls(number, place, sentence_of(number))

    def __str__(self) -> str:
        where = f" at {self.place}" if self.place else ""
        return f"refused {self.number}{where}: {self.sentence}"


def candidates() -> list[str]:
    """Where the library may be: named by QUOTING_LIBRARY, in the tree, beside the package, installed."""
    named = os.environ.get("QUOTING_LIBRARY")
    if named:
        return [named]
    built = [ROOT / "target" / "library" / "libquoting.so", HERE / "libquoting.so"]
    return [str(path) for path in built if path.exists()] + [f"libquoting.so.{MAJOR}"]


@lru_cache(maxsize=None)
def library() -> ctypes.CDLL:
    """The library, with the types of its calls set."""
    for name in candidates():
        try:
            found = ctypes.CDLL(name)
        except OSError:
            continue
        return typed(found)
    raise Missing(f"libquoting is not found ({', '.join(candidates())}): run make library, or set QUOTING_LIBRARY")


def typed(found: ctypes.CDLL) -> ctypes.CDLL:
    found.quoting_refusal_text.argtypes, found.quoting_refusal_text.restype = [WORD], ctypes.c_char_p
    found.quoting_version.argtypes, found.quoting_version.restype = [], ctypes.c_char_p
    return found


def has(name: str) -> bool:
    """Whether the library has that call."""
    return hasattr(library(), name)


@lru_cache(maxsize=None)
def function(name: str) -> Any:
    """A call of the library, with its types set."""
    if not has(name):
        raise Missing(f"the library ({version()}) has no {name}: run make library for a newer one")
    found = getattr(ctypes.PyDLL(library()._name, handle=library()._handle) if name in KEEPS_LOCK else library(), name)
    found.argtypes, found.restype = CALLS[name], ctypes.c_uint64
    return found


def call(name: str, *given: Any) -> int:
    """The call's answer; a refusal is raised. Other threads run meanwhile, except during the calls of `KEEPS_LOCK`."""
    answer: int = function(name)(*given)
    if answer >> 32:
        raise Refused.of(answer >> 32, answer & 0xFFFFFFFF)
    return answer


def sentence_of(number: int) -> str:
    """The library's sentence for a refusal's number."""
    text: bytes = library().quoting_refusal_text(ranges.word(number, "number"))
    return text.decode()


def version() -> str:
    """The library's version."""
    text: bytes = library().quoting_version()
    return text.decode()


def built() -> dict[str, str]:
    """What `make library` noted beside the library: its version, its commit, and the kit that proved it; {} where nothing is noted."""
    try:
        lines = (Path(library()._name).resolve().parent / "BUILT").read_text(encoding="utf-8").splitlines()
    except (OSError, UnicodeDecodeError):
        return {}
    return {name: rest for name, _, rest in (line.partition(" ") for line in lines) if rest}


def words(count: int) -> Any:
    """A buffer of so many words, all 0."""
    return (WORD * count)()


def bytes_of(count: int) -> Any:
    """A buffer of so many bytes, all 0."""
    return (ctypes.c_uint8 * count)()


def borrowed(buffer: bytearray) -> Any:
    """The memory of a bytearray, as a buffer of bytes."""
    return (ctypes.c_uint8 * len(buffer)).from_buffer(buffer)


def words_of(data: bytes) -> Any:
    """A buffer with the words that are in these bytes."""
    return (WORD * (len(data) // 4)).from_buffer_copy(data)
