"""The ranges of the library's numbers, and the check that every number passes before a call.

A number outside its range is a ValueError with its name, its value and the range; what is no whole number is a TypeError with its name.
Whole numbers of other packages are taken, numpy's for one; a bool is not.

>>> word(7, "id"), signed(-99, "price")
(7, -99)
>>> word(2**32 + 7, "id")
Traceback (most recent call last):
ValueError: id is 4294967303, it must be 0 to 4294967295
>>> signed(84.5, "price")
Traceback (most recent call last):
TypeError: price must be a whole number, got 84.5 (float)
>>> word(True, "volume")
Traceback (most recent call last):
TypeError: volume must be a whole number, got True (bool)
"""

import operator
import reprlib
import struct
from typing import Any, Iterable, SupportsIndex

Span = tuple[int, int]

WORD: Span = (0, 2**32 - 1)
SIGNED: Span = (-(2**31), 2**31 - 1)
LONG: Span = (0, 2**64 - 1)

MOST_WORD = WORD[1]
LEAST_SIGNED, MOST_SIGNED = SIGNED
MOST_BITS = 128  # a number of more is not printed in full


def type_error(value: Any, name: str, wanted: str) -> TypeError:
    return TypeError(f"{name} must be {wanted}, got {reprlib.repr(value)} ({type(value).__name__})")


def number(value: SupportsIndex, span: Span, name: str, wanted: str = "a whole number") -> int:
    """A number within a span."""
    if type(value).__name__ in ("bool", "bool_"):  # Python's and numpy's
        raise type_error(value, name, wanted)
    try:
        found = operator.index(value)
    except TypeError:
        raise type_error(value, name, wanted) from None
    low, high = span
    if not low <= found <= high:
        shown = str(found) if found.bit_length() <= MOST_BITS else f"a number of {found.bit_length()} bits"
        raise ValueError(f"{name} is {shown}, it must be {low} to {high}")
    return found


def word(value: SupportsIndex, name: str) -> int:
    """A number of 32 bits."""
    if type(value) is int and 0 <= value <= MOST_WORD:
        return value
    return number(value, WORD, name)


def signed(value: SupportsIndex, name: str) -> int:
    """A number of 32 bits with a sign."""
    if type(value) is int and LEAST_SIGNED <= value <= MOST_SIGNED:
        return value
    return number(value, SIGNED, name)


def long(value: SupportsIndex, name: str) -> int:
    """A number of 64 bits."""
    return number(value, LONG, name)


def two_complement(value: SupportsIndex, name: str) -> int:
    """The word of a number with a sign."""
    return signed(value, name) % 2**32


# ---------------------------------------------------------------- lists, as they are in memory


def packed(values: Iterable[SupportsIndex], code: str, span: Span, name: str) -> bytes:
    given = list(values)
    if set(map(type, given)) <= {int}:
        try:
            return struct.pack(f"={len(given)}{code}", *given)
        except struct.error:
            pass  # one of them is outside the span, and is named below
    return struct.pack(f"={len(given)}{code}", *(number(value, span, f"{name}[{at}]") for at, value in enumerate(given)))


def words(values: Iterable[SupportsIndex], name: str) -> bytes:
    """A list of words; `name` is the list's.

    >>> words([1, 2**32], "row")
    Traceback (most recent call last):
    ValueError: row[1] is 4294967296, it must be 0 to 4294967295
    """
    return packed(values, "I", WORD, name)


def signed_words(values: Iterable[SupportsIndex], name: str) -> bytes:
    """A list of numbers with a sign."""
    return packed(values, "i", SIGNED, name)


def data(value: Any, name: str) -> bytes:
    """Bytes, a bytearray or a memoryview as bytes; a str or a number is a TypeError."""
    if isinstance(value, bytes):
        return value
    if isinstance(value, (bytearray, memoryview)):
        return bytes(value)
    raise type_error(value, name, "bytes")
