"""What a call on a month is lent: room for its block, words for its answer or its view, and the arguments of the C calls, made once and used again.

A month keeps those that no call is using: a call takes one and gives it back, so that two threads never share one. Taking from a list and
appending to it are each one step of the interpreter.
"""

import ctypes
from functools import lru_cache, partial
from struct import Struct
from typing import Any, Callable

from quoting import native
from quoting.answers import WORDS
from quoting.month_words import COUNT
from quoting.views import MOST_WORDS as VIEW_WORDS

HINT_BYTES = 2_048
FORM_WORDS = 6  # the longest block of numbers alone, that of an add
MADE = WORDS  # the C call's answer where it was made


@lru_cache(maxsize=None)
def unchecked(name: str) -> Any:
    """A call of the library, for arguments as `lent` makes them, which ctypes takes as they are: 0.2 µs a call in place of 0.77."""
    found = ctypes.PyDLL(native.library()._name, handle=native.library()._handle)[name]
    found.argtypes, found.restype = None, ctypes.c_uint64  # type: ignore[assignment]
    return found


size_of = native.SIZE.from_param


def lent(buffer: Any, size: int) -> tuple[Any, Any]:
    """A buffer and a size as arguments of a C call."""
    return ctypes.byref(buffer), size_of(size)


class Lent:
    """The buffers of one call on the month with these words and hints. `calls[n]()` makes the call whose n words are in `block`, and `show()`
    writes the view: the C call's own numbers."""

    __slots__ = ("block", "answer", "view", "calls", "show", "_call", "_answer")

    def __init__(self, words: Any, hints: Any) -> None:
        self.block, self.answer, self.view = bytearray(4 * FORM_WORDS), bytearray(4 * WORDS), bytearray(4 * VIEW_WORDS)
        block, answer, view = (native.borrowed(each) for each in (self.block, self.answer, self.view))
        month = lent(words, COUNT)
        self._answer = lent(answer, WORDS)
        self._call: Callable[..., int] = partial(unchecked("quoting_month_call"), *month, *lent(hints, HINT_BYTES))
        self.calls: list[Callable[[], int]] = [partial(self._call, *lent(block, 4 * count), *self._answer) for count in range(FORM_WORDS + 1)]
        self.show: Callable[[], int] = partial(unchecked("quoting_month_view"), *month, *lent(view, VIEW_WORDS))

    def call(self, block: bytes) -> int:
        """Makes the call that a block of any length says: the C call's own number."""
        return self._call(block, size_of(len(block)), *self._answer)


class Form(Struct):
    """The layout of a block of one kind, whose numbers are its words after the kind."""

    def __init__(self, kind: int, codes: str) -> None:
        super().__init__(f"<I{codes}")
        self.kind, self.words = int(kind), 1 + len(codes)
