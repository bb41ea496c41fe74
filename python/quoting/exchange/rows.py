"""A log's messages many at a time: the library finds them (`quoting_fix_scan`), numpy reads their values.

The library writes a row of words for each message: 0 where it starts, 1 its length, 2 its status (0, or 20 where it is none), 3 its
type (35), the first byte low; then two words for each tag: where its first value starts, from the message's first byte, and its length,
2^31 more where the tag occurs again; 0 and 0 where it is absent.
"""

from typing import Any

import numpy as np

from quoting import native
from quoting.exchange import columns
from quoting.exchange import fields as f
from quoting.exchange.columns import Steps
from quoting.exchange.fields import TAGS
from quoting.exchange.keys import WORDS, Names, keys

Array = Any
HEAD = 4
WIDTH = HEAD + 2 * len(TAGS)
COLUMNS = {tag: HEAD + 2 * at for at, tag in enumerate(TAGS)}  # of where a tag's value starts; its length is in the next
SLACK = 128  # bytes after a piece, so that a window may reach past a value
PIECE = (1 << 20) + (1 << 17)  # bytes that are scanned at once: those of a file that are read, and what was left before them
LEAST = 100  # bytes for which there is room for one row; a piece of shorter messages is read in several calls


def is_available() -> bool:
    """Whether the library has the scan."""
    try:
        return native.has("quoting_fix_scan")
    except native.Missing:
        return False


class Scan:
    """The library's scan for the tags that are read."""

    def __init__(self) -> None:
        self.tags = np.array(TAGS, dtype=np.uint32)
        self.words = np.zeros(2 + WIDTH * (PIECE // LEAST), dtype=np.uint32)

    def rows(self, data: Array, at: int, size: int) -> tuple[Array, int, bool]:
        """The rows from a byte on, the byte where the scan stopped, and whether there was no room for more."""
        words, tags = self.words, self.tags
        count = native.call("quoting_fix_scan", data.ctypes.data + at, size - at, tags.ctypes.data, tags.size, words.ctypes.data, words.size)
        rows = words[2:count].reshape(-1, WIDTH)
        rows[:, 0] += np.uint32(at)
        return rows, at + int(words[1]), rows.shape[0] == (words.size - 2) // WIDTH


class Table:
    """The values of some rows, a tag at a time. What is said of each value is one truth where it is true of all."""

    def __init__(self, data: Array, seen: Array, rows: Array) -> None:
        self.data, self.seen, self.rows = data, seen, rows
        self.at = rows[:, 0].astype(np.int64)
        self.is_fine = not (rows[:, HEAD + 1 :: 2] > f.LONGEST).any()

    def __getitem__(self, pick: Array) -> "Table":
        return Table(self.data, self.seen, self.rows[pick])

    def counts(self, tag: int) -> Array:
        """The lengths as the library says them."""
        return self.rows[:, COLUMNS[tag] + 1]

    def span(self, tag: int) -> tuple[Array, Array, Array]:
        """Where a value starts, its length (0 where it cannot be taken), and whether the tag is absent or can be taken."""
        begin, count = self.at + self.rows[:, COLUMNS[tag]], self.counts(tag).astype(np.int64)
        if self.is_fine:
            return begin, count, np.True_
        fine = count <= f.LONGEST
        return begin, np.where(fine, count, 0), fine

    def byte(self, tag: int) -> tuple[Array, Array]:
        """The value where it is one byte, else 0, and whether the tag is absent or one byte."""
        if not self.counts(tag).any():
            return np.zeros(self.at.size, dtype=np.uint8), np.True_
        begin, count, fine = self.span(tag)
        return np.where(count == 1, self.data[begin], 0), fine & (count <= 1)

    def volume(self, tag: int) -> tuple[Array, Array]:
        begin, count, fine = self.span(tag)
        value, good = columns.number(self.seen, begin, count)
        return value.astype(np.int64), good & fine & (count > 0) & (value < np.uint64(f.MOST_VOLUME))

    def keys(self, tag: int, width: int = WORDS) -> tuple[Array, Array, Array]:
        """The keys, whether the tag is there, and whether it is absent or can be taken."""
        begin, count, fine = self.span(tag)
        return keys(self.seen, begin, count, width), count > 0, fine

    def is_short(self, tag: int) -> Array:
        """Whether a value is kept whole as a key."""
        return (self.counts(tag) & np.uint32(0x7FFFFFFF)) <= 8 * WORDS

    def names(self, tag: int, names: Names) -> tuple[Array, Array]:
        begin, count, fine = self.span(tag)
        return names.numbers(self.data, self.seen, begin, count), np.broadcast_to(fine, count.shape)

    def times(self) -> tuple[Array, Array]:
        begin, count, fine = self.span(60)
        value, good = columns.times(self.seen, begin, count)
        return value, good & fine

    def prices(self, steps: Steps, owner: Array) -> tuple[Array, Array]:
        begin, count, fine = self.span(44)
        value, good = columns.prices(self.data, self.seen, begin, count, steps, owner)
        return value, good & fine & (count > 0)
