"""The events of a CSV, read by numpy a column at a time where nothing in it is out of the ordinary.

Whatever is (a quoted cell, a comment, a blank line, a time of another form, a cell that must be empty and is not) is left to the reader of
`quoting.texts`, a line at a time, which gives the same records and says what is wrong.
"""

from decimal import Decimal
from typing import Any, Optional

from quoting.reading import Options

try:
    import numpy as np

    from quoting.events import dtype
    from quoting.exchange import columns
    from quoting.exchange.keys import FRONT
except ImportError:
    np = None  # type: ignore[assignment]

Array = Any
KINDS = {b"add": 0, b"amend": 3, b"cancel": 4, b"deal": 5, b"tick": 6}
SIDES = {b"buy": 1, b"sell": 2}
UNUSUAL = (b'"', b"#", b"\t", b"\r", b"\0", b"_")
SLACK = 64


class Unusual(Exception):
    """Something is left to the other reader."""


def records(text: str, names: list[str], options: Options) -> Optional[bytes]:
    """The records of the lines, None where they must be read one at a time."""
    if np is None or not text.isascii():
        return None
    data = text.encode().replace(b"\r\n", b"\n")
    if not data.endswith(b"\n") or any(each in data for each in UNUSUAL):
        return None
    if options.decimal == ",":
        data = data.replace(b",", b".")
    try:
        return Cells(data, names, b";"[0] if options.decimal == "," else b","[0]).records(options)
    except Unusual:
        return None


def need(fine: Any) -> None:
    if not np.all(fine):
        raise Unusual


class Cells:
    """Where each cell of each row starts, and how long it is."""

    def __init__(self, data: bytes, names: list[str], separator: int) -> None:
        self.names = names
        self.data = np.frombuffer(bytes(SLACK) + data + bytes(SLACK), dtype=np.uint8)
        self.seen = columns.windows(self.data)
        ends = np.flatnonzero((self.data == separator) | (self.data == 10))
        need(ends.size % len(names) == 0)
        self.ends = ends.reshape(-1, len(names))
        need(self.data[self.ends[:, -1]] == 10)
        need(self.data[self.ends[:, :-1]] == separator)
        self.begins = np.concatenate([[SLACK], ends[:-1] + 1]).reshape(self.ends.shape)

    def span(self, name: str) -> tuple[Array, Array]:
        at = self.names.index(name)
        return self.begins[:, at], self.ends[:, at] - self.begins[:, at]

    def word(self, name: str, known: dict[bytes, int]) -> Array:
        """One of some short words, as a number; -1 where the cell is another one."""
        begin, count = self.span(name)
        need(count <= 8)
        found, word = np.full(count.size, -1, dtype=np.int64), self.seen[begin] & FRONT[count]
        for text, number in known.items():
            found[word == int.from_bytes(text, "little")] = number
        return found

    def numbers(self, name: str, wanted: Array, step: Decimal) -> Array:
        """Numbers in whole steps where they are wanted; elsewhere the cells must be empty."""
        begin, count = self.span(name)
        need((count > 0) == wanted)
        steps, pick = columns.Steps(), np.flatnonzero(wanted)
        steps.learn([step])
        value, good = columns.prices(self.data, self.seen, begin[pick], count[pick], steps, np.zeros(pick.size, dtype=np.int64))
        need(good & (count[pick] <= 16) & ((value != 0) | (self.data[begin[pick]] != 45)))
        out = np.zeros(count.size, dtype=np.int64)
        out[pick] = value
        return out

    def times(self, options: Options) -> Array:
        """Milliseconds from the start: whole numbers, clocks HH:MM:SS, or dates with them, all of one day."""
        begin, count = self.span("t")
        is_clock = bool(count.size) and bool(self.data[begin[0] + 2] == 58)
        is_date = bool(count.size) and not is_clock and bool(self.data[begin[0] + 4] == 45) and int(count[0]) >= 19
        if not is_clock and not is_date:
            return self.numbers("t", np.ones(count.size, dtype=bool), Decimal(1))
        if is_date:
            need(count >= 19)
            for at in (0, 2):
                need(self.seen[begin + at] == self.seen[begin[0] + at])
            need((self.data[begin + 10] == 32) | (self.data[begin + 10] == 84))
            begin, count = begin + 11, count - 11
        clock, good = columns.clocks(self.seen, begin, count)
        need(good & (clock >= options.start))
        return clock - options.start

    def records(self, options: Options) -> bytes:
        kind = self.word("kind", KINDS)
        need(kind >= 0)
        is_add, has_price, has_volume = kind == 0, (kind == 0) | (kind == 3), (kind != 4) & (kind != 6)
        side = self.word("side", {**SIDES, b"": 0})
        need((side >= 0) & ((side > 0) == is_add))
        made = np.zeros(kind.size, dtype=dtype())
        made["kind"] = np.where(is_add, side, kind)
        t, id, volume = self.times(options), self.numbers("id", kind != 6, Decimal(1)), self.numbers("volume", has_volume, Decimal(1))
        for name, value in (("t", t), ("id", id), ("volume", volume)):
            need((value >= 0) & (value < 1 << 32))
            made[name] = value
        made["price"] = self.numbers("price", has_price, options.step or Decimal(1))
        return bytes(made.tobytes())
