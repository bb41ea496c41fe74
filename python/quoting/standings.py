"""The standing of makers after joins, changes and leaves, by the library, and its text.

>>> standing = Standing(records=6)
>>> standing.join(118, 910)
>>> standing.join(31, 910)
>>> standing.places
[(31, 910), (118, 910)]
>>> standing.leave(5)
Traceback (most recent call last):
quoting.native.Refused: refused 24: the maker is present at a join, or absent at a change or leave
"""

import threading
from dataclasses import dataclass, field
from typing import Any, Iterable

from quoting import native, ranges, reading, values
from quoting.reading import TextError

KINDS = {"join": 1, "change": 2, "leave": 3}
RECORDS = 512  # of a text that does not say how many
MOST_RECORDS = 1_000_000


class Standing:
    """Makers with their ratings, the greatest rating first, equal ratings by lower number; so many records at most.

    Threads may use one standing at the same time. It can be copied and pickled."""

    def __init__(self, records: int = RECORDS) -> None:
        self._size = ranges.word(records, "records")
        self._records, self._count = native.words(2 * self._size), 0
        self._lock = threading.Lock()  # of the records and their count

    @classmethod
    def of_places(cls, places: Iterable[tuple[int, int]], records: int = RECORDS) -> "Standing":
        """The standing with these places, maker and rating; a call is refused by 23 where they are out of order."""
        standing = cls(records)
        data = ranges.words([number for maker, rating in places for number in (maker, rating)], "places")
        if len(data) > 8 * standing._size:
            raise ValueError(f"{len(data) // 8} places, of {standing._size} records")
        standing._records[: len(data) // 4] = native.words_of(data)[:]
        standing._count = len(data) // 8
        return standing

    def __reduce__(self) -> tuple[Any, tuple[list[tuple[int, int]], int]]:
        return type(self).of_places, (self.places, self._size)

    def __eq__(self, other: object) -> bool:
        """Whether both have the same places and as many records."""
        if not isinstance(other, Standing):
            return NotImplemented
        return (self.places, self._size) == (other.places, other._size)

    __hash__ = None  # type: ignore[assignment]  # a standing changes

    def __repr__(self) -> str:
        return f"<Standing: {self._count} of {self._size} records used>"

    @property
    def places(self) -> list[tuple[int, int]]:
        """Maker and rating, the best first."""
        with self._lock:
            used = self._records[: 2 * self._count]
        return list(zip(used[::2], used[1::2]))

    def call(self, name: str, maker: int, rating: int = 0) -> None:
        if name not in KINDS:
            raise ValueError(f"name is {name!r}, it must be join, change or leave")
        call, outcome = ranges.words([KINDS[name], ranges.word(maker, "maker"), ranges.word(rating, "rating")], "call"), native.words(1)
        with self._lock:
            self._count = native.call("quoting_standing", self._records, self._size, self._count, call, 3, outcome, 1)
        if outcome[0]:
            raise native.Refused.of(outcome[0])

    def join(self, maker: int, rating: int) -> None:
        self.call("join", maker, rating)

    def change(self, maker: int, rating: int) -> None:
        self.call("change", maker, rating)

    def leave(self, maker: int) -> None:
        self.call("leave", maker)


# ---------------------------------------------------------------- text


@dataclass(frozen=True)
class Call:
    name: str
    maker: int
    rating: int
    line: int

    def __str__(self) -> str:
        return f"{self.name} {self.maker}" + (f" {self.rating}" if self.name != "leave" else "")


@dataclass
class Calls:
    """How many records there are, and the calls."""

    size: int = RECORDS
    calls: list[Call] = field(default_factory=list)


@dataclass(frozen=True)
class Played:
    """The refused calls, and the places."""

    refused: list[tuple[Call, native.Refused]]
    places: list[tuple[int, int]]


def read_call(name: str, words: list[str], line: int) -> Call:
    if name not in KINDS:
        raise TextError(f"{values.brief(name)!r} is not a call: write join, change or leave")
    given = reading.columns(name, words, "maker" if name == "leave" else "maker rating")
    numbers = [reading.number(word, values.WORD, what) for what, word in given.items()]
    return Call(name, numbers[0], 0 if name == "leave" else numbers[1], line)


def read(text: str) -> Calls:
    """A call a line; `records N` first, if at all."""
    found, sized = Calls(), False
    for at, name, words in reading.lines(text):
        try:
            if name == "records" and not sized and not found.calls:
                found.size, sized = reading.number(reading.columns(name, words, "count")["count"], (0, MOST_RECORDS), "records"), True
            else:
                found.calls.append(read_call(name, words, at))
        except TextError as error:
            error.line = at
            raise
    return found


def played(given: Calls) -> Played:
    """The standing after the calls, from no maker."""
    standing, refused = Standing(given.size), []
    for call in given.calls:
        try:
            standing.call(call.name, call.maker, call.rating)
        except native.Refused as why:
            refused.append((call, why))
    return Played(refused, standing.places)
