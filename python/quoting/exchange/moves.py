"""The moves of a source as arrays: what each report or request does, in the order in which they count."""

from typing import Any, Iterator

import numpy as np

from quoting.exchange import fields as f
from quoting.exchange.book import Book
from quoting.exchange.fields import Move
from quoting.exchange.keys import WORDS, first_of, keys_of

Array = Any
MOVE = np.dtype([
    ("time", "<i8"), ("cl", "<u8", 3), ("orig", "<u8", 3), ("oid", "<u8", 3), ("execution", "<u8", 2), ("owner", "<i4"), ("price", "<i4"),
    ("volume", "<u4"), ("line", "<u4"), ("seq", "<u4"), ("file", "<u2"), ("what", "u1"), ("side", "u1"),
])  # fmt: skip
PLAIN = np.dtype(("V", MOVE.itemsize))  # numpy copies plain bytes faster than fields
BLOCK = 8_000  # moves that are followed at once; with what rests, their places should have 16 bits


def moves_of(moves: list[Move]) -> Array:
    """Moves that were read one at a time, as an array."""
    made = np.zeros(len(moves), dtype=MOVE)
    for name in ("time", "what", "owner", "side", "price", "volume", "file", "line", "seq"):
        made[name] = [getattr(move, name) for move in moves]
    for name, width in (("cl", 3), ("orig", 3), ("oid", 3), ("execution", 2)):
        made[name] = keys_of([getattr(move, name) for move in moves], width).T
    return made


def long_texts(moves: list[Move]) -> dict[bytes, bytes]:
    """The ids that do not fit into a key, by their keys. Such messages are read one at a time."""
    listed = sorted({text for move in moves for text in (move.cl, move.orig, move.oid) if len(text) > 8 * WORDS})
    return dict(zip(map(bytes, np.ascontiguousarray(keys_of(listed).T)), listed)) if listed else {}


class Moves:
    """The moves of a book: without reports that were read before, in order of time. `pick` has their places among all, None for all as
    they are."""

    def __init__(self, book: Book) -> None:
        self.parts = [*book.parts, *([moves_of(book.moves)] if book.moves else [])]
        self.starts = np.cumsum([0, *(part.size for part in self.parts)])
        self.pick = np.argsort(self.whole("seq"), kind="stable") if book.moves else None
        self.duplicates = self.drop_repeated()
        self.fills = sum(int(np.count_nonzero(part["what"] == f.DEAL)) for part in self.parts) - self.repeated_fills
        self.sort()

    def __len__(self) -> int:
        return int(self.starts[-1]) if self.pick is None else self.pick.size

    def whole(self, name: str) -> Array:
        return np.concatenate([part[name] for part in self.parts]) if self.parts else np.zeros(0, dtype=MOVE[name].base)

    def of(self, name: str) -> Array:
        """A column of the moves that count, in their order."""
        return self.whole(name) if self.pick is None else self.whole(name)[self.pick]

    def executions(self) -> list[Array]:
        """The keys of the ExecIDs with their owners, a word at a time."""
        words = [np.concatenate([part["execution"][:, at] for part in self.parts]) for at in range(2)]
        words.append(self.whole("owner").astype(np.uint64))
        return words if self.pick is None else [word[self.pick] for word in words]

    def drop_repeated(self) -> int:
        """Drops reports whose ExecID was read before of the same owner; how many."""
        self.repeated_fills = 0
        if not self.parts or not any(part["execution"][:, 0].any() for part in self.parts):
            return 0
        words = self.executions()
        is_again = first_of(words) != np.arange(words[0].size)
        again = np.flatnonzero(is_again)
        if again.size:
            self.repeated_fills = int(np.count_nonzero(self.of("what")[again] == f.DEAL))
            self.pick = np.flatnonzero(~is_again) if self.pick is None else self.pick[~is_again]
        return again.size

    def sort(self) -> None:
        """By time; equal times stay as they were logged."""
        time = self.of("time")
        if (time[1:] < time[:-1]).any():
            turn = np.argsort(time, kind="stable")
            self.pick = turn if self.pick is None else self.pick[turn]

    def blocks(self) -> Iterator[Array]:
        """The moves, some at a time."""
        size = len(self)
        for at in range(0, size, BLOCK):
            end = min(at + BLOCK, size)
            yield self.between(at, end) if self.pick is None else self.picked(self.pick[at:end])

    def between(self, at: int, end: int) -> Array:
        """The moves from a place to before another, as they were read."""
        first, last = np.searchsorted(self.starts, [at, end - 1], side="right") - 1
        parts = [self.parts[n].view(PLAIN)[max(at - self.starts[n], 0) : end - self.starts[n]] for n in range(first, last + 1)]
        return np.concatenate(parts).view(MOVE)

    def row(self, at: int) -> Any:
        """One of the moves that count."""
        place = at if self.pick is None else int(self.pick[at])
        part = int(np.searchsorted(self.starts, place, side="right")) - 1
        return self.parts[part][place - self.starts[part]]

    def picked(self, places: Array) -> Array:
        """The moves of some places."""
        made, of = np.empty(places.size, dtype=PLAIN), np.searchsorted(self.starts, places, side="right") - 1
        for part in np.flatnonzero(np.bincount(of)).tolist():
            which = np.flatnonzero(of == part)
            made[which] = self.parts[part].view(PLAIN)[places[which] - self.starts[part]]
        return made.view(MOVE)
