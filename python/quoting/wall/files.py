"""The logs of a desk as they grow: files and patterns in order, each file with a reader of its own, so that several may grow at once.

A pattern is looked at again for new files. Where a file is truncated, written again, replaced or gone, its messages may be lost: it is read
again from its start, and the `Fault` stays until everything that was read before is there again.
"""

import glob
import mmap
import os
import tempfile
import time
from dataclasses import dataclass, field
from typing import Any, Iterator, Optional

import numpy as np

from quoting.desk.desks import Desk
from quoting.desk.logs import accounts_of
from quoting.exchange import LogReader
from quoting.exchange.book import Book, Scope
from quoting.exchange.bulk import moves_of
from quoting.exchange.columns import U
from quoting.exchange.keys import hashes
from quoting.watch.feeds import Growing, Turn

AGAIN = 1.0  # seconds between two looks for new files
PIECE = 1 << 20  # bytes that are read of a file before the others get their turn
BRIEF, RARELY = 0.005, 20  # a look at a fault that takes longer, in seconds of a processor, is made again after that many times as long
MANY_PARTS, LARGE = 64, 1 << 16  # arrays of moves that are put together, and moves from which on one is left as it is
WORDS = {"truncated": "was truncated", "rewritten": "was written again", "rotated": "was replaced by another file", "gone": "has gone away"}
Array = Any
NONE = np.zeros(0, dtype=U)
Key = tuple[int, str]  # a file's place among the logs: its pattern's number, and its name


@dataclass(eq=False)
class Fault:
    """What happened to a log, since when, and what the reading before it had."""

    kind: str
    since: float  # time.time()
    before: Array
    next: float = 0.0  # time.monotonic(): when it is looked at again

    def text(self, name: str) -> str:
        return f"{name} {WORDS[self.kind]}"


def stored(moves: Array) -> Array:
    """Moves in a file that has no name, and not in memory: they are read again only where a message comes late."""
    try:
        with tempfile.TemporaryFile(prefix="quoting-") as file:
            moves.tofile(file)
            file.flush()
            return np.memmap(file, dtype=moves.dtype, mode="r", shape=moves.shape)
    except OSError:  # no room: they stay in memory
        return moves


@dataclass
class Log:
    """A file of the logs."""

    key: Key
    path: str
    name: str
    growing: Growing
    reader: LogReader
    taken: tuple[int, int] = (0, 0)  # arrays and single moves that were handed on
    packed: int = 0  # arrays that are large enough
    owners: set[int] = field(default_factory=set)  # that it had messages of
    symbols: set[str] = field(default_factory=set)
    fault: Optional[Fault] = None
    grown: float = 0.0  # time.time() when bytes came

    def compact(self, book: Book) -> None:
        """Puts many small arrays of moves that were handed on into one."""
        if self.packed > len(book.parts):
            self.packed = 0
        if len(book.parts) - self.packed < MANY_PARTS:
            return
        whole = np.concatenate(book.parts[self.packed :])
        book.parts[self.packed :] = [stored(whole) if whole.size >= LARGE else whole]
        self.packed += whole.size >= LARGE

    def feed(self) -> tuple[int, Optional[Turn]]:
        """Reads on; how many bytes, and what has happened to the file."""
        parts: list[bytes] = []
        size, turn = 0, None
        while size < PIECE:
            found = self.growing.read()
            if not isinstance(found, bytes):
                turn = found
                break
            parts.append(found)
            size += len(found)
        if size:
            self.reader.feed(self.name, b"".join(parts), False)
            self.grown = time.time()
        return size, turn


@dataclass(frozen=True)
class Polled:
    """What a look at the logs found: the logs that have new moves, bytes read, and whether everything must be followed again."""

    size: int
    is_new_order: bool


class LogFiles:
    """All logs of a desk. They share one numbering of symbols and accounts."""

    def __init__(self, desk: Desk, patterns: list[str]) -> None:
        self.folder, self.patterns = desk.path.parent, patterns
        self.steps = {each.symbol: desk.programme.instruments[each.instrument].step for each in desk.contracts}
        self.accounts = accounts_of(desk.contracts)
        self.scope = Scope(self.steps, self.accounts, None)
        self.logs: dict[Key, Log] = {}
        self.looked = 0.0
        self.unread: dict[str, str] = {}  # files that can't be opened, and why

    def reader(self) -> LogReader:
        made = LogReader(self.steps, self.accounts)
        made.scope = self.scope
        return made

    # ------------------------------------------------------------ files

    def named(self) -> Iterator[tuple[Key, str]]:
        """The files that the patterns fit, each once."""
        seen: set[str] = set()
        for number, pattern in enumerate(self.patterns):
            for path in sorted(glob.glob(os.path.join(glob.escape(str(self.folder)), pattern), recursive=True)):
                if os.path.isfile(path) and path not in seen:
                    seen.add(path)
                    yield (number, path), path

    def look(self) -> bool:
        """Looks for new files; whether one came before others that have been read."""
        if time.monotonic() - self.looked < AGAIN:
            return False
        self.looked = time.monotonic()
        is_between = False
        for key, path in self.named():
            if key not in self.logs:
                is_between = self.open(key, path) or is_between
        return is_between

    def open(self, key: Key, path: str) -> bool:
        name = os.path.relpath(path, self.folder)
        try:
            growing = Growing(path, True)
        except OSError as error:
            self.unread[name] = error.strerror or str(error)
            return False
        self.unread.pop(name, None)
        self.logs[key] = Log(key, path, name, growing, self.reader())
        ordered = sorted(self.logs)
        self.logs = {each: self.logs[each] for each in ordered}
        return ordered[-1] != key

    # ------------------------------------------------------------ reading

    def poll(self) -> Polled:
        """Reads a piece of every log that has grown."""
        is_new_order, size = self.look(), 0
        for log in list(self.logs.values()):
            read, turn = log.feed()
            size += read
            if turn is not None and turn.kind in WORDS:
                self.turn(log, turn)
                is_new_order = is_new_order or turn.fresh
            self.mend(log)
        return Polled(size, is_new_order)

    def turn(self, log: Log, turn: Turn) -> None:
        """A log is no longer what it was."""
        before = had(log.reader)
        if log.fault is not None:
            before = np.union1d(before, log.fault.before)
        log.fault = Fault(turn.kind, time.time(), before)
        if turn.fresh:
            log.reader, log.taken = self.reader(), (0, 0)

    def mend(self, log: Log) -> None:
        """Whether all that was read before is there again: in this file, or in another one that is read."""
        fault = log.fault
        began, worked = time.monotonic(), time.thread_time()
        if fault is None or began < fault.next or (fault.kind == "gone" and log.growing.missed):
            return
        missing = fault.before
        for each in self.logs.values():
            missing = np.setdiff1d(missing, had(each.reader), assume_unique=True)
            if not missing.size:
                log.fault = None
                return
        took = time.thread_time() - worked
        fault.next = began + RARELY * took if took > BRIEF else 0.0

    def release(self) -> None:
        """Gives back the memory of moves that were read from their files again."""
        for reader in self.readers:
            for part in reader.book.parts:
                mapped = getattr(part, "_mmap", None)
                if mapped is not None:
                    mapped.madvise(mmap.MADV_DONTNEED)

    @property
    def readers(self) -> list[LogReader]:
        return [log.reader for log in self.logs.values()]

    @property
    def has_reports(self) -> bool:
        return any(reader.has_reports for reader in self.readers)


def had(reader: LogReader) -> Array:
    """What a reader has read of ours: a number for each message, made of its time, kind, owner and ExecID, sorted."""
    book = reader.book
    parts = [*book.parts, *([moves_of(book.moves)] if book.moves else [])]
    found = [hashes([part["time"].astype(U), part["what"].astype(U), part["owner"].astype(U), *part["execution"].T]) for part in parts]
    return np.unique(np.concatenate([NONE, *found]))
