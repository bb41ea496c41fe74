"""The orders of all symbols as messages come: in order of time they are followed at once; one with an earlier time makes its symbol be
followed again from its first message, so that what comes out is what a reading of the whole logs gives.

What came since the last time is taken as one array, however many symbols it is of. Of each message the logs' readers keep its move, and
here is kept what it changed, and its ExecID.
"""

from array import array
from dataclasses import dataclass, field, replace
from typing import Any, Iterator, Optional, Sequence

import numpy as np

from quoting.exchange import fields as f
from quoting.exchange.book import Scope, reason_of
from quoting.exchange.bulk import moves_of
from quoting.exchange.changes import changes_of
from quoting.exchange.following import Changed
from quoting.exchange.keys import first_of
from quoting.exchange.orders import ABSENT, NOTHING, Orders
from quoting.exchange.reasons import Reasons
from quoting.exchange.timelines import CHANGE, Timeline
from quoting.wall.executions import NEVER, Executions, entries
from quoting.wall.files import Key, Log, LogFiles

Array = Any
MODULUS = 1 << 20  # owners that ids can be told apart by
FILE_BITS = 40  # of a message's place in what is read: the file's number above them, the message's number in its file in them
LONG_AGO = -(1 << 62)
TOGETHER = 15_000  # messages that are followed at once where everything is
COLUMNS = ("what", "owner", "side", "volume")
WHAT, OWNER = 0, 1  # the places of two columns in the terms


def reads_of(moves: Array) -> Array:
    """The messages' places in what is read."""
    return (moves["file"].astype(np.int64) << FILE_BITS) + moves["seq"]


def numbers_of(keys: Array, owners: list[int]) -> list[int]:
    """Ids as numbers by owner: the words of a key as one number, times MODULUS, and the owner."""
    if not keys[:, 1:].any():  # of at most eight bytes
        return [word * MODULUS + owner if word else ABSENT for word, owner in zip(keys[:, 0].tolist(), owners)]
    words = (keys[:, at].tolist() for at in range(3))
    whole = (low | middle << 64 | high << 128 for low, middle, high in zip(*words))
    return [word * MODULUS + owner if word else ABSENT for word, owner in zip(whole, owners)]


def terms_of(moves: Array) -> list[list[int]]:
    """The columns of what the orders are given."""
    what, owner, side, volume = (moves[name].tolist() for name in COLUMNS)
    is_request = bool(what) and what[0] >= f.ASK
    oid = (moves["time"] // f.DAY).tolist() if is_request else numbers_of(moves["oid"], owner)
    return [what, owner, numbers_of(moves["cl"], owner), numbers_of(moves["orig"], owner), oid, side, volume]


def runs_of(values: Array) -> Iterator[tuple[int, int]]:
    """From where to where an array has one value, for one after the other."""
    ends = [*(np.flatnonzero(values[1:] != values[:-1]) + 1).tolist(), len(values)]
    yield from zip([0, *ends[:-1]], ends)


@dataclass
class Followed:
    """What came of a symbol's new messages: the changes by owner, in order of time; whether it was followed again from its first message;
    and the earliest new time."""

    changes: dict[int, Array] = field(default_factory=dict)
    is_again: bool = False
    earliest: Optional[int] = None


class Grown:
    """Changes in an array that has room for more."""

    def __init__(self) -> None:
        self.rows, self.size = np.zeros(64, dtype=CHANGE), 0

    def add(self, rows: Array) -> None:
        size = self.size + len(rows)
        if size > len(self.rows):
            wider = np.zeros(size + size // 4, dtype=CHANGE)
            wider[: self.size] = self.rows[: self.size]
            self.rows = wider
        self.rows[self.size : size] = rows
        self.size = size

    def all(self) -> Array:
        return self.rows[: self.size]


@dataclass
class Outcome:
    """What some moves did to their orders, by their places: the order that each changes and the one that it replaces, or NOTHING; the
    order's owner; and by the place of a deal what was left of the order where it was dealt more."""

    changed: list[int] = field(default_factory=list)
    replaced: list[int] = field(default_factory=list)
    owners: list[int] = field(default_factory=list)
    overfilled: dict[int, int] = field(default_factory=dict)


def changes_by(moves: Array, out: Outcome) -> tuple[Array, Array]:
    """What moves change, in their order, and whose orders."""
    changed = Changed(*(np.array(column, dtype=np.int64) for column in (out.changed, out.replaced, out.owners)))
    return changes_of(moves, changed, out.overfilled)


class Follower:
    """The orders of one symbol, of all its accounts."""

    def __init__(self, scope: Scope, files: Sequence[str]) -> None:
        self.scope, self.files = scope, files
        self.orders = Orders(MODULUS, scope.fitting(), scope.foreign())
        self.last = LONG_AGO, 0  # time and place of the last message
        self.reasons = Reasons()
        self.fills = self.duplicates = 0

    def take(self, moves: Array, terms: list[list[int]], out: Outcome) -> None:
        """New messages in their order, and what the orders are given of them."""
        orders, first = self.orders, len(out.changed)
        given: Any = zip(*terms)
        orders.take(given)
        changed, replaced = orders.changed, orders.replaced
        replaced.extend([NOTHING] * (len(changed) - len(replaced)))
        out.owners += [orders.owner[max(pair)] if max(pair) != NOTHING else NOTHING for pair in zip(changed, replaced)]
        out.changed += changed
        out.replaced += replaced
        out.overfilled.update({first + at: left for at, left in orders.overfilled.items()})
        for at, why in orders.problems:
            self.note(moves[at], why)
        self.fills += terms[WHAT].count(f.DEAL)
        orders.changed, orders.replaced, orders.overfilled, orders.problems, orders.strangers = array("i"), array("i"), {}, [], []

    def note(self, move: Array, why: Any) -> None:
        cl, orig, oid = (move[name].tobytes().rstrip(b"\0") for name in ("cl", "orig", "oid"))
        place = self.files[int(move["file"])], int(move["line"]), int(move["time"])
        self.reasons.add(reason_of(why, self.scope.names(int(move["owner"])), *place, (cl, orig, oid), int(move["volume"])))


class Orderly:
    """All symbols of the logs, each followed by itself. Where messages name no symbol, all are followed together."""

    def __init__(self, logs: LogFiles) -> None:
        self.logs = logs
        self.names: list[str] = []  # of the files, by their numbers
        self.numbers: dict[Key, int] = {}  # of each log
        self.owners = 0
        self.groups: list[str] = []  # by owner: what it is followed with
        self.group = np.zeros(0, dtype=np.int64)  # the same by number
        self.by = "requests"
        self.forget()

    def forget(self) -> None:
        self.followers: dict[str, Follower] = {}
        self.executions = Executions()
        self.lines: dict[int, Grown] = {}  # the changes by owner
        self.count = 0

    @property
    def scope(self) -> Scope:
        return self.logs.scope

    @property
    def is_carried(self) -> bool:
        return self.by == "reports"

    # ------------------------------------------------------------ what has come

    def poll(self, is_again: bool) -> dict[str, Followed]:
        """What the messages that came since the last time did, by symbol; `is_again` where the files themselves have changed."""
        by = "reports" if self.logs.has_reports else "requests"
        is_all = self.is_renumbered() or is_again or by != self.by or not self.followers
        self.by = by
        parts = [part for log in self.logs.logs.values() for part in self.parts_of(log, is_all)]
        if is_all:
            gone = {name: Followed({}, True, 0) for name in self.followers}
            self.forget()
            return {**gone, **self.all_again()}
        return self.take(np.concatenate([moves_of([]), *parts]))

    def is_renumbered(self) -> bool:
        """Whether there are new files, or new owners of whom a message may not say which it is."""
        names = [log.name for log in self.logs.logs.values()]
        is_other = names[: len(self.names)] != self.names
        self.names[:] = names
        self.numbers = {log.key: number for number, log in enumerate(self.logs.logs.values())}
        grown, self.owners = len(self.scope.owners) > self.owners, len(self.scope.owners)
        if grown:
            self.regroup()
        return is_other or (grown and bool(self.scope.fitting() or self.scope.foreign()))

    def regroup(self) -> None:
        together = any(not symbol for symbol, _ in self.scope.owners)
        symbols = [self.scope.names(owner)[0] for owner in range(len(self.scope.owners))]
        self.groups = ["" if together else symbol for symbol in symbols]
        numbers = {name: number for number, name in enumerate(dict.fromkeys(self.groups))}
        self.group = np.array([numbers[name] for name in self.groups], dtype=np.int64)

    def book_of(self, log: Log) -> Any:
        return log.reader.reports if self.by == "reports" else log.reader.requests

    def parts_of(self, log: Log, is_all: bool) -> Iterator[Array]:
        """The arrays of moves of a log that are new. Where everything is followed again they are only marked as taken."""
        book = self.book_of(log)
        arrays, single = log.taken
        if arrays > len(book.parts) or single > len(book.moves):
            arrays, single = 0, 0
        if not is_all:
            found = [*book.parts[arrays:], *([moves_of(book.moves[single:])] if len(book.moves) > single else [])]
            yield from (self.of_log(part, log) for part in found)
        log.compact(book)
        log.taken = len(book.parts), len(book.moves)

    def of_log(self, part: Array, log: Log) -> Array:
        """Moves with the number of their file."""
        made = part.copy()
        made["file"] = self.numbers[log.key]
        log.symbols.update(self.scope.names(owner)[0] for owner in np.unique(part["owner"]).tolist() if owner not in log.owners)
        log.owners.update(np.unique(part["owner"]).tolist())
        return made

    def all_again(self) -> dict[str, Followed]:
        """All messages of all symbols, some symbols at a time."""
        held, none = self.held(), np.zeros(len(self.groups), dtype=np.int64)
        counts = sum((np.bincount(whose, minlength=none.size) for _, _, whose in held), none)
        found: dict[str, Followed] = {}
        for owners in self.portions(counts):
            found.update(self.take(self.moves_of(owners, held)))
        self.logs.release()
        return {name: replace(each, is_again=True) for name, each in found.items()}

    def held(self) -> list[tuple[Log, Array, Array]]:
        """All arrays of moves, with the owners of each."""
        books = [(log, self.book_of(log)) for log in self.logs.logs.values()]
        parts = [(log, part) for log, book in books for part in [*book.parts, *([moves_of(book.moves)] if book.moves else [])]]
        return [(log, part, np.ascontiguousarray(part["owner"])) for log, part in parts]

    def portions(self, counts: Array) -> Iterator[list[int]]:
        """The owners of some symbols after the other, of about so many messages together."""
        portion: list[int] = []
        for name in dict.fromkeys(self.groups):
            portion += [owner for owner, group in enumerate(self.groups) if group == name]
            if counts[portion].sum() >= TOGETHER:
                yield portion
                portion = []
        if portion:
            yield portion

    def moves_of(self, owners: list[int], held: list[tuple[Log, Array, Array]]) -> Array:
        """All messages of some owners."""
        wanted = np.zeros(max(len(self.groups), 1), dtype=bool)
        wanted[owners] = True
        return np.concatenate([moves_of([]), *(self.of_log(part[wanted[whose]], log) for log, part, whose in held)])

    # ------------------------------------------------------------ messages

    def take(self, moves: Array) -> dict[str, Followed]:
        """New messages. Those of symbols that have a late one are followed again with all before them."""
        if not moves.size:
            return {}
        reads = reads_of(moves)
        if (reads[1:] < reads[:-1]).any():
            order = np.argsort(reads, kind="stable")
            moves, reads = moves[order], reads[order]
        group = self.group[moves["owner"]]
        found = {name: Followed({}, False, first) for name, first in self.earliest(moves, group)}
        known, is_fresh = self.known(moves, reads)
        late = np.unique(group[self.is_late(moves, reads, group, known, is_fresh)])
        if late.size:
            self.again(late, found)
            stays = ~np.isin(group, late)
            moves, reads, group, is_fresh = moves[stays], reads[stays], group[stays], is_fresh[stays]
        self.follow(moves, reads, group, is_fresh, found)
        return found

    def earliest(self, moves: Array, group: Array) -> Iterator[tuple[str, int]]:
        """The earliest time of each symbol's messages."""
        order = np.argsort(group, kind="stable")
        starts = [begin for begin, _ in runs_of(group[order])]
        first = np.minimum.reduceat(moves["time"][order], starts).tolist()
        yield from ((self.groups[int(moves["owner"][order[at]])], time) for at, time in zip(starts, first))

    def known(self, moves: Array, reads: Array) -> tuple[Array, Array]:
        """Where each message's ExecID was read before the new ones, NEVER where it was not or it has none; and whether it is read for the
        first time here."""
        asked = entries(moves["execution"], moves["owner"], reads)
        has = (asked.first != 0) | (asked.second != 0)
        known = np.where(has, self.executions.known(asked), NEVER)
        is_first = first_of([asked.first, asked.second, asked.owner.astype(np.uint64)]) == np.arange(len(moves))
        return known, ~has | (is_first & (known == NEVER))

    def is_late(self, moves: Array, reads: Array, group: Array, known: Array, is_fresh: Array) -> Array:
        """Which messages have an earlier time than one that was followed, or are the first copy of one. A later copy changes nothing."""
        lasts = [follower.last if (follower := self.followers.get(name)) is not None else (LONG_AGO, 0) for name in dict.fromkeys(self.groups)]
        time, read = (np.array(column, dtype=np.int64)[group] for column in zip(*lasts))
        is_before = (moves["time"] < time) | ((moves["time"] == time) & (reads < read))
        return (is_fresh & is_before) | ((known != NEVER) & (reads < known))

    def again(self, late: Array, found: dict[str, Followed]) -> None:
        """Follows some symbols from their first messages."""
        owners = np.flatnonzero(np.isin(self.group, late)).tolist()
        self.executions.drop(owners)
        for owner in owners:
            self.followers.pop(self.groups[owner], None)
            self.lines.pop(owner, None)
        moves = self.moves_of(owners, self.held())
        self.logs.release()
        reads = reads_of(moves)
        order = np.argsort(reads, kind="stable")
        moves, reads = moves[order], reads[order]
        _, is_fresh = self.known(moves, reads)
        self.follow(moves, reads, self.group[moves["owner"]], is_fresh, found)
        for owner in owners:
            if self.groups[owner] in found:
                found[self.groups[owner]].is_again = True

    def follow(self, moves: Array, reads: Array, group: Array, is_fresh: Array, found: dict[str, Followed]) -> None:
        """Messages of which none is late: those that are fresh, in order of time, equal times in the order in which the files are read."""
        for owner in moves["owner"][~is_fresh].tolist():
            self.follower(self.groups[owner]).duplicates += 1
        moves, reads, group = moves[is_fresh], reads[is_fresh], group[is_fresh]
        if not moves.size:
            return
        fresh = entries(moves["execution"], moves["owner"], reads)
        self.executions.add(fresh.of((fresh.first != 0) | (fresh.second != 0)))
        order = np.lexsort((reads, moves["time"], group))
        moves, group, out = moves[order], group[order], Outcome()
        terms, times, places = terms_of(moves), moves["time"].tolist(), reads[order].tolist()
        for begin, end in runs_of(group):
            follower = self.follower(self.groups[terms[OWNER][begin]])
            follower.take(moves[begin:end], [column[begin:end] for column in terms], out)
            follower.last = times[end - 1], places[end - 1]
        self.keep(*changes_by(moves, out), found)

    def follower(self, name: str) -> Follower:
        if name not in self.followers:
            self.followers[name] = Follower(self.scope, self.names)
        return self.followers[name]

    def keep(self, changes: Array, owner: Array, found: dict[str, Followed]) -> None:
        """Keeps the changes by owner."""
        changes["seq"] = self.count + np.arange(len(changes))
        self.count += len(changes)
        order = np.argsort(owner, kind="stable")
        changes, owner = changes[order], owner[order]
        for begin, end in runs_of(owner) if len(owner) else ():
            whose, rows = int(owner[begin]), changes[begin:end]
            self.lines.setdefault(whose, Grown()).add(rows)
            found.setdefault(self.groups[whose], Followed()).changes[whose] = rows

    # ------------------------------------------------------------ what comes out

    def timelines(self, symbol: str) -> dict[tuple[str, str], Timeline]:
        """The changes of a symbol by account."""
        found = {}
        for owner, grown in self.lines.items():
            names = self.scope.names(owner)
            if names[0] == symbol:
                found[names] = Timeline(*names, grown.all(), self.names, self.is_carried)
        return dict(sorted(found.items()))

    @property
    def newest(self) -> Optional[int]:
        """The latest time of a message, in milliseconds since 1970."""
        return max((follower.last[0] for follower in self.followers.values() if follower.last[0] > LONG_AGO), default=None)
