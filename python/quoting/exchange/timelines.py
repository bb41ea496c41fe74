"""The changes of one symbol and account in order of time, and the part of them that a quantum meters."""

from bisect import bisect_left, bisect_right
from typing import Any, Iterable, Iterator, NamedTuple, Sequence

from quoting.events import LAYOUT, Event, event_of, split
from quoting.exchange.orders import AMENDED, REMOVED, SELL

try:
    import numpy
except ImportError:
    numpy = None  # type: ignore[assignment]

# The columns of an array of changes; each number is at a multiple of its size, so that numpy reads and writes whole columns fast.
CHANGE: Any = {
    "names": ["time", "kind", "order", "price", "volume", "file", "line", "seq"],
    "formats": ["<i8", "u1", "<u4", "<i4", "<u4", "<u2", "<u4", "<u4"],
    "offsets": [0, 30, 8, 12, 16, 28, 20, 24],
    "itemsize": 32,
}


class Change(NamedTuple):
    """A change of an order: milliseconds since 1970 (UTC); 1 a new buy, 2 a new sell, 3 amended, 4 removed, 5 dealt; the order's number
    among all orders, in the order in which they were entered; price in steps and volume (after 4 both 0, after 5 what was dealt); the
    file's number and the line of the message; the message's number among all."""

    time: int
    kind: int
    order: int
    price: int
    volume: int
    file: int
    line: int
    seq: int


class Resting(NamedTuple):
    """An order that rests: its side, price and what is left of it, and where its last change is."""

    side: int
    price: int
    volume: int
    file: int
    line: int


class Timeline:
    """The changes of a symbol and account. `changes` is a numpy array of CHANGE, or a list of Change where numpy is absent. Requests
    do not show how orders ended, so a quantum starts without orders where they are read: `is_carried` is then False."""

    def __init__(self, symbol: str, account: str, changes: Any, files: Sequence[str], is_carried: bool = True) -> None:
        self.symbol, self.account, self.changes, self.files, self.is_carried = symbol, account, changes, files, is_carried
        self.times: Sequence[int] = [change.time for change in changes] if numpy is None else changes["time"]
        self.known: list[tuple[int, dict[int, Resting]]] = [(0, {})]  # what rests before the change of a place, for some places

    def __len__(self) -> int:
        return len(self.changes)

    def __iter__(self) -> Iterator[Change]:
        return self.between(0, len(self))

    def between(self, first: int, end: int) -> Iterator[Change]:
        """The changes from one place to before another."""
        part = self.changes[first:end]
        return iter(part) if numpy is None else map(Change._make, part.tolist())

    def place(self, change: Change) -> tuple[str, int]:
        """The name of the file and the line of the message that made a change."""
        return self.files[change.file], change.line

    def first_at(self, time: int) -> int:
        """The place of the first change that is not before a time."""
        return bisect_left(self.times, time) if numpy is None else int(numpy.searchsorted(self.times, time, "left"))

    def first_after(self, time: int) -> int:
        return bisect_right(self.times, time) if numpy is None else int(numpy.searchsorted(self.times, time, "right"))

    def resting(self, place: int) -> dict[int, Resting]:
        """What rests before the change of a place, by the order's number, in the order in which the orders were entered."""
        which = bisect_right([known for known, _ in self.known], place) - 1  # the last known place up to that one
        known, before = self.known[which]
        if known == place:
            return before
        orders = dict(before)
        for change in self.between(known, place):
            apply(orders, change)
        self.known.insert(which + 1, (place, orders))
        return orders


    def carried(self, time: int) -> dict[int, Resting]:
        """What rests when a quantum starts then."""
        return self.resting(self.first_at(time)) if self.is_carried else {}


def array_of(changes: list[Change]) -> Any:
    """Changes as a timeline holds them."""
    return changes if numpy is None else numpy.array(changes, dtype=CHANGE)


def apply(orders: dict[int, Resting], change: Change) -> None:
    """Changes what rests."""
    if change.kind <= SELL:
        orders[change.order] = Resting(change.kind, change.price, change.volume, change.file, change.line)
    elif change.kind == REMOVED:
        del orders[change.order]
    else:
        old = orders[change.order]
        is_amended = change.kind == AMENDED
        left = change.volume if is_amended else old.volume - change.volume
        if left:
            orders[change.order] = Resting(old.side, change.price if is_amended else old.price, left, change.file, change.line)
        else:
            del orders[change.order]


class Records:
    """Events of a quantum as records of 20 bytes, each with the message that it comes from."""

    def __init__(self, data: bytes, places: Sequence[tuple[str, int]]) -> None:
        self.data, self.places = data, places

    def __len__(self) -> int:
        return len(self.places)

    def events(self) -> list[Event]:
        found = [event_of(record) for record in split(self.data)]
        return [event for event in found if event is not None]


class Places(Sequence[tuple[str, int]]):
    """File and line of each record, read off the changes when they are asked for."""

    def __init__(self, rows: Any, files: Sequence[str]) -> None:
        self.rows, self.files = rows, files

    def __len__(self) -> int:
        return len(self.rows)

    def __getitem__(self, at: Any) -> Any:
        if isinstance(at, slice):
            return [self[each] for each in range(*at.indices(len(self)))]
        row = self.rows[at]
        return self.files[int(row[5])], int(row[6])


class Quantum(NamedTuple):
    """The orders that rest when a quantum starts, as adds at time 0, and the events from its start to its end."""

    carried: Records
    events: Records


def quantum_of(timelines: Iterable[Timeline], start: int, end: int) -> Quantum:
    """The quantum from start to end, both included, in milliseconds since 1970, of one symbol's timelines (one for each account)."""
    lines = list(timelines)
    carried: list[tuple[int, Resting, Sequence[str]]] = []
    for line in lines:
        carried += [(order, rests, line.files) for order, rests in line.carried(start).items()]
    carried.sort(key=lambda each: each[0])
    adds = [LAYOUT.pack(each.side, 0, order, each.price, each.volume) for order, each, _ in carried]
    places = [(files[each.file], each.line) for _, each, files in carried]
    return Quantum(Records(b"".join(adds), places), events_of(lines, start, end))


def events_of(lines: list[Timeline], start: int, end: int) -> Records:
    """The changes from start to end as records, those of several accounts merged by time, equal times as logged."""
    parts = [line.changes[line.first_at(start) : line.first_after(end)] for line in lines]
    files = lines[0].files if lines else ()
    if numpy is None:
        rows = sorted((change for part in parts for change in part), key=lambda change: (change.time, change.seq))
        data = b"".join(LAYOUT.pack(change.kind, change.time - start, *change[2:5]) for change in rows)
        return Records(data, Places(rows, files))
    if not parts:
        return Records(b"", [])
    merged = numpy.concatenate(parts) if len(parts) != 1 else parts[0]
    if len(parts) > 1:
        merged = merged[numpy.lexsort((merged["seq"], merged["time"]))]
    return Records(record_bytes(merged, start), Places(merged, files))


def record_bytes(changes: Any, start: int) -> bytes:
    """The changes as records, with times from a start."""
    from quoting.events import dtype

    out = numpy.zeros(len(changes), dtype=dtype())
    out["t"] = changes["time"] - start
    for name, of in (("kind", "kind"), ("id", "order"), ("price", "price"), ("volume", "volume")):
        out[name] = changes[of]
    return out.tobytes()
