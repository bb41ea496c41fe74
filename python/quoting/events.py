"""Events of a quantum, and their records: 20 bytes each, as the C calls take them.

>>> record(Add(0, 1, "buy", 99, 500)).hex(" ", 4)
'01000000 00000000 01000000 63000000 f4010000'
>>> event_of(record(Cancel("0:00:04", 2)))
Cancel(t=4000, id=2)
"""

import struct
from dataclasses import dataclass
from typing import Any, Iterable, Iterator, Literal, Optional, Union

from quoting.ranges import signed, type_error, word
from quoting.values import Time, time_of

SIZE = 20
LAYOUT = struct.Struct("<B3xIIiI")  # kind, three zero bytes, t, id, price, volume

Side = Literal["buy", "sell"]


@dataclass(frozen=True)
class Add:
    t: Time
    id: int
    side: Side
    price: int
    volume: int


@dataclass(frozen=True)
class Amend:
    t: Time
    id: int
    price: int
    volume: int


@dataclass(frozen=True)
class Cancel:
    t: Time
    id: int


@dataclass(frozen=True)
class Deal:
    t: Time
    id: int
    volume: int


@dataclass(frozen=True)
class Tick:
    t: Time


Event = Union[Add, Amend, Cancel, Deal, Tick]
KINDS = {"add": Add, "amend": Amend, "cancel": Cancel, "deal": Deal, "tick": Tick}
SIDES: dict[Side, int] = {"buy": 1, "sell": 2}  # their numbers in records, calls, views and FIX (54)
SIDE_NAMES = {number: side for side, number in SIDES.items()}


def side_number(side: Side) -> int:
    """1 of a buy, 2 of a sell."""
    if not isinstance(side, str):
        raise type_error(side, "side", "buy or sell")
    if side not in SIDES:
        raise ValueError(f"side: {side!r} is neither buy nor sell")
    return SIDES[side]


def fields(event: Event) -> tuple[int, int, int, int, int]:
    """Kind, t, id, price and volume, each checked; what the event doesn't take is zero."""
    if isinstance(event, Add):
        return side_number(event.side), time_of(event.t, "t"), word(event.id, "id"), signed(event.price, "price"), word(event.volume, "volume")
    if isinstance(event, Amend):
        return 3, time_of(event.t, "t"), word(event.id, "id"), signed(event.price, "price"), word(event.volume, "volume")
    if isinstance(event, Cancel):
        return 4, time_of(event.t, "t"), word(event.id, "id"), 0, 0
    if isinstance(event, Deal):
        return 5, time_of(event.t, "t"), word(event.id, "id"), 0, word(event.volume, "volume")
    if isinstance(event, Tick):
        return 6, time_of(event.t, "t"), 0, 0, 0
    raise type_error(event, "an event", "an Add, Amend, Cancel, Deal or Tick")


def record(event: Event) -> bytes:
    """The 20 bytes of an event."""
    return LAYOUT.pack(*fields(event))


def records(events: Iterable[Event]) -> bytes:
    return b"".join(map(record, events))


def event_of(data: bytes) -> Optional[Event]:
    """The event of a record, None where the bytes are no record."""
    if len(data) != SIZE:
        return None
    kind, t, id, price, volume = LAYOUT.unpack(data)
    choices: dict[int, Event] = {
        1: Add(t, id, "buy", price, volume), 2: Add(t, id, "sell", price, volume), 3: Amend(t, id, price, volume),
        4: Cancel(t, id), 5: Deal(t, id, volume), 6: Tick(t),
    }
    found = choices.get(kind)
    return found if found is not None and record(found) == data else None


def split(data: bytes) -> Iterator[bytes]:
    """The records one by one; bytes after the last full one are one that is cut short."""
    return (data[at : at + SIZE] for at in range(0, len(data), SIZE))


def dtype() -> Any:
    """The record's dtype for numpy arrays, whose memory the C calls read.

    >>> dtype().itemsize
    20
    """
    import numpy

    return numpy.dtype([("kind", "u1"), ("zero", "u1", 3), ("t", "<u4"), ("id", "<u4"), ("price", "<i4"), ("volume", "<u4")])


def from_frame(frame: Any, start: Time = 0, step: Any = None) -> Any:
    """The records of a DataFrame, or of anything with the columns kind, t or timestamp, id, side, price and volume, as a numpy array.

    `t` is milliseconds from the quantum's start; `timestamp` are datetimes of one day, and `start` is the quantum's start on that day, as
    "10:00:00". With a step prices are decimals, and must be on a step; floats count as the nearest step that is equal to 9 digits. What an
    event does not take may be empty (NaN or None).

    Raises:
        ValueError: A value cannot be taken; the row is named, counted from 0.

    >>> frame = {"t": [0, 5], "kind": ["add", "cancel"], "id": [1, 1], "side": ["buy", None], "price": [84.35, None], "volume": [500, None]}
    >>> [event_of(each.tobytes()) for each in from_frame(frame, step="0.01")]
    [Add(t=0, id=1, side='buy', price=8435, volume=500), Cancel(t=5, id=1)]
    """
    from quoting.frames_in import records_of

    return records_of(frame, start, step)
