"""The month's calls, and their blocks of words as the library and `replay` take them (docs/FORMATS.md).

>>> block(Look(1, 1, 2)).hex(" ", 4)
'0b000000 01000000 01000000 02000000'
>>> read_list(block(Tick(5)) + block(Report()) + b"?")
([Tick(t=5), Report()], 12)
"""

import struct
from dataclasses import dataclass
from enum import IntEnum
from typing import Any, Callable, Optional, Sequence, Union

from quoting import ranges
from quoting.events import SIDE_NAMES, Add, Amend, Cancel, Deal, Event, Tick, side_number
from quoting.values import Time, time_of

NO_LIMIT = 65_535  # says that there is no lapse limit


class Kind(IntEnum):
    """A block's first word. The numbers are those of `enum quoting_call` in quoting.h."""

    OPEN = 1
    ADD = 2
    AMEND = 3
    CANCEL = 4
    DEAL = 5
    TICK = 6
    CLOSE = 7
    DROP = 8
    CHARGE = 9
    WITHDRAW = 10
    LOOK = 11
    REPORT = 12
    OPEN_STRIKE = 13
    ASK = 14
    COMMIT = 15
    MESSAGE = 16
    OUTLOOK = 17


OPENS = frozenset((Kind.OPEN, Kind.OPEN_STRIKE))


@dataclass(frozen=True)
class Strike:
    """The numbers of a strike's open in place of SP: a in tenths, the premiums' difference, days to the expiry, b."""

    a: int
    difference: int
    days: int
    b: int


@dataclass(frozen=True)
class Open:
    """Opens a quantum. The row may have any number of words, and the month refuses other than seven; `spread` is SP, or a strike."""

    words: Sequence[int]
    day: int
    spread: Union[int, Strike]
    lapses: int = NO_LIMIT


@dataclass(frozen=True)
class Close:
    active: int
    passive: int


@dataclass(frozen=True)
class Drop:
    pass


@dataclass(frozen=True)
class Charge:
    day: int
    expiry: int
    quantum: int
    active: int
    passive: int


@dataclass(frozen=True)
class Withdraw:
    day: int
    expiry: int
    quantum: int


@dataclass(frozen=True)
class Look:
    day: int
    expiry: int
    quantum: int


@dataclass(frozen=True)
class Report:
    pass


@dataclass(frozen=True)
class Outlook:
    """What the open quantum still needs, and whether the maker may stop quoting."""


@dataclass(frozen=True)
class Ask:
    t: Time
    id: int
    price: int
    volume: int


@dataclass(frozen=True)
class Ticket:
    """The amendment that was asked for, and the count of accepted calls then."""

    t: int
    id: int
    price: int
    volume: int
    count: int


@dataclass(frozen=True)
class Commit:
    t: Time
    id: int
    price: int
    volume: int
    ticket: Ticket


@dataclass(frozen=True)
class Message:
    """A FIX message, with the quantum's start in the form of 60."""

    start: bytes
    bytes: bytes


Call = Union[Open, Event, Close, Drop, Charge, Withdraw, Look, Report, Outlook, Ask, Commit, Message]

# ---------------------------------------------------------------- written

# The layouts of the events' blocks: words low byte first, a price in two's complement.
ADD, AMEND, CANCEL, DEAL, TICK = (struct.Struct(f"<{codes}") for codes in ("IIIIiI", "IIIiI", "III", "IIII", "II"))


def halves(number: int, name: str) -> list[int]:
    """A charge or a count as two words, the low one first."""
    high, low = divmod(ranges.long(number, name), 2**32)
    return [low, high]


def strike_words(strike: Strike) -> list[int]:
    numbers = (strike.a, "a"), (strike.difference, "difference"), (strike.days, "days"), (strike.b, "b")
    return [ranges.word(number, name) for number, name in numbers]


def cell_words(call: Union[Charge, Withdraw, Look]) -> list[int]:
    return [ranges.word(call.day, "day"), ranges.word(call.expiry, "expiry"), ranges.word(call.quantum, "quantum")]


def amendment(call: Union[Amend, Ask, Commit]) -> tuple[int, int, int, int]:
    """t, id, price and volume, checked."""
    return time_of(call.t, "t"), ranges.word(call.id, "id"), ranges.signed(call.price, "price"), ranges.word(call.volume, "volume")


def ticket_words(ticket: Ticket) -> list[int]:
    if not isinstance(ticket, Ticket):
        raise ranges.type_error(ticket, "ticket", "the ticket of an ask")
    t, price = ranges.word(ticket.t, "ticket.t"), ranges.two_complement(ticket.price, "ticket.price")
    front = [t, ranges.word(ticket.id, "ticket.id"), price, ranges.word(ticket.volume, "ticket.volume")]
    return [*front, *halves(ticket.count, "ticket.count")]


def add_block(call: Add) -> bytes:
    t, id, side = time_of(call.t, "t"), ranges.word(call.id, "id"), side_number(call.side)
    return ADD.pack(Kind.ADD, t, id, side, ranges.signed(call.price, "price"), ranges.word(call.volume, "volume"))


def open_block(call: Open) -> bytes:
    words = [ranges.word(number, f"row[{at}]") for at, number in enumerate(call.words)]
    front, limit = [len(words), *words, ranges.word(call.day, "day")], ranges.word(call.lapses, "lapses")
    if isinstance(call.spread, Strike):
        return pack([Kind.OPEN_STRIKE, *front, *strike_words(call.spread), limit])
    return pack([Kind.OPEN, *front, ranges.two_complement(call.spread, "sp"), limit])


def commit_block(call: Commit) -> bytes:
    return AMEND.pack(Kind.COMMIT, *amendment(call)) + pack(ticket_words(call.ticket))


def message_block(call: Message) -> bytes:
    start, message = ranges.data(call.start, "start"), ranges.data(call.bytes, "message")
    return pack([Kind.MESSAGE, len(start), len(message)]) + start + message + bytes(-(len(start) + len(message)) % 4)


WRITERS: dict[type, Callable[[Any], bytes]] = {
    Open: open_block,
    Add: add_block,
    Amend: lambda call: AMEND.pack(Kind.AMEND, *amendment(call)),
    Cancel: lambda call: CANCEL.pack(Kind.CANCEL, time_of(call.t, "t"), ranges.word(call.id, "id")),
    Deal: lambda call: DEAL.pack(Kind.DEAL, time_of(call.t, "t"), ranges.word(call.id, "id"), ranges.word(call.volume, "volume")),
    Tick: lambda call: TICK.pack(Kind.TICK, time_of(call.t, "t")),
    Close: lambda call: pack([Kind.CLOSE, *halves(call.active, "active"), *halves(call.passive, "passive")]),
    Drop: lambda call: pack([Kind.DROP]),
    Charge: lambda call: pack([Kind.CHARGE, *cell_words(call), *halves(call.active, "active"), *halves(call.passive, "passive")]),
    Withdraw: lambda call: pack([Kind.WITHDRAW, *cell_words(call)]),
    Look: lambda call: pack([Kind.LOOK, *cell_words(call)]),
    Report: lambda call: pack([Kind.REPORT]),
    Ask: lambda call: AMEND.pack(Kind.ASK, *amendment(call)),
    Commit: commit_block,
    Message: message_block,
    Outlook: lambda call: pack([Kind.OUTLOOK]),
}


def pack(words: Sequence[int]) -> bytes:
    """Words of four bytes, low byte first."""
    return struct.pack(f"<{len(words)}I", *(ranges.word(each, f"word {at}") for at, each in enumerate(words)))


def block(call: Call) -> bytes:
    """The bytes of a call's block; each number is checked against its range.

    >>> block(Cancel(5, -1))
    Traceback (most recent call last):
    ValueError: id is -1, it must be 0 to 4294967295
    """
    writer = WRITERS.get(type(call))
    if writer is None:
        raise ranges.type_error(call, "a call", "one of quoting.calls or an event")
    return writer(call)


# ---------------------------------------------------------------- read


def signed(word: int) -> int:
    return word - (1 << 32) if word >> 31 else word


def long(low: int, high: int) -> int:
    return low + (high << 32)


def amended(words: Sequence[int]) -> tuple[int, int, int, int]:
    t, id, price, volume = words
    return t, id, signed(price), volume


def add_of(w: Sequence[int]) -> Optional[Call]:
    side = SIDE_NAMES.get(w[2])
    return Add(w[0], w[1], side, signed(w[3]), w[4]) if side else None


# The number of words after a block's kind, and the call that they are.
FIXED: dict[int, tuple[int, Callable[[Sequence[int]], Optional[Call]]]] = {
    Kind.ADD: (5, add_of),
    Kind.AMEND: (4, lambda w: Amend(*amended(w))),
    Kind.CANCEL: (2, lambda w: Cancel(*w)),
    Kind.DEAL: (3, lambda w: Deal(*w)),
    Kind.TICK: (1, lambda w: Tick(*w)),
    Kind.CLOSE: (4, lambda w: Close(long(w[0], w[1]), long(w[2], w[3]))),
    Kind.DROP: (0, lambda w: Drop()),
    Kind.CHARGE: (7, lambda w: Charge(w[0], w[1], w[2], long(w[3], w[4]), long(w[5], w[6]))),
    Kind.WITHDRAW: (3, lambda w: Withdraw(*w)),
    Kind.LOOK: (3, lambda w: Look(*w)),
    Kind.REPORT: (0, lambda w: Report()),
    Kind.ASK: (4, lambda w: Ask(*amended(w))),
    Kind.COMMIT: (10, lambda w: Commit(*amended(w[:4]), Ticket(*amended(w[4:8]), long(w[8], w[9])))),
    Kind.OUTLOOK: (0, lambda w: Outlook()),
}


def word_at(data: bytes, at: int) -> int:
    return int.from_bytes(data[at : at + 4], "little")


def size_at(data: bytes, at: int) -> Optional[int]:
    """The bytes of the block at a place, None where no call begins there or its size is cut off."""
    kind = word_at(data, at)
    if kind in FIXED and len(data) >= at + 4:
        return 4 + 4 * FIXED[kind][0]
    if kind in OPENS and len(data) >= at + 8:
        return 4 * (2 + word_at(data, at + 4) + (3 if kind == Kind.OPEN else 6))
    if kind == Kind.MESSAGE and len(data) >= at + 12:
        return 12 + -(-(word_at(data, at + 4) + word_at(data, at + 8)) // 4) * 4
    return None


def call_of(data: bytes) -> Optional[Call]:
    """The call of one whole block."""
    kind = word_at(data, 0)
    if kind == Kind.MESSAGE:
        s, m = word_at(data, 4), word_at(data, 8)
        return Message(data[12 : 12 + s], data[12 + s : 12 + s + m])
    words = struct.unpack(f"<{len(data) // 4}I", data)
    if kind == Kind.OPEN:
        return Open(list(words[2:-3]), words[-3], signed(words[-2]), words[-1])
    if kind == Kind.OPEN_STRIKE:
        return Open(list(words[2:-6]), words[-6], Strike(*words[-5:-1]), words[-1])
    return FIXED[kind][1](words[1:])


def blocks(data: bytes) -> tuple[list[bytes], int]:
    """The blocks of a list, and the byte at which it stops being calls: its length where all are.

    >>> blocks(block(Drop()) + b"?")
    ([b'\\x08\\x00\\x00\\x00'], 4)
    """
    found, at = [], 0
    while at < len(data):
        size = size_at(data, at)
        if size is None or at + size > len(data) or call_of(data[at : at + size]) is None:
            break
        found.append(data[at : at + size])
        at += size
    return found, at


def read_list(data: bytes) -> tuple[list[Optional[Call]], int]:
    """The calls of a list, and the byte at which it stops being calls."""
    found, stop = blocks(data)
    return [call_of(each) for each in found], stop
