r"""FIX 4.4 messages, NewOrderSingle (D), OrderCancelRequest (F) and OrderCancelReplaceRequest (G), read and written by the library.

>>> message = write(Order("D", 7, side="buy", volume=500, price=-99, time="20261115-10:00:00.000"))
>>> message.replace(b"\x01", b"|").decode()
'8=FIX.4.4|9=54|35=D|11=7|54=1|38=500|44=-99|60=20261115-10:00:00.000|10=211|'
>>> read(message).price
-99
>>> read(message[:-1])
Traceback (most recent call last):
quoting.native.Refused: refused 20: the frame, length, checksum or type of the message is wrong
"""

import re
from dataclasses import dataclass
from datetime import datetime, timedelta
from typing import Optional

from quoting import native, ranges
from quoting.events import SIDE_NAMES, Add, Cancel, Event, Side, side_number
from quoting.ranges import word

KINDS = {1: "D", 2: "F", 3: "G"}
NUMBERS = {kind: number for number, kind in KINDS.items()}
WORDS, MOST_BYTES = 13, 114
END = b"\x01"
TIME = re.compile(r"[0-9]{8}-[0-9]{2}:[0-9]{2}:[0-9]{2}\.[0-9]{3}")


@dataclass(frozen=True)
class Order:
    """What a message says: its type, id (11), the id it refers to (41; F and G), side, volume and price (D and G), time (60)."""

    kind: str
    id: int
    refers: int = 0
    side: Optional[Side] = None
    volume: int = 0
    price: int = 0
    time: str = ""


def read(message: bytes) -> Order:
    """The order that a message says; refused by 20 or 21."""
    given, found = ranges.data(message, "message"), native.words(WORDS)
    native.call("quoting_fix", given, len(given), found, WORDS)
    kind, id, refers, side, volume, price, *time = found
    return Order(KINDS[kind], id, refers, SIDE_NAMES.get(side), volume, signed(price), "%04d%02d%02d-%02d:%02d:%02d.%03d" % tuple(time))


def write(order: Order) -> bytes:
    """The bytes of a message, with the used tags alone.

    >>> write(Order("F", 7, refers=-1, time="20261115-10:00:00.000"))
    Traceback (most recent call last):
    ValueError: refers is -1, it must be 0 to 4294967295
    """
    side = 0 if order.side is None else side_number(order.side)
    front = [NUMBERS.get(order.kind, 0), word(order.id, "id"), word(order.refers, "refers"), side, word(order.volume, "volume")]
    fields = ranges.words([*front, ranges.two_complement(order.price, "price")], "fields")
    if not isinstance(order.time, str):
        raise ranges.type_error(order.time, "time", "a text YYYYMMDD-HH:MM:SS.sss")
    sixty, buffer = order.time.encode(), native.bytes_of(MOST_BYTES)
    return bytes(buffer[: native.call("quoting_fix_write", fields, len(fields) // 4, sixty, len(sixty), buffer, MOST_BYTES)])


def signed(number: int) -> int:
    return number - (1 << 32) if number >> 31 else number


def framed(body: bytes) -> bytes:
    """The body with 8, 9 and 10 around it, length and checksum computed.

    >>> framed(b"35=D\\x01")
    b'8=FIX.4.4\\x019=5\\x0135=D\\x0110=183\\x01'
    """
    front = b"8=FIX.4.4" + END + b"9=%d" % len(body) + END + body
    return front + b"10=%03d" % (sum(front) % 256) + END


def moment(time: str) -> datetime:
    """A time of the form YYYYMMDD-HH:MM:SS.sss."""
    if not TIME.fullmatch(time):
        raise ValueError(f"{time!r} is not a time YYYYMMDD-HH:MM:SS.sss")
    try:
        return datetime.strptime(time, "%Y%m%d-%H:%M:%S.%f")
    except ValueError:
        raise ValueError(f"{time!r} is not a time YYYYMMDD-HH:MM:SS.sss") from None


def events_of(order: Order, start: str) -> list[Event]:
    """The events that a message is in a quantum that starts then: D an add, F a cancel, G both."""
    t = (moment(order.time) - moment(start)) // timedelta(milliseconds=1)
    if not 0 <= t < 2**32:
        raise ValueError(f"{order.time} is {'before' if t < 0 else 'too long after'} the quantum's start {start}")
    cancel, add = Cancel(t, order.refers), Add(t, order.id, order.side or "buy", order.price, order.volume)
    if order.kind == "G":
        return [cancel, add]
    return [add if order.kind == "D" else cancel]
