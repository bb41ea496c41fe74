"""FIX 4.4 messages by document 02, W11: NewOrderSingle (D), OrderCancelRequest (F) and
OrderCancelReplaceRequest (G), read and written, and the time that one says.

The bytes are split at byte 1 into fields, and all else is said of the list of tags and values. A
refusal carries a reason beside its number, for readers and for the tests' counts.
"""

import re
from datetime import datetime, timedelta
from typing import NamedTuple

END = b"\x01"  # ends each field
BEGIN = b"8=FIX.4.4" + END
FRONT = (b"8", b"9", b"35")  # the first three tags
LAST = b"10"

NUMBERS = (11, 41, 54, 38, 44)  # the used tags but 60, in the order in which they are written
USED = {"D": (11, 54, 38, 44), "F": (11, 41), "G": NUMBERS}  # and 60 in each
KINDS = dict(enumerate(USED, start=1))  # as `probe` numbers them

WORD = 2**32 - 1
STEPS = (-(2**31), 2**31 - 1)
TIME = re.compile(rb"([0-9]{4})([0-9]{2})([0-9]{2})-([0-9]{2}):([0-9]{2}):([0-9]{2})\.([0-9]{3})")

Field = tuple[bytes, bytes]  # tag and value


class Order(NamedTuple):
    """What a message says."""

    kind: str  # D, F or G
    numbers: dict[int, int]  # by tag, those that the kind uses
    time: bytes  # 60


class Unread(Exception):
    """A message that is refused by 20 or by 21."""

    def __init__(self, number: int, why: str) -> None:
        super().__init__(f"refused {number}: {why}")
        self.number, self.why = number, why


# ---------------------------------------------------------------- values

# A value's reader raises ValueError, with the reason, where it can't be read.


def digits(value: bytes, most: int) -> int:
    """A number in digits, leading zeros allowed."""
    short = plain(value)
    if len(short) > len(str(most)) or int(short) > most:
        raise ValueError("is past 32 bits")
    return int(short)


def plain(value: bytes) -> bytes:
    """Digits without leading zeros."""
    if not re.fullmatch(rb"[0-9]+", value):
        raise ValueError("is not in digits")
    return value.lstrip(b"0") or b"0"


def word(value: bytes) -> int:
    return digits(value, WORD)


def steps(value: bytes) -> int:
    """A price: a minus sign if negative, and zero is not."""
    low, high = STEPS
    if not value.startswith(b"-"):
        return digits(value, high)
    size = digits(value[1:], -low)
    if size == 0:
        raise ValueError("is minus zero")
    return -size


def side(value: bytes) -> int:
    if value not in (b"1", b"2"):
        raise ValueError("is no side")
    return int(value)


READERS = {11: word, 41: word, 54: side, 38: word, 44: steps}


def instant(time: bytes) -> datetime:
    """YYYYMMDD-HH:MM:SS.sss. The library's calendar is Gregorian, from year 1 to 9999."""
    parts = TIME.fullmatch(time)
    if parts is None:
        raise ValueError("is not of its form")
    year, month, day, hour, minute, second, millis = map(int, parts.groups())
    try:
        return datetime(year, month, day, hour, minute, second, 1_000 * millis)
    except ValueError:
        raise ValueError("is no date or time of day") from None


def since(start: bytes, time: bytes) -> int:
    """The milliseconds from the start to the time, below 0 where that is before it."""
    try:
        return (instant(time) - instant(start)) // timedelta(milliseconds=1)
    except ValueError as error:
        raise Unread(21, f"a time {error}") from None


# ---------------------------------------------------------------- reading


def field(piece: bytes) -> Field:
    """What is between two bytes 1. The first equals sign ends the tag."""
    tag, equals, value = piece.partition(b"=")
    if not equals:
        raise Unread(20, "a field without equals sign")
    if not tag:
        raise Unread(20, "an empty tag")
    if not re.fullmatch(rb"[0-9]+", tag):
        raise Unread(20, "a tag that is not in digits")
    if tag.startswith(b"0"):
        raise Unread(20, "a tag that starts with 0")
    if not value:
        raise Unread(20, "an empty value")
    return tag, value


def fields(data: bytes) -> list[Field]:
    *pieces, rest = data.split(END)
    if rest:
        raise Unread(20, "the last byte is not byte 1")
    return [field(piece) for piece in pieces]


def before_last(data: bytes) -> bytes:
    """All bytes before the last field."""
    return data[: data.rindex(END, 0, -1) + 1]


def check_places(tags: list[bytes]) -> None:
    for place, tag in enumerate(FRONT):
        if tags[place : place + 1] != [tag]:
            raise Unread(20, f"{tag.decode()} is not at place {place + 1}")
    if tags[-1] != LAST:
        raise Unread(20, "10 is not the last")
    for tag in (*FRONT, LAST):
        if tags.count(tag) > 1:
            raise Unread(20, f"{tag.decode()} a second time")


def check_length(value: bytes, body: bytes) -> None:
    try:
        same = plain(value) == b"%d" % len(body)
    except ValueError as error:
        raise Unread(20, f"9 {error}") from None
    if not same:
        raise Unread(20, "9 is not the length")


def checksum(before: bytes) -> bytes:
    return b"%03d" % (sum(before) % 256)


def unframed(data: bytes) -> tuple[str, list[Field]]:
    """The type and the fields between 35 and 10."""
    found = fields(data)
    check_places([tag for tag, _ in found])
    (_, begin), (_, length), (_, kind), *inner, (_, total) = found
    if begin != b"FIX.4.4":
        raise Unread(20, "8 is not FIX.4.4")
    before = before_last(data)
    check_length(length, before.split(END, 2)[2])
    if total != checksum(before):
        raise Unread(20, "10 is not the checksum")
    if kind not in (b"D", b"F", b"G"):
        raise Unread(20, "35 is not D, F or G")
    return kind.decode(), inner


def only_value(inner: list[Field], tag: int) -> bytes:
    values = [value for name, value in inner if name == b"%d" % tag]
    if not values:
        raise ValueError("is absent")
    if len(values) > 1:
        raise ValueError("is there twice")
    return values[0]


def read(data: bytes) -> Order:
    """The message that the bytes are; other tags than the used ones are skipped."""
    kind, inner = unframed(data)
    numbers: dict[int, int] = {}
    for tag in USED[kind]:
        try:
            numbers[tag] = READERS[tag](only_value(inner, tag))
        except ValueError as error:
            raise Unread(21, f"{tag} {error}") from None
    try:
        time = only_value(inner, 60)
        instant(time)
    except ValueError as error:
        raise Unread(21, f"60 {error}") from None
    return Order(kind, numbers, time)


# ---------------------------------------------------------------- writing


def framed(body: bytes) -> bytes:
    """The message of which the body is given: 8 and 9 before it, 10 after it."""
    before = BEGIN + b"9=%d" % len(body) + END + body
    return before + b"10=" + checksum(before) + END


def write(order: Order) -> bytes:
    """The message with no other tags."""
    try:
        instant(order.time)
    except ValueError as error:
        raise Unread(21, f"60 {error}") from None
    numbers = [f"{tag}={order.numbers[tag]}" for tag in USED[order.kind]]
    parts = [f"35={order.kind}", *numbers, f"60={order.time.decode()}"]
    return framed(b"".join(part.encode() + END for part in parts))


# ---------------------------------------------------------------- the cases of `probe`


def line(order: Order) -> str:
    numbers = [f"{tag} {order.numbers[tag]}" for tag in USED[order.kind]]
    return " ".join(["message", order.kind, *numbers, "60", order.time.decode()])


def order_of(words: list[int], time: bytes) -> Order | None:
    """The order of `kind id orig side volume price`; what its kind does not take is 0."""
    number, *given = words
    kind = KINDS.get(number)
    if kind is None:
        return None
    numbers = dict(zip(NUMBERS, given))
    numbers[44] -= (numbers[44] >> 31) << 32  # two's complement
    if any(numbers[tag] for tag in NUMBERS if tag not in USED[kind]):
        return None
    if kind != "F" and numbers[54] not in (1, 2):
        return None
    return Order(kind, {tag: numbers[tag] for tag in USED[kind]}, time)


def probe_write(words: list[int], data: bytes) -> str | None:
    """`10 kind id orig side volume price`, then the bytes of 60."""
    order = order_of(words[1:7], data[28:]) if len(words) >= 7 else None
    return None if order is None else "bytes " + write(order).hex(" ")


def probe_since(words: list[int], data: bytes) -> str | None:
    """`11 s`, s bytes of a start, then the other time."""
    if len(words) < 2 or len(data) < 8 + words[1]:
        return None
    t = since(data[8 : 8 + words[1]], data[8 + words[1] :])
    if t < 0:
        return "refused 8"
    return f"time {t}" if t <= WORD else "refused 9"


def probe(words: list[int], data: bytes) -> list[str] | None:
    """`9`, then a message, or the cases 10 and 11; None where it is none of them."""
    try:
        if words[0] == 9:
            return [line(read(data[4:]))]
        said = probe_write(words, data) if words[0] == 10 else probe_since(words, data)
    except Unread as refused:
        return [f"refused {refused.number}"]
    return None if said is None else [said]
