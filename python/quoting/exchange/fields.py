"""The values of one message as they are read from a log: times, prices in whole steps, volumes, and what a report or a request says.

This is the slow reading, a message at a time. `quoting.exchange.columns` reads the same from many messages at once and hands over
to this one whatever is out of the ordinary.
"""

import re
from datetime import date
from decimal import Decimal
from fractions import Fraction
from functools import lru_cache
from typing import NamedTuple, Optional

from quoting.exchange.reasons import Why

TAGS = (1, 11, 17, 32, 37, 38, 40, 41, 44, 52, 54, 55, 59, 60, 150, 151)
SENT = 52  # when a message was sent
HOUR_BYTES, SHORTEST_TIME = 11, 17  # of YYYYMMDD-HH and of YYYYMMDD-HH:MM:SS
NAMES = {b"%d" % tag: tag for tag in TAGS}
LONGEST = 64  # bytes of a value
TIME = re.compile(rb"([0-9]{8})-([0-9]{2}):([0-9]{2}):([0-9]{2})(?:\.([0-9]{3})(?:[0-9]{3}){0,2})?")
PRICE = re.compile(rb"-?(?:[0-9]+\.?[0-9]*|\.[0-9]+)")
VOLUME = re.compile(rb"([0-9]+)(?:\.0*)?")
DAY = 86_400_000
MOST_STEPS, MOST_VOLUME = 2**31, 2**32

# What a move is. The first ones come from reports, the others from requests.
NEW, UNRESTED, AMEND, RESTATE, REMOVE, DEAL, ASK, ASK_UNRESTED, ASK_CANCEL, ASK_REPLACE, ASK_REPLACE_UNRESTED = range(1, 12)

REMOVING = (b"4", b"C", b"3")
DEALING = (b"F", b"1", b"2")
CHANGING_NOTHING = (b"8", b"A", b"6", b"E", b"I")
CORRECTIONS = (b"G", b"H")
NEVER_REST = (b"3", b"4")  # 59: immediate or cancel, fill or kill
MARKET, LIMIT = b"1", b"2"  # 40


class Move(NamedTuple):
    """What a report or a request does: its time, what it is, whose order, the ids that it has, and the new terms of the order."""

    time: int
    what: int
    owner: int
    cl: bytes
    orig: bytes
    oid: bytes
    execution: bytes
    side: int
    price: int
    volume: int
    file: int
    line: int
    seq: int


class Unreadable(Exception):
    """A value of the message cannot be taken."""

    def __init__(self, why: Why, tag: int, value: bytes, sentence: str) -> None:
        super().__init__(sentence)
        self.why, self.tag, self.value, self.sentence = why, tag, value, sentence


def text_of(value: bytes) -> str:
    return value.decode("utf-8", "backslashreplace")


class Values:
    """The values of the tags that are read, each of which may occur once."""

    def __init__(self, fields: list[tuple[bytes, bytes]]) -> None:
        self.found: dict[int, bytes] = {}
        self.twice: set[int] = set()
        for name, value in fields:
            tag = NAMES.get(name)
            if tag is not None:
                self.twice.update([tag] if tag in self.found else [])
                self.found.setdefault(tag, value)

    def maybe(self, tag: int) -> Optional[bytes]:
        """The value, None where the tag is absent."""
        value = self.found.get(tag)
        if value is None:
            return None
        if tag in self.twice:
            raise Unreadable(Why.FIELD, tag, value, f"{tag} is there twice")
        if len(value) > LONGEST or b"\0" in value:
            raise Unreadable(Why.FIELD, tag, value[:LONGEST], f"{tag} has {len(value)} bytes, and at most {LONGEST} without a byte 0 are read")
        return value

    def one(self, tag: int) -> bytes:
        value = self.maybe(tag)
        if value is None:
            raise Unreadable(Why.FIELD, tag, b"", f"{tag} is absent")
        return value

    def name(self, tag: int) -> bytes:
        """A symbol or account, empty where it is absent."""
        return self.maybe(tag) or b""

    def volume(self, tag: int) -> int:
        value = self.one(tag)
        found = VOLUME.fullmatch(value)
        if found is None or int(found[1]) >= MOST_VOLUME:
            raise Unreadable(Why.FIELD, tag, value, f"{tag}={text_of(value)} is not a whole number below 2^32")
        return int(found[1])

    def side(self) -> int:
        value = self.one(54)
        if value not in (b"1", b"2"):
            raise Unreadable(Why.FIELD, 54, value, f"54={text_of(value)} is neither 1 (buy) nor 2 (sell)")
        return int(value)

    def time(self) -> int:
        value = self.one(60)
        found = time_of(value)
        if found is None:
            raise Unreadable(Why.FIELD, 60, value, f"60={text_of(value)} is not a time YYYYMMDD-HH:MM:SS with 0, 3, 6 or 9 decimals")
        return found

    def price(self, step: Decimal) -> int:
        value = self.one(44)
        if PRICE.fullmatch(value) is None:
            raise Unreadable(Why.FIELD, 44, value, f"44={text_of(value)} is not a decimal price")
        steps = steps_of(value, step)
        if steps is None:
            raise Unreadable(Why.STEP, 44, value, f"44={text_of(value)} is between two steps of {step}")
        if not -MOST_STEPS < steps < MOST_STEPS:
            raise Unreadable(Why.FIELD, 44, value, f"44={text_of(value)} is more than 2^31 steps of {step}")
        return steps

    def rests(self) -> bool:
        """Whether an order with these terms rests at a price: it is limited (40), and neither IOC nor FOK (59)."""
        return self.maybe(40) in (None, LIMIT) and self.maybe(59) not in NEVER_REST

    def unread_type(self) -> Optional[Unreadable]:
        """What is wrong with an order's type (40), which is neither market nor limit; such an order counts as no quote."""
        value = self.maybe(40)
        if value in (None, MARKET, LIMIT):
            return None
        sentence = f"40={text_of(value or b'')} is neither 1 (market) nor 2 (limit): the order counts as no quote"
        return Unreadable(Why.ORDER_TYPE, 40, value or b"", sentence)


@lru_cache(maxsize=4096)
def steps_of(value: bytes, step: Decimal) -> Optional[int]:
    """A price in whole steps, None where it is between two."""
    steps, rest = divmod(Fraction(Decimal(value.decode())), Fraction(step))
    return None if rest else int(steps)


@lru_cache(maxsize=64)
def day_of(text: bytes) -> Optional[int]:
    """Days since 1970 by YYYYMMDD, None where there is no such day."""
    try:
        return date(int(text[:4]), int(text[4:6]), int(text[6:])).toordinal() - EPOCH
    except ValueError:
        return None


EPOCH = date(1970, 1, 1).toordinal()


def time_of(value: bytes) -> Optional[int]:
    """Milliseconds since 1970 by a value of 60. Digits after the third decimal are cut off."""
    found = TIME.fullmatch(value)
    if found is None:
        return None
    day, hour, minute, second = day_of(found[1]), int(found[2]), int(found[3]), int(found[4])
    if day is None or hour > 23 or minute > 59 or second > 59:
        return None
    return day * DAY + ((hour * 60 + minute) * 60 + second) * 1000 + int(found[5] or 0)


def hour_of(value: bytes) -> Optional[int]:
    """Hours since 1970 by YYYYMMDD-HH, the front of a time; None where that is no hour."""
    day = day_of(value[:8]) if len(value) == HOUR_BYTES and value[8:9] == b"-" and (value[:8] + value[9:]).isdigit() else None
    return None if day is None or int(value[9:]) > 23 else day * 24 + int(value[9:])


def milliseconds(text: str) -> int:
    """Milliseconds since 1970 by a time in the form of 60.

    >>> milliseconds("19700102-00:00:01.250")
    86401250
    """
    found = time_of(text.encode())
    if found is None:
        raise ValueError(f"{text!r} is not a time YYYYMMDD-HH:MM:SS.sss")
    return found


def date_text(time: int) -> str:
    """The day of a time in milliseconds since 1970, as 2026-11-16."""
    return date.fromordinal(time // DAY + EPOCH).isoformat()
