"""How figures, places and calls are written for people, on the statement and on the live page.

>>> thousands(10_169), counted(1, "call"), counted(2_000, "call")
('10,169', '1 call', '2,000 calls')
>>> roubles(46_633_314)
'466,333 roubles 14 kopecks'
>>> place_text((15, 1, 2)), series_text((1, 2))
('day 15, expiry 1, quantum 2', 'expiry 1, quantum 2')
"""

from typing import Optional, Union

from quoting import calls as c
from quoting import fix, texts
from quoting.cells import Place
from quoting.values import SECOND

MOST_CHARACTERS = 96  # of a call's line, as it is listed
TAGS_SHOWN = (b"35", b"11", b"41", b"54", b"38", b"44", b"60", b"10")  # of a message: the fields that are read, and its checksum


def thousands(value: int) -> str:
    return f"{value:,}"


def counted(count: int, one: str, more: str = "") -> str:
    """A number with its noun."""
    return f"{count:,} {one if count == 1 else more or one + 's'}"


def roubles(kopecks: int) -> str:
    return f"{kopecks // 100:,} roubles {kopecks % 100:02} kopecks"


def place_text(place: Place) -> str:
    """A cell's place."""
    return f"day {place[0]}, {series_text(place[1:])}"


def series_text(series: Place) -> str:
    return "expiry {}, quantum {}".format(*series)


def spread_text(spread: Union[int, c.Strike]) -> str:
    """What a quantum's spread limit goes by."""
    if isinstance(spread, c.Strike):
        return f"strike: a {spread.a / 10:g}%, difference {spread.difference}, {spread.days} days, b {spread.b}"
    return f"SP {thousands(spread)}"


def time_of_day(start: Optional[str]) -> int:
    """The time of day of a quantum's start, in milliseconds; 0 where it is not known.

    >>> time_of_day("20261102-10:00:00.500"), time_of_day(None)
    (36000500, 0)
    """
    try:
        at = fix.moment(start or "")
    except ValueError:
        return 0
    return ((at.hour * 60 + at.minute) * 60 + at.second) * SECOND + at.microsecond // 1000


def call_text(block: bytes) -> str:
    """A call's line; of a message the fields of `TAGS_SHOWN`."""
    call = c.call_of(block)
    if not isinstance(call, c.Message):
        return texts.block_line(block)
    fields = [texts.message_text(each) for each in call.bytes.split(fix.END) if each.split(b"=")[0] in TAGS_SHOWN]
    return " ".join(["message", *fields])


def brief(text: str) -> str:
    """A call's line, shortened where it is long."""
    return text if len(text) <= MOST_CHARACTERS else text[:MOST_CHARACTERS] + " .."
