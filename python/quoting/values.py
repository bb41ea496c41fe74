"""Numbers, times and shares, as they are written in texts and given in Python.

A number may have underscores. A time is milliseconds, or h:mm:ss with or without thousandths. A share needs its unit, since 60 was
60% before the share was counted in tenths of a percent and would be 6% now.

>>> milliseconds("8:45:00"), milliseconds("0:00:01.500"), milliseconds(6000)
(31500000, 1500, 6000)
>>> tenths("72.5%"), tenths("600 tenths"), share_text(Tenths(725))
(Tenths(725), Tenths(600), '72.5%')
>>> tenths("60")
Traceback (most recent call last):
ValueError: 60 has no unit: write 60% (600 tenths of a percent) or 60 tenths (6%)
"""

import re
from decimal import Decimal
from fractions import Fraction
from typing import Union

from quoting import ranges

Span = ranges.Span
WORD, SIGNED, LONG = ranges.WORD, ranges.SIGNED, ranges.LONG

SECOND, MINUTE, HOUR = 1_000, 60_000, 3_600_000

NUMBER = re.compile(r"-?[0-9]+(_[0-9]+)*")
CLOCK = re.compile(r"([0-9]{1,12}):([0-5][0-9]):([0-5][0-9])(?:\.([0-9]{3}))?")
PERCENT = re.compile(r"([0-9]+(?:_[0-9]+)*)(?:\.([0-9]))?%")
DECIMAL = re.compile(r"-?[0-9]+(_[0-9]+)*(\.[0-9]+)?")
MOST_DIGITS = 40  # more than any number here can have


class Tenths(int):
    """A share in tenths of a percent: Tenths(725) is 72.5%."""

    def __repr__(self) -> str:
        return f"Tenths({int(self)})"

    def __str__(self) -> str:
        return str(int(self))


Time = Union[int, str]
Share = Union[Tenths, str]


def brief(word: str) -> str:
    """A word as a message shows it: a long one by its two ends."""
    return word if len(word) <= MOST_DIGITS else f"{word[:16]}..{word[-8:]} ({len(word)} characters)"


def whole(word: str, span: Span) -> int:
    """A whole number within a span; a ValueError says what is wrong with it.

    >>> whole("10_000", WORD)
    10000
    """
    low, high = span
    if not NUMBER.fullmatch(word):
        raise ValueError(f"{brief(word)!r} is not a number")
    digits = word.lstrip("-").replace("_", "").lstrip("0") or "0"
    value = int(digits) if len(digits) <= MOST_DIGITS else high + abs(low) + 1
    value = -value if word.startswith("-") else value
    if not low <= value <= high:
        raise ValueError(f"{brief(word)} is out of range, it can be {low} to {high}")
    return value


def milliseconds(value: Time) -> int:
    """A time in milliseconds.

    >>> milliseconds(-1)
    Traceback (most recent call last):
    ValueError: time is -1, it must be 0 to 4294967295
    """
    return time_in(value) if isinstance(value, str) else time_of(value, "time")


def time_in(text: str) -> int:
    """The milliseconds of a time in a text."""
    parts = CLOCK.fullmatch(text)
    if parts is None and ":" in text:
        raise ValueError(f"{brief(text)!r} is not a time h:mm:ss")
    if parts is None:
        return whole(text, WORD)
    h, m, s, ms = (int(part or 0) for part in parts.groups())
    return whole(str(((h * 60 + m) * 60 + s) * SECOND + ms), WORD)


def time_of(value: Time, name: str) -> int:
    """The milliseconds of a time that is given by this name; an error says the name.

    >>> time_of("8:99:00", "t")
    Traceback (most recent call last):
    ValueError: t: '8:99:00' is not a time h:mm:ss
    """
    if type(value) is int and 0 <= value <= ranges.MOST_WORD:
        return value
    if not isinstance(value, str):
        return ranges.number(value, WORD, name, "a time: milliseconds or a text h:mm:ss")
    try:
        return time_in(value)
    except ValueError as error:
        raise ValueError(f"{name}: {error}") from None


def bare_share(word: str) -> str:
    """A message about a share without its unit, with both readings of it."""
    value = whole(word, WORD)
    return f"{word} has no unit: write {value}% ({10 * value} tenths of a percent) or {value} tenths ({share_text(Tenths(value))})"


def tenths(value: Share, name: str = "share") -> Tenths:
    """A share in tenths of a percent."""
    if isinstance(value, Tenths):
        return Tenths(ranges.word(int(value), name))
    if not isinstance(value, str):
        raise ValueError(bare_share(str(ranges.number(value, WORD, name, "a share like '60%' or '600 tenths'"))))
    first, _, unit = value.strip().partition(" ")
    if unit.strip() == "tenths":
        return Tenths(whole(first, WORD))
    parts = PERCENT.fullmatch(value)
    if parts is None and "%" in value:
        raise ValueError(f"{brief(value)!r} is not a percentage with at most one decimal")
    if parts is None:
        raise ValueError(bare_share(value))
    return Tenths(whole(parts[1] + (parts[2] or "0"), WORD))


def clock(ms: int) -> str:
    """h:mm:ss, with thousandths where there are any.

    >>> clock(31_500_000), clock(250)
    ('8:45:00', '0:00:00.250')
    """
    seconds, rest = divmod(ms, SECOND)
    shown = f"{seconds // 3600}:{seconds // 60 % 60:02}:{seconds % 60:02}"
    return f"{shown}.{rest:03}" if rest else shown


def share_text(share: int) -> str:
    """Tenths of a percent as a percentage: 60%, 72.5%."""
    return f"{share // 10}.{share % 10}%" if share % 10 else f"{share // 10}%"


def part_text(kept: int, length: int) -> str:
    """A part of a length in percent, rounded down to hundredths, so that a part below a share never shows as that share.

    >>> part_text(17_324_999, 31_500_000)
    '54.99%'
    """
    hundredths = 10_000 * kept // length
    return f"{hundredths // 100}.{hundredths % 100:02}%"


def steps(word: str, step: Union[Decimal, None]) -> int:
    """A price in whole steps; with a step of, say, 0.01 it is written as a decimal, and must be on a step.

    >>> steps("84.52", Decimal("0.01"))
    8452
    """
    if step is None:
        return whole(word, SIGNED)
    if not DECIMAL.fullmatch(word) or len(word) > MOST_DIGITS:
        raise ValueError(f"{brief(word)!r} is not a price")
    count = Fraction(word.replace("_", "")) / Fraction(step)
    if count.denominator != 1:
        raise ValueError(f"{word} is between two steps of {step}")
    return whole(str(count.numerator), SIGNED)
