"""The calls that need no month: the weight, the choice of a row, boards, sigmas, volatile days, the eased row, safe minutes.

>>> weight(7, 10, "60%")
Traceback (most recent call last):
quoting.native.Refused: refused 2: a word of the row is outside its range
>>> weight("6:07:30", "8:45:00", "60%")
10312
>>> safe_minutes(8, 3, 7)
2
"""

from typing import Iterable, Optional, Sequence

from quoting import native, ranges
from quoting.ranges import word
from quoting.rows import Row
from quoting.values import Share, Time, tenths, time_of


def weight(kept: Time, length: Time, share: Share) -> int:
    """The weight of a quantum by its share alone: 0 where it is failed, else 10,000 to 20,000."""
    return native.call("quoting_weight", time_of(kept, "kept"), time_of(length, "length"), tenths(share))


def choose_row(usual: Iterable[Row], holiday: Iterable[Row], is_holiday: bool, expiry: int, quantum: int) -> Optional[Row]:
    """The row for an expiry and a quantum: on a holiday the first fitting one of the holiday table, else of the usual one.

    >>> evening = Row(1, 2, "4:50:00", 1000, 150, 3, "60%")
    >>> choose_row([evening], [], False, 1, 2) == evening, choose_row([evening], [], True, 2, 2)
    (True, None)
    """
    tables = [ranges.words([each for row in table for each in row.words], name) for table, name in ((usual, "usual"), (holiday, "holiday"))]
    found = native.words(7)
    lent = [part for table in tables for part in (table, len(table) // 4)]
    asked = int(bool(is_holiday)), word(expiry, "expiry"), word(quantum, "quantum")
    count = native.call("quoting_choose_row", *lent, *asked, found, 7)
    return Row.of_words(list(found)) if count else None


def both_times(strike: tuple[Time, Time], name: str) -> tuple[int, int]:
    """K and L of a strike of a board."""
    try:
        kept, length = strike
    except (TypeError, ValueError):
        raise ranges.type_error(strike, name, "a pair of K and L") from None
    return time_of(kept, f"K of {name}"), time_of(length, f"L of {name}")


def board(strikes: Sequence[tuple[Time, Time]], first: int, second: int) -> bool:
    """Whether a board of strikes, each with K and L, is met: each strike has the first share in percent, all together the second.

    >>> board([("5:00:00", "8:45:00"), ("6:00:00", "8:45:00")], first=55, second=60)
    True
    """
    times = [time for at, strike in enumerate(strikes) for time in both_times(strike, f"strikes[{at}]")]
    return native.call("quoting_board", ranges.words(times, "strikes"), len(times) // 2, word(first, "first"), word(second, "second")) == 1


def sigma(prices: Sequence[int]) -> Optional[int]:
    """The sigma of the last settlement price's day, in millionths; None where it has none: under four prices, or where one of its three
    changes is from a price of zero or beyond 1,000,000 millionths.

    >>> sigma([7450, 7412, 7429, 7482]), sigma([7450, 7412, 7429])
    (6161, None)
    """
    last, found = prices[-4:], native.words(1)
    count = native.call("quoting_sigma", ranges.signed_words(last, "prices"), len(last), found, 1)
    return int(found[0]) if count else None


def volatile_day(prices: Sequence[int], threshold: int) -> bool:
    """Whether the day after the last settlement price is inside a disturbed period; the threshold is in millionths.

    >>> volatile_day([7450, 7412, 7429, 7482], threshold=15_000)
    False
    """
    given = ranges.signed_words(prices, "prices")
    return native.call("quoting_volatile", given, len(given) // 4, word(threshold, "threshold")) == 1


def ease(row: Row, prices: Sequence[int], threshold: int, is_strike: bool = False) -> Row:
    """The row of the day after the last price: eased inside a disturbed period, as it is outside."""
    words, given = native.words_of(ranges.words(row.words, "row")), ranges.signed_words(prices, "prices")
    native.call("quoting_ease", words, 7, int(bool(is_strike)), given, len(given) // 4, word(threshold, "threshold"))
    return Row.of_words(list(words))


def safe_minutes(minutes: int, doubles: int, knocks: int) -> int:
    """The minutes that a maker can force to stay unvoided."""
    return native.call("quoting_safe_minutes", word(minutes, "minutes"), word(doubles, "doubles"), word(knocks, "knocks"))
