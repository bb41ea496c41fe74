"""Values of many messages at once, a tag's column at a time: numbers, prices in whole steps, times.

Eight bytes are one number of 64 bits, the first byte low. A value's digits are read from its end, so that the units are always at the
same place; bytes before it are masked. What cannot be read here is marked, and `quoting.exchange.fields` reads it again.
"""

from decimal import Decimal
from typing import Any

import numpy as np

from quoting.exchange.fields import DAY, day_of

Array = Any
U = np.uint64
ZEROS = U(0x3030303030303030)
HIGHS = U(0x8080808080808080)
TO_HIGH = U(0x7676767676767676)  # a byte above 9 gets its highest bit
LONG = 64  # bytes of a value, at most, by which the tables below are looked up
BACK = np.array([(1 << 64) - (1 << 64 - 8 * min(n, 8)) for n in range(LONG + 1)], dtype=U)  # the last n bytes of eight
FILLED = ZEROS & ~BACK  # digits 0 in place of the others
TENS = np.array([10**n for n in range(20)], dtype=U)
MOST_DECIMALS = 7


def windows(data: Array) -> Array:
    """The eight bytes from each byte on. Index it with an array; `take` would copy all of them."""
    return np.ndarray((data.size - 7,), dtype="<u8", buffer=data, strides=(1,))


def eight(words: Array) -> tuple[Array, Array]:
    """The number of eight digits, and whether they are digits."""
    x = words ^ ZEROS
    good = (x | (x + TO_HIGH)) & HIGHS == 0
    x = x * U(10) + (x >> U(8))
    x = (x & U(0xFF000000FF)) * U(100 + (1000000 << 32)) + ((x >> U(16)) & U(0xFF000000FF)) * U(1 + (10000 << 32))
    return x >> U(32), good


def last_digits(seen: Array, end: Array, count: Array) -> tuple[Array, Array]:
    """The number of the last digits before a byte, of at most eight of so many."""
    return eight((seen[end - 8] & BACK[count]) | FILLED[count])


def number(seen: Array, begin: Array, count: Array) -> tuple[Array, Array]:
    """The number of the digits from a byte on, and whether they are at most 16 digits. No digits are 0."""
    end, most = begin + count, int(count.max()) if count.size else 0
    value, good = last_digits(seen, end, count if most <= LONG else np.minimum(count, LONG))
    if most > 8:
        high, fine = last_digits(seen, end - 8, np.minimum(np.maximum(count - 8, 0), 8))
        value, good = value + high * TENS[8], good & fine & (count <= 16)
    return value, good


def point(seen: Array, end: Array, count: Array) -> tuple[Array, Array]:
    """Whether there is a point among the last eight bytes of a value, and how many digits follow it."""
    x = (seen[end - 8] ^ U(0x2E2E2E2E2E2E2E2E)) | ~BACK[np.minimum(count, 8)]
    hit = (x - U(0x0101010101010101)) & ~x & HIGHS
    hit &= ~hit + U(1)  # the first one; the bits above it may be wrong
    place = ((hit >> U(7)) * U(0x0001020304050607)) >> U(56)
    there = hit != 0
    return there, np.where(there, 7 - place.astype(np.int64), 0)


def factors(step: Decimal) -> tuple[list[int], list[int]]:
    """For each number of decimals, 0 to 7: a price's digits times the first, by the second, are its steps. 0 and 1 where the step is too
    large or too fine for that."""
    _, digits, exponent = step.normalize().as_tuple()
    whole, places = int("".join(map(str, digits))) * 10 ** max(int(exponent), 0), max(-int(exponent), 0)
    if places > MOST_DECIMALS or whole >= 10**9:
        return [0] * 8, [1] * 8
    return [10 ** max(places - d, 0) for d in range(8)], [whole * 10 ** max(d - places, 0) for d in range(8)]


class Steps:
    """The factors of each owner's price step."""

    def __init__(self) -> None:
        self.times, self.by = np.zeros(0, dtype=U), np.zeros(0, dtype=U)

    def learn(self, steps: list[Decimal]) -> None:
        """The steps of all owners that are known by now."""
        if len(steps) * 8 != self.times.size:
            pairs = [factors(step) for step in steps]
            self.times = np.array([times for times, _ in pairs], dtype=U).ravel()
            self.by = np.array([by for _, by in pairs], dtype=U).ravel()

    def steps(self, digits: Array, decimals: Array, owner: Array) -> tuple[Array, Array]:
        """Whole steps, and whether that is exact."""
        row = owner * 8 + decimals
        times, by = self.times[row], self.by[row]
        wide = digits * times
        good = times != 0
        if (by == 1).all():
            whole = wide
        else:
            whole = wide // by
            good &= whole * by == wide
        return whole.astype(np.int64), good & (whole < U(1 << 31))


def prices(data: Array, seen: Array, begin: Array, count: Array, steps: Steps, owner: Array) -> tuple[Array, Array]:
    """Prices in whole steps, and whether each could be read and is a whole number of steps."""
    minus = data[begin] == 45
    is_signed = minus.any()
    if is_signed:
        begin, count = begin + minus, count - minus
    there, decimals = point(seen, begin + count, count)
    if count.size and count.max() <= 8:
        whole, good = short_price(seen, begin + count, count, there, decimals)
        digits = whole
    elif there.any():
        whole, good = number(seen, begin, np.maximum(count - decimals - there, 0))
        part, fine = number(seen, begin + count - decimals, decimals)
        good &= fine & (count > there)
        digits = whole * TENS[decimals] + part
    else:
        whole, good = number(seen, begin, count)
        good &= count > 0
        digits = whole
    found, exact = steps.steps(digits, decimals, owner)
    good &= exact & (whole < TENS[10])  # so that nothing above went past 64 bits
    return np.where(minus, -found, found) if is_signed else found, good


def short_price(seen: Array, end: Array, count: Array, there: Array, decimals: Array) -> tuple[Array, Array]:
    """The number of all digits of at most eight bytes with a point among them, and whether they are digits, at least one. The digits before
    the point are moved one byte on, over it."""
    word, digits = seen[end - 8], count - there
    after, before = BACK[decimals], BACK[count] & ~BACK[decimals + there]
    value, good = eight((word & after) | ((word & before) << (there.astype(U) << U(3))) | FILLED[digits])
    return value, good & (digits > 0)


def days_of(dates: Array) -> tuple[Array, Array]:
    """Days since 1970 by eight bytes YYYYMMDD, and whether there is such a day; one of each where all are the same, as most often."""
    if dates.size and (dates == dates[0]).all():
        text = int(dates[0]).to_bytes(8, "little")
        day = day_of(text) if text.isdigit() else None
        return np.int64(day or 0), np.bool_(day is not None)
    kinds, each = np.unique(dates, return_inverse=True)
    texts = [int(word).to_bytes(8, "little") for word in kinds]
    found = [day_of(text) if text.isdigit() else None for text in texts]
    days = np.array([day or 0 for day in found] or [0], dtype=np.int64)
    known = np.array([day is not None for day in found] or [False])
    return days[each], known[each]


def three_digits(words: Array) -> tuple[Array, Array]:
    """The number of the first three bytes, and whether they are digits."""
    x = (words & U(0xFFFFFF)) - U(0x303030)
    good = (x | (x + U(0x767676))) & U(0x808080) == 0
    return (x & U(15)) * U(100) + ((x >> U(8)) & U(15)) * U(10) + ((x >> U(16)) & U(15)), good


def clocks(seen: Array, begin: Array, count: Array) -> tuple[Array, Array]:
    """Milliseconds of HH:MM:SS with 0, 3, 6 or 9 decimals, of which three count; and whether they can be read."""
    clock = seen[begin] - U(0x30303A30303A3030)  # 00:00:00
    good = (clock | (clock + U(0x76767F76767F7676))) & HIGHS == 0
    pairs = clock * U(10) + (clock >> U(8))
    hour, minute, second = pairs & U(255), (pairs >> U(24)) & U(255), (pairs >> U(48)) & U(255)
    good &= (hour < 24) & (minute < 60) & (second < 60)
    decimals = count - 9
    has_point = seen[begin + 8] & U(255) == 46
    thousandths, fine = three_digits(seen[begin + 9])
    good &= (count == 8) | (has_point & fine & ((decimals == 3) | (decimals == 6) | (decimals == 9)))
    if count.size and count.max() > 12:
        good &= ((decimals < 6) | three_digits(seen[begin + 12])[1]) & ((decimals < 9) | three_digits(seen[begin + 15])[1])
    thousandths = np.where(count == 8, U(0), thousandths)
    return (((hour * U(60) + minute) * U(60) + second) * U(1000) + thousandths).astype(np.int64), good


def times(seen: Array, begin: Array, count: Array) -> tuple[Array, Array]:
    """Milliseconds since 1970 by YYYYMMDD-HH:MM:SS with 0, 3, 6 or 9 decimals, and whether they can be read."""
    days, good = days_of(seen[begin])
    clock, fine = clocks(seen, begin + 9, count - 9)
    return days * DAY + clock, good & fine & (seen[begin + 8] & U(255) == 45)
