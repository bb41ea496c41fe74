"""Request W12, recounted by fractions and whole lists: volatile days, and the row eased on them."""

from fractions import Fraction
from math import floor, isqrt

from recount.book import Row, row_fits

PROBE_PRICES = 4_096
PROBE_ROW = 16
MILLION = 1_000_000
MOST_A, MOST_B = 100_000, 1_000_000
DAYS = 30  # whose sigmas give the average


class Refused22(Exception):
    """A cause of refusal 22."""


# ---------------------------------------------------------------- sigmas


def change(previous, price):
    """R, in millionths."""
    if previous == 0:
        raise Refused22("a previous price of zero")
    r = int(Fraction((price - previous) * MILLION, abs(previous)))  # rounds toward zero
    if abs(r) > MILLION:
        raise Refused22("an R beyond 1,000,000")
    return r


def changes(prices):
    return [change(p, q) for p, q in zip(prices, prices[1:])]


def sigma(three):
    """The sum of (3R - S)² over 18 is the variance of three R, with 2 as its divisor."""
    mean = Fraction(sum(three), 3)
    return isqrt(floor(sum((r - mean) ** 2 for r in three) / 2))


def sigmas(prices):
    """Of the days from the fourth price on."""
    rs = changes(prices)
    return [sigma(rs[i - 2 : i + 1]) for i in range(2, len(rs))]


def last_sigma(prices):
    """Of the last price's day; None under four prices, or where one of its three R has a cause of 22."""
    try:
        return sigmas(prices[-4:])[0] if len(prices) >= 4 else None
    except Refused22:
        return None


# ---------------------------------------------------------------- periods


def periods(found, threshold):
    """(first, last) of each period, days counted by the sigmas before them; last is None where it
    has not come yet."""
    out, day = [], 0
    while day < len(found):
        if found[day] < threshold:
            day += 1
            continue
        first = day + 1
        if first < DAYS:
            raise Refused22("fewer than 30 earlier sigmas")
        average = floor(Fraction(sum(found[first - DAYS : first]), DAYS))
        later = [e for e in range(first + 1, len(found)) if found[e] <= average]
        if not later:
            return [*out, (first, None)]
        out.append((first, later[0]))
        day = later[0] + 1
    return out


def inside(prices, threshold):
    """Whether the day after the last price is inside a period; raises Refused22."""
    found = sigmas(prices)
    return any(last is None for _, last in periods(found, threshold))


def answer(prices, threshold):
    try:
        return "inside yes" if inside(prices, threshold) else "inside no"
    except Refused22:
        return "refused 22"


# ---------------------------------------------------------------- the row


def eased(words: list[int], is_strike: bool = False) -> list[int]:
    """The row's words inside a period, for an open by SP or for a strike's, whose a and b are unread and
    stay; words that 1 or 2 refuses at that open stay as they are."""
    if len(words) != 7:
        return list(words)
    row = Row(*words)
    if not row_fits(row._replace(a=0, b=0) if is_strike else row):
        return list(words)
    row = row._replace(least=-(-row.least // 2))
    if not is_strike:
        row = row._replace(a=min(2 * row.a, MOST_A), b=min(2 * row.b, MOST_B))
    return list(row)


# ---------------------------------------------------------------- probe


def signed(word):
    return word - (1 << 32) if word >> 31 else word


def days(prices, threshold):
    """A line for each price's day, and one for the day after the last."""
    for day in range(len(prices) + 1):
        line = f"day {day} {answer(prices[:day], threshold)}"
        if day < len(prices):
            own = last_sigma(prices[: day + 1])
            line += " sigma none" if own is None else f" sigma {own}"
        yield line


def row_line(words: list[int]) -> str:
    return " ".join(["row", *map(str, words)])


def probe_row(words: list[int], size: int) -> list[str] | None:
    """`6 m w1 .. wm` or `13 strike m w1 .. wm`, of so many bytes."""
    front = 3 if words[0] == 13 else 2
    if len(words) < front:
        return None
    strike, m = words[1] if words[0] == 13 else 0, words[front - 1]
    if strike > 1 or m > PROBE_ROW or size != 4 * (front + m):
        return None
    return [row_line(eased(words[front:], strike == 1))]


def probe_inside(words: list[int], size: int) -> list[str] | None:
    """`14 strike threshold n m p1 .. pn w1 .. wm`, of so many bytes."""
    if len(words) < 5:
        return None
    _, strike, threshold, n, m, *rest = words
    if strike > 1 or n > PROBE_PRICES or m > PROBE_ROW or size != 4 * (5 + n + m):
        return None
    said, row = answer([signed(word) for word in rest[:n]], threshold), rest[n:]
    return [said, row_line(eased(row, strike == 1) if said == "inside yes" else row)]


def probe(words: list[int], data: bytes) -> list[str] | None:
    """`5 threshold n p1 .. pn`, the same by 12, or one of the two above; None where it is none of them."""
    if words[0] in (6, 13):
        return probe_row(words, len(data))
    if words[0] == 14:
        return probe_inside(words, len(data))
    if len(words) < 3 or words[2] > PROBE_PRICES or len(data) != 4 * (3 + words[2]):
        return None
    prices = [signed(word) for word in words[3:]]
    return [answer(prices, words[1])] if words[0] == 5 else list(days(prices, words[1]))
