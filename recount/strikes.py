"""Request W4, strikes: what open takes of one in place of SP, its spread limit, and the board.

The limit is found by comparing squares of fractions, a board is checked by shares as fractions.
"""

from collections import namedtuple
from fractions import Fraction
from functools import lru_cache

MOST_STRIKES = 32
LENGTHS = range(1_000, 86_400_001, 1_000)  # of a row
SHARES = range(1, 101)
PROBE_WORDS = 128

# a in tenths, the difference of two premiums in steps, days to the expiry, b in steps.
Strike = namedtuple("Strike", "a difference days b")


def strike_fits(strike):
    return (
        0 <= strike.a <= 200
        and 0 <= strike.difference <= 100_000
        and 0 <= strike.days <= 365
        and 0 <= strike.b <= 1_000_000
    )


# ---------------------------------------------------------------- the spread limit


def unrounded_square(strike):
    """The square of max{a × difference × root of (days / 365); b}."""
    rooted = (Fraction(strike.a, 10) * strike.difference) ** 2 * Fraction(strike.days, 365)
    return max(rooted, Fraction(strike.b) ** 2)


@lru_cache(maxsize=10_000)
def strike_limit(strike):
    """That maximum rounded to the nearest step, half upwards: the greatest n with n - 1/2 at most it."""
    square = unrounded_square(strike)
    low, high = 0, 2_000_001  # 0 is never too much, 20 × 100,000 + 1 always
    while high - low > 1:
        middle = (low + high) // 2
        if (middle - Fraction(1, 2)) ** 2 <= square:
            low = middle
        else:
            high = middle
    return low


# ---------------------------------------------------------------- the board


def board_fits(first, second, strikes):
    """`strikes` are pairs of K and L."""
    return (
        first in SHARES
        and second in SHARES
        and 1 <= len(strikes) <= MOST_STRIKES
        and len({length for _, length in strikes}) == 1
        and all(length in LENGTHS and 0 <= kept <= length for kept, length in strikes)
    )


def board(first, second, strikes):
    """`met` or `failed`, or 18."""
    if not board_fits(first, second, strikes):
        return 18
    kept = [Fraction(k, length) for k, length in strikes]
    each = all(share >= Fraction(first, 100) for share in kept)
    together = sum(kept) / len(kept) >= Fraction(second, 100)
    return "met" if each and together else "failed"


def probe(words, data):
    """`4 first second n`, then n words, K and L in turn; an odd number of them is no board."""
    if len(words) < 4 or words[3] > PROBE_WORDS or len(data) != 4 * (4 + words[3]):
        return None
    _, first, second, n, *rest = words
    answer = 18 if n % 2 else board(first, second, list(zip(rest[::2], rest[1::2])))
    return ["refused 18" if answer == 18 else f"board {answer}"]


# ---------------------------------------------------------------- a second way, which the tests compare


def within_by_squares(strike, gap):
    """Whether a spread of 1 or more is within the limit: by whole numbers, with no rounding."""
    rooted = strike.a**2 * strike.difference**2 * strike.days
    return gap <= strike.b or (2 * gap - 1) ** 2 * 9_125 <= rooted


def met_by_products(first, second, strikes):
    """The request's two inequalities, on whole numbers."""
    length = strikes[0][1]
    return all(100 * kept >= first * length for kept, _ in strikes) and (
        100 * sum(kept for kept, _ in strikes) >= second * length * len(strikes)
    )
