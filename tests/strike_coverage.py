"""Strikes (document 02, W4): what a list of calls shows of them."""

from fractions import Fraction

from recount.book import Open, Row, Strike, row_fits
from recount.strikes import strike_limit, unrounded_square
from tests.generate import STRIKE_LIMITS
from tests.seen_quotes import seen_quotes

SPREADS = [
    f"a strike's spread {where} its limit, {why}"
    for where in ("at", "a step past")
    for why in ("half a step rounded upwards", "rounded upwards", "rounded downwards", "by b", "whole")
]
MUST_SHOW = [
    "an accepted strike",
    "an accepted strike with a row's a or b out of range",
    "a strike and an open by SP, both accepted",
    *(f"18 for a strike's {name} just past its range" for name in Strike._fields),
    *SPREADS,
]


def rounding(strike):
    """Which part of the limit's sentence decides it."""
    square, limit = unrounded_square(strike), strike_limit(strike)
    if square == strike.b**2:
        return "by b"
    if square == (limit - Fraction(1, 2)) ** 2:
        return "half a step rounded upwards"
    if square == limit**2:
        return "whole"
    return "rounded upwards" if square < limit**2 else "rounded downwards"


def spread_at_limit(row, sp, bid, ask):
    if isinstance(sp, Strike):
        past = ask - bid - strike_limit(sp)
        if past in (0, 1) and ask > bid:
            yield f"a strike's spread {('at', 'a step past')[past]} its limit, {rounding(sp)}"


def noted():
    """The set of those of SPREADS that the recount meets for a millisecond or more."""
    return seen_quotes(spread_at_limit)


def just_past(strike):
    """The numbers of a strike that are one past their range."""
    return [name for name, value, most in zip(strike._fields, strike, STRIKE_LIMITS) if value == most + 1]


def situations(calls, answers):
    """What the calls and their lines show, apart from the spreads."""
    accepted = set()
    for call, answer in zip(calls, answers):
        if not isinstance(call, Open):
            continue
        is_strike = isinstance(call.sp, Strike)
        if answer == "accepted":
            accepted.add(is_strike)
        if answer == "accepted" and is_strike:
            yield "an accepted strike"
            if not row_fits(Row(*call.words)):
                yield "an accepted strike with a row's a or b out of range"
        if answer == "refused 18":
            yield from (f"18 for a strike's {name} just past its range" for name in just_past(call.sp))
    if len(accepted) == 2:
        yield "a strike and an open by SP, both accepted"
