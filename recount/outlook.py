"""Whether the maker may rest: the outlook on an open quantum, by trying what may follow.

A way to go on is the kept stretches of the whole quantum: those before the present time as they are,
after it any others. Each way that is tried is checked as the cell that a close would leave.
"""

from bisect import bisect_left
from collections.abc import Callable, Iterator
from itertools import product
from typing import NamedTuple

Pairs = list[tuple[int, int]]

FEW = 8  # with no more milliseconds left, every way to go on is tried
SOME = 200  # with no more, every time is tried; else they are halved


class Judged(NamedTuple):
    met: bool
    weight: int


class OutlookView(NamedTuple):
    need: int
    left: int
    by: int | None
    full: int | None
    lapses: int | str  # how many more, or `none` for no limit, or `over`
    rest: bool
    lost: bool
    weight_rest: int
    weight_keep: int


class Ahead(NamedTuple):
    """The open quantum: its kept stretches before the present time, that time, its length, and whether
    anything can be kept; what a cell with these kept stretches is, and whether that much is enough,
    for the required share and for the full weight."""

    past: Pairs
    now: int
    length: int
    can_keep: bool
    judge: Callable[[Pairs], Judged]
    enough: Callable[[int], bool]
    full: Callable[[int], bool]


def followed(past: Pairs, more: Pairs) -> Pairs:
    """The stretches and more after them, joined where they touch."""
    pairs = list(past)
    for start, length in more:
        if pairs and sum(pairs[-1]) == start:
            pairs[-1] = (pairs[-1][0], pairs[-1][1] + length)
        elif length:
            pairs.append((start, length))
    return pairs


def every_way(ahead: Ahead) -> Iterator[Pairs]:
    """Every choice of the milliseconds that are left; where nothing can be kept, none of them."""
    left = ahead.length - ahead.now if ahead.can_keep else 0
    for chosen in product((False, True), repeat=left):
        yield [(ahead.now + at, 1) for at, is_kept in enumerate(chosen) if is_kept]


def rests_until(ahead: Ahead, time: int) -> Judged:
    """Nothing is kept until that time, and everything from it on."""
    return ahead.judge(followed(ahead.past, [(time, ahead.length - time)]))


def latest(ahead: Ahead) -> int | None:
    """The latest time until which the maker may rest."""
    if not ahead.can_keep:
        return ahead.length if rests_until(ahead, ahead.length).met else None
    times = range(ahead.now, ahead.length + 1)
    if len(times) <= SOME:
        return max((time for time in times if rests_until(ahead, time).met), default=None)
    # the later, the less is kept; and to wait longer is no other lapse than to wait at all
    failed = bisect_left(times, True, key=lambda time: not rests_until(ahead, time).met)
    return times[failed - 1] if failed else None


def is_lost(ahead: Ahead) -> bool:
    if ahead.length - ahead.now <= FEW:
        return not any(ahead.judge(followed(ahead.past, way)).met for way in every_way(ahead))
    return latest(ahead) is None


def more_needed(ahead: Ahead, enough: Callable[[int], bool]) -> int:
    """The least number of further milliseconds with which enough is kept."""
    kept = sum(length for _, length in ahead.past)
    return bisect_left(range(ahead.length + 1), True, key=lambda more: enough(kept + more))


def outlook(ahead: Ahead, limit: int | None, lapses: int) -> OutlookView:
    """By the lapse limit, None for no limit, and the lapses so far."""
    left, is_over = ahead.length - ahead.now, limit is not None and lapses > limit
    full = more_needed(ahead, ahead.full)
    rests = rests_until(ahead, ahead.length)
    keeps = rests_until(ahead, ahead.now) if ahead.can_keep else rests
    return OutlookView(
        need=more_needed(ahead, ahead.enough),
        left=left,
        by=latest(ahead),
        full=None if full > left or is_over or (full > 0 and not ahead.can_keep) else full,
        lapses="none" if limit is None else "over" if is_over else limit - lapses,
        rest=rests.met,
        lost=is_lost(ahead),
        weight_rest=rests.weight,
        weight_keep=keeps.weight,
    )
