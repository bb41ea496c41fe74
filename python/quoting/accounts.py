"""Where the time of a session went: the account, stretches of one state each, and the milliseconds of each state."""

from dataclasses import dataclass
from typing import Any, Optional, Union

from quoting import native, ranges
from quoting.calls import Strike, strike_words
from quoting.events import SIZE
from quoting.rows import Rule
from quoting.sessions import Events, lent
from quoting.states import State, Stretch

FRONT = len(State) + 1  # words before the stretches: the states' milliseconds, the number of stretches


@dataclass(frozen=True)
class Account:
    """The milliseconds of each state, and the stretches in their order; together they are the quantum's length."""

    totals: dict[State, int]
    stretches: list[Stretch]

    def longest_lost(self, most: int = 10) -> list[Stretch]:
        """The longest stretches that were not kept, the earlier first of two of one length."""
        lost = [stretch for stretch in self.stretches if stretch.state != State.KEPT]
        return sorted(lost, key=lambda stretch: -stretch.length)[:most]


def spread_numbers(sp: int, strike: Optional[Strike]) -> list[int]:
    """What the spread limit goes by: whether by a strike, SP in two's complement, a strike's four numbers."""
    if strike is None:
        return [0, ranges.two_complement(sp, "sp"), 0, 0, 0, 0]
    return [1, 0, *strike_words(strike)]


def words(rule: Union[Rule, bytes], events: Events, strike: Optional[Strike] = None) -> Any:
    """The words that the library writes: the six states' milliseconds, the number of stretches, three words for each."""
    given = rule if isinstance(rule, Rule) else Rule.of_bytes(ranges.data(rule, "rule"))
    row, spread = ranges.words(given.row.words, "row"), spread_numbers(given.sp, strike)
    data, size, _alive = lent(events, given.head)
    most = FRONT + 3 * (-(-size // SIZE) + 1)  # n records make at most n + 1 stretches
    buffer = native.words(most)
    native.call("quoting_account", row, 7, *spread, data, size, buffer, most)
    return buffer


def totals(rule: Union[Rule, bytes], events: Events) -> dict[State, int]:
    """The milliseconds of each state alone."""
    return dict(zip(State, words(rule, events)))


def account(rule: Union[Rule, bytes], events: Events, strike: Optional[Strike] = None) -> Account:
    """The account of a session, with a strike in place of SP where one is given. Refused as `session` is, and by 18."""
    buffer = words(rule, events, strike)
    found = buffer[FRONT : FRONT + 3 * buffer[FRONT - 1]]
    stretches = [Stretch(offset, length, State(state)) for offset, length, state in zip(found[::3], found[1::3], found[2::3])]
    return Account(dict(zip(State, buffer)), stretches)
