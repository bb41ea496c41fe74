"""The course of the open quantum: which state held when, as the library's states change at events.

Of several events at one time the last one counts, and a state that lasted no millisecond leaves no trace. What is kept of it does not
grow with the number of events: at most 1,500 parts of the quantum's time, and the newest stretches.

>>> course = Course(10_000)
>>> course.note(2_000, State.KEPT, 99, 103)
>>> course.note(5_000, State.NO_ASK, 99, None)
>>> course.at(6_000).totals, course.at(6_000).lapses, course.since
((3000, 0, 1000, 2000, 0, 0), 2, 5000)
>>> [(each.offset, each.end, each.state.word) for each in course.at(6_000).stretches]
[(5000, 6000, 'no-ask'), (2000, 5000, 'kept'), (0, 2000, 'neither')]
"""

from collections import deque
from dataclasses import dataclass
from typing import Optional

from quoting.states import State, Stretch

MOST_PARTS = 1_500
NEWEST = 60

Part = list[Optional[int]]  # number; lowest, highest and last best bid; the same of the ask; milliseconds of each state
BID, ASK, TIMES = 1, 4, 7


@dataclass(frozen=True)
class Seen:
    """The course up to a moment: each state's milliseconds, lapses, whether a lapse goes on (the millisecond before the moment was not
    kept), the newest stretches, the newest first, and how many there were before them."""

    totals: tuple[int, ...]
    lapses: int
    going: bool
    stretches: list[Stretch]
    earlier: int


class Course:
    """The course of a quantum of that length, noted event by event."""

    def __init__(self, length: int) -> None:
        self.length, self.width = length, max(1, -(-length // MOST_PARTS))
        self.time, self.state, self.since = 0, State.NEITHER, 0  # of the last event; from then on; since when
        self.bid: Optional[int] = None
        self.ask: Optional[int] = None
        self.parts: list[Part] = []  # up to the last event, without a gap
        self._totals, self._lapses, self._going = [0] * len(State), 0, False
        self._ended: deque[Stretch] = deque(maxlen=NEWEST)
        self._count = 0

    def note(self, time: int, state: State, bid: Optional[int], ask: Optional[int]) -> None:
        """The state and the best quotes from an event's time on."""
        if time > self.time:
            self._pass(time)
        if state != self.state:
            self._change(state)
        self.bid, self.ask = bid, ask

    def _pass(self, time: int) -> None:
        at, state, width = self.time, self.state, self.width
        self._totals[state] += time - at
        self._lapses += state != State.KEPT and not self._going
        self._going, self.time = state != State.KEPT, time
        first, last = at // width, time // width
        if first == last:
            self._fill(first, time - at)
            return
        self._fill(first, (first + 1) * width - at)
        if last > first + 1:  # whole parts in which nothing happened
            quiet = [*[self.bid] * 3, *[self.ask] * 3, *(width if each == state else 0 for each in State)]
            self.parts += [[number, *quiet] for number in range(first + 1, last)]
        if time > last * width:
            self._fill(last, time - last * width)

    def _fill(self, number: int, time: int) -> None:
        """Adds the state and the quotes that lasted so long within a part."""
        if number == len(self.parts):
            self.parts.append([number, *[None] * 6, *[0] * len(State)])
        part = self.parts[number]
        saw(part, BID, self.bid)
        saw(part, ASK, self.ask)
        part[TIMES + self.state] = (part[TIMES + self.state] or 0) + time

    def _change(self, state: State) -> None:
        """The state is another one from the last event's time on."""
        if self.since < self.time:
            self._ended.append(Stretch(self.since, self.time - self.since, self.state))
            self._count += 1
            self.since = self.time
        elif self._ended and self._ended[-1].state == state:  # it was away for no time
            self.since = self._ended.pop().offset
            self._count -= 1
        self.state = state

    def at(self, now: int) -> Seen:
        """The course up to a moment that is not before the last event."""
        totals = list(self._totals)
        totals[self.state] += now - self.time
        lost, later = self.state != State.KEPT, now > self.time
        running = [Stretch(self.since, now - self.since, self.state)] if now > self.since else []
        shown = [*running, *reversed(self._ended)][:NEWEST]
        return Seen(
            tuple(totals), self._lapses + (later and lost and not self._going), lost if later else self._going, shown,
            self._count + len(running) - len(shown))


def saw(part: Part, at: int, price: Optional[int]) -> None:
    """A best quote that lasted within a part."""
    part[at + 2] = price
    if price is None:
        return
    low, high = part[at], part[at + 1]
    part[at] = price if low is None or price < low else low
    part[at + 1] = price if high is None or price > high else high
