r"""Two readings of one quantum beside each other: where they differ, and what rested there.

A reading is a session, which the meter reads, or a list of kept stretches, such as an exchange's own figures.

>>> from quoting.events import Add, records
>>> mine = Reading.of_session("day.session", EXAMPLE.head + records([Add(0, 1, "buy", 99, 500), Add(0, 2, "sell", 101, 500), Cancel(6000, 1)]))
>>> theirs = Reading.of_list("theirs.csv", "start,end\n0:00:00,0:00:07.500\n", mine.length)
>>> found = Comparison(mine, theirs)
>>> found.differences, found.state_then
([Difference(start=6000, end=7500, is_first=False)], <State.NO_BID: 1>)
"""

import csv
from dataclasses import dataclass
from functools import cached_property
from io import StringIO
from typing import Optional

from quoting import reading
from quoting.accounts import account
from quoting.events import SIDES, Cancel, Event, Side, Tick, event_of, split
from quoting.months import Month
from quoting.rows import HEAD, Row, Rule
from quoting.sessions import session
from quoting.states import State, Stretch
from quoting.values import milliseconds
from quoting.views import LiveOrder, View

HEADER = ["start", "end"]
EXAMPLE = Rule(Row(1, 1, 10_000, 500, 100, 1, "60%"), sp=2000)
MISSING: dict[State, Side] = {State.NO_BID: "buy", State.NO_ASK: "sell"}  # the side that a state is about; the others are about both

Span = tuple[int, int]  # from a start to an end, in milliseconds


@dataclass(frozen=True)
class Reading:
    """The kept stretches of a quantum, in order, by a name; with the session that they come from, if any."""

    name: str
    kept: list[Span]
    length: int
    data: Optional[bytes] = None

    @property
    def total(self) -> int:
        return sum(end - start for start, end in self.kept)

    @property
    def rule(self) -> Optional[Rule]:
        return None if self.data is None else Rule.of_bytes(self.data[: HEAD.size])

    @classmethod
    def of_session(cls, name: str, data: bytes) -> "Reading":
        """By the meter. Raises `Refused` as a session run does."""
        done = session(data[: HEAD.size], data[HEAD.size :])
        return cls(name, [(offset, offset + count) for offset, count in done.pairs], done.length, data)

    @classmethod
    def of_list(cls, name: str, text: str, length: int, start: int = 0) -> "Reading":
        """From CSV with the columns start and end, in the quantum's time, or in that of a wall clock at whose time `start` it begins."""
        kept: list[Span] = []
        for line, words in enumerate(csv.reader(StringIO(text)), start=1):
            if not words or line == 1 and [word.strip() for word in words] == HEADER:
                continue
            if len(words) != 2:
                raise reading.failed(f"expected two times, start and end, and there are {len(words)} columns", name, line)
            span = times_of(name, line, words, start)
            check_span(name, line, span, kept[-1][1] if kept else 0, length)
            kept.append(span)
        return cls(name, joined(kept), length)


def times_of(name: str, line: int, words: list[str], start: int) -> Span:
    try:
        return reading.time(words[0].strip(), "start", start), reading.time(words[1].strip(), "end", start)
    except reading.TextError as error:
        error.file, error.line = name, line
        raise


def check_span(name: str, line: int, span: Span, last: int, length: int) -> None:
    """Stretches are in order, do not overlap, and lie inside the quantum."""
    start, end = span
    if start >= end:
        raise reading.failed("expected a start before the end", name, line)
    if start < last:
        raise reading.failed("it starts before the stretch of the line before ends", name, line)
    if end > length:
        raise reading.failed("it ends after the quantum does", name, line)


def joined(spans: list[Span]) -> list[Span]:
    """Stretches that touch are one.

    >>> joined([(0, 5), (5, 7), (8, 9)])
    [(0, 7), (8, 9)]
    """
    found: list[Span] = []
    for start, end in spans:
        if found and found[-1][1] == start:
            found[-1] = (found[-1][0], end)
        else:
            found.append((start, end))
    return found


def is_list(data: bytes) -> bool:
    """Whether a file's first line is that of a list of kept stretches."""
    first = data.lstrip(b"\xef\xbb\xbf").split(b"\n", 1)[0]
    return [word.strip() for word in first.decode("latin-1").split(",")] == HEADER


@dataclass(frozen=True)
class Difference:
    """A stretch that one of the two readings counts as kept: the first one, or the second."""

    start: int
    end: int
    is_first: bool


@dataclass(frozen=True)
class Resting:
    """An order that is live at a time, and the event that changed it last."""

    order: LiveOrder
    last: Event


@dataclass(frozen=True)
class Comparison:
    first: Reading
    second: Reading

    @cached_property
    def differences(self) -> list[Difference]:
        """Where one of them counts time as kept and the other does not, in order."""
        times = sorted({time for each in (self.first, self.second) for span in each.kept for time in span})
        found: list[Difference] = []
        for start, end in zip(times, times[1:]):
            by_first, by_second = covers(self.first.kept, start), covers(self.second.kept, start)
            if by_first == by_second:
                continue
            if found and found[-1].end == start and found[-1].is_first == by_first:
                start = found.pop().start
            found.append(Difference(start, end, by_first))
        return found

    @property
    def metered(self) -> Optional[Reading]:
        """The reading that comes from a session; the first, if both do."""
        return next((each for each in (self.first, self.second) if each.data is not None), None)

    @cached_property
    def stretches(self) -> list[Stretch]:
        """Where the time of that session went."""
        return [] if self.metered is None or self.metered.data is None else account(self.metered.data[: HEAD.size], self.metered.data[HEAD.size :]).stretches

    @property
    def state_then(self) -> Optional[State]:
        """The session's state where the readings first differ."""
        if not self.differences:
            return None
        time = self.differences[0].start
        return next((each.state for each in self.stretches if each.offset <= time < each.end), None)

    @cached_property
    def resting(self) -> list[Resting]:
        """The orders of the side that the state is about, the best first, where the readings first differ."""
        if not self.differences or self.metered is None or self.metered.data is None:
            return []
        one = None if self.state_then is None else MISSING.get(self.state_then)
        return resting_at(self.metered.data, self.differences[0].start, [one] if one else list(SIDES))


def covers(spans: list[Span], time: int) -> bool:
    return any(start <= time < end for start, end in spans)


def resting_at(data: bytes, time: int, sides: list[Side]) -> list[Resting]:
    """The live orders of these sides after all events up to a time, by the meter's own view."""
    rule, month, last = Rule.of_bytes(data[: HEAD.size]), Month(), {}
    month.open(rule.row, 1, rule.sp)
    for event in map(event_of, split(data[HEAD.size :])):
        if event is None or milliseconds(event.t) > time:
            break
        month.call(event)
        if not isinstance(event, (Cancel, Tick)):
            last[event.id] = event
    view: Optional[View] = month.view()
    orders = [each for each in (view.orders if view else ()) if each.side in sides]
    ranked = sorted(orders, key=lambda each: (each.side, -each.price if each.side == "buy" else each.price))
    return [Resting(each, last[each.id]) for each in ranked]
