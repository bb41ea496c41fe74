"""The outlook in words that cannot be misread. Every figure is the library's; here it is rounded to the safe side and written out.

What is had or left is rounded down, what is needed is rounded up, a latest time is rounded down, an end up.

>>> from quoting.rows import Row
>>> row = Row(1, 1, "8:45:00", 1000, 150, 3, "60%")
>>> day = Times(36_000_000, known=True)
>>> def said(now, state, need, by, lapses, limit, count, rest=False, lost=False, widest=12, going=None, times=day):
...     view = View(15, row, 8452, limit, widest, state, ())
...     outlook = Outlook(need, row.length - now, by, None, lapses, rest, lost, 0, 0)
...     report = MonthReport(True, now, 0, None, None, 0, count, (0,) * 6, 0)
...     found = band(Moment(outlook, report, view, (state != State.KEPT) if going is None else going, times))
...     for line in found[:4]:
...         print(line)

To be kept, with a lapse limit, in a lapse, in the last one, and without a limit:

>>> said(18_531_798, State.KEPT, 6_650_202, 24_849_798, 2, 5, 3)
keep
Keep 1:50:51 more
from 16:54:09 at the latest
A wait until then is one of the 2 lapses still allowed; after it no moment may be missed.
>>> said(18_531_798, State.KEPT, 6_650_202, 24_849_798, 1, 5, 4)
keep
Keep 1:50:51 more
from 16:54:09 at the latest
A wait until then is the last lapse allowed (5 of 5); after it no moment may be missed.
>>> said(18_531_798, State.WIDE, 6_650_202, 24_849_798, 1, 5, 4)
keep
Keep 1:50:51 more
from 16:54:09 at the latest
Waiting for it is no new lapse; from then on no moment may be missed.
>>> said(18_531_798, State.WIDE, 6_650_202, 24_849_798, 0, 5, 5)
keep
Keep 1:50:51 more
from 16:54:09 at the latest
Waiting for it is no new lapse; from then on no moment may be missed. The lapse that is going on is the last one allowed (5 of 5): \
a quote that comes back must stay to 18:45:00.
>>> said(18_531_798, State.KEPT, 6_650_202, 24_849_798, None, None, 3)
keep
Keep 1:50:51 more
from 16:54:09 at the latest
In pieces too, as long as it is 1:50:51 in all.

May rest: without more, once, in the last lapse, at the end:

>>> said(25_789_234, State.KEPT, 0, 31_500_000, None, None, 4, rest=True)
rest
You may rest
Met even if nothing more is kept.
<BLANKLINE>
>>> said(25_789_234, State.KEPT, 0, 31_500_000, 1, 5, 4, rest=True)
rest
You may rest
Met even if nothing more is kept.
Once: resting is the last lapse allowed (5 of 5). A quote that comes back must stay to 18:45:00.
>>> said(25_789_234, State.NO_ASK, 0, 31_500_000, 0, 5, 5, rest=True)
rest
You may rest
Met even if nothing more is kept.
The lapse that is going on is the last one allowed (5 of 5): a quote that comes back must stay to 18:45:00.
>>> said(31_500_000, State.KEPT, 0, 31_500_000, 0, 5, 5, rest=True)
rest
You may rest
Met even if nothing more is kept.
Its time is over: nothing is left to be kept.

No lapse left, with enough kept and without; every moment needed; a quote that came back in this very millisecond, after the last lapse
allowed, where the outlook would still have him rest at once; and one that went in it:

>>> said(26_500_500, State.KEPT, 0, 26_500_500, 0, 5, 5)
hold
Do not let go
One more lapse loses it: keep on to 18:45:00.
5 lapses of 5 allowed. The time kept is enough already.
>>> said(26_500_500, State.KEPT, 1_800_001, 26_500_500, 0, 1, 1)
hold
Do not let go
One more lapse loses it: keep on to 18:45:00.
1 lapse of 1 allowed. 0:30:01 still to be kept.
>>> said(12_600_000, State.KEPT, 18_900_000, 12_600_000, 2, 5, 3)
hold
Keep on to the end
Nothing to spare: every moment to 18:45:00.
<BLANKLINE>
>>> said(26_500_500, State.KEPT, 0, 31_500_000, 0, 5, 5, rest=True, going=True)
hold
Do not let go
One more lapse loses it: keep on to 18:45:00.
5 lapses of 5 allowed. The time kept is enough already.
>>> said(0, State.NEITHER, 18_900_000, 0, 0, 0, 0, going=False)
hold
Do not let go
One more lapse loses it: keep on to 18:45:00.
0 lapses of 0 allowed. 5:15:00 still to be kept. Not kept now: only a quote at this very moment saves it.

Lost, for each cause:

>>> said(24_080_000, State.KEPT, 7_992_000, None, 2, 5, 3, lost=True)
lost
Lost whatever comes
2:13:12 still to be kept, only 2:03:40 left.
It will be failed, weight 0.
>>> said(24_080_000, State.KEPT, 0, None, -1, 5, 6, lost=True)
lost
Lost whatever comes
6 lapses, 5 allowed.
It will be failed, weight 0.
>>> said(0, State.NEITHER, 18_900_000, None, 5, 5, 0, lost=True, widest=0)
lost
Lost whatever comes
Nothing can be kept: the spread limit is below 1.
It will be failed, weight 0.

Where the start is not known, or is in UTC, the band says so:

>>> said(18_531_798, State.KEPT, 6_650_202, 24_849_798, None, None, 3, times=Times())
keep
Keep 1:50:51 more
from 6:54:09 at the latest
In pieces too, as long as it is 1:50:51 in all. Times count from the quantum's start.
>>> said(26_500_500, State.KEPT, 0, 26_500_500, 0, 5, 5, times=Times(36_000_000, " UTC", True))
hold
Do not let go
One more lapse loses it: keep on to 18:45:00 UTC.
5 lapses of 5 allowed. The time kept is enough already.
"""

from dataclasses import dataclass
from typing import NamedTuple, Optional

from quoting.answers import OVER, Cell, MonthReport, Outlook, verdict_text
from quoting.cells import Place
from quoting.formats import counted, place_text, thousands
from quoting.states import State
from quoting.values import HOUR, SECOND, clock, milliseconds
from quoting.views import View

DAY = 24 * HOUR
FROM_START = "Times count from the quantum's start."
COUNTED = "No time is counted now."
LOST = "It will be failed, weight 0."
AT_ONCE = "Not kept now: only a quote at this very moment saves it."

# ---------------------------------------------------------------- times


def had(ms: int) -> str:
    """What is had or left, rounded down to the second.

    >>> had(3_999), due(3_001), thousandths(3_001)
    ('0:00:03', '0:00:04', '.001')
    """
    return clock(ms // SECOND * SECOND)


def due(ms: int) -> str:
    """What is needed, rounded up."""
    return clock(-(-ms // SECOND) * SECOND)


def thousandths(ms: int) -> str:
    return f".{ms % SECOND:03}"


@dataclass(frozen=True)
class Times:
    """How moments of a quantum are written: as times of day where its start is known, else as times from its start.

    >>> late = Times(79_200_500, known=True)
    >>> late.down(0), late.up(0), late.exact(0), late.down(3 * HOUR)
    ('22:00:00', '22:00:01', '22:00:00.500', '1:00:00')
    >>> late.read("1:00:00.500", 4 * HOUR), late.read("7200000", 4 * HOUR), Times().read("3:00:00", 4 * HOUR)
    (10800000, 7200000, 10800000)
    """

    offset: int = 0  # time of day of its start, in milliseconds
    zone: str = ""  # after the times of the band, where they are not those of a clock on the wall
    known: bool = False

    def _of_day(self, ms: int) -> str:
        return clock(ms % DAY if self.known else ms)

    def down(self, t: int) -> str:
        return self._of_day((self.offset + t) // SECOND * SECOND)

    def up(self, t: int) -> str:
        return self._of_day(-(-(self.offset + t) // SECOND) * SECOND)

    def exact(self, t: int) -> str:
        return self._of_day(self.offset + t)

    def read(self, text: str, length: int) -> int:
        """Milliseconds from the start of a quantum of that length: h:mm:ss is a time of day where the start is known."""
        found = milliseconds(text)
        if not self.known or ":" not in text:
            return found
        found -= self.offset
        if found < 0 and self.offset + length >= DAY:
            found += DAY
        if found < 0:
            raise ValueError(f"{text} is before the quantum's start, {self.exact(0)}")
        return found


# ---------------------------------------------------------------- the band


class Band(NamedTuple):
    kind: str
    head: str
    sub: str
    why: str = ""


@dataclass(frozen=True)
class Moment:
    """The open quantum at a time: the library's answers for it, and whether the millisecond before it was lost (a lapse goes on)."""

    outlook: Outlook
    report: MonthReport
    view: View
    going: bool
    times: Times

    @property
    def now(self) -> int:
        return self.report.time

    @property
    def is_kept(self) -> bool:
        return self.view.state == State.KEPT

    @property
    def in_lapse(self) -> bool:
        """A lapse goes on and still goes on: to rest is no new one."""
        return self.going and not self.is_kept

    @property
    def end(self) -> str:
        return self.times.up(milliseconds(self.view.row.length)) + self.times.zone

    @property
    def used(self) -> str:
        return f"{self.report.lapses} of {self.view.limit}"


def band(m: Moment) -> Band:
    """The answer to "may I rest?"."""
    o = m.outlook
    if o.lost:
        return Band("lost", "Lost whatever comes", lost_by(m), LOST)
    if o.left == 0:
        return Band("rest", "You may rest", "Met even if nothing more is kept.", "Its time is over: nothing is left to be kept.")
    # The outlook is about a rest that begins now. A quote that came back in this millisecond would have to go in it again.
    is_back = m.going and m.is_kept and o.lapses == 0
    if is_back or (o.by == m.now and not o.rest):
        return keep_all(m)
    return may_rest(m) if o.rest else keep_some(m)


def joined(m: Moment, *parts: str) -> str:
    """The sentences of a band's last line, where moments were written: with the note that says what they count from."""
    return " ".join(filter(None, [*parts, "" if m.times.known else FROM_START]))


def lost_by(m: Moment) -> str:
    o = m.outlook
    if o.lapses == OVER:
        return f"{counted(m.report.lapses, 'lapse')}, {m.view.limit} allowed."
    if m.view.widest < 1:
        return "Nothing can be kept: the spread limit is below 1."
    return f"{due(o.need)} still to be kept, only {had(o.left)} left."


def last_lapse(m: Moment) -> str:
    return f"The lapse that is going on is the last one allowed ({m.used}): a quote that comes back must stay to {m.end}."


def may_rest(m: Moment) -> Band:
    why = ""
    if m.in_lapse and m.outlook.lapses == 0:
        why = joined(m, last_lapse(m))
    elif not m.in_lapse and m.outlook.lapses == 1:
        last = f"Once: resting is the last lapse allowed ({m.report.lapses + 1} of {m.view.limit})."
        why = joined(m, last, f"A quote that comes back must stay to {m.end}.")
    return Band("rest", "You may rest", "Met even if nothing more is kept.", why)


def keep_all(m: Moment) -> Band:
    """Nothing may be let go: for the share, or for a lapse that would be one too many."""
    need, at_once = m.outlook.need, "" if m.is_kept else AT_ONCE
    if need == m.outlook.left:
        sub = f"Nothing to spare: every moment to {m.end}."
        return Band("hold", "Keep on to the end", sub, joined(m, at_once))
    rest = f"{due(need)} still to be kept." if need else "The time kept is enough already."
    why = joined(m, f"{counted(m.report.lapses, 'lapse')} of {m.view.limit} allowed.", rest, at_once)
    return Band("hold", "Do not let go", f"One more lapse loses it: keep on to {m.end}.", why)


def keep_some(m: Moment) -> Band:
    o = m.outlook
    assert o.by is not None
    if o.lapses is None:
        more = f"In pieces too, as long as it is {due(o.need)} in all."
    elif m.in_lapse:
        waiting = "Waiting for it is no new lapse; from then on no moment may be missed."
        more = f"{waiting} {last_lapse(m)}" if o.lapses == 0 else waiting
    elif o.lapses == 1:
        last = f"({m.report.lapses + 1} of {m.view.limit})"
        more = f"A wait until then is the last lapse allowed {last}; after it no moment may be missed."
    else:
        more = f"A wait until then is one of the {o.lapses} lapses still allowed; after it no moment may be missed."
    return Band("keep", f"Keep {due(o.need)} more", f"from {m.times.down(o.by)}{m.times.zone} at the latest", joined(m, more))


def lowered(text: str) -> str:
    return text[:1].lower() + text[1:]


def broken(was: Band, m: Moment) -> Band:
    """The feed is broken off: what was known at its last event.

    >>> row_says = Band("keep", "Keep 1:50:51 more", "from 16:54:09 at the latest", "In pieces too.")
    >>> then_text(row_says), then_text(Band("rest", "You may rest", "Met even if nothing more is kept."))
    ('keep 1:50:51 more, from 16:54:09 at the latest', 'you may rest, met even if nothing more is kept')
    """
    since = f"Not known since {m.times.down(m.now)}{m.times.zone}"
    why = f"Keep quoting until it is back. It was then: {then_text(was)}."
    return Band("broken", "Feed broken off", since, joined(m, why))


def unsure(was: Band, what: str) -> Band:
    """The exchange answered in this quantum what the figures leave out: no figure of it may be relied on.

    >>> unsure(Band("rest", "You may rest", "Met even if nothing more is kept."), "1 fill and 2 rejects")[1:3]
    ('Do not rely on these figures', 'Not counted in this quantum: 1 fill and 2 rejects')
    """
    why = f"Keep quoting. By your requests alone it would be: {then_text(was)}."
    return Band("hold", "Do not rely on these figures", f"Not counted in this quantum: {what}", why)


def doubtful(since: str, why: str, text: str) -> Band:
    """The feed has changed: calls may be lost or repeated, and no figure may be relied on.

    >>> doubtful("10:15:02", "The file was truncated", "Start quoting watch again.")[1:3]
    ('Not reliable since 10:15:02', 'The file was truncated')
    """
    return Band("doubt", f"Not reliable since {since}", why, f"Keep quoting: do not rely on a figure of this page. {text}")


def then_text(was: Band) -> str:
    return f"{lowered(was.head)}, {lowered(was.sub)}".rstrip(".")


def none_open(place: Optional[Place], cell: Optional[Cell]) -> Band:
    """No quantum is open; the one that was closed last, if there is one.

    >>> from quoting.values import Tenths
    >>> none_open((15, 1, 1), Cell(25_162_000, 31_500_000, Tenths(600), 3, 5, 0, 0, True, 19_509)).sub
    'The last: day 15, expiry 1, quantum 1 met, weight 19,509'
    >>> none_open(None, None)
    Band(kind='none', head='No quantum open', sub='None has been closed so far', why='No time is counted now.')
    """
    if place is None or cell is None:
        return Band("none", "No quantum open", "None has been closed so far", COUNTED)
    last = f"The last: {place_text(place)} {verdict_text(cell.met)}, weight {thousands(cell.weight)}"
    return Band("none", "No quantum open", last, COUNTED)


def reading(calls: int) -> Band:
    """A long file is still being read.

    >>> reading(10_169)
    Band(kind='reading', head='Reading the feed', sub='10,169 calls so far', why='No figure is shown before its end is reached.')
    """
    return Band("reading", "Reading the feed", f"{counted(calls, 'call')} so far", "No figure is shown before its end is reached.")
