"""When the figures are not reliable: the feed has changed in a way that may have lost or repeated calls.

The feed is then read again from its start, on a fresh month. The new reading is relied on if it has all that the one before it had: every
filled cell, the open quantum up to its last event, and no fewer calls. A file that was saved again has it. One that goes on where an older
file ended has not, nor has one that lost its last lines: then a person must decide, and start the command again.

>>> before = Reading(frozenset({(3, 1, 1)}), (4, 1, 1), 5_000, 20)
>>> before.lacking(Reading(frozenset({(3, 1, 1), (4, 1, 1)}), None, 0, 30))
''
>>> before.lacking(Reading(frozenset(), (4, 1, 1), 6_000, 20)), before.lacking(Reading(frozenset({(3, 1, 1)}), None, 0, 20))
('it lacks day 3, expiry 1, quantum 1', 'it lacks day 4, expiry 1, quantum 1')
>>> before.lacking(Reading(frozenset({(3, 1, 1)}), (4, 1, 1), 4_000, 20))
'it ends at 0:00:04 of a quantum that was read up to 0:00:05'
>>> before.lacking(Reading(frozenset({(3, 1, 1)}), (4, 1, 1), 5_000, 19))
'it has 19 calls, and 20 were read before'
"""

import time
from dataclasses import dataclass, field
from typing import Optional

from quoting.calls import OPENS, Kind
from quoting.cells import Place
from quoting.formats import counted, place_text, thousands
from quoting.month_sources import Sent
from quoting.values import clock
from quoting.watch.meter import EVENT_KINDS, Meter

SETTLING = 10.0  # seconds after a change in which the file may be written on: later lines are new ones, and don't bring back lost ones
PLACED_KINDS = OPENS | EVENT_KINDS | {Kind.CLOSE, Kind.DROP}  # calls that show whether a file goes on where another ended


@dataclass(frozen=True)
class Reading:
    """How far a reading came."""

    cells: frozenset[Place]  # that are filled
    opened: Optional[Place]
    time: int  # of the open quantum's last event
    calls: int

    @classmethod
    def of(cls, meter: Meter) -> "Reading":
        return cls(frozenset(meter.cells()), meter.opened.place if meter.opened else None, meter.last, meter.calls)

    def lacking(self, other: "Reading") -> str:
        """What the other one, of the file as it is now, has not got; empty where it has everything."""
        has = other.cells | {other.opened}
        missing = sorted(place for place in (*self.cells, self.opened) if place is not None and place not in has)
        if missing:
            return f"it lacks {place_text(missing[0])}"
        if self.opened is not None and self.opened == other.opened and other.time < self.time:
            return f"it ends at {clock(other.time)} of a quantum that was read up to {clock(self.time)}"
        return f"it has {counted(other.calls, 'call')}, and {thousands(self.calls)} were read before" if other.calls < self.calls else ""


@dataclass
class Rotated:
    """Another file has come under the name, and no call of it so far shows whether it goes on where the old one ended."""

    before: Reading  # of the old file
    calls: list[Sent] = field(default_factory=list)  # of the new one, so far


@dataclass
class Doubt:
    """Since when the figures are not reliable, and why; `before` is the last reading that was."""

    since: float  # time.time()
    before: Reading
    why: str = ""
    is_lost: bool = False  # the feed can't be read again
    missing: str = ""  # what the new reading lacks
    until: float = 0.0  # by time.monotonic(), when a file must have been written again
    is_final: bool = False  # no call that comes makes the figures reliable again

    def renew(self, why: str, is_lost: bool) -> None:
        """The feed has changed, or changed again."""
        self.why, self.is_lost, self.missing = why, is_lost, ""
        self.until, self.is_final = time.monotonic() + SETTLING, is_lost

    def is_over(self, meter: Meter) -> bool:
        """Whether a reading that has come to the file's end is reliable. After some seconds nothing that is added makes it so."""
        if self.is_final:
            return False
        self.missing = self.before.lacking(Reading.of(meter))
        self.is_final = bool(self.missing) and time.monotonic() > self.until
        return not self.missing

    def text(self, calls: int) -> str:
        """What is done about it."""
        if self.is_lost:
            return "What is lost can't be read again here: start quoting watch again, with the whole feed."
        if not self.missing:
            return f"The feed is being read again from its start: {counted(calls, 'call')} so far."
        more = "" if self.is_final else " More may follow."
        return f"The feed was read again from its start, but {self.missing}.{more} Start quoting watch again to use the file as it is now."


def goes_on(meter: Meter, kind: int, place: Optional[Place]) -> bool:
    """Whether the first call of a rotated file, of this kind and of this place if it is an open, can follow what was read. While a quantum
    is open no open can; without one only an open of a cell that is not filled can."""
    if kind in OPENS:
        return meter.opened is None and place not in meter.cells()
    return meter.opened is not None
