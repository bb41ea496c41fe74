"""What now is, in milliseconds since the open quantum's start.

>>> FeedClock(lambda: 100.25).now(None, 5_000, 100.0)
5250
>>> WallClock(wall=lambda: 1_793_613_600.5).now("20261102-10:00:00.000", 0, 0.0)
500
"""

import time
from datetime import datetime, timedelta, timezone
from typing import Callable, Optional, Protocol

from quoting import fix

DAY = 86_400_000
MILLISECOND = timedelta(milliseconds=1)


class Clock(Protocol):
    def now(self, start: Optional[str], last: int, came: float) -> int:
        """Milliseconds since the open quantum's start: `start` is that in the form of 60 (UTC) where it is known, `last` the time of the
        quantum's last event, `came` when that was read (as time.time() has it). Not clipped to the quantum."""

    def moment(self) -> Optional[datetime]:
        """Now in UTC, without a zone as fix.moment has it; None where this clock does not know it."""


class FeedClock:
    """The last event's time, and what has gone since it came."""

    def __init__(self, wall: Callable[[], float] = time.time) -> None:
        self.wall = wall

    def now(self, start: Optional[str], last: int, came: float) -> int:
        return last + max(0, int(1_000 * (self.wall() - came)))

    def moment(self) -> Optional[datetime]:
        return None


class WallClock:
    """The machine's clock: UTC where the quantum's start is known by date, else the local time of day less `day_start` (0: not given),
    else as FeedClock."""

    def __init__(self, day_start: int = 0, wall: Callable[[], float] = time.time) -> None:
        self.day_start, self.wall = day_start, wall
        self.feed = FeedClock(wall)

    def now(self, start: Optional[str], last: int, came: float) -> int:
        if start is not None:
            return (self.moment() - fix.moment(start)) // MILLISECOND
        return self.of_day(last) if self.day_start else self.feed.now(start, last, came)

    def of_day(self, last: int) -> int:
        """A quantum may run past midnight, and the time of day may be before its start: of both days' readings the one nearer to `last`."""
        wall = self.wall()
        local = time.localtime(wall)
        seconds = (local.tm_hour * 60 + local.tm_min) * 60 + local.tm_sec
        gone = 1_000 * seconds + int(1_000 * (wall % 1)) - self.day_start
        return min(gone, gone + DAY, key=lambda t: abs(t - last))

    def moment(self) -> datetime:
        return datetime.fromtimestamp(self.wall(), timezone.utc).replace(tzinfo=None)
