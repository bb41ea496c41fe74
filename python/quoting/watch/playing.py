"""A finished feed played at a multiple of its own pace: a feed, and the clock that goes with it.

In a quantum time runs from 0 at its open. An event comes when its time has come, a close or a drop when the quantum's length has gone,
every other call at once; between a close and the next open there is a second of real time. A month of its own shows which calls are
accepted, since a refused open starts no time.
"""

import re
import time
from collections import deque
from datetime import datetime, timedelta
from typing import Callable, Optional

from quoting import calls as c
from quoting import fix
from quoting.events import Add, Amend, Cancel, Deal, Tick
from quoting.months import Month
from quoting.native import Refused
from quoting.month_sources import Sent
from quoting.values import milliseconds
from quoting.watch.feeds import MOST_ITEMS, Feed, Item, Trouble

PAUSE = 1.0  # seconds of real time between a close and the next open
AT_ONCE = float("-inf")
MILLISECOND = timedelta(milliseconds=1)
TIME = re.compile(rb"\x0160=([^\x01]*)\x01")


class Playing:
    def __init__(self, feed: Feed, speed: float, monotonic: Callable[[], float] = time.monotonic) -> None:
        if not 0 < speed < float("inf"):
            raise ValueError(f"a feed is played at a speed above 0, and not at {speed}")
        self.feed, self.speed, self.monotonic = feed, speed, monotonic
        self.month = Month()
        self.waiting: deque[Item] = deque()
        self.troubles: list[Item] = []  # after the last call
        self.next: Optional[Sent] = None
        self.due = AT_ONCE  # when the next call comes
        self.zero: Optional[float] = None  # when the open quantum was opened
        self.length = 0
        self.start: Optional[str] = None
        self.pause = AT_ONCE  # until when the next open waits
        self.ended: Optional[str] = None
        self.came = time.time()

    @property
    def name(self) -> str:
        return self.feed.name

    @property
    def behind(self) -> bool:
        return self.next is None and self.feed.behind

    @property
    def count(self) -> int:
        return self.feed.count

    # ------------------------------------------------------------ the feed

    def read(self) -> list[Item]:
        """What is due by now; what could not be read has no time of its own and comes with the call before it."""
        found: list[Item] = []
        now = self.monotonic()
        while len(found) < MOST_ITEMS and self.ended is None:
            sent = self.fetched()
            found += self.troubles
            self.troubles = []
            if sent is None and self.feed.ended is not None:
                self.ended = "end"
            elif sent is None or self.due > now:
                break
            else:
                found.append(sent)
                self.next = None
                self.take(sent, now)
        if found:
            self.came = time.time()
        return found

    def fetched(self) -> Optional[Sent]:
        """The next call; None where the feed has none now."""
        while self.next is None:
            if not self.waiting:
                self.waiting.extend(self.feed.read())
            if not self.waiting:
                return None
            item = self.waiting.popleft()
            if isinstance(item, Trouble):
                self.troubles.append(item)
            else:
                self.next, self.due = item, self.due_of(c.call_of(item.block))
        return self.next

    def due_of(self, call: Optional[c.Call]) -> float:
        if self.zero is None:
            return self.pause if isinstance(call, c.Open) else AT_ONCE
        t = self.length if isinstance(call, (c.Close, c.Drop)) else time_in_quantum(call)
        return AT_ONCE if t is None else self.zero + min(t, self.length) / self.speed / 1_000

    def take(self, sent: Sent, now: float) -> None:
        """Starts and stops the quantum's time."""
        try:
            refused = isinstance(self.month.block(sent.block), Refused)
        except ValueError:  # not one call
            refused = True
        call = None if refused else c.call_of(sent.block)
        if isinstance(call, c.Open):
            self.zero, self.length, self.start = now, call.words[2], sent.start
        elif isinstance(call, (c.Close, c.Drop)):
            self.zero = None
            self.pause = now + PAUSE if isinstance(call, c.Close) else AT_ONCE

    # ------------------------------------------------------------ the clock

    def played(self) -> Optional[int]:
        """Milliseconds of the open quantum that have been played."""
        if self.zero is None or self.ended is not None:
            return None
        return min(int(1_000 * self.speed * (self.monotonic() - self.zero)), self.length)

    def now(self, start: Optional[str], last: int, came: float) -> int:
        """The played time; when all has been played, the last event's."""
        played = self.played()
        return last if played is None else played

    def moment(self) -> Optional[datetime]:
        played = self.played()
        return None if played is None or self.start is None else fix.moment(self.start) + played * MILLISECOND


def time_in_quantum(call: Optional[c.Call]) -> Optional[int]:
    """The time of an event, a commit or a message; None of any other call, and where it can't be read."""
    if isinstance(call, (Add, Amend, Cancel, Deal, Tick, c.Commit)):
        return milliseconds(call.t)
    if not isinstance(call, c.Message):
        return None
    time = time_of(call.bytes)
    try:
        return None if time is None else (time - fix.moment(call.start.decode("latin-1"))) // MILLISECOND
    except ValueError:
        return None


def time_of(message: bytes) -> Optional[datetime]:
    found = TIME.search(message)
    try:
        return fix.moment(found[1].decode("latin-1")) if found else None
    except ValueError:
        return None
