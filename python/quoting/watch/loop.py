"""The loop of the live page: the feed is read, the meter and the recount take each call, and at most ten times a second the sections are
made of it. Calls are never thinned, only what is shown of them. Where the feed has changed in a way that may have lost or repeated calls, the
meter and the recount start over with it (`doubts`)."""

import asyncio
import time
from typing import Any, Mapping, Optional

from quoting import calls as c
from quoting.reading import STANDARD
from quoting.month_sources import Sent
from quoting.watch import frames
from quoting.watch.changes import Changes, encoded
from quoting.watch.clocks import Clock
from quoting.watch.doubts import PLACED_KINDS, Doubt, Reading, Rotated, goes_on
from quoting.watch.feeds import Again, Changed, Feed, Item, Trouble
from quoting.watch.meter import Meter, refusal
from quoting.watch.recounting import Recounting

IDLE = 0.02  # seconds between two looks at a feed that has nothing new
SLICE = 0.02  # seconds of work on a long feed, after which pages get their turn
FRAME = 0.1  # seconds between two states that are shown
REPEATED = "the file was saved again, and its first call does not follow what was read; the feed is read again from its start"
RELIABLE = "the feed was read again from its start and has all that was read before: the figures are reliable again"
UNRELIABLE = "No answers while the figures are not reliable."
SAYS_NOTHING = {"kind": "absent", "head": "Agreement says nothing now", "text": "since both readings read the same file"}


class Watch:
    """A feed that is watched."""

    def __init__(self, feed: Feed, clock: Clock, meter: Meter, silence: float, speed: Optional[float]) -> None:
        self.feed, self.clock, self.meter = feed, clock, meter
        self.silence, self.speed = silence, speed  # seconds after which a feed has broken off, 0: never; of a feed that is played
        self.recount = Recounting()
        self.shown = Changes()
        self.clients = 0
        self.is_reading = True  # through what was there at the start
        self.doubt: Optional[Doubt] = None  # why the figures are not reliable
        self.rotated: Optional[Rotated] = None  # another file came under the name, and it is not known whether it goes on
        self.differs: Optional[Mapping[str, Any]] = None
        self.made = 0.0  # when the sections were made last

    # ------------------------------------------------------------ the feed

    async def read(self) -> None:
        """Reads on for ever, or until the readings differ."""
        while self.recount.parted is None and self.differs is None:
            items = self.feed.read()
            await self.take(items)
            self.is_reading = self.is_reading and self.feed.behind
            self.settle()
            await asyncio.sleep(0 if self.feed.behind else IDLE)
        await asyncio.Event().wait()

    async def take(self, items: list[Item]) -> None:
        until = time.perf_counter() + SLICE
        for item in items:
            self.take_one(item, self.feed.came)
            if time.perf_counter() > until:
                self.recount.flush()
                await asyncio.sleep(0)
                until = time.perf_counter() + SLICE
        self.recount.flush()

    def take_one(self, item: Item, came: float) -> None:
        if isinstance(item, Changed):
            self.change(item)
        elif isinstance(item, Again):
            self.fresh()
        if isinstance(item, Trouble):
            self.meter.trouble(item, came)
            return
        if self.rotated is not None:
            self.judge(self.rotated, item, came)
        self.take_call(item, came)

    def take_call(self, item: Sent, came: float) -> None:
        self.recount.call(item, self.meter.take(item, came))

    # ------------------------------------------------------------ a feed that has changed

    def change(self, item: Changed) -> None:
        """A rotated file is checked by its first call that shows where it belongs."""
        self.rotated = Rotated(Reading.of(self.meter)) if item.may_follow else None
        if item.is_lost:
            self.doubtful(item.text, Reading.of(self.meter), True)
        elif not item.may_follow:
            self.start_over(item.text, Reading.of(self.meter))

    def doubtful(self, why: str, before: Reading, is_lost: bool) -> None:
        """The figures are not reliable from now on, or still not."""
        self.doubt = self.doubt or Doubt(time.time(), before)
        self.doubt.renew(why, is_lost)

    def judge(self, rotated: Rotated, sent: Sent, came: float) -> None:
        """Whether another file under the name goes on where the one before it ended."""
        if sent.block[0] not in PLACED_KINDS:
            rotated.calls.append(sent)
            return
        self.rotated = None
        call = c.call_of(sent.block)
        place = (call.day, call.words[0], call.words[1]) if isinstance(call, c.Open) and len(call.words) > 1 else None
        if goes_on(self.meter, sent.block[0], place):
            return
        self.start_over(REPEATED, rotated.before)
        self.meter.trouble(Trouble("", REPEATED), came)
        for each in rotated.calls:
            self.take_call(each, came)

    def start_over(self, why: str, before: Reading) -> None:
        """The calls that follow are those of the whole feed: a fresh month and a fresh recount take them."""
        self.doubtful(why, before, False)
        self.fresh()

    def fresh(self) -> None:
        """A fresh month and a fresh recount."""
        self.meter = self.meter.fresh()
        self.recount.end()
        self.recount = Recounting()

    def settle(self) -> None:
        """Whether the feed, where it was read again, has all that it had."""
        if self.doubt is not None and not self.feed.behind and self.doubt.is_over(self.meter):
            self.doubt = None
            self.meter.trouble(Trouble("", RELIABLE), time.time())

    # ------------------------------------------------------------ what is shown

    async def show(self) -> None:
        """Makes the sections while a page is open, and has the recount check the month."""
        while True:
            if self.clients:
                self.publish()
            self.recount.check(self.meter.month)
            await asyncio.sleep(FRAME)

    def status(self) -> frames.Status:
        wall, silent = time.time(), max(0.0, time.time() - self.feed.came)
        kind, why = self.feed_kind(silent)
        differs = self.recount.differs() or self.differs
        doubt = frames.Doubted(self.doubt.since, self.doubt.why, self.doubt.text(self.meter.calls)) if self.doubt else None
        readings = SAYS_NOTHING if self.doubt else self.recount.readings(wall)
        return frames.Status(kind, wall, silent, self.speed or 1.0, why, readings, differs, doubt)

    def feed_kind(self, silent: float) -> tuple[str, str]:
        """What the feed does, and why it is broken off where it is not by silence. With no quantum open nothing is missed."""
        ended, is_open = self.feed.ended, self.meter.opened is not None
        if self.is_reading and self.speed is None:
            return "reading", ""
        if ended == "broken" and is_open:
            return "broken", f"{source_text(self.feed.name)} has closed"
        if ended is not None:
            return "ended", ""
        if self.speed is not None:
            return "playing", ""
        return ("broken" if self.is_silent(silent) else "following"), ""

    def is_silent(self, silent: float) -> bool:
        """Whether the feed was silent for too long while the open quantum went on; after its end nothing need come but the close."""
        opened = self.meter.opened
        if opened is None or not 0 < self.silence < silent:
            return False
        now = self.clock.now(opened.start, self.meter.last, self.meter.came)
        return now - 1_000 * (silent - self.silence) < opened.length

    def publish(self) -> None:
        """The sections as they are now."""
        now, status = self.meter.now_at(self.clock), self.status()
        sections = frames.sections(self.meter, now, status)
        self.differs = sections["differs"]

        def day(got: Optional[frames.Got]) -> tuple[str, Optional[frames.Got]]:
            section, has = frames.day(self.meter, now, status, got)
            return encoded(section), has

        self.made = time.monotonic()
        self.shown.take(sections, day)

    # ------------------------------------------------------------ the pages

    def enter(self) -> None:
        """A page has come: what it sees first is no older than a frame."""
        self.clients += 1
        if time.monotonic() - self.made > FRAME:
            self.publish()

    def leave(self) -> None:
        self.clients -= 1

    def ask(self, t: str, id: str, price: str, volume: str) -> dict[str, Any]:
        """The answer to an ask, on a copy of the month."""
        if self.doubt is not None:
            return refusal("No answer", UNRELIABLE)
        status = self.status()
        is_known = status.feed not in ("broken", "reading") and not status.differs
        return self.meter.ask(t, id, price, volume, self.meter.now_at(self.clock), is_known)

    def end(self) -> None:
        self.recount.end()


def source_text(name: str) -> str:
    return "standard input" if name == STANDARD else name
