"""The page of one contract: that of `quoting watch`, fed by the wall."""

import time
from typing import Any, Mapping, Optional

from quoting.desk.contracts import Contract
from quoting.wall.recounting import Recounts
from quoting.wall.running import Running
from quoting.wall.state import Wall
from quoting.watch import frames
from quoting.watch.changes import Changes, encoded
from quoting.watch.meter import Meter, refusal


class Detail:
    """What a contract's pages are shown. It has what the server of `quoting watch` needs of a watch."""

    def __init__(self, wall: Wall, recounts: Recounts, key: str) -> None:
        self.wall, self.recounts, self.key = wall, recounts, key
        self.shown = Changes()
        self.clients = 0
        contract = self.contract
        self.empty = Meter(contract.symbol, 0, wall.desk.programme.instruments[contract.instrument].step)

    @property
    def contract(self) -> Contract:
        return self.wall.contract_of(self.key)

    @property
    def running(self) -> Optional[Running]:
        return self.wall.running.get(self.contract)

    @property
    def meter(self) -> Meter:
        running = self.running
        return self.empty if running is None else running.meter

    def status(self) -> frames.Status:
        doubt = self.wall.doubt_of(self.contract)
        doubted = None if doubt is None or self.meter.opened is None else frames.Doubted(doubt.since, doubt.why, "The wall reads the logs again as they come.")
        came = max((log.growing.came for log in self.wall.files.logs.values()), default=time.time())
        feed = "reading" if self.wall.is_reading else "following"
        return frames.Status(feed, time.time(), max(0.0, time.time() - came), 1.0, "", self.readings(), None, doubted)

    def readings(self) -> Mapping[str, Any]:
        running = self.running
        count = None if running is None else self.recounts.counts.get(running.key)
        if count is None or not count.sent:
            return {"kind": "waiting", "head": "The recount has not answered yet", "text": ""}
        if running is not None and running.key in self.recounts.parted:
            return {"kind": "absent", "head": "Stop: readings differ", "text": self.recounts.differs()}
        kind = "agree" if count.agreed == count.sent else "waiting"
        return {"kind": kind, "head": "Both readings agree", "text": f"on the counting of {count.agreed:,} of {count.sent:,} calls"}

    def publish(self) -> None:
        meter, running, status = self.meter, self.running, self.status()
        now = 0 if running is None else meter.clipped(running.time(self.wall.now))

        def day(got: Optional[frames.Got]) -> tuple[str, Optional[frames.Got]]:
            section, has = frames.day(meter, now, status, got)
            return encoded(section), has

        self.shown.take(frames.sections(meter, now, status), day)

    def enter(self) -> None:
        self.clients += 1
        if self.running is not None:
            self.running.refine(self.wall.lines(self.contract))
        self.publish()

    def leave(self) -> None:
        self.clients -= 1

    def ask(self, t: str, id: str, price: str, volume: str) -> dict[str, Any]:
        """The answer to an ask, on a copy of the month."""
        running = self.running
        if running is None or self.wall.doubt_of(self.contract) is not None:
            return refusal("No answer", "No quantum is open." if running is None else "No answers while the figures are not reliable.")
        return self.meter.ask(t, id, price, volume, self.meter.clipped(running.time(self.wall.now)))
