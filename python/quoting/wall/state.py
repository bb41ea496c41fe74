"""The wall's state: one reading of a desk's logs, every contract that is due, and the month so far.

A quantum opens and closes by the plan's clock. While it is open its calls are made on a month of its own as the messages come; where a
message comes late, with an earlier time, it starts over, so that its figures are those of the whole logs. Closed quanta are settled by the
code of `quoting desk settle`, so after the month's end the wall has the same cells and fees.
"""

import datetime as dt
import re
import time
from bisect import bisect_right
from dataclasses import dataclass
from pathlib import Path
from typing import Any, Optional, Union
from zoneinfo import ZoneInfo

import numpy as np

from quoting.answers import Cell
from quoting.desk.contracts import Contract
from quoting.desk.desks import Desk
from quoting.desk.logs import remark_of, work_of_lines
from quoting.desk.plan import EPOCH, Planned
from quoting.desk.quanta import Work
from quoting.desk.settlement import InstrumentMonth, Remark, month_of
from quoting.exchange.timelines import Timeline
from quoting.wall import tiles as t
from quoting.wall.desk_files import DeskFiles
from quoting.wall.files import LogFiles
from quoting.wall.orders import Followed, Orderly
from quoting.wall.running import Running, zone_text
from quoting.wall.tiles import Tile
from quoting.watch.sentences import due, had

SECOND, MINUTE = 1_000, 60_000
TIMELY = 250  # milliseconds after which a tile is worked out again though nothing came
MUCH = 1 << 16  # bytes: where so many came at once, the start's reading goes on
AHEAD = 2 * SECOND  # by which the logs' times may be after the machine's clock
UNSAFE = re.compile(r"[^A-Za-z0-9._+-]")
BEHIND = 10 * SECOND  # by which messages that have just come may be before it


@dataclass(frozen=True)
class Doubt:
    """Why a contract's figures are not reliable, and since when (time.time())."""

    why: str
    since: float


class Wall:
    """A desk as it is now. `poll` reads on, `tiles` shows the contracts that are due."""

    def __init__(self, desk: Desk, clock: str = "wall", silence: float = 0.0) -> None:
        self.desk, self.clock, self.silence = desk, clock, silence
        self.desk_files = DeskFiles(desk)
        self.zone = ZoneInfo(desk.programme.timezone)
        self.zone_name = zone_text(desk.programme.timezone)
        self.files = LogFiles(desk, self.desk_files.patterns)
        self.orders = Orderly(self.files)
        self.plan_by(desk)
        self.keys = keys_of(list(self.by_contract))
        self.running: dict[Contract, Running] = {}
        self.works: dict[tuple[Contract, dt.date, int], Work] = {}
        self.months: dict[str, InstrumentMonth] = {}
        self.settlings = 0  # how often a month was made
        self.stale: set[str] = set()  # instruments' months to be made again
        self.spoilt: set[Contract] = set()  # contracts with closed quanta to be settled again
        self._today = -1, dt.date.min
        self.now = 0
        self.is_reading = True  # what was there at the start
        self.came = 0.0  # when bytes came last
        self.began = time.time()
        self.late = 0  # how often something ran again because of a late message
        self.disagreement = ""  # between the machine's clock and the logs'

    @classmethod
    def load(cls, path: Union[str, Path], clock: str = "wall", silence: float = 0.0) -> "Wall":
        """Reads a desk; its logs need not be there yet.

        Raises:
            DeskError: Faults of the desk's files.
        """
        return cls(Desk.load(path, with_logs=False), clock, silence)

    # ------------------------------------------------------------ the desk's files

    def plan_by(self, desk: Desk) -> None:
        """The month's quanta by contract."""
        self.by_contract: dict[Contract, list[Planned]] = {}
        for planned in sorted(desk.plan(), key=lambda each: each.start_ms):
            self.by_contract.setdefault(planned.contract, []).append(planned)
        self.by_symbol: dict[str, list[Contract]] = {}
        for contract in self.by_contract:
            self.by_symbol.setdefault(contract.symbol, []).append(contract)
        self.turns = sorted({moment for each in desk.plan() for moment in (each.start_ms, each.end_ms)})
        self.until = (0, 0)  # from when to when nothing opens or closes
        self.days: dict[Contract, tuple[dt.date, list[Planned]]] = {}  # a contract's quanta of a day, as it was asked for last
        self.kept: dict[Contract, tuple[Any, Optional[Tile]]] = {}  # tiles, and what each was made of

    def take_desk(self, desk: Desk) -> None:
        """Goes on by files of the desk that have changed. A quantum whose row, SP, hours or charges are others is metered again."""
        before, self.desk = self.desk, desk
        known = {place_of(each): (each, before.charges_of(each)) for each in before.plan()}
        fresh = {place_of(each): each for each in desk.plan()}
        self.plan_by(desk)
        for place in {*known, *fresh}:
            planned = fresh.get(place)
            if planned is None or known.get(place) != (planned, desk.charges_of(planned)):
                self.change(place, planned)
        for running in self.running.values():
            running.desk = desk

    def change(self, place: tuple[Contract, dt.date, int], planned: Optional[Planned]) -> None:
        """A quantum is another one, or is no longer in the plan."""
        contract = place[0]
        if self.works.pop(place, None) is not None:
            self.stale.add(contract.month)
        running = self.running.get(contract)
        if running is not None and place_of(running.planned) == place:
            del self.running[contract]
            if planned is not None:
                self.running[contract] = Running(self.desk, planned, running.starts)
                self.start(self.running[contract])

    # ------------------------------------------------------------ reading

    def poll(self, now: Optional[int] = None) -> int:
        """Reads what has come, at most a piece of each log, and goes on to a moment (milliseconds since 1970; by default the clock's).
        Returns the bytes that were read."""
        polled = self.files.poll()
        if polled.size:
            self.came = time.time()
        if self.is_reading and polled.size >= MUCH:
            return polled.size  # nothing is followed until all of it is read
        found = self.orders.poll(polled.is_new_order or self.is_reading)
        if found:
            self.judge_clock(found)
        self.now = self.moment(now)
        self.is_reading, desk = False, self.desk_files.look()
        if desk is not None:
            self.take_desk(desk)
        for name, followed in found.items():
            self.take(name, followed)
        self.advance()
        return polled.size

    def catch_up(self, now: Optional[int] = None) -> None:
        """Reads all that is there."""
        while self.poll(now):
            pass
        self.poll(now)

    def moment(self, now: Optional[int]) -> int:
        """Now, not before the newest message."""
        newest = self.orders.newest
        if now is None and self.clock == "feed":
            return 0 if newest is None else newest + int(1_000 * max(0.0, time.time() - self.came))
        given = int(1_000 * time.time()) if now is None else now
        return given if newest is None else max(given, newest)

    def judge_clock(self, found: dict[str, Followed]) -> None:
        """Whether the messages' times are far from the machine's clock."""
        newest, wall = self.orders.newest, int(1_000 * time.time())
        self.disagreement = ""
        if newest is None or self.clock == "feed":
            return
        if newest > wall + AHEAD:
            self.disagreement = f"The logs' time is {due(newest - wall)} ahead of this machine's clock: the wall goes by the logs"
        elif not self.is_reading and newest < wall - BEHIND:
            self.disagreement = f"Messages come with times {had(wall - newest)} behind this machine's clock: --clock feed goes by the logs"

    # ------------------------------------------------------------ messages

    def take(self, name: str, followed: Followed) -> None:
        """What came of a symbol's messages, or of all symbols' where the name is empty."""
        if followed.earliest is None:
            return
        for contract in self.by_symbol.get(name, []) if name else self.by_contract:
            self.spoil(contract, followed.earliest)
            self.run_on(contract, followed)

    def spoil(self, contract: Contract, earliest: int) -> None:
        """Closed quanta that end after a message's time are settled again."""
        for planned in reversed(self.by_contract[contract]):
            if planned.end_ms < earliest:
                return
            if self.works.pop(place_of(planned), None) is not None:
                self.stale.add(contract.month)
                self.spoilt.add(contract)

    def run_on(self, contract: Contract, followed: Followed) -> None:
        running = self.running.get(contract)
        if running is None:
            return
        start, end = running.planned.start_ms, running.planned.end_ms
        parts = [rows for owner, rows in followed.changes.items() if self.is_of(contract, owner)]
        if followed.is_again or running.is_closed or any(int(rows["time"][0]) < start for rows in parts):
            self.late += followed.is_again
            self.start(running)
            return
        rows = parts[0] if len(parts) == 1 else in_turn(parts) if parts else ()
        if len(rows) and int(rows["time"][-1]) > end:
            rows = rows[rows["time"] <= end]
        if len(rows):
            running.add(rows, self.orders.names, self.came)

    def is_of(self, contract: Contract, owner: int) -> bool:
        symbol, account = self.files.scope.names(owner)
        return symbol == contract.symbol and (contract.accounts is None or account in contract.accounts)

    def lines(self, contract: Contract) -> list[Timeline]:
        found = self.orders.timelines(contract.symbol)
        return [line for (_, account), line in found.items() if contract.accounts is None or account in contract.accounts]

    # ------------------------------------------------------------ the plan's clock

    def start(self, running: Running) -> None:
        running.start(self.lines(running.planned.contract), self.came)
        if running.planned.end_ms <= self.now:
            running.close(self.came)

    def advance(self) -> None:
        """Opens and closes what the plan says, and settles what has ended."""
        first, last = self.until
        is_turn = not first <= self.now < last
        for contract in self.by_contract if is_turn else self.spoilt:
            self.turn(contract, self.by_contract[contract])
        for name in sorted({each.month for each in self.by_contract} if not self.months else self.stale):
            self.settle(name)
        self.stale.clear()
        self.spoilt.clear()
        at = bisect_right(self.turns, self.now)
        midnight = self.local(self.now).replace(hour=0, minute=0, second=0, microsecond=0) + dt.timedelta(days=1)
        later = [*self.turns[at : at + 1], int(1_000 * midnight.timestamp())]
        self.until = (self.now, min(later)) if is_turn else self.until

    def turn(self, contract: Contract, plan: list[Planned]) -> None:
        """What of a contract opens or closes now."""
        wanted, running = self.due(contract), self.running.get(contract)
        if running is not None and not running.is_closed and running.planned.end_ms <= self.now:
            running.close(self.came)
        if wanted is not None and wanted.start_ms <= self.now and (running is None or running.planned != wanted):
            self.running[contract] = Running(self.desk, wanted)
            self.start(self.running[contract])
        self.close_works(contract, plan)

    def due(self, contract: Contract) -> Optional[Planned]:
        """The quantum of today that is open, else the last one that has ended, else the next one."""
        today, known = self.today, self.days.get(contract)
        if known is None or known[0] != today:
            known = self.days[contract] = today, [each for each in self.by_contract[contract] if each.date == today]
        own = known[1]
        begun = [each for each in own if each.start_ms <= self.now]
        return begun[-1] if begun else own[0] if own else None

    @property
    def today(self) -> dt.date:
        minute = self.now // MINUTE  # no zone's day begins within one
        if self._today[0] != minute:
            self._today = minute, self.local(self.now).date()
        return self._today[1]

    def local(self, moment: int) -> dt.datetime:
        """A moment by the exchange's clock."""
        return (EPOCH + dt.timedelta(milliseconds=moment)).astimezone(self.zone)

    # ------------------------------------------------------------ the month so far

    def close_works(self, contract: Contract, plan: list[Planned]) -> None:
        """The quanta that have ended and are not settled yet, cut from the logs."""
        ended = [each for each in plan if each.end_ms <= self.now and place_of(each) not in self.works]
        lines = self.lines(contract) if ended else []
        for planned in ended:
            self.works[place_of(planned)] = work_of_lines(self.desk, lines, planned)
            self.stale.add(contract.month)

    def settle(self, name: str) -> None:
        """An instrument's month, in the order of cells.csv."""
        own = [each for each in self.desk.plan() if each.contract.month == name and place_of(each) in self.works]
        self.settlings += 1
        self.months[name] = month_of(name, [self.works[place_of(each)] for each in own])

    def cell_of(self, planned: Planned) -> Optional[Cell]:
        month = self.months.get(planned.contract.month)
        found = [each.cell for each in month.cells if each.planned == planned] if month is not None else []
        return found[0] if found else None

    # ------------------------------------------------------------ what is shown

    def doubt_of(self, contract: Contract) -> Optional[Doubt]:
        """Why a contract's figures are not reliable."""
        logs = list(self.files.logs.values())
        own = [log for log in logs if contract.symbol in log.symbols] or logs
        for log in own:
            if log.fault is not None:
                since = t.of_day(self.local(int(1_000 * log.fault.since)))
                return Doubt(f"{log.fault.text(log.name)} at {since}.", log.fault.since)
        if not logs:
            return Doubt("There is no log yet.", self.began)
        came = max(log.growing.came for log in own)
        if self.silence and time.time() - came > self.silence:
            return Doubt(f"No message since {t.of_day(self.local(int(1_000 * came)))}.", came)
        return None

    def tile(self, contract: Contract, doubt: Optional[Doubt]) -> Optional[Tile]:
        planned = self.due(contract)
        if planned is None:
            return None
        key, running = self.keys[contract], self.running.get(contract)
        why, since = (doubt.why, doubt.since) if doubt is not None else ("", 0.0)
        if planned.end_ms <= self.now:
            return Tile(key, planned, self.now, None, self.cell_of(planned), why, since)
        if planned.start_ms > self.now or running is None:
            return Tile(key, planned, self.now)
        meter = running.meter
        shown = meter.shown(meter.last if doubt is not None else running.time(self.now))
        if shown is None or meter.course is None:
            return Tile(key, planned, self.now, None, None, "the quantum could not be opened", time.time())
        now = t.now_of(shown, meter.course.since, meter.last, running.carried, running.fills)
        return Tile(key, planned, self.now, now, None, why, since, tuple(each.text for each in meter.problems))

    def tiles(self) -> list[Tile]:
        """The contracts of today, the worst first; worked out again where a call was made, the logs have changed, or some time has gone."""
        found = [tile for contract in self.by_contract if (tile := self.tile_kept(contract)) is not None]
        return sorted(found, key=lambda tile: tile.turn)

    def tile_kept(self, contract: Contract) -> Optional[Tile]:
        running, doubt = self.running.get(contract), self.doubt_of(contract)
        made = self.settlings, doubt, None if running is None else (running.starts, running.meter.calls, running.is_closed), self.now // TIMELY
        known = self.kept.get(contract)
        if known is None or known[0] != made:
            known = self.kept[contract] = made, self.tile(contract, doubt)
        return known[1]

    def states(self) -> list[Any]:
        """The state of each contract that runs: where one changes, pages are told at once."""
        return [running.meter.course and running.meter.course.state for running in self.running.values()]

    def contract_of(self, key: str) -> Contract:
        """The contract of that name that is due today, else the first one."""
        own = [contract for contract, name in self.keys.items() if name == key]
        due = [contract for contract in own if self.due(contract) is not None]
        return (due or own)[0]

    def next_start(self) -> Optional[Planned]:
        """The next quantum of the plan."""
        later = [each for plan in self.by_contract.values() for each in plan if each.start_ms > self.now]
        return min(later, key=lambda each: each.start_ms) if later else None

    @property
    def fee(self) -> int:
        return sum(month.fee for month in self.months.values())

    def remarks(self) -> list[Remark]:
        """What the logs had that was refused, unknown or skipped, and what the months refused, the newest first."""
        found = [remark_of(reason) for reader in self.files.readers for reason in [*reader.shared, *reader.book.reasons]]
        found += [remark_of(reason) for follower in self.orders.followers.values() for reason in follower.reasons]
        found += [remark for month in self.months.values() for remark in month.refused]
        for running in self.running.values():
            if not running.is_closed:
                problems = [f"{each.text} ({each.place})" for each in running.meter.problems]
                found += [Remark("refused", str(running.planned.date), running.planned.contract.symbol, text, "") for text in problems]
        return sorted(found, key=lambda remark: remark.date, reverse=True)

    def counts(self) -> dict[str, int]:
        """Messages, fills, rejects and duplicates of all logs."""
        counts = [reader.counts for reader in self.files.readers]
        return {
            "messages": sum(each.messages for each in counts), "rejects": sum(each.rejects + each.cancel_rejects for each in counts),
            "damaged": sum(each.damaged for each in counts), "fills": sum(each.fills for each in self.orders.followers.values()),
            "duplicates": sum(each.duplicates for each in self.orders.followers.values()), "late": self.late}


def in_turn(parts: list[Any]) -> Any:
    """The changes of several accounts in their order."""
    rows = np.concatenate(parts)
    return rows[np.argsort(rows["seq"], kind="stable")]


def place_of(planned: Planned) -> tuple[Contract, dt.date, int]:
    return planned.contract, planned.date, planned.quantum


def keys_of(contracts: list[Contract]) -> dict[Contract, str]:
    """A name for each contract that can be part of an address: its symbol, and its accounts where others have the same symbol on a day. A
    contract that rolls from one expiry to another keeps its name."""
    found: dict[Contract, str] = {}
    for each in contracts:
        others = [other for other in contracts if other != each and other.symbol == each.symbol and each.first <= other.last and other.first <= each.last]
        name = "-".join([each.symbol, *(each.accounts or ())]) if others else each.symbol
        found[each] = UNSAFE.sub("_", name)
    return found
