"""A quantum of the plan as it runs: its calls on the library's month as the log's messages come, and what they leave at a moment."""

from collections import deque
from dataclasses import dataclass
from typing import Any, Optional, Sequence, Union

import numpy as np

from quoting import calls as c
from quoting.accounts import account
from quoting.answers import Answer
from quoting.cells import Place
from quoting.desk.desks import Desk
from quoting.desk.logs import work_of_lines
from quoting.desk.plan import Planned
from quoting.desk.quanta import DEAL, block_of
from quoting.events import LAYOUT, SIZE, split
from quoting.exchange.timelines import Places, Timeline
from quoting.month_sources import Sent
from quoting.native import Refused
from quoting.rows import Rule
from quoting.values import HOUR, MINUTE, SECOND
from quoting.wall.recounter import PLACE, Taken
from quoting.watch.meter import LISTED, Meter, Opened, Shown
from quoting.watch.sentences import Times

MANY = 500  # records from which on they are taken at once
SLICE = 1_000  # records of which the best quotes are found at a time


def zone_text(name: str) -> str:
    """A zone's name for people.

    >>> zone_text("Europe/Moscow"), zone_text("America/New_York"), zone_text("UTC"), zone_text("Etc/GMT+11")
    ('Moscow time', 'New York time', 'UTC', 'UTC-11')
    """
    if name.startswith("Etc/GMT"):  # whose signs are the other way round
        return "UTC" + name[len("Etc/GMT") :].translate(str.maketrans("+-", "-+"))
    last = name.rpartition("/")[2].replace("_", " ")
    return last if last.isupper() else f"{last} time"


class LocalMeter(Meter):
    """A meter whose times are the exchange's local ones."""

    def __init__(self, planned: Planned, price_step: object, zone: str) -> None:
        super().__init__(planned.contract.symbol, 0, price_step)  # type: ignore[arg-type]
        start = planned.start
        offset = start.hour * HOUR + start.minute * MINUTE + start.second * SECOND + start.microsecond // 1_000
        self.local = Times(offset, f" {zone}", True)

    def _open(self, place: Place, length: int, start: Optional[str]) -> None:
        self.times = self.local
        self.opened = Opened(place, length, start, self.local)


@dataclass
class Call:
    """A call that was made, and its answer: the recount gets both."""

    sent: Sent
    answer: Answer


def places_of(rows: Any) -> bytes:
    """The files' numbers and the lines of changes."""
    made = np.empty(len(rows), dtype=[("file", "<u2"), ("line", "<u4")])
    made["file"], made["line"] = rows["file"], rows["line"]
    return made.tobytes()


def ends_of(records: bytes) -> list[int]:
    """Where records of one time end, by their numbers.

    >>> from quoting.events import Tick, records
    >>> ends_of(records([Tick(1), Tick(1), Tick(2)]))
    [2, 3]
    """
    times = [each[1] for each in LAYOUT.iter_unpack(records)]
    return [at for at in range(1, len(times) + 1) if at == len(times) or times[at] != times[at - 1]]


class Running:
    """An open quantum. It starts over where a message comes with an earlier time than one before it."""

    def __init__(self, desk: Desk, planned: Planned, starts: int = 0) -> None:
        self.desk, self.planned, self.starts = desk, planned, starts
        self.step = desk.programme.instruments[planned.contract.instrument].step
        self.key = f"{planned.contract.symbol} {planned.date} {planned.quantum}"
        self.zone = zone_text(desk.programme.timezone)
        self.meter = LocalMeter(planned, self.step, self.zone)
        self.made: list[Union[Call, Taken]] = []  # since they were last taken
        self.carried = self.fills = 0
        self.is_closed = False
        self.is_coarse = False  # its course lacks the best quotes of earlier moments
        self.finer: Optional[Finer] = None

    def start(self, lines: Sequence[Timeline], came: float) -> None:
        """From its start, by everything that is known by now."""
        work = work_of_lines(self.desk, lines, self.planned)
        self.starts, self.is_closed, self.is_coarse, self.finer = self.starts + 1, False, False, None
        self.carried = len(work.carried) // SIZE
        self.meter, self.made, self.fills = self.fresh(), [], 0
        self.take(Sent(c.block(work.opened), "the open"), came)
        self.add_taken(Taken(work.carried, b"", {}), came)
        events = Taken(work.events, b"", {})
        if isinstance(work.places, Places):
            events = Taken(work.events, places_of(work.places.rows), dict(enumerate(work.places.files)))
        if len(events) > MANY:
            self.take_at_once(work.carried, events, came)
        elif len(events):
            self.add_taken(events, came)

    def fresh(self) -> LocalMeter:
        made = LocalMeter(self.planned, self.step, self.zone)
        made.opens, made.altered = self.meter.opens, self.meter.altered  # pages have parts of a day by these
        made.problems = deque(maxlen=LISTED)
        return made

    def take_at_once(self, carried: bytes, events: Taken, came: float) -> None:
        """Many records in less time: the library's account has the states, so that none is looked at by itself."""
        meter, rule = self.meter, Rule(self.planned.row, 0 if self.planned.sp is None else self.planned.sp)
        skipped = meter.month.apply(events.records, skip=True)
        refused = {refusal.place - 1: refusal.number for refusal in skipped.refusals}
        self.note(events, refused, came)
        kept = events.records if not refused else b"".join(record for at, record in enumerate(split(events.records)) if at not in refused)
        glance = meter.month.glance()
        assert glance is not None and meter.course is not None
        for stretch in account(rule, self.accepted(carried) + kept, self.planned.strike).stretches:
            if stretch.offset <= glance.time:
                meter.course.note(stretch.offset, stretch.state, None, None)
        meter.course.note(*glance)
        meter.calls, meter.came, self.is_coarse = meter.calls + len(events) - len(refused), came, True
        self.fills += events.records[::SIZE].count(DEAL)

    def accepted(self, carried: bytes) -> bytes:
        """The orders that rest at the start, without those that the month refused."""
        refused = {each.sent.block for each in self.made if isinstance(each, Call) and isinstance(each.answer, Refused)}
        return b"".join(record for record in split(carried) if block_of(record) not in refused) if refused else carried

    def note(self, events: Taken, refused: dict[int, int], came: float) -> None:
        """What the recount gets, and what was refused."""
        begin, texts = 0, list(events.texts()) if refused else []
        for at, number in refused.items():
            sent, answer = Sent(block_of(events.records[SIZE * at : SIZE * at + SIZE]), texts[at]), Refused.of(number)
            self.made += [events.part(begin, at), Call(sent, answer)]
            self.meter.refuse(sent, answer, came)
            begin = at + 1
        self.made.append(events.part(begin, len(events)))

    # ------------------------------------------------------------ as messages come

    def add(self, rows: Any, files: Sequence[str], came: float) -> None:
        """The next changes, none before an earlier one."""
        start, changes = self.planned.start_ms, rows.tolist()
        data = b"".join([LAYOUT.pack(kind, time - start, order, price, volume) for time, kind, order, price, volume, _, _, _ in changes])
        places = b"".join([PLACE.pack(change[5], change[6]) for change in changes])
        self.add_taken(Taken(data, places, {change[5]: files[change[5]] for change in changes}), came)
        if self.finer is not None:
            self.finer.records += data

    def add_taken(self, taken: Taken, came: float) -> None:
        """Records in their order; what is refused is a call of its own."""
        at = begin = 0
        for end in ends_of(taken.records):
            while at < end:
                at += self.meter.apply(taken.records[SIZE * at : SIZE * end], came)
                if at < end:
                    self.made.append(taken.part(begin, at))
                    self.take(Sent(block_of(taken.records[SIZE * at : SIZE * at + SIZE]), next(taken.part(at, at + 1).texts())), came)
                    at = begin = at + 1
        if begin < at:
            self.made.append(taken.part(begin, at))
        self.fills += taken.records[::SIZE].count(DEAL)

    def take(self, sent: Sent, came: float) -> None:
        self.made.append(Call(sent, self.meter.take(sent, came)))

    def close(self, came: float) -> None:
        """At its end, with the charges that are known."""
        charges = self.desk.charges_of(self.planned)
        self.take(Sent(c.block(c.Close(charges.active, charges.passive) if charges else c.Close(0, 0)), "the close"), came)
        self.is_closed, self.finer = True, None

    def taken(self) -> list[Union[Call, Taken]]:
        """The calls that were made since this was asked last."""
        made, self.made = [each for each in self.made if isinstance(each, Call) or len(each)], []
        return made

    # ------------------------------------------------------------ the best quotes of earlier moments

    def refine(self, lines: Sequence[Timeline]) -> None:
        """Where it was started at once: from now on `refine_on` finds the best quotes too, for the contract's page. No figure changes."""
        if self.is_coarse and not self.is_closed and self.finer is None:
            work = work_of_lines(self.desk, lines, self.planned)
            self.finer = Finer(self.fresh(), bytearray(work.carried + work.events))
            self.finer.meter.take(Sent(c.block(work.opened), "the open"), self.meter.came)

    def refine_on(self) -> bool:
        """Some records more; whether there are others."""
        if self.finer is None:
            return False
        if not self.finer.go_on(self.meter.came):
            return True
        self.meter.course, self.is_coarse, self.finer = self.finer.meter.course, False, None
        return False

    # ------------------------------------------------------------ what is shown

    def time(self, now: int) -> int:
        """Milliseconds from its start."""
        return now - self.planned.start_ms

    def shown(self, now: int) -> Optional[Shown]:
        return self.meter.shown(self.time(now))


@dataclass
class Finer:
    """A quantum that is gone through again, some records at a time, while it runs on."""

    meter: LocalMeter
    records: bytearray
    at: int = 0

    def go_on(self, came: float) -> bool:
        """Whether all records are done."""
        part = bytes(self.records[SIZE * self.at : SIZE * (self.at + SLICE)])
        begin = 0
        for end in ends_of(part):
            while begin < end:
                taken = self.meter.apply(part[SIZE * begin : SIZE * end], came)
                begin += taken + (begin + taken < end)  # what is refused was said before
        self.at += begin
        return SIZE * self.at >= len(self.records)
