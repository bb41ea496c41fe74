"""The course of a month: every call on the proved month of the library, and the same calls by the recount.

The state and the best quotes after each event are the library's (`Month.glance`); a stretch lasts until they change.
"""

from dataclasses import dataclass, field
from itertools import zip_longest
from typing import Optional, Sequence

from quoting import calls as c
from quoting import recounted
from quoting.answers import Answer, Cell, MonthReport, line
from quoting.cells import CELLS, SERIES, SHOW_ALL, Place
from quoting.events import Add, Amend, Cancel, Deal, Tick
from quoting.formats import call_text
from quoting.month_sources import Listed, Sent
from quoting.months import Glance, Month
from quoting.native import Refused
from quoting.states import State, Stretch

EVENTS = (Add, Amend, Cancel, Deal, Tick, c.Commit, c.Message)


@dataclass
class Quantum:
    """A quantum's course: the open, and what is seen after its open and after its events, up to its close."""

    opened: c.Open
    start: Optional[str]
    glances: list[Glance] = field(default_factory=lambda: [Glance(0, State.NEITHER, None, None)])

    @property
    def cell(self) -> Place:
        return self.opened.day, self.opened.words[0], self.opened.words[1]

    def see(self, glance: Glance) -> None:
        """Of several events at one time the last one counts."""
        if self.glances[-1].time == glance.time:
            self.glances.pop()
        self.glances.append(glance)

    def stretches(self, length: int) -> list[Stretch]:
        """The stretches of one state, each as long as it can be."""
        found: list[Stretch] = []
        for glance, end in zip(self.glances, [*(each.time for each in self.glances[1:]), length]):
            if found and found[-1].state == glance.state:
                found[-1] = found[-1]._replace(length=end - found[-1].offset)
            elif end > glance.time:
                found.append(Stretch(glance.time, end - glance.time, glance.state))
        return found


def lapses_of(stretches: Sequence[Stretch]) -> list[list[Stretch]]:
    """What was not kept, joined where it touches."""
    found: list[list[Stretch]] = []
    before = State.KEPT
    for stretch in stretches:
        if stretch.state != State.KEPT and before == State.KEPT:
            found.append([])
        if stretch.state != State.KEPT:
            found[-1].append(stretch)
        before = stretch.state
    return found


# ---------------------------------------------------------------- a reading


@dataclass(frozen=True)
class RefusedCall:
    """A refused call: its number, its place, its line, the cell that was open, the refusal."""

    number: int
    place: str
    text: str
    cell: Optional[Place]
    refused: Refused


NOTHING = MonthReport(False, 0, 0, None, None, 0, 0, (0,) * len(SERIES), 0)


@dataclass
class Reading:
    """What one reading answers: lines to each call of the month, to a look at each cell and to a report; and those cells and that report
    as values."""

    answers: list[str]
    cells: dict[Place, Cell]
    report: MonthReport

    @property
    def refused(self) -> int:
        return sum(answer.startswith("refused") for answer in self.answers[: -len(SHOW_ALL)])


@dataclass
class Course:
    """The proved month's reading, with what the page shows of each closed quantum and of each refused call."""

    quanta: dict[Place, Quantum] = field(default_factory=dict)
    refused_calls: list[RefusedCall] = field(default_factory=list)
    opened: Optional[Quantum] = None

    def take(self, month: Month, number: int, sent: Sent, answer: Answer) -> None:
        """Follows a call and its answer."""
        if isinstance(answer, Refused):
            cell = self.opened.cell if self.opened else None
            self.refused_calls.append(RefusedCall(number, sent.place, call_text(sent.block), cell, answer))
            return
        call = c.call_of(sent.block)
        if isinstance(call, c.Open):
            self.opened = Quantum(call, sent.start)
        elif isinstance(call, EVENTS) and self.opened is not None:
            if isinstance(call, c.Message):
                self.opened.start = call.start.decode("latin-1")
            glance = month.glance()
            assert glance is not None
            self.opened.see(glance)
        elif isinstance(call, c.Withdraw):
            self.quanta.pop((call.day, call.expiry, call.quantum), None)
        elif isinstance(call, (c.Close, c.Drop)) and self.opened is not None:
            if isinstance(call, c.Close):
                self.quanta[self.opened.cell] = self.opened
            self.opened = None


def by_meter(listed: Listed) -> tuple[Reading, Course]:
    """The reading of the library's month."""
    course, answers = Course(), []
    with Month() as month:
        for number, sent in enumerate(listed.calls, start=1):
            answer = month.block(sent.block)
            answers.append(line(answer))
            course.take(month, number, sent, answer)
        looks = [month.block(look) for look in SHOW_ALL]
    cells = {place: cell for place, cell in zip(CELLS, looks) if isinstance(cell, Cell)}
    report = looks[-1]
    assert isinstance(report, MonthReport)
    return Reading([*answers, *map(line, looks)], cells, report), course


def by_recount(listed: Listed) -> Reading:
    """The recount's reading of the same bytes. One that stops before the end shows nothing."""
    answers = recounted.answer_lines(b"".join([sent.block for sent in listed.calls] + SHOW_ALL))
    looks = answers[-len(SHOW_ALL) :]
    if not looks or not looks[-1].startswith("report"):
        return Reading(answers, {}, NOTHING)
    cells = {place: recounted.cell_of(look) for place, look in zip(CELLS, looks) if look.startswith("cell")}
    return Reading(answers, cells, recounted.report_of(looks[-1]))


def first_difference(ours: Reading, theirs: Reading) -> Optional[tuple[int, str, str]]:
    """The first call, counted from 1, on which the readings differ, with both answers; a look or a report after the list may be it."""
    for number, (left, right) in enumerate(zip_longest(ours.answers, theirs.answers, fillvalue="nothing"), start=1):
        if left != right:
            return number, left, right
    return None
