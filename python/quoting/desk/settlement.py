"""A desk settled: the cells of each instrument's month, its failures and its fee, and everything that was missing or refused.

An instrument's month is one list of calls on a fresh month of the proved library: quantum by quantum, each from its open to its close, in
the order of cells.csv. Two expiries run at the same time, and the list has one after the other: a quantum's cell and refusals are those
that it has in a fresh month of its own, and any other order of the quanta gives the same cells, failure counts and fee (`each_as_alone` and
`any_order` in crates/requests/proofs/OwnMonth.antt; W9 says the latter where no call is refused).
"""

from collections import Counter
from dataclasses import dataclass, field, replace
from typing import Any, Iterator, Sequence

from quoting.answers import WORDS, Cell, MonthReport, answer_of, line
from quoting.cells import CELLS, SHOW_ALL, Place
from quoting.desk import boards, frames
from quoting.desk.desks import Desk
from quoting.desk.plan import Planned
from quoting.desk.quanta import Work, answers_of, deals_of, without_deals
from quoting.events import SIZE
from quoting.native import Refused



@dataclass(frozen=True)
class Remark:
    """Something that was missing, refused or skipped: the day and what it is about, a sentence, and its effect. One that is no reason
    for status 1 is a note."""

    kind: str  # missing, refused, skipped or note
    date: str
    where: str
    what: str
    effect: str

    @property
    def text(self) -> str:
        about = " ".join(filter(None, (self.date, self.where)))
        return f"{about + ': ' if about else ''}{self.what}" + (f"; {self.effect}" if self.effect else "")

    @property
    def is_reason(self) -> bool:
        return self.kind != "note"


@dataclass(frozen=True)
class Settled:
    """A cell of the month, with what the logs had for it."""

    planned: Planned
    cell: Cell
    carried: int
    events: int
    fills: int
    dealt: int
    refused: int
    is_decided: bool = False  # without the quantum's fills the verdict would be another


@dataclass(frozen=True)
class InstrumentMonth:
    """An instrument's month, of an option one strike's (`INSTRUMENT.STRIKE`): its cells in the order of cells.csv, the proved month's report, and its list of calls."""

    instrument: str
    cells: list[Settled]
    report: MonthReport
    works: list[Work] = field(repr=False)
    refused: list[Remark] = field(default_factory=list)

    @property
    def failed(self) -> int:
        """The largest failure count of a series."""
        return max(self.report.failed)

    @property
    def fee(self) -> int:
        return self.report.fee

    @property
    def calls(self) -> bytes:
        """The month's list of calls: its quanta, then a look at each of its cells and a report."""
        return b"".join([*(work.blocks for work in self.works), *(work.look for work in self.works), SHOW_ALL[-1]])

    @property
    def calls_shown(self) -> bytes:
        """The month's quanta, then a look at every cell and a report: what both readings answer."""
        return b"".join([*(work.blocks for work in self.works), *SHOW_ALL])

    def answers(self) -> list[str]:
        """The proved month's answers to `calls_shown`, as `replay` prints them."""
        words = answers_of(self.calls_shown, self.size + len(SHOW_ALL))
        kinds = words[::WORDS]
        return ["accepted" if kind == 0 else line(answer_of(words[WORDS * at : WORDS * (at + 1)])) for at, kind in enumerate(kinds)]

    @property
    def size(self) -> int:
        return sum(work.size for work in self.works)


@dataclass(frozen=True)
class Settlement:
    """A desk's month, settled."""

    desk: Desk
    months: list[InstrumentMonth]
    remarks: list[Remark]
    boards: list["boards.Board"] = field(default_factory=list)

    @property
    def cells(self) -> list[Settled]:
        """All cells, sorted by date, instrument, expiry and quantum."""
        found = [cell for month in self.months for cell in month.cells]
        return sorted(found, key=lambda each: (each.planned.date, each.planned.contract.instrument, each.planned.contract.expiry, each.planned.quantum, each.planned.contract.symbol))

    def cell_frame(self) -> Any:
        """The cells as a DataFrame, with the columns of cells.csv."""
        from quoting.desk import tables

        return frames.frame(tables.CELL_COLUMNS, [tables.cell_fields(each) for each in self.cells])

    def month_frame(self) -> Any:
        """The instruments' months as a DataFrame, with the columns of months.csv."""
        return frames.frame(["instrument", "failed", "fee"], [(month.instrument, month.failed, month.fee) for month in self.months])

    @property
    def reasons(self) -> list[Remark]:
        """Why the status is 1."""
        return [remark for remark in self.remarks if remark.is_reason]

    @property
    def fee(self) -> int:
        return sum(month.fee for month in self.months)


# ---------------------------------------------------------------- an instrument


def month_of(instrument: str, works: list[Work]) -> InstrumentMonth:
    """The month of an instrument's quanta, by one run of the library over its calls."""
    size = sum(work.size for work in works)
    words = answers_of(b"".join([*(work.blocks for work in works), *SHOW_ALL]), size + len(SHOW_ALL))
    refusals = refused_in(words, works)
    cells: list[Settled] = []
    wrong: list[Remark] = []
    unfilled = verdicts_unfilled(works)
    for place, work in enumerate(works):
        at = size + CELLS.index(work.cell)
        cell = answer_of(words[WORDS * at : WORDS * (at + 1)])
        found = refusals.get(place, [])
        wrong += remarks_of(work, found)
        if isinstance(cell, Cell):
            counts = len(work.carried) // SIZE, len(work.events) // SIZE, *deals_of(work.events), len(found)
            cells.append(Settled(work.planned, cell, *counts, unfilled.get(work.cell, cell.met) != cell.met))
        else:
            wrong.append(Remark("refused", str(work.planned.date), name_of(work.planned), str(cell), "the quantum has no cell"))
    report = answer_of(words[-WORDS:])
    assert isinstance(report, MonthReport)
    return InstrumentMonth(instrument, cells, report, works, wrong)


def verdicts_unfilled(works: list[Work]) -> dict[Place, bool]:
    """By cell: whether it would be met if nothing had been dealt in its quantum."""
    bare = [replace(work, events=without_deals(work.events), places=()) for work in works]
    size = sum(work.size for work in bare)
    words = answers_of(b"".join([*(work.blocks for work in bare), *SHOW_ALL]), size + len(SHOW_ALL))
    looks = {place: answer_of(words[WORDS * at : WORDS * (at + 1)]) for at, place in enumerate(CELLS, start=size)}
    return {place: cell.met for place, cell in looks.items() if isinstance(cell, Cell)}


def refused_in(words: Sequence[int], works: list[Work]) -> dict[int, list[tuple[int, int]]]:
    """By a quantum's place among all: its refused calls, each by its place in the quantum and the refusal's number."""
    kinds, numbers = words[0::WORDS], words[1::WORDS]
    found: dict[int, list[tuple[int, int]]] = {}
    first = 0
    for place, work in enumerate(works):
        if 1 in kinds[first : first + work.size]:
            found[place] = [(at, numbers[first + at]) for at in range(work.size) if kinds[first + at] == 1]
        first += work.size
    return found


def name_of(planned: Planned) -> str:
    return f"{planned.contract.symbol}, quantum {planned.quantum}"


def remarks_of(work: Work, refused: list[tuple[int, int]]) -> Iterator[Remark]:
    """One remark for each number by which calls of a quantum were refused."""
    counts = Counter(number for _, number in refused)
    for number, count in counts.items():
        first = next(at for at, each in refused if each == number)
        more = f", and {count - 1:,} more of this quantum" if count > 1 else ""
        what = f"{Refused.of(number)} ({work.place_of(first)}{more})"
        yield Remark("refused", str(work.planned.date), name_of(work.planned), what, "the call changed nothing")


# ---------------------------------------------------------------- what is missing


def missing_charges(desk: Desk, plan: Sequence[Planned]) -> Iterator[Remark]:
    for each in plan:
        if desk.charges_of(each) is None:
            yield Remark("missing", str(each.date), name_of(each), f"{desk.charge_file} has no line for this quantum", "both charges are taken as 0")


def refused_days(plan: Sequence[Planned]) -> Iterator[Remark]:
    """The days whose rows stay as they are because W12 refuses the prices before them, each once."""
    found: dict[tuple[str, str], Refused] = {}
    for each in plan:
        if each.volatility is not None and each.volatility.refused is not None:
            found[str(each.date), each.contract.symbol] = each.volatility.refused
    for (day, symbol), refused in found.items():
        yield Remark("refused", day, symbol, str(refused), "the row is not eased")


def unused_charges(desk: Desk, plan: Sequence[Planned]) -> Iterator[Remark]:
    """Lines of charges of the month that belong to no quantum, all in one note."""
    used = {(each.date, each.contract.symbol, each.quantum) for each in plan}
    own = [each for key, each in desk.charges.items() if key not in used and (each.date.year, each.date.month) == (desk.year, desk.month)]
    if own:
        first = own[0]
        what = f"{desk.charge_file}: line {first.line} belongs to no quantum" + (f", and {len(own) - 1:,} more like it" if len(own) > 1 else "")
        yield Remark("note", str(first.date), f"{first.symbol}, quantum {first.quantum}", what, "not charged")


def dated(remarks: Sequence[Remark]) -> list[Remark]:
    """Remarks in order of their days; those of one day stay in their order."""
    return sorted(remarks, key=lambda remark: remark.date)


# ---------------------------------------------------------------- a desk


def settle(desk: Desk, works: Sequence[Work], found: Sequence[Remark] = ()) -> Settlement:
    """Settles all instruments; `found` are the remarks of the logs."""
    plan = desk.plan()
    by_instrument: dict[str, list[Work]] = {name: [] for name in sorted({each.month for each in desk.contracts})}
    for work in works:
        by_instrument[work.planned.contract.month].append(work)
    months = [month_of(name, own) for name, own in by_instrument.items()]
    refused = [remark for month in months for remark in month.refused]
    judged, unjudged = boards.judged(desk, months)
    remarks = [*missing_charges(desk, plan), *refused_days(plan), *found, *refused, *unjudged, *unused_charges(desk, plan)]
    return Settlement(desk, months, dated(remarks), judged)
