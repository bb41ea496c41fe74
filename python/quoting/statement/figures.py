"""The figures of a statement as the page shows them, all from a reading's cells and report."""

from dataclasses import dataclass
from typing import Optional, Sequence

from quoting import calls as c
from quoting.answers import Cell
from quoting.cells import ALLOWED, CAP, DIVISOR, SERIES, SHOW_ALL, Place
from quoting.formats import place_text, spread_text, thousands, time_of_day
from quoting.statement.course import Quantum, Reading, lapses_of
from quoting.statement.picture import picture
from quoting.states import State, Stretch
from quoting.values import clock, share_text

LISTED = 8  # lines of lapses beside a picture, so that eight or nine quanta are on a printed page


def charge_sum(cell: Cell) -> int:
    return 2 * cell.active + 3 * cell.passive


def term(cell: Cell) -> int:
    """What a cell adds to the fee's sum."""
    return charge_sum(cell) * cell.weight


# ---------------------------------------------------------------- the fee


@dataclass(frozen=True)
class Fee:
    """The fee worked out step by step from a reading's cells."""

    sums: dict[Place, int]
    failed: dict[Place, int]

    @classmethod
    def of(cls, cells: dict[Place, Cell]) -> "Fee":
        series: dict[Place, list[Cell]] = {each: [cell for place, cell in cells.items() if place[1:] == each] for each in SERIES}
        sums = {each: sum(map(term, found)) for each, found in series.items()}
        return cls(sums, {each: sum(not cell.met for cell in found) for each, found in series.items()})

    @property
    def sum(self) -> int:
        return sum(self.sums.values())

    @property
    def quotient(self) -> int:
        return self.sum // DIVISOR

    @property
    def rest(self) -> int:
        return self.sum % DIVISOR

    @property
    def over(self) -> list[Place]:
        """The series with more failed quanta than are allowed."""
        return [each for each, count in self.failed.items() if count > ALLOWED]

    @property
    def due(self) -> int:
        return 0 if self.over else min(self.quotient, CAP)


# ---------------------------------------------------------------- both readings


@dataclass(frozen=True)
class Compared:
    """A figure by both readings."""

    name: str
    meter: str
    recount: str

    @property
    def same(self) -> bool:
        return self.meter == self.recount


def totals(reading: Reading, calls: int) -> list[tuple[str, str]]:
    cells = list(reading.cells.values())
    met = sum(cell.met for cell in cells)
    return [
        ("calls read", thousands(calls)), ("of them refused", thousands(reading.refused)), ("quanta closed", str(len(cells))),
        ("met", str(met)), ("failed", str(len(cells) - met)), ("failed in each series", " ".join(map(str, reading.report.failed))),
        ("time kept, all quanta", clock(sum(cell.kept for cell in cells))), ("lapses, all quanta", thousands(sum(cell.lapses for cell in cells))),
        ("sum of (2A + 3P) × w", thousands(sum(map(term, cells)))), ("fee, kopecks", thousands(reading.report.fee)),
    ]


def compared(meter: Reading, recount: Reading) -> list[Compared]:
    """Both readings' figures, those that differ first."""
    sizes = [max(0, len(reading.answers) - len(SHOW_ALL)) for reading in (meter, recount)]
    pairs = zip(totals(meter, sizes[0]), totals(recount, sizes[1]))
    rows = [Compared(name, ours, theirs) for (name, ours), (_, theirs) in pairs]
    return sorted(rows, key=lambda row: row.same)


# ---------------------------------------------------------------- a closed quantum


@dataclass(frozen=True)
class Lapse:
    number: int
    begins: str
    length: str
    why: str


@dataclass(frozen=True)
class Shown:
    """A closed quantum as the page shows it."""

    place: Place
    cell: Cell
    rule: str
    spread: str
    hours: str
    svg: str
    account: list[tuple[State, int]]
    count: int  # of the lapses that are drawn
    lapses: list[Lapse]
    more: str

    @property
    def id(self) -> str:
        return "c{}-{}-{}".format(*self.place)

    @property
    def why(self) -> str:
        """What failed it."""
        cell = self.cell
        if cell.met:
            return ""
        if cell.limit is not None and cell.lapses > cell.limit:
            return f", too many lapses: {cell.lapses} of {cell.limit}"
        return f", below {share_text(cell.share)}"

    @property
    def limit(self) -> str:
        return "no limit" if self.cell.limit is None else f"of {self.cell.limit} allowed"


def rule_text(opened: c.Open) -> str:
    """The row in words."""
    _, _, _, least, a, b, share = opened.words
    limit = "no lapse limit" if opened.lapses == c.NO_LIMIT else f"at most {opened.lapses} lapses"
    spread = f"spread {a // 1000}.{a % 1000:03}% of SP or {b} steps"
    if isinstance(opened.spread, c.Strike):
        spread = "spread by the strike's rule"
    return f"least volume {thousands(least)}, {spread}, required {share_text(share)}, {limit}"


def hours_text(quantum: Quantum, length: int) -> str:
    first = time_of_day(quantum.start)
    return f"{clock(first)} to {clock(first + length)}" if quantum.start else f"{clock(length)} long"


def lapse_rows(stretches: Sequence[Stretch], first: int) -> tuple[list[Lapse], str]:
    """The lapses, of many the longest alone, and what is said of the others."""
    found = list(enumerate(lapses_of(stretches), start=1))
    size = {at: sum(part.length for part in lapse) for at, lapse in found}
    shown = set(sorted(size, key=lambda at: (-size[at], at))[: LISTED if len(found) <= LISTED else LISTED - 1])
    rows = [
        Lapse(at, clock(first + lapse[0].offset), clock(size[at]), ", ".join(dict.fromkeys(part.state.label for part in lapse)))
        for at, lapse in found
        if at in shown
    ]
    rest = [size[at] for at in size if at not in shown]
    return rows, f"and {len(rest)} others, {clock(sum(rest))} in all" if rest else ""


def shown(quantum: Quantum, cell: Cell) -> Shown:
    stretches = quantum.stretches(cell.length)
    account = [(state, sum(part.length for part in stretches if part.state == state)) for state in State]
    rows, more = lapse_rows(stretches, time_of_day(quantum.start))
    svg = picture(quantum, stretches, cell.length)
    return Shown(
        quantum.cell, cell, rule_text(quantum.opened), spread_text(quantum.opened.spread), hours_text(quantum, cell.length), svg, account,
        len(lapses_of(stretches)), rows, more)


def unsound(each: Shown) -> Optional[str]:
    """What is wrong where the stretches that are drawn do not have the kept time and the lapses of the cell."""
    if (dict(each.account)[State.KEPT], each.count) != (each.cell.kept, each.cell.lapses):
        return f"{place_text(each.place)}: the stretches drawn are not those of the cell"
    return None
