"""The page: the figures put into the template page.html (Jinja2), one self-contained file without a script."""

from dataclasses import dataclass, field
from typing import Any, Optional

from quoting import native, papers
from quoting.cells import ALLOWED, CAP, CELLS, DAYS, DIVISOR, SERIES
from quoting.formats import brief, place_text, roubles, thousands
from quoting.month_sources import Listed
from quoting.statement import figures
from quoting.statement.course import Course, Reading, RefusedCall, by_meter, by_recount, first_difference
from quoting.statement.figures import Fee, Shown
from quoting.values import clock, part_text


@dataclass(frozen=True)
class InputFile:
    name: str
    size: int
    sha256: str


@dataclass(frozen=True)
class Office:
    """What an office signs beside the figures: facts as pairs of a name and a text, the input files, the versions in one sentence, and
    what was refused, skipped or missing, a sentence each."""

    facts: list[tuple[str, str]]
    files: list[InputFile]
    versions: str
    remarks: list[str] = field(default_factory=list)


@dataclass(frozen=True)
class Statement:
    """A month with both readings; `faults` are sentences about figures that do not fit together, which should never happen."""

    title: str
    listed: Listed
    meter: Reading
    recount: Reading
    course: Course
    fee: Fee
    quanta: list[Shown]
    office: Optional[Office] = None

    @property
    def first_difference(self) -> Optional[tuple[int, str, str]]:
        return first_difference(self.meter, self.recount)

    @property
    def faults(self) -> list[str]:
        found = [fault for fault in map(figures.unsound, self.quanta) if fault]
        if self.fee.due != self.meter.report.fee:
            found.append(f"the sum over the cells makes {self.fee.due} kopecks, and the meter's fee is {self.meter.report.fee}")
        return found

    @property
    def differs(self) -> bool:
        return self.first_difference is not None or bool(self.faults)

    @property
    def is_whole(self) -> bool:
        """Nothing was refused or left out, and the readings agree."""
        remarks = self.office.remarks if self.office else []
        return not (self.differs or self.course.refused_calls or self.listed.left or self.listed.reports or remarks)


def statement(title: str, listed: Listed) -> Statement:
    """Runs both readings."""
    meter, course = by_meter(listed)
    quanta = [figures.shown(course.quanta[place], cell) for place, cell in meter.cells.items() if place in course.quanta]
    return Statement(title, listed, meter, by_recount(listed), course, Fee.of(meter.cells), quanta)


# ---------------------------------------------------------------- into the template


def small(time: str) -> str:
    """A time with its thousandths in small."""
    whole, _, rest = time.partition(".")
    return f"{whole}<small>.{rest}</small>" if rest else whole


def where(call: RefusedCall) -> str:
    return place_text(call.cell) if call.cell else "no quantum open"


def depth(weight: int) -> int:
    """How strong a met cell's colour is, in percent: faint for 10,000, strong for 20,000."""
    return 14 + (weight - 10_000) * 41 // 10_000


def difference_text(made: Statement) -> str:
    """Where the readings differ first."""
    if made.first_difference is None:
        return ""
    number, ours, theirs = made.first_difference
    calls = made.listed.calls
    if number <= len(calls):
        place = f"call {number:,}, {calls[number - 1].place}"
    elif number <= len(calls) + len(CELLS):
        place = f"the cell of {place_text(CELLS[number - len(calls) - 1])}"
    else:
        place = "the report at the end"
    return f"They differ first at {place}: the meter answers “{ours}”, the recount “{theirs}”."


def template() -> Any:
    return papers.template(
        "statement/page.html", n=thousands, roubles=roubles, clock=clock, brief=brief, depth=depth, safe_svg=papers.safe,
        small=lambda time: papers.safe(small(time)), exact=lambda time: papers.safe(small(clock(time))))


def html(made: Statement) -> str:
    """The page."""
    cells = made.meter.cells
    by_series = [(series, [each for each in made.quanta if each.place[1:] == series]) for series in SERIES]
    met = sum(cell.met for cell in cells.values())
    text: str = template().render(
        made=made, fee=made.fee, report=made.meter.report, cells=cells, days=DAYS, series=SERIES, met=met,
        by_series=[pair for pair in by_series if pair[1]], both=figures.compared(made.meter, made.recount),
        difference=difference_text(made), where=where, part=part_text, charge_sum=figures.charge_sum, term=figures.term,
        cap=CAP, divisor=DIVISOR, allowed=ALLOWED, version=native.version(), foot=foot_text(made))
    return text


def foot_text(made: Statement) -> str:
    """The foot of each printed page, a string of CSS: characters that could end it are dropped."""
    title = "".join(letter for letter in made.title if letter.isprintable() and letter not in "\"'\\<>&{}")
    fee = "Not settled" if made.differs else f"Fee {roubles(made.meter.report.fee)}"
    return f"Statement: {title}. {fee}{', without what the exchange answered' if made.listed.reports.answers else ''}."
