"""index.html: the client's page, with all instruments, their fees and the sum, put into the template index.html (Jinja2)."""

import datetime as dt
from dataclasses import dataclass
from typing import Any, Iterator, Optional, Sequence

from quoting import native, papers
from quoting.cells import ALLOWED, CAP, SERIES, Place
from quoting.desk.boards import Board
from quoting.desk.office import date_text, office_of
from quoting.desk.outputs import Result
from quoting.desk.second_reading import SecondReading
from quoting.desk.settlement import InstrumentMonth, Remark, Settled
from quoting.formats import counted, series_text, thousands
from quoting.statement.page import depth
from quoting.values import part_text, share_text

MOST_FILES = 30  # that are listed on the page; all are in inputs.sha256
MOST_REMARKS = 200


def money(kopecks: int) -> str:
    """Kopecks in roubles.

    >>> money(14_678_962)
    '146,789.62'
    """
    return f"{kopecks // 100:,}.{kopecks % 100:02}"


# ---------------------------------------------------------------- an instrument


@dataclass(frozen=True)
class Day:
    """A square of a calendar: None where there is no quantum."""

    date: dt.date
    cell: Optional[Settled]
    is_week: bool  # a new week begins

    @property
    def title(self) -> str:
        if self.cell is None:
            return f"{date_text(self.date)}: no quantum"
        cell = self.cell.cell
        result = f"met, weight {cell.weight:,}" if cell.met else "failed"
        return f"{date_text(self.date)}, {self.cell.planned.contract.symbol}: kept {part_text(cell.kept, cell.length)}, {result}" + (", eased" if self.cell.planned.is_eased else "")


@dataclass(frozen=True)
class Line:
    """An instrument as the page shows it."""

    month: InstrumentMonth
    symbols: str
    required: str
    reading: Optional[SecondReading]
    calendar: list[tuple[Place, list[Day]]]

    @property
    def met(self) -> int:
        return sum(each.cell.met for each in self.month.cells)

    @property
    def worst(self) -> Place:
        """The series with the most failures."""
        return SERIES[self.month.report.failed.index(self.month.failed)]

    @property
    def is_over(self) -> bool:
        return self.month.failed > ALLOWED

    def total(self, name: str) -> int:
        return sum(getattr(each, name) for each in self.month.cells)

    @property
    def recount_report(self) -> Any:
        from quoting import recounted

        last = self.reading.answers[-1] if self.reading and self.reading.answers else ""
        return recounted.report_of(last) if last.startswith("report") else None

    @property
    def recount_cells(self) -> int:
        return sum(answer.startswith("cell ") for answer in self.reading.answers) if self.reading else 0


def squares(month: InstrumentMonth, days: Sequence[dt.date], series: Place) -> Iterator[Day]:
    cells = {each.planned.date: each for each in month.cells if (each.planned.contract.expiry, each.planned.quantum) == series}
    before: Optional[dt.date] = None
    for day in days:
        yield Day(day, cells.get(day), before is not None and day.isocalendar()[1] != before.isocalendar()[1])
        before = day


def line_of(made: Result, month: InstrumentMonth, reading: Optional[SecondReading]) -> Line:
    desk = made.settlement.desk
    own = [each for each in desk.contracts if each.month == month.instrument]
    used: list[Place] = sorted({(each.planned.contract.expiry, each.planned.quantum) for each in month.cells})
    shares = sorted({int(each.cell.share) for each in month.cells})
    limit = desk.instrument_of(month.instrument).lapses
    required = f"required {' or '.join(map(share_text, shares))}, " if shares else ""
    days = [desk.date(day) for day in desk.days]
    calendar = [(series, list(squares(month, days, series))) for series in used]
    symbols = ", ".join(dict.fromkeys(each.symbol for each in own))
    return Line(month, symbols, required + ("no lapse limit" if limit is None else f"at most {counted(limit, 'lapse')}"), reading, calendar)


# ---------------------------------------------------------------- remarks


def folded(remarks: Sequence[Remark]) -> list[Remark]:
    """Remarks that say the same of several days as one."""
    days: dict[tuple[str, str, str, str], list[str]] = {}
    for each in remarks:
        days.setdefault((each.kind, each.where, each.what, each.effect), []).append(each.date)
    made = []
    for (kind, where, what, effect), dates in days.items():
        span = dates[0] if len(dates) == 1 else f"{dates[0]} to {dates[-1]} ({len(dates)} days)"
        made.append(Remark(kind, span, where, what, effect))
    return made


def kinds_text(remarks: Sequence[Remark]) -> str:
    """How many remarks are of which kind.

    >>> kinds_text([Remark("missing", "", "", "", ""), Remark("refused", "", "", "", ""), Remark("refused", "", "", "", "")])
    '1 missing, 2 refused'
    """
    kinds = dict.fromkeys(each.kind for each in remarks)
    return ", ".join(f"{sum(each.kind == kind for each in remarks)} {kind}" for kind in kinds)


# ---------------------------------------------------------------- boards


def below(made: Result, board: Board) -> str:
    """The strikes of a board that lack the share of each."""
    shares = made.settlement.desk.programme.instruments[board.instrument].board
    assert shares is not None
    lacking = [each for each in board.cells if 100 * each.cell.kept < shares[0] * each.cell.length]
    return ", ".join(f"{each.planned.contract.strike} {part_text(each.cell.kept, each.cell.length)}" for each in lacking)


# ---------------------------------------------------------------- the page


def plain_css(text: str) -> str:
    """A text for a string of CSS: characters that could end it are dropped."""
    return "".join(letter for letter in text if letter.isprintable() and letter not in "\"'\\<>&{}")


def html(made: Result, statements: Sequence[str] = ()) -> str:
    """The page; `statements` are the instruments that have a statement beside it."""
    settled = made.settlement
    desk = settled.desk
    readings: dict[str, SecondReading] = {each.instrument: each for each in made.readings}
    lines = [line_of(made, month, readings.get(month.instrument)) for month in settled.months]
    office = office_of(desk, made.logs)
    title = f"{desk.maker}: {desk.date(1):%B %Y}"
    remarks = folded(settled.remarks)
    text: str = papers.template("desk/index.html", n=thousands, money=money, depth=depth, series=series_text).render(
        title=title, made=made, desk=desk, lines=lines, office=office, facts=office.facts, files=office.files[:MOST_FILES], more_files=len(office.files) - MOST_FILES,
        boards=settled.boards, failed_boards=[each for each in settled.boards if not each.is_met], below=below, fee=settled.fee, remarks=remarks[:MOST_REMARKS], count=len(remarks), kinds=kinds_text(remarks), differences=made.differences, allowed=ALLOWED,
        cap=CAP, has_cap=any(line.month.fee == CAP for line in lines), was_recounted=bool(made.readings), read=made.logs,
        statements=set(statements), version=native.version(), date_text=date_text,
        foot=plain_css(f"{title}, {money(settled.fee)} roubles"))
    return text


def hashes(made: Result) -> str:
    """inputs.sha256: each input file with its SHA-256, as sha256sum prints and checks it."""
    return "".join(f"{each.sha256}  {each.name}\n" for each in office_of(made.settlement.desk, made.logs).files)
