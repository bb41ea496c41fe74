"""A statement for each instrument of a settled desk: the month's page (quoting.statement) with what an office signs."""

from dataclasses import replace
from typing import Iterator

from quoting import recounted
from quoting.calls import blocks
from quoting.cells import CELLS, SHOW_ALL
from quoting.desk.index import folded
from quoting.desk.office import office_of
from quoting.desk.outputs import Result
from quoting.desk.quanta import Work
from quoting.desk.second_reading import SecondReading
from quoting.desk.settlement import InstrumentMonth
from quoting.month_sources import Listed, Sent
from quoting.statement import figures
from quoting.statement.course import NOTHING, Reading, by_meter
from quoting.statement.figures import Fee
from quoting.statement.page import Statement, html


def sent_of(work: Work) -> Iterator[Sent]:
    """The calls of a quantum, each with its place; the open has the start by the local clock."""
    found, _ = blocks(work.blocks)
    start = f"{work.planned.start:%Y%m%d-%H:%M:%S}.000"
    for at, block in enumerate(found):
        yield Sent(block, work.place_of(at), start if at == 0 else None)


def listed_of(month: InstrumentMonth) -> Listed:
    """The month's calls."""
    calls = [sent for work in month.works for sent in sent_of(work)]
    return Listed(month.instrument, calls)


def reading_of(second: SecondReading) -> Reading:
    """The recount's answers as a reading."""
    looks = second.answers[-len(SHOW_ALL) :]
    if not looks or not looks[-1].startswith("report"):
        return Reading(second.answers, {}, NOTHING)
    cells = {place: recounted.cell_of(look) for place, look in zip(CELLS, looks) if look.startswith("cell")}
    return Reading(second.answers, cells, recounted.report_of(looks[-1]))


def statement_of(made: Result, month: InstrumentMonth, second: SecondReading) -> Statement:
    desk, listed = made.settlement.desk, listed_of(month)
    meter, course = by_meter(listed)
    quanta = [figures.shown(course.quanta[place], cell) for place, cell in meter.cells.items() if place in course.quanta]
    title = f"{desk.maker}, {month.instrument}, {desk.date(1):%B %Y}"
    remarks = [remark.text for remark in folded(made.remarks_of(month))]
    office = replace(office_of(desk, made.logs, month.instrument), remarks=remarks)
    return Statement(title, listed, meter, reading_of(second), course, Fee.of(meter.cells), quanta, office)


def pages(made: Result) -> Iterator[tuple[str, Statement, str]]:
    """Each instrument's name, its statement and the page; a statement compares two readings, so there are none without the recount."""
    for month, second in zip(made.settlement.months, made.readings):
        found = statement_of(made, month, second)
        yield month.instrument, found, html(found)
