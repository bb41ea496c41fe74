"""cells.csv and months.csv: the settled cells and the instruments' months, a line each (docs/FORMATS.md, "A desk")."""

from typing import Sequence

from quoting.answers import verdict_text
from quoting.desk.settlement import InstrumentMonth, Settled
from quoting.settling import csv_line

CELL_COLUMNS = (
    "date", "instrument", "symbol", "expiry", "quantum", "table", "eased", "sp", "kept", "length", "share", "lapses", "limit", "verdict", "weight",
    "active", "passive",
)
MONTH_COLUMNS = ("instrument", "failed", "fee")


def cell_fields(each: Settled) -> tuple[object, ...]:
    planned, cell = each.planned, each.cell
    contract, limit = planned.contract, "" if cell.limit is None else cell.limit
    return (
        planned.date, contract.instrument, contract.symbol, contract.expiry, planned.quantum, planned.table, "yes" if planned.is_eased else "no",
        "" if planned.sp is None else planned.sp, cell.kept, cell.length, int(cell.share), cell.lapses, limit, verdict_text(cell.met), cell.weight, cell.active, cell.passive)


def csv_text(columns: Sequence[str], rows: Sequence[Sequence[object]]) -> str:
    return csv_line(columns) + "".join(csv_line(map(str, row)) for row in rows)


def cells_csv(cells: Sequence[Settled]) -> str:
    return csv_text(CELL_COLUMNS, [cell_fields(each) for each in cells])


def months_csv(months: Sequence[InstrumentMonth]) -> str:
    return csv_text(MONTH_COLUMNS, [(month.instrument, month.failed, month.fee) for month in months])
