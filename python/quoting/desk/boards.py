"""Boards of strikes (W4): for each day, expiry and quantum of an option all its strikes' cells, with the library's verdict."""

import datetime as dt
from dataclasses import dataclass
from typing import TYPE_CHECKING, Sequence

from quoting.answers import verdict_text
from quoting.calculations import board
from quoting.desk.desks import Desk
from quoting.native import Refused
from quoting.settling import csv_line

if TYPE_CHECKING:
    from quoting.desk.settlement import InstrumentMonth, Remark, Settled

COLUMNS = ("date", "instrument", "expiry", "quantum", "strikes", "verdict")


@dataclass(frozen=True)
class Board:
    date: dt.date
    instrument: str
    expiry: int
    quantum: int
    cells: list["Settled"]
    is_met: bool

    @property
    def fields(self) -> tuple[object, ...]:
        return self.date, self.instrument, self.expiry, self.quantum, len(self.cells), verdict_text(self.is_met)


Key = tuple[dt.date, str, int, int]


def judged(desk: Desk, months: Sequence["InstrumentMonth"]) -> tuple[list[Board], list["Remark"]]:
    """The boards, sorted by date, instrument, expiry and quantum, and a remark for each that has not all strikes."""
    from quoting.desk.settlement import Remark

    by_place: dict[Key, dict[str, "Settled"]] = {}
    for month in months:
        for each in month.cells:
            contract = each.planned.contract
            if contract.strike:
                by_place.setdefault((each.planned.date, contract.instrument, contract.expiry, each.planned.quantum), {})[contract.strike] = each
    made, remarks = [], []
    for key in sorted(by_place):
        day, name, expiry, quantum = key
        shares, strikes, found = desk.programme.instruments[name].board, desk.programme.instruments[name].strikes, by_place[key]
        where = f"{name}, expiry {expiry}, quantum {quantum}"
        missing = [strike for strike in strikes if strike not in found]
        if shares is None:
            continue
        if missing:
            remarks.append(Remark("missing", str(day), where, f"no cell of strike {', '.join(missing)}", "no board"))
            continue
        cells = [found[strike] for strike in strikes]
        try:
            made.append(Board(*key, cells, board([(each.cell.kept, each.cell.length) for each in cells], *shares)))
        except Refused as refused:
            remarks.append(Remark("refused", str(day), where, str(refused), "no board"))
    return made, remarks


def csv_text(boards: Sequence[Board]) -> str:
    """boards.csv."""
    return csv_line(COLUMNS) + "".join(csv_line(map(str, each.fields)) for each in boards)
