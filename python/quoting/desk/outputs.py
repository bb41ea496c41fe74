"""What `quoting desk settle` writes into its folder. Each file is written whole or not at all, the page that names the others last."""

import os
from dataclasses import dataclass, field
from pathlib import Path
from typing import Callable, Optional

from quoting import output
from quoting.desk import boards, logs, second_reading, settlement, tables
from quoting.desk.desks import Desk
from quoting.desk.logs import LogsRead
from quoting.desk.second_reading import SecondReading
from quoting.desk.settlement import InstrumentMonth, Remark, Settlement

SMALL = 200_000  # calls of a desk up to which the recount is run and the statements are made unless it is said otherwise


@dataclass(frozen=True)
class Manner:
    """What is made beside the tables; None: where the desk is small."""

    recount: Optional[bool] = None
    statements: Optional[bool] = None
    pdf: bool = False


@dataclass
class Result:
    """A settled desk with what was read beside it. `readings` is empty where the recount was not run."""

    settlement: Settlement
    logs: LogsRead
    readings: list[SecondReading] = field(default_factory=list)

    @property
    def size(self) -> int:
        return sum(month.size for month in self.settlement.months)

    @property
    def differences(self) -> list[str]:
        pairs = zip(self.settlement.months, self.readings)
        return [reading.sentence(month) for month, reading in pairs if not reading.agrees]

    @property
    def reasons(self) -> list[str]:
        """Why the status is 1, a sentence each."""
        return [*self.differences, *(remark.text for remark in self.settlement.reasons)]

    @property
    def notes(self) -> list[str]:
        return [remark.text for remark in self.settlement.remarks if not remark.is_reason]

    def remarks_of(self, month: InstrumentMonth) -> list[Remark]:
        """The remarks that name a symbol of an instrument, and those that are about the whole desk."""
        desk = self.settlement.desk
        names = {each.symbol for each in desk.contracts if each.month == month.instrument}
        return [remark for remark in self.settlement.remarks if remark.where in ("", desk.maker) or remark.where.split(",")[0] in names]


@dataclass(frozen=True)
class Watcher:
    """Who hears of the progress: of the logs' size, of the bytes read of them, and of each instrument that the recount has read."""

    begins: Callable[[int], None] = logs.ignore
    read: Callable[[int], None] = logs.ignore
    recounted: Callable[[str], None] = lambda name: None


def settle(desk: Desk, manner: Manner = Manner(), watcher: Watcher = Watcher()) -> Result:
    """Reads the logs, settles, and has the recount read the same calls."""
    watcher.begins(sum(path.stat().st_size for path in desk.logs))
    read = logs.read(desk, watcher.read)
    made = Result(settlement.settle(desk, read.works, read.remarks), read)
    if manner.recount or (manner.recount is None and made.size <= SMALL and second_reading.PROGRAM.exists()):
        for reading in second_reading.read_all(made.settlement.months, os.cpu_count() or 1):
            made.readings.append(reading)
            watcher.recounted(reading.instrument)
    return made


def tables_of(made: Result) -> dict[str, bytes]:
    """The tables and the lists of calls by their files' names."""
    months = made.settlement.months
    found = {f"{month.instrument}.calls": month.calls for month in months}
    if made.settlement.desk.has_boards():
        found["boards.csv"] = boards.csv_text(made.settlement.boards).encode()
    return {**found, "cells.csv": tables.cells_csv(made.settlement.cells).encode(), "months.csv": tables.months_csv(months).encode()}


def tables_of_names(made: Result) -> list[str]:
    more = ["boards.csv"] if made.settlement.desk.has_boards() else []
    return [*(f"{month.instrument}.calls" for month in made.settlement.months), "cells.csv", "months.csv", *more]


def write(folder: Path, files: dict[str, bytes]) -> None:
    folder.mkdir(parents=True, exist_ok=True)
    for name, data in files.items():
        output.replace_file(folder / name, [data])
