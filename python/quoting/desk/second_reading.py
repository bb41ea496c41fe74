"""The recount's reading of an instrument's month: the same calls, by recount/main.py in a process of its own."""

import subprocess
import sys
from concurrent.futures import ThreadPoolExecutor
from dataclasses import dataclass
from itertools import zip_longest
from typing import Iterator, Optional, Sequence

from quoting.cells import CELLS
from quoting.desk.settlement import InstrumentMonth
from quoting.formats import place_text
from quoting.native import ROOT, Missing

PROGRAM = ROOT / "recount" / "main.py"


@dataclass(frozen=True)
class SecondReading:
    """What the recount answers to a month's calls, to a look at every cell and to a report, a line each; and the first call, counted from 1, on
    which the readings differ, with both answers."""

    instrument: str
    answers: list[str]
    difference: Optional[tuple[int, str, str]]

    @property
    def agrees(self) -> bool:
        return self.difference is None

    def sentence(self, month: InstrumentMonth) -> str:
        """Where the readings differ first."""
        assert self.difference is not None
        number, ours, theirs = self.difference
        place = f"call {number:,}"
        if number > month.size:
            at = number - month.size - 1
            place = f"the cell of {place_text(CELLS[at])}" if at < len(CELLS) else "the report"
        return f"THE PROVED METER AND THE RECOUNT DIFFER first at {place} of {self.instrument}: the meter answers {ours!r}, the recount {theirs!r}"


def first_difference(ours: Sequence[str], theirs: Sequence[str]) -> Optional[tuple[int, str, str]]:
    for number, (left, right) in enumerate(zip_longest(ours, theirs, fillvalue="nothing"), start=1):
        if left != right:
            return number, left, right
    return None


def read(month: InstrumentMonth) -> SecondReading:
    """The recount's reading of one instrument, compared with the meter's."""
    if not PROGRAM.exists():
        raise Missing("the recount is in the tree (recount/) and is not part of an installed package: --no-recount settles without it")
    done = subprocess.run([sys.executable, str(PROGRAM), "replay"], input=month.calls_shown, stdout=subprocess.PIPE, check=False)
    answers = done.stdout.decode("ascii", "replace").splitlines()
    return SecondReading(month.instrument, answers, first_difference(month.answers(), answers))


def read_all(months: Sequence[InstrumentMonth], at_once: int) -> Iterator[SecondReading]:
    """The recount's readings in the order of the instruments, several processes at once."""
    with ThreadPoolExecutor(max(1, at_once)) as pool:
        yield from pool.map(read, months)


