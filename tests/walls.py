"""What the tests of the wall share: the shipped desk with its logs cut at a moment, and the library's answers for a quantum then."""

import datetime as dt
import re
import shutil
from dataclasses import dataclass

from quoting.desk.desks import Desk
from quoting.desk.logs import reader_of, timelines_for
from quoting.exchange import milliseconds, quantum_of
from quoting.months import Month
from tests.paths import EXAMPLES

SHIPPED = EXAMPLES / "desk"
TIME = re.compile(rb"[\x01|]60=([0-9:.-]+)[\x01|]")
SENT = re.compile(rb"[\x01|]52=([0-9:.-]+)[\x01|]")


@dataclass(frozen=True)
class Line:
    """A line of a log, and its time in milliseconds since 1970: that of the message, or of its sending where it has none."""

    time: int
    data: bytes


def lines_of(path):
    found = []
    for line in path.read_bytes().splitlines(keepends=True):
        said = TIME.search(line) or SENT.search(line)
        found.append(Line(milliseconds(said[1].decode()), line))
    return found


def moment(text):
    """Milliseconds since 1970 of a time in Moscow.

    >>> moment("2026-11-02 10:00:00")
    1793602800000
    """
    zone = dt.timezone(dt.timedelta(hours=3))
    return int(1_000 * dt.datetime.fromisoformat(text).replace(tzinfo=zone).timestamp())


class Feed:
    """A copy of the shipped desk whose logs are written as time goes on."""

    def __init__(self, folder):
        shutil.copytree(SHIPPED, folder)
        self.path = folder / "desk.toml"
        self.logs = {path.name: lines_of(path) for path in sorted((folder / "logs").glob("*.log"))}
        self.folder = folder / "logs"
        self.written = {name: 0 for name in self.logs}
        for path in self.folder.glob("*.log"):
            path.unlink()

    def write(self, now, skip=lambda line: False):
        """The lines up to a moment that are not written yet; the lines skipped are handed back."""
        skipped = []
        for name, lines in self.logs.items():
            end = self.written[name]
            while end < len(lines) and lines[end].time <= now:
                end += 1
            new = lines[self.written[name] : end]
            skipped += [(name, line) for line in new if skip(line)]
            if new:
                self.append(name, [line for line in new if not skip(line)])
            self.written[name] = end
        return skipped

    def append(self, name, lines):
        with open(self.folder / name, "ab") as file:
            file.writelines(line.data for line in lines)

    def whole(self):
        return self.write(1 << 62)


def month_at(desk, planned, now):
    """The library's month of one quantum of a desk at a moment, by a reading of whole logs."""
    reader = reader_of(desk)
    reader.read(desk.logs)
    quantum = quantum_of(timelines_for(reader, planned.contract), planned.start_ms, now)
    month = Month()
    month.open(planned.row, planned.date.day, planned.spread, planned.lapses)
    for event in [*quantum.carried.events(), *quantum.events.events()]:
        month.call(event)
    month.tick(now - planned.start_ms)
    return month


def cells(found):
    """Cells by place, as they are compared."""
    return {(each.planned.date, each.planned.contract.symbol, each.planned.quantum): each.cell for each in found}


def settled(path):
    return Desk.load(path).settle()
