"""The logs of a desk: read once, and cut into the quanta of the plan."""

from dataclasses import dataclass
from datetime import datetime, timedelta
from hashlib import sha256
from pathlib import Path
from typing import Callable, Iterator, Optional, Sequence
from zoneinfo import ZoneInfo

from quoting.desk.contracts import Contract
from quoting.desk.desks import Desk
from quoting.desk.plan import Planned
from quoting.desk.quanta import Work
from quoting.desk.settlement import Remark
from quoting.exchange import LogReader, Reason, Timeline, Why, quantum_of

PIECE = 1 << 20  # bytes of a log that are read at once
SKIPPED = (Why.FRAME, Why.FIELD, Why.STEP, Why.ORDER_TYPE, Why.EXEC_TYPE)
Progress = Callable[[int], None]  # takes the bytes that were read


def ignore(count: int) -> None:
    pass


@dataclass(frozen=True)
class LogsRead:
    """The quanta with their records, what was wrong with the logs, and how many messages of which kind they had."""

    works: list[Work]
    remarks: list[Remark]
    messages: int
    duplicates: int
    rejects: int
    by: str
    files: dict[str, tuple[int, str]]  # each log's size and SHA-256


def accounts_of(contracts: list[Contract]) -> dict[str, Optional[set[str]]]:
    """The accounts that are read of each symbol, of all its contracts together; None: every account."""
    found: dict[str, Optional[set[str]]] = {}
    for each in contracts:
        known = found.get(each.symbol, set())
        found[each.symbol] = None if known is None or each.accounts is None else known | set(each.accounts)
    return found


def reader_of(desk: Desk) -> LogReader:
    steps = {each.symbol: desk.programme.instruments[each.instrument].step for each in desk.contracts}
    return LogReader(steps, accounts_of(desk.contracts))


def feed(reader: LogReader, path: Path, name: str, step: Progress) -> tuple[int, str]:
    """A whole log, piece by piece; its size and SHA-256."""
    size, hashed = 0, sha256()
    with open(path, "rb") as file:
        while data := file.read(PIECE):
            reader.feed(name, data, False)
            hashed.update(data)
            size += len(data)
            step(len(data))
        reader.feed(name, b"", True)
    return size, hashed.hexdigest()


def timelines_for(reader: LogReader, contract: Contract) -> list[Timeline]:
    """The orders of a contract: of its accounts, or of all."""
    return [line for (symbol, account), line in reader.timelines.items() if symbol == contract.symbol and (contract.accounts is None or account in contract.accounts)]


def work_of(desk: Desk, reader: LogReader, planned: Planned) -> Work:
    return work_of_lines(desk, timelines_for(reader, planned.contract), planned)


def work_of_lines(desk: Desk, lines: Sequence[Timeline], planned: Planned) -> Work:
    quantum = quantum_of(lines, planned.start_ms, planned.end_ms)
    return Work(planned, desk.charges_of(planned), quantum.carried.data, quantum.events.data, quantum.events.places)


def read(desk: Desk, step: Progress = ignore) -> LogsRead:
    """Reads all logs of a desk."""
    reader = reader_of(desk)
    names = {each.path: each.name for each in desk.inputs}
    files = {names[path]: feed(reader, path, names[path], step) for path in desk.logs}
    works = [work_of(desk, reader, each) for each in desk.plan()]
    counts = reader.counts
    remarks = [*remarks_of(reader), *missing_days(desk, reader)]
    return LogsRead(works, remarks, counts.messages, counts.duplicates, counts.rejects + counts.cancel_rejects, reader.by, files)


# ---------------------------------------------------------------- what was wrong


def remarks_of(reader: LogReader) -> Iterator[Remark]:
    if reader.by == "requests":
        yield Remark("missing", "", "", "the logs have no execution report of these symbols", "the requests were read, as if all had been accepted and nothing dealt")
    yield from map(remark_of, reader.reasons)


def missing_days(desk: Desk, reader: LogReader) -> Iterator[Remark]:
    """The days with quanta on which no message of the logs was sent: a log is lost, or was not given. A desk that did not quote has a log
    all the same, with its logon."""
    zone = ZoneInfo(desk.programme.timezone)
    for day in sorted({each.date for each in desk.plan()}):
        midnights = (datetime.combine(each, datetime.min.time(), zone).timestamp() for each in (day, day + timedelta(days=1)))
        begin, end = (int(each) * 1000 for each in midnights)
        if not reader.has_messages(begin, end):
            effect = "its quanta are settled as if nobody had quoted"
            yield Remark("missing", str(day), desk.maker, "no message of the logs is of this day, so a log of it is missing", effect)


def remark_of(reason: Reason) -> Remark:
    """A reason of the logs' reader."""
    account = f", account {reason.account}" if reason.account else ""
    refused = f"refused {reason.number}: " if reason.number else ""
    more = f", and {reason.count - 1:,} more like it" if reason.count > 1 else ""
    kind = "skipped" if reason.why in SKIPPED else "refused"
    return Remark(kind, reason.date, f"{reason.symbol}{account}", f"{refused}{reason.file}: line {reason.line}: {reason.sentence}{more}", "")
