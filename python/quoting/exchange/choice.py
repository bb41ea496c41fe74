"""What the commands share that read logs: their options, the one symbol and account of a quantum, and what people are told of a log."""

import argparse
from collections import Counter
from dataclasses import dataclass, field
from decimal import Decimal
from typing import Iterator, Optional, Sequence

from quoting import reading, values
from quoting.exchange.book import Source
from quoting.exchange.reader import SOURCES, LogReader
from quoting.exchange.timelines import Timeline
from quoting.selection import NAMES, listed

MOST_LISTED = 50  # reasons that are listed
READ_BY_REQUESTS = (
    "the log is read by its requests. They count as accepted, and nothing as traded, so quotes may be overstated. "
    "Read it by its reports (--from reports), or do not settle by these figures")


@dataclass(frozen=True)
class LogOptions:
    """Which messages of logs are read, and how. `steps` has the price steps of symbols that have their own."""

    source: Source = "auto"
    step: Decimal = Decimal(1)
    steps: dict[str, Decimal] = field(default_factory=dict)
    symbol: Optional[str] = None
    account: Optional[str] = None

    def reader(self) -> LogReader:
        accounts = None if self.account is None else [self.account]
        if self.symbol is not None:
            return LogReader({self.symbol: self.steps.get(self.symbol, self.step)}, accounts, self.source)
        return LogReader(self.steps, accounts, self.source, usual=self.step)


def add_source(parser: argparse.ArgumentParser, with_fix: str = "") -> None:
    parser.add_argument("--from", dest="source", choices=SOURCES, default="auto", help=f"{with_fix}what counts: the exchange's reports (35=8), "
                        "the requests (35=D, F, G), or reports where the log has any (auto, the default)")  # fmt: skip


def read_logs(names: Sequence[str], options: LogOptions) -> LogReader:
    reader = options.reader()
    feed_logs(reader, names)
    return reader


def feed_logs(reader: LogReader, names: Sequence[str]) -> None:
    """The logs, one after the other; - is standard input."""
    for name in names:
        if name == reading.STANDARD:
            reader.feed(name, reading.read_bytes(name), True)
        else:
            try:
                reader.read([name])
            except OSError as error:
                raise reading.failed(error.strerror or str(error), name) from None


def chosen(reader: LogReader, symbol: Optional[str], account: Optional[str]) -> list[Timeline]:
    """The timelines of one symbol and account; none where nothing was read.

    Raises:
        ValueError: There are several, and none is named; or the named one is not there, and others are.
    """
    found = list(reader.timelines.values())
    for what, given in (("symbol", symbol), ("account", account)):
        names = sorted({getattr(each, what) for each in found}, key=lambda name: (not name, name))
        counts = Counter({name: sum(len(each) for each in found if getattr(each, what) == name) for name in names})
        named = Counter({name or "none": count for name, count in counts.items()})
        if given is None and len(counts) > 1:
            raise ValueError(f"it has messages of more than one {NAMES[what]}: {listed(named)}. Name one with --{what}")
        if given is not None and given not in counts:
            there = named or Counter({pair[what == "account"] or "none": count for pair, count in reader.others.items()})
            if there:
                raise ValueError(f"no message has the {NAMES[what]} {given}; there are: {listed(there)}")
        found = [each for each in found if given is None or getattr(each, what) == given]
    return found


@dataclass
class Unread:
    """The answers of the exchange (35=8, 9, 3, j) in logs that are read by their requests: those that may be of the symbol and account."""

    answers: int = 0

    def __bool__(self) -> bool:
        return bool(self.answers)

    def head(self) -> str:
        return f"{plural(self.answers, 'answer')} of the exchange (35=8, 9, 3, j)"

    def sentence(self) -> str:
        return f"{self.head()}, since {READ_BY_REQUESTS}."


def unread(reader: LogReader) -> Unread:
    counts = reader.counts
    return Unread(counts.unread + counts.types["3"] + counts.types["j"] if reader.by == "requests" else 0)


# ---------------------------------------------------------------- what people are told


def plural(count: int, one: str, several: str = "") -> str:
    return f"{count:,} {one if count == 1 else several or one + 's'}"


def is_whole(reader: LogReader) -> bool:
    """Whether something was read, and nothing was refused or left out."""
    return bool(reader.counts.moves and not reader.reasons and not unread(reader))


def has_result(reader: LogReader) -> bool:
    """Whether something could be read: an order changed, or none was meant to. A log whose every message is refused has no quantum, not an
    empty one."""
    return bool(reader.timelines or (reader.counts.moves and not reader.reasons))


def faults(reader: LogReader) -> Iterator[str]:
    """What makes the figures doubtful, a line each."""
    reasons = reader.reasons
    yield from map(str, reasons[:MOST_LISTED])
    if len(reasons) > MOST_LISTED:
        yield f"{len(reasons) - MOST_LISTED:,} more kinds of faults are not listed, the last one at {reasons[-1].file}: line {reasons[-1].line}"
    if unread(reader):
        yield f"NOT IN THE FIGURES: {unread(reader).sentence()}"
    if not reader.counts.messages:
        yield "there is no message (nothing starts with 8=FIX.)"
    elif not reader.counts.moves:
        what = "execution report (35=8)" if reader.by == "reports" else "request (35=D, F or G)"
        yield f"no {what} is read"


def nothing(reader: LogReader) -> str:
    """Why nothing of the logs can be read, as one sentence."""
    there = Counter({" ".join(filter(None, pair)) or "none": count for pair, count in reader.others.items()})
    others = [f"the messages are of {listed(there)}"] if there else []
    return "; ".join(["nothing of the logs can be read", *faults(reader), *others])


def remarks(reader: LogReader) -> Iterator[str]:
    """What else was in the logs, a line each."""
    counts = reader.counts
    if reader.by == "reports":
        late = plural(counts.cancel_rejects, "rejected cancel or replace", "rejected cancels or replaces")
        parts = [plural(counts.fills, "fill"), plural(counts.rejects, "reject"), late, plural(counts.duplicates, "repeated report")]
        yield f"read by reports: {plural(counts.moves, 'change')}, {', '.join(parts)}; {plural(counts.requests, 'request')} not read"
    for kind, count in sorted(counts.types.items()):
        yield f"{plural(count, 'message')} of type {values.brief(kind)!r} skipped"
    for (symbol, account), count in sorted(reader.others.items()):
        yield f"{plural(count, 'message')} of {' '.join(name for name in (symbol, account) if name) or 'none'} skipped"
