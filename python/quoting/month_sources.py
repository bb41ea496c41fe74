r"""Where a month's calls come from: a list (text or bytes), a list with the events of FIX logs put in, or a folder of sessions.

In a text `start TIME` or `start TIME SYMBOL` before an open says when its quantum starts. The orders that rest then, and the events of the
logs from then to the quantum's end, of that symbol (55) where one is named, then follow the open.
"""

import re
from collections import Counter
from dataclasses import dataclass, field
from pathlib import Path
from typing import Optional, Sequence

from quoting import calls as c
from quoting import exchange, fix, inputs, reading, texts, values
from quoting.events import SIZE
from quoting.exchange import choice
from quoting.exchange.choice import LogOptions, Unread
from quoting.reading import Options, TextError
from quoting.rows import HEAD, Rule
from quoting.selection import NAMES
from quoting.selection import listed as listed_names

NAME = re.compile(r"([0-9]{1,2})-([0-9])-([0-9])\.(session|csv|bin|txt)")
CHARGES = "charges.csv"
CHARGE_COLUMNS = ["day", "expiry", "quantum", "active", "passive", "lapses"]
PLACED_BEFORE = "start is written: start YYYYMMDD-HH:MM:SS.sss, with the symbol (55) after it if need be, and an open follows"


@dataclass(frozen=True)
class Sent:
    """A call of the month, where it comes from, and for an open when its quantum starts, as far as it is known."""

    block: bytes
    place: str
    start: Optional[str] = None


@dataclass
class Listed:
    """All calls of a month; what was left out, a sentence each; what the exchange answered in the logs, where these are read by their
    requests; and what else was read from the logs or skipped without loss, a sentence each."""

    name: str
    calls: list[Sent] = field(default_factory=list)
    left: list[str] = field(default_factory=list)
    reports: Unread = field(default_factory=Unread)
    skipped: list[str] = field(default_factory=list)


# ---------------------------------------------------------------- a list


@dataclass(frozen=True)
class Span:
    """A quantum that takes the events of logs: when it starts and ends, in milliseconds since 1970."""

    start: str
    symbol: Optional[str]
    begins: int
    ends: int


class ListReader:
    """Gathers the calls of a text, and the quanta that take messages after their opens."""

    def __init__(self, name: str, options: Options, symbol: Optional[str] = None) -> None:
        self.options, self.listed, self.symbol = options, Listed(name), symbol
        self.started: Optional[tuple[str, Optional[bytes]]] = None
        self.spans: dict[int, Span] = {}  # by the number of calls up to the open

    def read(self, text: str) -> None:
        for at, name, words in reading.lines(text):
            try:
                self.take(at, name, words)
            except TextError as error:
                error.line, error.file = error.line or at, self.listed.name
                raise
        if self.started is not None:
            raise reading.failed(PLACED_BEFORE, self.listed.name)

    def take(self, at: int, name: str, words: list[str]) -> None:
        if name == "start":
            if self.started is not None:
                raise TextError(PLACED_BEFORE)
            self.started = start_of(words)
            return
        block = texts.block_of(name, words, self.options)
        if c.blocks(block) != ([block], len(block)):
            raise TextError("these words are not one call")
        start = self.started[0] if self.started else None
        self.listed.calls.append(Sent(block, f"line {at}", start))
        if self.started is not None:
            start_time, symbol = self.started
            named = symbol.decode("utf-8", "surrogateescape") if symbol else self.symbol
            self.spans[len(self.listed.calls)] = span_of(start_time, named, c.call_of(block))
        self.started = None

    def with_events(self, events: dict[int, list[Sent]]) -> Listed:
        """The list with each quantum's events after its open."""
        whole = Listed(self.listed.name, [], self.listed.left, self.listed.reports, self.listed.skipped)
        for count, sent in enumerate(self.listed.calls, start=1):
            whole.calls.append(sent)
            whole.calls += events.get(count, [])
        return whole


def start_of(words: list[str]) -> tuple[str, Optional[bytes]]:
    if len(words) not in (1, 2):
        raise TextError(PLACED_BEFORE)
    try:
        fix.moment(words[0])
    except ValueError as error:
        raise TextError(f"start: {error}") from None
    return words[0], words[1].encode() if len(words) == 2 else None


def span_of(start: str, symbol: Optional[str], opened: Optional[c.Call]) -> Span:
    if not isinstance(opened, c.Open):
        raise TextError(PLACED_BEFORE)
    begins = exchange.milliseconds(start)
    length = opened.words[2] if len(opened.words) > 2 else 0
    return Span(start, symbol, begins, begins + length)


def text_list(name: str, text: str, options: Options, log_names: Sequence[str], log_options: LogOptions) -> Listed:
    reader = ListReader(name, options, log_options.symbol)
    reader.read(text)
    if not log_names:
        return reader.listed
    symbols = [span.symbol for span in reader.spans.values()]
    steps = {symbol: log_options.step for symbol in symbols if symbol is not None}
    accounts = None if log_options.account is None else [log_options.account]
    logs = exchange.LogReader(steps, accounts, log_options.source, usual=log_options.step if None in symbols or not symbols else None)
    choice.feed_logs(logs, log_names)
    if not choice.has_result(logs):
        raise reading.failed(choice.nothing(logs), log_names[0])
    carried, events = 0, {}
    try:
        for count, span in reader.spans.items():
            quantum = exchange.quantum_of(lines_for(logs, span), span.begins, span.ends)
            carried += len(quantum.carried)
            events[count] = [*sent_of(quantum.carried), *sent_of(quantum.events)]
    except ValueError as error:
        raise reading.failed(f"the quantum that starts {span.start}: {error}", name) from None
    listed = reader.listed
    listed.left += choice.faults(logs)
    listed.reports = choice.unread(logs)
    listed.skipped += [*choice.remarks(logs), *([f"{choice.plural(carried, 'order')} carried in, over all quanta"] if carried else [])]
    return reader.with_events(events)


def lines_for(logs: exchange.LogReader, span: Span) -> list[exchange.Timeline]:
    """The one symbol and account that a quantum counts.

    Raises:
        ValueError: There are several, and none is named.
    """
    found = [line for line in logs.timelines.values() if span.symbol in (None, line.symbol)]
    found = [line for line in found if line.first_after(span.ends) > line.first_at(span.begins) or line.carried(span.begins)]
    for what in ("symbol", "account"):
        counts = Counter({getattr(line, what) or "none": line.first_after(span.ends) - line.first_at(span.begins) for line in found})
        if len(counts) > 1:
            raise ValueError(f"it has messages of more than one {NAMES[what]}: {listed_names(counts)}. Name one with --{what}")
    return found


def sent_of(records: exchange.Records, first: int = 0) -> list[Sent]:
    """The events from one on as calls of the month."""
    rest = exchange.Records(records.data[first * SIZE :], records.places[first:] if first else records.places)
    return [Sent(c.block(event), f"{file}: line {line}") for event, (file, line) in zip(rest.events(), rest.places)]


def from_list(name: str, options: Options, log_names: Sequence[str] = (), log_options: LogOptions = LogOptions()) -> Listed:
    """The calls of a list of any form. Of the logs the chosen account is read; the chosen symbol is that of quanta that name none."""
    data = reading.read_bytes(name)
    if not reading.holds_bytes(data):
        return text_list(name, reading.whole_text(data, options, name), options, log_names, log_options)
    if log_names:
        raise reading.failed("messages are put into a text, which says when each quantum starts, and this list is bytes", name)
    found = inputs.calls_of(name, data, options)
    made = Listed(name, [Sent(placed.block, f"call {at}") for at, placed in enumerate(found.blocks, start=1)])
    if found.stop:
        made.left.append(f"{name}: stopped at word {found.stop}: no call is there, and nothing after it is read")
    return made


# ---------------------------------------------------------------- a folder of sessions


@dataclass(frozen=True)
class Charged:
    """What the office adds to a session: both charges in kopecks, and a lapse limit."""

    active: int
    passive: int
    lapses: int = c.NO_LIMIT


def charges_of(path: Path, options: Options) -> dict[tuple[int, ...], Charged]:
    """A file of charges: day,expiry,quantum,active,passive, and lapses where there is a limit."""
    found: dict[tuple[int, ...], Charged] = {}
    header: Optional[list[str]] = None
    for at, line in enumerate(reading.split_lines(reading.whole_text(path.read_bytes(), options, str(path))), start=1):
        cells = texts.csv_cells(line)
        if not any(cells):
            continue
        if header is None:
            header = cells
            if header not in (CHARGE_COLUMNS, CHARGE_COLUMNS[:5]):
                raise reading.failed(f"the columns are {','.join(CHARGE_COLUMNS)}, the last one if there are limits", str(path), at)
            continue
        try:
            cell, charged = charge_of(header, cells)
        except TextError as error:
            error.line, error.file = at, str(path)
            raise
        if cell in found:
            raise reading.failed("this day, expiry and quantum have two lines", str(path), at)
        found[cell] = charged
    return found


def charge_of(header: list[str], cells: list[str]) -> tuple[tuple[int, ...], Charged]:
    given = reading.columns("a line", cells, " ".join(header))
    spans = {"active": values.LONG, "passive": values.LONG}
    limit = given.pop("lapses", "") or "none"
    numbers = [reading.number(word, spans.get(name, values.WORD), name) for name, word in given.items()]
    lapses = c.NO_LIMIT if limit == "none" else reading.number(limit, values.WORD, "lapses")
    return tuple(numbers[:3]), Charged(numbers[3], numbers[4], lapses)


def session_calls(path: Path, day: int, charged: Charged, options: Options) -> list[Sent]:
    """A session as an open, its events and a close."""
    head, events = inputs.events_of(str(path), path.read_bytes(), options)
    if len(head) < HEAD.size:
        raise reading.failed(f"a session has at least {HEAD.size} bytes, and this one {len(head)}", str(path))
    rule = Rule.of_bytes(head)
    made = [Sent(c.block(c.Open(rule.row.words, day, rule.sp, charged.lapses)), str(path))]
    for at, event in enumerate(events, start=1):
        if event is None:
            raise reading.failed(f"record {at} is not an event", str(path))
        made.append(Sent(c.block(event), f"{path}: record {at}"))
    return [*made, Sent(c.block(c.Close(charged.active, charged.passive)), f"{path}: close")]


def from_sessions(folder: str, charges: Optional[str], options: Options) -> Listed:
    """The sessions of a folder, named DAY-EXPIRY-QUANTUM with the ending .session, .csv, .bin or .txt, in that order."""
    charged = charges_of(Path(charges) if charges else Path(folder) / CHARGES, options)
    listed, cells = Listed(folder), set()
    named = [(path, NAME.fullmatch(path.name)) for path in Path(folder).iterdir() if path.is_file() and not path.name.startswith(".")]
    listed.left += [f"{path}: not named DAY-EXPIRY-QUANTUM" for path, name in sorted(named) if name is None and path.name != CHARGES]
    for cell, path in sorted((tuple(map(int, name.groups()[:3])), path) for path, name in named if name is not None):
        if cell in cells or cell not in charged:
            what = "a second file of this cell" if cell in cells else "the file of charges has no line for it"
            raise reading.failed(what, str(path))
        cells.add(cell)
        made = session_calls(path, cell[0], charged[cell], options)
        opened = c.call_of(made[0].block)
        assert isinstance(opened, c.Open)
        if tuple(opened.words[:2]) != cell[1:]:
            raise reading.failed(f"its row has expiry {opened.words[0]} and quantum {opened.words[1]}", str(path))
        listed.calls += made
    listed.left += [f"charges of day {d}, expiry {e}, quantum {q}: there is no session" for d, e, q in sorted(set(charged) - cells)]
    return listed
