"""FIX logs as timelines: a reader that is fed the bytes of the logs, one file after the other, in pieces of any size."""

from collections import Counter
from decimal import Decimal
from importlib.util import find_spec
from pathlib import Path
from typing import TYPE_CHECKING, Any, Iterable, Iterator, Literal, Mapping, Optional, Union

from quoting.exchange import fields as f
from quoting.exchange.book import Accounts, Book, Counts, Scope, Settled, Source, reason_of
from quoting.exchange.fields import Move, Unreadable, Values
from quoting.exchange.messages import Fields, Lines, messages
from quoting.exchange.orders import ABSENT, NOTHING, REMOVED, Orders, Terms, kind_of
from quoting.exchange.reasons import Reason, Reasons, Why
from quoting.exchange.timelines import Change, Timeline, array_of

if TYPE_CHECKING or find_spec("numpy"):
    from quoting.exchange.bulk import Bulk, is_bulk_available
else:

    def is_bulk_available() -> bool:
        return False


SOURCES = ("reports", "requests", "auto")
HOUR = 3_600_000
PIECE = 1 << 20  # bytes of a file that are read at once
REPORT, REJECT, REQUESTS = b"8", b"9", (b"D", b"F", b"G")


class LogReader:
    """Reads the symbols of `steps`, each with its price step; of `accounts` (for all symbols, or by symbol) those that are listed.

    `source` says what counts: the exchange's reports (35=8), the requests (D, F, G), or reports where the logs have any of these symbols
    and accounts ("auto"). With `usual` the symbols that are not in `steps` are read too, by that step. Many messages are read at once
    where numpy and the library's scan are there; with `is_fast=False` one at a time, as otherwise, which gives the same.
    """

    def __init__(
        self,
        steps: Mapping[str, Union[Decimal, str]],
        accounts: Accounts = None,
        source: Source = "auto",
        usual: Union[None, Decimal, str] = None,
        is_fast: Optional[bool] = None,
    ) -> None:
        if source not in SOURCES:
            raise ValueError(f"source: {source!r} is none of {', '.join(SOURCES)}")
        self.scope, self.source = Scope(steps, accounts, usual), source
        self.files: list[str] = []
        self.rest, self.lines = b"", Lines()
        self.line = self.seq = 0  # of the message that is read
        self.reports, self.requests, self.shared = Book(), Book(), Reasons()
        self.counts = Counts()
        self.has_reports = False
        self.hours: set[int] = set()  # since 1970, in which any message was sent (52) or one of ours is dated (60)
        self.settled: Optional[Settled] = None
        self.is_open = False
        self.bulk = Bulk(self) if is_bulk_available() and is_fast is not False else None

    # ------------------------------------------------------------ bytes

    def feed(self, name: str, data: bytes, is_final: bool) -> None:
        """The next bytes of a log; the last ones of it where `is_final`. One log after the other.

        Raises:
            ValueError: The log before this one was not ended.
        """
        self.begin(name)
        self.is_open = not is_final
        whole = self.rest + data if self.rest else data
        read = self.take(whole, is_final) if self.bulk is None else self.bulk.take(whole, is_final)
        self.rest = whole[read:]

    def begin(self, name: str) -> None:
        """The next bytes are of that log."""
        if self.is_open and self.files[-1] != name:
            raise ValueError(f"{name}: the bytes of {self.files[-1]} are not ended yet")
        if not self.is_open:
            self.files.append(name)
            self.rest, self.lines = b"", Lines()
        self.settled = None

    def read(self, paths: Iterable[Union[str, Path]]) -> None:
        """Whole files, in this order."""
        for path in paths:
            with open(path, "rb", buffering=0) as file:
                while True:
                    if self.bulk is not None and not self.is_open:
                        self.begin(str(path))
                        self.bulk.read(file, PIECE)
                        break
                    data = file.read(PIECE)
                    self.feed(str(path), data, not data)
                    if not data:
                        break

    def take(self, data: bytes, is_final: bool) -> int:
        """The messages of these bytes, one at a time. Returns how many of the bytes were read; the rest is not complete yet."""
        counted = 0
        for found in messages(data, is_final):
            self.lines.count(data[counted : found.at])
            counted, self.line = found.at, self.lines.line
            if found.fields or found.why:
                self.counts.messages += 1
                self.seq = self.counts.messages
            if found.why:
                self.damaged(found.why)
            elif found.fields:
                self.message(found.fields)
        return counted

    def damaged(self, why: str) -> None:
        self.counts.damaged += 1
        self.shared.add(Reason(Why.FRAME, why, self.files[-1], self.line))

    # ------------------------------------------------------------ one message

    def message(self, fields: Fields) -> None:
        """One message, by its fields."""
        kind, values = fields[0][1], Values(fields)
        self.note_hour(values)
        if kind == REPORT or kind in REQUESTS:
            self.ours(kind, values)
        elif kind == REJECT:
            self.counts.cancel_rejects += 1
            if self.takes_requests:
                self.answered(values)
        else:
            self.counts.types[f.text_of(kind)] += 1

    def note_hour(self, values: Values) -> None:
        """When a message was sent, if it says so once."""
        sent = values.found.get(f.SENT, b"")
        hour = f.hour_of(sent[: f.HOUR_BYTES]) if f.SENT not in values.twice and f.SHORTEST_TIME <= len(sent) <= f.LONGEST else None
        if hour is not None:
            self.hours.add(hour)

    def ours(self, kind: bytes, values: Values) -> None:
        """A report or a request, if it is of the source that counts, and of a symbol and account that are read."""
        is_report = kind == REPORT
        self.counts.reports += is_report
        self.counts.requests += not is_report
        if not (self.takes_reports if is_report else self.takes_requests):
            if is_report:
                self.answered(values)
            return
        book = self.reports if is_report else self.requests
        try:
            symbol, account = values.name(55), values.name(1)
        except Unreadable as wrong:
            self.refuse(book, wrong, values, b"", b"")
            return
        owner = self.scope.owner(symbol, account)
        if owner < 0:
            book.others[f.text_of(symbol), f.text_of(account)] += 1
            return
        if is_report:
            self.note_report()
        self.move(kind, book, values, owner)

    def answered(self, values: Values) -> None:
        """Counts an answer that is not read, if it may be one to a request that is."""
        try:
            names = values.name(55), values.name(1)
        except Unreadable:
            names = b"", b""
        self.counts.unread += self.scope.may_be_ours(*names)

    @property
    def takes_reports(self) -> bool:
        return self.source != "requests"

    @property
    def takes_requests(self) -> bool:
        """Whether requests count, as far as is known by now."""
        return self.source != "reports" and not self.has_reports

    def note_report(self) -> None:
        """There is a report of ours: from now on requests do not count, nor those before."""
        if not self.has_reports:
            self.has_reports, self.requests, self.counts.unread = True, Book(), 0

    def move(self, kind: bytes, book: Book, values: Values, owner: int) -> None:
        symbol, account = self.scope.owners[owner]
        try:
            read = self.report if kind == REPORT else self.request
            found = read(kind, values, owner)
        except Unreadable as wrong:
            self.refuse(book, wrong, values, symbol, account)
        else:
            if found is not None:
                book.moves.append(found)
                self.hours.add(found.time // HOUR)

    def refuse(self, book: Book, wrong: Unreadable, values: Values, symbol: bytes, account: bytes) -> None:
        time = f.time_of(values.found.get(60, b""))
        date = "" if time is None else f.date_text(time)
        place = self.files[-1], self.line
        book.reasons.add(Reason(wrong.why, wrong.sentence, *place, wrong.tag, f.text_of(wrong.value), f.text_of(symbol), f.text_of(account), date))

    def made(self, values: Values, what: int, owner: int, **given: Any) -> Move:
        ids: dict[str, Any] = {"cl": values.maybe(11) or b"", "orig": values.maybe(41) or b"", "oid": b"", "execution": b""}
        where = {"file": len(self.files) - 1, "line": self.line, "seq": self.seq}
        whole: dict[str, Any] = {**ids, "side": 0, "price": 0, "volume": 0, **given, **where}
        return Move(time=values.time(), what=what, owner=owner, **whole)

    # ------------------------------------------------------------ reports

    def report(self, kind: bytes, values: Values, owner: int) -> Optional[Move]:
        """What a report does; None where it changes nothing."""
        execution = values.one(150)
        if execution in f.CHANGING_NOTHING:
            self.counts.rejects += execution == b"8"
            return None
        if execution in f.CORRECTIONS:
            sentence = f"150={f.text_of(execution)}: a trade was corrected or cancelled afterwards, which changes nothing here"
            raise Unreadable(Why.CORRECTION, 150, execution, sentence)
        ids = {"oid": values.one(37), "execution": values.one(17)}
        if execution in f.REMOVING:
            return self.made(values, f.REMOVE, owner, side=int(values.maybe(59) not in f.NEVER_REST), **ids)
        if execution in f.DEALING:
            dealt = values.volume(32)
            if not dealt:
                raise Unreadable(Why.FIELD, 32, b"0", "32=0: a trade of nothing")
            return self.made(values, f.DEAL, owner, side=int(values.maybe(59) not in f.NEVER_REST), volume=dealt, **ids)
        if execution == b"0":
            return self.new(values, owner, ids)
        if execution not in (b"5", b"D"):
            raise Unreadable(Why.EXEC_TYPE, 150, execution, f"150={f.text_of(execution)} is not read, and changes nothing")
        return self.amended(values, owner, execution, ids)

    def new(self, values: Values, owner: int, ids: dict[str, bytes]) -> Move:
        values.one(11)
        self.need_symbol(values, owner)
        if not self.rests(self.reports, values, owner):
            return self.made(values, f.UNRESTED, owner, **ids)
        side, volume, price = values.side(), values.volume(151), self.price(values, owner)
        return self.made(values, f.NEW, owner, side=side, price=price, volume=volume, **ids)

    def amended(self, values: Values, owner: int, execution: bytes, ids: dict[str, bytes]) -> Move:
        """Replaced or restated. An order that becomes one that never rests is removed, as one of which nothing is left."""
        what = f.RESTATE if execution == b"D" else f.AMEND
        if what == f.AMEND:
            values.one(11)
        if not self.rests(self.reports, values, owner):
            return self.made(values, what, owner, **ids)
        volume, price = values.volume(151), self.price(values, owner)
        return self.made(values, what, owner, price=price, volume=volume, **ids)

    def need_symbol(self, values: Values, owner: int) -> None:
        """A new order must say its symbol; other messages have that of the order that they name."""
        if self.scope.is_nameless(owner):
            values.one(55)

    def rests(self, book: Book, values: Values, owner: int) -> bool:
        wrong = values.unread_type()
        if wrong is not None:
            self.refuse(book, wrong, values, *self.scope.owners[owner])
        return values.rests()

    def price(self, values: Values, owner: int) -> int:
        step = self.scope.step(self.scope.owners[owner][0])
        assert step is not None
        return values.price(step)

    # ------------------------------------------------------------ requests

    def request(self, kind: bytes, values: Values, owner: int) -> Move:
        """What a request asks for."""
        values.one(11)
        if kind == b"F":
            values.one(41)
            return self.made(values, f.ASK_CANCEL, owner)
        if kind == b"G":
            values.one(41)
        else:
            self.need_symbol(values, owner)
        rests, side = self.rests(self.requests, values, owner), values.side()
        if not rests:
            return self.made(values, f.ASK_UNRESTED if kind == b"D" else f.ASK_REPLACE_UNRESTED, owner, side=side)
        volume, price = values.volume(38), self.price(values, owner)
        return self.made(values, f.ASK if kind == b"D" else f.ASK_REPLACE, owner, side=side, price=price, volume=volume)

    # ------------------------------------------------------------ the result

    @property
    def by(self) -> Literal["reports", "requests"]:
        """What the timelines come from."""
        return "reports" if self.has_reports or self.source == "reports" else "requests"

    @property
    def book(self) -> Book:
        return self.reports if self.by == "reports" else self.requests

    @property
    def others(self) -> "Counter[tuple[str, str]]":
        """How many reports and requests there are of each other symbol and account. Where the logs have no report of ours, but might have
        had, those of others count with the requests."""
        skipped = self.reports.others if self.source == "auto" and self.by == "requests" else Counter[tuple[str, str]]()
        return self.book.others + skipped + self.result().others

    @property
    def timelines(self) -> dict[tuple[str, str], Timeline]:
        """The changes of each symbol and account that has any."""
        return self.result().timelines

    def has_messages(self, begin: int, end: int) -> bool:
        """Whether any message was sent (52), or one that is read is dated (60), in one of the hours from a time to before another, in
        milliseconds since 1970."""
        return any(begin // HOUR <= hour < -(-end // HOUR) for hour in self.hours)

    @property
    def reasons(self) -> list[Reason]:
        """What was refused, is unknown, or changes nothing though it should, equal faults folded."""
        numbers = {name: at for at, name in enumerate(self.files)}

        def turn(reason: Reason) -> tuple[Any, ...]:
            return numbers[reason.file], reason.line, reason.why.name, reason.tag, reason.symbol, reason.account, reason.date

        return sorted([*self.shared, *self.book.reasons, *self.result().reasons], key=turn)

    def result(self) -> "Settled":
        if self.settled is None:
            self.settled = settle(self) if self.bulk is None else self.bulk.settle()
        return self.settled


def settle(reader: LogReader) -> Settled:
    """Puts the moves in order of time, follows the orders, and sorts the changes by owner."""
    book = reader.book
    moves = fresh(reader, book.moves)
    moves.sort(key=lambda move: (move.time, move.seq))
    orders = followed(reader.scope, moves)
    reader.counts.moves = len(moves)
    reader.counts.fills = sum(move.what == f.DEAL for move in moves)
    reasons = Reasons()
    for at, why in orders.problems:
        move = moves[at]
        place = reader.files[move.file], move.line, move.time
        reasons.add(reason_of(why, reader.scope.names(move.owner), *place, (move.cl, move.orig, move.oid), move.volume))
    others = Counter(reader.scope.names(moves[at].owner) for at in orders.strangers)
    return Settled(timelines_of(reader, moves, orders), reasons, others)


def fresh(reader: LogReader, moves: list[Move]) -> list[Move]:
    """The moves without reports that were read before."""
    seen: set[tuple[int, bytes]] = set()
    kept = []
    for move in moves:
        if move.execution:
            key = move.owner, move.execution
            if key in seen:
                continue
            seen.add(key)
        kept.append(move)
    reader.counts.duplicates = len(moves) - len(kept)
    return kept


def followed(scope: Scope, moves: list[Move]) -> Orders:
    """The orders after all moves, with what each move changed."""
    count, ids = max(len(scope.owners), 1), {b"": -1}
    orders = Orders(count, scope.fitting(), scope.foreign())

    def number(text: bytes, owner: int) -> int:
        return ids.setdefault(text, len(ids)) * count + owner if text else ABSENT

    def terms() -> Iterator[Terms]:
        for move in moves:
            cl, orig = number(move.cl, move.owner), number(move.orig, move.owner)
            oid = move.time // f.DAY if move.what >= f.ASK else number(move.oid, move.owner)
            yield move.what, move.owner, cl, orig, oid, move.side, move.volume

    orders.take(terms())
    return orders


def changes_of(move: Move, order: int, replaced: int, left: Optional[int]) -> Iterator[Change]:
    """What a move changes: the order that it replaces, and its own. `left` is what was left of an order that was dealt more than that."""
    where = move.file, move.line, move.seq
    if replaced != NOTHING:
        yield Change(move.time, REMOVED, replaced + 1, 0, 0, *where)
    if order != NOTHING:
        kind = kind_of(move.what, move.side, move.volume)
        price, volume = (0, 0) if kind == REMOVED else (move.price, move.volume if left is None else left)
        yield Change(move.time, kind, order + 1, price, volume, *where)


def timelines_of(reader: LogReader, moves: list[Move], orders: Orders) -> dict[tuple[str, str], Timeline]:
    """The changes by owner: the order's owner, which a message need not say."""
    changes: dict[int, list[Change]] = {}
    replaced = [*orders.replaced, *[NOTHING] * (len(moves) - len(orders.replaced))]
    for at, (move, order) in enumerate(zip(moves, orders.changed)):
        for change in changes_of(move, order, replaced[at], orders.overfilled.get(at)):
            changes.setdefault(orders.owner[change.order - 1], []).append(change)
    made = {}
    for owner in sorted(changes, key=reader.scope.names):
        symbol, account = reader.scope.names(owner)
        made[symbol, account] = Timeline(symbol, account, array_of(changes[owner]), reader.files, reader.by == "reports")
    return made
