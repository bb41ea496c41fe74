"""A contract's tile: what the library says of it at a moment, what that is called, and which tile comes first.

Every figure is the library's. What is left is rounded down, what is needed is rounded up.
"""

from dataclasses import dataclass, field
from datetime import datetime, timedelta
from typing import Callable, NamedTuple, Optional

from quoting.answers import OVER, Cell
from quoting.desk.plan import Planned
from quoting.formats import thousands
from quoting.states import State, Stretch
from quoting.values import MINUTE, SECOND, clock, milliseconds
from quoting.watch.meter import Shown
from quoting.watch.sentences import due, had

SOON = 10 * MINUTE  # to spare: from here on a lost quote must come back
FIRST = MINUTE  # of a loss: it is an alarm
FULL = 800  # thousandths of the length: the full weight's share
KINDS = ("alarm", "risk", "lost", "unknown", "hold", "kept", "rest", "over", "ended", "due")
TURN = {"alarm": 0, "risk": 0, "lost": 0, "unknown": 1, "hold": 2, "kept": 3, "rest": 4, "over": 5, "ended": 6, "due": 7}
WORDS = {
    State.KEPT: "Kept", State.NO_BID: "NO BID", State.NO_ASK: "NO ASK", State.NEITHER: "NO QUOTE", State.CROSSED: "CROSSED",
    State.WIDE: "TOO WIDE"}


class Said(NamedTuple):
    """A tile in words: its sign, the state, one number and what it is, a sentence, and more of it. Parts between two * are bold."""

    sign: str
    word: str
    number: str
    what: str
    sentence: str
    more: str = ""


@dataclass(frozen=True)
class Now:
    """The figures of an open quantum."""

    time: int  # milliseconds from its start
    state: State
    since: int  # when this state began
    lost_since: Optional[int]  # when the quote was last kept; None where it is kept
    kept: int
    need: int
    left: int
    by: Optional[int]
    full: Optional[int]
    is_rest: bool
    is_lost: bool
    lapses: int
    lapses_left: Optional[int]  # None: no limit
    bid: Optional[int]
    ask: Optional[int]
    widest: int
    missing: tuple[int, int]  # contracts missing at the best bid and the best ask
    last: int  # the time of the last event
    carried: int = 0
    fills: int = 0
    orders: int = 0

    @property
    def spare(self) -> int:
        """How long the quote may still be away."""
        return self.by - self.time if self.by is not None else self.left - self.need

    @property
    def spread(self) -> Optional[int]:
        return self.ask - self.bid if self.bid is not None and self.ask is not None else None

    @property
    def lost_for(self) -> int:
        return 0 if self.lost_since is None else self.time - self.lost_since


@dataclass(frozen=True)
class Tile:
    """A contract that is due: with `now` it is open, with `cell` it has ended, with neither it starts later."""

    key: str
    planned: Planned
    moment: int  # milliseconds since 1970
    now: Optional[Now] = None
    cell: Optional[Cell] = None
    doubt: str = ""  # why its figures are not reliable
    doubted: float = 0.0  # since when, time.time()
    problems: tuple[str, ...] = field(default_factory=tuple)

    @property
    def symbol(self) -> str:
        return self.planned.contract.symbol

    @property
    def length(self) -> int:
        return milliseconds(self.planned.row.length)

    @property
    def share(self) -> int:
        """The required share, in thousandths."""
        return int(self.planned.row.share)

    @property
    def required(self) -> int:
        return -(-self.share * self.length // 1_000)

    @property
    def kept(self) -> int:
        return self.cell.kept if self.cell is not None else self.now.kept if self.now is not None else 0

    @property
    def lapses(self) -> int:
        return self.cell.lapses if self.cell is not None else self.now.lapses if self.now is not None else 0

    @property
    def kind(self) -> str:
        """What the tile says."""
        if self.now is None:
            return "ended" if self.cell is not None else "due"
        if self.doubt:
            return "unknown"
        if self.now.is_lost:
            return "over"
        if self.now.is_rest:
            return "rest"
        if self.now.state != State.KEPT:
            return "alarm" if self.now.lost_for < FIRST else "risk" if self.now.spare <= SOON else "lost"
        return "hold" if self.now.spare == 0 or self.now.lapses_left == 0 else "kept"

    @property
    def turn(self) -> tuple[int, int, str]:
        """The worst first: by what a hand can still change, then by the least to spare."""
        spare = self.now.spare if self.now is not None else 0
        return TURN[self.kind], spare, self.key

    def at(self, time: int) -> str:
        """A moment of the quantum as the exchange's time of day, rounded down."""
        return of_day(self.planned.start + timedelta(milliseconds=time // SECOND * SECOND))

    @property
    def end(self) -> str:
        return of_day(self.planned.end)


def of_day(moment: datetime) -> str:
    return f"{moment.hour}:{moment.minute:02}:{moment.second:02}"


# ---------------------------------------------------------------- figures


def lost_since(state: State, since: int, stretches: list[Stretch]) -> Optional[int]:
    """When the quote was last kept: the stretches, the newest first, up to one that is kept."""
    if state == State.KEPT:
        return None
    found = since
    for each in stretches:
        if each.state == State.KEPT:
            break
        found = each.offset
    return found


def missing_of(shown: Shown) -> tuple[int, int]:
    """What the minimum volume exceeds the orders at the best price by, on each side."""
    found = []
    for side, best in (("buy", max), ("sell", min)):
        orders = [order for order in shown.view.orders if order.side == side]
        top = best((order.price for order in orders), default=None)
        volume = sum(order.volume for order in orders if order.price == top)
        found.append(max(0, shown.view.row.minimum - volume))
    return found[0], found[1]


def now_of(shown: Shown, since: int, last: int, carried: int, fills: int) -> Now:
    """An open quantum at a moment, from the library's answers."""
    o, report, view = shown.outlook, shown.report, shown.view
    left = None if view.limit is None else max(0, o.lapses if o.lapses is not None and o.lapses != OVER else 0)
    return Now(
        report.time, view.state, since, lost_since(view.state, since, shown.seen.stretches), report.kept, o.need, o.left, o.by, o.full, o.rest,
        o.lost, report.lapses, left, report.bid, report.ask, view.widest, missing_of(shown), last, carried, fills, report.orders)


# ---------------------------------------------------------------- words


def said(tile: Tile, then: str = "") -> Said:
    """What a tile says; `then` is what it was before it became unknown."""
    if tile.now is None:
        return said_of_cell(tile) if tile.cell is not None else said_of_start(tile)
    return SAY[tile.kind](tile, tile.now)


def keep(tile: Tile, now: Now) -> str:
    by = now.by if now.by is not None else now.time
    return f"Keep *{due(now.need)}* more, from *{tile.at(by)}* at the latest."


def said_of_alarm(tile: Tile, now: Now) -> Said:
    more = f"{had(now.spare)} to spare." if now.spare >= SECOND else "Nothing to spare."
    return Said(now.state.word, WORDS[now.state], had(now.lost_for), "lost", keep(tile, now), more)


def said_of_risk(tile: Tile, now: Now) -> Said:
    since = tile.at(now.since)
    return Said("risk", "START WITHIN", had(now.spare), "", keep(tile, now), f"{capital(now.state.label)} since {since}.")


def said_of_lost(tile: Tile, now: Now) -> Said:
    since = tile.at(now.lost_since or 0)
    return Said(now.state.word, WORDS[now.state], had(now.spare), "to spare", keep(tile, now), f"Lost since {since}, for {had(now.lost_for)}.")


def said_of_unknown(tile: Tile, now: Now) -> Said:
    gone = max(0, tile.moment - int(1_000 * tile.doubted))
    return Said("unknown", "Not known", had(gone), "", f"*Keep quoting until it is back.* {tile.doubt}", f"It was then: {now.state.label}.")


def said_of_hold(tile: Tile, now: Now) -> Said:
    if now.need == now.left:
        return Said("hold", "Keep on", had(now.left), "to the end", f"*Keep on to {tile.end}*: nothing to spare.")
    rest = f"{due(now.need)} still to be kept." if now.need else "The time kept is enough already."
    return Said("hold", "Do not let go", "0", "lapses left", f"*Keep on to {tile.end}*: one more lapse loses it.", rest)


def said_of_kept(tile: Tile, now: Now) -> Said:
    return Said("kept", "Kept", had(now.spare), "to spare", keep(tile, now))


def said_of_rest(tile: Tile, now: Now) -> Said:
    more = "Full weight is out of reach."
    if now.full is not None:
        more = f"Full weight: keep {due(now.full)} more." if now.full else "Full weight is kept."
    return Said("rest", "May rest", had(now.left), "left", "Met even if nothing more is kept.", more)


def said_of_over(tile: Tile, now: Now) -> Said:
    if now.widest < 1:
        return Said("over", "Cannot be met", had(now.left), "left", "Nothing can be kept: the spread limit is below 1.", "It will be failed, weight 0.")
    if now.need <= now.left:
        limit = tile.planned.lapses
        return Said("over", "Cannot be met", str(now.lapses), "lapses", f"{now.lapses} lapses, {limit} allowed.", "It will be failed, weight 0.")
    why = f"{due(now.need)} still to be kept, only {had(now.left)} left."
    return Said("over", "Cannot be met", due(now.need - now.left), "short", why, "It will be failed, weight 0.")


def said_of_cell(tile: Tile) -> Said:
    cell = tile.cell
    assert cell is not None
    kept = f"Kept {had(cell.kept)} of {clock(cell.length)}"
    if cell.met:
        return Said("kept", "Met", thousands(cell.weight), "weight", f"{kept}.")
    short = tile.required - cell.kept
    if short <= 0:
        return Said("failed", "Failed", str(cell.lapses), "lapses", f"{kept}; {cell.lapses} lapses, {cell.limit} allowed.", "Weight 0.")
    return Said("failed", "Failed", due(short), "short", f"{kept}, required {due(tile.required)}.", "Weight 0.")


def said_of_start(tile: Tile) -> Said:
    left = max(0, tile.planned.start_ms - tile.moment)
    return Said("none", "Starts in", had(left), "", f"Quantum {tile.planned.quantum} starts at {of_day(tile.planned.start)}.")


def capital(text: str) -> str:
    return text[:1].upper() + text[1:]


SAY: dict[str, Callable[[Tile, Now], Said]] = {
    "alarm": said_of_alarm, "risk": said_of_risk, "lost": said_of_lost, "unknown": said_of_unknown, "hold": said_of_hold, "kept": said_of_kept,
    "rest": said_of_rest, "over": said_of_over}
