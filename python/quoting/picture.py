"""A picture (SVG) of a session's quantum: best bid and ask over time, coloured by the state of each stretch of time, the share kept beside
the one required, what each state took, and the longest stretches that were not kept.

Where stretches are shorter than a pixel, that pixel's column is filled by the states' shares, so that many short gaps are seen.
"""

from bisect import bisect_left
from typing import Iterator, Optional, Sequence

from quoting import calls as c
from quoting import drawing, months
from quoting.accounts import Account, account
from quoting.answers import Answer, Cell, MonthReport, verdict_text
from quoting.drawing import INK, PALE, Drawing
from quoting.events import event_of, split
from quoting.native import Refused
from quoting.rows import HEAD, Row, Rule
from quoting.sessions import session
from quoting.states import State, Stretch
from quoting.values import HOUR, MINUTE, SECOND, clock, milliseconds, part_text, share_text

WIDTH, HEIGHT = 920, 650
LEFT, RIGHT, TOP, BOTTOM = 100, 890, 96, 350  # the plot
BAR_TOP, BAR_HEIGHT = 410, 20
STATES_TOP, LOST_TOP, LONGEST = 480, 534, 10  # each state's time, and the table of the longest that were lost
COLUMNS = RIGHT - LEFT  # pixels of the quantum's time
CROWD = 300  # quotes, from which on their lines are pale, so that the shading is seen

BID, ASK = "#1f5fa8", "#b3381f"
MET_BAR, FAILED_BAR = "#6fb56f", "#d99a4e"
COLOURS = dict(zip(State, ("#cfe8cf", "#cfdff2", "#f4d3cb", "#e2e2e2", "#e3d0ee", "#fbe6b8")))

TIME_STEPS = [
    1, 2, 5, 10, 20, 50, 100, 200, 500, SECOND, 2 * SECOND, 5 * SECOND, 10 * SECOND, 30 * SECOND,
    MINUTE, 2 * MINUTE, 5 * MINUTE, 10 * MINUTE, 30 * MINUTE, HOUR, 2 * HOUR, 3 * HOUR, 6 * HOUR,
]

Pairs = Sequence[tuple[int, int]]
Quote = tuple[int, Optional[int], Optional[int]]  # time, bid, ask


# ---------------------------------------------------------------- what is drawn


def quarter(t: int, length: int) -> int:
    """The quarter of a pixel in which a time is."""
    return 4 * COLUMNS * t // length


def blocks_of(data: bytes, limit: int) -> Iterator[bytes]:
    """The session as calls of a month: open, its events, close, look; with a report after the last event of a quarter of a pixel."""
    rule = Rule.of_bytes(data[: HEAD.size])
    yield c.block(c.Open(rule.row.words, 1, rule.sp, limit))
    found = [event for event in map(event_of, split(data[HEAD.size :])) if event is not None]
    places = [quarter(milliseconds(event.t), milliseconds(rule.row.length)) for event in found]
    for event, place, following in zip(found, places, [*places[1:], -1]):
        yield c.block(event)
        if place != following:
            yield c.block(c.Report())
    yield c.block(c.Close(0, 0))
    yield c.block(c.Look(1, rule.row.expiry, rule.row.quantum))


def played(data: bytes, limit: int) -> tuple[list[Quote], Cell]:
    """Both best quotes, from the time on at which they are reported and from 0, and the closed quantum, as the month answers them."""
    found: dict[int, Quote] = {0: (0, None, None)}
    answer: Optional[Answer] = None
    for answer in months.answers_to(blocks_of(data, limit)):
        if isinstance(answer, MonthReport):
            found[answer.time] = (answer.time, answer.bid, answer.ask)
    if not isinstance(answer, Cell):
        raise answer if isinstance(answer, Refused) else ValueError("the month showed no cell")
    return list(found.values()), answer


# ---------------------------------------------------------------- stretches of one state


def crowded(stretches: Sequence[Stretch], length: int) -> list[int]:
    """The columns touched by a stretch that is shorter than a pixel."""
    pixel = length / COLUMNS
    found: set[int] = set()
    for each in stretches:
        if each.length < pixel:
            found.update((int(each.offset / pixel), int((each.end - 1) / pixel)))
    return sorted(found)


def column_shares(stretches: Sequence[Stretch], length: int, columns: Sequence[int]) -> dict[int, dict[State, float]]:
    """What part of each of these columns each state has."""
    pixel, shares = length / COLUMNS, {column: dict.fromkeys(State, 0.0) for column in columns}
    for each in stretches:
        start, end = each.offset, each.end
        for column in columns[bisect_left(columns, int(start / pixel)) : bisect_left(columns, end / pixel)]:
            inside = min(end, (column + 1) * pixel) - max(start, column * pixel)
            shares[column][each.state] += max(0.0, inside) / pixel
    return shares


def outside(each: Stretch, length: int, columns: Sequence[int]) -> Iterator[tuple[float, float]]:
    """The parts of a stretch that lie in no crowded column, as start and end in pixels."""
    start, end = each.offset * COLUMNS / length, each.end * COLUMNS / length
    for column in columns[bisect_left(columns, int(start)) : bisect_left(columns, end)]:
        if start < column:
            yield start, column
        start = max(start, column + 1)
    if start < end:
        yield start, end


def draw_column(d: Drawing, column: int, shares: dict[State, float]) -> None:
    """A crowded column: the states' parts one upon the other, what was kept at the bottom."""
    bottom = float(BOTTOM)
    for state, share in shares.items():
        tall = (BOTTOM - TOP) * share
        if share:
            d.rect(LEFT + column, bottom - tall, 1, tall, COLOURS[state])
        bottom -= tall


def draw_states(d: Drawing, stretches: Sequence[Stretch], length: int) -> None:
    columns = crowded(stretches, length)
    for each in stretches:
        for start, end in outside(each, length, columns):
            d.rect(LEFT + start, TOP, end - start, BOTTOM - TOP, COLOURS[each.state])
    for column, shares in column_shares(stretches, length, columns).items():
        draw_column(d, column, shares)


def draw_totals(d: Drawing, spent: Account) -> None:
    """Each state's colour and time."""
    for at, (state, time) in enumerate(spent.totals.items()):
        x, y = LEFT + COLUMNS // 3 * (at % 3), STATES_TOP + 22 * (at // 3)
        d.rect(x, y - 12, 26, 15, COLOURS[state])
        d.text(x + 32, y, f"{state.label} {clock(time)}")


def draw_longest(d: Drawing, spent: Account) -> None:
    """The longest stretches that were not kept, as a table of two columns."""
    lost = spent.longest_lost(LONGEST)
    d.text(LEFT, LOST_TOP, "the longest stretches that were not kept" if lost else "all of the time was kept", more=' font-weight="bold"')
    for at, each in enumerate(lost):
        x, y = LEFT + COLUMNS // 2 * (at // (LONGEST // 2)), LOST_TOP + 20 * (1 + at % (LONGEST // 2))
        d.rect(x, y - 11, 12, 12, COLOURS[each.state])
        d.text(x + 20, y, f"{clock(each.offset)} to {clock(each.end)}: {clock(each.length)}, {each.state.label}", size=12)


# ---------------------------------------------------------------- axes, lines, bars


class Plot:
    """Where times and prices are in the picture."""

    def __init__(self, length: int, low: int, high: int) -> None:
        self.length, self.low, self.high = length, low, high

    def x(self, t: float) -> float:
        return LEFT + COLUMNS * t / self.length

    def y(self, price: float) -> float:
        return BOTTOM - (BOTTOM - TOP) * (price - self.low) / (self.high - self.low)


def tick_label(ms: int, step: int) -> str:
    if step >= MINUTE:
        return f"{ms // HOUR}:{ms // MINUTE % 60:02}"
    return f"{ms // SECOND} s" if step >= SECOND else f"{ms} ms"


def draw_axes(d: Drawing, plot: Plot) -> None:
    step = next((each for each in TIME_STEPS if plot.length / each <= 10), TIME_STEPS[-1])
    for t in range(0, plot.length + 1, step):
        d.line(plot.x(t), BOTTOM, plot.x(t), BOTTOM + 5, PALE)
        d.text(plot.x(t), BOTTOM + 20, tick_label(t, step), "middle", 12)
    draw_prices(d, plot)
    d.line(LEFT, BOTTOM, RIGHT, BOTTOM, INK)
    d.line(LEFT, TOP, LEFT, BOTTOM, INK)


def draw_prices(d: Drawing, plot: Plot) -> None:
    step = drawing.rounded_step(plot.high - plot.low, 6)
    for price in range(-(-plot.low // step) * step, plot.high + 1, step):
        d.line(LEFT, plot.y(price), RIGHT, plot.y(price), PALE, ' stroke-opacity="0.35"')
        d.text(LEFT - 8, plot.y(price) + 4, str(price), "end", 12)


def steps(plot: Plot, points: Sequence[tuple[int, Optional[int]]]) -> Iterator[str]:
    """A line of steps through (time, price); it breaks where the price is None. Of points within a quarter of a pixel the last is drawn."""
    before: Optional[int] = None
    ends = [*(t for t, _ in points[1:]), plot.length]
    for (t, price), until in zip(points, ends):
        if quarter(t, plot.length) == quarter(until, plot.length):
            continue
        if price is not None:
            number = drawing.number
            yield f"M{number(plot.x(t))} {number(plot.y(price))}" if before is None else f"V{number(plot.y(price))}"
            yield f"H{number(plot.x(until))}"
        before = price


def draw_legend(d: Drawing) -> None:
    y = TOP - 16
    d.line(LEFT, y - 4, LEFT + 26, y - 4, ASK, ' stroke-width="2"')
    d.text(LEFT + 32, y, "best ask")
    d.line(LEFT + 110, y - 4, LEFT + 136, y - 4, BID, ' stroke-width="2"')
    d.text(LEFT + 142, y, "best bid")
    d.text(RIGHT, y, "price steps over the quantum's time", "end", 12, PALE)


def draw_shares(d: Drawing, cell: Cell) -> None:
    """The share kept as a bar, the required share and the full weight's as marks."""
    d.rect(LEFT, BAR_TOP, COLUMNS, BAR_HEIGHT, "#eeeeee")
    d.rect(LEFT, BAR_TOP, COLUMNS * cell.kept / cell.length, BAR_HEIGHT, MET_BAR if cell.met else FAILED_BAR)
    d.text(LEFT, BAR_TOP - 7, f"kept {part_text(cell.kept, cell.length)}")
    required = (cell.share, f"required {share_text(cell.share)}", "start" if cell.share < 200 else "end")
    for share, label, anchor in (required, (800, "full weight from 80%", "start")):
        x = LEFT + COLUMNS * share / 1_000
        d.line(x, BAR_TOP - 5, x, BAR_TOP + BAR_HEIGHT + 5, INK, ' stroke-width="1.5"')
        d.text(x + (-5 if anchor == "end" else 5), BAR_TOP + BAR_HEIGHT + 18, label, anchor, 12)


def draw_lapses(d: Drawing, plot: Plot, pairs: Pairs, cell: Cell) -> None:
    """Each lapse as a mark below the plot, and their count against the limit."""
    colour = INK if cell.lapses <= (cell.limit or 0) else ASK
    ends = [0, *(offset + size for offset, size in pairs)]
    starts = [*(offset for offset, _ in pairs), plot.length]
    for stop, start in zip(ends, starts):
        if stop < start:
            d.rect(plot.x(stop), BOTTOM + 1, max(1, plot.x(start) - plot.x(stop)), 4, colour)
    d.text(RIGHT, BAR_TOP - 7, f"lapses {cell.lapses}, at most {cell.limit}", "end", colour=colour, more=' font-weight="bold"')


def widest(row: Row, sp: int) -> int:
    """The greatest spread that is within, for the line under the title."""
    return max(row.b, row.a * max(sp, 0) // 100_000)


def picture(name: str, data: bytes, limit: Optional[int] = None) -> str:
    """The SVG of a session's bytes, with verdict and weight by a lapse limit, where there is one; a refused session raises `Refused`."""
    done = session(data[: HEAD.size], data[HEAD.size :])
    shown, cell = played(data, c.NO_LIMIT if limit is None else limit)
    row, sp = done.rule.row, done.rule.sp
    prices = [price for _, bid, ask in shown for price in (bid, ask) if price is not None] or [sp]
    margin = max(1, (max(prices) - min(prices)) // 12)
    plot, d = Plot(done.length, min(prices) - margin, max(prices) + margin), Drawing(WIDTH, HEIGHT)
    title = f"{drawing.short(name)}: {verdict_text(cell.met)}, weight {cell.weight}"
    d.text(LEFT, 30, title, size=19, more=' font-weight="bold"')
    kept = f"kept {clock(cell.kept)} of {clock(cell.length)}, stretches: {len(done.pairs)}"
    d.text(LEFT, 52, f"{kept}; SP {sp}, least volume {row.minimum}, spread at most {widest(row, sp)}")
    spent = account(data[: HEAD.size], data[HEAD.size :])
    draw_states(d, spent.stretches, done.length)
    draw_axes(d, plot)
    pale = ' stroke-opacity="0.35"' if len(shown) >= CROWD else ""
    d.path(steps(plot, [(t, ask) for t, _, ask in shown]), ASK, pale)
    d.path(steps(plot, [(t, bid) for t, bid, _ in shown]), BID, pale)
    draw_legend(d)
    draw_shares(d, cell)
    draw_totals(d, spent)
    draw_longest(d, spent)
    if limit is not None:
        draw_lapses(d, plot, done.pairs, cell)
    return d.svg()
