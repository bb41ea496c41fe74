"""Volatile days: settlement prices from a text, each day's sigma, which days are inside a disturbed period, as table and picture."""

from dataclasses import dataclass
from typing import Optional

from quoting import drawing, native, reading, values
from quoting.drawing import INK, PALE, Drawing
from quoting.calculations import sigma, volatile_day
from quoting.reading import TextError

WIDTH, HEIGHT = 920, 420
LEFT, RIGHT, TOP, BOTTOM = 90, 890, 96, 360
SIGMA, LIMIT, PERIOD = "#1f5fa8", "#b3381f", "#f3dcc0"
BETWEEN = 16  # pixels between two dates


@dataclass(frozen=True)
class Day:
    """A day's name (a date, or nothing) and its settlement price."""

    name: str
    price: int


@dataclass(frozen=True)
class Judged:
    """A sigma for each day (None: it has none); `inside` has one more, the next day's. It is None where the list is refused, and
    `refused` is then the first day whose prices before it are."""

    sigmas: list[Optional[int]]
    inside: Optional[list[bool]]
    refused: Optional[int]


def read(text: str) -> list[Day]:
    """A price a line, with at most one word before it."""
    days: list[Day] = []

    def take(first: str, rest: list[str]) -> None:
        if len(rest) > 1:
            raise TextError("a line has a price, with at most one word before it")
        days.append(Day(first if rest else "", reading.number(rest[0] if rest else first, values.SIGNED, "price")))

    reading.read_by_lines(text, take)
    return days


# ---------------------------------------------------------------- checked


def judge(prices: list[int], threshold: int) -> Judged:
    """Each day's sigma, and whether it is inside a period, by the prices before it."""
    found, inside = [sigma(prices[: day + 1]) for day in range(len(prices))], []
    for day in range(len(prices) + 1):
        try:
            inside.append(volatile_day(prices[:day], threshold))
        except native.Refused:
            return Judged(found, None, day)
    return Judged(found, inside, None)


def last_line(judged: Judged) -> str:
    if judged.inside is None:
        return f"refused 22: of the prices before day {judged.refused}: {native.sentence_of(22)}"
    return f"the next day is {'inside' if judged.inside[-1] else 'outside'}"


# ---------------------------------------------------------------- picture


def stretches(flags: list[bool]) -> list[tuple[int, int]]:
    """(first, one after the last) of each run of true.

    >>> stretches([False, True, True, False, True])
    [(1, 3), (4, 5)]
    """
    padded = [False, *flags, False]
    edges = [day for day, (before, now) in enumerate(zip(padded, padded[1:])) if before != now]
    return list(zip(edges[::2], edges[1::2]))


class Plot:
    """Where days and sigmas are in the picture."""

    def __init__(self, count: int, top: int) -> None:
        self.count, self.top = count, top

    def x(self, day: float) -> float:
        return LEFT + (RIGHT - LEFT) * day / self.count

    def y(self, sigma: float) -> float:
        return BOTTOM - (BOTTOM - TOP) * sigma / self.top


def draw_grid(d: Drawing, plot: Plot) -> None:
    for value in range(0, plot.top + 1, drawing.rounded_step(plot.top, 6)):
        d.line(LEFT, plot.y(value), RIGHT, plot.y(value), PALE, ' stroke-opacity="0.35"')
        d.text(LEFT - 8, plot.y(value) + 4, str(value), "end", 12)


def draw_days(d: Drawing, plot: Plot, days: list[Day]) -> None:
    """Names of days, as many as there is room for."""
    wide = max([drawing.text_width(drawing.short(day.name, 14), 12) for day in days], default=0)
    most = max(1, int((RIGHT - LEFT) / (max(wide, 40) + BETWEEN)))
    for day in range(0, plot.count, drawing.rounded_step(plot.count, min(10, most))):
        name = days[day].name if day < len(days) else ""
        d.text(plot.x(day), BOTTOM + 20, drawing.short(name, 14) or str(day), "middle", 12)


def draw_sigmas(d: Drawing, plot: Plot, judged: Judged) -> None:
    width = max(1, round(500 / plot.count, 1))
    for day, own in enumerate(judged.sigmas):
        if own is not None:
            d.line(plot.x(day + 0.5), BOTTOM, plot.x(day + 0.5), plot.y(own), SIGMA, f' stroke-width="{width}"')


def draw_legend(d: Drawing) -> None:
    d.text(LEFT, TOP - 16, "sigma in millionths, day by day", colour=SIGMA)
    d.text(LEFT + 250, TOP - 16, "threshold", colour=LIMIT)
    d.rect(LEFT + 340, TOP - 28, 26, 15, PERIOD)
    d.text(LEFT + 372, TOP - 16, "days inside a period")


def picture(name: str, days: list[Day], threshold: int, judged: Judged) -> str:
    """Sigmas day by day, the threshold, and the periods shaded."""
    d, found = Drawing(WIDTH, HEIGHT), stretches(judged.inside or [])
    top = max([threshold, *(s for s in judged.sigmas if s is not None), 1]) * 21 // 20 + 1
    plot = Plot(len(days) + 1, top)
    for first, after in found:
        d.rect(plot.x(first), TOP, plot.x(after) - plot.x(first), BOTTOM - TOP, PERIOD)
    draw_grid(d, plot)
    draw_days(d, plot, days)
    draw_sigmas(d, plot, judged)
    d.line(LEFT, plot.y(threshold), RIGHT, plot.y(threshold), LIMIT, ' stroke-width="1.5" stroke-dasharray="6 4"')
    d.line(LEFT, BOTTOM, RIGHT, BOTTOM, INK)
    d.line(LEFT, TOP, LEFT, BOTTOM, INK)
    d.text(LEFT, 30, f"{drawing.short(name)}: {last_line(judged).split(': ')[0]}", size=19, more=' font-weight="bold"')
    d.text(LEFT, 52, f"prices: {len(days)}, periods: {len(found)}, threshold {threshold}")
    draw_legend(d)
    return d.svg()
