"""The small picture of a quantum on the statement: best bid and ask over its time, shaded where kept, a strip of its states below.

A lapse is seen however short it is; where stretches are too many for that, each pixel's column of the strip has the states by their share.
"""

from typing import Iterator, Optional, Sequence

from quoting import drawing
from quoting.drawing import TICKS
from quoting.formats import place_text, time_of_day
from quoting.months import Glance
from quoting.statement.course import Quantum, lapses_of
from quoting.states import State, Stretch
from quoting.values import MINUTE, SECOND

WIDTH, HEIGHT, LEFT, RIGHT = 420, 113, 34, 416
TOP, BOTTOM, STRIP, STRIP_HEIGHT = 12, 82, 87, 11
FEW = 60  # stretches that are drawn one by one
NUMBERED = 8  # lapses that are numbered

number = drawing.number


def fill(state: State) -> str:
    return "var(--kept)" if state == State.KEPT else f"url(#p-{state.word})"


class Scale:
    """Where times and prices are in the picture."""

    def __init__(self, length: int, glances: Sequence[Glance]) -> None:
        prices = [price for each in glances for price in (each.bid, each.ask) if price is not None] or [0]
        self.length, self.low, self.high = length, min(prices) - 1, max(prices) + 1

    def x(self, t: float) -> float:
        return LEFT + (RIGHT - LEFT) * t / self.length

    def y(self, price: float) -> float:
        return BOTTOM - (BOTTOM - TOP) * (price - self.low) / (self.high - self.low)


def rect(x: float, y: float, width: float, height: float, more: str) -> str:
    return f'<rect x="{number(x)}" y="{number(y)}" width="{number(width)}" height="{number(height)}" {more}/>'


def rules(scale: Scale) -> Iterator[str]:
    """Lines at round prices."""
    step = drawing.rounded_step(scale.high - scale.low, 4)
    for price in range(-(-scale.low // step) * step, scale.high + 1, step):
        yield f'<path class="rule" d="M{LEFT} {number(scale.y(price))}H{RIGHT}"/>'
        yield f'<text x="{LEFT - 3}" y="{number(scale.y(price) + 3)}" text-anchor="end">{price}</text>'


def steps(scale: Scale, points: Sequence[tuple[int, Optional[int]]]) -> Iterator[str]:
    """A line of steps, broken where the price is None; of points within a quarter of a pixel the last is drawn."""
    before: Optional[int] = None
    for (t, price), until in zip(points, [*(t for t, _ in points[1:]), scale.length]):
        if int(4 * scale.x(t)) == int(4 * scale.x(until)):
            continue
        if price is not None:
            yield f"M{number(scale.x(t))} {number(scale.y(price))}" if before is None else f"V{number(scale.y(price))}"
            yield f"H{number(scale.x(until))}"
        before = price


def bands(scale: Scale, stretches: Sequence[Stretch]) -> Iterator[str]:
    """The kept stretches, shaded behind the lines."""
    for stretch in stretches:
        if stretch.state == State.KEPT:
            wide = scale.x(stretch.length) - LEFT
            yield rect(scale.x(stretch.offset), TOP - 2, wide, BOTTOM - TOP + 4, 'class="band"')


def strip(scale: Scale, stretches: Sequence[Stretch]) -> Iterator[str]:
    """The states below the plot."""
    if len(stretches) > FEW:
        yield from columns(scale, stretches)
    else:
        for stretch in sorted(stretches, key=lambda each: each.state != State.KEPT):  # a short lapse is drawn over what is kept
            wide = max(scale.x(stretch.length) - LEFT, 0.5 if stretch.state == State.KEPT else 1.6)
            yield rect(scale.x(stretch.offset), STRIP, wide, STRIP_HEIGHT, f'fill="{fill(stretch.state)}"')
    yield rect(LEFT, STRIP, RIGHT - LEFT, STRIP_HEIGHT, 'class="frame"')


def columns(scale: Scale, stretches: Sequence[Stretch]) -> Iterator[str]:
    """Each pixel's column by the shares of the states."""
    pixel = scale.length / (RIGHT - LEFT)
    shares: list[dict[State, float]] = [{} for _ in range(RIGHT - LEFT)]
    for stretch in stretches:
        share_out(shares, stretch, pixel)
    return (part for column, each in enumerate(shares) for part in stacked(LEFT + column, each))


def share_out(shares: list[dict[State, float]], stretch: Stretch, pixel: float) -> None:
    """Adds what a stretch has of each column."""
    for column in range(int(stretch.offset / pixel), min(int((stretch.end - 1) / pixel) + 1, len(shares))):
        inside = min(stretch.end, (column + 1) * pixel) - max(stretch.offset, column * pixel)
        shares[column][stretch.state] = shares[column].get(stretch.state, 0) + max(0, inside) / pixel


def stacked(x: int, shares: dict[State, float]) -> Iterator[str]:
    """A column, what is kept at the bottom."""
    bottom: float = STRIP + STRIP_HEIGHT
    for state in State:
        tall = STRIP_HEIGHT * shares.get(state, 0)
        bottom -= tall
        if tall > 0.05:
            yield rect(x, bottom, 1, tall, f'fill="{fill(state)}"')


def ticks(scale: Scale, start: Optional[str]) -> Iterator[str]:
    """Times of day where the start is known, else times from it."""
    step = next((each for each in TICKS if scale.length / each <= 6), TICKS[-1])
    first = time_of_day(start)
    for t in range(0, scale.length, step):
        seconds = (first + t) // SECOND % 86_400
        label = f"{seconds // 3600}:{seconds // 60 % 60:02}" + ("" if step >= MINUTE else f":{seconds % 60:02}")
        x = number(scale.x(t))
        yield f'<path class="tick" d="M{x} {STRIP + STRIP_HEIGHT}v3"/><text x="{x}" y="{HEIGHT - 3}" text-anchor="middle">{label}</text>'


def numbers(scale: Scale, stretches: Sequence[Stretch]) -> Iterator[str]:
    """A number above each lapse, as the table beside the picture has them, unless there are too many."""
    lapses = lapses_of(stretches)
    for at, lapse in enumerate(lapses if len(lapses) <= NUMBERED else [], start=1):
        middle = (lapse[0].offset + lapse[-1].end) / 2
        yield f'<text class="no" x="{number(scale.x(middle))}" y="7.5" text-anchor="middle">{at}</text>'


def picture(quantum: Quantum, stretches: Sequence[Stretch], length: int) -> str:
    """The SVG of a quantum; its colours and patterns are the page's."""
    scale = Scale(length, quantum.glances)
    label = f"Best bid and ask, {place_text(quantum.cell)}"
    parts = [*bands(scale, stretches), *rules(scale)]
    for name in ("ask", "bid"):
        points = [(each.time, each.ask if name == "ask" else each.bid) for each in quantum.glances]
        parts.append(f'<path class="{name}" d="{"".join(steps(scale, points))}"/>')
    parts += [*strip(scale, stretches), *numbers(scale, stretches), *ticks(scale, quantum.start)]
    return f'<svg class="pic" viewBox="0 0 {WIDTH} {HEIGHT}" role="img" aria-label="{label}">{"".join(parts)}</svg>'
