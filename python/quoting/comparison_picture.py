"""The picture (SVG) of two readings of one quantum: the best quotes, both strips of kept time, and the first stretch where they differ, larger."""

from typing import Iterator, Optional, Sequence
from xml.sax.saxutils import escape

from quoting.comparison import Comparison, Reading, Resting
from quoting.drawing import number, short
from quoting.events import Amend
from quoting.picture import Quote, played
from quoting.states import State
from quoting.values import HOUR, MINUTE, clock, milliseconds, part_text, share_text

WIDTH, LEFT, WIDE = 900, 20, 860
PLOT_TOP, PLOT_BOTTOM = 84, 208
STRIP_TOPS, STRIP_HEIGHT = (250, 318), 32
ZOOM_LEFT, ZOOM_WIDE, ZOOM_TOPS, ZOOM_HEIGHT = 470, 410, (396, 432), 30
KEPT, LOST = "kept", "lost"  # fills, beside those of the other states

STYLE = """svg { --paper: #ffffff; --ink: #1a1c1e; --soft: #545c62; --line: #c4cacf; --bid: #1f5fa8; --ask: #b23a20; --kept: #009e73; --good: #00614a; --bad: #b3001b; --no-ask: #d55e00; --neither: #6b7278; --wide: #e69f00; --crossed: #aa3377 }
@media (prefers-color-scheme: dark) { svg { --paper: #14171a; --ink: #eceff1; --soft: #a9b3bb; --line: #414a52; --bid: #7db7f0; --ask: #f2916f; --kept: #2bb58c; --good: #2bb58c; --bad: #ff8a8a; --no-ask: #f07f35; --neither: #9aa3aa; --wide: #f0b429; --crossed: #dd7db3 } }
text { font: 14px Helvetica, Arial, "Liberation Sans", sans-serif; fill: var(--ink) } .soft { fill: var(--soft) } .b { font-weight: bold } .title { font-size: 21px; font-weight: bold } .name { font-size: 16px; font-weight: bold }
.good, .bad { font-size: 21px; font-weight: bold } .good { fill: var(--good) } .bad { fill: var(--bad) } .tbid { fill: var(--bid); font-weight: bold } .task { fill: var(--ask); font-weight: bold }
.bid, .ask { fill: none; stroke-width: 2 } .bid { stroke: var(--bid) } .ask { stroke: var(--ask) } .frame { fill: none; stroke: var(--soft) } .tick { stroke: var(--soft) } .rule { stroke: var(--line) }
.level { stroke: var(--bid); stroke-width: 2; stroke-dasharray: 2 5; fill: none } .level.sell { stroke: var(--ask) } .mark { fill: none; stroke: var(--ink); stroke-width: 2 } .fan { fill: var(--ink); opacity: .09 } .ring { fill: var(--ink) } .in { fill: var(--paper); font-weight: bold }
.halo { paint-order: stroke; stroke: var(--paper); stroke-width: 5px; stroke-linejoin: round } .on { fill: #fff; font-weight: bold; paint-order: stroke; stroke: #00513c; stroke-width: 5px; stroke-linejoin: round }"""

PATTERNS = """<defs>
<pattern id="p-no-bid" width="7" height="7" patternUnits="userSpaceOnUse"><rect width="7" height="7" fill="#56b4e9"/><path d="M0 0 7 7M-1 6 1 8M6 -1 8 1" stroke="#000" stroke-opacity=".6" stroke-width="1.2"/></pattern>
<pattern id="p-no-ask" width="7" height="7" patternUnits="userSpaceOnUse"><rect width="7" height="7" fill="var(--no-ask)"/><path d="M0 7 7 0M-1 1 1 -1M6 8 8 6" stroke="#000" stroke-opacity=".6" stroke-width="1.2"/></pattern>
<pattern id="p-neither" width="6" height="6" patternUnits="userSpaceOnUse"><rect width="6" height="6" fill="var(--paper)"/><circle cx="3" cy="3" r="1.5" fill="var(--neither)"/></pattern>
<pattern id="p-wide" width="6" height="6" patternUnits="userSpaceOnUse"><rect width="6" height="6" fill="var(--wide)"/><path d="M0 1.5h6" stroke="#000" stroke-opacity=".6" stroke-width="1.2"/></pattern>
<pattern id="p-crossed" width="6" height="6" patternUnits="userSpaceOnUse"><rect width="6" height="6" fill="var(--crossed)"/><path d="M1.5 0v6" stroke="#000" stroke-opacity=".6" stroke-width="1.2"/></pattern>
<pattern id="p-lost" width="6" height="6" patternUnits="userSpaceOnUse"><rect width="6" height="6" fill="var(--paper)"/><path d="M0 6 6 0" stroke="var(--neither)" stroke-width="1.2"/></pattern>
</defs>"""

Span = tuple[int, int]
Part = tuple[int, int, str]  # start, end and fill: a state's word, or LOST


def text(x: float, y: float, words: str, kind: str = "", anchor: str = "start") -> str:
    return f'<text x="{number(x)}" y="{number(y)}" class="{kind}" text-anchor="{anchor}">{escape(words)}</text>'


def ring(x: float, y: float, words: str) -> str:
    return f'<circle cx="{number(x)}" cy="{number(y)}" r="10.5" class="ring"/>' + text(x, y + 5, words, "in", "middle")


def fill_of(name: str) -> str:
    return "var(--kept)" if name == KEPT else f"url(#p-{name})"


class TwoReadings:
    """The picture of a comparison. Times are shown from the time of day at which the quantum starts."""

    def __init__(self, comparison: Comparison, title: str, start: int) -> None:
        self.of, self.title, self.start = comparison, title, start
        self.length = comparison.first.length
        metered = comparison.metered
        self.quotes: list[Quote] = [] if metered is None or metered.data is None else played(metered.data, 1_000)[0]

    def x(self, time: float) -> float:
        return LEFT + WIDE * time / self.length

    def time(self, time: int) -> str:
        return clock(self.start + time).removesuffix(".000")

    # ------------------------------------------------------------ strips

    def parts(self, reading: Reading) -> Iterator[Part]:
        """The stretches of a reading: of a session its account's, of a list kept and lost ones."""
        if reading is self.of.metered:
            yield from ((each.offset, each.end, each.state.word) for each in self.of.stretches)
            return
        last = 0
        for start, end in [*reading.kept, (self.length, self.length)]:
            if last < start:
                yield from self.lost(last, start)
            if start < end:
                yield start, end, KEPT
            last = end

    def lost(self, start: int, end: int) -> Iterator[Part]:
        """Where a list has nothing kept, the session's states are drawn, as far as it does not keep it either."""
        if not self.of.stretches:
            yield start, end, LOST
        for each in self.of.stretches:
            low, high = max(start, each.offset), min(end, each.end)
            if low < high:
                yield low, high, LOST if each.state == State.KEPT else each.state.word

    def strip(self, reading: Reading, top: int, height: int, window: Optional[Span] = None) -> str:
        low, high = window or (0, self.length)
        left, wide = (ZOOM_LEFT, ZOOM_WIDE) if window else (LEFT, WIDE)
        drawn = []
        for first, last, name in self.parts(reading):
            start, end = max(low, first), min(high, last)
            if start < end:
                fill = fill_of(name)
                x, width = left + wide * (start - low) / (high - low), wide * (end - start) / (high - low)
                drawn.append(f'<rect x="{number(x)}" y="{top}" width="{number(width)}" height="{height}" fill="{fill}"/>')
        return "".join(drawn) + f'<rect x="{left}" y="{top}" width="{wide}" height="{height}" class="frame"/>'

    def heading(self, reading: Reading, top: int) -> str:
        rule = self.of.metered.rule if self.of.metered else None
        share = part_text(reading.total, self.length)
        is_met = rule is None or 1000 * reading.total >= rule.row.words[6] * self.length
        verdict = "" if rule is None else " met" if is_met else " failed"
        path, colour = ("M0 7 4.5 12 13 1", "good") if is_met else ("M1 1 11 11M11 1 1 11", "bad")
        sign = f'<path d="{path}" transform="translate(690 {top - 23})" fill="none" stroke="var(--{colour})" stroke-width="3.5"/>' if rule else ""
        return text(LEFT, top - 10, short(reading.name, 60), "name") + sign + text(LEFT + WIDE, top - 9, f"{share}{verdict}", colour, "end")

    # ------------------------------------------------------------ the quotes

    def y(self, price: float) -> float:
        low, high = self.prices
        return PLOT_BOTTOM - (PLOT_BOTTOM - PLOT_TOP) * (price - low) / max(1, high - low)

    @property
    def prices(self) -> tuple[int, int]:
        found = [price for _, *pair in self.quotes for price in pair if price is not None] + [each.order.price for each in self.of.resting[:1]]
        return (min(found), max(found)) if found else (0, 1)

    def line(self, side: int, kind: str) -> str:
        path, pen = "", False
        ends = [time for time, *_ in self.quotes[1:]] + [self.length]
        for quote, end in zip(self.quotes, ends):
            price = quote[side]
            if price is None:
                pen = False
                continue
            path += f"{'V' if pen else f'M{number(self.x(quote[0]))} '}{number(self.y(price))}H{number(self.x(end))}"
            pen = True
        return f'<path d="{path}" class="{kind}"/>'

    def cause(self) -> str:
        """The order that rested there, from its last amendment on, and the stretch where the readings first differ."""
        if not self.of.differences or not self.of.resting:
            return ""
        resting, first = self.of.resting[0], self.of.differences[0]
        since, level = milliseconds(resting.last.t), self.y(resting.order.price)
        drawn = f'<path d="M{number(self.x(since))} {number(level)}H{number(self.x(first.start))}" class="level {resting.order.side}"/>'
        drawn += ring(self.x(since), level, "1") + ring(self.x((first.start + first.end) / 2), level, "2")
        return drawn + text(self.x(since) + 18, level - 8, words_of(resting), "halo")

    # ------------------------------------------------------------ what is written

    def subtitle(self) -> str:
        rule = self.of.metered.rule if self.of.metered else None
        when = f"{self.time(0)} to {self.time(self.length)}."
        if rule is None:
            return when
        words = rule.row.words
        return f"{when} Due: {words[3]:,} contracts on both sides, {share_text(words[6])} of the time."

    def zoom(self) -> str:
        if not self.of.differences:
            return text(LEFT, 412, "The two readings agree everywhere.", "b")
        first = self.of.differences[0]
        room = max(MINUTE, (first.end - first.start) // 2)
        window = (max(0, first.start - room), min(self.length, first.end + room))
        low, high = (ZOOM_LEFT + ZOOM_WIDE * (time - window[0]) / (window[1] - window[0]) for time in (first.start, first.end))
        drawn = f'<path d="M{number(self.x(first.start))} 356L{ZOOM_LEFT} 392H{ZOOM_LEFT + ZOOM_WIDE}L{number(self.x(first.end))} 356z" class="fan"/>'
        drawn += f'<rect x="{number(self.x(first.start) - 3)}" y="245" width="{number(self.x(first.end) - self.x(first.start) + 6)}" height="111" class="mark"/>'
        for reading, top in zip((self.of.first, self.of.second), ZOOM_TOPS):
            drawn += self.strip(reading, top, ZOOM_HEIGHT, window)
            kept = (reading is self.of.first) == first.is_first
            state = self.of.state_then if reading is self.of.metered else None
            words = KEPT if kept else "not kept" if state is None else state.label
            drawn += text((low + high) / 2, top + 20, words, "on" if kept else "b halo", "middle")
        drawn += f'<path d="M{number(low)} 392V468M{number(high)} 392V468" class="mark"/>'
        return drawn + text(low, 484, self.time(first.start), "b", "middle") + text(high, 484, self.time(first.end), "b", "middle")

    def sentences(self) -> str:
        if not self.of.differences:
            return ""
        first, drawn = self.of.differences[0], ""
        if self.of.resting:
            resting = self.of.resting[0]
            drawn += ring(31, 405, "1") + text(50, 410, f"{self.time(milliseconds(resting.last.t))}: order {resting.order.id} is {changed(resting)}.", "b")
            drawn += text(50, 428, f"Both readings agree until {self.time(first.start)}.")
        drawn += ring(31, 455, "2") + text(50, 460, f"{self.time(first.start)}: they differ for the first time,", "b")
        return drawn + text(50, 478, f"for {clock(first.end - first.start).removesuffix('.000')}; {len(self.of.differences)} stretch{'es' * (len(self.of.differences) != 1)} in all.")

    def legend(self) -> str:
        used = sorted({each.state for each in self.of.stretches}) or [State.KEPT]
        drawn, x = "", LEFT
        for state in used:
            drawn += f'<rect x="{x}" y="496" width="24" height="14" fill="{fill_of(state.word)}" stroke="var(--soft)"/>' + text(x + 31, 508, state.label)
            x += 60 + 8 * len(state.label)
        return drawn

    def hours(self) -> str:
        drawn = ""
        for time in range(0, self.length + 1, max(HOUR, self.length // 9 // HOUR * HOUR)):
            drawn += f'<path d="M{number(self.x(time))} 350v6" class="tick"/>' + text(min(max(self.x(time), 38), 862), 371, self.time(time)[:-3], "soft", "middle")
        return drawn

    def svg(self) -> str:
        title = escape(self.title)
        parts: Sequence[str] = (
            f'<svg xmlns="http://www.w3.org/2000/svg" width="{WIDTH}" height="524" viewBox="0 0 {WIDTH} 524" role="img" aria-labelledby="t">',
            f'<title id="t">{title}</title>', f"<style>\n{STYLE}\n</style>", PATTERNS,
            '<rect x=".5" y=".5" width="899" height="523" rx="10" fill="var(--paper)" stroke="var(--line)"/>',
            text(20, 34, self.title, "title"), text(20, 57, self.subtitle(), "soft"), '<path d="M20 214H880" class="rule"/>',
            self.line(2, "ask"), self.line(1, "bid"), self.cause(),
            *(self.heading(reading, top) + self.strip(reading, top, STRIP_HEIGHT) for reading, top in zip((self.of.first, self.of.second), STRIP_TOPS)),
            self.hours(), self.zoom(), self.sentences(), self.legend(), "</svg>",
        )
        return "\n".join(each for each in parts if each) + "\n"


def changed(resting: Resting) -> str:
    """What was done to an order last, in words."""
    return f"amended to {resting.last.volume:,} contracts" if isinstance(resting.last, Amend) else "changed"


def words_of(resting: Resting) -> str:
    return f"order {resting.order.id}: {resting.order.volume:,} contracts at {resting.order.price:,}"


def two_readings(comparison: Comparison, title: str, start: int = 0) -> str:
    """The picture; the quantum starts at a time of the day."""
    return TwoReadings(comparison, title, start).svg()
