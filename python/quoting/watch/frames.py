"""What the page is handed, section by section: texts, and fractions for geometry. The page places and draws them, and computes no figure.

`sections` makes all but the day's; `day` makes that one for a client, with the parts of the day that it has not got yet.
"""

import time
from dataclasses import dataclass, field
from typing import Any, Mapping, Optional, Sequence

from quoting.answers import Cell, MonthReport, verdict_text
from quoting.cells import ALLOWED, CAP, SERIES, Place
from quoting.drawing import TICKS
from quoting.exchange import choice
from quoting.formats import counted, place_text, roubles, series_text, spread_text, thousands
from quoting.states import State, Stretch
from quoting.values import MINUTE, SECOND, clock, milliseconds, part_text, share_text
from quoting.watch import sentences as s
from quoting.watch.meter import Meter, Opened, Problem, Shown, wall_text

Section = dict[str, Any]
MOST_ORDERS = 64
FULL = 800  # thousandths of the length: the full weight's share
ALERT = 300.0  # seconds for which the newest problem is shown under the band
MARKS = 10  # at most so many marks of the hour

WAITING = {"kind": "waiting", "head": "The recount has not answered yet", "text": ""}


@dataclass(frozen=True)
class Doubted:
    """Why the figures are not reliable."""

    since: float  # time.time()
    why: str
    text: str  # what is done about it


@dataclass(frozen=True)
class Status:
    """What the server knows beside the meter."""

    feed: str = "following"  # following, playing, ended, broken or reading
    wall: float = 0.0  # time.time()
    silence: float = 0.0  # seconds since something came
    speed: float = 1.0  # of a feed that is played
    why: str = ""  # why it is broken off, where it is not by silence: "standard input has closed"
    readings: Mapping[str, Any] = field(default_factory=lambda: WAITING)  # the section, as the recount has it
    differs: Optional[Mapping[str, Any]] = None  # the section, where the recount differs
    doubt: Optional[Doubted] = None  # where the figures are not reliable

    @property
    def is_still(self) -> bool:
        """No time goes on after the last event: nothing is known of it."""
        return self.feed in ("broken", "ended") or self.doubt is not None


def sections(meter: Meter, now: int, status: Status) -> dict[str, Any]:
    """All sections but the day's."""
    shown = None if status.feed == "reading" else meter.shown(moment(meter, now, status))
    band = band_of(meter, shown, status)
    return {
        "head": head(meter, shown, status),
        "band": {**band._asdict(), "title": title(band, meter.name)},
        "state": state(meter, shown, status),
        "readings": dict(status.readings),
        "feed": {"kind": status.feed, "text": feed_text(meter.calls, status) + log_text(meter)},
        "alert": alert(meter, status),
        "omitted": omitted(meter),
        "open": open_quantum(meter, shown, status),
        "stretches": stretches(meter, shown),
        "problems": problems(meter, status),
        "month": month(meter),
        "differs": differs(meter, shown, status),
    }


def moment(meter: Meter, now: int, status: Status) -> int:
    """The time that is shown: where the feed has broken off or ended, that of its last event."""
    return meter.last if status.is_still else meter.clipped(now)


# ---------------------------------------------------------------- above the fold


def head(meter: Meter, shown: Optional[Shown], status: Status) -> Section:
    if meter.opened is None or shown is None:
        what = "" if status.feed == "reading" else "none open"
        return {"name": meter.name, "what": what, "clock": wall_clock(meter, status)}
    opened = meter.opened
    times, (day, *series) = opened.times, opened.place
    hours = f"{clock(opened.length)} long, times from its start"
    if times.known:
        hours = f"{times.exact(0)} to {times.exact(opened.length)}{times.zone}"
    clock_text = f"{'last ' if status.is_still else ''}{times.down(shown.report.time)}{times.zone}"
    return {"name": meter.name, "what": f"{series_text(tuple(series))}, day {day}, {hours}", "clock": clock_text}


def wall_clock(meter: Meter, status: Status) -> str:
    """The time of day while no quantum is open, where times of day are shown at all; of a file that is played it says nothing."""
    if status.feed != "following" or not meter.times.known:
        return ""
    zone = meter.times.zone
    at = time.gmtime(status.wall) if zone else time.localtime(status.wall)
    return f"{at.tm_hour}:{at.tm_min:02}:{at.tm_sec:02}{zone}"


def moment_of(meter: Meter, shown: Shown) -> s.Moment:
    assert meter.opened is not None
    return s.Moment(shown.outlook, shown.report, shown.view, shown.seen.going, meter.opened.times)


def band_of(meter: Meter, shown: Optional[Shown], status: Status) -> s.Band:
    if status.doubt is not None:
        return s.doubtful(wall_text(status.doubt.since, status.wall), capital(status.doubt.why.partition(";")[0]), status.doubt.text)
    if status.feed == "reading":
        return s.reading(meter.calls)
    if shown is None:
        return s.none_open(meter.closed, meter.cells().get(meter.closed) if meter.closed else None)
    found = moment_of(meter, shown)
    if status.feed == "broken":
        return s.broken(s.band(found), found)
    return s.unsure(s.band(found), answers_text(meter)) if meter.logged.answers else s.band(found)


def title(band: s.Band, name: str) -> str:
    return f"{band.head} {band.sub} | {name}" if band.kind == "keep" else f"{band.head} | {name}"


def state(meter: Meter, shown: Optional[Shown], status: Status) -> Optional[Section]:
    if shown is None or meter.course is None or meter.opened is None:
        return None
    now = meter.course.state
    word = now.word if now == State.CROSSED else now.label  # beside the headline there is little room
    if status.doubt is not None:
        return {"key": "unknown", "word": "not known", "since": f"by the file now: {word}"}
    if status.feed == "broken":
        return {"key": "unknown", "word": "not known", "since": f"last {word}"}
    if meter.logged.answers:
        return {"key": "unknown", "word": "not known", "since": f"by your requests {word}"}
    since = meter.course.since
    text = f"since {meter.opened.times.down(since)}, for {s.had(shown.report.time - since)}"
    return {"key": now.word, "word": word, "since": text}


def feed_text(calls: int, status: Status) -> str:
    """The feed in a line.

    >>> feed_text(10_169, Status(silence=0.23))
    'Following the feed, 10,169 calls, last one 0.2 s ago'
    >>> feed_text(10_169, Status("broken", silence=97.4)), feed_text(1, Status("ended"))
    ('Feed silent for 0:01:37, 10,169 calls read', 'The file has ended, 1 call read')
    >>> feed_text(0, Status("playing", speed=60))
    'Playing at 60 times its pace, 0 calls'
    """
    read = counted(calls, "call")
    if status.feed == "following":
        last = f"{status.silence:.1f} s" if status.silence < 60 else s.had(int(status.silence) * SECOND)
        return f"Following the feed, {read}, last one {last} ago" if calls else "Following the feed, nothing has come yet"
    if status.feed == "broken":
        return f"{silent_text(status)}, {read} read"
    if status.feed == "playing":
        return f"Playing at {status.speed:g} times its pace, {read}"
    return f"The file has ended, {read} read" if status.feed == "ended" else f"Reading the feed, {read} so far"


def silent_text(status: Status) -> str:
    return f"Feed broken off: {status.why}" if status.why else f"Feed silent for {s.had(int(status.silence) * SECOND)}"


def alert(meter: Meter, status: Status) -> Optional[Section]:
    """A feed that has broken off, until it is back; else the newest problem for five minutes."""
    newest = meter.problems[0] if meter.problems else None
    is_new = newest is not None and status.wall - newest.came < ALERT
    if status.feed == "broken" and meter.opened is not None:
        since = f"Its last event came at {wall_text(meter.came, status.wall)}."
        late = newest is not None and newest.came >= meter.came
        return {"head": f"{silent_text(status)}.", "text": f"{since} {capital(newest.sentence())}." if newest and late else since}
    if newest is None or not is_new:
        return None
    place = newest.place or f"the feed at {wall_text(newest.came, status.wall)}"
    place = capital(place) if place.split()[0] in ("line", "call", "the") else place  # another is a file's name
    what = ": refused, the rest goes on." if newest.is_refused else ": not read, the rest goes on." if newest.place else ":"
    return {"head": place + what, "text": f"{capital(newest.sentence())}."}


def omitted(meter: Meter) -> Optional[Section]:
    """What the exchange answered and the figures leave out, for as long as the page runs."""
    if not meter.logged.answers:
        return None
    return {"head": f"Not in the figures: {answers_text(meter)}.", "text": f"{capital(choice.READ_BY_REQUESTS)}."}


def answers_text(meter: Meter) -> str:
    return choice.Unread(meter.logged.answers).head()


def log_text(meter: Meter) -> str:
    """What was read of the log, after the feed's line; empty where there is no log."""
    carried = meter.logged.carried
    parts = [meter.logged.text, *([f"{choice.plural(carried, 'order')} carried in"] if carried else [])]
    return f"; {', '.join(parts)}" if meter.logged.text else ""


def capital(text: str) -> str:
    return text[:1].upper() + text[1:]


def problems(meter: Meter, status: Status) -> Section:
    def row(each: Problem) -> Section:
        return {"when": wall_text(each.came, status.wall), "place": each.place, "text": each.sentence()}

    return {"count": meter.problem_count, "rows": [row(each) for each in meter.problems]}


# ---------------------------------------------------------------- the open quantum


def open_quantum(meter: Meter, shown: Optional[Shown], status: Status) -> Optional[Section]:
    if shown is None or meter.opened is None:
        return None
    is_stale, view = status.feed == "broken" or status.doubt is not None, shown.view
    orders = [
        {"id": str(each.id), "side": each.side, "price": meter.price_text(each.price), "volume": thousands(each.volume)}
        for each in view.orders
    ]
    return {
        "stale": is_stale, "asks": not is_stale, "bar": bar(shown), "tiles": tiles(meter, meter.opened, shown),
        "lapses": {"count": shown.report.lapses, "limit": view.limit}, "account": account(shown.seen.totals),
        "gone": figure(shown.report.time), "ahead": ahead(shown), "orders": orders, "ordersNote": orders_note(meter, shown),
        "time": proposed(meter.opened, shown.report.time),
    }


def figure(ms: int) -> Section:
    """A time to the thousandth, so that sums come out."""
    return {"value": s.had(ms), "fine": s.thousandths(ms)}


def bar(shown: Shown) -> Section:
    """The share kept against the required one and the full weight's."""
    row, kept = shown.view.row, shown.report.kept
    length, share = milliseconds(row.length), int(row.words[6])
    reach = kept + (shown.outlook.left if shown.view.widest >= 1 else 0)
    labels = {name: [share_text(part), s.due(-(-part * length // 1000))] for name, part in (("required", share), ("full", FULL))}
    return {
        "kept": kept / length, "reach": reach / length, "required": share / 1000, "full": FULL / 1000,
        "share": part_text(kept, length), "labels": labels, "outOfReach": reach < length,
    }


def tile(name: str, value: str, unit: str = "", below: str = "", fine: str = "") -> Section:
    return {"name": name, "value": value, "fine": fine, "unit": unit, "below": below}


def tiles(meter: Meter, opened: Opened, shown: Shown) -> list[Section]:
    report, outlook, view = shown.report, shown.outlook, shown.view
    required = s.due(-(-int(view.row.words[6]) * opened.length // 1000))
    end = f"ends {opened.times.exact(opened.length)}" if opened.times.known else f"of {clock(opened.length)}"
    both = report.bid is not None and report.ask is not None
    spread = (str((report.ask or 0) - (report.bid or 0)), f"of at most {view.widest}") if both else ("none", f"at most {view.widest}")
    quotes = f"bid {meter.price_text(report.bid)}, ask {meter.price_text(report.ask)}"
    return [
        tile("kept", s.had(report.kept), "", f"of {clock(opened.length)}, required {required}", s.thousandths(report.kept)),
        tile("left", s.had(outlook.left), "", f"gone {s.had(report.time)}, {end}", s.thousandths(outlook.left)),
        tile("lapses", thousands(report.lapses), "no limit" if view.limit is None else f"of {view.limit} allowed"),
        tile("spread D", spread[0], spread[1], quotes),
        tile("weight at the end", thousands(outlook.weight_resting), f"to {thousands(outlook.weight_keeping)}",
             "nothing more kept, all of it kept"),
    ]


def account(totals: Sequence[int]) -> list[Section]:
    return [{"key": state.word, "word": state.label, **figure(ms)} for state, ms in zip(State, totals)]


def ahead(shown: Shown) -> list[Section]:
    o, share = shown.outlook, share_text(int(shown.view.row.words[6]))

    def needed(ms: Optional[int]) -> Section:
        return {"value": "out of reach", "fine": ""} if ms is None else figure(ms) if ms else {"value": "nothing", "fine": ""}

    is_away = o.need > o.left or (o.need and shown.view.widest < 1)
    return [
        {"word": f"still needed for {share}", **needed(None if is_away else o.need)},
        {"word": "for full weight, 80%", **needed(o.full)},
        {"word": "left", **figure(o.left)},
        {"word": "weight if nothing more is kept", "value": thousands(o.weight_resting), "fine": ""},
        {"word": "weight if all of it is", "value": thousands(o.weight_keeping), "fine": ""},
    ]


def orders_note(meter: Meter, shown: Shown) -> str:
    view = shown.view
    prices = "prices in steps" if meter.price_step is None else f"prices in steps of {meter.price_step:f}"
    return f"{len(view.orders)} live of at most {MOST_ORDERS}. Least volume {thousands(view.row.minimum)} contracts, {spread_text(view.spread)}, {prices}."


def proposed(opened: Opened, now: int) -> str:
    """The next whole second, since an amendment may not be before the last event."""
    offset = opened.times.offset
    return opened.times.exact(min(opened.length, -(-(offset + now) // SECOND) * SECOND - offset))


def stretches(meter: Meter, shown: Optional[Shown]) -> Section:
    if shown is None or meter.opened is None:
        return {"rows": [], "earlier": 0}
    times, now = meter.opened.times, shown.report.time

    def row(each: Stretch) -> Section:
        runs = each.end == now  # its end moves on, so it is shown to the second
        length = s.had(each.length) if runs else clock(each.length)
        to = "now" if runs else times.exact(each.end)
        return {"from": times.exact(each.offset), "to": to, "length": length, "key": each.state.word, "word": each.state.label}

    return {"rows": [row(each) for each in shown.seen.stretches], "earlier": shown.seen.earlier}


# ---------------------------------------------------------------- the day


@dataclass(frozen=True)
class Got:
    """What a client has of the day: whose quantum's, and up to which part, which may have grown since."""

    opens: int
    parts: int


def day(meter: Meter, now: int, status: Status, got: Optional[Got]) -> tuple[Optional[Section], Optional[Got]]:
    """The day's section for a client that has got so much of it, and what it has then."""
    course, opened = meter.course, meter.opened
    if course is None or opened is None or status.feed == "reading":
        return None, None
    at, times = moment(meter, now, status), opened.times
    is_fresh = got is None or got.opens != meter.opens
    first = 0 if got is None or is_fresh else max(0, got.parts - 1)
    shown = meter.shown(at)
    assert shown is not None
    latest = shown.outlook.by if s.band(moment_of(meter, shown)).kind == "keep" else None  # there alone a wait is spoken of
    name = "last" if status.is_still else "now"
    made = {
        "fresh": is_fresh, "length": course.length, "width": course.width, "start": marks(opened), "now": at,
        "nowText": f"{name} {times.down(at)}",
        "latest": None if latest is None else {"at": latest, "text": f"latest {times.down(latest)}"},
        "running": {"from": course.time, "key": course.state.word},
        "bid": best(meter, "bid", course.bid), "ask": best(meter, "ask", course.ask),
        "step": None if meter.price_step is None else f"{meter.price_step:f}", "buckets": course.parts[first:],
    }
    return made, Got(meter.opens, len(course.parts))


def best(meter: Meter, name: str, price: Optional[int]) -> Optional[Section]:
    return None if price is None else {"price": price, "text": f"{name} {meter.price_text(price)}"}


def marks(opened: Opened) -> list[list[Any]]:
    """Marks at round times of day, or at round times from the start."""
    step = next((each for each in TICKS if opened.length / each <= MARKS), TICKS[-1])
    offset, found = opened.times.offset, []
    for t in range(-offset % step, opened.length + 1, step):
        text = opened.times.down(t)
        found.append([t / opened.length, text if step < MINUTE else text[:-3]])
    return found


# ---------------------------------------------------------------- the month


def month(meter: Meter) -> Section:
    """The statement's grid; made again only if a call has altered a cell, or which quantum is open."""
    if meter.made is None or meter.made[0] != meter.altered:
        meter.made = meter.altered, month_made(meter)
    return meter.made[1]


def month_made(meter: Meter) -> Section:
    report, filled = meter.month.report(), meter.cells()
    shown = [cell_section(place, cell) for place, cell in sorted(filled.items())]
    if meter.opened is not None:
        shown.append(open_section(meter.opened))
    first: Place = min(filled, default=(1, *SERIES[0]))
    picked = meter.opened.place if meter.opened is not None else meter.closed or first
    return {"cells": shown, "failed": failures(report), "fee": fee(report, meter.opened is not None), "picked": list(picked)}


def cell_section(place: Place, cell: Cell) -> Section:
    rows = [
        ["verdict", verdict_text(cell.met) + failed_by(cell)], ["weight", thousands(cell.weight)],
        ["kept", f"{s.had(cell.kept)} of {clock(cell.length)}, {part_text(cell.kept, cell.length)}"], ["required", share_text(cell.share)],
        ["lapses", f"{thousands(cell.lapses)}, no limit" if cell.limit is None else f"{thousands(cell.lapses)} of {cell.limit}"],
        ["active charges A", roubles(cell.active)], ["passive charges P", roubles(cell.passive)],
    ]
    depth = max(0.0, (cell.weight - 10_000) / 10_000)
    text = f"met, weight {thousands(cell.weight)}" if cell.met else "failed"
    return {
        "place": list(place), "kind": verdict_text(cell.met), "weight": thousands(cell.weight), "depth": depth,
        "label": f"{place_text(place)}: {text}", "rows": rows,
    }


def failed_by(cell: Cell) -> str:
    """What failed a cell."""
    over = cell.limit is not None and cell.lapses > cell.limit
    short = 1000 * cell.kept < cell.share * cell.length
    causes = [text for text, applies in (("too many lapses", over), (f"below {share_text(cell.share)}", short)) if applies]
    return f": {' and '.join(causes)}" if not cell.met else ""


def open_section(opened: Opened) -> Section:
    label = f"{place_text(opened.place)}: open now"
    return {"place": list(opened.place), "kind": "open", "weight": "", "depth": 0.0, "label": label, "rows": [["verdict", "open now"]]}


def failures(report: MonthReport) -> list[Section]:
    return [
        {"word": series_text(each), "count": count, "of": ALLOWED, "fraction": min(1.0, count / ALLOWED)}
        for each, count in zip(SERIES, report.failed)
    ]


def fee(report: MonthReport, is_open: bool) -> Section:
    note = f"{thousands(report.fee)} kopecks, of at most {thousands(CAP)}."
    if max(report.failed) > ALLOWED:
        note = f"No fee: more than {ALLOWED} quanta of a series have failed."
    return {
        "roubles": thousands(report.fee // 100), "kopecks": f"{report.fee % 100:02}",
        "note": f"{note} The open quantum is not in it." if is_open else note,
    }


# ---------------------------------------------------------------- what does not fit


def differs(meter: Meter, shown: Optional[Shown], status: Status) -> Optional[Section]:
    """The recount's difference; else one between the stretches that are drawn and the library's report at the same moment."""
    if status.differs is not None:
        return dict(status.differs)
    if shown is None or meter.course is None:
        return None
    pairs = [
        ("kept", clock(shown.report.kept), clock(shown.seen.totals[0])),
        ("lapses", thousands(shown.report.lapses), thousands(shown.seen.lapses)),
        ("state", shown.view.state.label, meter.course.state.label),
        ("gone", clock(shown.report.time), clock(sum(shown.seen.totals))),
    ]
    rows = [{"word": word, "ours": ours, "theirs": theirs, "same": ours == theirs} for word, ours, theirs in pairs]
    if all(row["same"] for row in rows):
        return None
    text = f"After call {thousands(meter.calls)} the stretches that are drawn are not those of the meter's report."
    return {"call": meter.calls, "head": "Stop: the figures do not fit together", "rows": rows, "text": text}
