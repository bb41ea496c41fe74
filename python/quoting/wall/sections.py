"""What the wall's page is handed, section by section: texts, and fractions for geometry. The page places them, and computes no figure."""

import time
from itertools import islice
from typing import Any, Optional

from quoting.cells import ALLOWED, SERIES
from quoting.desk.settlement import InstrumentMonth
from quoting.formats import counted, series_text, thousands
from quoting.states import State
from quoting.values import clock, part_text, share_text
from quoting.wall import tiles as t
from quoting.wall.alarms import Alarm, Alarms
from quoting.wall.recounting import Recounts
from quoting.wall.state import Wall
from quoting.wall.tiles import Tile
from quoting.watch.sentences import had

Section = dict[str, Any]
AWAY = ("alarm", "risk", "lost")
DENSE = 24  # contracts from which only what needs a hand has a full tile
LISTED = 12
EVERY = 1.0  # seconds after which the list of what was refused is made again
NAMES = {
    "lost": "lost now", "unknown": "not known", "hold": "do not let go", "kept": "kept", "rest": "may rest", "over": "cannot be met", "met": "met",
    "no": "failed", "due": "not started"}
COUNT_SIGNS = {"lost": "neither", "met": "kept", "no": "failed", "due": "none"}
WEEKDAYS = ("Monday", "Tuesday", "Wednesday", "Thursday", "Friday", "Saturday", "Sunday")


# ---------------------------------------------------------------- a tile


def tile_section(tile: Tile, until: Optional[float], wall: Wall) -> Section:
    """A tile; `until` is when its mute ends, time.time()."""
    said, contract = t.said(tile), tile.planned.contract
    strike = f", {contract.strike}" if contract.strike else ""
    return {
        "key": tile.key, "symbol": tile.symbol, "who": f"{contract.instrument}{strike}, expiry {contract.expiry}", "kind": tile.kind,
        "state": tile.now.state.word if tile.now is not None else "", "sign": said.sign, "word": said.word, "number": said.number,
        "what": said.what, "sentence": said.sentence, "more": said.more, "is_failed": tile.cell is not None and not tile.cell.met,
        "is_small": tile.kind in ("kept", "rest", "over", "ended", "due"), "share": share_of(tile), "figures": figures_of(tile),
        "last": last_of(tile), "muted": "" if until is None else mute_text(wall, until)}


def mute_text(wall: Wall, until: float) -> str:
    """The minute in which a mute ends, by the wall's clock."""
    end = wall.local(wall.now + int(1_000 * (until - time.time())) + 500)
    return f"{end.hour}:{end.minute:02}"


def share_of(tile: Tile) -> Section:
    have = tile.kept / tile.length
    left = tile.now.left if tile.now is not None else 0
    return {
        "kept": part_text(tile.kept, tile.length), "required": share_text(tile.share), "have": round(100 * have, 2),
        "may": round(100 * min(1.0, (tile.kept + left) / tile.length) - 100 * have, 2), "need": tile.share / 10}


def figures_of(tile: Tile) -> list[Section]:
    """Lapses, D and what is missing at the best price; a ▲ is at the one that is the cause."""
    limit = tile.planned.lapses
    used = {"name": "lapses", "value": str(tile.lapses), "unit": "no limit" if limit is None else f"of {limit}", "bad": False}
    now = tile.now
    if now is None:
        return [used] if tile.cell is not None else []
    used["bad"] = now.lapses_left == 0
    spread = {"name": "D", "value": "–" if now.spread is None else str(now.spread), "unit": f"of {now.widest}", "bad": now.state == State.WIDE}
    missing = {"name": "missing at best", "value": missing_text(tile), "unit": "", "bad": now.state in (State.NO_BID, State.NO_ASK, State.NEITHER)}
    return [used, spread, missing]


def missing_text(tile: Tile) -> str:
    if tile.now is None or tile.doubt:
        return "–"
    bid, ask = tile.now.missing
    if bid and bid == ask:
        return f"both {thousands(bid)}"
    return ", ".join(f"{side} {thousands(count)}" for side, count in (("bid", bid), ("ask", ask)) if count) or "none"


def last_of(tile: Tile) -> str:
    """What came to this contract: the last call, and what the exchange did."""
    now = tile.now
    if now is None:
        return ""
    fills = f", {counted(now.fills, 'fill')}" if now.fills else ""
    carried = f", {now.carried} carried" if now.carried else ""
    return f"Last call {tile.at(now.last)}, {counted(now.orders, 'order')}{carried}{fills}"


# ---------------------------------------------------------------- the band


def counts_of(tiles: list[Tile]) -> list[Section]:
    found: dict[str, int] = {}
    for tile in tiles:
        key = "lost" if tile.kind in AWAY else tile.kind
        if tile.cell is not None:
            key = "met" if tile.cell.met else "no"
        found[key] = found.get(key, 0) + 1
    return [{"sign": COUNT_SIGNS.get(key, key), "count": found[key], "text": text} for key, text in NAMES.items() if key in found]


def band(wall: Wall, tiles: list[Tile], differ: str) -> Section:
    """The worst thing on the desk; the tab's title is its head."""
    made = {"counts": counts_of(tiles), "loud": "", "then": ""}
    if differ:
        return {**made, "loud": "stop", "sign": "over", "head": "Stop: readings differ", "then": differ, "spoken": "Stop: readings differ"}
    if wall.is_reading:
        return {**made, "sign": "none", "head": "Reading the logs", "then": f"{counted(wall.counts()['messages'], 'message')} so far", "spoken": "Reading the logs"}
    if not tiles:
        return {**made, **nothing_due(wall)}
    first = foremost(tiles)
    if first.kind in (*AWAY, "unknown", "hold"):
        return {**made, **worst(first, tiles)}
    if first.now is None:
        return {**made, **none_open(wall, tiles)}
    return {**made, **quiet(tiles)}


def foremost(tiles: list[Tile]) -> Tile:
    """The tile of the band: the first, unless that was lost longer ago and has time, and another has just been lost."""
    fresh = [tile for tile in tiles if tile.kind == "alarm"]
    return fresh[0] if fresh and tiles[0].kind == "lost" else tiles[0]


def worst(first: Tile, tiles: list[Tile]) -> Section:
    said = t.said(first)
    then = [brief(tile) for tile in tiles if tile is not first and tile.kind in (*AWAY, "unknown", "hold")]
    more = [f"{len(then) - 2} more"] if len(then) > 2 else []
    loud = {"alarm": "tape", "unknown": "unknown"}.get(first.kind, "yellow")
    number = f"{said.number} {said.what}" if first.kind == "hold" else said.number
    return {
        "loud": loud, "sign": said.sign, "head": f"{said.word} {number} · {first.symbol}", "then": "Next: " + "; ".join(then[:2] + more) if then else "",
        "spoken": f"{said.word}: {first.symbol}"}


def brief(tile: Tile) -> str:
    now = tile.now
    assert now is not None
    if tile.kind == "unknown":
        return f"{tile.symbol} not known"
    if tile.kind == "hold":
        return f"{tile.symbol} must not let go"
    if tile.kind == "risk":
        return f"{tile.symbol} must start within {had(now.spare)}"
    return f"{tile.symbol} {now.state.label}, {had(now.spare)} to spare"


def quiet(tiles: list[Tile]) -> Section:
    running = [tile for tile in tiles if tile.now is not None]
    kept = [tile for tile in running if tile.kind == "kept"]
    least = f" Least to spare: {t.said(kept[0]).number}, {kept[0].symbol}." if kept else ""
    over = sum(tile.kind == "over" for tile in running)
    more = f" {over} cannot be met." if over else ""
    return {"sign": "kept", "head": "All quiet", "then": f"{len(running) - over} of {len(running)} kept or may rest.{least}{more}", "spoken": "All quiet"}


def starts_text(wall: Wall) -> str:
    coming = wall.next_start()
    if coming is None:
        return "The plan of this month has no later quantum."
    day = "" if coming.date == wall.today else f" on {WEEKDAYS[coming.date.weekday()]} {coming.date}"
    return f"Quantum {coming.quantum} starts at {t.of_day(coming.start)}{day}, in {long_clock(coming.start_ms - wall.now)}."


def long_clock(ms: int) -> str:
    """
    >>> long_clock(90_061_000), long_clock(5_999)
    ('1 day 1:01:01', '0:00:05')
    """
    days, rest = divmod(ms // 1_000 * 1_000, 86_400_000)
    return f"{counted(days, 'day')} {clock(rest)}" if days else clock(rest)


def nothing_due(wall: Wall) -> Section:
    return {"sign": "none", "head": "Nothing is due today", "then": f"{starts_text(wall)} No time is counted now.", "spoken": "Nothing is due"}


def none_open(wall: Wall, tiles: list[Tile]) -> Section:
    ended = [tile for tile in tiles if tile.cell is not None]
    head = f"Quantum {max(tile.planned.quantum for tile in ended)} has ended" if ended else "Not started yet"
    return {"sign": "none", "head": head, "then": f"{starts_text(wall)} No time is counted now.", "spoken": head}


# ---------------------------------------------------------------- the head and the checks


def head(wall: Wall, tiles: list[Tile]) -> Section:
    local = wall.local(wall.now)
    hours = sorted({(tile.planned.quantum, t.of_day(tile.planned.start), tile.end) for tile in tiles if tile.now is not None})
    what = "; ".join(f"quantum {quantum}, {start} to {end}" for quantum, start, end in hours) or "no quantum is open"
    utc = f"{wall.now // 3_600_000 % 24}:{wall.now // 60_000 % 60:02}:{wall.now // 1_000 % 60:02}"
    day = f"{WEEKDAYS[local.weekday()]} {local.day} {local:%B %Y}"
    return {"desk": wall.desk.maker, "what": f"{day}, {what}", "clock": t.of_day(local), "zone": wall.zone_name, "utc": utc, "is_dense": len(tiles) >= DENSE}


def checks(wall: Wall, recounts: Recounts, hook_failed: int) -> list[Section]:
    """The feed, the readings, the clocks and the hook."""
    made = []
    logs = list(wall.files.logs.values())
    for log in logs:
        if log.fault is not None:
            since = t.of_day(wall.local(int(1_000 * log.fault.since)))
            made.append({"kind": "warn", "text": f"Feed: {log.fault.text(log.name)} at {since}"})
    made += [{"kind": "warn", "text": f"{name} can't be read: {why}"} for name, why in wall.files.unread.items()]
    came = max((log.growing.came for log in logs), default=0.0)
    ago = f", last message {ago_text(time.time() - came)} ago" if came else ""
    made.append({"kind": "open", "text": f"Following {counted(len(logs), 'log')}{ago}"})
    readings = recounts.readings()
    signs = {"agree": "kept", "waiting": "wait", "absent": "warn", "differ": "warn"}
    made.append({"kind": signs[readings["kind"]], "text": readings["text"], "readings": readings["kind"]})
    if wall.desk_files.fault:
        made.append({"kind": "warn", "text": f"The wall goes by the desk's files as they were before: {wall.desk_files.fault}"})
    if wall.disagreement:
        made.append({"kind": "warn", "text": wall.disagreement})
    if hook_failed:
        made.append({"kind": "warn", "text": f"The hook failed {counted(hook_failed, 'time')}"})
    return made


def ago_text(seconds: float) -> str:
    """
    >>> ago_text(0.23), ago_text(75)
    ('0.2 s', '0:01:15')
    """
    return f"{max(0.0, seconds):.1f} s" if seconds < 60 else clock(1_000 * int(seconds))


# ---------------------------------------------------------------- below the tiles


def amount(kopecks: int) -> str:
    """In roubles.

    >>> amount(11_255_633)
    '112,556.33'
    """
    return f"{kopecks // 100:,}.{kopecks % 100:02}"


def month_row(wall: Wall, month: InstrumentMonth) -> Section:
    most = month.failed
    worst_series = SERIES[month.report.failed.index(most)]
    met = sum(each.cell.met for each in month.cells)
    return {
        "name": month.instrument, "met": met, "failed": len(month.cells) - met, "most": most, "allowed": ALLOWED, "left": ALLOWED - most,
        "series": series_text(worst_series) if most else "", "fee": amount(month.fee)}


def month(wall: Wall) -> Section:
    rows = [month_row(wall, each) for each in wall.months.values()]
    missing = sum(wall.desk.charges_of(each.planned) is None for found in wall.months.values() for each in found.cells)
    note = f"Closed quanta only. More than {ALLOWED} failed quanta in one series make that instrument's fee 0."
    if missing:
        note += f" {counted(missing, 'closed quantum', 'closed quanta')} without charges so far: charged 0 and 0."
    return {"head": f"{wall.desk.date(1):%B} so far, by instrument", "rows": rows, "sum": amount(wall.fee), "note": note}


def refused(wall: Wall) -> Section:
    found, counts = wall.remarks(), wall.counts()
    rows = [[remark.date, remark.where, remark.what] for remark in found[:LISTED]]
    note = f"{counted(counts['messages'], 'message')}, {counted(counts['fills'], 'fill')}, {counted(counts['rejects'], 'reject')}, {counted(counts['duplicates'], 'duplicate')}, {counts['damaged']} damaged; {counts['late']} runs again for late messages."
    return {"head": f"Refused and not counted: {len(found)}", "rows": rows, "note": note}


def alarm_row(wall: Wall, alarm: Alarm) -> Section:
    said = alarm.text + (", muted" if alarm.is_silent else "") + (f": {alarm.hook}" if alarm.hook else "")
    return {"number": alarm.number, "time": t.of_day(wall.local(alarm.moment)), "key": alarm.key, "kind": alarm.kind, "text": said, "is_silent": alarm.is_silent}


class Sections:
    """All sections; a tile's is named after its key, so that a page gets those alone that have changed. One that can't have changed stays
    the same object."""

    def __init__(self, wall: Wall, alarms: Alarms, recounts: Recounts) -> None:
        self.wall, self.alarms, self.recounts = wall, alarms, recounts
        self.tiles: dict[str, tuple[Tile, Optional[float], Section]] = {}
        self.months: tuple[int, Section] = (-1, {})
        self.refusals: tuple[float, Section] = (0.0, {})

    def made(self, hook_failed: int = 0) -> dict[str, Any]:
        wall = self.wall
        shown = [] if wall.is_reading else wall.tiles()
        if self.months[0] != wall.settlings:
            self.months = wall.settlings, month(wall)
        if time.monotonic() - self.refusals[0] >= EVERY:
            self.refusals = time.monotonic(), refused(wall)
        found: dict[str, Any] = {
            "head": head(wall, shown), "band": band(wall, shown, self.recounts.differs()), "checks": checks(wall, self.recounts, hook_failed),
            "order": [tile.key for tile in shown], "month": self.months[1], "refused": self.refusals[1],
            "alarms": [alarm_row(wall, alarm) for alarm in islice(self.alarms.listed, LISTED)]}
        found.update({f"tile {tile.key}": self.tile(tile) for tile in shown})
        return found

    def tile(self, tile: Tile) -> Section:
        until, known = self.alarms.muted_until(tile.key), self.tiles.get(tile.key)
        if known is None or known[0] is not tile or known[1] != until:
            known = self.tiles[tile.key] = tile, until, tile_section(tile, until, self.wall)
        return known[2]
