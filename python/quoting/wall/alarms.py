"""What is worth an alarm: a quote that is lost for some seconds or back again, a latest moment that is near, a lapse limit that is reached,
figures that are not reliable, readings that differ, a quantum that has ended. Each is said once, and a loss sounds again every 30 seconds.

A mute silences losses and the return from them. Everything else still sounds.
"""

import time
from collections import deque
from dataclasses import dataclass, field
from typing import Any, Iterator, Optional

from quoting.states import State
from quoting.values import MINUTE, SECOND
from quoting.wall.tiles import Tile
from quoting.watch.sentences import had

AFTER = 5 * SECOND
REPEAT = 30 * SECOND
NEAR = (10 * MINUTE, MINUTE)
LISTED = 100
LOSSES = ("lost", "regained")


@dataclass
class Alarm:
    """Something that happened to a contract; `hook` is what became of the hook's call."""

    number: int
    moment: int  # milliseconds since 1970
    key: str
    kind: str  # lost, regained, near, lapses, unknown, known, differ or ended
    text: str
    is_silent: bool = False  # the contract is muted
    hook: str = ""
    details: dict[str, Any] = field(default_factory=dict)


@dataclass
class Seen:
    """What was said of a contract's quantum."""

    quantum: tuple[Any, ...]
    is_lost: bool = False
    sounded: int = 0
    near: int = 0  # how many of the moments before the latest one were said
    no_lapse: bool = False
    unknown: str = ""
    is_ended: bool = False


class Alarms:
    """The alarms of a wall."""

    def __init__(self, after: int = AFTER) -> None:
        self.after = after
        self.listed: deque[Alarm] = deque(maxlen=LISTED)  # the newest first
        self.fresh: list[Alarm] = []  # for the hook
        self.seen: dict[str, Seen] = {}
        self.mutes: dict[str, float] = {}  # until when, time.time()
        self.number = 0
        self.is_first = True

    # ------------------------------------------------------------ mutes

    def mute(self, key: str, seconds: float) -> None:
        """For so long; 0: no longer."""
        if seconds > 0:
            self.mutes[key] = time.time() + seconds
        else:
            self.mutes.pop(key, None)

    def muted_until(self, key: str) -> Optional[float]:
        until = self.mutes.get(key)
        if until is not None and until <= time.time():
            del self.mutes[key]
            until = None
        return until

    # ------------------------------------------------------------ what happens

    def look(self, tiles: list[Tile], differ: str = "") -> list[Alarm]:
        """What has happened since the last look. At the first one nothing is called ended: it was so before."""
        found = [alarm for tile in tiles for alarm in self.of_tile(tile)]
        moment = tiles[0].moment if tiles else int(1_000 * time.time())
        if differ and "" not in self.seen:
            self.seen[""] = Seen((differ,))
            found.append(self.made(moment, "", "differ", differ))
        self.is_first = False
        self.listed.extendleft(found)
        self.fresh += found
        return found

    def of_tile(self, tile: Tile) -> Iterator[Alarm]:
        quantum = (tile.planned.date, tile.planned.quantum)
        seen = self.seen.get(tile.key)
        if seen is None or seen.quantum != quantum:
            seen = self.seen[tile.key] = Seen(quantum, is_ended=tile.now is None and (self.is_first or tile.cell is None))
        if tile.now is None:
            yield from self.of_end(tile, seen)
            return
        yield from self.of_doubt(tile, seen)
        if not tile.doubt:
            yield from self.of_quote(tile, seen)
            yield from self.of_moment(tile, seen)
            yield from self.of_lapses(tile, seen)

    def of_end(self, tile: Tile, seen: Seen) -> Iterator[Alarm]:
        if tile.cell is not None and not seen.is_ended:
            seen.is_ended = True
            yield self.of(tile, "ended", f"quantum {tile.planned.quantum} ended, {'met' if tile.cell.met else 'failed'}")
        elif tile.cell is None:
            seen.is_ended = False

    def of_doubt(self, tile: Tile, seen: Seen) -> Iterator[Alarm]:
        if tile.doubt and not seen.unknown:
            yield self.of(tile, "unknown", f"figures not reliable: {tile.doubt}")
        elif seen.unknown and not tile.doubt:
            yield self.of(tile, "known", "figures reliable again")
        seen.unknown = tile.doubt

    def of_quote(self, tile: Tile, seen: Seen) -> Iterator[Alarm]:
        """A loss that matters: where the quantum may rest or is lost for good, nobody need hurry."""
        now = tile.now
        assert now is not None
        is_away = tile.kind in ("alarm", "risk", "lost")
        if is_away and now.lost_for >= self.after and not seen.is_lost:
            seen.is_lost, seen.sounded = True, tile.moment
            yield self.of(tile, "lost", f"{now.state.label} for {had(now.lost_for)}")
        elif is_away and seen.is_lost and tile.moment - seen.sounded >= REPEAT:
            seen.sounded = tile.moment
            yield self.of(tile, "lost", f"still {now.state.label}, for {had(now.lost_for)}")
        elif seen.is_lost and now.state == State.KEPT:
            seen.is_lost = False
            yield self.of(tile, "regained", "kept again")

    def of_moment(self, tile: Tile, seen: Seen) -> Iterator[Alarm]:
        now = tile.now
        assert now is not None
        passed = sum(now.spare <= each for each in NEAR) if tile.kind in ("alarm", "risk", "lost") else 0
        if passed > seen.near:
            yield self.of(tile, "near", f"latest moment in {had(now.spare)}")
        seen.near = max(seen.near, passed) if passed else 0

    def of_lapses(self, tile: Tile, seen: Seen) -> Iterator[Alarm]:
        now = tile.now
        assert now is not None
        is_reached = now.lapses_left == 0 and tile.kind != "over"
        if is_reached and not seen.no_lapse:
            yield self.of(tile, "lapses", f"the last of {tile.planned.lapses} lapses is used")
        seen.no_lapse = is_reached

    # ------------------------------------------------------------ one alarm

    def of(self, tile: Tile, kind: str, text: str) -> Alarm:
        return self.made(tile.moment, tile.key, kind, text, tile)

    def made(self, moment: int, key: str, kind: str, text: str, tile: Optional[Tile] = None) -> Alarm:
        self.number += 1
        is_silent = kind in LOSSES and self.muted_until(key) is not None
        return Alarm(self.number, moment, key, kind, text, is_silent, "", {} if tile is None else details_of(tile))


def details_of(tile: Tile) -> dict[str, Any]:
    """A tile's figures for a program."""
    contract, now = tile.planned.contract, tile.now
    found: dict[str, Any] = {
        "contract": contract.symbol, "instrument": contract.instrument, "expiry": contract.expiry, "date": str(tile.planned.date),
        "quantum": tile.planned.quantum, "kind": tile.kind, "kept": tile.kept, "length": tile.length, "required": tile.required,
        "lapses": tile.lapses, "limit": tile.planned.lapses, "reliable": not tile.doubt}
    if now is not None:
        found.update({
            "time": now.time, "state": now.state.word, "since": now.since, "spare": now.spare, "need": now.need, "left": now.left,
            "latest": now.by, "lapses_left": now.lapses_left, "spread": now.spread, "widest": now.widest, "missing_bid": now.missing[0],
            "missing_ask": now.missing[1], "last": now.last, "carried": now.carried, "fills": now.fills, "may_rest": now.is_rest, "lost": now.is_lost})
    if tile.cell is not None:
        found.update({"met": tile.cell.met, "weight": tile.cell.weight})
    return found
