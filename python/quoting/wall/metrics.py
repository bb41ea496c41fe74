"""The wall for programs: figures for Prometheus, the state as JSON, and whether the wall is well."""

import time
from typing import Any, Iterator, Optional

from quoting.wall.alarms import Alarms, details_of
from quoting.wall.recounting import Recounts
from quoting.wall.state import Wall
from quoting.wall.tiles import KINDS, Tile

LABELS = ["contract", "instrument", "expiry", "quantum"]
Figure = tuple[str, str]
SECONDS = 1_000


def figures_of(tile: Tile) -> Iterator[tuple[str, str, Optional[float]]]:
    """Name, what it is, and the value; None where there is none."""
    now = tile.now
    yield "quoting_kept_seconds", "Time kept in the quantum", tile.kept / SECONDS
    yield "quoting_required_seconds", "Time that must be kept in the quantum", tile.required / SECONDS
    yield "quoting_length_seconds", "Length of the quantum", tile.length / SECONDS
    yield "quoting_lapses", "Lapses in the quantum", float(tile.lapses)
    yield "quoting_lapse_limit", "Lapses that are allowed", None if tile.planned.lapses is None else float(tile.planned.lapses)
    yield "quoting_spare_seconds", "How long the quote may still be away", None if now is None else now.spare / SECONDS
    yield "quoting_need_seconds", "Time that must still be kept", None if now is None else now.need / SECONDS
    yield "quoting_left_seconds", "Time left in the quantum", None if now is None else now.left / SECONDS
    yield "quoting_spread_steps", "D, best ask less best bid, in price steps", None if now is None or now.spread is None else float(now.spread)
    yield "quoting_spread_limit_steps", "The widest D that is allowed", None if now is None else float(now.widest)
    yield "quoting_state", "State of the quote: 0 kept, 1 no bid, 2 no ask, 3 neither, 4 crossed, 5 too wide", None if now is None else float(now.state)
    yield "quoting_reliable", "1 where the figures can be relied on", float(not tile.doubt)


class Collector:
    """The figures at the moment at which they are asked for."""

    def __init__(self, wall: Wall, recounts: Recounts) -> None:
        self.wall, self.recounts = wall, recounts

    def collect(self) -> Iterator[Any]:
        from prometheus_client.core import GaugeMetricFamily

        tiles = [] if self.wall.is_reading else self.wall.tiles()
        families: dict[str, Any] = {}
        kinds = GaugeMetricFamily("quoting_tile", "1 for what the contract's tile says now", labels=[*LABELS, "kind"])
        for tile in tiles:
            labels = labels_of(tile)
            for name, text, value in figures_of(tile):
                family = families.setdefault(name, GaugeMetricFamily(name, text, labels=LABELS))
                if value is not None:
                    family.add_metric(labels, value)
            for kind in KINDS:
                kinds.add_metric([*labels, kind], float(kind == tile.kind))
        yield from families.values()
        yield kinds
        yield from self.of_desk(GaugeMetricFamily)

    def of_desk(self, family: Any) -> Iterator[Any]:
        found = [
            ("quoting_feed_age_seconds", "Seconds since a log was written to", feed_age(self.wall)),
            ("quoting_messages_read", "Messages read from all logs", float(self.wall.counts()["messages"])),
            ("quoting_recount_lag_calls", "Calls that the recount has not compared yet", float(self.recounts.sent - self.recounts.agreed)),
            ("quoting_readings_differ", "1 where the two readings differ", float(bool(self.recounts.parted))),
            ("quoting_logs_at_fault", "Logs that were truncated, replaced or lost", float(sum(log.fault is not None for log in self.wall.files.logs.values()))),
        ]
        for name, text, value in found:
            if value is not None:
                yield family(name, text, value=value)
        fees = family("quoting_fee_kopecks", "The fee so far", labels=["instrument"])
        for name, month in self.wall.months.items():
            fees.add_metric([name], float(month.fee))
        yield fees


def labels_of(tile: Tile) -> list[str]:
    contract = tile.planned.contract
    return [tile.key, contract.instrument, str(contract.expiry), str(tile.planned.quantum)]


def feed_age(wall: Wall) -> Optional[float]:
    came = max((log.growing.came for log in wall.files.logs.values()), default=None)
    return None if came is None else max(0.0, time.time() - came)


def text(wall: Wall, recounts: Recounts) -> bytes:
    """The page for Prometheus."""
    from prometheus_client import CollectorRegistry, generate_latest

    registry = CollectorRegistry(auto_describe=False)
    registry.register(Collector(wall, recounts))  # type: ignore[arg-type]  # anything with a method collect
    return bytes(generate_latest(registry))


def status(wall: Wall, recounts: Recounts, alarms: Alarms) -> dict[str, Any]:
    """The state as JSON: times in milliseconds, prices in steps, fees in kopecks."""
    tiles = [] if wall.is_reading else wall.tiles()
    return {
        "desk": wall.desk.maker, "month": wall.desk.period, "time": wall.now, "local": wall.local(wall.now).isoformat(), "reading": wall.is_reading,
        "feed_age": feed_age(wall), "clock": wall.disagreement, "desk_files": wall.desk_files.fault, "counts": wall.counts(),
        "recount": {"agreed": recounts.agreed, "calls": recounts.sent, "differ": recounts.differs(), "why": recounts.why},
        "logs": [{"name": log.name, "fault": log.fault.text(log.name) if log.fault else ""} for log in wall.files.logs.values()],
        "contracts": [{"key": tile.key, **details_of(tile), "muted": alarms.muted_until(tile.key) is not None} for tile in tiles],
        "months": {name: {"fee": month.fee, "failed": month.failed, "cells": len(month.cells)} for name, month in wall.months.items()}, "fee": wall.fee}


def health(wall: Wall, recounts: Recounts) -> tuple[bool, str]:
    """Whether the wall can be relied on, and a sentence."""
    faults = [log.fault.text(log.name) for log in wall.files.logs.values() if log.fault is not None]
    if recounts.parted:
        return False, recounts.differs()
    if faults:
        return False, "; ".join(faults)
    if wall.desk_files.fault:
        return False, wall.desk_files.fault
    if wall.is_reading:
        return False, "the logs are being read"
    return True, "well"
