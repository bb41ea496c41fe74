"""The desk's own files, such as prices and charges, which grow during the month: where one has changed, the desk is read again.

While they are at fault the wall goes on by what it read before, and says so.
"""

import os
import time
from pathlib import Path
from typing import Any, Optional

from quoting.desk import fields
from quoting.desk.desks import Desk, names_of
from quoting.desk.faults import DeskError, Faults

AGAIN = 1.0  # seconds between two looks
OTHER = "other contracts, steps, logs or another month than at the start: they take another start of the wall"


def patterns_of(path: Path) -> list[str]:
    """The names and patterns of the logs, as desk.toml has them."""
    found = fields.read_toml(Faults(), path.name, path.read_bytes()) or {}
    return names_of(found.get("logs", []))


def stamp(path: Path) -> Optional[tuple[int, int, int]]:
    """What tells a file from what it was; None where it is not there."""
    try:
        status = os.stat(path)
    except OSError:
        return None
    return status.st_mtime_ns, status.st_size, status.st_ino


class DeskFiles:
    """The files that a desk was read from."""

    def __init__(self, desk: Desk) -> None:
        self.desk, self.patterns = desk, patterns_of(desk.path)
        self.looked, self.seen = time.monotonic(), self.stamps()
        self.fault = ""  # why they can't be gone by now

    def stamps(self) -> dict[Path, Any]:
        paths = {self.desk.path.parent / self.desk.charge_file, *(each.path for each in self.desk.inputs if each.data is not None)}
        return {path: stamp(path) for path in paths}

    def look(self) -> Optional[Desk]:
        """The desk as it is now, where a file has changed and all of them are right."""
        if time.monotonic() - self.looked < AGAIN:
            return None
        self.looked, stamps = time.monotonic(), self.stamps()
        if stamps == self.seen:
            return None
        self.seen = stamps
        try:
            fresh, patterns = Desk.load(self.desk.path, with_logs=False), patterns_of(self.desk.path)
        except DeskError as error:
            more = f" (and {len(error.faults) - 1} more)" if len(error.faults) > 1 else ""
            self.fault = error.faults[0].text + more
            return None
        except OSError:  # desk.toml went away between two reads
            self.seen = {}
            return None
        is_other = patterns != self.patterns or frame_of(fresh) != frame_of(self.desk)
        self.fault = f"{fresh.path.name} has {OTHER}" if is_other else ""
        self.desk = self.desk if is_other else fresh
        return None if is_other else fresh


def frame_of(desk: Desk) -> Any:
    """What the wall was built for."""
    steps = {each.symbol: desk.programme.instruments[each.instrument].step for each in desk.contracts}
    return desk.maker, desk.period, desk.programme.timezone, desk.contracts, steps, {each.contract for each in desk.plan()}
