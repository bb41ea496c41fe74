"""What is wrong with a desk's files: all faults at once, each with its file, its place in it, and what was expected.

>>> faults = Faults()
>>> faults.add("desk.toml", "month", "'2026-13' is not a month, expected YYYY-MM")
>>> print(faults.found[0].text)
desk.toml: month: '2026-13' is not a month, expected YYYY-MM
"""

from contextlib import contextmanager
from dataclasses import dataclass
from typing import Iterator


@dataclass(frozen=True)
class Fault:
    """A file, a line of it or a table and a key (empty where the whole file is meant), and a sentence."""

    file: str
    place: str
    what: str

    @property
    def text(self) -> str:
        return ": ".join(part for part in (self.file, self.place, self.what) if part)


class DeskError(Exception):
    """A desk that can't be settled: its faults, one a line."""

    def __init__(self, faults: list[Fault]) -> None:
        super().__init__("\n".join(fault.text for fault in faults))
        self.faults = faults


class Faults:
    """The faults as they are found; reading goes on after each."""

    def __init__(self) -> None:
        self.found: list[Fault] = []

    def add(self, file: str, place: str, what: str) -> None:
        self.found.append(Fault(file, place, what))

    @contextmanager
    def caught(self, file: str, place: str) -> Iterator[None]:
        """Notes a ValueError of the block as a fault at this place."""
        try:
            yield
        except ValueError as error:
            self.add(file, place, str(error))

    def raise_any(self) -> None:
        if self.found:
            raise DeskError(self.found)
