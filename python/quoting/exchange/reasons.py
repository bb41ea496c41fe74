"""Why something of a log is not in the figures: one reason for all messages of a file, symbol and date that have the same fault."""

from dataclasses import dataclass
from enum import Enum
from typing import Iterator


class Why(Enum):
    """The fault of a message, and the refusal's number where the meter has one for it."""

    FRAME = "frame"  # 20: no message, though it starts like one
    FIELD = "field"  # 21: a tag is absent, occurs twice, or its value cannot be read
    STEP = "step"  # a price between two steps
    ORDER_TYPE = "order type"  # 40 is neither market nor limit
    EXEC_TYPE = "execution type"  # a value of 150 that is not read
    CORRECTION = "correction"  # 150=G, H: a trade that was corrected or cancelled later
    UNKNOWN = "unknown order"  # 11
    LIVE = "live order"  # 10: a new order under the id of a live one
    OVERFILL = "overfill"  # 14: a fill above what is left of the order
    SIDE = "side"  # 21: a replace by an order of the other side
    UNRESTED = "never rested"  # a request that refers to an IOC, FOK or market order


NUMBERS = {Why.FRAME: 20, Why.FIELD: 21, Why.UNKNOWN: 11, Why.LIVE: 10, Why.SIDE: 21}


@dataclass
class Reason:
    """A fault, where it occurs first, and how many messages of that file, symbol, account and date have it."""

    why: Why
    sentence: str
    file: str
    line: int
    tag: int = 0  # 0 where the fault is not about one tag
    value: str = ""
    symbol: str = ""
    account: str = ""
    date: str = ""  # as 2026-11-16; empty where the message does not say it readably
    count: int = 1

    @property
    def number(self) -> int:
        """The number of the refusal, 0 where the meter has none for it."""
        return NUMBERS.get(self.why, 0)

    def __str__(self) -> str:
        about = ", ".join(part for part in (self.symbol, self.account and f"account {self.account}", self.date) if part)
        refused = f"refused {self.number}: " if self.number else ""
        more = f", and {self.count - 1:,} more like it" if self.count > 1 else ""
        return f"{self.file}: line {self.line}: {refused}{self.sentence}{f' ({about})' if about else ''}{more}"


class Reasons:
    """Reasons in the order in which each fault was met first."""

    def __init__(self) -> None:
        self.found: dict[tuple[Why, str, int, str, str, str], Reason] = {}

    def add(self, reason: Reason) -> None:
        key = reason.why, reason.file, reason.tag, reason.symbol, reason.account, reason.date
        known = self.found.setdefault(key, reason)
        if known is not reason:
            known.count += 1

    def __iter__(self) -> Iterator[Reason]:
        return iter(self.found.values())

    def __len__(self) -> int:
        return len(self.found)
