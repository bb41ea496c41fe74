"""A row of a programme, and the rule of a session: a row with the settlement price.

>>> row = Row(1, 1, "8:45:00", 1000, 150, 3, "60%")
>>> row.words
[1, 1, 31500000, 1000, 150, 3, 600]
>>> Rule.of_bytes(Rule(row, 8452).head) == Rule(row, 8452)
True
"""

import struct
from dataclasses import dataclass
from typing import Sequence

from quoting import ranges
from quoting.native import Refused
from quoting.values import Share, Tenths, Time, milliseconds, tenths, time_of

HEAD = struct.Struct("<7Ii")  # the row's seven words, then SP
COLUMNS = ("expiry", "quantum", "L", "M", "a", "b", "p")


@dataclass(frozen=True)
class Row:
    """Expiry, quantum, L, M, a, b and p. The length is a time, the share needs its unit. Each is a number of 32 bits; the papers' ranges
    are checked by the library."""

    expiry: int
    quantum: int
    length: Time
    minimum: int
    a: int
    b: int
    share: Share

    def __post_init__(self) -> None:
        for name in ("expiry", "quantum", "minimum", "a", "b"):
            object.__setattr__(self, name, ranges.word(getattr(self, name), name))
        object.__setattr__(self, "length", time_of(self.length, "length"))
        object.__setattr__(self, "share", tenths(self.share))

    @property
    def words(self) -> list[int]:
        return [self.expiry, self.quantum, milliseconds(self.length), self.minimum, self.a, self.b, int(tenths(self.share))]

    @classmethod
    def of_words(cls, words: Sequence[int]) -> "Row":
        expiry, quantum, length, minimum, a, b, share = words
        return cls(expiry, quantum, length, minimum, a, b, Tenths(share))


@dataclass(frozen=True)
class Rule:
    """By what a session is run: a row and SP."""

    row: Row
    sp: int

    def __post_init__(self) -> None:
        object.__setattr__(self, "sp", ranges.signed(self.sp, "sp"))

    @property
    def head(self) -> bytes:
        """The 32 leading bytes of a session."""
        return HEAD.pack(*self.row.words, self.sp)

    @classmethod
    def of_bytes(cls, head: bytes) -> "Rule":
        if len(head) != HEAD.size:
            raise Refused.of(1)
        *words, sp = HEAD.unpack(head)
        return cls(Row.of_words(words), sp)
