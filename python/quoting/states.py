"""The states that a quantum's orders can be in, by the library's numbers, and stretches of time in one state.

>>> State(1), State.NO_BID.word, State.CROSSED.label
(<State.NO_BID: 1>, 'no-bid', 'locked or crossed')
>>> Stretch(6_000, 4_000, State.NO_BID).end
10000
"""

from enum import IntEnum
from typing import NamedTuple


class State(IntEnum):
    """The numbers are those of `enum quoting_state` in quoting.h."""

    KEPT = 0
    NO_BID = 1
    NO_ASK = 2
    NEITHER = 3
    CROSSED = 4
    WIDE = 5

    @property
    def word(self) -> str:
        """As the account prints it; the pages' colours and patterns have this name too."""
        return self.name.lower().replace("_", "-")

    @property
    def label(self) -> str:
        """As pages and pictures show it."""
        return LABELS.get(self, self.word.replace("-", " "))


LABELS = {State.NEITHER: "neither quote", State.CROSSED: "locked or crossed", State.WIDE: "too wide"}


class Stretch(NamedTuple):
    """Milliseconds from the quantum's start, milliseconds long."""

    offset: int
    length: int
    state: State

    @property
    def end(self) -> int:
        return self.offset + self.length
