"""A quantum's calls: its open, the orders that rest at its start, its events and its close, as blocks (docs/FORMATS.md, "A list of calls").

Records of events, as the logs' reader makes them, become blocks of calls. With numpy all records of a quantum are turned at once.
"""

import struct
from dataclasses import dataclass
from typing import Any, Optional, Sequence

from quoting import calls as c
from quoting import native
from quoting.answers import WORDS
from quoting.cells import Place
from quoting.desk.lists import Charges
from quoting.desk.plan import Planned
from quoting.events import SIZE, event_of, split

try:
    import numpy
except ImportError:
    numpy = None  # type: ignore[assignment]

LAYOUT = struct.Struct("<IIIiI")  # a record: kind, t, id, price, volume
SELL, AMENDED, REMOVED, DEAL = 2, 3, 4, 5  # kinds of records
# By a record's kind: the words of its block, as indexes of (block's kind, t, id, side, price, volume).
USED = {1: (0, 1, 2, 3, 4, 5), 2: (0, 1, 2, 3, 4, 5), 3: (0, 1, 2, 4, 5), 4: (0, 1, 2), 5: (0, 1, 2, 5), 6: (0, 1)}
BLOCK_KIND = (0, 2, 2, 3, 4, 5, 6)  # of a record's kind


def blocks_of(records: bytes) -> bytes:
    """The blocks of records.

    >>> from quoting.events import Add, Cancel, records
    >>> made = blocks_of(records([Add(0, 1, "sell", -5, 500), Cancel(7, 1)]))
    >>> made == c.block(Add(0, 1, "sell", -5, 500)) + c.block(Cancel(7, 1))
    True
    """
    if numpy is None:
        return b"".join(c.block(event) for record in split(records) if (event := event_of(record)) is not None)
    found = numpy.frombuffer(records, dtype="<u4").reshape(-1, SIZE // 4)  # kind and three zero bytes, t, id, price, volume
    kinds = found[:, 0]
    words = numpy.empty((len(found), 6), dtype="<u4")
    words[:, 0] = numpy.array(BLOCK_KIND, dtype="<u4")[kinds]
    words[:, 1:3] = found[:, 1:3]
    words[:, 3] = kinds  # 1 a buy, 2 a sell
    words[:, 4:6] = found[:, 3:5]
    used = numpy.zeros((len(BLOCK_KIND), 6), dtype=bool)
    for kind, columns in USED.items():
        used[kind, list(columns)] = True
    return bytes(words[used[kinds]].tobytes())


def block_of(record: bytes) -> bytes:
    """The block of one record.

    >>> from quoting.events import Add, Amend, Cancel, Deal, Tick, record
    >>> events = [Add(0, 1, "sell", -5, 500), Amend(3, 1, 7, 9), Deal(4, 1, 2), Cancel(7, 1), Tick(8)]
    >>> all(block_of(record(event)) == c.block(event) for event in events)
    True
    """
    kind = record[0]
    head, name = BLOCK_KIND[kind].to_bytes(4, "little"), record[4:12]  # t and id
    if kind <= SELL:
        return head + name + record[:4] + record[12:]  # a record's kind is the side
    if kind == AMENDED:
        return head + record[4:]
    if kind == DEAL:
        return head + name + record[16:]
    return head + (name if kind == REMOVED else record[4:8])


def deals_of(records: bytes) -> tuple[int, int]:
    """How many of the records are deals, and the contracts dealt."""
    if numpy is not None:
        found = numpy.frombuffer(records, dtype="<u4").reshape(-1, SIZE // 4)
        dealt = found[found[:, 0] == DEAL, 4]
        return len(dealt), int(dealt.sum())
    volumes = [volume for kind, _, _, _, volume in LAYOUT.iter_unpack(records) if kind == DEAL]
    return len(volumes), sum(volumes)


def without_deals(records: bytes) -> bytes:
    """The records that are no deals."""
    if numpy is not None:
        found = numpy.frombuffer(records, dtype="<u4").reshape(-1, SIZE // 4)
        return bytes(found[found[:, 0] != DEAL].tobytes())
    return b"".join(record for record in split(records) if record[0] != DEAL)


@dataclass(frozen=True)
class Work:
    """A quantum to settle: what it is opened and closed with, its records, and the file and line that each record comes from."""

    planned: Planned
    charges: Optional[Charges]  # None: the file has no line
    carried: bytes
    events: bytes
    places: Sequence[tuple[str, int]]  # of the events

    @property
    def size(self) -> int:
        """How many calls it is."""
        return 2 + (len(self.carried) + len(self.events)) // SIZE

    @property
    def opened(self) -> c.Open:
        planned = self.planned
        return c.Open(planned.row.words, planned.date.day, planned.spread, c.NO_LIMIT if planned.lapses is None else planned.lapses)

    @property
    def closed(self) -> c.Close:
        return c.Close(self.charges.active, self.charges.passive) if self.charges else c.Close(0, 0)

    @property
    def blocks(self) -> bytes:
        return c.block(self.opened) + blocks_of(self.carried + self.events) + c.block(self.closed)

    @property
    def cell(self) -> Place:
        """Its place in the month: day, expiry and quantum."""
        return self.planned.date.day, self.planned.contract.expiry, self.planned.quantum

    @property
    def look(self) -> bytes:
        return c.block(c.Look(*self.cell))

    def place_of(self, index: int) -> str:
        """Where a call of the quantum, counted from 0, comes from."""
        carried = len(self.carried) // SIZE
        if 0 < index <= carried:
            return "an order that rests at the start"
        if carried < index <= carried + len(self.places):
            return "{}: line {}".format(*self.places[index - 1 - carried])
        return "the open" if index == 0 else "the close"


def answers_of(calls: bytes, count: int) -> Any:
    """The twenty words of each answer of a fresh month to a list of calls, by the proved run over the list."""
    buffer = native.words(WORDS * count)
    made = native.call("quoting_calls", calls, len(calls), buffer, WORDS * count)
    if made != count:
        raise ValueError(f"{made} of {count} calls were made")
    return buffer
