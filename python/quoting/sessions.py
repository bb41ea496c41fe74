"""A session by the proved run: kept time, weight, pairs and verdict.

>>> from quoting import Add, Cancel, Row, Rule
>>> rule = Rule(Row(1, 1, 10_000, 500, 100, 1, "60%"), sp=2000)
>>> done = session(rule, [Add(0, 1, "buy", 99, 500), Add(0, 2, "sell", 101, 500), Cancel(6000, 1)])
>>> done.kept, done.met, done.weight, done.pairs
(6000, True, 10000, [(0, 6000)])
>>> session(rule, "t,kind,id,side,price,volume\\n0,add,1,buy,99,500\\n0,add,2,sell,101,500\\n").kept
10000
>>> session(rule, [Cancel("0:00:01", 7)])
Traceback (most recent call last):
quoting.native.Refused: refused 11 at 1: no order with this id is live
"""

from dataclasses import dataclass
from functools import cached_property
from typing import Any, Iterable, Union

from quoting import events as lists
from quoting import native, ranges, texts
from quoting.events import Event
from quoting.rows import HEAD, Rule

Events = Union[str, bytes, bytearray, memoryview, Iterable[Event]]
FRONT = 3  # words before the pairs: K, the weight, the number of pairs


@dataclass(frozen=True)
class Session:
    """The answer of a session run. `words` are those that the library wrote: K, weight, number of pairs, the pairs."""

    rule: Rule
    words: Any

    @property
    def kept(self) -> int:
        return int(self.words[0])

    @property
    def weight(self) -> int:
        return int(self.words[1])

    @property
    def met(self) -> bool:
        """A failed quantum weighs nothing, a met one at least 10,000."""
        return self.weight > 0

    @property
    def length(self) -> int:
        return self.rule.row.words[2]

    @cached_property
    def pairs(self) -> list[tuple[int, int]]:
        """The kept stretches, offset and length in milliseconds."""
        found = self.words[FRONT : FRONT + 2 * self.words[2]]
        return list(zip(found[::2], found[1::2]))

    def array(self) -> Any:
        """The pairs as a numpy array of two columns, over the same memory."""
        import numpy

        count = int(self.words[2])
        return numpy.frombuffer(self.words, dtype="<u4", count=2 * count, offset=4 * FRONT).reshape(count, 2)


def session(rule: Union[Rule, bytes], events: Events) -> Session:
    """Runs one session. `events` are a list of events, a text of CSV, bytes of records, or a numpy array of `events.dtype()`, whose
    memory is read without a copy. A refusal is raised as `Refused`; its place is the record counted from 1."""
    head = rule.head if isinstance(rule, Rule) else ranges.data(rule, "rule")
    data, size, _alive = lent(events, head)
    most = FRONT + 2 * ((-(-size // lists.SIZE) + 1) // 2)  # a run of n records has at most (n + 1) / 2 kept stretches
    buffer = native.words(most)
    native.call("quoting_session_pairs", head, len(head), data, size, buffer, most)
    return Session(Rule.of_bytes(head[: HEAD.size]), buffer)


def lent(events: Events, head: bytes) -> tuple[Any, int, Any]:
    """The records as the library takes them, their size in bytes, and the object whose memory they are. A CSV text that has a row and SP
    of its own must have those of the leading bytes."""
    if hasattr(events, "__array_interface__"):
        return array_lent(events)
    if isinstance(events, str):
        data = texts.csv_bytes(events, head=head)[len(head) :]
    elif isinstance(events, (bytes, bytearray, memoryview)):
        data = ranges.data(events, "events")
    else:
        data = lists.records(events)
    return data, len(data), data


def array_lent(array: Any) -> tuple[Any, int, Any]:
    """A numpy array's memory, without a copy."""
    if array.dtype != lists.dtype():
        raise ValueError(f"the array's dtype is {array.dtype}, not that of quoting.events.dtype()")
    if hasattr(array, "mask"):
        raise ValueError("the array is masked, and the library would read the masked records too: give the records that count, array.compressed()")
    if array.ndim != 1 or not array.flags.c_contiguous:
        raise ValueError("the array is not of one dimension, or its records do not follow each other: give numpy.ascontiguousarray(..)")
    return array.ctypes.data, array.nbytes, array
