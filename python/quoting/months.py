"""A month of the maker's calls, in words of its own, by the proved call of the library.

Each call is a method: it answers what the month shows, or raises `Refused`, and a refused call leaves the month as it was.

>>> with Month() as month:
...     month.open(Row(1, 1, "8:45:00", 1000, 150, 3, "60%"), day=1, sp=8452)
...     month.add("0:00:10", 1, "buy", 8446, 1000)
...     month.add("0:00:10", 2, "sell", 8458, 1000)
...     asked = month.ask("4:00:00", 1, 8447, 1500)
...     month.commit("4:00:00", 1, 8447, 1500, asked.ticket)
...     month.close(active=10_000, passive=20_000)
...     month.look(1, 1, 1).weight, month.report().fee
(20000, 20000)

Event records are taken in bulk, until one is refused.

>>> from quoting.events import records
>>> with Month() as live:
...     live.open(Row(1, 1, "8:45:00", 1000, 150, 3, "60%"), day=2, sp=8452)
...     live.apply(records([Add(0, 1, "buy", 8446, 1000), Cancel(5, 7), Tick(9)]))
...     live.apply(records([Cancel(5, 7), Tick(9)]), skip=True)
Applied(taken=1, refusal=Refused(11, 2, 'no order with this id is live'))
Skipped(taken=1, refusals=[Refused(11, 1, 'no order with this id is live')])

A month can be copied, pickled and compared. Its words can be stored, and read again with a check.

>>> again = Month.from_words(month.words())
>>> again == month, again
(True, <Month: 5 calls accepted, 1 quantum closed, none open>)
"""

import ctypes
import struct
import sys
from array import array
from functools import lru_cache
from types import TracebackType
from typing import Any, Iterable, Iterator, Literal, NamedTuple, Optional, Sequence, Union, overload

from quoting import calls as c
from quoting import events, month_words, native, ranges, sessions
from quoting.answers import WORDS, Answer, Asked, Cell, MonthReport, Outlook, answer_in, new
from quoting.events import SIDES, Add, Amend, Cancel, Deal, Event, Side, Tick
from quoting.formats import counted
from quoting.lending import HINT_BYTES, MADE, Form, Lent
from quoting.native import Refused
from quoting.rows import Row
from quoting.states import State
from quoting.values import Time, clock
from quoting.views import View, state_in, view_in

NO_CALL = 3  # the library's refusal of bytes that are not one block, and, at place 1, of words that are not a month's

MonthWords, AnswerWords = native.WORD * month_words.COUNT, native.WORD * WORDS

# Blocks of numbers alone; a price is signed.
ADD, AMEND, CANCEL, DEAL, TICK = (
    Form(c.Kind.ADD, "IIIiI"), Form(c.Kind.AMEND, "IIiI"), Form(c.Kind.CANCEL, "II"), Form(c.Kind.DEAL, "III"), Form(c.Kind.TICK, "I"),
)
GLANCE = struct.Struct("=12xI4xIiIi")  # of a report's words: the time and both quotes
LOOK, REPORT, OUTLOOK, ASK = Form(c.Kind.LOOK, "III"), Form(c.Kind.REPORT, ""), Form(c.Kind.OUTLOOK, ""), Form(c.Kind.ASK, "IIiI")


class Glance(NamedTuple):
    """The time of the open quantum's last event, the state that its orders are in, both best quotes."""

    time: int
    state: State
    bid: Optional[int]
    ask: Optional[int]


class Applied(NamedTuple):
    """How many records were taken, and what refuses the next one (its place is the record, counted from 1); None where all were taken."""

    taken: int
    refusal: Optional[Refused]


class Skipped(NamedTuple):
    """How many records were taken, and what refuses each of the others (its place is the record, counted from 1)."""

    taken: int
    refusals: list[Refused]


@lru_cache(maxsize=None)
def fresh_words() -> bytes:
    """The words of a fresh month, as they are in memory."""
    words = MonthWords()
    native.call("quoting_month_fresh", words, month_words.COUNT)
    return bytes(words)


def checked(made: int) -> int:
    """What a C call answers; a refusal of the call itself, which is no answer of the month, is raised."""
    if made >> 32 == 0:
        return made
    number, place = made >> 32, made & 0xFFFFFFFF
    if number == NO_CALL:
        raise ValueError("the words of this month are damaged: they are not a month's" if place == 1 else "these bytes are not one call")
    raise Refused.of(number, place)


class Month:
    """A fresh month; in a `with` block it ends at the block's end, and later calls are errors.

    Threads may use one month at the same time: each call is made as a whole, and gets its own answer. (The calls keep the interpreter's
    lock. On a build of Python without one, guard each month by a lock of your own.)

    A call that the month refuses raises `Refused` and leaves the month as it was. Times are milliseconds from the quantum's start, or texts
    h:mm:ss; prices are whole steps, and charges kopecks.
    """

    def __init__(self) -> None:
        self._hold(fresh_words())

    def _hold(self, words: Any) -> None:
        self._words = MonthWords.from_buffer_copy(words)
        self._hints = native.bytes_of(HINT_BYTES)
        self._lent: list[Lent] = []  # those that no call is using
        self._ended = False

    def _check_open(self) -> None:
        if self._ended:
            raise ValueError("the month has ended with its block")

    # ------------------------------------------------------------ copies and words

    def copy(self) -> "Month":
        """A month of its own with the same words: a call on one of the two leaves the other as it is.

        >>> with Month() as month:
        ...     month.open(Row(1, 1, "8:45:00", 1000, 150, 3, "60%"), day=1, sp=8452)
        ...     ahead = month.copy()
        ...     ahead.tick("1:00:00")
        ...     ahead.report().time, month.report().time
        (3600000, 0)
        """
        self._check_open()
        other = Month.__new__(Month)
        other._hold(self._words)
        return other

    def __copy__(self) -> "Month":
        return self.copy()

    def __deepcopy__(self, memo: dict[int, Any]) -> "Month":
        return self.copy()

    def __reduce__(self) -> tuple[Any, tuple[bytes]]:
        self._check_open()
        return Month.from_words, (self.words(),)

    def __eq__(self, other: object) -> bool:
        """Whether both months have the same words."""
        if not isinstance(other, Month):
            return NotImplemented
        return bytes(self._words) == bytes(other._words)

    __hash__ = None  # type: ignore[assignment]  # a month changes

    def __repr__(self) -> str:
        w = month_words.read(self.words())
        closed = sum(w[month_words.CELLS :: month_words.CELL_WORDS])
        day, expiry = w[month_words.PLACE] // 6 + 1, w[month_words.PLACE] // 3 % 2 + 1
        orders = sum(w[first + month_words.NUMBER] for first in month_words.SIDE_STARTS.values())
        opened = f"day {day} expiry {expiry} quantum {w[month_words.PLACE] % 3} open at {clock(w[month_words.TIME])} with {counted(orders, 'order')}"
        accepted = c.long(*w[month_words.ACCEPTED : month_words.ACCEPTED + 2])
        shown = f"{counted(accepted, 'call')} accepted, {counted(closed, 'quantum', 'quanta')} closed, {opened if w[month_words.OPEN] else 'none open'}"
        return f"<Month: {shown}>"

    def words(self) -> bytes:
        """The month's words, four bytes each, low byte first: the same for equal months, on every machine (docs/FORMATS.md)."""
        found = array("I", bytes(self._words))
        if sys.byteorder == "big":
            found.byteswap()
        return found.tobytes()

    @classmethod
    def from_words(cls, words: bytes) -> "Month":
        """The month that has these words, which may come from a file. They are checked once: each is in its range, ids are distinct, the
        notes' ids are the table's, and what follows from the row and the orders is as the library computes it. A ValueError names the
        word that is wrong, counted from 0.

        >>> damaged = bytearray(Month().words())
        >>> damaged[4 * 2460] = 1
        >>> Month.from_words(damaged)
        Traceback (most recent call last):
        ValueError: these are not a month's words: word 2454, whether the cell is filled, is 0, but others of its words are not 0
        """
        given = month_words.read(words)
        due = cls._reopened(month_words.opening(given))
        for at, word in enumerate(given[: month_words.CELLS]):
            free = at in month_words.CLOCK and at != month_words.KEEPS and given[month_words.OPEN]
            if word != due[at] and not free and not month_words.ACCEPTED <= at < month_words.QUANTUM:
                month_words.wrong(at, f"is {word}, it must be {due[at]}")
        month = cls.__new__(cls)
        month._hold(array("I", given).tobytes())
        return month

    @classmethod
    def _reopened(cls, opening: Optional[month_words.Opening]) -> Any:
        """The words of a month whose quantum was opened so, and got these orders at time 0."""
        month = Month()
        if opening is None:
            return month._words
        try:
            month.open(opening.row, opening.day, opening.spread, opening.limit)
            for order in opening.orders:
                month.add(0, order.id, order.side, order.price, order.volume)
        except Refused as refused:
            raise ValueError(f"these are not a month's words: the quantum is {refused}") from None
        return month._words

    @classmethod
    def of_calls(cls, calls: bytes) -> "Month":
        """The month after a list of calls, from a fresh one (docs/FORMATS.md, "A list of calls"). A call that the month refuses leaves it
        as it was, as in `replay`; bytes that are no call are a ValueError.

        >>> Month.of_calls(c.block(c.Open([1, 1, 31_500_000, 1000, 150, 3, 600], 1, 8452)) + c.block(Tick(1_000)))
        <Month: 2 calls accepted, 0 quanta closed, day 1 expiry 1 quantum 1 open at 0:00:01 with 0 orders>
        """
        given = ranges.data(calls, "calls")
        blocks, stop = c.blocks(given)
        if stop != len(given):
            raise ValueError(f"byte {stop} of {len(given)}: no call begins there, or it is cut short")
        month = cls()
        for each in blocks:
            month.block(each)
        return month

    # ------------------------------------------------------------ calls

    def __enter__(self) -> "Month":
        return self

    def __exit__(self, kind: Optional[type[BaseException]], error: Optional[BaseException], trace: Optional[TracebackType]) -> None:
        self._ended = True

    def _take(self) -> Lent:
        """Buffers that no other call uses, to be given back."""
        try:
            return self._lent.pop()
        except IndexError:
            return Lent(self._words, self._hints)

    def _answer(self, form: Form, *numbers: Any) -> Optional[Answer]:
        """The answer to a call of whole numbers, on buffers that were lent before; a refusal is raised. None where a number is outside its range
        or is none, or the words are damaged: no call is made then."""
        if self._ended:
            self._check_open()
        try:  # as `_take`, without a call
            lent = self._lent.pop()
        except IndexError:
            lent = Lent(self._words, self._hints)
        try:
            form.pack_into(lent.block, 0, form.kind, *numbers)
            answer = answer_in(lent.answer) if lent.calls[form.words]() == MADE else None
        except struct.error:
            return None
        finally:
            self._lent.append(lent)
        if type(answer) is Refused:
            raise answer
        return answer

    def block(self, data: bytes) -> Answer:
        """The month's answer to a call's block (docs/FORMATS.md, "A list of calls"), a refusal as a value."""
        return self.blocks([ranges.data(data, "data")])[0]

    def blocks(self, blocks: Iterable[bytes]) -> list[Answer]:
        """The month's answers to blocks in their order, a refusal as a value: as `block`, in less time for many.

        >>> with Month() as month:
        ...     month.blocks([c.block(c.Drop()), c.block(c.Open([1, 1, 31_500_000, 1000, 150, 3, 600], 1, 8452)), c.block(Tick(1_000))])
        [Refused(7, 0, 'no quantum is open'), Accepted(), Accepted()]
        """
        self._check_open()
        lent, found = self._take(), list[Answer]()
        try:
            for block in blocks:
                checked(lent.call(block))
                found.append(answer_in(lent.answer))
        finally:
            self._lent.append(lent)
        return found

    def call(self, call: c.Call) -> Answer:
        """The month's answer to a call of `quoting.calls`, or to an event; a refusal is raised."""
        answer = self.block(c.block(call))
        if isinstance(answer, Refused):
            raise answer
        return answer

    # ------------------------------------------------------------ records

    @overload
    def apply(self, records: Union[Iterable[Event], bytes, Any], *, skip: Literal[False] = False) -> Applied: ...

    @overload
    def apply(self, records: Union[Iterable[Event], bytes, Any], *, skip: Literal[True]) -> Skipped: ...

    def apply(self, records: Union[Iterable[Event], bytes, Any], *, skip: bool = False) -> Union[Applied, Skipped]:
        """Takes event records in bulk: bytes of 20 a record, a numpy array of `events.dtype()` (whose memory is read without a copy) or a list
        of events. It stops at the first record that is refused, and answers how many were taken and what refuses that one; with `skip` the
        refused ones are left out, and it answers how many were taken and what refuses each of the others. Nothing is raised for a refused
        record. Other threads wait while records are taken.

        `Missing` is raised where the library is older than 1.4.0.
        """
        self._check_open()
        if isinstance(records, str):
            raise ranges.type_error(records, "records", "bytes of records, an array or a list of events")
        data, size, _alive = sessions.lent(records, b"")
        start = data if isinstance(data, int) else ctypes.cast(ctypes.c_char_p(data), ctypes.c_void_p).value or 0
        taken, number = self._records(start, size)
        if not skip:
            return Applied(taken, Refused.of(number, taken + 1) if number else None)
        return self._skip_on(start, size, taken, number)

    def _records(self, start: int, size: int) -> tuple[int, int]:
        """How many records from an address on are taken, and the number that refuses the next one, or 0."""
        answer, records = AnswerWords(), native.function("quoting_month_records")
        taken = checked(records(self._words, month_words.COUNT, self._hints, HINT_BYTES, start, size, answer, WORDS))
        return taken, answer[1]

    def _skip_on(self, start: int, size: int, taken: int, number: int) -> Skipped:
        """Goes on after a refused record, until none is left."""
        at, refusals = taken, []
        while number:
            at += 1
            refusals.append(Refused.of(number, at))
            left = max(size - events.SIZE * at, 0)
            more, number = self._records(start + events.SIZE * at, left)
            at, taken = at + more, taken + more
        return Skipped(taken, refusals)

    # ------------------------------------------------------------ each call

    def open(self, row: Union[Row, Sequence[int]], day: int, sp: Union[int, c.Strike], lapses: Optional[int] = None) -> None:
        """Opens a quantum by a row, or by a list of words; a strike may be given in place of SP. `lapses` is the lapse limit, None for none."""
        words = row.words if isinstance(row, Row) else list(row)
        self.call(c.Open(words, day, sp, c.NO_LIMIT if lapses is None else lapses))

    # A call of plain numbers goes by `_answer`; any other goes by `call`, which reads times and names the number that is wrong.

    def add(self, t: Time, id: int, side: Side, price: int, volume: int) -> None:
        """Adds an order, `buy` or `sell`."""
        if type(t) is type(id) is type(price) is type(volume) is int and type(side) is str:
            if self._answer(ADD, t, id, SIDES.get(side), price, volume):
                return
        self.call(Add(t, id, side, price, volume))

    def amend(self, t: Time, id: int, price: int, volume: int) -> None:
        """Gives a live order another price and volume."""
        if type(t) is type(id) is type(price) is type(volume) is int and self._answer(AMEND, t, id, price, volume):
            return
        self.call(Amend(t, id, price, volume))

    def cancel(self, t: Time, id: int) -> None:
        """Takes a live order away."""
        if type(t) is type(id) is int and self._answer(CANCEL, t, id):
            return
        self.call(Cancel(t, id))

    def deal(self, t: Time, id: int, volume: int) -> None:
        """Takes a traded volume off a live order, which ends where nothing of it is left."""
        if type(t) is type(id) is type(volume) is int and self._answer(DEAL, t, id, volume):
            return
        self.call(Deal(t, id, volume))

    def tick(self, t: Time) -> None:
        """Says that time has passed."""
        if type(t) is int and self._answer(TICK, t):
            return
        self.call(Tick(t))

    def close(self, active: int, passive: int) -> None:
        """Closes the open quantum, with both charges in kopecks."""
        self.call(c.Close(active, passive))

    def drop(self) -> None:
        """Forgets the open quantum."""
        self.call(c.Drop())

    def charge(self, day: int, expiry: int, quantum: int, active: int, passive: int) -> None:
        """Sets a cell's charges, in kopecks."""
        self.call(c.Charge(day, expiry, quantum, active, passive))

    def withdraw(self, day: int, expiry: int, quantum: int) -> None:
        """Blanks a cell."""
        self.call(c.Withdraw(day, expiry, quantum))

    def look(self, day: int, expiry: int, quantum: int) -> Cell:
        """A closed quantum: time kept, lapses, charges, verdict and weight."""
        answer = self._answer(LOOK, day, expiry, quantum) if type(day) is type(expiry) is type(quantum) is int else None
        answer = answer or self.call(c.Look(day, expiry, quantum))
        assert isinstance(answer, Cell)
        return answer

    def report(self) -> MonthReport:
        """The open quantum, the failure counts of the six series and the fee."""
        answer = self._answer(REPORT) or self.call(c.Report())
        assert isinstance(answer, MonthReport)
        return answer

    def outlook(self) -> Outlook:
        """What the open quantum still needs, and whether the maker may stop quoting."""
        answer = self._answer(OUTLOOK) or self.call(c.Outlook())
        assert isinstance(answer, Outlook)
        return answer

    def view(self) -> Optional[View]:
        """The open quantum as it is now, or None where none is open.

        >>> with Month() as month:
        ...     month.open(Row(1, 1, "8:45:00", 1000, 150, 3, "60%"), day=1, sp=8452)
        ...     month.add(0, 7, "buy", 8446, 1000)
        ...     found = month.view()
        ...     found.state, found.widest, [order.id for order in found.orders]
        (<State.NO_ASK: 2>, 12, [7])
        """
        self._check_open()
        lent = self._take()
        try:
            return view_in(lent.view) if checked(lent.show()) else None
        finally:
            self._lent.append(lent)

    def glance(self) -> Optional[Glance]:
        """Time, state and both quotes alone, for a program that follows each event; None where no quantum is open.

        >>> with Month() as month:
        ...     month.open(Row(1, 1, "8:45:00", 1000, 150, 3, "60%"), day=1, sp=8452)
        ...     month.add("0:00:10", 7, "buy", 8446, 1000)
        ...     month.glance()
        Glance(time=10000, state=<State.NO_ASK: 2>, bid=8446, ask=None)
        """
        self._check_open()
        lent = self._take()
        REPORT.pack_into(lent.block, 0, REPORT.kind)
        try:
            while True:
                count = self._words[month_words.ACCEPTED]
                if not checked(lent.show()):
                    return None
                checked(lent.calls[REPORT.words]())
                if self._words[month_words.ACCEPTED] == count:  # else another thread made a call between the two
                    time, has_bid, bid, has_ask, ask = GLANCE.unpack_from(lent.answer)
                    return new(Glance, (time, state_in(lent.view), bid if has_bid else None, ask if has_ask else None))
        finally:
            self._lent.append(lent)

    def ask(self, t: Time, id: int, price: int, volume: int) -> Asked:
        """The quotes after an amendment, and a ticket for it; the month stays as it is."""
        is_plain = type(t) is type(id) is type(price) is type(volume) is int
        answer = (self._answer(ASK, t, id, price, volume) if is_plain else None) or self.call(c.Ask(t, id, price, volume))
        assert isinstance(answer, Asked)
        return answer

    def commit(self, t: Time, id: int, price: int, volume: int, ticket: c.Ticket) -> None:
        """Makes the amendment, if the ticket is still good."""
        self.call(c.Commit(t, id, price, volume, ticket))

    def message(self, start: Union[str, bytes], message: bytes) -> None:
        """Takes a FIX message, with the quantum's start in the form of 60."""
        self.call(c.Message(start.encode() if isinstance(start, str) else start, message))


def answers_to(blocks: Iterable[bytes]) -> Iterator[Answer]:
    """A fresh month's answer to each block of a list, a refusal as a value.

    >>> list(answers_to([c.block(c.Drop())]))
    [Refused(7, 0, 'no quantum is open')]
    """
    with Month() as month:
        yield from map(month.block, blocks)
