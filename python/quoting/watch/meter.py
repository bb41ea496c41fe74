"""The month that follows a feed: each of its calls on the library's month, the course of the open quantum, what was refused, and asks.

The month gets the feed's calls alone. What is shown of a later moment, and what is asked, is worked out on copies.
"""

import re
import time
from collections import deque
from dataclasses import dataclass
from decimal import Decimal
from typing import TYPE_CHECKING, Any, Callable, Optional

from quoting import calls as c
from quoting import values
from quoting.answers import Answer, Asked, Cell, MonthReport, Outlook
from quoting.calls import Kind
from quoting.cells import CELLS, LOOKS, Place
from quoting.drawing import short
from quoting.events import Amend
from quoting.formats import call_text, thousands, time_of_day
from quoting.month_sources import Sent
from quoting.months import Month
from quoting.native import Refused
from quoting.states import State
from quoting.views import View
from quoting.watch.course import Course, Seen
from quoting.watch.feeds import Logged, Trouble
from quoting.watch.sentences import DAY, Times

if TYPE_CHECKING:
    from quoting.watch.clocks import Clock

# The kinds of blocks: those that alter the open quantum, and those that alter what cells are filled or which quantum is open.
EVENT_KINDS = frozenset((Kind.ADD, Kind.AMEND, Kind.CANCEL, Kind.DEAL, Kind.TICK, Kind.COMMIT, Kind.MESSAGE))
CELL_KINDS = c.OPENS | {Kind.CLOSE, Kind.DROP, Kind.CHARGE, Kind.WITHDRAW}
TIMED_KINDS = EVENT_KINDS - {Kind.MESSAGE} | {Kind.ASK}  # their first word is a time
LISTED = 20  # problems that are shown
MOST_CHARACTERS = 300  # of a problem's text: a message may be as long as it likes
EXPECTED = {
    "at": "h:mm:ss, or milliseconds from the quantum's start", "order": "the id of a live order", "price": "a price",
    "contracts": "a whole number of contracts",
}
GROUPED = re.compile(r"-?[0-9]{1,3}(,[0-9]{3})+(\.[0-9]+)?")


@dataclass(frozen=True)
class Problem:
    """What could not be read, or a refused call; the call's line is made when it is shown."""

    came: float
    place: str
    text: str
    block: bytes = b""
    times: Times = Times()  # of the quantum that was open

    @property
    def is_refused(self) -> bool:
        return bool(self.block)

    def sentence(self) -> str:
        return short(f"{self.text} ({self._call()})" if self.block else self.text, MOST_CHARACTERS)

    def _call(self) -> str:
        """The call's line, with its time as the page writes times."""
        name, *words = call_text(self.block).split(" ")
        if self.block[0] in TIMED_KINDS and int(words[0]) < DAY:
            words[0] = self.times.exact(int(words[0]))
        return " ".join([name, *words])


@dataclass(frozen=True)
class Opened:
    """The open quantum: its cell, its length, how its moments are written."""

    place: Place
    length: int
    start: Optional[str]
    times: Times


@dataclass(frozen=True)
class Shown:
    """The open quantum at a moment: the answers of a copy that was ticked to it, and the course up to it."""

    report: MonthReport
    outlook: Outlook
    view: View
    seen: Seen


class Meter:
    """Follows a feed from its beginning."""

    def __init__(self, name: str, day_start: int = 0, price_step: Optional[Decimal] = None) -> None:
        self.name, self.day_start, self.price_step = name, day_start, price_step
        self.month, self.calls = Month(), 0
        self.opened: Optional[Opened] = None
        self.course: Optional[Course] = None
        self.times = Times()  # of the quantum that was opened last
        self.opens = 0  # accepted so far: distinguishes one quantum's course from another's
        self.came = 0.0  # when the last call that was accepted in the open quantum was read
        self.closed: Optional[Place] = None  # the cell that was filled last
        self.problems: deque[Problem] = deque(maxlen=LISTED)
        self.problem_count = 0
        self.logged = Logged()  # what was read of the log, where there is one
        self.altered = 0  # calls that altered cells, or which quantum is open
        self.made: Optional[tuple[int, dict[str, Any]]] = None  # the month's section, and how much was altered when it was made
        self._cells: tuple[int, dict[Place, Cell]] = (-1, {})
        self._shown: tuple[int, int, Optional[Shown]] = (-1, -1, None)

    def fresh(self) -> "Meter":
        """One that has read nothing, and has the problems of this one."""
        other = Meter(self.name, self.day_start, self.price_step)
        other.problems, other.problem_count = self.problems, self.problem_count
        other.opens, other.altered = self.opens, self.altered  # a page has parts of a day by these
        return other

    # ------------------------------------------------------------ the feed

    def take(self, sent: Sent, came: float) -> Answer:
        """One call of the feed; a refused one is a problem, and the reading goes on."""
        self.calls += 1
        answer = self.month.block(sent.block)
        kind = sent.block[0]
        if isinstance(answer, Refused):
            self._refused(sent, answer, came)
        elif kind in EVENT_KINDS:
            self._note(sent, came)
        elif kind in CELL_KINDS:
            self._alter(kind, sent, came)
        return answer

    def apply(self, records: bytes, came: float) -> int:
        """Records of one time, up to one that is refused; how many were taken."""
        taken = self.month.apply(records).taken
        glance = self.month.glance() if taken else None
        if glance is not None and self.course is not None:
            self.course.note(*glance)
            self.calls, self.came = self.calls + taken, came
        return taken

    def trouble(self, found: Trouble, came: float) -> None:
        """What the feed could not read, or what was read of a log."""
        if found.logged is None:
            self._problem(Problem(came, found.place, found.text))
        else:
            self.logged = found.logged

    def refuse(self, sent: Sent, answer: Refused, came: float) -> None:
        """A call that the month refused among others."""
        self.calls += 1
        self._refused(sent, answer, came)

    def _refused(self, sent: Sent, answer: Refused, came: float) -> None:
        self._problem(Problem(came, sent.place, str(answer), sent.block, self.opened.times if self.opened else Times()))

    def _problem(self, found: Problem) -> None:
        self.problems.appendleft(found)
        self.problem_count += 1

    def _note(self, sent: Sent, came: float) -> None:
        glance = self.month.glance()
        assert glance is not None and self.course is not None and self.opened is not None
        self.course.note(*glance)
        self.came = came
        if self.opened.start is None and sent.block[0] == Kind.MESSAGE:  # a message says when its quantum starts
            call = c.call_of(sent.block)
            assert isinstance(call, c.Message)
            self._open(self.opened.place, self.opened.length, call.start.decode("latin-1"))

    def _alter(self, kind: int, sent: Sent, came: float) -> None:
        self.altered += 1
        call = c.call_of(sent.block)
        if isinstance(call, c.Open):
            self.opens, self.came = self.opens + 1, came
            self._open((call.day, call.words[0], call.words[1]), call.words[2], sent.start)
            self.course = Course(call.words[2])
        elif isinstance(call, (c.Close, c.Drop)) and self.opened is not None:
            self.closed = self.opened.place if kind == Kind.CLOSE else self.closed
            self.opened = self.course = None
        elif isinstance(call, c.Withdraw) and self.closed == (call.day, call.expiry, call.quantum):
            self.closed = None

    def _open(self, place: Place, length: int, start: Optional[str]) -> None:
        self.times = Times(time_of_day(start), " UTC", True) if start else Times(self.day_start, "", bool(self.day_start))
        self.opened = Opened(place, length, start, self.times)

    # ------------------------------------------------------------ what is shown

    @property
    def last(self) -> int:
        """The time of the open quantum's last event."""
        return self.course.time if self.course is not None else 0

    def now_at(self, clock: "Clock") -> int:
        """The time of the open quantum that the clock says, not before its last event and not past its end."""
        if self.opened is None:
            return 0
        return self.clipped(clock.now(self.opened.start, self.last, self.came))

    def clipped(self, now: int) -> int:
        return max(self.last, min(now, self.opened.length)) if self.opened is not None else 0

    def shown(self, now: int) -> Optional[Shown]:
        """The open quantum at a time, by a copy of the month that is ticked to it."""
        if self.course is None:
            return None
        at = self.clipped(now)
        if self._shown[:2] != (self.calls, at):
            copy = self.month.copy()
            copy.tick(at)
            view = copy.view()
            assert view is not None
            self._shown = self.calls, at, Shown(copy.report(), copy.outlook(), view, self.course.at(at))
        return self._shown[2]

    def cells(self) -> dict[Place, Cell]:
        """The filled cells; looked up again only if a call has altered some."""
        if self._cells[0] != self.altered:
            looks = ((place, self.month.block(look)) for place, look in zip(CELLS, LOOKS))
            self._cells = self.altered, {place: cell for place, cell in looks if isinstance(cell, Cell)}
        return self._cells[1]

    def price_text(self, price: Optional[int]) -> str:
        """A price as the feed writes it: in steps, or as a decimal where the step is known."""
        if price is None:
            return "absent"
        return str(price) if self.price_step is None else format(price * self.price_step, "f")

    # ------------------------------------------------------------ asks

    def ask(self, t: str, id: str, price: str, volume: str, now: int, known: bool = True) -> dict[str, Any]:
        """The section `answer` (without its n) to an amendment as it was typed; `known` is false while the feed is broken off."""
        if self.opened is None or not known:
            text = "No answers while the feed is broken off." if self.opened is not None else "No quantum is open."
            return refusal("No answer", text)
        try:
            call = self._read(t, id, price, volume)
        except ValueError as error:
            return refusal("Not understood", f"{error}.")
        copy = self.month.copy()
        answer = copy.block(c.block(c.Ask(call.t, call.id, call.price, call.volume)))
        if isinstance(answer, Refused):
            return refusal(f"Refused, {answer.number}", f"{answer.sentence[:1].upper()}{answer.sentence[1:]}.")
        assert isinstance(answer, Asked)
        copy.call(call)
        view = copy.view()
        assert view is not None
        return self._answer(answer, view)

    def _read(self, t: str, id: str, price: str, volume: str) -> Amend:
        assert self.opened is not None
        opened = self.opened
        at = field("at", t, lambda text: opened.times.read(text, opened.length))
        order = field("order", id, lambda text: values.whole(text, values.WORD))
        steps = field("price", price, lambda text: values.steps(text, self.price_step))
        return Amend(at, order, steps, field("contracts", volume, lambda text: values.whole(text, values.WORD)))

    def _answer(self, asked: Asked, view: View) -> dict[str, Any]:
        assert self.opened is not None
        head = "Would keep" if view.state == State.KEPT else f"Would not keep: {view.state.label}"
        quotes = f"bid {self.price_text(asked.bid)}, ask {self.price_text(asked.ask)}"
        if asked.bid is not None and asked.ask is not None:
            quotes += f", D {asked.ask - asked.bid} of at most {view.widest}"
        t = asked.ticket
        at = self.opened.times.exact(t.t)
        ticket = f"ticket: {at}, order {t.id}, {self.price_text(t.price)}, {thousands(t.volume)}, count {thousands(t.count)}"
        return {"kind": view.state.word, "head": head, "lines": [quotes, ticket]}


def refusal(head: str, text: str) -> dict[str, Any]:
    return {"kind": "refused", "head": head, "lines": [text]}


def plain(text: str) -> str:
    """A number as it was typed, without the commas between its thousands.

    >>> plain(" 1,000 "), plain("84,52")
    ('1000', '84,52')
    """
    text = text.strip()
    return text.replace(",", "") if GROUPED.fullmatch(text) else text


def field(name: str, text: str, read: Callable[[str], int]) -> int:
    """A field of the form; what can't be read is said with its name.

    >>> field("order", " ", int)
    Traceback (most recent call last):
    ValueError: order: nothing is given; expected the id of a live order
    """
    try:
        if not text.strip():
            raise ValueError("nothing is given")
        return read(plain(text))
    except ValueError as error:
        raise ValueError(f"{name}: {error}; expected {EXPECTED[name]}") from None


def wall_text(moment: float, now: float) -> str:
    """The time of day on the wall, with the date where it is another day's."""
    then = time.localtime(moment)
    same = then[:3] == time.localtime(now)[:3]
    return time.strftime("%H:%M:%S" if same else "%Y-%m-%d %H:%M:%S", then)
