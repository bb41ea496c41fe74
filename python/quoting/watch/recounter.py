"""The recount in a process of its own: it takes the calls that the meter took, and says on how many both agree.

`recounting` runs it and hands it parts on standard input, each pickled: lists of calls with the meter's answers, and now and then what the
month shows at that point. On standard output it says what it found. It ends with its input.
"""

import copy
import os
import pickle
import resource
import signal
import sys
import time
from dataclasses import dataclass
from itertools import chain
from typing import Any, BinaryIO, Iterator, Optional, Sequence, Union

from quoting import recounted
from quoting import calls as c
from quoting.answers import line
from quoting.cells import LOOKS
from quoting.months import Month

MOST_MEMORY = 2 << 30  # bytes: a book keeps every event of its open quantum, and the machine has other work
MOST_WALKED = 2_000_000  # events that may be gone through again, report by report, to name the first call
CELL_CALLS = (c.Close, c.Charge, c.Withdraw)
STANDING = [c.block(c.Report()), c.block(c.Outlook())]


@dataclass(frozen=True)
class Called:
    """A call of the feed, where it comes from, and the line of the meter's answer."""

    block: bytes
    place: str
    line: str


@dataclass(frozen=True)
class Check:
    """What the meter's month shows after all calls so far, as lines, and its words."""

    shown: list[str]
    words: bytes


@dataclass(frozen=True)
class Agreed:
    """Both readings show the same after that many calls; `took` are the seconds of a processor that it took to see it, which don't grow
    where the machine has other work."""

    calls: int
    took: float


@dataclass(frozen=True)
class Parted:
    """The call on which the readings differ, its answer and what is shown after it by both, and on how many calls they last agreed.
    Where it is not exact, it is that call or one before it."""

    call: int
    called: Called
    answers: tuple[str, str]
    ours: list[str]
    theirs: list[str]
    agreed: int
    is_exact: bool


@dataclass(frozen=True)
class Ended:
    """The recount can't go on."""

    why: str


Said = Union[Agreed, Parted, Ended]


def changes_cells(block: bytes) -> bool:
    return isinstance(c.call_of(block), CELL_CALLS)


def asked(looks: bool) -> list[bytes]:
    """What is compared: report and outlook, and every cell where cells may have changed."""
    return STANDING + LOOKS if looks else STANDING


# ---------------------------------------------------------------- the meter's month


def shown_by(month: Month, looks: bool) -> list[str]:
    return [line(month.block(block)) for block in asked(looks)]


# ---------------------------------------------------------------- the recount


@dataclass(frozen=True)
class Point:
    """Where both readings agreed: after so many calls, with the recount's book and the month's words of then."""

    calls: int
    book: Any
    words: bytes


class Recounter:
    """The recount's book, and the calls since both readings last agreed."""

    def __init__(self) -> None:
        self.programs = recounted.recount("programs")
        self.book = recounted.recount("book").Book()
        self.point = Point(0, self.copied(self.book), Month().words())
        self.since: list[Called] = []
        self.last = Called(b"", "", "")

    @property
    def calls(self) -> int:
        return self.point.calls + len(self.since)

    def copied(self, book: Any) -> Any:
        other = copy.copy(book)
        other.quoting, other.cells = book.quoting and book.quoting.copy(), dict(book.cells)
        return other

    def answer(self, book: Any, block: bytes) -> str:
        found, _ = self.programs.read_calls(block)
        return str(self.programs.answer_line(book.call(found[0]))) if found else "no call"

    def shown(self, book: Any, looks: bool) -> list[str]:
        return [self.answer(book, block) for block in asked(looks)]

    def take(self, called: Called) -> Iterator[Said]:
        """A call; where its answer differs, the readings part here or, if it is a look or a report, before."""
        self.since.append(called)
        self.last = called
        theirs = self.answer(self.book, called.block)
        if theirs != called.line:
            month = Month.from_words(self.point.words)
            for each in self.since:
                month.block(each.block)
            yield from self.part(theirs, shown_by(month, False), self.shown(self.book, False))

    def check(self, check: Check) -> Iterator[Said]:
        """Whether both show the same now."""
        began = time.process_time()
        theirs = self.shown(self.book, len(check.shown) > len(STANDING))
        if theirs == check.shown:
            self.point, self.since = Point(self.calls, self.copied(self.book), check.words), []
            yield Agreed(self.calls, time.process_time() - began)
        else:
            yield from self.part(self.last.line, check.shown, theirs)

    # ------------------------------------------------------------ which call it was

    def part(self, answer: str, ours: list[str], theirs: list[str]) -> Iterator[Parted]:
        """That they differ, at once; then the call. Where both agree on every call, the month that was shown is not the one that these
        calls make, and it is the last one."""
        yield self.parted(self.calls, answer, ours, theirs, False)
        yield self.first_difference() or self.parted(self.calls, answer, ours, theirs, True)

    def parted(self, call: int, answer: str, ours: list[str], theirs: list[str], is_exact: bool) -> Parted:
        called = self.since[call - self.point.calls - 1] if self.since else self.last
        return Parted(call, called, (called.line, answer), ours, theirs, self.point.calls, is_exact)

    def first_difference(self) -> Optional[Parted]:
        """From the last agreement on both readings go through the calls again: one by one, or where that is too much work halving, which
        names a call after which they differ and before which they do not."""
        events = len(self.book.quoting.events) if self.book.quoting else 0
        if len(self.since) * (events + 1) <= MOST_WALKED:
            return self.walked(0, len(self.since))
        agree, differ = 0, len(self.since)
        while differ - agree > 1:
            middle = (agree + differ) // 2
            agree, differ = (agree, middle) if self.walked(middle - 1, middle) else (middle, differ)
        return self.walked(differ - 1, differ)

    def walked(self, first: int, last: int) -> Optional[Parted]:
        """Through that many calls; from the first on what both show is compared after each, and the answers after every one."""
        month, book = Month.from_words(self.point.words), self.copied(self.point.book)
        for at, called in enumerate(self.since[:last]):
            month.block(called.block)
            theirs, looks = self.answer(book, called.block), changes_cells(called.block) or last - first == 1
            if theirs == called.line and at < first:
                continue
            pair = shown_by(month, looks), self.shown(book, looks)
            if pair[0] != pair[1] or theirs != called.line:
                return self.parted(self.point.calls + at + 1, theirs, *pair, True)
        return None


# ---------------------------------------------------------------- the process


def parts(stream: BinaryIO) -> Iterator[Union[Check, Sequence[Called]]]:
    while True:
        try:
            yield pickle.load(stream)
        except EOFError:
            return


def findings(stream: BinaryIO) -> Iterator[Said]:
    """What is said of the parts; nothing after a difference."""
    recounter = Recounter()
    for part in parts(stream):
        for said in recounter.check(part) if isinstance(part, Check) else chain.from_iterable(map(recounter.take, part)):
            yield said
            if isinstance(said, Parted) and said.is_exact:
                return


def main() -> None:
    signal.signal(signal.SIGINT, signal.SIG_IGN)  # Ctrl-C is for the server, which ends this process
    os.nice(5)
    resource.setrlimit(resource.RLIMIT_AS, (MOST_MEMORY, resource.getrlimit(resource.RLIMIT_AS)[1]))
    try:
        for said in findings(sys.stdin.buffer):
            say(said)
    except BrokenPipeError:
        pass  # the server has gone
    except MemoryError:
        say(Ended(f"the open quantum's events need more than {MOST_MEMORY >> 30} GiB of memory"))
    except Exception as error:  # whatever it is, the page says so, and the meter's reading goes on
        say(Ended(f"{type(error).__name__}: {error}"))


def say(said: Said) -> None:
    pickle.dump(said, sys.stdout.buffer)
    sys.stdout.buffer.flush()
