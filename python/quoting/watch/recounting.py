"""The recount beside the meter, in a process of its own (`recounter`): it gets every call, and every two seconds what the month shows.

It may lag: what it says is on how many calls both readings agree, and when that was seen. Where it dies the reading goes on without it.
"""

import os
import pickle
import subprocess
import sys
import threading
import time
from queue import SimpleQueue
from typing import Any, Iterator, Optional, Union

from quoting import native
from quoting.answers import Answer, line, quote_text
from quoting.months import Month
from quoting.cells import CELLS
from quoting.formats import brief, call_text, counted, place_text, roubles, thousands
from quoting.recounted import report_of
from quoting.month_sources import Sent
from quoting.values import clock
from quoting.watch.recounter import STANDING, Agreed, Called, Check, Ended, Parted, changes_cells, shown_by

Pair = tuple[str, str, str]  # a figure's name, by the meter, by the recount

EVERY = 2.0  # seconds between two checks
LAG = 5.0  # seconds since the last agreement after which calls that were not compared are a lag
SHARE = 4  # after a check that took long, that many times its length goes by before the next, so that the machine is left its other work
CHEAP = 0.1  # a check that took no longer is made again where no call has come
MOST_BEHIND = 1_000_000  # calls that may wait for it
# The folder in which the command was run may have a recount of its own: the tree's comes first.
ENTRY = "import sys; sys.path[0] = sys.argv[1]; from quoting.watch.recounter import main; main()"


def started() -> "subprocess.Popen[bytes]":
    """In a session of its own: Ctrl-C in a terminal is not for it."""
    paths = filter(None, [str(native.HERE.parent), os.environ.get("PYTHONPATH")])
    environment = {**os.environ, "PYTHONPATH": os.pathsep.join(paths)}
    return subprocess.Popen(
        [sys.executable, "-c", ENTRY, str(native.ROOT)], env=environment, start_new_session=True,
        stdin=subprocess.PIPE, stdout=subprocess.PIPE, stderr=subprocess.DEVNULL)


class Recounting:
    """What is known of the recount: `kind` is waiting (for the first check), agree, absent or stopped; `parted` where both differ."""

    def __init__(self) -> None:
        self.kind, self.why = "waiting", ""
        self.parted: Optional[Parted] = None
        self.agreed, self.agreed_at, self.took = 0, 0.0, 0.0
        self.sent = self.taken = self.checked = 0  # calls: given, taken by the process, given at the last check
        self.next, self.under_way, self.looks = time.monotonic() + EVERY, False, False
        self.waiting: list[Called] = []
        self.queue: "SimpleQueue[Union[Check, list[Called], None]]" = SimpleQueue()
        self.threads: list[threading.Thread] = []
        if (native.ROOT / "recount" / "book.py").exists():
            self.process = started()
            self.threads = [threading.Thread(target=work, daemon=True) for work in (self.feed, self.listen)]
        else:
            self.kind = "absent"
        for thread in self.threads:
            thread.start()

    @property
    def runs(self) -> bool:
        return self.kind in ("waiting", "agree") and self.parted is None

    # ------------------------------------------------------------ what it is given

    def call(self, sent: Sent, answer: Answer) -> None:
        """A call, and what the meter answered."""
        if self.runs:
            self.sent += 1
            self.looks = self.looks or changes_cells(sent.block)
            self.waiting.append(Called(sent.block, sent.place, line(answer)))

    def flush(self) -> None:
        """Hands over the calls that wait."""
        if self.waiting and self.runs:
            self.queue.put(self.waiting)
            self.waiting = []
            if self.sent - self.taken > MOST_BEHIND:
                self.stop(f"it fell {thousands(MOST_BEHIND)} calls behind")

    def check(self, month: Month) -> None:
        """What the month shows now, where it is time for it."""
        if not self.runs or self.under_way or time.monotonic() < self.next:
            return
        if self.sent == self.checked and self.took > CHEAP:
            return
        self.flush()
        check = Check(shown_by(month, self.looks), month.words())
        self.looks, self.checked, self.under_way = False, self.sent, True  # before it is given: it may be answered at once
        self.queue.put(check)

    # ------------------------------------------------------------ the process

    def feed(self) -> None:
        """A thread's work: what is given goes through the pipe, however long that takes."""
        stream = self.process.stdin
        assert stream is not None
        try:
            for part in iter(self.queue.get, None):
                pickle.dump(part, stream)
                stream.flush()
                self.taken += len(part) if isinstance(part, list) else 0
        except OSError:
            pass  # it has ended, which the other thread sees

    def listen(self) -> None:
        """A thread's work: what the process says."""
        stream = self.process.stdout
        assert stream is not None
        try:
            while True:
                self.hear(pickle.load(stream))
        except (EOFError, OSError, pickle.UnpicklingError):
            if self.runs:
                self.stop("its process has ended")

    def hear(self, said: Any) -> None:
        if isinstance(said, Agreed):
            self.agreed, self.agreed_at, self.took, self.kind = said.calls, time.time(), said.took, "agree"
            self.next, self.under_way = time.monotonic() + max(EVERY, SHARE * said.took), False
        elif isinstance(said, Parted):
            self.parted = said
        elif isinstance(said, Ended):
            self.stop(said.why)

    def stop(self, why: str) -> None:
        """The reading goes on without it."""
        self.kind, self.why, self.waiting = "stopped", why, []
        self.process.kill()

    def end(self) -> None:
        """Nothing of it is left."""
        if self.threads:
            self.kind = "stopped"
            self.queue.put(None)
            self.process.kill()
            self.process.wait()
        for thread in self.threads:
            thread.join(0.2)

    # ------------------------------------------------------------ as the page has it

    def readings(self, now: float) -> dict[str, str]:
        """The section `readings`."""
        if self.kind == "absent":
            why = "it is in the source tree and not in an installed package"
            return {"kind": "absent", "head": "The recount is not here", "text": why}
        if self.kind == "stopped":
            until = f"; both agreed on {counted(self.agreed, 'call')}" if self.agreed_at else ""
            return {"kind": "absent", "head": "The recount has stopped", "text": f"{self.why}{until}"}
        if self.kind == "waiting":
            return {"kind": "waiting", "head": "The recount is at work", "text": f"{counted(self.sent, 'call')}, none compared so far"}
        is_all = self.agreed == self.sent
        which = f"on all {counted(self.agreed, 'call')}" if is_all else f"on {self.agreed:,} of {counted(self.sent, 'call')}"
        text = f"{which}, {ago(now - self.agreed_at)} ago"
        if not is_all and now - self.agreed_at > LAG:
            return {"kind": "waiting", "head": "The recount lags", "text": f"both agree {text}"}
        return {"kind": "agree", "head": "Both readings agree", "text": text}

    def differs(self) -> Optional[dict[str, Any]]:
        """The section `differs`."""
        parted = self.parted
        if parted is None:
            return None
        rows = [{"word": word, "ours": ours, "theirs": theirs, "same": ours == theirs} for word, ours, theirs in compared(parted)]
        return {"call": thousands(parted.call), "head": "Stop: readings differ", "rows": rows, "text": parted_text(parted, self.agreed_at)}


def ago(seconds: float) -> str:
    """Whole seconds up to a minute, then h:mm:ss.

    >>> ago(3.9), ago(75)
    ('3 s', '0:01:15')
    """
    whole = max(0, int(seconds))
    return f"{whole} s" if whole < 60 else clock(1_000 * whole)


# ---------------------------------------------------------------- a difference

SHOWN_AS = {
    "outlook": {"need": "still needed", "by": "nothing need be kept until", "full": "needed for full weight", "lapses": "lapses left"},
    "cell": {"of": "length"},
}
TIMES = ("need", "left", "by", "full", "kept", "of")


def compared(parted: Parted) -> Iterator[Pair]:
    """What is shown of both readings: the figures that a maker goes by, and whatever else differs."""
    if parted.answers[0] != parted.answers[1]:
        yield "answer", *parted.answers
    ours, theirs = report_of(parted.ours[0]), report_of(parted.theirs[0])
    yield "kept", clock(ours.kept), clock(theirs.kept)
    yield "lapses", str(ours.lapses), str(theirs.lapses)
    yield "best bid", quote_text(ours.bid), quote_text(theirs.bid)
    yield "best ask", quote_text(ours.ask), quote_text(theirs.ask)
    yield "fee", roubles(ours.fee), roubles(theirs.fee)
    others = [("is_open", "a quantum is open"), ("time", "time"), ("orders", "live orders"), ("failed", "failed in each series")]
    found = [(word, str(getattr(ours, name)), str(getattr(theirs, name))) for name, word in others]
    found += parts_of("outlook", parted.ours[1], parted.theirs[1])
    for cell, *looks in zip(CELLS, parted.ours[len(STANDING) :], parted.theirs[len(STANDING) :]):
        found += parts_of(place_text(cell), looks[0], looks[1])
    yield from (pair for pair in found if pair[1] != pair[2])


def parts_of(what: str, ours: str, theirs: str) -> list[Pair]:
    """An outlook or a cell figure by figure, where both readings have one.

    >>> parts_of("outlook", "outlook need 5000 weight 0 9", "outlook need 6000 weight 0 9")
    [('outlook: still needed', '0:00:05', '0:00:06'), ('outlook: weight', '0 9', '0 9')]
    >>> parts_of("day 1", "refused 5", "cell kept 5")
    [('day 1', 'refused 5', 'cell kept 5')]
    """
    both, kind = (figures_of(ours), figures_of(theirs)), ours.split()[0]
    if kind not in SHOWN_AS or kind != theirs.split()[0] or both[0].keys() != both[1].keys():
        return [(what, ours, theirs)]
    pairs = ((name, both[0][name], both[1][name]) for name in both[0])
    return [(f"{what}: {SHOWN_AS[kind].get(name, name)}", time_text(name, left), time_text(name, right)) for name, left, right in pairs]


def figures_of(line: str) -> dict[str, str]:
    """The figures of a line of `replay`: names and numbers by turns; an outlook's weight has two."""
    words = line.split()[1:]
    found = dict(zip(words[::2], words[1::2]))
    if len(words) % 2 and found:
        found[words[-3]] += f" {words[-1]}"
    return found


def time_text(name: str, figure: str) -> str:
    return clock(int(figure)) if name in TIMES and figure.isdigit() else figure


def parted_text(parted: Parted, agreed_at: float) -> str:
    """Which call it was, and when they last agreed."""
    called, first = parted.called, parted.agreed + 1
    which = f"Call {thousands(parted.call)}, {called.place}: {brief(call_text(called.block))}." if called.block else "No call was read."
    if not parted.is_exact and first < parted.call:
        which = f"A call from {thousands(first)} to {thousands(parted.call)}: which one it was is being looked for."
    if not agreed_at:
        return f"{which} They had not been compared before."
    when = time.strftime("%H:%M:%S", time.localtime(agreed_at))
    return f"{which} They last agreed on {counted(parted.agreed, 'call')}, at {when}."
