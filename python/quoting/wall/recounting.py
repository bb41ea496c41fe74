"""The recount beside the wall, in one process of its own (`recounter`): it gets every call of every contract that runs, and in turn what
each contract's month shows. It may lag, and the wall says by how much."""

import os
import pickle
import subprocess
import sys
import threading
import time
from dataclasses import dataclass
from queue import SimpleQueue
from typing import Any, Iterable, Iterator, Optional, Union

from quoting import native
from quoting.answers import line
from quoting.formats import counted, thousands
from quoting.wall.recounter import Part, Taken
from quoting.wall.running import Call, Running
from quoting.watch.recounter import Agreed, Called, Check, Ended, Parted, changes_cells, shown_by

ENTRY = "import sys; sys.path[0] = sys.argv[1]; from quoting.wall.recounter import main; main()"
EVERY = 2.0  # seconds between two checks of a contract
SHARE = 4  # checks that take long are made less often: all contracts together take at most that part of the process's time
MOST_BEHIND = 2_000_000  # calls that may wait for it


@dataclass
class Count:
    """A contract's quantum: calls given, given at the last check, and agreed on."""

    starts: int = 0
    sent: int = 0
    checked: int = -1
    agreed: int = 0
    looks: bool = False
    under_way: bool = False
    next: float = 0.0


class Recounts:
    """What is known of the recount of all contracts."""

    def __init__(self) -> None:
        self.counts: dict[str, Count] = {}
        self.why = ""  # it does not run
        self.parted: dict[str, Parted] = {}
        self.taken = self.given = 0
        self.behind_since: Optional[float] = None
        self.queue: "SimpleQueue[Optional[list[Part]]]" = SimpleQueue()
        self.threads: list[threading.Thread] = []
        self.process: Any = None
        if (native.ROOT / "recount" / "book.py").exists():
            self.begin()
        else:
            self.why = "it is in the source tree and not in an installed package"

    def begin(self) -> None:
        paths = filter(None, [str(native.HERE.parent), os.environ.get("PYTHONPATH")])
        self.process = subprocess.Popen(
            [sys.executable, "-c", ENTRY, str(native.ROOT)], env={**os.environ, "PYTHONPATH": os.pathsep.join(paths)}, start_new_session=True,
            stdin=subprocess.PIPE, stdout=subprocess.PIPE, stderr=subprocess.DEVNULL)
        self.threads = [threading.Thread(target=work, daemon=True) for work in (self.feed, self.listen)]
        for thread in self.threads:
            thread.start()

    @property
    def runs(self) -> bool:
        return not self.why

    # ------------------------------------------------------------ what it is given

    def take(self, runnings: Iterable[Running]) -> None:
        """The calls that quanta have made, and now and then what their months show: all of it in one piece for the other process."""
        parts = [part for running in runnings for part in self.parts_of(running)]
        if parts and self.runs:
            self.queue.put(parts)
        if self.given - self.taken > MOST_BEHIND and self.runs:
            self.stop(f"it fell {thousands(MOST_BEHIND)} calls behind")

    def parts_of(self, running: Running) -> Iterator[Part]:
        key, made, count = running.key, running.taken(), self.counts.setdefault(running.key, Count())
        if count.starts != running.starts:
            self.counts[key] = count = Count(running.starts)
            yield key, None
        for each in made:
            yield key, self.part_of(count, each)
        now = time.monotonic()
        if not count.under_way and count.sent != count.checked and now >= count.next:
            count.checked, count.under_way = count.sent, True
            shown = shown_by(running.meter.month, count.looks)
            count.looks = False
            yield key, Check(shown, running.meter.month.words())

    def part_of(self, count: Count, made: Union[Call, Taken]) -> Union[list[Called], Taken]:
        part: Union[list[Called], Taken] = made if isinstance(made, Taken) else [Called(made.sent.block, made.sent.place, line(made.answer))]
        count.sent += len(part)
        count.looks = count.looks or (isinstance(made, Call) and changes_cells(made.sent.block))
        self.given += len(part)
        return part

    # ------------------------------------------------------------ the process

    def feed(self) -> None:
        """A thread's work: what is given goes through the pipe, however long that takes."""
        stream = self.process.stdin
        try:
            for parts in iter(self.queue.get, None):
                pickle.dump(parts, stream, pickle.HIGHEST_PROTOCOL)
                stream.flush()
                self.taken += sum(len(part) for _, part in parts if isinstance(part, (list, Taken)))
        except OSError:
            pass  # it has ended, which the other thread sees

    def listen(self) -> None:
        """A thread's work: what the process says."""
        try:
            while True:
                self.hear(*pickle.load(self.process.stdout))
        except (EOFError, OSError, pickle.UnpicklingError):
            if self.runs:
                self.stop("its process has ended")

    def hear(self, name: str, said: Any) -> None:
        count = self.counts.get(name)
        if isinstance(said, Agreed) and count is not None:
            count.agreed, count.under_way = said.calls, False
            count.next = time.monotonic() + max(EVERY, SHARE * len(self.counts) * said.took)
        elif isinstance(said, Parted):
            self.parted[name] = said
        elif isinstance(said, Ended):
            self.stop(said.why)

    def stop(self, why: str) -> None:
        """The wall goes on without it."""
        self.why = why
        self.process.kill()

    def end(self) -> None:
        if self.threads:
            self.why = self.why or "the wall has ended"
            self.queue.put(None)
            self.process.kill()
            self.process.wait()
        for thread in self.threads:
            thread.join(0.2)

    # ------------------------------------------------------------ as the wall has it

    def forget(self, keys: Iterable[str]) -> None:
        """Quanta that are no longer shown."""
        for key in set(self.counts) - set(keys):
            del self.counts[key]

    @property
    def agreed(self) -> int:
        return sum(count.agreed for count in self.counts.values())

    @property
    def sent(self) -> int:
        return sum(count.sent for count in self.counts.values())

    def readings(self) -> dict[str, Any]:
        """Whether both readings agree: a tick only where all calls were compared, and there are some."""
        agreed, sent = self.agreed, self.sent
        differ = self.differs()
        if differ:
            return {"kind": "differ", "text": differ}
        if not self.runs:
            return {"kind": "absent", "text": f"The recount does not run: {self.why}"}
        self.behind_since = None if agreed == sent else self.behind_since or time.monotonic()
        lag = 0.0 if self.behind_since is None else time.monotonic() - self.behind_since
        text = f"Both readings agree on the counting of *{thousands(agreed)}* of *{thousands(sent)}* calls"
        if not sent:
            return {"kind": "waiting", "text": f"{text}: nothing to compare yet"}
        if agreed < sent:
            return {"kind": "waiting", "text": f"{text}, {lag:.1f} s behind"}
        return {"kind": "agree", "text": text}

    def differs(self) -> str:
        """Where the readings differ first."""
        for name, parted in self.parted.items():
            symbol, day, quantum = name.rsplit(" ", 2)
            which = f"call {thousands(parted.call)}, {parted.called.place}" if parted.is_exact else "a call that is being looked for"
            return f"STOP: readings differ on {symbol}, {day}, quantum {quantum}: {which}; they agreed on {counted(parted.agreed, 'call')}"
        return ""
