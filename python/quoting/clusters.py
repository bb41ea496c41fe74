"""Sessions, or desks, settled by a Dask cluster. A session that ends its workers becomes a row, and a cluster that is lost an error with a sentence.

Dask gives up a piece of work after several workers ended while they had it, whether or not it was the cause. The sessions of such a piece are
therefore settled once more, each of them alone in the cluster, so that a row names only the session that is the cause.
"""

import asyncio
import logging
from collections import deque
from concurrent import futures
from contextlib import contextmanager
from dataclasses import dataclass, field
from importlib import import_module
from time import monotonic
from typing import Any, Callable, Iterator, Sequence

from quoting import settling
from quoting.native import Missing
from quoting.settling import Outcome, Settled

BATCH = 8  # sessions in a piece of work, so that handing it over costs little beside it
AHEAD = 64  # pieces that are given out and not yet taken back
LOOK = 1.0  # seconds between two looks at a cluster that does not answer
LOGS = ("distributed", "tornado", "asyncio")  # what they say of a lost connection, our own sentence says too


class Lost(Missing):
    """The cluster can't go on."""


class Killed(Exception):
    """The workers that had a piece of work ended: how many."""


@dataclass
class Piece:
    names: list[str]
    future: Any


def unreadable(name: str, killed: Killed) -> Outcome:
    return Outcome(Settled(name, "unreadable", reason=f"each worker that settled it ended, {killed} in a row"), None)


@dataclass
class Cluster:
    """A client of a cluster, and how long it may go without finishing anything; the work that it does on a batch of names, and what is
    said of a name that ended its workers."""

    client: Any
    patience: float
    say: Callable[[str], None]
    work: Callable[[list[str], Any], list[Any]] = settling.outcomes
    ended: Callable[[str, Killed], Any] = unreadable
    batch: int = BATCH
    finished: int = 0
    since: float = field(default_factory=monotonic)
    is_warned: bool = False

    def rows(self, names: Sequence[str], read_options: Any) -> Iterator[Any]:
        """The outcomes in the order of the names."""
        given: deque[Piece] = deque()
        self.since = monotonic()
        for batch in settling.batches(names, self.batch):
            given.append(self.give(batch, read_options))
            if len(given) >= AHEAD:
                yield from self.take(given, read_options)
        while given:
            yield from self.take(given, read_options)

    def give(self, names: list[str], read_options: Any) -> Piece:
        """Not `pure`: a session that changed since is not to be answered from memory."""
        try:
            return Piece(names, self.client.submit(self.work, names, read_options, pure=False))
        except Exception as error:
            raise Lost(f"the scheduler takes no more work: {error}") from None

    def take(self, given: deque[Piece], read_options: Any) -> list[Any]:
        """The outcomes of the first piece."""
        first = given.popleft()
        try:
            return self.answer(first, given)
        except Killed:
            for each in given:
                self.settled_or_killed(each, given)
            return [self.alone(name, read_options) for name in first.names]

    def settled_or_killed(self, piece: Piece, given: Sequence[Piece]) -> None:
        try:
            self.answer(piece, given)
        except Killed:
            pass

    def alone(self, name: str, read_options: Any) -> Any:
        """The outcome of a session while the cluster has no other work."""
        try:
            return self.answer(self.give([name], read_options), ())[0]
        except Killed as killed:
            return self.ended(name, killed)

    def answer(self, piece: Piece, given: Sequence[Piece]) -> list[Any]:
        """The outcomes of a piece. Errors of any kind may come from Dask or from a worker."""
        while True:
            try:
                found: list[Any] = piece.future.result(timeout=LOOK)
                self.since, self.is_warned = monotonic(), False
                return found
            except (TimeoutError, asyncio.TimeoutError, futures.TimeoutError):  # one class from Python 3.11 on
                self.look(piece, given)
            except (asyncio.CancelledError, futures.CancelledError):
                raise Lost("the connection to the scheduler was lost") from None
            except Exception as error:
                if type(error).__name__ == "KilledWorker":
                    self.since = monotonic()
                    raise Killed(getattr(error, "allowed_failures", 0) + 1) from None
                raise Lost(f"a worker or the scheduler failed: {type(error).__name__}: {error}") from None

    def look(self, piece: Piece, given: Sequence[Piece]) -> None:
        """Whether something was finished meanwhile; if not for too long, an error."""
        finished, workers = sum(each.future.done() for each in given), len(self.client.scheduler_info()["workers"])
        if finished != self.finished:
            self.finished, self.since = finished, monotonic()
        has = f"it has {workers} worker(s)" if workers else "it has no workers"
        if monotonic() - self.since >= self.patience:
            raise Lost(f"nothing was settled for {self.patience:g} s ({has}; the next session is {piece.names[0]}); --patience waits longer")
        if not workers and not self.is_warned:
            self.is_warned = True
            self.say(f"the cluster has no workers: waiting for one, up to {self.patience:g} s")


@contextmanager
def cluster(address: str, patience: float, say: Callable[[str], None]) -> Iterator[Cluster]:
    try:
        distributed: Any = import_module("distributed")
    except ImportError:
        raise Missing("--scheduler needs Dask: apt-get install python3-distributed") from None
    silence_logs()
    try:
        client = distributed.Client(address, timeout=10)
    except Exception as error:
        raise Missing(f"--scheduler {address}: {error}") from None
    try:
        yield Cluster(client, patience, say)
    except Lost as lost:
        raise Lost(f"--scheduler {address}: {lost}") from None
    finally:
        close(client)


def silence_logs() -> None:
    for name in [*LOGS, *logging.root.manager.loggerDict]:
        if name.split(".", 1)[0] in LOGS:
            logging.getLogger(name).setLevel(logging.CRITICAL + 1)


def close(client: Any) -> None:
    """A lost scheduler is not waited for."""
    try:
        client.close(timeout=3)
    except (Exception, asyncio.CancelledError):
        pass
