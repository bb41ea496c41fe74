"""The recount of all contracts in one process: it takes every contract's calls by name, and says on how many both readings agree.

`recounting` runs it and hands it lists of parts on standard input, each pickled: a contract's name with a list of calls, with records that
its month took, with what its month shows, or with None where the contract starts over.
"""

import os
import pickle
import signal
import struct
import sys
from dataclasses import dataclass
from itertools import chain
from typing import BinaryIO, Iterator, Mapping, Sequence, Union

from quoting.answers import Accepted, line
from quoting.desk.quanta import block_of
from quoting.events import SIZE, split
from quoting.watch.recounter import Called, Check, Ended, Parted, Recounter, Said

ACCEPTED = line(Accepted())
CARRIED = "an order that rests at the start"
PLACE = struct.Struct("<HI")  # a file's number, and the line


@dataclass(frozen=True)
class Taken:
    """Records that a contract's month took, and where each comes from: without places they are orders that rest at the start."""

    records: bytes
    places: bytes  # as PLACE
    files: Mapping[int, str]  # by their numbers

    def __len__(self) -> int:
        return len(self.records) // SIZE

    def texts(self) -> Iterator[str]:
        """Where each record comes from."""
        if not self.places:
            yield from [CARRIED] * len(self)
        yield from (f"{self.files[file]}: line {number}" for file, number in PLACE.iter_unpack(self.places))

    def part(self, begin: int, end: int) -> "Taken":
        return Taken(self.records[SIZE * begin : SIZE * end], self.places[PLACE.size * begin : PLACE.size * end], self.files)

    def called(self) -> Iterator[Called]:
        for record, place in zip(split(self.records), self.texts()):
            yield Called(block_of(record), place, ACCEPTED)


Part = tuple[str, Union[None, Check, Sequence[Called], Taken]]


def parts(stream: BinaryIO) -> Iterator[Part]:
    while True:
        try:
            yield from pickle.load(stream)
        except EOFError:
            return


def findings(stream: BinaryIO) -> Iterator[tuple[str, Said]]:
    """What is said of each contract; nothing after its readings differ."""
    recounters: dict[str, Recounter] = {}
    parted: set[str] = set()
    for name, part in parts(stream):
        if part is None:
            recounters[name] = Recounter()
            parted.discard(name)
        if part is None or name in parted:
            continue
        recounter = recounters.setdefault(name, Recounter())
        calls = part.called() if isinstance(part, Taken) else part
        for said in recounter.check(calls) if isinstance(calls, Check) else chain.from_iterable(map(recounter.take, calls)):
            yield name, said
            if isinstance(said, Parted) and said.is_exact:
                parted.add(name)
                break


def main() -> None:
    signal.signal(signal.SIGINT, signal.SIG_IGN)  # Ctrl-C is for the server, which ends this process
    os.nice(5)
    try:
        for found in findings(sys.stdin.buffer):
            say(found)
    except BrokenPipeError:
        pass  # the server has gone
    except Exception as error:  # whatever it is, the wall says so, and the meter's reading goes on
        say(("", Ended(f"{type(error).__name__}: {error}")))


def say(found: tuple[str, Said]) -> None:
    pickle.dump(found, sys.stdout.buffer)
    sys.stdout.buffer.flush()
