"""Many sessions settled at once: one row a session, in the order of their names, whatever is finished first.

Only a few sessions are in memory at a time, so a folder may be far larger than the memory. A file that can't be read, or is refused, is a row too.
"""

import csv
import io
import os
import select
import stat
from collections import deque
from dataclasses import astuple, dataclass, fields, replace
from itertools import islice
from pathlib import Path
from typing import Any, Callable, Iterable, Iterator, Optional, Protocol, Sequence

from quoting import accounts, inputs, native, reading
from quoting.answers import verdict_text
from quoting.events import SIZE
from quoting.native import Refused
from quoting.reading import PLAIN, Options, TextError
from quoting.rows import HEAD
from quoting.sessions import Session, session
from quoting.values import part_text

LONGEST = HEAD.size + SIZE * 4_000_001  # a record more than a session may have, so that the library refuses what is longer
LONGEST_TEXT = 1 << 30
FRONT = 1 << 16  # bytes that show whether a file is bytes or a text


@dataclass(frozen=True)
class Settled:
    """A row of the table. What a session that was not settled has no figure for is empty."""

    file: str
    status: str  # settled, refused or unreadable
    kept: str = ""
    length: str = ""
    share: str = ""
    verdict: str = ""
    weight: str = ""
    lapses: str = ""
    no_bid: str = ""  # milliseconds of each state but `kept`, which is above
    no_ask: str = ""
    neither: str = ""
    crossed: str = ""
    wide: str = ""
    refusal: str = ""
    place: str = ""
    reason: str = ""

    @property
    def line(self) -> str:
        """The row as a line of CSV."""
        return csv_line(astuple(self))

    @property
    def complaint(self) -> Optional[str]:
        """File, place and sentence of what was not settled."""
        if self.status == "settled":
            return None
        at = f"{self.place}: " if self.place else ""
        number = f"refused {self.refusal}: " if self.refusal else ""
        return f"{self.file}: {at}{number}{self.reason}"


COLUMNS = tuple(field.name for field in fields(Settled))


@dataclass(frozen=True)
class ReadOptions:
    """How the sessions are read: as the options of `sheet`."""

    options: Options = PLAIN
    head: Optional[bytes] = None
    form: Optional[str] = None


# ---------------------------------------------------------------- lines of CSV


def csv_line(words: Iterable[str]) -> str:
    r"""A line of CSV; characters that no file can hold are marked.

    >>> csv_line(["a", "b,c", "d\re"])
    'a,"b,c","d\re"\n'
    """
    line = io.StringIO()
    csv.writer(line, lineterminator="\r\n").writerow([word.encode("utf-8", "backslashreplace").decode() for word in words])  # quotes CR and LF
    return line.getvalue()[:-2] + "\n"


HEADER = csv_line(COLUMNS)


# ---------------------------------------------------------------- the names


def names_of(where: str, patience: float, options: Options = PLAIN) -> list[str]:
    """The sessions of a folder, sorted by name, or those that a list names, one a line, in its order. There is at least one."""
    path = Path(where)
    if where != reading.STANDARD and path.is_dir():
        return names_in(where)
    listed = reading.whole_text(list_bytes(where, patience), options, where)
    base = Path() if where == reading.STANDARD else path.parent
    names = [str(base / line.strip(" \t")) for line in reading.split_lines(listed) if line.strip(" \t") and not line.startswith("#")]
    if not names:
        raise reading.failed("this list names no session", where)
    return names


def names_in(folder: str) -> list[str]:
    """Whatever is in a folder but its folders and hidden files. Broken links and pipes are named too: each becomes a row."""
    found = [os.path.join(folder, name) for name in os.listdir(folder) if not name.startswith(".")]
    names = sorted(str(Path(name)) for name in found if not os.path.isdir(name))
    if not names:
        inside = len(found)
        raise reading.failed("this folder has no sessions" + (f"; the {inside} folder(s) in it are not searched" if inside else ""), folder)
    return names


def list_bytes(where: str, patience: float) -> bytes:
    """All of a list. A pipe may be one, if some process opens it for writing in time."""
    if where == reading.STANDARD:
        return reading.read_bytes(where)
    kind = kind_of(os.stat(where).st_mode)
    if kind == PIPE:
        return pipe_bytes(where, patience)
    if kind:
        raise reading.failed(f"this is {kind}, not a list", where)
    return reading.read_bytes(where)


def pipe_bytes(where: str, patience: float) -> bytes:
    """All that is written into a pipe."""
    with open(os.open(where, os.O_RDONLY | os.O_NONBLOCK), "rb") as pipe:
        waiting = select.poll()
        waiting.register(pipe, select.POLLIN | select.POLLHUP)
        if not waiting.poll(1_000 * patience):
            raise reading.failed(f"nothing was written into this pipe for {patience:g} s", where)
        os.set_blocking(pipe.fileno(), True)
        return pipe.read()


# ---------------------------------------------------------------- one session


Stamp = tuple[int, int, int]  # a file's size, and when its content (mtime) and anything about it (ctime) last changed, in nanoseconds


@dataclass(frozen=True)
class Outcome:
    """A row, and the stamp of the file that was read for it (None: it could not be read)."""

    row: Settled
    stamp: Optional[Stamp]


PIPE = "a pipe (FIFO)"
KINDS = ((stat.S_ISDIR, "a folder"), (stat.S_ISFIFO, PIPE), (stat.S_ISSOCK, "a socket"), (stat.S_ISCHR, "a device"), (stat.S_ISBLK, "a device"))


def kind_of(mode: int) -> Optional[str]:
    """What a name is of, if it is not a regular file."""
    return next((kind for is_one, kind in KINDS if is_one(mode)), None)


def stamp_in(state: os.stat_result) -> Stamp:
    return state.st_size, state.st_mtime_ns, state.st_ctime_ns


def stamp_of(name: str) -> Optional[Stamp]:
    """The stamp of a file as it is now."""
    try:
        return stamp_in(os.stat(name))
    except (OSError, ValueError):
        return None


def content(name: str) -> tuple[bytes, Stamp]:
    """A file's bytes, no more of them than a session can have, and its stamp from before they were read."""
    kind = kind_of(os.stat(name).st_mode)
    if kind:
        raise reading.failed(f"this is {kind}, not a regular file", name)
    with open(os.open(name, os.O_RDONLY | os.O_NONBLOCK), "rb") as file:  # if it has become a pipe meanwhile, the open does not wait
        stamp = stamp_in(os.fstat(file.fileno()))
        front = file.read(FRONT)
        if b"\0" in front:
            return front + file.read(LONGEST - len(front)), stamp
        data = front + file.read(LONGEST_TEXT)
    if len(data) > LONGEST_TEXT:
        raise reading.failed(f"this text is longer than {LONGEST_TEXT:,} bytes", name)
    return data, stamp


def lapses_of(done: Session) -> int:
    """The stretches that were not kept: between the pairs, which never touch, and before and after them."""
    words = done.words
    count = int(words[2])
    if not count:
        return 1
    starts_at_once, ends_late = words[3] == 0, words[1 + 2 * count] + words[2 + 2 * count] == done.length
    return count + 1 - int(starts_at_once) - int(ends_late)


def settle(name: str, read_options: ReadOptions = ReadOptions()) -> Outcome:
    """A session's row; whatever is wrong with the file is in it."""
    try:
        data, stamp = content(name)
    except (OSError, ValueError, TextError, MemoryError) as error:
        return Outcome(unreadable(name, error), None)
    return Outcome(row_of(name, data, read_options), stamp)


def row_of(name: str, data: bytes, read_options: ReadOptions) -> Settled:
    """The row of a session's bytes."""
    try:
        source = inputs.session_of(name, data, read_options.options, read_options.head, read_options.form)
        head, events = source.data[: HEAD.size], source.data[HEAD.size :]
        done, states = session(head, events), accounts.totals(head, events)
    except Refused as refused:
        return Settled(name, "refused", refusal=str(refused.number), place=place_of(source, refused), reason=refused.sentence)
    except (OSError, ValueError, TextError, MemoryError) as error:
        return unreadable(name, error)
    share = part_text(done.kept, done.length)
    figures = [done.kept, done.length, share, verdict_text(done.met), done.weight, lapses_of(done)]
    return Settled(name, "settled", *map(str, [*figures, *list(states.values())[1:]]))


def unreadable(name: str, error: Exception) -> Settled:
    if isinstance(error, TextError):
        return Settled(name, "unreadable", place=f"line {error.line}" if error.line else "", reason=str(error))
    if isinstance(error, MemoryError):
        return Settled(name, "unreadable", reason="there is not enough memory for it")
    return Settled(name, "unreadable", reason=getattr(error, "strerror", None) or str(error))


def place_of(source: inputs.Source, refused: Refused) -> str:
    """The record, and its line in the text."""
    line = inputs.line_of_record(source, refused.place)
    record = f"record {refused.place}" if refused.place else ""
    return f"{record}, line {line}" if line else record


def outcomes(names: Sequence[str], read_options: ReadOptions) -> list[Outcome]:
    return [settle(name, read_options) for name in names]


# ---------------------------------------------------------------- many


class Answering(Protocol):
    def result(self) -> Any: ...


class Workers(Protocol):
    """Threads of this process, as concurrent.futures has them."""

    def submit(self, work: Callable[..., Any], /, *given: Any) -> Answering: ...


def renamed(outcome: Outcome, name: str) -> Outcome:
    """An outcome under the name that the caller knows its session by."""
    return replace(outcome, row=replace(outcome.row, file=name))


def batches(names: Iterable[str], size: int) -> Iterator[list[str]]:
    """The names, so many at a time."""
    rest = iter(names)
    while batch := list(islice(rest, size)):
        yield batch


def rows(workers: Workers, names: Iterable[str], read_options: ReadOptions, ahead: int) -> Iterator[Outcome]:
    """The outcomes in the order of the names; at most `ahead` sessions are given out and not yet taken back."""
    given: deque[Answering] = deque()
    for name in names:
        given.append(workers.submit(settle, name, read_options))
        if len(given) >= ahead:
            yield given.popleft().result()
    while given:
        yield given.popleft().result()


# ---------------------------------------------------------------- the summary


@dataclass
class Summary:
    """Counts over all rows."""

    sessions: int = 0
    met: int = 0
    failed: int = 0
    refused: int = 0
    unreadable: int = 0
    kept: int = 0
    length: int = 0

    def take(self, row: Settled) -> None:
        self.sessions += 1
        self.refused += row.status == "refused"
        self.unreadable += row.status == "unreadable"
        if row.status == "settled":
            self.met += row.verdict == "met"
            self.failed += row.verdict == "failed"
            self.kept += int(row.kept)
            self.length += int(row.length)

    @property
    def text(self) -> str:
        share = f", kept {part_text(self.kept, self.length)} of their time" if self.length else ""
        settled = f"{self.met} met, {self.failed} failed{share}"
        return f"{self.sessions} sessions: {settled}; {self.refused} refused, {self.unreadable} unreadable\n"


def need_library() -> None:
    """Missing is said once, before all sessions are unreadable for it."""
    native.library()
