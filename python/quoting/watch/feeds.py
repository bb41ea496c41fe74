"""A list of calls as it grows, text or bytes, from a file, a pipe or standard input; and the reader of growing files that it uses.

Nothing here waits: what has not come yet comes with a later read. A file may change in other ways than by growing: it is truncated, written
again in place, or replaced by another one under its name. Then calls may be lost or repeated, so the feed says that it has `Changed`, and
gives the calls of the file from its start.
"""

import errno
import os
import re
import select
import stat
import sys
import time
from dataclasses import dataclass
from hashlib import blake2b
from itertools import islice
from typing import Iterator, Optional, Protocol, Union

from quoting import calls as c
from quoting import reading, texts
from quoting.reading import STANDARD, Options, TextError
from quoting.month_sources import PLACED_BEFORE, Sent, start_of
from quoting.watch.names import name_text

PIECE = 65_536  # bytes that are read at once
MOST_ITEMS, MOST_PIECES = 2_000, 3  # of one read
LONGEST_LINE = 1 << 20
LONGEST_BLOCK = 4 * 65_536  # docs/FORMATS.md
LARGE = 1 << 20  # bytes from which on it takes long to compare all of a file
TAIL = 4_096  # bytes before the place that is read next: where the file has grown, they must be the same as before
KINDS = frozenset(c.Kind)
LINE_END = re.compile(rb"\r\n|\r|\n")
NO_CALL = "there is no call there, and nothing after it is read"
FROM_START = "the feed is read again from its start"


@dataclass(frozen=True)
class Logged:
    """What was read of a log: in a few words, the orders carried into the open quantum, and the exchange's answers that are not read."""

    text: str = ""
    carried: int = 0
    answers: int = 0


@dataclass(frozen=True)
class Trouble:
    """What could not be read, or what happened to the file; the reading goes on."""

    place: str  # "line 12", "brent.log: line 7", "" where it is of the file as a whole
    text: str
    logged: Optional[Logged] = None  # what was read of a log so far, where that is all


@dataclass(frozen=True)
class Changed(Trouble):
    """Calls may have been lost or repeated. What follows are the calls of the whole feed from its start, unless it `is_lost`: then it can't
    be read again. Where it `may_follow`, another file has come under the name: it may go on where the one before it ended, or repeat it,
    which its first calls show."""

    may_follow: bool = False
    is_lost: bool = False


@dataclass(frozen=True)
class Again(Trouble):
    """What follows are all calls again, from the start of the feed: a message came that belongs before others. Nothing was lost."""


Item = Union[Sent, Trouble]


class Feed(Protocol):
    def read(self) -> list[Item]:
        """What has come since the last read, at most some 2,000 items; the rest comes with the next. Never blocks."""

    @property
    def came(self) -> float:
        """When the last bytes came, as time.time() has it; of a file when it was written to, not after now."""

    @property
    def ended(self) -> Optional[str]:
        """None: more may come. "end": a finished feed is read. "broken": standard input has closed, or a pipe's writers have all gone; if
        another opens the pipe, what it writes is read, and this is None again."""

    @property
    def behind(self) -> bool:
        """Whether more may be there to be read at once, also where the last read gave nothing: it was comments, or messages of a quantum
        that comes later."""

    @property
    def count(self) -> int:
        """Bytes read so far."""

    @property
    def name(self) -> str: ...


# ---------------------------------------------------------------- a growing file


@dataclass(frozen=True)
class Turn:
    """What happened to the file between two of its bytes."""

    kind: str  # end, broken, truncated, rewritten, rotated or gone
    text: str  # a sentence for the page; empty where there is nothing to say

    @property
    def fresh(self) -> bool:
        """Whether what comes next is a file's beginning."""
        return self.kind in ("truncated", "rewritten", "rotated")

    @property
    def final(self) -> bool:
        """Whether an unfinished call before it gets no more bytes."""
        return self.kind in ("end", "broken", "rotated")


class Growing:
    """The bytes of a file, a pipe or standard input as they come. Errors of the first opening are the caller's. A file that was truncated
    or written again in place is read from its start."""

    def __init__(self, name: str, follow: bool) -> None:
        self.name, self.follow = name, follow
        self.count = 0
        self.ended: Optional[str] = None
        self.missed = False  # the name is not there, and that was said
        self.other = False  # the name was another file before the last read
        self.descriptor = opened(name)
        status = os.fstat(self.descriptor)
        self.regular = stat.S_ISREG(status.st_mode)
        self.came = min(status.st_mtime, time.time()) if self.regular else time.time()
        self.begin()

    def begin(self) -> None:
        """At the beginning of a file."""
        self.place = self.size = 0
        self.written = 0  # when it was written to, by its own clock, at the last look
        self.is_suspect = False  # it was written to and is as long as before: at the next look all of it is compared
        self.tail, self.digest = b"", blake2b()  # of what was read of it: the last bytes, and all

    def read(self) -> Union[bytes, Turn, None]:
        """The next bytes, or what has happened; None where there is nothing now."""
        if self.ended == "end":
            return None
        return self.of_file() if self.regular else self.of_pipe()

    def took(self, data: bytes, came: float) -> bytes:
        self.count += len(data)
        self.place += len(data)
        if self.regular and self.follow:
            self.tail = (self.tail + data)[-TAIL:]
            self.digest.update(data)
        self.came, self.ended = min(came, time.time()), None
        return data

    def finished(self, how: str) -> Turn:
        self.ended = how
        return Turn(how, "")

    def of_pipe(self) -> Union[bytes, Turn, None]:
        """A pipe without a writer so far is not ready, one whose writers have gone is, with no bytes."""
        try:
            if not select.select([self.descriptor], [], [], 0)[0]:
                return None
            data = os.read(self.descriptor, PIECE)
        except BlockingIOError:
            return None
        except OSError:  # a terminal that has gone
            data = b""
        if data:
            return self.took(data, time.time())
        return None if self.ended else self.finished("broken" if self.follow else "end")

    def of_file(self) -> Union[bytes, Turn, None]:
        try:
            status = os.fstat(self.descriptor)
            changed = self.changed(status) if self.follow else None
            if changed is not None:
                self.again()
                return changed
            data = os.read(self.descriptor, PIECE)
            if self.place + len(data) > status.st_size:  # it has grown since: without a second look all of it would be compared next time
                status = os.fstat(self.descriptor)
            self.size = status.st_size
            if not self.is_suspect:
                self.written = status.st_mtime_ns
        except OSError as error:
            said = self.failed(error)
            return said or self.at_end()
        return self.took(data, status.st_mtime) if data else self.at_end()

    def at_end(self) -> Optional[Turn]:
        return self.of_name() if self.follow else self.finished("end")

    def changed(self, status: os.stat_result) -> Optional[Turn]:
        """Whether what was read is no longer there. Where the file has grown its last bytes are compared, where it was written to and is
        as long as before, all of it."""
        was_suspect, self.is_suspect = self.is_suspect, False
        if status.st_size < self.place:
            had = max(self.size, self.place)
            return Turn("truncated", f"the file was truncated: it had {had:,} bytes and has {status.st_size:,}; {FROM_START}")
        if status.st_size > self.place:
            is_same = os.pread(self.descriptor, len(self.tail), self.place - len(self.tail)) == self.tail
        elif status.st_mtime_ns == self.written:
            is_same = True
        elif self.place > LARGE and not was_suspect:  # a file gets its time before the bytes of a write: by the next look they have come
            is_same = self.is_suspect = True
        else:
            is_same = digest_of(self.descriptor, self.place) == self.digest.digest()
        if is_same:
            return None
        return Turn("rewritten", f"the file was written again: what was read of it is no longer there; {FROM_START}")

    def again(self) -> None:
        """What comes next is the file's beginning."""
        self.count -= self.place
        os.lseek(self.descriptor, 0, os.SEEK_SET)
        self.begin()

    def of_name(self) -> Optional[Turn]:
        """At the end of the file that is read: whether its name is another file by now. A new one without bytes may not have its writer
        yet, who still writes to the old one; and once it has some, the old one is read to its end again."""
        if self.name == STANDARD:
            return None
        if self.other:
            return self.rotated()
        try:
            there, here = os.stat(self.name), os.fstat(self.descriptor)
        except OSError as error:
            return self.failed(error)
        same = os.path.samestat(there, here)
        if same:
            self.missed = False
        self.other = not same and (there.st_size > 0 or not stat.S_ISREG(there.st_mode))
        return None

    def rotated(self) -> Optional[Turn]:
        self.other = False
        try:
            fresh = opened(self.name)
        except OSError as error:
            return self.failed(error)
        os.close(self.descriptor)
        self.descriptor = fresh
        self.begin()
        self.regular = stat.S_ISREG(os.fstat(fresh).st_mode)
        back = "the file is there again, as another one" if self.missed else "the file was rotated: its name is another file now"
        self.missed = False
        return Turn("rotated", f"{back}; it is read from its start")

    def failed(self, error: OSError) -> Optional[Turn]:
        """Said once, until the file is there again."""
        said, self.missed = self.missed, True
        if said:
            return None
        if isinstance(error, FileNotFoundError):
            return Turn("gone", "the file has gone away; it is opened again when it is there")
        return Turn("gone", f"the file can't be read: {error.strerror}; it is tried again")


def opened(name: str) -> int:
    """A descriptor that does not block."""
    if name == STANDARD:
        if sys.stdin is None:
            raise reading.failed("standard input is closed", name)
        return sys.stdin.fileno()
    descriptor = os.open(name, os.O_RDONLY | os.O_NONBLOCK | os.O_CLOEXEC)
    if stat.S_ISDIR(os.fstat(descriptor).st_mode):
        os.close(descriptor)
        raise IsADirectoryError(errno.EISDIR, os.strerror(errno.EISDIR), name)
    return descriptor


def digest_of(descriptor: int, size: int) -> bytes:
    """Of the first bytes of a file."""
    digest, place = blake2b(), 0
    while place < size:
        piece = os.pread(descriptor, min(LONGEST_LINE, size - place), place)
        if not piece:
            break
        digest.update(piece)
        place += len(piece)
    return digest.digest()


# ---------------------------------------------------------------- lines

Line = tuple[int, bytes]


class Lines:
    """Lines out of pieces, with their numbers. What is too long is said once and skipped to its end."""

    def __init__(self) -> None:
        self.number = 1
        self.rest = bytearray()
        self.half = False  # the last piece ended with CR, to which an LF may belong
        self.skipped = False  # the line is too long

    def take(self, data: bytes) -> Iterator[Union[Line, Trouble]]:
        if self.half and data[:1] == b"\n":
            data = data[1:]
        self.half = data[-1:] == b"\r"
        first, *others = LINE_END.split(data) if b"\r" in data else data.split(b"\n")
        yield from self.grow(first)
        if not others:
            return
        yield from self.end()
        for line in others[:-1]:
            yield self.number, line
            self.number += 1
        yield from self.grow(others[-1])

    def grow(self, data: bytes) -> Iterator[Trouble]:
        if self.skipped:
            return
        self.rest += data
        if len(self.rest) > LONGEST_LINE:
            self.skipped = True
            self.rest.clear()
            yield Trouble(f"line {self.number}", f"this line has over {LONGEST_LINE:,} bytes and is skipped to its end")

    def end(self) -> Iterator[Line]:
        """The line that was unfinished, at its end; nothing is left of one that is too long."""
        yield self.number, bytes(self.rest)
        self.forget(self.number + 1)

    def forget(self, number: int) -> None:
        """An unfinished line is dropped; the next line has this number."""
        self.rest.clear()
        self.skipped, self.number = False, number

    def turn(self, turn: Turn) -> Iterator[Union[Line, Trouble]]:
        """An unfinished line is at its end, or dropped: half a line of a feed that broke off may say another call than the whole."""
        if not self.rest and not self.skipped:
            return
        if turn.kind == "broken":
            yield Changed(f"line {self.number}", "the feed broke off within this line; it is not read", is_lost=True)
            self.forget(self.number + 1)
        elif turn.kind == "end":
            yield from self.end()


class ListLines:
    """The calls of a text's lines; `start TIME [SYMBOL]` may come before an open, as in a statement's list."""

    def __init__(self, options: Options) -> None:
        self.options = options
        self.started: Optional[tuple[int, str, Optional[bytes]]] = None
        self.symbol: Optional[bytes] = None  # of the last call

    def take(self, number: int, data: bytes) -> Iterator[Item]:
        try:
            words = reading.words_of(data.decode("utf-8-sig" if number == 1 else "utf-8"))
            if not words:
                return
            if words[0] == "start":
                yield from self.start(number, words[1:])
                return
            block = one_call(words, self.options)
        except UnicodeDecodeError:
            yield Trouble(f"line {number}", "this is not a text: it is not UTF-8")
        except (TextError, ValueError) as error:
            yield Trouble(f"line {number}", str(error))
        else:
            yield from self.call(number, block)

    def start(self, number: int, words: list[str]) -> Iterator[Trouble]:
        given = start_of(words)
        yield from self.end()
        self.started = (number, *given)

    def call(self, number: int, block: bytes) -> Iterator[Item]:
        start, self.symbol = None, None
        if self.started is not None and block[0] in c.OPENS:
            _, start, self.symbol = self.started
            self.started = None
        yield from self.end()
        yield Sent(block, f"line {number}", start)

    def end(self) -> Iterator[Trouble]:
        """A `start` that no open has followed."""
        if self.started is not None:
            yield Trouble(f"line {self.started[0]}", PLACED_BEFORE)
            self.started = None


def one_call(words: list[str], options: Options) -> bytes:
    """The block of a line's words."""
    block = texts.block_of(words[0], words[1:], options)
    written = words[0] in ("words", "bytes") and c.blocks(block) != ([block], len(block))
    if written or len(block) > LONGEST_BLOCK:
        raise TextError("these words are not one call")
    return block


# ---------------------------------------------------------------- bytes


class Blocks:
    """The calls of bytes, whole blocks as they come."""

    def __init__(self) -> None:
        self.rest = b""
        self.place = 0  # of the rest, in the file
        self.calls = 0
        self.stopped = False

    def take(self, data: bytes) -> Iterator[Item]:
        if self.stopped:
            return
        self.rest += data
        at, size = 0, block_size(self.rest, 0)
        while size:
            self.calls += 1
            yield Sent(self.rest[at : at + size], f"call {self.calls}")
            at += size
            size = block_size(self.rest, at)
        self.rest, self.place = self.rest[at:], self.place + at
        if size is None:
            yield self.stop()

    def stop(self) -> Changed:
        self.stopped, self.rest = True, b""
        return Changed("", f"stopped at word {self.place // 4 + 1}: {NO_CALL}", is_lost=True)

    def turn(self, turn: Turn) -> Iterator[Trouble]:
        if turn.kind in ("end", "broken") and self.rest:
            yield self.stop()


def block_size(data: bytes, at: int) -> Optional[int]:
    """The bytes of the call's block at a place, 0 where more must come, None where there is no call."""
    if len(data) < at + 4:
        return 0
    if c.word_at(data, at) not in KINDS:
        return None
    size = c.size_at(data, at)
    if size is None:
        return 0
    if size > LONGEST_BLOCK:
        return None
    if len(data) < at + size:
        return 0
    return size if c.call_of(data[at : at + size]) is not None else None


# ---------------------------------------------------------------- the feed


class Pieces:
    """A feed of items that come out of a growing file's pieces, so much of it at a read."""

    def __init__(self, growing: Growing) -> None:
        self.name, self.growing = name_text(growing.name), growing
        self.ended: Optional[str] = None
        self.behind = True
        self.coming: Iterator[Item] = iter(())

    @property
    def came(self) -> float:
        return self.growing.came

    @property
    def count(self) -> int:
        return self.growing.count

    def next(self) -> Optional[Iterator[Item]]:
        """The items of the next piece; None where there is nothing now."""
        raise NotImplementedError

    def read(self) -> list[Item]:
        found: list[Item] = []
        for _ in range(MOST_PIECES):
            found += islice(self.coming, MOST_ITEMS - len(found))
            if len(found) == MOST_ITEMS:
                return found
            coming = self.next()
            self.behind = coming is not None
            self.ended = None if self.behind else self.growing.ended
            if coming is None:
                return found
            self.coming = coming
        return found + list(islice(self.coming, MOST_ITEMS - len(found)))


class CallsFeed(Pieces):
    """A list of calls: bytes where a byte 0 is among the first four, which are a call's kind, else text."""

    def __init__(self, name: str, options: Options, follow: bool) -> None:
        super().__init__(Growing(name, follow))
        self.options = options
        self.begin()

    def begin(self) -> None:
        """At the beginning of a file."""
        self.front: Optional[bytes] = b""  # until it is known what it is
        self.text: Optional[ListLines] = None
        self.lines, self.blocks = Lines(), Blocks()

    def next(self) -> Optional[Iterator[Item]]:
        piece = self.growing.read()
        if piece is None:
            return None
        return self.turned(piece) if isinstance(piece, Turn) else self.took(piece)

    def took(self, data: bytes) -> Iterator[Item]:
        if self.front is not None:
            data = self.front + data
            self.front = data
            if len(data) >= 4:
                self.know(data)
        if self.front is None:
            yield from self.blocks.take(data) if self.text is None else of_lines(self.text, self.lines.take(data))

    def know(self, data: bytes) -> None:
        """What the file is."""
        self.front, self.text = None, None if b"\0" in data[:4] else ListLines(self.options)

    def turned(self, turn: Turn) -> Iterator[Item]:
        """An unfinished call first, then what has happened."""
        if self.front and turn.kind in ("end", "broken"):
            front = self.front
            self.know(front)
            yield from self.took(front)
        is_whole = not (self.front or self.lines.rest or self.lines.skipped or self.blocks.rest)
        if self.text is not None:
            yield from of_lines(self.text, self.lines.turn(turn))
            yield from self.text.end() if turn.kind in ("end", "rotated") else ()
        else:
            yield from self.blocks.turn(turn)
        if turn.fresh:
            yield Changed("", turn.text, may_follow=turn.kind == "rotated" and is_whole)
            self.begin()
        elif turn.text:
            yield Trouble("", turn.text)


def of_lines(text: ListLines, lines: Iterator[Union[Line, Trouble]]) -> Iterator[Item]:
    for line in lines:
        if isinstance(line, Trouble):
            yield line
        else:
            yield from text.take(*line)
