"""The part file of `quoting settle`: the rows of a table that is not finished, so that a later run can go on with them.

It has JSON lines and is only appended to. The first line has the options of the run, each `process` line a process that wrote here, and each
`row` line a row with the stamp (size and times) of its session, and a check sum of both and of the first line, so that neither a damaged
figure nor a row of other options is taken over. Of two rows of one session the later counts. A last line without its line end was cut off, and is dropped. The process that writes it has it locked.
"""

import fcntl
import json
import os
import socket
import zlib
from dataclasses import MISSING, astuple, dataclass, fields
from datetime import datetime, timezone
from pathlib import Path
from typing import Any, BinaryIO, Iterator, Optional, Sequence

from quoting import native, output, reading, settling, values
from quoting.rows import HEAD
from quoting.settling import COLUMNS, Outcome, ReadOptions, Settled, Stamp

FORM = 2  # of the part file
START = b'{"settle": '
AGAIN = "--restart settles every session again"
STATUSES = ("settled", "refused", "unreadable")


class PartError(Exception):
    """A part file that can't be used as it was asked, in a sentence."""


# ---------------------------------------------------------------- what a run is given


def option_words(read_options: ReadOptions) -> dict[str, str]:
    """The options that decide what the rows say, as words, without those that have their usual value.

    >>> option_words(ReadOptions(reading.Options(start=36_000_000), form="csv"))
    {'--start': '10:00:00', '--format': 'csv'}
    """
    found: dict[str, str] = {}
    for each in fields(read_options.options):
        value = getattr(read_options.options, each.name)
        if each.default is MISSING or value != each.default:
            found["--" + each.name.replace("_", "-")] = option_word(each.name, value)
    if read_options.form:
        found["--format"] = read_options.form
    if read_options.head is not None:
        *row, sp = HEAD.unpack(read_options.head)
        found.update({"--row": f'"{reading.row_text(row)}"', "--sp": str(sp)})
    return found


def option_word(name: str, value: Any) -> str:
    if name == "start":
        return values.clock(value)
    if name == "step":
        return format(value.normalize(), "f")
    return "" if value is True else str(value)


def shown(words: dict[str, str]) -> str:
    return " ".join(f"{name} {word}".strip() for name, word in words.items()) or "no options"


# ---------------------------------------------------------------- lines


def json_line(value: Any) -> bytes:
    return json.dumps(value).encode() + b"\n"


@dataclass(frozen=True)
class Entry:
    """A row of the file, and the byte at which its line begins."""

    at: int
    outcome: Outcome


def parsed(line: bytes) -> dict[str, Any]:
    """The object of a line; {} where there is none."""
    try:
        found = json.loads(line)
    except (ValueError, RecursionError):
        return {}
    return found if isinstance(found, dict) else {}


def seal_of(head: dict[str, Any]) -> int:
    """A number of the first line, which is in the check sum of each row."""
    return zlib.crc32(json.dumps(head, sort_keys=True).encode())


def row_line(outcome: Outcome, seal: int) -> bytes:
    words = astuple(outcome.row)
    return json_line({"row": words, "stamp": outcome.stamp, "sum": check_sum(seal, words, outcome.stamp)})


def check_sum(seal: int, words: Any, stamp: Any) -> int:
    return zlib.crc32(json.dumps([seal, words, stamp]).encode())


def outcome_of(line: bytes, seal: int) -> Optional[Outcome]:
    """The row and stamp of a line, None if it is the line of a process. ValueError says what is wrong with it."""
    found = parsed(line)
    if "process" in found:
        return None
    words = found.get("row")
    if not isinstance(words, list) or not all(isinstance(word, str) for word in words):
        raise ValueError("this is not a line of a part file")
    if len(words) != len(COLUMNS):
        raise ValueError(f"a row has {len(COLUMNS)} fields, this one has {len(words)}")
    row = Settled(*words)
    if row.status not in STATUSES or (row.status == "settled" and not all(word.isascii() and word.isdigit() for word in (row.kept, row.length))):
        raise ValueError("this is not a row of a table")
    if found.get("sum") != check_sum(seal, words, found.get("stamp")):
        raise ValueError("this row is damaged, or line 1 is: the check sum is wrong")
    return Outcome(row, stamp_in(found.get("stamp")))


def stamp_in(given: Any) -> Optional[Stamp]:
    if isinstance(given, list) and len(given) == 3 and all(isinstance(word, int) for word in given):
        return given[0], given[1], given[2]
    return None


# ---------------------------------------------------------------- the lock


def part_of(path: Path) -> Path:
    """The part file of a table: beside the file itself, so that all links to it lead to one part file."""
    target = output.target_of(path)
    return target.with_name(target.name + ".part")


def locked(part: Path, mode: int) -> BinaryIO:
    """The part file, opened and locked. If another process has it, the error says which one."""
    while True:
        handle = os.open(part, os.O_RDWR | os.O_CREAT | os.O_NOFOLLOW | os.O_NONBLOCK, mode)
        kind = settling.kind_of(os.fstat(handle).st_mode)
        if kind:
            os.close(handle)
            raise PartError(f"{part}: this is {kind}, not a part file")
        file = open(handle, "r+b")
        try:
            fcntl.flock(file, fcntl.LOCK_EX | fcntl.LOCK_NB)
            if is_at(file, part):  # the process that had the lock before may have finished, and removed the file
                return file
        except BlockingIOError:
            held = holder(file)
            file.close()
            raise PartError(f"{part}: another settle is writing this table{held}") from None
        except OSError as error:
            file.close()
            raise output.named(error, part) from None
        file.close()


def is_at(file: BinaryIO, path: Path) -> bool:
    """Whether a name is still that of an open file."""
    try:
        return os.path.samestat(os.fstat(file.fileno()), os.stat(path))
    except FileNotFoundError:
        return False


def process_line() -> bytes:
    since = datetime.now(timezone.utc).strftime("%Y-%m-%d %H:%M:%S UTC")
    return json_line({"process": os.getpid(), "host": socket.gethostname(), "since": since})


def holder(file: BinaryIO) -> str:
    """The last process that wrote its line into the file, as the end of a sentence."""
    found: dict[str, Any] = {}
    for line in file:
        if line.startswith(b'{"process"'):
            found = parsed(line) or found
    if not found:
        return ""
    where = "" if found.get("host") == socket.gethostname() else f" on {found.get('host')}"
    return f": process {found.get('process')}{where}, since {found.get('since')}"


# ---------------------------------------------------------------- the table, written as it grows


class Table:
    """The rows of a run: in the part file until all are there, then in the table. If the run breaks off, the part file stays."""

    def __init__(self, path: Path, names: Sequence[str], read_options: ReadOptions, resume: bool = False, restart: bool = False) -> None:
        self.path, self.names, self.part = path, names, part_of(path)
        self.options = option_words(read_options)
        self.head = {"settle": FORM, "version": native.version(), "options": self.options}
        self.seal = seal_of(self.head)
        self.places: dict[str, int] = {}  # where the row of each session is
        self.kept: list[Settled] = []
        self.notes: list[str] = []
        mode = output.mode_of(path)
        self.file = locked(self.part, 0o666 if mode is None else mode | 0o600)
        try:
            self.begin(resume, restart)
        except BaseException:
            self.file.close()
            raise

    def begin(self, resume: bool, restart: bool) -> None:
        """The file up to its last whole line, or a new one, and the line of this process."""
        first = self.file.readline()
        if START.startswith(first[: len(START)]) and not first.endswith(b"\n"):
            first = b""  # a run that ended before it wrote anything
        if resume and not first and self.path.exists():
            self.notes.append(f"{self.path} is finished, there is no part file to go on with: every session is settled again")
        size = self.resumed(first) if resume and first else self.emptied(first, restart)
        self.file.seek(size)
        self.file.truncate()
        self.append(b"" if size else json_line(self.head))
        self.append(process_line())

    def append(self, line: bytes) -> None:
        try:
            self.file.write(line)
            self.file.flush()
        except OSError as error:
            raise output.named(error, self.part) from None

    # ------------------------------------------------------------ the rows of an earlier run

    def emptied(self, first: bytes, restart: bool) -> int:
        """0, if what is in the file may go."""
        is_old = first == settling.HEADER.encode()
        if first and not is_old and "settle" not in parsed(first):
            raise PartError(f"{self.part} is not a part file of settle: move it away, or choose another -o")
        count = sum(1 for line in self.file if line.endswith(b"\n") and not line.startswith(b'{"process"'))  # damaged ones too
        if count and not restart:
            goes_on = "" if is_old else "--resume goes on with it, "
            raise PartError(f"{self.part} has {count} row(s) of a run that was not finished: {goes_on}--restart deletes it")
        return 0

    def resumed(self, first: bytes) -> int:
        """Takes the rows of an earlier run whose sessions have not changed. The bytes up to the last whole line."""
        head = self.head_in(first)
        found, size = self.entries(len(first), seal_of(head))
        if not found:
            return 0
        self.check(head)
        missing = set(found).difference(self.names)
        if len(missing) == len(found):
            raise PartError(f"{self.part} has rows of other sessions, such as {min(missing)}: none of them is to be settled now")
        if missing:
            self.notes.append(f"{self.part} has rows of {len(missing)} session(s) that are not to be settled now: they are left out")
        self.take({name: entry for name, entry in found.items() if name not in missing})
        return size

    def head_in(self, first: bytes) -> dict[str, Any]:
        """What the first line says of the run."""
        if first == settling.HEADER.encode():
            raise PartError(f"{self.part} is of an earlier version, which did not write down its options: {AGAIN}")
        head = parsed(first)
        if "settle" not in head:
            raise PartError(f"{self.part} is not a part file of settle: move it away, or choose another -o")
        if head["settle"] != FORM:
            raise PartError(f"{self.part} has form {head['settle']!r}, and this version reads form {FORM}: {AGAIN}")
        return head

    def check(self, head: dict[str, Any]) -> None:
        """The rows are to be as this run would make them."""
        if head.get("version") != self.head["version"]:
            raise PartError(f"{self.part} is of version {head.get('version')}, and this is {self.head['version']}: {AGAIN}")
        if head.get("options") != self.options:
            words = head.get("options")
            before = shown(words if isinstance(words, dict) else {})
            raise PartError(f"{self.part} was begun with {before}, and this run has {shown(self.options)}: give the same options, or {AGAIN}")

    def entries(self, size: int, seal: int) -> tuple[dict[str, Entry], int]:
        """The last row of each session, and the bytes up to the last whole line."""
        found: dict[str, Entry] = {}
        for number, line in enumerate(self.file, start=2):
            if not line.endswith(b"\n"):
                break
            try:
                outcome = outcome_of(line, seal)
            except ValueError as error:
                raise PartError(f"{self.part}: line {number}: {error}; {AGAIN}") from None
            if outcome:
                found[outcome.row.file] = Entry(size, outcome)
            size += len(line)
        return found, size

    def take(self, found: dict[str, Entry]) -> None:
        """The rows whose sessions are as they were; a session that could not be read then is settled again too."""
        changed = 0
        for name, entry in found.items():
            stamp = entry.outcome.stamp
            if stamp is not None and stamp == settling.stamp_of(name):
                self.places[name] = entry.at
            else:
                changed += stamp is not None
        self.kept = [found[name].outcome.row for name in self.names if name in self.places]
        if changed:
            self.notes.append(f"{changed} session(s) changed after {self.part} was written: they are settled again")

    # ------------------------------------------------------------ the rows of this run

    @property
    def todo(self) -> list[str]:
        """The sessions without a row."""
        return [name for name in self.names if name not in self.places]

    def write(self, outcome: Outcome) -> None:
        """A row is there at once, so that it outlives whatever ends the run."""
        at = self.file.tell()
        self.append(row_line(outcome, self.seal))
        self.places[outcome.row.file] = at

    def lines(self) -> Iterator[bytes]:
        """The finished table."""
        yield settling.HEADER.encode()
        for name in self.names:
            self.file.seek(self.places[name])
            outcome = outcome_of(self.file.readline(), self.seal)
            if outcome is None or outcome.row.file != name:
                raise PartError(f"{self.part}: another program has changed this file: {AGAIN}")
            yield outcome.row.line.encode()

    def finish(self) -> None:
        """All rows are there: the table takes its place."""
        output.replace_file(self.path, self.lines())
        if is_at(self.file, self.part):
            self.part.unlink()

    def close(self) -> None:
        """A part file without rows is of no use to anyone."""
        if not self.places and is_at(self.file, self.part):
            self.part.unlink()
        try:
            self.file.close()
        except OSError as error:  # a row that could not be written is tried again here
            raise output.named(error, self.part) from None
