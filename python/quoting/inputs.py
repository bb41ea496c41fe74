"""Sessions and lists of calls from files, as text, CSV or bytes: which of them a file is shows in its content, unless an option says it."""

import argparse
from bisect import bisect_right
from dataclasses import dataclass
from decimal import Decimal
from pathlib import Path
from typing import Callable, NamedTuple, Optional, Sequence

from quoting import calls as c
from quoting import reading, texts, values
from quoting.events import SIZE, Event, event_of, split
from quoting.native import Refused
from quoting.reading import STANDARD, Options, TextError
from quoting.rows import HEAD

FORMATS = ("text", "csv", "bytes")
FRONT = 65_536  # bytes of a file that are read to see what it is


class WrongUse(Exception):
    """Arguments that do not go together, or can't be read: status 2."""


@dataclass(frozen=True)
class Source:
    """What a file holds: its name, the meter's bytes, the text that they come from (None: they were bytes), and which of FORMATS it is."""

    name: str
    data: bytes
    text: Optional[str] = None
    form: str = "bytes"

    @property
    def stem(self) -> str:
        return "input" if self.name == STANDARD else Path(self.name).stem


# ---------------------------------------------------------------- arguments


def start_of(word: str) -> int:
    try:
        return values.milliseconds(word)
    except ValueError as error:
        raise argparse.ArgumentTypeError(str(error)) from None


def step_of(word: str) -> Decimal:
    if not values.DECIMAL.fullmatch(word) or len(word) > values.MOST_DIGITS or Decimal(word) <= 0:
        raise argparse.ArgumentTypeError(f"{values.brief(word)!r} is not a step above 0, as 0.01")
    return Decimal(word)


def whole_in(low: int, high: int) -> Callable[[str], int]:
    """The reader of an option that is a whole number from `low` to `high`."""

    def read(word: str) -> int:
        try:
            return values.whole(word, (low, high))
        except ValueError as error:
            raise argparse.ArgumentTypeError(str(error)) from None

    return read


limit_of = whole_in(0, 1_000)  # a lapse limit


def add_output(parser: argparse.ArgumentParser, json: bool = True) -> None:
    parser.add_argument("-o", "--output", metavar="FILE", help="write to FILE (standard output otherwise)")
    if json:
        parser.add_argument("--json", action="store_true", help="write JSON")


def add_complete(parser: argparse.ArgumentParser) -> None:
    parser.add_argument("--complete", action="store_true", help="the file is whole, although its last line has no line end")


def add_reading(parser: argparse.ArgumentParser) -> None:
    parser.add_argument("--start", type=start_of, default=0, metavar="H:MM:SS", help="the quantum's start: times h:mm:ss are a wall clock's")
    parser.add_argument("--step", type=step_of, metavar="STEP", help="prices are decimals, in steps of STEP, as 0.01")
    add_complete(parser)


def add_session(parser: argparse.ArgumentParser) -> None:
    """The arguments of a command that reads sessions."""
    add_reading(parser)
    parser.add_argument("--format", choices=FORMATS, help="how the session is written, where its content does not show it")
    parser.add_argument("--decimal", choices=[".", ","], help="what is before the decimals of a CSV (.); with , its fields are separated by ;")
    parser.add_argument("--row", metavar="ROW", help='the row of a session without one, as "1 1 8:45:00 1000 150 3 60%%"')
    parser.add_argument("--sp", metavar="SP", help="the settlement price of a session without one")


def options_of(args: argparse.Namespace) -> Options:
    return Options(args.start, args.step, getattr(args, "old_months", False), args.complete, getattr(args, "decimal", None) or ".")


def head_of(args: argparse.Namespace) -> Optional[bytes]:
    """The leading bytes that --row and --sp make; None where they are not given."""
    if args.row is None and args.sp is None:
        return None
    if args.row is None or args.sp is None:
        raise WrongUse("--row and --sp go together")
    try:
        row = reading.seven_words(reading.words_of(args.row), options_of(args))
        return HEAD.pack(*row, reading.price(args.sp, "SP", options_of(args)))
    except TextError as error:
        raise WrongUse(f"--row and --sp: {error}") from None


def check_no_head(args: argparse.Namespace) -> None:
    if args.row is not None or args.sp is not None:
        raise WrongUse("--row and --sp go with a session, and this is a list of calls")


# ---------------------------------------------------------------- sessions


def format_of(name: str, data: bytes) -> str:
    """One of FORMATS, by the content and the name."""
    if reading.holds_bytes(data):
        return "bytes"
    return "csv" if name.lower().endswith(".csv") or is_csv(data) else "text"


def is_csv(data: bytes) -> bool:
    """Whether the first word of the first line that is not empty has a comma or a semicolon."""
    for _, name, _ in reading.lines(data[:FRONT].decode("utf-8-sig", "replace")):
        return "," in name or ";" in name
    return False


def session_of(name: str, data: bytes, options: Options = reading.PLAIN, head: Optional[bytes] = None, form: Optional[str] = None) -> Source:
    """The session of a file's bytes; `head` are the leading bytes that are given with it."""
    form = form or format_of(name, data)
    try:
        if form == "bytes":
            texts.check_head(HEAD.unpack(data[: HEAD.size]) if len(data) >= HEAD.size else [None] * 8, head)
            return Source(name, data)
        text = reading.whole_text(data, options)
        made = texts.csv_bytes(text, options, head) if form == "csv" else texts.session_bytes(text, options, head)
    except TextError as error:
        error.file = name
        raise
    return Source(name, made, text, form)


def events_of(name: str, data: bytes, options: Options = reading.PLAIN) -> tuple[bytes, Sequence[Optional[Event]]]:
    """The leading bytes and the events of a session's file, with None for a record that is not an event. A text's events are not encoded."""
    form = format_of(name, data)
    try:
        text = "" if form == "bytes" else reading.whole_text(data, options)
        found = None if form == "bytes" else texts.csv_events(text, options) if form == "csv" else texts.session_events(text, options)
    except TextError as error:
        error.file = name
        raise
    if found is not None:
        return found
    whole = session_of(name, data, options).data
    return whole[: HEAD.size], [event_of(each) for each in split(whole[HEAD.size :])]


def session(name: str, args: argparse.Namespace) -> Source:
    """The session that a command's arguments name."""
    return session_of(name, reading.read_bytes(name), options_of(args), head_of(args), args.format)


def line_of_record(source: Source, place: int) -> Optional[int]:
    """The line of a text from which a session's record comes, both counted from 1."""
    if source.text is None or place < 1:
        return None
    is_csv = source.form == "csv"
    sizes = texts.csv_sizes(source.text, texts.separator_of(source.text)) if is_csv else texts.session_sizes(source.text)
    start, end = SIZE * (place - 1), 0
    for line, size in sizes:
        end += size
        if end > start:
            return line
    return None


def refusal_text(source: Source, refused: Refused) -> str:
    """A refusal after the file's name and the line of its record."""
    name = "standard input" if source.name == STANDARD else source.name
    line = line_of_record(source, refused.place)
    return f"{name}: line {line}: {refused}" if line else f"{name}: {refused}"


# ---------------------------------------------------------------- lists of calls


class Placed(NamedTuple):
    """A block of a list, the line from which it comes (None: the list was bytes), and whether it is known to be one whole call."""

    block: bytes
    line: Optional[int]
    is_call: bool = False


@dataclass(frozen=True)
class CallList:
    name: str
    blocks: list[Placed]
    stop: Optional[int]  # the word, counted from 1, at which the list stops being calls


def text_parts(text: str, options: Options) -> list[Placed]:
    """The bytes of each line."""
    return [Placed(block, at, is_event or c.blocks(block) == ([block], len(block))) for at, block, is_event in texts.call_blocks(text, options)]


def placed(parts: list[Placed]) -> Callable[[int], Optional[int]]:
    """The line from which the byte at a place comes."""
    starts, at = [], 0
    for part in parts:
        starts.append(at)
        at += len(part.block)
    return lambda place: parts[bisect_right(starts, place) - 1].line if parts else None


def calls_parts(name: str, data: bytes, options: Options = reading.PLAIN) -> list[Placed]:
    """The bytes of a list, in parts with their lines where it is a text."""
    try:
        return [Placed(data, None)] if reading.holds_bytes(data) else text_parts(reading.whole_text(data, options), options)
    except TextError as error:
        error.file = name
        raise


def calls_of(name: str, data: bytes, options: Options = reading.PLAIN) -> CallList:
    """The list of calls of a file's bytes."""
    parts = calls_parts(name, data, options)
    if all(part.is_call for part in parts):
        return CallList(name, parts, None)
    whole, line_at = b"".join(part.block for part in parts), placed(parts)
    found, stop = c.blocks(whole)
    blocks, at = [], 0
    for block in found:
        blocks.append(Placed(block, line_at(at)))
        at += len(block)
    return CallList(name, blocks, None if stop == len(whole) else stop // 4 + 1)
