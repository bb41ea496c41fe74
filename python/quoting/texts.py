"""Sessions and lists of calls as readable texts, and as the bytes that the meter takes (docs/FORMATS.md); a session also as CSV.

>>> data = session_bytes("row 1 1 10_000 500 100 1 60%\\nsp 2000\\nadd 0 1 buy 99 500")
>>> print(session_text(data), end="")
# expiry quantum L M a b p
row 1 1 10000 500 100 1 60%
sp 2000
add 0 1 buy 99 500
>>> print(calls_text(calls_bytes("open row 1 1 0:00:10 500 100 1 60% day 1 sp 2000")), end="")
open row 1 1 10000 500 100 1 60% day 1 sp 2000 lapses none
"""

import re
from dataclasses import astuple, dataclass
from typing import Any, Callable, Iterator, Optional, Sequence

from quoting import calls as c
from quoting import csv_columns, fix, reading, values
from quoting.events import LAYOUT, KINDS, SIDES, SIZE, Add, Amend, Cancel, Deal, Event, Tick, event_of, record, split
from quoting.reading import PLAIN, Options, TextError
from quoting.rows import COLUMNS, HEAD

EVENT_COLUMNS = {
    "add": "t id side price volume", "amend": "t id price volume", "cancel": "t id", "deal": "t id volume", "tick": "t",
}
EVENTS = (Add, Amend, Cancel, Deal, Tick)

# Of lines in the usual form: the number of words, the record's kind by the first word, of an add by its side, and what follows some numbers.
PLAIN_WORDS = {"add": 6, "amend": 5, "cancel": 3, "deal": 4, "tick": 2}
PLAIN_KINDS = {"amend": 3, "cancel": 4, "deal": 5, "tick": 6}
PLAIN_SIDES = {"buy": 1, "sell": 2}
PLAIN_REST = {1: (0, 0, 0), 2: (0, 0), 4: ()}
LONGEST_PLAIN = 60
PLAIN_BLOCKS = {
    "add": (int(c.Kind.ADD), c.ADD), "amend": (int(c.Kind.AMEND), c.AMEND), "cancel": (int(c.Kind.CANCEL), c.CANCEL),
    "deal": (int(c.Kind.DEAL), c.DEAL), "tick": (int(c.Kind.TICK), c.TICK),
}
PLAIN_CALLS = {name: (PLAIN_WORDS[name], kind, layout.pack) for name, (kind, layout) in PLAIN_BLOCKS.items()}
NOT_PLAIN = (0, 0, c.TICK.pack)


# ---------------------------------------------------------------- events


def event_field(column: str, word: str, options: Options) -> Any:
    if column == "t":
        return reading.time(word, "t", options.start)
    if column == "price":
        return reading.price(word, "price", options)
    if column == "side":
        if word not in SIDES:
            raise TextError(f"side: {values.brief(word)!r} is neither buy nor sell")
        return word
    return reading.number(word, values.WORD, column)


def event(name: str, words: list[str], options: Options = PLAIN) -> Event:
    """The event of a line."""
    given = reading.columns(name, words, EVENT_COLUMNS[name])
    made: Event = KINDS[name](**{column: event_field(column, word, options) for column, word in given.items()})
    return made


def event_line(each: Event) -> str:
    return " ".join([type(each).__name__.lower(), *map(str, astuple(each))])


def hex_bytes(words: list[str]) -> bytes:
    try:
        return bytes.fromhex(" ".join(words))
    except ValueError:
        raise TextError("bytes takes pairs of hex digits") from None


# ---------------------------------------------------------------- a session


@dataclass
class Head:
    """The row and SP of a session: those that its text has, and the leading bytes that are given with it (--row and --sp, or a rule).
    Where both are there they must be the same."""

    options: Options = PLAIN
    given: Optional[bytes] = None
    row: Optional[list[int]] = None
    sp: Optional[int] = None

    def take_row(self, words: list[str]) -> None:
        if self.row is not None:
            raise TextError("this is a second row: a session has one")
        self.row = reading.seven_words(words, self.options)
        check_head([*self.row, None], self.given)

    def take_sp(self, words: list[str]) -> None:
        if self.sp is not None:
            raise TextError("this is a second sp: a session has one")
        self.sp = reading.price(reading.columns("sp", words, "SP")["SP"], "SP", self.options)
        check_head([None] * 7 + [self.sp], self.given)

    def data(self) -> bytes:
        if self.given is not None:
            return self.given
        if self.row is None:
            raise TextError("there is no row")
        if self.sp is None:
            raise TextError("there is no sp")
        return HEAD.pack(*self.row, self.sp)


def check_head(found: Sequence[Optional[int]], given: Optional[bytes]) -> None:
    """Compares what a file says of the row's seven words and SP (None: nothing) with the leading bytes that are given with it."""
    if given is None or len(given) != HEAD.size:  # the library refuses leading bytes of another size
        return
    *row, sp = HEAD.unpack(given)
    for what, own, other in (("row", list(found[:7]), row), ("sp", [found[7]], [sp])):
        if own != other and None not in own:
            shown = [reading.row_text([word for word in words if word is not None]) for words in (own, other)]
            raise TextError(f"the file's {what} is {shown[0]}, but the {what} given with it is {shown[1]}: give the file's own, or none")


class SessionReader:
    """Collects the items of a session's text in the order in which the bytes have them: what `keep` makes of each event, and bytes."""

    def __init__(self, options: Options = PLAIN, given: Optional[bytes] = None, keep: Callable[[Event], Any] = record) -> None:
        self.options, self.head, self.keep = options, Head(options, given), keep
        self.rest: list[Any] = []

    def take(self, name: str, words: list[str]) -> None:
        head = self.head
        if name == "row":
            if self.rest:
                raise TextError("row comes before everything else")
            head.take_row(words)
        elif name == "sp":
            if self.rest or head.row is None:
                raise TextError("sp comes directly after row")
            head.take_sp(words)
        elif name == "bytes":
            self.take_bytes(words)
        elif name in EVENT_COLUMNS:
            if head.sp is None and (head.row is not None or head.given is None):
                raise TextError("row and sp come before the first event")
            self.rest.append(self.keep(event(name, words, self.options)))
        else:
            known = ", ".join(["row", "sp", *EVENT_COLUMNS, "bytes"])
            raise TextError(f"{values.brief(name)!r} is not known; a line begins with one of {known}")

    def take_bytes(self, words: list[str]) -> None:
        if self.head.row is not None and self.head.sp is None:
            raise TextError("sp is missing between row and this line")
        if self.head.row is None and self.head.given is not None:
            raise TextError("bytes without a row before them are a whole session: --row and --sp do not go with them")
        self.rest.append(hex_bytes(words))

    def data(self) -> bytes:
        if self.head.row is None and self.head.given is None and self.rest:
            return b"".join(self.rest)  # only lines `bytes`: the session's bytes as they are
        return self.head.data() + b"".join(self.rest)


def plain_record(line: str) -> Optional[bytes]:
    """The record of a line in the most usual form, which has one space between words and numbers of at most nine digits; None of any other.

    >>> plain_record("amend 1000 7 8446 1200") == record(Amend(1000, 7, 8446, 1200))
    True
    >>> plain_record("amend 1000 7 -1 1200") is plain_record("amend 1_000 7 8446 1200") is plain_record("tick 0:00:01") is None
    True
    """
    words = line.split(" ")
    count = PLAIN_WORDS.get(words[0])
    if count != len(words) or len(line) > LONGEST_PLAIN:
        return None
    kind = PLAIN_SIDES.get(words.pop(3), 0) if count == 6 else PLAIN_KINDS[words[0]]
    numbers = words[1:]
    if not kind or not "".join(numbers).isdigit() or max(map(len, numbers)) > 9 or not all(numbers):
        return None
    if count == 4:
        numbers.insert(2, "0")  # a deal has no price
    return LAYOUT.pack(kind, *map(int, numbers), *PLAIN_REST[len(numbers)])


def session_bytes(text: str, options: Options = PLAIN, given: Optional[bytes] = None) -> bytes:
    """The bytes of a session's text; `given` are its leading bytes where the text has no row and sp. After the first event, which shows
    that these are there, lines in the usual form are read at once."""
    reader = SessionReader(options, given)
    rest, is_plain = reader.rest, options.step is None and text.isascii()
    for at, line in enumerate(reading.split_lines(text), start=1):
        found = plain_record(line) if is_plain and rest else None
        if found is not None:
            rest.append(found)
            continue
        words = reading.words_of(line)
        if words:
            with reading.at_line(at):
                reader.take(words[0], words[1:])
    return reader.data()


def session_events(text: str, options: Options = PLAIN) -> Optional[tuple[bytes, list[Event]]]:
    """The leading bytes and the events of a session's text; None where it has lines `bytes`, which may be anything."""
    reader = SessionReader(options, keep=lambda each: each)
    reading.read_by_lines(text, reader.take)
    return None if any(isinstance(item, bytes) for item in reader.rest) else (reader.head.data(), reader.rest)


def session_sizes(text: str) -> Iterator[tuple[int, int]]:
    """The line of each part of a session's text, and its bytes after the leading ones, for a text that can be read. Only lines `bytes`
    have the leading bytes in them."""
    before = HEAD.size if next((name for _, name, _ in reading.lines(text)), "") == "bytes" else 0
    for at, name, words in reading.lines(text):
        if name not in ("row", "sp"):
            size = len(hex_bytes(words)) if name == "bytes" else SIZE
            yield at, max(0, size - before)
            before = max(0, before - size)


def session_text(data: bytes) -> str:
    """The text of a session's bytes, whatever they are."""
    if len(data) < HEAD.size:
        return f"bytes {data.hex(' ')}".rstrip() + "\n"
    *row, sp = HEAD.unpack(data[: HEAD.size])
    out = [f"# {' '.join(COLUMNS)}", f"row {reading.row_text(row)}", f"sp {sp}"]
    for each in split(data[HEAD.size :]):
        found = event_of(each)
        out.append(f"bytes {each.hex(' ')}" if found is None else event_line(found))
    return "\n".join(out) + "\n"


# ---------------------------------------------------------------- a session as CSV

CSV_COLUMNS = ("t", "kind", "id", "side", "price", "volume")
INDEX_NAMES = ("", "index", "unnamed: 0", "level_0")  # of a column of numbers that pandas, Excel or a database puts first
NOTHING = ("", "nan", "<na>", "none", "null")  # cells without a value
WHOLE = re.compile(r"(-?[0-9_]+)\.0+")  # a whole number of a column in which some cells have no value
ISO_TIME = re.compile(r"([0-9]{4}-[0-9]{2}-[0-9]{2})[T ]([0-9]{2}:[0-9]{2}:[0-9]{2})(?:\.([0-9]{1,9}))?(Z|[+-][0-9]{2}:?[0-9]{2})?")


@dataclass
class CsvReader:
    """Lines `row,..` and `sp,..` first, if at all, then the columns' names, then an event a line."""

    options: Options
    head: Head
    names: Optional[list[str]] = None
    day: Optional[str] = None  # of the times of a column `timestamp`, with their zone: all of one day

    def take(self, cells: list[str]) -> Optional[Event]:
        """The event of a line that has one."""
        if self.names is not None:
            return self.event(cells)
        if cells[0] == "row":
            self.head.take_row(cells[1:])
        elif cells[0] == "sp":
            self.head.take_sp([cell.replace(",", ".") if self.options.decimal == "," else cell for cell in cells[1:]])
        else:
            self.names = self.header(cells)
        return None

    def header(self, cells: list[str]) -> list[str]:
        names = csv_names(cells)
        if names is None:
            raise TextError(f"the columns are {','.join(CSV_COLUMNS)}, in any order, got {','.join(map(values.brief, cells))}")
        return names

    def event(self, cells: list[str]) -> Event:
        names = self.names or []
        if len(cells) != len(names):
            raise TextError(f"there are {len(names)} columns, got {len(cells)} fields")
        given = {name: "" if cell.lower() in NOTHING else cell for name, cell in zip(names, cells) if name}
        kind = given.pop("kind")
        if kind not in EVENT_COLUMNS:
            raise TextError(f"kind: {values.brief(kind)!r} is not one of {', '.join(EVENT_COLUMNS)}")
        taken = EVENT_COLUMNS[kind].split()
        more = [name for name, cell in given.items() if cell and name not in taken]
        if more:
            raise TextError(f"{'an' if kind[0] == 'a' else 'a'} {kind} has no {more[0]}, got {values.brief(given[more[0]])!r}")
        return event(kind, [self.word(name, given[name]) for name in taken], self.options)

    def word(self, name: str, cell: str) -> str:
        """A cell as a text has it."""
        if name == "t":
            return self.clock(cell)
        if name == "side":
            return cell
        if name == "price" and self.options.step is not None:
            return cell.replace(",", ".") if self.options.decimal == "," else cell
        found = WHOLE.fullmatch(cell.replace(",", ".") if self.options.decimal == "," else cell)
        return found[1] if found else cell

    def clock(self, cell: str) -> str:
        """A time of day, where the cell has a date and a time; decimals of a second after the third are cut off."""
        found = ISO_TIME.fullmatch(cell)
        if found is None:
            whole = WHOLE.fullmatch(cell)
            return whole[1] if whole else cell
        day = f"{found[1]}{found[4] or ''}"
        self.day = self.day or day
        if day != self.day:
            raise TextError(f"t: {cell} is of another day or zone than the first time, {self.day}")
        return f"{found[2].lstrip('0') if found[2][0] == '0' and found[2][1] != ':' else found[2]}.{(found[3] or '').ljust(3, '0')[:3]}"


def csv_names(cells: list[str]) -> Optional[list[str]]:
    """The names of the columns, each once; an index column has none, and t may be called timestamp. None where they are not those of a
    session."""
    names = [cell.lower() for cell in cells]
    names = ["t" if name == "timestamp" else name for name in names]
    if names and names[0] in INDEX_NAMES:
        names[0] = ""
    return names if sorted(name for name in names if name) == sorted(CSV_COLUMNS) and names.count("") <= (names[0] == "") else None


def csv_cells(line: str, separator: str = ",") -> list[str]:
    """The fields of a line, without the quotes around them."""
    cells = [cell.strip(" \t") for cell in line.split("#", 1)[0].split(separator)]
    return [cell[1:-1] if len(cell) > 1 and cell[0] == cell[-1] == '"' else cell for cell in cells]


def csv_bytes(text: str, options: Options = PLAIN, head: Optional[bytes] = None) -> bytes:
    """The bytes of a session in CSV; `head` are its leading bytes where the text has no row and sp.

    >>> len(csv_bytes('row,1,1,10_000,500,100,1,60%\\nsp,2000\\nt,kind,id,side,price,volume\\n0,add,1,buy,99,500\\n'))
    52
    """
    reader = CsvReader(options, Head(options, head))
    at, end = csv_front(reader, text)
    whole = csv_columns.records(text[end:], reader.names or [], options)
    return reader.head.data() + (b"".join(map(record, csv_rest(reader, text[end:], at))) if whole is None else whole)


def csv_events(text: str, options: Options = PLAIN) -> tuple[bytes, list[Event]]:
    """The leading bytes and the events of a session in CSV."""
    reader = CsvReader(options, Head(options))
    at, end = csv_front(reader, text)
    events = list(csv_rest(reader, text[end:], at))
    return reader.head.data(), events


def csv_front(reader: CsvReader, text: str) -> tuple[int, int]:
    """Reads up to the line with the columns' names: its number, and where the next one starts."""
    for at, (line, end) in enumerate(reading.lines_with_ends(text), start=1):
        cells = csv_cells(line, csv_separator(reader.options))
        if any(cells):
            with reading.at_line(at):
                reader.take(cells)
        if reader.names is not None:
            return at, end
    raise TextError(f"there is no line with the columns {','.join(CSV_COLUMNS)}")


def csv_rest(reader: CsvReader, text: str, before: int) -> Iterator[Event]:
    """The events after the line with the columns' names, one at a time."""
    separator = csv_separator(reader.options)
    for at, line in enumerate(reading.split_lines(text), start=before + 1):
        cells = csv_cells(line, separator)
        if any(cells):
            with reading.at_line(at):
                found = reader.take(cells)
            if found is not None:
                yield found


def csv_separator(options: Options) -> str:
    return ";" if options.decimal == "," else ","


def separator_of(text: str) -> str:
    """What separates the columns' names of a CSV that was read."""
    found = (line for line, _ in reading.lines_with_ends(text) if any(csv_names(csv_cells(line, each)) for each in ";,"))
    return ";" if ";" in next(found, "") else ","


def csv_sizes(text: str, separator: str = ",") -> Iterator[tuple[int, int]]:
    """The line and the bytes of each event of a session in CSV, for a text that can be read."""
    named = False
    for at, line in enumerate(reading.split_lines(text), start=1):
        cells = csv_cells(line, separator)
        if named and any(cells):
            yield at, SIZE
        named = named or any(cells) and cells[0] not in ("row", "sp")


# ---------------------------------------------------------------- messages in a text

FRAME = "frame"  # in place of the fields 8, 9 and 10
NO_BYTES = "-"
CHARACTER = re.compile(r"\\x([0-9a-fA-F]{2})|\\([|\\])|([!-\[\]-~])")


def message_bytes(word: str) -> bytes:
    """The bytes of a message, or of a quantum's start: | is byte 1."""
    if word == NO_BYTES:
        return b""
    out, at = bytearray(), 0
    while at < len(word):
        found = CHARACTER.match(word, at)
        if found is None:
            raise TextError(f"{word[at:at + 4]!r}: write | for byte 1, \\| and \\\\ for those characters, \\xNN for the rest")
        hexed, escaped, plain = found.groups()
        out += bytes.fromhex(hexed) if hexed else b"\1" if plain == "|" else (escaped or plain).encode()
        at = found.end()
    return bytes(out)


def message_text(data: bytes) -> str:
    """Bytes of a message as one word."""
    if not data:
        return NO_BYTES
    if data == b"-":
        return r"\x2d"
    escapes = {1: "|", ord("|"): r"\|", ord("\\"): r"\\", ord("#"): r"\x23"}
    return "".join(escapes.get(b) or (chr(b) if 32 < b < 127 else rf"\x{b:02x}") for b in data)


def message_call(words: list[str]) -> c.Message:
    is_body = words[1:2] == [FRAME]
    if len(words) != 2 + is_body:
        raise TextError("message is written: message START BYTES, or message START frame BYTES")
    start, data = message_bytes(words[0]), message_bytes(words[-1])
    return c.Message(start, fix.framed(data) if is_body else data)


def message_line(call: c.Message) -> str:
    """With `frame` where 8, 9 and 10 are as they would be computed."""
    start, shown = message_text(call.start), message_text(call.bytes)
    body = call.bytes.split(fix.END, 2)[-1][:-7]  # the field 10 has seven bytes
    if fix.framed(body) == call.bytes:
        return f"message {start} {FRAME} {message_text(body)}"
    return f"message {start} " + (r"\x66rame" if shown == FRAME else shown)


# ---------------------------------------------------------------- a list of calls

OTHERS: dict[str, tuple[Callable[..., c.Call], str]] = {
    "close": (c.Close, "active passive"), "drop": (c.Drop, ""), "charge": (c.Charge, "day expiry quantum active passive"),
    "withdraw": (c.Withdraw, "day expiry quantum"), "look": (c.Look, "day expiry quantum"), "report": (c.Report, ""),
    "outlook": (c.Outlook, ""),
}
STRIKE = ("a", "difference", "days", "b")
SHAPES = {"open": "sp SP", "strike": "a A difference N days N b B"}


def open_call(name: str, words: list[str], options: Options) -> c.Open:
    """`open`, or `strike` with four numbers in place of SP."""
    names = ["sp"] if name == "open" else list(STRIKE)
    limit = c.NO_LIMIT
    if words[-2:-1] == ["lapses"]:
        limit = c.NO_LIMIT if words[-1] == "none" else reading.number(words[-1], values.WORD, "lapses")
        words = words[:-2]
    tail = 2 + 2 * len(names)  # words from `day` on
    if len(words) < 1 + tail or words[0] != "row" or words[-tail::2] != ["day", *names]:
        raise TextError(f"{name} is written: {name} row WORDS.. day DAY {SHAPES[name]} lapses LIMIT|none")
    row = reading.row_words(words[1:-tail], options)
    day = reading.number(words[1 - tail], values.WORD, "day")
    if name == "open":
        return c.Open(row, day, reading.price(words[-1], "SP", options), limit)
    numbers = [reading.number(word, values.WORD, what) for what, word in zip(names, words[3 - tail :: 2])]
    return c.Open(row, day, c.Strike(*numbers), limit)


def amend(words: list[str], options: Options) -> Amend:
    found = event("amend", words, options)
    assert isinstance(found, Amend)
    return found


def commit_call(words: list[str], options: Options) -> c.Commit:
    if len(words) != 10 or words[4] != "ticket":
        raise TextError("commit is written: commit T ID PRICE VOLUME ticket T ID PRICE VOLUME COUNT")
    count = reading.number(words[9], values.LONG, "count")
    first, second = amend(words[:4], options), amend(words[5:9], options)
    ticket = c.Ticket(int(second.t), second.id, second.price, second.volume, count)
    return c.Commit(first.t, first.id, first.price, first.volume, ticket)


def call(name: str, words: list[str], options: Options = PLAIN) -> c.Call:
    """The call of one line."""
    if name in ("open", "strike"):
        return open_call(name, words, options)
    if name == "ask":
        reading.columns(name, words, "t id price volume")
        return c.Ask(*astuple(event("amend", words, options)))
    if name == "commit":
        return commit_call(words, options)
    if name == "message":
        return message_call(words)
    if name in EVENT_COLUMNS:
        return event(name, words, options)
    if name not in OTHERS:
        known = ", ".join(["open", "strike", *EVENT_COLUMNS, *OTHERS, "ask", "commit", "message", "words", "bytes"])
        raise TextError(f"{values.brief(name)!r} is not known; a line begins with one of {known}")
    kind, names = OTHERS[name]
    given = reading.columns(name, words, names)
    spans = {"active": values.LONG, "passive": values.LONG}
    return kind(**{column: reading.number(word, spans.get(column, values.WORD), column) for column, word in given.items()})


def plain_block(name: str, words: list[str]) -> Optional[bytes]:
    """The block of an event whose numbers have at most nine digits and no sign; None of any other line.

    >>> plain_block("add", ["5", "7", "buy", "99", "500"]) == c.block(Add(5, 7, "buy", 99, 500))
    True
    """
    if PLAIN_WORDS.get(name) != len(words) + 1:
        return None
    side = PLAIN_SIDES.get(words[2]) if name == "add" else 0
    numbers = [*words[:2], *words[3:]] if side else words
    joined = "".join(numbers)
    if side is None or not (joined.isascii() and joined.isdigit()) or max(map(len, numbers)) > 9:
        return None
    given = list(map(int, numbers))
    if side:
        given.insert(2, side)
    kind, layout = PLAIN_BLOCKS[name]
    return layout.pack(kind, *given)


def plain_call(line: str) -> Optional[bytes]:
    """The block of an event's line in the usual form, as in `plain_record`; None of any other line.

    >>> plain_call("add 5 7 buy 99 500") == c.block(Add(5, 7, "buy", 99, 500))
    True
    >>> plain_call("add 5 7 buy 99  500") is plain_call("deal 5 7 -1") is plain_call("report") is None
    True
    """
    words = line.split(" ")
    count, kind, pack = PLAIN_CALLS.get(words[0], NOT_PLAIN)
    if count != len(words) or len(line) > LONGEST_PLAIN:
        return None
    numbers = words[1:]
    side = PLAIN_SIDES.get(numbers.pop(2), 0) if count == 6 else 0
    if not "".join(numbers).isdigit() or max(map(len, numbers)) > 9 or "" in numbers or (count == 6 and not side):
        return None
    if not side:
        return pack(kind, *map(int, numbers))
    t, id, price, volume = map(int, numbers)
    return pack(kind, t, id, side, price, volume)


def block_of(name: str, words: list[str], options: Options = PLAIN) -> bytes:
    """The bytes of one line of a list of calls."""
    plain = plain_block(name, words) if options.step is None else None
    if plain is not None:
        return plain
    if name == "words":
        return c.pack([reading.number(word, values.WORD, "a word") for word in words])
    return hex_bytes(words) if name == "bytes" else c.block(call(name, words, options))


def call_blocks(text: str, options: Options = PLAIN) -> Iterator[tuple[int, bytes, bool]]:
    """The number and the bytes of each line of a list, and whether the line is an event in the usual form, which is read at once."""
    is_plain = options.step is None and text.isascii()
    for at, line in enumerate(reading.split_lines(text), start=1):
        found = plain_call(line) if is_plain else None
        if found is not None:
            yield at, found, True
            continue
        words = reading.words_of(line)
        if words:
            try:
                yield at, block_of(words[0], words[1:], options), False
            except TextError as error:
                error.line = error.line or at
                raise


def calls_bytes(text: str, options: Options = PLAIN) -> bytes:
    """The bytes of a text of calls."""
    return b"".join([block for _, block, _ in call_blocks(text, options)])


def call_line(each: c.Call) -> str:
    """The line of a call."""
    if isinstance(each, c.Open):
        spread = f"sp {each.spread}"
        if isinstance(each.spread, c.Strike):
            spread = " ".join(f"{name} {number}" for name, number in zip(STRIKE, astuple(each.spread)))
        name = "strike" if isinstance(each.spread, c.Strike) else "open"
        limit = "none" if each.lapses == c.NO_LIMIT else each.lapses
        return " ".join(filter(None, [f"{name} row", reading.row_text(list(each.words)), f"day {each.day} {spread} lapses {limit}"]))
    if isinstance(each, c.Message):
        return message_line(each)
    if isinstance(each, c.Commit):
        return " ".join(["commit", *map(str, astuple(each)[:4]), "ticket", *map(str, astuple(each.ticket))])
    return " ".join([type(each).__name__.lower(), *map(str, astuple(each))])


def words_line(data: bytes) -> str:
    return "words " + " ".join(str(c.word_at(data, at)) for at in range(0, len(data) // 4 * 4, 4))


def block_line(data: bytes) -> str:
    """The line of a block. One whose filling is not 0 is written by its words, so that the same bytes are read back."""
    found = c.call_of(data)
    return call_line(found) if found is not None and c.block(found) == data else words_line(data)


def calls_text(data: bytes) -> str:
    """The text of a list's bytes, whatever they are."""
    found, stop = c.blocks(data)
    out, rest = list(map(block_line, found)), data[stop:]
    if len(rest) >= 4:
        out.append(words_line(rest))
    if len(rest) % 4:
        out.append("bytes " + rest[len(rest) // 4 * 4 :].hex(" "))
    return "".join(line + "\n" for line in out)
