"""The messages in a log's bytes, found one at a time by the rules of `quoting.scanning`, with their lines.

A message starts at 8=FIX. wherever that is outside a message that was read; 8=FIXT., of version 5.0, is found and refused. Its frame
must be right and each of its fields a tag and a value; the last separator may be absent. What starts like a message and is none is
found too, with the reason.
"""

import re
from typing import Iterator, NamedTuple, Optional

from quoting import fix
from quoting.scanning import Broken, Incomplete, Window

START = re.compile(rb"8=FIXT?\.")
FIXT = b"8=FIXT."
FIELD = re.compile(rb"[1-9][0-9]*=[^\x01]+")
OF_FRAME = (b"8", b"9", b"10", b"35")  # tags that no field between 35 and 10 may have

Fields = list[tuple[bytes, bytes]]


class Found(NamedTuple):
    """Where a message starts in the bytes and where it ends; its fields, the first one 35; or why it is none, and then no fields."""

    at: int
    end: int
    fields: Fields
    why: str


def fields_of(message: bytes) -> Fields:
    """The fields from 35 to the one before 10.

    Raises:
        Broken: What is between two separators is no field, or one of the frame's tags is among them.
    """
    parts = message.split(fix.END)[2:-2]
    fields = []
    for part in parts:
        if FIELD.fullmatch(part) is None:
            raise Broken(f"{part[:40].decode('latin-1')!r} is not a field TAG=VALUE")
        tag, _, value = part.partition(b"=")
        fields.append((tag, value))
    for tag, _ in fields[1:]:
        if tag in OF_FRAME:
            raise Broken(f"{tag.decode()} occurs among the fields")
    return fields


def found_at(window: Window, at: int) -> Optional[Found]:
    """What starts there, None where more bytes must come first."""
    try:
        end, message = window.message_at(at)
        return Found(at, end, fields_of(message), "")
    except Incomplete:
        return None
    except Broken as broken:
        return Found(at, at + 1, [], str(broken))


def messages(data: bytes, is_final: bool, start: int = 0) -> Iterator[Found]:
    """The messages from a place on, as far as the bytes decide on them. The last one found has no fields and no reason: it says where
    reading must go on when more bytes have come."""
    window, at = Window(data, is_final), start
    while True:
        begun = START.search(data, at)
        if begun is None:
            at = len(data) if is_final else max(start, len(data) - len(FIXT) + 1)
            break
        at = begun.start()
        found = found_at(window, at)
        if found is None:
            break
        yield found
        at = start = found.end
    yield Found(at, at, [], "")


class Lines:
    """Counts a file's lines as its bytes come. A line ends with LF, CR LF or CR."""

    def __init__(self) -> None:
        self.line = 1
        self.is_after_cr = False

    def count(self, data: bytes) -> None:
        """Moves on over these bytes."""
        if data:
            ends = data.count(b"\n")
            if b"\r" in data:
                ends += data.count(b"\r") - data.count(b"\r\n")
            self.line += ends - (self.is_after_cr and data[:1] == b"\n")
            self.is_after_cr = data[-1:] == b"\r"
