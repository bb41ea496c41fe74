r"""The frame of a FIX message in the bytes of a log: where a message ends, or why it is none.

A message starts wherever `8=FIX.` occurs outside a message that was read, whatever byte is before it. Its fields are separated by byte 1
or by |.

>>> log = b"OUT:8=FIX.4.4|9=5|35=0|10=163|8=FIX.4.4|9=5|35=0|10=162|"
>>> window = Window(log, True)
>>> window.message_at(4)
(30, b'8=FIX.4.4\x019=5\x0135=0\x0110=163\x01')
>>> window.message_at(30)
Traceback (most recent call last):
quoting.scanning.Broken: the checksum (10) is 162, and the bytes add up to 163
"""

import re

from quoting import fix

HEAD = re.compile(rb"8=FIX\.4\.4([\x01|])9=([0-9]{1,13})\1")
LONGEST_HEAD = 26  # bytes
LONGEST_BODY = 65_535  # bytes: a damaged length must not make a reader wait for ever
TAIL = 6  # the bytes of 10=ddd
CHECKSUM = re.compile(rb"10=([0-9]{3})(?![0-9])")
VERSION = re.compile(rb"8=([A-Z0-9.]*)")
CUT_LENGTH = re.compile(rb"(?:9(?:=[0-9]*)?)?")
BAR, BAR_LESS = b"|", ord("|") - fix.END[0]
NOWHERE = 1 << 62


class Broken(Exception):
    """What starts like a message is none; the text says why."""


class Incomplete(Exception):
    """The bytes so far do not decide whether this is a message."""


class Window:
    """The bytes of a log that are there, and what starts in them. Every byte is looked at a bounded number of times."""

    def __init__(self, data: bytes, is_final: bool) -> None:
        self.data, self.is_final = data, is_final
        self.tens: dict[bytes, int] = {}  # by separator: the first field 10 after the place that was asked last
        self.summed: tuple[bytes, int, int, int] = (b"", 0, 0, 0)  # the separator, the two ends and the sum of the bytes added last

    def message_at(self, at: int) -> tuple[int, bytes]:
        """The end of the message that starts there, and the message with byte 1 between its fields.

        Raises:
            Broken: It is no message.
            Incomplete: More bytes must come first.
        """
        separator, body, size = self.head_at(at)
        due = body + size
        if self.first_ten(separator, body - 1) + 1 < due:
            raise Broken(f"9 says {size} bytes, and 10 follows after {self.first_ten(separator, body - 1) + 1 - body}")
        if len(self.data) <= due + TAIL and not self.is_final:
            raise Incomplete
        if len(self.data) < due + TAIL:
            raise Broken(f"it is cut off: 9 says {size} bytes, and {len(self.data) - body} are there")
        given = CHECKSUM.match(self.data, due)
        if given is None or self.data[due - 1 : due] != separator:
            raise Broken(f"9 says {size} bytes, and no 10 with three digits follows them")
        if self.data[body : body + 3] != b"35=" or self.data[body + 3 : body + 4] == separator:
            raise Broken("35, the type, does not follow 9")
        if int(given[1]) != self.checksum(separator, at, due):
            raise Broken(f"the checksum (10) is {int(given[1]):03}, and the bytes add up to {self.checksum(separator, at, due):03}")
        end = due + TAIL
        message = self.data[at:end] + fix.END
        return end + (self.data[end : end + 1] == separator), message if separator == fix.END else message.replace(BAR, fix.END)

    def head_at(self, at: int) -> tuple[bytes, int, int]:
        """The separator, where the body starts, and its length as 9 says it."""
        head = HEAD.match(self.data, at)
        if head is None:
            if len(self.data) - at < LONGEST_HEAD and not self.is_final:
                raise Incomplete
            raise Broken(self.why_no_head(at))
        size = int(head[2])
        if size > LONGEST_BODY:
            raise Broken(f"9 says {size} bytes, and a message of a log has at most {LONGEST_BODY:,}")
        return head[1], head.end(), size

    def why_no_head(self, at: int) -> str:
        version = VERSION.match(self.data, at)
        name = version[1].decode() if version else ""
        if name != "FIX.4.4":
            return f"its version (8) is {name[:20]}, and FIX.4.4 is read"
        after, rest = self.data[at + 9 : at + 10], self.data[at + 10 : at + LONGEST_HEAD]
        if after not in (fix.END, BAR, b""):
            return f"after 8=FIX.4.4 comes {after.decode('latin-1')!r}, neither byte 1 nor |"
        is_cut = len(self.data) - at < LONGEST_HEAD and CUT_LENGTH.fullmatch(rest)
        return "it is cut off" if is_cut else "9, the length, does not follow 8"

    def first_ten(self, separator: bytes, start: int) -> int:
        """The place of the first separator with 10= after it, from there on; past all bytes where there is none."""
        if self.tens.get(separator, -1) < start:
            found = self.data.find(separator + b"10=", start)
            self.tens[separator] = found if found >= 0 else NOWHERE
        return self.tens[separator]

    def checksum(self, separator: bytes, at: int, due: int) -> int:
        """The sum of the bytes modulo 256, | as byte 1. Messages that would end at one place are added up once."""
        known, first, end, total = self.summed
        if (known, end) == (separator, due) and first <= at:
            total -= self.sum_of(separator, first, at)
        else:
            total = self.sum_of(separator, at, due)
        self.summed = separator, at, due, total
        return total % 256

    def sum_of(self, separator: bytes, at: int, end: int) -> int:
        less = BAR_LESS * self.data.count(BAR, at, end) if separator == BAR else 0
        return sum(self.data[at:end]) - less
