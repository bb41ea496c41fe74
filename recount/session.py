"""The session run on a fresh month: both session calls and the C call's number."""

import struct
from collections import namedtuple

from recount import records
from recount.book import Book, Close, Look, Open, Refused

RUN_LIMIT = 4_000_000  # records in a run
HEAD = struct.Struct("<7Ii")  # the row's seven words, then SP

Done = namedtuple("Done", "kept weight met length pairs")
Stopped = namedtuple("Stopped", "number place")


def quoted(words, sp, data, limit=RUN_LIMIT):
    """The book after open (day 1) and the events, or where and by what it stopped."""
    book = Book()
    answer = book.call(Open(words, 1, sp))
    if isinstance(answer, Refused):
        return Stopped(answer.number, 0)
    for place, record in enumerate(records.split(data), start=1):
        event = records.read(record) if place <= limit else None
        if event is None:
            return Stopped(15, place)
        answer = book.call(event)
        if isinstance(answer, Refused):
            return Stopped(answer.number, place)
    return book


def run(words, sp, data, limit=RUN_LIMIT, buffer_words=None):
    """Open (day 1), the events, close (no charges); stops at the first refusal.

    `buffer_words` is the length of the lent buffer; None: there is none to be too short.
    """
    book = quoted(words, sp, data, limit)
    if isinstance(book, Stopped):
        return book
    quoting = book.quoting
    pairs = quoting.pairs(quoting.row.length)
    if buffer_words is not None and buffer_words < 2 * len(pairs):
        return Stopped(16, 0)
    cell = quoting.cell
    book.call(Close(0, 0))
    view = book.call(Look(*cell))
    return Done(view.kept, view.weight, view.met, view.length, pairs)


def pair_words(pairs):
    return [number for pair in pairs for number in pair]


def first_call(words, sp, data, buffer):
    """The answer, and the lent buffer after it: only the front changes, on a refusal nothing."""
    answer = run(words, sp, data, buffer_words=len(buffer))
    written = [] if isinstance(answer, Stopped) else pair_words(answer.pairs)
    return answer, written + buffer[len(written) :]


def second_call(words, sp, data, buffer):
    """The same work; only the filled front part of the buffer, empty on a refusal."""
    answer, after = first_call(words, sp, data, buffer)
    return [] if isinstance(answer, Stopped) else after[: 2 * len(answer.pairs)]


def read_head(head):
    """Row words and SP of 32 leading bytes; None if they are not 32."""
    if len(head) != HEAD.size:
        return None
    *words, sp = HEAD.unpack(head)
    return words, sp


def run_bytes(head, data, limit=RUN_LIMIT):
    read = read_head(head)
    if read is None:
        return Stopped(1, 0)
    return run(*read, data, limit)


def ccall(head, data):
    """K, or 4,294,967,296 times the refusal plus its place."""
    answer = run_bytes(head, data)
    if isinstance(answer, Stopped):
        return (answer.number << 32) + answer.place
    return answer.kept
