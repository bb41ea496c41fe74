"""Messages in the recount's book (document 02, W11): the calls that they are, refusals, the count, and the blocks of a list."""

from recount import programs
from recount.book import BUY, SELL, Accepted, Add, Ask, Book, Cancel, Commit, Drop, Message, Open, Refused, Ticket
from recount.fix import WORD
from tests.fix_examples import LATE, NEW, START, at, framed, raw
from tests.running import words

ROW = [1, 1, 10_000, 500, 100, 1, 600]


def new(t: int, id: int, side: int = 1, volume: int = 500, price: int = 99) -> Message:
    return Message(START, framed(f"35=D|11={id}|54={side}|38={volume}|44={price}|60={at(t)}|"))


def cancel(t: int, orig: int) -> Message:
    return Message(START, framed(f"35=F|11=1|41={orig}|60={at(t)}|"))


def replace(t: int, id: int, orig: int, side: int = 1, volume: int = 500, price: int = 99) -> Message:
    return Message(START, framed(f"35=G|11={id}|41={orig}|54={side}|38={volume}|44={price}|60={at(t)}|"))


def answer(book: Book, call: object) -> int:
    """The refusal's number, 0 where the call is accepted; a refused one leaves the book as it was."""
    before = held(book)
    given = book.call(call)
    if isinstance(given, Refused):
        assert held(book) == before, call
        return given.number
    return 0


def held(book: Book) -> tuple[object, ...]:
    """All that a book holds, to be compared."""
    q = book.quoting
    return book.count, dict(book.cells), q and (q.cell, q.row, q.sp, q.limit, list(q.events), dict(q.live))


def test_none_open() -> None:
    """With no quantum open: 20 and 21 first, then 7, whatever the time and the side."""
    book = Book()
    for call in (new(5, 1), new(-1, 1), new(LATE, 1, volume=0), cancel(5, 1), replace(-1, 1, 1, side=2)):
        assert answer(book, call) == 7
        assert answer(book, call._replace(start=START[:-1])) == 21
        assert answer(book, call._replace(bytes=call.bytes[:-1])) == 20
        assert answer(book, Message(b"", call.bytes[:-1])) == 20


def open_book() -> Book:
    book = Book()
    assert book.call(Open(ROW, 1, 2_000)) == Accepted()
    return book


def test_each_kind() -> None:
    """D is add, F cancels the order that 41 names, G is that cancel and an add under 11."""
    book = open_book()
    assert answer(book, new(0, 1)) == answer(book, new(0, 2, side=2, price=-7)) == 0 and book.count == 3
    assert answer(book, cancel(4, 2)) == 0 and book.count == 4
    assert answer(book, replace(5, 9, 1, volume=7, price=100)) == 0 and book.count == 6
    assert answer(book, replace(5, 9, 9, price=101)) == 0 and book.count == 8  # 11 may equal 41
    assert book.quoting.events == [
        Add(0, 1, BUY, 99, 500), Add(0, 2, SELL, -7, 500), Cancel(4, 2), Cancel(5, 1), Add(5, 9, BUY, 100, 7),
        Cancel(5, 9), Add(5, 9, BUY, 101, 500),
    ]
    assert list(book.quoting.live) == [9]
    book.count = 2**64 - 1
    assert answer(book, replace(5, 8, 9)) == 0 and book.count == 1  # the count goes round


def test_refusals() -> None:
    """8 to 13 through each kind; for a G the cancel's, then the add's on the book after the cancel."""
    book = open_book()
    assert answer(book, new(-1, 1)) == answer(book, cancel(-1, 1)) == answer(book, replace(-1, 1, 1)) == 8
    for call in (new(5, 1), new(5, 2, side=2), new(6, 3)):
        assert answer(book, call) == 0
    for wrong in (new(5, 9), new(5, 1, volume=0), cancel(5, 1), cancel(5, 9), replace(5, 9, 1), replace(5, 9, 9)):
        assert answer(book, wrong) == 8
    for t in (-1, -(2**40)):
        assert answer(book, new(t, 9)) == answer(book, cancel(t, 1)) == answer(book, replace(t, 2, 1)) == 8
    for t in (10_001, LATE - 1, LATE, LATE + 6, 2**40):
        assert answer(book, new(t, 1)) == answer(book, cancel(t, 9)) == answer(book, replace(t, 2, 1)) == 9
    assert answer(book, new(6, 1)) == answer(book, replace(6, 3, 1)) == 10
    assert answer(book, replace(6, 3, 1, volume=0)) == 10
    assert answer(book, cancel(6, 9)) == answer(book, replace(6, 9, 9)) == answer(book, replace(6, 1, 9, volume=0)) == 11
    for volume, price in ((0, 99), (1_000_001, 99), (5_000_000, 99), (WORD, 99), (1, 10**9 + 1), (1, -(10**9) - 1)):
        assert answer(book, new(6, 9, 1, volume, price)) == 12
        assert answer(book, replace(6, 9, 1, 1, volume, price)) == 12
    for id in range(10, 71):
        assert answer(book, new(6, id)) == 0
    assert len(book.quoting.live) == 64 and answer(book, new(6, 99)) == 13
    assert answer(book, new(6, 99, volume=0)) == 12 and answer(book, replace(6, 99, 1)) == 0
    assert answer(book, replace(10_000, 1, 99)) == answer(book, cancel(10_000, 1)) == 0


def test_side() -> None:
    """A G's 54 is compared with the live order before 7 to 13; with no such order it is no cause."""
    book = open_book()
    assert answer(book, new(5, 1)) == answer(book, new(5, 2, side=2)) == 0
    for call in (replace(5, 9, 1, side=2), replace(5, 9, 2), replace(-1, 9, 2), replace(LATE, 2, 1, side=2)):
        assert answer(book, call) == 21
    assert answer(book, replace(5, 2, 1, side=2, volume=0)) == 21
    assert answer(book, replace(5, 9, 8, side=2)) == answer(book, replace(5, 9, 8)) == 11
    assert answer(book, replace(5, 2, 1)) == 10 and answer(book, new(5, 3, side=2)) == 0
    wrong = replace(5, 9, 1, side=2)
    assert answer(book, wrong._replace(bytes=wrong.bytes[:-1])) == 20
    assert answer(book, Drop()) == 0 and answer(book, wrong) == 7


def test_tickets() -> None:
    """A refused message leaves a ticket good; an accepted D or F is one call, a G two."""
    book, named = open_book(), (5, 1, 100, 500)
    assert answer(book, new(5, 1)) == 0
    for message, calls in ((new(5, 1), 0), (new(5, 2), 1), (cancel(5, 2), 1), (replace(5, 1, 1), 2)):
        ticket = book.call(Ask(*named)).ticket
        assert answer(book, message) == (0 if calls else 10)
        if calls:
            assert answer(book, Commit(*named, ticket)) == 19
        assert answer(book, Commit(*named, Ticket(*named, ticket.count + calls))) == 0


# ---------------------------------------------------------------- blocks


def test_block() -> None:
    data, report = raw(NEW), words(12)
    for start in (b"", START[:3], START, START + b"0"):
        for filling in (b"\0\0\0", b"\xff\1|"):
            size = -(len(start) + len(data)) % 4
            block = words(16, len(start), len(data)) + start + data + filling[:size]
            calls, stop = programs.read_calls(block + report)
            assert calls[0] == Message(start, data) and len(calls) == 2 and stop is None
            assert programs.read_calls(block) == ([Message(start, data)], None)
            for short in range(1, len(block)):
                assert programs.read_calls(block[:short]) == ([], 0), short
            assert programs.read_calls(report + block[:-1])[1] == 1
    assert programs.replay(words(16, 0, 0) + report).startswith("refused 20\nreport")
    for block in (words(16), words(16, 0), words(16, 0, 1), words(16, 2**32 - 1), words(16, 4, 1, 0)):
        assert programs.replay(block) == "stopped at word 1\n"
    most = 4 * (programs.REPLAY_BLOCK - 3)  # bytes
    for start, length in ((2**32 - 1, 2**32 - 1), (0, most + 1), (most, 1)):
        assert programs.replay(words(16, start, length)) == "too long\n"
    assert programs.replay(words(16, 1, most - 1)) == "stopped at word 1\n"
