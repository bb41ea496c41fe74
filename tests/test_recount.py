"""The recount against the paper's own checks and against itself.

Kept time is counted in three ways: as the paper's sentence says it, for every millisecond from the
whole list of events; millisecond by millisecond in one walk; and from event to event. Lapses are
counted in two: millisecond by millisecond, and as the gaps that the kept stretches leave. Accounts
are made in two, millisecond by millisecond and from event to event.
"""

import random

import pytest

from recount import account, programs, records, session
from recount.book import (
    BUY, CHARGE_LIMIT, DAYS, EXPIRIES, NO_LIMIT, QUANTA, SELL, Accepted, Add, Amend, Ask, Book,
    Cancel, Cell, Charge, Close, Commit, Deal, Look, Open, Order, Refused, Report, Row, Strike,
    Tick, Ticket, Withdraw, best_ask, best_bid, cell_met, cell_weight, choose, fee, keeps,
    kept_time, lapses_by_milliseconds, lapses_by_stretches, live_after, row_fits,
    stretches_by_events, stretches_by_milliseconds, weight, widest, within,
)

EXAMPLE_ROW = [1, 1, 10_000, 500, 100, 1, 600]
EXAMPLE_EVENTS = [
    Add(0, 1, BUY, 99, 500),
    Add(0, 2, SELL, 101, 500),
    Cancel(4_000, 2),
    Add(4_000, 3, SELL, 101, 500),
    Cancel(6_000, 1),
]
EXAMPLE_SHEET = "kept 6000 of 10000\npair 0 6000\nverdict met\nweight 10000\n"


def example_bytes():
    return session.HEAD.pack(*EXAMPLE_ROW, 2_000) + b"".join(map(records.write, EXAMPLE_EVENTS))


# ---------------------------------------------------------------- the paper's checks


def orders(*buys):
    return {i: Order(i, BUY, price, volume) for i, (volume, price) in enumerate(buys)}


@pytest.mark.parametrize(("buys", "due"), [
    ([(300, 100), (200, 99)], 99), ([(300, 100), (200, 99), (400, 98)], 99), ([(200, 99), (400, 98)], 98),
], ids=["C1", "C2", "C3"])
def test_best_bid(buys, due):
    """With M 500."""
    assert best_bid(orders(*buys), 500) == due


ROW = Row(1, 1, 10_000, 500, 100, 1, 600)


def test_spread():
    """C4 and C5; SP -5 leaves the limit b."""
    assert within(ROW, 2_000, 99, 101) and not within(ROW, 2_000, 99, 102)
    assert not within(ROW, 1_999, 99, 101) and within(ROW, 1_999, 100, 101)
    assert within(ROW, -5, 100, 101) and not within(ROW, -5, 99, 101)


@pytest.mark.parametrize("sp", [-5, 0, 1_999, 2_000, 2_999, 10**9])
@pytest.mark.parametrize("row", [ROW, ROW._replace(a=0), ROW._replace(b=0), ROW._replace(a=100_000)])
def test_widest(row, sp):
    wide = widest(row, sp)
    assert within(row, sp, 0, wide) == (wide > 0) and not within(row, sp, 0, wide + 1)
    # Document 02, W2: D = 0 and D = -1 keep nothing, whatever a, b and SP.
    assert not within(row, sp, 100, 100) and not within(row, sp, 100, 99)


@pytest.mark.parametrize(("kept", "due"), [
    (18_899_999, 0), (18_900_000, 10_000), (22_050_000, 10_312), (25_199_999, 19_752), (25_200_000, 20_000),
], ids=["C6", "C7", "C8", "C9", "C10"])
def test_weight(kept, due):
    """With p 600 and L 31,500,000."""
    assert weight(kept, 31_500_000, 600) == due


@pytest.mark.parametrize(("kept", "share", "due"), [
    (7_249, 725, 0), (7_250, 725, 10_000), (7_625, 725, 10_292), (7_999, 725, 19_350),
    (7_989, 799, 0), (7_990, 799, 10_000), (7_999, 799, 10_000), (8_000, 799, 20_000),
    (9, 1, 0), (10, 1, 10_000), (8_000, 1, 20_000),
])
def test_weight_by_tenths(kept, share, due):
    """Document 02, W6: 72.5% of 10,000 is 7,250; f 762 makes n 37 and d 75; p 1 and 799 are in the range."""
    assert weight(kept, 10_000, share) == due


def test_shares():
    assert [s for s in range(1_001) if row_fits(ROW._replace(share=s))] == list(range(1, 800))


PAID = Cell(22_050_000, 31_500_000, 600, NO_LIMIT, 0, 10_000, 20_000)
TOP = Cell(31_500_000, 31_500_000, 600, NO_LIMIT, 0, 10**9, 10**9)


def test_fee():
    """C11 and C12."""
    assert fee({(1, 1, 1): PAID}) == 10_312
    assert fee({(1, 1, 1): TOP}) == 120_000_000


def test_fee_of_the_greatest_charges():
    """Document 02, W8: in 186 cells."""
    most = TOP._replace(active=CHARGE_LIMIT, passive=CHARGE_LIMIT)
    assert fee({(d, e, q): most for d in DAYS for e in EXPIRIES for q in QUANTA}) == 120_000_000


def test_failed_cells():
    """15 in a series leave the fee, 16 make it 0."""
    paid, failed = {(31, 1, 1): PAID}, Cell(0, 1_000, 600, NO_LIMIT, 1, 5, 5)
    fifteen = {(day, 1, 1): failed for day in range(1, 16)}
    assert fee({**paid, **fifteen}) == 10_312
    assert fee({**paid, **fifteen, (16, 1, 1): failed}) == 0
    assert fee({**paid, **fifteen, (16, 2, 1): failed}) == 10_312


def test_event_at_the_end():
    """An event at t = L adds nothing to K."""
    events = [Add(0, 1, BUY, 99, 500), Add(10_000, 2, SELL, 101, 500)]
    assert stretches_by_milliseconds(ROW, 2_000, events, 10_000) == []


def test_printed_session():
    """As sheet and as the C call answer it."""
    assert programs.sheet(example_bytes()) == EXAMPLE_SHEET
    assert session.ccall(example_bytes()[:32], example_bytes()[32:]) == 6_000


def weight_in_percent(kept, length, share):
    """Document 01's sentences as printed, with p in percent."""
    if 100 * kept < share * length:
        return 0
    f = 1_000 * kept // length
    return 20_000 if f >= 800 else 10_000 + 10_000 * (f - 10 * share) ** 5 // (800 - 10 * share) ** 5


def test_percents():
    """Document 02, W6: a p in percent, times ten, gives the weight that it gave."""
    rng = random.Random(1)
    for share in range(1, 80):
        for _ in range(100):
            length = 1_000 * rng.choice([1, 7, 10, 31_500, 86_400])
            edge = -(-rng.choice([share * 10, rng.randrange(1_001)]) * length // 1_000)
            kept = max(0, min(length, edge + rng.choice([-1, 0, 1])))
            assert weight(kept, length, 10 * share) == weight_in_percent(kept, length, share)


@pytest.mark.parametrize(("limit", "count", "is_met"), [
    (NO_LIMIT, 70_000, True), (1_000, 1_000, True), (1_000, 1_001, False), (0, 0, True), (0, 1, False), (NO_LIMIT, 43_200_000, True),
])
def test_lapse_limit(limit, count, is_met):
    """Document 02, W1: with no limit no count is too many, with one a count above it is."""
    cell = Cell(31_500_000, 31_500_000, 600, limit, count, 1_000, 0)
    assert cell_met(cell) == is_met and cell_weight(cell) == (20_000 if is_met else 0)
    assert fee({(1, 1, 1): cell}) == (500 if is_met else 0)


def test_lapses():
    """One at the start, one between, one at the end; one in a quantum without a quote; none."""
    assert lapses_by_stretches([(200, 300), (700, 100)], 1_000) == 3
    assert lapses_by_stretches([(0, 300), (700, 300)], 1_000) == 1
    assert lapses_by_stretches([], 1_000) == 1
    assert lapses_by_stretches([(0, 1_000)], 1_000) == 0
    assert lapses_by_stretches([], 0) == 0


def test_refused_lapse_limits():
    book = Book()
    for limit in (1_001, 65_534, 65_536, 2**32 - 1):
        assert refusal(book, Open(EXAMPLE_ROW, 1, 2_000, limit)) == 17
        assert refusal(book, Open(EXAMPLE_ROW, 32, 2_000, limit)) == 3


@pytest.mark.parametrize("limit", [0, 1_000, NO_LIMIT])
def test_accepted_lapse_limits(limit):
    book = Book()
    assert refusal(book, Open(EXAMPLE_ROW, 1, 2_000, limit)) == 0
    assert refusal(book, Open(EXAMPLE_ROW, 2, 2_000, 1_001)) == 6
    book.call(Close(0, 0))
    view = book.call(Look(1, 1, 1))
    assert (view.limit, view.lapses) == (limit, 1)
    book.call(Charge(1, 1, 1, 5, 5))
    assert book.call(Look(1, 1, 1))[3:5] == (limit, 1)
    book.call(Withdraw(1, 1, 1))


def refusal(book, call):
    answer = book.call(call)
    return answer.number if isinstance(answer, Refused) else 0


def test_refusals():
    """Each number from 1 to 14, and the lowest where several apply; 15 and 16 are in test_refused_runs, 17 in
    test_refused_lapse_limits, 18 in test_refused_strikes, 19 in test_asks."""
    good = EXAMPLE_ROW
    book = Book()
    assert refusal(book, Open(good[:6], 32, 0)) == 1
    assert refusal(book, Open([3] + good[1:], 32, 0)) == 2
    assert refusal(book, Open(good, 32, 0)) == 3
    assert refusal(book, Open(good, 1, 1_000_000_001)) == 3
    assert refusal(book, Close(100_000_000_001, 0)) == 3
    assert refusal(book, Close(0, 0)) == 7
    assert refusal(book, Tick(0)) == 7
    assert refusal(book, Look(1, 1, 1)) == 5
    assert refusal(book, Look(1, 3, 1)) == 3
    assert refusal(book, Open(good, 1, 2_000)) == 0
    assert refusal(book, Open(good, 2, 2_000)) == 6
    for id in range(64):
        assert refusal(book, Add(5, id, BUY, 99, 500)) == 0
    assert refusal(book, Add(4, 0, BUY, 99, 500)) == 8
    assert refusal(book, Add(10_001, 0, BUY, 99, 500)) == 9
    assert refusal(book, Add(5, 0, BUY, 99, 0)) == 10
    assert refusal(book, Amend(5, 64, 99, 0)) == 11
    assert refusal(book, Add(5, 64, BUY, 99, 0)) == 12
    assert refusal(book, Add(5, 64, BUY, -1_000_000_001, 1)) == 12
    assert refusal(book, Add(5, 64, BUY, 99, 500)) == 13
    assert refusal(book, Deal(5, 0, 501)) == 14
    assert refusal(book, Deal(5, 0, 1_000_001)) == 12
    assert refusal(book, Deal(5, 0, 500)) == 0
    assert refusal(book, Deal(5, 0, 500)) == 11
    assert refusal(book, Close(0, 0)) == 0
    assert refusal(book, Open(good, 1, 2_000)) == 4
    assert refusal(book, Charge(1, 1, 1, 0, 100_000_000_001)) == 3
    assert refusal(book, Charge(1, 1, 2, 0, 100_000_000_001)) == 3
    assert refusal(book, Withdraw(1, 1, 1)) == 0
    assert refusal(book, Withdraw(1, 1, 1)) == 5


def test_refused_runs():
    """15 by the place of the record, 16 for a buffer that is too short."""
    good = EXAMPLE_ROW
    records_of_example = example_bytes()[32:]
    ran = lambda **more: session.run(good, 2_000, records_of_example, **more)
    assert ran(buffer_words=2).pairs == [(0, 6_000)]
    assert ran(buffer_words=1) == session.Stopped(16, 0)
    assert ran(limit=4, buffer_words=1) == session.Stopped(15, 5)
    given = good, 2_000, records_of_example
    assert session.first_call(*given, [7] * 3)[1] == [0, 6_000, 7]
    assert session.second_call(*given, [7] * 3) == [0, 6_000]
    assert session.first_call(*given, [7]) == (session.Stopped(16, 0), [7])
    assert session.second_call(*given, [7]) == []
    cut = session.run(good, 2_000, records_of_example + b"\0", buffer_words=0)
    assert cut == session.Stopped(15, 6)


@pytest.mark.parametrize("strike", [
    Strike(75, 40, 365, 0), Strike(5, 1, 365, 0), Strike(15, 1, 365, 0), Strike(200, 100_000, 100, 3),
    Strike(0, 5, 5, 9), Strike(9, 0, 9, 1), Strike(9, 9, 0, 1_000_000),
])
def test_widest_of_a_strike(strike):
    wide = widest(ROW, strike)
    assert within(ROW, strike, 0, wide) and not within(ROW, strike, 0, wide + 1)
    assert not within(ROW, strike, 100, 100) and not within(ROW, strike, 100, 99)


def test_refused_strikes():
    """Document 02, W4: a strike's open goes by its own a and b and not by the row's, and has no SP."""
    unread = [*EXAMPLE_ROW[:4], 2**32 - 1, 2**32 - 1, *EXAMPLE_ROW[6:]]
    book, good = Book(), Strike(75, 40, 365, 0)
    for wrong in (
        good._replace(a=201), good._replace(difference=100_001), good._replace(days=366),
        good._replace(b=1_000_001), Strike(*[2**32 - 1] * 4),
    ):
        assert refusal(book, Open(unread, 1, wrong)) == 18
        assert refusal(book, Open(unread, 1, wrong, 1_001)) == 17
        assert refusal(book, Open(unread, 32, wrong)) == 3
        assert refusal(book, Open([3] + unread[1:], 32, wrong)) == 2
        assert refusal(book, Open(unread[:6], 32, wrong)) == 1
    assert refusal(book, Open(unread, 1, 2_000)) == 2
    assert refusal(book, Open(unread[:6] + [0], 1, good)) == 2
    assert refusal(book, Open(unread, 1, good)) == 0
    assert refusal(book, Open(unread, 2, Strike(201, 0, 0, 0), 1_001)) == 6
    book.call(Add(0, 1, BUY, -150, 500))
    book.call(Add(0, 2, SELL, 150, 500))
    book.call(Amend(4_000, 2, 151, 500))
    assert book.call(Close(0, 0)) == Accepted() and book.call(Look(1, 1, 1)).kept == 4_000
    assert refusal(book, Open(unread, 1, Strike(201, 0, 0, 0), 1_001)) == 4
    assert refusal(book, Open(EXAMPLE_ROW, 2, 2_000)) == 0  # SP and strikes in one month


def held(book):
    """All that a book holds, to be compared."""
    q = book.quoting
    return book.count, dict(book.cells), q and (vars(q) | {"events": list(q.events), "live": dict(q.live)})


def quoting_book():
    """A book with a quantum open and two orders in it."""
    book = Book()
    for at, call in enumerate([
        Open(EXAMPLE_ROW, 1, 2_000), Add(0, 1, BUY, 99, 500), Add(0, 2, SELL, 101, 400),
    ]):
        assert book.count == at and book.call(call) == Accepted()
    return book


def test_asks():
    """Document 02, W5: an ask alters nothing and answers as after the amend; 19 comes after amend's own."""
    named = 5, 1, 100, 500
    assert refusal(Book(), Ask(*named)) == refusal(Book(), Commit(*named, Ticket(*named, 1))) == 7
    book = quoting_book()
    before = held(book)
    asked = book.call(Ask(*named))
    assert asked == (100, None, Ticket(*named, 3)) and held(book) == before
    assert book.call(Ask(5, 2, 102, 500))[:2] == (99, 102)
    # Each refusal that amend has, beside a ticket that is not good.
    for wrong, due in [
        ((10_001, 9, 100, 500), 9), ((5, 9, 100, 0), 11), ((5, 1, 100, 0), 12), ((5, 1, 10**9 + 1, 1), 12),
    ]:
        bad = Ticket(*wrong, 4)
        answers = refusal(book, Amend(*wrong)), refusal(book, Ask(*wrong)), refusal(book, Commit(*wrong, bad))
        assert answers == (due, due, due), wrong
    # A ticket of which one number is not the present one.
    for at in range(5):
        for off in (1, -1):
            ticket = Ticket(*(n + off * (place == at) for place, n in enumerate(asked.ticket)))
            assert refusal(book, Commit(*named, ticket)) == 19
    assert refusal(book, Commit(*named, Ticket(*named, 3 + 2**32))) == 19
    assert refusal(book, Commit(5, 1, 100, 501, asked.ticket)) == 19 and held(book) == before
    book.call(Report()), book.call(Look(1, 1, 1)), book.call(Tick(10_001))
    assert held(book) == before


def test_commits():
    """Document 02, W5: a commit is the amend that was asked for, and every accepted call makes a ticket old."""
    book, named = quoting_book(), (5, 1, 100, 500)
    asked = book.call(Ask(*named))
    # The commit is that amend, and its own ticket is then old.
    assert book.call(Commit(*named, asked.ticket)) == Accepted() and book.count == 4
    assert book.quoting.events[-1] == Amend(*named)
    assert (book.report().bid, book.report().ask, book.report().time) == (100, None, 5)
    assert refusal(book, Commit(*named, asked.ticket)) == 19
    assert refusal(book, Ask(4, 1, 100, 500)) == refusal(book, Commit(4, 1, 1, 0, asked.ticket)) == 8
    again = book.call(Ask(*named)).ticket
    book.call(Tick(5))
    assert refusal(book, Commit(*named, again)) == 19
    # Every other accepted call counts, whichever it is, and the count goes round.
    for call in (Close(0, 0), Charge(1, 1, 1, 1, 1), Withdraw(1, 1, 1), Open(EXAMPLE_ROW, 1, Strike(0, 0, 0, 0))):
        before = book.count
        assert book.call(call) == Accepted() and book.count == before + 1
    book.count = 2**64 - 1
    book.call(Add(0, 1, BUY, 99, 500))
    assert book.count == 0 and book.call(Commit(*named, Ticket(*named, 0))) == Accepted()


def test_rows():
    """Choosing goes by the first row with expiry and quantum, whatever its other words."""
    usual = [1, 0, 9, 9, 9, 9, 9, 1, 1, 7, 7, 7, 7, 7, 1, 1, 8, 8, 8, 8, 8, 2, 2]
    holiday = [1, 1, 5, 5, 5, 5, 5]
    assert choose(usual, holiday, False, 1, 1) == usual[7:14]
    assert choose(usual, holiday, True, 1, 1) == holiday
    assert choose(usual, holiday, True, 1, 0) == usual[:7]
    assert choose(usual, holiday, True, 2, 2) == []


# ---------------------------------------------------------------- the ways of counting


def random_events(rng, book):
    """Events that the open quantum accepts, some at one time, up to t = L."""
    row = book.quoting.row
    t = 0
    for _ in range(rng.randrange(40)):
        t = min(row.length, t + rng.choice([0, 0, 1, 1, 2, rng.randrange(200)]))
        id, price = rng.randrange(8), rng.randrange(98, 103)
        volume = rng.choice([1, 2, 3, 5, 8])
        call = rng.choice([
            Add(t, id, BUY, price - 3, volume), Add(t, id, SELL, price + 3, volume),
            Add(t, id, BUY, price, volume), Add(t, id, SELL, price, volume),
            Amend(t, id, price, volume), Cancel(t, id), Deal(t, id, volume), Tick(t),
        ])
        if isinstance(call, Amend):
            check_asked(book, call)
        else:
            book.call(call)
        yield call


def check_asked(book, amend):
    """What an ask answers is what the amend then does."""
    asked, answer = book.call(Ask(*amend)), book.call(amend)
    if isinstance(answer, Refused):
        assert asked == answer, (asked, answer)
    else:
        shown = book.report()
        assert asked[:2] == (shown.bid, shown.ask) and asked.ticket == (*amend, book.count - 1)


def stretches_as_said(row, sp, events, end):
    """A millisecond m is kept if the events with t at most m leave orders that keep."""
    flags = [keeps(row, sp, live_after([e for e in events if e.t <= m])) for m in range(end)]
    starts = [m for m in range(end) if flags[m] and (m == 0 or not flags[m - 1])]
    stops = [m + 1 for m in range(end) if flags[m] and (m + 1 == end or not flags[m + 1])]
    return [(start, stop - start) for start, stop in zip(starts, stops)]


def check_account(row, sp, events, kept):
    found = account.by_milliseconds(row, sp, events, row.length)
    assert found == account.by_events(row, sp, events, row.length), (row, sp, events)
    assert [(offset, length) for offset, length, state in found.stretches if state == 0] == kept, (row, sp, events)
    assert sum(found.times) == sum(length for _, length, _ in found.stretches) == row.length, (row, sp, events)


COUNTED = 400  # cases
SAID = 40  # of them also by the paper's sentence


def test_counting():
    """Kept time, lapses and accounts in their several ways."""
    rng = random.Random(1)
    with_time = most_lapses = 0
    for case in range(COUNTED):
        row = [1, 0, 1_000 * rng.randrange(1, 4), rng.randrange(1, 6),
               rng.choice([0, 5_000, 10_000]), rng.randrange(6), 600]
        sp = rng.choice([-5, 0, 100, 100, Strike(rng.randrange(60), 1, 365, rng.randrange(3))])
        book = Book()
        limit = rng.choice([0, 1, 2, 3, NO_LIMIT])
        assert book.call(Open(row, 1, sp, limit)) == Accepted()
        for _ in random_events(rng, book):
            q = book.quoting
            assert q.live == live_after(q.events)
        quoting, row, events = book.quoting, book.quoting.row, book.quoting.events
        for end in (quoting.time, row.length):
            walked = stretches_by_milliseconds(row, sp, events, end)
            assert walked == stretches_by_events(row, sp, events, end), (row, sp, events, end)
            if case < SAID:
                assert walked == stretches_as_said(row, sp, events, end), (row, sp, events, end)
            gaps = lapses_by_stretches(walked, end)
            assert gaps == lapses_by_milliseconds(row, sp, events, end), (row, sp, events, end)
            if end == quoting.time:
                shown = book.report()
                assert (shown.kept, shown.lapses) == (kept_time(walked), gaps)
        check_account(row, sp, events, walked)
        assert book.call(Close(1, 2)) == Accepted()
        view = book.call(Look(1, 1, 0))
        assert (view.kept, view.limit, view.lapses) == (kept_time(walked), limit, gaps)
        with_time += bool(walked)
        most_lapses = max(most_lapses, gaps)
    assert most_lapses >= 3, "too few lapses in the cases"
    assert 3 * with_time >= COUNTED, "too few of the cases have kept time"


def test_quotes():
    """The best quotes are the paper's: of the prices that qualify, the greatest and the least."""
    rng = random.Random(1)
    for _ in range(2_000):
        live = {id: Order(id, rng.choice((BUY, SELL)), rng.randrange(5), rng.randrange(1, 5))
                for id in range(rng.randrange(10))}
        least = rng.randrange(1, 12)
        buys = [o for o in live.values() if o.side == BUY]
        sells = [o for o in live.values() if o.side == SELL]
        bids = [o.price for o in buys
                if sum(x.volume for x in buys if x.price >= o.price) >= least]
        asks = [o.price for o in sells
                if sum(x.volume for x in sells if x.price <= o.price) >= least]
        assert best_bid(live, least) == max(bids, default=None)
        assert best_ask(live, least) == min(asks, default=None)


def test_records():
    """Reading what was written gives the event, writing what was read gives the bytes."""
    rng = random.Random(2)
    for _ in range(2_000):
        word = lambda: rng.choice([0, 1, 2**32 - 1, rng.getrandbits(32)])
        price = rng.choice([0, -1, -(2**31), 2**31 - 1])
        event = rng.choice([
            Add(word(), word(), BUY, price, word()), Add(word(), word(), SELL, price, word()),
            Amend(word(), word(), price, word()), Cancel(word(), word()),
            Deal(word(), word(), word()), Tick(word()),
        ])
        data = records.write(event)
        assert len(data) == records.SIZE and records.read(data) == event
        damaged = bytearray(data)
        damaged[rng.randrange(20)] ^= 1 << rng.randrange(8)
        found = records.read(bytes(damaged))
        assert found is None or records.write(found) == bytes(damaged)
        assert records.read(data[: rng.randrange(20)]) is None


def test_reports():
    """A report with none open, and a replay that stops."""
    none = (
        "report open no time 0 orders 0 bid absent ask absent kept 0 lapses 0"
        " failed 0 0 0 0 0 0 fee 0\n"
    )
    twelve, eight = (12).to_bytes(4, "little"), (8).to_bytes(4, "little")
    assert programs.replay(twelve) == none
    assert programs.replay(twelve + eight + b"\1") == none + "refused 7\nstopped at word 3\n"
    assert Book().call(Report()).fee == 0
