"""Sessions and lists of calls that are made on purpose and not at random."""

from recount import records
from recount.book import (
    BUY, CHARGE_LIMIT, COUNTS, MOST_LAPSES, NO_LIMIT, PRICE_LIMIT, SELL, VOLUME_LIMIT, Add, Amend, Ask,
    Cancel, Charge, Close, Commit, Deal, Drop, Look, Open, Outlook, Report, Row, Strike, Tick, Ticket,
    Withdraw, widest,
)
from tests.generate import LONGEST, STRIKE_LIMITS, WORD_END, session

# ---------------------------------------------------------------- sessions


def many_records(count):
    """A session of exactly `count` records, its pairs as many as they can give."""
    row = Row(1, 1, 20_000, 10, 100, 5, 600)
    events = [Add(0, 1, BUY, 100, 10)]
    for at in range(count - 1):
        events.append(Add(at, 2, SELL, 101, 10) if at % 2 == 0 else Cancel(at, 2))
    return session(row, 2_000, events)


def many_stretches(count):
    """A session of `count` records that has one stretch of one state more, the most that they can give."""
    row = Row(1, 1, 20_000, 10, 100, 5, 600)
    events = [Add(1, 1, BUY, 100, 10)]
    for at in range(2, count + 1):
        events.append(Add(at, 2, SELL, 101, 10) if at % 2 == 0 else Cancel(at, 2))
    return session(row, 2_000, events)


def refusals():
    """A session for each refusal number that one can have: 1, 2, 3 and 8 to 15."""
    row, first = Row(1, 1, 10_000, 500, 100, 1, 600), Add(5, 1, BUY, 100, 500)
    full = [first] + [Add(5, id, BUY, 100, 500) for id in range(2, 65)]
    yield session(row, 2_000, [])[0][:31], b""
    yield session(row._replace(share=800), 2_000, [first])
    yield session(row, PRICE_LIMIT + 1, [first])
    for events in [
        [first, Tick(4)],
        [first, Tick(10_001)],
        [first, first],
        [first, Cancel(5, 2)],
        [first, Amend(5, 1, 100, 0)],
        full + [Add(5, 65, BUY, 100, 500)],
        [first, Deal(5, 1, 501)],
    ]:
        yield session(row, 2_000, events + [Tick(6)])
    head, data = session(row, 2_000, [first, Tick(6)])
    yield head, data[:-1]


MAIN_ROW = Row(1, 1, 31_500_000, 500, 100, 1, 600)  # of the paper's checks
PAPER_KEPT = [18_899_999, 18_900_000, 22_050_000, 25_199_999, 25_200_000]  # C6 to C10


def paper_sessions():
    """C4 to C10 as sessions, a locked and a crossed quote, and a long quantum kept for most of its time."""
    spreads = (2_000, 2), (2_000, 3), (1_999, 2), (1_999, 1), (-5, 1), (-5, 2), (2_000, 0), (2_000, -1)
    for sp, gap in spreads:
        yield session(MAIN_ROW, sp, [Add(0, 1, BUY, 99, 500), Add(0, 2, SELL, 99 + gap, 500)])
    for kept in PAPER_KEPT:
        yield session(MAIN_ROW, 2_000, kept_events(0, kept))
    yield session(MAIN_ROW._replace(length=LONGEST), 2_000, kept_events(5_000_000, 70_000_000))


def kept_events(start, stop):
    """Events that keep from one time to another."""
    return [Add(start, 1, BUY, 99, 500), Add(start, 2, SELL, 100, 500), Cancel(stop, 1)]


# The last value inside and the first outside at each end of a row's words.
ROW_EDGES = [
    (0, 1, 2, 3),
    (0, 2, 3),
    (0, 999, 1_000, 1_001, LONGEST - 1, LONGEST, LONGEST + 1, LONGEST + 1_000),
    (0, 1, 100_000, 100_001),
    (0, 100_000, 100_001),
    (0, 1_000_000, 1_000_001),
    (0, 1, 725, 799, 800),
]
PRICE_EDGES = [sign * (PRICE_LIMIT + past) for sign in (1, -1) for past in (0, 1)]
VOLUME_EDGES = [0, 1, VOLUME_LIMIT, VOLUME_LIMIT + 1]


def edge_rows():
    good = Row(1, 1, 10_000, 500, 100, 1, 600)
    for at, values in enumerate(ROW_EDGES):
        for value in values:
            yield [*good[:at], value, *good[at + 1 :]]


def edges():
    """A session for each end of each range, inside and outside, and each byte that must be zero."""
    row = Row(1, 1, 10_000, 1, 100, 1, 600)
    first = [Add(0, 1, BUY, 100, VOLUME_LIMIT), Add(0, 2, SELL, 101, 1)]
    for words in edge_rows():
        yield session(words, 2_000, [])
    for price in PRICE_EDGES:
        yield session(row, price, first)
        yield session(row, 2_000, first + [Add(5, 3, BUY, price, 1)])
        yield session(row, 2_000, first + [Amend(5, 2, price, 1)])
    for volume in VOLUME_EDGES:
        yield session(row, 2_000, first + [Add(5, 3, BUY, 100, volume)])
        yield session(row, 2_000, first + [Amend(5, 2, 101, volume)])
        yield session(row, 2_000, first + [Deal(5, 1, volume)])
    for t in (9_999, 10_000, 10_001, WORD_END - 1):
        yield session(row, 2_000, first + [Cancel(t, 2)])
    for event in (Add(5, 3, BUY, 1, 1), Add(5, 3, SELL, 1, 1), Amend(5, 1, 1, 1), Cancel(5, 1),
                  Deal(5, 1, 1), Tick(5)):
        for at in range(1, records.SIZE):
            record = bytearray(records.write(event))
            record[at] ^= 128
            if records.read(record) is None:
                head, data = session(row, 2_000, first)
                yield head, data + record


def sessions():
    """All of them but the long ones, as leading bytes and records."""
    return [*paper_sessions(), *refusals(), *edges()]


# ---------------------------------------------------------------- lists of calls


def paper_calls():
    """C1 to C3, C6 to C12, then 15 and 16 failed cells in a series, and 15 again."""
    calls = [
        Open(list(MAIN_ROW), 1, 2_000), Add(0, 1, BUY, 100, 300), Add(0, 2, BUY, 99, 200), Report(),
        Add(0, 3, BUY, 98, 400), Report(), Cancel(0, 1), Report(), Drop(),
    ]
    for day, kept in enumerate(PAPER_KEPT, start=1):
        calls += [Open(list(MAIN_ROW), day, 2_000), *kept_events(0, kept), Close(10_000, 20_000)]
        calls += [Look(day, 1, 1), Report()]
    calls += [Withdraw(day, 1, 1) for day in (1, 2, 4)] + [Report(), Withdraw(3, 1, 1)]
    calls += [Charge(5, 1, 1, 10**9, 10**9), Report(), Charge(5, 1, 1, 1, 1)]
    for day in range(6, 22):
        calls += [Open(list(MAIN_ROW), day, 2_000), *kept_events(0, 18_899_999), Close(1, 1)]
        calls += [Report()]
    return calls + [Withdraw(6, 1, 1), Report(), Charge(5, 1, 1, 10_000, 20_000), Report()]


CELLS = [(day, expiry, quantum) for day in range(1, 32) for expiry in (1, 2) for quantum in range(3)]


def greatest_charges():
    """Document 02, W8: all 186 cells met, with the greatest charges; then one kopeck more, and less than the cap again."""
    calls = []
    for day, expiry, quantum in CELLS:
        row = list(Row(expiry, quantum, 1_000, 1, 0, 1, 1))
        calls += [Open(row, day, 0), Add(0, 1, BUY, 100, 1), Add(0, 2, SELL, 101, 1), Close(CHARGE_LIMIT, CHARGE_LIMIT)]
    calls += [Report(), Charge(31, 2, 2, CHARGE_LIMIT + 1, 0), Charge(31, 2, 2, 0, CHARGE_LIMIT + 1), Look(31, 2, 2)]
    calls += [Charge(*cell, 0, 0) for cell in CELLS[1:]] + [Report()]
    return calls + [Charge(*CELLS[0], 240_000_000, 0), Report(), Charge(*CELLS[0], 239_999_999, 0), Report()]


def every_refusal():
    """A list of calls that meets each number from 1 to 14 and 17, mostly with higher causes beside it."""
    row, id = list(Row(1, 1, 10_000, 500, 100, 1, 600)), 65
    calls = [
        Open(row[:6], 32, 0), Open(row[:6] + [800], 32, 0), Open(row, 32, 0), Open(row, 0, 0),
        Open(row, 1, PRICE_LIMIT + 1), Open(row, 1, -PRICE_LIMIT - 1, 1_001), Open(row, 1, 0, 1_001),
        Close(CHARGE_LIMIT + 1, 0), Close(0, CHARGE_LIMIT + 1), Close(0, 0), Drop(), Tick(0),
        Look(1, 1, 1), Charge(1, 1, 1, 0, 0), Withdraw(1, 1, 1), Look(0, 1, 1), Look(1, 3, 1),
        Withdraw(1, 1, 3), Charge(1, 1, 1, CHARGE_LIMIT + 1, 0),
        Open(row, 1, 2_000), Open(row, 2, 2_000, 1_001), Open(row[:6], 2, 2_000, 1_001),
    ]
    calls += [Add(5, n, BUY, 100, 500) for n in range(1, 65)]
    calls += [
        Tick(4), Tick(10_001), Add(4, 1, BUY, 100, 0), Add(10_001, 1, BUY, 100, 0),
        Add(5, 1, BUY, 100, 0), Amend(5, id, 100, 0), Cancel(5, id), Deal(5, id, 0),
        Add(5, id, BUY, 100, 0), Add(5, id, BUY, PRICE_LIMIT + 1, 1), Add(5, id, BUY, 100, 1),
        Deal(5, 1, 501), Deal(5, 1, VOLUME_LIMIT + 1), Report(), Deal(5, 1, 500), Report(),
        Close(0, 0), Open(row, 1, 2_000, 1_001), Open(row, 32, 2_000, 1_001), Look(1, 1, 1), Report(),
    ]
    return calls


def edge_calls():
    """Each end of each range that a month's call has, inside and outside."""
    row = list(Row(1, 1, 10_000, 1, 100, 1, 600))
    calls = []
    for words in edge_rows():
        calls += [Open(words, 31, 0), Drop()]
    for day in (0, 1, 31, 32):
        calls += [Open(row, day, 0), Drop()]
    for sp in PRICE_EDGES:
        calls += [Open(row, 1, sp), Drop()]
    for limit in (
        0, 1, MOST_LAPSES, MOST_LAPSES + 1, NO_LIMIT - 1, NO_LIMIT, NO_LIMIT + 1, WORD_END - 1,
    ):
        calls += [Open(row, 1, 0, limit), Drop()]
    for charge in (0, 10**9, 10**9 + 1, WORD_END, CHARGE_LIMIT, CHARGE_LIMIT + 1, 24 * WORD_END, 2**64 - 1):
        for charges in ((charge, 0), (0, charge)):
            calls += [Open(row, 1, 2_000), Close(*charges), Look(1, 1, 1), Withdraw(1, 1, 1)]
            calls += [Drop()]
            calls += [Open(row, 2, 2_000), Close(1, 1), Charge(2, 1, 1, *charges), Look(2, 1, 1)]
    for day in (0, 1, 31, 32, WORD_END - 1):
        calls += [kind(day, 1, 1) for kind in (Withdraw, Look)] + [Charge(day, 1, 1, 1, 1)]
    for expiry in (0, 1, 2, 3, WORD_END - 1):
        calls += [kind(1, expiry, 1) for kind in (Withdraw, Look)] + [Charge(1, expiry, 1, 1, 1)]
    for quantum in (0, 2, 3, WORD_END - 1):
        calls += [kind(1, 1, quantum) for kind in (Withdraw, Look)] + [Charge(1, 1, quantum, 1, 1)]
    calls += [Open(row, 1, 2_000), Add(0, 1, BUY, 100, VOLUME_LIMIT), Add(0, 2, SELL, 101, 1)]
    for at, price in enumerate(PRICE_EDGES):
        calls += [Add(5, 10 + at, BUY, price, 1), Report(), Amend(5, 2, price, 1), Report()]
    for at, volume in enumerate(VOLUME_EDGES):
        calls += [Add(6, 20 + at, SELL, 100, volume), Amend(6, 2, 100, volume), Report()]
        calls += [Deal(6, 1, volume)]
    calls += [Tick(t) for t in (10_000, 9_999, 10_001, WORD_END - 1)]
    return calls + [Report(), Close(CHARGE_LIMIT, CHARGE_LIMIT), Look(1, 1, 1), Report()]


def lapse_calls():
    """Quanta with 0, 1, 2, 3, 1,000 and 1,001 lapses, at their start and end among them, by limits."""
    row, calls = list(Row(1, 1, 86_400_000, 500, 100, 1, 600)), []
    for day, (limit, count, from_start) in enumerate([
        (0, 0, False), (0, 1, True), (1, 1, True), (0, 1, False), (2, 2, True), (2, 3, True),
        (MOST_LAPSES, 1_000, False), (MOST_LAPSES, 1_001, True), (NO_LIMIT, 1_001, False),
    ], start=1):
        t = 10 if from_start else 0
        calls += [Open(row, day, 2_000, limit), Report(), Add(t, 1, BUY, 100, 500)]
        calls += [Add(t, 2, SELL, 101, 500), Report()]
        to_end = count == 3
        for _ in range(count - from_start - to_end):
            calls += [Amend(t + 10, 2, 200, 500), Amend(t + 15, 2, 101, 500)]
            t += 15
        if to_end:
            calls += [Cancel(86_399_990, 2)]
        calls += [Report(), Close(10, 10), Look(day, 1, 1), Charge(day, 1, 1, 1, 1)]
        calls += [Look(day, 1, 1), Report()]
    return calls


def outlook_calls():
    """Quanta of 10,000 ms with a share of 60%, each by its lapse limit, from when to when it is quoted, and
    when the maker asks whether he may rest; the last one has a spread limit below 1."""
    row, calls = Row(1, 1, 10_000, 500, 0, 1, 600), [Outlook()]
    for day, (limit, start, stop, times) in enumerate([
        (0, 0, 10_000, (0, 5_999, 6_000, 6_001, 9_995, 10_000)),
        (1, 0, 6_001, (6_000, 6_001, 6_500, 9_999, 10_000)),
        (0, 0, 6_000, (6_000, 6_001)),
        (2, 1, 5_000, (1, 5_000, 8_999, 9_000, 9_001)),
        (NO_LIMIT, 4_000, 10_000, (2_000, 2_001, 4_000, 9_999)),
        (NO_LIMIT, 4_001, 10_000, (4_000, 4_001, 4_002, 10_000)),
        (NO_LIMIT, 0, 10_000, (6_999, 7_000, 7_999, 8_000)),
        (MOST_LAPSES, 500, 9_000, (499, 500, 6_500, 9_500)),
        (NO_LIMIT, 0, 10_000, (0, 4_000, 10_000)),
    ], start=1):
        words = row._replace(b=0) if day == 9 else row
        calls += [Open(list(words), day, 2_000, limit), Outlook()]
        events = [*kept_events(start, stop), *map(Tick, times)]
        for event in sorted(events, key=lambda event: event.t):
            calls += [event, Outlook()]
        calls += [Close(10, 10), Outlook(), Look(day, 1, 1)]
    return calls


SHARES = (1, 599, 600, 700, 725, 750, 798, 799)


def share_calls():
    """Shares in tenths of a percent: K one below, at and above what each asks, and at the full weight."""
    calls, cells = [Open([1, 1, 10_000, 500, 100, 1, 800], 1, 2_000)], []
    for at, share in enumerate(SHARES):
        for by, kept in enumerate((10 * share - 1, 10 * share, 10 * share + 1, 7_999, 8_000)):
            cells.append((1 + (5 * at + by) % 31, 1 + (5 * at + by) // 31, 0, share, kept))
    for day, expiry, quantum, share, kept in cells:
        calls += [Open([expiry, quantum, 10_000, 500, 100, 1, share], day, 2_000), *kept_events(0, kept)]
        calls += [Close(10_000, 20_000), Look(day, expiry, quantum)]
    return calls + [Report()]


STRIKE_ROW = Row(1, 1, 10_000, 500, WORD_END - 1, WORD_END - 1, 600)  # a and b unread

STRIKES = [
    Strike(75, 40, 365, 0), Strike(75, 41, 365, 0), Strike(75, 60, 30, 45), Strike(75, 60, 2, 45),
    Strike(5, 1, 365, 0), Strike(15, 1, 365, 0), Strike(4, 1, 365, 0), Strike(14, 1, 365, 0),
    Strike(15, 1, 365, 1), Strike(15, 1, 365, 2), Strike(15, 1, 365, 3), Strike(10, 1, 91, 0),
    Strike(10, 1, 92, 0), Strike(0, 100_000, 365, 0), Strike(0, 100_000, 365, 7), Strike(200, 0, 365, 0),
    Strike(200, 0, 365, 7), Strike(200, 100_000, 0, 0), Strike(200, 100_000, 0, 7), STRIKE_LIMITS,
    STRIKE_LIMITS._replace(b=0), STRIKE_LIMITS._replace(days=1, b=0), STRIKE_LIMITS._replace(days=364, b=0),
    STRIKE_LIMITS._replace(a=0), Strike(0, 0, 0, 0), Strike(195, 99_999, 365, 0), Strike(1, 1, 1, 1),
]


def spread_calls(strike, day=1):
    """A strike's quantum that is ten milliseconds at its limit, ten a step past it, ten a step less."""
    wide = widest(STRIKE_ROW, strike)
    yield Open(list(STRIKE_ROW), day, strike)
    yield from [Add(0, 1, BUY, -500, 500), Add(0, 2, SELL, wide - 500, 500), Tick(10), Report()]
    yield from [Amend(10, 2, wide - 499, 500), Tick(20), Report()]
    yield from [Amend(20, 2, wide - 501, 500), Tick(30), Report(), Drop()]


def strike_calls():
    """Limits where the rounding or b decides, each end of each number's range, and each refusal beside 18."""
    calls, row = [], list(STRIKE_ROW)
    for strike in STRIKES:
        calls += spread_calls(strike)
    for at, most in enumerate(STRIKE_LIMITS):
        for value in (0, most, most + 1, WORD_END - 1):
            calls += [Open(row, 1, Strike(*STRIKES[0][:at], value, *STRIKES[0][at + 1 :])), Drop()]
    good, wrong = STRIKES[0], Strike(201, 100_001, 366, 1_000_001)
    for words in edge_rows():
        calls += [Open(words, 31, good), Drop(), Open(words, 31, wrong)]
    calls += [Open(row, 1, 2_000), Open(row[:6], 1, good), Open(row + [1], 1, good)]
    calls += [Open(row[:6], 32, wrong, 1_001), Open([3] + row[1:], 32, wrong, 1_001)]
    calls += [Open(row, 32, wrong, 1_001), Open(row, 0, good), Open(row, 1, wrong, 1_001)]
    calls += [Open(row, 1, good), Open(row, 2, wrong, 1_001), Report(), *kept_events(0, 9_000)]
    calls += [Close(5, 5), Open(row, 1, wrong, 1_001), Open(row, 1, good), Look(1, 1, 1)]
    calls += [Open(list(MAIN_ROW), 2, 2_000, 0), *kept_events(5, 9_000), Close(7, 7), Look(2, 1, 1)]
    return calls + [Report()]


def ask_calls():
    """Asks and commits: tickets that are good, old, of another amendment or off by one, and amend's own
    refusals beside them. The counts are written as they are due."""
    row, named = list(Row(1, 1, 10_000, 500, 100, 1, 600)), (5, 1, 100, 500)
    ticket = lambda count: Ticket(*named, count)
    calls = [Ask(*named), Commit(*named, ticket(0)), Commit(*named, ticket(1)), Report()]
    calls += [Open(row, 1, 2_000), Add(0, 1, BUY, 99, 500), Add(0, 2, SELL, 101, 500), Report()]  # 3 accepted
    calls += [Ask(*named), Ask(5, 2, -5, 500), Ask(5, 1, 99, 499), Ask(5, 2, 101, VOLUME_LIMIT), Report()]
    calls += [Look(1, 1, 1), Tick(10_001), Commit(*named, ticket(3)), Report()]  # nothing of that counts: 4
    calls += [Commit(*named, ticket(3)), Ask(*named), Tick(5), Commit(*named, ticket(4))]  # 5, and old
    good = ticket(5)
    for at in range(5):
        for off in (1, -1):
            calls += [Commit(*named, Ticket(*good[:at], good[at] + off, *good[at + 1 :]))]
    for count in (5 + 2**32, 5 + (2**32 - 1 << 32), COUNTS - 5, COUNTS - 1, 2**32, 0):
        calls += [Commit(*named, ticket(count))]
    for at, value in enumerate((6, 2, 99, 501)):
        calls += [Commit(*named[:at], value, *named[at + 1 :], good), Ask(*named[:at], value, *named[at + 1 :])]
    for wrong in (
        (4, 1, 100, 500), (10_001, 1, 100, 500), (5, 9, 100, 500), (5, 1, PRICE_LIMIT + 1, 500),
        (5, 1, 100, 0), (4, 9, 100, 0), (10_001, 9, -PRICE_LIMIT - 1, 0), (5, 9, 100, VOLUME_LIMIT + 1),
    ):
        calls += [Ask(*wrong), Commit(*wrong, Ticket(*wrong, 5)), Commit(*wrong, Ticket(*wrong, 6))]
    calls += [Commit(*named, good), Report(), Cancel(6, 1), Ask(*named), Ask(6, 1, 100, 500)]  # 6, 7
    calls += [Ask(6, 2, -PRICE_LIMIT, 500), Commit(6, 2, -PRICE_LIMIT, 500, Ticket(6, 2, -PRICE_LIMIT, 500, 7))]
    calls += [Report(), Ask(10_000, 2, 1, 1), Close(1, 1), Ask(*named), Commit(*named, ticket(9))]  # 9
    calls += [Charge(1, 1, 1, 2, 2), Withdraw(1, 1, 1), Open(row, 1, 2_000), Drop(), Open(row, 1, STRIKES[0])]
    calls += [Add(5, 1, SELL, 7, 700), Commit(*named, ticket(14)), Commit(*named, ticket(15)), Report()]
    return calls + [Close(1, 1), Look(1, 1, 1)]
