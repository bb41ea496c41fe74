"""Seeded random lists of the month's calls, made while a book goes along."""

from recount import records
from recount.book import (
    BUY, CHARGE_LIMIT, COUNTS, PRICE_LIMIT, SELL, Add, Amend, Ask, Book, Cancel, Charge, Close, Commit,
    Deal, Drop, Look, Open, Outlook, Report, Tick, Ticket, Withdraw, widest,
)
from recount.session import HEAD
from tests.generate import (
    WORD_END, Feed, amount, any_limit, any_session, any_sp, any_strike, clamp, fill, keeping_a_step,
    long_row, programme_row, short_row, unread, wrong_limit, wrong_row_words, wrong_strike,
)


class Month:
    """A book that calls are sent to; `calls` has all of them."""

    def __init__(self, rng):
        self.rng, self.book, self.calls = rng, Book(), []

    def send(self, call):
        self.calls.append(call)
        return self.book.call(call)

    def cell(self):
        """A cell's place: mostly one of few, at times outside the month."""
        rng = self.rng
        if rng.random() < 0.06:
            return rng.choice([
                (0, 1, 1), (32, 1, 1), (1, 0, 1), (1, 3, 1), (1, 1, 3), (WORD_END - 1, 1, 1),
                (1, WORD_END - 1, 0), (1, 1, WORD_END - 1),
            ])
        filled = list(self.book.cells)
        if filled and rng.random() < 0.5:
            return rng.choice(filled)
        return rng.choice([1, 2, 15, 31]), rng.choice([1, 2]), rng.randrange(3)

    def charge(self):
        rng = self.rng
        return rng.choice([
            0, 1, 10_000, rng.randrange(100_000), rng.randrange(CHARGE_LIMIT + 1), CHARGE_LIMIT,
        ])

    def wrong_charge(self):
        return self.rng.choice([CHARGE_LIMIT + 1, 24 * WORD_END, 24 * WORD_END + 5, 2**64 - 1])

    def events(self, count, wrong):
        """Events into the open quantum, with wrong ones, reports and outlooks among them."""
        s = Feed(self.rng, self.book, count)
        s.calls = self.calls
        if count:
            s.quote()
        for _ in range(count):
            if self.rng.random() < wrong:
                s.wrong()
            else:
                s.step()
            if self.rng.random() < 0.2:
                self.send(Report())
            if self.rng.random() < 0.1:
                self.send(Outlook())
            if self.rng.random() < 0.1:
                self.ask_and_commit(s)

    def amendment(self, s):
        """An amendment of a live order, at times one that amend refuses, mostly for one cause."""
        rng, order, t = self.rng, s.some(), s.later()
        if order is None:
            return Amend(t, s.new_id(), 0, 1)
        good = Amend(t, order.id, s.price(order.side), s.enough())
        if rng.random() < 0.75:
            return good
        return rng.choice([
            good._replace(t=max(0, s.now - 1)), good._replace(t=s.row.length + 1), good._replace(id=s.new_id()),
            good._replace(volume=0), good._replace(price=PRICE_LIMIT + 1, volume=0, id=s.new_id()),
        ])

    def ask_and_commit(self, s):
        """An ask, and mostly a commit with its ticket, which may be old by then or not the right one."""
        rng, amend = self.rng, self.amendment(s)
        if rng.random() < 0.5:
            self.send(Report())
        self.send(Ask(*amend))
        ticket, how = Ticket(*amend, self.book.count), rng.randrange(8)
        if how == 0:  # what leaves the ticket good
            other = Ask(*self.amendment(s))
            wrong = rng.choice([Tick(WORD_END - 1), Open([], 0, 0)])
            self.send(rng.choice([Report(), Look(*self.cell()), Outlook(), other, wrong]))
        elif how == 1:  # what makes it old
            self.send(rng.choice([Tick(s.now), amend]))
        elif how == 2:
            amend = amend._replace(volume=amend.volume + rng.choice([1, 2]))
        elif how == 3:
            ticket = spoiled_ticket(rng, ticket)
        elif how == 4:
            return
        self.send(Commit(*amend, ticket))
        if rng.random() < 0.2:
            self.send(Commit(*amend, ticket))
        if rng.random() < 0.5:
            self.send(Report())

    def open(self, row, day):
        """By SP, or at times by a strike."""
        if self.rng.random() < 0.3:
            return self.open_strike(row, day)
        return self.send(Open(list(row), day, any_sp(self.rng), any_limit(self.rng)))

    def open_strike(self, row, day):
        row = unread(self.rng, row) if self.rng.random() < 0.5 else row
        return self.send(Open(list(row), day, any_strike(self.rng), any_limit(self.rng)))

    def wrong_strike(self):
        """An open that is refused for the strike's numbers, at times for something lower."""
        rng = self.rng
        row = list(rng.choice([short_row(rng), unread(rng, short_row(rng))]))
        words = wrong_row_words(rng) if rng.random() < 0.1 else row
        day = rng.choice([0, 32, WORD_END - 1]) if rng.random() < 0.1 else self.cell()[0]
        limit = wrong_limit(rng) if rng.random() < 0.1 else any_limit(rng)
        self.send(Open(words, day, wrong_strike(rng), limit))

    def planned(self, day, row, kept, active, passive):
        """A whole quantum with that kept time, by a row that keeps a spread of one step."""
        row = keeping_a_step(row)
        start = self.rng.randrange(row.length - kept + 1)
        self.send(Open(list(row), day, any_sp(self.rng)))
        self.send(Add(start, 1, BUY, 100, row.least))
        self.send(Add(start, 2, SELL, 101, row.least))
        self.send(Cancel(start + kept, self.rng.choice([1, 2])))
        self.send(Close(active, passive))

    def look_round(self):
        """Looks at every filled cell and some others, then a report."""
        for cell in list(self.book.cells):
            self.send(Look(*cell))
        self.send(Look(*self.cell()))
        self.send(Report())


def spoiled_ticket(rng, ticket):
    """The ticket with a number off by one, or the count's high word, or none of its numbers right."""
    how = rng.randrange(7)
    if how == 5:
        return ticket._replace(count=(ticket.count + (rng.randrange(1, 2**32) << 32)) % COUNTS)
    if how == 6:
        return Ticket(WORD_END - 1, WORD_END - 1, -1, WORD_END - 1, COUNTS - 1)
    off = -1 if ticket[how] == WORD_END - 1 or ticket[how] and rng.random() < 0.5 else 1
    return Ticket(*ticket[:how], ticket[how] + off, *ticket[how + 1 :])


def any_open(m, rng):
    """An open, right or wrong in one of its parts."""
    if rng.random() < 0.2:
        m.send(Open(wrong_row_words(rng), rng.choice([1, 32]), any_sp(rng)))
    elif rng.random() < 0.15:
        m.send(Open(list(short_row(rng)), rng.choice([0, 1, 32, WORD_END - 1]),
                    rng.choice([PRICE_LIMIT + 1, -PRICE_LIMIT - 1, 0]), wrong_limit(rng)))
    elif rng.random() < 0.1:
        m.send(Open(list(short_row(rng)), m.cell()[0], any_sp(rng), wrong_limit(rng)))
    elif rng.random() < 0.1:
        m.wrong_strike()
    elif rng.random() < 0.05:
        m.send(Open(wrong_row_words(rng), rng.choice([1, 32]), any_strike(rng), any_limit(rng)))
    else:
        row = rng.choice([short_row, short_row, long_row, programme_row])(rng)
        m.open(row, m.cell()[0])


def mixed_calls(rng):
    """Any call at any place, right or wrong."""
    m = Month(rng)
    for _ in range(rng.choice([5, 20, 60])):
        is_open = m.book.quoting is not None
        shares = [4, 8, 4, 1, 2, 2, 2, 3, 1] if is_open else [4, 1, 1, 1, 2, 2, 2, 3, 1]
        how = rng.choices(range(9), shares)[0]
        if how == 0:
            any_open(m, rng)
        elif how == 1 and is_open:
            m.events(amount(rng) // 4, 0.2)
        elif how == 1:
            m.send(rng.choice([
                Add(0, 1, BUY, 1, 1), Amend(0, 1, 1, 1), Cancel(0, 1), Deal(0, 1, 1), Tick(0),
                Ask(0, 1, 1, 1), Commit(0, 1, 1, 1, Ticket(0, 1, 1, 1, m.book.count + rng.randrange(2))),
            ]))
        elif how == 2:
            wrong = rng.random() < 0.1
            m.send(Close(m.wrong_charge() if wrong else m.charge(), m.charge()))
        elif how == 3:
            m.send(Drop())
        elif how == 4:
            wrong = rng.random() < 0.1
            m.send(Charge(*m.cell(), m.charge(), m.wrong_charge() if wrong else m.charge()))
        elif how == 5:
            m.send(Withdraw(*m.cell()))
        elif how == 6:
            m.send(Look(*m.cell()))
        elif how == 7:
            m.send(rng.choice([Report(), Outlook()]))
        else:
            m.look_round()
    m.look_round()
    return m.calls


def makers_month(rng):
    """Days of quoting on one programme's rows, opened and closed one after the other."""
    m = Month(rng)
    row = programme_row(rng)
    for day in range(1, rng.choice([2, 4, 8])):
        for quantum in rng.sample(range(3), rng.randrange(1, 4)):
            m.open(row._replace(quantum=quantum, expiry=rng.choice([1, 2])), day)
            m.events(rng.choice([0, 5, 20]), 0.05)
            m.send(Close(m.charge(), m.charge()))
        if rng.random() < 0.5:
            m.send(Report())
    m.look_round()
    return m.calls


def failures(rng):
    """A series with 14 to 17 failed cells, then corrections around the fifteenth."""
    m = Month(rng)
    row = short_row(rng)._replace(a=0, b=1)
    share = -(-row.share * row.length // 1_000)
    failed = rng.choice([14, 15, 15, 16, 16, 17])
    days = rng.sample(range(1, 32), 31)
    m.planned(days[20], row, row.length, m.charge(), m.charge())
    for day in days[:failed]:
        m.planned(day, row, rng.choice([0, share - 1]), m.charge(), m.charge())
        if rng.random() < 0.2:
            m.send(Report())
    other = row._replace(quantum=(row.quantum + 1) % 3)
    for day in days[:rng.randrange(4)]:
        m.planned(day, other, 0, m.charge(), m.charge())
    m.send(Report())
    for _ in range(rng.randrange(6)):
        day = rng.choice(days[:failed])
        m.send(Withdraw(day, row.expiry, row.quantum))
        m.send(Report())
        if rng.random() < 0.7:
            m.planned(day, row, rng.choice([share - 1, share]), m.charge(), m.charge())
            m.send(Report())
    m.look_round()
    return m.calls


def whole_month(rng):
    """Most of the 186 cells, filled in any order, with charges small or great."""
    m = Month(rng)
    cells = [(d, e, q) for d in range(1, 32) for e in (1, 2) for q in range(3)]
    rng.shuffle(cells)
    great = rng.choice([2, 1_000, 1_000_000, CHARGE_LIMIT])
    row = rng.choice([short_row, long_row])(rng)
    for day, expiry, quantum in cells[: rng.choice([20, 100, 186])]:
        this = row._replace(expiry=expiry, quantum=quantum, share=rng.choice([600, 700, 750, 725, 1, 799]))
        low = -(-this.share * this.length // 1_000)
        kept = rng.randrange(low, this.length + 1) if rng.random() < 0.9 else rng.randrange(low)
        m.planned(day, this, kept, rng.randrange(great + 1), rng.randrange(great + 1))
        if rng.random() < 0.05:
            m.send(Report())
    m.look_round()
    return m.calls


def fee_limits(rng):
    """Fees at and beside the cap, and charges at their limits."""
    m = Month(rng)
    row = short_row(rng)
    if rng.random() < 0.5:
        # (2A + 3P) x 20,000 / 80,000 is the cap at 2A + 3P = 480,000,000.
        active, passive = rng.choice([
            (240_000_000, 0), (0, 160_000_000), (239_999_998, 1), (240_000_001, 0),
            (0, 159_999_999), (120_000_000, 80_000_000),
        ])
        m.planned(1, row, row.length, active, passive)
    for day in range(2, rng.randrange(3, 6)):
        m.planned(day, row, row.length, m.charge(), m.charge())
        m.send(Report())
    m.send(Charge(1, row.expiry, row.quantum, CHARGE_LIMIT, CHARGE_LIMIT))
    m.send(Report())
    m.send(Charge(1, row.expiry, row.quantum, CHARGE_LIMIT + 1, 0))
    m.send(Charge(1, row.expiry, row.quantum, rng.choice([0, 1]), m.wrong_charge()))
    m.look_round()
    return m.calls


def crowded(rng):
    """64 live orders in a month's quantum, and one too many, with reports."""
    m = Month(rng)
    row = short_row(rng)._replace(least=rng.choice([60, 500]))
    m.open(row, 1)
    s = Feed(rng, m.book, 150)
    s.calls = m.calls
    fill(s)
    s.send(Add(s.now, s.new_id(), BUY, 1, 1))
    s.send(Report())
    for _ in range(rng.randrange(60)):
        order = s.some()
        s.send(Amend(s.later(), order.id, s.band_price(order.side), s.part()))
        if rng.random() < 0.3:
            s.step()
        if rng.random() < 0.3:
            s.send(Report())
    order = s.some()
    s.send(Deal(s.now, order.id, order.volume))
    s.send(Add(s.now, order.id, order.side, order.price, order.volume))
    s.send(Add(s.now, order.id, order.side, order.price, order.volume))
    m.send(Report())
    m.send(Close(m.charge(), m.charge()))
    m.look_round()
    return m.calls


def lapsing(rng):
    """Quanta of one row that break off and on, with as many lapses as the limit, one less or more."""
    m = Month(rng)
    row = short_row(rng)._replace(length=rng.choice([20_000, 31_500_000]))
    for day in range(1, rng.randrange(3, 8)):
        limit = any_limit(rng)
        due = min(max(0, limit + rng.choice([-1, 0, 1])), rng.choice([7, 40]))
        at_start, at_end = rng.random() < 0.5, rng.random() < 0.5
        m.send(Open(list(row), day, any_sp(rng), limit))
        t = rng.randrange(1, 20) if at_start and due else 0
        m.send(Add(t, 1, BUY, 100, row.least))
        m.send(Add(t, 2, SELL, 100, row.least))
        for _ in range(max(0, due - (at_start and due > 0) - (at_end and due > 1))):
            t += rng.randrange(1, 20)
            m.send(Amend(t, 2, 100_000_000, row.least))
            t += rng.randrange(1, 20)
            m.send(Amend(t, 2, 100, row.least))
            if rng.random() < 0.2:
                m.send(Report())
        if at_end and due > 1:
            m.send(Cancel(rng.randrange(row.length * 4 // 5, row.length), 2))
        m.send(Report())
        m.send(Close(m.charge(), m.charge()))
        m.send(Report())
    m.look_round()
    return m.calls


def resting(rng):
    """Quanta quoted on and off, with an outlook at every turn: few lapses allowed, the share at its edge,
    at times a spread limit below 1, and a few milliseconds left at the end."""
    m = Month(rng)
    for day in range(1, rng.randrange(3, 7)):
        row = keeping_a_step(rng.choice([short_row, short_row, long_row])(rng))
        if rng.random() < 0.15:
            row = row._replace(a=0, b=0)
        m.send(Open(list(row), day, any_sp(rng), rng.choice([1, 2, any_limit(rng)])))
        share, t = -(-row.share * row.length // 1_000), rng.choice([0, 0, 0, row.length // 5])
        m.send(Outlook())
        m.send(Add(t, 1, BUY, 100, row.least))
        m.send(Add(t, 2, SELL, 101, row.least))
        for price in [100_000_000, 101] * rng.randrange(4):
            m.send(Outlook())
            t += rng.choice([1, 10, row.length // 10, share, share - 1, row.length - share])
            if t >= row.length:
                break
            m.send(Amend(t, 2, price, row.least))
        last = max(m.book.quoting.time, rng.choice([row.length - share, row.length - share + 1, share]))
        for t in sorted({last, max(last, row.length - rng.randrange(9)), row.length}):
            m.send(Tick(t))
            m.send(Outlook())
        m.send(Close(m.charge(), m.charge()))
    m.look_round()
    return m.calls


def strike_month(rng):
    """A strike's meter: quotes as wide as the limit, a step less and a step more."""
    m = Month(rng)
    row = rng.choice([short_row, long_row])(rng)
    for day in range(1, rng.randrange(2, 6)):
        if rng.random() < 0.4:
            m.wrong_strike()
        m.open_strike(row, day)
        wide = widest(row, m.book.quoting.sp)
        price, t = rng.randrange(-5_000, 5_000), 0
        m.send(Add(t, 1, BUY, price, row.least))
        m.send(Add(t, 2, SELL, price + wide, row.least))
        for _ in range(rng.randrange(1, 8)):
            t = min(row.length, t + rng.choice([1, 10, rng.randrange(row.length // 4)]))
            gap = clamp(wide + rng.choice([-1, 0, 0, 1]), -5, 2_000_001)
            m.send(Amend(t, 2, price + gap, row.least))
            if rng.random() < 0.5:
                m.send(Report())
        m.events(rng.choice([0, 5]), 0.1)
        m.send(Close(m.charge(), m.charge()))
    m.look_round()
    return m.calls


def asking(rng):
    """Quanta in which most amendments are asked for first."""
    m = Month(rng)
    for day in range(1, rng.randrange(2, 5)):
        m.open(rng.choice([short_row, long_row, programme_row])(rng), day)
        s = Feed(rng, m.book, 40)
        s.calls = m.calls
        s.quote()
        for _ in range(rng.randrange(2, 12)):
            s.step()
            m.ask_and_commit(s)
        m.send(rng.choice([Close(m.charge(), m.charge()), Drop()]))
    m.look_round()
    return m.calls


def reported_session(rng):
    """Any of the sessions as a month's calls, with reports among its events: the quotes show."""
    _, head, data = any_session(rng)
    while len(head) < HEAD.size:
        _, head, data = any_session(rng)
    *words, sp = HEAD.unpack(head)
    calls = [Open(words, rng.randrange(1, 32), sp, any_limit(rng))]
    for event in filter(None, map(records.read, records.split(data[:2_000]))):
        calls.append(event)
        if rng.random() < 0.4:
            calls.append(Report())
    calls += [Report(), Close(rng.randrange(1_000), rng.randrange(1_000))]
    return calls + [Look(calls[0].day, words[0], words[1]), Report()]


CALLS = [
    (mixed_calls, 8), (reported_session, 8), (makers_month, 3), (failures, 2), (whole_month, 1),
    (fee_limits, 2), (crowded, 2), (lapsing, 3), (strike_month, 4), (asking, 4),
    (resting, 4),
]


def any_calls(rng):
    """A generator's name and a list of calls."""
    generators, shares = zip(*CALLS)
    generator = rng.choices(generators, shares)[0]
    return generator.__name__, generator(rng)
