"""The plain book of document 01 and of document 02, W1, W2, W4, W5, W6 and W11, written from the papers:
calls, refusals, quotes, kept time, lapses, pay; and the outlook, which is no call of theirs.

Open takes SP, or a strike in its place (W4): wherever `sp` is, a Strike may be.

Nothing is carried that the paper does not carry. Quotes, kept time, verdicts, weights, failure
counts and fee are worked out from the book each time they are asked for.
"""

from collections import namedtuple

from recount import fix
from recount.outlook import Ahead, Judged, OutlookView, Pairs, outlook
from recount.strikes import Strike, strike_fits, strike_limit

BUY, SELL = 1, 2

# ---------------------------------------------------------------- units and ranges

PRICE_LIMIT = 1_000_000_000  # either way; SP has the same range
VOLUME_LIMIT = 1_000_000
CHARGE_LIMIT = 100_000_000_000
DAYS, EXPIRIES, QUANTA = range(1, 32), range(1, 3), range(0, 3)
LIVE_LIMIT = 64
MOST_LAPSES = 1_000  # the greatest lapse limit
NO_LIMIT = 65_535  # says that there is none

# A quantum up to this long is counted millisecond by millisecond, a longer one by stretches.
SHORT = 20_000


def price_fits(price):
    return -PRICE_LIMIT <= price <= PRICE_LIMIT


def volume_fits(volume):
    return 1 <= volume <= VOLUME_LIMIT


def charge_fits(charge):
    return 0 <= charge <= CHARGE_LIMIT


def cell_fits(day, expiry, quantum):
    return day in DAYS and expiry in EXPIRIES and quantum in QUANTA


def limit_fits(limit):
    return 0 <= limit <= MOST_LAPSES or limit == NO_LIMIT


# ---------------------------------------------------------------- a row

Row = namedtuple("Row", "expiry quantum length least a b share")


def row_fits(row):
    return (
        row.expiry in EXPIRIES
        and row.quantum in QUANTA
        and row.length % 1_000 == 0
        and 1_000 <= row.length <= 86_400_000
        and 1 <= row.least <= 100_000
        and 0 <= row.a <= 100_000
        and 0 <= row.b <= 1_000_000
        and 1 <= row.share <= 799
    )


def choose(usual, holiday, is_holiday, expiry, quantum):
    """The words of the row that a day goes by, from two tables of words; none: an empty list."""
    for table in (holiday, usual) if is_holiday else (usual,):
        for start in range(0, len(table) - 6, 7):
            if table[start] == expiry and table[start + 1] == quantum:
                return list(table[start : start + 7])
    return []


# ---------------------------------------------------------------- calls and answers

Open = namedtuple("Open", "words day sp limit", defaults=[NO_LIMIT])
Add = namedtuple("Add", "t id side price volume")
Amend = namedtuple("Amend", "t id price volume")
Cancel = namedtuple("Cancel", "t id")
Deal = namedtuple("Deal", "t id volume")
Tick = namedtuple("Tick", "t")
Close = namedtuple("Close", "active passive")
Drop = namedtuple("Drop", "")
Charge = namedtuple("Charge", "day expiry quantum active passive")
Withdraw = namedtuple("Withdraw", "day expiry quantum")
Look = namedtuple("Look", "day expiry quantum")
Report = namedtuple("Report", "")
Outlook = namedtuple("Outlook", "")  # no call of the papers: may the maker rest?
Ask = namedtuple("Ask", "t id price volume")
Commit = namedtuple("Commit", "t id price volume ticket")
Message = namedtuple("Message", "start bytes")  # the quantum's start, given with the message

EVENTS = (Add, Amend, Cancel, Deal, Tick)
UNCOUNTED = (Ask, Look, Report, Outlook)  # they alter nothing

# An amendment and the book's count when it was asked for.
Ticket = namedtuple("Ticket", "t id price volume count")
COUNTS = 2**64

Accepted = namedtuple("Accepted", "")
Refused = namedtuple("Refused", "number")
CellView = namedtuple("CellView", "kept length share limit lapses active passive met weight")
ReportView = namedtuple("ReportView", "is_open time orders bid ask kept lapses failed fee")
Asked = namedtuple("Asked", "bid ask ticket")

# ---------------------------------------------------------------- live orders and best quotes

Order = namedtuple("Order", "id side price volume")


def pass_event(live, event):
    """One step of going through the accepted events: `live` maps each live id to its order."""
    kind = type(event)
    if kind is Add:
        live[event.id] = Order(event.id, event.side, event.price, event.volume)
    elif kind is Amend:
        old = live[event.id]
        live[event.id] = Order(old.id, old.side, event.price, event.volume)
    elif kind is Cancel:
        del live[event.id]
    elif kind is Deal:
        old = live[event.id]
        if old.volume > event.volume:
            live[event.id] = Order(old.id, old.side, old.price, old.volume - event.volume)
        else:
            del live[event.id]


def live_after(events):
    """The orders left by going through the events from the first one."""
    live = {}
    for event in events:
        pass_event(live, event)
    return live


def best_bid(live, least):
    """The greatest price of a buy order at which, or higher, the buys hold `least` or more."""
    buys = [order for order in live.values() if order.side == BUY]
    for price in sorted({order.price for order in buys}, reverse=True):
        if sum(order.volume for order in buys if order.price >= price) >= least:
            return price
    return None


def best_ask(live, least):
    """The least price of a sell order at which, or lower, the sells hold `least` or more."""
    sells = [order for order in live.values() if order.side == SELL]
    for price in sorted({order.price for order in sells}):
        if sum(order.volume for order in sells if order.price <= price) >= least:
            return price
    return None


def narrow(row, sp, gap):
    """The spread is at most a share of SP or a number of steps, or a strike's limit."""
    if isinstance(sp, Strike):
        return gap <= strike_limit(sp)
    return gap * 100_000 <= row.a * sp or gap <= row.b


def within(row, sp, bid, ask):
    """Both quotes exist, and the spread is 1 or more and not too wide."""
    if bid is None or ask is None:
        return False
    gap = ask - bid
    return gap >= 1 and narrow(row, sp, gap)


def widest(row, sp):
    """The greatest spread that is within, as one number, 0 where none is; the rest goes by `within`."""
    if isinstance(sp, Strike):
        return strike_limit(sp)
    return max(row.b, row.a * max(sp, 0) // 100_000)


def keeps(row, sp, live):
    return within(row, sp, best_bid(live, row.least), best_ask(live, row.least))


# ---------------------------------------------------------------- kept time

# Kept stretches are pairs (offset, length), sorted, each as long as it can be.


def by_milliseconds(events, end, look):
    """Each millisecond below `end`, with what `look` says of the orders that are live in it."""
    live, passed, looked, now = {}, 0, -1, None
    for m in range(end):
        while passed < len(events) and events[passed].t <= m:
            pass_event(live, events[passed])
            passed += 1
        if looked != passed:  # the same orders give the same answer
            now, looked = look(live), passed
        yield m, now


def stretches_by_milliseconds(row, sp, events, end):
    """Asks every millisecond below `end` whether it is kept, and gathers neighbours."""
    pairs, start = [], None
    for m, kept_now in by_milliseconds(events, end, lambda live: keeps(row, sp, live)):
        if kept_now and start is None:
            start = m
        if not kept_now and start is not None:
            pairs.append((start, m - start))
            start = None
    if start is not None:
        pairs.append((start, end - start))
    return pairs


def stretches_by_events(row, sp, events, end):
    """Goes from event to event: between two times the orders stay as they are."""
    pieces = []
    live, now = {}, 0
    for event in events:
        then = min(event.t, end)
        if then > now and keeps(row, sp, live):
            pieces.append((now, then))
        now = max(now, then)
        pass_event(live, event)
    if end > now and keeps(row, sp, live):
        pieces.append((now, end))
    pairs = []
    for start, stop in pieces:
        if pairs and sum(pairs[-1]) == start:
            pairs[-1] = (pairs[-1][0], stop - pairs[-1][0])
        else:
            pairs.append((start, stop - start))
    return pairs


def stretches(row, sp, events, end):
    way = stretches_by_milliseconds if end <= SHORT else stretches_by_events
    return way(row, sp, events, end)


def kept_time(pairs):
    return sum(length for _, length in pairs)


# ---------------------------------------------------------------- lapses


def lapses_by_milliseconds(row, sp, events, end):
    """Asks every millisecond below `end` whether it is kept, and counts those that start a lapse."""
    live, passed, count, kept_before = {}, 0, 0, True
    for m in range(end):
        before = passed
        while passed < len(events) and events[passed].t <= m:
            pass_event(live, events[passed])
            passed += 1
        if m == 0 or passed != before:  # the same orders give the same answer
            kept_now = keeps(row, sp, live)
        if kept_before and not kept_now:
            count += 1
        kept_before = kept_now
    return count


def lapses_by_stretches(pairs, end):
    """The gaps that the kept stretches leave below `end`, before, between and after them."""
    ends = [0, *(offset + length for offset, length in pairs)]
    starts = [*(offset for offset, _ in pairs), end]
    return sum(1 for stop, start in zip(ends, starts) if stop < start)


def lapses(row, sp, events, end):
    if end <= SHORT:
        return lapses_by_milliseconds(row, sp, events, end)
    return lapses_by_stretches(stretches(row, sp, events, end), end)


def none_too_many(limit, count):
    """With no limit no count is too many."""
    return limit == NO_LIMIT or count <= limit


# ---------------------------------------------------------------- verdict, weight, fee

Cell = namedtuple("Cell", "kept length share limit lapses active passive")


def met(kept, length, share):
    """The share is in tenths of a percent."""
    return 1_000 * kept >= share * length


def weight(kept, length, share):
    if not met(kept, length, share):
        return 0
    f = 1_000 * kept // length
    if f >= 800:
        return 20_000
    n, d = f - share, 800 - share
    return 10_000 + 10_000 * n**5 // d**5


def cell_met(cell):
    return met(cell.kept, cell.length, cell.share) and none_too_many(cell.limit, cell.lapses)


def cell_weight(cell):
    return weight(cell.kept, cell.length, cell.share) if cell_met(cell) else 0


def failure_count(cells, expiry, quantum):
    """`cells` maps (day, expiry, quantum) to each filled cell."""
    return sum(
        1
        for (_, e, q), cell in cells.items()
        if (e, q) == (expiry, quantum) and not cell_met(cell)
    )


def failure_counts(cells):
    return [failure_count(cells, e, q) for e in EXPIRIES for q in QUANTA]


def fee(cells):
    if any(count > 15 for count in failure_counts(cells)):
        return 0
    whole = sum(
        (2 * cell.active + 3 * cell.passive) * cell_weight(cell)
        for cell in cells.values()
    )
    return min(whole // 80_000, 120_000_000)


# ---------------------------------------------------------------- the book


class Quoting:
    """What the book notes of the open quantum. `live` is what its events leave, carried along."""

    def __init__(self, day, row, sp, limit):
        self.day, self.row, self.sp, self.limit = day, row, sp, limit
        self.events = []
        self.live = {}

    @property
    def cell(self):
        return (self.day, self.row.expiry, self.row.quantum)

    @property
    def time(self):
        return self.events[-1].t if self.events else 0

    def pairs(self, end):
        return stretches(self.row, self.sp, self.events, end)

    def lapses(self, end):
        return lapses(self.row, self.sp, self.events, end)

    def copy(self) -> "Quoting":
        other = Quoting(self.day, self.row, self.sp, self.limit)
        other.events, other.live = list(self.events), dict(self.live)
        return other


class Book:
    """The plain book: at most one open quantum, the filled cells of 186, and the count of the
    accepted calls other than asks, looks, reports and outlooks, modulo 2^64."""

    def __init__(self):
        self.quoting = None
        self.cells = {}
        self.count = 0

    def call(self, call):
        """Refuses by the lowest number that applies and stays as it is, or accepts."""
        if isinstance(call, Message):
            return self.message(call)
        causes = self.causes(call)
        if causes:
            return Refused(min(causes))
        answer = self.accept(call)
        if type(call) not in UNCOUNTED:
            self.count = (self.count + 1) % COUNTS
        return answer

    def message(self, message: Message) -> Accepted | Refused:
        """20 and 21 first, then the causes of its one or two calls in turn; all of them or none."""
        try:
            events = self.events_of(message)
        except fix.Unread as unread:
            return Refused(unread.number)
        before = self.quoting and (len(self.quoting.events), dict(self.quoting.live)) if len(events) > 1 else None
        for taken, event in enumerate(events):
            answer = self.call(event)
            if isinstance(answer, Refused):
                if taken:
                    self.take_back(before, taken)
                return answer
        return Accepted()

    def take_back(self, before, taken):
        """Undoes the calls of a message before the refused one: the events and orders are again those before it."""
        count, live = before
        del self.quoting.events[count:]
        self.quoting.live = live
        self.count = (self.count - taken) % COUNTS

    def events_of(self, message: Message) -> list[Add | Cancel]:
        """The calls that a message is. One before the start has a t below 0, which is before every
        time (8), and one past 32 bits a t above every L (9)."""
        kind, numbers, time = fix.read(message.bytes)
        t = fix.since(message.start, time)
        if kind == "F":
            return [Cancel(t, numbers[41])]
        add = Add(t, numbers[11], numbers[54], numbers[44], numbers[38])
        if kind == "D":
            return [add]
        old = self.quoting and self.quoting.live.get(numbers[41])
        if old and old.side != add.side:
            raise fix.Unread(21, "54 is not the side of the order that 41 names")
        return [Cancel(t, numbers[41]), add]

    def causes(self, call):
        """The numbers of all causes that apply."""
        kind = type(call)
        if kind in EVENTS:
            return [7] if self.quoting is None else self.event_causes(call)
        if kind is Open:
            return self.open_causes(call)
        if kind is Ask:
            return self.causes(Amend(*call))
        if kind is Commit:
            amend = Amend(*call[:4])
            stale = call.ticket != Ticket(*amend, self.count)
            return self.causes(amend) + ([19] if stale else [])
        found = []
        if kind is Close:
            if not (charge_fits(call.active) and charge_fits(call.passive)):
                found.append(3)
            if self.quoting is None:
                found.append(7)
        elif kind in (Drop, Outlook):
            if self.quoting is None:
                found.append(7)
        elif kind in (Charge, Withdraw, Look):
            cell = (call.day, call.expiry, call.quantum)
            if not cell_fits(*cell):
                found.append(3)
            elif cell not in self.cells:
                found.append(5)
            if kind is Charge and not (charge_fits(call.active) and charge_fits(call.passive)):
                found.append(3)
        return found

    def open_causes(self, call):
        found = []
        row = Row(*call.words) if len(call.words) == 7 else None
        is_strike = isinstance(call.sp, Strike)
        if row is None:
            found.append(1)
        elif not row_fits(row._replace(a=0, b=0) if is_strike else row):  # a strike's are unread
            found.append(2)
        if call.day not in DAYS or not (is_strike or price_fits(call.sp)):
            found.append(3)
        if row is not None and (call.day, row.expiry, row.quantum) in self.cells:
            found.append(4)
        if self.quoting is not None:
            found.append(6)
        if not limit_fits(call.limit):
            found.append(17)
        if is_strike and not strike_fits(call.sp):
            found.append(18)
        return found

    def event_causes(self, event):
        quoting, kind = self.quoting, type(event)
        found = []
        if event.t < quoting.time:
            found.append(8)
        if event.t > quoting.row.length:
            found.append(9)
        if kind is Tick:
            return found
        order = quoting.live.get(event.id)
        if kind is Add:
            if order is not None:
                found.append(10)
            if len(quoting.live) >= LIVE_LIMIT:
                found.append(13)
        elif order is None:
            found.append(11)
        if kind in (Add, Amend) and not price_fits(event.price):
            found.append(12)
        if kind in (Add, Amend, Deal) and not volume_fits(event.volume):
            found.append(12)
        if kind is Deal and order is not None and event.volume > order.volume:
            found.append(14)
        return found

    def accept(self, call):
        kind = type(call)
        if kind in EVENTS:
            self.quoting.events.append(call)
            pass_event(self.quoting.live, call)
        elif kind is Open:
            self.quoting = Quoting(call.day, Row(*call.words), call.sp, call.limit)
        elif kind is Close:
            row = self.quoting.row
            kept = kept_time(self.quoting.pairs(row.length))
            lapsed = self.quoting.lapses(row.length)
            self.cells[self.quoting.cell] = Cell(
                kept, row.length, row.share, self.quoting.limit, lapsed, call.active, call.passive
            )
            self.quoting = None
        elif kind is Drop:
            self.quoting = None
        elif kind is Charge:
            cell = (call.day, call.expiry, call.quantum)
            self.cells[cell] = self.cells[cell]._replace(active=call.active, passive=call.passive)
        elif kind is Withdraw:
            del self.cells[(call.day, call.expiry, call.quantum)]
        elif kind is Look:
            return self.look((call.day, call.expiry, call.quantum))
        elif kind is Report:
            return self.report()
        elif kind is Outlook:
            return self.outlook()
        elif kind is Ask:
            return self.ask(Amend(*call))
        elif kind is Commit:
            return self.accept(Amend(*call[:4]))
        return Accepted()

    def ask(self, amend):
        """Both best quotes after that amendment, and the ticket for it."""
        live, least = live_after([*self.quoting.events, amend]), self.quoting.row.least
        return Asked(best_bid(live, least), best_ask(live, least), Ticket(*amend, self.count))

    def look(self, cell):
        c = self.cells[cell]
        return CellView(*c, cell_met(c), cell_weight(c))

    def report(self):
        failed, due = failure_counts(self.cells), fee(self.cells)
        q = self.quoting
        if q is None:
            return ReportView(False, 0, 0, None, None, 0, 0, failed, due)
        return ReportView(
            True,
            q.time,
            len(q.live),
            best_bid(q.live, q.row.least),
            best_ask(q.live, q.row.least),
            kept_time(q.pairs(q.time)),
            q.lapses(q.time),
            failed,
            due,
        )

    def outlook(self) -> OutlookView:
        """The outlook on the open quantum, by trying what may follow."""
        q, row = self.quoting, self.quoting.row

        def judge(pairs: Pairs) -> Judged:
            lapsed = lapses_by_stretches(pairs, row.length)
            cell = Cell(kept_time(pairs), row.length, row.share, q.limit, lapsed, 0, 0)
            return Judged(cell_met(cell), cell_weight(cell))

        ahead = Ahead(
            past=q.pairs(q.time),
            now=q.time,
            length=row.length,
            can_keep=widest(row, q.sp) >= 1,
            judge=judge,
            enough=lambda kept: met(kept, row.length, row.share),
            full=lambda kept: met(kept, row.length, 800),
        )
        return outlook(ahead, None if q.limit == NO_LIMIT else q.limit, q.lapses(q.time))
