"""Seeded random sessions, rows, tables and records.

A generator takes a random.Random and answers what its name says. Events are made while a book goes
along, so that most of them are accepted and quotes appear, break and come back; wrong ones are
mixed in on purpose.
"""

from recount import records
from recount.book import (
    BUY, LIVE_LIMIT, MOST_LAPSES, NO_LIMIT, PRICE_LIMIT, SELL, VOLUME_LIMIT, Add, Amend, Book,
    Cancel, Deal, Open, Row, Strike, Tick, best_ask, best_bid, keeps, pass_event, widest,
)
from recount.session import HEAD
from tests import plain_programmes

LONGEST = 86_400_000
WORD_END = 2**32

FUTURES = ("003-brent-gold-silver", "004-mini-metals", "001-stock-futures-on-holidays")  # of options the rows have no spread
PROGRAMMES = [words for name in FUTURES for _, words in plain_programmes.rows_of(name)]


def clamp(value, low, high):
    return max(low, min(high, value))


# ---------------------------------------------------------------- rows and settlement prices


def short_row(rng):
    least = rng.choice([1, 2, 5, 10, 10, 100, 500])
    a, b = rng.choice([(0, 3), (100, 1), (150, 3), (1_050, 0), (0, 0), (100_000, 0), (50, 20)])
    length = 1_000 * rng.choice([1, 1, 2, 3, 5, 10, 20])
    return Row(rng.choice([1, 2]), rng.randrange(3), length, least, a, b, any_share(rng))


def any_share(rng):
    """A required share, in tenths of a percent."""
    return rng.choice([rng.randrange(1, 800), rng.randrange(1, 800), 1, 600, 700, 725, 750, 799])


def long_row(rng):
    row = short_row(rng)
    return row._replace(length=rng.choice([LONGEST, LONGEST, 31_500_000, 86_399_000, 3_600_000]))


def programme_row(rng):
    return Row(*rng.choice(PROGRAMMES))


def keeping_a_step(row):
    """The row with b 1 or more: it keeps a spread of one step, whatever SP."""
    return row._replace(b=max(1, row.b))


def any_sp(rng):
    if rng.random() < 0.1:
        return rng.choice([0, -5, -2_000, -rng.randrange(200_000)])
    return rng.choice([2_000, 8_452, 24_050, 1_999, rng.randrange(1, 200_000)])


STRIKE_LIMITS = Strike(200, 100_000, 365, 1_000_000)


def any_strike(rng):
    """A strike: of a programme, with a limit of whole or half steps before it is rounded, with a number
    at an end of its range, or with any numbers."""
    how = rng.randrange(5)
    if how <= 1:
        b = rng.choice([0, 0, 5, 25, 45])
        return Strike(rng.choice([30, 75, 115]), rng.randrange(1, 80), rng.randrange(1, 120), b)
    if how == 2:  # the root of 365 / 365 is whole, and a is in halves
        return Strike(5 * rng.randrange(1, 41), rng.randrange(1, 40, 2), 365, rng.choice([0, 0, 1, 7]))
    strike = Strike(*(rng.randrange(most + 1) for most in STRIKE_LIMITS))
    if how == 3:
        at = rng.choice(Strike._fields)
        return strike._replace(**{at: rng.choice([0, getattr(STRIKE_LIMITS, at)])})
    return strike._replace(difference=rng.randrange(1_000), b=rng.randrange(200))


def wrong_strike(rng):
    """A strike with one number outside its range, mostly just so, at times all of them."""
    if rng.random() < 0.1:
        return Strike(*[WORD_END - 1] * 4)
    at = rng.choice(Strike._fields)
    past = rng.choice([getattr(STRIKE_LIMITS, at) + 1] * 3 + [WORD_END - 1])
    return any_strike(rng)._replace(**{at: past})


def unread(rng, row):
    """The row with an a and b that a strike does not read."""
    word = lambda: rng.choice([0, 100_001, 1_000_001, WORD_END - 1, rng.randrange(WORD_END)])
    return row._replace(a=word(), b=word())


def any_limit(rng):
    """A lapse limit: few, the most or none."""
    return rng.choice([*range(6), MOST_LAPSES, NO_LIMIT, NO_LIMIT])


def wrong_limit(rng):
    return rng.choice([MOST_LAPSES + 1, NO_LIMIT - 1, NO_LIMIT + 1, 40_000, WORD_END - 1])


def wrong_row_words(rng):
    """Seven words with one just outside its range, or not seven words."""
    words = list(short_row(rng))
    at = rng.randrange(9)
    if at >= 7:
        return words[: rng.randrange(7)] if at == 7 else words + [1] * rng.randrange(1, 5)
    words[at] = rng.choice(
        [
            [0, 3, WORD_END - 1],
            [3, 4, WORD_END - 1],
            [0, 999, 1_001, 1_500, LONGEST + 1, LONGEST + 1_000, WORD_END - 296, WORD_END - 1],
            [0, 100_001, WORD_END - 1],
            [100_001, WORD_END - 1],
            [1_000_001, WORD_END - 1],
            [0, 800, WORD_END - 1],
        ][at]
    )
    return words


# ---------------------------------------------------------------- one quantum


class Feed:
    """An open quantum to which events are sent; `calls` has all that was sent, refused or not."""

    def __init__(self, rng, book, count):
        self.rng, self.book = rng, book
        self.row, self.sp = book.quoting.row, book.quoting.sp
        # One event in five is up to this much later than the one before it.
        self.stride = 8 * self.row.length // max(8, count)
        self.wide = widest(self.row, self.sp)
        middle = rng.randrange(5_000) if isinstance(self.sp, Strike) else self.sp
        self.middle = clamp(middle, -PRICE_LIMIT // 2, PRICE_LIMIT // 2)
        self.calls = []
        self.next_id = rng.choice([0, 1, 1_000, WORD_END - 2_000])

    @property
    def live(self):
        return self.book.quoting.live

    @property
    def now(self):
        return self.book.quoting.time

    def send(self, event):
        self.calls.append(event)
        return self.book.call(event)

    def later(self):
        """The next event's time: often the same or the next millisecond, at most L."""
        step = self.rng.choice([0, 0, 1, 1, self.rng.randrange(self.stride + 1)])
        return min(self.row.length, self.now + step)

    def some(self, side=None):
        """A live order, of that side if asked for; None if there is none."""
        found = [o for o in self.live.values() if side in (None, o.side)]
        return self.rng.choice(found) if found else None

    def new_id(self):
        self.next_id += 1
        return self.next_id

    def enough(self):
        """A volume that is M alone, or a part of it, or more."""
        least, rng = self.row.least, self.rng
        return clamp(
            rng.choice([least, least, least - 1, least + 1, (least + 1) // 2, 2 * least, 1]),
            1, VOLUME_LIMIT,
        )

    def price(self, side):
        """A price near the other side's best quote, at, within or past the widest spread."""
        rng, wide = self.rng, self.wide
        gap = rng.choice([wide, wide, wide - 1, wide + 1, wide // 2, 0, 1, -1, wide + 50])
        if side == BUY:
            other = best_ask(self.live, self.row.least)
            price = (self.middle + wide // 2 if other is None else other) - gap
        else:
            other = best_bid(self.live, self.row.least)
            price = (self.middle - wide // 2 if other is None else other) + gap
        return clamp(price, -PRICE_LIMIT, PRICE_LIMIT)

    def near_price(self, side):
        """A price that keeps with the other side's best quote, where there is one and any keeps."""
        gap = self.rng.randrange(1, max(1, self.wide) + 1)
        if side == BUY:
            other = best_ask(self.live, self.row.least)
            price = self.middle if other is None else other - gap
        else:
            other = best_bid(self.live, self.row.least)
            price = self.middle + gap if other is None else other + gap
        return clamp(price, -PRICE_LIMIT, PRICE_LIMIT)

    def band_price(self, side):
        """A price within about one spread of the middle, on its side."""
        away = self.rng.randrange(self.wide + 6)
        return clamp(self.middle + (away if side == SELL else -away), -PRICE_LIMIT, PRICE_LIMIT)

    def part(self):
        """A volume that takes several orders to make up M."""
        return self.rng.randrange(1, 2 + self.row.least // self.rng.choice([6, 10, 15]))

    # What a maker does: quote, lose the quote, mend it, and all else.

    def quote(self):
        """An order of each side that is enough alone and keeps."""
        t, least = self.later(), self.row.least
        for side in (BUY, SELL):
            price = self.near_price(side)
            volume = clamp(least + self.rng.choice([0, 0, 1, 7]), 1, VOLUME_LIMIT)
            old = self.some(side)
            if old is not None and (self.rng.random() < 0.5 or len(self.live) >= LIVE_LIMIT):
                self.send(Amend(t, old.id, price, volume))
            else:
                self.send(Add(t, self.new_id(), side, price, volume))

    def mend(self):
        """One order that makes the quote keep again, where one can."""
        bid = best_bid(self.live, self.row.least)
        side = BUY if bid is None else SELL
        if best_ask(self.live, self.row.least) is not None and bid is not None:
            side = self.rng.choice([BUY, SELL])
        t, price, old = self.later(), self.near_price(side), self.some(side)
        if old is not None and (self.rng.random() < 0.6 or len(self.live) >= LIVE_LIMIT):
            self.send(Amend(t, old.id, price, max(old.volume, self.row.least)))
        else:
            self.send(Add(t, self.new_id(), side, price, self.row.least))

    def lose(self):
        """Takes from the orders at or before a best quote."""
        side = self.rng.choice([BUY, SELL])
        if side == BUY:
            best = best_bid(self.live, self.row.least)
            front = [o for o in self.live.values() if o.side == BUY and o.price >= (best or 0)]
        else:
            best = best_ask(self.live, self.row.least)
            front = [o for o in self.live.values() if o.side == SELL and o.price <= (best or 0)]
        if not front:
            return self.send(Tick(self.later()))
        order, t = self.rng.choice(front), self.later()
        how = self.rng.randrange(4)
        if how == 0:
            self.send(Cancel(t, order.id))
        elif how == 1:
            volume = self.rng.choice([1, order.volume, (order.volume + 1) // 2])
            self.send(Deal(t, order.id, volume))
        elif how == 2:
            self.send(Amend(t, order.id, order.price, max(1, order.volume - 1)))
        else:
            away = -1 - self.wide if side == BUY else 1 + self.wide
            price = clamp(order.price + away, -PRICE_LIMIT, PRICE_LIMIT)
            self.send(Amend(t, order.id, price, order.volume))

    def anything(self):
        """Any event that is accepted, of orders taken at random."""
        order, t, rng = self.some(), self.later(), self.rng
        how = rng.randrange(6)
        if how == 5 or (order is None and how > 1):
            self.send(Tick(t))
        elif how <= 1 and len(self.live) < LIVE_LIMIT:
            side = rng.choice([BUY, SELL])
            self.send(Add(t, self.new_id(), side, self.price(side), self.enough()))
        elif order is None:
            self.send(Tick(t))
        elif how == 3:
            self.send(Cancel(t, order.id))
        elif how == 4:
            self.send(Deal(t, order.id, rng.randrange(1, order.volume + 1)))
        else:
            self.send(Amend(t, order.id, self.price(order.side), self.enough()))

    def step(self):
        """One turn of a maker's day: mostly the quote breaks and is mended."""
        chance = self.rng.random()
        if chance < 0.25:
            self.anything()
        elif keeps(self.row, self.sp, self.live):
            self.lose()
        else:
            self.mend()

    def wrong(self):
        """An event that is refused, mostly for one cause that is chosen, at times for more."""
        rng, t = self.rng, self.later()
        live_id = rng.choice(list(self.live)) if self.live else 5
        free_id = self.new_id()
        volume = self.live[live_id].volume if self.live else 1
        early = self.now - rng.choice([1, self.now]) if self.now else 0
        late = rng.choice([self.row.length + 1, WORD_END - 1])
        bad_price = rng.choice([PRICE_LIMIT + 1, -PRICE_LIMIT - 1, 2**31 - 1, -(2**31)])
        bad_volume = rng.choice([0, VOLUME_LIMIT + 1, WORD_END - 1])
        event = rng.choice([
            Tick(early), Add(early, live_id, BUY, bad_price, 1),
            Tick(late), Add(late, live_id, SELL, 0, bad_volume), Cancel(late, free_id),
            Add(t, live_id, BUY, 0, 1), Add(t, live_id, BUY, bad_price, 1),
            Amend(t, free_id, 0, 1), Amend(t, free_id, bad_price, bad_volume),
            Cancel(t, free_id), Deal(t, free_id, 1), Deal(t, free_id, bad_volume),
            Add(t, free_id, SELL, bad_price, 1), Add(t, free_id, BUY, 0, bad_volume),
            Amend(t, live_id, bad_price, 1), Amend(t, live_id, 0, bad_volume),
            Deal(t, live_id, bad_volume), Deal(t, live_id, volume + 1),
            Deal(t, live_id, VOLUME_LIMIT),
        ])
        self.send(event)


def scene(rng, row, sp, count):
    """A fresh book with the quantum opened, and a scene that `count` events about fill."""
    book = Book()
    book.call(Open(list(row), 1, sp))
    return Feed(rng, book, count)


def amount(rng):
    return rng.choice([0, 2, 5, 10, 20, 20, 40, 40, 80, 150])


# ---------------------------------------------------------------- sessions: head and records


def session(row_words, sp, events):
    """The 32 leading bytes and the records."""
    return HEAD.pack(*row_words, sp), b"".join(map(records.write, events))


def quoting(rng, row=None, sp=None, count=None):
    """A maker's day in a short quantum."""
    row = row or short_row(rng)
    sp = any_sp(rng) if sp is None else sp
    count = amount(rng) if count is None else count
    s = scene(rng, row, sp, count)
    if count:
        s.quote()
    for _ in range(count):
        s.step()
    return session(row, sp, s.calls)


def long_quantum(rng):
    return quoting(rng, row=long_row(rng))


def programme(rng):
    return quoting(rng, row=programme_row(rng))


def refused_event(rng):
    """A maker's day with a wrong event at some place, and more after it."""
    row = rng.choice([short_row, long_row])(rng)
    sp, count = any_sp(rng), rng.choice([1, 5, 20, 40])
    s = scene(rng, row, sp, count)
    wrong_at = rng.randrange(count + 1)
    s.quote()
    for at in range(count):
        if at == wrong_at:
            s.wrong()
        s.step()
    if wrong_at == count:
        s.wrong()
    return session(row, sp, s.calls)


def full_table(rng):
    """64 live orders, amendments among them, at times one order too many."""
    row, sp = rng.choice([short_row, long_row])(rng), any_sp(rng)
    row = row._replace(least=rng.choice([60, 500]))
    s = scene(rng, row, sp, 120)
    fill(s)
    for _ in range(rng.randrange(80)):
        order, how = s.some(), rng.random()
        if how < 0.3:
            s.send(Amend(s.later(), order.id, s.band_price(order.side), s.part()))
        elif how < 0.4:
            s.send(Deal(s.later(), order.id, order.volume))  # its place can be used again
            s.send(Add(s.now, order.id, order.side, s.band_price(order.side), s.part()))
        else:
            s.step()
    if rng.random() < 0.3:
        fill(s)
        s.send(Add(s.now, s.new_id(), rng.choice([BUY, SELL]), s.middle, s.part()))
    return session(row, sp, s.calls)


def fill(s):
    """Orders until 64 are live."""
    while len(s.live) < LIVE_LIMIT:
        side = s.rng.choice([BUY, SELL])
        s.send(Add(s.now + (s.rng.random() < 0.1), s.new_id(), side, s.band_price(side), s.part()))


def far_behind(rng):
    """Orders far from the best price are amended, and much later they are the best."""
    row, sp = rng.choice([short_row, long_row, programme_row])(rng), any_sp(rng)
    s = scene(rng, row, sp, 60)
    deep = []
    for side, sign in ((BUY, -1), (SELL, 1)):
        for step in range(rng.randrange(1, 6)):
            price = s.middle + sign * (s.wide + 10 * step + 5)
            s.send(Add(s.later(), s.new_id(), side, price, s.enough()))
            deep.append(s.next_id)
    s.quote()
    front = [id for id in s.live if id not in deep]
    for _ in range(rng.randrange(1, 20)):
        order = s.live.get(rng.choice(deep))
        sign = -1 if order.side == BUY else 1
        price = s.middle + sign * (s.wide // 2 + rng.randrange(1, 4 + s.wide // 2))
        s.send(Amend(s.later(), order.id, price, s.enough()))
    for _ in range(rng.randrange(6)):
        s.send(Tick(s.later()))
    for id in front:  # the front goes: what was amended comes to light
        if id in s.live and rng.random() < 0.8:
            s.send(Cancel(s.later(), id))
    for _ in range(rng.randrange(10)):
        s.step()
    return session(row, sp, s.calls)


def becomes_best(head, data):
    """Whether an order that was amended away from the best quote of its side is at it later."""
    least = HEAD.unpack(head)[3]
    live, hidden = {}, set()
    for event in map(records.read, records.split(data)):
        pass_event(live, event)
        for side, best in ((BUY, best_bid(live, least)), (SELL, best_ask(live, least))):
            for order in live.values():
                if order.side == side and order.id in hidden and order.price == best:
                    return True
        if isinstance(event, Amend):
            order = live[event.id]
            best = best_bid(live, least) if order.side == BUY else best_ask(live, least)
            behind = best is not None and (order.price < best if order.side == BUY else order.price > best)
            (hidden.add if behind else hidden.discard)(event.id)
    return False


def feed_gap(rng):
    """The end of an order is missed: the maker's bid is at or above his own ask, then moves away from it."""
    row, sp = keeping_a_step(rng.choice([short_row, long_row, programme_row])(rng)), any_sp(rng)
    s = scene(rng, row, sp, 40)
    s.quote()
    for _ in range(rng.randrange(1, 20)):
        side = rng.choice([BUY, SELL])
        quote = (best_ask if side == BUY else best_bid)(s.live, row.least)
        order = s.some(side)
        if order is None or quote is None:
            s.mend()
            continue
        over = rng.choice([0, 0, 1, -1, -1, rng.randrange(50)])  # 0 locks, above it crosses
        price = clamp(quote + (over if side == BUY else -over), -PRICE_LIMIT, PRICE_LIMIT)
        s.send(Amend(s.later(), order.id, price, row.least))
    return session(row, sp, s.calls)


def equal_prices(rng):
    """Few prices, parts that add up to M or to one less."""
    row, sp = short_row(rng), any_sp(rng)
    s = scene(rng, row, sp, 60)
    for _ in range(rng.randrange(4, 60)):
        side = rng.choice([BUY, SELL])
        sign = -1 if side == BUY else 1
        price = s.middle + sign * rng.choice([s.wide // 2, s.wide // 2, (s.wide + 1) // 2 + 1])
        volume = max(1, rng.choice([row.least // 3, row.least // 2, row.least - 1, 1]))
        order = s.some()
        if order is None or (rng.random() < 0.6 and len(s.live) < LIVE_LIMIT):
            s.send(Add(s.later(), s.new_id(), side, price, volume))
        elif rng.random() < 0.5:
            s.send(Amend(s.later(), order.id, order.price, volume))
        else:
            s.send(Deal(s.later(), order.id, rng.randrange(1, order.volume + 1)))
    return session(row, sp, s.calls)


def at_limits(rng):
    """Prices, SP, volumes, ids, a, b and L at the ends of their ranges."""
    row = Row(
        rng.choice([1, 2]), rng.choice([0, 2]), rng.choice([1_000, LONGEST]),
        rng.choice([1, 100_000]), rng.choice([0, 1, 100_000]), rng.choice([0, 1, 1_000_000]),
        rng.choice([1, 799]),
    )
    sp = rng.choice([PRICE_LIMIT, -PRICE_LIMIT, PRICE_LIMIT - 1, 0, 1, -1, -5])
    s = scene(rng, row, sp, 20)
    ends = [PRICE_LIMIT, -PRICE_LIMIT, PRICE_LIMIT - 1, 1 - PRICE_LIMIT, 0]
    if s.wide:
        ends += [clamp(end + side, -PRICE_LIMIT, PRICE_LIMIT)
                 for end in (-PRICE_LIMIT, 0) for side in (s.wide, s.wide + 1)]
    ids = [0, 1, 2, WORD_END - 1, WORD_END - 2, 2**31]
    for _ in range(rng.randrange(2, 30)):
        t = rng.choice([s.now, s.now, min(row.length, s.now + 1), s.later()])
        if rng.random() < 0.05:
            t = row.length
        id, price = rng.choice(ids), rng.choice(ends)
        volume = rng.choice([1, VOLUME_LIMIT, 99_999, 100_000])
        if id not in s.live:
            s.send(Add(t, id, rng.choice([BUY, SELL]), price, volume))
        elif rng.random() < 0.6:
            s.send(Amend(t, id, price, volume))
        else:
            s.send(rng.choice([Cancel(t, id), Deal(t, id, s.live[id].volume), Tick(t)]))
    return session(row, sp, s.calls)


def at_verdict(rng):
    """K planned to be at, or a millisecond beside, the share or a step of the weight."""
    row = keeping_a_step(rng.choice([short_row, long_row, programme_row])(rng))
    wanted = rng.choice([
        -(-row.share * row.length // 1_000),
        -(-row.share * row.length // 1_000),
        -(-800 * row.length // 1_000),
        -(-rng.randrange(row.share, 1_001) * row.length // 1_000),
    ])
    kept = clamp(wanted + rng.choice([0, -1, -1, 1]), 0, row.length)
    start = rng.randrange(row.length - kept + 1)
    events = [
        Add(start, 1, BUY, 100, row.least), Add(start, 2, SELL, 101, row.least),
        Cancel(start + kept, rng.choice([1, 2])),
    ]
    return session(row, any_sp(rng), events)


def many_pairs(rng, count=None):
    """A sell comes and goes: a pair for every two records, joined where it comes back at once."""
    row = keeping_a_step(rng.choice([short_row, long_row])(rng))
    count = rng.choice([10, 50, 200]) if count is None else count
    steps = sorted(rng.sample(range(row.length), min(row.length, count)))
    here, there = Add(steps[0], 8, SELL, 101, row.least), False
    events = [Add(steps[0], 7, BUY, 100, row.least)]
    for t in steps:
        if not there:
            events.append(here._replace(t=t))
        else:
            events.append(Cancel(t, 8))
            if rng.random() < 0.2:
                events.append(here._replace(t=t))
                continue
        there = not there
    return session(row, any_sp(rng), events[:count])


def bad_head(rng):
    """A row out of its range, or SP out of its own, before good or bad records."""
    head, data = rng.choice([quoting, refused_event])(rng)
    how = rng.randrange(3)
    if how == 0:
        words = wrong_row_words(rng)
        while len(words) != 7:
            words = wrong_row_words(rng)
        return HEAD.pack(*words, rng.choice([0, PRICE_LIMIT + 1])), data
    sp = rng.choice([PRICE_LIMIT + 1, -PRICE_LIMIT - 1, 2**31 - 1, -(2**31)])
    return head[:28] + sp.to_bytes(4, "little", signed=True), data


def damaged(rng):
    """A session with some bytes changed, taken out or put in."""
    head, data = rng.choice([quoting, long_quantum, full_table])(rng)
    data = bytearray(data)
    for _ in range(rng.choice([1, 1, 2, 5])):
        at = rng.randrange(len(data) + 1)
        how = rng.randrange(5)
        if how == 0 and at < len(data):
            data[at] ^= 1 << rng.randrange(8)
        elif how == 1:
            del data[at : at + rng.choice([1, 20, 7])]
        elif how == 2:
            data[at:at] = rng.randbytes(rng.choice([1, 20, 3]))
        elif how == 3:
            at -= at % 20
            data[at : at + 20] = data[at : at + 20] * 2
        elif at + 4 < len(data):
            data[at - at % 20 + rng.randrange(4)] = rng.choice([0, 1, 6, 7, 255])
    return head, bytes(data)


def cut(rng):
    """A session that ends in the middle of a record, or of its head."""
    head, data = rng.choice([quoting, refused_event, many_pairs])(rng)
    if rng.random() < 0.2:
        return head[: rng.randrange(32)], b""
    if rng.random() < 0.5:
        return head, data + rng.randbytes(rng.randrange(1, 20))
    return head, data[: rng.randrange(len(data) + 1)]


def noise(rng):
    """Bytes that are mostly small numbers."""
    byte = lambda: rng.choice([0, 0, 0, 0, 1, 2, 3, 4, 5, 6, 255])
    head = HEAD.pack(*short_row(rng), any_sp(rng))
    return head, bytes(byte() for _ in range(rng.randrange(100)))


SESSIONS = [
    (quoting, 6), (long_quantum, 4), (programme, 4), (refused_event, 5), (full_table, 2),
    (far_behind, 5), (equal_prices, 2), (at_limits, 3), (at_verdict, 4), (many_pairs, 2), (feed_gap, 2),
    (bad_head, 2), (damaged, 3), (cut, 2), (noise, 1),
]


def any_session(rng):
    """A generator's name, the leading bytes and the records."""
    generators, shares = zip(*SESSIONS)
    generator = rng.choices(generators, shares)[0]
    head, data = generator(rng)
    name = generator.__name__
    if generator is far_behind and becomes_best(head, data):
        name += "_then_best"
    return name, head, data


# ---------------------------------------------------------------- tables of rows, and records


def any_tables(rng):
    """Words of a probe case for choosing: holiday, expiry, quantum, and two tables."""
    def table():
        words = []
        for _ in range(rng.choice([0, 1, 2, 3, 6, 20])):
            words += [rng.choice([0, 1, 1, 2, 2, 3]), rng.choice([0, 1, 2, 3])]
            words += rng.choice(PROGRAMMES)[2:]
        return words + [rng.choice([1, 2]) for _ in range(rng.choice([0, 0, 1, 6]))]

    usual, holiday = table(), table()
    wanted = [rng.choice([0, 1, 1, 2, 2, WORD_END - 1]), rng.choice([0, 1, 2, 2, WORD_END - 1])]
    return [2, rng.randrange(2), *wanted, len(usual), len(holiday), *usual, *holiday]


def any_record(rng):
    """Bytes that are a record, nearly one, or cut short."""
    word = lambda: rng.choice([0, 1, 255, 256, 2**31, WORD_END - 1, rng.randrange(WORD_END)])
    price = rng.choice([0, 1, -1, -(2**31), 2**31 - 1, rng.randrange(-(2**31), 2**31)])
    event = rng.choice([
        Add(word(), word(), BUY, price, word()), Add(word(), word(), SELL, price, word()),
        Amend(word(), word(), price, word()), Cancel(word(), word()),
        Deal(word(), word(), word()), Tick(word()),
    ])
    data = bytearray(records.write(event))
    how = rng.randrange(5)
    if how == 0:
        data[rng.randrange(20)] ^= 1 << rng.randrange(8)
    elif how == 1:
        data[0] = rng.choice([0, 1, 2, 3, 4, 5, 6, 7, 8, 255])
    elif how == 2:
        del data[rng.randrange(20) :]
    elif how == 3:
        data += rng.randbytes(rng.randrange(1, 30))
    return bytes(data)
