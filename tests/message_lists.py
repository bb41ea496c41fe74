"""Seeded random lists of calls with FIX messages among them (document 02, W11)."""

from random import Random

from recount import fix
from recount.book import (
    BUY, LIVE_LIMIT, PRICE_LIMIT, SELL, VOLUME_LIMIT, Add, Amend, Ask, Cancel, Close, Commit, Drop, Message, Order,
    Report, Tick, Ticket,
)
from tests import messages
from tests.generate import Feed, fill, long_row, programme_row, short_row
from tests.messages import LATE, shifted
from tests.months import Month


class Desk(Feed):
    """An open quantum to which most adds, cancels and amendments go as D, F and G."""

    def __init__(self, rng: Random, month: Month, count: int) -> None:
        super().__init__(rng, month.book, count)
        self.calls = month.calls
        self.start = any_start(rng)

    def send(self, event: object) -> object:
        if self.rng.random() < 0.85 and isinstance(event, (Add, Cancel, Amend)):
            event = self.message(self.order(event))
        return super().send(event)

    def time(self, t: int) -> bytes:
        """60 for a time, which may be below 0 or past 32 bits."""
        return shifted(self.start, t) or self.start

    def order(self, event: Add | Cancel | Amend) -> fix.Order:
        """What a message says that is the event, or that cancels and adds in place of an amend."""
        time, rng = self.time(event.t), self.rng
        if isinstance(event, Cancel):
            return fix.Order("F", {11: messages.number(rng), 41: event.id}, time)
        numbers = {11: event.id, 38: event.volume, 44: event.price}
        if isinstance(event, Add):
            return fix.Order("D", {**numbers, 54: event.side}, time)
        old = self.live.get(event.id)
        numbers[54] = old.side if old else rng.choice([BUY, SELL])
        numbers[11] = rng.choice([event.id, self.new_id()])
        return fix.Order("G", {**numbers, 41: event.id}, time)

    def message(self, said: fix.Order) -> Message:
        parts = messages.parts_of(self.rng, said)
        return Message(self.start, fix.framed(messages.body_of(said.kind.encode(), parts)))

    def replaced(self, order: Order, t: int, **changes: int) -> fix.Order:
        """A G for a live order, with some of its numbers changed."""
        numbers = {11: order.id, 41: order.id, 54: order.side, 38: order.volume, 44: order.price}
        return fix.Order("G", {**numbers, **{int(tag[1:]): n for tag, n in changes.items()}}, self.time(t))

    def refused(self) -> Message:
        """A message that the open quantum refuses for a cause that is chosen, at times for more."""
        rng, t = self.rng, self.later()
        old = self.some() or Order(self.new_id(), BUY, 0, 1)
        other = self.some() or old
        early, late = rng.choice([-1, -5_000, self.now - 1]), rng.choice([self.row.length + 1, LATE, 2**36])
        bad = {"n38": rng.choice([0, VOLUME_LIMIT + 1, 5_000_000]), "n44": rng.choice([PRICE_LIMIT + 1, -(2**31)])}
        free = self.new_id()
        new = lambda t, id, **wrong: self.replaced(old, t, n11=id, **wrong)._replace(kind="D")
        gone = fix.Order("F", {11: free, 41: free}, self.time(t))
        name = rng.choice(list(bad))
        return self.message(rng.choice([
            new(early, free), new(late, free), new(t, old.id), new(t, free, **{name: bad[name]}),
            new(late, old.id, **bad), gone, gone._replace(time=self.time(early)), gone._replace(time=self.time(late)),
            self.replaced(old, early), self.replaced(old, late), self.replaced(old, t, n41=free),
            self.replaced(old, t, n11=other.id), self.replaced(old, t, n54=BUY + SELL - old.side),
            self.replaced(old, t, **{name: bad[name]}), self.replaced(old, early, n54=BUY + SELL - old.side, **bad),
        ]))

    def spoiled(self) -> Message:
        """A message that is mostly refused by 20 or 21: any, a struck one, or one with a wrong start."""
        rng, order, t = self.rng, self.some() or Order(self.new_id(), BUY, 0, 1), self.later()
        new = Add(t, self.new_id(), order.side, order.price, order.volume)
        whole = self.message(rng.choice([self.order(new), self.order(Cancel(t, order.id)), self.replaced(order, t)]))
        how = rng.randrange(4)
        if how == 0:
            return Message(self.start, messages.any_message(rng)[1])
        if how == 1:
            return whole._replace(bytes=messages.struck(rng, whole.bytes))
        if how == 2:
            inner = fix.before_last(whole.bytes).split(fix.END, 2)[2]
            return whole._replace(bytes=fix.framed(messages.struck(rng, inner)))
        wrong = Message(messages.wrong_time(rng), whole.bytes)
        return wrong if rng.random() < 0.7 else wrong._replace(bytes=messages.damaged(rng))

    def any_message(self) -> Message:
        """One that is mostly accepted, or one of the wrong ones."""
        rng, order, how = self.rng, self.some(), self.rng.random()
        if how < 0.3:
            return self.refused()
        if how < 0.45:
            return self.spoiled()
        if order is None or how < 0.6:
            side = rng.choice([BUY, SELL])
            return self.message(self.order(Add(self.later(), self.new_id(), side, self.price(side), self.enough())))
        if how < 0.75:
            return self.message(self.order(Cancel(self.later(), order.id)))
        return self.message(self.order(Amend(self.later(), order.id, self.price(order.side), self.enough())))


def any_start(rng: Random) -> bytes:
    """A start with a hundred days to each side of it in the calendar."""
    start = messages.any_time(rng)
    while not b"00010501" < start[:8] < b"99990901":
        start = messages.any_time(rng)
    return start


def ask_and_commit(month: Month, desk: Desk) -> None:
    """An ask, a message, and a commit with the ticket as it was, or with the count of after it."""
    rng, amend = month.rng, month.amendment(desk)
    month.send(Ask(*amend))
    ticket = Ticket(*amend, month.book.count)
    month.send(desk.any_message())
    if rng.random() < 0.2:
        month.send(rng.choice([Report(), desk.any_message()]))
    month.send(Commit(*amend, ticket))
    if rng.random() < 0.5:
        month.send(Commit(*amend, ticket._replace(count=ticket.count + rng.choice([1, 2]))))


def mornings(rng: Random) -> list[object]:
    """Quanta that are kept by messages, with wrong ones, asks and other calls among them."""
    month = Month(rng)
    for day in range(1, rng.randrange(2, 4)):
        if month.open(rng.choice([short_row, short_row, long_row, programme_row])(rng), day):
            desk = Desk(rng, month, 30)
            desk.quote()
            for _ in range(rng.randrange(3, 15)):
                desk.step()
                if rng.random() < 0.5:
                    month.send(desk.any_message())
                if rng.random() < 0.3:
                    month.send(Report())
                if rng.random() < 0.3:
                    ask_and_commit(month, desk)
                if rng.random() < 0.1:
                    desk.wrong()
            month.send(rng.choice([Close(month.charge(), month.charge()), Drop()]))
            for _ in range(rng.randrange(1, 4)):
                month.send(closed(rng, desk))
    month.look_round()
    return month.calls


def closed(rng: Random, desk: Desk) -> Message:
    """A message with no quantum open."""
    kind = rng.choice("DFG")
    said = messages.order(rng, kind)._replace(time=desk.time(rng.choice([-1, 0, 5, LATE])))
    start = messages.wrong_time(rng) if rng.random() < 0.2 else desk.start
    return desk.message(said)._replace(start=start)


def crowded(rng: Random) -> list[object]:
    """64 live orders: no D goes in, a G does."""
    month = Month(rng)
    month.open(short_row(rng), 1)
    desk = Desk(rng, month, 100)
    fill(desk)
    for _ in range(rng.randrange(1, 6)):
        if len(desk.live) < LIVE_LIMIT:
            fill(desk)
        order = desk.some()
        month.send(desk.message(desk.order(Add(desk.now, desk.new_id(), BUY, 1, 1))))
        month.send(desk.message(desk.replaced(order, desk.now, n11=desk.new_id())))
        month.send(desk.any_message())
    month.send(Report())
    return month.calls


def before_any(rng: Random) -> list[object]:
    """Messages on a fresh month, one of them before the first open."""
    month = Month(rng)
    month.open(short_row(rng), 1)
    desk = Desk(rng, month, 5)
    month.calls.insert(0, closed(rng, desk))
    month.calls.insert(0, Message(desk.start, messages.any_message(rng)[1]))
    desk.quote()
    month.send(Tick(desk.later()))
    month.send(Report())
    return month.calls


LISTS = [(mornings, 8), (crowded, 1), (before_any, 1)]


def any_calls(rng: Random) -> tuple[str, list[object]]:
    """A generator's name and a list of calls."""
    generators, shares = zip(*LISTS)
    generator = rng.choices(generators, shares)[0]
    return generator.__name__, generator(rng)
