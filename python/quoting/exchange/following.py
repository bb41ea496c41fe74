"""Which order each move is about, for a block of moves at once.

It is guessed (the order that first had the id which the move names) and tested: each move, if the guesses before it are right, must find
what was guessed for it. Then the guess is what `Orders` finds, by induction over the moves. Where the test fails, `Orders` reads the block
one by one. So the guess need not be right, and the test may refuse a right one; what comes out is always that of `Orders`.
"""

from dataclasses import dataclass
from typing import Any, NamedTuple, Optional

import numpy as np

from quoting.exchange import fields as f
from quoting.exchange.columns import U
from quoting.exchange.keys import WORDS, first_of
from quoting.exchange.orders import ABSENT, NOTHING, Orders
from quoting.exchange.reasons import Why

Array = Any


class Live(NamedTuple):
    """The orders that are known between two blocks, each by ids that no other one has: number, owner, the keys of ClOrdID and OrderID (a
    row for each word), what is left, and whether it rests."""

    number: Array
    owner: Array
    cl: Array
    oid: Array
    left: Array
    rests: Array


def no_orders() -> Live:
    none = np.zeros(0, dtype=np.int64)
    keys = np.zeros((WORDS, 0), dtype=U)
    return Live(none, none, keys, keys, none, none.astype(bool))


class Changed(NamedTuple):
    """For each move of a block the order that it changes and the one that it replaces, or NOTHING; and the owner of the first."""

    order: Array
    replaced: Array
    owner: Array


@dataclass
class Following:
    """The orders of a source, block by block. Places are those among all moves."""

    owners: int
    fitting: dict[int, list[int]]
    foreign: frozenset[int]

    def __post_init__(self) -> None:
        self.live, self.run = no_orders(), None  # type: tuple[Live, Optional[OneByOne]]
        self.entered = self.place = 0
        self.problems: list[tuple[int, Why]] = []
        self.overfilled: dict[int, int] = {}
        self.strangers: list[int] = []
        self.guessed = self.read = 0  # blocks that were guessed, and that were read one by one

    @property
    def blocks(self) -> int:
        return self.guessed + self.read

    def take(self, block: Array) -> Changed:
        """The next moves, in order of time."""
        changed = None
        if self.run is None and not self.fitting and not self.foreign:
            changed = self.guess(block)
        self.guessed += changed is not None
        self.read += changed is None
        changed = self.one_by_one(block) if changed is None else changed
        self.place += block.size
        return changed

    def guess(self, block: Array) -> Optional[Changed]:
        guess = Guess(self.live, block)
        if not (block["what"] <= f.DEAL).all() or not guess.is_right():
            return None
        number = np.concatenate([self.live.number, self.entered + np.cumsum(guess.is_new) - 1, [NOTHING]])
        lost = np.flatnonzero(guess.is_lost() & ((guess.what <= f.RESTATE) | (block["side"] != 0)))
        self.problems += [(self.place + at, Why.UNKNOWN) for at in lost.tolist()]
        self.entered += int(np.count_nonzero(guess.is_new))
        self.live = guess.left_over(number)
        order = np.where(guess.rests[guess.of_move], number[guess.of_move], NOTHING)
        return Changed(order, np.full(block.size, NOTHING), block["owner"])

    def one_by_one(self, block: Array) -> Changed:
        if self.run is None:
            self.run = OneByOne(self.owners, self.fitting, self.foreign, self.live, self.entered)
        run, orders = self.run, self.run.orders
        known, place, counts = len(orders.cl), self.place - len(orders.changed), (len(orders.problems), len(orders.strangers))
        orders.take(run.terms(block))
        self.problems += [(place + at, why) for at, why in orders.problems[counts[0] :]]
        self.strangers += [place + at for at in orders.strangers[counts[1] :]]
        self.overfilled.update((place + at, left) for at, left in orders.overfilled.items())
        self.entered += len(orders.cl) - known
        changed = run.changed(block.size)
        if run.is_plain():
            self.live, self.run = run.live(), None
        return changed


# ---------------------------------------------------------------- one by one


def key_bytes(column: Array) -> list[bytes]:
    """Keys as bytes."""
    found: list[bytes] = np.ascontiguousarray(column).view(f"V{8 * WORDS}").ravel().tolist()
    return found


class OneByOne:
    """Some blocks that are read one by one: orders with numbers of their own, first those that were known before, and ids as numbers."""

    def __init__(self, owners: int, fitting: dict[int, list[int]], foreign: frozenset[int], live: Live, entered: int) -> None:
        self.orders = Orders(owners, fitting, foreign)
        self.ids: dict[bytes, int] = {bytes(8 * WORDS): -1}
        self.before, self.entered = live.number, entered
        columns = live.owner.tolist(), key_bytes(live.cl.T), key_bytes(live.oid.T), live.left.tolist(), live.rests.tolist()
        for owner, cl, oid, left, rests in zip(*columns):
            self.orders.enter(owner, self.number(cl, owner), self.number(oid, owner), 0, left, rests)

    def number(self, key: bytes, owner: int) -> int:
        number = self.ids.setdefault(key, len(self.ids))
        return ABSENT if number < 0 else number * self.orders.owners + owner

    def numbered(self, column: Array, owner: Array) -> Array:
        """The ids of a column. A request has its day in place of an OrderID."""
        ids = self.ids
        found = np.array([ids.setdefault(key, len(ids)) for key in key_bytes(column)], dtype=np.int64)
        return np.where(found < 0, ABSENT, found * self.orders.owners + owner)

    def terms(self, block: Array) -> Any:
        what, owner = block["what"], block["owner"].astype(np.int64)
        cl, orig = self.numbered(block["cl"], owner), self.numbered(block["orig"], owner)
        oid = block["time"] // f.DAY if what[0] >= f.ASK else self.numbered(block["oid"], owner)
        return zip(*(column.tolist() for column in (what, owner, cl, orig, oid, block["side"], block["volume"])))

    def changed(self, size: int) -> Changed:
        """What the last moves changed."""
        orders, first = self.orders, len(self.orders.changed) - size
        order = np.array(orders.changed[first:], dtype=np.int64)
        replaced = np.full(size, NOTHING, dtype=np.int64)
        late = np.array(orders.replaced[first:], dtype=np.int64)
        replaced[: late.size] = self.numbers(late)
        owner = np.array([NOTHING if each == NOTHING else orders.owner[each] for each in order.tolist()], dtype=np.int64)
        return Changed(self.numbers(order), replaced, owner)

    def numbers(self, orders: Array) -> Array:
        """The numbers of orders among all."""
        known = self.before.size
        found = np.where(orders < known, NOTHING, orders - known + self.entered)
        is_old = (orders >= 0) & (orders < known)
        found[is_old] = self.before[orders[is_old]]
        return found

    def known(self) -> list[int]:
        """The orders that have an id."""
        return [order for order, cl in enumerate(self.orders.cl) if cl != ABSENT]

    def is_plain(self) -> bool:
        """Whether each order that has an id is named by both of its ids."""
        orders, count = self.orders, len(self.orders.by_oid)
        return not orders.fitting and not orders.foreign and len(orders.by_cl) == count and len(self.known()) == count

    def live(self) -> Live:
        orders, known, texts = self.orders, self.known(), list(self.ids)

        def column(of: Any, dtype: Any) -> Array:
            return np.array([of[order] for order in known], dtype=dtype)

        def keys(of: list[int]) -> Array:
            found = b"".join(texts[of[order] // orders.owners] for order in known)
            return np.frombuffer(found, dtype=U).reshape(-1, WORDS).T

        whole = self.numbers(np.array(known, dtype=np.int64)), column(orders.owner, np.int64)
        return Live(*whole, keys(orders.cl), keys(orders.oid), column(orders.left, np.int64), column(orders.rests, bool))


# ---------------------------------------------------------------- all at once


def bringers(size: int, group: Array, brought: Array, none: int) -> Array:
    """For each id the first of the places that bring it, `none` where there is none."""
    found = np.full(size, none, dtype=np.intp)
    found[group[brought[::-1]]] = brought[::-1]
    return found


def roots(before: Array) -> Array:
    """Where a chain of places ends, each of which names an earlier one or itself."""
    while True:
        further = before[before]
        if np.array_equal(further, before):
            return before
        before = further


class Guess:
    """The orders of a block as guessed. Places are those of the orders that are known already, then of the moves; `none` follows."""

    def __init__(self, live: Live, block: Array) -> None:
        self.live, self.block, self.known, self.none = live, block, live.number.size, live.number.size + block.size
        self.what = what = block["what"]
        self.is_new, self.is_amend, self.is_deal = what <= f.UNRESTED, what == f.AMEND, what == f.DEAL
        volume = block["volume"].astype(np.int64)
        self.volume = np.concatenate([live.left, volume])
        is_known = np.ones(self.known, dtype=bool)
        self.intro = np.concatenate([is_known, self.is_new | ((what <= f.RESTATE) & (volume > 0))])  # has ids and terms of its order
        self.rests = np.concatenate([live.rests, (what == f.NEW) & (volume > 0), [False]])
        self.group()
        self.follow()

    def group(self) -> None:
        """Equal ids as equal numbers: the first place at which each occurs."""
        live, block, size = self.live, self.block, self.none
        owner = np.concatenate([live.owner, block["owner"], block["owner"]]).astype(U)
        names = [np.concatenate([live.cl[word], block["cl"][:, word], block["orig"][:, word]]) for word in range(WORDS)]
        cl = first_of([*names, owner])
        self.has_orig = names[0][size:] != 0
        self.cl, self.orig = cl[:size], cl[size:]
        self.oid = first_of([*(np.concatenate([live.oid[word], block["oid"][:, word]]) for word in range(WORDS)), owner[:size]])

    def follow(self) -> None:
        """The order of each place, that of `none` for those of no order."""
        known, none = self.known, self.none
        later, brought = np.arange(known, none), np.flatnonzero(self.intro)
        self.first_cl = bringers(2 * none, self.cl, brought, none)
        self.first_oid = bringers(none, self.oid, brought, none)
        by_cl, by_oid = self.first_cl[self.orig], self.first_oid[self.oid[known:]]
        by_cl = np.where(self.has_orig & (by_cl < later), by_cl, none)
        by_oid = np.where(by_oid < later, by_oid, none)
        usual = np.where((by_oid < none) | self.is_deal, by_oid, by_cl)
        before = np.where(self.is_amend & (by_cl < none), by_cl, usual)
        self.by_cl, self.by_oid = by_cl, by_oid
        self.order = roots(np.concatenate([np.arange(known), np.where(self.is_new, later, before), [none]]))
        self.of_move, self.brought = self.order[known:-1], brought

    def is_lost(self) -> Array:
        """Which moves are of no order that is known."""
        return self.of_move == self.none

    def is_right(self) -> bool:
        """Whether each move finds what was guessed for it."""
        unnamed = (self.what == f.RESTATE) & (self.block["cl"][:, 0] == 0)  # it keeps an id that is found out one by one
        return not unnamed.any() and self.is_named_once() and self.is_nowhere() and self.is_found()

    def is_named_once(self) -> bool:
        """Whether no two orders have one id, at whatever time."""
        order, brought = self.order, self.brought
        ours = order[brought]
        return bool((order[self.first_cl[self.cl[brought]]] == ours).all() and (order[self.first_oid[self.oid[brought]]] == ours).all())

    def is_nowhere(self) -> bool:
        """Whether the moves of no order name none by their other id either."""
        named = (self.order[self.by_oid] != self.none) | (~self.is_deal & (self.order[self.by_cl] != self.none))
        return not (self.is_lost() & named).any()

    def is_found(self) -> bool:
        """Whether each move finds its order by an id that the order has then, and the order is not over by then. The other id, if it was
        looked for first, is one that the order had before or that nobody had yet: the guess goes by the same id first."""
        none, known = self.none, self.known
        self.turn = turn = np.argsort(self.order[:-1].astype(np.uint16) if none < 1 << 16 else self.order[:-1], kind="stable")
        self.mine = mine = self.order[turn]
        is_first = np.ones(none, dtype=bool)
        is_first[1:] = mine[1:] != mine[:-1]
        self.last = np.maximum.accumulate(np.where(self.intro[turn], np.arange(none), 0))  # the latest ids and terms
        before = np.concatenate([self.last[:1], self.last[:-1]])
        if not self.is_alive(is_first, before):
            return False
        current, move = turn[before], np.maximum(turn - known, 0)
        by_cl = self.has_orig[move] & ~self.is_deal[move] & (self.orig[move] == self.cl[current])
        return bool((by_cl | (self.oid[turn] == self.oid[current]) | is_first | (mine == none)).all())

    def is_alive(self, is_first: Array, before: Array) -> bool:
        """Whether no order has moves after it is over, and none is dealt more than is left of it."""
        turn, mine, known, none = self.turn, self.mine, self.known, self.none
        is_deal = np.concatenate([np.zeros(known, dtype=bool), self.is_deal])[turn] & self.rests[mine]
        volume = self.volume[turn]
        self.dealt = dealt = np.cumsum(np.where(is_deal, volume, 0))
        left = volume[before] - (dealt - np.where(is_deal, volume, 0) - dealt[before])
        removes = np.concatenate([np.zeros(known, dtype=bool), ~self.is_deal & ~self.intro[known:]])[turn]
        self.is_over = removes | (is_deal & (volume == left))
        after = self.is_over[:-1] & ~is_first[1:] & (mine[1:] != none)
        return not after.any() and not (is_deal & (volume > left)).any()

    def left_over(self, number: Array) -> Live:
        """The orders that are known after the block."""
        live, block, last = self.live, self.block, self.last
        ends = np.flatnonzero(np.append(self.mine[1:] != self.mine[:-1], True)) if self.mine.size else np.zeros(0, dtype=np.intp)
        ends = ends[~self.is_over[ends] & (self.mine[ends] != self.none)]
        place, order = self.turn[last[ends]], self.mine[ends]
        left = self.volume[place] - (self.dealt[ends] - self.dealt[last[ends]])
        is_old, move = place < self.known, np.maximum(place - self.known, 0)
        old = np.where(is_old, place, 0)

        def joined(before: Array, now: Array) -> Array:
            return np.where(is_old, before[old], now[move]) if self.known else now[move]

        cl, oid = (np.stack([joined(mine[word], block[name][:, word]) for word in range(WORDS)]) for mine, name in ((live.cl, "cl"), (live.oid, "oid")))
        return Live(number[order], joined(live.owner, block["owner"]).astype(np.int64), cl, oid, left, self.rests[order])
