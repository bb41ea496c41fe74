"""Which order each move is about: blocks of moves at once against the moves one by one, on random lists of few ids."""

import random
from collections import Counter
from typing import Any, NamedTuple

import numpy as np
import pytest

from quoting.exchange import fields as f
from quoting.exchange import keys
from quoting.exchange.following import Following
from quoting.exchange.moves import MOVE
from quoting.exchange.orders import ABSENT, NOTHING, Orders

DAY = 20_000


class Sent(NamedTuple):
    """A move by small numbers; 0 is an id that it does not have."""

    what: int
    owner: int
    cl: int
    orig: int
    oid: int
    side: int
    volume: int


class Exchange:
    """Reports of an orderly exchange, with some that are not: ids again, unknown orders, moves after the end, deals of too much."""

    def __init__(self, r: random.Random, wrong: float, is_moving: bool) -> None:
        self.r, self.wrong, self.is_moving = r, wrong, is_moving
        self.live: list[list[int]] = []  # owner, ClOrdID, OrderID, volume, and the OrderID before
        self.next = 1

    def fresh(self) -> int:
        self.next += 1
        return self.next

    def sent(self) -> Sent:
        made = self.orderly()
        return made if self.r.random() >= self.wrong else self.spoilt(made)

    def orderly(self) -> Sent:
        r = self.r
        if not self.live or r.random() < 0.2:
            owner, cl, oid, volume = r.randrange(2), self.fresh(), self.fresh(), r.randint(0, 3)
            what = r.choice([f.NEW, f.NEW, f.NEW, f.UNRESTED])
            self.live.append([owner, cl, oid, volume, oid])
            return Sent(what, owner, cl, 0, oid, r.choice([1, 2]), volume)
        order = r.choice(self.live)
        owner, old, oid, volume, before = order
        what = r.choice([f.AMEND, f.AMEND, f.AMEND, f.RESTATE, f.REMOVE, f.DEAL])
        if what in (f.AMEND, f.RESTATE):
            order[1] = self.fresh() if what == f.AMEND else old
            order[2], order[4] = self.fresh() if self.is_moving else oid, oid
            order[3] = r.choice([0, 1, 2, 3, 5])
            if not order[3]:
                self.live.remove(order)
            orig = r.choice([old, old, 0]) if not self.is_moving else old
            return Sent(what, owner, order[1], orig, oid if what == f.RESTATE and not r.randrange(3) else order[2], 0, order[3])
        dealt = r.randint(1, max(volume, 1)) if what == f.DEAL else 0
        order[3] -= dealt
        if what == f.REMOVE or order[3] <= 0:
            self.live.remove(order)
        named = before if r.random() < self.wrong else oid
        return Sent(what, owner, old, r.choice([old, 0, old - 1]), named, r.choice([1, 1, 0]), dealt)

    def spoilt(self, made: Sent) -> Sent:
        r = self.r
        any_id = r.randint(1, self.next)
        changed: dict[str, Any] = r.choice([
            {"cl": any_id}, {"orig": any_id}, {"oid": any_id}, {"volume": made.volume + 5}, {"owner": 1 - made.owner}, {"what": r.randint(f.NEW, f.DEAL)},
            {"orig": 0, "oid": self.next + 50}, {"cl": 0},
        ])  # fmt: skip
        made = made._replace(**changed)
        if made.what == f.DEAL and not made.volume:
            made = made._replace(volume=1)
        return made if made.cl or made.what >= f.RESTATE else made._replace(cl=any_id)


def block_of(moves: list[Sent]) -> Any:
    made = np.zeros(len(moves), dtype=MOVE)
    for name in ("what", "owner", "side", "volume"):
        made[name] = [getattr(move, name) for move in moves]
    for name in ("cl", "orig", "oid"):
        made[name][:, 0] = [getattr(move, name) for move in moves]
    made["time"] = DAY * f.DAY
    return made


def one_by_one(moves: list[Sent], fitting: dict[int, list[int]], foreign: frozenset[int]) -> tuple[list[tuple[int, int]], Orders]:
    """The order that each move changes, with its owner."""
    orders = Orders(2, fitting, foreign)
    orders.take((*move[:2], *(id * 2 + move.owner if id else ABSENT for id in move[2:5]), *move[5:]) for move in moves)
    return [(order, orders.owner[order] if order != NOTHING else NOTHING) for order in orders.changed], orders


def at_once(r: random.Random, moves: list[Sent], fitting: dict[int, list[int]], foreign: frozenset[int]) -> tuple[list[tuple[int, int]], Following]:
    following, found, at = Following(2, fitting, foreign), [], 0
    most = r.choice([1, 3, 10, 60, len(moves)])
    while at < len(moves):
        size = r.randint(1, most)
        changed = following.take(block_of(moves[at : at + size]))
        orders = changed.order.tolist()
        found += list(zip(orders, [NOTHING if order == NOTHING else owner for order, owner in zip(orders, changed.owner.tolist())]))
        assert (changed.replaced == NOTHING).all()
        at += size
    return found, following


def test_blocks(request: pytest.FixtureRequest, note: Any) -> None:
    """The same orders, problems and overfilled deals; guesses that are right, that are not, and that are again right after that."""
    met: Counter[str] = Counter()
    for seed in range(1500 if request.config.getoption("--quick") else 5_000):
        r = random.Random(seed + 100_000 * request.config.getoption("--seed"))
        exchange = Exchange(r, r.choice([0, 0, 0.01, 0.05, 0.3]), r.random() < 0.5)
        moves = [exchange.sent() for _ in range(r.choice([3, 20, 100]))]
        fitting, foreign = r.choice([({}, frozenset())] * 8 + [({0: [1]}, frozenset()), ({0: [1]}, frozenset([0]))])
        due, orders = one_by_one(moves, fitting, foreign)
        found, following = at_once(r, moves, fitting, foreign)
        assert found == due, seed
        assert following.problems == orders.problems and following.overfilled == orders.overfilled and following.strangers == orders.strangers, seed
        met.update(guessed=following.guessed, read=following.read, changes=sum(order != NOTHING for order, _ in due), problems=len(orders.problems))
        met["both"] += bool(following.guessed and following.read)
        met["unknown while guessed"] += bool(not following.read and orders.problems)
    assert all(met[each] > 100 for each in ("guessed", "read", "changes", "problems", "both", "unknown while guessed")), met
    note(f"orders followed: {met['guessed']:,} blocks guessed, {met['read']:,} one by one, {met['changes']:,} changes")


def test_same_hash(monkeypatch: pytest.MonkeyPatch) -> None:
    """Ids whose hashes are the same are told apart."""
    monkeypatch.setattr(keys, "hashes", lambda found: np.zeros(found[0].size, dtype=np.uint64))
    r = random.Random(5)
    found = [np.array([r.randrange(30) for _ in range(400)], dtype=np.uint64), np.array([r.randrange(3) for _ in range(400)], dtype=np.uint64)]
    pairs = list(zip(*(part.tolist() for part in found)))
    assert keys.first_of(found).tolist() == [pairs.index(pair) for pair in pairs]
