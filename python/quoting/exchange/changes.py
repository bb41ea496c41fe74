"""What moves change, as rows of timelines, for a block of moves at once."""

from typing import Any

import numpy as np

from quoting.exchange import fields as f
from quoting.exchange.following import Changed, Following
from quoting.exchange.orders import AMENDED, DEALT, NOTHING, REMOVED
from quoting.exchange.timelines import CHANGE

Array = Any
BY_SIDE = 255
LAYOUT = np.dtype(CHANGE)
PLAIN = np.dtype(("V", LAYOUT.itemsize))  # numpy copies plain bytes faster than fields


def kinds() -> Array:
    """The kind of the change by what the move is."""
    made = np.full(f.ASK_REPLACE_UNRESTED + 1, REMOVED, dtype=np.uint8)
    made[[f.NEW, f.ASK, f.ASK_REPLACE]], made[[f.AMEND, f.RESTATE]], made[f.DEAL] = BY_SIDE, AMENDED, DEALT
    return made


KINDS = kinds()


def joined(parts: list[Array]) -> Array:
    """The changes of several blocks, as `sort_in` put them, in one array."""
    return np.concatenate(parts).view(LAYOUT)


def sort_in(changes: dict[int, list[Array]], block: Array, following: Following) -> None:
    """Adds what a block of moves changes to the changes of each owner: the order's owner, which a message need not say."""
    first = following.place
    changed = following.take(block)
    made, owner = changes_of(block, changed, {at - first: left for at, left in following.overfilled.items() if at >= first})
    for each in np.flatnonzero(np.bincount(owner)).tolist():
        changes.setdefault(each, []).append(made.view(PLAIN)[owner == each])


def changes_of(block: Array, changed: Changed, overfilled: dict[int, int]) -> tuple[Array, Array]:
    """What the moves of a block change, in their order, and the owner of each order. `overfilled` has by the place of a deal what was left
    of the order where it was dealt more."""
    place = np.flatnonzero(changed.order != NOTHING)
    made, owner = np.zeros(place.size, dtype=LAYOUT), changed.owner[place]
    for name in ("time", "price", "volume", "file", "line", "seq"):
        made[name] = block[name][place]
    for at, left in overfilled.items():
        made["volume"][np.searchsorted(place, at)] = left
    kind = KINDS[block["what"][place]]
    kind = np.where(kind == BY_SIDE, block["side"][place], np.where((kind == AMENDED) & (made["volume"] == 0), REMOVED, kind))
    made["kind"], made["order"] = kind, changed.order[place] + 1
    over = np.flatnonzero(kind == REMOVED)
    made["price"][over], made["volume"][over] = 0, 0
    gone = np.flatnonzero(changed.replaced != NOTHING)
    return with_replaced(made, owner, place, block[gone], changed, gone) if gone.size else (made, owner)


def with_replaced(made: Array, owner: Array, place: Array, moves: Array, changed: Changed, gone: Array) -> tuple[Array, Array]:
    """The changes, with a removal of each replaced order before the new one comes."""
    removed = np.zeros(gone.size, dtype=LAYOUT)
    for name in ("time", "file", "line", "seq"):
        removed[name] = moves[name]
    removed["kind"], removed["order"] = REMOVED, changed.replaced[gone] + 1
    turn = np.argsort(np.concatenate([2 * gone, 2 * place + 1]), kind="stable")
    return np.concatenate([removed.view(PLAIN), made.view(PLAIN)])[turn].view(LAYOUT), np.concatenate([changed.owner[gone], owner])[turn]
