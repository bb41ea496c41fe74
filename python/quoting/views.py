"""The open quantum of a month now, as the library shows it."""

from functools import lru_cache
from struct import Struct
from typing import Any, NamedTuple, Optional, Union

from quoting.answers import new
from quoting.calls import NO_LIMIT, Strike
from quoting.events import SIDE_NAMES, Side
from quoting.rows import Row
from quoting.states import State

MOST_WORDS = 17 + 4 * 64


class LiveOrder(NamedTuple):
    id: int
    side: Side
    price: int
    volume: int


class View(NamedTuple):
    """The open quantum: its day and row, what its spread limit goes by (SP or a strike's four numbers), its lapse limit, the widest D
    allowed, the state that its orders are in now, and the live orders in the order in which they were added."""

    day: int
    row: Row
    spread: Union[int, Strike]
    limit: Optional[int]
    widest: int
    state: State
    orders: tuple[LiveOrder, ...]


# The words of a view before its orders, those of an order, and that of the state, as they are in memory. The tenth is SP, which is signed,
# or a strike's a.
HEAD, ORDER, STATE = Struct("=9Ii7I"), Struct("=2IiI"), Struct("=60xI")
STATES = tuple(State)  # by their numbers

row_of = lru_cache(maxsize=256)(Row.of_words)  # an open quantum's row is the same from view to view


def view_in(words: Any) -> View:
    """The view that is in a buffer of words."""
    head = HEAD.unpack_from(words)
    limit, widest, state, count = head[13:]
    spread = Strike(*head[9:13]) if head[8] else head[9]
    found = ORDER.iter_unpack(words[HEAD.size : HEAD.size + ORDER.size * count])
    orders = tuple([new(LiveOrder, (id, SIDE_NAMES[side], price, volume)) for id, side, price, volume in found])
    return new(View, (head[0], row_of(head[1:8]), spread, None if limit == NO_LIMIT else limit, widest, STATES[state], orders))


def state_in(words: Any) -> State:
    """The state alone."""
    state: int = STATE.unpack_from(words)[0]
    return STATES[state]
