"""What each fill of a quantum did: the best quotes and the depth before and after it, and the kept time that was lost until the quote was
back."""

from dataclasses import dataclass
from typing import Iterable, Optional

from quoting.events import SIDES, Add, Amend, Cancel, Deal, Event
from quoting.sessions import Session

BUY, SELL = SIDES["buy"], SIDES["sell"]


@dataclass(frozen=True)
class Quotes:
    """The best prices and all volume of each side; a price is None where the side has no order."""

    bid: Optional[int]
    bid_depth: int
    ask: Optional[int]
    ask_depth: int


@dataclass(frozen=True)
class Fill:
    """A fill, in milliseconds from the quantum's start. `lost` is the time from it to the next kept stretch, or to the quantum's end, where
    the quote was kept up to it and not after it."""

    t: int
    order: int
    volume: int
    before: Quotes
    after: Quotes
    lost: int


class Book:
    """The orders of a quantum as its events leave them."""

    def __init__(self) -> None:
        self.orders: dict[int, list[int]] = {}  # side, price, volume

    def take(self, event: Event) -> None:
        if isinstance(event, Add):
            self.orders[event.id] = [SIDES[event.side], event.price, event.volume]
        elif isinstance(event, Amend):
            self.orders[event.id][1:] = [event.price, event.volume]
        elif isinstance(event, Cancel):
            del self.orders[event.id]
        elif isinstance(event, Deal):
            self.orders[event.id][2] -= event.volume
            if not self.orders[event.id][2]:
                del self.orders[event.id]

    def quotes(self) -> Quotes:
        bids, asks = ([order for order in self.orders.values() if order[0] == side] for side in (BUY, SELL))
        best_bid, best_ask = max((order[1] for order in bids), default=None), min((order[1] for order in asks), default=None)
        return Quotes(best_bid, sum(order[2] for order in bids), best_ask, sum(order[2] for order in asks))


def lost_at(pairs: list[tuple[int, int]], length: int, t: int) -> int:
    """The time that is not kept from t on, where a kept stretch ends there."""
    if not any(offset + size == t for offset, size in pairs):
        return 0
    return min((offset for offset, _ in pairs if offset >= t), default=length) - t


def fills_of(events: Iterable[Event], metered: Session) -> list[Fill]:
    """The fills of a quantum that the meter accepted."""
    book, pairs, found = Book(), metered.pairs, []
    for event in events:
        before = book.quotes() if isinstance(event, Deal) else None
        book.take(event)
        if isinstance(event, Deal) and before is not None:
            t = int(event.t)
            found.append(Fill(t, event.id, event.volume, before, book.quotes(), lost_at(pairs, metered.length, t)))
    return found
