"""The words of a month: where each one is, and the check of words that come from outside (crates/month/specs/Words.antt).

Every word has one value for each month, so the words of the open quantum can be computed again from its row and its orders: `Month.from_words`
does that through the library. Here is the rest: each word by itself, ids, the clock and the cells.
"""

import struct
from dataclasses import dataclass
from typing import Iterator, NoReturn, Optional, Union

from quoting import ranges
from quoting.calls import NO_LIMIT, Strike, signed
from quoting.events import Side
from quoting.ranges import Span

COUNT = 2_464
OPEN, PLACE, SHARE, LIMIT = range(4)
ACCEPTED = 4  # the count of accepted calls: 4 its low word, 5 its high word
QUANTUM = 6  # the open quantum, up to the cells
LENGTH, MINIMUM, WIDEST, TIME, KEPT, KEEPS, LAPSES, LAST = range(6, 14)
SIDE_STARTS: dict[Side, int] = {"buy": 16, "sell": 272}  # each: 64 ids, 64 keys of prices, 64 volumes, 64 of which the first is their number
KEYS, VOLUMES, NUMBER = 64, 128, 192  # from a side's first word on
ARRIVALS = 528  # 64 ids in the order in which they were added
ROW, SPREAD = 592, 599
CELLS, CELL_WORDS = 604, 10

CLOCK = range(TIME, LAST + 1)
MOST_ORDERS = 64
ZERO_KEY = 1_000_000_001  # the key of the price 0
PRICES: Span = (-1_000_000_000, 1_000_000_000)
LIMITS: Span = (0, 1_000)  # of lapses; or NO_LIMIT

# A row's words and those of a strike, with their ranges (documents 01 and 02).
ROW_SPANS: dict[str, Span] = {
    "the expiry": (1, 2), "the quantum": (0, 2), "L": (1_000, 86_400_000), "M": (1, 100_000), "a": (0, 100_000), "b": (0, 1_000_000), "p": (1, 799),
}
STRIKE_SPANS: dict[str, Span] = {"a strike's a": (0, 200), "a strike's difference": (0, 100_000), "a strike's days": (0, 365), "a strike's b": (0, 1_000_000)}
CELL_SPANS: dict[str, Span] = {
    "whether the cell is filled": (0, 1), "the cell's K": (0, 86_400_000), "the cell's L": (1_000, 86_400_000), "the cell's p": (1, 799),
    "the cell's lapse limit": (0, NO_LIMIT), "the cell's lapses": (0, 86_400_000),
}
MOST_CHARGE = 100_000_000_000


@dataclass(frozen=True)
class Order:
    id: int
    side: Side
    price: int
    volume: int


@dataclass(frozen=True)
class Opening:
    """What the open quantum was opened with, and its orders in the order in which they were added."""

    row: list[int]
    day: int
    spread: Union[int, Strike]
    limit: int
    orders: list[Order]


def wrong(at: int, what: str) -> NoReturn:
    raise ValueError(f"these are not a month's words: word {at}, {what}")


def within(w: tuple[int, ...], at: int, span: Span, name: str) -> int:
    low, high = span
    if not low <= w[at] <= high:
        wrong(at, f"{name}, is {w[at]}, it must be {low} to {high}")
    return w[at]


def is_limit(number: int) -> bool:
    return number == NO_LIMIT or LIMITS[0] <= number <= LIMITS[1]


# ---------------------------------------------------------------- the whole


def read(data: bytes) -> tuple[int, ...]:
    """The words that are in bytes, low byte first."""
    given = ranges.data(data, "words")
    if len(given) != 4 * COUNT:
        raise ValueError(f"a month's words are {4 * COUNT} bytes, got {len(given)}")
    return struct.unpack(f"<{COUNT}I", given)


def opening(w: tuple[int, ...]) -> Optional[Opening]:
    """The open quantum, None where none is open; a ValueError names the first word found to be outside its range."""
    is_open = within(w, OPEN, (0, 1), "whether a quantum is open")
    filled = sum(check_cell(w, at) for at in range(CELLS, COUNT, CELL_WORDS))
    found = check_quantum(w) if is_open else None
    least = 2 * filled + (1 + len(found.orders) if found else 0)
    count = w[ACCEPTED] + (w[ACCEPTED + 1] << 32)
    if count < least:
        wrong(ACCEPTED, f"the count of accepted calls, is {count}, and the cells and orders took at least {least}")
    return found


def check_quantum(w: tuple[int, ...]) -> Opening:
    place = within(w, PLACE, (0, 185), "the place of the cell")
    if w[CELLS + CELL_WORDS * place]:
        wrong(CELLS + CELL_WORDS * place, "whether the cell is filled, is 1, but its quantum is open")
    if not is_limit(w[LIMIT]):
        wrong(LIMIT, f"the lapse limit, is {w[LIMIT]}, it must be {LIMITS[0]} to {LIMITS[1]}, or {NO_LIMIT} for none")
    spread, orders = check_spread(w), check_orders(w)
    for at, (name, span) in enumerate(ROW_SPANS.items(), start=ROW):
        if name not in ("a", "b") or not isinstance(spread, Strike):  # a strike's open does not read these two
            within(w, at, span, name)
    if w[ROW + 2] % 1_000:
        wrong(ROW + 2, f"L, is {w[ROW + 2]}, not a multiple of 1000")
    check_clock(w[TIME], w[KEPT], w[LAPSES], w[LAST], w[ROW + 2])
    return Opening(list(w[ROW:SPREAD]), place // 6 + 1, spread, w[LIMIT], orders)


def check_spread(w: tuple[int, ...]) -> Union[int, Strike]:
    if within(w, SPREAD, (0, 1), "whether it is a strike"):
        return Strike(*(within(w, at, span, name) for at, (name, span) in enumerate(STRIKE_SPANS.items(), start=SPREAD + 1)))
    sp = signed(w[SPREAD + 1])
    if not PRICES[0] <= sp <= PRICES[1]:
        wrong(SPREAD + 1, f"SP, is {sp}, it must be {PRICES[0]} to {PRICES[1]}")
    return sp


# ---------------------------------------------------------------- orders


def orders_of(w: tuple[int, ...], side: Side) -> Iterator[tuple[int, Order]]:
    """The orders of a side, with the word of the id."""
    first = SIDE_STARTS[side]
    for at in range(first, first + within(w, first + NUMBER, (0, MOST_ORDERS), f"the number of {side} orders")):
        key = within(w, at + KEYS, (ZERO_KEY + PRICES[0], ZERO_KEY + PRICES[1]), "the key of an order's price")
        volume = within(w, at + VOLUMES, (1, 1_000_000), "an order's volume")
        yield at, Order(w[at], side, key - ZERO_KEY if side == "buy" else ZERO_KEY - key, volume)


def check_orders(w: tuple[int, ...]) -> list[Order]:
    """The orders as they were added: ids are distinct, and the notes have the same as the table."""
    known: dict[int, Order] = {}
    for side in SIDE_STARTS:
        for at, order in orders_of(w, side):
            if order.id in known:
                wrong(at, f"an order's id, is {order.id}, which another order has")
            known[order.id] = order
    if len(known) > MOST_ORDERS:
        wrong(SIDE_STARTS["sell"] + NUMBER, f"the number of sell orders, is {w[SIDE_STARTS['sell'] + NUMBER]}, which makes {len(known)} orders of {MOST_ORDERS} at most")
    arrived = w[ARRIVALS : ARRIVALS + len(known)]
    for at, id in enumerate(arrived):
        if id not in known or id in arrived[:at]:
            wrong(ARRIVALS + at, f"an id as it was added, is {id}, " + ("which is there twice" if id in known else "which no order has"))
    return [known[id] for id in arrived]


# ---------------------------------------------------------------- the clock, and cells


def check_lapses(at: int, kept: int, time: int, lapses: int, last: int) -> None:
    """So many lapses can be in a time of which so much was kept; `last` is 1 where its last millisecond was kept."""
    lost = time - kept
    low, high = min(lost, 1), min(lost, kept + 1 - last)
    if not low <= lapses <= high:
        wrong(at, f"the lapses, is {lapses}, with {kept} ms kept of {time} it must be {low} to {high}")


def check_clock(time: int, kept: int, lapses: int, last: int, length: int) -> None:
    if time > length:
        wrong(TIME, f"the time, is {time}, after the quantum's end {length}")
    if kept > time:
        wrong(KEPT, f"the time kept, is {kept} of {time}")
    if last > min(kept, 1) or (not last and time and kept == time):
        wrong(LAST, f"whether the last millisecond was kept, is {last}, with {kept} ms kept of {time}")
    check_lapses(LAPSES, kept, time, lapses, last)


def check_cell(w: tuple[int, ...], at: int) -> int:
    """1 where the cell at that word is filled, 0 where it is blank."""
    cell = w[at : at + CELL_WORDS]
    if not any(cell):
        return 0
    if not cell[0]:
        wrong(at, "whether the cell is filled, is 0, but others of its words are not 0")
    for place, (name, span) in enumerate(CELL_SPANS.items(), start=at):
        within(w, place, span, name)
    _, kept, length, _, limit, lapses, *_ = cell
    if kept > length:
        wrong(at + 1, f"the cell's K, is {kept} of {length}")
    if length % 1_000:
        wrong(at + 2, f"the cell's L, is {length}, not a multiple of 1000")
    if not is_limit(limit):
        wrong(at + 4, f"the cell's lapse limit, is {limit}, it must be {LIMITS[0]} to {LIMITS[1]}, or {NO_LIMIT} for none")
    check_lapses(at + 5, kept, length, lapses, 0)
    for place in (6, 8):
        charge = cell[place] + (cell[place + 1] << 32)
        if charge > MOST_CHARGE:
            wrong(at + place, f"a charge of the cell, is {charge}, it must be 0 to {MOST_CHARGE}")
    return 1
