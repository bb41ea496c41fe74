"""The month's answer to a call, from its twenty words (docs/FORMATS.md), and the line that `replay` prints of it.

>>> answer_of([1, 7] + 18 * [0])
Refused(7, 0, 'no quantum is open')
>>> line(answer_of([0] * 20))
'accepted'
"""

from array import array
from dataclasses import dataclass
from struct import Struct
from typing import Any, Callable, NamedTuple, Optional, Sequence, Union

from quoting.calls import NO_LIMIT, Ticket
from quoting.native import Refused
from quoting.values import Tenths

WORDS = 20
OVER = -1  # as the number of lapses that remain: there were too many


@dataclass(frozen=True)
class Accepted:
    pass


class Cell(NamedTuple):
    """A closed quantum: the time kept, its row's share, lapses against their limit (None: no limit), charges, verdict, weight."""

    kept: int
    length: int
    share: Tenths
    lapses: int
    limit: Optional[int]
    active: int
    passive: int
    met: bool
    weight: int


class Asked(NamedTuple):
    """Both best quotes after the amendment (None: there is none), and its ticket."""

    bid: Optional[int]
    ask: Optional[int]
    ticket: Ticket


class MonthReport(NamedTuple):
    """The open quantum (all 0 and None where none is), the failure counts of the six series, the fee in kopecks."""

    is_open: bool
    time: int
    orders: int
    bid: Optional[int]
    ask: Optional[int]
    kept: int
    lapses: int
    failed: tuple[int, ...]
    fee: int


class Outlook(NamedTuple):
    """What the open quantum still needs: the milliseconds that must still be kept, and those that remain; until when nothing need be kept
    (None: never), and the milliseconds that the full weight still needs (None: it is out of reach); the lapses that remain (None: no limit,
    -1: over it); whether the maker may stop quoting, whether the quantum is lost; the weight if nothing more is kept, and if all the
    remaining time is."""

    need: int
    left: int
    by: Optional[int]
    full: Optional[int]
    lapses: Optional[int]
    rest: bool
    lost: bool
    weight_resting: int
    weight_keeping: int


Answer = Union[Accepted, Refused, Cell, Asked, MonthReport, Outlook]


# ---------------------------------------------------------------- read

# The words of each kind of answer, as they are in memory; a price is signed. Named tuples are made by `new`, in half the time of their own call.
FIRST = Struct("=2I")  # the kind, and the refusal's number
CELL, ASKED, REPORT, OUTLOOK = Struct("=12x11I"), Struct("=8xIiIi2Ii3I"), Struct("=8x3IIiIi10I"), Struct("=8x12I")

ACCEPTED = Accepted()
new = tuple.__new__


def cell_in(words: Any) -> Cell:
    kept, length, share, limit, lapses, active, active_high, passive, passive_high, met, weight = CELL.unpack_from(words)
    charges = active | active_high << 32, passive | passive_high << 32
    return new(Cell, (kept, length, Tenths(share), lapses, None if limit == NO_LIMIT else limit, *charges, met == 1, weight))


def asked_in(words: Any) -> Asked:
    has_bid, bid, has_ask, ask, t, id, price, volume, count, count_high = ASKED.unpack_from(words)
    ticket = object.__new__(Ticket)
    vars(ticket).update(t=t, id=id, price=price, volume=volume, count=count | count_high << 32)  # its own __init__ sets field after field
    return new(Asked, (bid if has_bid else None, ask if has_ask else None, ticket))


def report_in(words: Any) -> MonthReport:
    is_open, time, orders, has_bid, bid, has_ask, ask, kept, lapses, a, b, c, d, e, f, fee, fee_high = REPORT.unpack_from(words)
    bid, ask = bid if has_bid else None, ask if has_ask else None
    return new(MonthReport, (is_open == 1, time, orders, bid, ask, kept, lapses, (a, b, c, d, e, f), fee | fee_high << 32))


def outlook_in(words: Any) -> Outlook:
    need, left, has_by, by, has_full, full, limited, lapses, rest, lost, resting, keeping = OUTLOOK.unpack_from(words)
    lapses = lapses if limited == 2 else OVER if limited else None
    by, full = by if has_by else None, full if has_full else None
    return new(Outlook, (need, left, by, full, lapses, rest == 1, lost == 1, resting, keeping))


READERS: list[Callable[[Any], Answer]] = [
    lambda words: ACCEPTED, lambda words: Refused.of(FIRST.unpack_from(words)[1]), cell_in, asked_in, report_in, outlook_in,
]


def answer_in(words: Any) -> Answer:
    """The answer that is in a buffer of twenty words."""
    kind: int = FIRST.unpack_from(words)[0]
    return READERS[kind](words)


def answer_of(words: Sequence[int]) -> Answer:
    """The answer that twenty words are."""
    return answer_in(array("I", words))


# ---------------------------------------------------------------- as a line


def quote_text(price: Optional[int]) -> str:
    return "absent" if price is None else str(price)


def verdict_text(met: bool) -> str:
    return "met" if met else "failed"


def outlook_line(answer: Outlook) -> str:
    by, full = ("never" if number is None else number for number in (answer.by, answer.full))
    lapses = {None: "none", OVER: "over"}.get(answer.lapses, answer.lapses)
    flags = f"rest {'yes' if answer.rest else 'no'} lost {'yes' if answer.lost else 'no'}"
    weights = f"weight {answer.weight_resting} {answer.weight_keeping}"
    return f"outlook need {answer.need} left {answer.left} by {by} full {full} lapses {lapses} {flags} {weights}"


def line(answer: Answer) -> str:
    """The line that `replay` prints of an answer."""
    if isinstance(answer, Refused):
        return f"refused {answer.number}"
    if isinstance(answer, Cell):
        limit = "none" if answer.limit is None else answer.limit
        return (
            f"cell kept {answer.kept} of {answer.length} share {int(answer.share)} lapses {answer.lapses} limit {limit}"
            f" active {answer.active} passive {answer.passive} verdict {verdict_text(answer.met)} weight {answer.weight}"
        )
    if isinstance(answer, Asked):
        t = answer.ticket
        ticket = f"{t.t} {t.id} {t.price} {t.volume} count {t.count}"
        return f"asked bid {quote_text(answer.bid)} ask {quote_text(answer.ask)} ticket {ticket}"
    if isinstance(answer, MonthReport):
        quotes = f"bid {quote_text(answer.bid)} ask {quote_text(answer.ask)}"
        failed = " ".join(map(str, answer.failed))
        return (
            f"report open {'yes' if answer.is_open else 'no'} time {answer.time} orders {answer.orders} {quotes}"
            f" kept {answer.kept} lapses {answer.lapses} failed {failed} fee {answer.fee}"
        )
    return outlook_line(answer) if isinstance(answer, Outlook) else "accepted"
