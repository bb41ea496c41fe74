"""What a reader of logs works with: whose messages are read, what was counted, the moves of a source, and what comes of them."""

from collections import Counter
from dataclasses import dataclass, field
from decimal import Decimal, InvalidOperation
from typing import Any, Collection, Literal, Mapping, Optional, Union

from quoting.exchange import fields as f
from quoting.exchange.fields import Move
from quoting.exchange.reasons import Reason, Reasons, Why
from quoting.exchange.timelines import Timeline

Source = Literal["reports", "requests", "auto"]
Accounts = Union[None, Collection[str], Mapping[str, Optional[Collection[str]]]]


@dataclass
class Counts:
    """How many messages of which kind were met."""

    messages: int = 0
    moves: int = 0  # reports or requests of ours that may change an order
    fills: int = 0
    rejects: int = 0  # 150=8
    cancel_rejects: int = 0  # 35=9
    duplicates: int = 0  # reports whose ExecID was read before
    reports: int = 0  # 35=8
    unread: int = 0  # reports and rejected cancels of these symbols and accounts, where requests are read
    requests: int = 0  # 35=D, F and G
    damaged: int = 0  # what starts like a message and is none
    types: "Counter[str]" = field(default_factory=Counter)  # messages of other types (35)


def step_of(step: Union[Decimal, str]) -> Decimal:
    try:
        found = Decimal(step)
    except InvalidOperation:
        raise ValueError(f"{step!r} is not a price step") from None
    if not found.is_finite() or found <= 0:
        raise ValueError(f"{step!r} is not a price step: a decimal above 0")
    return found


class Scope:
    """Which symbols and accounts are read, by which steps. `usual` is the step of symbols that are not listed; None: they are not read."""

    def __init__(self, steps: Mapping[str, Union[Decimal, str]], accounts: Accounts, usual: Union[None, Decimal, str]) -> None:
        self.steps = {bytes_of(name): step_of(step) for name, step in steps.items()}
        self.usual = None if usual is None else step_of(usual)
        by_symbol = isinstance(accounts, Mapping)
        self.everywhere = None if accounts is None or by_symbol else frozenset(map(bytes_of, accounts))
        listed = accounts if isinstance(accounts, Mapping) else {}
        self.accounts = {bytes_of(name): None if given is None else frozenset(map(bytes_of, given)) for name, given in listed.items()}
        self.owners: list[tuple[bytes, bytes]] = []
        self.numbers: dict[tuple[bytes, bytes], int] = {}

    def step(self, symbol: bytes) -> Optional[Decimal]:
        """The price step of a symbol, None where the symbol is not read. A message without a symbol may belong to the only one."""
        found = self.steps.get(symbol, self.usual)
        return next(iter(self.steps.values())) if found is None and not symbol and len(self.steps) == 1 else found

    def listed(self, symbol: bytes) -> Optional[frozenset[bytes]]:
        """The accounts that are read of a symbol, None for all."""
        return self.accounts.get(symbol, self.everywhere)

    def owner(self, symbol: bytes, account: bytes) -> int:
        """The owner's number, -1 where its messages are not read. A message without an account may belong to one that is listed."""
        known = self.numbers.get((symbol, account))
        if known is not None:
            return known
        if self.step(symbol) is None or not self.has_account(symbol, account):
            return -1
        self.numbers[symbol, account] = len(self.owners)
        self.owners.append((symbol, account))
        return len(self.owners) - 1

    def has_account(self, symbol: bytes, account: bytes) -> bool:
        listed = self.listed(symbol)
        return listed is None or not account or account in listed

    def may_be_ours(self, symbol: bytes, account: bytes) -> bool:
        """Whether an answer may be one to a request that is read: what it does not say excludes nothing."""
        return (not symbol or self.step(symbol) is not None) and self.has_account(symbol, account)

    def names(self, owner: int) -> tuple[str, str]:
        symbol, account = self.owners[owner]
        return f.text_of(symbol), f.text_of(account)

    def foreign(self) -> frozenset[int]:
        """The owners whose account is not said where some are listed: their messages count only where they name an order of these."""
        return frozenset(n for n, (symbol, account) in enumerate(self.owners) if not account and self.listed(symbol) is not None)

    def is_nameless(self, owner: int) -> bool:
        """Whether a new order of that owner must say its symbol, and does not."""
        return not self.owners[owner][0] and self.usual is None and b"" not in self.steps

    def nameless(self) -> list[int]:
        return [owner for owner in range(len(self.owners)) if self.is_nameless(owner)]

    def fitting(self) -> dict[int, list[int]]:
        """For each owner of whom symbol or account is not said, the others that it may be."""
        found = {}
        for n, (symbol, account) in enumerate(self.owners):
            if not symbol or not account:
                fits = [m for m, other in enumerate(self.owners) if m != n and symbol in (b"", other[0]) and account in (b"", other[1])]
                found.update({n: fits} if fits else {})
        return found


def bytes_of(name: str) -> bytes:
    return name.encode("utf-8", "surrogateescape")


class Book:
    """The moves of one source (reports or requests), with what was refused on the way."""

    def __init__(self) -> None:
        self.moves: list[Move] = []
        self.parts: list[Any] = []  # the moves that were read many at once, an array each
        self.reasons = Reasons()
        self.others: Counter[tuple[str, str]] = Counter()  # messages of other symbols and accounts


@dataclass
class Settled:
    """What came out of all moves: the timelines, what could not be applied, and messages of other accounts that did not say so."""

    timelines: dict[tuple[str, str], Timeline]
    reasons: Reasons
    others: "Counter[tuple[str, str]]"


def reason_of(why: Why, names: tuple[str, str], file: str, line: int, time: int, ids: tuple[bytes, bytes, bytes], volume: int) -> Reason:
    """The reason that a move could not be applied. `ids` are its ClOrdID, OrigClOrdID and OrderID."""
    cl, orig, oid = ids
    tag, value = (37, oid) if oid else (41, orig) if orig and why is not Why.LIVE else (11, cl)
    name = f.text_of(value)
    sentences = {
        Why.UNKNOWN: f"the order {tag}={name} is not known, and the message changes nothing",
        Why.LIVE: f"an order {tag}={name} is live already, and the message changes nothing",
        Why.OVERFILL: f"{volume:,} were dealt of the order {tag}={name}, which is more than is left of it",
        Why.SIDE: f"the order {tag}={name} is of the other side, and the replace changes nothing",
        Why.UNRESTED: f"the order {tag}={name} never rested, and the message changes nothing",
    }
    return Reason(why, sentences[why], file, line, tag, name, *names, f.date_text(time))
