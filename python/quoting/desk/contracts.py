"""The contracts of a desk: which symbol an instrument's expiry has on which days, and whose orders count."""

from dataclasses import dataclass
from typing import Any, Iterator, Optional, Sequence

from quoting.desk import fields
from quoting.desk.faults import Faults
from quoting.desk.fields import Fields
from quoting.desk.programme import Programme


@dataclass(frozen=True)
class Contract:
    """An instrument's expiry as a symbol (tag 55), from one day of the month to another, both included. Without accounts all orders of
    the symbol count."""

    instrument: str
    expiry: int
    symbol: str
    first: int
    last: int
    accounts: Optional[tuple[str, ...]] = None
    strike: str = ""  # of an option

    @property
    def month(self) -> str:
        """The name of the month that its cells are in: the instrument's, of an option the strike's."""
        return f"{self.instrument}.{self.strike}" if self.strike else self.instrument

    def applies(self, day: int) -> bool:
        return self.first <= day <= self.last

    def shares_account(self, other: "Contract") -> bool:
        return self.accounts is None or other.accounts is None or bool(set(self.accounts) & set(other.accounts))


def read_contract(given: Fields, programme: Optional[Programme], last: int) -> Optional[Contract]:
    """One `[[contract]]`; `last` is the month's last day, and `to` may be any day up to 31."""
    before, day = len(given.faults.found), fields.whole(1, 31)
    instrument = given.take("instrument", fields.text)
    expiry = given.take("expiry", fields.whole(1, 2))
    symbol = given.take("symbol", fields.text)
    first = given.take("from", day, is_required=False)
    to = given.take("to", day, is_required=False)
    accounts = given.take("accounts", fields.list_of(fields.text, least=1), is_required=False)
    strike = given.take("strike", fields.text, is_required=False)
    given.finish()
    if programme is not None and instrument in programme.instruments:
        check_strike(given, instrument, strike, list(programme.instruments[instrument].strikes))
    if programme is not None and instrument is not None and instrument not in programme.instruments:
        given.add("instrument", f"the programme has no {instrument!r}, expected {fields.listed(list(programme.instruments))}")
    if first is not None and to is not None and first > to:
        given.add("to", f"{to} is before `from`, {first}")
    if len(given.faults.found) > before:
        return None
    assert instrument is not None and expiry is not None and symbol is not None
    return Contract(instrument, expiry, symbol, first or 1, to or last, tuple(accounts) if accounts else None, strike or "")


def check_strike(given: Fields, instrument: str, strike: Optional[str], known: list[str]) -> None:
    """A contract of an option names one of its strikes, and no other contract does."""
    if strike is None and known:
        given.add("strike", f"missing, expected one of {instrument}'s strikes: {fields.listed(known)}")
    if strike is not None and strike not in known:
        given.add("strike", f"{instrument} has no strike {strike!r}, expected {fields.listed(known)}")


def read_all(faults: Faults, file: str, tables: Sequence[dict[str, Any]], programme: Optional[Programme], last: int) -> dict[int, Contract]:
    """The contracts by their place in the file, counted from 1, without those at fault."""
    made = ((at, read_contract(Fields(faults, file, place(at), table), programme, last)) for at, table in enumerate(tables, start=1))
    return {at: each for at, each in made if each is not None}


def place(at: int) -> str:
    return f"contract, entry {at}"


# ---------------------------------------------------------------- contracts against each other


def overlaps(contracts: dict[int, Contract], days: Sequence[int]) -> Iterator[tuple[int, str]]:
    """Pairs of contracts that apply to the same thing on the same day: the second one's place, and a sentence."""
    entries = list(contracts.items())
    for index, (second, one) in enumerate(entries):
        for first, other in entries[:index]:
            shared = [day for day in days if one.applies(day) and other.applies(day)]
            if shared:
                yield from ((second, f"{what} on day {shared[0]} belongs to entry {first} too") for what in both_of(one, other))


def both_of(one: Contract, other: Contract) -> Iterator[str]:
    """What two contracts of one day have in common and may not."""
    if (one.month, one.expiry) == (other.month, other.expiry):
        yield f"{one.month}, expiry {one.expiry},"
    if one.symbol == other.symbol and one.shares_account(other):
        accounts = sorted(set(one.accounts or ()) & set(other.accounts or ()))
        yield f"{one.symbol}, {'account ' + accounts[0] if accounts else 'every account'},"


def check(faults: Faults, file: str, contracts: dict[int, Contract], days: Sequence[int], programme: Programme) -> None:
    """Contracts that overlap, and symbols with two steps."""
    for at, what in overlaps(contracts, days):
        faults.add(file, f"[{place(at)}]", f"{what}, expected one contract")
    steps: dict[str, str] = {}
    for at, each in contracts.items():
        first = steps.setdefault(each.symbol, each.instrument)
        if programme.instruments[first].step != programme.instruments[each.instrument].step:
            faults.add(file, f"[{place(at)}] symbol", f"{each.symbol} has the step of {first} and of {each.instrument}, which differ")
