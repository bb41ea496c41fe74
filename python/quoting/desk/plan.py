"""The calendar of a desk's month: for each day, contract and quantum the hours, the row, SP and the lapse limit.

The proved library decides which row is chosen (`choose_row`), whether a day is inside a disturbed period and how its row is eased (W12).
Here the days, the symbols and the prices before a day are put together, and nothing else.
"""

import datetime as dt
from bisect import bisect_left
from dataclasses import dataclass
from datetime import datetime, timedelta, timezone
from functools import cached_property
from typing import TYPE_CHECKING, Iterator, Optional, Union
from zoneinfo import ZoneInfo

from quoting.calls import Strike
from quoting.desk.contracts import Contract
from quoting.desk.faults import Faults
from quoting.desk.programme import Hours, Instrument
from quoting.native import Refused
from quoting.calculations import choose_row, ease, sigma, volatile_day
from quoting.rows import Row

if TYPE_CHECKING:
    from quoting.desk.desks import Desk

USUAL, HOLIDAY = "usual", "holiday"
EPOCH = datetime(1970, 1, 1, tzinfo=timezone.utc)


@dataclass(frozen=True)
class Volatility:
    """What W12 says of a symbol's day, from the prices before it: the last price's sigma in millionths (None: it has none), whether the day
    is inside a period and since when, or the refusal."""

    threshold: int
    sigma: Optional[int]
    is_inside: bool = False
    since: Optional[dt.date] = None
    refused: Optional[Refused] = None

    @property
    def text(self) -> str:
        """Why the row is eased, or is not."""
        last = "no sigma yet" if self.sigma is None else f"sigma {self.sigma:,}"
        if self.refused is not None:
            return f"{last}: {self.refused}"
        return f"{last}, threshold {self.threshold:,}" + (f": inside a period since {self.since}" if self.is_inside else ": outside")


@dataclass(frozen=True)
class Planned:
    """A quantum of the month, and by what it is opened. `row` is the chosen one, eased where the day is inside a period."""

    date: dt.date
    contract: Contract
    quantum: int
    start: datetime
    end: datetime
    table: str
    chosen: Row
    row: Row
    sp: Optional[int]  # None of a strike
    sp_date: dt.date
    lapses: Optional[int]
    volatility: Optional[Volatility]
    strike: Optional[Strike] = None

    @property
    def spread(self) -> Union[int, Strike]:
        """What the open goes by: SP, or a strike's numbers (W4)."""
        found = self.sp if self.strike is None else self.strike
        assert found is not None
        return found

    @property
    def is_eased(self) -> bool:
        return self.volatility is not None and self.volatility.is_inside

    @cached_property
    def start_ms(self) -> int:
        """Milliseconds since 1970, UTC."""
        return (self.start - EPOCH) // timedelta(milliseconds=1)

    @cached_property
    def end_ms(self) -> int:
        return (self.end - EPOCH) // timedelta(milliseconds=1)


# ---------------------------------------------------------------- a row


def chosen_row(instrument: Instrument, is_holiday: bool, expiry: int, quantum: int) -> Optional[tuple[str, Row]]:
    """The row for an expiry and a quantum, and the table that it came from."""
    row = choose_row(instrument.usual, instrument.holiday, is_holiday, expiry, quantum)
    if row is None:
        return None
    from_holiday = choose_row([], instrument.holiday, is_holiday, expiry, quantum) is not None
    return HOLIDAY if from_holiday else USUAL, row


# ---------------------------------------------------------------- volatile days


class Symbol:
    """A symbol's settlement prices, and what they say of a day."""

    def __init__(self, prices: list[tuple[dt.date, int]], threshold: Optional[int]) -> None:
        self.dates, self.prices = [day for day, _ in prices], [price for _, price in prices]
        self.threshold = threshold
        self.judged: dict[int, bool] = {}

    def before(self, day: dt.date) -> int:
        """How many prices are dated before a day."""
        return bisect_left(self.dates, day)

    def is_inside(self, count: int) -> bool:
        """Whether the day after so many prices is inside a period.

        Raises:
            Refused: W12 refuses these prices, by 22.
        """
        assert self.threshold is not None
        if count not in self.judged:
            self.judged[count] = volatile_day(self.prices[:count], self.threshold)
        return self.judged[count]

    def since(self, count: int, day: dt.date) -> dt.date:
        """The first day of the run of days inside that this one is in."""
        while count and self.is_inside(count - 1):
            count -= 1
        return self.dates[count] if count < len(self.dates) and self.dates[count] < day else day

    def volatility(self, day: dt.date) -> Optional[Volatility]:
        if self.threshold is None:
            return None
        count = self.before(day)
        last = sigma(self.prices[:count]) if count else None
        try:
            inside = self.is_inside(count)
        except Refused as refused:
            return Volatility(self.threshold, last, refused=refused)
        return Volatility(self.threshold, last, inside, self.since(count, day) if inside else None)


# ---------------------------------------------------------------- the month


def moments(day: dt.date, hours: Hours, zone: ZoneInfo) -> tuple[datetime, datetime]:
    """A quantum's start and end on a day, by the local clock.

    Raises:
        ValueError: The clocks change, so that one of them is not there, or there twice, or the quantum is longer or shorter.
    """
    midnight = datetime(day.year, day.month, day.day)
    start, end = (midnight + timedelta(milliseconds=time) for time in (hours.start, hours.end))
    found = [each.replace(tzinfo=zone) for each in (start, end)]
    utc = [each.astimezone(timezone.utc) for each in found]
    is_plain = all(each.utcoffset() == each.replace(fold=1).utcoffset() for each in found)
    if not is_plain or utc[1] - utc[0] != end - start:
        raise ValueError(f"on {day} the clocks of {zone.key} change at or within {hours.text}")
    return found[0], found[1]


class Planner:
    """The month's quanta, in the order of cells.csv."""

    def __init__(self, desk: "Desk", faults: Faults) -> None:
        self.desk, self.faults = desk, faults
        self.zone = ZoneInfo(desk.programme.timezone)
        instruments = desk.programme.instruments
        self.symbols = {
            (each.instrument, each.symbol): Symbol(desk.prices.get(each.symbol, []), instruments[each.instrument].threshold)
            for each in desk.contracts
        }

    def quanta(self) -> Iterator[Planned]:
        for day in self.desk.days:
            ordered = sorted((each for each in self.desk.contracts if each.applies(day)), key=lambda each: (each.instrument, each.expiry, each.symbol))
            for contract in ordered:
                yield from self.quanta_of(self.desk.date(day), contract)

    def quanta_of(self, day: dt.date, contract: Contract) -> Iterator[Planned]:
        """The quanta of a contract's day for which a row is chosen."""
        instrument = self.desk.programme.instruments[contract.instrument]
        rows = {quantum: chosen_row(instrument, day.day in self.desk.holidays, contract.expiry, quantum) for quantum in sorted(self.desk.programme.quanta)}
        if contract.strike:
            yield from self.strike_quanta(day, contract, instrument, rows)
            return
        symbol = self.symbols[contract.instrument, contract.symbol]
        count = symbol.before(day)
        if not count and any(rows.values()):
            self.faults.add(self.desk.price_file, "", f"{contract.symbol} has no price before {day}, expected a line with an earlier date")
            return
        volatility = symbol.volatility(day) if any(rows.values()) else None
        for quantum, found in rows.items():
            if found is None:
                continue
            with self.faults.caught(self.desk.programme_file, f"[quanta] {quantum}"):
                start, end = moments(day, self.desk.programme.quanta[quantum], self.zone)
                row = self.eased(found[1], symbol, count, volatility)
                yield Planned(
                    day, contract, quantum, start, end, found[0], found[1], row, symbol.prices[count - 1], symbol.dates[count - 1],
                    instrument.lapses, volatility)

    def strike_quanta(self, day: dt.date, contract: Contract, instrument: Instrument, rows: dict[int, Optional[tuple[str, Row]]]) -> Iterator[Planned]:
        """The quanta of a strike's day, by the latest line of its symbol before the day."""
        before = [line for line in self.desk.strike_lines.get(contract.symbol, []) if line.date < day]
        if not before and any(rows.values()):
            self.faults.add(self.desk.strike_file, "", f"{contract.symbol} has no line before {day}, expected one with an earlier date")
            return
        rule = instrument.strikes[contract.strike]
        for quantum, found in rows.items():
            if found is None:
                continue
            with self.faults.caught(self.desk.programme_file, f"[quanta] {quantum}"):
                start, end = moments(day, self.desk.programme.quanta[quantum], self.zone)
                last = before[-1]
                strike = rule.of(contract.expiry, last.difference, last.days)
                yield Planned(day, contract, quantum, start, end, *found, found[1], None, last.date, instrument.lapses, None, strike)

    def eased(self, row: Row, symbol: Symbol, count: int, volatility: Optional[Volatility]) -> Row:
        """The row as W12 leaves it; a row whose prices are refused stays as it is."""
        if volatility is None or volatility.refused is not None:
            return row
        return ease(row, symbol.prices[:count], volatility.threshold)
