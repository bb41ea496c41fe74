"""programme.toml: the time zone, the quanta's hours, and each instrument's step, limits and rows (docs/FORMATS.md, "A desk")."""

import re
from dataclasses import dataclass, field
from decimal import Decimal
from typing import Any, Callable, Optional, Union
from zoneinfo import ZoneInfo

from quoting import calls as c
from quoting import values
from quoting.boards import MOST_STRIKES
from quoting.desk import fields
from quoting.desk.faults import Faults
from quoting.desk.fields import Fields
from quoting.month_words import ROW_SPANS
from quoting.months import Month
from quoting.native import Refused
from quoting.rows import Row
from quoting.values import Tenths

HOURS = re.compile(r"([0-9]{2}):([0-9]{2})(?::([0-9]{2}))?-([0-9]{2}):([0-9]{2})(?::([0-9]{2}))?")
QUANTA = ("0", "1", "2")
DAY = 24 * values.HOUR
SPANS = dict(zip(("expiry", "quantum", "length", "minimum", "a", "b", "share"), ROW_SPANS.values()))


@dataclass(frozen=True)
class Hours:
    """A quantum's start and end, milliseconds of the local day."""

    start: int
    end: int

    @property
    def length(self) -> int:
        return self.end - self.start

    @property
    def text(self) -> str:
        return f"{clock(self.start)}-{clock(self.end)}"


@dataclass(frozen=True)
class StrikeRule:
    """A strike's a in tenths, and its b in price steps (W4), for expiry 1 and for expiry 2."""

    a: tuple[int, int]
    b: tuple[int, int]

    def of(self, expiry: int, difference: int, days: int) -> c.Strike:
        """What an open takes in place of SP."""
        return c.Strike(self.a[expiry - 1], difference, days, self.b[expiry - 1])


@dataclass(frozen=True)
class Instrument:
    """An instrument of the programme; both tables have one row for each quantum of an entry. An option has strikes, each with a month of
    its own, and may have a board: the share in percent of each strike, and that of all together."""

    name: str
    step: Decimal
    threshold: Optional[int] = None  # millionths
    lapses: Optional[int] = None
    usual: list[Row] = field(default_factory=list)
    holiday: list[Row] = field(default_factory=list)
    strikes: dict[str, StrikeRule] = field(default_factory=dict)
    board: Optional[tuple[int, int]] = None


@dataclass(frozen=True)
class Programme:
    name: str
    timezone: str
    quanta: dict[int, Hours]
    instruments: dict[str, Instrument]


def clock(time: int) -> str:
    """A time of the day, hh:mm, with seconds where there are any.

    >>> clock(36_000_000), clock(36_001_000)
    ('10:00', '10:00:01')
    """
    seconds = time // values.SECOND
    return f"{seconds // 3600:02}:{seconds // 60 % 60:02}" + (f":{seconds % 60:02}" if seconds % 60 else "")


def hours(value: Any) -> Hours:
    """A quantum's hours.

    >>> hours("10:00-18:45").length
    31500000
    """
    found = HOURS.fullmatch(value) if isinstance(value, str) else None
    if found is None:
        raise ValueError(f'{fields.shown(value)} is not a start and an end, expected "10:00-18:45"')
    numbers = [int(part or 0) for part in found.groups()]
    start, end = (time_of_day(*part) for part in (numbers[:3], numbers[3:]))
    if start >= end:
        raise ValueError(f"{value} ends before it starts, expected a start and a later end of the same day")
    return Hours(start, end)


def time_of_day(hour: int, minute: int, second: int) -> int:
    time = ((hour * 60 + minute) * 60 + second) * values.SECOND
    if minute > 59 or second > 59 or time > DAY:
        raise ValueError(f"{hour:02}:{minute:02} is not a time of the day")
    return time


def zone(value: Any) -> str:
    name = fields.text(value)
    try:
        ZoneInfo(name)
    except (OSError, ValueError, KeyError):
        raise ValueError(f'{name!r} is no time zone that this machine knows, expected an IANA name such as "Europe/Moscow"') from None
    return name


# ---------------------------------------------------------------- rows


def share(value: Any) -> int:
    if not isinstance(value, str):
        raise ValueError(f'{fields.shown(value)} is not a percentage, expected one such as "60%"')
    return int(values.tenths(value))


def steps(step: Decimal, value: Any) -> int:
    """A distance of prices in whole steps."""
    return values.steps(format(fields.decimal(value), "f"), step)


def step_of(value: Any) -> Decimal:
    found = fields.decimal(value)
    if found <= 0:
        raise ValueError(f'{fields.shown(value)} is not above 0, expected a price step such as "0.01"')
    return found


def refusal_of(row: Row, spread: Union[int, c.Strike] = 0) -> Optional[Refused]:
    """The library's refusal of a row, or of a strike, by a fresh month."""
    answer = Month().block(c.block(c.Open(row.words, 1, spread)))
    return answer if isinstance(answer, Refused) else None


def row_fault(row: Row, refused: Refused) -> str:
    """Which of the row's words is outside its range."""
    numbers = dict(zip(SPANS, row.words))
    wrong = [f"{name} is {numbers[name]:,}, expected {low:,} to {high:,}" for name, (low, high) in SPANS.items() if not low <= numbers[name] <= high]
    return f"{refused}" + (f" ({'; '.join(wrong)})" if wrong else "")


def read_entry(entry: Fields, step: Optional[Decimal], quanta: dict[int, Hours], has_strikes: bool) -> list[Row]:
    """The rows of one entry: one for each of its quanta. An option's a and b are its strikes', and the row's are 0."""
    before = len(entry.faults.found)
    expiry = entry.take("expiry", fields.whole(1, 2))
    chosen = entry.take("quanta", fields.list_of(fields.whole(0, 2), least=1))
    minimum = entry.take("minimum", fields.whole(0, 2**32 - 1))
    a = 0 if has_strikes else entry.take("a", fields.percent(1_000, "hundred-thousandths"))
    b = 0 if has_strikes else entry.take("b", lambda value: steps(step, value) if step else 0)
    due = entry.take("share", share)
    entry.finish()
    if len(entry.faults.found) > before:
        return []
    assert expiry is not None and chosen is not None and minimum is not None and a is not None and b is not None and due is not None
    made = []
    for quantum in chosen:
        if quantum not in quanta:
            entry.add("quanta", f"quantum {quantum} has no hours under [quanta]")
            continue
        with entry.faults.caught(entry.file, entry.place(f"quantum {quantum}")):
            row = Row(expiry, quantum, quanta[quantum].length, minimum, a, b, Tenths(due))
            refused = refusal_of(row)
            if refused is not None:
                raise ValueError(row_fault(row, refused))
            made.append(row)
    return made


def read_rows(given: Fields, key: str, step: Optional[Decimal], quanta: dict[int, Hours], is_required: bool, has_strikes: bool) -> list[Row]:
    made: list[Row] = []
    for at, table in enumerate(given.tables(key, is_required), start=1):
        made += read_entry(Fields(given.faults, given.file, f"{given.name}.{key}, entry {at}", table), step, quanta, has_strikes)
    return made


# ---------------------------------------------------------------- strikes


def tenths_of(value: Any) -> int:
    """A strike's a in tenths.

    >>> tenths_of("7.5")
    75
    """
    found = fields.decimal(value) * 10
    if found != found.to_integral_value() or found < 0:
        raise ValueError(f'{fields.shown(value)} is not in tenths, expected one such as "7.5"')
    return int(found)


def by_expiry(reader: Callable[[Any], int]) -> Callable[[Any], tuple[int, int]]:
    """One value for both expiries, or a list of two.

    >>> by_expiry(tenths_of)(["11.5", "7.5"]), by_expiry(tenths_of)("3")
    ((115, 75), (30, 30))
    """

    def read(value: Any) -> tuple[int, int]:
        if not isinstance(value, list):
            return reader(value), reader(value)
        if len(value) != 2:
            raise ValueError(f"{fields.shown(value)} does not fit, expected one value, or two for the two expiries")
        return reader(value[0]), reader(value[1])

    return read


def percent_of(value: Any) -> int:
    """A share of a board, in whole percent."""
    found = fields.percent(1, "percent")(value)
    if not 1 <= found <= 100:
        raise ValueError(f"{value} does not fit, expected 1% to 100%")
    return found


def two_shares(value: Any) -> tuple[int, int]:
    if not isinstance(value, list) or len(value) != 2:
        raise ValueError(f'{fields.shown(value)} does not fit, expected two shares such as ["55%", "60%"]')
    return percent_of(value[0]), percent_of(value[1])


def checked(rule: StrikeRule) -> StrikeRule:
    """A rule that a fresh month takes, for both expiries."""
    for expiry in (1, 2):
        strike = rule.of(expiry, 0, 0)
        refused = refusal_of(Row(expiry, 1, 1_000, 1, 0, 0, Tenths(600)), strike)
        if refused is not None:
            raise ValueError(f"{refused}: a is {strike.a:,} tenths, expected at most 200; b is {strike.b:,} steps, expected at most 1,000,000")
    return rule


def read_strikes(given: Fields, step: Optional[Decimal]) -> dict[str, StrikeRule]:
    """The strikes by their names, each checked by the library."""
    found: dict[str, StrikeRule] = {}
    for name, table in (given.take("strikes", fields.table_of, is_required=False) or {}).items():
        if not isinstance(table, dict) or not is_file_name(name):
            given.add(f"strikes.{name}", 'expected a name of letters, digits, spaces, "-", "_", "." and "+", and a table such as { a = "7.5", b = "0.5" }')
            continue
        own, before = Fields(given.faults, given.file, f"{given.name}.strikes.{name}", table), len(given.faults.found)
        a, b = own.take("a", by_expiry(tenths_of)), own.take("b", by_expiry(lambda value: steps(step, value) if step else 0))
        own.finish()
        if len(given.faults.found) == before and a is not None and b is not None:
            with given.faults.caught(given.file, f"[{own.name}]"):
                found[name] = checked(StrikeRule(a, b))
    return found


# ---------------------------------------------------------------- the whole


def lapse_limit(value: Any) -> Optional[int]:
    """W1: 0 to 1,000, or 65,535 for none."""
    return None if value == c.NO_LIMIT else fields.whole(0, 1_000)(value)


def threshold(value: Any) -> int:
    found = fields.percent(10_000, "millionths")(value)
    if found >= 2**32:
        raise ValueError(f"{value} does not fit, expected less than 429,497%")
    return found


def read_instrument(given: Fields, quanta: dict[int, Hours]) -> Optional[Instrument]:
    name = given.name.partition(".")[2]
    step = given.take("step", step_of)
    limit = given.take("threshold", threshold, is_required=False)
    lapses = given.take("lapses", lapse_limit, is_required=False)
    has_strikes = "strikes" in given.table
    usual = read_rows(given, "rows", step, quanta, True, has_strikes)
    holiday = read_rows(given, "holiday_rows", step, quanta, False, has_strikes)
    strikes = read_strikes(given, step)
    board = given.take("board", two_shares, is_required=False)
    given.finish()
    if given.table.get("rows") == [] and not given.table.get("holiday_rows"):
        given.add("rows", "is empty, expected at least one row here or in holiday_rows")
    if has_strikes and limit is not None:
        given.add("threshold", "an instrument with strikes has no settlement price, so its days are never volatile: expected none")
    if board is not None and not 1 <= len(strikes) <= MOST_STRIKES:
        given.add("board", f"there are {len(strikes)} strikes, expected 1 to {MOST_STRIKES}")
    return None if step is None else Instrument(name, step, limit, lapses, usual, holiday, strikes, board)


def read_quanta(given: Fields) -> dict[int, Hours]:
    found = {int(key): value for key in QUANTA if (value := given.take(key, hours, is_required=False)) is not None}
    given.finish()
    if not given.table:
        given.add("", "is empty, expected at least one quantum")
    ordered = sorted(found.items(), key=lambda pair: pair[1].start)
    for (first, one), (second, other) in zip(ordered, ordered[1:]):
        if other.start < one.end:
            given.add(str(second), f"{other.text} overlaps quantum {first}, {one.text}")
    return found


def read(faults: Faults, file: str, tables: dict[str, Any]) -> Optional[Programme]:
    """The programme; None where something is wrong with it."""
    given, before = Fields(faults, file, "", tables), len(faults.found)
    name = given.take("name", fields.text)
    timezone = given.take("timezone", zone)
    quanta = read_quanta(Fields(faults, file, "quanta", given.take("quanta", fields.table_of) or {}))
    instruments: dict[str, Instrument] = {}
    for key, table in (given.take("instruments", fields.table_of) or {}).items():
        if not isinstance(table, dict):
            given.add(f"instruments.{key}", f"{fields.shown(table)} does not fit, expected a table")
            continue
        if not is_file_name(key):
            faults.add(file, f"[instruments.{key}]", "this name can't be the name of a file, expected letters, digits, '-', '_' and '.'")
        made = read_instrument(Fields(faults, file, f"instruments.{key}", table), quanta)
        if made is not None:
            instruments[key] = made
    given.finish()
    if len(faults.found) > before:
        return None
    assert name is not None and timezone is not None
    return Programme(name, timezone, quanta, instruments)


def is_file_name(name: str) -> bool:
    """The calls of an instrument are in a file of its name."""
    return bool(re.fullmatch(r"[^\W_][\w .+-]{0,99}", name)) and name == name.strip()
