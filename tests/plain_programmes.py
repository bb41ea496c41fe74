"""The rows of the shipped programmes, read from their TOML the plain way: shares no code with quoting.desk, and needs no library."""

import tomllib
from decimal import Decimal

from tests.paths import PROGRAMMES


def minutes(clock):
    hour, minute = clock.split(":")
    return 60 * int(hour) + int(minute)


def entry_rows(entry, quanta, step):
    """An entry is a row for each of its quanta: seven words each. An option's a and b are its strikes', and the row's are 0."""
    a, b = Decimal(entry.get("a", "0%")[:-1]) * 1_000, Decimal(entry.get("b", "0")) / step
    share = Decimal(entry["share"][:-1]) * 10
    for quantum in entry["quanta"]:
        start, end = map(minutes, quanta[str(quantum)].split("-"))
        yield [entry["expiry"], quantum, 60_000 * (end - start), entry["minimum"], int(a), int(b), int(share)]


def rows_of(name):
    """(instrument, or instrument and strike; the row's words) of a programme, in its order."""
    made = tomllib.loads((PROGRAMMES / f"{name}.toml").read_text())
    for instrument, table in made["instruments"].items():
        for entry in [*table["rows"], *table.get("holiday_rows", [])]:
            for words in entry_rows(entry, made["quanta"], Decimal(table["step"])):
                yield from ((f"{instrument}-{strike}" if strike else instrument, words) for strike in table.get("strikes", [""]))
