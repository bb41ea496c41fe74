"""What a call on a month costs from Python, and a record of `Month.apply`: microseconds, the least of many short rounds.

    /usr/bin/python3 bench/calls.py        (after make library)
"""

import sys
import timeit
from pathlib import Path

sys.path.insert(0, str(Path(__file__).resolve().parent.parent / "python"))

from quoting import Amend, Month, Row, events

NUMBER, ROUNDS = 500, 400
RECORDS = 1_000


def least(call, number=NUMBER, rounds=ROUNDS):
    """Microseconds of a call."""
    return 1e6 * min(timeit.repeat(call, number=number, repeat=rounds)) / number


def add_and_cancel(month):
    month.add(5, 3, "buy", 8_000, 5)
    month.cancel(5, 3)


def main():
    month = Month()
    month.open(Row(1, 1, "8:45:00", 1_000, 150, 3, "60%"), 1, 8_452)
    month.add(0, 1, "buy", 8_446, 1_000)
    month.add(0, 2, "sell", 8_458, 1_000)
    data = events.records(Amend(5, 1, 8_440 + at % 9, 1_000) for at in range(RECORDS))
    calls = {
        "Month()": Month, "tick": lambda: month.tick(5), "amend": lambda: month.amend(5, 1, 8_447, 1_000),
        "add and cancel, two calls": lambda: add_and_cancel(month), "ask": lambda: month.ask(5, 1, 8_447, 1_000), "report": month.report,
        "outlook": month.outlook, "view": month.view, "glance": month.glance,
    }
    for name, call in calls.items():
        print(f"{name}: {least(call):.2f}")
    if hasattr(month, "apply"):
        print(f"a record of apply, by {RECORDS}: {least(lambda: month.apply(data), 10) / RECORDS:.3f}")
    for id in range(3, 61):
        month.add(5, id, "buy" if id % 2 else "sell", 8_446 if id % 2 else 8_458, 1_000)
    print(f"view of 60 orders: {least(month.view, 50):.2f}")


main()
