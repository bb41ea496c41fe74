"""What the package adds to the library's session call: 4,000,000 records from a numpy array, by the C call and by `quoting.session`.

    /usr/bin/python3 bench/package.py        (after make library)

A time is processor time, the least of several rounds in turn, so that what runs beside it counts little.
"""

import sys
import time
from pathlib import Path

sys.path.insert(0, str(Path(__file__).resolve().parent.parent / "python"))

import numpy

import quoting
from quoting import Row, Rule, events, native

RECORDS, ROUNDS = 4_000_000, 9
RULE = Rule(Row(1, 1, "24:00:00", 500, 100, 25, "60%"), 1000)


def quiet():
    """Eight live orders; seven of ten records amend one of them, the others are ticks."""
    rng = numpy.random.default_rng(1)
    found = numpy.zeros(RECORDS, dtype=events.dtype())
    is_amend, order = rng.random(RECORDS) < 0.7, rng.integers(0, 8, RECORDS)
    price = numpy.where(order < 4, 990 + rng.integers(0, 10, RECORDS), 1001 + rng.integers(0, 20, RECORDS))
    found["t"] = 20 * numpy.arange(RECORDS)
    found["kind"] = numpy.where(is_amend, 3, 6)
    found["id"], found["price"] = numpy.where(is_amend, order + 1, 0), numpy.where(is_amend, price, 0)
    found["volume"] = numpy.where(is_amend, rng.integers(100, 400, RECORDS), 0)
    for id in range(1, 9):
        found[id - 1] = (1 if id < 5 else 2, (0, 0, 0), 0, id, 995 if id < 5 else 1005, 200)
    return found


def by_c(array):
    """The call alone, its buffer there before."""
    head, buffer = RULE.head, native.words(RECORDS + 4)
    start = time.process_time()
    native.call("quoting_session_pairs", head, len(head), array.ctypes.data, array.nbytes, buffer, len(buffer))
    return time.process_time() - start, list(buffer[:3])


def by_package(array):
    start = time.process_time()
    done = quoting.session(RULE, array)
    return time.process_time() - start, list(done.words[:3])


def main():
    array, best = quiet(), {}
    for _ in range(ROUNDS):
        for way in (by_c, by_package):
            seconds, answer = way(array)
            best[way] = min(best.get(way, seconds), seconds)
    c, package = best[by_c], best[by_package]
    print(f"{RECORDS} records, {answer[2]} pairs: C call {1e3 * c:.1f} ms, package {1e3 * package:.1f} ms, {package / c:.3f} times as long")


if __name__ == "__main__":
    main()
