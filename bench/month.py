"""What a call of the month costs, by the program `replay`: a loop over calls in one process.

    python3 bench/month.py        (after `rt run` in crates/replay and `make programs`, or the gate)

It times lists of calls that differ in one thing: how many calls went before, how many cells are filled, how many orders are live and
what the calls are. The time of a list includes reading it and writing its lines; the difference of two lists of different length is
what the further calls cost. A time is processor time, the least of several rounds, so that what runs beside it counts little.
"""

import os
import struct
import subprocess
import tempfile
from pathlib import Path

REPLAY = Path(__file__).resolve().parent.parent / "target" / "bin" / "replay"
ROW = [1, 0, 86_400_000, 500, 100, 1, 600]


def opened(day, row):
    return [1, 7, *row, day, 2000, 65535]


def filled(count):
    """Opened and closed at once: so many filled cells."""
    words = []
    for k in range(count):
        row = [k % 2 + 1, k // 2 % 3, *ROW[2:]]
        words += opened(k // 6 + 1, row) + [7, 0, 0, 0, 0]
    return words


def orders(count):
    words = []
    for k in range(count):
        words += [2, 0, k, k % 2 + 1, 1000 + k, 10]
    return words


def amendments(count, live):
    words = []
    for k in range(count):
        words += [3, k, k % live, 1000 + k % 97, 10 + k % 7]
    return words


def ticks(count):
    return [w for k in range(count) for w in (6, k)]


def processor_time(list_of_calls):
    list_of_calls.seek(0)
    child = subprocess.Popen([REPLAY], stdin=list_of_calls, stdout=subprocess.DEVNULL)
    _, status, used = os.wait4(child.pid, 0)
    child.returncode = os.waitstatus_to_exitcode(status)
    return used.ru_utime + used.ru_stime


def seconds(words):
    data = struct.pack(f"<{len(words)}I", *words)
    out = subprocess.run([REPLAY], input=data, stdout=subprocess.PIPE, check=True).stdout
    if b"refused" in out or b"stopped" in out:
        raise SystemExit("a list that is to be accepted is refused")
    with tempfile.TemporaryFile() as list_of_calls:
        list_of_calls.write(data)
        list_of_calls.flush()
        return min(processor_time(list_of_calls) for _ in range(20))


def a_call(cells, live, calls, short, long):
    """Nanoseconds that a further call costs."""
    head = filled(cells) + opened(31, [2, 2, *ROW[2:]]) + orders(live)
    return (seconds(head + calls(long)) - seconds(head + calls(short))) / (long - short) * 1e9


def main():
    print("a further call, in nanoseconds, its line written out included")
    for cells in (0, 180):
        for live in (8, 64):
            change = a_call(cells, live, lambda n: amendments(n, live), 2000, 12000)
            tick = a_call(cells, live, ticks, 2000, 12000)
            print(f"{cells:4} cells filled, {live:2} orders live: amendment {change:8.0f}   tick {tick:8.0f}")
    early = a_call(0, 64, lambda n: amendments(n, 64), 500, 4500)
    late = a_call(0, 64, lambda n: amendments(n, 64), 8000, 12000)
    print(f"64 live, amendments 500 to 4,500: {early:.0f}; 8,000 to 12,000: {late:.0f}")


if __name__ == "__main__":
    main()
