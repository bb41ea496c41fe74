#!/usr/bin/env python3
"""texts.py [COUNT]: processor microseconds a line of a session's text and of a list of calls, in the usual form, the least of seven rounds.

A fifth of the lines are adds, cancels, deals and ticks, the others amends, as a quoting engine writes them.
"""
import os
import random
import sys
import time
from typing import Callable

sys.path.insert(0, os.path.join(os.path.dirname(os.path.abspath(__file__)), "..", "python"))
from quoting import inputs, texts  # noqa: E402

ROW = "1 1 31_500_000 500 100 1 60%"


def events(count: int) -> list[str]:
    r = random.Random(1)
    lines, t = [], 0
    for at in range(count):
        t += r.randrange(120)
        id, price, volume = 1 + r.randrange(40), 8000 + r.randrange(900), 1 + r.randrange(2000)
        rare = (f"add {t} {id} buy {price} {volume}", f"cancel {t} {id}", f"deal {t} {id} {volume}", f"tick {t}")
        lines.append(rare[at // 5 % 4] if at % 5 == 0 else f"amend {t} {id} {price} {volume}")
    return lines


def least(read: Callable[[str], object], text: str) -> float:
    """Seconds of processor time."""
    found = []
    for _ in range(7):
        begin = time.process_time()
        read(text)
        found.append(time.process_time() - begin)
    return min(found)


count = int(sys.argv[1]) if len(sys.argv) > 1 else 200_000
lines = "\n".join(events(count)) + "\n"
session = least(texts.session_bytes, f"row {ROW}\nsp 2000\n{lines}")
month = f"open row {ROW} day 1 sp 2000\n{lines}"
calls = least(texts.calls_bytes, month)
placed = least(lambda text: inputs.calls_of("list", text.encode()), month)
print(f"{count:,} lines: {session / count * 1e6:.2f} µs a line of a session's text")
print(f"{calls / count * 1e6:.2f} µs an event's line in a list of calls; {placed / count * 1e6:.2f} µs with its call and place, as the commands read it")
