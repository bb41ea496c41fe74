#!/usr/bin/env python3
"""logs.py LOG [STEP] [ROUNDS]: processor nanoseconds a message of reading a log into timelines (`quoting.exchange`), the least of some
rounds (5), and the most memory of the first one.

bench/make_log.py COUNT OUT --moving --echo writes such a log: three symbols, decimal prices, both directions of a session.
"""
import os
import resource
import sys
import time

sys.path.insert(0, os.path.join(os.path.dirname(os.path.abspath(__file__)), "..", "python"))
from quoting.exchange import LogReader  # noqa: E402

STEPS = {"BR-1.27": "0.01", "Si-12.26": "0.01", "GOLD-12.26": "0.1"}


def read(path: str, usual: str | None) -> tuple[float, float, str]:
    """Seconds of the reading and of what follows, and what was read."""
    begin = time.process_time()
    reader = LogReader(STEPS, usual=usual)
    reader.read([path])
    middle = time.process_time()
    changes = sum(map(len, reader.timelines.values()))
    end = time.process_time()
    way = "one at a time" if reader.bulk is None else f"many at once, {reader.bulk.following.read} of {reader.bulk.following.blocks} blocks of moves one by one"
    count = reader.counts.messages
    return (middle - begin) / count * 1e9, (end - middle) / count * 1e9, f"{count:,} messages, {changes:,} changes, {way}"


usual = sys.argv[2] if len(sys.argv) > 2 and sys.argv[2] != "-" else None
found = [read(sys.argv[1], usual)]
memory = resource.getrusage(resource.RUSAGE_SELF).ru_maxrss // 1024
found += [read(sys.argv[1], usual) for _ in range(int(sys.argv[3]) - 1 if len(sys.argv) > 3 else 4)]
first, second, what = min(found, key=lambda each: each[0] + each[1])
print(what)
print(f"read {first:.0f} ns, orders followed {second:.0f} ns, all {first + second:.0f} ns a message; {memory} MB")
