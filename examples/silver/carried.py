"""A meter with one fault: it carries the depth at each price from event to event, and an amendment adds the order's new volume without
taking off the old one. It prints the stretches that it counts as kept, as CSV, and the share on standard error.

    python3 carried.py silver.session > carried.csv
    python3 carried.py silver.session --mended          # with that one line put right

It is here to be compared with the proved meter (`quoting compare silver.session carried.csv`); nothing else uses it.
"""

import sys
from collections import Counter


class Carried:
    """Orders by id (side, price, volume), and the depth at each price of each side, which is carried from event to event."""

    def __init__(self, minimum, widest, mended):
        self.minimum, self.widest, self.mended = minimum, widest, mended
        self.orders, self.depth = {}, {"buy": Counter(), "sell": Counter()}

    def take(self, kind, id, *rest):
        side, price, volume = self.orders.get(id) or (rest[0], 0, 0)
        if kind == "add":
            self.put(id, side, *map(int, rest[1:]))
        elif kind == "amend":
            if self.mended:
                self.depth[side][price] -= volume  # this line is the fault: the meter of the story does not have it
            self.put(id, side, *map(int, rest))
        else:
            taken = volume if kind == "cancel" else int(rest[0])
            self.depth[side][price] -= taken
            self.orders[id] = side, price, volume - taken

    def put(self, id, side, price, volume):
        self.orders[id] = side, price, volume
        self.depth[side][price] += volume

    def best(self, side):
        """The best price at which the minimum is held, with what is held at better ones."""
        held, depth = 0, self.depth[side]
        for price in sorted((each for each in depth if depth[each]), reverse=side == "buy"):
            held += depth[price]
            if held >= self.minimum:
                return price
        return None

    def keeps(self):
        bid, ask = self.best("buy"), self.best("sell")
        return bid is not None and ask is not None and ask - bid <= self.widest


def seconds(clock):
    hours, minutes, rest = clock.split(":")
    return 3600 * int(hours) + 60 * int(minutes) + int(rest)


OPENS = seconds("10:00:00")  # the quantum's time 0, in Moscow time


def kept_stretches(lines, mended=False):
    """The kept stretches of a session's text, from start to end, in seconds of the day."""
    row, sp, *events = [words for words in (line.split("#")[0].replace("_", "").split() for line in lines) if words]
    meter = Carried(int(row[4]), int(row[5]) * int(sp[1]) // 100_000, mended)
    ends = [seconds(event[1]) for event in events[1:]] + [OPENS + seconds(row[3])]
    found = []
    for (kind, time, *rest), end in zip(events, ends):
        meter.take(kind, *rest)
        start = seconds(time)
        if meter.keeps() and start < end:
            touches = bool(found) and found[-1][1] == start
            found[-1 if touches else len(found) :] = [(found[-1][0] if touches else start, end)]
    return found


def clock(time):
    return f"{time // 3600}:{time // 60 % 60:02}:{time % 60:02}"


if __name__ == "__main__":
    with open(sys.argv[1], encoding="utf-8") as file:
        text = file.readlines()
    kept = kept_stretches(text, mended="--mended" in sys.argv[2:])
    print("start,end", *(f"{clock(start)},{clock(end)}" for start, end in kept), sep="\n")
    length = seconds(next(line for line in text if line.startswith("row")).split()[3])
    print(f"{100 * sum(end - start for start, end in kept) / length:.1f}% kept", file=sys.stderr)
