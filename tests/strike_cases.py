"""Strikes and boards (document 02, W4) at the edges and at random, and what boards show."""

from recount.book import Strike
from recount.strikes import LENGTHS, SHARES, board, met_by_products
from tests import generate
from tests.running import words

GREATEST = 2**32 - 1

# ---------------------------------------------------------------- spread limits


def limit_strikes(rng, count):
    """Every number of days; whole and half steps; then any strikes."""
    for days in range(366):
        yield Strike(rng.randrange(201), rng.randrange(100_001), days, rng.choice([0, 0, 10, 1_000]))
        yield Strike(200, 100_000, days, 0)
    for a in range(5, 201, 5):
        for difference in (1, 2, 3, 99_999, 100_000, rng.randrange(100_001)):
            yield Strike(a, difference, 365, rng.choice([0, 0, 1]))
    for a in range(0, 30):
        yield Strike(a, 1, rng.choice([365, 364, 91, 92]), 0)
    for _ in range(count):
        yield generate.any_strike(rng)


# ---------------------------------------------------------------- boards

MUST_SHOW = [
    "met", "failed by a strike alone", "failed by the sum alone", "failed by both", "met with one strike",
    "met with 32 strikes", "32 strikes failed by the last alone", "a strike just at the first share",
    "a strike a millisecond short", "a sum just at the second share", "a sum a millisecond short",
    "the longest sum", "K = L", "K = 0", "a share of 1", "a share of 100",
    "18: an empty board", "18: 33 strikes", "18: 64 strikes", "18: unequal lengths", "18: K above L",
    "18: a share of 0", "18: a share above 100", "18: a length of 0", "18: a length below a second",
    "18: a length above a row's", "18: a length with part of a second", "18: an odd number of words",
    "bad case: 129 words or more", "bad case: cut short", "bad case: more after it",
]


def case(first, second, strikes):
    return words(4, first, second, 2 * len(strikes), *(word for strike in strikes for word in strike))


def due_time(share, length):
    return -(-share * length // 100)


def planned(rng):
    """A board whose strikes or sum are just at their shares, or a millisecond beside."""
    count = rng.choice([1, 1, 2, 3, 5, 14, 31, 32, 32])
    length = rng.choice([1_000, 2_000, 31_500_000, 86_400_000, rng.choice(LENGTHS)])
    first = rng.choice([1, 55, 100, rng.choice(SHARES)])
    second = rng.choice([1, 60, 100, rng.choice(SHARES)])
    least = due_time(first, length)
    kept = [least] * count
    spare = due_time(second, length * count) - least * count  # what the sum lacks above the least
    for at in range(count):
        more = min(max(0, spare), length - least)
        kept[at] += more if at == count - 1 else rng.choice([more, rng.randrange(more + 1)])
        spare -= kept[at] - least
    how = rng.randrange(5)
    at = rng.choice([rng.randrange(count), count - 1])
    if how == 0:
        kept[at] -= 1
    elif how == 1:
        kept[at] = rng.choice([0, length])
    elif how == 2 and count > 1:  # a millisecond short, the sum as it was
        other = (at + 1) % count
        kept[at], kept[other] = kept[at] - 1, kept[other] + 1
    return first, second, [(min(max(0, k), length), length) for k in kept]


def spoiled(rng):
    """A board with one thing wrong, at times with two."""
    first, second, strikes = planned(rng)
    for _ in range(rng.choice([1, 1, 2])):
        how = rng.randrange(7)
        at = rng.randrange(len(strikes)) if strikes else 0
        if how == 0:
            first = rng.choice([0, 101, GREATEST])
        elif how == 1:
            second = rng.choice([0, 101, GREATEST])
        elif how == 2 and strikes:
            length = rng.choice([0, 999, 1_001, (strikes[at][1] + 1_000) & GREATEST, 86_400_001, 86_401_000, GREATEST])
            strikes[at] = (strikes[at][0], length)
        elif how == 3 and strikes:
            length = rng.choice([0, 1, 500, 1_500, 86_401_000, GREATEST - 295, GREATEST])
            strikes = [(rng.choice([0, length]), length) for _ in strikes]
        elif how == 4 and strikes:
            strikes[at] = (rng.choice([min(GREATEST, strikes[at][1] + 1), GREATEST]), strikes[at][1])
        elif how == 5:
            strikes = []
        else:
            strikes = (strikes * 64)[: rng.choice([33, 34, 64])]
    return first, second, strikes


def known_boards():
    for count in (1, 32, 33, 64):
        for kept in (0, 999, 1_000):
            yield 100, 100, [(kept, 1_000)] * count
        yield 1, 1, [(10, 1_000)] * (count - 1) + [(9, 1_000)]
        yield 100, 100, [(86_400_000, 86_400_000)] * count
        yield 100, 100, [(86_400_000, 86_400_000)] * (count - 1) + [(86_399_999, 86_400_000)]
    for first in (0, 1, 100, 101, GREATEST):
        for second in (0, 1, 100, 101, GREATEST):
            yield first, second, [(1_000, 1_000)]
            yield first, second, []
    for length in (0, 1, 999, 1_000, 1_001, 86_399_999, 86_400_000, 86_400_001, 86_401_000, GREATEST):
        yield 1, 1, [(length, length)] * 2
        yield 1, 1, [(1_000, 1_000), (1_000, length)]
        yield 1, 1, [(length + 1 & GREATEST, length)]


def board_situations(first, second, strikes):
    """What a board shows, by its numbers and the recount."""
    answer = board(first, second, strikes)
    if answer == 18:
        lengths = {length for _, length in strikes}
        found = {
            "an empty board": not strikes, f"{len(strikes)} strikes": len(strikes) > 32,
            "unequal lengths": len(lengths) > 1, "K above L": any(k > length for k, length in strikes),
            "a share of 0": 0 in (first, second), "a share above 100": max(first, second) > 100,
            "a length of 0": 0 in lengths, "a length above a row's": any(n > 86_400_000 for n in lengths),
            "a length below a second": any(0 < n < 1_000 for n in lengths),
            "a length with part of a second": any(n % 1_000 and 1_000 < n < 86_400_000 for n in lengths),
        }
        causes = [f"18: {name}" for name, shown in found.items() if shown]
        assert causes, (first, second, strikes)
        return causes if len(causes) == 1 else []  # alone, so that nothing else gives the answer
    length, count, total = strikes[0][1], len(strikes), sum(kept for kept, _ in strikes)
    each = [100 * kept - first * length for kept, _ in strikes]
    found = {
        "a strike just at the first share": due_time(first, length) in [kept for kept, _ in strikes],
        "a strike a millisecond short": due_time(first, length) - 1 in [kept for kept, _ in strikes],
        "a sum just at the second share": total == due_time(second, length * count),
        "a sum a millisecond short": total == due_time(second, length * count) - 1,
        "the longest sum": total == 32 * 86_400_000,
        "K = L": (length, length) in strikes, "K = 0": (0, length) in strikes,
        "a share of 1": 1 in (first, second), "a share of 100": 100 in (first, second),
        "32 strikes failed by the last alone": count == 32 and min(each[:-1]) >= 0 > each[-1],
    }
    short = min(each) < 0, 100 * total < second * length * count
    verdict = {
        (False, False): "met", (True, False): "failed by a strike alone",
        (False, True): "failed by the sum alone", (True, True): "failed by both",
    }[short]
    assert answer == verdict.split()[0] and (answer == "met") == met_by_products(first, second, strikes)
    found |= {verdict: True, f"met with {count} strikes": answer == "met",
              "met with one strike": answer == "met" and count == 1}
    return [name for name, shown in found.items() if shown]


def odd_and_bad():
    """Cases that are no board, with what they show."""
    good = case(1, 1, [(5, 1_000), (6, 1_000)])
    for count in (1, 3, 63, 127):
        yield words(4, 1, 1, count, *[1_000] * count), "18: an odd number of words"
    for data in (words(4, 1, 1, 129, *[1_000] * 129), words(4, 1, 1, 130, *[1_000] * 130), words(4, 1, 1, GREATEST)):
        yield data, "bad case: 129 words or more"
    for size in range(len(good)):
        yield good[:size], "bad case: cut short"
    for more in (b"\0", words(0), words(5, 1_000)):
        yield good + more, "bad case: more after it"
        yield words(4, 1, 1, 1, 1_000) + more, "bad case: more after it"
    yield words(4, 1, 1, 3, 1_000, 1_000), "bad case: cut short"
