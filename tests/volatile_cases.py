"""Volatile days (document 02, W12): prices and rows at the edges and at random, and what they show."""

import random

from recount import volatile
from tests.running import words as packed

LOW, HIGH = -(2**31), 2**31 - 1
MILLION = 1_000_000


def prices_case(prices, threshold, kind=5):
    return packed(kind, threshold, len(prices), *prices)


# ---------------------------------------------------------------- what the cases are to show

MUST_SHOW = [
    "a period begins on the asked day",
    "a period lasts to the asked day",
    "a period ends on the asked day",
    "a period ended on the day before the asked one",
    "a period begins, ends and another begins",
    "the last day's sigma is at least the threshold",
    "a last day's sigma is the average itself",
    "a first day's sigma, the last one, is at most the average",
    "a sigma is the threshold itself",
    "thirty sigmas before a first day",
    "twenty-nine sigmas before a first day",
    "no period in more than thirty sigmas",
    "an R of 1,000,000",
    "an R of -1,000,000",
    "an R one past a limit",
    "a refused R that no sigma needs",
    "a previous price of zero",
    "a last price of zero",
    "a change of sign, accepted",
    "a difference of 33 bits",
    "under four prices",
    "no price",
    "a threshold of zero",
    "the greatest threshold",
    "a list that does not fit its count",
    "a row eased",
    "a doubled at its limit",
    "b doubled at its limit",
    "an odd M halved",
    "a row of another length left",
    "a row with a word out of range left",
    "a strike's row eased",
    "a strike's row with a past 100,000 eased",
    "a strike's row with b past 1,000,000 eased",
    "a strike's row with a word out of range left",
    "the row of a day inside eased",
    "a strike's row of a day inside eased",
    "the row of a day outside left",
    "the row of a refused list left",
    "a strike above 1",
]


def prices_situations(prices, threshold):
    """What a list of prices shows, by the recount."""
    pairs = list(zip(prices, prices[1:]))
    if not prices:
        yield "no price"
    if len(prices) < 4:
        yield "under four prices"
    if threshold == 0:
        yield "a threshold of zero"
    if threshold == 2**32 - 1:
        yield "the greatest threshold"
    if any(abs(q - p) > HIGH for p, q in pairs):
        yield "a difference of 33 bits"
    if prices and prices[-1] == 0 and len(prices) > 1 and 0 not in prices[:-1]:
        yield "a last price of zero"
    if 0 in prices[:-1]:
        yield "a previous price of zero"
        return
    rs = [change(p, q) for p, q in pairs]
    if any(abs(r) == MILLION + 1 for r in rs):
        yield "an R one past a limit"
    if any(abs(r) > MILLION for r in rs):
        if len(prices) < 4:
            yield "a refused R that no sigma needs"
        return
    if MILLION in rs:
        yield "an R of 1,000,000"
    if -MILLION in rs:
        yield "an R of -1,000,000"
    if any((p < 0) != (q < 0) for p, q in pairs):
        yield "a change of sign, accepted"
    found = volatile.sigmas(prices)
    if threshold in found:
        yield "a sigma is the threshold itself"
    yield from period_situations(found, threshold)


def change(p, q):
    """R, refused or not."""
    size = abs(q - p) * MILLION // abs(p)
    return size if q >= p else -size


def period_situations(found, threshold):
    try:
        periods = volatile.periods(found, threshold)
    except volatile.Refused22:
        first = next(d for d, s in enumerate(found) if s >= threshold) + 1
        if first == 29:
            yield "twenty-nine sigmas before a first day"
        return
    if not periods and len(found) > 30:
        yield "no period in more than thirty sigmas"
    if len(periods) > 1:
        yield "a period begins, ends and another begins"
    for first, last in periods:
        average = sum(found[first - 30 : first]) // 30
        if first == 30:
            yield "thirty sigmas before a first day"
        if first == len(found):
            yield "a period begins on the asked day"
        elif first == len(found) - 1 and found[first] <= average:
            yield "a first day's sigma, the last one, is at most the average"
        if last is None:
            if first < len(found):
                yield "a period lasts to the asked day"
            continue
        if last == len(found) - 1:
            yield "a period ended on the day before the asked one"
        if found[last] >= threshold:
            yield "the last day's sigma is at least the threshold"
        if found[last] == average:
            yield "a last day's sigma is the average itself"


def row_situations(words):
    after = volatile.eased(words)
    if len(words) != 7:
        yield "a row of another length left"
    elif after == words and (words[3], words[4], words[5]) != (1, 0, 0):
        yield "a row with a word out of range left"
    if after != words:
        yield "a row eased"
        if 2 * words[4] > after[4]:
            yield "a doubled at its limit"
        if 2 * words[5] > after[5]:
            yield "b doubled at its limit"
        if words[3] % 2:
            yield "an odd M halved"


def strike_situations(words):
    """What a strike's row shows, by the recount."""
    after = volatile.eased(words, True)
    if len(words) != 7:
        return
    if after == words and words[3] != 1:
        yield "a strike's row with a word out of range left"
    if after != words:
        yield "a strike's row eased"
        if words[4] > 100_000:
            yield "a strike's row with a past 100,000 eased"
        if words[5] > 1_000_000:
            yield "a strike's row with b past 1,000,000 eased"


def inside_situations(strike, said, words):
    """What a list of prices with a row shows, by the recount."""
    if volatile.eased(words, strike == 1) == words:
        return
    if said == "inside yes":
        yield "a strike's row of a day inside eased" if strike else "the row of a day inside eased"
    if said == "inside no":
        yield "the row of a day outside left"
    if said == "refused 22":
        yield "the row of a refused list left"


# ---------------------------------------------------------------- cases


def cycle(prices, count):
    """Three prices again and again: every sigma is the same."""
    return [prices[i % len(prices)] for i in range(count)]


def known_prices():
    """(prices, threshold) at the edges that the request names."""
    yield from [([], 0), ([5], 1), ([5, 0], 1), ([0, 5], 1), ([5, 5, 0], 1), ([0], 0)]
    for prices in (
        [2_000_000, -1], [2_000_000, -2], [-2_000_000, 1], [-2_000_000, 2], [1, 2], [1, 3], [-1, 0],
        [-1, -2], [-1, -3], [1, 0], [2, 0, 1], [LOW, HIGH], [HIGH, LOW], [LOW, -1], [HIGH, 0],
        [1_000_000, 2_000_000], [1_000_000, 2_000_001], [1_000_001, -1], [1_000_001, 0],
        [2**30, LOW], [2**30, HIGH], [-(2**30), HIGH], [LOW, 0, 5], [1, LOW], [1, HIGH],
    ):
        for threshold in (0, 1, 2**32 - 1):
            yield prices, threshold
            yield [7, 7, 7, *prices], threshold
            yield [*prices, 7, 7], threshold
    same = cycle([1_000, 1_100, 1_050], 60)
    level = volatile.sigmas(same)[0]
    for count in range(30, 60):
        for threshold in (level, level + 1):
            yield same[:count], threshold
    # Quiet days, a jump so that exactly n sigmas are before the first day, and a while after it.
    for quiet in range(28, 36):
        for jump in (1_000, -1_000, 30_000):
            prices = cycle([100_000, 100_010, 100_005], quiet + 3)
            prices += [prices[-1] + jump, prices[-1] + 2 * jump, prices[-1], *prices[:12]]
            for end in range(quiet, len(prices) + 1):
                for threshold in (100, 5_000):
                    yield prices[:end], threshold


def walk(rng):
    """Calm and wild days by turns; the threshold is one of the sigmas, or near one."""
    price = rng.choice([1_000, 100_000, 10**6, -(10**6), 2 * 10**9, -50_000])
    prices, wild = [price], False
    for _ in range(rng.randrange(33, 140)):
        if rng.random() < (0.25 if wild else 0.06):
            wild = not wild
        most = abs(price) * (60 if wild else 2) // 1_000 + 1
        price = max(LOW, min(HIGH, price + rng.randint(-most, most)))
        prices.append(price)
    try:
        found = volatile.sigmas(prices)
    except volatile.Refused22:
        return prices, rng.randrange(100_000)
    later = found[29:] or found
    threshold = max(0, rng.choice([max(found), rng.choice(later), rng.choice(later)]) + rng.choice([0, 0, 1, -1]))
    if rng.random() < 0.7:  # nothing before the thirtieth sigma begins a period
        threshold = max(threshold, max(found[:29], default=0) + 1)
    return prices[: rng.randrange(max(1, len(prices) - 30), len(prices) + 1)], threshold


def repeated(rng):
    """A few levels of sigma that come again, so that sigmas meet the average and the threshold."""
    base = rng.choice([1_000, 1_000_000])
    level = lambda k, count: cycle([base, base + k, base + k // 2], count)
    prices = level(4, 36)
    for k in rng.choices([2, 4, 5, 8, 20, 200], k=5):
        prices += level(k, rng.randrange(3, 40))
    found = volatile.sigmas(prices)
    return prices[: rng.randrange(33, len(prices) + 1)], rng.choice(sorted(set(found)))


def rough(rng):
    """Any prices at all, mostly refused."""
    some = [0, 1, -1, 2, LOW, HIGH, MILLION, -MILLION, rng.randint(LOW, HIGH), rng.randint(-5, 5)]
    return [rng.choice(some) for _ in range(rng.randrange(8))], rng.choice([0, 1, rng.getrandbits(32)])


def any_row(rng):
    words = [
        rng.choice([1, 2]), rng.randrange(3), 1_000 * rng.randint(1, 86_400), rng.randint(1, 100_000),
        rng.choice([0, 125, 49_999, 50_000, 50_001, 100_000, rng.randint(0, 100_000)]),
        rng.choice([0, 1, 499_999, 500_000, 500_001, 1_000_000, rng.randint(0, 1_000_000)]),
        rng.randint(1, 799),
    ]
    if rng.random() < 0.25:
        words[rng.randrange(7)] = rng.choice([0, 3, 800, 999, 100_001, 1_000_001, 86_400_001, 2**32 - 1])
    if rng.random() < 0.15:
        words = [*words, *[1] * 9][: rng.randrange(17)]
    return words


def row_case(strike, words):
    return packed(13, strike, len(words), *words)


def inside_case(strike, prices, threshold, words):
    return packed(14, strike, threshold, len(prices), len(words), *prices, *words)


def any_strike_row(rng):
    """A row whose a and b, which a strike leaves unread, are often out of range."""
    words = any_row(rng)
    if len(words) == 7 and rng.random() < 0.5:
        words[4 + rng.randrange(2)] = rng.choice([100_001, 200_000, 1_000_001, 2**31, 2**32 - 1])
    return words


def any_eased(rng):
    """(bytes, what they show) of a row by itself, and of one with the prices before its day."""
    strike, words = rng.randrange(2), any_strike_row(rng)
    yield row_case(strike, words), list(strike_situations(words) if strike else row_situations(words))
    prices, threshold = rng.choice([walk, repeated, rough])(rng)
    said = volatile.answer(prices, threshold)
    yield inside_case(strike, prices, threshold, words), list(inside_situations(strike, said, words))


def wrong_rows():
    """Cases of rows that do not fit their counts, or name no open."""
    row = [1, 1, 1_000, 501, 60_000, 7, 600]
    for good in (row_case(1, row), inside_case(0, [5, 5, 5, 5], 1, row)):
        yield from [good[: 4 * n] for n in range(1, len(good) // 4)]
        yield from [good[:-1], good + b"\0", good + packed(1)]
    yield from [row_case(1, [1] * 17), inside_case(1, [5], 1, [1] * 17), inside_case(0, [1] * 4_097, 1, row)]
    yield from [packed(13, 1, 2**32 - 1), packed(14, 1, 1, 2**32 - 1, 7), packed(14, 1, 1, 4, 2**32 - 1)]


def wrong_strikes():
    row = [1, 1, 1_000, 501, 60_000, 7, 600]
    for strike in (2, 3, 2**32 - 1):
        yield from [row_case(strike, row), inside_case(strike, [5, 5, 5, 5], 1, row)]


def wrong_cases():
    """Cases that do not fit their counts, and are bad."""
    good = prices_case([5, 5, 5, 5], 1)
    yield from [packed(5), packed(5, 1), packed(6), packed(12, 0), good[:-1], good + b"\0", good + packed(1)]
    yield from [packed(5, 1, 4_097, *[1] * 4_097), packed(6, 17, *[1] * 17), packed(6, 7, 1), packed(6, 0, 1)]
    yield packed(5, 1, 2**32 - 1)


def with_shorter(prices, threshold):
    """The case of some prices, and of shorter lists of them: up to each period's first day, and, where
    a period ended on their last day, with that day as the asked one."""
    shows = list(prices_situations(prices, threshold))
    yield prices_case(prices, threshold), shows
    if "a period ended on the day before the asked one" in shows:
        assert volatile.inside(prices[:-1], threshold)
        yield prices_case(prices[:-1], threshold), ["a period ends on the asked day"]
    try:
        periods = volatile.periods(volatile.sigmas(prices), threshold)
    except volatile.Refused22:
        return
    for first, _ in periods:
        front = prices[: first + 4]
        yield prices_case(front, threshold), list(prices_situations(front, threshold))


def cases(rng, count):
    """(bytes, what they show)"""
    others = random.Random(13)
    for data in wrong_cases():
        yield data, ["a list that does not fit its count"]
    for data in wrong_rows():
        yield data, []
    for data in wrong_strikes():
        yield data, ["a strike above 1"]
    for prices, threshold in known_prices():
        yield from with_shorter(prices, threshold)
    for words in ([], [1] * 16, [1, 1, 1_000, 1, 0, 0, 1], [2, 2, 86_400_000, 100_000, 100_000, 1_000_000, 799]):
        yield packed(6, len(words), *words), list(row_situations(words))
        yield row_case(1, words), list(strike_situations(words))
    yield inside_case(1, cycle([1_000, 1_004, 1_002], 4_096), 2**20, [1] * 16), []
    yield prices_case(cycle([1_000, 1_004, 1_002], 4_096), 2**20), []
    for at in range(count):
        make = rng.choice([walk, walk, walk, repeated, repeated, rough])
        prices, threshold = make(rng)
        yield from with_shorter(prices, threshold)
        if at % 40 == 0:
            yield prices_case(prices, threshold, 12), []
        if at % 3 == 0:
            words = any_row(rng)
            yield packed(6, len(words), *words), list(row_situations(words))
            yield from any_eased(others)
