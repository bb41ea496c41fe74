"""The standing of makers (document 02, W13): records and lists of calls, right and wrong ones, and what their answers show."""

from recount import programs, standing
from recount.standing import CHANGE, JOIN, LEAVE, LIMIT
from tests.running import words

GREATEST = 2**32 - 1
MARKS = 65_536  # makers whose numbers differ by a multiple of it share a mark


def case(records, count, calls):
    flat = [word for item in [*records, (len(calls),), *calls] for word in item]
    return words(7, len(records), count, *flat)


def number(rng, few):
    """A maker's number or a rating: out of a few, so that they meet, or with their marks, or any, or an end."""
    low = rng.randrange(few)
    return rng.choice((low, low, low + MARKS * rng.randrange(1, 4), rng.randrange(GREATEST), 0, GREATEST))


def call(rng, few):
    kind = rng.choice((JOIN, JOIN, CHANGE, LEAVE))
    return kind, number(rng, few), 0 if kind == LEAVE else number(rng, few)


def any_records(rng, size, few):
    """Records in order, each maker once, or nearly so, or of any kind."""
    records = list({maker: (maker, number(rng, few)) for maker in
                    (number(rng, 2 * few) for _ in range(size))}.values())
    records = standing.in_order(records)
    while len(records) < size:
        records.append((number(rng, few), number(rng, few)))
    spoil = rng.randrange(4)
    if size > 1 and spoil == 0:
        at = rng.randrange(size - 1)
        records[at], records[at + 1] = records[at + 1], records[at]
    if size > 1 and spoil == 1:
        at, other = rng.sample(range(size), 2)
        records[at] = (records[other][0], records[at][1])
    if spoil == 2:
        rng.shuffle(records)
    return records


def from_nothing(rng):
    size = rng.choice((0, 1, 2, 3, 5, 8, 13, 40))
    few = rng.choice((2, 4, 9, 30))
    return case(any_records(rng, size, few), 0, [call(rng, few) for _ in range(rng.randrange(60))])


def from_records(rng):
    size = rng.choice((0, 1, 2, 3, 4, 6, 9))
    few = rng.choice((2, 4, 9, 30))
    records = any_records(rng, size, few)
    count = rng.choice((rng.randrange(size + 1), size, size + 1, rng.randrange(GREATEST), GREATEST))
    return case(records, count, [call(rng, few) for _ in range(rng.randrange(8))])


def long_lists(rng):
    """As many records and calls as a case can have."""
    joins = [(JOIN, maker, rng.randrange(20)) for maker in rng.sample(range(700), LIMIT)]
    yield case([(0, 0)] * LIMIT, 0, joins)
    yield case([(0, 0)] * (LIMIT - 1), 0, joins)
    full = standing.in_order([(maker, rating) for _, maker, rating in joins])
    yield case(full, LIMIT, [(CHANGE, maker, rng.randrange(20)) for _, maker, _ in joins])
    yield case(full, LIMIT, [(LEAVE, maker, 0) for _, maker, _ in joins])
    yield case(full, LIMIT, [(JOIN, 701, 5), (LEAVE, full[0][0], 0), (JOIN, 701, 5)])


def no_cases(rng):
    """Another operation, a leave with a rating, too many records or calls, another length."""
    good = case([(1, 1)], 0, [(JOIN, 2, 2), (LEAVE, 2, 0)])
    for size in range(len(good)):
        yield good[:size]
    yield good + b"\0"
    yield good + words(0)
    for kind in (0, 4, 5, GREATEST):
        yield case([], 0, [(kind, 1, 0)])
        yield case([(1, 1)], 1, [(LEAVE, 1, 0), (kind, 1, 1)])
    for rating in (1, GREATEST):
        yield case([(1, 1)], 1, [(JOIN, 2, 2), (LEAVE, 1, rating)])
    yield case([(0, 0)] * (LIMIT + 1), 0, [])
    yield case([], 0, [(LEAVE, 1, 0)] * (LIMIT + 1))
    yield words(7, GREATEST, 0, 0)
    yield words(7, 0, 0, GREATEST)


# ---------------------------------------------------------------- what they show


def look(seen, data, printed):
    """Counts what an answer showed."""
    if printed == "bad case\n":
        seen["bad case"] += 1
        return
    given = programs.to_words(data)
    size, count = given[1:3]
    calls = given[4 + 2 * size :]
    *answers, last = printed.splitlines()
    for kind, answer in zip(calls[::3], answers):
        what = answer if answer.startswith("refused") else "accepted"
        seen[f"{what} {('join', 'change', 'leave')[kind - 1]}"] += 1
    used = last.split()[1:]
    makers, ratings = used[::2], used[1::2]
    seen["makers of one mark"] += len({int(maker) % MARKS for maker in makers}) < len(makers)
    seen["equal ratings"] += any(a == b for a, b in zip(ratings, ratings[1:]))
    seen["standing alone"] += not used and count > size
    seen["all records used"] += size > 0 and len(used) == 2 * size


DUE = [
    *(f"accepted {kind}" for kind in ("join", "change", "leave")),
    *(f"refused {n} {kind}" for n in (23, 24) for kind in ("join", "change", "leave")),
    "refused 25 join", "equal ratings", "makers of one mark", "standing alone", "all records used", "bad case",
]
