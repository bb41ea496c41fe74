"""Request W14, maker against taker, from its sentences.

Three counts of the same number G, each by itself: the game played out by recursion, its recurrence
minute by minute, and the closed form. The two ways of choosing that the proof gives are here too,
to be played against all that the other side can do.
"""

from functools import cache

LIMIT = 60
REFUSED = 26
SINGLE, DOUBLE = "single", "double"
KNOCKS = {SINGLE: 1, DOUBLE: 2}  # that void such a minute

# ---------------------------------------------------------------- a play
#
# What has happened is a list of minutes, oldest first: what was quoted, and whether it was voided.
# A maker's way chooses from that a volume; a taker's, from that and the volume, whether to void.


def doubles(past):
    return sum(quoted == DOUBLE for quoted, _ in past)


def knocks(past):
    return sum(KNOCKS[quoted] for quoted, voided in past if voided)


def unvoided(past):
    return sum(not voided for _, voided in past)


def quote(h, past, chosen):
    """A double is quoted only while fewer than h were; else the minute is single."""
    return DOUBLE if chosen == DOUBLE and doubles(past) < h else SINGLE


def can_void(k, past, quoted):
    """Without the knocks for it a minute stands."""
    return knocks(past) + KNOCKS[quoted] <= k


def play(m, h, k, maker, taker):
    past = []
    for _ in range(m):
        quoted = quote(h, past, maker(past))
        past.append((quoted, taker(past, quoted) and can_void(k, past, quoted)))
    return past


# ---------------------------------------------------------------- the two ways


def doubles_first(h):
    """The maker quotes double until his doubles are used, and then single."""
    return lambda past: DOUBLE if doubles(past) < h else SINGLE


def singles_first(m, h, k):
    """The taker voids a single minute if he can, and a double one if, besides its two knocks, he
    has one for each minute after it that must be single."""

    def voids(past, quoted):
        kept_back = 0
        if quoted == DOUBLE:
            doubles_left = h - doubles(past) - 1
            kept_back = max(0, m - len(past) - 1 - doubles_left)
        return knocks(past) + KNOCKS[quoted] + kept_back <= k

    return voids


def least_against(m, h, k, maker, past=()):
    """The least that a maker's way gets, over all that a taker can answer."""
    if len(past) == m:
        return unvoided(past)
    quoted = quote(h, past, maker(past))
    answers = [False, True] if can_void(k, past, quoted) else [False]
    return min(least_against(m, h, k, maker, (*past, (quoted, voided))) for voided in answers)


def most_against(m, h, k, taker, past=()):
    """The most that a taker's way lets through, over all that a maker can quote."""
    if len(past) == m:
        return unvoided(past)
    found = []
    for quoted in [SINGLE, DOUBLE] if doubles(past) < h else [SINGLE]:
        voided = taker(past, quoted) and can_void(k, past, quoted)
        found.append(most_against(m, h, k, taker, (*past, (quoted, voided))))
    return max(found)


# ---------------------------------------------------------------- G, three times


@cache
def played_out(minutes, doubles_left, knocks_left, stood=0):
    """The unvoided minutes at the end, where from here on the maker gets the most that he can and
    the taker leaves the least; `stood` minutes stood so far."""
    if minutes == 0:
        return stood
    found = []
    for quoted in [SINGLE, DOUBLE] if doubles_left else [SINGLE]:
        left = doubles_left - (quoted == DOUBLE)
        ends = [played_out(minutes - 1, left, knocks_left, stood + 1)]
        if KNOCKS[quoted] <= knocks_left:
            ends.append(played_out(minutes - 1, left, knocks_left - KNOCKS[quoted], stood))
        found.append(min(ends))
    return max(found)


def by_recurrence(limit=LIMIT):
    """G for all numbers from 0 to the limit, as a list of m, h and k, from no minutes upwards."""
    size = range(limit + 1)
    table = [[[0 for _ in size] for _ in size]]
    for _ in range(limit):
        before = table[-1]

        def worth(h, k, cost):
            stood = 1 + before[h][k]
            return min(stood, before[h][k - cost]) if cost <= k else stood

        table.append([
            [max(worth(h, k, 1), worth(h - 1, k, 2) if h else 0) for k in size] for h in size
        ])
    return table


def closed(m, h, k):
    """What is left of m minutes once the taker has voided singles, and doubles with the rest."""
    singles = m - min(h, m)
    voided = min(k, singles)
    return max(0, m - voided - (k - voided) // 2)


# ---------------------------------------------------------------- what the programs print


def answer(m, h, k):
    if max(m, h, k) > LIMIT:
        return f"refused {REFUSED}"
    return f"safe {closed(m, h, k)}"


def probe(words, data):
    """`8 m h k`."""
    return [answer(*words[1:4])] if len(data) == 16 else None


def safe_table(data):
    """A word m: a line for each h, in it G for each k."""
    if len(data) != 4:
        return "bad case\n"
    m = int.from_bytes(data, "little")
    if m > LIMIT:
        return f"refused {REFUSED}\n"
    size = range(LIMIT + 1)
    return "".join(" ".join(str(closed(m, h, k)) for k in size) + "\n" for h in size)
