"""The weight card: for each f from 0 to 1,000 the weights by the required shares 600, 700 and 750, by
document 01's formula with document 02's W6; 0 where f is below the share."""

from recount.book import weight

SHARES = (600, 700, 750)
LAST = 1_000


def line(f):
    """K and L matter only by f: a kept time of f in a length of 1,000 has it."""
    return [weight(f, 1_000, share) for share in SHARES]


def card(data=b""):
    """What `card` prints, which reads nothing."""
    return "".join(f"{f} {' '.join(map(str, line(f)))}\n" for f in range(LAST + 1))
