"""Names of symbols (55) and accounts (1) in sentences."""

from collections import Counter

NAMES = {"symbol": "symbol (55)", "account": "account (1)"}
MOST_LISTED = 40  # names in one sentence


def listed(counts: "Counter[str]") -> str:
    """Names with how many messages have them, the most frequent first.

    >>> listed(Counter({"BR-1.27": 12, "none": 1}))
    'BR-1.27 (12 messages), none (1 message)'
    """
    shown = [f"{name} ({count:,} message{'s' * (count != 1)})" for name, count in counts.most_common(MOST_LISTED)]
    more = len(counts) - len(shown)
    return ", ".join(shown) + (f" and {more} more" if more else "")
