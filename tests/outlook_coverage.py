"""Outlooks: what a list of calls shows of them, taken from the lines and from what was opened."""

import re

from recount.book import Open, Outlook, Row, widest

LINE = re.compile(
    r"outlook need (\d+) left (\d+) by (\d+|never) full (\d+|never) lapses (\d+|none|over)"
    r" rest (yes|no) lost (yes|no) weight (\d+) (\d+)"
)

MUST_SHOW = [
    "an outlook refused by 7",
    *(f"an outlook with lapses {name}" for name in ("none", "over", "0", "above 0")),
    "an outlook at the quantum's end",
    "an outlook with a few milliseconds left",
    "nothing more needed, and the maker may rest",
    "nothing more needed, but resting is a lapse too many",
    "no lapse left, but one goes on, and the maker may rest",
    "the maker may wait for as long as the need leaves",
    "waiting is a lapse too many",
    "lost with lapses over alone",
    "lost by a millisecond",
    "lost with a spread limit below 1, with nothing else in the way",
    "everything that is left is needed",
    "the full weight never, and not lost",
    "the full weight needs nothing more",
    "the full weight needs something more",
    "a weight between, resting",
    "resting and keeping weigh the same",
]


def situations(calls, answers):
    """What the calls and their lines show."""
    opened = None
    for call, answer in zip(calls, answers):
        if isinstance(call, Open) and answer == "accepted":
            opened = call
        elif isinstance(call, Outlook):
            found = LINE.fullmatch(answer)
            yield from outlook_situations(opened, found.groups()) if found else [f"an outlook refused by {answer[8:]}"]


def outlook_situations(opened, shown):
    need, left, by, full, lapses, rest, lost, resting, keeping = shown
    need, left, resting, keeping = int(need), int(left), int(resting), int(keeping)
    row = Row(*opened.words)
    can_keep, now = widest(row, opened.sp) >= 1, row.length - left
    yield f"an outlook with lapses {'above 0' if lapses.isdigit() and lapses != '0' else lapses}"
    if left == 0:
        yield "an outlook at the quantum's end"
    elif left <= 8:
        yield "an outlook with a few milliseconds left"
    if lost == "yes":
        yield from lost_situations(need, left, lapses, can_keep)
        return
    yield from open_situations(need, left, now, by, lapses, rest)
    if full == "never":
        yield "the full weight never, and not lost"
    else:
        yield f"the full weight needs {'nothing' if full == '0' else 'something'} more"
    if 10_000 < resting < 20_000:
        yield "a weight between, resting"
    if left and resting and resting == keeping:
        yield "resting and keeping weigh the same"


def lost_situations(need, left, lapses, can_keep):
    if need <= left and can_keep and lapses == "over":
        yield "lost with lapses over alone"
    if need == left + 1 and lapses != "over":
        yield "lost by a millisecond"
    if not can_keep and need <= left and lapses != "over":
        yield "lost with a spread limit below 1, with nothing else in the way"


def open_situations(need, left, now, by, lapses, rest):
    if left and rest == "yes":
        yield "nothing more needed, and the maker may rest"
        if lapses == "0":
            yield "no lapse left, but one goes on, and the maker may rest"
    if left and need == left:
        yield "everything that is left is needed"
    if need < left and rest == "no":
        if by == str(now):
            yield "waiting is a lapse too many" if need else "nothing more needed, but resting is a lapse too many"
        else:
            yield "the maker may wait for as long as the need leaves"
