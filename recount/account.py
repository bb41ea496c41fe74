"""Where the time of a session went: the state of every millisecond, and the stretches of one state."""

from collections import namedtuple
from itertools import groupby
from operator import itemgetter

from recount import book, session
from recount.book import SHORT, best_ask, best_bid, pass_event

STATES = ("kept", "no-bid", "no-ask", "neither", "crossed", "wide")
ALL_RECORDS = session.RUN_LIMIT

# `stretches` are triples of offset, length and state's number, sorted; `times` has each state's milliseconds.
Account = namedtuple("Account", "times stretches")


def state(row, sp, live):
    """The number of the state that live orders are in."""
    bid, ask = best_bid(live, row.least), best_ask(live, row.least)
    if bid is None and ask is None:
        return STATES.index("neither")
    if bid is None:
        return STATES.index("no-bid")
    if ask is None:
        return STATES.index("no-ask")
    if book.within(row, sp, bid, ask):
        return STATES.index("kept")
    return STATES.index("wide" if bid < ask else "crossed")


def by_milliseconds(row, sp, events, end):
    """Asks every millisecond below `end` for its state, counts it, and gathers neighbours."""
    times, stretches, start, before = [0] * len(STATES), [], 0, None
    for m, now in book.by_milliseconds(events, end, lambda live: state(row, sp, live)):
        if before is not None and now != before:
            stretches.append((start, m - start, before))
            start = m
        times[now] += 1
        before = now
    return Account(times, [*stretches, (start, end - start, before)])


def by_events(row, sp, events, end):
    """Goes from event to event: between two times the orders stay as they are."""
    live, now, pieces = {}, 0, []
    for event in [*events, None]:
        then = end if event is None else event.t
        if then > now:
            pieces.append((state(row, sp, live), then - now))
            now = then
        if event is not None:
            pass_event(live, event)
    times, stretches, start = [0] * len(STATES), [], 0
    for number, group in groupby(pieces, key=itemgetter(0)):
        length = sum(piece for _, piece in group)
        stretches.append((start, length, number))
        times[number] += length
        start += length
    return Account(times, stretches)


def account(row, sp, events, end):
    way = by_milliseconds if end <= SHORT else by_events
    return way(row, sp, events, end)


def run(words, sp, data, limit=ALL_RECORDS, buffer_words=None):
    """The account of a session, or its refusal. `buffer_words` as in `session.run`; `sp` may be a strike."""
    opened = session.quoted(words, sp, data, limit)
    if isinstance(opened, session.Stopped):
        return opened
    quoting = opened.quoting
    found = account(quoting.row, quoting.sp, quoting.events, quoting.row.length)
    if buffer_words is not None and buffer_words < 3 * len(found.stretches):
        return session.Stopped(16, 0)
    return found


def call(words, sp, data, buffer):
    """The answer, and the lent buffer after it: only the front changes, on a refusal nothing."""
    answer = run(words, sp, data, buffer_words=len(buffer))
    if isinstance(answer, session.Stopped):
        return answer, buffer
    written = [number for stretch in answer.stretches for number in stretch]
    return answer, written + buffer[len(written) :]


def library(words, sp, data, buffer):
    """The library's number and the buffer after it: the times, the number of stretches, the stretches."""
    answer = run(words, sp, data)
    if isinstance(answer, session.Stopped):
        return (answer.number << 32) + answer.place, buffer
    written = [*answer.times, len(answer.stretches), *(number for stretch in answer.stretches for number in stretch)]
    if len(buffer) < len(written):
        return 16 << 32, buffer
    return len(written), written + buffer[len(written) :]
