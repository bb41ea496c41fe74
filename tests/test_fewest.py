"""Fewest pairs (document 02, W10): the session run's pairs against all lists of pairs.

For each choice of kept milliseconds in a short window, at the start and at the end of a quantum, a
session is run that keeps exactly these. All lists of pairs in the window are gone through that are
sorted by offset and have lengths of at least 1, as long as the choices can need. Of those that
cover the kept milliseconds and no others, the run's list must be one, and every other must have
more pairs. It fails too where no other list has two pairs that overlap, touch or start together.
"""

from collections import Counter, defaultdict

import pytest

from recount import programs, records
from recount.book import BUY, SELL, Add, Cancel, Tick
from tests.running import run_program, words

WINDOW = 7  # milliseconds
MOST = 4  # stretches that so many milliseconds can have
ROW = [1, 0, 1_000, 1, 0, 1, 600]
LENGTH = ROW[2]
FILL = 9


def covered(pairs):
    """The milliseconds of some pairs, as bits."""
    bits = 0
    for offset, length in pairs:
        bits |= ((1 << length) - 1) << offset
    return bits


@pytest.fixture(scope="module")
def lists():
    """All sorted lists of pairs in the window, by what they cover."""
    ones = [(o, n) for o in range(WINDOW) for n in range(1, WINDOW - o + 1)]
    so_far, found = [()], defaultdict(list)
    for _ in range(MOST + 1):
        for pairs in so_far:
            found[covered(pairs)].append(pairs)
        so_far = [l + (p,) for l in so_far for p in ones if not l or l[-1][0] <= p[0]]
    return found


def is_fewest(lists, kept, ours):
    """Ours covers what is kept, and every other list that does has more pairs."""
    fitting = lists[kept]
    return ours in fitting and all(len(l) > len(ours) for l in fitting if l != ours)


def session_bytes(kept, at, busy):
    """Record bytes of a session that keeps these milliseconds of the window that starts at `at`."""
    quote, gone = (lambda t: Add(t, 2, SELL, 100, 1)), (lambda t: Cancel(t, 2))
    events, quoting = [Add(0, 1, BUY, 99, 1)], False
    for m in range(WINDOW + 1):
        t, due = at + m, bool(kept >> m & 1)
        if t == LENGTH:
            break
        if due and not quoting:
            events.append(quote(t))
        if quoting and not due:
            events.append(gone(t))
        if busy:
            # within its millisecond the quote goes and comes back, so nothing is lost
            events += [gone(t), quote(t), Tick(t)] if due else [Tick(t)]
        quoting = due
    return b"".join(map(records.write, events))


def pairs_of(answer, at):
    """The pairs that a probe has printed, of the buffer's front and of the part returned."""
    first, buffer, front = answer.splitlines()
    count = int(first.split()[-1])
    found = [int(word) for word in buffer.split()[1:]]
    assert found[2 * count :] == [FILL] * (len(found) - 2 * count), answer
    assert [int(word) for word in front.split()[1:]] == found[: 2 * count], answer
    return tuple((found[2 * i] - at, found[2 * i + 1]) for i in range(count))


def shows(pairs):
    for (offset, length), (then, _) in zip(pairs, pairs[1:]):
        if then == offset:
            yield "start together"
        elif then < offset + length:
            yield "overlap"
        elif then == offset + length:
            yield "touch"


def test_is_fewest(lists):
    """A list with a pair in two, in another order, with one twice, too short or too long is found out."""
    kept = 0b1011011
    assert is_fewest(lists, kept, ((0, 2), (3, 2), (6, 1)))
    for wrong in [
        ((0, 1), (1, 1), (3, 2), (6, 1)), ((3, 2), (0, 2), (6, 1)), ((0, 2), (0, 2), (3, 2), (6, 1)),
        ((0, 2), (3, 2)), ((0, 2), (3, 4)), ((0, 7),), (),
    ]:
        assert not is_fewest(lists, kept, wrong), wrong


@pytest.mark.parametrize("shown", ["start together", "overlap", "touch"])
def test_other_lists(lists, shown):
    """Some list that is not the fewest has two pairs that do so."""
    seen = Counter(each for kept in range(1 << WINDOW) for pairs in lists[kept] for each in set(shows(pairs)))
    assert seen[shown]


@pytest.mark.usefixtures("programs")
@pytest.mark.parametrize("busy", [False, True], ids=["calm", "busy"])
@pytest.mark.parametrize("at", [0, LENGTH - WINDOW], ids=["start", "end"])
def test_fewest_pairs(lists, at, busy, note):
    for kept in range(1 << WINDOW):
        case = words(1, 2 * MOST + 1, FILL, len(ROW), *ROW, 0) + session_bytes(kept, at, busy)
        for name, answer in [("probe", run_program("probe", case)), ("the recount", programs.probe(case))]:
            assert is_fewest(lists, kept, pairs_of(answer, at)), f"{name}, kept {kept:0{WINDOW}b} at {at}: {answer}"
    note(f"fewest: {1 << WINDOW} sessions {'busy' if busy else 'calm'} at {at} have the fewest pairs of {sum(map(len, lists.values()))} lists")
