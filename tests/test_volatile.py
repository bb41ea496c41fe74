"""Volatile days: the recount against the paper, `probe` against the recount on known and random cases, and the command."""

import json
import random
from collections import Counter
from xml.etree import ElementTree

import pytest

from recount import programs, volatile
from recount.volatile import MILLION, answer, change, changes, eased, periods, sigma
from tests import command
from tests.paths import EXAMPLES, ROOT, TARGET
from tests.running import first_difference, run_program
from tests.volatile_cases import MUST_SHOW, cases

# ---------------------------------------------------------------- the recount against the paper


def test_recount_rows():
    """A row eased: M rounded up, a and b at their limits; a row that is refused stays."""
    assert eased([1, 1, 1_000, 501, 60_000, 7, 600]) == [1, 1, 1_000, 251, 100_000, 14, 600]
    assert eased([1, 1, 1_000, 0, 1, 1, 600]) == [1, 1, 1_000, 0, 1, 1, 600]


def test_recount_strike_rows():
    """A strike's a and b are unread, so M alone is altered, whatever they are."""
    assert eased([1, 1, 1_000, 501, 200_000, 7, 600], True) == [1, 1, 1_000, 251, 200_000, 7, 600]
    assert eased([1, 1, 1_000, 501, 200_000, 7, 600]) == [1, 1, 1_000, 501, 200_000, 7, 600]
    assert eased([1, 1, 1_000, 0, 1, 1, 600], True) == [1, 1, 1_000, 0, 1, 1, 600]


def test_recount_changes():
    """R, rounded toward zero either way, and its limits."""
    assert changes([3, 4, 3, -3, -4, -3][:3]) == [333_333, -250_000]
    assert change(2_000_000, -1) == -MILLION and answer([2_000_000, -2], 1) == "refused 22"
    assert answer([5, 5, 0], 1) == "inside no" and answer([5, 0, 5], 1) == "refused 22"


@pytest.mark.parametrize("three", [[10, 20, 30], [10, 20, 29], [-MILLION, MILLION, MILLION], [0, 0, 0], [7, -7, 1]], ids=str)
def test_recount_sigma(three):
    """By the paper's own words."""
    total = sum((3 * r - sum(three)) ** 2 for r in three)
    n = sigma(three)
    assert 18 * n * n <= total < 18 * (n + 1) ** 2


def test_recount_periods():
    """They begin, end and begin again; the last day's sigma begins none; 30 sigmas come before one, and 29 are refused."""
    assert periods([1] * 30 + [5, 9, 9, 1, 9], 5) == [(31, 33), (35, None)]
    assert periods([2] * 30 + [100, 50, 4, 2], 3) == [(31, 32)]
    assert periods([1] * 29 + [5], 5) == [(30, None)]
    with pytest.raises(volatile.Refused22):
        periods([1] * 28 + [5], 5)


# ---------------------------------------------------------------- probe against the recount


@pytest.mark.usefixtures("programs")
def test_probe(is_quick, note):
    seen = Counter()
    for at, (data, shows) in enumerate(cases(random.Random(12), 200 if is_quick else 2_000)):
        said, due = run_program("probe", data), programs.probe(data)
        if said != due:
            kept = TARGET / "volatile.case"
            kept.write_bytes(data)
            pytest.fail(f"case {at} differs, see {kept}: probe and recount: {first_difference(said, due)}")
        seen.update(shows)
        seen[due.split("\n")[0] if due.startswith(("inside", "refused")) else "other"] += 1
    assert not [situation for situation in MUST_SHOW if not seen[situation]], "these never came up"
    note(f"volatile: {at + 1} cases agree, {seen['inside yes']} inside, {seen['inside no']} outside, {seen['refused 22']} refused", {what: seen[what] for what in MUST_SHOW})


# ---------------------------------------------------------------- the command

THRESHOLD, EXAMPLE = 15_000, EXAMPLES / "volatile.prices"


@pytest.mark.usefixtures("library")
def test_command():
    """The table and the picture of the example."""
    prices = [price for _, price in command.prices(EXAMPLE)]
    found = volatile.sigmas(prices)
    spans = volatile.periods(found, THRESHOLD)
    assert len(spans) == 2 and spans[1][1] is None, spans
    within = [any(f <= d - 3 and (l is None or d - 3 <= l) for f, l in spans) for d in range(len(prices) + 1)]
    judged = json.loads(command.run("volatile", THRESHOLD, EXAMPLE, "--json").printed)
    assert judged["inside"] == within and [s for s in judged["sigmas"] if s is not None] == found
    drawn = command.run("volatile", THRESHOLD, EXAMPLE, "--picture")
    ElementTree.fromstring(drawn.printed)
    assert drawn.printed == (ROOT / "docs" / "volatile.svg").read_text(), "docs/volatile.svg is old"
    lines = command.run("volatile", THRESHOLD, EXAMPLE, "--both").printed.splitlines()
    assert len(lines) == len(prices) + 3 and lines[-2:] == ["the next day is inside", "the proved meter and the recount agree"], lines[-2:]


@pytest.mark.usefixtures("library")
@pytest.mark.parametrize(("text", "line"), [("5\n5 5 5\n", 2), ("2026-01-05 12.5\n", 1), ("7\n\nx\n", 3), ("2147483648\n", 1)])
def test_command_on_wrong_prices(text, line):
    done = command.run("volatile", THRESHOLD, "-", given=text)
    assert done.status == 1 and f"standard input: line {line}: " in done.complaint, done


@pytest.mark.usefixtures("library")
def test_command_refused():
    refused = command.run("volatile", "1", "-", given="5\n0\n5\n")
    assert refused.status == 1 and "refused 22: of the prices before day 3" in refused.printed, refused
