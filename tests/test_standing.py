"""The standing of makers: the recount against itself, the proved calls through `probe` against the recount, and the command `standing`.

Random lists of calls run from count 0 and from records and counts of any kind, right and wrong ones; inputs that are no case are tried too.
"""

import random
from collections import Counter

import pytest

from recount import programs, standing
from recount.standing import CHANGE, JOIN, LEAVE, after, in_order, is_wrong, step
from tests import command
from tests.paths import EXAMPLES
from tests.running import run_program
from tests.standing_cases import DUE, call, case, from_nothing, from_records, long_lists, look, no_cases


def test_recount():
    """From count 0 the records after any list of calls are what the calls alone say, in order."""
    rng = random.Random(13)
    for _ in range(500):
        size = rng.randrange(6)
        calls = []
        for _ in range(rng.randrange(30)):
            kind = rng.choice((JOIN, CHANGE, LEAVE))
            calls.append((kind, rng.randrange(8), 0 if kind == LEAVE else rng.randrange(4)))
        records, count, refused = [(9, 9)] * size, 0, []
        for each in calls:
            number, records, count = step(records, count, each)
            refused.append(number)
        ratings, due = after(size, calls)
        assert records[:count] == in_order(ratings.items()) and refused == due, (size, calls)
        assert not is_wrong(records, count) and len(records) == size


@pytest.mark.usefixtures("programs")
def test_probe(note):
    rng, seen = random.Random(13), Counter()
    cases = [from_nothing(rng) for _ in range(1_500)] + [from_records(rng) for _ in range(1_500)]
    for data in [*cases, *long_lists(rng), *no_cases(rng)]:
        printed, due = run_program("probe", data), programs.probe(data)
        assert printed == due, data.hex()
        look(seen, data, printed)
    assert not [what for what in DUE if not seen[what]], "these never came up"
    note(f"standing: {len(cases)} random lists of calls agree", {what: seen[what] for what in DUE})


@pytest.mark.usefixtures("programs")
def test_probe_from_count_0():
    """The makers and ratings that the calls alone leave, in order."""
    rng = random.Random(14)
    for _ in range(500):
        size = rng.choice((1, 2, 4, 9))
        calls = [call(rng, 6) for _ in range(rng.randrange(40))]
        *answers, last = run_program("probe", case([(7, 7)] * size, 0, calls)).splitlines()
        ratings, refused = standing.after(size, calls)
        flat = [word for record in standing.in_order(ratings.items()) for word in record]
        assert last.split() == ["standing", *map(str, flat)], (size, calls)
        found = [int(answer.split()[1]) if answer.startswith("refused") else 0 for answer in answers]
        assert found == refused, (size, calls)


# ---------------------------------------------------------------- the command

KNOWN = """\
line 8: join 204 990: refused 24: the maker is present at a join, or absent at a change or leave
line 10: change 118 700: refused 24: the maker is present at a join, or absent at a change or leave
line 14: join 500 119: refused 25: every record is used
place  maker  rating
    1     31     910
    2     77     905
    3      5     300
    4    412     300
    5     96     120
    6    204      60
"""


@pytest.mark.usefixtures("library")
@pytest.mark.parametrize(("source", "status", "due"), [
    ((EXAMPLES / "makers.standing").read_text(encoding="utf-8"), 1, KNOWN),
    ("join 3 5 # the only one\n", 0, "place  maker  rating\n    1      3       5\n"),
], ids=["example", "one maker"])
def test_command(source, status, due):
    """A refused call makes the status 1."""
    done = command.run("standing", "-", given=source)
    assert (done.status, done.printed) == (status, due)


@pytest.mark.usefixtures("library")
@pytest.mark.parametrize("source", [
    "jion 1 2", "join 1", "leave 1 0", "join 1 4294967296", "join x 1", "records 1000001", "join 1 2\nrecords 3", "records",
])
def test_command_on_wrong_texts(source):
    done = command.run("standing", "-", given=source)
    assert done.status == 1 and not done.printed and ":" in done.complaint, done
