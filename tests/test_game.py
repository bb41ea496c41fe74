"""Maker against taker (document 02, W14): the recount against itself, the proved function through the programs, and the command `game`.

`probe` answers every triple up to 12 as the game played out, and random ones, numbers above 60 and inputs of a wrong size as the recount
does. `safe_table` answers all 226,981 triples up to 60 as the recurrence. A test fails where an answer differs, and where something that
the cases are meant to show never came up.
"""

import itertools
import random
from collections import Counter

import pytest

from recount import game, programs
from recount.game import DOUBLE, LIMIT, SINGLE, by_recurrence, closed, play, played_out, unvoided
from tests import command
from tests.paths import EXAMPLES
from tests.running import run_program, words

GREATEST = 2**32 - 1


@pytest.fixture(scope="module")
def table():
    return by_recurrence()


# ---------------------------------------------------------------- the recount against itself


def test_recount_counts(table):
    """The three counts agree."""
    size = range(LIMIT + 1)
    assert all(table[m][h][k] == closed(m, h, k) for m in size for h in size for k in size)
    for m, h, k in itertools.product(range(13), repeat=3):
        assert played_out(m, h, k) == table[m][h][k], (m, h, k)


def test_recount_best_ways(table):
    """Against all that the other side can do each way gets G."""
    for m, h, k in itertools.product(range(9), repeat=3):
        due = table[m][h][k]
        assert game.least_against(m, h, k, game.doubles_first(h)) == due, (m, h, k)
        assert game.most_against(m, h, k, game.singles_first(m, h, k)) == due, (m, h, k)


@pytest.mark.parametrize(("h", "k"), [(0, 1), (1, 1), (1, 2), (2, 2), (1, 3)])
def test_recount_all_ways(table, h, k):
    """Of two minutes, every way of choosing there is, each a table of what it does after what has
    happened: the best maker against his worst taker, and the other way round, get G."""
    minutes = [(quoted, voided) for quoted in (SINGLE, DOUBLE) for voided in (False, True)]
    pasts = [(), *((minute,) for minute in minutes)]
    makers = [
        {past: (SINGLE, DOUBLE)[way >> at & 1] for at, past in enumerate(pasts)}
        for way in range(2 ** len(pasts))
    ]
    seen = [(past, quoted) for past in pasts for quoted in (SINGLE, DOUBLE)]
    takers = [
        {each: bool(way >> at & 1) for at, each in enumerate(seen)}
        for way in range(2 ** len(seen))
    ]
    ends = [
        [
            unvoided(play(2, h, k, lambda past: maker[tuple(past)],
                          lambda past, quoted: taker[tuple(past), quoted]))
            for taker in takers
        ]
        for maker in makers
    ]
    assert max(map(min, ends)) == table[2][h][k]
    assert min(map(max, zip(*ends))) == table[2][h][k]


# ---------------------------------------------------------------- the programs


@pytest.mark.usefixtures("programs")
def test_played_out():
    """Every triple up to 12, as the game played out by recursion."""
    seen = Counter()
    for triple in itertools.product(range(13), repeat=3):
        printed = run_program("probe", words(8, *triple))
        assert printed == f"safe {played_out(*triple)}\n", triple
        seen["zero" if printed == "safe 0\n" else "safe"] += 1
    assert seen["safe"] and seen["zero"], seen


def probe_cases(rng):
    """Random triples about the limit, numbers above it, and inputs of a wrong size."""
    for _ in range(1_000):
        yield words(8, *(rng.randrange(66) for _ in range(3)))
    for triple in itertools.product((0, 59, 60, 61, GREATEST), repeat=3):
        yield words(8, *triple)
    longest = words(8, 1, 2, 3, 4) + b"\0"
    for size in range(4, len(longest) + 1):
        yield longest[:size]


@pytest.mark.usefixtures("programs")
def test_probe(note):
    seen = Counter()
    for data in probe_cases(random.Random(1)):
        printed, due = run_program("probe", data), programs.probe(data)
        assert printed == due, data.hex()
        seen[printed.split()[0]] += 1
    assert seen["safe"] and seen["refused"] and seen["bad"], seen
    note(f"game: {sum(seen.values())} answers of probe agree with the recount")


@pytest.mark.usefixtures("programs")
def test_tables(table):
    """All triples up to 60, as the recurrence."""
    triples = 0
    for m, due in enumerate(table):
        found = [list(map(int, line.split())) for line in run_program("safe_table", words(m)).splitlines()]
        assert found == due, f"the table of {m} minutes differs"
        triples += len(found) * len(found[0])
    assert triples == 61**3


@pytest.mark.usefixtures("programs")
@pytest.mark.parametrize(("data", "due"), [
    (words(61), "refused"), (words(GREATEST), "refused"),
    (b"", "bad"), (words(1)[:3], "bad"), (words(1) + b"\0", "bad"), (words(1, 1), "bad"),
])
def test_no_tables(data, due):
    printed = run_program("safe_table", data)
    assert printed == game.safe_table(data) and printed.split()[0] == due


# ---------------------------------------------------------------- the command


def run(*arguments, answers=""):
    return command.run("game", *arguments, given=answers)


@pytest.mark.usefixtures("library")
def test_best_taker():
    """Against a taker that plays best the maker gets G and no more, minute by minute."""
    rng = random.Random(2)
    triples = [(0, 0, 0), (60, 60, 60), (60, 0, 60), (5, 2, 4)]
    triples += [tuple(rng.randrange(61) for _ in range(3)) for _ in range(40)]
    for m, h, k in triples:
        status, printed, _ = run(m, h, k)
        lines = printed.splitlines()
        due = closed(m, h, k)
        assert status == 0 and lines[0] == f"safe {due} of {m}", (m, h, k, lines[0])
        assert lines[-1] == f"unvoided {due}, safe were {due}", (m, h, k, lines[-1])
        assert len(lines) == m + 2, (m, h, k)


@pytest.mark.usefixtures("library")
def test_any_taker():
    """Against any taker at least G, and the rules hold."""
    rng = random.Random(3)
    gained = 0
    for _ in range(40):
        m, h, k = (rng.randrange(13) for _ in range(3))
        answers = "".join(rng.choice(["void\n", "stand\n"]) for _ in range(m))
        status, printed, _ = run(m, h, k, "--play", "-", answers=answers)
        found = int(printed.splitlines()[-1].split()[1].rstrip(","))
        due = play(m, h, k, game.doubles_first(h), lambda past, _: answers.split()[len(past)] == "void")
        assert status == 0 and found == unvoided(due) >= closed(m, h, k), (m, h, k)
        gained += found > closed(m, h, k)
    assert gained, "no taker played worse than the best"


EXAMPLE = """\
safe 3 of 8
minute 1: double, void, knocks left 3, unvoided 0, safe 4
minute 2: double, stand, knocks left 3, unvoided 1, safe 4
minute 3: double, void, knocks left 1, unvoided 1, safe 5
minute 4: single, void, knocks left 0, unvoided 1, safe 5
minute 5: single, stand, no knocks for it, unvoided 2, safe 5
minute 6: single, stand, knocks left 0, unvoided 3, safe 5
minute 7: single, stand, knocks left 0, unvoided 4, safe 5
minute 8: single, stand, knocks left 0, unvoided 5, safe 5
unvoided 5, safe were 3
"""


@pytest.mark.usefixtures("library")
def test_example():
    status, printed, _ = run(8, 3, 5, "--play", EXAMPLES / "knocks.taker")
    assert status == 0 and printed == EXAMPLE


@pytest.mark.usefixtures("library")
def test_table_command():
    status, printed, _ = run("--table", 3)
    rows = [line.split() for line in printed.splitlines()]
    assert status == 0 and rows[0] == ["h\\k", *map(str, range(7))], rows[0]
    assert rows[1:] == [[str(h), *(str(closed(3, h, k)) for k in range(7))] for h in range(4)]


@pytest.mark.usefixtures("library")
@pytest.mark.parametrize(("arguments", "answers", "status", "said"), [
    (["61", "0", "0"], "", 1, "refused 26"),
    (["1", "2", "3x"], "", 2, "'3x' is not a number"),
    (["2", "0", "1", "--play", "-"], "void\nperhaps\n", 1, "line 2: 'perhaps' is neither void nor stand"),
    (["2", "0", "1", "--play", "-"], "void\n", 1, "the answers end after 1 of 2 minutes"),
    (["2", "0", "1", "--play", "no-such-file"], "", 1, "no-such-file: "),
    (["--table", "x"], "", 2, "'x' is not a number"),
    (["--table", "61"], "", 1, "refused 26"),
    ([], "", 2, "M H K, or --table M"),
    (["1", "2"], "", 2, "M H K, or --table M"),
])
def test_complaints(arguments, answers, status, said):
    done = run(*arguments, answers=answers)
    assert done.status == status and said in done.complaint, done
