"""Strikes (document 02, W4): the recount's limits, spread limits through `replay`, boards through `probe`, and the command `board`.

A test fails where an answer differs, or where something that the cases are meant to show never came up.
"""

import random
from collections import Counter

import pytest

from recount import programs
from recount.book import Strike
from recount.strikes import board, met_by_products, strike_fits, strike_limit, within_by_squares
from tests import calls_text, command, known, strike_coverage
from tests.paths import EXAMPLES, TARGET
from tests.running import first_difference, run_program
from tests.strike_cases import MUST_SHOW, board_situations, case, known_boards, limit_strikes, odd_and_bad, planned, spoiled

# ---------------------------------------------------------------- the recount against the paper


@pytest.mark.parametrize(("a", "difference", "days", "b", "due"), [
    (75, 40, 365, 0, 300), (75, 40, 365, 301, 301), (5, 1, 365, 0, 1), (15, 1, 365, 0, 2),
    (4, 1, 365, 0, 0), (6, 1, 365, 0, 1), (14, 1, 365, 0, 1), (200, 100_000, 365, 0, 2_000_000),
    (200, 100_000, 364, 0, 1_997_258), (200, 100_000, 1, 0, 104_685), (0, 100_000, 365, 7, 7),
    (200, 0, 365, 0, 0), (200, 100_000, 0, 1_000_000, 1_000_000), (10, 1, 91, 0, 0),
    (10, 1, 92, 0, 1), (5, 1, 365, 1, 1), (15, 1, 365, 1, 2), (0, 0, 0, 0, 0),
])
def test_recount_limit(a, difference, days, b, due):
    assert strike_limit(Strike(a, difference, days, b)) == due


def test_recount_limits():
    """The limit is the greatest D by squares of whole numbers."""
    rng = random.Random(4)
    for _ in range(2_000):
        most = rng.choice([10, 1_000, 100_000])
        strike = Strike(rng.randrange(201), rng.randrange(most + 1), rng.choice([365, rng.randrange(366)]),
                        rng.choice([0, 0, rng.randrange(1_000), rng.randrange(1_000_001)]))
        limit = strike_limit(strike)
        assert strike_fits(strike) and limit >= strike.b
        assert limit == 0 or within_by_squares(strike, limit), strike
        assert not within_by_squares(strike, limit + 1), strike


LENGTH = 31_500_000


@pytest.mark.parametrize(("first", "second", "strikes", "due"), [
    (55, 60, [(18_900_000, LENGTH)], "met"),
    (55, 60, [(18_899_999, LENGTH)], "failed"),
    (55, 60, [(17_325_000, LENGTH), (20_475_000, LENGTH)], "met"),
    (55, 60, [(17_324_999, LENGTH), (20_475_001, LENGTH)], "failed"),
    (55, 60, [(17_325_000, LENGTH), (20_474_999, LENGTH)], "failed"),
    (1, 1, [(10, 1_000)] * 32, "met"), (1, 1, [(10, 1_000)] * 33, 18),
    (1, 1, [], 18), (0, 1, [(1, 1_000)], 18), (1, 101, [(1, 1_000)], 18), (1, 1, [(1, 1_000), (1, 2_000)], 18),
    (1, 1, [(1_001, 1_000)], 18), (1, 1, [(1, 1_001)], 18), (1, 1, [(0, 0)], 18), (1, 1, [(1, 86_401_000)], 18),
])
def test_recount_board(first, second, strikes, due):
    assert board(first, second, strikes) == due


def test_recount_boards():
    """By the request's two inequalities on whole numbers."""
    rng = random.Random(5)
    for _ in range(1_000):
        length = 1_000 * rng.choice([1, 2, 86_400])
        strikes = [(rng.randrange(length + 1), length) for _ in range(rng.randrange(1, 4))]
        first, second = rng.randrange(1, 101), rng.randrange(1, 101)
        is_met = board(first, second, strikes) == "met"
        assert is_met == met_by_products(first, second, strikes), (first, second, strikes)


# ---------------------------------------------------------------- the programs against the recount


def agreed(program, data):
    """The answer that the program and the recount both give; a case that differs is kept."""
    said, due = run_program(program, data), getattr(programs, program)(data)
    if said != due:
        kept = TARGET / f"strikes.{program}"
        kept.write_bytes(data)
        pytest.fail(f"answers differ, see {kept}: {program} and recount: {first_difference(said, due)}")
    return due


@pytest.mark.usefixtures("programs")
def test_spread_limits(is_quick, note):
    """Each strike's quantum at its limit, a step past it and a step less."""
    rng, seen = random.Random(4), Counter()
    strikes = list(limit_strikes(rng, 200 if is_quick else 2_000))
    for at in range(0, len(strikes), 200):
        calls = [call for strike in strikes[at : at + 200] for call in known.spread_calls(strike)]
        with strike_coverage.noted() as spreads:
            agreed("replay", calls_text.calls_bytes(calls))
        seen.update(spreads)
    assert not [spread for spread in strike_coverage.SPREADS if not seen[spread]], "these never came up"
    note(f"strikes: {len(strikes)} spread limits agree", seen)


@pytest.mark.usefixtures("programs")
def test_boards(is_quick, note):
    rng, seen, cases = random.Random(5), Counter(), 0
    boards = [*known_boards(), *(rng.choice([planned, planned, spoiled])(rng) for _ in range(200 if is_quick else 2_000))]
    for given in boards:
        answer, due = agreed("probe", case(*given)), board(*given)
        assert answer == ("refused 18\n" if due == 18 else f"board {due}\n"), given
        seen.update(board_situations(*given))
        cases += 1
    for data, shown in odd_and_bad():
        answer = agreed("probe", data)
        assert answer == ("refused 18\n" if shown.startswith("18") else "bad case\n"), data.hex()
        seen[shown] += 1
        cases += 1
    assert not [situation for situation in MUST_SHOW if not seen[situation]], "these never came up"
    note(f"strikes: {cases} boards agree, {seen['met']} met", seen)


# ---------------------------------------------------------------- the command

KNOWN = """\
strike             kept         of  share  due  lacks
CALL-CS        25950250   31500000  82.38   55      -
CALL-CS+500    23400000   31500000  74.28   55      -
CALL-CS+1000   18900000   31500000  60.00   55      -
CALL-CS+1500   17325000   31500000  55.00   55      -
CALL-CS+2000   17324999   31500000  54.99   55      1
PUT-CS         27600000   31500000  87.61   55      -
PUT-CS-500     21670000   31500000  68.79   55      -
input          29690000   31500000  94.25   55      -
together      181860249  252000000  72.16   60      -
board failed
"""

# Shares, a text, the exit status, and what is said last.
SAID = [
    (1, 1, "5 0:00:01", 0, "board failed"),
    (1, 1, "10 1000 # at its share", 0, "board met"),
    (0, 1, "10 1000", 1, "quoting: refused 18: a share of 0 is not 1 to 100"),
    (1, 1, "", 1, "quoting: refused 18: no strike"),
    (1, 1, "a 1 1000\nb 1 2000", 1, "quoting: refused 18: b: a length of 2000, but a has 1000"),
    (1, 1, "a 1001 1000", 1, "quoting: refused 18: a: 1001 kept of 1000"),
    (1, 1, "cell kept 5 of 999 and so on", 1, "quoting: refused 18: input: a length of 999 is no row's"),
    (1, 1, "5 1000\n" * 33, 1, "quoting: refused 18: 33 strikes, of 32 at most"),
    (1, 1, "accepted\nrefused 7\nreport open no\nasked bid 5\ncell kept 10 of 1000", 0, "board met"),
    (1, 1, "report 5 1000\naccepted 10 1000\nrefused 10 1000\nasked 10 1000\ncell 10 1000", 0, "board failed"),
    (1, 1, "report 10 1000\naccepted 10 1000\nrefused 10 1000\nasked 10 1000\ncell 10 1000", 0, "board met"),
    (1, 1, "5", 1, "quoting: standard input: line 1: a strike is written: NAME K L, or cell kept K of L .."),
    (1, 1, "5 1000\na b 5 1000", 1, "quoting: standard input: line 2: a strike is written: NAME K L, or cell kept K of L .."),
    (1, 1, "cell kept 5", 1, "quoting: standard input: line 1: an answer of the month begins with: cell kept K of L"),
    (1, 1, "a x 1000", 1, "quoting: standard input: line 1: K: 'x' is not a number"),
    (1, 1, "a 5 1000\nb 6 1000\na 5 1000", 1, "quoting: standard input: line 3: the strike a is given twice"),
    (1, 1, "accepted\ncell kept 5 of 1000\ncell kept 6 of 1000", 1, "quoting: standard input: a strike's month has one look, but here are 2 cells"),
    (1, 1, "accepted\nreport open no", 1, "quoting: standard input: a strike's month has one look, but here are 0 cells"),
]


@pytest.mark.usefixtures("library")
def test_command():
    month = programs.replay(calls_text.to_bytes((EXAMPLES / "strike.calls").read_text()))
    done = command.run("board", "55", "60", EXAMPLES / "strikes.board", "-", given=month)
    assert (done.status, done.printed) == (0, KNOWN), done


@pytest.mark.usefixtures("library")
@pytest.mark.parametrize(("first", "second", "source", "status", "said"), SAID)
def test_command_says(first, second, source, status, said):
    done = command.run("board", first, second, "-", given=source + "\n")
    assert (done.status, (done.printed + done.complaint).splitlines()[-1]) == (status, said), done
