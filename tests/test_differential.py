"""`replay`, `sheet`, `account`, `probe` and the C call against the recount, on thousands of known and random cases.

A test fails where an answer differs; where a refusal, a locked or a crossed quote, or another situation that the cases are meant to
show never came up; and where fewer than a third of the accepted sessions have kept time. `--seed N` makes other cases, `--quick` a tenth
of the random ones.
"""

import subprocess

import pytest

from recount import records
from recount import session as run
from recount.book import BUY, SELL, Add, Cancel, Tick
from tests import differential, known
from tests.paths import EXAMPLES, QUOTING


def check(program, seed, is_quick, note):
    count = program.cases // 10 if is_quick else program.cases
    tally = differential.run_cases(program, seed, count)
    assert not list(differential.never_met(program, tally, not is_quick)), "these never came up"
    assert 3 * tally.with_time >= tally.accepted, f"{tally.with_time} of {tally.accepted} accepted sessions have kept time"
    kept = f"{tally.with_time} of {tally.accepted} accepted sessions have kept time"
    note(f"{program.name}: {tally.cases} cases agree with the recount, {kept}", differential.counts(tally))


@pytest.mark.usefixtures("programs")
@pytest.mark.parametrize("kind", [
    pytest.param(differential.Replay, marks=pytest.mark.long), differential.Probe, differential.Sheet, differential.Account,
], ids=["replay", "probe", "sheet", "account"])
def test_program(kind, seed, is_quick, note):
    check(kind(), seed, is_quick, note)


@pytest.fixture(scope="module")
def ccall(client):
    return differential.CCall()


@pytest.mark.xdist_group("ccall")
def test_c_call(ccall, seed, is_quick, note):
    check(ccall, seed, is_quick, note)


@pytest.mark.xdist_group("ccall")
def test_c_call_record_limit(ccall):
    """4,000,000 records run, the next is refused by 15; worked out by hand, not by the recount."""
    head, _ = known.many_records(1)
    first = records.write(Add(0, 1, BUY, 100, 10)) + records.write(Add(0, 2, SELL, 101, 10))
    tick, gone = records.write(Tick(5_000)), records.write(Cancel(5_000, 1))
    most = first + tick * (run.RUN_LIMIT - 3) + gone
    refused = (15 << 32) + run.RUN_LIMIT + 1
    for data, due in [(most, 5_000), (most + tick, refused), (most + b"\0", refused), (most[:-20] + b"\7" * 20 + tick, refused - 1)]:
        answer = ccall.actual(ccall.case(head, data))
        assert answer == f"{due}\n", f"with {len(data)} record bytes"


def test_c_client(client, tmp_path):
    """The client of examples/client.c, on the session of document 01."""
    session = tmp_path / "example"
    session.write_bytes(subprocess.run([QUOTING, "bytes", EXAMPLES / "document01.session"], capture_output=True, check=True).stdout)
    assert subprocess.run([client, session], capture_output=True, text=True, check=True).stdout == "kept 6000\n"
