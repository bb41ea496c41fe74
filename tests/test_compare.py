"""Two readings of one quantum: the silver session, in which a meter with one fault drifts for hours before it shows; and `quoting compare`."""

import importlib.util
import json
from pathlib import Path
from types import ModuleType

import pytest

from quoting import comparison, inputs, reading
from quoting.values import milliseconds
from tests import command
from tests.paths import EXAMPLES, ROOT

pytestmark = pytest.mark.usefixtures("library")

SILVER, DOCS = EXAMPLES / "silver", ROOT / "docs"
OPENS, LENGTH = milliseconds("10:00:00"), milliseconds("9:00:00")
AMENDED, SHOWS, ENDS = (milliseconds(each) - OPENS for each in ("10:47:20", "16:41:10", "16:47:06"))


def carried() -> ModuleType:
    """The faulty meter. Nothing else imports it."""
    spec = importlib.util.spec_from_file_location("carried", SILVER / "carried.py")
    assert spec is not None and spec.loader is not None
    module = importlib.util.module_from_spec(spec)
    spec.loader.exec_module(module)
    return module


def lines_of_session() -> list[str]:
    return (SILVER / "silver.session").read_text(encoding="utf-8").splitlines()


def by_meter(lines: list[str]) -> list[tuple[int, int]]:
    """The kept stretches by the proved meter, in milliseconds of the quantum."""
    text = "".join(f"{line}\n" for line in lines).encode()
    source = inputs.session_of("silver.session", text, reading.Options(OPENS, None, False, False))
    return comparison.Reading.of_session("silver.session", source.data).kept


def by_carried(lines: list[str], mended: bool = False) -> list[tuple[int, int]]:
    return [(1000 * start - OPENS, 1000 * end - OPENS) for start, end in carried().kept_stretches(lines, mended)]


def total(kept: list[tuple[int, int]]) -> int:
    return sum(end - start for start, end in kept)


def test_the_meter_fails_and_the_faulty_one_meets() -> None:
    lines = lines_of_session()
    assert f"{100 * total(by_meter(lines)) / LENGTH:.1f}" == "74.1"
    assert f"{100 * total(by_carried(lines)) / LENGTH:.1f}" == "75.2"


def test_with_the_line_put_right_it_reads_what_the_meter_reads() -> None:
    lines = lines_of_session()
    assert by_carried(lines, mended=True) == by_meter(lines)


def test_both_agree_on_every_prefix_until_it_shows() -> None:
    """Cut after each event, the rest of the day without any: up to 16:41:10 every cut gives the same stretches."""
    lines, cuts = lines_of_session(), 0
    events = [at for at, line in enumerate(lines) if line.split("#")[0].split() and not line.startswith(("row", "sp"))]
    for at in events:
        if milliseconds(lines[at].split()[1]) - OPENS < SHOWS:
            assert by_carried(lines[: at + 1]) == by_meter(lines[: at + 1]), lines[at]
            cuts += 1
    assert cuts > 100 and by_carried(lines) != by_meter(lines)


def test_the_amendment_is_hours_before_and_far_behind() -> None:
    lines = lines_of_session()
    without = [line for line in lines if not line.startswith("amend 10:47:20")]
    assert by_carried(without) == by_meter(without)  # no drift without it
    assert SHOWS - AMENDED > milliseconds("5:00:00")


def test_compare_shows_where_and_which_order(tmp_path: Path) -> None:
    theirs = tmp_path / "carried.csv"
    theirs.write_text("start,end\n" + "".join(f"{start},{end}\n" for start, end in by_carried(lines_of_session())))
    done = command.run("compare", SILVER / "silver.session", theirs, "--start", "10:00:00", "--json")
    found = json.loads(done.printed)
    assert done.status == 1
    assert found["differences"] == [{"start": SHOWS, "end": ENDS, "kept_by": 2}]
    assert found["state"] == "no-bid" and found["resting"] == [{"id": 3, "side": "buy", "price": 4862, "volume": 600, "changed": AMENDED}]


def test_a_reading_agrees_with_itself(tmp_path: Path) -> None:
    done = command.run("compare", SILVER / "silver.session", SILVER / "silver.session", "--start", "10:00:00", "--svg", tmp_path / "two.svg")
    assert done.status == 0 and done.printed.endswith("Both readings agree everywhere.\n")
    assert "agree everywhere" in (tmp_path / "two.svg").read_text(encoding="utf-8")


def test_faults_of_a_list(tmp_path: Path) -> None:
    cases = {
        "start,end\n5,5\n": "line 2: expected a start before the end",
        "start,end\n0,9\n8,10\n": "line 3: it starts before the stretch of the line before ends",
        "start,end\n0,32400001\n": "line 2: it ends after the quantum does",
        "start,end\n1,2,3\n": "line 2: expected two times, start and end, and there are 3 columns",
        "start,end\n1,x\n": "line 2: end:",
    }
    for text, sentence in cases.items():
        theirs = tmp_path / "theirs.csv"
        theirs.write_text(text, encoding="utf-8")
        done = command.run("compare", SILVER / "silver.session", theirs, "--start", "10:00:00")
        assert done.status == 1 and not done.printed and sentence in done.complaint, done


def test_two_lists_need_a_length(tmp_path: Path) -> None:
    theirs = tmp_path / "theirs.csv"
    theirs.write_text("start,end\n0,5000\n", encoding="utf-8")
    assert command.run("compare", theirs, theirs).status == 2
    assert command.run("compare", theirs, theirs, "--length", "0:00:10").status == 0


def test_the_picture_of_the_documents_is_the_one_that_is_drawn(tmp_path: Path) -> None:
    lists = (SILVER / "carried.csv").read_text(encoding="utf-8")
    assert lists == "start,end\n" + "".join(f"{clock(start)},{clock(end)}\n" for start, end in by_carried(lines_of_session()))
    words = ("--start", "10:00:00", "--names", "The carried meter", "This meter", "--title", "One silver quantum, two readings")
    command.run("compare", SILVER / "carried.csv", SILVER / "silver.session", *words, "--svg", tmp_path / "two.svg")
    assert (tmp_path / "two.svg").read_bytes() == (DOCS / "silver.svg").read_bytes()


def clock(time: int) -> str:
    return str(carried().clock((OPENS + time) // 1000))
