"""Logs read by what the exchange reported: each reading of a tag, pieces, both ways of reading, and the cells of the desk's example."""

import csv
import random
import tomllib
from collections import Counter
from datetime import datetime
from pathlib import Path
from typing import Any
from zoneinfo import ZoneInfo

import pytest

from quoting import Row, Rule, fix, session
from quoting.events import Add, Amend, Cancel, Deal
from quoting.exchange import LogReader, Why, milliseconds, moves, quantum_of, reader, timelines
from tests import command
from tests.exchange_logs import Maker, cut
from tests.paths import EXAMPLES

pytestmark = pytest.mark.usefixtures("library")

START = milliseconds("20261116-07:00:00")
HOUR = 3_600_000
DESK = EXAMPLES / "desk"


def framed(body: str) -> bytes:
    return fix.framed(body.replace("|", "\x01").encode())


class Reports:
    """Reports with an ExecID each, one a second."""

    def __init__(self) -> None:
        self.count = 0

    def __call__(self, kind: str, more: str = "", oid: str = "9", cl: str = "A1", time: str = "", **tags: str) -> bytes:
        self.count += 1
        given = {"37": oid, "11": cl, "17": f"E{self.count}", "150": kind, "55": "BR", "1": "M7", "54": "1", "60": time or f"20261116-07:00:{self.count:02}", **tags}
        return framed("35=8|" + "".join(f"{tag.lstrip('_')}={value}|" for tag, value in given.items() if value) + more)


def read(*messages: bytes, **given: Any) -> LogReader:
    reader = LogReader({"BR": "0.01"}, **given)
    reader.feed("day.log", b"\n".join(messages), True)
    return reader


def events(reader: LogReader, start: int = START) -> list[Any]:
    carried, found = quantum_of(reader.timelines.values(), start, start + HOUR)
    return [*carried.events(), *found.events()]


NEW = "44=84.35|151=500|"
ADDED = Add(1000, 1, "buy", 8435, 500)


@pytest.mark.parametrize("is_fast", [False, None], ids=["slow", "fast"])
@pytest.mark.parametrize("kind, more, due", [
    ("5", "41=A1|44=84.40|151=300|", [Amend(2000, 1, 8440, 300)]), ("D", "44=84.40|151=300|", [Amend(2000, 1, 8440, 300)]),
    ("5", "41=A1|44=84.40|151=0|", [Cancel(2000, 1)]), ("5", "41=none|44=84.4|151=7|", [Amend(2000, 1, 8440, 7)]),
    ("5", "41=A1|44=84.4|151=7|59=3|", [Cancel(2000, 1)]),
    ("4", "", [Cancel(2000, 1)]), ("4", "41=A1|", [Cancel(2000, 1)]), ("C", "", [Cancel(2000, 1)]), ("3", "", [Cancel(2000, 1)]),
    ("F", "32=200|151=300|", [Deal(2000, 1, 200)]), ("1", "32=200|", [Deal(2000, 1, 200)]), ("2", "32=500|", [Deal(2000, 1, 500)]),
    ("F", "32=200.0|", [Deal(2000, 1, 200)]),
    ("8", "", []), ("A", "", []), ("6", "", []), ("E", "", []), ("I", "", []),
])  # fmt: skip
def test_reports(kind: str, more: str, due: list[Any], is_fast: Any) -> None:
    """What each report means to an order."""
    report = Reports()
    reader = read(report("0", NEW), report(kind, more), is_fast=is_fast)
    assert events(reader) == [ADDED, *due] and not reader.reasons


@pytest.mark.parametrize("is_fast", [False, None], ids=["slow", "fast"])
@pytest.mark.parametrize("kind, more, why, tag, value", [
    ("G", "32=5|", Why.CORRECTION, 150, "G"), ("H", "", Why.CORRECTION, 150, "H"), ("7", "", Why.EXEC_TYPE, 150, "7"),
    ("5", "44=84.355|151=5|", Why.STEP, 44, "84.355"), ("5", "44=x|151=5|", Why.FIELD, 44, "x"), ("5", "151=5|", Why.FIELD, 44, ""),
    ("5", "44=84|151=5.5|", Why.FIELD, 151, "5.5"), ("5", "44=99999999999|151=5|", Why.FIELD, 44, "99999999999"),
    ("F", "32=x|", Why.FIELD, 32, "x"), ("F", "32=0|", Why.FIELD, 32, "0"), ("F", "32=501|", Why.OVERFILL, 37, "9"),
    ("F", "32=1|32=1|", Why.FIELD, 32, "1"), ("5", "44=84|151=5|40=4|", Why.ORDER_TYPE, 40, "4"),
])  # fmt: skip
def test_reasons(kind: str, more: str, why: Why, tag: int, value: str, is_fast: Any) -> None:
    """What is refused, with line, tag, value, symbol, account and date."""
    report = Reports()
    reader = read(report("0", NEW), report(kind, more), is_fast=is_fast)
    (reason,) = reader.reasons
    assert (reason.why, reason.tag, reason.value, reason.line) == (why, tag, value, 2), reason
    assert (reason.file, reason.symbol, reason.account, reason.date, reason.count) == ("day.log", "BR", "M7", "2026-11-16", 1)


@pytest.mark.parametrize("is_fast", [False, None], ids=["slow", "fast"])
@pytest.mark.parametrize("time, due", [
    ("20261116-07:00:05", 5000), ("20261116-07:00:05.125", 5125), ("20261116-07:00:05.125999", 5125), ("20261116-07:00:05.125999999", 5125),
    ("20261116-07:00:05.1", None), ("20261116-07:00:60", None), ("20261131-07:00:05", None), ("2026-11-16T07:00:05", None),
])  # fmt: skip
def test_times(time: str, due: Any, is_fast: Any) -> None:
    """0, 3, 6 or 9 decimals, of which three count."""
    reader = read(Reports()("0", NEW, time=time), is_fast=is_fast)
    assert [event.t for event in events(reader)] == ([] if due is None else [due])
    assert [reason.tag for reason in reader.reasons] == ([60] if due is None else [])


@pytest.mark.parametrize("is_fast", [False, None], ids=["slow", "fast"])
def test_names_of_orders(is_fast: Any) -> None:
    """41 names the order of a replace, else 37; a trade goes by 37; ids that an order had before name nothing."""
    report = Reports()
    changed = [report("0", NEW), report("5", "41=A1|44=84.4|151=400|", oid="10", cl="A2"), report("F", "32=1|41=A1|", oid="10", cl="A2")]
    assert events(read(*changed, is_fast=is_fast))[1:] == [Amend(2000, 1, 8440, 400), Deal(3000, 1, 1)]
    old = read(*changed, report("F", "32=1|", oid="9"), report("4", "41=A1|", oid="77"), is_fast=is_fast)
    assert [(reason.why, reason.count, reason.value) for reason in old.reasons] == [(Why.UNKNOWN, 2, "9")]
    reused = read(*changed, report("0", NEW, oid="11", cl="A1"), report("C", "41=A1|", oid="10", cl="A2"), is_fast=is_fast)
    assert events(reused)[-1] == Cancel(7000, 1) and not reused.reasons, "37 counts where both name an order"


@pytest.mark.parametrize("is_fast", [False, None], ids=["slow", "fast"])
def test_accounts(is_fast: Any) -> None:
    """Orders of another account have the same ids; a report that does not say its account has that of the order."""
    report = Reports()
    log = [report("0", NEW), report("0", NEW, **{"1": "B2"}), report("F", "32=1|", **{"1": ""})]
    mine = read(*log, accounts=["M7"], is_fast=is_fast)
    assert events(mine) == [ADDED, Deal(3000, 1, 1)] and mine.others == Counter({("BR", "B2"): 1}) and not mine.reasons
    assert not read(report("4", "", oid="5", **{"1": ""}), accounts=["M7"], is_fast=is_fast).reasons, "it may be anybody's"


@pytest.mark.parametrize("is_fast", [False, None], ids=["slow", "fast"])
def test_duplicates_and_resends(is_fast: Any) -> None:
    """A report that was read before is ignored; one that was not counts at its own time, before what was logged earlier."""
    report = Reports()
    new, fill = report("0", NEW), report("F", "32=1|")
    late = report("5", "41=A1|44=84.4|151=9|43=Y|", time="20261116-07:00:01.500")
    reader = read(new, fill, late, fill, new, is_fast=is_fast)
    assert events(reader) == [ADDED, Amend(1500, 1, 8440, 9), Deal(2000, 1, 1)]
    assert (reader.counts.duplicates, reader.counts.fills, reader.reasons) == (2, 1, [])


@pytest.mark.parametrize("is_fast", [False, None], ids=["slow", "fast"])
@pytest.mark.parametrize("more", ["59=3|", "59=4|", "40=1|"])
def test_orders_that_never_rest(more: str, is_fast: Any) -> None:
    report = Reports()
    reader = read(report("0", more + ("44=84|151=5|" if "59" in more else "")), report("F", "32=5|"), report("C"), is_fast=is_fast)
    assert not events(reader) and not reader.reasons
    assert not read(report("C", more), is_fast=is_fast).reasons or "40" in more


@pytest.mark.parametrize("is_fast", [False, None], ids=["slow", "fast"])
def test_carried(is_fast: Any) -> None:
    """What rests when a quantum starts is added at 0, as it is then, in the order in which it was entered; the end is included."""
    report = Reports()
    log = [report("0", NEW), report("0", NEW, oid="10", cl="B"), report("5", "41=A1|44=84.4|151=400|", cl="A2"), report("F", "32=100|", oid="10", cl="B"),
           report("4", oid="10", cl="B", time="20261116-07:10:00")]  # fmt: skip
    reader = read(*log, is_fast=is_fast)
    start = milliseconds("20261116-07:00:05")
    carried, found = quantum_of(reader.timelines.values(), start, milliseconds("20261116-07:10:00"))
    assert carried.events() == [Add(0, 1, "buy", 8440, 400), Add(0, 2, "buy", 8435, 400)]
    assert found.events() == [Cancel(595_000, 2)] and found.places[0] == ("day.log", 5)
    assert [len(each) for each in quantum_of(reader.timelines.values(), start, start + 594_999)] == [2, 0]
    assert [len(each) for each in quantum_of(reader.timelines.values(), milliseconds("20261117-07:00:00"), start + 10**9)] == [1, 0]


REQUESTS = [
    "35=D|11=a-1|55=BR|54=1|44=84.35|38=500|60=20261116-07:00:01|", "35=G|11=a-2|41=a-1|55=BR|54=1|44=84.4|38=300|60=20261116-07:00:02.500|",
    "35=F|11=a-3|41=a-2|60=20261116-07:00:03|",
]  # fmt: skip


@pytest.mark.parametrize("is_fast", [False, None], ids=["slow", "fast"])
def test_requests(is_fast: Any) -> None:
    """Requests count where there are no reports, with ids of any characters, decimal prices, and the symbol of the order."""
    reader = read(*map(framed, REQUESTS), is_fast=is_fast)
    due = [Add(1000, 1, "buy", 8435, 500), Cancel(2500, 1), Add(2500, 2, "buy", 8440, 300), Cancel(3000, 2)]
    assert reader.by == "requests" and events(reader) == due and not reader.reasons
    both = read(*map(framed, REQUESTS), Reports()("0", NEW), is_fast=is_fast)
    assert both.by == "reports" and events(both) == [ADDED] and both.counts.requests == 3
    again = read(*map(framed, REQUESTS), Reports()("0", NEW), source="requests", is_fast=is_fast)
    assert events(again) == due and again.counts.reports == 1
    wrong = read(*map(framed, [REQUESTS[0], REQUESTS[1].replace("54=1", "54=2"), REQUESTS[2]]), is_fast=is_fast)
    assert [reason.why for reason in wrong.reasons] == [Why.SIDE, Why.UNKNOWN] and len(events(wrong)) == 1


# ---------------------------------------------------------------- both ways


def summary(reader: LogReader) -> tuple[Any, ...]:
    changes = {owner: [tuple(change) for change in line] for owner, line in reader.timelines.items()}
    return changes, [vars(reason) for reason in reader.reasons], vars(reader.counts), reader.others, reader.by, reader.hours


def test_both_ways(request: pytest.FixtureRequest, note: Any, monkeypatch: pytest.MonkeyPatch, tmp_path: Path) -> None:
    """Random logs, damaged and cut and out of order: many messages at once, in pieces of any size, and one at a time give the same."""
    met: Counter[str] = Counter()
    for seed in range(60 if request.config.getoption("--quick") else 400):
        r = random.Random(seed + 10_000 * request.config.getoption("--seed"))
        maker = Maker(r, r.choice([3, 6, 40]), r.choice([0, 0.02, 0.05, 0.2]))
        logs = [maker.log(r.choice([1, 20, 200]), r.choice([0, 0, 0.5, 1, 1])) for _ in range(r.choice([1, 2]))]
        accounts = r.choice([None, ["A7"], {"BR": ["A7"]}])
        given: dict[str, Any] = {"accounts": accounts, "source": r.choice(["auto", "reports", "requests"]), "usual": r.choice([None, None, "0.01"])}
        slow, fast = (LogReader({"BR": "0.01", "GD-12.26": "0.05"}, is_fast=is_fast, **given) for is_fast in (False, None))
        for number, log in enumerate(logs):
            path = tmp_path / f"{number}.log"
            slow.feed(str(path), log, True)
            pieces = cut(r, log) if r.random() < 0.7 else []
            for at, piece in enumerate(pieces, start=1):
                fast.feed(str(path), piece, at == len(pieces))
            if not pieces:
                path.write_bytes(log)
                monkeypatch.setattr(reader, "PIECE", r.choice([7, 300, 5_000, 1 << 20]))
                fast.read([path])
                met["files"] += 1
        assert fast.bulk is not None, "the library has no quoting_fix_scan"
        monkeypatch.setattr(moves, "BLOCK", r.choice([1, 4, 30, 1000]))
        assert summary(slow) == summary(fast), seed
        met.update(reason.why.name for reason in slow.reasons)
        met["changes"] += sum(map(len, slow.timelines.values()))
        met["hours"] += len(slow.hours)
        met["guessed"] += fast.bulk.following.guessed
        met["one by one"] += fast.bulk.following.read
    assert not [why.name for why in Why if not met[why.name]] and min(met["guessed"], met["one by one"]) > 20 and met.pop("files") > 10 and met.pop("hours") > 500, met
    note(f"exchange logs: {met.pop('guessed')} blocks of moves guessed, {met.pop('one by one')} read one by one")
    note(f"exchange logs: {met.pop('changes')} changes and {met.total()} reasons are the same both ways")


def test_without_numpy(monkeypatch: pytest.MonkeyPatch) -> None:
    """The cut into quanta without numpy is the same."""
    names = sorted((DESK / "logs").glob("*.log"))
    given: dict[str, Any] = {"usual": "0.1", "is_fast": False}
    start = milliseconds("20261103-07:00:00")

    def quanta() -> list[tuple[bytes, bytes]]:
        reader = LogReader({"PM-12.26": "0.5"}, **given)
        reader.read(names)
        by_symbol = [[line for line in reader.timelines.values() if line.symbol == symbol] for symbol in ("PM-12.26", "GD-1.27")]
        return [tuple(part.data for part in quantum_of(lines, start, start + 8 * HOUR)) for lines in by_symbol]  # type: ignore[misc]

    due = quanta()
    assert all(part for pair in due for part in pair)
    monkeypatch.setattr(timelines, "numpy", None)
    assert quanta() == due


# ---------------------------------------------------------------- the desk's example

STEPS = {"GD-12.26": "0.1", "GD-1.27": "0.1", "GD-2.27": "0.1", "PM-12.26": "0.5"}


def kept(reader: LogReader, programme: Any, cell: dict[str, str]) -> int:
    """K of a cell, by the row that the cell says was chosen."""
    instrument, zone = programme["instruments"][cell["instrument"]], ZoneInfo(programme["timezone"])
    rows = instrument["holiday_rows" if cell["table"] == "holiday" else "rows"]
    row = next(row for row in rows if row["expiry"] == int(cell["expiry"]) and int(cell["quantum"]) in row["quanta"])
    least, a, b = row["minimum"], round(float(row["a"].rstrip("%")) * 1000), round(float(row["b"]) / float(instrument["step"]))
    if cell["eased"] == "yes":
        least, a, b = (least + 1) // 2, 2 * a, 2 * b
    clocks = programme["quanta"][cell["quantum"]].split("-")
    start, end = (int(datetime.fromisoformat(f"{cell['date']}T{clock}").replace(tzinfo=zone).timestamp()) * 1000 for clock in clocks)
    carried, found = quantum_of([line for line in reader.timelines.values() if line.symbol == cell["symbol"]], start, end)
    rule = Rule(Row(int(cell["expiry"]), int(cell["quantum"]), end - start, least, a, b, row["share"]), sp=int(cell["sp"]))
    return session(rule, carried.data + found.data).kept


@pytest.mark.parametrize("is_fast", [False, None], ids=["slow", "fast"])
def test_desk_cells(is_fast: Any) -> None:
    """The kept time of each cell is the expected one, and the only fault is the order that the log never saw."""
    reader = LogReader(STEPS, {name: ["A7"] for name in STEPS if name[0] == "G"}, is_fast=is_fast)
    reader.read(sorted((DESK / "logs").glob("*.log")))
    with open(DESK / "programme.toml", "rb") as file, open(DESK / "expected" / "cells.csv", newline="") as cells:
        programme = tomllib.load(file)
        wrong = [cell for cell in csv.DictReader(cells) if kept(reader, programme, cell) != int(cell["kept"])]
    assert not wrong
    assert [(reason.why, reason.symbol, reason.date) for reason in reader.reasons] == [(Why.UNKNOWN, "GD-1.27", "2026-11-06")]


# ---------------------------------------------------------------- the command

HEAD = ["--start", "20261116-07:00:00", "--row", "1 1 1:00:00 100 150 3 60%", "--sp", "84.35", "--step", "0.01"]


def test_command() -> None:
    """A session by reports, what was carried in, and the meter's refusal with the line of the message."""
    report = Reports()
    log = [report("0", NEW, time="20261116-06:59:00"), report("F", "32=200|"), report("8"), framed("35=0|")]
    done = command.run("fix", "-", *HEAD, given=b"\n".join(log))
    assert done.status == 0 and done.printed.splitlines()[1:] == ["sp 8435", "add 0 1 buy 8435 500", "deal 2000 1 200"], done
    assert "1 order carried in" in done.complaint and "1 fill, 1 reject" in done.complaint and "1 message of type '0' skipped" in done.complaint
    many = [report("0", NEW, oid=str(at), cl=f"C{at}", time="20261116-07:00:01") for at in range(100, 165)]
    done = command.run("fix", "-", *HEAD, given=b"\n".join(many))
    assert done.status == 1 and "line 65: refused 13: 64 orders are live already" in done.complaint, done
    done = command.run("fix", "-", *HEAD, "--from", "requests", given=b"\n".join([*map(framed, REQUESTS), *log]))
    assert done.status == 1 and "NOT IN THE FIGURES: 3 answers of the exchange" in done.complaint and "add 1000 1 buy" in done.printed, done


@pytest.mark.parametrize("data", [b"", b"nothing here\n", framed("35=0|"), framed("35=8|150=0|55=BR|37=1|17=1|60=junk|"), b"8=FIX.4.4|9=5|35=D|"])
def test_nothing_to_read(data: bytes) -> None:
    done = command.run("fix", "-", *HEAD, given=data)
    assert (done.status, done.printed) == (1, "") and done.complaint, done


def test_fills() -> None:
    """Each fill with the quotes before and after it, and the kept time that it cost."""
    report = Reports()
    log = [report("0", "44=84.35|151=500|", time="20261116-07:00:00"), report("0", "44=84.36|151=500|", oid="10", cl="B", time="20261116-07:00:00", **{"54": "2"}),
           report("F", "32=300|", time="20261116-07:00:10"), report("F", "32=150|", time="20261116-07:00:20"),
           report("5", "41=A1|44=84.35|151=500|", time="20261116-07:00:25.500")]  # fmt: skip
    done = command.run("fills", "-", *HEAD, given=b"\n".join(log))
    rows = [line.split() for line in done.printed.splitlines() if line[:1].isdigit()]
    assert done.status == 0 and rows[0] == "0:00:10 1 300 8435 500 8436 500 8435 200 8436 500 0:00:00".split(), done
    assert rows[1] == "0:00:20 1 150 8435 200 8436 500 8435 50 8436 500 0:00:05.500".split() and "2 fills, 0:00:05.500 of kept time lost" in done.printed, done


def test_statement_writes_its_calls(tmp_path: Any) -> None:
    """The list with the events of the logs in it gives the same page's calls again."""
    (tmp_path / "month").write_text("start 20261102-07:00:00.000 PM-12.26\nopen row 1 1 8:45:00 20 150 3 60% day 2 sp 3050\nclose 1 2\n")
    logs = sorted((DESK / "logs").glob("20261102-*.log"))
    given = ["--fix", *logs, "--step", "0.5", "--account", "C3", "--write", tmp_path / "calls", "-o", tmp_path / "page"]
    done = command.run("statement", tmp_path / "month", *given)
    assert done.status == 0 and "Both readings agree: on" in (tmp_path / "page").read_text(), done
    lines = (tmp_path / "calls").read_text().splitlines()
    assert lines[0].startswith("open row 1 1") and lines[-1] == "close 1 2" and len(lines) > 10
    assert command.run("calls", tmp_path / "calls").status == 0
