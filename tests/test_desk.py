"""`quoting desk`: the shipped month to the byte, random months against a plain reading, and faults of the files one by one."""

import json
import random
import shutil
import subprocess
import sys
from collections import Counter
from hashlib import sha256
from types import SimpleNamespace

import pytest

from quoting import calls as c
from quoting.desk import fields, programme, quanta, second_reading
from quoting.desk.desks import Desk
from quoting.desk.faults import DeskError, Faults
from quoting.desk.outputs import Manner, settle
from quoting.desk.quanta import blocks_of, deals_of, without_deals
from quoting.events import Add, Amend, Cancel, Deal, Tick, records
from quoting.native import Missing
from tests import command, desk_months, plain_desk, plain_programmes
from tests.paths import EXAMPLES, PROGRAMMES, QUOTING

pytestmark = pytest.mark.usefixtures("library")
SHIPPED = EXAMPLES / "desk"


@pytest.fixture
def desk(tmp_path):
    """A copy of the shipped desk, whose files a test may change."""
    shutil.copytree(SHIPPED, tmp_path / "desk")
    return tmp_path / "desk"


def change(path, old, new, count=1):
    text = path.read_text()
    assert old in text, (path, old)
    path.write_text(text.replace(old, new, count))


# ---------------------------------------------------------------- the shipped month


@pytest.fixture(scope="module")
def settled(tmp_path_factory):
    """The shipped month settled by the command, and what it said."""
    out = tmp_path_factory.mktemp("desk") / "out"
    done = subprocess.run([QUOTING, "desk", "settle", SHIPPED / "desk.toml", "-o", out], capture_output=True, text=True, timeout=120)
    return out, done


@pytest.mark.parametrize("name", ["cells.csv", "months.csv"])
def test_the_shipped_month_gives_the_expected_tables(settled, name):
    assert (settled[0] / name).read_bytes() == (SHIPPED / "expected" / name).read_bytes()


def test_the_shipped_month_ends_with_its_reasons(settled):
    said = settled[1].stderr
    assert settled[1].returncode == 1 and "Traceback" not in said
    found = {tuple(line.split()[1:3]) for line in said.splitlines()}
    assert found == {
        ("2026-11-04", "PM-12.26:"), ("2026-11-05", "PM-12.26:"), ("2026-11-06", "PM-12.26:"), ("2026-11-09", "PM-12.26:"),
        ("2026-11-06", "GD-1.27,")}, said
    assert said.count("refused 22") == 4 and "2026-11-06 GD-1.27, quantum 2: charges.csv has no line" in said and "1892948573920409228 is not known" in said
    assert "the proved meter and the recount agree" in settled[1].stdout


def test_the_lists_of_calls_have_the_month(settled):
    done = command.run("calls", settled[0] / "gold.calls", "--lines")
    assert done.status == 0 and done.printed.splitlines()[-1].endswith("failed 0 2 2 0 0 4 fee 11255633"), done


def test_a_second_run_gives_the_same_files(settled, tmp_path):
    command.run("desk", "settle", SHIPPED / "desk.toml", "-o", tmp_path / "again", "--no-recount")
    for path in settled[0].glob("*.c*"):
        assert (tmp_path / "again" / path.name).read_bytes() == path.read_bytes(), path.name


def test_the_plain_reading_agrees_on_the_shipped_month():
    cells, months = plain_desk.PlainDesk(SHIPPED / "desk.toml").settle()
    assert cells == (SHIPPED / "expected" / "cells.csv").read_text() and months == (SHIPPED / "expected" / "months.csv").read_text()


def test_nothing_missing_is_status_0(desk, tmp_path):
    change(desk / "programme.toml", 'threshold = "1%"\n', "")
    with open(desk / "charges.csv", "a") as file:
        file.write("2026-11-06,GD-1.27,2,5,6\n")
    log = desk / "logs" / "20261106-north.log"
    lines = [line for line in log.read_bytes().splitlines(keepends=True) if b"37=1892948573920409228" not in line]
    log.write_bytes(b"".join(lines))
    done = command.run("desk", "settle", desk / "desk.toml", "-o", tmp_path / "out")
    assert (done.status, done.complaint) == (0, ""), done


def test_a_day_without_its_logs_is_named(desk, tmp_path):
    """The lost logs of a whole day make failed cells and a lower fee, so the day is named, on standard error and on every page."""
    for log in (desk / "logs").glob("20261104-*.log"):
        log.unlink()
    done = command.run("desk", "settle", desk / "desk.toml", "-o", tmp_path / "out")
    maker = Desk.load(desk / "desk.toml").maker
    said = f"2026-11-04 {maker}: no message of the logs is of this day, so a log of it is missing; its quanta are settled as if nobody had quoted"
    assert done.status == 1 and f"quoting: {said}\n" in done.complaint and done.complaint.count("no message of the logs") == 1, done
    pages = [path for path in (tmp_path / "out").rglob("*.html")]
    assert len(pages) >= 3 and all("no message of the logs is of this day" in path.read_text() for path in pages), pages
    plain = plain_desk.PlainDesk(desk / "desk.toml")
    assert (tmp_path / "out" / "cells.csv").read_text() == plain.settle()[0] and ("2026-11-04", maker) in plain.reasons


def test_a_day_on_which_nobody_quoted_has_a_log(desk, tmp_path):
    """A logon is enough: the maker was there."""
    for log in (desk / "logs").glob("20261104-*.log"):
        log.write_bytes(b"".join(log.read_bytes().splitlines(keepends=True)[:1]))
    done = command.run("desk", "settle", desk / "desk.toml", "-o", tmp_path / "out", "--no-recount")
    assert "no message of the logs" not in done.complaint, done


def test_one_of_two_logs_of_a_day_is_not_missed(desk, tmp_path):
    """What is said is about days of the desk: a second session's log is not known to be due."""
    (desk / "logs" / "20261104-north.log").unlink()
    assert "no message of the logs" not in command.run("desk", "settle", desk / "desk.toml", "-o", tmp_path / "out", "--no-recount").complaint


# ---------------------------------------------------------------- random months


@pytest.mark.parametrize("seed", range(3))
def test_a_random_month_is_that_of_the_plain_reading(tmp_path, seed, note):
    """Holidays, volatile days, a rolled contract, carried orders, several accounts, resends, fills."""
    counts = desk_months.write(tmp_path / "desk", 100 + seed, 60)
    for log in sorted((tmp_path / "desk" / "logs").iterdir())[-2:] if seed == 1 else []:  # those of the last day
        log.unlink()
    made = settle(Desk.load(tmp_path / "desk" / "desk.toml"), Manner(recount=seed == 0))
    plain = plain_desk.PlainDesk(tmp_path / "desk" / "desk.toml")
    cells, months = plain.settle()
    boards = plain.boards()
    command.run("desk", "settle", tmp_path / "desk" / "desk.toml", "-o", tmp_path / "out", "--no-recount")
    assert (tmp_path / "out" / "cells.csv").read_text() == cells and (tmp_path / "out" / "months.csv").read_text() == months
    assert {(remark.date, remark.where.split(",")[0]) for remark in made.settlement.reasons} == plain.reasons
    assert (("2026-11-09", "M") in plain.reasons) == (seed == 1)
    assert not made.differences and (seed or len(made.readings) == 5)
    found = made.settlement.cells
    seen = {"eased": sum(each.planned.is_eased for each in found), "holiday": sum(each.planned.table == "holiday" for each in found)}
    seen |= {"carried": sum(each.carried for each in found), "met": sum(each.cell.met for each in found), "failed": sum(not each.cell.met for each in found)}
    seen |= {"rolled": sum(each.planned.contract.symbol == "BR-2.27" and each.planned.contract.expiry == 1 for each in found), **counts}
    verdicts = [board.is_met for board in made.settlement.boards]
    seen |= {"boards met": sum(verdicts), "boards failed": len(verdicts) - sum(verdicts)}
    assert (tmp_path / "out" / "boards.csv").read_text() == boards and len(verdicts) == 10 and len(set(verdicts)) == 2
    assert all(seen[what] for what in ("eased", "holiday", "carried", "met", "failed", "rolled", *"05F4C38A", "resent")), seen
    note(f"desk: {len(found)} cells of a random month as by the plain reading", seen)


def test_records_become_the_blocks_of_their_events():
    events = [Add(0, 1, "buy", -5, 500), Add(1, 2**32 - 1, "sell", 2**31 - 1, 1), Amend(2, 1, -(2**31), 7), Deal(3, 1, 2), Tick(4), Cancel(5, 1)]
    assert blocks_of(records(events)) == b"".join(map(c.block, events)) and blocks_of(b"") == b""


# ---------------------------------------------------------------- the plan


def test_the_plan_has_the_calendar():
    done = command.run("desk", "plan", SHIPPED / "desk.toml", "--json")
    found = json.loads(done.printed)
    assert done.status == 1 and done.complaint.count("refused 22") == 4 and len(found["quanta"]) == 42
    first, eased = found["quanta"][0], [each for each in found["quanta"] if each["eased"] == "yes"]
    assert (first["start"], first["end_utc"], first["sp"], first["sp_date"]) == ("2026-11-02T10:00:00+03:00", "2026-11-02T15:45:00Z", 39277, "2026-10-30")
    assert (eased[0]["symbol"], eased[0]["since"], eased[0]["minimum"], eased[0]["a"], eased[0]["b"]) == ("GD-2.27", "2026-11-04", 125, 250, 18)
    assert [each["table"] for each in found["quanta"] if each["date"] == "2026-11-04" and each["instrument"] == "platinum-mini"] == ["usual", "holiday", "usual"]
    assert {"symbol": "GD-2.27", "date": "2026-11-03", "price": 37992, "sigma": 29105, "inside": False}.keys() == found["sigmas"][0].keys()


def test_the_plan_as_csv_and_as_a_table():
    csv = command.run("desk", "plan", SHIPPED / "desk.toml", "--csv").printed.splitlines()
    table = command.run("desk", "plan", SHIPPED / "desk.toml").printed.splitlines()
    assert csv[0].startswith("date,instrument,symbol,expiry,quantum,start,end,") and len(csv) == 43
    assert "10:00-18:45  07:00-15:45  usual" in table[1] and len(table) == 44, table[1]


def test_a_plan_needs_neither_logs_nor_charges(desk):
    shutil.rmtree(desk / "logs")
    (desk / "charges.csv").unlink()
    assert len(Desk.load(desk / "desk.toml", with_logs=False).plan()) == 42


# ---------------------------------------------------------------- faults

PROGRAMME, PRICES, CHARGES, DESK = "programme.toml", "prices.csv", "charges.csv", "desk.toml"
FAULTS = [  # the file that is changed, what is changed, the fault
    (PROGRAMME, "threshold", "treshold", "[instruments.gold] treshold: unknown key, expected step, threshold, lapses, rows, holiday_rows, strikes or board"),
    (PROGRAMME, 'step = "0.1"\n', "", "[instruments.gold] step: missing, and it is required"),
    (PROGRAMME, 'step = "0.1"', 'step = "0"', "[instruments.gold] step: '0' is not above 0, expected a price step such as \"0.01\""),
    (PROGRAMME, 'step = "0.1"', 'step = "tenth"', "[instruments.gold] step: 'tenth' is not a decimal, expected one such as \"0.01\""),
    (PROGRAMME, '"2%"', '"2"', "[instruments.gold] threshold: '2' is not a percentage, expected one such as \"2%\""),
    (PROGRAMME, "lapses = 2", "lapses = 1001", "[instruments.platinum-mini] lapses: 1001 does not fit, expected a whole number from 0 to 1,000"),
    (PROGRAMME, 'b = "0.8"', 'b = "0.85"', "[instruments.gold.rows, entry 1] b: 0.85 is between two steps of 0.1"),
    (PROGRAMME, 'a = "0.1%"', 'a = "0.1005%"', "[instruments.gold.rows, entry 1] a: 0.1005% is not a whole number of hundred-thousandths"),
    (PROGRAMME, "minimum = 500", "minimum = 0", "[instruments.gold.rows, entry 1] quantum 1: refused 2: a word of the row is outside its range (minimum is 0, expected 1 to 100,000)"),
    (PROGRAMME, '"60%"', '"80%"', "[instruments.gold.rows, entry 1] quantum 1: refused 2: a word of the row is outside its range (share is 800, expected 1 to 799)"),
    (PROGRAMME, '"60%"', "60", "[instruments.gold.rows, entry 1] share: 60 is not a percentage, expected one such as \"60%\""),
    (PROGRAMME, "quanta = [1, 2]", "quanta = []", "[instruments.gold.rows, entry 1] quanta: [] does not fit, expected a list of at least 1"),
    (PROGRAMME, "expiry = 2", "expiry = 3", "[instruments.gold.rows, entry 2] expiry: 3 does not fit, expected a whole number from 1 to 2"),
    (PROGRAMME, "10:00-18:45", "09:59-18:45", "[quanta] 1: 09:59-18:45 overlaps quantum 0, 07:00-10:00"),
    (PROGRAMME, "10:00-18:45", "18:45-10:00", "[quanta] 1: 18:45-10:00 ends before it starts, expected a start and a later end of the same day"),
    (PROGRAMME, "10:00-18:45", "10-18", "[quanta] 1: '10-18' is not a start and an end, expected \"10:00-18:45\""),
    (PROGRAMME, "2 = ", "3 = ", "[quanta] 3: unknown key, expected 0, 1 or 2"),
    (PROGRAMME, "Europe/Moscow", "Europe/Moskva", "timezone: 'Europe/Moskva' is no time zone that this machine knows, expected an IANA name such as \"Europe/Moscow\""),
    (PROGRAMME, "[quanta]", "[quanta", "line 4: Expected ']' at the end of a table declaration: this is not TOML"),
    (DESK, "2026-11", "2026-13", "month: '2026-13' is not a month, expected one such as \"2026-11\""),
    (DESK, "holidays = [4]", "holidays = [7]", "holidays: 7 is not one of the trading days"),
    (DESK, "days = [2, 3", "days = [2, 2", "days: 2 is listed twice"),
    (DESK, "days = [2, 3", "days = [2, 31", "days: 31 does not fit, expected a whole number from 1 to 30"),
    (DESK, "logs/*.log", "log/*.log", "logs: no file matches 'log/*.log'"),
    (DESK, 'instrument = "gold"', 'instrument = "silver"', "[contract, entry 1] instrument: the programme has no 'silver', expected gold or platinum-mini"),
    (DESK, "to = 4", "to = 5", "[contract, entry 2]: gold, expiry 1, on day 5 belongs to entry 1 too, expected one contract"),
    (DESK, 'symbol = "GD-2.27"', 'symbol = "GD-1.27"', "[contract, entry 4]: GD-1.27, account A7, on day 5 belongs to entry 2 too, expected one contract"),
    (DESK, "from = 5", "from = 5\nto = 3", "[contract, entry 2] to: 3 is before `from`, 5"),
    (DESK, "from = 5", "since = 5", "[contract, entry 2] since: unknown key, expected instrument, expiry, symbol, from, to, accounts or strike"),
    (DESK, 'accounts = ["A7"]', "accounts = []", "[contract, entry 1] accounts: [] does not fit, expected a list of at least 1"),
    (DESK, "to = 4", 'strike = "C"\nto = 4', "[contract, entry 1] strike: gold has no strike 'C', expected none"),
    (DESK, "prices.csv", "price.csv", None),
    (PRICES, "4007.0", "4007.05", "line 2: 4007.05 is between two steps of 0.1"),
    (PRICES, "4007.0", "4,007.0", "line 2: there are 4 fields, expected date,symbol,price"),
    (PRICES, "4007.0", "4e3", "line 2: price: '4e3' is not a decimal"),
    (PRICES, "2026-08-27", "2026-08-26", "line 3: GD-1.27 2026-08-26 is already in line 2"),
    (PRICES, "2026-08-27", "27.08.2026", "line 3: date: '27.08.2026' is not a date, expected YYYY-MM-DD"),
    (PRICES, "date,symbol,price", "day,symbol,price", "line 1: the columns are day,symbol,price, expected date,symbol,price"),
    (CHARGES, ",1656935,", ",-1,", "line 2: active: '-1' does not fit, expected a whole number from 0 to 100,000,000,000"),
    (CHARGES, "GD-1.27,1,1656935", "GD-1.27,3,1656935", "line 2: quantum: '3' does not fit, expected a whole number from 0 to 2"),
    (CHARGES, "2026-11-02,GD-1.27,2,", "2026-11-02,GD-1.27,1,", "line 3: 2026-11-02 GD-1.27 1 is already in line 2"),
]


@pytest.mark.parametrize("file, old, new, fault", FAULTS, ids=[f"{at}-{each[0]}" for at, each in enumerate(FAULTS)])
def test_a_fault_is_named_with_its_place(desk, tmp_path, file, old, new, fault):
    change(desk / file, old, new)
    done = command.run("desk", "settle", desk / "desk.toml", "-o", tmp_path / "out")
    expected = f"quoting: {file}: {fault}" if fault else "quoting: price.csv: can't be read: No such file or directory"
    assert expected in done.complaint.splitlines(), done.complaint
    assert done.status == 1 and not (tmp_path / "out").exists() and "nothing was settled" in done.complaint


@pytest.mark.parametrize("name", [DESK, PROGRAMME, PRICES, CHARGES])
def test_a_file_that_is_not_there(desk, name):
    (desk / name).unlink()
    with pytest.raises(DeskError, match=f"{name}: can't be read: No such file or directory"):
        Desk.load(desk / "desk.toml")


@pytest.mark.parametrize("name", [DESK, PROGRAMME, PRICES, CHARGES])
def test_a_file_that_is_no_text(desk, name):
    (desk / name).write_bytes(b"\xff\xfe\xfa")
    with pytest.raises(DeskError, match=rf"{name}: .*(UTF-8|no line end)"):
        Desk.load(desk / "desk.toml")


def test_a_file_of_prices_that_was_cut_short(desk):
    (desk / "prices.csv").write_bytes((desk / "prices.csv").read_bytes()[:-3])
    with pytest.raises(DeskError, match="prices.csv: line 245: '2026-11-30,PM-12.26,1489' has no line end, so the file may be cut short here: end the line$"):
        Desk.load(desk / "desk.toml")


def test_a_symbol_without_an_earlier_price(desk):
    lines = [line for line in (desk / "prices.csv").read_text().splitlines(keepends=True) if "GD-2.27" not in line or line > "2026-11-06"]
    (desk / "prices.csv").write_text("".join(lines))
    with pytest.raises(DeskError) as found:
        Desk.load(desk / "desk.toml")
    assert [fault.text for fault in found.value.faults] == [
        "prices.csv: GD-2.27 has no price before 2026-11-05, expected a line with an earlier date",
        "prices.csv: GD-2.27 has no price before 2026-11-06, expected a line with an earlier date"]


def test_all_faults_are_named_at_once(desk):
    change(desk / PROGRAMME, 'name = "Programme 1"\n', "")
    change(desk / DESK, 'maker = "MAKER07"\n', "")
    change(desk / PRICES, "4007.0", "x")
    change(desk / CHARGES, ",1656935,", ",y,")
    with pytest.raises(DeskError) as found:
        Desk.load(desk / "desk.toml")
    assert [fault.file for fault in found.value.faults] == [DESK, PROGRAMME, PRICES, CHARGES]


def test_hours_at_which_the_clocks_change(desk):
    """On 29 March 2026 02:00 is 03:00 in Berlin."""
    change(desk / PROGRAMME, "Europe/Moscow", "Europe/Berlin")
    change(desk / PROGRAMME, "07:00-10:00", "01:00-04:00")
    text = (desk / DESK).read_text().replace("2026-11", "2026-03").replace("[2, 3, 4, 5, 6, 9]", "[2, 29]").replace("[4]", "[]")
    (desk / DESK).write_text(text)
    (desk / PRICES).write_text((desk / PRICES).read_text().replace("2026", "2025"))
    with pytest.raises(DeskError, match=r"programme.toml: \[quanta\] 0: on 2026-03-29 the clocks of Europe/Berlin change at or within 01:00-04:00"):
        Desk.load(desk / "desk.toml")


# ---------------------------------------------------------------- what the logs may have


def test_more_than_64_orders_are_refused_by_13(desk, tmp_path):
    """66 orders rest in one symbol: the quantum has 64, and the others are named."""
    log = desk / "logs" / "20261102-south.log"
    line = next(each for each in log.read_bytes().splitlines(keepends=True) if b"150=0" in each and b"55=PM-12.26" in each)
    body = line[line.index(b"8=FIX") :]
    sep = b"\1" if b"\1" in body else b"|"
    out = []
    for at in range(66):
        fields = dict(part.split(b"=", 1) for part in body.strip(b"\r\n").strip(sep).split(sep))
        fields |= {b"11": b"Z%d" % at, b"37": b"55%04d" % at, b"17": b"Z%d" % at, b"60": b"20261102-07:30:00.000", b"44": b"1500.0"}
        text = "".join(f"{tag.decode()}={value.decode()}\1" for tag, value in fields.items() if tag not in (b"8", b"9", b"10"))
        out.append("07:30:00.000 < " + desk_months.framed(text).replace("\1", sep.decode()) + "\n")
    with open(log, "a") as file:
        file.write("".join(out))
    done = command.run("desk", "settle", desk / "desk.toml", "-o", tmp_path / "out", "--no-recount")
    assert done.status == 1 and "2026-11-02 PM-12.26, quantum 1: refused 13: 64 orders are live" in done.complaint, done.complaint


def test_a_damaged_message_is_named(desk, tmp_path):
    log = desk / "logs" / "20261103-north.log"
    log.write_bytes(log.read_bytes().replace(b"10=092", b"10=093").replace(b"35=8", b"35=8", 1).replace(b"9=20", b"9=21", 1))
    done = command.run("desk", "settle", desk / "desk.toml", "-o", tmp_path / "out", "--no-recount")
    assert done.status == 1 and "logs/20261103-north.log: line" in done.complaint and "refused 20" in done.complaint, done.complaint


def test_logs_without_reports_are_read_by_requests(desk, tmp_path):
    for log in (desk / "logs").iterdir():
        log.write_bytes(b"".join(line for line in log.read_bytes().splitlines(keepends=True) if b"35=8" not in line))
    done = command.run("desk", "settle", desk / "desk.toml", "-o", tmp_path / "out", "--no-recount")
    assert done.status == 1 and "the logs have no execution report of these symbols; the requests were read" in done.complaint


# ---------------------------------------------------------------- pages


def test_the_client_page_has_what_an_office_signs(settled):
    page = (settled[0] / "index.html").read_text()
    assert "146,789 <small>roubles</small> 62 <small>kopecks</small>" in page and "Both readings agree" in page
    for name in ("desk.toml", "prices.csv", "charges.csv", "programme.toml", "logs/20261102-north.log"):
        assert f"{sha256((SHIPPED / name).read_bytes()).hexdigest()}  {name}\n" in (settled[0] / "inputs.sha256").read_text(), name
        assert sha256((SHIPPED / name).read_bytes()).hexdigest() in page
    for text in ("MAKER07", "1 to 30 November 2026, 6 trading days", "A7, C3", "For the client", "signature", "charges.csv has no line", "In 6 quanta the fills decided"):
        assert text in page, text
    assert 'href="gold.html"' in page and 'href="platinum-mini.html"' in page and page.count("refused 22") == 1


def test_each_instrument_has_a_statement(settled):
    page = (settled[0] / "gold.html").read_text()
    assert "112,556 <small>roubles</small> 33 <small>kopecks</small>" in page and "Both readings agree" in page and "Signatures" in page
    assert "10:00:00 to 18:45:00" in page and "2026-11-06 GD-1.27, quantum 2: charges.csv has no line for this quantum; both charges are taken as 0." in page
    assert "PM-12.26" not in page


def test_pages_are_the_same_but_for_the_date_made(tmp_path, monkeypatch):
    for epoch, out in (("1800000000", "first"), ("1800000000", "second"), ("1800003600", "third")):
        monkeypatch.setenv("SOURCE_DATE_EPOCH", epoch)
        command.run("desk", "settle", SHIPPED / "desk.toml", "-o", tmp_path / out)
    for name in ("index.html", "gold.html", "inputs.sha256"):
        first, second, third = ((tmp_path / out / name).read_text().splitlines() for out in ("first", "second", "third"))
        assert first == second
        assert [line for line in first if line not in third] == [line for line in first if "15 January 2027" in line], name


def test_names_in_the_files_do_not_break_the_pages(desk, tmp_path):
    change(desk / DESK, "MAKER07", "<script>&'")
    command.run("desk", "settle", desk / "desk.toml", "-o", tmp_path / "out")
    for name in ("index.html", "gold.html"):
        page = (tmp_path / "out" / name).read_text()
        assert "<script>" not in page and "&lt;script&gt;&amp;&#39;" in page


def test_a_file_in_the_place_of_the_folder_is_refused_and_kept(desk, tmp_path):
    (tmp_path / "out").write_text("mine")
    done = command.run("desk", "settle", desk / "desk.toml", "-o", tmp_path / "out")
    assert done.status == 1 and done.complaint == f"quoting: {tmp_path / 'out'} is a file, expected a folder to write into: choose another -o\n", done
    assert (tmp_path / "out").read_text() == "mine"


def test_differing_readings_settle_nothing(desk, tmp_path, monkeypatch):
    """A recount that answers otherwise to one call."""
    wrong = tmp_path / "main.py"
    program = second_reading.PROGRAM
    wrong.write_text(
        "import subprocess, sys\n"
        f"out = subprocess.run([sys.executable, {str(program)!r}, 'replay'], stdin=sys.stdin, capture_output=True, text=True).stdout\n"
        "sys.stdout.write(out.replace('weight 20000', 'weight 19999', 1))\n")
    monkeypatch.setattr(second_reading, "PROGRAM", wrong)
    done = command.run("desk", "settle", desk / "desk.toml", "-o", tmp_path / "out")
    assert done.status == 1 and "THE PROVED METER AND THE RECOUNT DIFFER first at the cell of day" in done.complaint and "THE READINGS DIFFER" in done.printed
    for name in ("index.html", "gold.html"):
        page = (tmp_path / "out" / name).read_text()
        assert "settles nothing" in page and "not settled" in page and "Both readings agree" not in page, name


def test_without_the_recount_there_is_no_statement(tmp_path):
    done = command.run("desk", "settle", SHIPPED / "desk.toml", "-o", tmp_path / "out", "--no-recount")
    assert "the recount was not run" in done.printed and not (tmp_path / "out" / "gold.html").exists()
    assert "By the proved meter alone" in (tmp_path / "out" / "index.html").read_text()
    wrong = command.run("desk", "settle", SHIPPED / "desk.toml", "-o", tmp_path / "no", "--no-recount", "--statements")
    assert wrong.status == 2 and "do not go together" in wrong.complaint and not (tmp_path / "no").exists()


@pytest.mark.xdist_group("browser")
def test_the_pages_are_printed(tmp_path):
    command.run("desk", "settle", SHIPPED / "desk.toml", "-o", tmp_path / "out", "--no-recount", "--pdf")
    printed = (tmp_path / "out" / "index.pdf").read_bytes()
    assert printed.startswith(b"%PDF-") and printed.count(b"/Type /Page\n") == 4


# ---------------------------------------------------------------- many desks


def test_many_desks_are_settled_into_folders(tmp_path):
    names = []
    for seed in (1, 2):
        desk_months.write(tmp_path / f"maker{seed}", seed, 8)
        names.append(tmp_path / f"maker{seed}" / "desk.toml")
    broken = tmp_path / "broken.toml"
    broken.write_text("maker = 1\n")
    done = command.run("desk", "settle", *names, broken, "-o", tmp_path / "out", "--no-recount")
    alone = command.run("desk", "settle", names[1], "-o", tmp_path / "alone", "--no-recount")
    assert done.status == 1 and alone.status == 1 and "broken.toml: maker: 1 is not a text" in done.complaint
    assert (tmp_path / "out" / "maker2" / "cells.csv").read_bytes() == (tmp_path / "alone" / "cells.csv").read_bytes()
    table = (tmp_path / "out" / "desks.csv").read_text().splitlines()
    assert [line.split(",")[1] for line in table] == ["status", "reasons", "reasons", "faults"] and not (tmp_path / "out" / "broken").exists()
    fee = sum(int(line.split(",")[2]) for line in (tmp_path / "alone" / "months.csv").read_text().splitlines()[1:])
    assert table[2].split(",")[7] == str(fee)


def test_a_second_run_goes_on_where_the_first_stopped(tmp_path):
    names = []
    for seed in (1, 2, 3):
        desk_months.write(tmp_path / f"maker{seed}", seed, 5)
        names.append(tmp_path / f"maker{seed}" / "desk.toml")
    words = ["desk", "settle", *names, "-o", tmp_path / "out", "--no-recount"]
    first = command.run(*words)
    before = {path: path.stat().st_mtime_ns for path in (tmp_path / "out").rglob("*.*")}
    (tmp_path / "out" / "maker1" / "cells.csv").unlink()  # lost on the way
    change(tmp_path / "maker2" / "charges.csv", ",BR-1.27,1,", ",BR-1.27,1,1")  # changed since
    second = command.run(*words, "--resume")
    changed = {path.parent.name for path, time in before.items() if path.stat().st_mtime_ns != time}
    assert changed == {"maker1", "maker2", "out"}
    assert [line for line in first.complaint.splitlines() if "maker3" in line] == [line for line in second.complaint.splitlines() if "maker3" in line]
    whole = command.run("desk", "settle", *names, "-o", tmp_path / "again", "--no-recount")
    assert whole.printed == second.printed and (tmp_path / "again" / "desks.csv").read_bytes() == (tmp_path / "out" / "desks.csv").read_bytes()


def test_two_desks_of_one_name_are_refused(tmp_path):
    for name in ("a", "b"):
        shutil.copytree(SHIPPED, tmp_path / name / "maker")
    done = command.run("desk", "settle", tmp_path / "a" / "maker" / "desk.toml", tmp_path / "b" / "maker" / "desk.toml", "-o", tmp_path / "out")
    assert done.status == 1 and "two desks would be settled into" in done.complaint and not (tmp_path / "out").exists()


@pytest.mark.xdist_group("dask")
def test_desks_on_a_cluster_give_the_same_tables(tmp_path):
    import distributed

    names = []
    for seed in (1, 2):
        desk_months.write(tmp_path / f"maker{seed}", seed, 5)
        names.append(tmp_path / f"maker{seed}" / "desk.toml")
    with distributed.LocalCluster(n_workers=1, threads_per_worker=1, processes=False, dashboard_address=None) as cluster:
        words = ["--scheduler", cluster.scheduler_address]
        command.run("desk", "settle", *names, "-o", tmp_path / "cluster", "--no-recount", *words)
    command.run("desk", "settle", *names, "-o", tmp_path / "here", "--no-recount")
    assert (tmp_path / "cluster" / "desks.csv").read_bytes() == (tmp_path / "here" / "desks.csv").read_bytes()
    for name in ("cells.csv", "months.csv", "gold.calls"):
        assert (tmp_path / "cluster" / "maker2" / name).read_bytes() == (tmp_path / "here" / "maker2" / name).read_bytes()


# ---------------------------------------------------------------- the shipped programmes


@pytest.mark.parametrize("path", sorted(PROGRAMMES.glob("*.toml")), ids=lambda path: path.stem)
def test_a_shipped_programme_has_the_rows_of_a_plain_reading(path, note):
    faults = Faults()
    made = programme.read(faults, path.name, fields.read_toml(faults, path.name, path.read_bytes()))
    faults.raise_any()
    found = {}
    for instrument in made.instruments.values():
        for row in [*instrument.usual, *instrument.holiday]:
            for strike in instrument.strikes or [""]:
                found.setdefault(f"{instrument.name}-{strike}" if strike else instrument.name, []).append(row.words)
    listed = {}
    for name, words in plain_programmes.rows_of(path.stem):
        listed.setdefault(name, []).append(words)
    assert {name: list(map(list, rows)) for name, rows in found.items()} == listed
    note(f"desk: {sum(map(len, found.values()))} rows of {path.name} as by the plain reading")


# ---------------------------------------------------------------- damaged files, and Python


@pytest.mark.parametrize("name", [DESK, PROGRAMME, PRICES, CHARGES])
def test_a_damaged_file_is_never_a_crash(desk, name, seed, note):
    """Bytes changed, lines dropped, doubled and swapped at random: the desk is read, or its faults are named."""
    rng, whole, kinds = random.Random(f"{seed} {name}"), (desk / name).read_bytes(), Counter()
    for _ in range(150):
        lines = whole.splitlines(keepends=True)
        at, other = rng.randrange(len(lines)), rng.randrange(len(lines))
        what = rng.choice(("drop", "double", "swap", "byte", "word"))
        if what == "drop":
            del lines[at]
        elif what == "double":
            lines.insert(other, lines[at])
        elif what == "swap":
            lines[at], lines[other] = lines[other], lines[at]
        elif what == "byte":
            line = bytearray(lines[at])
            line[rng.randrange(len(line))] = rng.choice(b"\0\xff\"'[]{}=,-0 9%#\n")
            lines[at] = bytes(line)
        else:
            words = lines[at].split(b" ")
            words[rng.randrange(len(words))] = rng.choice((b"-1", b'"x"', b"[]", b"{}", b"1e9", b"true", b"1979-05-27", b"nan", b'""'))
            lines[at] = b" ".join(words)
        (desk / name).write_bytes(b"".join(lines))
        try:
            Desk.load(desk / "desk.toml")
            kinds["read"] += 1
        except DeskError as error:
            kinds["faults"] += 1
            assert all(fault.file and fault.what for fault in error.faults)
    assert kinds["faults"] > 20, kinds
    note(f"desk: 150 damaged copies of {name}", kinds)


def test_without_numpy_the_records_are_the_same(monkeypatch):
    events = [Add(0, 1, "buy", -5, 500), Add(1, 2, "sell", 7, 300), Amend(2, 1, -6, 7), Deal(3, 1, 2), Deal(4, 2, 300), Tick(5), Cancel(6, 1)]
    data = records(events)
    with_numpy = blocks_of(data), deals_of(data), without_deals(data)
    monkeypatch.setattr(quanta, "numpy", None)
    assert with_numpy == (blocks_of(data), deals_of(data), without_deals(data)) and with_numpy[1] == (2, 302)


def test_tables_as_data_frames(monkeypatch):
    """Where pandas is there; a stand-in shows what it is given."""
    made = Desk.load(SHIPPED / "desk.toml").settle()
    monkeypatch.setitem(sys.modules, "pandas", SimpleNamespace(DataFrame=lambda rows, columns: (rows, columns)))
    rows, columns = made.cell_frame()
    assert len(rows) == 42 and columns[-2:] == ["active", "passive"] and rows[0][8] == 8314860
    assert made.month_frame()[0] == [["gold", 4, 11255633], ["platinum-mini", 5, 3423329]]
    assert len(made.desk.plan_frame()[0]) == 42
    monkeypatch.setitem(sys.modules, "pandas", None)
    with pytest.raises(Missing, match="a DataFrame needs pandas"):
        made.cell_frame()
