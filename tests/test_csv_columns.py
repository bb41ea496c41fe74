"""Sessions in CSV as pandas, Excel and databases write them, read a column at a time and a line at a time; and DataFrames."""

import random
from decimal import Decimal

import numpy
import pytest

from quoting import csv_columns, texts
from quoting.events import Add, Amend, Cancel, Deal, from_frame, records
from quoting.reading import Options, TextError
from tests import command

pytestmark = pytest.mark.usefixtures("library")

HEAD = "row,1,1,8:45:00,100,150,3,60%\nsp,8435\n"
DUE = records([Add(0, 1, "buy", 8435, 500), Amend(1000, 1, 8436, 400), Deal(2500, 1, 100), Cancel(3000, 1)])
STEP = Options(start=36_000_000, step=Decimal("0.01"))


def read(text: str, options: Options = Options()) -> bytes:
    return texts.csv_bytes(HEAD.replace(",", ";") + text if options.decimal == "," else HEAD + text, options)[32:]


FORMS = {
    "plain": ("t,kind,id,side,price,volume\n0,add,1,buy,8435,500\n1000,amend,1,,8436,400\n2500,deal,1,,,100\n3000,cancel,1,,,\n", Options()),
    "any order": ("kind,volume,price,side,id,t\nadd,500,8435,buy,1,0\namend,400,8436,,1,1000\ndeal,100,,,1,2500\ncancel,,,,1,3000\n", Options()),
    "pandas": (",t,kind,id,side,price,volume\n0,0,add,1,buy,8435.0,500.0\n1,1000,amend,1,,8436.0,400.0\n2,2500,deal,1,,,100.0\n3,3000,cancel,1,,,\n", Options()),
    "NaN": ("t,kind,id,side,price,volume\n0.0,add,1.0,buy,8435.0,500.0\n1000.0,amend,1.0,NaN,8436.0,400.0\n2500,deal,1,nan,NULL,100\n3000,cancel,1,<NA>,None,\n", Options()),
    "timestamps": ("Timestamp,Kind,Id,Side,Price,Volume\n2026-11-16 10:00:00.000,add,1,buy,84.35,500\n2026-11-16 10:00:01.000,amend,1,,84.36,400\n"
                   "2026-11-16 10:00:02.500,deal,1,,,100\n2026-11-16 10:00:03.000,cancel,1,,,\n", STEP),
    "ISO": ("timestamp,kind,id,side,price,volume\n2026-11-16T10:00:00Z,add,1,buy,84.35,500\n2026-11-16T10:00:01.000123Z,amend,1,,84.36,400\n"
            "2026-11-16T10:00:02.5Z,deal,1,,,100\n2026-11-16T10:00:03Z,cancel,1,,,\n", STEP),
    "Excel": ("t;kind;id;side;price;volume\r\n10:00:00;add;1;buy;84,35;500\r\n10:00:01;amend;1;;84,36;400,0\r\n10:00:02.500;deal;1;;;100\r\n10:00:03;cancel;1;;;\r\n",
              Options(start=36_000_000, step=Decimal("0.01"), decimal=",")),
}  # fmt: skip
AT_ONCE = ("plain", "any order", "timestamps", "Excel")


@pytest.mark.parametrize("name", FORMS)
def test_forms(name, monkeypatch):
    text, options = FORMS[name]
    assert read(text, options) == DUE
    rest = text.split("\n", 1)[1]
    names = texts.csv_names(texts.csv_cells(text.splitlines()[0], texts.csv_separator(options)))
    if name in AT_ONCE:
        assert csv_columns.records(rest, names, options) == DUE
    monkeypatch.setattr(csv_columns, "np", None)
    assert read(text, options) == DUE


@pytest.mark.parametrize("text, line, said", [
    ("t,kind,id,side,price,volume\n0,add,1,buy,84.5,500\n", 4, "price"), ("t,kind,id,side,price\n0,add,1,buy,84\n", 3, "the columns are"),
    ("t,kind,id,side,price,volume\n0,cancel,1,,5,\n", 4, "a cancel has no price, got '5'"), ("t,kind,id,side,price,volume\n0,add,1,buy,84,5\n1,add,2,,84,5\n", 5, "side"),
    ("timestamp,kind,id,side,price,volume\n2026-11-16 10:00:00,add,1,buy,84,5\n2026-11-17 10:00:00,cancel,1,,,\n", 5, "another day"),
])  # fmt: skip
def test_faults(text, line, said):
    with pytest.raises(TextError) as caught:
        read(text)
    assert caught.value.line == line and said in str(caught.value)


def test_both_ways(monkeypatch, note):
    """Random rows, some out of the ordinary: a column at a time gives what a line at a time gives, or nothing."""
    r, at_once = random.Random(4), 0
    for _ in range(800):
        odd = r.choice([0, 0, 0.05])

        def cell(usual, *others):
            return str(usual) if r.random() >= odd else r.choice(others)

        lines, t = [], 0
        for _ in range(r.randrange(1, 12)):
            t += r.randrange(2000)
            kind = r.choice(["add", "amend", "cancel", "deal", "tick"])
            side = cell("buy" if kind == "add" else "", "sell", "BUY", "", " sell")
            price = cell(f"84.{r.randrange(100):02}" if kind in ("add", "amend") else "", "84.355", "-0", "-3", "84", "5.", "1e3", "", "99999999999")
            volume = cell(r.randrange(1, 999) if kind in ("add", "amend", "deal") else "", "0", "5.0", "5.5", "", "4294967296", "1_000", "-1")
            lines.append(",".join([cell(t, "x", "-1", "0:00:05", "5.0"), cell(kind, "Add", "", "ticks"), cell(r.randrange(9) if kind != "tick" else "", "", "7.0"), side, price, volume]))
        rest = "\n".join(lines) + r.choice(["\n", "\n", "\n", "", "\n\n", "\n# end\n"])
        options = Options(step=Decimal("0.01"), complete=True)
        found = csv_columns.records(rest, list(texts.CSV_COLUMNS), options)
        if found is None:
            continue
        at_once += 1
        monkeypatch.setattr(csv_columns, "np", None)
        assert texts.csv_bytes(HEAD.replace("8435", "84.35") + "t,kind,id,side,price,volume\n" + rest, options)[32:] == found, rest
        monkeypatch.undo()
    assert at_once > 300
    note(f"csv: {at_once} random sessions are the same a column and a line at a time")


def test_command_decimal_comma(tmp_path):
    path = tmp_path / "day.csv"
    text, _ = FORMS["Excel"]
    path.write_text("row;1;1;8:45:00;100;150;3;60%\r\nsp;84,35\r\n" + text)
    done = command.run("sheet", path, "--start", "10:00:00", "--step", "0.01", "--decimal", ",")
    assert done.status == 0 and done.printed, done


def test_frames():
    """Anything that has columns; pandas' own is one of them."""
    frame = {"t": [0, 1000, 2500, 3000], "kind": ["add", "amend", "deal", "cancel"], "id": [1, 1, 1, 1], "side": ["buy", None, None, None],
             "price": [84.35, 84.36, float("nan"), float("nan")], "volume": numpy.array([500, 400, 100, numpy.nan])}  # fmt: skip
    assert from_frame(frame, step="0.01").tobytes() == DUE
    stamps = numpy.array([f"2026-11-16T10:00:0{each}" for each in ("0.000", "1.000", "2.500", "3.000")], dtype="datetime64[ns]")
    timed = {**{name: values for name, values in frame.items() if name != "t"}, "timestamp": stamps}
    assert from_frame(timed, start="10:00:00", step="0.01").tobytes() == DUE
    for name, value, said in (("kind", "buy", "row 0: kind"), ("price", 84.355, "row 0: price"), ("volume", -1, "row 0: volume"), ("side", None, "row 0: side"), ("id", None, "row 0: id")):
        wrong = {**frame, name: [value, *list(frame[name])[1:]]}
        with pytest.raises(ValueError, match=said):
            from_frame(wrong, step="0.01")
