"""`quoting statement`: figures taken out of the pages, compared with the recount's and those of the program replay."""

import os
import random
import re
import subprocess
from html.parser import HTMLParser

import pytest

from quoting import calls as c
from quoting import formats, month_sources, reading, recounted, texts
from quoting.statement import course, figures, picture
from quoting.states import State, Stretch
from recount import book, programs
from tests import command
from tests.paths import BIN, EXAMPLES, PROGRAMMES, QUOTING

pytestmark = pytest.mark.usefixtures("library")

LISTS = [(EXAMPLES / f"{name}.calls", []) for name in ("month", "strike", "fix", "ask")]
LISTS += [(PROGRAMMES / f"{name}.month", [PROGRAMMES / f"{name}.log"]) for name in ("brent", "gold-mini")]
SERIES = [(expiry, quantum) for expiry in (1, 2) for quantum in (0, 1, 2)]


# ---------------------------------------------------------------- out of the page


class Page(HTMLParser):
    """Tables by their names, a list of texts a row; each quantum's article as its text and its two tables; and what is loaded."""

    def __init__(self, text):
        super().__init__()
        self.tables, self.articles, self.loaded = {}, {}, []
        self.table = self.article = self.row = self.cell = None
        self.words = []
        self.feed(text)
        self.text = " ".join(" ".join(self.words).split())

    def handle_starttag(self, tag, attributes):
        given = dict(attributes)
        self.loaded += [tag] * (tag in ("script", "link", "img", "iframe")) + [given[name] for name in ("src", "href") if given.get(name)]
        if tag == "article":
            self.article = self.articles[tuple(map(int, given["id"][1:].split("-")))] = {"text": "", "acc": [], "lap": []}
        elif tag == "table":
            name = given.get("id") or given.get("class")
            self.table = self.article[name] if self.article is not None else self.tables.setdefault(name, [])
        elif tag == "tr":
            self.row = []
            self.table.append(self.row)
        elif tag in ("td", "th"):
            self.cell = ""

    def handle_endtag(self, tag):
        if tag in ("td", "th"):
            self.row.append(" ".join(self.cell.split()))
            self.cell = None
        elif tag == "article":
            self.article = None

    def handle_data(self, data):
        self.words.append(data)
        if self.cell is not None:
            self.cell += data
        elif self.article is not None:
            self.article["text"] += data


def number(text):
    return int(text.replace(",", ""))


def time(text):
    return reading.time(text)


def made(*words, status):
    """The page of a run."""
    done = command.run("statement", *words)
    assert done.status == status and "Traceback" not in done.complaint, done
    return Page(done.printed), done


# ---------------------------------------------------------------- the recount's month


class Month:
    """The recount's month after a list of blocks, with the kept stretches of each cell."""

    def __init__(self, blocks):
        self.book, self.pairs, self.refused, self.rows = book.Book(), {}, [], {}
        calls, stop = programs.read_calls(b"".join(blocks))
        assert stop is None and len(calls) == len(blocks)
        for at, call in enumerate(calls, start=1):
            quoting = self.book.quoting
            kept = quoting.pairs(quoting.row.length) if quoting and isinstance(call, book.Close) else None
            answer = self.book.call(call)
            if isinstance(answer, book.Refused):
                self.refused.append((at, answer.number))
            elif kept is not None:
                self.pairs[quoting.cell] = kept


def lapses_of(pairs, length):
    """Begin and length of what the kept stretches leave."""
    ends = [0, *(offset + size for offset, size in pairs)]
    starts = [*(offset for offset, _ in pairs), length]
    return [(stop, start - stop) for stop, start in zip(ends, starts) if stop < start]


# ---------------------------------------------------------------- the page against it


def check_top(page, month, count):
    """Both columns, the failures, the fee's steps."""
    cells, fee = month.book.cells, book.fee(month.book.cells)
    total = sum((2 * cell.active + 3 * cell.passive) * book.cell_weight(cell) for cell in cells.values())
    failed = book.failure_counts(cells)
    due = [
        f"{count:,}", f"{len(month.refused):,}", str(len(cells)), str(sum(map(book.cell_met, cells.values()))), str(sum(failed)),
        " ".join(map(str, failed)), None, None, f"{total:,}", f"{fee:,}"]
    rows = page.tables["both"][1:]
    for row, figure in zip(rows, due):
        assert row[1] == row[2] and row[3] == "same" and figure in (None, row[1]), (row, figure)
    assert time(rows[6][1]) == sum(cell.kept for cell in cells.values())
    assert number(rows[7][1]) == sum(cell.lapses for cell in cells.values())
    assert [number(row[3]) for row in page.tables["failures"][1:]] == failed
    assert "Both readings agree" in page.text and f"{fee // 100:,} roubles {fee % 100:02} kopecks" in page.text
    steps = {row[0]: row[1] for row in page.tables["sum"]}
    assert number(steps["sum over all cells"]) == total and number(steps["rounded down, once"]) == total // 80_000
    assert steps["divided by 80,000"] == f"{total // 80_000:,} and {total % 80_000:,} / 80,000"


def check_grid(page, month):
    """Each of the 186 cells, and each term of the sum."""
    cells, rows = month.book.cells, page.tables["grid"][2:]
    assert len(rows) == 31
    for day, row in enumerate(rows, start=1):
        for series, shown in zip(SERIES, row[1:]):
            cell = cells.get((day, *series))
            weight = cell and book.cell_weight(cell)
            assert shown == ("blank" if cell is None else f"met {weight:,}" if weight else "failed"), (day, series, shown)
    terms = [row for row in page.tables["terms"][1:] if len(row) == 6]
    ordered = [cells[place] for place in sorted(cells, key=lambda place: (place[1:], place[0]))]
    for row, cell in zip(terms, ordered, strict=True):
        x, weight = 2 * cell.active + 3 * cell.passive, book.cell_weight(cell)
        assert [number(row[at]) for at in (1, 2, 3, 5)] == [cell.active, cell.passive, x, x * weight], row
        assert row[4] == (f"{weight:,}" if weight else "failed: 0"), row


def check_quanta(page, month, starts):
    """Kept time, share of each state, and every lapse of each closed quantum."""
    assert set(page.articles) == set(month.book.cells)
    for place, article in page.articles.items():
        cell = month.book.cells[place]
        totals = {name: 0 if spent == "none" else time(spent) for name, spent in article["acc"]}
        assert totals["kept"] == cell.kept and sum(totals.values()) == cell.length, place
        assert re.match(r"\s*(met|failed)Day", article["text"])[1] == ("met" if book.cell_met(cell) else "failed"), article["text"]
        limit = "no limit" if cell.limit == book.NO_LIMIT else f"of {cell.limit} allowed"
        head, *rows = article["lap"]
        assert head == [f"lapses: {cell.lapses}, {limit}"], (place, head)
        due = [(starts.get(place, 0) + begin, size) for begin, size in lapses_of(month.pairs[place], cell.length)]
        assert [(time(row[1]), time(row[2])) for row in rows] == due, place


@pytest.mark.parametrize(("path", "logs"), LISTS, ids=[path.name for path, _ in LISTS])
def test_pages(path, logs, note):
    """Every example's page."""
    listed = month_sources.from_list(str(path), reading.PLAIN, [str(log) for log in logs])
    month = Month([sent.block for sent in listed.calls])
    page, _ = made(path, *(["--fix", *logs] if logs else []), status=int(bool(month.refused or listed.left)))
    starts = {}
    for sent in listed.calls:
        call = c.call_of(sent.block)
        if sent.start and isinstance(call, c.Open):
            starts[call.day, *call.words[:2]] = formats.time_of_day(sent.start)
    if path.name == "fix.calls":
        starts = {place: 10 * 3_600_000 for place in month.book.cells}
    check_top(page, month, len(listed.calls))
    check_grid(page, month)
    check_quanta(page, month, starts)
    rows = page.tables.get("refused", [[]])[1:]
    assert [(number(row[0]), int(row[4])) for row in rows] == month.refused
    assert all(not each.startswith("http") and each[0] == "#" for each in page.loaded), page.loaded
    note(f"statement: {len(page.articles)} quanta of {path.name} are the recount's")


@pytest.mark.usefixtures("programs")
def test_replay():
    """The proved program's last report has the page's fee."""
    path = EXAMPLES / "month.calls"
    data = texts.calls_bytes(path.read_text() + "\nreport\n")
    printed = subprocess.run([BIN / "replay"], input=data, capture_output=True, check=True).stdout.decode()
    fee = int(printed.split()[-1])
    page, _ = made(path, status=1)
    assert fee and f"{fee:,} kopecks" in page.text, fee


@pytest.fixture
def made_beside(monkeypatch):
    """Makes the page of examples/month.calls beside a recount whose answers are changed."""
    right = recounted.answer_lines

    def make(answers):
        monkeypatch.setattr(recounted, "answer_lines", lambda data: answers(right(data)))
        return made(EXAMPLES / "month.calls", status=1)

    return make


def test_difference(made_beside):
    """A recount that answers otherwise is loud: first on the page, no fee, status 1."""
    page, done = made_beside(lambda lines: [line.replace("kept 31490000 of", "kept 31489999 of") for line in lines])
    assert page.text.index("The two readings differ. This statement settles nothing.") < page.text.index("Fee of the month")
    assert "not settled" in page.text and "Both readings agree" not in page.text and "DIFFER" in done.complaint
    assert "They differ first at call 10, line 13: the meter answers “cell kept 31490000 of" in page.text
    assert page.tables["both"][1][0] == "≠ time kept, all quanta" and page.tables["both"][1][3] == "differs", page.tables["both"][:3]


@pytest.mark.parametrize("stop", [0, 5, 57, -1])
def test_difference_by_a_stop(made_beside, stop):
    """So is a recount that stops."""
    page, done = made_beside(lambda lines: lines[:stop])
    assert "The two readings differ" in page.text and "the recount “nothing”" in page.text and "DIFFER" in done.complaint


def test_misfit(monkeypatch):
    """So is a page whose own figures do not add up: a stretch too long, and the divisor taken wrongly."""
    monkeypatch.setattr(course.Quantum, "stretches", lambda self, length: [Stretch(0, length, State.KEPT)])
    monkeypatch.setattr(figures, "DIVISOR", 79_000)
    page, done = made(EXAMPLES / "month.calls", status=1)
    assert "The figures do not fit together. This statement settles nothing." in page.text and "not settled" in page.text
    assert done.complaint.count("THE FIGURES DO NOT FIT TOGETHER") == 5, done.complaint


# ---------------------------------------------------------------- odd months


def quantum(day, kept, active=0, passive=0, series="1 1"):
    """A quantum of 100 seconds, kept from its start for so many."""
    cancel = f"cancel {1000 * kept} 1" if kept < 100 else ""
    return f"open row {series} 100_000 500 100 1 60% day {day} sp 2000\nadd 0 1 buy 99 500\nadd 0 2 sell 101 500\n{cancel}\nclose {active} {passive}\n"


@pytest.fixture
def page_of(tmp_path):
    """Makes the page of a list of calls."""
    file = tmp_path / "odd.calls"

    def make(text, status=0, *more):
        file.write_text(text)
        return made(file, *more, status=status)[0]

    return make


def test_sixteen_failed(page_of):
    page = page_of("".join(quantum(day, 10, 10**9, 10**9) for day in range(1, 17)) + quantum(17, 100, 10**6, 10**6))
    assert "has 16 failed quanta, more than 15: no fee" in page.text and page.tables["sum"][-1][1] == "0 roubles 00 kopecks"


def test_cap(page_of):
    page = page_of(quantum(1, 100, 10**11, 10**11))
    assert "1,200,000 roubles 00 kopecks: reached" in page.text and page.tables["sum"][-1][1] == "1,200,000 roubles 00 kopecks"


def test_short_gaps(page_of):
    gaps = "".join(f"amend {t} 1 {99 if t % 20 else 90} 500\n" for t in range(10, 8_000, 10))
    page = page_of(f"open row 1 1 100_000 500 100 1 60% day 1 sp 2000\nadd 0 1 buy 99 500\nadd 0 2 sell 101 500\n{gaps}close 0 0\n")
    lapses = page.articles[1, 1, 1]["lap"]
    assert lapses[0] == ["lapses: 399, no limit"] and lapses[-1] == ["and 392 others, 0:00:03.920 in all"] and len(lapses) == 9, lapses


def test_empty_month(page_of):
    assert page_of("report\n").tables["sum"][-1][1] == "0 roubles 00 kopecks"


@pytest.mark.parametrize("text", ["start 20261102-10:00:00.000\n", "start 20261102-10:00:00.000\nreport\n", "start x\n", "start 20261102-10:00:00.000\n" * 2])
def test_wrong_start(tmp_path, text):
    file = tmp_path / "odd.calls"
    file.write_text(text)
    done = command.run("statement", file)
    assert done.status == 1 and "start" in done.complaint and not done.printed, done


def test_open_at_the_end(page_of, tmp_path):
    """Under a name with characters of HTML; the page is UTF-8 on an ASCII terminal too."""
    page = page_of(quantum(1, 80) + quantum(2, 80).replace("close", "tick 9 #"), 1, "--title", "<b>&\"'")
    assert "A quantum is open at the end of the calls (day 2, expiry 1, quantum 1)" in page.text and "Statement: <b>&\"'" in page.text
    ascii_only = {"LC_ALL": "C", "PYTHONUTF8": "0", "PYTHONCOERCECLOCALE": "0"}
    done = subprocess.run([QUOTING, "statement", tmp_path / "odd.calls"], env={**os.environ, **ascii_only}, capture_output=True)
    assert "(2A + 3P) × w" in done.stdout.decode()


def test_bytes_that_stop(tmp_path):
    file = tmp_path / "odd.calls"
    file.write_bytes(texts.calls_bytes(quantum(1, 80)) + b"\7")
    page, done = made(file, status=1)
    assert "stopped at word" in page.text and "stopped at word" in done.complaint and page.tables["grid"][2][2] == "met 20,000"


def test_crowded():
    """A column with many stretches is filled by their shares."""
    stretches = [Stretch(at, 10, State.KEPT if at % 20 else State.NO_BID) for at in range(0, 20_000, 10)]
    drawn = list(picture.columns(picture.Scale(20_000, []), stretches))
    heights = [float(re.search(r'height="([0-9.]+)"', each)[1]) for each in drawn if "var(--kept)" in each]
    assert len(heights) == picture.RIGHT - picture.LEFT and all(abs(tall - picture.STRIP_HEIGHT / 2) < 1.1 for tall in heights), heights[:5]


CHARGES = "day,expiry,quantum,active,passive,lapses\n2,1,1,10_000,20_000,\n3,1,1,10_000,20_000,0\n3,2,0,5,5,none\n"


@pytest.fixture
def sessions(tmp_path):
    """A folder of three sessions in their forms, with the charges."""
    folder = tmp_path / "november"
    folder.mkdir()
    session = "row 1 1 100_000 500 100 1 60%\nsp 2000\nadd 0 1 buy 99 500\nadd 0 2 sell 101 500\ncancel 70_000 1\n"
    (folder / "02-1-1.session").write_text(session)
    (folder / "3-1-1.bin").write_bytes(texts.session_bytes(session))
    (folder / "03-2-0.csv").write_text("row,2,0,100000,500,100,1,60%\nsp,2000\nt,kind,id,side,price,volume\n0,add,1,buy,99,500\n")
    (folder / "charges.csv").write_text(CHARGES)
    return folder


def test_sessions(sessions):
    """A folder of sessions is the list that they make."""
    page, _ = made("--sessions", sessions, status=0)
    assert page.tables["grid"][3][2] == "met 10,312" and page.tables["grid"][4][2] == "failed" and page.tables["grid"][4][4] == "failed"
    assert "too many lapses: 1 of 0" in page.articles[3, 1, 1]["text"] and page.tables["sum"][-1][1] == "103 roubles 12 kopecks"
    (sessions / "notes.txt").write_text("?")
    assert "notes.txt: not named" in made("--sessions", sessions, status=1)[1].complaint


@pytest.mark.parametrize(("text", "said"), [
    ("day,expiry\n", "line 1: the columns are"), (CHARGES + "3,2,0,5,5,\n", "line 5: this day"), (CHARGES[:-15], "no line for it"),
    (CHARGES.replace("20_000", "x", 1), "line 2: passive: 'x'"),
], ids=["columns", "twice", "absent", "number"])
def test_wrong_charges(sessions, text, said):
    (sessions / "charges.csv").write_text(text)
    done = command.run("statement", "--sessions", sessions)
    assert done.status == 1 and said in done.complaint and not done.printed, done


def test_session_under_another_name(sessions):
    (sessions / "02-1-1.session").rename(sessions / "02-1-2.session")
    assert command.run("statement", "--sessions", sessions).status == 1


def test_help():
    done = command.run("statement", "--help")
    assert done.status == 0 and "examples:" in done.printed and "quoting statement" in done.printed
    assert command.run("statement").status == command.run("statement", "x", "--sessions", "y").status == 2


DAMAGED = 120


def test_damaged(tmp_path):
    """Whatever a month or a log holds: a page and 0 or 1, or a sentence with the file's name."""
    rng = random.Random(1)
    month, log = ((PROGRAMMES / f"brent.{kind}").read_bytes() for kind in ("month", "log"))
    month, log = (b"".join(lines.splitlines(keepends=True)[:count]) for lines, count in ((month, 20), (log, 60)))
    pages = 0
    for at in range(DAMAGED):
        files = [bytearray(month), bytearray(log)]
        for _ in range(rng.randint(1, 4)):
            place = rng.randrange(len(files[at % 2]))
            files[at % 2][place : place + rng.randint(0, 9)] = rng.choice([b"", b"\n", b"|", b"start ", b"\xff", b"\0", b"10=", b"9"])
        (tmp_path / "m.month").write_bytes(files[0])
        (tmp_path / "m.log").write_bytes(files[1])
        done = command.run("statement", tmp_path / "m.month", "--fix", tmp_path / "m.log")
        assert done.status in (0, 1) and "Traceback" not in done.complaint and "DIFFER" not in done.complaint, (bytes(files[at % 2]), done)
        assert done.printed or "m.month: " in done.complaint, (bytes(files[at % 2]), done)
        pages += bool(done.printed)
    assert DAMAGED // 3 < pages < DAMAGED, pages
