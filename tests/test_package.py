"""The package `quoting`: its types, its calls against the recount, and against the header. Its doctests are run by pytest itself."""

import doctest
import os
import pickle
import random
import re
import shutil
import subprocess
import sys
import threading
from concurrent.futures import ThreadPoolExecutor
from importlib import import_module
from pkgutil import walk_packages

import numpy
import pytest

import quoting
from quoting import Add, Amend, Cancel, Deal, Refused, Row, Rule, State, Tenths, Tick, calls, events, fix, inputs, native, refusals, standings, texts
from quoting.answers import line
from recount import game, programs, records, standing, strikes, volatile
from recount import account as recount_account
from recount import fix as recount_fix
from recount import session as run
from recount.book import NO_LIMIT, Book
from recount.book import Row as RecountRow
from recount.book import choose, weight, widest
from tests import calls_text, generate, known, message_lists, messages, months, strike_cases, volatile_cases
from tests.paths import EXAMPLES, ROOT

pytestmark = pytest.mark.usefixtures("library")

PACKAGE = ROOT / "python" / "quoting"


# ---------------------------------------------------------------- types, examples, the header


@pytest.mark.parametrize("words", [["mypy", "--no-error-summary"], ["pyflakes", PACKAGE, "recount", "tests", "tools"]], ids=lambda words: words[0])
def test_types(words):
    """mypy goes by pyproject.toml."""
    done = subprocess.run([sys.executable, "-m", *words], cwd=ROOT, capture_output=True, text=True)
    assert done.returncode == 0, done.stdout + done.stderr


def modules():
    names = [module.name for module in walk_packages(quoting.__path__, "quoting.")]
    return [import_module(name) for name in ["quoting", *names] if not name.endswith("__main__")]


def test_docstrings(request):
    """Every module says what it is; there are many examples, and pytest runs them."""
    examples, finder = 0, doctest.DocTestFinder(exclude_empty=True)
    for module in modules():
        assert module.__doc__, f"{module.__name__} says nothing of itself"
        examples += sum(len(each.examples) for each in finder.find(module, module.__name__))
    assert examples > 40, examples
    assert request.config.getoption("doctestmodules"), "pyproject.toml has no --doctest-modules"


TYPES = {"size_t": native.SIZE, "uint32_t": native.WORD}


def test_header():
    """The types of each call are those of the header, and so are the numbers of calls and states."""
    header = re.sub(r"/\*.*?\*/", "", (ROOT / "include" / "quoting.h").read_text(), flags=re.S)
    declared = re.findall(r"^uint64_t (quoting_\w+)\(([^)]*)\);", header, re.M)
    assert len(declared) >= 10, declared
    types = {
        name: [native.BYTES if "*" in argument else TYPES[argument.split()[0]] for argument in arguments.split(",")] for name, arguments in declared
    }
    assert types == native.CALLS, "the package's types are not the header's"
    for name, kinds in (("call", calls.Kind), ("state", State)):
        [enum] = re.findall(rf"^enum quoting_{name} {{(.*?)}};", header, re.M | re.S)
        numbers = re.findall(rf"QUOTING_{name.upper()}_(\w+) = (\d+)", enum)
        assert numbers == [(each.name, str(each.value)) for each in kinds], f"the package's numbers are not those of enum quoting_{name}"
    assert quoting.version() == (ROOT / "VERSION").read_text().strip()


def test_refusals():
    assert (ROOT / "docs" / "REFUSALS.md").read_text() == refusals.page(), "docs/REFUSALS.md is old"
    assert list(refusals.HELP) == list(range(1, 27))
    assert len({each.sentence for each in refusals.all_of_them()}) == 26


def test_installed(tmp_path):
    """pip puts the package with the library into a venv with system packages, without a network."""
    tree, venv = tmp_path / "tree", tmp_path / "venv"
    for name in ("python", "target/library"):
        shutil.copytree(ROOT / name, tree / name, symlinks=True, ignore=shutil.ignore_patterns("__pycache__"))
    for name in ("pyproject.toml", "setup.py", "VERSION"):
        shutil.copy(ROOT / name, tree / name)
    plain = {name: value for name, value in os.environ.items() if name not in ("QUOTING_LIBRARY", "PYTHONPATH")}
    subprocess.run([sys.executable, "-m", "venv", "--system-site-packages", venv], check=True)
    subprocess.run([venv / "bin" / "pip", "install", "-q", "--no-index", "--no-build-isolation", tree], check=True, capture_output=True)
    done = subprocess.run([venv / "bin" / "quoting", "sheet", EXAMPLES / "document01.session"], cwd=tmp_path, env=plain, capture_output=True, text=True)
    assert done.stdout.startswith("kept 6000 of 10000\n"), done
    where = subprocess.run([venv / "bin" / "python", "-c", "import quoting; print(quoting.native.candidates()[0])"], cwd=tmp_path, env=plain, capture_output=True, text=True)
    assert where.stdout.strip().startswith(str(venv)), where


# ---------------------------------------------------------------- sessions


def as_event(event):
    """The package's event of the recount's."""
    kinds = {"Add": Add, "Amend": Amend, "Cancel": Cancel, "Deal": Deal, "Tick": Tick}
    values = event._asdict()
    if "side" in values:
        values["side"] = {1: "buy", 2: "sell"}[values["side"]]
    return kinds[type(event).__name__](**values)


def answer_of(rule, given):
    try:
        done = quoting.session(rule, given)
    except Refused as refused:
        assert refused.sentence == native.sentence_of(refused.number)
        return run.Stopped(refused.number, refused.place)
    assert done.array().tolist() == [list(pair) for pair in done.pairs]
    return run.Done(done.kept, done.weight, done.met, done.length, done.pairs)


def forms(data):
    """The records as bytes, as a bytearray, as an array, and, where all are records, as events and CSV."""
    yield data
    yield bytearray(data)
    if len(data) % 20 == 0:
        yield numpy.frombuffer(data, dtype=events.dtype())
    found = [records.read(record) for record in records.split(data)]
    if None not in found:
        listed = [as_event(event) for event in found]
        yield listed
        yield csv_of(listed)


def csv_of(listed):
    """Columns in another order than the documents', blank where an event takes none."""
    lines = ["kind,t,volume,price,side,id"]
    for event in listed:
        cells = {"kind": type(event).__name__.lower(), **vars(event)}
        lines.append(",".join(str(cells.get(name, "")) for name in lines[0].split(",")))
    return "\r\n".join(lines)


def test_sessions():
    rng = random.Random(1)
    sessions = [*known.sessions(), *(generate.any_session(rng)[1:] for _ in range(120))]
    seen = set()
    for head, data in sessions:
        if len(data) > 200_000 or len(head) != 32:
            continue
        due = run.run_bytes(head, data)
        for given in forms(data):
            found = answer_of(head, given)
            assert found == due, (head, data, type(given), found, due)
        assert answer_of(Rule.of_bytes(head), data) == due
        seen.add(due.number if isinstance(due, run.Stopped) else 0)
    assert seen >= {0, 2, 3, 8, 9, 10, 11, 12, 14, 15}, seen


RULE = Rule(Row(1, 1, "24:00:00", 1, 100, 1, "60%"), 2000)


@pytest.fixture(scope="module")
def ticks():
    found = numpy.zeros(2_000_000, dtype=events.dtype())
    found["kind"], found["t"] = 6, numpy.arange(2_000_000)
    return found


def test_arrays(ticks):
    """An array of another dtype or of scattered records is refused."""
    assert quoting.session(RULE, ticks).kept == 0
    for wrong, said in ((ticks[::2], "numpy.ascontiguousarray"), (ticks["t"], "dtype"), (ticks.reshape(2, -1), "one dimension")):
        with pytest.raises(ValueError, match=said):
            quoting.session(RULE, wrong)


def test_other_threads_run(ticks):
    """A large array is not copied, and other threads run while its session does."""
    seen, done = 0, threading.Event()
    worker = threading.Thread(target=lambda: [quoting.session(RULE, ticks), done.set()])
    worker.start()
    while not done.is_set():
        seen += 1
    worker.join()
    assert seen > 10, f"{seen} turns of this thread while the other ran a session"


def test_rows():
    rng = random.Random(2)
    for _ in range(300):
        _, holiday, expiry, quantum, u, h, *words = generate.any_tables(rng)
        words = words[: u // 7 * 7] + words[u : u + h // 7 * 7]
        rows = [Row.of_words(words[at : at + 7]) for at in range(0, len(words), 7)]
        usual, others = rows[: u // 7], rows[u // 7 :]
        tables = [[word for row in table for word in row.words] for table in (usual, others)]
        found = quoting.choose_row(usual, others, bool(holiday), expiry, quantum)
        assert (found.words if found else []) == choose(*tables, bool(holiday), expiry, quantum)


def test_accounts():
    """Every account is the recount's, by SP and by a strike; its kept stretches are the session's pairs."""
    rng = random.Random(8)
    seen = set()
    for head, data in [*known.sessions(), *(generate.any_session(rng)[1:] for _ in range(80))]:
        strike = quoting.Strike(*generate.any_strike(rng)) if rng.random() < 0.4 else None
        if len(data) > 200_000 or len(head) != 32:
            continue
        *words, sp = run.HEAD.unpack(head)
        due = recount_account.run(words, sp if strike is None else strikes.Strike(*vars(strike).values()), data)
        try:
            found = quoting.account(head, data, strike)
        except Refused as refused:
            assert due == run.Stopped(refused.number, refused.place), (head, data, strike)
            continue
        assert list(found.totals.values()) == list(due.times), (head, data, strike)
        assert [tuple(each) for each in found.stretches] == list(due.stretches)
        if strike is None:
            assert [(each.offset, each.length) for each in found.stretches if each.state == State.KEPT] == quoting.session(head, data).pairs
        seen.update(each.state for each in found.stretches)
    assert seen == set(State) and [state.word for state in State] == list(recount_account.STATES), seen


# ---------------------------------------------------------------- months


def lists(rng, count):
    """The tests' lists of calls, as blocks, with the recount's answers."""
    for make in (months.any_calls, message_lists.any_calls):
        for _ in range(count):
            calls, book = make(rng)[1], Book()
            yield [calls_text.calls_bytes([call]) for call in calls], [programs.answer_line(book.call(call)) for call in calls]


def test_months():
    """Every answer of a list, call by call, is the recount's; four threads with a month each have the same."""
    rng = random.Random(6)
    seen, given = set(), list(lists(rng, 40))
    for blocks, due in given:
        found = [line(answer) for answer in quoting.answers_to(blocks)]
        assert found == due, next(pair for pair in zip(found, due) if pair[0] != pair[1])
        seen.update(found_line.split()[0] for found_line in found)
    assert seen == {"accepted", "refused", "cell", "report", "asked", "outlook"}, seen
    with ThreadPoolExecutor(4) as pool:
        again = pool.map(lambda blocks: [line(answer) for answer in quoting.answers_to(blocks)], [blocks for blocks, _ in given])
        assert list(again) == [due for _, due in given]


def due_view(quoted):
    """What the recount's book has of the open quantum, as the package shows it; None where none is open."""
    if quoted is None:
        return None
    row = quoting.Row.of_words(list(quoted.row))
    spread = quoting.Strike(*quoted.sp) if isinstance(quoted.sp, tuple) else quoted.sp
    sides = {1: "buy", 2: "sell"}
    orders = tuple(quoting.LiveOrder(id, sides[order.side], order.price, order.volume) for id, order in quoted.live.items())
    state = State(recount_account.state(quoted.row, quoted.sp, quoted.live))
    limit = None if quoted.limit == NO_LIMIT else quoted.limit
    return quoting.View(quoted.day, row, spread, limit, widest(quoted.row, quoted.sp), state, orders)


def test_views():
    """After every call of a list, the view is the recount's."""
    rng = random.Random(7)
    shown = set()
    for make in (months.any_calls, message_lists.any_calls):
        for _ in range(25):
            calls, book = make(rng)[1], Book()
            with quoting.Month() as month:
                for call in calls:
                    month.block(calls_text.calls_bytes([call]))
                    book.call(call)
                    view = month.view()
                    assert view == due_view(book.quoting), (view, due_view(book.quoting))
                    shown.add(view and view.state)
    assert shown >= {None, *State}, shown


def test_answers_are_values():
    """What is read from words is what its class makes: each field is there, and it can be compared, hashed, pickled and copied with a change."""
    with quoting.Month() as month:
        month.open(Row(1, 0, "0:00:10", 500, 100, 1, "60%"), 1, 2000, lapses=3)
        month.close(5, 2**32 + 7)
        month.open(Row(1, 1, "0:00:10", 500, 100, 1, "60%"), 1, quoting.Strike(75, 40, 365, 9))
        month.add(0, 1, "buy", -99, 500)
        view = month.view()
        found = [month.look(1, 1, 0), month.ask(0, 1, -98, 600), month.report(), month.outlook(), month.glance(), view, view.orders[0]]
    for each in found:
        assert type(each)(*each) == type(each)(**each._asdict()) == each == pickle.loads(pickle.dumps(each)) and hash(each) == hash(type(each)(*each)), each
    cell, asked, report, *_ = found
    assert (cell.passive, cell.limit, type(cell.share)) == (2**32 + 7, 3, Tenths) and cell._replace(limit=None).limit is None
    assert (asked.bid, asked.ask, asked.ticket) == (-98, None, quoting.Ticket(0, 1, -98, 600, 4)) and pickle.loads(pickle.dumps(asked.ticket)) == asked.ticket
    assert (report.bid, report.ask, report.orders, report.failed) == (-99, None, 1, (1, 0, 0, 0, 0, 0))
    assert view.orders == (quoting.LiveOrder(1, "buy", -99, 500),) and view.spread == quoting.Strike(75, 40, 365, 9)


def test_month_methods():
    """Each call by its method; a refusal is raised and leaves the month; after its block a month is at an end."""
    with quoting.Month() as month:
        month.open(Row(1, 1, "0:00:10", 500, 100, 1, "60%"), 1, 2000, lapses=3)
        month.add(0, 1, "buy", 99, 500)
        assert refused_or(lambda: month.add(0, 1, "buy", 99, 500)) == 10 and month.report().orders == 1
        month.message("20261116-10:00:00.000", fix.write(fix.Order("D", 2, 0, "sell", 600, 101, "20261116-10:00:00.000")))
        month.deal(1_000, 2, 100)
        month.amend(2_000, 1, 99, 700)
        month.tick("0:00:03")
        assert refused_or(lambda: month.commit(3_000, 1, 100, 1, quoting.Ticket(3_000, 1, 100, 1, 99))) == 19
        month.cancel(6_000, 1)
        month.close(5, 7)
        cell = month.look(1, 1, 1)
        assert (cell.kept, cell.met, cell.limit, cell.lapses, cell.active, cell.passive) == (6_000, True, 3, 1, 5, 7), cell
        month.charge(1, 1, 1, 50, 70)
        assert month.look(1, 1, 1).passive == 70
        month.withdraw(1, 1, 1)
        assert refused_or(lambda: month.look(1, 1, 1)) == 5
        month.open([1, 1, 10_000, 500, 0, 0, 600], 2, quoting.Strike(75, 40, 365, 0))
        month.drop()
        for wrong in (b"", b"123", bytes(4), 2 * texts.c.block(texts.c.Drop())):
            with pytest.raises(ValueError, match="not one call"):
                month.block(wrong)
    with pytest.raises(ValueError):
        month.report()


# ---------------------------------------------------------------- the other calls


def refused_or(call):
    try:
        return call()
    except Refused as refused:
        return refused.number


def due_weight(kept, length, share):
    if length % 1_000 or not 1_000 <= length <= 86_400_000 or not 1 <= share <= 799:
        return 2
    return 3 if kept > length else weight(kept, length, share)


def test_others():
    rng = random.Random(3)
    for _ in range(500):
        length, share = rng.choice([1_000, 31_500_000, 1_500, 0]), rng.choice([1, 600, 725, 799, 800])
        kept = rng.choice([0, length * share // 1000, length, length + 1, rng.randrange(length + 1)])
        assert refused_or(lambda: quoting.weight(kept, length, Tenths(share))) == due_weight(kept, length, share)
        m, h, k = (rng.randrange(62) for _ in range(3))
        assert refused_or(lambda: quoting.safe_minutes(m, h, k)) == (26 if max(m, h, k) > 60 else game.closed(m, h, k))
        first, second, board = (strike_cases.spoiled if rng.random() < 0.3 else strike_cases.planned)(rng)
        due = {18: 18, "met": True, "failed": False}[strikes.board(first, second, board)]
        assert refused_or(lambda: quoting.board(board, first, second)) == due


def test_standings():
    """After any list of calls the places are those of the makers and ratings that the recount has, and so are the refusals."""
    rng = random.Random(7)
    seen = set()
    for _ in range(200):
        size = rng.choice((1, 2, 4, 9))
        calls = [(rng.choice(tuple(standings.KINDS)), rng.randrange(7), rng.randrange(4)) for _ in range(rng.randrange(30))]
        calls = [(name, maker, 0 if name == "leave" else rating) for name, maker, rating in calls]
        ratings, due = standing.after(size, [(standings.KINDS[name], maker, rating) for name, maker, rating in calls])
        made = quoting.Standing(records=size)
        found = [refused_or(lambda: made.call(*call)) or 0 for call in calls]
        assert found == due and made.places == standing.in_order(ratings.items()), (size, calls)
        seen.update(found)
    assert seen == {0, 24, 25}, seen


def test_volatile():
    rng = random.Random(4)
    for _ in range(200):
        prices, threshold = rng.choice([volatile_cases.walk, volatile_cases.repeated, volatile_cases.rough])(rng)
        due = {"inside yes": True, "inside no": False, "refused 22": 22}[volatile.answer(prices, threshold)]
        assert refused_or(lambda: quoting.volatile_day(prices, threshold)) == due
        row = Row(1, 1, "8:45:00", rng.randrange(100_002), rng.randrange(100_001), rng.randrange(1_000_001), "60%")
        for is_strike in (False, True):
            eased = refused_or(lambda: quoting.ease(row, prices, threshold, is_strike))
            wanted = volatile.eased(row.words, is_strike) if due is True else row.words
            assert eased == (22 if due == 22 else Row.of_words(wanted)), (row, eased)


def test_fix():
    rng = random.Random(5)
    seen = set()
    for _ in range(800):
        data = messages.any_message(rng)[1] if rng.random() < 0.5 else messages.good(rng)
        try:
            due = recount_fix.read(data)
        except recount_fix.Unread as unread:
            assert refused_or(lambda: fix.read(data)) == unread.number, data
            seen.add(unread.number)
            continue
        order = fix.read(data)
        assert (order.kind, order.id, order.time.encode()) == (due.kind, due.numbers[11], due.time), data
        assert fix.read(fix.write(order)) == order and fix.write(order) == recount_fix.write(due), data
        seen.add(order.kind)
    assert seen == {20, 21, "D", "F", "G"}, seen


# ---------------------------------------------------------------- units and files


@pytest.mark.parametrize("bare", [60, "60", 600])
def test_share_without_a_unit(bare):
    """It is refused with both readings."""
    with pytest.raises(ValueError) as error:
        Row(1, 1, 10_000, 500, 100, 1, bare)
    assert f"write {bare}% (" in str(error.value) and f"or {bare} tenths (" in str(error.value)


def test_units():
    """Times and shares are read as they are written."""
    row = Row(1, 1, "0:00:10", 500, 100, 1, "72.5%")
    assert row == Row(1, 1, 10_000, 500, 100, 1, Tenths(725)) == Row(1, 1, 10_000, 500, 100, 1, "725 tenths")
    assert RecountRow(*row.words).share == 725
    wall = inputs.reading.Options(start=36_000_000, step=inputs.Decimal("0.01"))
    line = texts.session_bytes("row 1 1 8:45:00 1000 150 3 60%\nsp 84.52\nadd 10:00:30 1 buy 84.47 600", wall)
    assert line == texts.session_bytes("row 1 1 8:45:00 1000 150 3 60%\nsp 8452\nadd 0:00:30 1 buy 8447 600")
