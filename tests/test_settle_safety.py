"""`quoting settle` under attack: other options, changed sessions, two runs on one table, links, pipes, damaged part files, lost clusters."""

import json
import os
import random
import re
import shutil
import signal
import stat
import subprocess
import sys
import time
from collections import Counter
from contextlib import ExitStack, redirect_stderr, redirect_stdout
from dataclasses import replace
from io import BytesIO, TextIOWrapper

import pytest

from quoting import clusters, parts, rows, settling
from quoting.settling import Outcome, ReadOptions, Settled
from tests.paths import QUOTING
from quoting.cli import main
from tests import test_settle
from tests.test_settle import ENVIRONMENT, fill, free_port, rows_of, wait_for, wait_for_workers

pytestmark = pytest.mark.usefixtures("library")

ROW = ("--row", "1 1 0:10:00 500 100 3 60%", "--sp", "2000")
OTHER = ("--row", "1 1 0:10:00 500 100 3 70%", "--sp", "2000")
EVENTS = "t,kind,id,side,price,volume\n0,add,1,buy,99,500\n0,add,2,sell,102,500\n"


@pytest.fixture
def here(tmp_path):
    """A folder of eight sessions without rows: --row and --sp decide what they are."""
    (tmp_path / "day").mkdir()
    for at in range(8):
        (tmp_path / "day" / f"{at}.csv").write_text(EVENTS + f"{1_000 * at + 1},cancel,1,,,\n")
    return tmp_path


def settle(*words, cwd):
    """Status, output and complaints of a run in this process, which is quicker."""
    out, err = TextIOWrapper(BytesIO(), write_through=True), TextIOWrapper(BytesIO(), write_through=True)
    before = os.getcwd()
    os.chdir(cwd)
    try:
        with redirect_stdout(out), redirect_stderr(err):
            status = main(["settle", *map(str, words)])
    finally:
        os.chdir(before)
    return status, out.buffer.getvalue().decode(), err.buffer.getvalue().decode()


def broken_off(here, count, *words):
    """The part file of a run that ended after so many rows."""
    write = parts.Table.write

    def limited(table, outcome):
        if len(table.places) >= count:
            raise KeyboardInterrupt
        write(table, outcome)

    with pytest.MonkeyPatch.context() as patch:
        patch.setattr(parts.Table, "write", limited)
        assert settle("day", "-o", "on.csv", *words, cwd=here)[0] == 130
    assert (here / "on.csv.part").read_bytes().count(b'{"row"') == count and not (here / "on.csv").exists()
    return here / "on.csv.part"


# ---------------------------------------------------------------- item 7: options and changed sessions


@pytest.mark.parametrize("now", [OTHER, (*ROW, "--start", "1:00:00"), (*ROW, "--format", "csv"), (*ROW, "--step", "0.5"), (*ROW, "--complete"), ()], ids=" ".join)
def test_resume_with_other_options_is_refused_with_both(here, now):
    part = broken_off(here, 3, *ROW)
    before = part.read_bytes()
    status, printed, said = settle("day", "-o", "on.csv", "--resume", *now, cwd=here)
    assert (status, printed) == (1, "") and "Traceback" not in said
    before_words, now_words = said.split("this run has")
    assert "begun with --row" in before_words and "60%" in before_words and "--sp 2000" in before_words, said
    due = {OTHER: "70%", (): "no options", (*ROW, "--complete"): "--complete"}
    assert due.get(now, " ".join(now[-2:])) in now_words, said
    assert part.read_bytes() == before and not (here / "on.csv").exists()
    assert settle("day", "-o", "on.csv", "--resume", *ROW, cwd=here)[0] == 0


def test_resume_takes_the_same_options_written_otherwise(here):
    broken_off(here, 3, *ROW)
    same = ("--row", "1 1 600000 500 100 3 600 tenths", "--sp", "2000", "--threads", "1")
    assert settle("day", "-o", "on.csv", "--resume", *same, cwd=here)[0] == 0


def test_resume_settles_changed_sessions_again(here):
    """Changed in size, in time alone, and in content with size and time as before; the others are not read again."""
    part = broken_off(here, 6, *ROW)
    for at, text in ((1, EVENTS), (3, EVENTS + "3001,cancel,2,,,\n")):
        path = here / "day" / f"{at}.csv"
        times = path.stat()
        path.write_text(text)
        if at == 3:
            assert path.stat().st_size == times.st_size
            os.utime(path, ns=(times.st_atime_ns, times.st_mtime_ns))
    lines = part.read_bytes().splitlines(keepends=True)
    seal = parts.seal_of(json.loads(lines[0]))
    first = parts.outcome_of(lines[2], seal)
    marked = replace(first, row=replace(first.row, weight="17"))
    part.write_bytes(b"".join([*lines[:2], parts.row_line(marked, seal), *lines[3:]]))
    status, printed, said = settle("day", "-o", "on.csv", "--resume", *ROW, cwd=here)
    assert status == 0 and "2 session(s) changed" in said and "settled again" in said, said
    settle("day", "-o", "new.csv", *ROW, cwd=here)
    found, due = rows_of(here / "on.csv"), rows_of(here / "new.csv")
    assert found[0]["weight"] == "17" and found[1:] == due[1:] and printed.startswith("8 sessions")


def test_resume_of_other_sessions_is_refused_and_of_fewer_is_reported(here):
    part = broken_off(here, 3, *ROW)
    shutil.copytree(here / "day", here / "night")
    status, _, said = settle("night", "-o", "on.csv", "--resume", *ROW, cwd=here)
    assert status == 1 and "other sessions, such as day/0.csv" in said and part.exists(), said
    (here / "day" / "0.csv").unlink()
    status, printed, said = settle("day", "-o", "on.csv", "--resume", *ROW, cwd=here)
    assert status == 0 and "1 session(s) that are not to be settled now" in said and printed.startswith("7 sessions"), said
    assert [row["file"] for row in rows_of(here / "on.csv")] == [f"day/{at}.csv" for at in range(1, 8)]


def test_resume_of_a_finished_table_settles_all_again(here):
    settle("day", "-o", "on.csv", *ROW, cwd=here)
    status, _, said = settle("day", "-o", "on.csv", "--resume", *OTHER, cwd=here)
    assert status == 0 and "on.csv is finished" in said and "settled again" in said, said
    settle("day", "-o", "other.csv", *OTHER, cwd=here)
    assert (here / "on.csv").read_bytes() == (here / "other.csv").read_bytes(), "no row of other options is kept"


# ---------------------------------------------------------------- item 12: two runs, and the file that is replaced


HOLD = """
import sys
from pathlib import Path
from quoting import parts, settling
table = parts.Table(Path("on.csv"), ["day/0.csv"], settling.ReadOptions())
print("locked", flush=True)
sys.stdin.read()
"""


@pytest.mark.parametrize("how", [(), ("--resume",), ("--restart",)], ids=str)
def test_second_settle_on_one_table_says_who_holds_it(here, how):
    with subprocess.Popen([sys.executable, "-c", HOLD], cwd=here, env=ENVIRONMENT, stdin=subprocess.PIPE, stdout=subprocess.PIPE) as holder:
        assert holder.stdout.readline() == b"locked\n"
        before = (here / "on.csv.part").read_bytes()
        (here / "link.csv").symlink_to("on.csv")
        for name in ("on.csv", "link.csv"):
            status, _, said = settle("day", "-o", name, *how, *ROW, cwd=here)
            assert status == 1 and f"process {holder.pid}, since 20" in said and " UTC" in said, said
        assert (here / "on.csv.part").read_bytes() == before and not (here / "on.csv").exists()
        holder.stdin.close()
    assert settle("day", "-o", "on.csv", *how, *ROW, cwd=here)[0] == 0, "the lock ends with its process"


def test_two_settles_at_once_never_destroy_the_table(here):
    settle("day", "-o", "due.csv", *ROW, cwd=here)
    for _ in range(2):
        runs = [subprocess.Popen([QUOTING, "settle", "day", "-o", "on.csv", *ROW], cwd=here, stderr=subprocess.PIPE, stdout=subprocess.DEVNULL) for _ in range(3)]
        said = [run.communicate(timeout=60)[1].decode() for run in runs]
        assert 0 in [run.returncode for run in runs] and (here / "on.csv").read_bytes() == (here / "due.csv").read_bytes()
        assert all(run.returncode == 0 or "another settle is writing this table" in text for run, text in zip(runs, said)), said
        assert not (here / "on.csv.part").exists()


def test_a_replaced_table_keeps_its_mode_and_its_link(here):
    (here / "away").mkdir()
    (here / "away" / "real.csv").write_text("")
    (here / "away" / "real.csv").chmod(0o640)
    (here / "on.csv").symlink_to("away/real.csv")
    (here / "dangling.csv").symlink_to("away/new.csv")
    for name, real in (("on.csv", "real.csv"), ("dangling.csv", "new.csv")):
        assert settle("day", "-o", name, *ROW, cwd=here)[0] == 0
        assert (here / name).is_symlink() and len(rows_of(here / "away" / real)) == 8
    assert stat.S_IMODE((here / "away" / "real.csv").stat().st_mode) == 0o640
    assert sorted(each.name for each in (here / "away").iterdir()) == ["new.csv", "real.csv"]
    (here / "loop.csv").symlink_to("loop.csv")
    status, _, said = settle("day", "-o", "loop.csv", *ROW, cwd=here)
    assert status == 1 and "loop.csv: Too many levels" in said and (here / "loop.csv").is_symlink(), said


def test_the_table_is_synced_before_it_is_renamed(here, monkeypatch):
    monkeypatch.chdir(here)
    done, sync, replace = [], os.fsync, os.replace
    monkeypatch.setattr(os, "fsync", lambda handle: (done.append(("sync", os.fstat(handle).st_ino)), sync(handle)))
    monkeypatch.setattr(os, "replace", lambda old, new: (done.append(("rename", os.stat(old).st_ino)), replace(old, new)))
    table = parts.Table(here / "on.csv", ["day/0.csv"], ReadOptions())
    table.write(settling.settle("day/0.csv"))
    table.finish()
    table.close()
    table_node = (here / "on.csv").stat().st_ino
    assert done[:2] == [("sync", table_node), ("rename", table_node)] and done[2] == ("sync", here.stat().st_ino)


def test_a_session_is_never_replaced_by_the_table(here):
    before = (here / "day" / "3.csv").read_bytes()
    status, _, said = settle("day", "-o", "day/3.csv", *ROW, cwd=here)
    assert status == 1 and "day/3.csv is one of the sessions" in said and (here / "day" / "3.csv").read_bytes() == before, said
    assert settle("day", "-o", "day/table.csv", *ROW, cwd=here)[0] == 0
    assert settle("day", "-o", "day/table.csv", *ROW, cwd=here)[0] == 0 and len(rows_of(here / "day" / "table.csv")) == 8


LIMITED = """
import resource, sys
resource.setrlimit(resource.RLIMIT_FSIZE, (300, 300))
from quoting.cli import main
sys.exit(main(sys.argv[1:]))
"""


def test_a_full_disk_is_said_with_the_name_of_the_file(here):
    done = subprocess.run([sys.executable, "-c", LIMITED, "settle", "day", "-o", "on.csv", *ROW], cwd=here, env=ENVIRONMENT, capture_output=True, text=True)
    assert done.returncode == 1 and "on.csv.part: File too large" in done.stderr and "standard output" not in done.stderr, done.stderr
    assert settle("day", "-o", "on.csv", "--restart", *ROW, cwd=here)[0] == 0


# ---------------------------------------------------------------- item 17: what is no regular file, and nothing at all

ODD = {"broken": "No such file", "loop": "Too many levels", "pipe": "this is a pipe (FIFO)"}


def make_odd(folder):
    (folder / "broken").symlink_to("absent")
    (folder / "loop").symlink_to("loop")
    os.mkfifo(folder / "pipe")


@pytest.mark.parametrize("by_list", [False, True])
def test_links_loops_and_pipes_are_rows_and_hang_nothing(here, by_list):
    make_odd(here / "day")
    (here / "day" / "inside").mkdir()
    names = sorted(each.name for each in (here / "day").iterdir() if each.name != "inside" or by_list)
    (here / "list").write_text("".join(f"day/{name}\n" for name in names))
    status, _, said = test_settle.settle("list" if by_list else "day", "-o", "on.csv", *ROW, cwd=here)
    rows = {row["file"]: row for row in rows_of(here / "on.csv")}
    assert status == 1 and list(rows) == [f"day/{name}" for name in names]
    for name, reason in {**ODD, **({"inside": "this is a folder"} if by_list else {})}.items():
        assert rows[f"day/{name}"]["status"] == "unreadable" and reason in rows[f"day/{name}"]["reason"] and f"day/{name}: " in said
    assert sum(row["status"] == "settled" for row in rows.values()) == 8, rows


def test_nothing_to_settle_is_status_1_with_a_sentence(here):
    (here / "empty" / "inside").mkdir(parents=True)
    (here / "list").write_text("# no names\n\n")
    (here / "on.csv").write_text("old")
    for where, sentence in (("empty", "empty: this folder has no sessions; the 1 folder(s)"), ("list", "list: this list names no session"), ("/dev/null", "/dev/null: this is a device, not a list")):
        for to in ((), ("-o", "on.csv")):
            status, printed, said = settle(where, *to, cwd=here)
            assert (status, printed) == (1, "") and sentence in said and (here / "on.csv").read_text() == "old", said


def test_a_list_in_a_pipe_is_read_and_one_without_a_writer_is_not_waited_for(here):
    os.mkfifo(here / "names")
    began = time.monotonic()
    status, _, said = test_settle.settle("names", "--patience", "1", *ROW, cwd=here)
    assert status == 1 and "names: nothing was written into this pipe for 1 s" in said and time.monotonic() - began < 20, said
    done = subprocess.run(["bash", "-c", f'{QUOTING} settle <(sleep 0.2; for n in "$PWD"/day/*; do echo "$n"; done) -o on.csv "$@"', "x", *ROW], cwd=here, capture_output=True, text=True)
    assert done.returncode == 0 and done.stdout.startswith("8 sessions"), done.stderr


def test_a_list_that_ends_within_a_name_is_refused(here):
    (here / "list").write_text("day/1.csv\nday/2")
    status, _, said = settle("list", *ROW, cwd=here)
    assert status == 1 and "list: line 2: " in said and "no line end" in said, said
    (here / "list").write_text("day/1.csv\nday/2.csv")
    assert settle("list", "-o", "on.csv", "--complete", *ROW, cwd=here)[0] == 0 and len(rows_of(here / "on.csv")) == 2


# ---------------------------------------------------------------- item 18: damaged and old part files


def test_an_old_part_file_is_not_overwritten_without_being_asked(here):
    part = broken_off(here, 3, *ROW)
    before = part.read_bytes()
    status, printed, said = settle("day", "-o", "on.csv", *OTHER, cwd=here)
    assert status == 1 and "on.csv.part has 3 row(s)" in said and "--resume" in said and "--restart" in said, said
    assert part.read_bytes() == before and not (here / "on.csv").exists()
    assert settle("day", "-o", "on.csv", "--restart", *OTHER, cwd=here)[0] == 0 and not part.exists()
    part.write_text("my own notes\n")
    for how in ((), ("--resume",), ("--restart",)):
        status, _, said = settle("day", "-o", "on.csv", *how, *ROW, cwd=here)
        assert status == 1 and "is not a part file of settle" in said and part.read_text() == "my own notes\n", said


def test_a_part_file_of_an_earlier_version_is_refused(here):
    part = here / "on.csv.part"
    part.write_text(settling.HEADER + Settled("day/0.csv", "settled").line)
    for how, sentence in (((), "has 1 row(s)"), (("--resume",), "did not write down its options")):
        status, _, said = settle("day", "-o", "on.csv", *how, *ROW, cwd=here)
        assert status == 1 and sentence in said and "--restart" in said, said
    assert settle("day", "-o", "on.csv", "--restart", *ROW, cwd=here)[0] == 0


NO_LINE = "this is not a line of a part file"


def damaged():
    entry = {"row": ["day/0.csv", "settled", *["1"] * 14], "stamp": [1, 2, 3]}
    more, fewer = {**entry, "row": [*entry["row"], "more"]}, {**entry, "row": entry["row"][:-1]}
    return {
        "too many fields": (json.dumps(more), "a row has 16 fields, this one has 17"), "too few": (json.dumps(fewer), "a row has 16 fields, this one has 15"),
        "no JSON": ("day/0.csv,settled", NO_LINE), "a number": ("7", NO_LINE), "no words": ('{"row": [1]}', NO_LINE), "deep": ("[" * 100_000, NO_LINE),
        "no figure": (json.dumps({"row": ["day/0.csv", "settled", "x", *["1"] * 13]}), "this is not a row of a table"),
        "another sum": (json.dumps({**entry, "sum": 0}), "this row is damaged")}


@pytest.mark.parametrize("line, sentence", damaged().values(), ids=damaged())
def test_a_damaged_part_row_is_a_sentence_with_its_line(here, line, sentence):
    part = broken_off(here, 2, *ROW)
    part.write_bytes(part.read_bytes() + line.encode() + b"\n")
    status, printed, said = settle("day", "-o", "on.csv", "--resume", *ROW, cwd=here)
    assert (status, printed) == (1, "") and f"on.csv.part: line 5: {sentence}" in said, said


def test_a_damaged_part_file_never_gives_a_traceback_or_a_wrong_table(here, monkeypatch):
    """A fuzz run: bytes changed, lines lost, doubled and cut."""
    monkeypatch.chdir(here)
    names, rng = settling.names_in("day"), random.Random(7)
    read_options = ReadOptions(head=rows.HEAD.pack(1, 1, 600_000, 500, 100, 3, 600, 2_000))
    whole = {name: settling.settle(name, read_options) for name in names}
    table = parts.Table(here / "on.csv", names, read_options)
    for name in names[:5]:
        table.write(whole[name])
    table.close()
    good, refused, taken = (here / "on.csv.part").read_bytes(), 0, 0
    for _ in range(400):
        data = bytearray(good)
        for _ in range(rng.randint(0, 2)):
            data[rng.randrange(len(data))] = rng.choice(b'\x00\n"{[,}x0123456789\xff')
        (here / "on.csv.part").write_bytes(data[: rng.choice((len(data), rng.randrange(1, len(data))))])
        try:
            table = parts.Table(here / "on.csv", names, read_options, resume=True)
        except parts.PartError:
            refused += 1
            continue
        taken += 1
        assert sorted([*table.todo, *table.places]) == names and table.kept == [whole[name].row for name in table.places], "a damaged row was taken"
        table.close()
    assert refused > 20 and taken > 20, (refused, taken)


# What a run of the command makes of a damaged part file. Each way of damage takes the lines of a good one, and those of one of other options.

MORE = ("--row", "1 1 0:10:00 501 100 3 60%", "--sp", "2000")  # a bit away from ROW, and no order has this volume
ODD_VALUES = (None, True, -1, 2**70, 1e300, float("nan"), "", "x", "\ud800", "a\nb", [], [[]], {}, [1, 2, 3], ["day/0.csv"])


def flip_bytes(rng, lines, other):
    data = bytearray(b"".join(lines))
    for _ in range(rng.randint(1, 3)):
        data[rng.randrange(len(data))] = rng.choice((rng.randrange(256), *b'\n"{[,}0123456789'))
    return bytes(data)


def flip_bit_of_head(rng, lines, other):
    head = bytearray(lines[0])
    head[rng.randrange(len(head))] ^= 1 << rng.randrange(8)
    return b"".join([bytes(head), *lines[1:]])


def cut_end(rng, lines, other):
    data = b"".join(lines)
    return data[: rng.randrange(len(data) + 1)]


def cut_line(rng, lines, other):
    at = rng.randrange(len(lines))
    return b"".join([*lines[:at], lines[at][: rng.randrange(len(lines[at]))], *lines[at + 1 :]])


def drop_lines(rng, lines, other):
    return b"".join(line for line in lines if rng.random() < 0.7)


def double_lines(rng, lines, other):
    return b"".join(line * rng.choice((1, 1, 2, 3)) for line in lines)


def swap_lines(rng, lines, other):
    return b"".join([*lines[:2], *rng.sample(lines[2:], len(lines) - 2)] if rng.random() < 0.5 else rng.sample(lines, len(lines)))


def mix_files(rng, lines, other):
    """Lines of the same number out of one file or the other."""
    return b"".join(rng.choice(pair) for pair in zip(lines, other))


def odd_value(rng, lines, other):
    """A value of a line, or of a list or an object in it, is another, or is gone."""
    at = rng.randrange(len(lines))
    made = json.loads(lines[at])
    inside = rng.choice([made, *(value for value in made.values() if value and isinstance(value, (list, dict)))])
    key = rng.choice(list(inside) if isinstance(inside, dict) else range(len(inside)))
    if rng.random() < 0.4:
        del inside[key]
    else:
        inside[key] = rng.choice(ODD_VALUES)
    return b"".join([*lines[:at], json.dumps(made).encode() + b"\n", *lines[at + 1 :]])


def foreign(rng, lines, other):
    return rng.choice((b"", b"\n", b"\0" * 50, b"my notes\n", b"[" * 50_000, b'{"settle": 1}\n', settling.HEADER.encode(), other[0] + b"".join(lines[1:]), rng.randbytes(200)))


DAMAGES = (flip_bytes, flip_bit_of_head, cut_end, cut_line, drop_lines, double_lines, swap_lines, mix_files, odd_value, foreign)


@pytest.fixture
def quick_end():
    """Ends a test that hangs."""
    before = signal.signal(signal.SIGALRM, lambda *_: pytest.fail("this hangs"))
    signal.alarm(60)
    yield
    signal.alarm(0)
    signal.signal(signal.SIGALRM, before)


@pytest.mark.parametrize("damage", DAMAGES, ids=lambda damage: damage.__name__)
def test_a_run_on_a_damaged_part_file_gives_the_whole_table_or_a_sentence(here, damage, quick_end, note):
    """Status 0 with the table that a run without a part file makes, to the byte; or 1 with a sentence, no table, and the part file as it was."""
    rng, counts, files, due = random.Random(f"part {damage.__name__}"), Counter(), {}, {}
    for options in (ROW, MORE):
        files[options] = broken_off(here, 5, *options).read_bytes().splitlines(keepends=True)
        settle("day", "-o", "on.csv", "--restart", *options, cwd=here)
        due[options] = (here / "on.csv").read_bytes()
        (here / "on.csv").unlink()
    assert due[ROW] != due[MORE]
    part = here / "on.csv.part"
    for _ in range(40):
        options, how = rng.choice((ROW, ROW, MORE)), rng.choice(("--resume", "--resume", "--resume", "--restart", None))
        data = damage(rng, files[ROW], files[MORE])
        part.write_bytes(data)
        status, printed, said = settle("day", "-o", "on.csv", *filter(None, [how]), *options, cwd=here)
        counts[status] += 1
        if status == 0:
            assert (here / "on.csv").read_bytes() == due[options] and not part.exists() and printed.startswith("8 sessions: "), (data, said)
            (here / "on.csv").unlink()
        else:
            assert (status, printed) == (1, "") and said.startswith("quoting: on.csv.part") and said.count("\n") == 1, (data, said)
            assert part.read_bytes() == data and not (here / "on.csv").exists() and sorted(each.name for each in here.iterdir()) == ["day", "on.csv.part"]
    assert set(counts) == {0, 1}, counts
    note(f"settle: 40 part files damaged by {damage.__name__}: {counts[0]} taken or begun again, {counts[1]} refused")


def test_a_name_with_a_line_end_or_not_in_utf8_is_taken_over(here):
    for name in ("a\nb.csv", b"\xff.csv".decode("utf-8", "surrogateescape")):
        shutil.copy(here / "day" / "0.csv", here / "day" / name)
    settle("day", "-o", "due.csv", *ROW, cwd=here)
    broken_off(here, 9, *ROW)
    assert settle("day", "-o", "on.csv", "--resume", *ROW, cwd=here)[::2] == (0, "")
    assert (here / "on.csv").read_bytes() == (here / "due.csv").read_bytes()


# ---------------------------------------------------------------- item 16: a cluster that is lost


class KilledWorker(Exception):
    allowed_failures = 3


class Future:
    def __init__(self, answer):
        self.answer = answer

    def done(self):
        return not isinstance(self.answer, TimeoutError)

    def result(self, timeout):
        if isinstance(self.answer, BaseException):
            time.sleep(0.01)
            raise self.answer
        return self.answer


class Client:
    """Sessions named `killer` end their workers and, as in Dask, all work in flight with them."""

    def __init__(self, workers=2, error=None):
        self.given, self.workers, self.error = [], workers, error

    def scheduler_info(self):
        return {"workers": dict.fromkeys(range(self.workers))}

    def submit(self, work, names, read_options, pure):
        assert not pure
        made = Future(self.error or [Outcome(Settled(name, "settled", "1", "2"), (1, 2, 3)) for name in names])
        if any("killer" in name for name in names):
            for each in [made, *self.given[-3:]]:
                each.answer = KilledWorker()
        self.given = [*self.given, made] if len(names) > 1 else []
        return made


def test_a_session_that_ends_its_workers_is_the_only_row_that_says_so(monkeypatch):
    names = [f"{at:02}" + ("killer" if at in (20, 77) else "") for at in range(90)]
    found = list(clusters.Cluster(Client(), 5, print).rows(names, ReadOptions()))
    assert [each.row.file for each in found] == names
    bad = [each.row for each in found if each.row.status != "settled"]
    assert [row.file for row in bad] == ["20killer", "77killer"] and bad[0].reason == "each worker that settled it ended, 4 in a row"


@pytest.mark.parametrize("workers, seen", [(0, "it has no workers"), (2, "it has 2 worker(s)")])
def test_a_cluster_without_progress_ends_after_its_patience(monkeypatch, workers, seen):
    said = []
    with pytest.raises(clusters.Lost, match=re.escape(f"nothing was settled for 0.1 s ({seen}; the next session is a)")):
        list(clusters.Cluster(Client(workers, TimeoutError()), 0.1, said.append).rows(["a", "b"], ReadOptions()))
    assert len(said) == (0 if workers else 1) and all("no workers: waiting" in line for line in said)


@pytest.mark.parametrize("error", [ImportError("no module"), OSError("gone"), ValueError("x"), __import__("asyncio").CancelledError()], ids=repr)
def test_any_error_of_a_cluster_is_a_sentence(error):
    with pytest.raises(clusters.Lost):
        list(clusters.Cluster(Client(2, error), 5, print).rows(["a"], ReadOptions()))


PRELOAD = """
import os, time
from quoting import settling
plain = settling.__dict__.setdefault("plain", settling.settle)  # Dask loads this file twice
def settle(name, read_options=settling.ReadOptions()):
    if "killer" in name:
        os._exit(1)
    time.sleep(0.02)
    return plain(name, read_options)
settling.settle = settle
"""


class Dask:
    """A scheduler and workers as processes. One death is enough for Dask to give up a piece of work."""

    def __init__(self, stack, folder):
        self.stack, self.folder, self.address = stack, folder, f"tcp://127.0.0.1:{free_port()}"
        (folder / "preload.py").write_text(PRELOAD)
        words = ["--host", "127.0.0.1", "--port", self.address.rsplit(":", 1)[1], "--no-dashboard"]
        self.scheduler = self.process("distributed.cli.dask_scheduler", *words)

    def process(self, *words):
        environment = {**ENVIRONMENT, "DASK_DISTRIBUTED__SCHEDULER__ALLOWED_FAILURES": "0"}
        made = subprocess.Popen([sys.executable, "-m", *words], env=environment, cwd=self.folder, stdout=subprocess.DEVNULL, stderr=subprocess.DEVNULL)
        self.stack.callback(made.wait)
        self.stack.callback(made.kill)
        return made

    def workers(self, count):
        words = ["distributed.cli.dask_worker", self.address, "--nthreads", "1", "--no-nanny", "--no-dashboard", "--preload", str(self.folder / "preload.py")]
        made = [self.process(*words) for _ in range(count)]
        wait_for_workers(self.address, count)
        return made


@pytest.mark.long
def test_a_lost_cluster_is_a_row_or_a_sentence_and_resume_goes_on(tmp_path):
    """A session that ends its workers; then no worker left; then no scheduler: the rows are those of a run without a cluster."""
    fill(tmp_path / "many", random.Random(9), 160, 10)
    (tmp_path / "many" / "010killer.session").write_text("row 1\n")
    with ExitStack() as stack:
        dask = Dask(stack, tmp_path)
        here = ("-o", "on.csv", "--scheduler", dask.address)
        left = dask.workers(3)
        status, printed, said = settle("many", *here, cwd=tmp_path)
        assert status == 1 and "many/010killer.session: each worker that settled it ended, 1 in a row" in said, said
        assert printed.startswith("161 sessions: ") and "0 refused, 1 unreadable" in printed, printed
        (tmp_path / "many" / "010killer.session").unlink()
        for lost, sentence in ((left, "(it has no workers; the next session is "), ([dask.scheduler], "the connection to the scheduler was lost")):
            (tmp_path / "on.csv").unlink()
            run = subprocess.Popen([QUOTING, "settle", "many", *here, "--patience", "2"], cwd=tmp_path, stderr=subprocess.PIPE)
            wait_for(tmp_path / "on.csv.part", 2_000, run)
            for each in lost:
                each.send_signal(signal.SIGKILL)
            said = run.communicate(timeout=60)[1].decode()
            assert run.returncode == 1 and "Traceback" not in said and sentence in said and "--resume goes on" in said, said
            assert (tmp_path / "on.csv.part").exists() and not (tmp_path / "on.csv").exists()
            if lost is left:
                dask.workers(1)
                status, printed, said = settle("many", *here, "--resume", cwd=tmp_path)
                assert status == 0 and printed.startswith("160 sessions: "), said
        status, _, said = settle("many", *here, "--resume", cwd=tmp_path)
        assert status == 1 and said.startswith(f"quoting: --scheduler {dask.address}: "), said
    assert settle("many", "-o", "on.csv", "--resume", cwd=tmp_path)[0] == 0
    settle("many", "-o", "due.csv", cwd=tmp_path)
    assert (tmp_path / "on.csv").read_bytes() == (tmp_path / "due.csv").read_bytes()
