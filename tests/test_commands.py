"""The command `quoting` as its users run it: help, statuses, files, odd streams; and every reader on damaged files.

Whatever a file holds, the command ends by itself with status 0, 1 or 2, says what is wrong in a sentence with the file's name, prints no
traceback and leaves no half of an output file.
"""

import json
import os
import random
import re
import signal
import subprocess
import time
from pathlib import Path

import pytest

from quoting import fix, texts
from tests import command
from tests.paths import EXAMPLES, QUOTING

pytestmark = pytest.mark.usefixtures("library")

NAMES = ["account", "bytes", "board", "calls", "card", "fix", "game", "outlook", "picture", "refusal", "sheet", "standing", "text", "volatile"]
ROW = ["--row", "1 1 8:45:00 1000 150 3 60%", "--sp", "8452"]
START = ["--start", "20261116-10:00:00.000"]


def shell(line, **more):
    """A line of the shell in which `quoting` is the command; its status, output and complaints."""
    text = line.replace("quoting ", f"{QUOTING} ")
    done = subprocess.run(["bash", "-c", text], cwd=EXAMPLES, capture_output=True, timeout=60, **more)
    assert b"Traceback" not in done.stderr, (line, done.stderr.decode())
    return done.returncode, done.stdout.decode("utf-8", "replace"), done.stderr.decode("utf-8", "replace")


# ---------------------------------------------------------------- as it is used


@pytest.mark.parametrize("name", NAMES)
def test_help(name):
    """Each subcommand has help with examples, and wrong use ends with status 2."""
    done = command.run(name, "--help")
    assert done.status == 0 and "examples:" in done.printed and f"quoting {name}" in done.printed, done
    assert command.run(name, "--no-such-option").status == 2


def test_help_of_all():
    assert command.run().status == 2 and command.run("no-such-command").status == 2
    assert all(name in command.run("--help").printed for name in NAMES)


def test_sheet():
    """The session of document 01 in its forms, all with one sheet."""
    text = (EXAMPLES / "document01.session").read_text()
    due = "kept 6000 of 10000\npair 0 6000\nverdict met\nweight 10000\n"
    csv = "row,1,1,0:00:10,500,100,1,60%\nsp,2000\nt,kind,id,side,price,volume\n" + "".join(
        f"{line}\n" for line in ("0,add,1,buy,99,500", "0,add,2,sell,101,500", "4000,cancel,2,,,", "4000,add,3,sell,101,500", "6000,cancel,1,,,"))
    for given in (text, texts.session_bytes(text), csv, text.replace("\n", "\r"), "\ufeff" + text, text.replace(" ", "\t")):
        assert command.run("sheet", "-", given=given)[:2] == (0, due), given
    found = json.loads(command.run("sheet", "-", "--json", given=text).printed)
    assert (found["kept"], found["met"], found["pairs"]) == (6000, True, [[0, 6000]]), found
    both = command.run("sheet", "-", "--both", given=text)
    assert both.status == 0 and both.printed == due + "the proved meter and the recount agree\n", both
    wall = "t,kind,id,side,price,volume\n10:00:30,add,1,buy,84.46,1000\n10:00:30,add,2,sell,84.58,1000\n"
    options = ["--row", "1 1 8:45:00 1000 150 3 60%", "--sp", "84.52", "--step", "0.01", "--start", "10:00:00"]
    assert command.run("sheet", "-", *options, given=wall).printed.startswith("kept 31470000 of 31500000\npair 30000 31470000\n")
    for wrong in (["--row", "1 1"], ["--row", "1 1", "--sp", "1"], ["--sp", "5"], ["--step", "1e-99999"], ["--step", "0"], ["--start", "9:99:99"]):
        assert command.run("sheet", "-", *wrong, given=wall).status == 2, wrong
    off = command.run("sheet", "-", *options, given=wall.replace("84.46", "84.465"))
    assert off.status == 1 and "line 2: price: 84.465 is between two steps of 0.01" in off.complaint, off


def test_refused():
    """A refusal is status 1 with its sentence, the record and the line."""
    text = (EXAMPLES / "document01.session").read_text().replace("add 0 2 sell", "add 0 1 sell")
    done = command.run("sheet", "-", given=text)
    assert (done.status, done.printed) == (1, ""), done
    assert done.complaint == "quoting: standard input: line 7: refused 10 at 2: an order with this id is live\n", done.complaint
    calls = command.run("calls", EXAMPLES / "month.calls", "--both")
    assert calls.status == 1 and "refused 4: the cell is filled already" in calls.printed, calls.complaint
    assert calls.printed.endswith("the proved meter and the recount agree\n")
    stopped = command.run("calls", "-", given="report\nwords 99 1\n")
    assert stopped.status == 1 and stopped.printed.endswith("stopped at word 2\n"), stopped
    for name in ("fix", "ask", "strike", "month"):
        lines = command.run("calls", EXAMPLES / f"{name}.calls", "--lines").printed
        assert name != "fix" or lines == (EXAMPLES / "fix.answers").read_text()
        assert len(json.loads(command.run("calls", EXAMPLES / f"{name}.calls", "--json").printed)["calls"]) == len(lines.splitlines())


def test_outlook():
    """A quantum of ten seconds, quoted from its start: after two of them four more are due, and the maker may wait until 0:00:06."""
    text = "row 1 1 0:00:10 500 100 1 60%\nsp 2000\nadd 0 1 buy 99 500\nadd 0 2 sell 101 500\n"
    done = command.run("outlook", "-", "--at", "2000", "--json", given=text)
    assert done.status == 0 and json.loads(done.printed) == {
        "need": 4_000, "left": 8_000, "by": 6_000, "full": 6_000, "lapses": None, "rest": False, "lost": False,
        "weight_resting": 0, "weight_keeping": 20_000}, done
    shown = command.run("outlook", "-", "--at", "10:00:02", "--start", "10:00:00", "--lapses", "0", given=text)
    assert "nothing need be kept until 10:00:02; lapses left 0; the maker may not stop quoting yet" in shown.printed, shown
    refused = command.run("outlook", "-", given=text + "cancel 5 9\n")
    assert refused.status == 1 and "line 5: refused 11 at 3: " in refused.complaint, refused


def test_account():
    """The account of document 01's session: kept until its buy is gone."""
    text = (EXAMPLES / "document01.session").read_text()
    done = command.run("account", "-", "--both", given=text)
    totals = "total kept 6000\ntotal no-bid 4000\ntotal no-ask 0\ntotal neither 0\ntotal crossed 0\ntotal wide 0\n"
    assert done.printed == f"from 0 for 6000 kept\nfrom 6000 for 4000 no-bid\n{totals}the proved meter and the recount agree\n", done
    assert json.loads(command.run("account", "-", "--json", given=text).printed)["totals"]["no-bid"] == 4_000


def test_old_months():
    """A list of before W6 turns into one of today, as a text and as bytes."""
    old = "open row 1 1 8:45:00 1000 150 3 60 day 1 sp 8452\nreport\n"
    new = "open row 1 1 31500000 1000 150 3 60% day 1 sp 8452 lapses none\nreport\n"
    assert command.run("text", "-", "--old-months", given=old)[:2] == (0, new)
    as_bytes = texts.calls_bytes(old.replace(" 60 ", " 60 tenths "))
    assert command.run("text", "-", "--old-months", given=as_bytes)[:2] == (0, new)
    assert command.run("text", "-", given=as_bytes).printed == new.replace("60%", "6%")
    session = texts.session_bytes("row 1 1 10000 500 100 1 60 tenths\nsp 1\ntick 5")
    assert "row 1 1 10000 500 100 1 60%\n" in command.run("text", "-", "--old-months", given=session).printed
    assert command.run("text", "-", given=old).status == 1


def test_fix_log():
    """A log in its forms gives the same session, and the month accepts it."""
    times = ["20261116-10:00:05.000", "20261116-10:00:05.000", "20261116-10:20:00.000", "20261116-12:00:00.000"]
    orders = [fix.Order("D", 1, 0, "buy", 1000, 8446, times[0]), fix.Order("D", 2, 0, "sell", 1000, 8458, times[1]),
              fix.Order("G", 3, 1, "buy", 1000, 8447, times[2]), fix.Order("F", 4, 2, time=times[3])]
    raw = [fix.write(order) for order in orders]
    barred = [data.replace(b"\1", b"|") for data in raw]
    due = command.run("fix", "-", *START, *ROW, given=b"".join(raw))
    assert due.status == 0 and due.printed.splitlines()[2:] == [
        "add 5000 1 buy 8446 1000", "add 5000 2 sell 8458 1000", "cancel 1200000 1", "add 1200000 3 buy 8447 1000", "cancel 7200000 2"], due
    beat = fix.framed(b"35=0\x0149=A\x01")
    for log in (b"\n".join(raw), b"\r\n".join(barred), b"".join(barred), b"".join(b"10:00:01 < " + data[:-1] + b"\n" for data in barred), beat + b"\n" + b"".join(raw)):
        assert command.run("fix", "-", *START, *ROW, given=log)[:2] == (0, due.printed), log
    calls = command.run("fix", "-", *START, *ROW, "--day", "16", "--close", "1", "2", given=b"\n".join(barred)).printed
    assert command.run("calls", "-", given=calls).status == 0, calls
    wrong = b"\n".join([barred[0], barred[1].replace(b"8458", b"8459"), fix.write(fix.Order("G", 9, 1, "sell", 1, 1, times[3]))])
    done = command.run("fix", "-", *START, *ROW, given=wrong)
    assert done.status == 1 and "line 2: refused 20: " in done.complaint and "line 3: refused 21: the order 41=1 is of the other side" in done.complaint, done


# ---------------------------------------------------------------- odd streams and files


@pytest.mark.parametrize(("line", "said"), [
    ("quoting sheet - <&-", "standard input is closed"),
    ("quoting sheet brent.session >&-", "standard output is closed"),
    ("quoting sheet brent.session >/dev/full", "No space left on device"),
    ("quoting calls month.calls >/dev/full", "No space left on device"),
    ("quoting sheet brent.session -o /dev/full", "No space left on device"),
    ("quoting sheet brent.session -o no/such/folder/x", "No such file or directory"),
    ("quoting sheet .", ".: Is a directory"),
    ("quoting sheet no-such.session", "no-such.session: No such file or directory"),
])
def test_streams(line, said):
    """Closed streams and a full device: a sentence and a status, no traceback."""
    done = shell(line)
    assert done[0] == 1 and said in done[2], done


def test_reader_that_goes():
    status, _, said = shell("quoting card | (exec 0<&-; sleep 1); exit ${PIPESTATUS[0]}")
    assert (status, said) == (1, "quoting: standard output: the reader has gone\n"), (status, said)
    status, _, _ = shell("quoting sheet brent.session 2>&- >/dev/full")
    assert status == 1


def test_letters(tmp_path):
    """A Cyrillic name on an ASCII terminal."""
    path = tmp_path / "сессия.session"
    path.write_text((EXAMPLES / "document01.session").read_text() + "# конец\n")
    ascii_only = {**os.environ, "LC_ALL": "C", "PYTHONIOENCODING": "ascii", "PYTHONUTF8": "0", "PYTHONCOERCECLOCALE": "0"}
    for line in (f"quoting picture {path}", f"quoting picture {path} -o {tmp_path}/x.svg", f"quoting sheet {path}", f"quoting board 1 1 {path}"):
        status, printed, said = shell(line, env=ascii_only)
        assert status == ("board" in line), line
        assert ("\\u0441" in printed + said) == (line in (f"quoting picture {path}", f"quoting board 1 1 {path}")), (line, said)


def wait_for_read(child):
    """Until the child waits for its standard input: it is in the system call read (0), of file 0. Where that is not known, some seconds."""
    ends, where = time.monotonic() + 60, Path(f"/proc/{child.pid}/syscall")
    try:
        while not where.read_text().startswith("0 0x0 "):
            assert child.poll() is None and time.monotonic() < ends, "it never waited for input"
            time.sleep(0.05)
    except OSError:
        time.sleep(5)


def test_interrupt():
    """Ctrl-C while it waits for input."""
    pipes = {"stdin": subprocess.PIPE, "stdout": subprocess.PIPE, "stderr": subprocess.PIPE}
    waiting = subprocess.Popen([QUOTING, "sheet", "-"], preexec_fn=command.restore_sigint, **pipes)
    wait_for_read(waiting)
    waiting.send_signal(signal.SIGINT)
    _, said = waiting.communicate(timeout=10)
    assert (waiting.returncode, said) == (130, b"quoting: stopped\n"), (waiting.returncode, said)


def test_files(tmp_path):
    """-o leaves the old file where something is wrong, and nothing beside it."""
    path = tmp_path / "out"
    path.write_text("old")
    assert command.run("sheet", "-", "-o", path, given="row 1").status == 1
    assert path.read_text() == "old" and os.listdir(tmp_path) == ["out"]
    assert command.run("bytes", EXAMPLES / "brent.session", "-o", path).status == 0
    assert path.read_bytes() == texts.session_bytes((EXAMPLES / "brent.session").read_text()) and os.listdir(tmp_path) == ["out"]


# ---------------------------------------------------------------- damaged files

# What reads a file, and a good one.
READERS = [
    (["sheet", "-"], "brent.session"), (["picture", "-"], "gold-mini.session"), (["calls", "-"], "ask.calls"), (["bytes", "-"], "month.calls"),
    (["text", "-"], "strike.calls"), (["board", "55", "60", "-"], "strikes.board"), (["standing", "-"], "makers.standing"),
    (["volatile", "15000", "-"], "volatile.prices"), (["game", "8", "3", "5", "--play", "-"], "knocks.taker"),
]


def good_files():
    for words, name in READERS:
        yield words, (EXAMPLES / name).read_bytes()
    session = texts.session_bytes((EXAMPLES / "document01.session").read_text())
    yield ["sheet", "-"], session
    yield ["outlook", "-"], session
    yield ["account", "-"], session
    yield ["text", "-"], session
    yield ["calls", "-"], texts.calls_bytes((EXAMPLES / "ask.calls").read_text())
    yield ["text", "-"], texts.calls_bytes((EXAMPLES / "fix.calls").read_text())
    yield ["sheet", "-", *ROW], b"t,kind,id,side,price,volume\n0,add,1,buy,99,500\n5,cancel,1,,,\n"
    yield ["fix", "-", *START, *ROW], b"\n".join(re.findall(rb"8=FIX.*?\x0110=...\x01", texts.calls_bytes((EXAMPLES / "fix.calls").read_text()), re.S))


NOISE = [b"\0", b"\xff", b"#", b"\r", b"\n", b"\t", b"%", b"-", b"_", b":", b".", b",", b"9" * 5_000, b"\xe2\x80\xa8", b"\x0c", b"1e9", b"0x1", b"=", b"\1", b"\\x", b'"']


def damaged(rng, data):
    """Cut, doubled, a piece left out, a byte changed, noise put in."""
    at, to = sorted((rng.randrange(len(data) + 1), rng.randrange(len(data) + 1)))
    return rng.choice([
        lambda: data[:at], lambda: data[at:], lambda: data + data, lambda: data[:at] + data[at:to] * 2 + data[to:], lambda: data[:at] + data[to:],
        lambda: data[:at] + bytes([rng.randrange(256)]) + data[at + 1 :], lambda: data[:at] + rng.choice(NOISE) + data[at:],
        lambda: data[:at] + rng.choice(NOISE) + data[to:],
    ])()


DAMAGED = 60  # of each good file


def test_damaged(note):
    """Whatever the file: a status, and with 1 or 2 a sentence that names the file or the refusal."""
    rng, statuses = random.Random(1), {0: 0, 1: 0, 2: 0}
    for words, data in good_files():
        for _ in range(DAMAGED):
            given = damaged(rng, data)
            done = command.run(*words, given=given)
            said = done.printed + done.complaint
            assert done.status in statuses and "Traceback" not in said, (words, given, done)
            assert done.status == 0 or re.search(r"refused \d+|standard input|quoting: -: |stopped at word|no message", said), (words, given, done)
            statuses[done.status] += 1
    assert statuses[0] > DAMAGED and statuses[1] > DAMAGED, statuses
    note(f"commands: {sum(statuses.values())} damaged files ended in a sentence")
