"""The readers of sessions and lists: what is ambiguous, cut short, too long or damaged is refused with a sentence.

Each test is named after what it shows. The last ones give damaged files to all readers.
"""

import json
import os
import random
import re
import subprocess
import time
from pathlib import Path
from typing import Any, Iterator

import pytest

import quoting
from quoting import inputs, reading, texts
from quoting.events import SIZE, event_of, split
from quoting.rows import HEAD
from tests import command
from tests.paths import EXAMPLES, QUOTING

pytestmark = pytest.mark.usefixtures("library")

ROW, OTHER = "1 1 0:00:10 500 100 1 60%", "1 1 0:00:10 500 100 1 70%"
GIVEN = ["--row", ROW, "--sp", "2000"]
EVENTS = ["0 1 buy 99 500", "0 2 sell 101 500"]
TEXT = f"row {ROW}\nsp 2000\n" + "".join(f"add {each}\n" for each in EVENTS) + "cancel 6000 1\n"
TABLE = "t,kind,id,side,price,volume\n0,add,1,buy,99,500\n0,add,2,sell,101,500\n6000,cancel,1,,,\n"
CSV = f"row,{ROW.replace(' ', ',')}\nsp,2000\n{TABLE}"
SHEET = "kept 6000 of 10000\npair 0 6000\nverdict met\nweight 10000\n"
SESSION_COMMANDS = ("sheet", "account", "outlook", "picture", "bytes", "text")


def refused(*words: Any, given: Any = "", status: int = 1) -> str:
    """What a command says that prints nothing and ends with this status."""
    done = command.run(*words, given=given)
    assert (done.status, done.printed) == (status, "") and "Traceback" not in done.complaint, done
    return str(done.complaint)


# ---------------------------------------------------------------- the row that is given, and the file's own


@pytest.mark.parametrize("given", [TEXT, CSV, texts.session_bytes(TEXT)], ids=["text", "csv", "bytes"])
@pytest.mark.parametrize("name", SESSION_COMMANDS)
def test_another_row_than_the_files_is_refused_with_both(name: str, given: Any) -> None:
    how = ["--as", "session", "--format", "bytes"] if name == "bytes" and isinstance(given, bytes) else []
    said = refused(name, "-", *how, "--row", OTHER, "--sp", "2000", given=given)
    assert "the file's row is 1 1 10000 500 100 1 60%, but the row given with it is 1 1 10000 500 100 1 70%" in said, said
    said = refused(name, "-", *how, "--row", ROW, "--sp", "-2001", given=given)
    assert "the file's sp is 2000, but the sp given with it is -2001" in said, said


@pytest.mark.parametrize("given", [TEXT, CSV, texts.session_bytes(TEXT)], ids=["text", "csv", "bytes"])
def test_the_same_row_twice_is_fine(given: Any) -> None:
    assert command.run("sheet", "-", *GIVEN, given=given)[:2] == (0, SHEET)


@pytest.mark.parametrize("given", [TABLE, "".join(TEXT.splitlines(keepends=True)[2:])], ids=["csv", "text"])
def test_a_file_without_a_row_has_the_given_one(given: str) -> None:
    how = [] if "," in given else ["--as", "session"]
    assert command.run("sheet", "-", *GIVEN, given=given)[:2] == (0, SHEET)
    assert command.run("bytes", "-", *how, *GIVEN, "-o", "-", given=given).status == 0
    assert "there is no row" in refused("sheet", "-", given=given) or "," not in given


@pytest.mark.parametrize("line", [f"row {ROW}", f"row {OTHER}", "sp 2000", "sp 1"])
def test_a_second_row_or_sp_is_refused(line: str) -> None:
    what = line.split()[0]
    in_text, in_csv = TEXT.replace("sp 2000\n", f"sp 2000\n{line}\n"), CSV.replace("sp,2000\n", f"sp,2000\n{line.replace(' ', ',')}\n")
    for given in (in_text, in_csv):
        assert f"standard input: line 3: this is a second {what}: a session has one" in refused("sheet", "-", given=given)
    assert refused("sheet", "-", given=TEXT + f"{line}\n") and refused("sheet", "-", given=CSV + f"{line.replace(' ', ',')}\n")


def test_a_csv_text_in_python_has_the_rules_row_or_none() -> None:
    row = quoting.Row(1, 1, 10_000, 500, 100, 1, "60%")
    for call in (quoting.session, quoting.account):
        assert call(quoting.Rule(row, 2000), CSV) == call(quoting.Rule(row, 2000), TABLE) or call is quoting.session
        with pytest.raises(reading.TextError, match="the file's sp is 2000, but the sp given with it is 1999"):
            call(quoting.Rule(row, 1999), CSV)


def test_a_row_for_a_list_of_calls_is_refused() -> None:
    for name in ("bytes", "text"):
        assert "this is a list of calls" in refused(name, "-", *GIVEN, given="report\n", status=2)


def test_bytes_of_a_whole_session_take_no_row() -> None:
    given = f"bytes {texts.session_bytes(TEXT).hex(' ')}\n"
    assert command.run("sheet", "-", given=given)[:2] == (0, SHEET)
    assert "line 1: bytes without a row before them are a whole session" in refused("sheet", "-", *GIVEN, given=given)


# ---------------------------------------------------------------- a last line without a line end

LISTS = {
    "sheet": (["sheet", "-"], TEXT), "csv": (["sheet", "-"], CSV), "account": (["account", "-"], TEXT), "outlook": (["outlook", "-"], TEXT),
    "picture": (["picture", "-"], TEXT), "bytes": (["bytes", "-"], TEXT), "text": (["text", "-"], TEXT),
    "calls": (["calls", "-"], f"open row {ROW} day 1 sp 2000\nreport\n"), "bytes of calls": (["bytes", "-"], "report\ncancel 3000 11\n"),
    "text of calls": (["text", "-"], "report\ncancel 3000 11\n"), "statement": (["statement", "-"], f"open row {ROW} day 1 sp 2000\nclose 10 20\n"),
    "board": (["board", "55", "60", "-"], (EXAMPLES / "strikes.board").read_text()),
    "standing": (["standing", "-"], "join 1 500\njoin 2 600\n"), "volatile": (["volatile", "15000", "-"], "20000\n20100\n20200\n20300\n20400\n"),
}


@pytest.mark.parametrize("name", LISTS)
def test_a_last_line_without_a_line_end_is_refused_unless_complete(name: str) -> None:
    words, text = LISTS[name]
    due = command.run(*words, given=text)
    assert due.status == 0 and due.printed, due
    last = len(text.splitlines())
    said = refused(*words, given=text.rstrip("\n"))
    assert f"standard input: line {last}: " in said and "has no line end, so the file may be cut short here" in said, said
    assert command.run(*words, "--complete", given=text.rstrip("\n")) == due
    for end in ("\r", "\r\n", "\n  ", "\n# the end", "\n\n"):
        assert command.run(*words, given=text.rstrip("\n") + end)[:2] == due[:2], end


def test_a_cancel_that_is_cut_to_another_id_is_refused(tmp_path: Path) -> None:
    """`cancel 3000 11` cut to `cancel 3000 1`, as a file and through a pipe."""
    text = TEXT.replace("cancel 6000 1\n", "") + "add 0 11 buy 98 500\ncancel 3000 11\n"
    file = tmp_path / "cut.session"
    for size, status in ((len(text), 0), (len(text) - 1, 1), (len(text) - 2, 1)):
        file.write_text(text[:size])
        piped = subprocess.run(f"head -c {size} {file} | {QUOTING} sheet -", shell=True, capture_output=True, text=True, timeout=60)
        assert (command.run("sheet", file).status, piped.returncode) == (status, status), (size, piped)


def test_settle_and_a_folder_of_sessions_refuse_a_cut_session(tmp_path: Path) -> None:
    for name, text in (("1-1-1.session", TEXT), ("2-1-1.session", TEXT.rstrip("\n")), ("3-1-1.csv", CSV.rstrip("\n"))):
        (tmp_path / name).write_text(text)
    assert command.run("settle", tmp_path).printed.count("unreadable") == 2
    assert command.run("settle", tmp_path, "--complete").printed.count("unreadable") == 0
    (tmp_path / "charges.csv").write_text("day,expiry,quantum,active,passive\n1,1,1,10,20\n2,1,1,10,20\n3,1,1,10,20")
    assert "charges.csv: line 4: '3,1,1,10,20' has no line end" in refused("statement", "--sessions", tmp_path)
    assert command.run("statement", "--sessions", tmp_path, "--complete").status == 0


def test_settle_refuses_a_list_that_is_cut(tmp_path: Path) -> None:
    """A list of 1 and 11 that is cut would settle 1 twice."""
    for name in ("1", "11"):
        (tmp_path / name).write_text(TEXT)
    listed = tmp_path / "list"
    listed.write_text("1\n1")
    assert "list: line 2: '1' has no line end, so the file may be cut short here" in refused("settle", listed)
    assert command.run("settle", listed, "--complete").status == 0


def test_a_text_in_python_is_whole() -> None:
    """A text that a program gives is no file that could be cut."""
    assert texts.session_bytes(TEXT.rstrip("\n")) == texts.session_bytes(TEXT)
    assert quoting.session(quoting.Rule(quoting.Row(1, 1, 10_000, 500, 100, 1, "60%"), 2000), TABLE.rstrip("\n")).kept == 6_000


# ---------------------------------------------------------------- time


def test_a_refused_csv_is_split_a_fixed_number_of_times(monkeypatch: pytest.MonkeyPatch) -> None:
    counts: list[int] = []
    split = reading.LINE_END.split
    monkeypatch.setattr(reading, "split_lines", lambda text: counts.append(len(text)) or split(text))
    sizes = []
    for rows in (50, 100):
        counts.clear()
        given = CSV + "".join(f"{6000 + at},tick,,,,\n" for at in range(rows)) + "9000,cancel,7,,,\n"
        assert f"line {7 + rows}: refused 11 at {4 + rows}: " in command.run("sheet", "-", given=given).complaint
        sizes.append(len(counts))
    assert sizes[0] == sizes[1] <= 4, sizes


def test_a_refused_csv_of_30000_rows_takes_seconds() -> None:
    given = CSV + "7000,tick,,,,\n" * 30_000 + "7000,cancel,7,,,\n"
    begun = time.monotonic()
    assert "line 30007: refused 11 at 30004: " in command.run("sheet", "-", given=given).complaint
    assert time.monotonic() - begun < 20


def test_the_line_of_a_record_counts_its_bytes() -> None:
    """A line `bytes` may have several records, or parts of one, and the leading bytes too."""
    ticks = texts.session_bytes(TEXT + "tick 7000\ntick 7000\n")[-2 * SIZE :].hex()
    for lines, place, line in (
        ([f"bytes {ticks}", "cancel 7000 7"], 6, 7), ([f"bytes {ticks[:50]}", f"bytes {ticks[50:]}", "cancel 7000 7"], 6, 8),
    ):
        said = refused("sheet", "-", given=TEXT + "".join(f"{each}\n" for each in lines))
        assert f"line {line}: refused 11 at {place}: " in said, said
    whole = texts.session_bytes(TEXT + "cancel 7000 7\n").hex()
    for cut in (2, 40, 64, 100):
        given = "".join(f"bytes {part}\n" for part in (whole[:cut], whole[cut : HEAD.size * 2 + SIZE * 6], whole[HEAD.size * 2 + SIZE * 6 :]))
        assert "line 3: refused 11 at 4: " in refused("sheet", "-", given=given), cut


@pytest.mark.parametrize("name", ["sheet", "account", "outlook", "picture"])
@pytest.mark.parametrize("given", [TEXT + "cancel 7000 7\n", CSV + "7000,cancel,7,,,\n"], ids=["text", "csv"])
def test_a_refusal_has_file_and_line(name: str, given: str) -> None:
    line = len(given.splitlines())
    assert f"quoting: standard input: line {line}: refused 11 at 4: no order with this id is live\n" == refused(name, "-", given=given)


# ---------------------------------------------------------------- writing


def shell(line: str, folder: Path) -> subprocess.CompletedProcess[str]:
    done = subprocess.run(["bash", "-c", line], cwd=folder, capture_output=True, text=True, timeout=60, env={**os.environ, "Q": str(QUOTING)})
    assert "Traceback" not in done.stderr, done
    return done


@pytest.mark.parametrize(("line", "said"), [
    ("ulimit -f 1; $Q picture s.session -o p.svg", "quoting: p.svg: File too large\n"),
    ("ulimit -f 1; PYTHONUNBUFFERED= $Q picture s.session > p.svg", "quoting: standard output: File too large\n"),
    ("ulimit -f 1; PYTHONUNBUFFERED=1 $Q picture s.session > p.svg", "quoting: standard output: File too large\n"),
    ("ulimit -f 1; PYTHONUNBUFFERED=1 $Q bytes long.calls > p.bin", "quoting: standard output: File too large\n"),
    ("$Q sheet s.session -o /dev/full", "quoting: /dev/full: No space left on device\n"),
    ("$Q sheet s.session > /dev/full", "quoting: standard output: No space left on device\n"),
    ("$Q sheet s.session -o none/p.txt", "quoting: none/p.txt: No such file or directory\n"),
    ("mkdir d; $Q sheet s.session -o d", "quoting: d: Is a directory\n"),
    ("mkdir d; $Q sheet d", "quoting: d: Is a directory\n"),
    ("mkfifo f; (exec 3<f; sleep 0.2) & $Q bytes long.calls -o f", "quoting: f: the reader has gone\n"),
    ("$Q sheet /proc/self/mem", "quoting: /proc/self/mem: Input/output error\n"),
])
def test_a_failed_write_or_read_names_its_file(tmp_path: Path, line: str, said: str) -> None:
    (tmp_path / "s.session").write_text(TEXT)
    (tmp_path / "long.calls").write_text("report\n" * 50_000)  # more than a pipe holds
    done = shell(line, tmp_path)
    assert done.returncode == 1 and done.stderr.endswith(said), done
    assert not list(tmp_path.glob(".*.part"))


def test_a_file_that_is_replaced_keeps_its_mode_and_a_link_its_target(tmp_path: Path) -> None:
    real, link = tmp_path / "real.txt", tmp_path / "link.txt"
    real.write_text("old")
    real.chmod(0o640)
    link.symlink_to("real.txt")
    assert command.run("sheet", "-", "-o", link, given=TEXT).status == 0
    assert (link.is_symlink(), real.read_text(), real.stat().st_mode & 0o777) == (True, SHEET, 0o640)
    longest = tmp_path / ("n" * 255)
    assert command.run("sheet", "-", "-o", longest, given=TEXT).status == 0 and longest.read_text() == SHEET
    assert sorted(each.name for each in tmp_path.iterdir()) == sorted(["real.txt", "link.txt", longest.name])


# ---------------------------------------------------------------- encodings, numbers, names


@pytest.mark.parametrize("coding", ["utf-16", "utf-16-le", "utf-16-be"])
@pytest.mark.parametrize("name", LISTS)
def test_utf16_is_named(name: str, coding: str) -> None:
    words, text = LISTS[name]
    data = text.encode(coding) if coding != "utf-16" else b"\xff\xfe" + text.encode("utf-16-le")
    assert "standard input: this text is UTF-16: save it as UTF-8" in refused(*words, given=data)


@pytest.mark.parametrize("name", LISTS)
def test_a_byte_0_in_a_text_is_named_with_its_line(name: str) -> None:
    words, text = LISTS[name]
    lines = text.splitlines(keepends=True)
    lines[-1] = lines[-1].replace("\n", "\0\n")
    assert f"standard input: line {len(lines)}: this line has a byte 0, and no text has one" in refused(*words, given="".join(lines))


def test_bytes_are_still_bytes() -> None:
    """Bytes begin with a small word; what begins otherwise is taken for bytes where --format says so."""
    data = texts.session_bytes(TEXT)
    assert command.run("sheet", "-", given=data)[:2] == (0, SHEET)
    odd = b"\x01\x02\x03\x04" + data[4:]
    assert "refused 2: a word of the row is outside its range" in refused("sheet", "-", "--format", "bytes", given=odd)
    assert inputs.format_of("x.csv", data) == "bytes" and inputs.format_of("x", b"") == "text"


@pytest.mark.parametrize("words", [
    ["watch", "--calls", "x", "--port", "0000099999999"], ["watch", "--calls", "x", "--port", "65536"], ["watch", "--calls", "x", "--port", "9" * 5_000],
    ["settle", "x", "--threads", "0000199999999"], ["settle", "x", "--threads", "0"], ["picture", "x", "--lapses", "0001001"],
    ["outlook", "x", "--lapses", "9" * 5_000], ["refusal", "27"], ["refusal", "9" * 5_000], ["refusal", "x"], ["watch", "--calls", "x", "--port", "٣"],
])
def test_a_number_out_of_range_is_refused_with_the_range(words: list[str]) -> None:
    said = refused(*words, status=2)
    assert re.search(r"error: argument .*: ('.*' is not a number|.* is out of range, it can be \d+ to \d+)\n$", said), said
    assert len(said) < 2_000


@pytest.mark.parametrize("name", ["sheet", "account", "outlook", "picture", "calls", "bytes", "text", "settle"])
def test_a_file_name_that_is_not_utf8_is_escaped(tmp_path: Path, name: str) -> None:
    folder = os.fsencode(tmp_path)
    text = "report\n" if name == "calls" else TEXT
    for file, written, status in ((b"good\xff.session", text, 0), (b"bad\xff.session", f"row {ROW}\nnonsense\n", 1), (b"no\xff", None, 1)):
        path = os.path.join(folder, file)
        if written is not None:
            Path(os.fsdecode(path)).write_text(written)
        given = [path] if name != "settle" else [b"-"]
        done = subprocess.run([os.fsencode(QUOTING), name.encode(), *given], input=path + b"\n", capture_output=True, timeout=60)
        assert b"Traceback" not in done.stderr, done
        if name != "settle":
            assert done.returncode == status and (status == 0 or rb"\xff" in done.stderr), done


# ---------------------------------------------------------------- messages


@pytest.mark.parametrize(("given", "said"), [
    (CSV + "7000,cancel,1,,5,\n", "line 7: a cancel has no price, got '5'"), (CSV + "7000,amend,1,buy,5,5\n", "line 7: an amend has no side, got 'buy'"),
    (CSV + "7000,cancel,1,,\n", "line 7: there are 6 columns, got 5 fields"), (CSV.replace("kind", "type"), "line 3: the columns are t,kind,id,side,price,volume, in any order, got t,type,"),
    (TEXT + "cancel 1 2 3\n", "line 6: cancel takes t id, got 3 words: '1 2 3'"), (TEXT + "tick\n", "line 6: tick takes t, got no word"),
])
def test_messages_say_what_was_expected_and_what_came(given: str, said: str) -> None:
    assert f"standard input: {said}" in refused("sheet", "-", given=given)


# ---------------------------------------------------------------- damaged files

NOISE = [b"\0", b"\xff", b"#", b"\r", b"\n", b"\t", b" ", b"%", b"-", b"_", b",", b"9" * 5_000, b"\xe2\x80\xa8", b"row", b"sp 1\n", b"\xff\xfe", b'"', b"bytes 00"]
RUNS = 250  # of each good file


def damaged(rng: random.Random, data: bytes) -> bytes:
    at, to = sorted((rng.randrange(len(data) + 1), rng.randrange(len(data) + 1)))
    return rng.choice([
        data[:at], data[:at], data[at:], data + data, data[:at] + data[to:], data[:at] + bytes([rng.randrange(256)]) + data[at + 1 :],
        data[:at] + rng.choice(NOISE) + data[at:], data.decode("latin-1").encode("utf-16"),
    ])


def events_in(data: bytes) -> int:
    """How many events a text or a CSV has, by a reading of its own: lines that begin with an event's name, or have one as a field."""
    lines = re.split(r"\r\n|\r|\n", data.decode("utf-8-sig"))
    words = [re.split(r"[ \t,]+", line.split("#")[0].strip(" \t")) for line in lines]
    kinds = ("add", "amend", "cancel", "deal", "tick")
    return sum(each[0] in kinds or len(each) > 1 and each[1].strip('"') in kinds for each in words)


def good_files() -> Iterator[tuple[str, list[str], bytes]]:
    yield "text", ["sheet", "-"], TEXT.encode()
    yield "text", ["sheet", "-", *GIVEN], TEXT.encode()
    yield "csv", ["sheet", "-"], CSV.encode()
    yield "csv", ["sheet", "-", *GIVEN], TABLE.encode()
    yield "bytes", ["sheet", "-"], texts.session_bytes(TEXT)
    yield "text", ["account", "-"], (EXAMPLES / "document01.session").read_bytes()
    yield "text", ["outlook", "-"], TEXT.encode()
    yield "text", ["picture", "-"], TEXT.encode()


def test_damaged_sessions_end_in_a_sentence_and_lose_no_event(note: Any) -> None:
    """No traceback, no output with a status that is not 0, and with status 0 every event of the file is in what was run."""
    rng, accepted, said = random.Random(40), 0, set()
    for form, words, good in good_files():
        for _ in range(RUNS):
            data = damaged(rng, good)
            done = command.run(*words, given=data)
            assert done.status in (0, 1, 2) and "Traceback" not in done.complaint, (words, data, done)
            assert bool(done.printed) == (done.status == 0), (words, data, done)
            if done.status:
                said.add(re.sub(r"[0-9]+|'.*'", "N", done.complaint)[:60])
                continue
            accepted += 1
            session = inputs.session_of("-", data, head=inputs.head_of(namespace(words)))
            records = (len(session.data) - HEAD.size) / SIZE
            lines = re.split(rb"\r\n|\r|\n", data)
            assert session.form == "bytes" or not reading.words_of(lines[-1].decode()), (words, data)
            assert records == (len(data) - HEAD.size) / SIZE if session.form == "bytes" else records >= events_in(data), (words, data)
    assert accepted > 100 and len(said) > 20, (accepted, said)
    note(f"readers: {8 * RUNS} damaged sessions, {accepted} read in full, {len(said)} sentences")


def namespace(words: list[str]) -> Any:
    from quoting.cli import parser

    return parser().parse_args(words)


@pytest.mark.parametrize("name", ["ask", "fix", "month", "strike"])
def test_damaged_lists_answer_every_call_or_say_where_they_stop(name: str) -> None:
    """A text is read in full or refused; bytes end with `stopped at word` where a call is cut."""
    rng, text = random.Random(name), (EXAMPLES / f"{name}.calls").read_bytes()
    as_bytes = texts.calls_bytes(text.decode())
    for good in (text, as_bytes):
        for _ in range(60):
            data = damaged(rng, good)
            done = command.run("calls", "-", "--json", given=data)
            assert done.status in (0, 1) and "Traceback" not in done.complaint, (data, done)
            if not done.printed:
                assert done.status == 1 and "standard input: " in done.complaint, (data, done)
                continue
            found = json.loads(done.printed)
            if good is text and not reading.holds_bytes(data):
                count = sum(len(words) > 0 for words in map(reading.words_of, reading.split_lines(data.decode("utf-8-sig"))))
                assert len(found["calls"]) == count or found["stopped_at_word"] is not None, (data, done)
                assert not reading.words_of(reading.split_lines(data.decode("utf-8-sig"))[-1]), data
            else:
                written = sum(len(texts.calls_bytes(each["call"])) for each in found["calls"])
                assert written == len(data) or (found["stopped_at_word"], done.status) == (written // 4 + 1, 1), (data, done)


# ---------------------------------------------------------------- events, for a month

RULE_LINES = "row 1 1 10000 500 100 1 60%\nsp 2000\n"
SESSION_FILES = {
    "a.session": RULE_LINES + "add 0 1 buy 99 500\namend 5 1 98 400\ncancel 7 1\ntick 9\n",
    "b.csv": "row,1,1,10000,500,100,1,60%\nsp,2000\nvolume,price,side,id,kind,t\n500,99,buy,1,add,0\n\n400,98,,1,amend,5\n100,,,1,deal,6\n",
    "c.session": RULE_LINES + "add 0 1 buy 99 500\nbytes 06 00 00 00 05 00 00 00 00 00\nbytes 00 00 00 00 00 00 00 00 00 00\n",
    "d.session": RULE_LINES + "tick 1\nbytes 07\n",
}


@pytest.mark.parametrize("name", SESSION_FILES)
def test_events_of_a_text_are_those_of_its_bytes(name: str) -> None:
    """Read without encoding them, the events are those of the records; and the same of the records alone."""
    text = SESSION_FILES[name].encode()
    data = inputs.session_of(name, text).data
    due = data[: HEAD.size], [event_of(each) for each in split(data[HEAD.size :])]
    for given, content in ((name, text), ("e.bin", data)):
        head, found = inputs.events_of(given, content)
        assert (head, list(found)) == due and len(due[1]) > 1, (given, found)
    assert (None in due[1]) == (name == "d.session")


@pytest.mark.parametrize(("name", "text", "line"), [("a.session", RULE_LINES + "tick 1\ntick x\n", 4), ("b.csv", "t,kind,id,side,price,volume\n1,tick\n", 2)])
def test_events_of_a_wrong_text_name_file_and_line(name: str, text: str, line: int) -> None:
    with pytest.raises(reading.TextError) as error:
        inputs.events_of(name, text.encode())
    assert (error.value.file, error.value.line) == (name, line)
