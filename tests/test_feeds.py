"""What `quoting watch` reads: growing lists of calls, logs with a list of opens and closes, feeds that are played, and clocks."""

import os
import random
import signal
import subprocess
import sys
import time
from datetime import datetime, timedelta
from pathlib import Path

import pytest

from quoting import calls as c
from quoting import exchange, fix, inputs, month_sources, reading
from quoting.events import Tick
from quoting.exchange.choice import LogOptions
from quoting.formats import call_text
from quoting.reading import PLAIN, Options, TextError
from quoting.month_sources import Sent
from quoting.watch import feeds, lists, logged
from quoting.watch.clocks import FeedClock, WallClock
from quoting.watch.feeds import Again, CallsFeed, Changed, Trouble
from quoting.watch.logged import LogFeed
from quoting.watch.playing import Playing
from tests import command
from tests.paths import EXAMPLES, PROGRAMMES, ROOT

pytestmark = pytest.mark.usefixtures("library")

ROW = "row 1 1 0:00:10 500 100 1 60%"
OPEN = f"open {ROW} day 1 sp 2000"


# ---------------------------------------------------------------- helpers


def append(path, data):
    with open(path, "ab") as file:
        file.write(data.encode() if isinstance(data, str) else data)


def drained(feed):
    """All that a feed gives now."""
    found = []
    while True:
        if isinstance(feed, LogFeed):
            feed.looked_at = 0.0  # on a busy machine a look may be put off
        items = feed.read()
        found += items
        if not items and not feed.behind:
            return found


def shown(items):
    """Places of calls, and of troubles with their texts; not what was read of a log."""
    return [item.place if isinstance(item, Sent) else (item.place, item.text) for item in items if isinstance(item, Sent) or item.logged is None]


class Steps:
    """A file that is read while it grows."""

    def __init__(self, folder, name="feed", data=b""):
        self.path = Path(folder) / name
        self.path.write_bytes(data)

    def feed(self, follow=True, options=PLAIN):
        return CallsFeed(str(self.path), options, follow)


# ---------------------------------------------------------------- lists of calls


def test_finished_lists(tmp_path):
    """A finished file, text or bytes, gives the statement's calls; a last line without an end is read."""
    for path in sorted(EXAMPLES.glob("*.calls")):
        due = month_sources.from_list(str(path), PLAIN).calls
        feed = CallsFeed(str(path), PLAIN, False)
        assert drained(feed) == due and feed.ended == "end" and feed.count == path.stat().st_size, path
        packed = Steps(tmp_path, "packed", b"".join(sent.block for sent in due))
        feed = packed.feed(False)
        assert drained(feed) == month_sources.from_list(str(packed.path), PLAIN).calls and feed.ended == "end", path
    for data in ("tick 1\nreport", "r", "", "\n"):
        feed = Steps(tmp_path, "short", data.encode()).feed(False)
        due = {"r": ["line 1"], "tick 1\nreport": ["line 1", "line 2"]}.get(data, [])
        assert [item.place for item in drained(feed)] == due and feed.ended == "end", data


def test_byte_by_byte(tmp_path):
    """Byte by byte: each line is read as soon as its end has come, whatever the ends are, and not before."""
    text = "\ufefftick 1\r\ntick 2\rtick 3\n\r\n\r\rtick 8 # \u2028 x\r\n\n# no call\ntick 11\r"
    due = month_sources.from_list(str(Steps(tmp_path, "whole", text.encode()).path), PLAIN).calls
    assert len(due) == 5
    grown = Steps(tmp_path)
    feed, found, seen = grown.feed(), [], []
    for at, byte in enumerate(text.encode()):
        append(grown.path, bytes([byte]))
        found += feed.read()
        seen.append(len(found))
    assert found == due, (found, due)
    data = text.encode()
    for count, sent in enumerate(due, start=1):
        line = sent.place.split()[1]
        ends = [match.start() for match in feeds.LINE_END.finditer(data)]
        assert seen[ends[int(line) - 1] - 1] == count - 1 and seen[ends[int(line) - 1]] == count, (sent, seen)
    assert feed.ended is None and feed.count == len(data)


def test_any_pieces(tmp_path):
    """Any text, in any pieces, gives what all of it at once gives."""
    rng = random.Random(1)
    start = "start 20261102-10:00:00.000"
    parts = ["tick 1", "report", start, f"{start} BR", OPEN, "\xe9", "tick x", "words 12", "#", "", "\t"]
    for turn in range(60):
        text = "".join(rng.choice(parts) + rng.choice(["\n", "\r\n", "\r"]) for _ in range(rng.randrange(1, 40)))
        data = text.encode(rng.choice(["utf-8", "latin-1"])) + rng.choice([b"", b"report"])
        due = drained(Steps(tmp_path, "whole", data).feed(False))
        grown, at, found = Steps(tmp_path), 0, []
        feed = grown.feed()
        while at < len(data):
            size = rng.choice([1, 1, 2, 5, 30])
            append(grown.path, data[at : at + size])
            found += feed.read()
            at += size
        append(grown.path, b"\n")
        grown.path.rename(grown.path.with_suffix(".old"))
        grown.path.write_bytes(b"report\n")
        found += drained(feed) + drained(feed)
        assert found[:-2] == due, (text, found, due)


def test_bad_lines(tmp_path):
    """What can't be read is said with its line, and the reading goes on."""
    lines = [
        b"tick 1", b"tock 1", b"\xff\xfe", b"add 1 2 buy 3", b"words 6", b"bytes 06000000 01000000", b"words 12 12",
        b"tick 4294967296", b"bytes 0", b"close -1 2", b"tick 1\x00", b"message x \\q",
        b"open row 1 day 1 sp 1 lapses x", b"strike row 1 day 1 sp 1", b"report",
    ]
    found = drained(Steps(tmp_path, data=b"\n".join(lines)).feed(False))
    places = [item.place for item in found]
    assert places == [f"line {at}" for at in range(1, len(lines) + 1)], places
    assert [at for at, item in enumerate(found, start=1) if isinstance(item, Sent)] == [1, 6, 15], found
    said = {item.place: item.text for item in found if isinstance(item, Trouble)}
    assert said["line 2"].startswith("'tock' is not known; a line begins with one of open, strike"), said
    assert said["line 3"] == "this is not a text: it is not UTF-8"
    assert said["line 4"] == "add takes t id side price volume, got 4 words: '1 2 buy 3'"
    assert said["line 5"] == said["line 7"] == "these words are not one call"
    options = Options(start=36_000_000, step=reading.Decimal("0.01"))
    found = drained(Steps(tmp_path, data=b"add 10:00:01 1 buy 84.52 5\nadd 9:00:00 1 buy 84.52 5\n").feed(False, options))
    assert c.call_of(found[0].block).t == 1_000 and c.call_of(found[0].block).price == 8452
    assert found[1].text == "t: 9:00:00 is before the start, 10:00:00", found


def test_starts(tmp_path):
    """`start` gives the open after it its start; one that no open follows is reported, and the call is taken all the same."""
    at = "20261102-10:00:00.000"
    text = f"start {at} BR\n# x\n{OPEN}\nstart {at}\nreport\nstart\nstart {at}\nstart 20261102-11:00:00.000\n{OPEN}\n{OPEN}\nstart {at} B\n"
    found = drained(Steps(tmp_path, data=text.encode()).feed(False))
    wrong = [(f"line {line}", month_sources.PLACED_BEFORE) for line in (4, 6, 7, 11)]
    assert shown(found) == ["line 3", wrong[0], "line 5", wrong[1], wrong[2], "line 9", "line 10", wrong[3]], shown(found)
    assert [item.start for item in found if isinstance(item, Sent)] == [at, None, "20261102-11:00:00.000", None]
    strike = f"start {at}\nstrike {ROW} day 1 a 2 difference 3 days 4 b 5\n"
    assert drained(Steps(tmp_path, data=strike.encode()).feed(False))[0].start == at


def test_long_lines(tmp_path):
    """A line over a mebibyte is said once, before its end has come, and skipped to its end."""
    grown = Steps(tmp_path, data=b"tick 1\n")
    feed = grown.feed()
    assert shown(drained(feed)) == ["line 1"]
    append(grown.path, b"#" * feeds.LONGEST_LINE)
    assert not drained(feed)
    append(grown.path, b"#" * 3)
    assert shown(drained(feed)) == [("line 2", "this line has over 1,048,576 bytes and is skipped to its end")]
    append(grown.path, b"tick 5" * 400_000)
    assert not drained(feed)
    append(grown.path, b"\ntick 3\n")
    assert shown(drained(feed)) == ["line 3"]
    whole = Steps(tmp_path, data=b"#" * feeds.LONGEST_LINE + b"\n" + b"#" * (feeds.LONGEST_LINE + 1) + b"\rtick 3").feed(False)
    assert [item.place for item in drained(whole)] == ["line 2", "line 3"]


def test_blocks(tmp_path):
    """Whole blocks as they come; where there is no call nothing more is read."""
    rng = random.Random(2)
    calls = [c.Open([1, 1, 10_000, 500, 100, 1, 600], 1, 2000), c.Open([1], 1, c.Strike(1, 2, 3, 4)), c.Withdraw(1, 1, 1), Tick(5)]
    calls += [c.Report()]
    calls += [c.Message(b"20261102-10:00:00.000", b"8=FIX" * size) for size in range(4)]
    rng.shuffle(calls)
    blocks = [c.block(call) for call in calls]
    grown = Steps(tmp_path)
    feed, found, written = grown.feed(), [], b""
    for byte in b"".join(blocks):
        append(grown.path, bytes([byte]))
        written += bytes([byte])
        found += feed.read()
        assert [item.block for item in found] == c.blocks(written)[0], written
    assert [item.place for item in found] == [f"call {at}" for at in range(1, len(calls) + 1)]
    word = len(written) // 4 + 1
    for wrong in (c.pack([18]), c.pack([0]), b"\x01\x01\0\0", c.pack([1, 70_000]), c.pack([2, 1, 1, 3, 4, 5]), c.pack([16, 2**31, 2**31])):
        stopped = Steps(tmp_path, "wrong", written + wrong + c.block(c.Report()))
        for follow in (True, False):
            items = drained(stopped.feed(follow))
            assert items[:-1] == found, wrong
            text = f"stopped at word {word}: there is no call there, and nothing after it is read"
            assert items[-1] == Changed("", text, is_lost=True), (wrong, items[-1])
    feed = stopped.feed()
    drained(feed)
    append(stopped.path, c.block(c.Report()))
    assert not drained(feed), "read on after what is not a call"
    for short in (b"\x06", c.pack([6]), c.pack([1, 7, 1])):
        feed = Steps(tmp_path, "short", written + short).feed(False)
        assert shown(drained(feed))[-1] == ("", f"stopped at word {word}: {feeds.NO_CALL}") and feed.ended == "end", short
        assert drained(Steps(tmp_path, "short", written + short).feed()) == found, short


def test_items_per_read(tmp_path):
    """At most 2,000 items a read, the rest with the next; the feed has not ended before its last."""
    for data in (b"tick 1\n" * 5_000, c.block(c.Report()) * 5_000, b"tick\n" * 5_000):
        feed = Steps(tmp_path, data=data).feed(False)
        sizes = []
        while feed.ended is None:
            sizes.append(len(feed.read()))
        assert sizes == [2_000, 2_000, 1_000] and not feed.read(), sizes
    feed = Steps(tmp_path, data=b"tick 1\n" * 1_999 + b"start 20261102-10:00:00.000\nreport").feed(False)
    assert len(feed.read()) == 2_000 and feed.ended is None and shown(feed.read()) == ["line 2001"] and feed.ended == "end"


def test_bounded_read(tmp_path):
    """A read that finds nothing to give ends after some pieces, and says that there is more."""
    log = log_of(*(message(id, "10:00:01.000") for id in range(5_000)))
    for feed in (Steps(tmp_path, data=b"# a comment\n" * 50_000).feed(), Month(tmp_path, quantum("10:00:00.000"), log, follow=False).feed):
        reads, before = 0, 0
        while not feed.read() and feed.behind:
            assert before < feed.count <= before + feeds.MOST_PIECES * feeds.PIECE, "one read took too much, or none"
            reads, before = reads + 1, feed.count
        assert reads >= 3 and Playing(feed, 1).behind == feed.behind
    drained(feed)
    assert not feed.behind and feed.ended == "end"


# ---------------------------------------------------------------- what happens to a file


def test_truncated(tmp_path):
    """A file that was truncated is read again from its start, whatever kind it is now; an unfinished line is dropped."""
    grown = Steps(tmp_path, data=b"tick 1\ntick 2\r\ntick 3\rtick 4\nti")
    feed = grown.feed()
    drained(feed)
    said = "the file was truncated: it had {} bytes and has {}; the feed is read again from its start"
    os.truncate(grown.path, 15)
    assert shown(drained(feed)) == [("", said.format(31, 15)), "line 1", "line 2"]
    append(grown.path, b"tick 7\nreport 1\n")
    assert shown(drained(feed)) == ["line 3", ("line 4", "report takes nothing, got 1 word: '1'")]
    append(grown.path, b"tick 10 " + b"#" * 5_000_000 + b"\n")
    drained(feed)
    os.truncate(grown.path, 1_200_000)
    assert shown(drained(feed))[:4] == [("", said.format("5,000,040", "1,200,000")), "line 1", "line 2", "line 3"]
    os.truncate(grown.path, 0)
    assert shown(drained(feed)) == [("", said.format("1,200,000", 0))] and feed.count == 0
    append(grown.path, c.block(c.Report()))
    assert shown(drained(feed)) == ["call 1"], "a file that was truncated to nothing may be of another kind"
    append(grown.path, c.block(Tick(1)) + c.block(Tick(1))[:5])
    drained(feed)
    os.truncate(grown.path, 4)
    assert shown(drained(feed)) == [("", said.format(17, 4)), "call 1"]
    append(grown.path, c.block(c.Drop()) + c.pack([0]))
    assert shown(drained(feed)) == ["call 2", ("", f"stopped at word 3: {feeds.NO_CALL}")]
    short = Steps(tmp_path, "other", b"ti")
    feed = short.feed()
    drained(feed)
    os.truncate(short.path, 0)
    drained(feed)
    append(short.path, "report\n")
    assert shown(drained(feed)) == ["line 1"]


ROTATED = ("", "the file was rotated: its name is another file now; it is read from its start")


def test_rotated(tmp_path):
    """The rest of the old file is read, also what is written to it while the new one is empty, then the new one from its first line."""
    grown = Steps(tmp_path, data=b"tick 1\n")
    feed = grown.feed()
    drained(feed)
    old = grown.path.with_suffix(".1")
    append(grown.path, "tick 2\n")
    grown.path.rename(old)
    grown.path.write_bytes(b"")
    assert shown(drained(feed)) == ["line 2"]
    append(old, "tick 3\nrep")
    assert shown(drained(feed) + drained(feed)) == ["line 3"]
    append(grown.path, "tick 1\n")
    append(old, "ort\n")
    assert shown(drained(feed) + drained(feed)) == ["line 4", ROTATED, "line 1"]
    append(old, "tick 5\n")
    append(grown.path, "tick 2\n")
    assert shown(drained(feed)) == ["line 2"]
    other = Steps(tmp_path, "fresh", c.block(c.Report()))
    other.path.rename(grown.path)
    assert shown(drained(feed) + drained(feed)) == [ROTATED, "call 1"]
    assert feed.count == 7 + 7 + 7 + 7 + 7 + 7 + 4


def test_file_that_goes_away(tmp_path):
    """A file that goes away is said once; the same one goes on where it was, another from its beginning."""
    grown = Steps(tmp_path, data=b"tick 1\nti")
    feed = grown.feed()
    drained(feed)
    aside = grown.path.with_suffix(".aside")
    gone = ("", "the file has gone away; it is opened again when it is there")
    for name, due in (("ck 2\n", "line 2"), ("tick 3\n", "line 3")):
        grown.path.rename(aside)
        assert shown(drained(feed) + drained(feed) + drained(feed)) == [gone]
        append(aside, name)
        assert shown(drained(feed)) == [due], "what is written to it meanwhile"
        aside.rename(grown.path)
        assert not drained(feed)
    grown.path.unlink()
    assert shown(drained(feed) + drained(feed)) == [gone]
    grown.path.write_bytes(b"report\n")
    back = ("", "the file is there again, as another one; it is read from its start")
    assert shown(drained(feed) + drained(feed)) == [back, "line 1"]
    grown.path.unlink()
    grown.path.mkdir()
    directory = ("", "the file can't be read: Is a directory; it is tried again")
    assert shown(drained(feed) + drained(feed) + drained(feed)) == [directory]
    grown.path.rmdir()
    grown.path.write_bytes(b"tick 1\n")
    assert shown(drained(feed) + drained(feed)) == [back, "line 1"]


def test_unreadable(tmp_path):
    """A file that fails while it is read: said once; a finished one is at its end then, a followed one goes on when it can."""
    for follow in (False, True):
        grown = Steps(tmp_path, data=b"tick 1\n")
        feed = grown.feed(follow)
        os.close(feed.growing.descriptor)
        feed.growing.descriptor = os.open(tmp_path, os.O_RDONLY)  # a directory's descriptor is one that can't be read
        found = shown(drained(feed))
        back = [("", "the file is there again, as another one; it is read from its start"), "line 1"]
        assert found == [("", "the file can't be read: Is a directory; it is tried again"), *(back if follow else [])], found
        assert feed.ended == (None if follow else "end")


def test_missing(tmp_path):
    """What can't be opened at first is an error with its name."""
    path, folder = str(tmp_path / "nothing"), str(tmp_path)
    with pytest.raises(FileNotFoundError) as missing:
        CallsFeed(path, PLAIN, True)
    assert missing.value.filename == path
    with pytest.raises(IsADirectoryError) as missing:
        CallsFeed(folder, PLAIN, True)
    assert missing.value.filename == folder


def test_missing_log_or_list(tmp_path):
    path, log = str(tmp_path / "nothing"), str(PROGRAMMES / "brent.log")
    packed = str(Steps(tmp_path, data=c.block(c.Report())).path)
    for kind, said, names, start in [
        (FileNotFoundError, "", (log, path), None),
        (FileNotFoundError, "", (path, log), None),
        (inputs.WrongUse, "can't both be standard input", ("-", "-"), None),
        (TextError, "and these are bytes", (log, packed), None),
        (ValueError, "is not a time", (log, log), "10:00"),
    ]:
        with pytest.raises(kind, match=said):
            LogFeed(*names, PLAIN, start, FeedClock(), True)


def test_time_of_writing(tmp_path):
    """When a file was written to, and not after now."""
    grown = Steps(tmp_path, data=b"tick 1\n")
    os.utime(grown.path, (1_000, 1_000))
    feed = grown.feed()
    drained(feed)
    assert feed.came == 1_000
    append(grown.path, "tick 2\n")
    os.utime(grown.path, (2**33, 2**33))
    drained(feed)
    assert abs(feed.came - time.time()) < 5


# ---------------------------------------------------------------- pipes


@pytest.mark.parametrize(("follow", "ended"), [(True, "broken"), (False, "end")])
def test_standard_input(monkeypatch, follow, ended):
    """Standard input: nothing waits; when it has closed, the feed is "broken" where it is followed, else at its "end"."""
    out, into = os.pipe()
    with os.fdopen(out) as pipe:
        monkeypatch.setattr(sys, "stdin", pipe)
        feed = CallsFeed("-", PLAIN, follow)
        assert not feed.read() and feed.ended is None
        os.write(into, b"tick 1\r")
        assert shown(feed.read()) == ["line 1"] and abs(feed.came - time.time()) < 5
        os.write(into, b"\ntick 2\ntick 3")
        assert shown(feed.read()) == ["line 2"] and feed.ended is None
        os.close(into)
        last = ("line 3", "the feed broke off within this line; it is not read") if follow else "line 3"
        assert shown(feed.read()) == [last] and feed.ended == ended, follow
        assert not feed.read() and feed.ended == ended


def test_standard_input_closed(monkeypatch):
    monkeypatch.setattr(sys, "stdin", None)
    with pytest.raises(TextError, match="standard input is closed"):
        CallsFeed("-", PLAIN, True)


def test_standard_input_from_a_file(tmp_path, monkeypatch):
    """A file as standard input is followed as it grows; one that closes at once."""
    grown = Steps(tmp_path, data=b"tick 1\n")
    with open(grown.path) as file:
        monkeypatch.setattr(sys, "stdin", file)
        feed = CallsFeed("-", PLAIN, True)
        assert shown(drained(feed)) == ["line 1"] and feed.ended is None
        append(grown.path, "tick 2\n")
        assert shown(drained(feed)) == ["line 2"] and feed.ended is None
    with open(os.devnull) as nothing:
        monkeypatch.setattr(sys, "stdin", nothing)
        feed = CallsFeed("-", PLAIN, True)
        assert not feed.read() and feed.ended == "broken"


def test_fifo(tmp_path):
    """A pipe by name: no writer so far is not its end; another writer brings it back."""
    path = str(tmp_path / "fifo")
    os.mkfifo(path)
    feed = CallsFeed(path, PLAIN, True)
    assert not feed.read() and feed.ended is None
    for text, due in (("start 20261102-10:00:00.000\n", []), (f"{OPEN}\n", ["line 2"]), ("tick 1\n", ["line 3"])):
        with open(path, "w") as into:
            assert not feed.read()
            into.write(text)
            into.flush()
            found = feed.read()
            assert shown(found) == due and feed.ended is None, found
            if due == ["line 2"]:
                assert found[0].start == "20261102-10:00:00.000"
        assert not feed.read() and feed.ended == "broken"
    finished = CallsFeed(path, PLAIN, False)
    assert not finished.read() and finished.ended is None
    with open(path, "w") as into:
        into.write("report")
    assert shown(finished.read()) == ["line 1"] and finished.ended == "end"


INTERRUPTED = """
import sys, time
from quoting.reading import PLAIN
from quoting.watch.feeds import CallsFeed
feed = CallsFeed("-", PLAIN, True)
try:
    print("ready", flush=True)
    while True:
        feed.read()
        time.sleep(0.01)
except KeyboardInterrupt:
    print("stopped", flush=True)
"""


def test_interrupted():
    """Ctrl-C ends a reader of a silent pipe at once."""
    words = [sys.executable, "-c", INTERRUPTED]
    env = {**os.environ, "PYTHONPATH": str(ROOT / "python")}
    pipes = {"stdin": subprocess.PIPE, "stdout": subprocess.PIPE, "text": True}
    with subprocess.Popen(words, env=env, preexec_fn=command.restore_sigint, **pipes) as reader:
        assert reader.stdout.readline() == "ready\n"
        began = time.monotonic()
        reader.send_signal(signal.SIGINT)
        try:
            said, _ = reader.communicate(timeout=60)
        finally:
            reader.kill()
        assert (said, reader.returncode) == ("stopped\n", 0) and time.monotonic() - began < 1


# ---------------------------------------------------------------- logs with a list


class Still:
    """A clock that is set."""

    def __init__(self, moment=None):
        self.time = moment

    def now(self, start, last, came):
        return last

    def moment(self):
        return self.time


def at(text):
    return datetime.strptime(f"20261102-{text}", "%Y%m%d-%H:%M:%S.%f" if "." in text else "%Y%m%d-%H:%M:%S")


def message(id, time, symbol="A", date="20261102"):
    """A new order, as a raw message."""
    sixty = f"60={date}-{time}" if time else "58=none"
    body = f"35=D|11={id}|55={symbol}|54=1|38=500|44=99|{sixty}|"
    return fix.framed(body.replace("|", "\x01").encode())


def log_of(*sent):
    return b"".join(each.replace(b"\x01", b"|") + b"\n" for each in sent)


def quantum(start, symbol="", day=1, expiry=1, number=1):
    """An open of ten seconds and its close."""
    return f"start 20261102-{start} {symbol}\nopen row {expiry} {number} 0:00:10 500 100 1 60% day {day} sp 2000\nclose {day} {number}\n"


class Month:
    """A list and a log that grow, and the feed of both."""

    def __init__(self, folder, calls="", log=b"", follow=True, start=None, moment=None):
        self.list, self.log = Path(folder) / "list", Path(folder) / "log"
        self.list.write_text(calls)
        self.log.write_bytes(log)
        self.clock = Still(moment)
        self.feed = LogFeed(str(self.log), str(self.list), PLAIN, start, self.clock, follow)

    def read(self):
        """What comes now, log and list by their plain names."""
        folder = str(self.log.parent) + "/"
        found = shown(drained(self.feed))
        return [each.replace(folder, "") if isinstance(each, str) else (each[0].replace(folder, ""), each[1]) for each in found]

    def more(self, *sent):
        append(self.log, log_of(*sent))
        return self.read()

    def listed(self, text):
        append(self.list, text)
        return self.read()


def programme(name):
    return str(PROGRAMMES / f"{name}.month"), str(PROGRAMMES / f"{name}.log")


def sent_of(items):
    return [item for item in items if isinstance(item, Sent)]


def test_months():
    """A finished month gives exactly the statement's calls."""
    for name in ("brent", "gold-mini"):
        calls, log = programme(name)
        due = month_sources.from_list(calls, PLAIN, [log])
        feed = LogFeed(log, calls, PLAIN, None, FeedClock(), False)
        found = drained(feed)
        assert sent_of(found) == due.calls and feed.ended == "end", name
        said = [f"{item.place}: {item.text}" for item in found if isinstance(item, Trouble) and item.logged is None]
        assert said == due.left and len(due.left) == 2, due.left
        assert feed.count == sum(os.path.getsize(file) for file in (calls, log)) and feed.name == log


def test_growing_months(tmp_path):
    """The same as the log grows in any pieces, when the clock is past it all; nothing comes before its time."""
    rng = random.Random(3)
    for name in ("brent", "gold-mini"):
        calls, log = programme(name)
        due = month_sources.from_list(calls, PLAIN, [log]).calls
        month = Month(tmp_path, Path(calls).read_text())
        data, place, found = Path(log).read_bytes(), 0, []
        while place < len(data):
            size = rng.choice([1, 40, 700, 5_000])
            append(month.log, data[place : place + size])
            place += size
            found += sent_of(month.feed.read())
            check_opened(found, month.feed.seen())
        assert 600 < len(found) < len(due), (name, len(found))
        month.clock.time = datetime(2026, 12, 1)
        found += sent_of(drained(month.feed))
        assert [(item.block, item.start) for item in found] == [(item.block, item.start) for item in due], name
        assert [item.place.split("/")[-1] for item in found] == [item.place.split("/")[-1].replace(f"{name}.log", "log") for item in due]


def check_opened(found, seen):
    for item in found[-5:]:
        assert item.start is None or exchange.milliseconds(item.start) <= seen, (item, seen)


def test_any_months(tmp_path):
    """Finished logs whose messages come in any order, some without a time or in no quantum, are the statement's too."""
    rng = random.Random(4)
    untimed = events = 0
    for _ in range(60):
        calls = "".join(quantum(f"10:00:{rng.randrange(60):02}.000", rng.choice("AB"), day) for day in range(1, rng.randrange(2, 6)))
        calls = "report\n" + calls.replace("close", rng.choice(["close", "look 1 1 1\nclose"]))
        times = [rng.choice([None, f"10:00:{rng.randrange(60):02}.{rng.randrange(1000):03}"]) for _ in range(30)]
        sent = [message(id, time, rng.choice("AB")) for id, time in enumerate(times)]
        log = b"".join(each.replace(b"\x01", rng.choice([b"|", b"\x01"])) + rng.choice([b"\n", b"\r\n", b" "]) for each in sent)
        month = Month(tmp_path, calls, log + b"8=FIX.4.4|35=0|10=000|\n", follow=False)
        due = month_sources.from_list(str(month.list), PLAIN, [str(month.log)])
        found = drained(month.feed)
        assert sent_of(found) == due.calls and due.left[-1].endswith("refused 20: 9, the length, does not follow 8"), due.left[-1]
        said = [f"{item.place}: {item.text}" for item in found if isinstance(item, Trouble) and item.logged is None]
        assert said == due.left and month.feed.ended == "end"
        untimed += sum("60 is absent" in each for each in due.left)
        events += len(due.calls) - calls.count("\n") + calls.count("start")
    assert untimed >= 60 and events > 150, (untimed, events)


def test_time(tmp_path):
    """An open comes when its start is seen, the call after its messages when its end is past; no damaged message moves the time."""
    month = Month(tmp_path, quantum("10:00:00.000", "A") + quantum("10:00:20.000", "A", 2) + "report\n")
    assert month.read() == []
    assert month.more(message(1, "10:00:00.000")) == ["line 2", "log: line 1"]
    damaged = message(2, "10:00:30.000").replace(b"54=1", b"54=2")
    found = month.more(message(3, "10:00:10.000"), damaged)
    assert found[0][0] == "log: line 3" and found[0][1].startswith("refused 20: the checksum (10) is ") and found[1:] == ["log: line 2"], found
    assert month.more(message(4, "10:00:10.001")) == ["line 3"]
    assert month.more(message(6, "10:00:15.000")) == []
    assert month.more(message(7, None)) == [("log: line 6", "refused 21: 60 is absent (A)")]
    assert month.more(message(8, "10:00:20.000")) == ["line 5", "log: line 7"]
    month.clock.time = at("10:00:35")
    assert month.read() == []
    assert month.more(message(9, "10:00:30.000")) == ["log: line 8"]
    month.clock.time = at("10:00:35.001")
    assert month.read() == ["line 6", "line 7"] and month.feed.ended is None


def test_late(tmp_path):
    """A message with an earlier time than others is given in its place: all calls come again. One in no quantum changes nothing."""
    month = Month(tmp_path, quantum("10:00:00.000", "A") + quantum("10:00:20.000", "A", 2))
    assert month.more(message(1, "10:00:01.000"), message(2, "10:00:05.000")) == ["line 2", "log: line 1", "log: line 2"]
    assert month.more(message(3, "09:00:00.000"), message(4, "10:00:03.000")) == [("", logged.LATE), "line 2", "log: line 1", "log: line 4", "log: line 2"]
    assert month.more(message(5, "10:00:20.000")) == ["line 3", "line 5", "log: line 5"]
    assert month.more(message(6, "10:00:15.000")) == [("", logged.LATE), "line 2", "log: line 1", "log: line 4", "log: line 2", "line 3", "line 5", "log: line 5"]
    again = month.more(message(7, "10:00:09.000"))
    assert again[0] == ("", logged.LATE) and again[1:] == ["line 2", "log: line 1", "log: line 4", "log: line 2", "log: line 7", "line 3", "line 5", "log: line 5"]


def test_midnight(tmp_path):
    """A quantum may run into the next day."""
    month = Month(tmp_path, quantum("23:59:55.000"), log_of(message(1, "23:59:56.000"), message(2, "00:00:05.000", date="20261103")))
    assert month.read() == ["line 2", "log: line 1", "log: line 2"]


def test_clock(tmp_path):
    """A quantum opens by the clock without a message; a long log is read to its end before the clock closes one."""
    month = Month(tmp_path, quantum("10:00:00.000"), moment=at("09:59:59"))
    assert month.read() == []
    month.clock.time = at("10:00:00")
    assert month.read() == ["line 2"]
    times = [f"10:00:0{second}.000" for second in range(10)] * 2_000
    month = Month(tmp_path, quantum("10:00:00.000"), log_of(*(message(id, time) for id, time in enumerate(times))), moment=at("23:00:00"))
    found = month.read()
    assert len(found) == 20_002 and found[-1] == "line 3", (len(found), found[-2:])


def test_listed_later(tmp_path):
    """An open that is written after its messages gets them; an open without a start has the command's."""
    month = Month(tmp_path, "", log_of(message(1, "10:00:01.000"), message(2, "10:00:30.000"), message(3, None)))
    assert month.read() == [("log: line 3", "refused 21: 60 is absent (A)")]
    assert month.listed("report\n" + quantum("10:00:00.000").rsplit("\n", 2)[0]) == ["line 1"], "the last line has no end so far"
    assert month.listed("\n") == ["line 3", "log: line 1"]
    assert month.more(message(4, "10:00:09.000")) == ["log: line 4"], "it stays open while nothing is listed after it"
    assert month.listed("close 1 2\n") == ["line 4"]
    assert month.feed.count == month.list.stat().st_size + month.log.stat().st_size
    month = Month(tmp_path, f"{OPEN}\nclose 1 2\n", start="20261102-10:00:00.000")
    assert month.more(message(1, "09:59:59.000", "B"), message(2, "10:00:01.000", "B")) == ["line 1", "log: line 2"]
    assert month.more(message(3, "10:00:11.000", "B")) == ["line 2"]
    month = Month(tmp_path, f"{OPEN}\nclose 1 2\n")
    assert month.read() == ["line 1", "line 2"], "without any start it takes no messages"
    month = Month(tmp_path, f"report\nstart 99991231-23:59:59.999\n{OPEN}\nreport\ntock\n")
    found = month.read()
    assert [each if isinstance(each, str) else each[0] for each in found] == ["list: line 5", "line 1"], found


def test_another_symbol_is_listed(tmp_path):
    """The log is read again by the symbols that are listed by then, and goes on where it was."""
    log = log_of(message(1, "10:00:01.000"), message(2, "10:00:02.000", "B"), message(3, "10:00:10.500", "A"))
    month = Month(tmp_path, quantum("10:00:00.000", "A"), log)
    assert month.read() == ["line 2", "log: line 1", "line 3"]
    assert month.listed(quantum("10:00:00.000", "B", 2)) == ["line 5", "log: line 2", "line 6"]
    month.log.rename(month.log.with_suffix(".1"))
    assert month.more(message(4, "10:00:21.000", "B")) + month.read() == [("log", ROTATED[1])]
    assert month.listed(quantum("10:00:20.000", "C", 3))[0] == ("list", logged.NOT_READ)


def test_several_symbols(tmp_path):
    """A quantum that names no symbol counts that of its first message, and says so."""
    month = Month(tmp_path, quantum("10:00:00.000"), log_of(message(1, "10:00:01.000"), message(2, "10:00:02.000", "B"), message(3, "10:00:03.000")))
    opened, said, *events = month.read()
    assert opened == "line 2" and said[0] == "the quantum that starts 20261102-10:00:00.000" and "more than one symbol (55): A" in said[1], said
    assert events == ["log: line 1", "log: line 3"]


# ---------------------------------------------------------------- reports


def report(execution, id, time, more="", symbol="A"):
    """An execution report of the exchange, as a raw message."""
    body = f"35=8|37=X{id}|11=C{id}|17=E{id}{execution}{time}|150={execution}|55={symbol}|54=1|{more}60=20261102-{time}|"
    return fix.framed(body.replace("|", "\x01").encode())


NEW = "44=99|151=500|"


def events_text(items):
    return [call_text(item.block) for item in items if isinstance(item, Sent)]


def test_reports_count(tmp_path):
    """Orders that rest when the quantum starts are carried in; fills and cancels come as they are reported; the page has the counts."""
    month = Month(tmp_path, quantum("10:00:00.000", "A"), log_of(report("0", 1, "09:59:00.000", NEW), message(7, "10:00:00.500")))
    assert events_text(drained(month.feed)) == [], "the quantum is not reached"
    append(month.log, log_of(report("F", 1, "10:00:01.000", "32=200|"), report("8", 2, "10:00:01.500")))
    found = drained(month.feed)
    assert events_text(found)[1:] == ["add 0 1 buy 99 500", "deal 1000 1 200"], found
    said = [item.logged for item in found if isinstance(item, Trouble)][-1]
    assert said == feeds.Logged("by reports: 2 changes, 1 fill, 1 reject", 1, 0), said
    append(month.log, log_of(report("4", 1, "10:00:02.000"), report("F", 9, "10:00:03.000", "32=1|")))
    found = drained(month.feed)
    assert events_text(found) == ["cancel 2000 1"] and "the order 37=X9 is not known" in "".join(item.text for item in found if isinstance(item, Trouble))
    append(month.log, log_of(report("0", 3, "10:00:01.250", NEW)))
    found = drained(month.feed)
    assert isinstance(found[0], Again) and events_text(found)[1:] == ["add 0 1 buy 99 500", "deal 1000 1 200", "add 1250 2 buy 99 500", "cancel 2000 1"], found


def test_requests_until_there_are_reports(tmp_path):
    """By default requests count until the first report comes; then all calls come again, by reports."""
    month = Month(tmp_path, quantum("10:00:00.000", "A"), log_of(message(1, "10:00:01.000")))
    assert events_text(drained(month.feed))[1:] == ["add 1000 1 buy 99 500"]
    append(month.log, log_of(report("0", 1, "10:00:01.002", NEW)))
    found = drained(month.feed)
    assert (found[0].text, events_text(found)[1:]) == (logged.BY_REPORTS, ["add 1002 1 buy 99 500"]) and isinstance(found[0], Again)


def test_requests_where_there_are_reports(tmp_path):
    """With --from requests the page has how many answers it leaves out."""
    month = Month(tmp_path, quantum("10:00:00.000", "A"), log_of(message(1, "10:00:01.000"), report("0", 1, "10:00:01.002", NEW)))
    month.feed = LogFeed(str(month.log), str(month.list), PLAIN, None, month.clock, True, LogOptions("requests", account=None))
    found = drained(month.feed)
    assert events_text(found)[1:] == ["add 1000 1 buy 99 500"]
    assert [item.logged for item in found if isinstance(item, Trouble)][-1] == feeds.Logged("by requests: 1 change", 0, 1)


def test_reports_grow_to_the_statement(tmp_path):
    """Random reports that come in any order and in any pieces: at each moment what was given since the last `Again` starts the statement's
    calls of the log so far, and in the end it is all of them."""
    rng = random.Random(6)
    agains = refused = 0
    for _ in range(25):
        calls = "".join(quantum(f"10:00:{20 * day:02}.000", "A", day) for day in range(3))
        lines = [report("0", id, f"10:00:{rng.randrange(60):02}.{rng.randrange(1000):03}", NEW) for id in range(20)]
        lines += [report(rng.choice("F45"), rng.randrange(22), f"10:00:{rng.randrange(60):02}.000", "32=100|44=98|151=300|41=C1|") for _ in range(30)]
        rng.shuffle(lines)
        if rng.random() < 0.5:
            lines.sort(key=lambda line: line[line.index(b"\x0160=") :])
        month, given = Month(tmp_path, calls), []
        is_known = False
        for line in lines:
            append(month.log, log_of(line))
            is_known |= b"\x01150=0\x01" in line
            for item in drained(month.feed):
                if isinstance(item, Again):
                    given, agains = [], agains + 1
                elif isinstance(item, Sent):
                    given.append(item)
            logs = [str(month.log)]
            if not is_known:  # every report is of an unknown order: the statement is refused, and the feed gives the list's calls alone
                with pytest.raises(TextError, match="nothing of the logs can be read"):
                    month_sources.from_list(str(month.list), PLAIN, logs)
                logs, refused = [], refused + 1
            due = month_sources.from_list(str(month.list), PLAIN, logs).calls
            assert given == due[: len(given)], (given, due)
        month.clock.time = at("11:00:00")
        given += sent_of(drained(month.feed))
        assert given == due, "all of them"
    assert agains > 100 and refused > 5, (agains, refused)


def test_saved_again(tmp_path):
    """The list may be saved from an editor: calls that were read before are skipped. Where one is another call now, or is gone, both files
    are read again from their starts."""
    first = "# a month\n" + quantum("10:00:00.000").rsplit("close", 1)[0]
    month = Month(tmp_path, first + "clsoe 1 2\n", moment=at("10:00:01"))
    assert [each if isinstance(each, str) else each[0] for each in month.read()] == ["list: line 4", "line 3"]
    assert month.more(message(1, "10:00:01.000")) == ["log: line 1"]
    month.clock.time = at("10:01:00")

    def replaced(text):
        other = month.list.with_suffix(".swap")
        other.write_text(text)
        other.rename(month.list)
        return month.read() + month.read()

    def written(text):
        month.list.write_text(text)
        return month.read()

    assert replaced("# and a line more\n" + first + "close 1 2\n") == ["line 5"]
    assert written(first + "close 1 2\nreport\n") == ["line 5"], "in place"
    changed, fewer = ("list: line 3", lists.OTHER_CALL), ("list", lists.FEWER_CALLS)
    other = first.replace("day 1", "day 2") + "close 3 4\nreport\nreport\n"
    assert replaced(other) == [changed, "line 3", "log: line 1", "line 4", "line 5", "line 6"]
    assert written("# in place, and longer\n" * 10 + other + "report\n") == ["line 17"]
    assert written(other + "report\nreport\n") == ["line 8"], "in place, and shorter"
    assert written(other) == [fewer, "line 3", "log: line 1", "line 4", "line 5", "line 6"]
    assert written("") == [fewer] and written(other) == ["line 3", "log: line 1", "line 4", "line 5", "line 6"]
    month.list.unlink()
    assert month.read() + month.read() == [("list", "the file has gone away; it is opened again when it is there")]


def test_log_ends(tmp_path):
    """A log that was truncated is read again, a rotated one goes on; raw messages without line ends come as they are whole; a broken pipe closes nothing."""
    month = Month(tmp_path, quantum("10:00:00.000"), moment=at("10:00:01"))
    assert month.more(message(1, "10:00:00.000"), message(2, "10:00:01.000")) == ["line 2", "log: line 1", "log: line 2"]
    os.truncate(month.log, month.log.stat().st_size // 2)
    assert month.read()[0][0] == "log"
    assert month.more(message(3, "10:00:02.000")) == ["log: line 2"]
    month.log.rename(month.log.with_suffix(".1"))
    assert month.more(message(4, "10:00:03.000")) + month.read() == [("log", ROTATED[1]), "log: line 1"]
    raw = message(5, "10:00:04.000") + message(6, "10:00:05.000")
    for byte in raw[:-1]:
        append(month.log, bytes([byte]))
        found = month.read()
        assert found == [] or byte == 1, "a message came before its end"
    assert month.more() == [] and len(raw) > 100
    append(month.log, raw[-1:] + (message(8, "10:00:05.000") + message(9, "10:00:05.500"))[:-20])
    assert month.read() == ["log: line 2"] * 2
    append(month.log, message(9, "10:00:05.500")[-20:] + b"\n")
    assert month.read() == ["log: line 2"]
    assert month.more(message(7, "10:00:06.000")) == ["log: line 3"]
    month.log.unlink()
    os.mkfifo(month.log)
    month = Month.__new__(Month)
    month.list, month.log, month.clock = tmp_path / "list", tmp_path / "log", Still(at("10:00:01"))
    month.feed = LogFeed(str(month.log), str(month.list), PLAIN, None, month.clock, True)
    assert month.read() == ["line 2"]
    with open(month.log, "wb") as into:
        into.write(log_of(message(1, "10:00:00.000")))
    assert month.read() == ["log: line 1"] and month.feed.ended == "broken"
    assert month.read() == [] and month.feed.ended == "broken"
    month.log.unlink()


# ---------------------------------------------------------------- playing


class Moments:
    """A monotonic time that is set."""

    def __init__(self):
        self.time = 1_000.0

    def __call__(self):
        return self.time


def played(feed, speed, step=0.25, most=100_000):
    """(time, items) of each read that gave something, in seconds from the first."""
    moments = Moments()
    playing = Playing(feed, speed, moments)
    found = []
    for _ in range(most):
        items = playing.read()
        if items:
            found.append((moments.time - 1_000, shown(items)))
        if playing.ended:
            return found, playing
        moments.time += step
    raise AssertionError("it does not end")


PLAYED = f"""report
{OPEN}
tock
add 0 1 buy 99 500
amend 2_000 1 99 600
ask 9_000 1 98 500
tick 1_000
open row 1 2 0:00:20 500 100 1 60% day 1 sp 2000
cancel 4_000 1
tick 30_000
close 1 2
look 1 1 1
{OPEN}
open row 2 1 0:00:20 500 100 1 60% day 1 sp 2000
commit 15_000 1 2 3 ticket 1 2 3 4 5
drop
tick 1
{OPEN.replace("day 1", "day 2")}
tick 5_000
tock
"""


def test_playing(tmp_path):
    """Each call when its time has come, at one and at two times the pace; what can't be read comes with the call before it."""
    tock = "'tock' is not known"
    for speed in (1, 2, 0.5):
        found, playing = played(Steps(tmp_path, data=PLAYED.encode()).feed(False), speed)
        due = [
            (0, ["line 1", "line 2", "line 3", "line 4"]), (2 / speed, ["line 5", "line 6", "line 7", "line 8"]), (4 / speed, ["line 9"]),
            (10 / speed, ["line 10", "line 11", "line 12"]), (10 / speed + 1, ["line 13", "line 14"]),
            (25 / speed + 1, ["line 15"]), (30 / speed + 1, ["line 16", "line 17", "line 18"]), (35 / speed + 1, ["line 19", "line 20"]),
        ]
        places = [(time, [each if isinstance(each, str) else each[0] for each in items]) for time, items in found]
        assert places == due, places
        assert found[0][1][2][1].startswith(tock) and playing.ended == "end" and not playing.read()
    found, _ = played(Steps(tmp_path, data=f"{OPEN}\ntock\ntick 5_000\n".encode()).feed(False), 1)
    assert [(time, len(items)) for time, items in found] == [(0, 2), (5, 1)], found


@pytest.mark.parametrize("speed", [0, -1, float("inf"), float("nan")])
def test_playing_speed(tmp_path, speed):
    with pytest.raises(ValueError, match="above 0"):
        Playing(Steps(tmp_path).feed(False), speed)


def test_playing_clock(tmp_path):
    """Now is the played time while a quantum is open, and never past its length."""
    text = f"start 20261102-10:00:00.000\n{OPEN}\ntick 3_000\nclose 1 2\n{OPEN.replace('day 1', 'day 2')}\ntick 2_000\n"
    moments = Moments()
    playing = Playing(Steps(tmp_path, data=text.encode()).feed(False), 10, moments)
    assert playing.now(None, 7, 0) == 7 and playing.moment() is None
    playing.read()
    for seconds, now in ((0, 0), (0.125, 1_250), (0.5, 5_000), (2, 10_000)):
        moments.time = 1_000 + seconds
        assert playing.now(None, 7, 0) == now, seconds
        assert playing.moment() == at("10:00:00") + timedelta(milliseconds=now)
    moments.time = 1_000.5
    assert shown(playing.read()) == ["line 3"]
    moments.time = 1_001.0
    assert shown(playing.read()) == ["line 4"] and playing.now(None, 7, 0) == 7 and playing.moment() is None
    moments.time = 1_002.0
    assert shown(playing.read()) == ["line 5"] and playing.now(None, 0, 0) == 0 and playing.moment() is None
    moments.time, playing.came = 1_002.25, 0.0
    assert shown(playing.read()) == ["line 6"] and playing.ended == "end" and playing.now(None, 2_000, 0) == 2_000
    assert abs(playing.came - time.time()) < 5 and playing.count == len(text) and playing.name.endswith("feed")
    playing = Playing(Steps(tmp_path, data=f"{OPEN}\ndrop\n".encode()).feed(), 10, moments)
    playing.read()
    moments.time += 1
    assert shown(playing.read()) == ["line 2"] and playing.ended is None and playing.now(None, 7, 0) == 7, "time goes on after a drop"


def test_played_months():
    """A month with messages comes whole and in order, each message at its time; the same at any steps."""
    calls, log = programme("brent")
    due = [sent.place for sent in month_sources.from_list(calls, PLAIN, [log]).calls]
    for step in (0.25, 3.0):
        found, _ = played(LogFeed(log, calls, PLAIN, None, FeedClock(), False), 3_600, step)
        assert [place for _, items in found for place in items if isinstance(place, str)] == due, step
        times = {place: time for time, items in found for place in items}
        first = times[f"{log}: line 1"] - times["line 9"]  # 10:23:30.245 in a quantum from 10:00:00
        assert 1_410.245 / 3_600 <= first <= 1_410.245 / 3_600 + step, first


# ---------------------------------------------------------------- clocks


def test_feed_clock():
    clock = FeedClock(Moments())
    assert clock.now(None, 5_000, 999.5) == 5_500 and clock.now("20261102-10:00:00.000", 5_000, 1_001.0) == 5_000 and clock.moment() is None


@pytest.fixture
def in_zone(monkeypatch):
    """Sets the time zone, until the test ends."""

    def set_zone(name):
        monkeypatch.setenv("TZ", name)
        time.tzset()

    yield set_zone
    monkeypatch.undo()
    time.tzset()


@pytest.mark.parametrize(("zone", "ahead"), [("UTC", 0), ("Europe/Moscow", 10_800_000)])
def test_wall_clock(in_zone, zone, ahead):
    """At a set moment, in two time zones."""
    in_zone(zone)
    moments = Moments()
    moments.time = (datetime(2026, 11, 2, 15, 8, 51, 250_000) - datetime(1970, 1, 1)).total_seconds()
    clock, gone = WallClock(36_000_000, moments), 5 * 3_600_000 + 8 * 60_000 + 51_250
    assert clock.now("20261102-10:00:00.000", 0, 0.0) == gone and clock.moment() == datetime(2026, 11, 2, 15, 8, 51, 250_000)
    assert clock.now(None, 0, 0.0) == gone + ahead, zone
    assert WallClock(72_000_000, moments).now(None, 0, 0.0) == gone + ahead - 36_000_000, "before the start"
    assert WallClock(72_000_000, moments).now(None, 66_000_000, 0.0) == gone + ahead - 36_000_000 + 86_400_000, "past midnight"
    assert WallClock(0, moments).now(None, 5, moments.time - 1) == 1_005, "without any start as the feed's"


def test_listed_by_pipe(tmp_path):
    """A finished list that comes through a pipe is read to its end before the log is."""
    path = tmp_path / "calls"
    os.mkfifo(path)
    log = Steps(tmp_path, "log", log_of(message(1, "10:00:01.000")))
    feed = LogFeed(str(log.path), str(path), PLAIN, None, FeedClock(), False)
    assert drained(feed) == [] and feed.ended is None
    with open(path, "w") as into:
        into.write("report\n")
        into.flush()
        assert drained(feed) == [] and feed.ended is None
        into.write(quantum("10:00:00.000").rstrip())
    assert shown(drained(feed)) == ["line 1", "line 3", f"{log.path}: line 1", "line 4"] and feed.ended == "end"


def cost(feed):
    """Microseconds of work an item."""
    began = time.process_time()
    count = len(drained(feed))
    assert count >= 3_000
    return (time.process_time() - began) * 1_000_000 / count


def test_cost(tmp_path, note):
    """At most 50 microseconds of work a line, of calls and of messages at a month's end: the least of three, since others work beside."""
    lines = "".join(f"amend {t} {t % 50} {8_400 + t % 90} 1200\n" for t in range(3_000))
    before = "".join(quantum(f"0{hour}:00:00.000").replace("1102-", f"10{day}-") for day in range(10, 32) for hour in range(8))
    log = log_of(*(message(id, f"10:00:0{id // 1_000}.{id % 1_000:03}") for id in range(3_000)))
    calls = min(cost(Steps(tmp_path, data=lines.encode()).feed()) for _ in range(3))
    sent = min(cost(Month(tmp_path, before + quantum("10:00:00.000"), log).feed) for _ in range(3))
    assert calls < 50 and sent < 50, (calls, sent)
    note(f"feeds: a line of calls took {calls:.0f} µs, a message {sent:.0f}")
