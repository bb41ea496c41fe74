"""FIX logs as users have them: answers of the exchange, several symbols and accounts, messages after any prefix, damage.

Issue "Safe", items 1 to 3: no log gives wrong figures without a word.
"""

import json
import random
import time

import pytest

from quoting import fix, month_sources
from quoting.exchange import LogReader, choice
from quoting.exchange.choice import LogOptions
from quoting.reading import PLAIN, TextError
from quoting.watch import frames
from quoting.watch.clocks import FeedClock
from quoting.watch.feeds import Trouble
from quoting.watch.logged import LogFeed
from quoting.watch.meter import Meter
from tests import command

pytestmark = pytest.mark.usefixtures("library")

DATE = "20261116"
START = f"{DATE}-10:00:00.000"
HEAD = ["--start", START, "--row", "1 1 8:45:00 1000 150 3 60%", "--sp", "8452"]
QUOTES = [
    f"35=D|11=1|55=BR|54=1|38=1000|44=8446|60={DATE}-10:00:05.000|",
    f"35=D|11=2|55=BR|54=2|38=1000|44=8458|60={DATE}-10:00:05.000|",
]


def framed(body: str) -> bytes:
    return fix.framed(body.replace("|", "\x01").encode("latin-1"))


def log_of(*bodies: str) -> bytes:
    """A log with | and a line a message, as terminals write it."""
    return b"".join(b"10:00:00 > " + framed(body).replace(b"\x01", b"|") + b"\n" for body in bodies)


def run(data: bytes, *options):
    return command.run("fix", "-", *HEAD, *options, given=data)


def report(execution: str, status: str, more: str = "", at: str = "10:00:06.000") -> str:
    return f"35=8|37=9001|11=1|17=E1|150={execution}|39={status}|55=BR|54=1|{more}60={DATE}-{at}|"


# ---------------------------------------------------------------- item 1: fills, rejects, cancels, expiries


ANSWERS = [
    report("F", "2", "32=1000|151=0|"), report("F", "1", "32=10|151=990|"), report("2", "2"), report("1", "1"), report("5", "1"), report("I", "2"),
    report("H", "0"), report("8", "8"), report("4", "4"), report("C", "C"), report("3", "3"), report("D", "0"),
    "35=9|37=9001|11=7|41=1|39=0|434=1|102=0|", "35=3|45=2|372=D|373=5|", "35=j|45=2|372=G|380=3|", "35=3|45=2|", "35=j|379=1|380=3|",
]
BY_REQUESTS = ("--from", "requests")


@pytest.mark.parametrize("answer", ANSWERS)
def test_item_1_answers_are_counted(answer):
    """Requests that are read where there are answers of the exchange: status 1 and a sentence; the output is written all the same."""
    alone, done = run(log_of(*QUOTES)), run(log_of(*QUOTES, answer), *BY_REQUESTS)
    assert alone.status == 0 and done.status == 1 and done.printed == alone.printed
    assert "NOT IN THE FIGURES: 1 answer of the exchange (35=8, 9, 3, j), since the log is read by its requests." in done.complaint
    assert "quotes may be overstated" in done.complaint and "Read it by its reports" in done.complaint


def test_item_1_reports_count_where_there_are_some():
    """The requests of such a log change nothing."""
    done = run(log_of(*QUOTES, report("0", "0", "44=8446|151=1000|")))
    assert done.status == 0 and done.printed.splitlines()[2:] == ["add 6000 1 buy 8446 1000"] and "2 requests not read" in done.complaint, done
    unknown = run(log_of(*QUOTES, report("F", "2", "32=1000|")))
    assert unknown.status == 1 and "line 3: refused 11: the order 37=9001 is not known" in unknown.complaint, unknown


def test_item_1_many_in_one_sentence():
    given = log_of(*QUOTES, *ANSWERS)
    done = run(given, *BY_REQUESTS)
    assert f"NOT IN THE FIGURES: {len(ANSWERS)} answers of the exchange" in done.complaint and done.complaint.count("FIGURES") == 1
    assert json.loads(run(given, *BY_REQUESTS, "--json").printed)["counts"]["reports"] == sum("35=8" in answer for answer in ANSWERS)


@pytest.mark.parametrize("is_fast", [True, False])
def test_item_1_answers_of_other_symbols(is_fast):
    """Answers of another symbol or account than the chosen ones are no fault; those that do not say it count."""
    both = [QUOTES[0].replace("35=D|", "35=D|1=A7|"), QUOTES[0].replace("55=BR", "55=GD").replace("11=1|", "11=5|1=B2|")]
    fill = report("F", "2")
    counted = {
        fill: 1, fill.replace("55=BR", "55=GD"): 0, fill.replace("55=BR|", ""): 1, fill.replace("55=BR|", "55=BR|1=A7|"): 1,
        fill.replace("55=BR|", "55=BR|1=B2|"): 0, fill.replace("55=BR|", "55=GD|1=A7|"): 0, fill.replace("55=BR|", "55=BR|55=GD|"): 1,
        "35=9|11=8|41=1|": 1, "35=9|11=8|41=1|55=BR|": 1, "35=9|11=8|41=5|55=GD|": 0, "35=9|11=8|41=5|1=B2|": 0, "35=3|45=2|": 1,
    }
    for answer, count in counted.items():
        reader = LogReader({"BR": "1"}, ["A7"], "requests", is_fast=None if is_fast else False)
        reader.feed("log", log_of(*both, answer), True)
        assert len(reader.timelines) == 1 and choice.unread(reader).answers == count and reader.counts.moves == 1, answer
    many = run(log_of(*both, *counted), "--symbol", "BR", "--account", "A7", *BY_REQUESTS)
    assert many.status == 1 and f"NOT IN THE FIGURES: {sum(counted.values())} answers" in many.complaint, many
    none = run(log_of(*both, fill.replace("55=BR", "55=GD")), "--symbol", "BR", "--account", "A7", *BY_REQUESTS)
    assert none.status == 0 and "NOT IN THE FIGURES" not in none.complaint, none


@pytest.mark.parametrize("tag", ["59=3", "59=4"])
def test_item_1_ioc_and_fok_never_rest(tag):
    ioc = f"35=D|11=7|55=BR|54=1|38=5000|44=8457|{tag}|60={DATE}-10:00:07.000|"
    alone, done = run(log_of(*QUOTES)), run(log_of(*QUOTES, ioc))
    assert done.printed == alone.printed and done.status == 0
    assert run(log_of(*QUOTES, ioc.replace(tag, "59=0"))).printed.splitlines()[-1] == "add 7000 3 buy 8457 5000"
    after = run(log_of(*QUOTES, ioc, f"35=F|11=8|41=7|60={DATE}-10:00:08.000|"))
    assert after.status == 1 and "line 4: the order 41=7 never rested" in after.complaint, after
    twice = run(log_of(*QUOTES, ioc.replace(tag, f"{tag}|59=0")))
    assert twice.status == 1 and "line 3: refused 21: 59 is there twice" in twice.complaint, twice


def test_item_1_replace_by_an_ioc_is_a_cancel():
    replace = f"35=G|11=7|41=1|55=BR|54=1|38=5000|44=8457|59=3|60={DATE}-10:00:07.000|"
    done = run(log_of(*QUOTES, replace))
    assert done.status == 0 and done.printed.splitlines()[-1] == "cancel 7000 1", done
    listed = run(log_of(*QUOTES, replace), "--day", "16", "--close", "1", "2")
    assert command.run("calls", "-", given=listed.printed).status == 0, listed.printed


def month_of(symbol: str = "", at: str = START) -> str:
    return f"start {at} {symbol}\nopen row 1 1 8:45:00 1000 150 3 60% day 16 sp 8452\nclose 1 2\n"


def files(folder, month: str, log: bytes) -> list:
    (folder / "month").write_text(month)
    (folder / "log").write_bytes(log)
    return [str(folder / "month"), "--fix", str(folder / "log")]


def test_item_1_the_statement_says_it(tmp_path):
    sure = command.run("statement", *files(tmp_path, month_of(), log_of(*QUOTES)))
    assert sure.status == 0 and 'id="omitted"' not in sure.printed
    done = command.run("statement", *files(tmp_path, month_of(), log_of(*QUOTES, report("F", "2"))), *BY_REQUESTS)
    assert done.status == 1 and "NOT IN THE FIGURES: 1 answer" in done.complaint
    assert 'role="alert" id="omitted">Not in these figures: 1 answer of the exchange' in done.printed and "may be overstated" in done.printed
    assert done.printed.index('id="omitted"') < done.printed.index("<h1>") and "what the exchange answered is in neither." in done.printed


def test_item_1_a_statement_by_reports(tmp_path):
    """A fill ends the quote; what rests when the quantum starts is carried in, and both are on the page."""
    new = report("0", "0", "44=8446|151=1000|", at="09:59:00.000").replace("17=E1", "17=E0")
    done = command.run("statement", *files(tmp_path, month_of("BR"), log_of(*QUOTES, new, report("F", "2", "32=1000|"))))
    assert done.status == 0 and "1 order carried in" in done.printed and "1 fill" in done.printed, done.complaint
    listed = month_sources.from_list(str(tmp_path / "month"), PLAIN, [str(tmp_path / "log")])
    assert len(listed.calls) == 4, "open, the order, the fill, close"


def watched(folder, month: str, log: bytes, **chosen):
    """The meter of a log and its list, with the problems of the feed, when all is read but the close."""
    files(folder, month, log)
    feed = LogFeed(str(folder / "log"), str(folder / "month"), PLAIN, None, FeedClock(), False, LogOptions(**chosen))
    meter, troubles = Meter("log"), []
    while feed.ended is None or feed.behind:
        for item in feed.read():
            if isinstance(item, Trouble):
                meter.trouble(item, 1_000.0)
                troubles.append(item)
            else:
                meter.take(item, 1_000.0)
    return meter, troubles


def test_item_1_the_live_page_says_it(tmp_path):
    """The band does not answer for the quantum, and a box says what is missing for as long as the page runs."""
    opened = month_of().rsplit("close", 1)[0]
    status = frames.Status(wall=1_000.0)
    sure, _ = watched(tmp_path, opened, log_of(*QUOTES))
    assert frames.sections(sure, 0, status)["omitted"] is None
    meter, _ = watched(tmp_path, opened, log_of(*QUOTES, report("F", "2"), report("8", "8")), source="requests")
    shown = frames.sections(meter, 0, status)
    assert shown["omitted"]["head"] == "Not in the figures: 2 answers of the exchange (35=8, 9, 3, j)." and "overstated" in shown["omitted"]["text"]
    assert shown["band"]["head"] == "Do not rely on these figures" and shown["band"]["kind"] == "hold", shown["band"]
    assert shown["state"]["key"] == "unknown", shown["state"]
    assert shown["problems"]["count"] == 0, "hundreds of fills would hide the problems"


def test_item_1_the_live_page_by_reports(tmp_path):
    """By default reports count: the page says what was read, and answers."""
    new = [report("0", "0", f"44={price}|151=1000|", at=at).replace("17=E1", f"17=N{side}").replace("37=9001|11=1", f"37=900{side}|11={side}").replace("54=1", f"54={side}")
           for side, price, at in ((1, 8446, "09:59:00.000"), (2, 8458, "10:00:05.000"))]  # fmt: skip
    meter, troubles = watched(tmp_path, month_of("BR").rsplit("close", 1)[0], log_of(*QUOTES, *new, report("F", "2", "32=400|")))
    shown = frames.sections(meter, 6_000, frames.Status(wall=1_000.0))
    assert shown["omitted"] is None and shown["band"]["head"] != "Do not rely on these figures" and not [each for each in troubles if each.text]
    assert shown["feed"]["text"].endswith("; by reports: 3 changes, 1 fill, 1 order carried in"), shown["feed"]
    assert {order.id: order.volume for order in meter.month.view().orders} == {1: 600, 2: 1000}


# ---------------------------------------------------------------- item 2: symbols and accounts


OTHER = QUOTES[1].replace("55=BR", "55=GD")


def test_item_2_several_symbols_are_refused(tmp_path):
    """A bid in one contract and an ask in another are no quote."""
    path = tmp_path / "out"
    path.write_text("old")
    done = run(log_of(QUOTES[0], OTHER), "-o", path)
    assert done.status == 1 and path.read_text() == "old", done
    assert "more than one symbol (55): BR (1 message), GD (1 message). Name one with --symbol" in done.complaint, done.complaint
    for symbol, line in (("BR", "add 5000 1 buy 8446 1000"), ("GD", "add 5000 1 sell 8458 1000")):
        one = run(log_of(QUOTES[0], OTHER), "--symbol", symbol)
        assert one.status == 0 and one.printed.splitlines()[2:] == [line] and "1 message of " in one.complaint, one
    wrong = run(log_of(QUOTES[0], OTHER), "--symbol", "XX", "-o", path)
    assert wrong.status == 1 and path.read_text() == "old" and "no message has the symbol (55) XX; there are: BR" in wrong.complaint, wrong


def test_item_2_a_cancel_has_its_orders_symbol():
    cancel = f"35=F|11=3|41=1|60={DATE}-11:00:00.000|"
    assert run(log_of(QUOTES[0], OTHER, cancel), "--symbol", "BR").printed.splitlines()[-1] == "cancel 3600000 1"
    assert "cancel" not in run(log_of(QUOTES[0], OTHER, cancel), "--symbol", "GD").printed, "it is not known there"
    assert run(log_of(*QUOTES, cancel)).status == 0, "with one symbol no option is needed"
    unknown = cancel.replace("41=1", "41=77")
    assert run(log_of(QUOTES[0], OTHER, unknown), "--symbol", "BR").complaint.count("refused 11: the order 41=77 is not known") == 1


def test_item_2_orders_without_a_symbol():
    bare = QUOTES[1].replace("55=BR|", "")
    done = run(log_of(QUOTES[0], bare))
    assert done.status == 1 and not done.printed and "BR (1 message), none (1 message)" in done.complaint, done
    named = run(log_of(QUOTES[0], bare), "--symbol", "BR")
    assert named.status == 1 and "line 2: refused 21: 55 is absent" in named.complaint, named
    assert run(log_of(*(body.replace("55=BR|", "") for body in QUOTES))).status == 0
    twice = run(log_of(QUOTES[0], QUOTES[1].replace("55=BR", "55=BR|55=GD")))
    assert twice.status == 1 and "line 2: refused 21: 55 is there twice" in twice.complaint, twice


def test_item_2_several_accounts_are_refused():
    mine, its = QUOTES[0].replace("35=D|", "35=D|1=A7|"), QUOTES[1].replace("35=D|", "35=D|1=B2|")
    done = run(log_of(mine, its))
    assert done.status == 1 and not done.printed and "more than one account (1): A7 (1 message), B2 (1 message). Name one with --account" in done.complaint
    assert run(log_of(mine, its), "--account", "A7").status == 0


def test_item_2_accounts_of_another_symbol_are_nobodys_business():
    mine, its = QUOTES[0].replace("35=D|", "35=D|1=A7|"), OTHER.replace("35=D|", "35=D|1=B2|")
    assert run(log_of(mine, its), "--symbol", "BR").status == 0


def test_item_2_a_statement_of_one_symbol(tmp_path):
    """A quantum whose start names no symbol takes messages of one."""
    done = command.run("statement", *files(tmp_path, month_of(), log_of(QUOTES[0], OTHER)))
    assert done.status == 1 and not done.printed and f"the quantum that starts {START}: it has messages of more than one symbol" in done.complaint
    named = command.run("statement", *files(tmp_path, month_of(), log_of(QUOTES[0], OTHER)), "--symbol", "BR")
    assert named.printed and named.status == 0 and "1 message of GD skipped" in named.printed, named
    mine, its = QUOTES[0].replace("35=D|", "35=D|1=A7|"), QUOTES[1].replace("35=D|", "35=D|1=B2|")
    assert "more than one account" in command.run("statement", *files(tmp_path, month_of("BR"), log_of(mine, its))).complaint
    chosen = command.run("statement", *files(tmp_path, month_of("BR"), log_of(mine, its)), "--account", "A7")
    assert chosen.status == 0 and "1 message of BR B2 skipped." in chosen.printed, chosen.complaint
    with pytest.raises(TextError):
        month_sources.from_list(str(tmp_path / "month"), PLAIN, [str(tmp_path / "log")])


def test_item_2_the_live_page_takes_one_symbol(tmp_path):
    """What is of another symbol than the first message of the quantum is left out, and the page says so."""
    opened = month_of().rsplit("close", 1)[0]
    meter, troubles = watched(tmp_path, opened, log_of(QUOTES[0], OTHER))
    assert meter.month.report().orders == 1 and meter.problem_count == 1
    assert any("it has messages of more than one symbol (55): BR (1 message), GD (1 message). Name one with --symbol" in each.text for each in troubles)
    both = log_of(QUOTES[0].replace("35=D|", "35=D|1=A7|"), QUOTES[1].replace("35=D|", "35=D|1=B2|"))
    assert watched(tmp_path, opened, both)[0].month.report().orders == 1
    chosen, troubles = watched(tmp_path, opened, both, account="B2")
    assert chosen.month.report().ask == 8458 and not [each for each in troubles if each.text]


# ---------------------------------------------------------------- item 3: where messages start


CANCEL = f"35=F|11=3|41=1|55=BR|60={DATE}-11:00:00.000|"


@pytest.mark.parametrize("prefix", [b"[", b":", b"'", b",", b"OUT:", "\u00a0".encode(), b"\xa0", b"5", b"=", b"8", b"8=", b"\x00", b"|", b"x" * 70_000])
def test_item_3_any_prefix(prefix):
    """A cancel after an unknown prefix is not lost."""
    for data in (framed(CANCEL), framed(CANCEL).replace(b"\x01", b"|")):
        done = run(log_of(*QUOTES) + prefix + data + b"]\n")
        assert done.status == 0 and done.printed.splitlines()[-1] == "cancel 3600000 1", (prefix, done)


GOOD = framed(QUOTES[0])
DAMAGED = [
    (GOOD.replace(b"44=8446", b"44=8447"), "the checksum (10) is 113, and the bytes add up to 114"), (GOOD.replace(b"\x019=", b"\x019=1"), "9 says 162 bytes, and 10 follows after 62"),
    (GOOD[:40], "it is cut off: 9 says 62 bytes, and 25 are there"), (GOOD[:12], "it is cut off"), (GOOD[:7], "its version (8) is FIX."),
    (GOOD.replace(b"FIX.4.4", b"FIX.4.2"), "its version (8) is FIX.4.2"), (GOOD.replace(b"FIX.4.4", b"FIXT.1.1"), "its version (8) is FIXT.1.1"),
    (GOOD.replace(b"\x01", b"^"), "after 8=FIX.4.4 comes '^'"), (GOOD.replace(b"\x019=62", b""), "9, the length, does not follow 8"),
    (GOOD.replace(b"\x019=62", b"\x019=65536"), "at most 65,535"), (GOOD.replace(b"\x0110=", b"\x0111="), "no 10 with three digits"),
    (GOOD.replace(b"55=BR", b"5=BR"), "9 says 62 bytes, and 10 follows after 61"), (GOOD[:-1] + b"9", "no 10 with three digits"),
    (fix.framed(b"11=1\x0135=D\x01"), "35, the type, does not follow 9"), (fix.framed(b"35=\x01"), "35, the type, does not follow 9"),
]


@pytest.mark.parametrize("damaged, why", DAMAGED)
def test_item_3_what_is_no_message_is_reported(damaged, why):
    """With its line and the reason, and what follows it is read."""
    alone = run(log_of(*QUOTES))
    done = run(damaged + b"\n" + log_of(*QUOTES))
    assert done.status == 1 and done.printed == alone.printed, done
    assert "quoting: -: line 1: refused 20: " in done.complaint, done.complaint
    last = run(log_of(*QUOTES) + damaged)
    assert last.status == 1 and last.printed == alone.printed and "line 3: refused 20: " in last.complaint and why in last.complaint, last.complaint


class Noted(LogReader):
    """Notes each message: its line, and its fields, or why it is none."""

    def __init__(self) -> None:
        super().__init__({}, is_fast=False)
        self.noted: list = []

    def message(self, fields):
        self.noted.append((self.line, fields))

    def damaged(self, why):
        self.noted.append((self.line, why))


def noted(*pieces: bytes) -> list:
    reader = Noted()
    for at, piece in enumerate(pieces, start=1):
        reader.feed("log", piece, at == len(pieces))
    return reader.noted


def is_message(each) -> bool:
    return not isinstance(each[1], str)


def test_item_3_a_message_within_a_message():
    """What a message that was read has in a text is no message."""
    inner = "8=FIX.4.4 58=FIX.4.4"
    found = noted(framed(f"35=D|58={inner}|") + framed("35=0|"))
    assert [fields[0][1] for _, fields in found] == [b"D", b"0"]
    broken = noted(framed(f"35=D|58={inner}|")[:-2] + b"x\x01" + framed("35=0|"))
    assert [is_message(each) for each in broken] == [False, False, False, True]


def test_item_3_lines():
    """Lines end at LF, CR or CRLF, in any pieces."""
    beat = framed("35=0|")
    log = b"a\r\n" + beat + beat + b"\r" + beat[:-1] + b"\n\n" + beat.replace(b"\x01", b"|")
    for size in range(1, len(log)):
        assert [line for line, _ in noted(log[:size], log[size:])] == [2, 2, 3, 5], size


def plain_scan(data: bytes) -> list:
    """The messages of a log, read once more in the plainest way: places in bytes and whether each is a message."""
    found, at = [], 0
    while True:
        at = min((place for place in (data.find(b"8=FIX.", at), data.find(b"8=FIXT.", at)) if place >= 0), default=-1)
        if at < 0:
            return found
        end = None
        for separator in (b"\x01", b"|"):
            ten = data.find(separator + b"10=", at)
            parts = data[at : ten + 1].split(separator)
            piece = data[at : ten + 1].replace(separator, b"\x01")
            if ten < 0 or parts[0] != b"8=FIX.4.4" or parts[1][:2] != b"9=" or not 1 <= len(parts[1][2:]) <= 13 or not parts[1][2:].isdigit():
                continue
            body = piece[len(parts[0]) + len(parts[1]) + 2 :]
            digits, after = data[ten + 4 : ten + 7], data[ten + 7 : ten + 8]
            if len(body) == int(parts[1][2:]) and len(digits) == 3 and digits.isdigit() and not after.isdigit() and parts[2][:3] == b"35=" and parts[2] != b"35=":
                if int(digits) == sum(piece) % 256:
                    end = ten + 7 + (after == separator)
        found.append((at, end is not None))
        at = at + 1 if end is None else end


def random_log(rng: random.Random) -> bytes:
    """Messages and pieces of them, with any bytes between."""
    whole = [framed(body) for body in (*QUOTES, CANCEL, "35=0|", report("F", "2"), "35=D|58=8=FIX.4.4|")]
    parts = []
    for _ in range(rng.randrange(1, 12)):
        data = rng.choice(whole)
        if rng.random() < 0.5:
            data = data.replace(b"\x01", b"|")
        if rng.random() < 0.4:
            at = rng.randrange(len(data))
            data = rng.choice([data[:at], data[at:], data[:at] + bytes([rng.choice(b"\x01|=8910\n")]) + data[at + 1 :], data[:at] + data])
        parts.append(rng.choice([b"", b"\n", b"\r\n", b" ", b"8=FIX.", b"|", b"\x01", b"> "]) + data)
    return b"".join(parts)


def test_item_3_any_log_in_any_pieces(note):
    """Random logs: the messages of a plain reading, the same whatever pieces the bytes come in."""
    rng, messages, rejected = random.Random(3), 0, 0
    for _ in range(1_500):
        log = random_log(rng)
        due = noted(log)
        assert [is_message(each) for each in due] == [is_whole for _, is_whole in plain_scan(log)], log
        pieces, at = [], 0
        while at < len(log):
            pieces.append(log[at : at + rng.choice([1, 2, 7, 26, 90, 300])])
            at += len(pieces[-1])
        assert noted(*pieces) == due, log
        messages, rejected = messages + sum(map(is_message, due)), rejected + sum(not is_message(each) for each in due)
    assert messages > 3_000 and rejected > 2_000, (messages, rejected)
    note(f"fix logs: {messages} messages and {rejected} that are none, in any pieces")


@pytest.mark.parametrize("what", ["messages", "starts", "lengths", "tens", "one end"])
def test_item_3_time_grows_with_the_log(what):
    """No log makes the reader slow: below 10 µs of processor time a byte, whatever it holds."""
    size = 200_000
    nested = b"8=FIX.4.4|9=60000|35=D|"
    log = {
        "messages": log_of(*QUOTES) * (size // 200), "starts": b"8=FIX." * (size // 6), "lengths": nested * (size // len(nested)),
        "tens": (nested + b"|10=1") * (size // 28), "one end": one_end(60_000) * 3,
    }[what]
    began = time.process_time()
    count = len(noted(log))
    taken = time.process_time() - began
    assert count > 1_000 and taken < len(log) * 10e-6, (count, taken, len(log))


def one_end(size: int) -> bytes:
    """Starts whose lengths all lead to one field 10, with a wrong checksum each."""
    starts, due = [], size
    while due > 30:
        head = b"8=FIX.4.4|9=%05d|35=D|" % (due - 18)
        starts.append(head)
        due -= len(head)
    body = b"".join(starts) + b"x" * (due - 1) + b"|"
    return body + b"10=999|"


# ---------------------------------------------------------------- as a person tries it


def test_logs_without_requests(tmp_path):
    """Empty, noise, heartbeats alone: status 1 and what is there."""
    for given, said in ((b"", "there is no message (nothing starts with 8=FIX.)"), (b"8=FI\n\0\xff", "there is no message"),
                        (log_of("35=0|", "35=0|"), "2 messages of type '0' skipped"), (log_of("35=0|"), "no request (35=D, F or G) is read")):
        done = run(given)
        assert done.status == 1 and said in done.complaint and "Traceback" not in done.complaint, done


def test_many_refused_messages_are_folded():
    done = run(b"8=FIX.4.2|\n" * 1_000 + log_of(*QUOTES))
    assert done.status == 1 and "line 1: refused 20: its version (8) is FIX.4.2, and FIX.4.4 is read, and 999 more like it" in done.complaint
    assert done.complaint.count("\n") < 5
    assert json.loads(run(b"8=FIX.4.2|\n" * 1_000, "--json").printed)["refused"][0]["count"] == 1_000


def test_random_logs_end_well(tmp_path):
    """Damaged logs of both directions: a status and a sentence from `fix` and `statement`."""
    rng, read = random.Random(5), 0
    for _ in range(40):
        log = random_log(rng)
        done = run(log)
        rejected = [each for each in noted(log) if not is_message(each)]
        assert done.status in (0, 1) and "Traceback" not in done.complaint and (done.status or not rejected), log
        given = files(tmp_path, month_of("BR"), log)
        made = command.run("statement", *given)
        assert "Traceback" not in made.complaint and made.status >= bool(rejected), made.complaint
        assert bool(made.printed) == ("nothing of the logs can be read" not in made.complaint) and made.status >= (not made.printed), made.complaint
        if not made.printed:
            continue
        read += 1
        listed = month_sources.from_list(given[0], PLAIN, given[2:], LogOptions("requests"))
        assert len(listed.calls) >= 2 and bool(listed.reports) == any(each[1][0] == (b"35", b"8") for each in noted(log) if is_message(each)), log
    assert read > 10


UNKNOWN = [report("4", "4"), report("F", "2", "32=1000|151=0|").replace("17=E1", "17=E2")]
UNREADABLE = {
    "empty": b"", "noise": b"8=FI\n\0\xff", "heartbeats": log_of("35=0|"), "damaged": log_of(*QUOTES).replace(b"38=1000", b"38=1001"),
    "no prices": log_of(*(each.replace("44=84", "44=x") for each in QUOTES)),
    "unknown orders": log_of(*UNKNOWN), "another symbol": log_of(*(each.replace("55=BR", "55=XX") for each in QUOTES)),
}


@pytest.mark.parametrize("name", UNREADABLE)
def test_nothing_is_written_where_nothing_can_be_read(name, tmp_path):
    """No session without events, no table, no page: a program that ignores the status must not take it for a quantum without quotes."""
    log, given = UNREADABLE[name], ("--symbol", "BR")
    made = tmp_path / "made"
    done = [run(log, *given), command.run("fills", "-", *HEAD, *given, given=log), command.run("statement", *files(tmp_path, month_of("BR"), log)),
            run(log, *given, "-o", made), run(log, *given, "--day", "16", "--close", "1", "2")]  # fmt: skip
    assert [(each.status, each.printed) for each in done] == [(1, "")] * len(done) and not made.exists()
    assert all(each.complaint.startswith("quoting: ") for each in done)
    assert name != "another symbol" or all("XX" in each.complaint for each in (done[0], done[2]))


@pytest.mark.parametrize("log", [
    log_of(report("0", "0", "44=8446|151=5|59=3|")), log_of(report("0", "0", "44=8446|151=5|", at="20:00:00.000")),
    log_of(report("0", "0", "44=8446|151=5|", at="08:00:00.000"), report("4", "4", at="09:00:00.000").replace("17=E1", "17=E2")),
], ids=["IOC", "after", "before"])  # fmt: skip
def test_a_quantum_without_quotes(log):
    """What was read, and puts no order into the quantum, is a session without events."""
    done = run(log)
    assert done.status == 0 and done.printed == "row 1 1 31500000 1000 150 3 60%\nsp 8452\n", done
