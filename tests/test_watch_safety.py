"""The live page stays honest and reachable: feeds that may have lost or repeated calls, idle connections, names that are not UTF-8."""

import asyncio
import http.client
import json
import os
import socket
import time
from types import SimpleNamespace

import pytest
import websockets

from quoting import calls as c
from quoting.reading import PLAIN
from quoting.watch.recounting import Recounting
from quoting.watch import connections, doubts, frames, logged, loop
from quoting.watch.clocks import FeedClock
from quoting.watch.feeds import CallsFeed
from quoting.watch.logged import LogFeed
from quoting.watch.meter import Meter
from tests import command
from tests.browser import PATIENCE, Browser, Served
from tests.paths import EXAMPLES
from tests.test_feeds import append, log_of, message, quantum

pytestmark = [pytest.mark.usefixtures("library")]

OPEN = "open row 1 1 8:45:00 1000 150 3 60% day 3 sp 8452\n"
QUOTES = "add 0:00:01 1 buy 8446 3000\nadd 0:00:01 2 sell 8458 3000\n"
DEAL = "deal 0:00:02 1 1000\n"
NEXT_DAY = OPEN.replace("day 3", "day 4")


# ---------------------------------------------------------------- a feed that is watched


class NoRecount:
    """In the place of the recount's process."""

    parted = None
    made = 0

    def __init__(self):
        NoRecount.made += 1
        self.taken = 0

    def call(self, sent, answer):
        self.taken += 1

    def flush(self):
        pass

    def end(self):
        pass

    def differs(self):
        return None

    def readings(self, now):
        return {"kind": "agree", "head": "Both readings agree", "text": ""}


class Watched:
    """A file that is watched, with a monotonic time that is set."""

    def __init__(self, folder, text, feed=None):
        self.path = folder / "feed"
        if feed is None:
            self.path.write_text(text)
        self.watch = loop.Watch(feed or CallsFeed(str(self.path), PLAIN, True), FeedClock(), Meter("feed"), 0.0, None)
        self.read()

    def read(self):
        """Until there is nothing more; what the page shows then."""
        for _ in range(3):  # a file under another name is seen a read later
            self.drain()
        self.watch.is_reading = False
        return frames.sections(self.watch.meter, self.watch.meter.last, self.watch.status())

    def drain(self):
        while True:
            items = self.watch.feed.read()
            asyncio.run(self.watch.take(items))
            self.watch.settle()
            if not items and not self.watch.feed.behind:
                return

    def later(self, seconds):
        self.watch.doubt.until -= seconds
        return self.read()

    def renamed(self, text):
        """Saved from an editor: another file under the name."""
        other = self.path.with_suffix(".swap")
        other.write_text(text)
        other.rename(self.path)
        return self.read()

    @property
    def orders(self):
        view = self.watch.meter.month.view()
        return {order.id: order.volume for order in view.orders}

    @property
    def problems(self):
        return [each.sentence() for each in self.watch.meter.problems]


@pytest.fixture
def watched(tmp_path, monkeypatch):
    monkeypatch.setattr(loop, "Recounting", NoRecount)
    return lambda text, **more: Watched(tmp_path, text, **more)


def doubted(sections):
    """The band, where the page says that its figures are not reliable, and answers nothing."""
    band = sections["band"]
    assert band["kind"] == "doubt" and band["head"].startswith("Not reliable since ") and "Keep quoting" in band["why"], band
    assert sections["readings"]["kind"] != "agree" and "agree" not in sections["readings"]["head"], sections["readings"]
    assert sections["open"] is None or sections["open"]["stale"] and not sections["open"]["asks"]
    return band


def reliable(sections):
    assert sections["band"]["kind"] in ("rest", "keep", "hold", "lost", "none"), sections["band"]
    assert sections["readings"]["head"] == "Both readings agree"
    return sections


def test_a_cancel_written_right_after_a_truncation_is_read(watched):
    feed = watched(OPEN + QUOTES + "amend 0:00:05 1 8446 3000\n")
    reliable(feed.read())
    os.truncate(feed.path, len(OPEN + QUOTES))
    append(feed.path, "cancel 0:00:06 1\n")
    found = reliable(feed.read())
    assert feed.orders == {2: 3000} and found["state"]["key"] == "no-bid", feed.orders
    assert feed.problems[0] == loop.RELIABLE and feed.problems[1].startswith("the file was truncated: it had "), feed.problems
    assert feed.watch.recount.taken == 4 == feed.watch.meter.calls, "the recount has the same calls"


def test_a_file_saved_by_rename_applies_no_deal_twice(watched):
    feed = watched(OPEN + QUOTES + DEAL)
    assert feed.orders == {1: 2000, 2: 3000}
    reliable(feed.renamed(OPEN + QUOTES + DEAL + "tick 0:00:09\n"))
    assert feed.orders == {1: 2000, 2: 3000} and feed.watch.meter.last == 9_000
    reliable(feed.renamed("# a comment\nreport\n" + OPEN + QUOTES + "deal 0:00:02 2 500\ntick 0:00:09\n"))
    assert feed.orders == {1: 3000, 2: 2500}, "a call that was edited"
    assert feed.problems[0] == loop.RELIABLE and loop.REPEATED in feed.problems[1], feed.problems


@pytest.mark.parametrize("text", [
    OPEN + QUOTES.replace("1 buy 8446", "1 buy 8440") + DEAL, OPEN + QUOTES + DEAL.replace("1000", "1500") + "tick 0:00:09\n",
], ids=["as long as before", "longer"])
def test_a_file_written_again_in_place_is_read_again(watched, text):
    feed = watched(OPEN + QUOTES + DEAL)
    time.sleep(0.02)
    with open(feed.path, "r+") as file:  # never shorter than it was
        file.write(text)
    reliable(feed.read())
    assert feed.problems[1].startswith("the file was written again"), feed.problems
    bid = feed.watch.meter.month.report().bid
    assert (bid, feed.orders[1]) == ((8440, 2000) if "8440" in text else (8446, 1500)), (bid, feed.orders)


def test_a_touched_file_is_the_same(watched):
    feed = watched(OPEN + QUOTES + DEAL)
    os.utime(feed.path, (1_000, 1_000))
    reliable(feed.read())
    assert feed.problems == [] and feed.orders == {1: 2000, 2: 3000}


def test_a_truncated_file_that_lost_calls_stays_unreliable(watched):
    feed = watched(OPEN + QUOTES + DEAL + "tick 1:00:00\n")
    os.truncate(feed.path, len(OPEN + QUOTES))
    band = doubted(feed.read())
    assert band["sub"].startswith("The file was truncated: it had ") and band["sub"].endswith(f" and has {len(OPEN + QUOTES)}"), band
    assert "it ends at 0:00:01 of a quantum that was read up to 1:00:00" in band["why"] and "Start quoting watch again" in band["why"], band
    assert feed.watch.ask("2:00:00", "1", "8446", "3000")["lines"] == ["No answers while the figures are not reliable."]
    since = band["head"]
    doubted(feed.later(doubts.SETTLING + 1))
    append(feed.path, "tick 2:00:00\n" * 9)
    assert doubted(feed.read())["head"] == since, "new calls don't bring back lost ones"
    feed.path.write_text(OPEN + QUOTES + DEAL + "tick 1:00:00\n")
    reliable(feed.read())
    assert feed.orders == {1: 2000, 2: 3000}, "the whole feed was written again"


def test_a_file_copied_and_truncated_stays_unreliable(watched):
    """Calls may have been written between the copy and the truncation."""
    feed = watched(OPEN + QUOTES)
    feed.path.write_text("")
    doubted(feed.read())
    append(feed.path, DEAL)
    assert "it lacks day 3, expiry 1, quantum 1" in doubted(feed.read())["why"]
    month = watched(OPEN + "close 1 2\n" + NEXT_DAY + QUOTES)
    month.path.write_text(NEXT_DAY + QUOTES + "tick 0:00:03\n" * 5)
    assert "it lacks day 3" in doubted(month.read())["why"], "the cells of other days are no longer in the file"


def test_a_file_that_is_written_again_slowly_is_reliable_when_it_is_whole(watched):
    feed = watched(OPEN + QUOTES + DEAL)
    feed.path.write_text("")
    for text in (OPEN, QUOTES, DEAL[:7]):
        doubted(feed.read())
        append(feed.path, text)
    doubted(feed.read())
    append(feed.path, DEAL[7:])
    reliable(feed.read())
    assert feed.orders == {1: 2000, 2: 3000}


def test_a_rotated_file_that_goes_on_is_reliable(watched):
    """In an open quantum with an event; after its close with another quantum's open."""
    feed = watched(OPEN + QUOTES)
    reliable(feed.renamed("# the second file\n" + DEAL + "close 1 2\n"))
    assert feed.problems == ["the file was rotated: its name is another file now; it is read from its start"]
    reliable(feed.renamed(NEXT_DAY + QUOTES + DEAL))
    assert set(feed.watch.meter.cells()) == {(3, 1, 1)} and feed.orders == {1: 2000, 2: 3000} and NoRecount.made


@pytest.mark.parametrize(("before", "after"), [
    (OPEN + QUOTES, NEXT_DAY + QUOTES), (OPEN + "close 1 2\n", DEAL), (OPEN + "close 1 2\n" + NEXT_DAY, NEXT_DAY),
    (OPEN + QUOTES + "deal 0:00:02 1 1", DEAL),
], ids=["an open in an open quantum", "an event without a quantum", "a cell is missing", "within a line"])
def test_a_file_that_neither_goes_on_nor_is_whole_is_unreliable(watched, before, after):
    feed = watched(before)
    assert "Start quoting watch again" in doubted(feed.renamed(after))["why"]


def test_bytes_that_are_no_call_make_the_figures_unreliable(watched):
    """Nothing after them is read."""
    feed = watched(OPEN + QUOTES)
    feed.path.write_bytes(c.block(c.Report()) + c.pack([0]))
    band = doubted(feed.read())
    assert band["sub"].startswith("Stopped at word 2") and "can't be read again" in band["why"], band
    feed.path.write_text(OPEN + QUOTES + DEAL)
    reliable(feed.read())
    assert feed.orders == {1: 2000, 2: 3000}, "the whole feed was written again"


def test_a_line_that_broke_off_makes_the_figures_unreliable(watched, tmp_path):
    """Another writer opens the pipe and goes on; the line between is lost, and the month so far stays."""
    os.mkfifo(tmp_path / "feed")
    feed = watched(OPEN, feed=CallsFeed(str(tmp_path / "feed"), PLAIN, True))
    for text in (OPEN + QUOTES + "cancel 0:00:02 1", "1\ntick 0:00:03\n"):
        with open(feed.path, "w") as into:
            into.write(text)
        band = doubted(feed.read())
    assert band["sub"] == "The feed broke off within this line" and feed.orders == {1: 3000, 2: 3000}, band


def test_a_log_saved_again_is_read_again(watched, tmp_path):
    log, calls = tmp_path / "log", tmp_path / "list"
    sent = [message(1, "10:00:00.000"), message(2, "10:00:01.000"), message(3, "10:00:02.000")]
    calls.write_text(quantum("10:00:00.000").rsplit("close", 1)[0])
    log.write_bytes(log_of(*sent))
    feed = watched("", feed=LogFeed(str(log), str(calls), PLAIN, None, FeedClock(), True))
    feed.path = log
    assert sorted(feed.orders) == [1, 2, 3]
    reliable(feed.renamed(log_of(*sent, message(4, "10:00:03.000")).decode()))
    assert sorted(feed.orders) == [1, 2, 3, 4] and logged.REPEATED in feed.problems[1], feed.problems
    reliable(feed.renamed(log_of(message(5, "10:00:04.000")).decode()))
    assert sorted(feed.orders) == [1, 2, 3, 4, 5] and feed.watch.meter.problem_count == 4, "rotated"
    os.truncate(log, 0)
    assert "it lacks day 1" in doubted(feed.read())["why"]
    log.write_bytes(log_of(*sent))
    assert "it ends at 0:00:02 of a quantum that was read up to 0:00:04" in doubted(feed.read())["why"]


def test_a_late_message_runs_the_quantum_again(watched, tmp_path):
    """Nothing was lost: a fresh month and a fresh recount take all calls again, and the figures stay reliable."""
    log, calls = tmp_path / "log", tmp_path / "list"
    calls.write_text(quantum("10:00:00.000").rsplit("close", 1)[0])
    log.write_bytes(log_of(message(1, "10:00:01.000"), message(2, "10:00:05.000")))
    feed = watched("", feed=LogFeed(str(log), str(calls), PLAIN, None, FeedClock(), True))
    made = NoRecount.made
    append(log, log_of(message(3, "10:00:03.000")))
    reliable(feed.read())
    assert NoRecount.made == made + 1 and feed.watch.recount.taken == 4 and feed.watch.meter.last == 5_000 and sorted(feed.orders) == [1, 2, 3]
    assert feed.problems == [logged.LATE], feed.problems


# ---------------------------------------------------------------- the page


@pytest.mark.usefixtures("programs")
@pytest.mark.xdist_group("watch")
@pytest.mark.long
def test_the_page_says_in_its_largest_type_since_when_figures_are_not_reliable(tmp_path):
    path = tmp_path / "feed.calls"
    path.write_text((EXAMPLES / "watch.calls").read_text() + "tick 0:30:00\n")
    with Served("--calls", path, "--silence", "0") as served, Browser() as page:
        page.visit(served.link)
        page.until("both agree", lambda seen: seen["readingsKind"] == "agree")
        whole = path.read_text()
        os.truncate(path, len(whole.encode()) - 13)
        seen = page.until("it says so", lambda seen: seen["band"] == "doubt" and "it ends at" in seen["band-why"])
        assert seen["band-head"].startswith("Not reliable since ") and seen["title"].startswith("Not reliable since "), seen
        assert "agree" not in seen["readings"] and seen["state"] == "not known" and "not reliable" in seen["ask-why"], seen
        sizes = page.run("return [...document.querySelectorAll('body *')].filter(each => each.checkVisibility())"
                         ".map(each => [parseFloat(getComputedStyle(each).fontSize), each.dataset.figure])")
        assert max(sizes, key=lambda size: size[0])[1] == "band-head", max(sizes, key=lambda size: size[0])
        page.shoot("doubt")
        saved = path.with_suffix(".swap")
        saved.write_text(whole + "tick 0:30:01\n")
        saved.rename(path)
        page.until("it is reliable again", lambda seen: seen["band"] != "doubt" and seen["readingsKind"] == "agree")
        page.leave()


# ---------------------------------------------------------------- connections


def answered(port):
    connection = http.client.HTTPConnection("127.0.0.1", port, timeout=5)
    connection.request("GET", "/")
    return connection.getresponse().status


def test_idle_connections_do_not_lock_the_page_out():
    with Served("--calls", EXAMPLES / "watch.calls", "--no-follow") as served:
        idle = [socket.create_connection(("127.0.0.1", served.port), PATIENCE) for _ in range(450)]
        idle[-1].sendall(b"GET / HTTP/1.1\r\nHost: ")
        assert answered(served.port) == 200
        closed = sum(is_closed(each) for each in idle)
        assert closed >= len(idle) - connections.MOST_WAITING, closed
        for each in idle:
            each.close()


def is_closed(found):
    found.settimeout(0.02)
    try:
        return found.recv(1) == b""
    except TimeoutError:
        return False
    except ConnectionError:
        return True


class Inner:
    """In the place of uvicorn's protocol."""

    def __init__(self, **given):
        self.conn, self.closed = SimpleNamespace(their_state=connections.h11.IDLE), 0

    def connection_made(self, transport):
        pass

    def data_received(self, data):
        if data.endswith(b"\r\n\r\n"):
            self.conn.their_state = connections.h11.DONE

    def connection_lost(self, error):
        self.closed += 1

    def eof_received(self):
        return None


def test_a_request_must_be_complete_in_time():
    """However many bytes come meanwhile; a complete one may be answered for as long as it takes."""

    async def run():
        made, waiting = [], connections.Waiting(seconds=0.3)

        def connection():
            made.append(connections.prompt(Inner, waiting)())
            return made[-1]

        server = await asyncio.get_running_loop().create_server(connection, "127.0.0.1", 0)
        port = server.sockets[0].getsockname()[1]
        (_, whole), (_, slow), (_, silent) = [await asyncio.open_connection("127.0.0.1", port) for _ in range(3)]
        whole.write(b"GET / HTTP/1.1\r\n\r\n")
        for _ in range(8):
            slow.write(b"x")
            await asyncio.sleep(0.06)
        closed = [each.inner.closed for each in made]
        for each in (whole, slow, silent):
            each.close()
        server.close()
        return closed, len(waiting.found)

    assert asyncio.run(run()) == ([0, 1, 1], 0)


# ---------------------------------------------------------------- names and numbers


async def first_sections(served):
    origin = served.link.rstrip("/")
    async with websockets.connect(f"ws{origin[4:]}/live", origin=origin) as page:
        sections = json.loads(await asyncio.wait_for(page.recv(), PATIENCE))
        ask = {"n": 1, "t": "\udcff", "id": "1", "price": "1", "volume": "1"}
        await page.send(json.dumps({"ask": ask}))
        while "answer" not in (told := json.loads(await asyncio.wait_for(page.recv(), PATIENCE))):
            sections.update(told)
        return sections, told["answer"]


def test_a_name_that_is_not_utf_8_is_shown_escaped(tmp_path):
    log, calls = (os.path.join(os.fsencode(tmp_path), name) for name in (b"day\xff.log", b"day\xfe.month"))
    for path, data in ((log, log_of(message(1, "10:00:01.000"), b"8=FIX.4.4\x01oops")), (calls, quantum("10:00:00.000").encode() + b"tock\n")):
        with open(path, "wb") as file:
            file.write(data)
    with Served("--fix", os.fsdecode(log), "--open", os.fsdecode(calls), "--no-follow") as served:
        assert served.name.endswith("day\\xff.log")
        sections, answer = asyncio.run(first_sections(served))
        assert sections["head"]["name"] == "day\\xff", sections["head"]
        places = [row["place"] for row in sections["problems"]["rows"]]
        assert any("day\\xff.log: line 2" in place for place in places) and any("day\\xfe.month: line 4" in place for place in places), places
        assert answer["kind"] == "refused"


@pytest.mark.parametrize("port", ["0000099999999", "65536", "000000065536", "-1", "٣"])
def test_a_port_that_is_none_gives_a_sentence(port):
    done = command.run("watch", "--calls", EXAMPLES / "watch.calls", f"--port={port}")
    assert done.status == 2 and "argument --port: " in done.complaint and port in done.complaint and "Traceback" not in done.complaint, done


def test_no_agreement_while_the_recount_lags():
    """The page says on how many of how many calls both agree, and no longer that they do when that was seconds ago."""
    recounting = Recounting()
    recounting.kind, recounting.agreed, recounting.sent, recounting.agreed_at = "agree", 5, 9, 1_000.0
    soon, late = recounting.readings(1_002.0), recounting.readings(1_006.0)
    assert soon["kind"] == "agree" and soon["text"].startswith("on 5 of 9 calls, "), soon
    assert late["kind"] == "waiting" and late["head"] == "The recount lags" and "on 5 of 9 calls" in late["text"], late
    recounting.agreed = 9
    assert recounting.readings(1_060.0)["kind"] == "agree" and "on all 9 calls" in recounting.readings(1_060.0)["text"]
