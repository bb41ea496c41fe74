"""`quoting watch` without a browser: silence, both readings, strangers, crowds, slow pages, a fast feed, and the command.

All of it runs in one process, one test after another: some tests measure time.
"""

import asyncio
import http.client
import json
import re
import shlex
import sys
import threading
import time

import pytest
import websockets

from quoting.answers import line
from quoting.months import Month
from quoting.month_sources import Sent
from quoting.watch import clients, loop, recounter, server
from quoting.watch.changes import Changes
from quoting.watch.clocks import FeedClock
from quoting.watch.meter import Meter
from quoting.watch.recounting import Recounting
from recount import book
from tests import browser, command
from tests.browser import Served
from tests.paths import ROOT
from tests.watching import EXAMPLE, OPEN, QUOTES, blocks_of, connect, number, origin

pytestmark = [pytest.mark.usefixtures("library", "programs"), pytest.mark.xdist_group("watch"), pytest.mark.long]


def test_silent():
    """Silence counts in the open quantum alone: one whose end comes before the feed was silent for too long is not broken off."""
    watch = object.__new__(loop.Watch)  # without a feed and the recount's process
    for last, silent, due in [(5_000, 3, False), (5_000, 5, True), (5_000, 500, True), (58_000, 3, False), (58_000, 5, False), (58_000, 500, False)]:
        watch.silence, watch.meter, watch.clock = 4.0, Meter("quiet"), FeedClock(lambda: 1_000.0)
        assert not watch.is_silent(silent)
        for block in blocks_of(f"open row 1 1 0:01:00 1000 150 3 60% day 3 sp 8452\ntick {last}\n"):
            watch.meter.take(Sent(block, "line 1"), 1_000.0 - silent)
        assert watch.is_silent(silent) == due, (last, silent)


# ---------------------------------------------------------------- both readings


@pytest.mark.parametrize("most", [recounter.MOST_WALKED, 0], ids=["each tried", "halved"])
def test_first(monkeypatch, most):
    """Of many calls the first after which the readings differ is named, whether each is tried or they are halved."""
    locked = 137
    text = OPEN + QUOTES + "".join(f"amend {2_000 + at} 2 {8446 if at == locked else 8458} 1000\n" for at in range(200))
    calls, within = blocks_of(text), book.within
    month, due = Month(), 3 + locked + 2  # the locked quotes have lasted a millisecond when the next call comes
    called = [recounter.Called(block, f"call {at}", line(month.block(block))) for at, block in enumerate(calls, start=1)]
    check = recounter.Check(recounter.shown_by(month, False), month.words())
    monkeypatch.setattr(recounter, "MOST_WALKED", most)
    reader = recounter.Recounter()
    assert not [said for each in called[:50] for said in reader.take(each)]
    monkeypatch.setattr(book, "within", lambda row, sp, bid, ask: bid is not None and bid == ask or within(row, sp, bid, ask))
    assert not [said for each in called[50:] for said in reader.take(each)]
    first, last = reader.check(check)
    assert (first.call, first.is_exact) == (len(calls), False), first
    assert (last.call, last.is_exact, last.called.place) == (due, True, f"call {due}"), last


def test_prompt():
    """A check that is answered before the call that gave it has returned is answered, and the next one is made."""
    recount, month, given = object.__new__(Recounting), Month(), []

    class Prompt:
        def put(self, part):
            given.append(part)
            recount.hear(recounter.Agreed(0, 0.0))

    recount.kind, recount.parted, recount.waiting, recount.queue = "waiting", None, [], Prompt()
    recount.sent = recount.checked = 0
    recount.under_way, recount.looks, recount.took = False, False, 0.0
    for _ in range(2):
        recount.next = 0.0
        recount.check(month)
    assert len(given) == 2 and not recount.under_way, given


# ---------------------------------------------------------------- pages that come and go, and strangers


async def visit(served, over):
    """Pages that come and go, one after the other, until it is over."""
    while not over.is_set():
        try:
            async with connect(served) as page:
                await asyncio.wait_for(page.recv(), browser.PATIENCE)
        except (OSError, EOFError, asyncio.TimeoutError, websockets.exceptions.WebSocketException):
            await asyncio.sleep(0.001)


@pytest.mark.parametrize("turn", range(3))
def test_coming(turn):
    """Ctrl-C while pages come and go: it ends at once, with its sentence and nothing else."""

    async def visits():
        await asyncio.gather(*(visit(served, over) for _ in range(25)))

    over = threading.Event()
    with Served("--calls", EXAMPLE, "--no-follow") as served:
        coming = threading.Thread(target=lambda: asyncio.run(visits()))
        coming.start()
        try:
            time.sleep(0.5)
            took = served.stop()
        finally:
            over.set()
            coming.join()
    assert took < 2, f"Ctrl-C took {took:.2f} s"


def asked(served, method="GET", path="/", **headers):
    """The status and headers of a request."""
    link = http.client.HTTPConnection("127.0.0.1", served.port, timeout=browser.PATIENCE)
    link.putrequest(method, path, skip_host="Host" in headers)
    for name, value in headers.items():
        link.putheader(name, value)
    link.endheaders()
    answer = link.getresponse()
    body = answer.read()
    link.close()
    return answer.status, answer.headers, body


async def turned_away(served, **more):
    """The status by which a WebSocket is turned away before it is one; None where it is let in."""
    try:
        async with connect(served, **more):
            return None
    except websockets.exceptions.InvalidStatusCode as error:
        return error.status_code


async def closing_code(served, *messages):
    """The code by which the server closes a WebSocket on which this was sent."""
    async with connect(served) as page:
        try:
            for message in messages:
                await page.send(message)
            await asyncio.wait_for(read_on(page), browser.PATIENCE)
        except websockets.exceptions.ConnectionClosed as closed:
            return closed.code


async def read_on(page):
    while True:
        await page.recv()


def ask(n, t="0:00:05"):
    return json.dumps({"ask": {"n": n, "t": t, "id": "1", "price": "8446", "volume": "1000"}})


async def answers(served, count):
    """The answers to so many asks at once."""
    found = {}
    async with connect(served) as page:
        for at in range(count):
            await page.send(ask(at))
        while len(found) < count:
            told = json.loads(await asyncio.wait_for(page.recv(), browser.PATIENCE)).get("answer")
            if told:
                found[told["n"]] = told
    return [found[at] for at in range(count)]


def test_strangers():
    """Requests by another name, from another origin, of other kinds; messages that no page sends."""
    with Served("--calls", "-", "--silence", "0") as served:
        served.send(OPEN + QUOTES)
        here = f"127.0.0.1:{served.port}"
        others = ["127.0.0.1", f"example.org:{served.port}", f"{here}.org", "127.0.0.1:1"]
        for host, status in [(here, 200), (f"localhost:{served.port}", 200), *((other, 421) for other in others)]:
            assert asked(served, Host=host)[0] == status, host
        for status, method, *paths in [
            (200, "GET", "/", "/page.js", "/page.css"), (200, "HEAD", "/"), (405, "POST", "/"), (405, "PUT", "/page.js"), (405, "DELETE", "/page.css"),
            (404, "GET", "/live", "/server.py", "/../server.py", "/%2e%2e/server.py", "/index.html"),
        ]:
            assert [asked(served, method, path)[0] for path in paths] == [status] * len(paths), (method, paths)
        _, headers, _ = asked(served)
        policy = headers["Content-Security-Policy"]
        assert policy.startswith("default-src 'none'; script-src 'self'; ") and "unsafe" not in policy, policy
        assert (headers["X-Content-Type-Options"], headers["Referrer-Policy"], headers["Cache-Control"]) == ("nosniff", "no-referrer", "no-store")
        names = [origin(served), "http://example.org", "null", None]
        assert [asyncio.run(turned_away(served, origin=name)) for name in names] == [None, 403, 403, 403]
        upgrade = {"Upgrade": "websocket", "Connection": "Upgrade", "Sec-WebSocket-Key": "x" * 22 + "==", "Sec-WebSocket-Version": "13"}
        assert asked(served, path="/live", Host="example.org", Origin="http://example.org", **upgrade)[0] == 403
        assert asked(served, path="/live", Host=f"example.org:{served.port}", Origin=origin(served), **upgrade)[0] == 403
        for code, *messages in [(1003, "?"), (1003, b"\0"), (1003, "[" * 1_000), (1008, '{"close": 1}'), (1008, '{"ask": {"n": 1}}'), (1008, ask(-1)),
                                (1008, ask(1, "5" * 65)), (1009, "x" * 1_025), (1008, *map(ask, range(200)))]:
            found = asyncio.run(closing_code(served, *messages))
            assert found == code, (messages[0][:40], found, code)
        told = asyncio.run(answers(served, 12))
        assert [each["kind"] for each in told] == ["kept"] * 10 + ["refused"] * 2 and "ten" not in told[0]["head"], told
        assert "ask again" in told[-1]["lines"][0], told[-1]


def test_token():
    """On another address nothing is answered without the token of the link."""
    with Served("--calls", EXAMPLE, "--no-follow", "--listen", "127.0.0.1") as served:
        token = re.fullmatch(r"http://127\.0\.0\.1:\d+/\?token=(\S{20,})", served.link)[1]
        for path in ("/", "/page.js", "/page.css"):
            queries = ["", "?token=", f"?token={token[:-1]}", f"?token={token}"]
            assert [asked(served, path=path + query)[0] for query in queries] == [403, 403, 403, 200], path
        body = asked(served, path=f"/?token={token}")[2].decode()
        assert f'"page.js?token={token}"' in body and f'"page.css?token={token}"' in body
        assert asyncio.run(turned_away(served)) == 403


async def crowd(served):
    """A hundred pages are let in, the next is sent away."""
    pages = [await connect(served) for _ in range(clients.MOST_CLIENTS)]
    for page in pages:
        assert "head" in json.loads(await asyncio.wait_for(page.recv(), browser.PATIENCE))
    more = await closing_code(served)
    await asyncio.gather(*(page.close() for page in pages))
    return more


def test_crowd():
    with Served("--calls", EXAMPLE, "--no-follow") as served:
        assert asyncio.run(crowd(served)) == clients.TOO_MANY


def test_slow():
    """A page that is slow to take what it is sent skips states, and gets the newest one when it is ready again."""

    class Slow:
        def __init__(self):
            self.got, self.ready = [], asyncio.Event()

        async def send_text(self, text):
            self.got.append(json.loads(text))
            await self.ready.wait()

    async def run():
        page, watch = Slow(), object.__new__(loop.Watch)
        watch.shown = Changes()
        sending = asyncio.create_task(server.AskingClient(page, watch).send_changes())
        for at in range(100):
            watch.shown.take({"count": at, "head": "the same"}, lambda got: ("null", None))
            await asyncio.sleep(0)
        page.ready.set()
        await asyncio.sleep(0.05)
        sending.cancel()
        return page.got

    first, *others = asyncio.run(run())
    assert first["head"] == "the same" and others == [{"count": 99}], (first, others)


# ---------------------------------------------------------------- a fast feed

RATE, SECONDS, PAUSE = 1_000, 3, 0.005


def line_of(number):
    """An event with a volume of its own."""
    return f"amend {1_000 + number} 1 8446 {1_000 + number}\n"


def write_fast(path, written):
    """So many events a second, in steps of five milliseconds; `written` has when each was."""
    began, count = time.monotonic(), 0
    with open(path, "a", buffering=1 << 16) as file:
        while count < RATE * SECONDS:
            due = min(RATE * SECONDS, int((time.monotonic() - began) * RATE))
            file.write("".join(map(line_of, range(count, due))))
            file.flush()
            now = time.monotonic()
            written += [now] * (due - count)
            count = due
            time.sleep(PAUSE)


async def lags_seen(served, written):
    """For each event the time until a page had it, or one after it."""
    lags, shown = [], 0
    async with connect(served) as page:
        while shown < RATE * SECONDS:
            told = json.loads(await asyncio.wait_for(page.recv(), browser.PATIENCE))
            orders = (told.get("open") or {}).get("orders")
            if not orders:
                continue
            now, last = time.monotonic(), number(orders[0]["volume"]) - 1_000 + 1
            lags += [now - written[at] for at in range(shown, last)]
            shown = max(shown, last)
    return lags


def lag_and_lateness(path):
    """The greatest time by which a page was after the feed, and by which the writer was late, in seconds."""
    written = []
    path.write_text(OPEN + "add 0:00:00 1 buy 8446 999\nadd 0:00:00 2 sell 8458 1000\n")
    with Served("--calls", path) as served:
        writer = threading.Thread(target=write_fast, args=(path, written))
        writer.start()
        lag = max(asyncio.run(lags_seen(served, written)))
        writer.join()
    return lag, max(then - before for before, then in zip(written, written[1:])) - PAUSE


def test_fast(tmp_path, note):
    """A page stays within 300 ms of a feed of 1,000 events a second. Where the machine has so much other work that the writer itself was
    kept waiting, the page may be later by twice that; and it may be tried again."""
    found = []
    for turn in range(4):
        lag, late = lag_and_lateness(tmp_path / f"fast{turn}.calls")
        found.append((lag, late))
        if lag < 0.3 + 2 * late:
            note(f"watch: a feed of {RATE} events a second was seen within {1000 * lag:.0f} ms")
            return
    raise AssertionError(f"a page was after the feed, and the writer late, by {found} s")


def test_meter_share(note):
    """The meter takes less than a tenth of a core at that rate."""
    meter, blocks = Meter("fast"), blocks_of(OPEN + "add 0:00:00 1 buy 8446 999\nadd 0:00:00 2 sell 8458 1000\n" + "".join(map(line_of, range(RATE))))
    began = time.process_time()
    for block in blocks:
        meter.take(Sent(block, "line 1"), 0.0)
    share = time.process_time() - began
    assert share < 0.1, f"the meter takes {share:.3f} of a core at {RATE} events a second"
    note(f"watch: the meter took {100 * share:.1f}% of a core at {RATE} events a second")


# ---------------------------------------------------------------- the command

WRONG = [
    (2, "--calls FILE or --fix LOG is needed", []),
    (2, "not both", ["--calls", EXAMPLE, "--fix", "x"]),
    (2, "--fix LOG and --open FILE go together", ["--fix", "x"]),
    (2, "standard input goes with --calls", ["--fix", "-", "--open", EXAMPLE]),
    (2, "a speed is above 0", ["--calls", EXAMPLE, "--replay", "0"]),
    (2, "--replay plays a finished file", ["--calls", EXAMPLE, "--replay", "9", "--follow"]),
    (2, "--clock goes without --replay", ["--calls", EXAMPLE, "--replay", "9", "--clock", "feed"]),
    (2, "--start", ["--calls", EXAMPLE, "--start", "25:99"]),
    (2, "--start", ["--fix", "x", "--open", "y", "--start", "10:00:00"]),
    (2, "it can be 0 to 65535", ["--calls", EXAMPLE, "--port", "65536"]),
    (2, "is not a number", ["--calls", EXAMPLE, "--silence", "-1"]),
    (1, "no-such.calls: No such file or directory", ["--calls", "no-such.calls"]),
    (1, "no.log: No such file or directory", ["--fix", "no.log", "--open", EXAMPLE]),
    (1, "Is a directory", ["--calls", ROOT]),
    (1, "192.0.2.1, port", ["--calls", EXAMPLE, "--listen", "192.0.2.1"]),
]


@pytest.mark.parametrize(("status", "said", "words"), WRONG, ids=[said for _, said, _ in WRONG])
def test_wrong_use(status, said, words):
    """Wrong use and what is not there, as sentences."""
    done = command.run("watch", *words, *([] if "--port" in words else ["--port", "0"]))
    assert done.status == status and said in done.complaint and "Traceback" not in done.complaint, done


def test_without_uvicorn(monkeypatch):
    monkeypatch.setitem(sys.modules, "uvicorn", None)
    done = command.run("watch", "--calls", EXAMPLE)
    assert done.status == 1 and "apt-get install python3-uvicorn\n" in done.complaint, done


def test_help():
    """Its two examples run; another command on their port says so."""
    examples = re.findall(r"^  quoting watch (.*examples/.*)$", command.run("watch", "--help").printed, re.M)
    assert len(examples) == 2, examples
    for words in map(shlex.split, examples):
        with Served(*words) as served:
            taken = command.run("watch", "--calls", EXAMPLE, "--port", served.port)
            assert taken.status == 1 and "Address already in use; --port names another" in taken.complaint, taken
