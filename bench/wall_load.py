"""The wall under load: a desk of many contracts, its log written at some messages a second, and pages open.

    /usr/bin/python3 bench/wall_load.py --contracts 60 --rate 5000 --seconds 60 --pages 20

Half of the messages are requests, half are the exchange's reports. Every second one contract's quote is lost and comes back: the delay is from
the write to the log until the page has its tile. The writer, the page that is measured and the other pages are processes of their own, so that
no delay is this program's. It ends with the figures of the server's process: share of a processor, its work for an update, memory, how far the
recount is behind, and how long a start takes that reads the log again.
"""

import argparse
import json
import os
import re
import statistics
import subprocess
import sys
import tempfile
import time
import urllib.request
from multiprocessing import Process, Queue
from pathlib import Path
from queue import Empty

ROOT = Path(__file__).resolve().parent.parent
sys.path[:0] = [str(ROOT), str(ROOT / "python")]

from quoting import fix  # noqa: E402
from tests.live_desk import LiveDesk  # noqa: E402

TICK = 0.02  # seconds between two writes
PATIENCE = 10.0


class Maker:
    """Writes requests and reports for all contracts but the first, which is lost and quoted again."""

    def __init__(self, desk, symbols):
        self.desk, self.symbols = desk, symbols
        self.file = open(desk.log, "ab", buffering=0)
        self.count = self.number = 0
        start = desk.moment("6:00:00")
        for at, symbol in enumerate(symbols):
            desk.quote(symbol, 10 * at + 10, start + 60)
        self.names = [f"c{10 * at + 10}" for at in range(len(symbols))]

    def pair(self, at, text):
        """A request to replace a contract's bid, and the report that it was."""
        self.number += 1
        symbol, oid, old, new = self.symbols[at], 10 * at + 10, self.names[at], f"r{self.number}"
        price = f"84.{50 + self.number % 2}"
        self.names[at] = new
        request = f"35=G\x0111={new}\x0141={old}\x0155={symbol}\x0154=1\x0138=100\x0140=2\x0144={price}\x0160={text}\x01"
        report = f"35=8\x0137={oid}\x0111={new}\x0141={old}\x0117=L{self.number}\x01150=5\x0155={symbol}\x0154=1\x0144={price}\x01151=100\x0160={text}\x01"
        return b"> " + fix.framed(request.encode()) + b"\n< " + fix.framed(report.encode()) + b"\n"

    def write(self, messages):
        now = time.time()
        text = time.strftime("%Y%m%d-%H:%M:%S", time.gmtime(now)) + f".{int(1_000 * now) % 1_000:03}"
        made = [self.pair(1 + (self.number + at) % (len(self.symbols) - 1), text) for at in range(messages // 2)]
        self.file.write(b"".join(made))
        self.count += 2 * len(made)

    def toggle(self, oid):
        """The first contract's bid comes back under another id, and goes."""
        line = self.desk.report(t37=oid, t11=f"c{oid}", t150=0, t55=self.symbols[0], t54=1, t44="84.50", t151=100)
        gone = self.desk.report(t37=oid, t11=f"x{oid}", t41=f"c{oid}", t150=4, t55=self.symbols[0], t54=1)
        return line, gone


def writing(maker, rate, seconds, out):
    """The writer's process; at its end it says how many messages it wrote."""
    began = time.monotonic()
    while time.monotonic() - began < seconds:
        due = int((time.monotonic() - began) * rate) - maker.count
        if due >= 2:
            maker.write(due)
        time.sleep(TICK)
    out.put(maker.count)


def reading(link, pages, key, out):
    """A process of pages; with a key one that says when that contract's tile changes its kind, else the bytes that they got."""
    import asyncio

    import websockets

    address, sizes = re.sub("^http", "ws", link) + "live", [0]

    async def page():
        async with websockets.connect(address, origin=link.rstrip("/"), max_size=None) as socket:
            async for text in socket:
                at = time.time()
                sizes[0] += len(text)
                if key and f'"tile {key}"' in text:
                    out.put((at, json.loads(text)[f"tile {key}"]["kind"]))

    async def run():
        await asyncio.gather(*(page() for _ in range(pages)), return_exceptions=True)  # they end with the server

    asyncio.run(run())
    out.put(sizes[0])


def seen(kinds, began, kind):
    """Seconds until the tile had a kind; None where it did not get it."""
    end = time.time() + PATIENCE
    while time.time() < end:
        try:
            at, found = kinds.get(timeout=0.5)
        except Empty:
            continue
        if at >= began and found == kind:
            return at - began
    return None


def used(pid):
    """Seconds of a processor, and MB of memory."""
    words = Path(f"/proc/{pid}/stat").read_text().rpartition(")")[2].split()
    memory = re.search(r"VmRSS:\s+(\d+)", Path(f"/proc/{pid}/status").read_text())
    return (int(words[11]) + int(words[12])) / os.sysconf("SC_CLK_TCK"), int(memory[1]) / 1_024


def started(desk):
    """The server, with its modules compiled as those of an installed package are; when it was started, and its link."""
    env = {**os.environ, "PYTHONPYCACHEPREFIX": str(desk.folder / "compiled")}
    env.pop("PYTHONDONTWRITEBYTECODE", None)
    words = [ROOT / "quoting", "desk", "watch", str(desk.path), "--port", "0", "--silence", "0"]
    process = subprocess.Popen(words, stdout=subprocess.PIPE, env=env)
    return process, re.search(r"(http://\S+)", process.stdout.readline().decode())[1]


def status(link):
    with urllib.request.urlopen(f"{link}status.json", timeout=60) as answer:
        return json.loads(answer.read())


def measure(args, folder):
    symbols = [f"L{at:02}" for at in range(args.contracts)]
    desk = LiveDesk(folder / "desk", symbols)
    maker = Maker(desk, symbols)
    process, link = started(desk)
    kinds, sizes, written = Queue(), Queue(), Queue()
    pages = [Process(target=reading, args=(link, 1, symbols[0], kinds), daemon=True), Process(target=reading, args=(link, args.pages - 1, "", sizes), daemon=True)]
    writer = Process(target=writing, args=(maker, args.rate, args.seconds, written), daemon=True)
    for each in pages:
        each.start()
    time.sleep(3)
    load = os.getloadavg()[0]
    before, began = used(process.pid), time.monotonic()
    writer.start()
    delays, lags = losses(args, maker, link, kinds, began)
    count = written.get()
    after, gone = used(process.pid), time.monotonic() - began
    good = [1_000 * each for each in delays if each is not None]
    time.sleep(1)  # until all of it is read
    known = status(link)
    process.kill()
    process.wait()
    print(f"contracts {args.contracts}, pages {args.pages}, {gone:.0f} s, {count:,} messages written ({count / gone:,.0f} a second), load {load:.1f} to {os.getloadavg()[0]:.1f}")
    print(f"from log to page: {len(good)} of {len(delays)} seen, median {statistics.median(good):.0f} ms, worst {max(good):.0f} ms, {sum(each > 300 for each in good)} above 300 ms")
    print(f"the server: {100 * (after[0] - before[0]) / gone:.0f}% of a processor, {before[1]:.0f} MB before, {after[1]:.0f} MB after")
    print("its work, in ms of a processor: " + "; ".join(f"{name} {each['total'] / each['times']:.1f} in the mean, {each['slowest']:.0f} at most" for name, each in known["work"].items()))
    print(f"the recount: {lags[-1]:,} calls behind at the end, {max(lags):,} at most; to the other pages {sizes.get() / gone / 1e6:.2f} MB a second")
    restart(desk, figures(known))
    assert len(good) == len(delays), "a loss was not seen"


def losses(args, maker, link, kinds, began):
    """Loses the first contract's quote again and again: the delays, and how far the recount was behind."""
    delays, lags, oid = [], [], 10
    while time.monotonic() - began < args.seconds - 2:
        back, (_, gone) = 100_000 + len(delays), maker.toggle(oid)
        lost = time.time()
        maker.file.write(gone)
        delays.append(seen(kinds, lost, "alarm"))
        maker.file.write(maker.toggle(back)[0])
        oid = back
        time.sleep(0.9)
        found = status(link)["recount"]
        lags.append(found["calls"] - found["agreed"])
    return delays, lags


def figures(found):
    """What another start must show again: of each contract what does not run on with the clock."""
    return found["counts"]["messages"], {each["key"]: [each[name] for name in ("state", "lapses", "last") if name in each] for each in found["contracts"]}


def restart(desk, known):
    """After kill -9: how long until the wall has read everything again, and that it shows the same."""
    began = time.monotonic()
    process, link = started(desk)
    try:
        up = time.monotonic() - began
        while (found := status(link))["reading"]:
            time.sleep(0.02)
        took, work = time.monotonic() - began, used(process.pid)
        assert figures(found) == known, "another start shows other figures"
        each = 200_000 / found["counts"]["messages"]
        print(f"started again: {found['counts']['messages']:,} messages read in {took:.1f} s, {up:.1f} s of it until it listens, {each * took:.2f} s for each 200,000; "
              f"of a processor {work[0]:.2f} s, {each * work[0]:.2f} s for each 200,000; {work[1]:.0f} MB")
    finally:
        process.kill()
        process.wait()


def main():
    parser = argparse.ArgumentParser(description=__doc__, formatter_class=argparse.RawDescriptionHelpFormatter)
    parser.add_argument("--contracts", type=int, default=60)
    parser.add_argument("--rate", type=int, default=5_000, help="messages a second")
    parser.add_argument("--seconds", type=float, default=600)
    parser.add_argument("--pages", type=int, default=20)
    with tempfile.TemporaryDirectory(prefix="wall-") as folder:
        measure(parser.parse_args(), Path(folder))


if __name__ == "__main__":
    main()
