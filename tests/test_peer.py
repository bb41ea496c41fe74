"""Messages between QuickFIX, a FIX engine that terminals use, and our reader and writer (document 02, W11).

Messages that QuickFIX makes, bare and with the header and the tags that terminals send, are read by us; those that we write are read by
it, and one with another length or checksum is not; a session between its initiator and its acceptor over loopback is read as it came, and
a month takes its orders; and its acceptor is an exchange whose own log gives what it did to its orders, in a quantum and, by a desk, in a
month of several days, contracts and accounts. Fields must be equal each time, by the recount, `probe` and `replay`. tests/peer/peer.cpp is
QuickFIX's side.
"""

import csv
import random
import re
import subprocess
from datetime import date
from decimal import Decimal
from pathlib import Path
from random import Random
from typing import Any

import pytest

import quoting
from quoting.exchange import LogReader, milliseconds, quantum_of
from recount import fix, programs
from recount.book import BUY, SELL, Add, Amend, Cancel, Close, Deal, Look, Message, Open, Report, Row, kept_time, stretches
from recount.fix import END, Order
from tests import calls_text, command, messages, plain_desk
from tests.paths import TARGET, TESTS
from tests.running import run_program, words

pytestmark = [pytest.mark.usefixtures("programs", "library", "peer_built"), pytest.mark.xdist_group("peer")]

PEER = TARGET / "peer" / "peer"
SECONDS = 90
EACH = 300  # orders each way
HEADER = (34, 49, 52, 56)  # before the body
TERMINAL = {"D": (21, 40, 55, 59), "F": (54, 55), "G": (21, 40, 55, 59)}  # in it


@pytest.fixture(scope="module")
def peer_built() -> None:
    source = TESTS / "peer" / "peer.cpp"
    if PEER.exists() and PEER.stat().st_mtime > source.stat().st_mtime:
        return
    PEER.parent.mkdir(parents=True, exist_ok=True)
    flags = ["-std=c++14", "-O1", "-Wall", "-Wextra", "-Wno-deprecated"]
    subprocess.run(["c++", *flags, source, "-lquickfix", "-lpthread", "-o", PEER], check=True)


def peer(command: str, lines: list[str]) -> list[str]:
    given = "".join(f"{line}\n" for line in lines)
    done = subprocess.run([PEER, command], input=given, capture_output=True, text=True, timeout=SECONDS)
    assert done.returncode == 0, f"peer {command}: {done.returncode} {done.stderr}"
    return done.stdout.splitlines()


def ours(name: str, data: bytes) -> str:
    """What both the recount and the program print."""
    printed: str = getattr(programs, name)(data)
    assert run_program(name, data) == printed, data.hex()
    return printed


def order_line(order: Order, header: bool, *owner: str) -> str:
    """`owner` is a symbol and an account, where they are not the usual ones."""
    numbers = [order.numbers.get(tag, 0) for tag in fix.NUMBERS]
    return " ".join([order.kind, str(int(header)), *map(str, numbers), order.time.decode(), *owner])


def order_words(order: Order) -> bytes:
    """Case 10 of `probe`."""
    kind = next(number for number, kind in fix.KINDS.items() if kind == order.kind)
    return words(10, kind, *(order.numbers.get(tag, 0) % 2**32 for tag in fix.NUMBERS)) + order.time


def tags(data: bytes) -> list[int]:
    return [int(tag) for tag, _ in fix.fields(data)]


# ---------------------------------------------------------------- each way


def test_quickfix_makes() -> None:
    """QuickFIX makes, we read."""
    rng = random.Random(1)
    orders = [(messages.order(rng, rng.choice("DFG")), rng.random() < 0.7) for _ in range(EACH)]
    made = peer("make", [order_line(*item) for item in orders])
    assert len(made) == EACH
    for (order, header), line in zip(orders, made):
        data = bytes.fromhex(line)
        if header:
            found = tags(data)
            assert found[3:7] == list(HEADER) and set(TERMINAL[order.kind]) <= set(found[7:]), data
        else:
            assert sorted(tags(data)) == sorted((8, 9, 35, *fix.USED[order.kind], 60, 10)), data
        assert ours("probe", words(9) + data) == fix.line(order) + "\n", data


def test_quickfix_reads() -> None:
    """We write, QuickFIX reads; it does not where the length or the checksum is another."""
    rng = random.Random(2)
    orders = [messages.order(rng, rng.choice("DFG")) for _ in range(EACH)]
    written = [bytes.fromhex(ours("probe", order_words(order))[6:]) for order in orders]
    assert peer("parse", [data.hex() for data in written]) == [fix.line(order) for order in orders]
    wrong = [rng.choice([other_length, other_sum])(data).hex() for data in written]
    for data, said in zip(wrong, peer("parse", wrong)):
        assert said.startswith("rejected"), (data, said)


def other_length(data: bytes) -> bytes:
    body = fix.before_last(data).split(END, 2)[2]
    return messages.around(body, length=b"%d" % (len(body) + 1))


def other_sum(data: bytes) -> bytes:
    return data[:-4] + b"%03d" % ((int(data[-4:-1]) + 1) % 256) + END


# ---------------------------------------------------------------- a session

START = b"20261116-10:00:00.000"


def morning(rng: Random, count: int) -> list[Order]:
    """Orders that a month takes: each side is quoted, replaced, and at times taken back."""
    live: dict[int, int] = {}  # id to side
    out: list[Order] = []
    for id in range(1, count + 1):
        time = messages.shifted(START, 1_000 * id) or START
        new = {11: id, 54: rng.choice([BUY, SELL]), 38: rng.randrange(1, 2_000), 44: rng.randrange(8_400, 8_500)}
        old = rng.choice(list(live)) if live and rng.random() < 0.7 else None
        if old is None:
            out.append(Order("D", new, time))
        elif rng.random() < 0.3:
            out.append(Order("F", {11: id, 41: old}, time))
        else:
            out.append(Order("G", {**new, 41: old, 54: live[old]}, time))
        live.pop(old or 0, None)
        if out[-1].kind != "F":
            live[id] = out[-1].numbers[54]
    return out


def test_quickfix_session() -> None:
    """What came over the line: orders in their turn, and what the session itself sends, which is 20."""
    rng = random.Random(3)
    orders = morning(rng, 60)
    came = [bytes.fromhex(line) for line in peer("session", [order_line(order, True) for order in orders])]
    admin = [data for data in came if not re.search(rb"\x0135=[DFG]\x01", data)]
    assert {data.split(END)[2] for data in admin} >= {b"35=A", b"35=5"}, "no logon or logout came"
    for data in admin:
        assert ours("probe", words(9) + data) == "refused 20\n", data
    application = [data for data in came if data not in admin]
    assert len(application) == len(orders)
    for order, data in zip(orders, application):
        assert tags(data)[3:7] == list(HEADER), data
        assert ours("probe", words(9) + data) == fix.line(order) + "\n", data
    opened = Open([1, 1, 31_500_000, 1_000, 150, 3, 600], 16, 8_452)
    sent = [Message(START, data) for data in came]
    calls = [opened, *sent, Report(), Close(1, 1), Look(16, 1, 1)]
    lines = ours("replay", calls_text.calls_bytes(calls)).splitlines()
    due = ["refused 20" if data in admin else "accepted" for data in came]
    assert lines[1 : 1 + len(came)] == due and lines[-3].startswith("report open yes time 60000 "), lines


# ---------------------------------------------------------------- an exchange

EVENTS = {"add": Add, "amend": Amend, "cancel": Cancel, "deal": Deal}
SIDES = {"buy": BUY, "sell": SELL}


def truth_of(line: str, start: int) -> Add | Amend | Cancel | Deal:
    """What the exchange says that it did, as an event of the recount."""
    name, time, *rest = line.split()[3:]
    return EVENTS[name](milliseconds(time) - start, *(SIDES[word] if word in SIDES else int(word) for word in rest))


@pytest.mark.parametrize("seed", [4, 5])
def test_quickfix_exchange(seed: int) -> None:
    """QuickFIX's acceptor answers as an exchange does; from its own log of both directions comes the K of what it did."""
    orders = morning(random.Random(seed), 120)
    for order in orders:
        if 44 in order.numbers:  # so that bids are below asks
            order.numbers[44] = (8_400 if order.numbers[54] == BUY else 8_460) + order.numbers[44] % 50
    lines = peer("exchange", [order_line(order, True) for order in orders])
    log = b"\n".join(b"10:00:00 " + bytes.fromhex(line[5:]) for line in lines if line.startswith("wire "))
    start = milliseconds(START.decode())
    truth = [truth_of(line, start) for line in lines if line.startswith("truth ")]
    assert {type(event) for event in truth} == set(EVENTS.values()), "not everything happened"
    reader = LogReader({}, usual="1")
    for at in range(0, len(log), 1_000):
        reader.feed("exchange.log", log[at : at + 1_000], at + 1_000 >= len(log))
    counts = reader.counts
    assert not reader.reasons and reader.by == "reports" and counts.requests == len(orders)
    assert min(counts.rejects, counts.cancel_rejects, counts.duplicates, counts.fills) > 0, counts
    carried, found = quantum_of(reader.timelines.values(), start, start + 31_500_000)
    assert not len(carried) and len(found) == len(truth)
    row = Row(1, 1, 31_500_000, 300, 5_000, 30, 600)
    due = kept_time(stretches(row, 8_452, truth, row.length))
    rule = quoting.Rule(quoting.Row(*row._replace(share="60%")), sp=8_452)
    assert quoting.session(rule, found.data).kept == due > 0


# ---------------------------------------------------------------- a month

PROGRAMME = """name = "Two contracts"
timezone = "Europe/Moscow"

[quanta]
1 = "10:00-18:45"
2 = "19:00-23:50"

[instruments.brent]
step = "1"
rows = [ { expiry = 1, quanta = [1, 2], minimum = 600, a = "0.8%", b = "3", share = "60%" } ]

[instruments.gold]
step = "0.5"
lapses = 25
rows = [ { expiry = 1, quanta = [1, 2], minimum = 700, a = "0.6%", b = "3", share = "50%" } ]
"""
DESK = """maker = "M"
month = "2026-11"
programme = "programme.toml"
prices = "prices.csv"
charges = "charges.csv"
logs = ["logs/*.log"]
days = [16, 17, 18]

[[contract]]
instrument = "brent"
expiry = 1
symbol = "BR-12.26"
accounts = ["A7"]

[[contract]]
instrument = "gold"
expiry = 1
symbol = "GD-12.26"
"""
DAYS = (16, 17, 18)
OWNERS = [(symbol, account) for symbol in ("BR-12.26", "GD-12.26") for account in ("A7", "B2")]


class Quoting:
    """One account's requests in one symbol. ClOrdIDs count from 1 in each, so that two accounts use the same ones."""

    def __init__(self, rng: Random, symbol: str, account: str) -> None:
        self.rng, self.owner, self.next = rng, (symbol, account), 0
        self.live: dict[int, int] = {}  # id to side, as the maker believes it

    def line(self, time: bytes) -> str:
        """A new order on the side that has fewer; else mostly another price."""
        self.next += 1
        sides = list(self.live.values())
        side = BUY if sides.count(BUY) <= sides.count(SELL) else SELL
        old = self.rng.choice(list(self.live)) if len(self.live) > 7 or (self.live and self.rng.random() < 0.45) else None
        if old is not None:
            side = self.live.pop(old)
        price = (8_435 if side == BUY else 8_460) + self.rng.randrange(20)
        numbers = {11: self.next, 54: side, 38: self.rng.randrange(300, 2_000), 44: price}
        if old is not None and self.rng.random() < 0.4:
            return order_line(Order("F", {11: self.next, 41: old}, time), True, *self.owner)
        self.live[self.next] = side
        return order_line(Order("D", numbers, time) if old is None else Order("G", {**numbers, 41: old}, time), True, *self.owner)


def month_lines(rng: Random, each: int) -> list[str]:
    """Three days of requests from 9:50 to 23:50 in Moscow; between two days the session ends."""
    makers, lines = [Quoting(rng, *owner) for owner in OWNERS], []
    for day in DAYS:
        start = f"202611{day}-06:50:00.000".encode()
        times = [messages.shifted(start, at) or start for at in sorted(rng.sample(range(14 * 3_600_000), each))]
        lines += [rng.choice(makers).line(time) for time in times]
        lines += [order_line(Order("X", {}, times[-1]), True)] if day != DAYS[-1] else []
    return lines


def write_month(folder: Path, wire: list[bytes]) -> None:
    """A desk with a log for each session of the exchange."""
    sessions: list[list[bytes]] = []
    for data in wire:
        if b"\x0135=A\x01" in data and b"\x0149=MAKER01\x01" in data:
            sessions.append([])
        sessions[-1].append(data)
    assert len(sessions) == len(DAYS)
    (folder / "logs").mkdir(parents=True)
    for day, came in zip(DAYS, sessions):
        (folder / "logs" / f"202611{day}.log").write_bytes(b"".join(b"10:00:00 " + data + b"\n" for data in came))
    symbols = sorted({symbol for symbol, _ in OWNERS})
    charges = [f"2026-11-{day},{symbol},{quantum},{day * 100},{quantum * 70}\n" for day in DAYS for symbol in symbols for quantum in (1, 2)]
    files = {"programme.toml": PROGRAMME, "desk.toml": DESK, "charges.csv": "date,symbol,quantum,active,passive\n" + "".join(charges)}
    files["prices.csv"] = "date,symbol,price\n" + "".join(f"2026-11-13,{symbol},8452\n" for symbol in symbols)
    for name, text in files.items():
        (folder / name).write_text(text)


class TrueDesk(plain_desk.PlainDesk):
    """The desk recounted from what the exchange says that it did; no log is read."""

    def __init__(self, path: Path, truth: list[str]) -> None:
        super().__init__(path)
        self.truth = [line.split()[1:] for line in truth]

    def changes(self, contract: dict[str, Any], step: Decimal) -> list[tuple[int, type, tuple[int, ...]]]:
        made = []
        for symbol, account, name, time, id, *rest in self.truth:
            if symbol != contract["symbol"] or account not in contract.get("accounts", [account]):
                continue
            numbers = [SIDES[word] if word in SIDES else int(word) for word in rest]
            if name in ("add", "amend"):
                numbers[-2] = int(numbers[-2] / step)
            made.append((milliseconds(time), EVENTS[name], (int(id), *numbers)))
        return made


def test_quickfix_month(tmp_path: Path, note: Any) -> None:
    """A desk's month from the exchange's own logs, with resends of what the maker missed: each cell is that of what the exchange did."""
    lines = peer("exchange", month_lines(random.Random(6), 150))
    wire = [bytes.fromhex(line[5:]) for line in lines if line.startswith("wire ")]
    truth = [line for line in lines if line.startswith("truth ")]
    folder = tmp_path / "desk"
    write_month(folder, wire)
    done = command.run("desk", "settle", folder / "desk.toml", "-o", tmp_path / "out")
    assert (done.status, done.complaint) == (0, ""), done
    desk = TrueDesk(folder / "desk.toml", truth)
    cells, months = desk.settle()
    assert (tmp_path / "out" / "cells.csv").read_text() == cells and (tmp_path / "out" / "months.csv").read_text() == months
    found = list(csv.DictReader(cells.splitlines()))
    seen = {what: sum(each in data for data in wire) for what, each in (("rejected", b"\x01150=8\x01"), ("cancel rejected", b"\x0135=9\x01"))}
    seen["resent"] = sum(b"\x0143=Y\x01" in data and b"\x0135=8\x01" in data for data in wire)
    seen |= {name: sum(f" {name} " in line for line in truth) for name in EVENTS}
    seen |= {verdict: sum(row["verdict"] == verdict for row in found) for verdict in ("met", "failed")}
    starts = [desk.hours(date(2026, 11, day), 1)[0] for day in DAYS[1:]]
    books = [desk.changes(contract, Decimal(1)) for contract in desk.desk["contract"]]
    seen["carried"] = sum(len(plain_desk.resting(book, start)) for book in books for start in starts)
    assert len(found) == 12 and all(seen.values()), seen
    note(f"peer: {len(found)} cells of a month from QuickFIX's own logs", seen)
