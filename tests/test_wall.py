"""`quoting desk watch`: the wall's state against the library's answers, whatever order messages come in, and what it says of its logs."""

import json
import os
import random
import re
import subprocess
import sys
import threading
import time
from http.server import BaseHTTPRequestHandler, HTTPServer

import pytest
from prometheus_client.parser import text_string_to_metric_families

from quoting import calls as c
from quoting.answers import Accepted
from quoting.desk.desks import Desk
from quoting.month_sources import Sent
from quoting.states import State
from quoting.wall import hooks, metrics, running
from quoting.wall import tiles as t
from quoting.wall.alarms import Alarm, Alarms
from quoting.wall.hooks import Hook
from quoting.wall.recounting import Recounts
from quoting.wall.running import Call
from quoting.wall.state import Wall
from quoting.watch import feeds
from tests import desk_months
from tests.live_desk import LiveDesk
from tests.paths import EXAMPLES, ROOT
from tests.walls import SHIPPED, Feed, cells, moment, month_at, settled

pytestmark = pytest.mark.usefixtures("library")
MOMENTS = ["2026-11-02 10:30:00", "2026-11-02 16:12:07", "2026-11-03 09:15:00", "2026-11-04 21:00:00", "2026-11-05 18:44:59", "2026-11-06 12:00:00"]
END = moment("2026-12-01 00:00:00")


@pytest.fixture
def feed(tmp_path):
    return Feed(tmp_path / "desk")


def wall_of(feed, now):
    wall = Wall.load(feed.path)
    wall.catch_up(now)
    return wall


def compare(wall, feed, now):
    """Every open tile against the library; how many there are."""
    desk, count = Desk.load(feed.path), 0
    for tile in wall.tiles():
        if tile.now is None:
            continue
        month = month_at(desk, tile.planned, now)
        report, outlook, view = month.report(), month.outlook(), month.view()
        found = tile.now
        assert (found.time, found.kept, found.lapses, found.bid, found.ask) == (report.time, report.kept, report.lapses, report.bid, report.ask)
        assert (found.need, found.left, found.by, found.full) == (outlook.need, outlook.left, outlook.by, outlook.full)
        assert (found.is_rest, found.is_lost, found.state, found.widest) == (outlook.rest, outlook.lost, view.state, view.widest)
        count += 1
    return count


# ---------------------------------------------------------------- against the library


@pytest.mark.parametrize("text", MOMENTS)
def test_the_tiles_are_the_librarys_answers(feed, text):
    now = moment(text)
    feed.write(now)
    assert compare(wall_of(feed, now), feed, now) >= 1


def test_a_wall_that_runs_on_has_the_same_at_each_moment(feed):
    wall, count = Wall.load(feed.path), 0
    for text in MOMENTS:
        now = moment(text)
        feed.write(now)
        wall.files.looked = 0.0  # new files are looked for once a second
        wall.catch_up(now)
        count += compare(wall, feed, now)
    assert count >= 10


def test_after_the_month_the_figures_are_those_of_settle(feed):
    feed.whole()
    wall, due = wall_of(feed, END), settled(feed.path)
    assert cells(each for month in wall.months.values() for each in month.cells) == cells(due.cells)
    assert {name: (month.failed, month.fee) for name, month in wall.months.items()} == {month.instrument: (month.failed, month.fee) for month in due.months}
    assert wall.fee == due.fee == 11_255_633 + 3_423_329


def test_the_same_in_pieces_of_any_size(feed):
    """A message may come in two parts; opens and closes happen between any two of them."""
    lot, wall, now = random.Random(7), Wall.load(feed.path), moment("2026-11-02 06:00:00")
    while now < moment("2026-11-04 23:59:00"):
        now += lot.randrange(20 * 60_000)
        feed.write(now)
        wall.files.looked = 0.0
        wall.catch_up(now)
    feed.whole()
    wall.files.looked = 0.0
    wall.catch_up(END)
    assert cells(each for month in wall.months.values() for each in month.cells) == cells(settled(feed.path).cells)


def test_half_a_message_waits_for_the_rest(feed):
    now = moment("2026-11-02 12:00:00")
    feed.write(now)
    path = feed.folder / "20261102-north.log"
    data = path.read_bytes()
    path.write_bytes(data[:-40])
    wall = wall_of(feed, now)
    before = wall.counts()["messages"]
    path.write_bytes(data)
    wall.catch_up(now)
    assert wall.counts()["messages"] == before + 1
    assert compare(wall, feed, now)


# ---------------------------------------------------------------- late messages, rotation, restart


def test_a_late_message_runs_the_quantum_again(feed):
    """A report of the morning that comes in the afternoon: its figures are those of logs that had it in time."""
    now, early = moment("2026-11-02 16:00:00"), moment("2026-11-02 11:00:00")
    skipped = feed.write(now, lambda line: b"150=" in line.data and abs(line.time - early) < 20 * 60_000)
    assert skipped
    wall = wall_of(feed, now)
    before = {tile.key: tile.now for tile in wall.tiles()}
    for name, line in skipped:
        feed.append(name, [line])
    wall.catch_up(now)
    assert wall.late >= 1
    assert compare(wall, feed, now)
    assert {tile.key: tile.now for tile in wall.tiles()} != before


def test_a_late_message_of_a_closed_quantum_settles_it_again(feed):
    day, end = moment("2026-11-02 11:00:00"), moment("2026-11-03 23:59:00")
    skipped = feed.write(end, lambda line: b"150=" in line.data and abs(line.time - day) < 30 * 60_000)
    wall = wall_of(feed, end)
    before = cells(each for month in wall.months.values() for each in month.cells)
    for name, line in skipped:
        feed.append(name, [line])
    wall.catch_up(end)
    after = cells(each for month in wall.months.values() for each in month.cells)
    assert after != before
    due = cells(settled(feed.path).cells)
    assert after == {place: due[place] for place in after}


def test_a_pattern_is_looked_at_again_and_yesterday_stays(feed):
    """The shipped logs are a file a day: each new one is found, and what rests overnight is carried."""
    wall = Wall.load(feed.path)
    feed.write(moment("2026-11-02 23:59:00"))
    wall.catch_up(moment("2026-11-02 23:59:00"))
    fee = wall.fee
    now = moment("2026-11-03 16:00:00")
    feed.write(now)
    wall.files.looked = 0.0
    wall.catch_up(now)
    assert len(wall.files.logs) == 4 and fee > 0 and wall.fee >= fee
    assert any(tile.now is not None and tile.now.carried for tile in wall.tiles())
    assert compare(wall, feed, now)


def test_a_restart_shows_the_same(feed):
    now = moment("2026-11-05 16:00:00")
    wall = Wall.load(feed.path)
    for text in MOMENTS[:4]:
        feed.write(moment(text))
        wall.files.looked = 0.0
        wall.catch_up(moment(text))
    feed.write(now)
    wall.files.looked = 0.0
    wall.catch_up(now)
    again = wall_of(feed, now)
    assert [(tile.key, tile.kind, tile.now, tile.cell) for tile in again.tiles()] == [(tile.key, tile.kind, tile.now, tile.cell) for tile in wall.tiles()]
    assert again.fee == wall.fee


def test_many_records_at_once_show_what_one_by_one_shows(feed, monkeypatch):
    """States, since when, lapses and fills of a start in bulk, and its course with the best quotes once it is refined."""
    now = moment("2026-11-05 18:44:59")
    feed.write(now)
    slow = wall_of(feed, now)
    monkeypatch.setattr(running, "MANY", 1)
    monkeypatch.setattr(running, "SLICE", 7)
    fast = wall_of(feed, now)
    assert [(tile.key, tile.now) for tile in fast.tiles()] == [(tile.key, tile.now) for tile in slow.tiles()]
    is_coarse = 0
    for contract, each in fast.running.items():
        is_coarse += each.is_coarse
        each.refine(fast.lines(contract))
        while each.refine_on():
            pass
        if not each.is_closed:
            assert vars(each.meter.course) == vars(slow.running[contract].meter.course)
    assert is_coarse >= 2


def test_what_is_refused_among_many_is_said(tmp_path, monkeypatch):
    """70 orders rest, and the month takes 64: those refused are problems, in bulk as one by one, and the recount gets both."""
    desk = LiveDesk(tmp_path / "desk", ["BR-1.27"])
    start = desk.moment("6:00:00")
    for number in range(70):
        desk.new("BR-1.27", 1_000 + number, 1, "84.50", 100, start + 10 + number)
    desk.new("BR-1.27", 9_000, 2, "84.60", 100, start + 200)
    walls = []
    for many in (1, 10_000):
        monkeypatch.setattr(running, "MANY", many)
        wall = Wall.load(desk.path)
        wall.catch_up(int(1_000 * (start + 300)))
        walls.append(next(iter(wall.running.values())))
    fast, slow = walls
    assert [each.text for each in fast.meter.problems] == [each.text for each in slow.meter.problems] and len(fast.meter.problems) == 7
    assert [each.place for each in fast.meter.problems] == [each.place for each in slow.meter.problems]
    assert fast.meter.month == slow.meter.month and fast.meter.calls == slow.meter.calls == 72

    def calls(each):
        return [called for part in each.taken() for called in ([part.sent.block] if isinstance(part, Call) else [call.block for call in part.called()])]

    assert calls(fast) == calls(slow)


@pytest.mark.parametrize("first", ["a.log", "b.log"])
def test_a_report_in_two_logs_counts_once_whichever_comes_first(tmp_path, first):
    """The copy that is read first in the files' order counts, as in `desk settle`; here they differ in their times."""
    desk = LiveDesk(tmp_path / "desk", ["BR-1.27"], hours="06:00-07:40")
    start, numbers = desk.moment("6:00:00"), {"a.log": 5, "b.log": 50}
    wall = Wall.load(desk.path)
    for name in sorted(numbers, key=lambda name: name != first):
        desk.log, desk.number = desk.folder / "logs" / name, 0
        desk.quote("BR-1.27", 10, start + numbers[name])
        wall.files.looked = 0.0
        wall.catch_up(int(1_000 * (start + 600)))
    assert wall.counts()["duplicates"] == 2
    assert [tile.now.kept for tile in wall.tiles()] == [595_000]
    wall.catch_up(int(1_000 * desk.moment("8:00:00")))
    assert cells(each for month in wall.months.values() for each in month.cells) == cells(settled(desk.path).cells)


def test_a_file_that_grows_during_a_read_is_not_compared_as_a_whole(tmp_path, monkeypatch):
    path = tmp_path / "day.log"
    path.write_bytes(b"one\n")
    growing, read = feeds.Growing(str(path), True), os.read

    def late(descriptor, size):
        with open(path, "ab") as file:
            file.write(b"two\n")
        os.utime(path, (1, 1))
        return read(descriptor, size)

    monkeypatch.setattr(os, "read", late)
    assert growing.read() == b"one\ntwo\n"
    monkeypatch.setattr(os, "read", read)
    digest_of, asked = feeds.digest_of, []
    monkeypatch.setattr(feeds, "digest_of", lambda *given: asked.append(given) or digest_of(*given))
    assert growing.read() is None and not asked
    monkeypatch.setattr(feeds, "LARGE", 4)
    os.utime(path, (2, 2))  # a write has begun
    assert growing.read() is None and not asked
    with open(path, "ab") as file:
        file.write(b"three\n")
    assert growing.read() == b"three\n" and growing.read() is None and not asked
    path.write_bytes(b"ONE\ntwo\nthree\n")
    os.utime(path, (3, 3))
    assert growing.read() is None
    assert growing.read().kind == "rewritten" and len(asked) == 1


# ---------------------------------------------------------------- the desk's own files


def test_prices_and_charges_that_come_later_are_seen(feed):
    """A wall that started without the later prices and charges has the figures of `desk settle` once they are there."""
    feed.whole()
    folder = feed.path.parent
    whole = {name: (folder / name).read_text() for name in ("prices.csv", "charges.csv")}
    for name, text in whole.items():
        lines = text.splitlines(keepends=True)
        (folder / name).write_text("".join(line for line in lines if not line.startswith(("2026-11-03", "2026-11-04", "2026-11-05"))))
    wall = wall_of(feed, END)
    early, before = cells(each for month in wall.months.values() for each in month.cells), wall.fee
    for name, text in whole.items():
        (folder / name).write_text(text)
    wall.desk_files.looked = 0.0
    wall.catch_up(END)
    due = settled(feed.path)
    assert cells(each for month in wall.months.values() for each in month.cells) == cells(due.cells) != early
    assert wall.fee == due.fee != before


def test_a_desk_file_at_fault_is_said_and_the_wall_goes_on(feed):
    now = moment("2026-11-02 16:00:00")
    feed.write(now)
    wall, recounts = wall_of(feed, now), Recounts()
    recounts.end()
    prices, text = feed.path.parent / "prices.csv", (feed.path.parent / "prices.csv").read_text()

    def looked_at():
        wall.desk_files.looked = 0.0
        wall.catch_up(now)
        return wall.desk_files.fault, metrics.health(wall, recounts)[0]

    prices.write_text(text + "2026-11-05,GD-12.26,much\n")
    fault, is_well = looked_at()
    assert re.match(r"prices\.csv: line [0-9]+: .*'much'", fault) and not is_well and wall.tiles()
    prices.write_text(text)
    assert looked_at() == ("", True) and compare(wall, feed, now)
    desk = feed.path.read_text()
    feed.path.unlink()
    assert looked_at() == ("desk.toml: can't be read: No such file or directory", False)
    feed.path.write_text(desk.replace("MAKER07", "MAKER08"))
    fault, is_well = looked_at()
    assert "another start of the wall" in fault and not is_well and wall.desk.maker == "MAKER07"


# ---------------------------------------------------------------- logs that are not what they were


def test_a_truncated_log_is_said_on_the_tiles_concerned_until_it_is_whole_again(feed):
    now = moment("2026-11-02 16:00:00")
    feed.write(now)
    wall = wall_of(feed, now)
    north = feed.folder / "20261102-north.log"
    data = north.read_bytes()
    north.write_bytes(data[: len(data) // 2])
    wall.catch_up(now)
    kinds = {tile.symbol: tile.kind for tile in wall.tiles()}
    assert kinds["GD-12.26"] == "unknown" and kinds["PM-12.26"] != "unknown"
    said = t.said(next(tile for tile in wall.tiles() if tile.symbol == "GD-12.26"))
    assert "20261102-north.log was truncated at " in said.sentence and said.word == "Not known"
    north.write_bytes(data)
    wall.catch_up(now)
    assert {tile.kind for tile in wall.tiles()}.isdisjoint({"unknown"})
    assert compare(wall, feed, now)


def test_a_replaced_and_a_lost_log(feed):
    now = moment("2026-11-02 16:00:00")
    feed.write(now)
    wall = wall_of(feed, now)
    south = feed.folder / "20261102-south.log"
    data = south.read_bytes()
    south.unlink()
    wall.catch_up(now)
    gone = next(tile for tile in wall.tiles() if tile.symbol == "PM-12.26")
    assert gone.kind == "unknown" and "has gone away" in gone.doubt
    south.write_bytes(data[: len(data) // 3])
    for _ in range(3):
        wall.catch_up(now)
    assert next(tile for tile in wall.tiles() if tile.symbol == "PM-12.26").kind == "unknown"
    with open(south, "ab") as file:
        file.write(data[len(data) // 3 :])
    wall.catch_up(now)
    assert next(tile for tile in wall.tiles() if tile.symbol == "PM-12.26").kind != "unknown"
    assert compare(wall, feed, now)


def test_a_silent_feed_is_said(feed):
    now = moment("2026-11-02 16:00:00")
    feed.write(now)
    for path in feed.folder.glob("*.log"):
        os.utime(path, (1_000_000_000, 1_000_000_000))
    wall = Wall.load(feed.path, silence=60.0)
    wall.catch_up(now)
    assert {tile.kind for tile in wall.tiles() if tile.now is not None} == {"unknown"}
    assert all("No message since" in tile.doubt for tile in wall.tiles() if tile.now is not None)


def test_a_clock_that_is_behind_the_logs_is_said_and_the_logs_count(feed):
    now = moment("2026-11-02 16:00:00")
    feed.write(now)
    wall = Wall.load(feed.path, clock="feed")
    wall.catch_up()
    assert abs(wall.now - now) < 10 * 60_000 and any(tile.now is not None for tile in wall.tiles())
    wall = wall_of(feed, moment("2026-11-02 09:00:00"))
    assert wall.now > moment("2026-11-02 15:00:00")


# ---------------------------------------------------------------- tiles


def test_tiles_are_sorted_the_worst_first_and_say_what_they_are(feed):
    seen = set()
    for text in MOMENTS:
        now = moment(text)
        feed.write(now)
        tiles = wall_of(feed, now).tiles()
        turns = [tile.turn for tile in tiles]
        assert turns == sorted(turns)
        for tile in tiles:
            said = t.said(tile)
            assert said.word and said.number and said.sentence
            seen.add(tile.kind)
            if tile.now is not None and tile.kind in ("alarm", "risk", "lost"):
                assert tile.now.state != State.KEPT and said.word.isupper()
    assert len(seen) >= 4, seen


def test_before_and_after_the_hours_and_on_a_day_off(feed):
    feed.whole()
    assert {tile.kind for tile in wall_of(feed, END).tiles()} == set()
    wall = Wall.load(SHIPPED / "desk.toml")
    wall.files.patterns = []
    wall.catch_up(moment("2026-11-02 06:00:00"))
    assert {tile.kind for tile in wall.tiles()} == {"due"}
    wall.catch_up(moment("2026-11-02 23:59:00"))
    assert {tile.kind for tile in wall.tiles()} == {"ended"}


# ---------------------------------------------------------------- random months, in pieces


@pytest.mark.parametrize("seed", range(3))
def test_random_months_in_pieces_of_bytes_are_those_of_settle(tmp_path, seed):
    """Logs grow by pieces that end anywhere, now and then with a message that comes late; between them the clock goes on."""
    folder, lot = tmp_path / "desk", random.Random(seed)
    desk_months.write(folder, 300 + seed, 40)
    due = settled(folder / "desk.toml")
    data = {path: path.read_bytes() for path in Desk.load(folder / "desk.toml").logs}
    for path in data:
        path.write_bytes(b"")
    wall, places = Wall.load(folder / "desk.toml"), {path: 0 for path in data}
    while any(places[path] < len(found) for path, found in data.items()):
        path = lot.choice([path for path, found in data.items() if places[path] < len(found)])
        size = lot.choice([1, 37, 500, 9_000, 60_000])
        with open(path, "ab") as file:
            file.write(data[path][places[path] : places[path] + size])
        places[path] += size
        wall.catch_up(moment("2026-11-01 00:00:00"))
    wall.catch_up(END)
    assert cells(each for month in wall.months.values() for each in month.cells) == cells(due.cells)
    assert {name: month.fee for name, month in wall.months.items()} == {month.instrument: month.fee for month in due.months}


# ---------------------------------------------------------------- alarms


def looked(alarms, wall, now):
    wall.catch_up(now)
    return [(alarm.key, alarm.kind) for alarm in alarms.look(wall.tiles())]


def test_alarms_of_a_contract_that_is_lost_and_regained(tmp_path):
    desk = LiveDesk(tmp_path / "desk", ["BR-1.27"], lapses=3, hours="06:00-18:00")
    start = desk.moment("6:00:00")
    desk.quote("BR-1.27", 10, start)
    wall, alarms = Wall.load(desk.path), Alarms()

    def at(seconds):
        return int(1_000 * (start + seconds))

    assert looked(alarms, wall, at(60)) == []
    desk.cancel("BR-1.27", 10, start + 70)
    assert looked(alarms, wall, at(74)) == []
    assert looked(alarms, wall, at(76)) == [("BR-1.27", "lost")]
    assert looked(alarms, wall, at(90)) == [] and looked(alarms, wall, at(107)) == [("BR-1.27", "lost")]
    desk.new("BR-1.27", 100, 1, "84.50", 100, start + 120)
    assert looked(alarms, wall, at(121)) == [("BR-1.27", "regained")]
    alarms.mute("BR-1.27", 3_600)
    for turn in range(2):
        desk.cancel("BR-1.27", 100 + turn, start + 130 + 40 * turn)
        desk.new("BR-1.27", 101 + turn, 1, "84.50", 100, start + 150 + 40 * turn)
        found = looked(alarms, wall, at(151 + 40 * turn))
        assert [kind for _, kind in found] == (["lapses"] if turn else [])
    desk.cancel("BR-1.27", 102, start + 300)
    assert looked(alarms, wall, at(306)) == []  # a fourth lapse: nothing can be done about it
    assert [tile.kind for tile in wall.tiles()] == ["over"]


def test_the_latest_moment_is_said_ten_minutes_and_one_minute_before(tmp_path):
    desk = LiveDesk(tmp_path / "desk", ["BR-1.27"], hours="06:00-07:40")  # 100 minutes, 60 of them required
    start = desk.moment("6:00:00")
    desk.quote("BR-1.27", 10, start)
    desk.cancel("BR-1.27", 10, start + 1)
    wall, alarms = Wall.load(desk.path), Alarms()
    said = []
    for minute in (1, 29, 31, 38, 39.5, 41):
        said.append([kind for _, kind in looked(alarms, wall, int(1_000 * (start + 60 * minute)))])
    assert said == [["lost"], ["lost"], ["lost", "near"], ["lost"], ["lost", "near"], []]
    assert [tile.kind for tile in wall.tiles()] == ["over"]


def test_an_unreliable_feed_and_its_end_are_alarms_that_no_mute_silences(feed):
    now = moment("2026-11-02 16:00:00")
    feed.write(now)
    wall, alarms = wall_of(feed, now), Alarms()
    alarms.look(wall.tiles())
    for key in wall.keys.values():
        alarms.mute(key, 3_600)
    north = feed.folder / "20261102-north.log"
    data = north.read_bytes()
    north.write_bytes(data[:1_000])
    wall.catch_up(now)
    found = alarms.look(wall.tiles())
    assert {alarm.kind for alarm in found} == {"unknown"} and not any(alarm.is_silent for alarm in found)
    north.write_bytes(data)
    wall.catch_up(now)
    assert {alarm.kind for alarm in alarms.look(wall.tiles())} == {"known"}
    wall.catch_up(moment("2026-11-02 18:46:00"))
    assert {alarm.kind for alarm in alarms.look(wall.tiles())} >= {"ended"}


# ---------------------------------------------------------------- hooks


def alarm_of(text="no bid for 0:00:05"):
    return Alarm(1, 0, "BR-1.27", "lost", text, details={"contract": "BR-1.27"})


def called(hook, alarm):
    hook.call(alarm, "Client 07", "2026-11-02T16:00:00+03:00")
    end = time.monotonic() + 20
    while alarm.hook == "hook waits" and time.monotonic() < end:
        time.sleep(0.01)
    return alarm.hook


def script(path, text):
    path.write_text(f"#!/bin/sh\n{text}\n")
    path.chmod(0o755)
    return str(path)


def test_a_hook_gets_json_on_standard_input_and_no_shell(tmp_path):
    out = tmp_path / "out"
    hook = Hook(f"{script(tmp_path / 'hook', f'cat > {out}; echo $# >> {out}')} '$(touch {tmp_path / 'made'})' ';'")
    assert called(hook, alarm_of("`touch x`; $(id)")).startswith("hook done in ")
    first, count = out.read_text().splitlines()
    assert json.loads(first)["text"] == "`touch x`; $(id)" and count == "2"
    assert not (tmp_path / "made").exists()
    hook.end()


def test_a_hook_that_fails_or_hangs_is_said_and_the_next_one_is_called(tmp_path, monkeypatch):
    monkeypatch.setattr(hooks, "LIMIT", 0.5)
    failing = Hook(script(tmp_path / "fails", "exit 3"))
    assert "status 3" in called(failing, alarm_of())
    hanging = Hook(script(tmp_path / "hangs", "sleep 60"))
    assert "no answer in time" in called(hanging, alarm_of())
    assert "no answer in time" in called(hanging, alarm_of()) and hanging.failed == 2
    with pytest.raises(ValueError, match="no program"):
        Hook("/no/such/program --x")


def test_a_hook_by_post(tmp_path):
    got = []

    class Handler(BaseHTTPRequestHandler):
        def do_POST(self):
            got.append((self.path, json.loads(self.rfile.read(int(self.headers["Content-Length"])))))
            self.send_response(503 if self.path == "/down" else 200)
            self.end_headers()

        def log_message(self, *given):
            pass

    server = HTTPServer(("127.0.0.1", 0), Handler)
    threading.Thread(target=server.serve_forever, daemon=True).start()
    base = f"http://127.0.0.1:{server.server_port}"
    try:
        assert called(Hook(f"{base}/alarm"), alarm_of()).startswith("hook done")
        assert "answered 503" in called(Hook(f"{base}/down"), alarm_of())
    finally:
        server.shutdown()
    assert [(path, each["event"], each["contract"]) for path, each in got] == [("/alarm", "lost", "BR-1.27"), ("/down", "lost", "BR-1.27")]


# ---------------------------------------------------------------- the recount


def test_the_recount_agrees_call_by_call_and_a_difference_is_said(feed):
    now = moment("2026-11-02 16:00:00")
    feed.write(now)
    wall, recounts = wall_of(feed, now), Recounts()
    try:
        assert recounts.readings()["kind"] == "waiting"  # no tick at 0 calls
        wait_for(lambda: recounts.take(wall.running.values()) or recounts.readings()["kind"] == "agree")
        assert recounts.agreed == recounts.sent == sum(each.meter.calls for each in wall.running.values()) > 30
        running = next(iter(wall.running.values()))
        running.made.append(Call(Sent(c.block(c.Drop()), "day.log: line 9"), Accepted()))  # which the month was not given
        wait_for(lambda: recounts.take([running]) or recounts.parted)
        assert recounts.readings()["kind"] == "differ" and running.planned.contract.symbol in recounts.differs()
        assert [alarm.kind for alarm in Alarms().look(wall.tiles(), recounts.differs())][-1] == "differ"
    finally:
        recounts.end()


def wait_for(holds):
    end = time.monotonic() + 60
    while not holds():
        assert time.monotonic() < end
        time.sleep(0.05)


# ---------------------------------------------------------------- for programs


def test_the_dashboard_has_figures_that_the_wall_has(feed):
    """The shipped dashboard of Grafana: JSON, with no panel on another, and only names that /metrics gives."""
    now = moment("2026-11-02 16:00:00")
    feed.write(now)
    wall, recounts = wall_of(feed, now), Recounts()
    names = {family.name for family in text_string_to_metric_families(metrics.text(wall, recounts).decode())}
    recounts.end()
    board = json.loads((EXAMPLES / "grafana" / "wall.json").read_text())
    used, places = set(), set()
    for panel in board["panels"]:
        spot = panel["gridPos"]
        own = {(x, y) for x in range(spot["x"], spot["x"] + spot["w"]) for y in range(spot["y"], spot["y"] + spot["h"])}
        assert not own & places and max(x for x, _ in own) < 24
        places |= own
        for target in panel["targets"]:
            used |= set(re.findall(r"quoting_[a-z_]+", target["expr"]))
    assert used and used <= names, used - names
    assert {"quoting_state", "quoting_kept_seconds", "quoting_required_seconds", "quoting_lapses", "quoting_spread_steps", "quoting_feed_age_seconds", "quoting_recount_lag_calls"} <= used


# ---------------------------------------------------------------- load


@pytest.mark.long
@pytest.mark.xdist_group("watch")
def test_twenty_seconds_of_load(note):
    """60 contracts, 5,000 messages a second and 20 pages: every loss is seen, and after kill -9 the figures are the same."""
    words = [sys.executable, ROOT / "bench" / "wall_load.py", "--seconds", "20"]
    done = subprocess.run(words, capture_output=True, text=True, timeout=300, check=False)
    assert done.returncode == 0, done.stderr
    note("wall: " + "; ".join(done.stdout.splitlines()))
