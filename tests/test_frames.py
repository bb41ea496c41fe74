"""What the live page is handed: its sentences, its sections against the library and the recount, the course of the day, asks."""

import copy
import random
import time
import tracemalloc
from collections import Counter
from decimal import Decimal
from itertools import groupby

import pytest

from quoting import calls as c
from quoting.events import Add, Amend, Cancel
from quoting.months import Month
from quoting.native import Refused
from quoting.reading import Options
from quoting.month_sources import Sent, from_list
from quoting.watch import frames
from quoting.states import State
from quoting.watch.course import NEWEST, Course
from quoting.watch.feeds import Trouble
from quoting.watch.meter import Meter
from recount import account as accounts
from recount import book, programs
from tests import calls_text, known, message_lists, months
from tests.paths import EXAMPLES, PROGRAMMES

pytestmark = pytest.mark.usefixtures("library")

KEYS = ["kept", "no-bid", "no-ask", "neither", "crossed", "wide"]
WORDS = ["kept", "no bid", "no ask", "neither quote", "locked or crossed", "too wide"]
SERIES = [(expiry, quantum) for expiry in (1, 2) for quantum in (0, 1, 2)]
ROW = "1 1 8:45:00 1000 150 3 60%"
H, MIN, S = 3_600_000, 60_000, 1_000
CAME = 1_000_000.0
ALTERING = (c.Kind.DROP, c.Kind.CHARGE, c.Kind.WITHDRAW)
START = "20261115-10:00:00.000"


# ---------------------------------------------------------------- as the rules write it


def hms(ms, up=False):
    s = -(-ms // 1000) if up else ms // 1000
    return f"{s // 3600}:{s // 60 % 60:02}:{s % 60:02}"


def exact(ms):
    return hms(ms) + (f".{ms % 1000:03}" if ms % 1000 else "")


def fine(section):
    """The milliseconds of a figure with thousandths."""
    h, m, s = section["value"].split(":")
    assert section["fine"][0] == "." and len(section["fine"]) == 4, section
    return ((int(h) * 60 + int(m)) * 60 + int(s)) * 1000 + int(section["fine"][1:])


def part(kept, length):
    return f"{10_000 * kept // length / 100:.2f}%"


def meter_of(text, day_start=0, start=None, step=None):
    """A meter that has taken the calls of a text; `start` is each open's."""
    meter = Meter("Brent", day_start, step)
    for line, block in enumerate(c.blocks(calls_text.to_bytes(text))[0], start=1):
        meter.take(Sent(block, f"line {line}", start if block[0] in c.OPENS else None), CAME)
    return meter


def band(meter, now, feed="following"):
    found = frames.sections(meter, now, frames.Status(feed, CAME))["band"]
    return found["kind"], found["head"], found["sub"], found["why"]


# ---------------------------------------------------------------- the sentences, each on a month that comes to it

QUOTES = "\nadd {t} 1 buy 8446 1000\nadd {t} 2 sell 8458 1000\n"
LAST = "The lapse that is going on is the last one allowed ({}): a quote that comes back must stay to 18:45:00."
AT_ONCE = "Not kept now: only a quote at this very moment saves it."
WAIT = "Waiting for it is no new lapse; from then on no moment may be missed."


def opened(limit=None, row=ROW, sp=8452):
    return f"open row {row} day 15 sp {sp}" + ("" if limit is None else f" lapses {limit}")


KEEP = ("keep", "Keep 1:30:00 more", "from 17:15:00 at the latest")
REST = ("rest", "You may rest", "Met even if nothing more is kept.")
HOLD = ("hold", "Do not let go", "One more lapse loses it: keep on to 18:45:00.")
END = ("hold", "Keep on to the end", "Nothing to spare: every moment to 18:45:00.")
QUOTED, LATE = QUOTES.format(t="0"), QUOTES.format(t="0:15:00")
BACK = QUOTED + "cancel 6:00:00 2\nadd 7:00:00 3 sell 8458 1000"


def keep_cases():
    """A list of calls, the time now, and the band: kind, head, line below, last line."""
    one_of_two = "A wait until then is one of the 2 lapses still allowed; after it no moment may be missed."
    last_of_two = "A wait until then is the last lapse allowed (2 of 2); after it no moment may be missed."
    yield opened() + LATE, 4 * H, (*KEEP, "In pieces too, as long as it is 1:30:00 in all.")
    # Up for what is needed, down for the latest time.
    yield opened() + LATE, 4 * H + 202, (*KEEP, "In pieces too, as long as it is 1:30:00 in all.")
    yield opened() + LATE, 4 * H - 1, (
        "keep", "Keep 1:30:01 more", "from 17:14:59 at the latest", "In pieces too, as long as it is 1:30:01 in all.")
    yield opened(3) + LATE, 4 * H, (*KEEP, one_of_two)
    yield opened(2) + LATE, 4 * H, (*KEEP, last_of_two)
    yield opened(3) + LATE + "cancel 4:00:00 2", 5 * H, (*KEEP, WAIT)
    yield opened(2) + LATE + "cancel 4:00:00 2", 5 * H, (*KEEP, f"{WAIT} {LAST.format('2 of 2')}")
    # From one state that is not kept to another the lapse goes on, also in the millisecond of the change.
    yield opened(2) + LATE + "cancel 4:00:00 2\ncancel 5:00:00 1", 5 * H, (*KEEP, f"{WAIT} {LAST.format('2 of 2')}")
    yield opened(2) + QUOTED + "cancel 4:00:00 2\nadd 5:00:00 3 sell 8458 1000", 5 * H + 1, (
        "keep", "Keep 1:15:00 more", "from 17:30:00 at the latest", last_of_two)


def rest_cases():
    once = "Once: resting is the last lapse allowed ({}). A quote that comes back must stay to 18:45:00."
    yield opened() + QUOTED, 6 * H, (*REST, "")
    yield opened(2) + QUOTED, 6 * H, (*REST, "")
    yield opened(1) + QUOTED, 6 * H, (*REST, once.format("1 of 1"))
    yield opened(2) + QUOTED + "cancel 6:00:00 2", 7 * H, (*REST, "")
    yield opened(1) + QUOTED + "cancel 6:00:00 2", 7 * H, (*REST, LAST.format("1 of 1"))
    yield opened(1) + QUOTED + "cancel 6:00:00 2", 6 * H, (*REST, once.format("1 of 1"))
    yield opened(1) + QUOTED + "cancel 6:00:00 2", 9 * H, (*REST, "Its time is over: nothing is left to be kept.")
    yield opened(2) + BACK, 7 * H, (*REST, once.format("2 of 2"))


def hold_cases():
    enough = "The time kept is enough already."
    yield opened(0) + QUOTED, 6 * H, (*HOLD, f"0 lapses of 0 allowed. {enough}")
    yield opened(1) + LATE, 4 * H - 1, (*HOLD, "1 lapse of 1 allowed. 1:30:01 still to be kept.")
    for now in (7 * H, 7 * H + 1):  # the outlook of the first of them has him rest, if he goes in the millisecond in which he came back
        yield opened(1) + BACK, now, (*HOLD, f"1 lapse of 1 allowed. {enough}")
    yield opened(1) + QUOTED + "cancel 1:00:00 2\nadd 2:00:00 3 sell 8458 1000", 2 * H, (
        *HOLD, "1 lapse of 1 allowed. 4:15:00 still to be kept.")
    yield opened(0) + QUOTED + "cancel 6:00:00 2", 6 * H, (*HOLD, f"0 lapses of 0 allowed. {enough} {AT_ONCE}")
    yield opened(0), 0, (*HOLD, f"0 lapses of 0 allowed. 5:15:00 still to be kept. {AT_ONCE}")
    yield opened() + QUOTES.format(t="3:30:00"), 5 * H, (*END, "")
    yield opened(), 3 * H + 30 * MIN, (*END, AT_ONCE)
    yield opened(1) + QUOTES.format(t="3:30:00"), 3 * H + 30 * MIN, (*END, "")


def lost_cases():
    lost, why = ("lost", "Lost whatever comes"), "It will be failed, weight 0."
    yield opened(), 3 * H + 30 * MIN + 1, (*lost, "5:15:00 still to be kept, only 5:14:59 left.", why)
    yield opened(), 9 * H, (*lost, "5:15:00 still to be kept, only 0:00:00 left.", why)
    yield opened(0), 1, (*lost, "1 lapse, 0 allowed.", why)
    yield opened(1) + BACK + "\ncancel 7:30:00 1", 8 * H, (*lost, "2 lapses, 1 allowed.", why)
    # Too many lapses, though the time kept is enough; and too few milliseconds, though lapses are left.
    yield opened(0) + QUOTED + "cancel 6:00:00 2", 6 * H + 1, (*lost, "1 lapse, 0 allowed.", why)
    yield opened(9) + "\ntick 5:00:00", 5 * H, (*lost, "5:15:00 still to be kept, only 3:45:00 left.", why)
    yield opened(row="1 1 8:45:00 1000 150 0 60%", sp=0), 1 * H, (*lost, "Nothing can be kept: the spread limit is below 1.", why)


def in_utc(sentence):
    for time_of_day in ("18:45:00", ":00 at the latest", ":59 at the latest"):
        clock, _, rest = time_of_day.partition(" ")
        sentence = sentence.replace(time_of_day, f"{clock} UTC {rest}".rstrip())
    return sentence


@pytest.mark.parametrize(("text", "now", "due"), [*keep_cases(), *rest_cases(), *hold_cases(), *lost_cases()])
def test_sentences(text, now, due):
    """By a wall clock's start; in UTC and without a start the same, with what their times are."""
    assert band(meter_of(text, 10 * H), now) == due
    assert band(meter_of(text, start=START), now) == tuple(map(in_utc, due))
    kind, head, sub, why = band(meter_of(text), now)
    assert (kind, head) == due[:2] and "18:45:00" not in sub + why, (sub, why)
    has_time = any(word in due[2] + due[3] for word in ("18:45:00", "at the latest"))
    assert why.endswith("Times count from the quantum's start.") == has_time, why


def test_other_bands():
    meter = meter_of(opened() + QUOTES.format(t="0:15:00") + "tick 4:00:00", 10 * H)
    due = ("broken", "Feed broken off", "Not known since 14:00:00",
           "Keep quoting until it is back. It was then: keep 1:30:00 more, from 17:15:00 at the latest.")
    assert band(meter, 5 * H, "broken") == due
    found = frames.sections(meter, 5 * H, frames.Status("broken", CAME + 97.5, 97.5))
    assert found["open"]["stale"] and not found["open"]["asks"] and found["head"]["clock"] == "last 14:00:00", found["head"]
    assert found["state"] == {"key": "unknown", "word": "not known", "since": "last kept"}, found["state"]
    assert found["feed"] == {"kind": "broken", "text": "Feed silent for 0:01:37, 4 calls read"}
    assert found["alert"]["head"] == "Feed silent for 0:01:37."
    assert frames.day(meter, 5 * H, frames.Status("broken"), None)[0]["nowText"] == "last 14:00:00"
    closed = frames.Status("broken", CAME, why="standard input has closed")
    assert frames.sections(meter, 5 * H, closed)["feed"]["text"] == "Feed broken off: standard input has closed, 4 calls read"
    assert band(meter_of(opened() + QUOTES.format(t="0") + "tick 6:00:00", 10 * H), 6 * H, "broken")[3] == (
        "Keep quoting until it is back. It was then: you may rest, met even if nothing more is kept.")
    ended = frames.sections(meter, 5 * H, frames.Status("ended", CAME))
    assert ended["band"]["head"] == "Keep 1:30:00 more" and ended["head"]["clock"] == "last 14:00:00" and ended["open"]["asks"]
    assert ended["feed"]["text"] == "The file has ended, 4 calls read"
    busy = frames.sections(meter, 5 * H, frames.Status("reading", CAME))
    assert (busy["band"]["kind"], busy["band"]["head"], busy["band"]["sub"]) == ("reading", "Reading the feed", "4 calls so far")
    assert busy["open"] is None and busy["state"] is None and frames.day(meter, 0, frames.Status("reading"), None) == (None, None)
    kept = opened(1) + QUOTES.format(t="0") + "close 10 20"
    verdict = "The last: day 15, expiry 1, quantum 1 met, weight 20,000"
    assert band(meter_of(kept), 0) == ("none", "No quantum open", verdict, "No time is counted now.")
    assert band(meter_of(opened() + "\nclose 10 20"), 0)[2] == "The last: day 15, expiry 1, quantum 1 failed, weight 0"
    for text in ("", opened() + "\ndrop", kept + "\nwithdraw 15 1 1"):
        assert band(meter_of(text), 0)[2] == "None has been closed so far", text
    for given, feed, due in (({"start": START}, "following", "13:46:40 UTC"), ({"start": START}, "ended", ""), ({}, "following", "")):
        found = frames.sections(meter_of(kept, **given), 0, frames.Status(feed, CAME))["head"]
        assert found == {"name": "Brent", "what": "none open", "clock": due}, found
    title = frames.sections(meter, 4 * H, frames.Status())["band"]["title"]
    assert title == "Keep 1:30:00 more from 17:15:00 at the latest | Brent", title


# ---------------------------------------------------------------- the sections against the library and the recount


class Pair:
    """A meter, a month of the library and the recount's book that take the same calls."""

    def __init__(self, step=None):
        self.meter, self.month, self.book = Meter("x", 10 * H, step), Month(), book.Book()
        self.closed, self.refused = None, 0
        self.first, self.zone = 10 * H, ""  # the open quantum's start

    def take(self, block):
        call, before = programs.read_calls(block)[0][0], self.book.quoting
        ours = self.meter.take(Sent(block, "line 7"), CAME)
        theirs = self.book.call(call)
        self.month.block(block)
        assert isinstance(ours, Refused) == isinstance(theirs, book.Refused), (call, ours, theirs)
        if isinstance(theirs, book.Refused):
            self.refused += 1
        elif isinstance(call, book.Open):
            self.first, self.zone = 10 * H, ""
        elif isinstance(call, book.Close):
            self.closed = before.cell
        elif isinstance(call, book.Withdraw) and tuple(call) == self.closed:
            self.closed = None
        elif isinstance(call, book.Message) and not self.zone:
            h, m, s = call.start.decode()[9:].split(":")
            self.first, self.zone = (int(h) * 60 + int(m)) * MIN + int(s.replace(".", "")), " UTC"

    def clock(self, t):
        return (self.first + t) % (24 * H)

    def compare(self, now):
        """Every figure of the sections at a time, by the recount's answers, and by the library's own of a month ticked to it."""
        words = bytes(self.meter.month._words)
        found = frames.sections(self.meter, now, frames.Status("following", CAME + 1))
        day, _ = frames.day(self.meter, now, frames.Status("following", CAME + 1), None)
        assert found["differs"] is None, found["differs"]
        assert bytes(self.meter.month._words) == words, "the month itself was altered"
        assert found["problems"]["count"] == self.refused and len(found["problems"]["rows"]) == min(20, self.refused)
        self.compare_month(found["month"])
        if self.book.quoting is None:
            assert found["open"] is None and found["state"] is None and day is None and found["band"]["kind"] == "none"
            return
        ahead, theirs = copy.deepcopy(self.book), self.month.copy()
        last = max([0, *(event.t for event in ahead.quoting.events)])
        at = max(last, min(now, ahead.quoting.row.length))
        assert isinstance(ahead.call(book.Tick(at)), book.Accepted)
        theirs.tick(at)
        report, outlook = ahead.call(book.Report()), ahead.call(book.Outlook())
        assert (report.kept, report.bid, report.ask) == (theirs.report().kept, theirs.report().bid, theirs.report().ask)
        assert (outlook.need, outlook.by) == (theirs.outlook().need, theirs.outlook().by)
        self.compare_open(found, ahead.quoting, at, report, outlook)
        if at:
            self.compare_course(found, day, ahead.quoting, at, last)
        view = theirs.view()
        assert found["state"]["key"] == KEYS[view.state]
        shown = [(int(each["id"]), each["side"], each["price"], each["volume"]) for each in found["open"]["orders"]]
        assert shown == [(each.id, each.side, str(each.price), f"{each.volume:,}") for each in view.orders]
        assert [tuple(each)[0] for each in shown] == list(ahead.quoting.live)

    def compare_open(self, found, quoting, at, report, outlook):
        row, now_open = quoting.row, found["open"]
        wide, length = book.widest(row, quoting.sp), row.length
        kept, left, lapses, spread, weight = now_open["tiles"]
        assert fine(kept) == report.kept and fine(left) == outlook.left == length - at and fine(now_open["gone"]) == at
        limit = None if quoting.limit == book.NO_LIMIT else quoting.limit
        assert now_open["lapses"] == {"count": report.lapses, "limit": limit} and lapses["value"] == f"{report.lapses:,}"
        assert lapses["unit"] == ("no limit" if limit is None else f"of {limit} allowed")
        gap = None if report.bid is None or report.ask is None else report.ask - report.bid
        assert spread["value"] == ("none" if gap is None else str(gap)) and spread["unit"].endswith(f"at most {wide}"), (spread, wide)
        quotes = ["absent" if quote is None else str(quote) for quote in (report.bid, report.ask)]
        assert spread["below"] == f"bid {quotes[0]}, ask {quotes[1]}"
        assert (weight["value"], weight["unit"]) == (f"{outlook.weight_rest:,}", f"to {outlook.weight_keep:,}")
        bar, reach = now_open["bar"], report.kept + (outlook.left if wide >= 1 else 0)
        assert (bar["kept"], bar["reach"], bar["required"], bar["full"]) == (report.kept / length, reach / length, row.share / 1000, 0.8)
        assert bar["share"] == part(report.kept, length) and bar["labels"]["full"] == ["80%", hms(-(-800 * length // 1000), True)]
        assert bar["labels"]["required"][1] == hms(-(-row.share * length // 1000), True)
        self.compare_ahead(now_open["ahead"], outlook, wide)
        band = found["band"]
        kinds = {"lost"} if outlook.lost else {"rest", "hold"} if outlook.rest else {"keep", "hold"}
        assert band["kind"] in kinds, (band, outlook)
        assert (band["kind"] == "keep") <= (band["head"] == f"Keep {hms(outlook.need, True)} more"), (band, outlook)
        if band["kind"] == "keep":
            assert band["sub"] == f"from {hms(self.clock(outlook.by))}{self.zone} at the latest", (band, outlook)

    def compare_ahead(self, rows, outlook, wide):
        need, full, left, resting, keeping = rows
        for row, number, is_away in (
            (need, outlook.need, outlook.need > outlook.left or (outlook.need and wide < 1)), (full, outlook.full, outlook.full is None)):
            if is_away:
                assert row["value"] == "out of reach", (row, outlook)
            else:
                assert fine(row) == number if number else row["value"] == "nothing", (row, outlook)
        assert fine(left) == outlook.left
        assert (resting["value"], keeping["value"]) == (f"{outlook.weight_rest:,}", f"{outlook.weight_keep:,}")

    def compare_course(self, found, day, quoting, at, last):
        """States and times of the account, the stretches, and the buckets' sums."""
        whole = accounts.account(quoting.row, quoting.sp, quoting.events, at)
        assert [fine(each) for each in found["open"]["account"]] == list(whole.times)
        assert [each["key"] for each in found["open"]["account"]] == KEYS
        due = []
        for offset, length, state in reversed(whole.stretches):
            runs = offset + length == at
            to = "now" if runs else exact(self.clock(offset + length))
            size = hms(length) if runs else exact(length)
            due.append({"from": exact(self.clock(offset)), "to": to, "length": size, "key": KEYS[state], "word": WORDS[state]})
        shown = found["stretches"]
        assert shown == {"rows": due[:NEWEST], "earlier": max(0, len(due) - NEWEST)}, (shown, due)
        state = accounts.state(quoting.row, quoting.sp, quoting.live)
        since = whole.stretches[-1][0] if whole.stretches[-1][2] == state else at
        assert found["state"]["word"] == ("crossed" if state == 4 else WORDS[state])
        assert found["state"]["since"] == f"since {hms(self.clock(since))}, for {hms(at - since)}", (found["state"], since)
        before = accounts.account(quoting.row, quoting.sp, self.book.quoting.events, last).times if last else [0] * 6
        assert [sum(each[7 + number] for each in day["buckets"]) for number in range(6)] == list(before)
        assert day["running"] == {"from": last, "key": KEYS[state]} and day["now"] == at
        self.compare_quotes(day, last)

    def compare_quotes(self, day, last):
        """The lowest, highest and last quotes of each bucket, and those of now, by going through the events."""
        row, live, due, now = self.book.quoting.row, {}, {}, 0
        for event in [*self.book.quoting.events, book.Tick(last)]:
            quotes = book.best_bid(live, row.least), book.best_ask(live, row.least)
            for number in range(now // day["width"], -(-event.t // day["width"])) if event.t > now else ():
                due.setdefault(number, []).append(quotes)
            now = event.t
            book.pass_event(live, event)
        for number, *found in (each[:7] for each in day["buckets"]):
            for side in (0, 1):
                prices = [each[side] for each in due[number] if each[side] is not None]
                shown = [min(prices, default=None), max(prices, default=None), due[number][-1][side]]
                assert found[3 * side : 3 * side + 3] == shown, (number, found, due[number])
        for name, price in (("bid", book.best_bid(live, row.least)), ("ask", book.best_ask(live, row.least))):
            assert day[name] == (None if price is None else {"price": price, "text": f"{name} {price}"}), (name, day[name])

    def compare_month(self, section):
        places = [(day, *series) for day in range(1, 32) for series in SERIES]
        due, quoting = {}, self.book.quoting
        for place in places:
            cell = self.book.call(book.Look(*place))
            if not isinstance(cell, book.Refused):
                due[place] = cell
        at = None if quoting is None else quoting.cell
        found = {tuple(each["place"]): each for each in section["cells"]}
        assert set(found) == set(due) | ({at} if at else set()), (set(found), set(due), at)
        assert all((each["kind"] == "open") == (place == at) for place, each in found.items())
        for place, cell in due.items():
            self.compare_cell(found[place], cell)
        report = self.book.call(book.Report())
        assert [each["count"] for each in section["failed"]] == list(report.failed)
        fee = section["fee"]
        assert (fee["roubles"], fee["kopecks"]) == (f"{report.fee // 100:,}", f"{report.fee % 100:02}")
        first = min(due, default=(1, 1, 0))
        assert tuple(section["picked"]) == (at or self.closed or first), section["picked"]

    @staticmethod
    def compare_cell(found, cell):
        rows = dict(found["rows"])
        limit = "no limit" if cell.limit == book.NO_LIMIT else cell.limit
        assert found["kind"] == ("met" if cell.met else "failed") == rows["verdict"].split(":")[0]
        assert found["weight"] == rows["weight"] == f"{cell.weight:,}"
        assert found["depth"] == ((cell.weight - 10_000) / 10_000 if cell.met else 0)
        assert rows["kept"] == f"{hms(cell.kept)} of {exact(cell.length)}, {part(cell.kept, cell.length)}"
        assert rows["lapses"] == (f"{cell.lapses:,}, no limit" if limit == "no limit" else f"{cell.lapses:,} of {limit}")
        for name, kopecks in (("active charges A", cell.active), ("passive charges P", cell.passive)):
            assert rows[name] == f"{kopecks // 100:,} roubles {kopecks % 100:02} kopecks"
        if not cell.met:
            is_short = 1000 * cell.kept < cell.share * cell.length
            is_over = cell.limit != book.NO_LIMIT and cell.lapses > cell.limit
            assert ("too many lapses" in rows["verdict"], "below" in rows["verdict"]) == (is_over, is_short), rows


# ---------------------------------------------------------------- what the sentences promise, tried out on the recount


def ends_met(before, now, *ways):
    """Whether the cell is met if the quote is put up (True) or taken off (False) at these times, and stays so to the end."""
    ahead = copy.deepcopy(before)
    cell, length = ahead.quoting.cell, ahead.quoting.row.length
    for t, is_up in [(now, None), *ways]:
        if t >= length:
            break
        for id in list(ahead.quoting.live) if is_up is not None else ():
            assert isinstance(ahead.call(book.Cancel(t, id)), book.Accepted)
        for id, side in ((1, book.BUY), (2, book.SELL)) if is_up else ():
            assert isinstance(ahead.call(book.Add(t, id, side, 100 + id, 100_000)), book.Accepted)
        ahead.call(book.Tick(t))
    assert isinstance(ahead.call(book.Close(0, 0)), book.Accepted)
    return ahead.call(book.Look(*cell)).met


def try_promise(before, now, found, outlook):
    """Does what the band says from the next millisecond on, since the present one goes as the orders are; which band it was."""
    length, then = before.quoting.row.length, now + 1
    is_kept = accounts.state(before.quoting.row, before.quoting.sp, before.quoting.live) == 0
    if found["kind"] == "lost":
        assert not ends_met(before, now, (now, True)) and not ends_met(before, now, (now, False)), (found, outlook)
    elif now >= length:
        assert ends_met(before, now), (found, outlook)
    elif found["kind"] == "rest":
        assert ends_met(before, now, (then, False)) and ends_met(before, now, (then, True)), (found, outlook)
    elif found["kind"] == "keep":
        assert ends_met(before, now, (then, False), (outlook.by, True)), (found, outlook)
        assert is_kept or not ends_met(before, now, (then, False), (outlook.by + 1, True)), (found, outlook)
    else:
        assert found["kind"] == "hold" and ends_met(before, now, (now, True)), (found, outlook)
        assert not ends_met(before, now, (then, False), (then + 1, True)) or then == length, (found, outlook)
        assert ends_met(before, now, (then, True)) == is_kept, (found, outlook)
    return found["kind"] + found["head"][:7]


def toggled(rng, length):
    """A quantum in which the quote is put up and taken off a few times, by both of its orders or by one."""
    words = [1, 1, length, 10, 0, rng.choice([0, 3, 3, 3, 3]), rng.randrange(200, 799)]
    yield c.block(c.Open(words, 1, 100, rng.choice([0, 1, 1, 2, 3, c.NO_LIMIT])))
    live = set()
    for t in sorted(rng.choice([0, rng.randrange(length)]) for _ in range(rng.randrange(1, 9))):
        for id in rng.choice([(1,), (1, 2), (1, 2)]):
            yield c.block(Cancel(t, id) if id in live else Add(t, id, "buy" if id == 1 else "sell", 98 + id, 10))
            live ^= {id}


def test_promises(note):
    """At many moments of random quanta; each kind of band comes up."""
    rng = random.Random(35)
    tried = Counter()
    for _ in range(60):
        pair = Pair()
        for block in toggled(rng, 1000):
            pair.take(block)
            now = min(1000, rng.choice(moments(rng, pair.book.quoting)))
            while now is not None:
                shown = frames.sections(pair.meter, now, frames.Status())["band"]
                ahead = copy.deepcopy(pair.book)
                ahead.call(book.Tick(now))
                outlook = ahead.call(book.Outlook())
                tried[try_promise(pair.book, now, shown, outlook)] += 1
                now = outlook.by if shown["kind"] == "keep" and outlook.by > now else None  # at the latest time too
    assert len(tried) == 5 and min(tried.values()) >= 5, tried
    note(f"frames: {sum(tried.values())} promises of the band were tried out on the recount", tried)


def moments(rng, quoting):
    """Some times to look at: the last event's, just after it, anywhere, the end, and past it."""
    if quoting is None:
        return [0]
    last, length = max([0, *(event.t for event in quoting.events)]), quoting.row.length
    return [last, last + 1, rng.randrange(last, length + 1), length + 5]


def test_lists(note):
    """Sections after prefixes of the examples and of random lists."""
    rng = random.Random(31)
    lists = [c.blocks(calls_text.to_bytes(path.read_text()))[0] for path in sorted(EXAMPLES.glob("*.calls"))]
    lists += [c.blocks(calls_text.calls_bytes(months.any_calls(rng)[1]))[0] for _ in range(24)]
    lists += [c.blocks(calls_text.calls_bytes(message_lists.any_calls(rng)[1]))[0] for _ in range(4)]
    lists += [c.blocks(calls_text.calls_bytes(each()))[0] for each in (known.ask_calls, known.outlook_calls)]
    looked = 0
    for blocks in lists:
        pair, often = Pair(), max(1, len(blocks) // 12)
        for at, block in enumerate(blocks):
            if block[0] in ALTERING:  # what was made of the month before is old after the call
                pair.compare_month(frames.month(pair.meter))
            pair.take(block)
            if at % often == 0 or at == len(blocks) - 1 or block[0] in ALTERING:
                pair.compare(rng.choice(moments(rng, pair.book.quoting)))
                looked += 1
    note(f"frames: {looked} looks at {len(lists)} lists by both readings")


# ---------------------------------------------------------------- the course, millisecond by millisecond


def plain_course(notes, length, width, now):
    """Parts up to the last note, and stretches, times and lapses up to now, from a list of every millisecond."""
    at, held = 0, []
    shown = (3, None, None)
    for t in range(now):
        while at < len(notes) and notes[at][0] <= t:
            shown = notes[at][1:]
            at += 1
        held.append(shown)
    last, parts = notes[-1][0] if notes else 0, []
    for first in range(0, last, width):
        inside = held[first : min(first + width, last)]
        part = [first // width]
        for side in (1, 2):
            prices = [each[side] for each in inside if each[side] is not None]
            part += [min(prices, default=None), max(prices, default=None), inside[-1][side]]
        parts.append(part + [sum(each[0] == state for each in inside) for state in range(6)])
    stretches, start = [], 0
    for state, group in groupby(held, key=lambda each: each[0]):
        size = len(list(group))
        stretches.append((start, size, state))
        start += size
    lapses = sum(1 for is_lost, _ in groupby(held, key=lambda each: each[0] != 0) if is_lost)
    totals = tuple(sum(each[0] == state for each in held) for state in range(6))
    return parts, stretches[::-1], totals, lapses, bool(held) and held[-1][0] != 0


def any_notes(rng, length):
    notes, t = [], 0
    for _ in range(rng.choice([0, 1, 5, 40, 300])):
        t = min(length, t + rng.choice([0, 0, 1, 1, 2, rng.randrange(60), rng.randrange(length // 3)]))
        state = State(rng.randrange(6))
        notes.append((t, state, None if state in (1, 3) else rng.randrange(90, 99), None if state in (2, 3) else rng.randrange(100, 109)))
    return notes


def test_course():
    rng = random.Random(32)
    for _ in range(120):
        length = 1000 * rng.choice([1, 1, 2, 4, 7])
        course, notes = Course(length), any_notes(rng, length)
        assert course.width == -(-length // 1500) and -(-length // course.width) <= 1500
        for note in notes:
            course.note(*note)
        last = notes[-1][0] if notes else 0
        for now in {last, min(length, last + 1), rng.randrange(last, length + 1), length}:
            parts, stretches, totals, lapses, going = plain_course(notes, length, course.width, now)
            seen = course.at(now)
            assert course.parts == parts, (notes, course.parts, parts)
            assert [tuple(each) for each in seen.stretches] == stretches[:NEWEST] and seen.earlier == max(0, len(stretches) - NEWEST), notes
            assert (seen.totals, seen.lapses, seen.going) == (totals, lapses, going), (notes, now)


def test_day():
    """A client that gets the day piece by piece has in the end what a fresh one gets; of one quantum's nothing is left in the next."""
    rng = random.Random(33)
    meter, held, got, sent = Meter("x"), {}, None, 0
    rows = [(1, 0, 4_000), (1, 1, 9_000)]
    for expiry, quantum, length in rows:
        meter.take(Sent(c.block(c.Open([expiry, quantum, length, 10, 0, 9, 600], 1, 100)), ""), CAME)
        meter.take(Sent(c.block(Add(0, 1, "buy", 95, 10)), ""), CAME)
        meter.take(Sent(c.block(Add(0, 2, "sell", 101, 10)), ""), CAME)
        for t in range(0, length, 37):
            meter.take(Sent(c.block(Amend(t, rng.choice([1, 2]), rng.randrange(95, 105), rng.choice([5, 10, 10]))), ""), CAME)
            if rng.random() < 0.4:
                section, got = frames.day(meter, t + 5, frames.Status(), got)
                held = {} if section["fresh"] else held
                held.update({part[0]: list(part) for part in section["buckets"]})
                sent += len(section["buckets"])
        section, got = frames.day(meter, length, frames.Status(), got)
        held.update({part[0]: list(part) for part in section["buckets"]})
        fresh, _ = frames.day(meter, length, frames.Status(), None)
        assert fresh["fresh"] and list(held.values()) == fresh["buckets"] and sent < 6 * len(fresh["buckets"]), sent
        assert fresh["start"][0] == [0.0, "0:00:00"] and fresh["length"] == length and fresh["step"] is None
        meter.take(Sent(c.block(c.Drop()), ""), CAME)
    marked = frames.day(meter_of(opened(), 10 * H), 0, frames.Status(), None)[0]["start"]
    assert marked[0] == [0.0, "10:00"] and marked[1] == [H / (8.75 * H), "11:00"] and len(marked) == 9, marked
    marked = frames.day(meter_of(opened(), 10 * H + 30 * MIN), 0, frames.Status(), None)[0]["start"]
    assert marked[0] == [0.5 / 8.75, "11:00"], marked


# ---------------------------------------------------------------- asks


def test_asks():
    """Both quotes, whether it would keep, the ticket and refusals, by the recount; the month stays as it is."""
    rng = random.Random(34)
    asked, kinds = 0, set()
    while asked < 150:
        pair = Pair()
        for block in c.blocks(calls_text.calls_bytes(months.makers_month(rng)))[0]:
            pair.take(block)
            if pair.book.quoting is not None and rng.random() < 0.3:
                kinds.add(ask_once(rng, pair))
                asked += 1
    assert {"kept", "refused"} < kinds and len(kinds) >= 6, kinds


def ask_once(rng, pair):
    quoting = pair.book.quoting
    t = max(0, quoting.time + rng.choice([0, 0, 1, 1000, -1]))
    id = rng.choice([*quoting.live, 999_999])
    old = quoting.live.get(id)
    price = (old.price if old else 0) + rng.choice([-40, -5, -1, 0, 1, 5, 40])
    volume = rng.choice([1, quoting.row.least, 0])
    words = bytes(pair.meter.month._words)
    written = exact(10 * H + t) if rng.random() < 0.5 and 10 * H + t < 24 * H else str(t)
    found = pair.meter.ask(f" {written}", str(id), str(price), f"{volume:,}", t)
    assert bytes(pair.meter.month._words) == words
    ahead = copy.deepcopy(pair.book)
    answer = ahead.call(book.Ask(t, id, price, volume))
    if isinstance(answer, book.Refused):
        assert found["kind"] == "refused" and found["head"] == f"Refused, {answer.number}", (found, answer)
        assert found["lines"] == [Refused.of(answer.number).sentence.capitalize() + "."], found
        return "refused"
    ahead.call(book.Amend(t, id, price, volume))
    state = accounts.state(ahead.quoting.row, ahead.quoting.sp, ahead.quoting.live)
    assert found["kind"] == KEYS[state] and found["head"] == ("Would keep" if state == 0 else f"Would not keep: {WORDS[state]}"), found
    quotes = "bid {}, ask {}".format(*("absent" if each is None else each for each in (answer.bid, answer.ask)))
    if answer.bid is not None and answer.ask is not None:
        quotes += f", D {answer.ask - answer.bid} of at most {book.widest(quoting.row, quoting.sp)}"
    ticket = f"ticket: {exact((10 * H + t) % (24 * H))}, order {id}, {price}, {volume:,}, count {pair.book.count:,}"
    assert found["lines"] == [quotes, ticket], (found, quotes, ticket)
    return KEYS[state]


def test_ask_texts():
    """What is typed: times of day and from the start, decimals, and what cannot be read."""
    text = opened() + QUOTES.format(t="0") + "tick 5:00:00"
    known = meter_of(text, start=START)
    for t in ("15:00:01", "18000001", "18_000_001"):
        assert known.ask(t, "1", "8446", "1,000", 0)["head"] == "Would keep", t
    assert known.ask("14:59:59", "1", "8446", "1000", 0)["head"] == "Refused, 8"
    assert known.ask("18:45:00.001", "1", "8446", "1000", 0)["head"] == "Refused, 9"
    assert meter_of(text).ask("5:00:01", "1", "8446", "1000", 0)["head"] == "Would keep"
    time_due = "h:mm:ss, or milliseconds from the quantum's start"
    for given, due in (
        (("9:00:00", "1", "8446", "1000"), f"at: 9:00:00 is before the quantum's start, 10:00:00; expected {time_due}."),
        (("noon", "1", "8446", "1000"), f"at: 'noon' is not a number; expected {time_due}."),
        (("15:00", "1", "8446", "1000"), f"at: '15:00' is not a time h:mm:ss; expected {time_due}."),
        (("15:00:01", "", "8446", "1000"), "order: nothing is given; expected the id of a live order."),
        (("15:00:01", "1", "84.46", "1000"), "price: '84.46' is not a number; expected a price."),
        (("15:00:01", "1", "84,46", "1000"), "price: '84,46' is not a number; expected a price."),
        (("15:00:01", "1", "8446", "5e3"), "contracts: '5e3' is not a number; expected a whole number of contracts."),
    ):
        assert known.ask(*given, 0) == {"kind": "refused", "head": "Not understood", "lines": [due]}, (given, known.ask(*given, 0))
    steps = meter_of(text, start=START, step=Decimal("0.01"))
    found = steps.ask("15:00:01", "1", "84.50", "1000", 0)
    assert found["lines"] == ["bid 84.50, ask 84.58, D 8 of at most 12", "ticket: 15:00:01, order 1, 84.50, 1,000, count 4"], found
    assert "between two steps" in steps.ask("15:00:01", "1", "84.505", "1000", 0)["lines"][0]
    shown = frames.sections(steps, 5 * H, frames.Status())["open"]
    assert shown["orders"][0]["price"] == "84.46" and shown["tiles"][3]["below"] == "bid 84.46, ask 84.58"
    assert frames.day(steps, 5 * H, frames.Status(), None)[0]["step"] == "0.01"
    assert meter_of("").ask("0", "1", "1", "1", 0)["lines"] == ["No quantum is open."]
    assert known.ask("15:00:01", "1", "8446", "1000", 0, False)["lines"] == ["No answers while the feed is broken off."]
    # What the form proposes is never before the last event, nor past the end.
    for last, due in (("5:00:00", "15:00:00"), ("5:00:00.001", "15:00:01"), ("8:44:59.500", "18:45:00"), ("8:45:00", "18:45:00")):
        meter = meter_of(f"{opened()}{QUOTES.format(t='0')}tick {last}", start=START)
        assert frames.sections(meter, 0, frames.Status())["open"]["time"] == due
        assert meter.ask(due, "1", "8446", "1000", 0)["head"] == "Would keep", last


# ---------------------------------------------------------------- problems, faults, sizes


def test_problems():
    meter = meter_of(f"{opened()}\ncancel 0:00:01 999", 10 * H)
    found = frames.sections(meter, 0, frames.Status(wall=CAME + 299))
    text = "refused 11: no order with this id is live (cancel 10:00:01 999)"
    assert found["problems"]["count"] == 1 and found["problems"]["rows"][0]["place"] == "line 2"
    assert found["problems"]["rows"][0]["text"] == text
    assert found["alert"] == {"head": "Line 2: refused, the rest goes on.", "text": f"{text.capitalize()}."}, found["alert"]
    assert frames.sections(meter, 0, frames.Status(wall=CAME + 300))["alert"] is None
    for call, due in (
        ("add 9:00:00 1 buy 8446 1000", "refused 9: the time is past the quantum's end (add 19:00:00 1 buy 8446 1000)"),
        ("ask 0 5 1 1", "refused 11: no order with this id is live (ask 10:00:00 5 1 1)"), (opened(), "refused 6: "),
        ("tick 100_000_000", "refused 9: the time is past the quantum's end (tick 100000000)"), ("look 1 1 1", "refused 5: "),
    ):
        again = meter_of(f"{opened()}\n{call}", 10 * H).problems[0].sentence()
        assert again.startswith(due), (call, again)
    assert found["feed"]["text"] == "Following the feed, 2 calls, last one 0.0 s ago"
    meter.trouble(Trouble("brent.log: line 7", "this is no message"), CAME + 300)
    assert frames.sections(meter, 0, frames.Status(wall=CAME + 301))["alert"] == {
        "head": "brent.log: line 7: not read, the rest goes on.", "text": "This is no message."}
    meter.trouble(Trouble("", "the file was rotated"), CAME + 300)
    shown = frames.sections(meter, 0, frames.Status(wall=CAME + 301))
    assert shown["alert"]["head"].startswith("The feed at ") and shown["alert"]["text"] == "The file was rotated."
    for _ in range(100):
        meter.trouble(Trouble("line 9", "again"), CAME)
    shown = frames.sections(meter, 0, frames.Status(wall=CAME))["problems"]
    assert shown["count"] == 103 and len(shown["rows"]) == 20 and shown["rows"][0]["text"] == "again"


def spoil(course, name):
    if name == "kept":
        course._totals[0] += 1
    elif name == "lapses":
        course._lapses += 1
    elif name == "state":
        course.state = State.WIDE
    else:
        course._totals[4] += 1


@pytest.mark.parametrize("name", ["kept", "lapses", "state", "gone"])
def test_faults(name):
    """A course that is not the report's stops the page, whichever figure it is; a difference of the recount goes before it."""
    meter = meter_of(opened() + QUOTES.format(t="0:15:00") + "tick 4:00:00", 10 * H)
    assert frames.sections(meter, 4 * H, frames.Status())["differs"] is None
    spoil(meter.course, name)
    meter.calls += 1  # another call has come, so that the figures are made again
    found = frames.sections(meter, 4 * H, frames.Status())["differs"]
    assert found["head"] == "Stop: the figures do not fit together" and found["call"] == 5, found
    assert name in [row["word"] for row in found["rows"] if not row["same"]], found
    differs = {"call": 3, "head": "Stop: readings differ", "rows": [], "text": ""}
    assert frames.sections(meter, 4 * H, frames.Status(differs=differs))["differs"] == differs


def dense(count, orders=30, length=31_500_000):
    """Amendments by which the state changes most of the time, two at a moment: half of them over the day, half in its last 20 seconds."""
    rng = random.Random(5)
    yield c.block(c.Open([1, 1, length, 1000, 150, 3, 600], 1, 8452))
    for id in range(orders):
        yield c.block(Add(0, id, "buy" if id % 2 else "sell", 8446 if id % 2 else 8458, 1000 if id < 2 else 10))
    for at in range(count):
        id = rng.randrange(2)
        price, volume = (8446, 8440)[rng.randrange(2)] if id else (8458, 8467)[rng.randrange(2)], rng.choice([500, 1000, 1000])
        pair = at // 2 * 2
        t = (length - 20_000) * 2 * pair // count if 2 * pair < count else length - 20_000 + 40_000 * (pair - count // 2) // count
        yield c.block(Amend(t, id, price, volume))


def test_sizes(note):
    """What is held does not grow with the events, and a call is quick."""
    sent = [Sent(block, "line 1") for block in dense(16_000)]
    slices = [sent[first : first + 2_000] for first in range(0, len(sent), 2_000)]
    meter, took, sizes = Meter("x"), [], []
    for each in slices[:4]:
        began = time.process_time()
        for one in each:
            meter.take(one, CAME)
        took.append((time.process_time() - began) / len(each))
    tracemalloc.start()
    for each in slices[4:]:
        for one in each:
            meter.take(one, CAME)
        sizes.append(tracemalloc.get_traced_memory()[0])
    tracemalloc.stop()
    assert sizes[-1] - sizes[0] < 8_000, sizes
    course = meter.course
    assert 1_400 < len(course.parts) <= 1_500 and len(course._ended) == NEWEST and course._count > 4_000, course._count
    best = 1e6 * min(took)
    assert best < 60, took
    note(f"frames: the meter took {best:.0f} µs a call")


def test_logs():
    """The Brent month with its log: the statement's calls, and in the end the statement's fee."""
    listed = from_list(str(PROGRAMMES / "brent.month"), Options(), [str(PROGRAMMES / "brent.log")])
    pair = Pair()
    for at, sent in enumerate(listed.calls):
        pair.take(sent.block)
        if at % 60 == 59 or at == len(listed.calls) - 1:
            pair.compare(pair.meter.last + 12_345)
    meter = Meter("Brent")
    for sent in listed.calls[:7]:
        meter.take(sent, CAME)
    found = frames.sections(meter, meter.last + 1, frames.Status())
    assert found["head"]["what"] == "expiry 1, quantum 1, day 2, 10:00:00 to 18:45:00 UTC", found["head"]
    assert found["head"]["clock"].endswith(" UTC")


class FixedClock:
    def __init__(self, ms):
        self.ms, self.asked = ms, None

    def now(self, start, last, came):
        self.asked = start, last, came
        return self.ms


def test_clock():
    """What a clock says is held between the last event and the end."""
    meter = meter_of(opened() + QUOTES.format(t="1:00:00"), start=START)
    for says, due in ((0, H), (2 * H, 2 * H), (99 * H, 31_500_000)):
        clock = FixedClock(says)
        assert meter.now_at(clock) == due and clock.asked == (START, H, CAME)
    assert meter_of("").now_at(FixedClock(5)) == 0
