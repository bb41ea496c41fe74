"""`Month.apply`, and the events on lent buffers: both leave the month that the calls one by one leave, and are refused as these are."""

import random
from collections import Counter
from typing import Any

import numpy
import pytest

import quoting
from quoting import Applied, Month, Refused, Row, Skipped, calls, events, native
from quoting.events import Add, Cancel, Event, Tick
from tests.conftest import Note
from tests.paths import ROOT

pytestmark = pytest.mark.usefixtures("library")

ROW = Row(1, 1, 10_000, 500, 100, 1, "60%")
FIRST = Add(5, 1, "buy", 100, 500)
TICK = Tick(9)


def opened() -> Month:
    month = Month()
    month.open(ROW, 1, 2_000)
    return month


def one_by_one(month: Month, data: bytes) -> tuple[int, list[tuple[int, int]]]:
    """How many of the records a month takes by one call each, and the place and number of each refusal."""
    taken, refused = 0, []
    for place, record in enumerate(events.split(data), start=1):
        event = events.event_of(record)
        answer = Refused.of(15) if event is None else month.block(calls.block(event))
        if isinstance(answer, Refused):
            refused.append((place, answer.number))
        else:
            taken += 1
    return taken, refused


def any_event(rng: random.Random, t: int) -> Event:
    id, price, volume = rng.randrange(70), rng.choice([rng.randrange(-50, 50), 1_000_000_001]), rng.choice([1, 5, 500])
    add, amend = Add(t, id, rng.choice(["buy", "sell"]), price, volume), events.Amend(t, id, price, volume)
    return rng.choice([add, add, add, amend, Cancel(t, id), events.Deal(t, id, volume), Tick(t)])


def any_records(rng: random.Random) -> bytes:
    """Records near their limits, of which some are no record, or one is cut short."""
    t, found = 0, [events.record(Add(0, 100 + at, "buy", 5, 5)) for at in range(rng.choice([0, 0, 0, 60]))]
    for _ in range(rng.randrange(300)):
        t = max(t + rng.choice([0, 0, 1, 7, 90, -1]), 0)
        record = bytearray(events.record(any_event(rng, rng.choice([t, t, t, t, 10_001]) if rng.random() < 0.1 else t)))
        if rng.random() < 0.02:
            record[rng.randrange(4)] ^= 8
        found.append(bytes(record))
    data = b"".join(found)
    return data[: len(data) - rng.choice([0, 0, 0, 1, 19]) if data else 0]


def test_records_leave_the_month_of_the_calls(is_quick: bool, note: Note) -> None:
    met: Counter[int] = Counter()
    rng = random.Random(7)
    for data in [any_records(rng) for _ in range(60 if is_quick else 600)]:
        whole, single = opened(), opened()
        done = whole.apply(data, skip=True)
        taken, refused = one_by_one(single, data)
        assert done.taken == taken and [(each.place, each.number) for each in done.refusals] == refused
        assert whole == single
        met.update(number for _, number in refused)
        first = refused[0] if refused else None
        stopped = opened().apply(data)
        assert stopped.taken == (first[0] - 1 if first else taken)
        assert (None if stopped.refusal is None else (stopped.refusal.place, stopped.refusal.number)) == first
    assert set(met) == {8, 9, 10, 11, 12, 13, 14, 15}, met
    note(f"apply: {sum(met.values())} refused records were skipped as by single calls")


@pytest.mark.parametrize("form", [bytes, bytearray, memoryview, lambda data: numpy.frombuffer(data, events.dtype()), lambda data: [FIRST, Cancel(6, 2), TICK]])
def test_every_form_of_records(form: Any) -> None:
    data = events.records([FIRST, Cancel(6, 2), TICK])
    month, other = opened(), opened()
    found = month.apply(form(data))
    other.call(FIRST)
    assert (found.taken, str(found.refusal)) == (1, str(Refused.of(11, 2))) and month == other
    skipped = opened().apply(form(data), skip=True)
    assert skipped.taken == 2 and [(each.place, each.number) for each in skipped.refusals] == [(2, 11)]


def test_no_records_and_no_quantum() -> None:
    month = Month()
    assert month.apply(b"") == Applied(0, None) and month.apply([], skip=True) == Skipped(0, [])
    found = month.apply(b"?" + bytes(30), skip=True)
    assert found.taken == 0 and [(each.place, each.number) for each in found.refusals] == [(1, 7), (2, 7)]
    assert month == Month()


def test_wrong_records() -> None:
    month = opened()
    with pytest.raises(TypeError, match="records must be bytes of records"):
        month.apply("add 5 1 buy 100 500")
    with pytest.raises(ValueError, match="the array's dtype is int64"):
        month.apply(numpy.zeros(3, "int64"))
    with month:
        pass
    with pytest.raises(ValueError, match="ended"):
        month.apply(b"")


def test_an_older_library(monkeypatch: pytest.MonkeyPatch) -> None:
    """Where the library has no such call, the error says what to do; single calls go on."""
    monkeypatch.setattr(native, "has", lambda name: name != "quoting_month_records")
    native.function.cache_clear()
    month = opened()
    with pytest.raises(quoting.Missing, match="has no quoting_month_records: run make library"):
        month.apply(events.records([FIRST]))
    month.add(5, 1, "buy", 100, 500)
    native.function.cache_clear()


# ---------------------------------------------------------------- single calls on lent buffers


@pytest.mark.parametrize(
    ("name", "given", "event"),
    [
        ("add", (5, 2, "sell", -7, 4), Add(5, 2, "sell", -7, 4)), ("amend", (5, 1, -7, 4), events.Amend(5, 1, -7, 4)), ("cancel", (5, 1), Cancel(5, 1)),
        ("deal", (5, 1, 4), events.Deal(5, 1, 4)), ("tick", (7,), Tick(7)), ("tick", ("0:00:07",), Tick(7_000)), ("tick", (numpy.uint32(7),), Tick(7)),
    ],
)
def test_an_event_is_its_block(name: str, given: tuple[Any, ...], event: Event) -> None:
    month, other = opened(), opened()
    for each in (month, other):
        each.call(FIRST)
    getattr(month, name)(*given)
    assert isinstance(other.block(calls.block(event)), quoting.Accepted)
    assert month == other != opened()


@pytest.mark.parametrize(
    ("name", "given", "error", "text"),
    [
        ("tick", (-1,), ValueError, "t is -1"), ("tick", (True,), TypeError, "t must be a time"), ("tick", (2**32,), ValueError, "t is 4294967296"),
        ("cancel", (5, 1.0), TypeError, "id must be a whole number"), ("amend", (5, 1, 2**31, 5), ValueError, "price is 2147483648"),
        ("amend", (5, 1, 7, False), TypeError, "volume must be"), ("add", (5, 1, "bid", 7, 5), ValueError, "neither buy nor sell"),
        ("add", (5, 1, 1, 7, 5), TypeError, "side must be"), ("add", (5, 1, [], 7, 5), TypeError, "side must be"), ("deal", (5, 1, None), TypeError, "volume"),
    ],
)
def test_wrong_numbers_are_named(name: str, given: tuple[Any, ...], error: type[Exception], text: str) -> None:
    month = opened()
    with pytest.raises(error, match=text):
        getattr(month, name)(*given)
    assert month == opened()


def test_damaged_words_are_named() -> None:
    month = opened()
    month._words[1] = 186
    for call in (lambda: month.tick(5), lambda: month.report(), lambda: month.apply(events.records([TICK]))):
        with pytest.raises(ValueError, match="damaged"):
            call()


def test_version_and_docstrings() -> None:
    assert quoting.__version__ == (ROOT / "VERSION").read_text().strip()
    public = [name for name in vars(Month) if not name.startswith("_")]
    assert len(public) > 20 and not [name for name in public if not getattr(Month, name).__doc__]
