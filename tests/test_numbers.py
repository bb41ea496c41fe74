"""Every number that the package passes to the library is checked before the call: none is cut, and the message names it."""

import random
import re
from decimal import Decimal
from typing import Any, Callable, NamedTuple

import numpy
import pytest

import quoting
from quoting import Add, Amend, Cancel, Deal, Month, Row, Rule, Standing, Strike, Tenths, Tick, accounts, events, fix, native, ranges
from quoting.calls import Ask, Charge, Close, Commit, Look, Open, Ticket, Withdraw, block
from quoting.ranges import LONG, SIGNED, WORD

pytestmark = pytest.mark.usefixtures("library")

ROW = Row(1, 1, "8:45:00", 1000, 150, 3, "60%")
RULE = Rule(ROW, 8452)
PRICES = [7450, 7412, 7429, 7482, 7450]
TIME = "20261116-10:00:00.000"


def opened() -> Month:
    month = Month()
    month.open(ROW, 1, 8452)
    month.add(0, 1, "buy", 8446, 1000)
    return month


def after(call: Callable[[Month], object]) -> bytes:
    """The words of a month after a call."""
    month = opened()
    call(month)
    return bytes(month._words)


def closed(call: Callable[[Month], object]) -> bytes:
    month = opened()
    month.close(0, 0)
    call(month)
    return bytes(month._words)


def places(call: Callable[[Standing], object]) -> list[tuple[int, int]]:
    standing = Standing(6)
    standing.join(3, 10)
    call(standing)
    return standing.places


def written(**given: Any) -> bytes:
    return fix.write(fix.Order("G", **{"id": 7, "refers": 6, "side": "buy", "volume": 5, "price": 99, "time": TIME, **given}))


class Number(NamedTuple):
    """A number that a call takes: its name in messages, a good value, its range, the call with it."""

    name: str
    good: int
    span: tuple[int, int]
    call: Callable[[Any], object]
    is_time: bool = False


def row_of(**given: Any) -> list[int]:
    return Row(**{"expiry": 1, "quantum": 1, "length": 10_000, "minimum": 5, "a": 1, "b": 1, "share": "60%", **given}).words


def account_of(**given: Any) -> dict[str, int]:
    return quoting.account(RULE, [Tick(5)], Strike(**{"a": 75, "difference": 40, "days": 365, "b": 0, **given})).totals


NUMBERS = {
    "weight kept": Number("kept", 25_200_000, WORD, lambda n: quoting.weight(n, 31_500_000, "60%"), True),
    "weight length": Number("length", 31_500_000, WORD, lambda n: quoting.weight(1, n, "60%"), True),
    "choose_row expiry": Number("expiry", 1, WORD, lambda n: quoting.choose_row([ROW], [], False, n, 1)),
    "choose_row quantum": Number("quantum", 1, WORD, lambda n: quoting.choose_row([ROW], [], False, 1, n)),
    "board K": Number("K of strikes[1]", 5_000, WORD, lambda n: quoting.board([(9_000, 10_000), (n, 10_000)], 55, 60), True),
    "board L": Number("L of strikes[0]", 10_000, WORD, lambda n: quoting.board([(9_000, n)], 55, 60), True),
    "board first": Number("first", 55, WORD, lambda n: quoting.board([(9_000, 10_000)], n, 60)),
    "board second": Number("second", 60, WORD, lambda n: quoting.board([(9_000, 10_000)], 55, n)),
    "sigma": Number("prices[2]", 7429, SIGNED, lambda n: quoting.sigma([7450, 7412, n, 7482])),
    "volatile_day price": Number("prices[1]", 7412, SIGNED, lambda n: quoting.volatile_day([7450, n, *PRICES], 15_000)),
    "volatile_day threshold": Number("threshold", 15_000, WORD, lambda n: quoting.volatile_day(PRICES, n)),
    "ease price": Number("prices[5]", 7412, SIGNED, lambda n: quoting.ease(ROW, [*PRICES, n], 15_000)),
    "ease threshold": Number("threshold", 15_000, WORD, lambda n: quoting.ease(ROW, PRICES, n)),
    "safe_minutes minutes": Number("minutes", 8, WORD, lambda n: quoting.safe_minutes(n, 3, 7)),
    "safe_minutes doubles": Number("doubles", 3, WORD, lambda n: quoting.safe_minutes(8, n, 7)),
    "safe_minutes knocks": Number("knocks", 7, WORD, lambda n: quoting.safe_minutes(8, 3, n)),
    "Row expiry": Number("expiry", 1, WORD, lambda n: row_of(expiry=n)),
    "Row quantum": Number("quantum", 1, WORD, lambda n: row_of(quantum=n)),
    "Row length": Number("length", 10_000, WORD, lambda n: row_of(length=n), True),
    "Row minimum": Number("minimum", 1, WORD, lambda n: row_of(minimum=n)),
    "Row a": Number("a", 1, WORD, lambda n: row_of(a=n)),
    "Row b": Number("b", 1, WORD, lambda n: row_of(b=n)),
    "Rule sp": Number("sp", -8452, SIGNED, lambda n: Rule(ROW, n).head),
    "account sp": Number("sp", 2000, SIGNED, lambda n: accounts.spread_numbers(n, None)),
    "account strike a": Number("a", 75, WORD, lambda n: account_of(a=n)),
    "account strike difference": Number("difference", 40, WORD, lambda n: account_of(difference=n)),
    "account strike days": Number("days", 365, WORD, lambda n: account_of(days=n)),
    "account strike b": Number("b", 3, WORD, lambda n: account_of(b=n)),
    "session t": Number("t", 1_000, WORD, lambda n: quoting.session(RULE, [Tick(n)]).kept, True),
    "session id": Number("id", 1, WORD, lambda n: quoting.session(RULE, [Add(0, n, "buy", 99, 500)]).kept),
    "session price": Number("price", 99, SIGNED, lambda n: quoting.session(RULE, [Add(0, 1, "buy", n, 500)]).kept),
    "session volume": Number("volume", 500, WORD, lambda n: quoting.session(RULE, [Add(0, 1, "buy", 99, n)]).kept),
    "fix.write id": Number("id", 7, WORD, lambda n: written(id=n)),
    "fix.write refers": Number("refers", 6, WORD, lambda n: written(refers=n)),
    "fix.write volume": Number("volume", 5, WORD, lambda n: written(volume=n)),
    "fix.write price": Number("price", -99, SIGNED, lambda n: written(price=n)),
    "Standing records": Number("records", 6, WORD, lambda n: Standing(n).places),
    "Standing.join maker": Number("maker", 4, WORD, lambda n: places(lambda standing: standing.join(n, 5))),
    "Standing.join rating": Number("rating", 4, WORD, lambda n: places(lambda standing: standing.join(5, n))),
    "Standing.change rating": Number("rating", 4, WORD, lambda n: places(lambda standing: standing.change(3, n))),
    "Standing.leave maker": Number("maker", 3, WORD, lambda n: places(lambda standing: standing.leave(n))),
    "Month.open row": Number("row[3]", 5, WORD, lambda n: closed(lambda month: month.open([1, 1, 10_000, n, 0, 0, 600], 2, 0))),
    "Month.open day": Number("day", 2, WORD, lambda n: closed(lambda month: month.open(ROW, n, 8452))),
    "Month.open sp": Number("sp", -5, SIGNED, lambda n: closed(lambda month: month.open(ROW, 2, n))),
    "Month.open lapses": Number("lapses", 3, WORD, lambda n: closed(lambda month: month.open(ROW, 2, 0, lapses=n))),
    "Month.open strike": Number("days", 3, WORD, lambda n: closed(lambda month: month.open(ROW, 2, Strike(75, 40, n, 0)))),
    "Month.add t": Number("t", 5, WORD, lambda n: after(lambda month: month.add(n, 2, "sell", 8458, 1000)), True),
    "Month.add id": Number("id", 5, WORD, lambda n: after(lambda month: month.add(5, n, "sell", 8458, 1000))),
    "Month.add price": Number("price", 8458, SIGNED, lambda n: after(lambda month: month.add(5, 2, "sell", n, 1000))),
    "Month.add volume": Number("volume", 1000, WORD, lambda n: after(lambda month: month.add(5, 2, "sell", 8458, n))),
    "Month.amend t": Number("t", 5, WORD, lambda n: after(lambda month: month.amend(n, 1, 8458, 1000)), True),
    "Month.amend id": Number("id", 1, WORD, lambda n: after(lambda month: month.amend(5, n, 8458, 1000))),
    "Month.amend price": Number("price", -5, SIGNED, lambda n: after(lambda month: month.amend(5, 1, n, 1000))),
    "Month.amend volume": Number("volume", 5, WORD, lambda n: after(lambda month: month.amend(5, 1, 8458, n))),
    "Month.cancel t": Number("t", 5, WORD, lambda n: after(lambda month: month.cancel(n, 1)), True),
    "Month.cancel id": Number("id", 1, WORD, lambda n: after(lambda month: month.cancel(5, n))),
    "Month.deal id": Number("id", 1, WORD, lambda n: after(lambda month: month.deal(5, n, 1))),
    "Month.deal volume": Number("volume", 3, WORD, lambda n: after(lambda month: month.deal(5, 1, n))),
    "Month.tick t": Number("t", 3, WORD, lambda n: after(lambda month: month.tick(n)), True),
    "Month.ask price": Number("price", 8447, SIGNED, lambda n: opened().ask(5, 1, n, 5)),
    "Month.look day": Number("day", 1, WORD, lambda n: closed(lambda month: month.look(n, 1, 1))),
    "Month.look quantum": Number("quantum", 1, WORD, lambda n: closed(lambda month: month.look(1, 1, n))),
    "Month.withdraw expiry": Number("expiry", 1, WORD, lambda n: closed(lambda month: month.withdraw(1, n, 1))),
    "Month.charge active": Number("active", 5, LONG, lambda n: closed(lambda month: month.charge(1, 1, 1, n, 0))),
    "Month.close passive": Number("passive", 5, LONG, lambda n: after(lambda month: month.close(0, n))),
    "a ticket's price": Number("ticket.price", -5, SIGNED, lambda n: block(Commit(0, 1, 5, 1, Ticket(0, 1, n, 1, 1)))),
    "a ticket's count": Number("ticket.count", 2**32, LONG, lambda n: block(Commit(0, 1, 5, 1, Ticket(0, 1, 5, 1, n)))),
    "a refusal's number": Number("number", 7, WORD, native.sentence_of),
}
EACH = pytest.mark.parametrize("number", NUMBERS.values(), ids=NUMBERS)


@EACH
@pytest.mark.parametrize("past", [1, 8, 2**32, 2**200])
def test_a_number_past_its_range_is_refused_by_name(number: Number, past: int) -> None:
    low, high = number.span
    for value in (high + past, low - past, number.good + high - low + 1):  # the last is the good one when it is cut
        shown = str(value) if value.bit_length() <= 128 else f"a number of {value.bit_length()} bits"
        with pytest.raises(ValueError, match=re.escape(f"{number.name} is {shown}, it must be {low} to {high}")):
            number.call(value)


@EACH
@pytest.mark.parametrize("value", [True, 1.0, Decimal(1), complex(1), b"1", numpy.float64(1), numpy.bool_(True), [1]], ids=repr)
def test_what_is_no_whole_number_is_a_type_error_by_name(number: Number, value: object) -> None:
    with pytest.raises(TypeError, match=f"^{re.escape(number.name)} must be a "):
        number.call(value)


@EACH
def test_a_text_in_place_of_a_number_is_a_type_error_by_name(number: Number) -> None:
    """But for a time, which may be a text."""
    if number.is_time:
        assert number.call(str(number.good)) == number.call(number.good)
        with pytest.raises(ValueError, match=f"^{re.escape(number.name)}: '1:2' is not a time h:mm:ss"):
            number.call("1:2")
    else:
        with pytest.raises(TypeError, match=f"^{re.escape(number.name)} must be a whole number, got '1' .str."):
            number.call("1")


@EACH
@pytest.mark.parametrize("kind", [numpy.int64, numpy.uint64, numpy.int32, numpy.uint32])
def test_whole_numbers_of_numpy_are_taken(number: Number, kind: Any) -> None:
    if numpy.iinfo(kind).min <= number.good <= numpy.iinfo(kind).max:
        assert number.call(kind(number.good)) == number.call(number.good)


def test_every_number_of_a_block_is_checked() -> None:
    """Of every kind of call, each number by itself is refused where it is negative or past 64 bits."""
    calls = [
        Open([1, 1, 10_000, 5, 0, 0, 600], 1, 5, 3), Add(0, 1, "buy", 5, 1), Amend(0, 1, 5, 1), Cancel(0, 1), Deal(0, 1, 1), Tick(0), Close(1, 2),
        Charge(1, 1, 1, 1, 2), Withdraw(1, 1, 1), Look(1, 1, 1), Ask(0, 1, 5, 1), Ticket(0, 1, 5, 1, 1),
    ]
    tried = 0
    for call in calls:
        for name in (name for name, value in vars(call).items() if isinstance(value, int)):
            for value in (-(2**31) - 1, 2**64):
                wrong = type(call)(**{**vars(call), name: value})
                with pytest.raises(ValueError, match="it must be"):
                    block(Commit(0, 1, 5, 1, wrong) if isinstance(wrong, Ticket) else wrong)
                tried += 1
    assert tried > 60, tried


@pytest.mark.parametrize("share", [Tenths(-1), Tenths(2**32)])
def test_a_share_past_its_range_is_refused(share: Tenths) -> None:
    with pytest.raises(ValueError, match="^share is .*, it must be 0 to 4294967295"):
        quoting.weight(1, 1_000, share)


@pytest.mark.parametrize("share", [True, 0.6, None, Decimal("0.6")])
def test_a_share_that_is_no_share_is_a_type_error(share: Any) -> None:
    with pytest.raises(TypeError, match="^share must be a share like '60%'"):
        Row(1, 1, 10_000, 5, 0, 0, share)


@pytest.mark.parametrize("strike", [(1,), (1, 2, 3), 5, ()])
def test_a_strike_of_a_board_is_a_pair(strike: Any) -> None:
    """A shorter one made the library read past the end of the words."""
    with pytest.raises(TypeError, match=r"^strikes\[1\] must be a pair of K and L"):
        quoting.board([(9_000, 10_000), strike], 55, 60)


@pytest.mark.parametrize("side", ["bid", "", 1, None])
def test_a_side_that_is_none_is_refused(side: Any) -> None:
    for call in (lambda: opened().add(5, 2, side, 8458, 5), lambda: quoting.session(RULE, [Add(0, 1, side, 99, 500)])):
        with pytest.raises((TypeError, ValueError), match="^side"):
            call()


def test_bytes_are_asked_for_where_bytes_are_due() -> None:
    for call in (lambda wrong: opened().block(wrong), lambda wrong: fix.read(wrong), lambda wrong: quoting.session(wrong, [])):
        for wrong in ("text", 5, None, [1]):
            with pytest.raises(TypeError, match="must be bytes"):
                call(wrong)
    data = fix.write(fix.Order("F", 7, 6, time=TIME))
    assert fix.read(bytearray(data)) == fix.read(memoryview(data)) == fix.read(data)


def test_an_object_that_is_no_event_or_call_is_a_type_error() -> None:
    with pytest.raises(TypeError, match="^an event must be an Add, Amend, Cancel, Deal or Tick, got 5"):
        quoting.session(RULE, [Tick(0), 5])  # type: ignore[list-item]
    with pytest.raises(TypeError, match="^a call must be"):
        block(RULE)  # type: ignore[arg-type]


def test_a_masked_array_of_events_is_refused() -> None:
    ticks = numpy.zeros(5, dtype=events.dtype())
    ticks["kind"] = 6
    masked = numpy.ma.array(ticks, mask=[0, 0, 1, 0, 0])
    for call in (quoting.session, quoting.account):
        with pytest.raises(ValueError, match="the array is masked"):
            call(RULE, masked)
    with pytest.raises(TypeError, match=r"^prices\[2\] must be a whole number, got masked"):
        quoting.sigma(numpy.ma.array(PRICES[:4], mask=[0, 0, 1, 0]))


def test_lists_are_packed_as_struct_packs_them() -> None:
    rng = random.Random(1)
    for _ in range(200):
        given = [rng.choice([0, 1, 2**31, 2**32 - 1, rng.randrange(2**32)]) for _ in range(rng.randrange(9))]
        assert list(native.words_of(ranges.words(given, "x"))) == given
        assert ranges.words(map(numpy.uint32, given), "x") == ranges.words(given, "x")
