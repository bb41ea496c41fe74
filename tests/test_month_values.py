"""A month as a value: copied, pickled, compared, shown, made of calls, and read from words that may be damaged."""

import copy
import gc
import pickle
import random
import re
import struct
from concurrent.futures import ProcessPoolExecutor
from typing import Callable, Iterator

import pytest

from quoting import Add, Month, Row, Standing, Strike, calls, month_words, months
from tests import calls_text, message_lists
from tests import months as month_lists
from tests.conftest import Note

pytestmark = pytest.mark.usefixtures("library")

ROW = Row(1, 1, "8:45:00", 1000, 150, 3, "60%")
COPIES: dict[str, Callable[[Month], Month]] = {
    "copy": Month.copy,
    "copy.copy": copy.copy,
    "copy.deepcopy": copy.deepcopy,
    "pickle": lambda month: pickle.loads(pickle.dumps(month)),
    "words": lambda month: Month.from_words(month.words()),
}


def quoted() -> Month:
    """A month with a closed quantum, and an open one in which two orders keep the quote."""
    month = Month()
    month.open(Row(1, 0, "0:00:10", 500, 100, 1, "60%"), 1, 2000, lapses=3)
    month.tick(5_000)
    month.close(5, 7)
    month.open(ROW, 1, 8452)
    month.add("0:00:10", 1, "buy", 8446, 1000)
    month.add("0:00:10", 2, "sell", 8458, 1000)
    month.tick("1:00:00")
    return month


# ---------------------------------------------------------------- copies


@pytest.mark.parametrize("copied", COPIES.values(), ids=COPIES)
def test_a_copy_is_a_month_of_its_own(copied: Callable[[Month], Month]) -> None:
    """It is equal, a call on one leaves the other, and it lives on when the first is gone: deepcopy was a use after free."""
    month = quoted()
    other = copied(month)
    assert other == month and other.words() == month.words() and other.view() == month.view()
    other.cancel("2:00:00", 1)
    assert other != month and month.report().orders == 2 and other.report().orders == 1
    due = other.words()
    del month
    gc.collect()
    for _ in range(200):  # what was freed would be used again
        Month().open(ROW, 1, 8452)
    assert other.words() == due
    other.add("2:00:00", 1, "buy", 8446, 1000)
    assert other.report().orders == 2


def test_a_list_of_months_is_copied_by_deepcopy() -> None:
    given = {"a": [quoted(), Month()]}
    found = copy.deepcopy(given)
    assert found == given and found["a"][0] is not given["a"][0]


def report_time(month: Month) -> int:
    return month.report().time


def test_a_month_is_given_to_another_process() -> None:
    with ProcessPoolExecutor(1) as pool:
        assert list(pool.map(report_time, [quoted(), Month()])) == [3_600_000, 0]


def test_a_month_that_has_ended_is_not_copied() -> None:
    with Month() as month:
        pass
    for copied in (Month.copy, copy.copy, copy.deepcopy, pickle.dumps):
        with pytest.raises(ValueError, match="the month has ended with its block"):
            copied(month)


def test_a_standing_is_copied_and_pickled() -> None:
    standing = Standing(4)
    standing.join(118, 910)
    standing.join(31, 910)
    for copied in (copy.copy, copy.deepcopy, lambda each: pickle.loads(pickle.dumps(each))):
        other = copied(standing)
        assert other == standing and other.places == [(31, 910), (118, 910)]
        other.leave(31)
        other.join(5, 999)
        assert standing.places == [(31, 910), (118, 910)] and other != standing
    with pytest.raises(ValueError, match="2 places, of 1 records"):
        Standing.of_places([(1, 5), (2, 4)], records=1)


# ---------------------------------------------------------------- equality, repr, lists of calls


def test_months_are_equal_where_their_words_are() -> None:
    assert Month() == Month() and quoted() == quoted() and quoted() != Month()
    assert Month() != "a month" and Month() != Month().words()
    with pytest.raises(TypeError, match="unhashable"):
        hash(Month())


def test_repr_says_what_the_month_holds() -> None:
    assert repr(Month()) == "<Month: 0 calls accepted, 0 quanta closed, none open>"
    assert repr(quoted()) == "<Month: 7 calls accepted, 1 quantum closed, day 1 expiry 1 quantum 1 open at 1:00:00 with 2 orders>"


def test_of_calls_is_the_month_after_the_calls(note: Note) -> None:
    """As the calls made one by one leave it, refused ones among them; equal months have equal words, which the recount's lists show."""
    rng, tried = random.Random(3), 0
    for _ in range(30):
        data = calls_text.calls_bytes(rng.choice([month_lists, message_lists]).any_calls(rng)[1])
        month = Month()
        for each in calls.blocks(data)[0]:
            month.block(each)
            tried += 1
        assert Month.of_calls(data) == month
        assert Month.of_calls(bytearray(data)).words() == month.words()
    note(f"months of lists: {tried} calls")


@pytest.mark.parametrize("behind", [b"?", struct.pack("<I", 18), calls.block(calls.Look(1, 1, 1))[:-1]])
def test_of_calls_refuses_bytes_that_are_no_calls(behind: bytes) -> None:
    good = calls.block(calls.Drop()) + calls.block(calls.Report())
    with pytest.raises(ValueError, match=f"^byte 8 of {8 + len(behind)}: no call begins there, or it is cut short"):
        Month.of_calls(good + behind)
    with pytest.raises(TypeError, match="^calls must be bytes"):
        Month.of_calls("drop")  # type: ignore[arg-type]


# ---------------------------------------------------------------- words


def months_met(seed: int, lists: int) -> Iterator[Month]:
    """A month after every call of the tests' lists."""
    rng = random.Random(seed)
    for make in (month_lists.any_calls, message_lists.any_calls):
        for _ in range(lists):
            month = Month()
            yield month
            for each in calls.blocks(calls_text.calls_bytes(make(rng)[1]))[0]:
                before = month.words()
                month.block(each)
                if month.words() != before:
                    yield month


def test_the_words_of_every_month_are_taken(note: Note) -> None:
    met: dict[str, int] = {"open": 0, "strike": 0, "64 orders": 0, "filled": 0, "no limit": 0, "kept": 0, "lapses": 0, "negative prices": 0}
    count = 0
    for month in months_met(5, 12):
        w = month_words.read(month.words())
        assert Month.from_words(month.words()) == month
        count += 1
        orders = [w[first + month_words.NUMBER] for first in month_words.SIDE_STARTS.values()]
        is_open = bool(w[month_words.OPEN])
        met["open"] += is_open
        met["strike"] += w[month_words.SPREAD]
        met["64 orders"] += sum(orders) == 64
        met["filled"] += any(w[month_words.CELLS :: month_words.CELL_WORDS])
        met["no limit"] += is_open and w[month_words.LIMIT] == calls.NO_LIMIT
        met["kept"] += w[month_words.KEPT] > 0
        met["lapses"] += w[month_words.LAPSES] > 1
        view = month.view()
        met["negative prices"] += view is not None and any(order.price < 0 for order in view.orders)
    assert all(met.values()), met
    note(f"words of {count} months were read again", met)


def crowded() -> Month:
    """64 orders on two sides, by a strike, with cells filled."""
    month = quoted()
    month.close(0, 0)
    month.open([1, 2, 10_000, 5, 4_000_000_000, 7, 600], 3, Strike(75, 40, 365, 0), lapses=9)
    for id in range(64):
        month.add(10 * id, 1001 + id, "buy" if id % 3 else "sell", 5 * id - 100 if id % 3 else 300 + id, 5 + id)
    month.tick(2_000)
    return month


def with_word(month: Month, at: int, value: int) -> bytes:
    data = bytearray(month.words())
    struct.pack_into("<I", data, 4 * at, value)
    return bytes(data)


VALUES = [0, 1, 2, 65, 1_002, 2**31, 2**32 - 1]
COUNTS = {month_words.ACCEPTED, month_words.ACCEPTED + 1}
# Words of an open quantum that may have another value by themselves: day and lapse limit, the clock, prices and volumes of orders, and what
# the spread limit goes by, as far as nothing else follows from them.
FREE = {
    month_words.PLACE, month_words.LIMIT, month_words.TIME, month_words.KEPT, month_words.LAPSES, month_words.LAST,
    *(first + at for first in month_words.SIDE_STARTS.values() for at in range(month_words.KEYS, month_words.NUMBER)),
    month_words.ROW + 4, month_words.ROW + 5, *range(month_words.SPREAD + 1, month_words.CELLS),
}


@pytest.mark.parametrize("make", [Month, quoted, crowded])
def test_a_damaged_word_is_refused_by_its_number(make: Callable[[], Month], note: Note) -> None:
    """Each word of the quantum, and words of the cells, set to other values: ids, numbers, flags, best levels and zeros are all refused.
    What is taken is another month, of which every word follows again."""
    month, refused, taken = make(), 0, 0
    given = month_words.read(month.words())
    filled = [at for at in range(month_words.CELLS, month_words.COUNT, month_words.CELL_WORDS) if given[at]]
    cells = {at + place for at in filled[:2] for place in range(month_words.CELL_WORDS)}
    for at in [*range(month_words.CELLS + 20), *sorted(cells), month_words.COUNT - 1]:
        for value in VALUES:
            if value == given[at]:
                continue
            try:
                found = Month.from_words(with_word(month, at, value))
            except ValueError as error:
                assert re.match(r"these are not a month's words: word [0-9]+, ", str(error)), error
                refused += 1
            else:
                assert at in cells | COUNTS or (given[month_words.OPEN] and at in FREE), (at, value)
                assert isinstance(found.report(), months.MonthReport) and found.words() == with_word(month, at, value)
                taken += 1
    assert refused > 3_000, refused
    note(f"damaged words of {make.__name__}: {refused} refused, {taken} within limits")


WRONG = [
    (0, 2, "whether a quantum is open, is 2, it must be 0 to 1"),
    (1, 186, "the place of the cell, is 186, it must be 0 to 185"),
    (3, 1001, "the lapse limit, is 1001, it must be 0 to 1000, or 65535 for none"),
    (4, 3, "the count of accepted calls, is 3, and the cells and orders took at least 5"),
    (8, 77, "is 77, it must be 12"),
    (9, 31_500_001, "the time, is 31500001, after the quantum's end 31500000"),
    (10, 3_600_001, "the time kept, is 3600001 of 3600000"),
    (11, 0, "is 0, it must be 1"),
    (12, 4_000_000, "the lapses, is 4000000, with 3590000 ms kept of 3600000 it must be 1 to 10000"),
    (13, 2, "whether the last millisecond was kept, is 2, with 3590000 ms kept of 3600000"),
    (16, 2, None),  # the buy's id is that of the sell
    (17, 9, "is 9, it must be 0"),
    (80, 0, "the key of an order's price, is 0, it must be 1 to 2000000001"),
    (144, 1_000_001, "an order's volume, is 1000001, it must be 1 to 1000000"),
    (208, 65, "the number of buy orders, is 65, it must be 0 to 64"),
    (209, 5, "is 5, it must be 1000008447"),
    (528, 7, "an id as it was added, is 7, which no order has"),
    (529, 1, "an id as it was added, is 1, which is there twice"),
    (594, 31_500_001, "L, is 31500001, not a multiple of 1000"),
    (598, 800, "p, is 800, it must be 1 to 799"),
    (599, 2, "whether it is a strike, is 2, it must be 0 to 1"),
    (600, 2**31, "SP, is -2147483648, it must be -1000000000 to 1000000000"),
    (604, 0, "whether the cell is filled, is 0, but others of its words are not 0"),
    (605, 10_001, "the cell's K, is 10001 of 10000"),
    (606, 9_999, "the cell's L, is 9999, not a multiple of 1000"),
    (609, 9, "the lapses, is 9, with 0 ms kept of 10000 it must be 1 to 1"),
    (611, 24, "a charge of the cell, is 103079215109, it must be 0 to 100000000000"),
]


@pytest.mark.parametrize("at, value, said", WRONG, ids=[str(case[0]) for case in WRONG])
def test_the_message_names_the_word_and_what_it_is(at: int, value: int, said: str) -> None:
    due = f"word {at}, {said}" if said else "word 272, an order's id, is 2, which another order has"
    if at == 611:  # its charge begins a word earlier
        due = due.replace("611", "610")
    with pytest.raises(ValueError, match=re.escape(f"these are not a month's words: {due}")):
        Month.from_words(with_word(quoted(), at, value))


def test_words_of_another_length_are_refused() -> None:
    data = Month().words()
    assert len(data) == 9_856
    for wrong in (b"", data[:-1], data + b"\0"):
        with pytest.raises(ValueError, match=f"a month's words are 9856 bytes, got {len(wrong)}"):
            Month.from_words(wrong)
    with pytest.raises(TypeError, match="words must be bytes"):
        Month.from_words(5)  # type: ignore[arg-type]
    assert Month.from_words(bytearray(data)) == Month.from_words(memoryview(data)) == Month()


def test_a_damaged_pickle_of_a_month_is_refused() -> None:
    month = quoted()
    data = pickle.dumps(month).replace(month.words(), with_word(month, 208, 65))
    with pytest.raises(ValueError, match="word 208"):
        pickle.loads(data)


def test_damaged_words_that_the_library_refuses_are_said_to_be_damaged() -> None:
    """Words that the library refuses by 3 at place 1."""
    month = quoted()
    month._words[1] = 186  # the place of the open cell
    for call in (month.report, month.view, month.glance, lambda: month.call(Add(0, 1, "buy", 1, 1))):
        with pytest.raises(ValueError, match="^the words of this month are damaged: they are not a month's$"):
            call()
