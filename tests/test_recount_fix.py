"""The recount's FIX messages (document 02, W11) against examples worked out by hand, and its calendar against counting days."""

from typing import Callable

import pytest

from recount import fix, programs
from recount.fix import END, WORD, Order, Unread
from tests.fix_examples import BODIES, CANCEL, LATE, LONGEST, NEW, PRINTED, START, TIME, at, framed, raw
from tests.running import words

READ = (0, "")


def why(read: Callable[[], object]) -> tuple[int, str]:
    """Number and reason of what is refused, READ where it is not."""
    try:
        read()
    except Unread as unread:
        return unread.number, unread.why
    return READ


def refused(data: bytes) -> tuple[int, str]:
    return why(lambda: fix.read(data))


# ---------------------------------------------------------------- whole messages


@pytest.mark.parametrize(("text", "order"), [
    (NEW, Order("D", {11: 7, 54: 1, 38: 500, 44: -99}, START)),
    (CANCEL, Order("F", {11: 8, 41: 7}, b"20261115-10:00:00.001")),
    (LONGEST, Order("G", {11: WORD, 41: WORD, 54: 2, 38: WORD, 44: -(2**31)}, b"99991231-23:59:59.999")),
], ids=["new", "cancel", "longest"])
def test_examples(text: str, order: Order) -> None:
    assert fix.read(raw(text)) == order and fix.write(order) == raw(text)


def test_lengths() -> None:
    assert len(raw(LONGEST)) == 114 and framed(BODIES["D"]) == raw(NEW)
    least = Order("F", {11: 0, 41: 0}, b"00010101-00:00:00.000")
    assert len(fix.write(least)) == 62 and fix.read(fix.write(least)) == least


def test_printed_example() -> None:
    """All but its version and its type is in order."""
    before = fix.before_last(raw(PRINTED))
    assert len(before.split(END, 2)[2]) == 178 and fix.checksum(before) == b"128"
    assert refused(raw(PRINTED)) == (20, "8 is not FIX.4.4")


# The good message with something wrong, and the reason.
WRONG_FRAMES = {
    "": "8 is not at place 1",
    NEW[:-1]: "the last byte is not byte 1",
    NEW + "5": "the last byte is not byte 1",
    NEW.replace("11=7", "117"): "a field without equals sign",
    NEW + "|": "a field without equals sign",
    "|" + NEW: "a field without equals sign",
    NEW.replace("11=7", "=7"): "an empty tag",
    NEW.replace("11=7", "1A=7"): "a tag that is not in digits",
    NEW.replace("11=7", "+11=7"): "a tag that is not in digits",
    NEW.replace("11=7", " 11=7"): "a tag that is not in digits",
    NEW.replace("11=7", "011=7"): "a tag that starts with 0",
    NEW.replace("11=7", "0=7"): "a tag that starts with 0",
    "0" + NEW: "a tag that starts with 0",
    NEW.replace("11=7", "11="): "an empty value",
    NEW.replace("8=FIX.4.4|", ""): "8 is not at place 1",
    NEW.replace("9=54|", ""): "9 is not at place 2",
    NEW.replace("35=D|", ""): "35 is not at place 3",
    "8=FIX.4.4|9=54|11=7|35=D" + NEW[24:]: "35 is not at place 3",
    NEW[:-7]: "10 is not the last",
    NEW + "58=x|": "10 is not the last",
    "8=FIX.4.4|9=5|35=D|": "10 is not the last",
    NEW + "10=211|": "10 a second time",
    NEW.replace("4.4", "4.2"): "8 is not FIX.4.4",
    NEW.replace("4.4", "4.40"): "8 is not FIX.4.4",
    NEW.replace("9=54", "9=+54"): "9 is not in digits",
    NEW.replace("9=54", "9=54 "): "9 is not in digits",
    NEW.replace("9=54", "9=0x36"): "9 is not in digits",
    NEW.replace("9=54", "9=53"): "9 is not the length",
    NEW.replace("9=54", "9=55"): "9 is not the length",
    NEW.replace("9=54", "9=61"): "9 is not the length",  # with the field 10
    NEW.replace("9=54", "9=0"): "9 is not the length",
    NEW.replace("9=54", f"9={2**32 + 54}"): "9 is not the length",
    NEW.replace("9=54", f"9={2**64 + 54}"): "9 is not the length",
    NEW.replace("9=54", "9=" + "54" * 5_000): "9 is not the length",
    NEW.replace("10=211", "10=210"): "10 is not the checksum",
    NEW.replace("10=211", "10=0211"): "10 is not the checksum",
    NEW.replace("10=211", "10=467"): "10 is not the checksum",
    NEW.replace("10=211", "10=2a1"): "10 is not the checksum",
    NEW.replace("38=500", "38=501"): "10 is not the checksum",
    CANCEL.replace("10=081", "10=81"): "10 is not the checksum",
    CANCEL.replace("10=081", "10= 81"): "10 is not the checksum",
}


BODY = BODIES["D"]


@pytest.mark.parametrize(("text", "reason"), WRONG_FRAMES.items(), ids=[text[-40:] for text in WRONG_FRAMES])
def test_wrong_frame(text: str, reason: str) -> None:
    assert refused(raw(text)) == (20, reason)


@pytest.mark.parametrize("tag", [8, 9, 35, 10])
def test_tag_a_second_time(tag: int) -> None:
    for value in ("FIX.4.4", "54", "D", "211"):
        for place in (5, 10, len(BODY)):
            assert refused(framed(f"{BODY[:place]}{tag}={value}|{BODY[place:]}"))[1] == f"{tag} a second time"


@pytest.mark.parametrize("kind", ["d", "8", "0", "A", "DD", "D ", "E", "H", "AE", "="])
def test_other_kinds(kind: str) -> None:
    assert refused(framed(BODY.replace("35=D", f"35={kind}"))) == (20, "35 is not D, F or G")


@pytest.mark.parametrize("zeros", [1, 5_000])
def test_zeros_before_the_length(zeros: int) -> None:
    before = raw("8=FIX.4.4|9=" + "0" * zeros + "54|" + BODY)
    assert refused(before + b"10=" + fix.checksum(before) + END) == READ


def test_checksum_that_starts_with_0() -> None:
    assert refused(raw(CANCEL)) == READ


def test_20_before_21() -> None:
    assert refused(framed("35=D|")) == (21, "11 is absent") and refused(framed("35=D|")[:-1])[0] == 20
    assert refused(framed("35=D|11=x|0=1|"))[0] == refused(framed("35=D|11=x|8=1|"))[0] == 20


@pytest.mark.parametrize(("kind", "body"), BODIES.items(), ids=list(BODIES))
def test_used_tags(kind: str, body: str) -> None:
    """Each used tag absent, twice with equal or with other values, unreadable; in any order."""
    due, parts = fix.read(framed(body)), [f"{part}|" for part in body.split("|") if part]
    for part in parts[1:]:
        tag, gone = int(part.split("=")[0]), body.replace(part, "")
        assert refused(framed(gone)) == (21, f"{tag} is absent"), tag
        assert refused(framed(f"{gone}{tag}=x|"))[0] == 21, tag
        for again in (part, f"{tag}=x|", f"{tag}=9|"):
            assert refused(framed(body + again)) == (21, f"{tag} is there twice"), tag
    for turn in range(1, len(parts)):
        for order in (parts[turn:] + parts[1:turn], (parts[turn:] + parts[1:turn])[::-1]):
            assert fix.read(framed(parts[0] + "".join(order))) == due, order


@pytest.mark.parametrize(("kind", "body"), BODIES.items(), ids=list(BODIES))
def test_skipped_tags(kind: str, body: str) -> None:
    """Every other tag, whatever its value and however often; a value may hold any byte but 1."""
    any_byte = b"=\0" + bytes(range(2, 256))
    others = [1, 49, 56, 34, 52, 55, 80, 100, 110, 354, 111, 600, 2**32 + 8, 2**32 + 11, 2**64 + 9]
    others += [tag for tag in fix.NUMBERS if tag not in fix.USED[kind]]
    skipped = b"".join(b"%d=%s\1" % (tag, value) for tag in others for value in (b"x", b"9", any_byte))
    for place in (5, len(body)):
        data = fix.framed(raw(body[:place]) + skipped + b"1" * 5_000 + b"=1\1" + raw(body[place:]))
        assert fix.read(data) == fix.read(framed(body)), place


# ---------------------------------------------------------------- numbers and times


def values(tag: int, *texts: str) -> list[int | None]:
    """What a G with that value of a tag reads, None where it is refused by 21."""
    found: list[int | None] = []
    for text in texts:
        old = next(part for part in BODIES["G"].split("|") if part.startswith(f"{tag}="))
        data = framed(BODIES["G"].replace(f"{old}|", f"{tag}={text}|"))
        number, _ = refused(data)
        assert number in (0, 21), (tag, text)
        found.append(None if number else fix.read(data).numbers[tag])
    return found


ZEROS = "0" * 5_000


@pytest.mark.parametrize("tag", [11, 41, 38])
def test_numbers(tag: int) -> None:
    assert values(tag, "0", "00", "7", "007", ZEROS + "7", ZEROS) == [0, 0, 7, 7, 7, 0]
    assert values(tag, "4294967295", "04294967295", "5000000") == [WORD, WORD, 5_000_000]
    assert set(values(
        tag, "4294967296", "04294967296", "10000000000", "18446744073709551617", "9" * 5_000, "-1", "-0",
        "+1", " 1", "1 ", "1.0", "1e3", "0x1", "1_0", "a", "-", "\xb2", "1\0", "1\n",
    )) == {None}


def test_prices() -> None:
    assert values(44, "0", "00", "-1", "-01", "1", "001", ZEROS + "1", "-" + ZEROS + "1") == [0, 0, -1, -1, 1, 1, 1, -1]
    low, high = fix.STEPS
    assert values(44, str(high), str(low), f"-0{-low}", f"0{high}") == [high, low, low, high]
    assert values(44, "1000000001", "-1000000001") == [1_000_000_001, -1_000_000_001]  # 12 is the call's
    assert set(values(
        44, str(high + 1), str(low - 1), "4294967295", "-4294967297", "-0", "-00", "-" + ZEROS, "-", "--1", "+1",
        "1-", "- 1", " 1", "1.0", "a", "-" + "9" * 5_000,
    )) == {None}


def test_sides() -> None:
    assert values(54, "1", "2") == [1, 2]
    assert set(values(54, "0", "3", "01", "02", "11", "1 ", "-1", "+1", "B", "5", "1\n")) == {None}


def is_leap(year: int) -> bool:
    return year % 4 == 0 and (year % 100 != 0 or year % 400 == 0)


def month_days(year: int) -> list[int]:
    return [31, 29 if is_leap(year) else 28, 31, 30, 31, 30, 31, 31, 30, 31, 30, 31]


def time(year: int, month: int, day: int, clock: str = "00:00:00.000") -> bytes:
    return f"{year:04}{month:02}{day:02}-{clock}".encode()


def is_time(text: bytes) -> bool:
    """Whether it is one, as the start, as the other time and as the 60 of a message."""
    body = raw(BODIES["F"]).replace(START, text)
    tries = [
        why(lambda: fix.since(text, START)), why(lambda: fix.since(START, text)), refused(fix.framed(body)),
        why(lambda: fix.write(Order("F", {11: 8, 41: 7}, text))),
    ]
    numbers = {number for number, _ in tries}
    assert numbers in ({0}, {21}) or not text and numbers == {20, 21}, text  # an empty value is 20
    return numbers == {0}


def test_calendar() -> None:
    """Each month of the years 1 to 9999: its first and its last day by counting, none before and after."""
    first, past = time(1, 1, 1), 0  # days before the month
    for year in range(1, 10_000):
        for month, days in enumerate(month_days(year), start=1):
            last = past + days - 1
            start, end = fix.instant(time(year, month, 1)), fix.instant(time(year, month, days))
            assert (start - fix.instant(first)).days == past and (end - start).days == days - 1, (year, month)
            if year % 100 in (0, 1, 4, 26):
                assert not is_time(time(year, month, 0)) and not is_time(time(year, month, days + 1))
            past = last + 1
        assert year % 100 or not (is_time(time(year, 0, 1)) or is_time(time(year, 13, 1)))
    assert past == 3_652_059  # 9,999 years of 365 days, 2,499 - 99 + 24 of them with a day more


@pytest.mark.parametrize("date", [
    (1, 1, 1), (9999, 12, 31), (2000, 2, 29), (2024, 2, 29), (4, 2, 29), (400, 2, 29), (9996, 2, 29), (1900, 2, 28), (1999, 12, 31),
])
def test_dates(date: tuple[int, int, int]) -> None:
    assert is_time(time(*date))


@pytest.mark.parametrize("date", [
    (0, 1, 1), (0, 12, 31), (1900, 2, 29), (2100, 2, 29), (2023, 2, 29), (100, 2, 29), (9900, 2, 29),
    (1, 2, 29), (2000, 2, 30), (2026, 4, 31), (2026, 0, 1), (2026, 13, 1), (2026, 1, 0), (2026, 1, 32),
    (2026, 99, 99),
])
def test_no_dates(date: tuple[int, int, int]) -> None:
    assert not is_time(time(*date))


@pytest.mark.parametrize("clock", ["00:00:00.000", "23:59:59.999", "09:05:00.010"])
def test_times_of_day(clock: str) -> None:
    assert is_time(time(2026, 11, 15, clock))


@pytest.mark.parametrize("clock", [
    "24:00:00.000", "23:60:00.000", "23:59:60.000", "99:00:00.000", "10:00:00", "10:00:00.00", "10:00:00.0000",
    "10:00:00,000", "10-00:00.000", "10:00-00.000", "1a:00:00.000", " 9:00:00.000", "+9:00:00.000",
    "10:00:00.00a", "", "10:00:00.000\n",
])
def test_no_times_of_day(clock: str) -> None:
    assert not is_time(time(2026, 11, 15, clock))


@pytest.mark.parametrize("text", [
    b"", b"20261115 10:00:00.000", b"2026-11-15-10:00:00.0", b"\xb2" + START[1:], START[1:], b" " * 21,
])
def test_no_times(text: bytes) -> None:
    assert not is_time(text)


@pytest.mark.parametrize(("start", "end", "due"), [
    (TIME, "20261115-10:00:00.000", 0),
    (TIME, "20261115-10:00:00.001", 1),
    (TIME, "20261115-09:59:59.999", -1),
    (TIME, "20261116-10:00:00.000", 86_400_000),
    ("19991231-23:59:59.999", "20000101-00:00:00.000", 1),
    ("20000228-12:00:00.000", "20000301-12:00:00.000", 2 * 86_400_000),
    ("19000228-12:00:00.000", "19000301-12:00:00.000", 86_400_000),
    ("20240101-00:00:00.000", "20250101-00:00:00.000", 366 * 86_400_000),
    # 2^32 - 1 ms are 49 days, 17 hours, 2 minutes, 47 seconds and 295 ms.
    ("20260101-00:00:00.000", "20260219-17:02:47.295", WORD),
    ("20260101-00:00:00.000", "20260219-17:02:47.296", WORD + 1),
    ("00010101-00:00:00.000", "99991231-23:59:59.999", 3_652_059 * 86_400_000 - 1),
])
def test_time_between(start: str, end: str, due: int) -> None:
    assert fix.since(start.encode(), end.encode()) == due


# ---------------------------------------------------------------- the cases of `probe`


def probe(*numbers: int, rest: bytes = b"") -> str:
    return programs.probe(words(*numbers) + rest).removesuffix("\n")


def test_case_9() -> None:
    """A message that is read."""
    assert probe(9, rest=raw(NEW)) == "message D 11 7 54 1 38 500 44 -99 60 20261115-10:00:00.000"
    assert probe(9, rest=raw(CANCEL)) == "message F 11 8 41 7 60 20261115-10:00:00.001"
    assert probe(9, rest=framed(BODIES["G"])) == f"message G 11 8 41 7 54 1 38 500 44 -99 60 {TIME}"
    assert probe(9, rest=framed("35=D|")) == "refused 21" and probe(9) == "refused 20"


def test_case_10() -> None:
    """A message that is written."""
    assert probe(10, 1, 7, 0, 1, 500, 2**32 - 99, rest=START) == "bytes " + raw(NEW).hex(" ")
    assert probe(10, 2, 8, 7, 0, 0, 0, rest=at(1).encode()) == "bytes " + raw(CANCEL).hex(" ")
    last = b"99991231-23:59:59.999"
    assert probe(10, 3, WORD, WORD, 2, WORD, 2**31, rest=last) == "bytes " + raw(LONGEST).hex(" ")
    assert probe(10, 3, 0, 0, 1, 0, 0, rest=b"") == probe(10, 2, 1, 1, 0, 0, 0, rest=START + b"0") == "refused 21"


@pytest.mark.parametrize("wrong", [
    (0, 7, 0, 1, 5, 5), (4, 7, 7, 1, 5, 5), (1, 7, 1, 1, 5, 5), (2, 8, 7, 1, 0, 0), (2, 8, 7, 0, 1, 0),
    (2, 8, 7, 0, 0, 1), (1, 7, 0, 0, 5, 5), (1, 7, 0, 3, 5, 5), (3, 7, 7, 0, 5, 5), (1, 7, 0, 1, 5), (),
])
def test_bad_case_10(wrong: tuple[int, ...]) -> None:
    assert probe(10, *wrong) == "bad case"


@pytest.mark.parametrize(("t", "due"), [(0, "time 0"), (5, "time 5"), (LATE - 1, "time 4294967295"), (LATE, "refused 9"), (-1, "refused 8")])
def test_case_11(t: int, due: str) -> None:
    """The time between two."""
    assert probe(11, 21, rest=START + at(t).encode()) == due


def test_wrong_case_11() -> None:
    for size in (0, 20, 22, 42):
        assert probe(11, size, rest=START * 2) == "refused 21"
    assert probe(11, 43, rest=START * 2) == probe(11) == probe(11, 2**32 - 1) == "bad case"
