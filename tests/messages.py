"""Seeded random FIX messages (document 02, W11): good ones, ones with one thing wrong, damaged ones; and times."""

from datetime import datetime, timedelta
from random import Random
from typing import Iterator

from recount import fix
from recount.fix import END, USED, WORD

Parts = list[bytes]  # fields of a body after 35, without byte 1

DAY = 86_400_000
LATE = WORD + 1  # milliseconds that are past 32 bits


# ---------------------------------------------------------------- times


def clock(rng: Random) -> str:
    hour, minute, second = (rng.choice([0, most, rng.randrange(most)]) for most in (23, 59, 59))
    return f"{hour:02}:{minute:02}:{second:02}.{rng.choice([0, 1, 999, rng.randrange(1_000)]):03}"


def any_time(rng: Random) -> bytes:
    """Any, often in a year at an end of the calendar or near a leap day."""
    year = rng.choice([1, 4, 100, 400, 1900, 2000, 2024, 2026, 9996, 9999, rng.randrange(1, 10_000)])
    days = datetime(year, 12, 31).timetuple().tm_yday
    day = datetime(year, 1, 1) + timedelta(days=rng.choice([0, 58, 59, 60, days - 1, rng.randrange(days)]))
    return f"{year:04}{day:%m%d}-{clock(rng)}".encode()


def shifted(time: bytes, millis: int) -> bytes | None:
    """The time so many milliseconds later, where the calendar has it."""
    try:
        then = fix.instant(time) + timedelta(milliseconds=millis)
    except OverflowError:
        return None
    return f"{then.year:04}{then:%m%d-%H:%M:%S.%f}"[:21].encode()


WRONG_DATES = [
    "00000101", "00010229", "19000229", "21000229", "20230229", "20000230", "20260431", "20260931", "20260001",
    "20261301", "20260100", "20260132", "20269999",
]
WRONG_CLOCKS = ["24:00:00.000", "99:00:00.000", "10:60:00.000", "10:00:60.000", "10:00:99.000"]


def wrong_time(rng: Random) -> bytes:
    time = any_time(rng).decode()
    how = rng.randrange(4)
    if how == 0:
        return f"{rng.choice(WRONG_DATES)}-{clock(rng)}".encode()
    if how == 1:
        return f"{time[:8]}-{rng.choice(WRONG_CLOCKS)}".encode()
    if how == 2:
        return rng.choice([time[1:], time[:-1], time + "0", "0" + time, time[:17], time[:8]]).encode()
    at = rng.randrange(21)
    return (time[:at] + rng.choice("-:. /a;") + time[at + 1 :]).encode()


def time_pair(rng: Random) -> tuple[bytes, bytes]:
    """A start and another time: near, at the ends of 32 bits, far, at times one of them wrong."""
    start = any_time(rng)
    far = rng.choice([0, 1, 1_000, DAY - 1, DAY, 59 * DAY, WORD, LATE, rng.randrange(LATE), rng.randrange(2**47)])
    other = shifted(start, far + rng.choice([0, 0, 1, -1]) - 2 * far * (rng.random() < 0.2)) or any_time(rng)
    if rng.random() < 0.25:
        return rng.choice([(wrong_time(rng), other), (start, wrong_time(rng)), (wrong_time(rng), wrong_time(rng))])
    return start, other


# ---------------------------------------------------------------- a body


def zeros(rng: Random) -> bytes:
    return b"0" * rng.choice([0, 0, 0, 0, 1, 2, 12, 30])


def number(rng: Random) -> int:
    return rng.choice([0, 1, 7, 500, WORD, WORD - 1, 2**31, rng.randrange(1_000), rng.randrange(LATE)])


def price(rng: Random) -> int:
    low, high = fix.STEPS
    return rng.choice([0, 1, -1, -99, low, high, low + 1, rng.randrange(low, high), rng.randrange(-9_999, 9_999)])


def order(rng: Random, kind: str) -> fix.Order:
    """Any fields that the kind can have."""
    values = {11: number(rng), 41: number(rng), 54: rng.choice([1, 2]), 38: number(rng), 44: price(rng)}
    return fix.Order(kind, {tag: values[tag] for tag in USED[kind]}, any_time(rng))


def value(rng: Random, tag: int, number: int) -> bytes:
    """Digits of a number, at times with leading zeros."""
    if tag == 54:
        return b"%d" % number
    return b"-" * (number < 0) + zeros(rng) + b"%d" % abs(number)


SKIPPED = [1, 15, 21, 40, 49, 52, 55, 56, 58, 59, 34, 453, 448, 80, 90, 100, 110, 351, 4_294_967_304, 2**64 + 35]


def skipped(rng: Random, kind: str) -> bytes:
    """A field that the kind does not use; its value may be anything."""
    tag = rng.choice([*SKIPPED, *(tag for tag in fix.NUMBERS if tag not in USED[kind])])
    any_bytes = bytes(rng.choice([0, 2, 61, 48, 124, 255, rng.randrange(2, 256)]) for _ in range(rng.randrange(1, 9)))
    return b"%d=" % tag + rng.choice([b"1", b"x", b"-0", b"20261115-10:00:00.000", any_bytes])


HEADER = [b"49=MAKER01", b"56=EXCHANGE", b"34=17", b"52=20261115-10:00:00.003"]


def parts_of(rng: Random, said: fix.Order) -> Parts:
    """The fields of an order as some terminal writes them."""
    parts = [b"%d=" % tag + value(rng, tag, said.numbers[tag]) for tag in USED[said.kind]]
    parts.append(b"60=" + said.time)
    if rng.random() < 0.3:
        rng.shuffle(parts)
    for _ in range(rng.choice([0, 0, 1, 3])):
        parts.insert(rng.randrange(len(parts) + 1), skipped(rng, said.kind))
    return HEADER + parts if rng.random() < 0.3 else parts


def body_of(kind: bytes, parts: Parts) -> bytes:
    return b"".join(part + END for part in (b"35=" + kind, *parts))


def draft(rng: Random) -> tuple[str, Parts]:
    kind = rng.choice("DFG")
    return kind, parts_of(rng, order(rng, kind))


# ---------------------------------------------------------------- right and wrong messages


def good(rng: Random) -> bytes:
    kind, parts = draft(rng)
    body = body_of(kind.encode(), parts)
    if rng.random() < 0.8:
        return fix.framed(body)
    return around(body, length=zeros(rng) + b"%d" % len(body))


def around(body: bytes, begin: bytes = b"8=FIX.4.4", length: bytes | None = None, total: bytes | None = None) -> bytes:
    """A body with 8, 9 and 10 as given; what is not given is right."""
    nine = b"%d" % len(body) if length is None else length
    before = begin + END + b"9=" + nine + END + body
    return before + b"10=" + (fix.checksum(before) if total is None else total) + END


WRONG_WORDS = [
    b"x", b"-1", b"+1", b"-0", b" 1", b"1 ", b"1.5", b"0x10", b"4294967296", b"04294967296", b"99999999999",
    b"18446744073709551616", b"18446744073709551617", b"9" * 40, b"1\0", b"\xb2",
]
WRONG_VALUES = {
    11: WRONG_WORDS,
    41: WRONG_WORDS,
    38: WRONG_WORDS,
    44: [
        b"-0", b"-00", b"-", b"+1", b"--1", b"1-", b" 1", b"2147483648", b"-2147483649", b"4294967295", b"-4294967297",
        b"9" * 40, b"-" + b"9" * 40, b"1.0",
    ],
    54: [b"0", b"3", b"01", b"02", b"11", b"1 ", b"B", b"-1"],
}


def wrong_field(rng: Random) -> bytes:
    """A used tag absent, twice or with a value that is not read."""
    kind, parts = draft(rng)
    tag = rng.choice([*USED[kind], 60])
    name = b"%d=" % tag
    at = next(place for place, part in enumerate(parts) if part.startswith(name))
    how = rng.randrange(4)
    if how == 0:
        del parts[at]
    elif how == 1:
        again = rng.choice([parts[at], name + b"1", name + b"x"])
        parts.insert(rng.randrange(len(parts) + 1), again)
    else:
        parts[at] = name + (wrong_time(rng) if tag == 60 else rng.choice(WRONG_VALUES[tag]))
    return fix.framed(body_of(kind.encode(), parts))


def wrong_part(rng: Random) -> bytes:
    """A field that is not formed, or a tag of the frame where it is out of place; the rest is right."""
    kind, parts = draft(rng)
    bad = [b"", b"11", b"=7", b"7=", b"=", b"011=7", b"0=7", b"1a=7", b"-1=7", b"+11=7", b" 11=7", b"1 1=7", b"11 =7"]
    bad += [b"%d=%s" % (tag, text) for tag in (8, 9, 35, 10) for text in (b"FIX.4.4", b"1", b"D", b"000")]
    parts.insert(rng.randrange(len(parts) + 1), rng.choice(bad))
    return fix.framed(body_of(kind.encode(), parts))


def wrong_frame(rng: Random) -> bytes:
    kind, parts = draft(rng)
    body = body_of(kind.encode(), parts)
    n, message = len(body), fix.framed(body)
    total = fix.checksum(fix.before_last(message))
    near = b"%03d" % ((int(total) + rng.choice([1, 255, 128])) % 256)
    pieces = [piece + END for piece in message.split(END)[:-1]]
    at = rng.randrange(3)
    turned = [*pieces[:at], pieces[at + 1], pieces[at], *pieces[at + 2 :]]
    other = pieces[at].replace(pieces[at][:1], rng.choice([b"7", b"1", b"0"]), 1)  # another tag, of the same length
    retagged = b"".join([*pieces[:at], other, *pieces[at + 1 : -1]])
    return rng.choice([
        around(body, begin=rng.choice([b"8=FIX.4.2", b"8=FIX.4.40", b"8=fix.4.4", b"9=FIX.4.4", b"88=FIX.4.4"])),
        around(body, length=b"%d" % (n + rng.choice([-1, 1, 7, -5, 2**32, 2**64]))),
        around(body, length=rng.choice([b"", b"x", b"+%d" % n, b"-%d" % n, b"%d " % n, b"0x%x" % n, b"9" * 40])),
        around(body, total=rng.choice([near, near, total + b"0", b"0" + total, total[:2], b"", b" " + total[1:]])),
        fix.framed(body_of(rng.choice([b"8", b"0", b"d", b"E", b"DD", b"AE", b"FG", b" "]), parts)),
        message + rng.choice([END, b"5", b"58=x" + END, b"10=000" + END]),
        rng.choice([END, b"0", b"7=1" + END]) + message,
        b"".join(turned),
        retagged + b"10=" + fix.checksum(retagged) + END,
        fix.before_last(message) + rng.choice([b"11=", b"100=", b"1=", b"010=", b"20="]) + total + END,
        b"".join(pieces[:at] + pieces[at + 1 :]),
        b"".join(pieces[:-1]),
        message[: rng.randrange(len(message))],
    ])


def struck(rng: Random, data: bytes) -> bytes:
    """The bytes with one of them flipped, put in or left out."""
    at = rng.randrange(len(data))
    how = rng.randrange(4)
    telling = rng.choice([1, 61, 48, 49, 57, 45, 0, 255, rng.randrange(256)])
    if how == 0:
        return data[:at] + bytes([data[at] ^ 1 << rng.randrange(8)]) + data[at + 1 :]
    if how == 1:
        return data[:at] + bytes([telling]) + data[at + 1 :]
    if how == 2:
        return data[:at] + bytes([telling]) + data[at:]
    return data[:at] + data[at + 1 :]


def damaged(rng: Random) -> bytes:
    return struck(rng, good(rng))


def damaged_inside(rng: Random) -> bytes:
    """Damaged as well, but length and checksum are those of the damaged body."""
    kind, parts = draft(rng)
    return fix.framed(struck(rng, body_of(kind.encode(), parts)))


def noise(rng: Random) -> bytes:
    """Fields of few tags and characters, framed, in which any rule may be broken several times."""
    signs = [b"8", b"9", b"10", b"11", b"35", b"41", b"54", b"38", b"44", b"60", b"=", b"=", b"1", b"0", b"-", END, END]
    text = b"".join(rng.choices(signs, k=rng.randrange(30)))
    return rng.choice([fix.framed(b"35=" + rng.choice([b"D", b"F", b"G"]) + END + text), fix.framed(text), text])


MESSAGES = [
    (good, 5), (wrong_field, 5), (wrong_part, 2), (wrong_frame, 4), (damaged, 5), (damaged_inside, 5), (noise, 1),
]


def any_message(rng: Random) -> tuple[str, bytes]:
    """A generator's name and the bytes."""
    generators, shares = zip(*MESSAGES)
    generator = rng.choices(generators, shares)[0]
    return generator.__name__, generator(rng)


def directed(kind: str) -> Iterator[bytes]:
    """Each used tag absent, twice and with each of the wrong values; each of the others with any of them."""
    time = b"20261115-10:00:00.000"
    parts = {tag: b"%d=1" % tag for tag in USED[kind]} | {60: b"60=" + time}
    times = [f"{date}-10:00:00.000".encode() for date in WRONG_DATES]
    times += [f"20261115-{end}".encode() for end in WRONG_CLOCKS]
    wrong = WRONG_VALUES | {60: [*times, time[:-1], time + b"0", time.replace(b"-", b" "), time.replace(b":", b".")]}

    def message(*changed: bytes) -> bytes:
        return fix.framed(body_of(kind.encode(), list(changed)))

    for tag, part in parts.items():
        rest = [other for other in parts.values() if other != part]
        yield from [message(*rest), message(*rest, part), message(part, *rest, part)]
        yield message(*rest, b"%d=x" % tag, part)
        yield from (message(*rest, b"%d=" % tag + text) for text in wrong[tag])
    for tag in fix.NUMBERS:
        if tag not in parts:
            yield from (message(b"%d=x" % tag, *parts.values(), b"%d=" % tag + text) for text in wrong[tag])


def long_messages(size: int) -> Iterator[bytes]:
    """Good messages of so many bytes and some more: a long value, very many fields, a long tag, leading zeros."""
    body = body_of(b"D", [b"11=7", b"54=1", b"38=500", b"44=-99", b"60=20261115-10:00:00.001"])
    yield fix.framed(body + b"58=" + b"x" * size + END)
    yield fix.framed(body + (b"7=1" + END) * (size // 4))
    yield fix.framed(body + b"7" * size + b"=1" + END)
    yield fix.framed(body.replace(b"11=", b"11=" + b"0" * size))
    yield fix.framed(body.replace(b"44=-", b"44=-" + b"0" * size))
    yield around(body, length=b"0" * size + b"%d" % len(body))
