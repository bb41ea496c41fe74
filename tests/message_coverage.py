"""FIX messages (document 02, W11): what single messages, times and lists of calls show of them."""

from typing import Iterator

from recount import fix
from recount.book import BUY, LIVE_LIMIT, SELL, UNCOUNTED, Ask, Book, Commit, Message, Quoting, Ticket
from recount.fix import END, USED, WORD

TAGS = {kind: (*used, 60) for kind, used in USED.items()}

FRAME_REASONS = [
    "the last byte is not byte 1", "a field without equals sign", "an empty tag", "a tag that is not in digits",
    "a tag that starts with 0", "an empty value", "8 is not at place 1", "9 is not at place 2", "35 is not at place 3",
    "10 is not the last", *(f"{tag} a second time" for tag in (8, 9, 35, 10)), "8 is not FIX.4.4",
    "9 is not in digits", "9 is not the length", "10 is not the checksum", "35 is not D, F or G",
]
VALUE_REASONS = {
    **{tag: ["is not in digits", "is past 32 bits"] for tag in (11, 41, 38)},
    44: ["is not in digits", "is past 32 bits", "is minus zero"],
    54: ["is no side"],
    60: ["is not of its form", "is no date or time of day"],
}
READ = [
    *(f"a {kind} that is read" for kind in USED),
    "tags in another order", "leading zeros", "a tag that is skipped twice", "a tag of 4294967304",
    "a D with 41", *(f"an F with {tag}" for tag in (54, 38, 44)),
    *(f"{tag} is 4294967295" for tag in (11, 41, 38)), "44 is -2147483648", "44 is 2147483647", "44 is 0",
]
MUST_READ = [
    *READ,
    *(f"20: {why}" for why in FRAME_REASONS),
    *(
        f"21: {kind}: {tag} {why}" for kind, tags in TAGS.items() for tag in tags
        for why in ("is absent", "is there twice", *VALUE_REASONS[tag])
    ),
]


def situations_of_bytes(data: bytes) -> Iterator[str]:
    """What a single message shows."""
    pieces = data.split(END)
    try:
        order = fix.read(data)
    except fix.Unread as unread:
        kind = f" {pieces[2][3:].decode()}:" if unread.number == 21 else ""
        yield f"{unread.number}:{kind} {unread.why}"
        return
    yield f"a {order.kind} that is read"
    tags = [int(piece.partition(b"=")[0]) for piece in pieces[:-1]]
    used = [tag for tag in tags if tag in TAGS[order.kind]]
    others = [tag for tag in tags if tag not in TAGS[order.kind]]
    if used != list(TAGS[order.kind]):
        yield "tags in another order"
    if any(b"%d=0%d" % item in pieces for item in order.numbers.items() if item[1] > 0):
        yield "leading zeros"
    if len(set(others)) < len(others):
        yield "a tag that is skipped twice"
    yield from (f"a tag of {tag}" for tag in others if tag == 2**32 + 8)
    yield from (f"{'an F' if order.kind == 'F' else 'a D'} with {tag}" for tag in others if tag in fix.NUMBERS)
    yield from (f"{tag} is {number}" for tag, number in order.numbers.items())


# ---------------------------------------------------------------- times

MUST_TIME = [
    "refused 8", "refused 9", "time 0", "time 1", f"time {WORD}", "refused 8 by a millisecond",
    "refused 9 by a millisecond", "a time of day", "a leap day between", "a century without a leap day between",
    "both wrong", "a wrong start", "a wrong 60",
]


def situations_of_times(start: bytes, time: bytes, answer: str) -> Iterator[str]:
    yield answer
    if answer == "refused 21":
        starts, ends = (is_time(text) for text in (start, time))
        yield "both wrong" if not starts and not ends else "a wrong 60" if starts else "a wrong start"
        return
    apart = fix.since(start, time)
    if apart in (-1, WORD + 1):
        yield f"{answer} by a millisecond"
    if answer.startswith("time"):
        yield "a time of day"
        first, last = (int(text[:8]) for text in (start, time))
        for year in range(first // 10_000, last // 10_000 + 1):
            if first < 10_000 * year + 229 <= last:
                yield "a leap day between" if is_time(b"%04d0229" % year + start[8:]) else "29 February is not there"
                if year % 100 == 0 and year % 400:
                    yield "a century without a leap day between"


def is_time(text: bytes) -> bool:
    try:
        fix.instant(text)
    except ValueError:
        return False
    return True


# ---------------------------------------------------------------- lists

CAUSES = {"D": (7, 8, 9, 10, 12, 13), "F": (7, 8, 9, 11), "G": (7, 8, 9, 10, 11, 12)}
MUST_LIST = [
    *(f"{kind} {answer}" for kind in USED for answer in ("accepted", *(f"refused {n}" for n in CAUSES[kind]))),
    *(f"{kind} refused 21: a time is not of its form" for kind in USED),
    *(f"{kind} refused 21: a time is no date or time of day" for kind in USED),
    *(f"{kind} refused 8: before the start" for kind in USED),
    *(f"{kind} refused 9: past 32 bits" for kind in USED),
    *(f"{kind} refused 7: before the start" for kind in USED),
    *(f"{kind} refused 7: past 32 bits" for kind in USED),
    *(f"G refused 21: the order is {side}" for side in ("a buy", "a sell")),
    "G refused 21: the side, and a cause of 8 to 12",
    "G accepted with 64 live", "G accepted with 11 of 41", "G accepted with another 11", "F accepted whatever its 11",
    "20 with a wrong start", "a message of 20", "a message of 21",
    *(f"a ticket that is old after an accepted {kind}" for kind in USED),
    "a ticket that is good after a refused message", "a ticket by the count after a D or F",
    "a ticket by the count after a G", "a message with none open", "a message and kept time",
]


def message_situations(book: Book, call: Message, answer: str) -> Iterator[str]:
    """Of one message and its line, with the book before it."""
    quoting = book.quoting
    if quoting is None:
        yield "a message with none open"
    try:
        kind, numbers, time = fix.read(call.bytes)
    except fix.Unread as unread:
        yield f"a message of {unread.number}"
        if unread.number == 20 and not is_time(call.start):
            yield "20 with a wrong start"
        return
    yield f"{kind} {answer}"
    try:
        t = fix.since(call.start, time)
    except fix.Unread as unread:
        yield f"{kind} {answer}: {unread.why}"
        return
    if not 0 <= t <= WORD:
        yield f"{kind} {answer}: {'past 32 bits' if t > 0 else 'before the start'}"
    if quoting is not None and kind == "F" and answer == "accepted" and numbers[11] not in quoting.live:
        yield "F accepted whatever its 11"
    if quoting is not None and kind == "G":
        yield from replace_situations(quoting, numbers, t, answer)


def replace_situations(quoting: Quoting, numbers: dict[int, int], t: int, answer: str) -> Iterator[str]:
    if answer == "accepted":
        yield "G accepted with 11 of 41" if numbers[11] == numbers[41] else "G accepted with another 11"
        if len(quoting.live) == LIVE_LIMIT:
            yield "G accepted with 64 live"
    elif answer == "refused 21":
        side = quoting.live[numbers[41]].side
        yield f"G refused 21: the order is {({BUY: 'a buy', SELL: 'a sell'})[side]}"
        if t < quoting.time or t > quoting.row.length or numbers[38] == 0:
            yield "G refused 21: the side, and a cause of 8 to 12"


Since = list[tuple[object, str]]  # calls and their lines since an ask


def list_situations(calls: list[object], answers: list[str]) -> Iterator[str]:
    """What the calls and their lines show."""
    book, messages = Book(), 0
    asked: dict[tuple[int, ...], tuple[Ticket, Since]] = {}
    for call, answer in zip(calls, answers):
        if isinstance(call, Message):
            yield from message_situations(book, call, answer)
            messages += answer == "accepted"
        elif isinstance(call, Commit):
            ticket, since = asked.get(call[:4], (None, []))
            yield from ticket_situations(call, answer, ticket, since)
        given = book.call(call)
        if isinstance(call, Ask) and answer.startswith("asked"):
            asked[tuple(call)] = (given.ticket, [])
        for _, since in asked.values():
            since.append((call, answer))
        if messages and answer.startswith("cell kept") and not answer.startswith("cell kept 0"):
            yield "a message and kept time"


def kind_of(data: bytes) -> str:
    return data.split(END)[2][3:].decode()


def ticket_situations(call: Commit, answer: str, ticket: Ticket | None, between: Since) -> Iterator[str]:
    """Of a commit, by the ticket that was given for its amendment and what is between."""
    counted = [other for other, line in between if line == "accepted" and not isinstance(other, UNCOUNTED)]
    kinds = [kind_of(other.bytes) for other in counted if isinstance(other, Message)]
    if call.ticket == ticket:
        if answer == "refused 19" and len(kinds) == len(counted) == 1:
            yield f"a ticket that is old after an accepted {kinds[0]}"
        refused = any(isinstance(other, Message) and line.startswith("refused") for other, line in between)
        if answer == "accepted" and refused:
            yield "a ticket that is good after a refused message"
    elif ticket and answer == "accepted" and len(kinds) == len(counted) == 1:
        more = call.ticket.count - ticket.count
        if more == 1 + (kinds[0] == "G"):
            yield f"a ticket by the count after a {'G' if more == 2 else 'D or F'}"
