"""The library for C: every call against the recount, and some of the cases against `probe`.

What `make library` has built in target/library is taken. tests/library.c runs the cases twice: linked with the archive, its own side
compiled with the address and undefined-behaviour sanitizers, and with the shared library; each time once in turn and once on four threads.
A month's calls run one by one on words of the caller's, and as a whole list; refused ones must leave the hints, byte for byte. Then the header
as C and as C++, the C++ example, the C example that holds a month (with the sanitizers, and under valgrind) against `replay`, what the shared
library shows, and an installed copy through pkg-config. A test fails where an answer or a buffer differs, and where a refusal that a call can
give never came up.
"""

import random
import re
import subprocess
from collections import defaultdict, namedtuple

import pytest

from recount import account as accounts
from recount import fix, game, programs, records, standing, strikes, volatile
from recount import session as run
from recount.book import (
    BUY, NO_LIMIT, PRICE_LIMIT, Accepted, Add, Amend, Ask, Asked, Book, Cancel, CellView, Close, Commit, Deal, Look, Message, Open, Outlook, Refused,
    Report, Row, Strike, Tick, Ticket, Withdraw, choose, narrow, weight,
)
from recount.outlook import OutlookView
from tests import calls_text, generate, known, message_lists, messages, months, session_text, standing_cases, strike_cases, volatile_cases
from tests.paths import BIN, EXAMPLES, INCLUDE, LIBRARY, ROOT, TESTS
from tests.running import words

pytestmark = pytest.mark.usefixtures("library", "programs")

STRICT = ["-Wall", "-Wextra", "-Wpedantic", "-Werror", f"-I{INCLUDE}"]
SANITIZED = ["-fsanitize=address,undefined", "-fno-sanitize-recover=all"]
SHORT = 16 << 32
SIXTY = b"20261115-10:00:00.000"

# The number of a call in tests/library.c, the refusals that its cases must show, and the cases.
NAMES = {
    1: ("session", [1, 2, 3, *range(8, 16)]), 2: ("session_pairs", [1, 2, 3, *range(8, 17)]), 3: ("weight", [2, 3]),
    4: ("choose_row", [16]), 5: ("fix", [16, 20, 21]), 6: ("fix_write", [3, 16, 21]), 7: ("board", [18]), 8: ("volatile", [22]),
    9: ("ease", [22]), 10: ("safe_minutes", [26]), 11: ("month_fresh", [16]), 12: ("calls", [16]), 13: ("calls_words", []),
    14: ("month_call, a list", []), 15: ("month_call", [3, 16]), 16: ("standing", [3, 16]),
    17: ("account", [1, 2, 3, *range(8, 17), 18]), 18: ("month_view", [16]), 19: ("sigma", [16]), 20: ("month_records", [16]),
}
REFUSED_RECORDS = {7, 8, 9, 10, 11, 12, 13, 14, 15}  # the answers that the records' cases must show
MONTH_WORDS, HINT_BYTES, ANSWER_WORDS = 2464, 2048, 20

# The kinds of a month's calls that name orders (add, amend, cancel, deal, tick, ask, commit, message), each with the refusals that its lists
# must show.
REFUSED_IN_LISTS = {
    2: {7, 8, 9, 10, 12, 13}, 3: {7, 8, 9, 11, 12}, 4: {7, 8, 9, 11}, 5: {7, 8, 9, 11, 12, 14}, 6: {7, 8, 9},
    14: {7, 8, 9, 11, 12}, 15: {7, 8, 9, 11, 12, 19}, 16: {7, 8, 9, 10, 11, 12, 13, 20, 21},
}

# A case: which call, the buffer's elements and the byte that fills them, numbers, two byte strings.
Case = namedtuple("Case", "call count fill numbers first second", defaults=[0, 0, (), b"", b""])


def packed(numbers):
    return words(*numbers)


def as_bytes(case):
    numbers = [*case.numbers, 0, 0, 0, 0][:4]
    front = [case.call, case.count, case.fill, *numbers, len(case.first), len(case.second)]
    return packed(front) + case.first + case.second


# ---------------------------------------------------------------- what is due, by the recount


def lent(case):
    return [case.fill * (1 if case.call == 6 else 0x01010101)] * case.count


def writes(found, buffer):
    if len(buffer) < len(found):
        return SHORT, buffer
    return len(found), [*found, *buffer[len(found) :]]


def session_pairs(case, buffer):
    answer = run.run_bytes(case.first, case.second)
    if isinstance(answer, run.Stopped):
        return (answer.number << 32) + answer.place, buffer
    return writes([answer.kept, answer.weight, len(answer.pairs), *run.pair_words(answer.pairs)], buffer)


def account(case, buffer):
    """The first string has what the spread limit goes by, six words, then the records; the second is the row."""
    strike, sp, *given = programs.to_words(case.first[:24])
    spread = Strike(*given) if strike else programs.signed(sp)
    return accounts.library(programs.to_words(case.second), spread, case.first[24:], buffer)


def weighed(kept, length, share):
    if length % 1_000 or not 1_000 <= length <= 86_400_000 or not 1 <= share <= 799:
        return 2 << 32
    return 3 << 32 if kept > length else weight(kept, length, share)


def message_words(order):
    kind = {name: number for number, name in fix.KINDS.items()}[order.kind]
    time = [int(part) for part in fix.TIME.fullmatch(order.time).groups()]
    return [kind, *(order.numbers.get(tag, 0) % 2**32 for tag in fix.NUMBERS), *time]


def read_fix(case, buffer):
    try:
        return writes(message_words(fix.read(case.first)), buffer)
    except fix.Unread as refused:
        return refused.number << 32, buffer


def written_fix(case, buffer):
    words = programs.to_words(case.first)[:6]
    used = fix.USED.get(fix.KINDS.get(words[0])) if len(words) == 6 else None
    if used is None:
        return 3 << 32, buffer
    order = fix.order_of([words[0], *(w if tag in used else 0 for tag, w in zip(fix.NUMBERS, words[1:]))], case.second)
    if order is None:
        return 3 << 32, buffer
    try:
        return writes(list(fix.write(order)), buffer)
    except fix.Unread as refused:
        return refused.number << 32, buffer


def prices_of(data):
    return [programs.signed(word) for word in programs.to_words(data)]


def last_sigma(case, buffer):
    found = volatile.last_sigma(prices_of(case.first))
    return writes([] if found is None else [found], buffer)


def inside(data, threshold):
    try:
        return int(volatile.inside(prices_of(data), threshold))
    except volatile.Refused22:
        return 22 << 32


def wide(number):
    return [number % 2**32, number >> 32]


def quote_words(quote):
    return [0, 0] if quote is None else [1, quote % 2**32]


def possible(value):
    return [int(value is not None), value or 0]


def outlook_words(view):
    kind = {"none": 0, "over": 1}.get(view.lapses, 2)
    lapses = [kind, view.lapses if kind == 2 else 0]
    return [view.need, view.left, *possible(view.by), *possible(view.full), *lapses, int(view.rest), int(view.lost), view.weight_rest, view.weight_keep]


def answer_words(answer):
    """An answer of the book, as the twenty words that FORMATS.md lays out."""
    if isinstance(answer, Accepted):
        words = [0, 0]
    elif isinstance(answer, Refused):
        words = [1, answer.number]
    elif isinstance(answer, CellView):
        cell = [1, answer.kept, answer.length, answer.share, answer.limit, answer.lapses, *wide(answer.active), *wide(answer.passive)]
        words = [2, 0, *cell, int(answer.met), answer.weight]
    elif isinstance(answer, Asked):
        t, id, price, volume, count = answer.ticket
        words = [3, 0, *quote_words(answer.bid), *quote_words(answer.ask), t, id, price % 2**32, volume, *wide(count)]
    elif isinstance(answer, OutlookView):
        words = [5, 0, *outlook_words(answer)]
    else:
        words = [4, 0, int(answer.is_open), answer.time, answer.orders, *quote_words(answer.bid), *quote_words(answer.ask), answer.kept]
        words += [answer.lapses, *answer.failed, *wide(answer.fee)]
    return words + [0] * (ANSWER_WORDS - len(words))


def list_words(data):
    """Each answer's words, one after the other, and how many words of the list are calls."""
    calls, stop = programs.read_calls(data)
    book = Book()
    return [word for call in calls for word in answer_words(book.call(call))], len(data) // 4 if stop is None else stop


def one_call(case, buffer):
    calls, stop = programs.read_calls(case.first)
    if len(calls) != 1 or stop is not None:
        return 3 << 32, buffer
    for place, (size, needed) in enumerate(zip((*case.numbers, case.count), (MONTH_WORDS, HINT_BYTES, ANSWER_WORDS))):
        if size < needed:
            return SHORT + place + 1, buffer
    return writes(list_words(case.first)[0], buffer)


def month_case(case, buffer):
    if case.call == 15:
        return one_call(case, buffer)
    if case.call == 11:
        return (MONTH_WORDS, None) if len(buffer) >= MONTH_WORDS else (SHORT, buffer)
    words, read = list_words(case.first)
    if case.call == 13:
        return read, buffer
    answer, after = writes(words, buffer)
    if case.call == 14:
        return (ANSWER_WORDS if case.second else MONTH_WORDS), after
    return (answer if answer == SHORT else answer // ANSWER_WORDS), after


def month_records(case, buffer):
    """The second string has the leading bytes of a session, by which a quantum is opened; where it is empty, none is."""
    for place, (size, needed) in enumerate(zip((*case.numbers, case.count), (MONTH_WORDS, HINT_BYTES, ANSWER_WORDS))):
        if size < needed:
            return SHORT + place + 1, buffer
    taken, answer = taken_records(case.first, case.second)
    return taken, writes(answer_words(answer), buffer)[1]


def taken_records(data, head):
    """How many records a month takes, and its answer: accepted, or what refuses the next one."""
    book = Book()
    if head:
        words, sp = run.read_head(head)
        book.call(Open(words, 1, sp, NO_LIMIT))
    for taken, record in enumerate(records.split(data)):
        event = records.read(record)
        answer = book.call(Tick(0) if event is None else event)  # no event: 7 with no quantum open
        if event is None and not (isinstance(answer, Refused) and answer.number == 7):
            answer = Refused(15)
        if isinstance(answer, Refused):
            return taken, answer
    return -(-len(data) // 20), Accepted()


def widest(row, sp):
    """The greatest D that the spread limit allows, by halves; 0 where it allows none."""
    low, high = 0, 2**32
    while high - low > 1:
        middle = (low + high) // 2
        low, high = (middle, high) if narrow(row, sp, middle) else (low, middle)
    return low


def view_words(data):
    """The view after a list of calls, as words."""
    book = Book()
    for call in programs.read_calls(data)[0]:
        book.call(call)
    open_one = book.quoting
    if open_one is None:
        return []
    row, sp, live = open_one.row, open_one.sp, open_one.live
    spread = [1, *sp] if isinstance(sp, Strike) else [0, sp % 2**32, 0, 0, 0]
    words = [open_one.day, *row, *spread, open_one.limit, widest(row, sp), accounts.state(row, sp, live), len(live)]
    return words + [word for o in live.values() for word in (o.id, 1 if o.side == BUY else 2, o.price % 2**32, o.volume)]


def view_case(case, buffer):
    if case.numbers[0] < MONTH_WORDS:
        return SHORT + 1, buffer
    words = view_words(case.first)
    return writes(words, buffer) if len(words) <= len(buffer) else (SHORT + 2, buffer)


def standing_case(case):
    """The count, and the records and outcomes after the calls."""
    size, count = case.numbers
    flat, words = programs.to_words(case.second), programs.to_words(case.first)
    records, outcomes = list(zip(flat[: 2 * size : 2], flat[1 : 2 * size : 2])), flat[2 * size :]
    calls = list(zip(words[::3], words[1::3], words[2::3]))
    if len(words) % 3 or not all(standing.is_call(kind, rating) for kind, _, rating in calls):
        return 3 << 32, flat
    if len(outcomes) < len(calls):
        return SHORT, flat
    for k, call in enumerate(calls):
        outcomes[k], records, count = left_by(records, count, call)
    return count, [*(word for record in records for word in record), *outcomes]


def left_by(records, count, call):
    """The recount's step; the record that a leave gives up holds the maker who left, with no rating."""
    refused, after, counted = standing.step(records, count, call)
    if not refused and call[0] == standing.LEAVE:
        after = [*after[:counted], (call[1], 0), *records[count:]]
    return refused, after, counted


def due(case):
    """The answer, and the buffer after it; None for a fresh month's words."""
    buffer, numbers = lent(case), case.numbers
    if case.call == 16:
        return standing_case(case)
    if 10 < case.call < 17:
        return month_case(case, buffer)
    if case.call == 9:
        row = programs.to_words(case.second)
        answer = inside(case.first, numbers[1])
        return answer, volatile.eased(row, numbers[0] != 0) if answer == 1 else row
    filling = {2: session_pairs, 5: read_fix, 6: written_fix, 17: account, 18: view_case, 19: last_sigma, 20: month_records}
    if case.call in filling:
        return filling[case.call](case, buffer)
    if case.call == 4:
        tables = programs.to_words(case.first), programs.to_words(case.second)
        return writes(choose(*tables, numbers[0] != 0, *numbers[1:3]), buffer)
    return {
        1: lambda: run.ccall(case.first, case.second),
        3: lambda: weighed(*numbers[:3]),
        7: lambda: judged(numbers, programs.to_words(case.first)),
        8: lambda: inside(case.first, numbers[0]),
        10: lambda: 26 << 32 if max(numbers[:3]) > 60 else game.closed(*numbers[:3]),
    }[case.call](), buffer


def judged(shares, words):
    answer = strikes.board(*shares[:2], list(zip(words[::2], words[1::2])))
    return {18: 18 << 32, "met": 1, "failed": 0}[answer]


# ---------------------------------------------------------------- the cases


def sizes(rng, needed):
    """A buffer's length about what is needed."""
    return max(0, rng.choice([needed, needed, needed, needed + 1, needed + 7, needed - 1, needed // 2, 0, 1, 2]))


def session_cases(rng, count):
    sessions = list(known.sessions())
    for name in ("brent", "document01", "gold-mini"):
        data = session_text.to_bytes((EXAMPLES / f"{name}.session").read_text())
        sessions.append((data[:32], data[32:]))
    sessions += [generate.any_session(rng)[1:] for _ in range(count)]
    sessions += [(head[:size], data) for head, data in sessions[:2] for size in (0, 31)] + [(sessions[0][0] + b"\0", b"")]
    for head, data in sessions:
        yield Case(1, first=head, second=data)
        answer = run.run_bytes(head, data)
        needed = 5 if isinstance(answer, run.Stopped) else 3 + 2 * len(answer.pairs)
        yield Case(2, sizes(rng, needed), rng.randrange(256), first=head, second=data)


def account_cases(rng, count):
    """Known sessions by SP, and random ones by SP and by strikes in turn."""
    sessions = list(known.sessions())
    by_sp = len(sessions)
    sessions += [generate.any_session(rng)[1:] for _ in range(2 * count)]
    for at, (head, data) in enumerate(sessions):
        row, sp = (head[:28], run.HEAD.unpack(head)[-1]) if len(head) == 32 else (head[:24], 0)
        strike = at % 2 if at > by_sp else 0
        given = generate.wrong_strike(rng) if at % 20 == 1 else generate.any_strike(rng)
        first = packed([strike * rng.choice([1, 2, 2**32 - 1]), sp, *given]) + data
        answer = accounts.run(programs.to_words(row), given if strike else sp, data)
        needed = 9 if isinstance(answer, run.Stopped) else 7 + 3 * len(answer.stretches)
        yield Case(17, sizes(rng, needed), rng.randrange(256), first=first, second=row)


def weight_cases(rng, count):
    for _ in range(count):
        length = rng.choice([1_000, 10_000, 31_500_000, 86_400_000, 1_000 * rng.randrange(86_402), rng.randrange(2**32)])
        share = rng.choice([1, 600, 700, 750, 799, 800, 0, rng.randrange(801), rng.randrange(2**32)])
        near = length * share // 1000
        kept = rng.choice([0, near - 1, near, near + 1, length, length + 1, length * 8 // 10, rng.randrange(length + 1), rng.randrange(2**32)])
        yield Case(3, numbers=(kept % 2**32, length, share))


def row_cases(rng, count):
    for _ in range(count):
        _, holiday, expiry, quantum, u, h, *words = generate.any_tables(rng)
        numbers = (rng.choice([holiday, holiday, 2**32 - 1]), expiry, quantum)
        yield Case(4, sizes(rng, 7), rng.randrange(256), numbers, packed(words[:u]), packed(words[u:]))


def fix_cases(rng, count):
    shipped = re.findall(rb"8=FIX.*?\x0110=...\x01", calls_text.to_bytes((EXAMPLES / "fix.calls").read_text()), re.S)
    some = shipped + [messages.any_message(rng)[1] for _ in range(count)] + [messages.good(rng) for _ in range(count)]
    for data in [*some, b""]:
        yield Case(5, sizes(rng, 13), rng.randrange(256), first=data)
    for at in range(count):
        kind = rng.choice("DFG")
        order = messages.order(rng, kind)
        words = message_words(order._replace(time=SIXTY))[: rng.choice([6, 6, 6, 7, 13, 5, 0])]
        if words and rng.random() < 0.2:
            words[rng.choice([0, 3][: len(words)])] = rng.choice([0, 3, 4, 2**32 - 1])
        sixty = order.time if rng.random() < 0.8 else messages.wrong_time(rng)
        try:
            needed = len(fix.write(order._replace(time=sixty)))
        except fix.Unread:
            needed = 114
        yield Case(6, sizes(rng, needed), rng.randrange(256), (), packed(words), sixty)


def other_cases(rng, count):
    for at in range(count):
        first, second, board = (strike_cases.spoiled if at % 3 == 0 else strike_cases.planned)(rng)
        yield Case(7, numbers=(first, second), first=packed([w for strike in board for w in strike]))
    lists = list(volatile_cases.known_prices()) + [rng.choice([volatile_cases.walk, volatile_cases.repeated, volatile_cases.rough])(rng) for _ in range(count)]
    for prices, threshold in lists:
        yield Case(8, numbers=(threshold,), first=packed(prices))
        yield Case(19, rng.randrange(3), rng.randrange(256), first=packed(prices[: rng.choice([len(prices), rng.randrange(9)])]))
        row = rng.choice([volatile_cases.any_row, volatile_cases.any_strike_row])(rng)
        yield Case(9, len(row), 0, (rng.choice([0, 0, 1, 7]), threshold), packed(prices), packed(row))
    for _ in range(count):
        yield Case(10, numbers=tuple(rng.choice([*(rng.randrange(61) for _ in range(8)), 61, 2**32 - 1]) for _ in range(3)))


def message(kind, t, id, price=100, volume=500, other=None):
    """An order's message of a time of the quantum; `other` is the id that a G gives it."""
    old, new = {"D": {}, "F": {41: id}, "G": {41: id}}[kind], {11: id if other is None else other}
    rest = {} if kind == "F" else {54: BUY, 38: volume, 44: price}
    return Message(SIXTY, fix.write(fix.Order(kind, {**new, **old, **rest}, messages.shifted(SIXTY, t))))


def refused_calls():
    """Calls that name orders, each refused by every number that it can be; ids 1 and 2,049 have the same hint."""
    row, known_id, like_it, volume, high = list(Row(1, 1, 10_000, 500, 100, 1, 600)), 1, 2_049, 500, PRICE_LIMIT + 1

    def changes(t, id, price=100, volume=500):
        named = t, id, price, volume
        return [Amend(*named), Ask(*named), Commit(*named, Ticket(*named, 0)), message("G", *named)]

    def every(t, id):
        new = [Add(t, id + 100, BUY, 100, volume), message("D", t, id + 100)]
        return [*new, *changes(t, id), Cancel(t, id), message("F", t, id), Deal(t, id, volume), Tick(t)]

    calls = [*every(5, known_id), Open(row, 1, 2_000), *(Add(5, id, 1 + id % 2, 100, volume) for id in range(1, 9))]
    calls += every(4, known_id) + every(10_001, known_id)
    calls += [Add(5, 1, BUY, 100, volume), message("D", 5, 1), message("G", 5, 2, other=1)]
    calls += [*changes(5, like_it), Cancel(5, like_it), message("F", 5, like_it), Deal(5, like_it, volume)]
    calls += [Add(5, like_it, BUY, high, volume), message("D", 5, like_it, high), *changes(5, known_id, high), *changes(5, known_id, 100, 0)]
    calls += [Deal(5, known_id, 0), Deal(5, known_id, volume + 1), Commit(5, 1, 100, volume, Ticket(5, 1, 100, volume, 0))]
    whole = message("F", 5, known_id)
    calls += [whole._replace(bytes=whole.bytes[:-1]), whole._replace(start=b"")]
    calls += [Amend(5, id, 101, volume) for id in range(1, 9)] + [Deal(5, 1, volume), Cancel(5, 2)]
    calls += [Add(6, like_it + id, 1 + id % 2, 100, volume) for id in range(58)]
    return [*calls, Add(6, 1, BUY, 100, volume), message("D", 6, 1), Report(), Outlook(), Look(1, 1, 1), Close(1, 1), Withdraw(1, 1, 1)]


def some_lists(rng, count):
    """Lists of calls as bytes: known ones, random ones, and such that stop being calls."""
    calls = [known.paper_calls(), known.greatest_charges(), known.every_refusal(), known.lapse_calls(), known.strike_calls(), known.ask_calls()]
    calls += [refused_calls()]
    calls += [months.any_calls(rng)[1] for _ in range(count)] + [message_lists.any_calls(rng)[1] for _ in range(count)]
    lists = [calls_text.calls_bytes(some) for some in calls]
    yield from lists
    yield from [b"", b"\1", packed([12]) + b"\0\0\0", packed([0]), packed([12, 12, 2, 0, 1, 3, 0, 1]), packed([1, 2**32 - 1, 1])]
    for data in lists[: count // 3]:
        at = rng.randrange(len(data) + 1)
        yield data[:at]
        yield data[: at // 4 * 4] + packed([rng.choice([0, 99, 2**32 - 1])]) + data[at // 4 * 4 :]


def blocks_of(data):
    """The bytes of each call's block."""
    words, at, blocks = programs.to_words(data), 0, []
    while at < len(words) and (found := programs.read_call(words, at)) is not None:
        blocks.append(data[4 * at : 4 * found[1]])
        at = found[1]
    return blocks


def list_cases(rng, count):
    for size in (0, 1, MONTH_WORDS - 1, MONTH_WORDS, MONTH_WORDS + 3):
        yield Case(11, size, rng.randrange(256))
    for data in some_lists(rng, count // 5):
        blocks = blocks_of(data)
        needed = ANSWER_WORDS * len(blocks)
        yield Case(12, sizes(rng, needed), rng.randrange(256), first=data)
        yield Case(13, first=data)
        yield Case(14, needed, rng.randrange(256), (), b"".join(blocks), packed(list(map(len, blocks))))
        for calls in (blocks, blocks[:rng.randrange(len(blocks) + 1)]):
            joined = b"".join(calls)
            size = sizes(rng, len(view_words(joined)))
            yield Case(18, size, rng.randrange(256), (rng.choice([MONTH_WORDS] * 5 + [MONTH_WORDS - 1]),), joined, packed(list(map(len, calls))))
        call = rng.choice([*blocks, data, b"", b"".join(blocks[:2]), *(block[:-1] for block in blocks[:3])])
        shape = rng.choice([MONTH_WORDS] * 5 + [MONTH_WORDS + 1, MONTH_WORDS - 1, 0]), rng.choice([HINT_BYTES] * 5 + [HINT_BYTES + 1, HINT_BYTES - 1])
        yield Case(15, rng.choice([ANSWER_WORDS] * 5 + [ANSWER_WORDS + 4, ANSWER_WORDS - 1]), rng.randrange(256), shape, call)


def record_cases(rng, count):
    sessions = [(head, data) for head, data in known.sessions() if len(head) == 32 and len(data) < 40_000]
    sessions += [generate.any_session(rng)[1:] for _ in range(count)]
    for head, data in sessions:
        shape = rng.choice([MONTH_WORDS] * 9 + [MONTH_WORDS + 1, MONTH_WORDS - 1, 0]), rng.choice([HINT_BYTES] * 9 + [HINT_BYTES + 40, HINT_BYTES - 1])
        answer = rng.choice([ANSWER_WORDS] * 9 + [ANSWER_WORDS + 4, ANSWER_WORDS - 1])
        opened = head if len(head) == 32 and rng.random() < 0.9 else b""
        yield Case(20, answer, rng.randrange(256), shape, data[: rng.choice([len(data), len(data), rng.randrange(len(data) + 1)])], opened)
    head, first = run.HEAD.pack(*Row(1, 1, 10_000, 500, 100, 1, 600), 2_000), Add(5, 1, BUY, 100, 500)
    refused = [Tick(4), Tick(10_001), first, Cancel(5, 9), Amend(5, 1, PRICE_LIMIT + 1, 500), Deal(5, 1, 501)]
    for data in [b"", b"\1", *map(records.write, refused)]:
        yield Case(20, ANSWER_WORDS, 1, (MONTH_WORDS, HINT_BYTES), records.write(first) + data + records.write(Tick(9)), head)
        yield Case(20, ANSWER_WORDS, 1, (MONTH_WORDS, HINT_BYTES), data, b"")


def maker_cases(rng, count):
    for at in range(count):
        words = programs.to_words((standing_cases.from_nothing if at % 2 else standing_cases.from_records)(rng))
        size, given = words[1:3]
        records, calls = words[3 : 3 + 2 * size], words[4 + 2 * size :]
        if rng.random() < 0.1:
            calls = [*calls, *rng.choice([(1,), (1, 2), (0, 1, 1), (3, 1, 1), (4, 0, 0)])]
        room = [rng.randrange(2**32)] * sizes(rng, len(calls) // 3)
        yield Case(16, len(records) + len(room), 0, (size, given), packed(calls), packed([*records, *room]))


def all_cases(rng, count):
    for make in (session_cases, account_cases, weight_cases, row_cases, fix_cases, other_cases, list_cases, record_cases, maker_cases):
        yield from make(rng, count)


@pytest.fixture(scope="module")
def count(is_quick):
    """How many random cases of a kind."""
    return 30 if is_quick else 300


@pytest.fixture(scope="module")
def cases(count):
    return list(all_cases(random.Random(1), count))


# ---------------------------------------------------------------- against the programs


def program(name, data):
    return subprocess.run([BIN / name], input=data, capture_output=True, check=True, timeout=60).stdout.decode()


def numbers_in(line):
    return [int(word) for word in line.split()[1:]]


def said_by_probe(case):
    """The case as `probe` takes it, and its answer as the library's; None where it takes no such case."""
    data, words = case.first, programs.to_words(case.first)
    if case.call == 2 and len(data) == 32 and case.count >= 3 and len(case.second) < 20_000:
        line, after, _ = program("probe", packed([1, case.count - 3, lent(case)[0], 7]) + data + case.second).splitlines()
        if line.startswith("refused"):
            number, place = int(line.split()[1]), int(line.split()[3])
            return (number << 32) + place, lent(case)
        kept, weight_, pairs = (int(word) for word in line.split()[1::2])
        return 3 + 2 * pairs, [kept, weight_, pairs, *numbers_in(after)]
    if case.call == 4 and case.numbers[0] < 2:
        others = programs.to_words(case.second)
        row = numbers_in(program("probe", packed([2, *case.numbers[:3], len(words), len(others)]) + data + case.second))
        return writes(row, lent(case))
    if case.call == 7:
        line = program("probe", packed([4, *case.numbers[:2], len(words)]) + data)
        return {"board met\n": 1, "board failed\n": 0, "refused 18\n": 18 << 32}[line], []
    if case.call == 8:
        line = program("probe", packed([5, case.numbers[0], len(words)]) + data)
        return {"inside yes\n": 1, "inside no\n": 0, "refused 22\n": 22 << 32}.get(line), []
    if case.call == 16 and due(case)[0] < 2**32 and len(words) <= 3 * 512:
        size, calls = case.numbers[0], len(words) // 3
        flat = programs.to_words(case.second)
        *lines, last = program("probe", packed([7, *case.numbers, *flat[: 2 * size], calls]) + data).splitlines()
        outcomes = [0 if line.startswith("accepted") else int(line.split()[1]) for line in lines]
        used = numbers_in(last)
        behind = due(case)[1][len(used) : 2 * size]  # the program prints the used records alone
        count = len(used) // 2 if case.numbers[1] <= size else case.numbers[1]
        return count, [*used, *behind, *outcomes, *flat[2 * size + calls :]]
    if case.call == 10:
        name, number = program("probe", packed([8, *case.numbers[:3]])).split()
        return (26 << 32 if name == "refused" else int(number)), []
    return None


@pytest.mark.xdist_group("library")
def test_programs(cases, count, note):
    rng, seen = random.Random(2), 0
    by_call = defaultdict(list)
    for case in cases:
        by_call[case.call].append(case)
    for call in (2, 4, 7, 8, 10, 16):
        for case in rng.sample(by_call[call], min(count // 10, len(by_call[call]))):
            said = said_by_probe(case)
            if said is not None and said[0] is not None:
                assert said == due(case), (case, said, due(case))
                seen += 1
    assert seen, "no case of probe's"
    note(f"library: {seen} cases agree with probe")


# ---------------------------------------------------------------- the library


def compiled(out, *words):
    subprocess.run([str(word) for word in [*words, "-o", out]], check=True)
    return out


def answers(runner, cases, extra=None):
    data = b"".join(map(as_bytes, cases))
    done = subprocess.run([runner], input=data, capture_output=True, timeout=600, env=extra)
    assert done.returncode == 0, (runner.name, done.returncode, done.stderr.decode()[-2000:])
    return [[int(word) for word in line.split()] for line in done.stdout.splitlines()]


@pytest.mark.xdist_group("library")
def test_calls(cases, tmp_path, note):
    archive = compiled(
        tmp_path / "archive", "cc", "-std=c11", "-g", "-O1", *STRICT, *SANITIZED, "-pthread", TESTS / "library.c", LIBRARY / "libquoting.a")
    shared = compiled(
        tmp_path / "shared", "cc", "-std=c11", "-O2", *STRICT, "-pthread", TESTS / "library.c", f"-L{LIBRARY}", "-lquoting", f"-Wl,-rpath,{LIBRARY}")
    found = answers(archive, cases)
    assert found == answers(shared, cases), "the archive and the shared library differ"
    assert len(found) == len(cases)
    seen = defaultdict(set)
    for case, (answer, *after) in zip(cases, found):
        wanted, buffer = due(case)
        if buffer is None:  # a fresh month: none open, no call counted, no cell filled, and what is after it as it was
            assert after[:6] == [0] * 6 and set(after[604:MONTH_WORDS:10]) == {0} and after[MONTH_WORDS:] == lent(case)[MONTH_WORDS:]
            buffer = after
        assert (answer, after) == (wanted, buffer), (NAMES[case.call][0], case, answer, wanted, after, buffer)
        seen[case.call].add(answer >> 32)
    for call, (name, refusals) in NAMES.items():
        missing = {0, *refusals} - seen[call]
        assert not missing, f"no case of {name} was answered by {sorted(missing)}"
    note(f"library: {len(cases)} cases, each on four threads too, agree with the recount")


@pytest.mark.xdist_group("library")
def test_refused_kinds(cases):
    """The lists of `run_month` have refused calls of every kind that may be refused: the hints were compared after each of them."""
    met = {kind: set() for kind in REFUSED_IN_LISTS}
    for case in (case for case in cases if case.call == 14):
        answers = list_words(case.first)[0]
        for at, block in enumerate(blocks_of(case.first)):
            kind, number = programs.to_words(block)[0], answers[ANSWER_WORDS * at + 1]
            if answers[ANSWER_WORDS * at] == 1 and kind in met:
                met[kind].add(number)
    missing = {kind: numbers - met[kind] for kind, numbers in REFUSED_IN_LISTS.items() if numbers - met[kind]}
    assert not missing, f"no call of these kinds was refused by these numbers: {missing}"


@pytest.mark.xdist_group("library")
def test_refused_records(cases):
    """The records of `run_records` are refused by every number that may refuse one, after others that were taken."""
    found = [taken_records(case.first, case.second) for case in cases if case.call == 20 and case.numbers[0] >= MONTH_WORDS]
    met = {answer.number for taken, answer in found if isinstance(answer, Refused) and (taken or answer.number == 7)}
    assert met == REFUSED_RECORDS, met ^ REFUSED_RECORDS
    assert any(taken > 20 and isinstance(answer, Accepted) for taken, answer in found)


# ---------------------------------------------------------------- header, example, symbols, installation


HEADER = (INCLUDE / "quoting.h").read_text()
VERSION = (ROOT / "VERSION").read_text().strip()


@pytest.mark.parametrize(("compiler", "language", "standard"), [("cc", "c", "c99"), ("cc", "c", "c17"), ("c++", "c++", "c++11"), ("c++", "c++", "c++20")])
def test_header_alone(tmp_path, compiler, language, standard):
    source = tmp_path / f"alone.{'c' if language == 'c' else 'cpp'}"
    source.write_text('#include "quoting.h"\nint main(void) { return (int) quoting_refusal_of(0); }\n')
    compiled(tmp_path / "alone", compiler, f"-std={standard}", *STRICT, source)


def test_header_numbers():
    assert f'#define QUOTING_VERSION "{VERSION}"' in HEADER, "VERSION and the header differ"
    major, minor, patch = map(int, VERSION.split("."))
    assert f"#define QUOTING_VERSION_NUMBER {10_000 * major + 100 * minor + patch}\n" in HEADER, "VERSION and the header's number differ"
    for name, first, last in (("refusal", 0, 26), ("call", 1, 17), ("state", 0, 5), ("answer", 0, 5)):
        [enum] = re.findall(rf"^enum quoting_{name} {{(.*?)}}", HEADER, re.M | re.S)
        assert re.findall(r" = (\d+)", enum) == [str(n) for n in range(first, last + 1)], f"the numbers of enum quoting_{name}"
    for name, number in (("MONTH_WORDS", MONTH_WORDS), ("HINT_BYTES", HINT_BYTES), ("ANSWER_WORDS", ANSWER_WORDS)):
        assert f"#define QUOTING_{name} {number}\n" in HEADER, name


def test_shared_library():
    """It shows what the header declares, under its soname."""
    declared = set(re.findall(r"^[a-z][\w ]*[ *](quoting_\w+)\(", HEADER, re.M)) - {"quoting_refusal_of"}
    names = subprocess.run(["nm", "-D", "--defined-only", LIBRARY / "libquoting.so"], capture_output=True, text=True, check=True)
    shown = {line.split()[-1].split("@")[0] for line in names.stdout.splitlines() if " T " in line}
    assert shown == declared, f"shown and not declared, or the other way round: {shown ^ declared}"
    dynamic = subprocess.run(["readelf", "-d", LIBRARY / "libquoting.so"], capture_output=True, text=True, check=True).stdout
    assert f"[libquoting.so.{VERSION.split('.')[0]}]" in dynamic, "the soname is wrong"


TEXTS = """#include <stdio.h>
#include "quoting.h"
int main(void) {
    puts(quoting_version());
    for (uint32_t n = 0; n < 28; n++) puts(quoting_refusal_text(n));
    return 0;
}
"""


def test_installed(tmp_path):
    """An installed copy, found through pkg-config."""
    root = tmp_path / "installed"
    subprocess.run(["make", "-s", "install", f"DESTDIR={root}", "PREFIX=/usr"], cwd=ROOT, check=True)
    flags = subprocess.run(
        ["pkg-config", f"--define-variable=prefix={root}/usr", "--cflags", "--libs", root / "usr/lib/pkgconfig/quoting.pc"],
        capture_output=True, text=True, check=True).stdout.split()
    source = tmp_path / "texts.c"
    source.write_text(TEXTS)
    texts = compiled(tmp_path / "texts", "cc", "-std=c11", "-Wall", "-Wextra", "-Wpedantic", "-Werror", source, *flags, f"-Wl,-rpath,{root}/usr/lib")
    version, accepted, *refused, unknown = subprocess.run([texts], capture_output=True, text=True, check=True).stdout.splitlines()
    assert version == VERSION and accepted == "accepted" and unknown == "unknown refusal"
    assert len(set(refused)) == 26 and not any(text.endswith(".") for text in refused)


def test_pairs_example(tmp_path):
    """The C++ example on shipped and known sessions."""
    example = compiled(tmp_path / "pairs", "c++", "-std=c++17", "-O2", *STRICT, EXAMPLES / "pairs.cpp", LIBRARY / "libquoting.a")
    sessions = [session_text.to_bytes((EXAMPLES / f"{name}.session").read_text()) for name in ("brent", "document01", "gold-mini")]
    for data in [*sessions, *(head + data for head, data in known.sessions())]:
        if len(data) < 200_000:
            printed = subprocess.run([example], input=data, capture_output=True, check=True).stdout.decode().splitlines()
            answer = run.run_bytes(data[:32], data[32:])
            if isinstance(answer, run.Stopped):
                assert printed[0].startswith(f"refused {answer.number} at {answer.place}: "), printed
            else:
                due_lines = [f"kept {answer.kept} weight {answer.weight}", *(f"{offset} {length}" for offset, length in answer.pairs)]
                assert printed == due_lines, printed


def view_lines(v):
    """The lines of the C example for a view's words."""
    if not v:
        return "view none\n"
    price = lambda word: word - 2**32 * (word >> 31)
    given = f"strike {v[9]} {v[10]} {v[11]} {v[12]}" if v[8] else f"sp {price(v[9])}"
    row = " ".join(map(str, v[1:8]))
    lines = [f"view day {v[0]} row {row} {given} limit {v[13]} widest {v[14]} state {accounts.STATES[v[15]]} orders {v[16]}"]
    orders = (v[at : at + 4] for at in range(17, len(v), 4))
    lines += [f"order {id} {'buy' if side == 1 else 'sell'} {price(cost)} {volume}" for id, side, cost, volume in orders]
    return "".join(line + "\n" for line in lines)


MONTH = [EXAMPLES / "month.c", LIBRARY / "libquoting.a"]


@pytest.fixture(scope="module")
def plain(library, tmp_path_factory):
    """The C example that holds a month."""
    return compiled(tmp_path_factory.mktemp("plain") / "month", "cc", "-std=c11", "-g", "-O2", *STRICT, *MONTH)


@pytest.fixture(scope="module")
def watched(library, tmp_path_factory):
    """The same with the sanitizers."""
    return compiled(tmp_path_factory.mktemp("watched") / "month", "cc", "-std=c11", "-g", "-O1", *STRICT, *SANITIZED, *MONTH)


@pytest.mark.xdist_group("month")
def test_month_example(plain, watched, count, note):
    """On lists of calls it prints the lines of `replay`."""
    # how long a block may be is the program's alone
    lists = [data for data in some_lists(random.Random(3), count // 10) if not programs.replay(data).endswith("too long\n")]
    for at, data in enumerate(lists):
        line = program("replay", data)
        assert line == programs.replay(data)
        under = ["valgrind", "-q", "--error-exitcode=3", plain] if at % 40 == 0 else [watched]
        assert printed_by(under, data) == line, (data.hex(), line)
        assert printed_by([watched, "view"], data) == line + view_lines(view_words(data)), data.hex()
    note(f"library: {len(lists)} lists by the month's example agree with replay")


@pytest.mark.xdist_group("month")
def test_month_example_on_messages(watched):
    """On a FIX message a line it prints those of the same calls."""
    given = SIXTY.decode(), 1, 1, 10_000, 500, 100, 1, 600, 1, 2_000
    orders = [fix.order_of([1, 7, 0, 1, 500, 99], SIXTY), fix.order_of([2, 8, 9, 0, 0, 0], SIXTY), fix.order_of([2, 8, 7, 0, 0, 0], SIXTY)]
    bodies = [*map(fix.write, orders), b"no message"]
    calls = [Open(list(given[1:8]), given[8], given[9], NO_LIMIT), *(Message(SIXTY, body) for body in bodies), Report()]
    lines = programs.replay(calls_text.calls_bytes(calls))
    for end in (b"\1", b"|"):
        data = b"".join(body.replace(b"\1", end) + b"\n" for body in bodies)
        assert printed_by([watched, *map(str, given)], data) == lines, lines


@pytest.mark.xdist_group("month")
def test_month_example_in_turn(plain):
    """A call is written only once the line of the one before is read."""
    data = calls_text.calls_bytes(known.paper_calls())
    due_lines = programs.replay(data).splitlines(True)
    with subprocess.Popen([plain], stdin=subprocess.PIPE, stdout=subprocess.PIPE) as running:
        for block, line in zip(blocks_of(data), due_lines):
            running.stdin.write(block)
            running.stdin.flush()
            assert running.stdout.readline().decode() == line
        running.stdin.close()
        assert running.wait(timeout=60) == 0


def printed_by(words, data):
    done = subprocess.run(words, input=data, capture_output=True, timeout=600)
    assert done.returncode == 0, (words, done.returncode, done.stderr.decode()[-2000:])
    return done.stdout.decode()
