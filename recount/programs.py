"""What the programs `replay`, `sheet`, `account` and `probe` print for the bytes that they are given."""

import struct

from recount import account as accounts
from recount import fix, game, records, session, standing, strikes, volatile
from recount.book import (
    BUY, NO_LIMIT, SELL, Accepted, Add, Amend, Ask, Asked, Cancel, CellView, Charge, Close, Commit, Deal,
    Drop, Look, Message, Open, Outlook, Refused, Report, Strike, Tick, Ticket, Withdraw, Book, choose,
)
from recount.outlook import OutlookView

REPLAY_BLOCK = 65_536  # words
SHEET_RECORDS = 1_600
PROBE_BYTES = 1_048_576
PROBE_BUFFER = 4_096
PROBE_ROW = 16
PROBE_TABLES = 4_096


def to_words(data):
    """The full words of four bytes, low byte first."""
    return list(struct.unpack(f"<{len(data) // 4}I", data[: len(data) // 4 * 4]))


def signed(word):
    return word - (1 << 32) if word >> 31 else word


def lines(items):
    return "".join(item + "\n" for item in items)


# ---------------------------------------------------------------- replay


def read_add(t, id, side, price, volume):
    return Add(t, id, side, signed(price), volume) if side in (BUY, SELL) else None


def read_commit(*block):
    low, high = block[8:]
    return Commit(*amendment(block[:4]), Ticket(*amendment(block[4:8]), low + (high << 32)))


# By a block's kind: the words after it, and the call that they are; None where they are none.
SHORT_BLOCKS = {
    2: (5, read_add),
    3: (4, lambda *block: Amend(*amendment(block))),
    4: (2, Cancel),
    5: (3, Deal),
    6: (1, Tick),
    7: (4, lambda *block: Close(*charges(block))),
    8: (0, Drop),
    9: (7, lambda *block: Charge(*block[:3], *charges(block[3:]))),
    10: (3, Withdraw),
    11: (3, Look),
    12: (0, Report),
    14: (4, lambda *block: Ask(*amendment(block))),
    15: (10, read_commit),
    17: (0, Outlook),
}


def read_call(words, at):
    """The call of the block at `at` and the place after it, or None where there is no call."""
    kind = words[at]
    if kind in (1, 13):
        return read_open(words, at)
    if kind == 16:
        return read_message(words, at)
    if kind not in SHORT_BLOCKS:
        return None
    count, call_of = SHORT_BLOCKS[kind]
    block = words[at + 1 : at + 1 + count]
    call = call_of(*block) if len(block) == count else None
    return None if call is None else (call, at + 1 + count)


def read_open(words, at):
    """`1 n w1..wn day SP limit`, or `13 n w1..wn day` and a strike's numbers, then the limit."""
    rest = 3 if words[at] == 1 else 6  # words after the row's
    if at + 1 == len(words) or at + 2 + words[at + 1] + rest > len(words):
        return None
    row = at + 2
    after = row + words[at + 1]
    day, *sp, limit = words[after : after + rest]
    return Open(words[row:after], day, signed(sp[0]) if rest == 3 else Strike(*sp), limit), after + rest


def read_message(words: list[int], at: int) -> tuple[Message, int] | None:
    """`16 s m`, then s bytes of the start and m of the message; what fills the last word is not read."""
    if len(words) < at + 3:
        return None
    s, m = words[at + 1 : at + 3]
    after = at + 3 + (s + m + 3) // 4
    if len(words) < after:
        return None
    data = struct.pack(f"<{after - at - 3}I", *words[at + 3 : after])
    return Message(data[:s], data[s : s + m]), after


def charges(block):
    """Two charges, each two words, the low one first."""
    a_low, a_high, p_low, p_high = block
    return a_low + (a_high << 32), p_low + (p_high << 32)


def amendment(block):
    t, id, price, volume = block
    return t, id, signed(price), volume


def read_calls(data):
    """The calls of the bytes, and the word (from 0) at which they stop being calls, or None."""
    words, at, calls = to_words(data), 0, []
    while at < len(words):
        found = read_call(words, at)
        if found is None:
            return calls, at
        call, at = found
        calls.append(call)
    return calls, at if len(data) % 4 else None


def quote_text(quote):
    return "absent" if quote is None else str(quote)


def answer_line(answer):
    if isinstance(answer, Accepted):
        return "accepted"
    if isinstance(answer, Refused):
        return f"refused {answer.number}"
    if isinstance(answer, CellView):
        return (
            f"cell kept {answer.kept} of {answer.length} share {answer.share}"
            f" lapses {answer.lapses} limit {limit_text(answer.limit)}"
            f" active {answer.active} passive {answer.passive}"
            f" verdict {verdict_text(answer.met)} weight {answer.weight}"
        )
    if isinstance(answer, Asked):
        *named, count = answer.ticket
        return (
            f"asked bid {quote_text(answer.bid)} ask {quote_text(answer.ask)}"
            f" ticket {' '.join(map(str, named))} count {count}"
        )
    if isinstance(answer, OutlookView):
        return outlook_line(answer)
    return (
        f"report open {'yes' if answer.is_open else 'no'} time {answer.time}"
        f" orders {answer.orders} bid {quote_text(answer.bid)} ask {quote_text(answer.ask)}"
        f" kept {answer.kept} lapses {answer.lapses}"
        f" failed {' '.join(map(str, answer.failed))} fee {answer.fee}"
    )


def outlook_line(answer: OutlookView) -> str:
    return (
        f"outlook need {answer.need} left {answer.left}"
        f" by {possible_text(answer.by)} full {possible_text(answer.full)} lapses {answer.lapses}"
        f" rest {yes_or_no(answer.rest)} lost {yes_or_no(answer.lost)}"
        f" weight {answer.weight_rest} {answer.weight_keep}"
    )


def possible_text(number: int | None) -> str:
    return "never" if number is None else str(number)


def yes_or_no(is_so: bool) -> str:
    return "yes" if is_so else "no"


def limit_text(limit):
    return "none" if limit == NO_LIMIT else str(limit)


def verdict_text(is_met):
    return "met" if is_met else "failed"


def is_too_long(words: list[int]) -> bool:
    """Whether these words say that the block that they begin is longer than `replay` takes."""
    kind, count = words[0], len(words)
    if kind in (1, 13) and count > 1:
        return words[1] + (5 if kind == 1 else 8) > REPLAY_BLOCK
    return kind == 16 and count > 2 and 3 + (words[1] + words[2] + 3) // 4 > REPLAY_BLOCK


def replay(data: bytes) -> str:
    """A line a call, and a last one where what is left is no call; a block that is too long ends it, whole or not."""
    words, at, book, out = to_words(data), 0, Book(), []
    while at < len(words) and not is_too_long(words[at : at + 3]):
        found = read_call(words, at)
        if found is None:
            break
        call, at = found
        out.append(answer_line(book.call(call)))
    if at < len(words) and is_too_long(words[at : at + 3]):
        out.append("too long")
    elif 4 * at < len(data):
        out.append(f"stopped at word {at + 1}")
    return lines(out)


# ---------------------------------------------------------------- sheet


def sheet(data):
    head, rest = data[: session.HEAD.size], data[session.HEAD.size :]
    answer = session.run_bytes(head, rest, SHEET_RECORDS)
    if isinstance(answer, session.Stopped):
        return lines([refused_at(answer)])
    out = [f"kept {answer.kept} of {answer.length}"]
    out += [f"pair {offset} {length}" for offset, length in answer.pairs]
    out += [f"verdict {verdict_text(answer.met)}", f"weight {answer.weight}"]
    return lines(out)


# ---------------------------------------------------------------- account


def account(data):
    read = session.read_head(data[: session.HEAD.size])
    if read is None:
        return lines(["refused 1 at 0"])
    answer = accounts.run(*read, data[session.HEAD.size :], SHEET_RECORDS)
    if isinstance(answer, session.Stopped):
        return lines([refused_at(answer)])
    out = [f"from {offset} for {length} {accounts.STATES[state]}" for offset, length, state in answer.stretches]
    out += [f"total {name} {time}" for name, time in zip(accounts.STATES, answer.times)]
    return lines(out)


def refused_at(answer):
    return f"refused {answer.number} at {answer.place}"


# ---------------------------------------------------------------- probe


def probe(data):
    words = to_words(data)
    if len(data) > PROBE_BYTES:
        out = None
    elif words[:1] == [1]:
        out = probe_session(words, data)
    elif words[:1] == [2]:
        out = probe_row(words, data)
    elif words[:1] == [3]:
        out = probe_record(data[4:])
    elif words[:1] == [4]:
        out = strikes.probe(words, data)
    elif words[:1] == [8]:
        out = game.probe(words, data)
    elif words[:1] == [15]:
        out = probe_account(words, data)
    elif words[:1] in ([5], [6], [12], [13], [14]):
        out = volatile.probe(words, data)
    elif words[:1] == [7]:
        out = standing.probe(words, data)
    elif words[:1] in ([9], [10], [11]):
        out = fix.probe(words, data)
    else:
        out = None
    return lines(["bad case"] if out is None else out)


def has_front(words):
    """Whether a case has n, fill and m, within their limits, m words of a row, and a word after them."""
    return len(words) > 4 and words[1] <= PROBE_BUFFER and words[3] <= PROBE_ROW and len(words) > 4 + words[3]


def probe_session(words, data):
    """`1 n fill m w1..wm SP`, then record bytes."""
    if not has_front(words):
        return None
    n, fill, m = words[1:4]
    given = words[4 : 4 + m], signed(words[4 + m]), data[4 * (5 + m) :]
    answer, buffer = session.first_call(*given, [fill] * n)
    front = session.second_call(*given, [fill] * n)
    if isinstance(answer, session.Stopped):
        first = refused_at(answer)
    else:
        first = f"kept {answer.kept} weight {answer.weight} pairs {len(answer.pairs)}"
    return [first, numbers("buffer", buffer), numbers("front", front)]


def probe_account(words, data):
    """`15 n fill m w1..wm 0 SP` or `.. 1 a difference days b`, then record bytes."""
    if not has_front(words):
        return None
    n, fill, m = words[1:4]
    kind, given = words[4 + m], words[5 + m :]
    size = {0: 1, 1: 4}.get(kind)
    if size is None or len(given) < size:
        return None
    spread = signed(given[0]) if kind == 0 else Strike(*given[:4])
    answer, buffer = accounts.call(words[4 : 4 + m], spread, data[4 * (5 + m + size) :], [fill] * n)
    first = refused_at(answer) if isinstance(answer, session.Stopped) else numbers("account", [len(answer.stretches), *answer.times])
    return [first, numbers("buffer", buffer)]


def probe_row(words, data):
    """`2 holiday expiry quantum u h`, then the usual and the holiday table."""
    if len(words) < 6:
        return None
    is_holiday, expiry, quantum, u, h = words[1:6]
    if is_holiday > 1 or u + h > PROBE_TABLES or len(data) != 4 * (6 + u + h):
        return None
    usual, holiday = words[6 : 6 + u], words[6 + u :]
    return [numbers("row", choose(usual, holiday, is_holiday == 1, expiry, quantum))]


def probe_record(data):
    """`3`, then bytes that begin with a record."""
    event = records.read(data)
    if event is None:
        return ["refused 15"]
    return [numbers("event", records.fields(event)), "bytes " + records.write(event).hex(" ")]


def numbers(name, items):
    return " ".join([name, *map(str, items)])
