"""The recount's calls as the bytes that the meter takes, for the tests' lists; texts of calls go by the package."""

from quoting import texts
from recount import programs
from recount.book import (
    Add, Amend, Ask, Cancel, Charge, Close, Commit, Deal, Drop, Look, Message, Open, Outlook, Report, Strike, Tick, Withdraw,
)
from tests.running import words

to_bytes, to_text = texts.calls_bytes, texts.calls_text


def halves(number):
    """A charge or a count as two words, the low one first."""
    return [number & 0xFFFFFFFF, number >> 32]


def amendment(call):
    """The four words of what an amend, an ask, a commit or a ticket names."""
    return [call.t, call.id, call.price & 0xFFFFFFFF, call.volume]


def call_words(call):
    """The block of one call."""
    kind = type(call)
    if kind is Open and isinstance(call.sp, Strike):
        return [13, len(call.words), *call.words, call.day, *call.sp, call.limit]
    if kind is Open:
        return [1, len(call.words), *call.words, call.day, call.sp & 0xFFFFFFFF, call.limit]
    if kind is Add:
        return [2, call.t, call.id, call.side, call.price & 0xFFFFFFFF, call.volume]
    if kind is Amend:
        return [3, *amendment(call)]
    if kind is Ask:
        return [14, *amendment(call)]
    if kind is Commit:
        return [15, *amendment(call), *amendment(call.ticket), *halves(call.ticket.count)]
    if kind is Message:
        data = call.start + call.bytes
        return [16, len(call.start), len(call.bytes), *programs.to_words(data + bytes(-len(data) % 4))]
    if kind is Close:
        return [7, *halves(call.active), *halves(call.passive)]
    if kind is Charge:
        return [9, *call[:3], *halves(call.active), *halves(call.passive)]
    kinds = {Cancel: 4, Deal: 5, Tick: 6, Drop: 8, Withdraw: 10, Look: 11, Report: 12, Outlook: 17}
    return [kinds[kind], *call]


def calls_bytes(calls):
    """The bytes of a list of calls."""
    return words(*(word for call in calls for word in call_words(call)))
