"""The refusals: the library's sentence of each number, who causes it, and what to do. docs/REFUSALS.md is `page()`."""

from dataclasses import dataclass

from quoting import native

# Who causes it, what to do.
HELP: dict[int, tuple[str, str]] = {
    1: ("The row of an open, or the first 32 bytes of a session, have another length. Seen when a row is put together by hand, or a file is cut.",
        "Give seven words: expiry, quantum, L, M, a, b, p; a session's bytes begin with these and SP."),
    2: ("A programme's row with a number outside the papers' ranges: L is not a whole second, or past a day, p is 80% or more, M is 0.",
        "Hold the row against the programme: L from 0:00:01 to 24:00:00, M 1 to 100,000, a to 100,000, b to 1,000,000, p from 0.1% to 79.9%."),
    3: ("A day outside 1 to 31, an expiry that is not 1 or 2, a quantum that is not 0 to 2, SP past 1,000,000,000 either way, a charge past 100,000,000,000 kopecks, or K above L.",
        "Correct the number. Charges are in kopecks."),
    4: ("An open, or a list that fills a day twice: this day, expiry and quantum are closed already.",
        "To do a day again, withdraw its cell first."),
    5: ("A look, charge or withdraw of a quantum that was never closed, or was withdrawn.",
        "Check day, expiry and quantum; close the quantum first."),
    6: ("An open while another quantum is open: a close or a drop is missing before it.",
        "Close the open quantum, or drop it."),
    7: ("An event, ask, close or drop with no quantum open, often because the open before it was refused.",
        "Look for the first refusal in the list, and open the quantum."),
    8: ("Events out of order of time, or a message from before the quantum's start.",
        "Sort the events by time; check the start that is given with messages. The same millisecond is allowed."),
    9: ("An event after the quantum's end, t above L.",
        "Leave out what comes after the end, or take the row with the right length; check the start."),
    10: ("An add with the id of an order that is still live: an id used twice, or a cancel that is missing.",
         "Give each order its own id, or send an amend. An id that was cancelled or dealt in full may be used again."),
    11: ("An amend, cancel, deal or ask of an order that was never added, or is cancelled or dealt in full.",
         "Check the id; a deal may have ended the order just before."),
    12: ("A price past 1,000,000,000 steps either way, or a volume that is 0 or above 1,000,000.",
         "Give prices in whole steps and volumes in contracts."),
    13: ("An add with 64 live orders in the quantum.",
         "Cancel what is no longer needed; the programme counts 64 at most."),
    14: ("A deal of more contracts than the order has left, after amends and earlier deals.",
         "Check the order's volume: an amend sets it."),
    15: ("A session's record is cut short, damaged or of an unknown kind, or there are more than 4,000,000.",
         "Write the records again (20 bytes each); cut a longer session by quanta."),
    16: ("A program lent a buffer that is too short for the answer.",
         "For a session of n records lend n + 4 words; the package does so by itself."),
    17: ("A lapse limit above 1,000 that is not 65,535, which means no limit.",
         "Give 0 to 1,000, or none."),
    18: ("A board with no strike, more than 32, different lengths, K above L or a share outside 1 to 100; or an open with a strike's number outside its range.",
         "The board command says which. A strike: a to 20.0, difference to 100,000, days to 365, b to 1,000,000."),
    19: ("A commit with a ticket of another amendment, or after another call was accepted.",
         "Ask again and commit with the new ticket. Looks, reports and asks leave a ticket good."),
    20: ("A terminal's message with a wrong frame, body length, checksum or type, or cut from a log with something before or after it.",
         "Send NewOrderSingle, OrderCancelRequest or OrderCancelReplaceRequest of FIX 4.4, from 8= to the byte 1 after the checksum."),
    21: ("A message without a used tag, or with one twice, unreadable or past 32 bits; a time that does not exist; a replace whose side is not the order's.",
         "Check the tags 11, 41, 54, 38, 44 and 60, and the start: YYYYMMDD-HH:MM:SS.sss. Prices are whole steps."),
    22: ("Settlement prices with a zero before another, a change of more than 100% from day to day, or a period that begins before there are 30 sigmas.",
         "Give at least 33 days before the first disturbed one, and check the prices."),
    23: ("A program lent records of a standing that no call left like this: out of order, a maker twice, or a count above the records.",
         "Start from count 0, and hand back what the call before left."),
    24: ("A join of a maker who is there, or a change or leave of one who is not.",
         "Change the rating of a present maker; join an absent one."),
    25: ("A join when every record lent is used.",
         "Lend more records, or let a maker leave first."),
    26: ("A question of safe minutes with a number above 60.",
         "Minutes, doubles and knocks are 0 to 60 each."),
}


@dataclass(frozen=True)
class Refusal:
    number: int
    sentence: str
    cause: str
    remedy: str


def of(number: int) -> Refusal:
    """A refusal by its number.

    >>> of(25).sentence
    'every record is used'
    """
    return Refusal(number, native.sentence_of(number), *HELP[number])


def all_of_them() -> list[Refusal]:
    return list(map(of, HELP))


def page() -> str:
    """docs/REFUSALS.md."""
    rows = [f"| {each.number} | {each.sentence} | {each.cause} | {each.remedy} |" for each in all_of_them()]
    front = """# Refusals

A call that is refused changes nothing. Of the causes that apply it names the lowest number, but 16 comes after all others, and a
message's 20 and 21 come before what its calls are refused by. `quoting refusal N` prints a line of this table.

| number | sentence | who causes it | what to do |
|--:|---|---|---|
"""
    return front + "\n".join(rows) + "\n"
