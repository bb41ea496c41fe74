"""Asks and commits (document 02, W5): what a list of calls shows of them.

The count that a ticket must have is taken from the lines alone: the accepted calls before it.
"""

import re

from recount.book import UNCOUNTED, Ask, Commit, Look, Outlook, Report, Tick, Ticket

OWN = (7, 8, 9, 11, 12)  # amend's refusals
GOOD_AFTER = {Report: "a report", Look: "a look", Outlook: "an outlook", Ask: "another ask"}

MUST_SHOW = [
    "an answered ask",
    "an ask with a quote absent",
    "an ask whose quotes are not those of the report before it",
    *(f"an ask refused by {number}" for number in OWN),
    "an accepted commit",
    *(f"a commit that is still good after {what}" for what in (*GOOD_AFTER.values(), "a refused call")),
    "a commit that a tick made old",
    "a commit that its own amend made old",
    "a commit given twice",
    "a commit of another volume than its ticket's",
    *(f"a ticket whose {name} alone is off by one" for name in Ticket._fields),
    "a ticket whose count differs in its high word alone",
    *(f"amend's own {number} with a ticket that is not good" for number in OWN),
]


def quotes(line):
    return re.search(r" bid (\S+) ask (\S+) ", line).groups()


def situations(calls, answers):
    """What the calls and their lines show."""
    count, asked_at, lines = 0, {}, list(zip(calls, answers))
    for at, (call, answer) in enumerate(lines):
        if isinstance(call, Ask):
            if answer.startswith("asked"):
                asked_at[Ticket(*call, count)] = at
            yield from ask_situations(answer, lines[at - 1][1] if at else "")
        elif isinstance(call, Commit):
            yield from commit_situations(call, answer, count)
            if call.ticket in asked_at:
                between = lines[asked_at[call.ticket] + 1 : at]
                yield from between_situations(call, answer, between)
        count += answer == "accepted" and not isinstance(call, UNCOUNTED)


def ask_situations(answer, before):
    if answer.startswith("refused"):
        yield f"an ask {answer[:7]} by {answer[8:]}"
        return
    yield "an answered ask"
    if "absent" in quotes(answer):
        yield "an ask with a quote absent"
    if before.startswith("report") and quotes(before) != quotes(answer):
        yield "an ask whose quotes are not those of the report before it"


def commit_situations(call, answer, count):
    due = Ticket(*call[:4], count)
    if answer == "accepted":
        yield "an accepted commit"
    elif answer != "refused 19":
        if call.ticket != due:
            yield f"amend's own {answer[8:]} with a ticket that is not good"
    elif call.ticket._replace(volume=call.volume) == due:
        yield "a commit of another volume than its ticket's"
    if answer == "refused 19":
        for name in Ticket._fields:
            value = getattr(due, name)
            if any(call.ticket._replace(**{name: value}) == due and getattr(call.ticket, name) == value + off
                   for off in (1, -1)):
                yield f"a ticket whose {name} alone is off by one"
        same_low = call.ticket.count % 2**32 == count % 2**32
        if same_low and call.ticket._replace(count=count) == due:
            yield "a ticket whose count differs in its high word alone"


def between_situations(call, answer, between):
    """Of a commit and what is between the ask and it."""
    accepted = [other for other, line in between if line == "accepted" and not isinstance(other, UNCOUNTED)]
    if answer == "accepted":
        for other, line in between:
            if line.startswith("refused"):
                yield "a commit that is still good after a refused call"
            elif type(other) in GOOD_AFTER:
                yield f"a commit that is still good after {GOOD_AFTER[type(other)]}"
    if answer == "refused 19" and len(accepted) == 1:
        if isinstance(accepted[0], Tick):
            yield "a commit that a tick made old"
        elif accepted[0] == call:
            yield "a commit given twice"
        elif tuple(accepted[0]) == call[:4]:
            yield "a commit that its own amend made old"
