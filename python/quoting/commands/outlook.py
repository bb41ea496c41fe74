"""The outlook on a quantum that is still running: whether the maker may stop quoting.

The session is what has happened so far; the time is its last event's, or --at. Says how much of the remaining time must still be kept,
until when nothing need be kept, the lapses left of --lapses, and the weight if no more time is kept and if all of it is.

examples:
  quoting outlook morning.session --at 5:30:00 --lapses 2
  quoting outlook morning.csv --row "1 1 8:45:00 1000 150 3 60%" --sp 84.52 --step 0.01 --start 10:00:00 --at 15:30:00
"""

import argparse
from typing import Optional

from quoting import calls as c
from quoting import inputs, output, reading
from quoting.answers import OVER, Outlook
from quoting.events import event_of, split
from quoting.months import Month
from quoting.native import Refused
from quoting.rows import HEAD, Rule
from quoting.values import clock


def add(parser: argparse.ArgumentParser) -> None:
    parser.add_argument("file", metavar="FILE", help="a session so far, or - for standard input")
    parser.add_argument("--at", metavar="TIME", help="the time, as the session's times are written")
    parser.add_argument("--lapses", type=inputs.limit_of, metavar="LIMIT", help="a lapse limit, 0 to 1,000")
    inputs.add_session(parser)
    inputs.add_output(parser)


def outlook(source: inputs.Source, at: Optional[int], limit: Optional[int]) -> Outlook:
    """The outlook on a session so far; a refusal has the record's place."""
    rule = Rule.of_bytes(source.data[: HEAD.size])
    with Month() as month:
        month.open(rule.row, 1, rule.sp, limit)
        for place, each in enumerate(split(source.data[HEAD.size :]), start=1):
            event = event_of(each)
            answer = Refused.of(15) if event is None else month.block(c.block(event))
            if isinstance(answer, Refused):
                raise Refused(answer.number, place, answer.sentence)
        if at is not None:
            month.tick(at)
        return month.outlook()


def lines(found: Outlook, start: int) -> list[str]:
    """For a person; times of day where the session has a start."""
    until = "never" if found.by is None else clock(start + found.by)
    full = "is out of reach" if found.full is None else f"needs {clock(found.full)}"
    lapses = "over their limit" if found.lapses == OVER else "without limit" if found.lapses is None else f"left {found.lapses}"
    state = "the quantum is lost" if found.lost else "the maker may stop quoting" if found.rest else "the maker may not stop quoting yet"
    return [
        f"{clock(found.need)} of the remaining {clock(found.left)} must still be kept; the full weight {full}",
        f"nothing need be kept until {until}; lapses {lapses}; {state}",
        f"weight {found.weight_resting} if no more time is kept, {found.weight_keeping} if all the remaining time is",
    ]


def run(args: argparse.Namespace) -> int:
    source = inputs.session(args.file, args)
    at = None if args.at is None else reading.time(args.at, "--at", args.start)
    try:
        found = outlook(source, at, args.lapses)
    except Refused as refused:
        output.complain(inputs.refusal_text(source, refused))
        return 1
    shown = output.json_text(found._asdict()) if args.json else "".join(line + "\n" for line in lines(found, args.start))
    output.write(args.output, shown)
    return 0
