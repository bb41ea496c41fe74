"""Where the time of a session went: stretches of one state each, and what each state takes.

The states are kept, no-bid, no-ask, neither (no best quote on either side), crossed (the spread is below 1) and wide.

examples:
  quoting account examples/brent.session
  quoting account examples/brent.session --json
"""

import argparse

from quoting import inputs, output, recounted
from quoting.accounts import Account, account
from quoting.native import Refused
from quoting.rows import HEAD
from quoting.values import clock, part_text


def add(parser: argparse.ArgumentParser) -> None:
    parser.add_argument("file", metavar="FILE", help="a session, or - for standard input")
    parser.add_argument("--both", action="store_true", help="say whether the recount's account is the same")
    inputs.add_session(parser)
    inputs.add_output(parser)


def lines(found: Account) -> list[str]:
    """As the program `account` prints them."""
    stretches = [f"from {each.offset} for {each.length} {each.state.word}" for each in found.stretches]
    return [*stretches, *(f"total {state.word} {time}" for state, time in found.totals.items())]


def as_json(found: Account) -> object:
    stretches = [{**each._asdict(), "state": each.state.word} for each in found.stretches]
    return {"totals": {state.word: time for state, time in found.totals.items()}, "stretches": stretches}


def show(args: argparse.Namespace, found: Account, agreed: str) -> None:
    """For a person at a terminal."""
    whole = sum(found.totals.values())
    rows = [[clock(each.offset), clock(each.end), clock(each.length), each.state.word] for each in found.stretches]
    totals = [f"{state.word} {clock(time)}, {part_text(time, whole)}\n" for state, time in found.totals.items()]
    output.table(args.output, ["from", "to", "time", "state"], rows, "".join(totals) + agreed)


def run(args: argparse.Namespace) -> int:
    source = inputs.session(args.file, args)
    try:
        found = account(source.data[: HEAD.size], source.data[HEAD.size :])
    except Refused as refused:
        output.complain(inputs.refusal_text(source, refused))
        return 1
    agreed = recounted.agreement(lines(found), recounted.account_lines(source.data)) if args.both else ""
    if args.json:
        output.write(args.output, output.json_text(as_json(found)))
    elif output.is_terminal(args.output):
        show(args, found, agreed)
    else:
        output.write(args.output, "".join(line + "\n" for line in lines(found)) + agreed)
    return 1 if "DIFFER" in agreed else 0
