"""The fills of a quantum in FIX logs: what each did to the quote, and how much kept time it cost.

For each trade that the exchange reported (35=8 with 150=F, 1 or 2): its time from the quantum's start, the order's number (in the order in
which orders were entered), the volume, the best quotes and the whole volume of each side before and after it, and the time that was lost
from it until the quote was kept again, or until the quantum's end. The logs are read as by `quoting fix`, by their reports.

The status is 1 where `quoting fix` would end with 1.

examples:
  quoting fills examples/desk/logs/20261102-north.log --start 20261102-07:00:00 --row "2 1 8:45:00 100 150 3 60%" --sp 3996.0 \\
      --step 0.1 --symbol GD-1.27 --account A7
"""

import argparse
from typing import Iterable

from quoting import inputs, output, values
from quoting.commands import fix
from quoting.exchange import choice
from quoting.exchange.fills import Fill, Quotes, fills_of
from quoting.sessions import session

HEADS = ["time", "order", "volume", "bid", "depth", "ask", "depth", "bid after", "depth", "ask after", "depth", "lost"]


def add(parser: argparse.ArgumentParser) -> None:
    parser.add_argument("files", metavar="LOG", nargs="+", help="logs, in order, or - for standard input")
    parser.add_argument("--start", required=True, type=fix.start_of, metavar="TIME", help="the quantum's start (UTC), YYYYMMDD-HH:MM:SS.sss")
    parser.add_argument("--row", required=True, metavar="ROW", help='the quantum\'s row, as "1 1 8:45:00 1000 150 3 60%%"')
    parser.add_argument("--sp", required=True, metavar="SP", help="the settlement price")
    parser.add_argument("--step", type=inputs.step_of, metavar="STEP", help="prices are decimals, in steps of STEP, as 0.01 (1)")
    parser.add_argument("--symbol", metavar="SYMBOL", help="read the messages of this symbol (55)")
    parser.add_argument("--account", metavar="ACCOUNT", help="read the messages of this account (1)")
    inputs.add_output(parser)
    parser.set_defaults(source="reports", day=None)


def cells(quotes: Quotes) -> list[object]:
    return ["-" if quotes.bid is None else quotes.bid, quotes.bid_depth, "-" if quotes.ask is None else quotes.ask, quotes.ask_depth]


def row_of(fill: Fill) -> list[object]:
    return [values.clock(fill.t), fill.order, fill.volume, *cells(fill.before), *cells(fill.after), values.clock(fill.lost)]


def lost_together(fills: Iterable[Fill]) -> int:
    """The time lost after any of the fills: what follows several of them counts once."""
    total = end = 0
    for fill in fills:
        total += max(0, fill.t + fill.lost - max(fill.t, end))
        end = max(end, fill.t + fill.lost)
    return total


def run(args: argparse.Namespace) -> int:
    rule = fix.rule_of(args)
    options = choice.LogOptions("reports", args.step or choice.LogOptions.step, {}, args.symbol, args.account)
    reader = choice.read_logs(args.files, options)
    made = fix.made_of(args, reader, rule)
    refused = fix.refusal(made)
    if refused is None and choice.has_result(reader) and rule is not None:
        found = fills_of(made.events, session(rule, made.quantum.carried.data + made.quantum.events.data))
        if args.json:
            output.write(args.output, output.json_text({"fills": found}))
        else:
            lost = values.clock(lost_together(found))
            after = f"{choice.plural(len(found), 'fill')}, {lost} of kept time lost\n"
            output.table(args.output, HEADS, [row_of(fill) for fill in found], after)
    for each in fix.complaints(reader, made, refused):
        output.complain(each if each.startswith(tuple(args.files)) else f"{args.files[0]}: {each}")
    return int(refused is not None or not choice.is_whole(reader))
