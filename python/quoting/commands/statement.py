"""A month's statement: one HTML page that needs nothing else, to be read on a screen or printed on A4.

From a list of the month's calls (text or bytes, - is standard input), or from a folder of sessions. At the top are the proved meter's
reading and the recount's, side by side, and whether they agree; then failures, fee, the month as a grid, the sum cell by cell, refused
calls, and each closed quantum with its picture, its times and its lapses.

With --fix the list is a text with opens and closes, and before each open a line `start YYYYMMDD-HH:MM:SS.sss SYMBOL`: the orders that
rest then and the events of the logs from then to the quantum's end, with that symbol (55), follow the open. SYMBOL may be omitted where
the quantum's messages have one symbol only, or --symbol names it. Where a quantum's messages have several accounts (1), --account names
the one to read. The exchange's reports count, and the requests where the logs have none (--from); with --step prices are decimals.

With --sessions the files of a folder are named DAY-EXPIRY-QUANTUM.session (or .csv, .bin, .txt), as 02-1-1.csv, and charges.csv in it has
the columns day,expiry,quantum,active,passive and, where there are lapse limits, lapses; charges are in kopecks.

The status is 1 where the readings differ, a call is refused, or something is left out; the page is written all the same. There is none
where nothing of the logs can be read.

examples:
  quoting statement examples/month.calls -o month.html
  quoting statement examples/programmes/brent.month --fix examples/programmes/brent.log --title "Brent, November 2026" -o brent.html
  quoting statement --sessions november -o november.html
"""

import argparse
from pathlib import Path
from typing import Iterator

from quoting import inputs, month_sources, output, texts
from quoting.exchange import choice
from quoting.exchange.choice import LogOptions
from quoting.reading import STANDARD
from quoting.statement import page


def add(parser: argparse.ArgumentParser) -> None:
    parser.add_argument("file", metavar="FILE", nargs="?", help="a list of calls, or - for standard input")
    parser.add_argument("--fix", nargs="+", metavar="LOG", default=[], help="logs of FIX messages that go into the list")
    choice.add_source(parser, "with --fix, ")
    parser.add_argument("--symbol", metavar="SYMBOL", help="with --fix, the symbol (55) of each quantum whose start names none")
    parser.add_argument("--account", metavar="ACCOUNT", help="with --fix, read the messages of this account (1)")
    parser.add_argument("--write", metavar="FILE", help="write the list of calls that was metered, with the events of the logs in it, to FILE")
    parser.add_argument("--sessions", metavar="FOLDER", help="a folder of sessions in place of a list")
    parser.add_argument("--charges", metavar="CSV", help="the file of charges (FOLDER/charges.csv)")
    parser.add_argument("--title", help="the page's title (the file's name)")
    inputs.add_reading(parser)
    inputs.add_output(parser, json=False)
    parser.set_defaults(parser=parser)


def listed_of(args: argparse.Namespace) -> month_sources.Listed:
    if (args.file is None) == (args.sessions is None):
        args.parser.error("a list of calls, or --sessions FOLDER, is needed, and not both")
    if not args.fix and (args.symbol, args.account) != (None, None):
        args.parser.error("--symbol and --account go with --fix")
    if args.sessions is None:
        if args.charges is not None:
            args.parser.error("--charges goes with --sessions")
        chosen = LogOptions(args.source, args.step or LogOptions.step, {}, args.symbol, args.account)
        return month_sources.from_list(args.file, inputs.options_of(args), args.fix, chosen)
    if args.fix:
        args.parser.error("--fix goes with a list of calls")
    return month_sources.from_sessions(args.sessions, args.charges, inputs.options_of(args))


def complaints(made: page.Statement) -> Iterator[str]:
    """What is wrong with a month, a line each."""
    yield from made.listed.left
    yield from (f"THE FIGURES DO NOT FIT TOGETHER: {fault}" for fault in made.faults)
    if made.first_difference is not None:
        yield f"THE PROVED METER AND THE RECOUNT DIFFER: {page.difference_text(made)}"
    if made.course.refused_calls:
        yield f"{len(made.course.refused_calls)} of {len(made.listed.calls)} calls are refused: they are listed on the page"


def run(args: argparse.Namespace) -> int:
    listed = listed_of(args)
    name = args.sessions or args.file
    made = page.statement(args.title or ("input" if name == STANDARD else Path(name).stem), listed)
    output.write(args.output, page.html(made).encode("utf-8", "backslashreplace"))  # the page says that it is UTF-8, whatever a terminal is
    if args.write is not None:
        output.write(args.write, texts.calls_text(b"".join(sent.block for sent in listed.calls)))
    for each in complaints(made):
        output.complain(each)
    return int(not made.is_whole)
