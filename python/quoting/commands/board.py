"""The verdict on a board of strikes, and what each strike and all together lack.

FIRST is the share in percent that each strike is due, SECOND the share of all together. A line of a FILE is a strike, NAME K L (the
name may be left out; K and L are milliseconds or h:mm:ss), or an answer `cell kept K of L ..`; a FILE may also be all answers of one
strike's month, with one look.

examples:
  quoting board 55 60 examples/strikes.board
  quoting calls examples/strike.calls --lines | quoting board 55 60 examples/strikes.board -
"""

import argparse
from pathlib import Path

from quoting import boards, inputs, output, reading, recounted, values
from quoting.answers import verdict_text


def percent_of(word: str) -> int:
    try:
        return values.whole(word.rstrip("%"), values.WORD)
    except ValueError as error:
        raise argparse.ArgumentTypeError(str(error)) from None


def add(parser: argparse.ArgumentParser) -> None:
    parser.add_argument("first", metavar="FIRST", type=percent_of, help="the share of each strike, in percent")
    parser.add_argument("second", metavar="SECOND", type=percent_of, help="the share of all together, in percent")
    parser.add_argument("files", metavar="FILE", nargs="*", default=["-"], help="strikes, or - for standard input")
    parser.add_argument("--both", action="store_true", help="say whether the recount's verdict is the same")
    inputs.add_complete(parser)
    inputs.add_output(parser)


def strikes_of(names: list[str], options: reading.Options) -> list[boards.Strike]:
    found = []
    for name in names:
        try:
            found += boards.read(reading.whole_text(reading.read_bytes(name), options), "input" if name == reading.STANDARD else Path(name).stem)
            boards.check_names(found)
        except reading.TextError as error:
            error.file = name
            raise
    return found


def run(args: argparse.Namespace) -> int:
    strikes = strikes_of(args.files, reading.Options(complete=args.complete))
    met = boards.verdict(args.first, args.second, strikes)
    lines = boards.lines(args.first, args.second, strikes)
    said = f"board {verdict_text(met)}"
    theirs = recounted.recount("strikes").board(args.first, args.second, [(s.kept, s.length) for s in strikes]) if args.both else None
    agreed = recounted.agreement([said], [f"board {theirs}"]) if args.both else ""
    if args.json:
        output.write(args.output, output.json_text({"met": met, "lines": lines}))
    else:
        rows = [[line.strike, line.kept, line.of, line.share, line.due, line.lacks] for line in lines]
        output.table(args.output, ["strike", "kept", "of", "share", "due", "lacks"], rows, f"{said}\n{agreed}")
    return 1 if "DIFFER" in agreed else 0
