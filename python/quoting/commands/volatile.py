"""Volatile days: each day's sigma, which days are inside a disturbed period, and whether the next one is.

THRESHOLD is in millionths. FILE has the settlement prices, oldest first, one a line, in whole price steps; a date or any other one word
may precede each.

examples:
  quoting volatile 15000 examples/volatile.prices
  quoting volatile 15000 examples/volatile.prices --picture -o volatile.svg
"""

import argparse
from pathlib import Path

from quoting import inputs, output, reading, recounted, values, volatility
from quoting.volatility import Day, Judged


def threshold_of(word: str) -> int:
    try:
        return values.whole(word, values.WORD)
    except ValueError as error:
        raise argparse.ArgumentTypeError(str(error)) from None


def add(parser: argparse.ArgumentParser) -> None:
    parser.add_argument("threshold", metavar="THRESHOLD", type=threshold_of, help="in millionths")
    parser.add_argument("file", metavar="FILE", nargs="?", default="-", help="settlement prices, or - for standard input")
    parser.add_argument("--picture", action="store_true", help="a picture (SVG)")
    parser.add_argument("--both", action="store_true", help="say whether the recount's reading of the next day is the same")
    inputs.add_complete(parser)
    inputs.add_output(parser)


def rows(days: list[Day], judged: Judged) -> list[list[object]]:
    inside = ["-" if judged.inside is None else "yes" if judged.inside[at] else "no" for at in range(len(days))]
    return [[at, day.name, day.price, judged.sigmas[at], inside[at]] for at, day in enumerate(days)]


def run(args: argparse.Namespace) -> int:
    try:
        days = volatility.read(reading.whole_text(reading.read_bytes(args.file), reading.Options(complete=args.complete)))
    except reading.TextError as error:
        error.file = args.file
        raise
    prices = [day.price for day in days]
    judged = volatility.judge(prices, args.threshold)
    theirs = recounted.recount("volatile").answer(prices, args.threshold) if args.both else ""
    ours = "refused 22" if judged.inside is None else f"inside {'yes' if judged.inside[-1] else 'no'}"
    agreed = recounted.agreement([ours], [theirs]) if args.both else ""
    if args.picture:
        output.write(args.output, volatility.picture(Path(args.file).stem, days, args.threshold, judged))
    elif args.json:
        output.write(args.output, output.json_text({"days": days, "sigmas": judged.sigmas, "inside": judged.inside, "refused_day": judged.refused}))
    else:
        heads = ["day", "date", "price", "sigma", "inside"]
        output.table(args.output, heads, rows(days, judged), f"{volatility.last_line(judged)}\n{agreed}")
    return int(judged.inside is None or "DIFFER" in agreed)
