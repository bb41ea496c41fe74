"""The standing of makers after a list of joins, changes and leaves: the table of places.

The text, a call a line: join MAKER RATING, change MAKER RATING, leave MAKER; `records N` as the first line says how many records there
are, 512 where it is not said. Refused calls are listed above the table, and the status is then 1.

examples:
  quoting standing examples/makers.standing
"""

import argparse

from quoting import inputs, output, reading, recounted, standings


def add(parser: argparse.ArgumentParser) -> None:
    parser.add_argument("file", metavar="FILE", nargs="?", default="-", help="a list of calls, or - for standard input")
    parser.add_argument("--both", action="store_true", help="say whether the recount's standing is the same")
    inputs.add_complete(parser)
    inputs.add_output(parser)


def theirs(given: standings.Calls) -> list[str]:
    """The recount's places."""
    recount = recounted.recount("standing")
    ratings, _ = recount.after(given.size, [(standings.KINDS[call.name], call.maker, call.rating) for call in given.calls])
    return [f"{maker} {rating}" for maker, rating in recount.in_order(ratings.items())]


def run(args: argparse.Namespace) -> int:
    try:
        given = standings.read(reading.whole_text(reading.read_bytes(args.file), reading.Options(complete=args.complete)))
    except reading.TextError as error:
        error.file = args.file
        raise
    found = standings.played(given)
    agreed = recounted.agreement([f"{maker} {rating}" for maker, rating in found.places], theirs(given)) if args.both else ""
    if args.json:
        refused = [{"line": call.line, "call": str(call), **vars(why)} for call, why in found.refused]
        output.write(args.output, output.json_text({"refused": refused, "places": found.places}))
    else:
        front = "".join(f"line {call.line}: {call}: {why}\n" for call, why in found.refused)
        rows = [[place, maker, rating] for place, (maker, rating) in enumerate(found.places, start=1)]
        output.write(args.output, front + output.plain_table(["place", "maker", "rating"], rows) + agreed)
    return int(bool(found.refused) or "DIFFER" in agreed)
