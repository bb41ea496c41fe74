"""A picture (SVG) of a session: both best quotes, the kept stretches, the share kept.

A session run has no lapse limit. With --lapses the lapses are counted against one, each is marked, and verdict and weight are those of
a month's quantum with that limit.

examples:
  quoting picture examples/brent.session -o brent.svg
  quoting picture examples/brent.session --lapses 5 -o brent.svg
"""

import argparse

from quoting import inputs, output
from quoting.native import Refused
from quoting.picture import picture


def add(parser: argparse.ArgumentParser) -> None:
    parser.add_argument("file", metavar="FILE", help="a session, or - for standard input")
    parser.add_argument("--lapses", type=inputs.limit_of, metavar="LIMIT", help="a lapse limit, 0 to 1,000")
    inputs.add_session(parser)
    inputs.add_output(parser, json=False)


def run(args: argparse.Namespace) -> int:
    source = inputs.session(args.file, args)
    try:
        drawn = picture(output.printable(source.stem), source.data, args.lapses)
    except Refused as refused:
        output.complain(inputs.refusal_text(source, refused))
        return 1
    output.write(args.output, drawn)
    return 0
