"""The weight card as a page that can be printed (HTML).

examples:
  quoting card -o card.html
  quoting card --svg -o card.svg
  quoting card --lines | head
"""

import argparse

from quoting import card, inputs, output


def add(parser: argparse.ArgumentParser) -> None:
    form = parser.add_mutually_exclusive_group()
    form.add_argument("--svg", action="store_true", help="the curves alone")
    form.add_argument("--lines", action="store_true", help="a line for each share kept, as the program card prints them")
    inputs.add_output(parser)


def run(args: argparse.Namespace) -> int:
    weights = card.weights()
    if args.json:
        found = output.json_text([{"kept": f, **{str(p): w for p, w in zip(card.SHARES, line)}} for f, line in enumerate(weights)])
    elif args.lines:
        found = "".join(f"{f} {' '.join(map(str, line))}\n" for f, line in enumerate(weights))
    else:
        found = card.svg(weights) if args.svg else card.page(weights)
    output.write(args.output, found)
    return 0
