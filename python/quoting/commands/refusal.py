"""What a refusal's number says, who causes it and what to do; without a number, all of them.

examples:
  quoting refusal 10
  quoting refusal
"""

import argparse

from quoting import inputs, output, refusals


def add(parser: argparse.ArgumentParser) -> None:
    parser.add_argument("number", metavar="N", nargs="?", type=inputs.whole_in(1, 26), help="1 to 26")
    inputs.add_output(parser)


def run(args: argparse.Namespace) -> int:
    found = refusals.all_of_them() if args.number is None else [refusals.of(args.number)]
    if args.json:
        output.write(args.output, output.json_text(found))
    else:
        output.write(args.output, "\n".join(f"{each.number}: {each.sentence}\n  {each.cause}\n  {each.remedy}\n" for each in found))
    return 0
