"""A text of a session or of calls as the bytes that the meter takes.

A text whose first word is row is a session, CSV too; any other is a list of calls.

examples:
  quoting bytes examples/document01.session -o document01.bytes
  quoting bytes examples/month.calls | target/bin/replay
"""

import argparse

from quoting import inputs, output, reading


def add(parser: argparse.ArgumentParser) -> None:
    parser.add_argument("file", metavar="FILE", nargs="?", default="-", help="a text, or - for standard input")
    parser.add_argument("--as", dest="kind", choices=("session", "calls"), help="what the text is, where its first word does not show it")
    inputs.add_session(parser)
    inputs.add_output(parser, json=False)


def kind_of(text: str) -> str:
    """`session` or `calls`, by the first word."""
    first = next((name for _, name, _ in reading.lines(text)), "")
    return "session" if first.split(",")[0] in ("row", "sp", "t") else "calls"


def run(args: argparse.Namespace) -> int:
    data, options = reading.read_bytes(args.file), inputs.options_of(args)
    if (args.kind or kind_of(reading.decoded(data, args.file))) == "session":
        made = inputs.session_of(args.file, data, options, inputs.head_of(args), args.format).data
    else:
        inputs.check_no_head(args)
        made = b"".join(part.block for part in inputs.calls_parts(args.file, data, options))
    output.write(args.output, made)
    return 0
