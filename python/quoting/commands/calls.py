"""A list of the month's calls, each beside its answer; refusals with their sentence.

The list is a text (open, add, .., close, look, report) or bytes; - is standard input. The status is 1 where a call is refused.

examples:
  quoting calls examples/month.calls
  quoting calls examples/strike.calls --lines | quoting board 55 60 examples/strikes.board -
  quoting calls examples/fix.calls --json
"""

import argparse

from quoting import inputs, output, reading, recounted, texts
from quoting.answers import Answer, line
from quoting.inputs import CallList
from quoting.months import answers_to
from quoting.native import Refused


def add(parser: argparse.ArgumentParser) -> None:
    parser.add_argument("file", metavar="FILE", help="a list of calls, or - for standard input")
    parser.add_argument("--lines", action="store_true", help="the answers alone, as the program replay prints them")
    parser.add_argument("--both", action="store_true", help="say whether the recount's answers are the same")
    inputs.add_reading(parser)
    inputs.add_output(parser)


def shown(answer: Answer) -> str:
    """An answer's line, a refusal with its sentence."""
    return str(answer) if isinstance(answer, Refused) else line(answer)


def run(args: argparse.Namespace) -> int:
    found = inputs.calls_of(args.file, reading.read_bytes(args.file), inputs.options_of(args))
    data = [placed.block for placed in found.blocks]
    said = list(answers_to(data))
    after = f"stopped at word {found.stop}\n" if found.stop else ""
    if args.both:
        after += recounted.agreement([line(answer) for answer in said], recounted.answer_lines(b"".join(data)))
    if args.json:
        output.write(args.output, output.json_text(as_json(found, said)))
    elif args.lines:
        output.write(args.output, "".join(line(answer) + "\n" for answer in said) + after)
    else:
        rows = [[placed.line, texts.block_line(placed.block), shown(answer)] for placed, answer in zip(found.blocks, said)]
        output.table(args.output, ["line", "call", "answer"], rows, after)
    return int(bool(found.stop) or "DIFFER" in after or any(isinstance(answer, Refused) for answer in said))


def as_json(found: CallList, said: list[Answer]) -> object:
    calls = [
        {"line": placed.line, "call": texts.block_line(placed.block), "answer": fields(answer)}
        for placed, answer in zip(found.blocks, said)
    ]
    return {"calls": calls, "stopped_at_word": found.stop}


def fields(answer: Answer) -> dict[str, object]:
    return {"kind": type(answer).__name__, **(answer._asdict() if isinstance(answer, tuple) else vars(answer))}
