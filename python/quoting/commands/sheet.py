"""The sheet of a session: kept time, pairs, verdict and weight.

The session is a text (row, sp, events), CSV (t,kind,id,side,price,volume) or bytes; - is standard input.

examples:
  quoting sheet examples/brent.session
  quoting sheet day.csv --row "1 1 8:45:00 1000 150 3 60%" --sp 84.52 --step 0.01 --start 10:00:00
  quoting sheet examples/brent.session --both
"""

import argparse

from quoting import inputs, output, recounted
from quoting.answers import verdict_text
from quoting.native import Refused
from quoting.rows import HEAD
from quoting.sessions import Session, session
from quoting.values import clock, part_text


def add(parser: argparse.ArgumentParser) -> None:
    parser.add_argument("file", metavar="FILE", help="a session, or - for standard input")
    parser.add_argument("--both", action="store_true", help="say whether the recount's reading is the same")
    inputs.add_session(parser)
    inputs.add_output(parser)


def lines(done: Session) -> list[str]:
    """As the program `sheet` prints them."""
    pairs = [f"pair {offset} {length}" for offset, length in done.pairs]
    return [f"kept {done.kept} of {done.length}", *pairs, f"verdict {verdict_text(done.met)}", f"weight {done.weight}"]


def run(args: argparse.Namespace) -> int:
    source = inputs.session(args.file, args)
    try:
        done = session(source.data[: HEAD.size], source.data[HEAD.size :])
    except Refused as refused:
        return refuse(args, source, refused)
    agreed = recounted.agreement(lines(done), recounted.session_lines(source.data)) if args.both else ""
    if args.json:
        share = part_text(done.kept, done.length)
        found = {"kept": done.kept, "length": done.length, "share": share, "met": done.met, "weight": done.weight, "pairs": done.pairs}
        output.write(args.output, output.json_text(found))
    elif output.is_terminal(args.output):
        show(args, done, agreed)
    else:
        output.write(args.output, "".join(line + "\n" for line in lines(done)) + agreed)
    return 1 if "DIFFER" in agreed else 0


def show(args: argparse.Namespace, done: Session, agreed: str) -> None:
    """For a person at a terminal."""
    rows = [[clock(offset), clock(offset + length), clock(length)] for offset, length in done.pairs]
    kept = f"kept {clock(done.kept)} of {clock(done.length)}, {part_text(done.kept, done.length)}"
    output.table(args.output, ["from", "to", "kept"], rows, f"{kept}; {verdict_text(done.met)}, weight {done.weight}\n{agreed}")


def refuse(args: argparse.Namespace, source: inputs.Source, refused: Refused) -> int:
    """The refusal with the record's place and line."""
    if args.json:
        line = inputs.line_of_record(source, refused.place)
        output.write(args.output, output.json_text({"refused": {**vars(refused), "line": line}}))
    agreed = recounted.agreement([f"refused {refused.number} at {refused.place}"], recounted.session_lines(source.data)) if args.both else ""
    output.complain(inputs.refusal_text(source, refused))
    if agreed:
        output.complain(agreed.strip())
    return 1
