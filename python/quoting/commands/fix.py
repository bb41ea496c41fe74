"""Logs of FIX 4.4 messages into a session, or into a list of calls.

What the exchange reported counts (35=8): new orders, replaces, cancels, expiries and trades. Where the logs have no report, the requests
count (35=D, F, G), as if each was accepted; --from requests reads them where there are reports, too, and says so. docs/FORMATS.md has what
each report means.

The fields of the messages are separated by byte 1 or by |. A message starts wherever 8=FIX. occurs, one a line or one after the other,
whatever is before it. Ids are any characters, prices decimals in whole steps (--step), times UTC with or without decimals. What is
refused is listed on standard error with its line and the reason. Messages of other types, symbols and accounts are skipped and counted.

A log of several symbols (55) or accounts (1) needs --symbol or --account. A message that does not say them has those of the order that
it names. Orders that rest when the quantum starts are added at its time 0; changes after its end are not in it.

The status is 1 where something is refused, not known or not read, or the meter would refuse an event; the output is written all the same.
It is 1 without any output where nothing can be read, or the logs have several symbols or accounts and none is named.

examples:
  quoting fix day.log --start 20261116-07:00:00.000 --row "1 1 8:45:00 1000 150 3 60%" --sp 8452 -o day.session
  quoting fix day.log --start 20261116-07:00:00 --step 0.01 --symbol BR-1.27 --row "1 1 8:45:00 1000 150 3 60%" --sp 84.52 -o brent.session
  quoting fix day.log --start 20261116-07:00:00 --row "1 1 8:45:00 1000 150 3 60%" --sp 8452 --day 16 --close 10000 20000 -o day.calls
"""

import argparse
from dataclasses import dataclass
from typing import Any, Iterator, Optional

from quoting import exchange, inputs, output, reading, texts, values
from quoting.events import Event
from quoting.exchange import choice
from quoting.native import Refused
from quoting.reading import Options, TextError
from quoting.rows import HEAD, Rule
from quoting.sessions import session

LAST = 2**32 - 1  # the last time of a record


def number_of(word: str) -> int:
    try:
        return values.whole(word, values.LONG)
    except ValueError as error:
        raise argparse.ArgumentTypeError(str(error)) from None


def start_of(word: str) -> int:
    try:
        return exchange.milliseconds(word)
    except ValueError as error:
        raise argparse.ArgumentTypeError(str(error)) from None


def add(parser: argparse.ArgumentParser) -> None:
    parser.add_argument("files", metavar="LOG", nargs="+", help="logs, in order, or - for standard input")
    parser.add_argument("--start", required=True, type=start_of, metavar="TIME", help="the quantum's start (UTC), YYYYMMDD-HH:MM:SS.sss")
    parser.add_argument("--row", metavar="ROW", help='the quantum\'s row, as "1 1 8:45:00 1000 150 3 60%%"')
    parser.add_argument("--sp", metavar="SP", help="the settlement price")
    choice.add_source(parser)
    parser.add_argument("--step", type=inputs.step_of, metavar="STEP", help="prices are decimals, in steps of STEP, as 0.01 (1)")
    parser.add_argument("--day", type=number_of, metavar="DAY", help="write a list of calls for this day")
    parser.add_argument("--close", nargs=2, type=number_of, metavar=("A", "P"), help="close the quantum with these charges, in kopecks")
    parser.add_argument("--symbol", metavar="SYMBOL", help="read the messages of this symbol (55)")
    parser.add_argument("--account", metavar="ACCOUNT", help="read the messages of this account (1)")
    inputs.add_output(parser)


@dataclass(frozen=True)
class Made:
    """A quantum of the logs: its rule, where one is given, the orders carried in, and its events."""

    rule: Optional[Rule]
    quantum: exchange.Quantum
    after: int  # changes after the quantum's end

    @property
    def events(self) -> list[Event]:
        return [*self.quantum.carried.events(), *self.quantum.events.events()]

    def place(self, record: int) -> str:
        """File and line of a record, counted from 1."""
        file, line = [*self.quantum.carried.places, *self.quantum.events.places][record - 1]
        return f"{file}: line {line}"


def rule_of(args: argparse.Namespace) -> Optional[Rule]:
    """By what the quantum is run; None where a list of calls needs no open."""
    if args.row is None and args.day is not None:
        return None
    if args.row is None or args.sp is None:
        raise inputs.WrongUse("--row and --sp are needed for a session or an open")
    options = Options(step=args.step)
    try:
        row = reading.seven_words(reading.words_of(args.row), options)
        return Rule.of_bytes(HEAD.pack(*row, reading.price(args.sp, "SP", options)))
    except TextError as error:
        raise inputs.WrongUse(f"--row and --sp: {error}") from None


def made_of(args: argparse.Namespace, reader: exchange.LogReader, rule: Optional[Rule]) -> Made:
    try:
        lines = choice.chosen(reader, args.symbol, args.account)
    except ValueError as error:
        raise reading.failed(str(error), args.files[0]) from None
    length = LAST if rule is None else rule.row.words[2]
    after = sum(len(line) - line.first_after(args.start + length) for line in lines)
    return Made(rule, exchange.quantum_of(lines, args.start, args.start + length), after)


def lines_of(args: argparse.Namespace, made: Made) -> list[str]:
    """A session, or a list of calls with an open, if a row is given, and a close, if charges are."""
    events = [texts.event_line(event) for event in made.events]
    if args.day is None:
        assert made.rule is not None
        return [f"row {reading.row_text(made.rule.row.words)}", f"sp {made.rule.sp}", *events]
    opened = [] if made.rule is None else [f"open row {reading.row_text(made.rule.row.words)} day {args.day} sp {made.rule.sp}"]
    return [*opened, *events, *(["close {} {}".format(*args.close)] if args.close else [])]


def refusal(made: Made) -> Optional[str]:
    """The meter's refusal of one of the events, with its line."""
    if made.rule is None:
        return None
    try:
        session(made.rule, made.quantum.carried.data + made.quantum.events.data)
    except Refused as refused:
        return f"{made.place(refused.place)}: {Refused.of(refused.number)}" if refused.place else str(refused)
    return None


def json_of(reader: exchange.LogReader, made: Made) -> dict[str, Any]:
    counts = {name: value for name, value in vars(reader.counts).items() if name != "types"}
    reasons = [{**vars(each), "why": each.why.value, "number": each.number} for each in reader.reasons]
    taken = [{"line": line, "event": texts.event_line(event)} for event, (_, line) in zip(made.quantum.events.events(), made.quantum.events.places)]
    return {
        "by": reader.by, "carried": [texts.event_line(event) for event in made.quantum.carried.events()], "events": taken,
        "refused": reasons, "counts": counts, "types": dict(reader.counts.types),
        "others": {" ".join(filter(None, pair)) or "none": count for pair, count in reader.others.items()}, "after": made.after,
    }  # fmt: skip


def complaints(reader: exchange.LogReader, made: Made, refused: Optional[str]) -> Iterator[str]:
    """What was refused, skipped or left out, a line each."""
    yield from choice.faults(reader)
    if refused is not None:
        yield f"the meter refuses an event: {refused}"
    yield from choice.remarks(reader)
    if len(made.quantum.carried):
        yield f"{choice.plural(len(made.quantum.carried), 'order')} carried in"
    if made.after:
        yield f"{choice.plural(made.after, 'change')} after the quantum's end {'is' if made.after == 1 else 'are'} not in it"


def run(args: argparse.Namespace) -> int:
    rule = rule_of(args)
    options = choice.LogOptions(args.source, args.step or choice.LogOptions.step, {}, args.symbol, args.account)
    reader = choice.read_logs(args.files, options)
    made = made_of(args, reader, rule)
    refused = refusal(made)
    if args.json:
        output.write(args.output, output.json_text(json_of(reader, made)))
    elif choice.has_result(reader):
        output.write(args.output, "".join(line + "\n" for line in lines_of(args, made)))
    for each in complaints(reader, made, refused):
        output.complain(each if each.startswith(tuple(args.files)) else f"{args.files[0]}: {each}")
    return int(refused is not None or not choice.is_whole(reader))
