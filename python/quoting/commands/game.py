"""How much time is safe from a taker who voids minutes by knocks.

Answers for M minutes, H of them double at most, and K knocks, and shows minute by minute how the maker gets there: he quotes double
until his doubles are used, and then single. A minute that the taker lacks the knocks to void stands.

examples:
  quoting game 8 3 7                                    against a taker that plays best
  quoting game 8 3 5 --play examples/knocks.taker       against answers of a file, `void` or `stand` a line
  quoting game 8 3 5 --play -                           you are the taker
  quoting game --table 8                                the safe minutes of 8 for all stocks
"""

import argparse
import sys
from typing import Callable, Iterable, Iterator

from quoting import inputs, output, reading, recounted, values
from quoting.calculations import safe_minutes
from quoting.reading import STANDARD, TextError

MOST = 60
Taker = Callable[[int, bool, int], bool]  # minutes past, whether this one is double, knocks left: whether he would void it


def stock_of(word: str) -> int:
    try:
        return values.whole(word, values.WORD)
    except ValueError as error:
        raise argparse.ArgumentTypeError(str(error)) from None


def add(parser: argparse.ArgumentParser) -> None:
    parser.add_argument("numbers", metavar="M H K", nargs="*", type=stock_of, help="minutes, doubles, knocks")
    parser.add_argument("--play", metavar="FILE", help="the taker's answers, or - for standard input")
    parser.add_argument("--table", metavar="M", type=stock_of, help="a table over all stocks")
    parser.add_argument("--both", action="store_true", help="say whether the recount's number is the same")
    inputs.add_output(parser)
    parser.set_defaults(parser=parser)


# ---------------------------------------------------------------- takers


def best_taker(minutes: int, doubles: int) -> Taker:
    """Voids what he can of the single minutes, and a double one where knocks are left beyond those."""
    singles = max(0, minutes - doubles)
    return lambda past, is_double, left: left - singles >= 2 if is_double else left >= 1


def typed(minutes: int, lines: Iterable[str], is_asked: bool) -> Taker:
    """A taker by lines of `void` and `stand`; where he is asked, standard error has the question."""
    answers = enumerate(lines, start=1)

    def taker(past: int, is_double: bool, left: int) -> bool:
        if is_asked:
            sys.stderr.write(f"minute {past + 1} is {'double' if is_double else 'single'}: void or stand? ")
            sys.stderr.flush()
        for at, line in answers:
            words = reading.words_of(line.rstrip("\r\n"))
            if words in (["void"], ["stand"]):
                return words == ["void"]
            if words:
                raise reading.failed(f"{values.brief(' '.join(words))!r} is neither void nor stand", line=at)
        raise TextError(f"the answers end after {past} of {minutes} minutes")

    return taker


def taker_of(args: argparse.Namespace, minutes: int, doubles: int) -> Taker:
    if args.play is None:
        return best_taker(minutes, doubles)
    if args.play == STANDARD and sys.stdin is not None and sys.stdin.isatty():
        return typed(minutes, map(reading.decoded, sys.stdin.buffer), True)
    return typed(minutes, reading.split_lines(reading.decoded(reading.read_bytes(args.play))), False)


# ---------------------------------------------------------------- a play


def play(minutes: int, doubles: int, knocks: int, taker: Taker) -> Iterator[str]:
    """A line a minute, with how many are safe in all by then."""
    safe, unvoided, left = safe_minutes(minutes, doubles, knocks), 0, knocks
    yield f"safe {safe} of {minutes}"
    for past in range(minutes):
        is_double = past < doubles
        needed = 2 if is_double else 1
        wished = taker(past, is_double, left)
        voided = wished and left >= needed
        left -= needed if voided else 0
        unvoided += not voided
        rest = safe_minutes(minutes - past - 1, max(0, doubles - past - 1), left)
        stock = f"knocks left {left}" if voided or not wished else "no knocks for it"
        done = f"{'double' if is_double else 'single'}, {'void' if voided else 'stand'}"
        yield f"minute {past + 1}: {done}, {stock}, unvoided {unvoided}, safe {unvoided + rest}"
    yield f"unvoided {unvoided}, safe were {safe}"


def table(args: argparse.Namespace) -> int:
    """Over the stocks that make a difference: H up to M, K up to the knocks that void every minute."""
    minutes = args.table
    heads = range(min(2 * minutes, MOST) + 1)
    rows = [[h, *(safe_minutes(minutes, h, k) for k in heads)] for h in range(min(minutes, MOST) + 1)]
    if args.json:
        output.write(args.output, output.json_text([row[1:] for row in rows]))
    else:
        output.write(args.output, output.plain_table(["h\\k", *map(str, heads)], rows))
    return 0


def run(args: argparse.Namespace) -> int:
    if args.table is not None and not args.numbers:
        return table(args)
    if len(args.numbers) != 3 or args.table is not None:
        args.parser.error("M H K, or --table M")
    numbers: list[int] = args.numbers
    safe = safe_minutes(*numbers)
    agreed = recounted.agreement([str(safe)], [str(recounted.recount("game").closed(*numbers))]) if args.both else ""
    if args.json:
        output.write(args.output, output.json_text({"safe": safe}))
        return 0
    show(args, numbers, agreed)
    return 1 if "DIFFER" in agreed else 0


def show(args: argparse.Namespace, numbers: list[int], agreed: str) -> None:
    """Minute by minute; to a terminal each as it comes."""
    minutes, doubles, knocks = numbers
    try:
        lines = play(minutes, doubles, knocks, taker_of(args, minutes, doubles))
        if args.play == STANDARD and args.output is None:
            for line in lines:
                output.write(None, line + "\n")
        else:
            output.write(args.output, "".join(line + "\n" for line in lines))
    except TextError as error:
        error.file = args.play
        raise
    output.write(args.output if agreed else None, agreed)
