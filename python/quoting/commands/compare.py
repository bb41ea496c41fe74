"""Two readings of one quantum beside each other: where they differ, and what rested there.

A reading is a session (text, CSV or bytes), which the meter reads, or a list of kept stretches: CSV with the columns start and end, such
as an exchange's own figures. With --start the times of a list are a wall clock's, and so are those that are shown. Of two lists
--length says how long the quantum is.

The status is 0 where both agree, 1 where they differ.

examples:
  quoting compare examples/silver/silver.session theirs.csv --start 10:00:00
  quoting compare examples/silver/silver.session theirs.csv --start 10:00:00 --svg two.svg --names "This meter" "The exchange"
  quoting compare ours.csv theirs.csv --length 8:45:00 --json
"""

import argparse
from dataclasses import replace
from typing import Any, Optional

from quoting import inputs, output, reading, values
from quoting.comparison import Comparison, Difference, Reading, Resting, is_list
from quoting.comparison_picture import two_readings
from quoting.events import Add, Amend
from quoting.native import Refused

COLUMNS = 72  # characters of a strip in the terminal
MOST_SHOWN = 10  # differences and orders that are listed


def add(parser: argparse.ArgumentParser) -> None:
    parser.add_argument("first", metavar="A", help="a session, or a list of kept stretches")
    parser.add_argument("second", metavar="B", help="another one")
    parser.add_argument("--length", type=inputs.start_of, metavar="H:MM:SS", help="the quantum's length, where both are lists")
    parser.add_argument("--svg", metavar="FILE", help="draw both (SVG)")
    parser.add_argument("--names", nargs=2, metavar=("A", "B"), help="what the readings are called, in place of their files' names")
    parser.add_argument("--title", default="One quantum, two readings", help="the picture's title")
    inputs.add_session(parser)
    inputs.add_output(parser)


def read_both(args: argparse.Namespace) -> Comparison:
    """Sessions first: a list has its length from the other reading's row."""
    found: dict[str, Reading] = {}
    content = {name: reading.read_bytes(name) for name in (args.first, args.second)}
    length: Optional[int] = args.length
    for name, data in content.items():
        if not is_list(data):
            source = inputs.session_of(name, data, inputs.options_of(args), inputs.head_of(args), args.format)
            found[name] = metered(source)
            if length not in (None, found[name].length):
                raise reading.failed(f"its quantum takes {values.clock(found[name].length)}, and the other reading's {values.clock(length or 0)}", name)
            length = found[name].length
    if length is None:
        raise inputs.WrongUse("both are lists of kept stretches: --length says how long the quantum is")
    for name, data in content.items():
        if name not in found:
            found[name] = Reading.of_list(name, reading.whole_text(data, inputs.options_of(args), name), length, args.start)
    names = args.names or (args.first, args.second)
    return Comparison(*(replace(found[name], name=shown_as) for name, shown_as in zip((args.first, args.second), names)))


def metered(source: inputs.Source) -> Reading:
    try:
        return Reading.of_session(source.name, source.data)
    except Refused as refused:
        raise reading.failed(inputs.refusal_text(source, refused).removeprefix(f"{source.name}: "), source.name) from None


# ---------------------------------------------------------------- in the terminal


def strip(kept: list[tuple[int, int]], length: int) -> str:
    """A character for each part of the time: all of it kept, some, or none."""
    shares = [0.0] * COLUMNS
    part = length / COLUMNS
    for start, end in kept:
        for column in range(int(start / part), min(COLUMNS, int(end / part) + 1)):
            shares[column] += max(0.0, min(end, (column + 1) * part) - max(start, column * part)) / part
    return "".join("█" if share > 0.999 else "·" if share < 0.001 else "▒" for share in shares)


def marks(comparison: Comparison) -> str:
    part, marks = comparison.first.length / COLUMNS, [" "] * COLUMNS
    for each in comparison.differences:
        for column in range(int(each.start / part), min(COLUMNS, int((each.end - 1) / part) + 1)):
            marks[column] = "^"
    return "".join(marks).rstrip()


def resting_line(resting: Resting, start: int) -> str:
    order, last = resting.order, resting.last
    done = "amended" if isinstance(last, Amend) else "added" if isinstance(last, Add) else "dealt"
    return f"  {order.side} {order.volume:,} at {order.price:,} (order {order.id}, {done} {shown(values.milliseconds(last.t), start)})"


def shown(time: int, start: int) -> str:
    return values.clock(start + time).removesuffix(".000")


def difference_line(each: Difference, comparison: Comparison, start: int) -> str:
    who = comparison.first if each.is_first else comparison.second
    return f"  {shown(each.start, start)} to {shown(each.end, start)}, {shown(each.end - each.start, 0)}: kept by {who.name} alone"


def text_of(comparison: Comparison, start: int) -> str:
    """Both readings, where they differ, and what rested there."""
    both, found = (comparison.first, comparison.second), comparison.differences
    wide = max(len(each.name) for each in both)
    rule = comparison.metered.rule if comparison.metered else None
    lines = []
    for each in both:
        verdict = "" if rule is None else "  met" if 1000 * each.total >= rule.row.words[6] * each.length else "  failed"
        lines += [f"{each.name:<{wide}}  {values.part_text(each.total, each.length)} kept{verdict}", f"  {strip(each.kept, each.length)}"]
    if not found:
        return "\n".join([*lines, "Both readings agree everywhere."]) + "\n"
    total = sum(each.end - each.start for each in found)
    lines += [f"  {marks(comparison)}", f"They differ in {len(found):,} stretch{'es' * (len(found) != 1)}, {shown(total, 0)} in all:"]
    lines += [difference_line(each, comparison, start) for each in found[:MOST_SHOWN]]
    if len(found) > MOST_SHOWN:
        lines.append(f"  and {len(found) - MOST_SHOWN:,} more")
    if comparison.state_then is not None:
        lines.append(f"At {shown(found[0].start, start)} the meter's state is: {comparison.state_then.label}. Orders of that side then:")
        lines += [resting_line(each, start) for each in comparison.resting[:MOST_SHOWN]] or ["  none"]
    return "\n".join(lines) + "\n"


def json_of(comparison: Comparison) -> dict[str, Any]:
    return {
        "readings": [{"name": each.name, "kept": each.total, "stretches": each.kept} for each in (comparison.first, comparison.second)],
        "length": comparison.first.length,
        "differences": [{"start": each.start, "end": each.end, "kept_by": 1 if each.is_first else 2} for each in comparison.differences],
        "state": None if comparison.state_then is None else comparison.state_then.word,
        "resting": [{"id": each.order.id, "side": each.order.side, "price": each.order.price, "volume": each.order.volume,
                     "changed": values.milliseconds(each.last.t)} for each in comparison.resting],
    }


def run(args: argparse.Namespace) -> int:
    comparison = read_both(args)
    if args.svg is not None:
        output.write(args.svg, two_readings(comparison, args.title, args.start))
    output.write(args.output, output.json_text(json_of(comparison)) if args.json else text_of(comparison, args.start))
    return int(bool(comparison.differences))
