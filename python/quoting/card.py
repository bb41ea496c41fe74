"""The weight card: the weights by required shares of 60%, 70% and 75%, for each share kept, as curves (SVG) and as a page for print."""

from typing import Iterator

from quoting import drawing, native
from quoting.drawing import INK

SHARES = (600, 700, 750)
LAST, FULL = 1_000, 800  # of f, the share kept in tenths of a percent; from FULL on every weight is the full one
COLOURS = ("#1f5fa8", "#b3381f", "#3d7a3d")
GRID = "#bbbbbb"

WIDTH, HEIGHT = 900, 420
LEFT, RIGHT, TOP, BOTTOM = 80, 870, 50, 370  # the plot
FROM, TO, MOST = 550, 850, 20_000  # f and w of the plot
COLUMNS = 5  # of the table, side by side

Weights = list[list[int]]


def weights() -> Weights:
    """For each f from 0 to 1,000 the three weights, by the library: a kept time of f in a length of 1,000 has that share.

    >>> weights()[700]
    [10312, 10000, 0]
    """
    return [[native.call("quoting_weight", f, LAST, share) for share in SHARES] for f in range(LAST + 1)]


def percent(tenths: int) -> str:
    return f"{tenths // 10}.{tenths % 10}%"


def x(f: float) -> float:
    return LEFT + (RIGHT - LEFT) * (f - FROM) / (TO - FROM)


def y(w: float) -> float:
    return BOTTOM - (BOTTOM - TOP) * w / MOST


def draw_axes(d: drawing.Drawing) -> None:
    for w in range(0, MOST + 1, 5_000):
        d.line(LEFT, y(w), RIGHT, y(w), GRID)
        d.text(LEFT - 8, y(w) + 4, f"{w:,}", "end")
    for f in range(FROM, TO + 1, 50):
        d.line(x(f), BOTTOM, x(f), BOTTOM + 5, INK)
        d.text(x(f), BOTTOM + 20, f"{f // 10}%", "middle")
    d.line(LEFT, BOTTOM, RIGHT, BOTTOM, INK)
    d.text((LEFT + RIGHT) / 2, HEIGHT - 10, "share of the quantum that was kept", "middle")


def curve(column: int, card: Weights) -> Iterator[str]:
    """A step for each f: a weight holds from its f up to the next."""
    number = drawing.number
    yield f"M{number(x(FROM))} {number(y(card[FROM][column]))}"
    for f in range(FROM, TO):
        yield f"V{number(y(card[f][column]))}H{number(x(f + 1))}"


def svg(card: Weights) -> str:
    d = drawing.Drawing(WIDTH, HEIGHT)
    draw_axes(d)
    for column, share in enumerate(SHARES):
        d.path(curve(column, card), COLOURS[column])
        d.text(x(FROM) + 8, TOP + 16 + 20 * column, f"required {percent(share)}", colour=COLOURS[column])
    return d.svg()


def table_lines(card: Weights) -> list[str]:
    """A line for each f from the least share to the first full weight."""
    cells = {f: "".join(f"<td>{w or '-'}</td>" for w in card[f]) for f in range(min(SHARES), FULL + 1)}
    return [f"<tr><th>{percent(f)}</th>{shown}</tr>" for f, shown in cells.items()]


def tables(card: Weights) -> Iterator[str]:
    """The lines in blocks side by side, each under its head."""
    lines, heads = table_lines(card), "".join(f"<th>{percent(share)}</th>" for share in SHARES)
    size = -(-len(lines) // COLUMNS)
    for start in range(0, len(lines), size):
        body = "\n".join(lines[start : start + size])
        yield f"<table>\n<tr><th>kept</th>{heads}</tr>\n{body}\n</table>"


STYLE = """\
body { font-family: Helvetica, Arial, sans-serif; color: #222222; margin: 1.5em auto; width: 900px }
.tables { display: flex; justify-content: space-between }
table { border-collapse: collapse; font-size: 10px; align-self: flex-start }
td, th { text-align: right; padding: 1px 5px; border-bottom: 1px solid #dddddd; font-weight: normal }
@media print { body { margin: 0 } }
"""


def page(card: Weights) -> str:
    return f"""<!DOCTYPE html>
<html lang="en">
<head><meta charset="utf-8"/><title>Weight card</title><style>
{STYLE}</style></head>
<body>
<h1>Weight card</h1>
<p>The weight of a quantum by the share of its time that was kept, for required shares of
{", ".join(map(percent, SHARES))}. The share kept is rounded down to tenths of a percent. Below the
required share the quantum is failed and weighs 0; from {percent(FULL)} on it weighs {MOST:,}. A
quantum with more lapses than its limit weighs 0 in any case.</p>
{svg(card)}<div class="tables">
{"".join(tables(card))}
</div>
</body>
</html>
"""
