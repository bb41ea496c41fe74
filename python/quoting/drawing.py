"""What the pictures (SVG) share: elements, steps of axes, names short enough for one line."""

from typing import Iterable
from xml.sax.saxutils import escape

from quoting.values import HOUR, MINUTE, SECOND

INK, PALE = "#222222", "#888888"
WIDTH_OF_ONE = 0.58  # character, by the size of the letters
MOST_CHARACTERS = 44
TICKS = [SECOND, 5 * SECOND, 10 * SECOND, MINUTE, 5 * MINUTE, 10 * MINUTE, 30 * MINUTE, HOUR, 2 * HOUR, 4 * HOUR]  # steps of a time axis


def short(name: str, most: int = MOST_CHARACTERS) -> str:
    """A name cut in the middle where it is long, so that there is room for what follows it; characters that no file can hold are marked.

    >>> short("a" * 60, 9)
    'aaaa..aaa'
    """
    shown = name.encode("utf-8", "replace").decode()
    return shown if len(shown) <= most else f"{shown[: most - most // 2 - 1]}..{shown[1 - most // 2:]}"


def text_width(words: str, size: int) -> float:
    return len(words) * size * WIDTH_OF_ONE


def rounded_step(most: float, lines: int) -> int:
    """1, 2 or 5 times a power of ten, so that there are at most so many lines.

    >>> rounded_step(450, 6)
    100
    """
    size = 1
    while True:
        for step in (size, 2 * size, 5 * size):
            if most / step <= lines:
                return step
        size *= 10


class Drawing:
    """Gathers the elements of a picture."""

    def __init__(self, width: int, height: int) -> None:
        self.width, self.height = width, height
        self.items: list[str] = []
        self.rect(0, 0, width, height, "#ffffff")

    def rect(self, x: float, y: float, width: float, height: float, fill: str) -> None:
        self.items.append(f'<rect x="{number(x)}" y="{number(y)}" width="{number(width)}" height="{number(height)}" fill="{fill}"/>')

    def line(self, x1: float, y1: float, x2: float, y2: float, colour: str, more: str = "") -> None:
        places = f'x1="{number(x1)}" y1="{number(y1)}" x2="{number(x2)}" y2="{number(y2)}"'
        self.items.append(f'<line {places} stroke="{colour}"{more}/>')

    def text(self, x: float, y: float, words: str, anchor: str = "start", size: int = 13, colour: str = INK, more: str = "") -> None:
        place = f'x="{number(x)}" y="{number(y)}" text-anchor="{anchor}" font-size="{size}"'
        self.items.append(f'<text {place} fill="{colour}"{more}>{escape(words)}</text>')

    def path(self, parts: Iterable[str], colour: str, more: str = "") -> None:
        self.items.append(f'<path d="{"".join(parts)}" fill="none" stroke="{colour}" stroke-width="2"{more}/>')

    def svg(self) -> str:
        size = f'width="{self.width}" height="{self.height}" viewBox="0 0 {self.width} {self.height}"'
        items = "\n".join(self.items)
        return f'<svg xmlns="http://www.w3.org/2000/svg" {size} font-family="Helvetica, Arial, sans-serif">\n{items}\n</svg>\n'


def number(value: float) -> str:
    """Hundredths of a pixel are enough."""
    return f"{round(value, 2):g}"
