"""Draws the crates as crates.txt lists them: `python3 tools/dev/crates_picture.py`, which writes docs/crates.svg.

A band is a group of crates.txt, the first one at the bottom. Each box lists its direct dependencies; transitive ones are omitted. With
`--check` the picture is only compared, and the status is 1 where it is another.
"""

import argparse
import sys
import textwrap
from dataclasses import dataclass, field
from html import escape
from pathlib import Path

ROOT = Path(__file__).resolve().parent.parent.parent
COLOURS = ("#dbe7f3", "#e3f0dc", "#f6ead0", "#f3dede", "#e6e0f2", "#dcefee", "#f0e2ec", "#e8e8e8")
WIDTH, TITLE, EDGE = 1180, 140, 16
BOX, GAP, LINE = 116, 8, 13
A_LINE = 19  # letters of small print in a box
A_TITLE = 13  # letters of a title's line
A_NAME = 13  # letters of a name that fits its box; a longer one is printed smaller


@dataclass
class Group:
    title: str
    crates: list[str] = field(default_factory=list)


def listed(text: str) -> tuple[list[Group], dict[str, list[str]]]:
    """The groups in their order, and the crates of this tree that each crate names after its colon."""
    groups: list[Group] = []
    needs: dict[str, list[str]] = {}
    in_comment = False
    for line in text.splitlines():
        if line.startswith("#"):
            if not in_comment:
                groups.append(Group(line[1:].split(":")[0].split(".")[0].split(",")[0].strip()))
            in_comment = True
            continue
        in_comment = False
        if line.strip():
            kind, rest = line.split(":")
            name = kind.split()[0]
            groups[-1].crates.append(name)
            needs[name] = rest.split()
    return groups, {name: [need for need in named if need in needs] for name, named in needs.items()}


def below(needs: dict[str, list[str]]) -> dict[str, set[str]]:
    """All that each crate depends on; crates.txt has a crate after what it needs."""
    all_of: dict[str, set[str]] = {}
    for name, named in needs.items():
        all_of[name] = set(named).union(*(all_of[need] for need in named))
    return all_of


def direct(needs: dict[str, list[str]]) -> dict[str, list[str]]:
    """What each crate depends on, less what follows from the others."""
    under = below(needs)
    return {
        name: [need for need in named if not any(need in under[other] for other in named)]
        for name, named in needs.items()
    }


def box(x: int, y: int, height: int, name: str, small: list[str]) -> str:
    rows = "".join(
        f'<text class="small" x="{x + BOX // 2}" y="{y + 30 + LINE * i}">{escape(row)}</text>'
        for i, row in enumerate(small)
    )
    kind = "name" if len(name) <= A_NAME else "long name"
    return (
        f'<rect class="box" x="{x}" y="{y}" width="{BOX}" height="{height}" rx="4"/>'
        f'<text class="{kind}" x="{x + BOX // 2}" y="{y + 16}">{escape(name)}</text>{rows}\n'
    )


def band(group: Group, rests: dict[str, list[str]], y: int, colour: str) -> tuple[str, int]:
    """A group's band from y on, and its height."""
    in_row = (WIDTH - TITLE - 2 * EDGE) // (BOX + GAP)
    small = {name: textwrap.wrap(", ".join(rests[name]), A_LINE) for name in group.crates}
    drawn, at = "", y + GAP
    for first in range(0, len(group.crates), in_row):
        row = group.crates[first : first + in_row]
        height = 26 + LINE * max(len(small[name]) for name in row)
        for i, name in enumerate(row):
            drawn += box(EDGE + TITLE + i * (BOX + GAP), at, height, name, small[name])
        at += height + GAP
    ground = f'<rect x="{EDGE}" y="{y}" width="{WIDTH - 2 * EDGE}" height="{at - y}" rx="6" fill="{colour}"/>'
    title = "".join(
        f'<text class="title" x="{EDGE + 12}" y="{y + 26 + 18 * i}">{escape(line)}</text>'
        for i, line in enumerate(textwrap.wrap(group.title, A_TITLE))
    )
    return f"{ground}{title}\n{drawn}", at - y


def picture(text: str) -> str:
    groups, needs = listed(text)
    rests = direct(needs)
    drawn, y = "", EDGE
    for index in reversed(range(len(groups))):
        part, height = band(groups[index], rests, y, COLOURS[index % len(COLOURS)])
        drawn += part
        y += height + GAP
    head = (
        f'<svg xmlns="http://www.w3.org/2000/svg" viewBox="0 0 {WIDTH} {y + GAP}" font-family="sans-serif">\n'
        "<title>The crates, each above its dependencies</title>\n"
        "<style>.box{fill:#fff;stroke:#777}.name{font-size:13px;font-weight:bold;text-anchor:middle}"
        ".long{font-size:10px}"
        ".small{font-size:10.5px;fill:#444;text-anchor:middle}.title{font-size:15px;font-weight:bold;fill:#333}</style>\n"
        f'<rect width="{WIDTH}" height="{y + GAP}" fill="#fff"/>\n'
    )
    return head + drawn + "</svg>\n"


def main() -> None:
    parser = argparse.ArgumentParser(description=__doc__, formatter_class=argparse.RawDescriptionHelpFormatter)
    parser.add_argument("--check", action="store_true", help="only compare")
    check = parser.parse_args().check
    drawn, page = picture((ROOT / "crates.txt").read_text(encoding="utf-8")), ROOT / "docs" / "crates.svg"
    if not check:
        page.write_text(drawn, encoding="utf-8")
    elif page.read_text(encoding="utf-8") != drawn:
        sys.exit("docs/crates.svg shows other crates: run python3 tools/dev/crates_picture.py")


if __name__ == "__main__":
    main()
