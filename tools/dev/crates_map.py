"""The map of the crates, from the first sentence of each crate's source: `python3 tools/dev/crates_map.py` writes it to docs/ARCHITECTURE.md.

`--check` only compares, and ends with 1 where the document has another map.
"""

import argparse
import re
import sys
from pathlib import Path

ROOT = Path(__file__).resolve().parent.parent.parent
PAGE = ROOT / "docs" / "ARCHITECTURE.md"
BEGIN, END = "<!-- crates -->\n", "<!-- end of crates -->\n"


def head_of(crate: Path) -> str:
    """The first sentence of the comment at the head of a crate's source."""
    source = next(file for file in (crate / "src" / "lib.rt", crate / "src" / "main.rt") if file.exists())
    lines = []
    for line in source.read_text(encoding="utf-8").splitlines():
        if not line.startswith("//"):
            break
        lines.append(line[2:].strip())
    return re.split(r"(?<=[.])\s+(?=[A-Z`])", " ".join(lines))[0].rstrip(".")


def groups(text: str) -> list[tuple[str, list[str]]]:
    """The titles of the groups of crates.txt, each with its crates."""
    found: list[tuple[str, list[str]]] = []
    in_comment = False
    for line in text.splitlines():
        if line.startswith("#"):
            if not in_comment:
                found.append((re.split(r"[:.,]", line[1:])[0].strip(), []))
            in_comment = True
            continue
        in_comment = False
        if line.strip():
            found[-1][1].append(line.split(":")[0].split()[0])
    return found


def table() -> str:
    rows = ["| crate | what it holds |", "|---|---|"]
    for title, names in groups((ROOT / "crates.txt").read_text(encoding="utf-8")):
        rows.append(f"| **{title}** | |")
        rows += [f"| `{name}` | {head_of(ROOT / 'crates' / name)} |" for name in names]
    return "\n".join(rows) + "\n"


def with_map(page: str) -> str:
    before, rest = page.split(BEGIN)
    return before + BEGIN + table() + END + rest.split(END)[1]


def main() -> None:
    parser = argparse.ArgumentParser(description=__doc__)
    parser.add_argument("--check", action="store_true", help="only compare")
    check = parser.parse_args().check
    page = PAGE.read_text(encoding="utf-8")
    if not check:
        PAGE.write_text(with_map(page), encoding="utf-8")
    elif with_map(page) != page:
        sys.exit("docs/ARCHITECTURE.md has another map of the crates: run python3 tools/dev/crates_map.py")


if __name__ == "__main__":
    main()
