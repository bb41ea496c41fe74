"""Counts functions and lines, crate by crate: `python3 tools/dev/counts.py`. Blank lines and comments are left out.

`--write` puts the table into docs/PROOFS.md.
"""

import argparse
import re
from pathlib import Path

ROOT = Path(__file__).resolve().parent.parent.parent
PAGE = ROOT / "docs" / "PROOFS.md"
HEAD = "| crate | functions | code | clauses | definitions | proof | must-fail edits |\n"


def lines(files):
    """The lines of some files that hold more than a comment."""
    marks = ("//", "--")
    return [
        line
        for file in files
        for line in file.read_text(encoding="utf-8").splitlines()
        if line.strip() and not line.strip().startswith(marks)
    ]


def counts(crate):
    code = lines(crate.glob("src/**/*.rt"))
    clauses = [line for line in code if re.match(r"\s*(requires|ensures|ghost)\b", line)]
    return [
        sum(bool(re.match(r"\s*(pub )?(extern \"C\" )?fn ", line)) for line in code),
        len(code) - len(clauses),
        len(clauses),
        len(lines(crate.glob("specs/**/*.antt"))),
        len(lines(crate.glob("proofs/**/*.antt"))),
        len(list(crate.glob("must-fail/*.edit"))),
    ]


def row(name, cells):
    return "| " + " | ".join([name, *(f"{cell:,}" for cell in cells)]) + " |\n"


def table():
    listed = (ROOT / "crates.txt").read_text(encoding="utf-8").splitlines()
    names = [line.split(":")[0].split()[0] for line in listed if line.strip() and not line.startswith("#")]
    cells = [counts(ROOT / "crates" / name) for name in names]
    rows = "".join(row(f"`{name}`", each) for name, each in zip(names, cells))
    return HEAD + "|---|--:|--:|--:|--:|--:|--:|\n" + rows + row("all", [sum(column) for column in zip(*cells)])


def main():
    parser = argparse.ArgumentParser(description=__doc__, formatter_class=argparse.RawDescriptionHelpFormatter)
    parser.add_argument("--write", action="store_true", help="put the table into docs/PROOFS.md")
    if not parser.parse_args().write:
        print(table(), end="")
        return
    before, rest = PAGE.read_text(encoding="utf-8").split(HEAD)
    PAGE.write_text(before + table() + rest[rest.index("\n\n") + 1 :], encoding="utf-8")


if __name__ == "__main__":
    main()
