"""Writes the constants of the weight card: `python3 tools/dev/card_table.py`.

They are in `crates/weights/src/table.rt`, and once more, for the proofs, in
`crates/weights/proofs/Constants.antt`. The numbers are the recount's; that each is the weight by the
definitions is proved in `weights`.
"""

import argparse
import sys
from pathlib import Path

ROOT = Path(__file__).resolve().parent.parent.parent
sys.path.insert(0, str(ROOT))

from recount import card

COLUMNS = dict(zip(card.SHARES, zip(*(card.line(f) for f in range(card.LAST + 1)))))
# the parts of a share's line, each with its first f: below every p, the curve, and the full weight
PARTS = {"low": range(600), "curve": range(600, 800), "full": range(800, card.LAST + 1)}
A_LINE = 10  # numbers of a list


def code():
    """A constant for each part of each share's line, one number a line."""
    text = """\
// The constants of the weight card, written by tools/dev/card_table.py: for each p the weights of f from 0 to 1,000, in three parts: below
// every p, the curve from 600 on, and the full weight from 800 on.
"""
    for share, weights in COLUMNS.items():
        for part, lines in PARTS.items():
            numbers = "".join(f"    {weights[f]}, // p {share}, f {f}\n" for f in lines)
            text += f"pub const CARD_{share}_{part.upper()}: [u16; {len(lines)}] = [\n{numbers}];\n\n"
    return text[:-1]


def proof():
    """The same numbers as lists."""
    text = """\
-- The constants of the weight card once more, written by tools/dev/card_table.py.
use Prim.Native.Nat.{ℕ}
use mathlib.Core.List.{List, [], ◌∷◌}
"""
    for share, weights in COLUMNS.items():
        for part, fs in PARTS.items():
            lines = [[weights[f] for f in fs[at : at + A_LINE]] for at in range(0, len(fs), A_LINE)]
            numbers = "".join(f"    {' ∷ '.join(map(str, line))} ∷\n" for line in lines)
            text += f"\nabbrev pub {part}{share} : List ℕ\n{part}{share} =\n{numbers}    []\n"
    return text


FILES = {
    ROOT / "crates" / "weights" / "src" / "table.rt": code,
    ROOT / "crates" / "weights" / "proofs" / "Constants.antt": proof,
}


def main():
    argparse.ArgumentParser(description=__doc__, formatter_class=argparse.RawDescriptionHelpFormatter).parse_args()
    for path, text in FILES.items():
        path.write_text(text(), encoding="utf-8")


if __name__ == "__main__":
    main()
