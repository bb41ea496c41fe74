"""The weight card: its constants are what the tool writes, the program prints what the recount does, and the page shows these numbers."""

import subprocess
from xml.etree import ElementTree

import pytest

from quoting import card as card_page
from recount import card
from recount.book import NO_LIMIT, Cell, cell_weight, weight
from tests.paths import ROOT
from tools.dev import card_table


@pytest.mark.parametrize("path", card_table.FILES, ids=lambda path: path.name)
def test_constants(path):
    assert path.read_text(encoding="utf-8") == card_table.FILES[path](), f"{path.name} is not what tools/dev/card_table.py writes"


def test_program(programs):
    done = subprocess.run([programs / "card"], capture_output=True, timeout=60, check=True)
    assert done.stdout.decode() == card.card(), "card prints other numbers than the recount"
    assert (ROOT / "crates" / "card" / "stdout").read_text() == card.card(), "crates/card/stdout is old"


@pytest.mark.parametrize("length", [1_000, 7_000, 31_500_000, 86_400_000])
def test_only_by_f(length):
    """The weight of any K and L with that f is the card's; too many lapses leave none."""
    for f in range(card.LAST + 1):
        first = -(-f * length // 1_000)  # the least K with that f, then the greatest
        last = min(length, -(-(f + 1) * length // 1_000) - 1)
        for kept in (first, last):
            assert [weight(kept, length, share) for share in card.SHARES] == card.line(f), (kept, length)
            lapsed = [Cell(kept, length, share, 1, 2, 0, 0) for share in card.SHARES]
            assert [cell_weight(cell) for cell in lapsed] == [0, 0, 0]
            assert cell_weight(lapsed[0]._replace(limit=NO_LIMIT)) == card.line(f)[0]


@pytest.mark.usefixtures("library")
def test_page():
    weights = card_page.weights()
    assert weights == [card.line(f) for f in range(card.LAST + 1)], "the library's weights are not the recount's"
    curves = ElementTree.fromstring(card_page.svg(weights))
    assert len(curves.findall("{http://www.w3.org/2000/svg}path")) == len(card.SHARES)
    assert (ROOT / "docs" / "card.svg").read_text() == card_page.svg(weights), "docs/card.svg is old"
    body = ElementTree.fromstring(card_page.page(weights).split("\n", 1)[1])
    shown = {}
    for row in body.iter("tr"):
        cells = [cell.text for cell in row]
        if cells[0] != "kept":
            shown[cells[0]] = [0 if cell == "-" else int(cell) for cell in cells[1:]]
    due = {card_page.percent(f): card.line(f) for f in range(600, 801)}
    assert shown == due
