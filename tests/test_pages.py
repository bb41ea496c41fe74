"""README and the guide: every example is run as it is written, and what it prints is compared. README stays short."""

import re
import subprocess
from pathlib import Path

import pytest

from tests import pages
from tests.paths import ROOT

PAGES = ("README.md", "docs/GUIDE.md", "examples/silver/README.md")
SECTIONS = [section for page in PAGES for section in pages.sections(page)]


@pytest.mark.usefixtures("library", "programs")
@pytest.mark.parametrize("section", SECTIONS, ids=lambda section: f"{Path(section.page).stem}: {section.title}")
def test_examples(section: pages.Section, tmp_path: Path) -> None:
    assert not section.unknown, f"blocks that no test runs: {section.unknown}"
    pages.lay_out(tmp_path, section)
    for command in section.commands:
        status, printed = pages.run(command, tmp_path)
        fits = re.fullmatch(pages.pattern(command.printed), printed if printed.endswith("\n") or not printed else f"{printed}\n")
        assert fits, f"$ {command.text}\nshown:\n{command.printed}\nprinted:\n{printed}"
        assert status == command.status, f"$ {command.text}\nstatus {status}\n{printed}"


@pytest.mark.parametrize("section", [each for each in SECTIONS if each.targets], ids=lambda section: f"{Path(section.page).stem}: {section.title}")
def test_targets(section: pages.Section) -> None:
    """Targets that take long are not run here; the Makefile has them."""
    for target in section.targets:
        done = subprocess.run(["make", "-n", *target.split()], cwd=ROOT, capture_output=True, text=True)
        assert done.returncode == 0, done.stderr


def test_a_wrong_output_is_found(tmp_path: Path) -> None:
    for printed, fits in (("one\ntwo\n", True), ("one\n...\n", True), ("o...\ntwo\n", True), ("one\n", False), ("one\nthree\n", False)):
        status, found = pages.run(pages.Command("printf 'one\\ntwo\\n'"), tmp_path)
        assert status == 0 and bool(re.fullmatch(pages.pattern(printed), found)) is fits, printed


def test_there_are_examples_for_everyone() -> None:
    count = {page: sum(len(section.commands) for section in SECTIONS if section.page == page) for page in PAGES}
    assert count["README.md"] >= 5 and count["docs/GUIDE.md"] >= 25, count


def test_readme_is_short() -> None:
    words = (ROOT / "README.md").read_text(encoding="utf-8").split()
    assert len(words) <= 900, f"README has {len(words)} words"


@pytest.mark.parametrize("page", PAGES)
def test_links(page: str) -> None:
    """Each link to a file of the tree leads to one."""
    text = (ROOT / page).read_text(encoding="utf-8")
    for target in re.findall(r"\]\(([^)#:]+)(?:#[^)]*)?\)", text):
        assert (ROOT / page).parent.joinpath(target).exists(), target
    headings = {re.sub(r"[^a-z0-9 -]", "", title.lower()).replace(" ", "-") for title in re.findall(r"^#+ (.*)$", text, re.M)}
    assert headings.issuperset(re.findall(r"\]\(#([^)]+)\)", text))
