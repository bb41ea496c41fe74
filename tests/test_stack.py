"""The stack that the calls of the library use, measured by tests/stack.c, is what include/quoting.h says."""

import re
import subprocess
from pathlib import Path
from typing import Callable

import pytest

from tests.paths import INCLUDE, LIBRARY, TESTS

SPARE = 6_144  # bytes that a figure of the header may be above the measured one
EVENTS = {"add", "amend", "cancel", "deal", "tick", "ask", "look"}
SINGLE = {"open", "open a strike", "close", "drop", "charge", "withdraw", "report", "outlook", "commit", "message"}
MONTH = {"quoting_calls"}
STANDING = {"quoting_standing"}


@pytest.fixture(scope="module")
def measured(library: Path, tmp_path_factory: pytest.TempPathFactory) -> dict[str, int]:
    """The bytes of stack of each call."""
    program = tmp_path_factory.mktemp("stack") / "stack"
    strict = ["-std=c11", "-O2", "-Wall", "-Wextra", "-Wpedantic", "-Werror", f"-I{INCLUDE}"]
    subprocess.run(["cc", *strict, "-o", program, TESTS / "stack.c", LIBRARY / "libquoting.a", "-lpthread"], check=True)
    done = subprocess.run([program], check=True, capture_output=True, text=True)
    return {name: int(size) for name, size in (line.split(": ") for line in done.stdout.splitlines())}


def header_figure(group: str) -> int:
    found = re.search(rf"^#define QUOTING_STACK_{group} ([0-9]+)$", (INCLUDE / "quoting.h").read_text(), re.M)
    assert found, f"the header has no QUOTING_STACK_{group}"
    return int(found[1])


def test_one_figure_is_for_every_call(measured: dict[str, int]) -> None:
    """QUOTING_STACK_BYTES is the greatest of the three."""
    found = re.search(r"^#define QUOTING_STACK_BYTES QUOTING_STACK_(\w+)$", (INCLUDE / "quoting.h").read_text(), re.M)
    assert found and header_figure(found[1]) == max(map(header_figure, ("MONTH", "STANDING", "OTHERS")))
    assert max(measured.values()) <= header_figure(found[1])


def test_every_call_of_the_header_is_measured(measured: dict[str, int]) -> None:
    declared = set(re.findall(r"^uint64_t (quoting_\w+)\(", (INCLUDE / "quoting.h").read_text(), re.M))
    found = {name for name in measured if name.startswith("quoting_")}
    assert declared - found == {"quoting_month_call"}, "a call is not measured"
    assert set(measured) - found == EVENTS | SINGLE, "a kind of a month's call is not measured"


@pytest.mark.parametrize(
    "group, belongs",
    [
        ("MONTH", lambda name: name in MONTH),
        ("STANDING", lambda name: name in STANDING),
        ("OTHERS", lambda name: name not in MONTH | STANDING),
    ],
)
def test_no_call_uses_more_stack_than_the_header_says(
    measured: dict[str, int], group: str, belongs: Callable[[str], bool], note: Callable[[str], None]
) -> None:
    """Nor much less, so that the figure is kept up to date."""
    deepest = max((name for name in measured if belongs(name)), key=measured.__getitem__)
    figure = header_figure(group)
    assert measured[deepest] <= figure, f"{deepest} uses {measured[deepest]} bytes, the header says {figure}"
    assert figure <= measured[deepest] + SPARE, f"{deepest} uses {measured[deepest]} bytes at most, the header says {figure}"
    note(f"stack: {group.lower()} at most {measured[deepest]} bytes ({deepest}), the header says {figure}")
