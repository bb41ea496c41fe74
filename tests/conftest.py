"""Options and fixtures: the programs, the client and the library that the gate has built, and notes for the end of a run.

What is missing fails a test; nothing is skipped.
"""

import fcntl
from pathlib import Path
from typing import Iterator, Mapping, Protocol, cast

import pytest
from _pytest.terminal import TerminalReporter

from tests.paths import ARCHIVES, BIN, CLIENT, LIBRARY, TARGET

PROGRAMS = ("account", "card", "probe", "replay", "safe_table", "sheet")
BUILDING = TARGET / "building"  # tests/run keeps it locked while it builds the archives


class Note(Protocol):
    def __call__(self, line: str, details: Mapping[str, int] = ...) -> None: ...


def pytest_addoption(parser: pytest.Parser) -> None:
    group = parser.getgroup("quoting", "the quoting meter")
    group.addoption("--seed", type=int, default=1, help="the seed of the differential and the FIX tests (1)")
    group.addoption("--quick", action="store_true", help="a tenth of the random cases of the longest tests")


def pytest_collection_modifyitems(items: list[pytest.Item]) -> None:
    """The longest first, so that no process is left alone with one at the end; then those that need not wait for the archives."""

    def turn(item: pytest.Item) -> int:
        if item.get_closest_marker("long"):
            return 0
        return 2 if "archives" in getattr(item, "fixturenames", ()) else 1

    items.sort(key=turn)


# ---------------------------------------------------------------- what is built


def built(path: Path, command: str) -> Path:
    if not path.exists():
        pytest.fail(f"{path.relative_to(TARGET.parent)} is not built: run {command}", pytrace=False)
    return path


@pytest.fixture(scope="session")
def programs() -> Path:
    """The folder of the programs."""
    for name in PROGRAMS:
        built(BIN / name, f"rt run in crates/{name}, then make programs")
    return BIN


@pytest.fixture(scope="session")
def archives() -> None:
    """Waits until tests/run has built the archives."""
    if BUILDING.exists():
        with open(BUILDING) as lock:
            fcntl.flock(lock, fcntl.LOCK_SH)


@pytest.fixture(scope="session")
def client(archives: None) -> Path:
    """The C client of examples/client.c."""
    built(ARCHIVES / "libsession.a", "make client")
    return built(CLIENT, "make client")


@pytest.fixture(scope="session")
def library(archives: None) -> Path:
    """The folder of the library for C, which the Python package loads."""
    built(LIBRARY / "libquoting.so", "make library")
    return LIBRARY


# ---------------------------------------------------------------- options and notes


@pytest.fixture(scope="session")
def seed(pytestconfig: pytest.Config) -> int:
    return int(pytestconfig.getoption("seed"))


@pytest.fixture(scope="session")
def is_quick(pytestconfig: pytest.Config) -> bool:
    return bool(pytestconfig.getoption("quick"))


@pytest.fixture
def note(request: pytest.FixtureRequest) -> Note:
    """Takes what a test has counted or measured, for the end of the run; the details are printed with -v."""

    def add(line: str, details: Mapping[str, int] = {}) -> None:
        request.node.user_properties.append(("note", (line, dict(details))))

    return add


def noted(reports: list[pytest.TestReport]) -> Iterator[tuple[str, dict[str, int]]]:
    for report in reports:
        yield from (cast(tuple[str, dict[str, int]], value) for name, value in report.user_properties if name == "note" and report.when == "call")


def pytest_terminal_summary(terminalreporter: TerminalReporter, config: pytest.Config) -> None:
    found = sorted(noted(terminalreporter.getreports("passed")), key=lambda value: value[0])
    if found:
        terminalreporter.section("what the tests counted")
    for line, details in found:
        terminalreporter.write_line(line)
        if config.option.verbose > 0 and details:
            terminalreporter.write_line("    " + ", ".join(f"{what}: {count}" for what, count in sorted(details.items())))
