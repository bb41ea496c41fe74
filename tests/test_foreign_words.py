"""Words that no call wrote, handed to a month's calls and to the view: nothing outside the lent buffers is touched, and nothing traps."""

import re
import subprocess
from pathlib import Path
from typing import Callable

import pytest

from tests.paths import INCLUDE, LIBRARY, TESTS

STRICT = ["-std=c11", "-g", "-O2", "-Wall", "-Wextra", "-Wpedantic", "-Werror", f"-I{INCLUDE}"]


@pytest.fixture(scope="module")
def program(library: Path, tmp_path_factory: pytest.TempPathFactory) -> Path:
    """tests/foreign_words.c with the archive."""
    built = tmp_path_factory.mktemp("foreign") / "foreign_words"
    subprocess.run(["cc", *STRICT, "-o", built, TESTS / "foreign_words.c", LIBRARY / "libquoting.a"], check=True)
    return built


def said_by(least: int, words: list[object]) -> str:
    """What the program says of its calls, of which there must be so many."""
    done = subprocess.run([str(word) for word in words], capture_output=True, text=True, timeout=600)
    found = re.search(r"(\d+) calls on words that no call wrote, 0 wrong", done.stdout)
    assert done.returncode == 0 and found, done.stdout + done.stderr[-4000:]
    assert int(found[1]) >= least, done.stdout
    return done.stdout.strip()


def test_guarded_buffers(program: Path, note: Callable[[str], None]) -> None:
    """Every word set to several values, and random pairs, through every kind of call, each lent buffer between memory that traps."""
    note(said_by(5_000_000, [program]))


def test_under_valgrind(program: Path) -> None:
    """A part of them on buffers of exactly their size; an error ends the process that tries it, and is then named."""
    said_by(1_000, ["valgrind", "-q", "--error-exitcode=3", program, 1009, "plain"])
