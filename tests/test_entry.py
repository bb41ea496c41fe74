"""Where the command finds its modules: never among the files of the folder in which it is run."""

import os
import shutil
import subprocess
import sys
from pathlib import Path

import pytest

from tests.paths import EXAMPLES, QUOTING, ROOT

pytestmark = pytest.mark.usefixtures("library")

SESSION = EXAMPLES / "document01.session"
SHEET = "kept 6000 of 10000\npair 0 6000\nverdict met\nweight 10000\n"
# Modules of Python and of the tree that the command imports. `-m` alone makes Python import some others before the package has a say.
NAMES = ("csv", "argparse", "json", "decimal", "ctypes", "fractions", "bisect", "recount", "numpy", "rich")


@pytest.fixture
def folder(tmp_path: Path) -> Path:
    """A folder with files that are named like modules, and leave a mark when they run."""
    for name in NAMES:
        (tmp_path / f"{name}.py").write_text(f"open({str(tmp_path / 'ran')!r}, 'a').write('{name} ')\n")
    return tmp_path


def sheet(folder: Path, *words: object, **more: str) -> None:
    """Runs the sheet of a session, which must be right, and nothing of the folder."""
    plain = {name: value for name, value in os.environ.items() if name not in ("PYTHONPATH", "PYTHONSAFEPATH")}
    done = subprocess.run([*map(str, words), "sheet", str(SESSION)], cwd=folder, env={**plain, **more}, capture_output=True, text=True, timeout=60)
    ran = (folder / "ran").read_text() if (folder / "ran").exists() else ""
    assert (ran, done.returncode, done.stdout) == ("", 0, SHEET), done.stderr


def test_script_runs_nothing_of_the_current_folder(folder: Path) -> None:
    sheet(folder, QUOTING)


@pytest.mark.parametrize("path", [":/no/such/folder", "/no/such/folder:", "/no/such/folder::/none", ":"])
def test_script_ignores_empty_entries_of_pythonpath(folder: Path, path: str) -> None:
    sheet(folder, QUOTING, PYTHONPATH=path)


def test_script_keeps_entries_of_pythonpath(tmp_path: Path) -> None:
    """PYTHONPATH may name packages that the command uses, in folders whose names have spaces and stars too."""
    named = tmp_path / "a * b"
    named.mkdir()
    (named / "sitecustomize.py").write_text(f"open({str(tmp_path / 'found')!r}, 'w')\n")
    sheet(tmp_path, QUOTING, PYTHONPATH=str(named))
    assert (tmp_path / "found").exists()


def test_script_with_safe_path(folder: Path) -> None:
    """Where Python itself leaves the current folder out, no other entry is dropped."""
    sheet(folder, QUOTING, PYTHONSAFEPATH="1")


@pytest.mark.parametrize("words", [["-m", "quoting"], ["-mquoting"], ["-B", "-m", "quoting"]], ids=" ".join)
def test_module_runs_nothing_of_the_current_folder(folder: Path, words: list[str]) -> None:
    sheet(folder, sys.executable, *words, PYTHONPATH=str(ROOT / "python"))


def test_import_keeps_the_current_folder(tmp_path: Path) -> None:
    """A program of one's own that imports the package finds its own modules, run as a file or as a module."""
    (tmp_path / "mine.py").write_text("import sys\nimport quoting\nimport beside\nprint(beside.NAME)\n")
    (tmp_path / "beside.py").write_text("NAME = 'mine'\n")
    (tmp_path / "tool").mkdir()
    (tmp_path / "tool" / "__init__.py").write_text("import quoting\n")
    (tmp_path / "tool" / "__main__.py").write_text("import beside\nprint(beside.NAME)\n")
    for words in (["mine.py"], ["-m", "mine"], ["-m", "tool"], ["-m", "tool", "quoting"]):
        done = subprocess.run([sys.executable, *words], cwd=tmp_path, env={**os.environ, "PYTHONPATH": str(ROOT / "python")}, capture_output=True, text=True)
        assert done.stdout == "mine\n", (words, done.stderr)


def test_installed_entry_point_runs_nothing_of_the_current_folder(folder: Path, tmp_path_factory: pytest.TempPathFactory) -> None:
    """The script that pip makes of `quoting.cli:main` is a file of its own folder, and that folder comes first."""
    binaries = tmp_path_factory.mktemp("bin")
    script = binaries / "quoting"
    script.write_text(f"#!{sys.executable}\nimport sys\nfrom quoting.cli import main\nsys.exit(main())\n")
    script.chmod(0o755)
    sheet(folder, script, PYTHONPATH=str(ROOT / "python"))


def test_script_by_a_link(folder: Path, tmp_path_factory: pytest.TempPathFactory) -> None:
    link = tmp_path_factory.mktemp("bin") / "quoting"
    link.symlink_to(QUOTING)
    sheet(folder, link)
    assert shutil.which("quoting", path=str(link.parent)) == str(link)
