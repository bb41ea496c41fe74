"""The manual page and the shell's completion: all subcommands and options are in them, roff finds no fault, and bash completes."""

import subprocess
import sys
from functools import cache

import pytest

from quoting import cli
from tests.paths import ROOT
from tools import manual


@cache
def made(what: str) -> str:
    return subprocess.run([sys.executable, str(ROOT / "tools" / "manual.py"), what], capture_output=True, text=True, check=True).stdout


def test_the_page_has_everything() -> None:
    page, options = made("page").replace("\\-", "-"), 0
    for words, parser in manual.walk(cli.parser()):
        assert not words or f".SS quoting {' '.join(words)}\n" in page
        for action in manual.arguments(parser) if words else ():
            assert f"\\fB{manual.invocation(action)}\\fR\n" in page, (words, action)
            options += 1
    assert options > 100


@pytest.mark.parametrize("name", sorted(manual.subparsers(cli.parser())))
def test_each_subcommand_has_examples(name: str) -> None:
    """As the command's own help says."""
    assert "\nexamples:\n" in (manual.subparsers(cli.parser())[name].description or "")


def test_the_page_is_read_without_a_warning() -> None:
    done = subprocess.run(["groff", "-man", "-Kutf8", "-Tutf8", "-ww", "-P-cbou"], input=made("page"), capture_output=True, text=True)
    assert done.returncode == 0 and not done.stderr and "standard output" in done.stdout, done.stderr


CASES = {
    "quoting sta": "standing statement", "quoting desk pl": "plan", "quoting desk settle --re": "--recount --resume", "quoting sheet --format ": "text csv bytes",
    "quoting sheet examples/br": "examples/brent.session", "quoting --v": "--version", "quoting sheet --sp": "--sp",
}


@pytest.mark.parametrize("line", CASES)
def test_completion(line: str) -> None:
    words = line.split(" ")
    script = f"{made('completion')}\nCOMP_WORDS=({' '.join(repr(word) for word in words)}); COMP_CWORD={len(words) - 1}; _quoting; echo \"${{COMPREPLY[*]}}\""
    done = subprocess.run(["bash", "-c", script], cwd=ROOT, capture_output=True, text=True)
    assert done.stdout.strip() == CASES[line], done
