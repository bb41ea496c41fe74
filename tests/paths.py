"""Where the tests find things in the tree."""

from pathlib import Path

ROOT = Path(__file__).resolve().parent.parent
EXAMPLES = ROOT / "examples"
PROGRAMMES = EXAMPLES / "programmes"
INCLUDE = ROOT / "include"
TESTS = ROOT / "tests"
QUOTING = ROOT / "quoting"  # the command

# Built by the gate, by rt and make.
TARGET = ROOT / "target"
BIN = TARGET / "bin"
LIBRARY = TARGET / "library"
CLIENT = TARGET / "client"
ARCHIVES = TARGET / "staticlib"
