"""The tests: `test_*.py`, one file a theme, and what they share. docs/CONTRIBUTING.md says how to run them."""

import sys
from pathlib import Path

sys.path.insert(0, str(Path(__file__).resolve().parent.parent / "python"))  # the package of this tree
