"""The documents against the tree: every name that they use is there, and the map and the picture of the crates are those of the crates."""

import subprocess
import sys
from pathlib import Path

import pytest

from tests.paths import ROOT


@pytest.mark.parametrize("words", [["document_names.py"], ["crates_map.py", "--check"], ["crates_picture.py", "--check"]], ids=["names", "map", "picture"])
def test_documents_agree_with_the_tree(words: list[str]) -> None:
    done = subprocess.run([sys.executable, str(ROOT / "tools" / "dev" / words[0]), *words[1:]], capture_output=True, text=True)
    assert done.returncode == 0, done.stdout + done.stderr


def test_a_name_that_is_not_there_is_found(tmp_path: Path) -> None:
    copy = tmp_path / "tree"
    subprocess.run(["git", "clone", "-q", str(ROOT), str(copy)], check=True)
    absent = "`crates/{0}/specs` and `month::{0}` and `{0}`".format("_".join(["no", "such", "name"]))  # in no file of the tree
    for page in ("docs/PROOFS.md", "README.md"):
        (copy / page).write_text((ROOT / page).read_text(encoding="utf-8") + f"\n{absent}\n", encoding="utf-8")
    (copy / "tools" / "dev" / "document_names.py").write_text((ROOT / "tools" / "dev" / "document_names.py").read_text(encoding="utf-8"), encoding="utf-8")
    found = subprocess.run([sys.executable, str(copy / "tools" / "dev" / "document_names.py")], capture_output=True, text=True)
    assert found.returncode == 1 and found.stdout.count("is not in the tree") >= 6, found.stdout
