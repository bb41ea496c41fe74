"""Respells the names that the documents cite as the tree now has them: `python3 tools/dev/respell_documents.py COMMIT`.

COMMIT is from before definitions and laws were respelled. Each is found by its place among its file's, so a file that has as many as then gives
every name; a file with more or fewer gives those that stand between names that are the same. docs/changes is left out: its notes use the
names of their time.
"""

import argparse
import difflib
import re
import subprocess
from pathlib import Path
from typing import Iterator

ROOT = Path(__file__).resolve().parent.parent.parent
DEFINED = re.compile(r"^\s*(?:(?:abbrev|unfoldable|opaque|pub|mutual|data|record)\s+)*([A-Za-z][\w'′-]*)(?: \([^:]*:.*\)| \{[^:]*:.*\})* :(?: |$)", re.M)
QUOTED = re.compile(r"`([^`\n]+)`")
NAME = re.compile(r"(?<![\w'′/.:-])[A-Za-z][\w'′-]*(?![\w'′/:-]|\.\w)")


def git(*words: str) -> str:
    return subprocess.run(["git", *words], cwd=ROOT, capture_output=True, text=True, check=True).stdout


def pairs(before: list[str], now: list[str]) -> Iterator[tuple[str, str]]:
    """The names of a file as they were and as they are."""
    if len(before) == len(now):
        yield from zip(before, now)
        return
    for _, a, b, c, d in difflib.SequenceMatcher(None, before, now, autojunk=False).get_opcodes():
        if b - a == d - c:
            yield from zip(before[a:b], now[c:d])


def respelled(commit: str) -> dict[str, str]:
    found: dict[str, str] = {}
    for path in git("ls-tree", "-r", "--name-only", commit, "crates").splitlines():
        if path.endswith(".antt") and (ROOT / path).exists():
            now = DEFINED.findall((ROOT / path).read_text(encoding="utf-8"))
            found.update(pairs(DEFINED.findall(git("show", f"{commit}:{path}")), now))
    return {name: new for name, new in found.items() if name != new}


def main() -> None:
    parser = argparse.ArgumentParser(description=__doc__, formatter_class=argparse.RawDescriptionHelpFormatter)
    parser.add_argument("commit")
    names = respelled(parser.parse_args().commit)
    for path in git("ls-files").splitlines():
        if path.startswith(("crates/", "docs/changes/", "tools/")) or not path.endswith((".md", ".py", ".c", ".h", ".hpp")):
            continue
        text = (ROOT / path).read_text(encoding="utf-8")
        new = QUOTED.sub(lambda span: NAME.sub(lambda name: names.get(name[0], name[0]), span[0]), text)
        if new != text:
            (ROOT / path).write_text(new, encoding="utf-8")
            print(path)


if __name__ == "__main__":
    main()
