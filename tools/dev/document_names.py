"""Looks up what the documents name: `python3 tools/dev/document_names.py` lists every name in backquotes that the tree does not have.

Looked up are files and folders, crates, functions of a crate (`crate::name`), must-fail edits, and, in docs/PROOFS.md and docs/DECISIONS.md,
definitions and theorems. docs/changes is left out: its notes use the names of their time.
"""

import re
import subprocess
import sys
from functools import cache
from pathlib import Path

ROOT = Path(__file__).resolve().parent.parent.parent
PAGES = ["README.md", "bench/README.md", "examples/silver/README.md", *(f"docs/{name}.md" for name in ("ARCHITECTURE", "CONTRIBUTING", "DECISIONS", "FORMATS", "GLOSSARY", "GUIDE", "PROOFS", "REFUSALS"))]
QUOTED = re.compile(r"`([^`\n]+)`")
FOLDERS = ("crates", "docs", "tests", "examples", "python", "recount", "include", "lib", "bench", "tools", "shared")
BUILT = ("target/", "/dev/")


@cache
def files() -> frozenset[str]:
    listed = subprocess.run(["git", "ls-files", "-co", "--exclude-standard"], cwd=ROOT, capture_output=True, text=True, check=True).stdout
    return frozenset(listed.splitlines())


@cache
def crates() -> frozenset[str]:
    return frozenset(path.name for path in (ROOT / "crates").iterdir())


@cache
def text_of(crate: str) -> str:
    return "\n".join((ROOT / file).read_text(encoding="utf-8") for file in sorted(files()) if file.startswith(f"crates/{crate}/") and file.endswith((".rt", ".antt")))


@cache
def all_words() -> frozenset[str]:
    """Every word of the tree's code, definitions and proofs, and of the other languages' sources."""
    sources = (file for file in files() if file.endswith((".rt", ".antt", ".py", ".c", ".h", ".rs", ".cpp", ".js", "Makefile")) or "/must-fail/" in file)
    text = "\n".join((ROOT / file).read_text(encoding="utf-8", errors="replace") for file in sources)
    edits = {Path(file).stem for file in files() if file.endswith(".edit")}
    return frozenset(re.findall(r"[\w-]+'*", text)) | frozenset(re.findall(r"\w+", text)) | edits | crates()


def path_missing(name: str) -> bool:
    """A path, or the end of one as a document shortens it."""
    plain = name.rstrip("/").removeprefix("../")
    if "NAME" in plain or "LABEL" in plain:
        return False
    if any(plain.startswith(built.rstrip("/")) for built in BUILT):
        return False
    return not any(file == plain or file.endswith("/" + plain) or f"/{plain}/" in f"/{file}" for file in files())


def function_missing(name: str) -> bool:
    crate, _, rest = name.partition("::")
    if crate not in crates():
        return not all(word in all_words() for word in re.findall(r"\w+", name))
    return not all(re.search(rf"\b{word}\b", text_of(crate)) for word in re.findall(r"\w+", rest))


def missing(name: str) -> bool:
    if re.fullmatch(r"[\w./-]+/[\w./-]+", name) and (name.split("/")[0] in FOLDERS or name.endswith((".antt", ".rt", ".py", ".md"))):
        return path_missing(name)
    if re.fullmatch(r"[\w-]+\.(antt|rt|py|md|c|h|svg)", name):
        return path_missing(name)
    if re.fullmatch(r"\w+(::\w+)+", name):
        return function_missing(name)
    if re.fullmatch(r"[a-z]+[_-][a-z0-9_-]+'*|[A-Z][a-z]+[A-Za-z]*|[a-z]+[A-Z]\w*", name):
        return name not in all_words()
    return False


def main() -> None:
    found = 0
    for page in PAGES:
        for number, line in enumerate((ROOT / page).read_text(encoding="utf-8").splitlines(), 1):
            for name in QUOTED.findall(line):
                if missing(name):
                    found += 1
                    print(f"{page}:{number}: `{name}` is not in the tree")
    sys.exit(1 if found else 0)


if __name__ == "__main__":
    main()
