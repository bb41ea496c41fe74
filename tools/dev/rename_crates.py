#!/usr/bin/env python3
"""Renames the crates of a tree by family, in one pass: folders, crates.txt, imports, paths, edits and documents.

    python3 tools/dev/rename_crates.py TREE          # a tree, or a folder of patches or crates that use the names of before
"""
import re
import sys
from pathlib import Path

NAMES = {
    # the C surface
    "buffers": "c_answers",
    "pairs": "c_session",
    "account_words": "c_account",
    "month_words": "c_month",
    "messages": "c_fix",
    "extras": "c_others",
    "standings": "c_standing",
    # the month
    "live": "month_words",
    "in_place": "month_in_place",
    "views": "month_view",
    # calls
    "blocks": "call_blocks",
    "script": "call_step",
    "lists": "call_list",
    "answers": "answer_words",
    "reruns": "call_list_requests",
    # the session
    "runs": "record_runs",
    "marks": "kept_pairs",
    "pass": "session_pass",
    "accounts": "session_account",
    # FIX
    "digits": "fix_digits",
    "dates": "fix_dates",
    "fields": "fix_fields",
    "frame": "fix_frame",
    "fix": "fix_reader",
    "quantum_messages": "fix_events",
    # orders
    "small": "small_side",
    "level": "best_level",
    "table": "order_table",
    "arrivals": "order_arrivals",
    "side": "order_side",
    "quote": "best_quote",
    "prices": "price_keys",
    # the standing
    "makers": "standing_rules",
    "places": "standing_array",
    # programs
    "byte_cases": "probe_bytes",
    "extra_cases": "probe_extras",
    "lines": "replay_lines",
    "pieces": "replay_pieces",
}
ANY = "|".join(sorted(NAMES, key=len, reverse=True))
# where a word is a crate's name: a module of the logic, a path of Rattle, a folder, a file of a crate, or a program
PLACES = [
    re.compile(rf"(?<=Rattle\.)({ANY})(?=[.{{])"),
    re.compile(rf"(?<![\w.:/·-])({ANY})(?=::)"),
    re.compile(rf"(?<=crates/)({ANY})(?![\w])"),
    re.compile(rf"(?<![\w/.-])({ANY})(?=/(?:specs|proofs|src|must-fail)\b)"),
    re.compile(rf"(?<=target/bin/)({ANY})(?![\w])"),
]
# modules of a crate that have the name of another crate
OWN = {"byte_cases": {"messages"}, "weights": {"table"}}
# in a document a crate's name is in backquotes
QUOTED = re.compile(rf"(?<=`)({ANY})(?=`)")
TEXTS = {".rt", ".antt", ".edit", ".md", ".py", ".c", ".h", ".cpp", ".rs", ".svg", ".txt", ".toml", ".patch", ""}


def renamed(match: re.Match[str]) -> str:
    return NAMES[match.group(1)]


def in_text(path: Path, text: str) -> str:
    own = next((OWN[part] for part in path.parts if part in OWN), set())
    for place in PLACES:
        text = place.sub(lambda m: m.group(1) if m.group(1) in own else renamed(m), text)
    return QUOTED.sub(renamed, text) if path.suffix == ".md" else text


def in_list(text: str) -> str:
    """crates.txt: every word of a line that is no comment."""
    word = re.compile(rf"\b({ANY})\b")
    return "\n".join(line if line.startswith("#") else word.sub(renamed, line) for line in text.split("\n"))


def is_text(path: Path) -> bool:
    parts = path.parts
    return path.is_file() and not path.is_symlink() and path.suffix in TEXTS and not {".git", "target"} & set(parts)


def move_folders(crates: Path) -> None:
    """Over names that nothing has: `live` takes the name that `month_words` gives up."""
    moved = [name for name in NAMES if (crates / name).is_dir()]
    for name in moved:
        (crates / name).rename(crates / f"{name}.before")
    for name in moved:
        (crates / f"{name}.before").rename(crates / NAMES[name])


def main() -> None:
    tree = Path(sys.argv[1])
    for path in sorted(tree.rglob("*")):
        if not is_text(path) or path.name == "rename_crates.py":
            continue
        try:
            before = path.read_text()
        except UnicodeDecodeError:
            continue
        after = in_list(before) if path.name == "crates.txt" else in_text(path, before)
        if after != before:
            path.write_text(after)
    if (tree / "crates").is_dir():
        move_folders(tree / "crates")


main()
