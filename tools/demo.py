"""`make demo`: proves what it shows, and shows each result as soon as what it rests on is proved.

First the silver session's sheet and picture, then a month, then a month's statement. What rt prints is summed up in one line that says what is
proved and how much is left; a crate that was proved before is counted at the end.
"""

import os
import re
import shutil
import subprocess
import sys
import time
from dataclasses import dataclass, field
from importlib.util import find_spec
from pathlib import Path
from typing import Iterator

ROOT = Path(__file__).resolve().parent.parent
MADE = ROOT / "target" / "demo"
QUOTING = ROOT / "quoting"
BEGUN = re.compile(r"rt: chose --jobs \d+ for (\w+)$")
PROVED = "logic=proved "
SHEET = ROOT / "crates" / "sheet"
SILVER = ROOT / "examples" / "silver"
OPENS = 10 * 3_600_000  # 10:00:00, when the silver quantum starts


# ---------------------------------------------------------------- what is proved


def needs() -> dict[str, list[str]]:
    """The crates, each with those that it needs, as crates.txt lists them."""
    lines = (line for line in (ROOT / "crates.txt").read_text(encoding="utf-8").splitlines() if ":" in line and not line.startswith("#"))
    return {name.split()[0]: rest.split() for name, _, rest in (line.partition(":") for line in lines)}


def below(name: str) -> set[str]:
    """A crate and all that it rests on."""
    table, found, todo = needs(), set[str](), [name]
    while todo:
        each = todo.pop()
        if each in table and each not in found:
            found.add(each)
            todo += table[each]
    return found


@dataclass
class Progress:
    """One line that says what is proved and how much is left: written over on a terminal, else every ten crates."""

    crates: set[str]
    done: set[str] = field(default_factory=set)
    since: float = field(default_factory=time.monotonic)
    begun: str = ""

    def take(self, line: str) -> None:
        if found := BEGUN.match(line):
            self.begun = found[1]
        elif line.startswith(PROVED) and self.begun in self.crates - self.done:
            self.done.add(self.begun)
            self.show(f"proved {self.begun}")

    def end(self) -> None:
        """The command has ended well, so what it rests on is proved, here or before."""
        if self.done != self.crates:
            self.done |= self.crates
            self.show("the others were proved before")

    def show(self, what: str) -> None:
        left, minutes = len(self.crates - self.done), int(time.monotonic() - self.since) // 60
        text = f"  {what}; {len(self.done)} of {len(self.crates)} crates, {left} left, {minutes} min"
        if sys.stdout.isatty():
            print(f"\r\033[K{text}", end="" if left else "\n", flush=True)
        elif left % 10 == 0:
            print(text, flush=True)


def run_checked(command: list[str], folder: Path, progress: Progress) -> None:
    """Runs rt or make; where something is not proved or built, its last lines are shown and the demo ends."""
    lines: list[str] = []
    with subprocess.Popen(command, cwd=folder, stdin=subprocess.DEVNULL, stdout=subprocess.PIPE, stderr=subprocess.STDOUT, text=True) as started:
        for line in started.stdout or []:
            lines.append(line)
            progress.take(line)
    if started.returncode:
        sys.exit("".join(["\n", *lines[-12:], f"`{' '.join(command)}` has failed, see above\n"]))
    progress.end()


# ---------------------------------------------------------------- what is shown


def quoting(*words: str, given: bytes = b"") -> subprocess.CompletedProcess[bytes]:
    return subprocess.run([str(QUOTING), *words], input=given, capture_output=True, cwd=ROOT, env={**os.environ, "PYTHON": sys.executable})


def clock(milliseconds: int) -> str:
    seconds = milliseconds // 1000
    return f"{seconds // 3600}:{seconds // 60 % 60:02}:{seconds % 60:02}"


def stretches(sheet: str) -> Iterator[tuple[int, int]]:
    """The start and the end of each kept stretch of a sheet."""
    for offset, length in re.findall(r"^pair (\d+) (\d+)$", sheet, re.M):
        yield int(offset), int(offset) + int(length)


def show_silver() -> None:
    data = quoting("bytes", "examples/silver/silver.session", "--start", "10:00:00").stdout
    sheet = subprocess.run([SHEET / "out" / "sheet"], input=data, capture_output=True, check=True).stdout.decode()
    kept = MADE / "proved.csv"
    kept.write_text("start,end\n" + "".join(f"{clock(OPENS + start)},{clock(OPENS + end)}\n" for start, end in stretches(sheet)), encoding="utf-8")
    print("\nOne silver quantum by the proved meter, and by one that carries an amended order's old volume on:\n")
    words = ["--start", "10:00:00", "--length", "9:00:00", "--names", "carried", "proved", "--svg", str(MADE / "silver.svg"), "--title", "One silver quantum, two readings"]
    print(quoting("compare", str(SILVER / "carried.csv"), str(kept), *words).stdout.decode(), end="")
    print(f"The proved meter's verdict, 75% being due: {re.findall('^verdict (.*)$', sheet, re.M)[0]}. The picture is {shown(MADE / 'silver.svg')}")


def show_month() -> None:
    """The closed quanta of a shipped month, as `quoting calls` answers, in columns."""
    answers = quoting("calls", "examples/month.calls", "--lines").stdout.decode().splitlines()
    cell = re.compile(r"cell kept (\d+) of (\d+) share (\d+) .* verdict (\w+) weight (\d+)")
    print("\nA month, each look at a closed quantum:\n\n     kept       of    due  verdict  weight")
    for kept, length, share, verdict, weight in (found.groups() for found in map(cell.match, answers) if found):
        print(f"  {clock(int(kept)):>7}  {clock(int(length)):>7}  {f'{int(share) / 10:g}%':>5}  {verdict:<7}  {weight:>6}")
    fee = int([line for line in answers if line.startswith("report")][-1].split()[-1])
    refused = sum(line.startswith("refused") for line in answers)
    print(f"  {len(answers)} calls, {refused} refused, the fee {fee // 100} roubles {fee % 100:02} kopecks. All of them: ./quoting calls examples/month.calls")


def show_statement() -> None:
    if find_spec("jinja2") is None:
        print("\nFor a month's statement: apt-get install python3-jinja2, then make statement")
        return
    page = ROOT / "target" / "brent.html"
    page.unlink(missing_ok=True)
    words = ["--fix", "examples/programmes/brent.log", "--title", "Brent, November 2026", "-o", str(page)]
    done = quoting("statement", "examples/programmes/brent.month", *words)
    if not page.exists():
        sys.exit(done.stderr.decode())
    print(f"\nA month's statement from a FIX log is {shown(page)}. Two of its messages are refused, and the page names them.")


def shown(path: Path) -> str:
    return str(path.relative_to(ROOT))


def main() -> None:
    if shutil.which("rt") is None:
        sys.exit("make demo needs rt, the command of the Rattle kit, which is installed separately")
    MADE.mkdir(parents=True, exist_ok=True)
    session, library = below("sheet"), below("quoting")
    print(f"1. A session: {len(session)} crates are to be proved, of {len(session | library)} for all that is shown here.", flush=True)
    run_checked(["rt", "run"], SHEET, Progress(session))  # of no bytes, which end well
    show_silver()
    if shutil.which("cc") is None:
        print("\nFor a month and its statement: apt-get install gcc python3-jinja2, then make demo")
        return
    print(f"\n2. A month: the library, {len(library - session)} crates more.", flush=True)
    run_checked(["make", "library"], ROOT, Progress(library - session))
    show_month()
    show_statement()
    print("\nNext: docs/GUIDE.md, by person, with examples to run.")


if __name__ == "__main__":
    try:
        main()
    except KeyboardInterrupt:
        sys.exit("\nstopped")
