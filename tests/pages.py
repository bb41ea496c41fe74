"""The examples of a page, by section: blocks of the forms that README and the guide use.

    ```console      commands after `$ `, each followed by what it prints, both streams together
    ```c meter.c    a file of that name, for the commands of its section
    ```make         targets of the Makefile with their comments, which are looked up and not run

`console 1` says that the last command of the block ends with status 1; all others end with 0. In what is printed `...` is any text of a
line, and as a line of its own any lines. A last line `^C` stops a command that would go on.
"""

import os
import re
import signal
import subprocess
import sys
from dataclasses import dataclass, field
from pathlib import Path
from typing import Iterator

from tests.command import restore_sigint
from tests.paths import ROOT

FENCE = re.compile(r"^```(.*?)\n(.*?)^```$", re.M | re.S)
HEADING = re.compile(r"^##+ (.*)$", re.M)
LONGEST = 120  # seconds
PORT = re.compile(r"(?<=127\.0\.0\.1:)\d+")


@dataclass
class Command:
    text: str
    printed: str = ""
    status: int = 0

    @property
    def goes_on(self) -> bool:
        return self.printed.endswith("^C\n")


@dataclass
class Section:
    """A heading, and the examples between it and the next one."""

    page: str
    title: str
    files: dict[str, str] = field(default_factory=dict)
    commands: list[Command] = field(default_factory=list)
    targets: list[str] = field(default_factory=list)
    unknown: list[str] = field(default_factory=list)

    def take(self, info: str, body: str) -> None:
        kind, *rest = info.split()
        if kind == "console":
            found = list(commands(body))
            found[-1].status = int(rest[0]) if rest else 0
            self.commands += found
        elif kind == "make":
            self.targets += [line.split("#")[0].removeprefix("make").strip() for line in body.splitlines()]
        elif rest:
            self.files[rest[0]] = body
        else:
            self.unknown.append(info)


def commands(body: str) -> Iterator[Command]:
    """The commands of a block; a line that ends with a backslash goes on in the next."""
    found: list[Command] = []
    goes_on = False
    for line in body.splitlines():
        if goes_on:
            found[-1].text += f"\n{line}"
        elif line.startswith("$ "):
            found.append(Command(line[2:]))
        else:
            assert found, f"a block begins with what no command has printed: {line}"
            found[-1].printed += f"{line}\n"
        goes_on = (goes_on or line.startswith("$ ")) and line.endswith("\\")
    yield from found


def sections(page: str) -> list[Section]:
    """The sections of a page that have examples."""
    text = (ROOT / page).read_text(encoding="utf-8")
    starts = [(0, "(start)"), *((found.start(), found[1]) for found in HEADING.finditer(text))]
    ends = [start for start, _ in starts[1:]] + [len(text)]
    made = []
    for (start, title), end in zip(starts, ends):
        section = Section(page, title)
        for found in FENCE.finditer(text[start:end]):
            section.take(found[1] or "(no kind)", found[2])
        if section.files or section.commands or section.targets or section.unknown:
            made.append(section)
    return made


def lay_out(folder: Path, section: Section) -> None:
    """A folder that looks like the tree, in which the commands may write."""
    for each in ROOT.iterdir():
        if each.name != ".git":
            (folder / each.name).symlink_to(each)
    for name, body in section.files.items():
        (folder / name).write_text(body, encoding="utf-8")


def pattern(printed: str) -> str:
    """What is shown, as a regular expression."""
    lines = [r"(?:.*\n)*?" if line == "..." else re.escape(line).replace(re.escape("..."), ".*?") + r" *\n" for line in printed.splitlines()]
    return "".join(lines)


def environment() -> dict[str, str]:
    """Debian's Python first, whatever else is on the path."""
    return {**os.environ, "PATH": f"/usr/bin:/bin:{os.environ['PATH']}", "PYTHON": sys.executable, "SOURCE_DATE_EPOCH": "1796083200", "LC_ALL": "C.UTF-8"}


def run(command: Command, folder: Path) -> tuple[int, str]:
    """The status of a command, and what it prints."""
    if command.goes_on:
        return stopped(command, folder)
    done = subprocess.run(
        ["bash", "-c", command.text], cwd=folder, env=environment(), stdout=subprocess.PIPE, stderr=subprocess.STDOUT, text=True, timeout=LONGEST)
    return done.returncode, done.stdout


def stopped(command: Command, folder: Path) -> tuple[int, str]:
    """As `run`, of a server: on a free port, stopped as soon as it has printed as many lines as are shown."""
    started = subprocess.Popen(
        ["bash", "-c", f"exec {command.text} --port 0"], cwd=folder, env=environment(), stdout=subprocess.PIPE, stderr=subprocess.STDOUT, text=True,
        preexec_fn=restore_sigint)
    assert started.stdout is not None
    try:
        lines = [started.stdout.readline() for _ in command.printed.splitlines()[:-1]]
        started.send_signal(signal.SIGINT)
        started.communicate(timeout=LONGEST)
    finally:
        started.kill()
    shown = PORT.search(command.printed)
    return command.status, PORT.sub(shown[0] if shown else "PORT", "".join(lines)) + "^C\n"
