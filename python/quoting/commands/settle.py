"""Many sessions settled in parallel: a table (CSV) with one row a session, and a summary.

The sessions (text, CSV or bytes) are the files of a folder, or those that a list names, one a line, from the list's own folder on; - is a
list on standard input. The table is in the order of the names. A session that is refused, or can't be read, is a row with its place and
reason and a line on standard error, and stops nothing; the status is then 1. With -o the rows are written to FILE.part, and FILE is
written when all are there. After a break --resume takes over the rows in FILE.part, if the options are the same, and settles the sessions
that are missing or have changed; --restart deletes them.

With --scheduler the same work goes to a Dask cluster (Debian's python3-distributed), whose workers see the same files and this package. If
the cluster is lost, or finishes nothing for as long as --patience says, the run ends, and --resume goes on.

examples:
  quoting settle november -o settle.csv
  quoting settle november -o settle.csv --resume --threads 4
  quoting settle list.txt -o settle.csv --scheduler tcp://10.0.0.5:8786
"""

import argparse
import os
import sys
from concurrent.futures import ThreadPoolExecutor
from contextlib import contextmanager
from pathlib import Path
from time import monotonic
from typing import Any, Callable, Iterator, Optional, Sequence, Union

from quoting import clusters, inputs, output, settling
from quoting.parts import PartError, Table, part_of
from quoting.reading import STANDARD
from quoting.settling import Outcome, ReadOptions, Summary

PATIENCE = 300.0  # seconds


def seconds_of(word: str) -> float:
    try:
        found = float(word)
    except ValueError:
        found = 0.0
    if not 1 <= found <= 1_000_000:
        raise argparse.ArgumentTypeError(f"{word!r} is not a number of seconds from 1 to 1000000")
    return found


def add(parser: argparse.ArgumentParser) -> None:
    parser.add_argument("where", metavar="FOLDER|LIST", help="a folder of sessions, or a list of their names; - is a list on standard input")
    again = parser.add_mutually_exclusive_group()
    again.add_argument("--resume", action="store_true", help="go on where FILE.part was left off; needs -o")
    again.add_argument("--restart", action="store_true", help="delete the rows in FILE.part, and settle every session again")
    most = os.cpu_count() or 1
    parser.add_argument("--threads", type=inputs.whole_in(1, 1_024), default=most, metavar="N", help=f"sessions at a time ({most}, this machine's processors)")
    parser.add_argument("--scheduler", metavar="ADDRESS", help="the scheduler of a Dask cluster, as tcp://10.0.0.5:8786")
    help = f"how long the cluster may go without settling anything ({PATIENCE:g}), and a list's pipe without a writer"
    parser.add_argument("--patience", type=seconds_of, default=PATIENCE, metavar="SECONDS", help=help)
    inputs.add_session(parser)
    inputs.add_output(parser, json=False)
    parser.set_defaults(parser=parser)


# ---------------------------------------------------------------- who works


@contextmanager
def rows(args: argparse.Namespace, names: Sequence[str], read_options: ReadOptions, say: Callable[[str], None]) -> Iterator[Iterator[Outcome]]:
    """The outcomes to come, by threads of this process or by a cluster."""
    if args.scheduler is None:
        pool = ThreadPoolExecutor(args.threads)
        try:
            yield settling.rows(pool, names, read_options, ahead=4 * args.threads)
        finally:
            pool.shutdown(cancel_futures=True)
        return
    with clusters.cluster(args.scheduler, args.patience, say) as cluster:
        placed = [os.path.abspath(name) for name in names]  # a worker runs in another folder
        yield (settling.renamed(outcome, name) for outcome, name in zip(cluster.rows(placed, read_options), names))


# ---------------------------------------------------------------- what is seen of it


class Watched:
    """What is seen meanwhile: on a terminal a bar with rate and time left, moved at most ten times a second; else the complaints alone."""

    def __init__(self, bar: Any, total: int, done: int) -> None:
        self.bar, self.waiting, self.moved = bar, 0, monotonic()
        self.task = bar.add_task("settled", total=total, completed=done, speed="") if bar else None

    def step(self) -> None:
        self.waiting += 1
        if self.bar is not None and monotonic() - self.moved > 0.1:
            self.move()

    def move(self) -> None:
        speed = self.bar.tasks[0].speed
        self.bar.update(self.task, advance=self.waiting, speed=f"{speed:.0f} sessions/s" if speed else "")
        self.waiting, self.moved = 0, monotonic()

    def say(self, line: str) -> None:
        if self.bar is None:
            output.complain(line)
        else:
            self.bar.console.print(f"quoting: {line}", markup=False, highlight=False)


@contextmanager
def watched(total: int, done: int) -> Iterator[Watched]:
    bar = progress() if sys.stderr is not None and sys.stderr.isatty() else None
    made = Watched(bar, total, done)
    if bar is None:
        yield made
        return
    with bar:
        yield made
        made.move()


def progress() -> Any:
    try:
        from rich.console import Console
        from rich.progress import BarColumn, MofNCompleteColumn, Progress, TextColumn, TimeRemainingColumn
    except ImportError:
        return None
    columns = BarColumn(), MofNCompleteColumn(), TextColumn("{task.fields[speed]}"), TimeRemainingColumn(), TextColumn("left")
    return Progress(*columns, console=Console(stderr=True))


# ---------------------------------------------------------------- the run


def run(args: argparse.Namespace) -> int:
    path = None if args.output in (None, STANDARD) else Path(args.output)
    if args.resume and (path is None or args.where == STANDARD):
        args.parser.error("--resume needs -o FILE, and the names again")
    if args.restart and path is None:
        args.parser.error("--restart needs -o FILE")
    settling.need_library()
    read_options = ReadOptions(inputs.options_of(args), inputs.head_of(args), args.format)
    names = without_table(settling.names_of(args.where, args.patience, read_options.options), path)
    if not names:
        raise ValueError(f"{args.where}: no session but the table itself is there")
    try:
        summary = to_table(args, names, read_options, path) if path and not is_device(path) else to_stream(args, names, read_options, path)
    except PartError as error:
        output.complain(str(error))
        return 1
    output.write(None, summary.text) if path else output.complain(summary.text.strip())
    return int(bool(summary.refused or summary.unreadable))


def is_device(path: Path) -> bool:
    return path.exists() and not path.is_file()


def without_table(names: list[str], path: Optional[Path]) -> list[str]:
    """The names but those of the table and its part file, by any path. If the table's file is a session, it would be lost: an error."""
    if path is None or is_device(path):
        return names
    own = set(filter(None, (node_of(path), node_of(part_of(path)))))
    rest = [name for name in names if node_of(name) not in own] if own else names
    if len(rest) < len(names) and path.exists() and not is_table(path):
        raise ValueError(f"{path} is one of the sessions, and the table would replace it: choose another -o")
    return rest


def node_of(path: Union[str, Path]) -> Optional[tuple[int, int]]:
    """What is the same for all names of a file; None where there is no file."""
    try:
        found = os.stat(path)
    except (OSError, ValueError):
        return None
    return found.st_dev, found.st_ino


def is_table(path: Path) -> bool:
    """Whether a file is empty or begins as a table does."""
    with open(path, "rb") as file:
        return file.read(len(settling.HEADER)) in (b"", settling.HEADER.encode())


def to_table(args: argparse.Namespace, names: list[str], read_options: ReadOptions, path: Path) -> Summary:
    """Rows beside the file; if the run breaks off, they stay."""
    table, summary = Table(path, names, read_options, args.resume, args.restart), Summary()
    try:
        for note in table.notes:
            output.complain(note)
        for row in table.kept:
            summary.take(row)
        settle(args, table.todo, read_options, summary, table.write)
        table.finish()
    except clusters.Lost as lost:
        kept = f"; {table.part} has {len(table.places)} row(s): --resume goes on with it" if table.places else ""
        raise clusters.Lost(f"{lost}{kept}") from None
    finally:
        table.close()
    return summary


def to_stream(args: argparse.Namespace, names: list[str], read_options: ReadOptions, path: Optional[Path]) -> Summary:
    """Rows as they come, to standard output or a device."""
    summary = Summary()
    if path is None:
        output.write(None, settling.HEADER.encode())
        settle(args, names, read_options, summary, lambda outcome: output.write(None, outcome.row.line.encode()))
        return summary
    with open(path, "w", encoding="utf-8", newline="") as file:

        def write(outcome: Outcome) -> None:
            file.write(outcome.row.line)

        file.write(settling.HEADER)
        settle(args, names, read_options, summary, write)
    return summary


def settle(args: argparse.Namespace, names: Sequence[str], read_options: ReadOptions, summary: Summary, write: Callable[[Outcome], None]) -> None:
    done = summary.sessions
    if not names:
        return
    with watched(done + len(names), done) as seen, rows(args, names, read_options, seen.say) as found:
        for outcome in found:
            write(outcome)
            summary.take(outcome.row)
            seen.step()
            if outcome.row.complaint:
                seen.say(outcome.row.complaint)
