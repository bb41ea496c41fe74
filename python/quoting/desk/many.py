"""Many desks at once, each into a folder of its own: in processes of this machine, or on a Dask cluster. The table desks.csv has a line for
each desk, in the order in which they are named, whatever is finished first."""

from collections import Counter
from concurrent.futures import ProcessPoolExecutor
from concurrent.futures.process import BrokenProcessPool
from dataclasses import dataclass
from multiprocessing import get_context
from pathlib import Path
from typing import Iterator, Optional, Sequence

from quoting import clusters
from quoting.desk import folders
from quoting.desk.folders import Summary
from quoting.desk.outputs import Manner
from quoting.settling import csv_line

COLUMNS = ("desk", "status", "maker", "month", "quanta", "met", "failed", "fee", "reasons")
USUAL = "desk"  # the stem of a desk that is named by its folder


@dataclass(frozen=True)
class Task:
    """A desk, and the folder that it is settled into."""

    path: Path
    out: Path


def tasks(names: Sequence[str], out: Path) -> list[Task]:
    """One desk goes into OUT itself, several into folders there, named after the desk's file, or after its folder where that is desk.toml.

    Raises:
        ValueError: Two desks would be settled into one folder.
    """
    paths = [Path(name) for name in names]
    if len(paths) == 1:
        return [Task(paths[0], out)]
    stems = [path.resolve().parent.name if path.stem == USUAL else path.stem for path in paths]
    twice = [stem for stem, count in Counter(stems).items() if count > 1]
    if twice:
        raise ValueError(f"two desks would be settled into {out / twice[0]}: rename one, or settle them into different folders")
    return [Task(path, out / stem) for path, stem in zip(paths, stems)]


def settle_one(path: str, out: str, manner: Manner) -> Summary:
    """A desk in a process of its own; whatever goes wrong is in the summary."""
    try:
        return folders.settle(Path(path), Path(out), manner)
    except Exception as error:  # of one desk among many: the others go on
        return Summary(path, faults=[f"{type(error).__name__}: {error}" if not str(error) else str(error)])


def settle_batch(names: list[str], given: tuple[dict[str, str], Manner]) -> list[Summary]:
    """As a worker of a cluster does it."""
    folders_of, manner = given
    return [settle_one(name, folders_of[name], manner) for name in names]


def ended(name: str, killed: clusters.Killed) -> Summary:
    return Summary(name, faults=[f"each worker that settled it ended, {killed} in a row"])


def by_processes(todo: Sequence[Task], manner: Manner, at_once: int) -> Iterator[Summary]:
    """The summaries in the order of the desks."""
    with ProcessPoolExecutor(at_once, mp_context=get_context("spawn")) as pool:  # a fork would copy the bar's thread half
        given = [pool.submit(settle_one, str(task.path), str(task.out), manner) for task in todo]
        for task, future in zip(todo, given):
            try:
                yield future.result()
            except BrokenProcessPool:
                yield Summary(str(task.path), faults=["a process ended while it settled this desk or another: --resume goes on"])


def by_cluster(todo: Sequence[Task], manner: Manner, cluster: clusters.Cluster) -> Iterator[Summary]:
    names = [str(task.path.resolve()) for task in todo]
    cluster.work, cluster.ended, cluster.batch = settle_batch, ended, 1
    yield from cluster.rows(names, (dict(zip(names, (str(task.out.resolve()) for task in todo))), manner))


def left_to_do(all_of_them: Sequence[Task], manner: Manner, is_resumed: bool) -> dict[int, Optional[Summary]]:
    """By a desk's place: the summary of an earlier run, None where it must be settled."""
    return {at: folders.finished(task.path, task.out, manner) if is_resumed else None for at, task in enumerate(all_of_them)}


def table(tasks: Sequence[Task], summaries: Sequence[Summary]) -> str:
    """desks.csv."""
    lines = []
    for task, each in zip(tasks, summaries):
        figures = ["", "", "", ""] if each.faults else list(map(str, (each.quanta, each.met, each.quanta - each.met, each.fee)))
        lines.append(csv_line([str(task.path), each.status, each.maker, each.month, *figures, str(len(each.reasons) or len(each.faults))]))
    return csv_line(COLUMNS) + "".join(lines)
