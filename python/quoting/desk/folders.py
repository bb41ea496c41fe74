"""A desk settled into a folder: its tables, lists of calls, pages, and a summary that shows a later run that it is done."""

import json
from dataclasses import asdict, dataclass, field, replace
from pathlib import Path
from typing import Any, Optional

from quoting import native, output
from quoting.desk import index, outputs, printing, statements
from quoting.desk.desks import Desk
from quoting.desk.faults import DeskError
from quoting.desk.outputs import SMALL, Manner, Result, Watcher
from quoting.settling import stamp_of

SUMMARY = "settled.json"


@dataclass(frozen=True)
class Summary:
    """What became of a desk: its figures, or its faults; `reasons` are why its status is 1."""

    desk: str
    maker: str = ""
    month: str = ""
    months: list[tuple[str, int, int, int, int]] = field(default_factory=list)  # instrument, quanta, met, largest failure count, fee
    second: str = ""  # what is said of the second reading
    reasons: list[str] = field(default_factory=list)
    notes: list[str] = field(default_factory=list)
    faults: list[str] = field(default_factory=list)

    @property
    def status(self) -> str:
        return "faults" if self.faults else "reasons" if self.reasons else "settled"

    @property
    def quanta(self) -> int:
        return sum(each[1] for each in self.months)

    @property
    def met(self) -> int:
        return sum(each[2] for each in self.months)

    @property
    def fee(self) -> int:
        return sum(each[4] for each in self.months)


def read_by(made: Result) -> str:
    """What is said of the second reading."""
    if not made.readings:
        return "the recount was not run: --recount runs it"
    return "THE READINGS DIFFER" if made.differences else "the proved meter and the recount agree on every call, cell and fee"


def summary_of(path: Path, made: Result) -> Summary:
    desk = made.settlement.desk
    months = [(each.instrument, len(each.cells), sum(cell.cell.met for cell in each.cells), each.failed, each.fee) for each in made.settlement.months]
    return Summary(str(path), desk.maker, desk.period, months, read_by(made), made.reasons, made.notes)


# ---------------------------------------------------------------- settling


def settle(path: Path, out: Path, manner: Manner = Manner(), watcher: Watcher = Watcher()) -> Summary:
    """Settles a desk into a folder. A desk with faults leaves the folder as it was."""
    try:
        desk = Desk.load(path)
    except DeskError as error:
        return Summary(str(path), faults=[fault.text for fault in error.faults])
    if manner.pdf:
        printing.browser()
    stamps = {each.name: stamp_of(str(each.path)) for each in desk.inputs}
    made = outputs.settle(desk, manner, watcher)
    outputs.write(out, outputs.tables_of(made))
    pages = write_pages(out, made, manner)
    summary = summary_of(path, made)
    if manner.pdf:
        for page in pages:
            printing.print_page(page)
    done = {"manner": asdict(manner), "library": native.version(), "inputs": stamps, "files": files_of(made, pages, manner), "summary": asdict(summary)}
    output.replace_file(out / SUMMARY, [json.dumps(done).encode() + b"\n"])
    return summary


def write_pages(out: Path, made: Result, manner: Manner) -> list[Path]:
    """The statements, the hashes of the input files and, last, the client's page."""
    wanted = manner.statements or (manner.statements is None and made.size <= SMALL)
    named = []
    for name, _, page in statements.pages(made) if wanted else ():
        outputs.write(out, {f"{name}.html": page.encode("utf-8", "backslashreplace")})
        named.append(name)
    hashes, client = index.hashes(made).encode("utf-8", "surrogateescape"), index.html(made, named).encode("utf-8", "backslashreplace")
    outputs.write(out, {"inputs.sha256": hashes, "index.html": client})
    return [out / f"{name}.html" for name in [*named, "index"]]


def files_of(made: Result, pages: list[Path], manner: Manner) -> list[str]:
    """The names of all files that were written."""
    printed = [page.with_suffix(".pdf").name for page in pages] if manner.pdf else []
    return sorted([*outputs.tables_of_names(made), "inputs.sha256", *(page.name for page in pages), *printed])


# ---------------------------------------------------------------- going on after a break


def finished(path: Path, out: Path, manner: Manner) -> Optional[Summary]:
    """The summary of a desk that an earlier run has settled into the folder, from the same files, in the same manner; None: settle it."""
    try:
        found: dict[str, Any] = json.loads((out / SUMMARY).read_bytes())
        is_same = found["manner"] == asdict(manner) and found["library"] == native.version()
        stamps = {name: stamp_of(str(path.parent / name)) for name in found["inputs"]}
        is_same &= stamps == {name: stamp and tuple(stamp) for name, stamp in found["inputs"].items()} and all((out / name).exists() for name in found["files"])
        is_same &= {each.name for each in Desk.load(path).inputs} == set(stamps)
        given: dict[str, Any] = found["summary"]
        made = replace(Summary(**given), months=[(name, quanta, met, failed, fee) for name, quanta, met, failed, fee in given["months"]])
    except (OSError, ValueError, KeyError, TypeError, DeskError):
        return None
    return replace(made, desk=str(path)) if is_same else None
