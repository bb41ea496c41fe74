"""The recount's reading beside the meter's, for --both. It is a part of the source tree, not of the package, and never replaces the meter."""

import importlib
import sys
from typing import Any

from quoting.answers import Cell, MonthReport
from quoting.native import ROOT, Missing
from quoting.values import Tenths


def recount(name: str) -> Any:
    """A module of the recount."""
    if not (ROOT / "recount" / "book.py").exists():
        raise Missing("the recount is in the source tree (recount/) and not in an installed package")
    if str(ROOT) not in sys.path:  # in front: the folder that the command is run in may have a recount of its own
        sys.path.insert(0, str(ROOT))
    return importlib.import_module(f"recount.{name}")


def session_lines(data: bytes) -> list[str]:
    """The recount's lines of a session, as the sheet has them."""
    run, programs = recount("session"), recount("programs")
    answer = run.run_bytes(data[: run.HEAD.size], data[run.HEAD.size :])
    if isinstance(answer, run.Stopped):
        return [programs.refused_at(answer)]
    pairs = [f"pair {offset} {length}" for offset, length in answer.pairs]
    return [f"kept {answer.kept} of {answer.length}", *pairs, f"verdict {programs.verdict_text(answer.met)}", f"weight {answer.weight}"]


def account_lines(data: bytes) -> list[str]:
    """The recount's lines of an account, as the program `account` prints them."""
    run, accounts, programs = recount("session"), recount("account"), recount("programs")
    *words, sp = run.HEAD.unpack(data[: run.HEAD.size])
    answer = accounts.run(words, sp, data[run.HEAD.size :])
    if isinstance(answer, run.Stopped):
        return [str(programs.refused_at(answer))]
    stretches = [f"from {offset} for {length} {accounts.STATES[state]}" for offset, length, state in answer.stretches]
    return [*stretches, *(f"total {state} {time}" for state, time in zip(accounts.STATES, answer.times))]


def answer_lines(data: bytes) -> list[str]:
    """The recount's answers to a list of calls, as `replay` prints them."""
    programs, book = recount("programs"), recount("book").Book()
    calls, _ = programs.read_calls(data)
    return [programs.answer_line(book.call(call)) for call in calls]


def cell_of(line: str) -> Cell:
    """The cell that a line of the recount's answers shows."""
    w = line.split()
    limit = None if w[10] == "none" else int(w[10])
    return Cell(int(w[2]), int(w[4]), Tenths(w[6]), int(w[8]), limit, int(w[12]), int(w[14]), w[16] == "met", int(w[18]))


def report_of(line: str) -> MonthReport:
    """The report that a line shows."""
    w = line.split()
    bid, ask = (None if word == "absent" else int(word) for word in (w[8], w[10]))
    return MonthReport(w[2] == "yes", int(w[4]), int(w[6]), bid, ask, int(w[12]), int(w[14]), tuple(map(int, w[16:22])), int(w[23]))


def agreement(ours: list[str], theirs: list[str]) -> str:
    """A line that says whether both readings are the same."""
    if ours == theirs:
        return "the proved meter and the recount agree\n"
    at = next((at for at, pair in enumerate(zip(ours, theirs)) if pair[0] != pair[1]), min(len(ours), len(theirs)))
    shown = [(lines[at] if at < len(lines) else "nothing") for lines in (ours, theirs)]
    return f"THE PROVED METER AND THE RECOUNT DIFFER at line {at + 1}: {shown[0]!r} and {shown[1]!r}\n"
