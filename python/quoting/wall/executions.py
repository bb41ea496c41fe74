"""The ExecIDs that were read, by owner, each with the place where it was read first: sorted arrays of some 36 bytes an ExecID.

>>> executions = Executions()
>>> executions.add(entries(np.array([[7, 0], [8, 0]], dtype=np.uint64), np.array([0, 0]), np.array([5, 6])))
>>> executions.known(entries(np.array([[8, 0], [8, 0]], dtype=np.uint64), np.array([0, 1]), np.array([9, 10]))).tolist()
[6, -1]
"""

from typing import Any, NamedTuple

import numpy as np

from quoting.exchange.keys import hashes

Array = Any
NEVER = -1
MOST = 1 << 18  # entries of an array that is merged with others: a merge takes some milliseconds


class Entries(NamedTuple):
    """ExecIDs with their owners and places, in order of their hashes where they are kept."""

    hashed: Array
    first: Array  # the key's two words
    second: Array
    owner: Array
    read: Array

    def of(self, which: Array) -> "Entries":
        return Entries._make(column[which] for column in self)


def entries(executions: Array, owner: Array, read: Array) -> Entries:
    """By the keys of the ExecIDs, a row each."""
    first, second, of = executions[:, 0], executions[:, 1], owner.astype(np.uint64)
    return Entries(hashes([first, second, of]), first.copy(), second.copy(), owner.astype(np.int32), read)


class Executions:
    """All that were read."""

    def __init__(self) -> None:
        self.runs: list[Entries] = []  # each sorted

    def known(self, asked: Entries) -> Array:
        """For each the place where it was read first, NEVER where it was not."""
        found = np.full(asked.read.size, NEVER, dtype=np.int64)
        for run in self.runs:
            look(run, asked, found)
        return found

    def add(self, fresh: Entries) -> None:
        """Entries that are not known yet."""
        if not fresh.read.size:
            return
        self.runs.append(fresh.of(np.argsort(fresh.hashed, kind="stable")))
        while len(self.runs) > 1 and self.runs[-2].read.size <= min(2 * self.runs[-1].read.size, MOST):
            newest, older = self.runs.pop(), self.runs.pop()
            both = Entries._make(np.concatenate(pair) for pair in zip(older, newest))
            self.runs.append(both.of(np.argsort(both.hashed, kind="stable")))

    def drop(self, owners: list[int]) -> None:
        """Forgets what was read of some owners."""
        self.runs = [run.of(~np.isin(run.owner, owners)) for run in self.runs]


def look(run: Entries, asked: Entries, found: Array) -> None:
    """Puts in the places of those that a run has. Several may have one hash: then the next one is looked at."""
    at: Array = np.searchsorted(run.hashed, asked.hashed)
    left = np.flatnonzero(at < run.hashed.size)
    while left.size:
        here = at[left]
        is_near = run.hashed[here] == asked.hashed[left]
        left, here = left[is_near], here[is_near]
        is_same = (run.first[here] == asked.first[left]) & (run.second[here] == asked.second[left]) & (run.owner[here] == asked.owner[left])
        found[left[is_same]] = run.read[here[is_same]]
        left = left[~is_same]
        at[left] += 1
        left = left[at[left] < run.hashed.size]
