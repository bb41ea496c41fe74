"""The list of opens and closes that goes with a log, as it grows or is saved again."""

import os
from dataclasses import dataclass
from itertools import chain
from typing import Iterator, Optional, Union

from quoting import reading
from quoting.month_sources import Sent
from quoting.reading import Options
from quoting.watch.feeds import FROM_START, Changed, Growing, Item, Lines, ListLines, Trouble, Turn, of_lines
from quoting.watch.names import name_text

SHORT_LIST = 65_536  # bytes of a list that is read again when it has changed
OTHER_CALL = f"the list was saved again, and this is not the call that was read here; {FROM_START}"
FEWER_CALLS = f"the list was saved again with fewer calls than were read; {FROM_START}"
BYTES = "messages are put into a text, which says when each quantum starts, and these are bytes"


@dataclass(frozen=True)
class Call:
    """A call of the list, with the symbol of the `start` before it."""

    sent: Sent
    symbol: Optional[bytes]

    def same(self, other: "Call") -> bool:
        return (self.sent.block, self.sent.start, self.symbol) == (other.sent.block, other.sent.start, other.symbol)


class ListFile:
    """The list of opens and closes. Whoever adds a close may save it from an editor, as another file or in place, with lines inserted
    above: so it is read from its start whenever it has changed, and the calls that were read before are skipped. Where one of them is
    another call now, or is no longer there, the list has `Changed`."""

    def __init__(self, name: str, options: Options, follow: bool) -> None:
        self.name, self.options = name_text(name), options
        self.growing = Growing(name, follow)
        if self.growing.regular and b"\0" in os.pread(self.growing.descriptor, 4, 0):
            raise reading.failed(BYTES, name)
        self.calls: list[Call] = []
        self.idle = False  # it was read as far as it went
        self.begin()

    def begin(self) -> None:
        """At the beginning of the file."""
        self.lines, self.text = Lines(), ListLines(self.options)
        self.at = 0  # calls of this file so far

    def start_over(self) -> None:
        """All calls are read again; those that came through a pipe are known."""
        if self.growing.regular:
            self.growing.again()
            self.begin()
            self.calls = []

    def read(self) -> Optional[Iterator[Union[Call, Trouble]]]:
        """The next calls; None where there is nothing now."""
        piece = self.growing.read()
        changed, self.idle = self.idle and piece is not None, piece is None
        if piece is None:
            is_shorter = self.growing.regular and not self.growing.missed and self.at < len(self.calls)
            return iter([Changed(self.name, FEWER_CALLS)]) if is_shorter else None
        if isinstance(piece, Turn):
            return self.turned(piece)
        if changed and self.growing.regular and self.growing.place < SHORT_LIST:
            self.growing.again()
            self.begin()
            return iter(())
        return self.taken(of_lines(self.text, self.lines.take(piece)))

    def taken(self, items: Iterator[Item]) -> Iterator[Union[Call, Trouble]]:
        for item in items:
            known = self.at < len(self.calls)
            if isinstance(item, Trouble):
                yield from () if known else [Trouble(f"{self.name}: {item.place}", item.text)]
                continue
            call = Call(item, self.text.symbol)
            self.at += 1
            if not known:
                self.calls.append(call)
                yield call
            elif not call.same(self.calls[self.at - 1]):
                yield Changed(f"{self.name}: {item.place}", OTHER_CALL)
                return

    def turned(self, turn: Turn) -> Iterator[Union[Call, Trouble]]:
        if turn.fresh:
            self.begin()
        elif turn.kind == "gone":
            yield Trouble(self.name, turn.text)
        elif turn.final:
            yield from self.taken(chain(of_lines(self.text, self.lines.turn(turn)), self.text.end()))
