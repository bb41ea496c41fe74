"""Many messages at once: what the library found in a piece of a log becomes moves, and the moves timelines, by numpy.

Whatever is out of the ordinary in a message (a value that is not there, is there twice or cannot be read, a report that must be reported)
is left to the reader's own way, one message at a time, so both ways give the same by what is written once. Here only messages are read
of which every value is as it should be.
"""

from collections import Counter
from decimal import Decimal
from functools import cached_property
from typing import TYPE_CHECKING, Any, BinaryIO, Optional

import numpy as np

from quoting.exchange import fields as f
from quoting.exchange.book import Book, Settled, reason_of
from quoting.exchange.changes import joined, sort_in
from quoting.exchange.columns import Steps, windows
from quoting.exchange.following import Following
from quoting.exchange.keys import Names
from quoting.exchange.messages import Lines, found_at
from quoting.exchange.moves import MOVE, Moves, long_texts, moves_of
from quoting.exchange.reasons import Reasons
from quoting.exchange.rows import COLUMNS, PIECE, SLACK, Scan, Table, is_available
from quoting.exchange.timelines import Timeline
from quoting.scanning import Window

if TYPE_CHECKING:
    from quoting.exchange.reader import LogReader

__all__ = ["Bulk", "is_bulk_available", "moves_of"]

Array = Any
REPORT, REJECT, D, F, G = b"8"[0], b"9"[0], b"D"[0], b"F"[0], b"G"[0]
BAR, NEWER = b"|"[0], b"FIXT."
HOUR = 3_600_000
UNKNOWN, OTHER = -2, -1  # an owner that was not met yet; one whose messages are not read
is_bulk_available = is_available


def table_of(pairs: dict[bytes, int]) -> Array:
    """A table by a byte's value; 0 where none is given."""
    made = np.zeros(256, dtype=np.uint8)
    for given, what in pairs.items():
        made[list(given)] = what
    return made


NO_CHANGE = 254
WHATS = table_of({b"0": f.NEW, b"5": f.AMEND, b"D": f.RESTATE, b"4C3": f.REMOVE, b"F12": f.DEAL, b"8A6EI": NO_CHANGE})
ASKS = table_of({b"D": f.ASK, b"F": f.ASK_CANCEL, b"G": f.ASK_REPLACE})


class Given:
    """Bytes of a log in the memory that is scanned, with zeros after them. As `data` they are made where they are asked for."""

    def __init__(self, store: bytearray, whole: Array, size: int) -> None:
        self.store, self.size, self.is_changed = store, size, False
        self.buffer = whole[: size + SLACK]
        self.buffer[size:] = 0

    @cached_property
    def data(self) -> bytes:
        return bytes(memoryview(self.store)[: self.size])

    def put_bars(self) -> None:
        """Puts byte 1 for each |, which separates the fields, while they are scanned. `data` has the bytes as they were."""
        self.is_changed = BAR in self.data
        part = self.buffer[: self.size]
        part[part == BAR] = 1

    def restore(self) -> None:
        """Puts the bytes back as they were."""
        if self.is_changed:
            self.store[: self.size] = self.data

    def has(self, text: bytes) -> bool:
        return self.store.find(text, 0, self.size) >= 0

    def starts(self, text: bytes) -> bool:
        return self.size > 0 and self.store.startswith(text)


class Piece:
    """Some bytes of a log with what the library found in them, up to where it stopped."""

    def __init__(self, given: "Given", rows: Array, stop: int, lines: Lines, first: int, flags: Array) -> None:
        self.given, self.buffer, self.rows, self.stop, self.first = given, given.buffer, rows, stop, first
        self.seen, buffer = windows(given.buffer), given.buffer
        self.line = lines.line
        self.is_odd = given.has(b"\r") or (lines.is_after_cr and given.starts(b"\n"))  # LF alone does not say where lines end
        ends = np.equal(buffer[:stop], 10, out=flags[:stop])
        self.ends: Optional[Array] = self.odd_ends(lines) if self.is_odd else None
        self.count = int(np.count_nonzero(ends)) if self.ends is None else self.ends.size
        if self.ends is None and not self.is_even():
            self.ends = np.flatnonzero(ends)

    def odd_ends(self, lines: Lines) -> Array:
        """Where the lines end, by LF, CR LF or CR."""
        part = self.buffer[: self.stop]
        ends, is_cr = part == 10, part == 13
        ends[1:] &= ~is_cr[:-1]
        ends |= is_cr
        if lines.is_after_cr and self.given.starts(b"\n") and self.stop:
            ends[0] = False
        return np.flatnonzero(ends)

    def is_even(self) -> bool:
        """Whether each message is on a line of its own, the first one on the first: an LF follows each, and no others are before the last."""
        rows, buffer = self.rows, self.buffer
        if not len(rows):
            return False
        after = np.count_nonzero(buffer[rows[-1, 0] : self.stop] == 10)
        return self.count - after == len(rows) - 1 and bool((buffer[rows[:-1, 0] + rows[:-1, 1]] == 10).all())

    @cached_property
    def window(self) -> Window:
        return Window(self.given.data, True)

    def lines(self, rows: Array) -> Array:
        """The lines on which messages start."""
        return self.line + (rows if self.ends is None else np.searchsorted(self.ends, self.rows[rows, 0]))


class Bulk:
    """The reader's fast way."""

    def __init__(self, reader: "LogReader") -> None:
        self.reader, self.scan, self.steps = reader, Scan(), Steps()
        self.symbols, self.accounts = Names(), Names()
        self.store = bytearray(PIECE + SLACK)
        self.buffer = np.frombuffer(self.store, dtype=np.uint8)
        self.flags = np.zeros(PIECE, dtype=bool)  # one for each byte, lent to a piece
        self.has_bars = False  # | separated the fields of the last messages
        self.following = Following(1, {}, frozenset())  # the orders, once all is read
        self.owners = np.zeros((0, 0), dtype=np.int64)  # by the numbers of symbol and account

    # ------------------------------------------------------------ bytes

    def take(self, data: bytes, is_final: bool) -> int:
        """Reads as far as the bytes decide, and returns how many of them were read."""
        at = 0
        while True:
            is_last = at + PIECE >= len(data)
            part = data[at : at + PIECE]
            self.store[: len(part)] = part
            read, is_full = self.piece(len(part), is_final and is_last)
            at += read
            if is_last and not is_full:
                return at

    def read(self, file: BinaryIO, size: int) -> None:
        """Reads a whole file, so many bytes at once, straight into the memory that is scanned."""
        kept, is_final, view = 0, False, memoryview(self.store)
        while not is_final:
            count = file.readinto(view[kept : min(kept + size, PIECE)])  # type: ignore[attr-defined]
            kept, is_full, is_final = kept + count, True, not count
            while is_full:
                read, is_full = self.piece(kept, is_final)
                kept -= read
                view[:kept] = bytes(view[read : read + kept])

    def piece(self, size: int, is_final: bool) -> tuple[int, bool]:
        """Reads the messages of the first bytes that are stored; how many bytes they are, and whether there is more to read in these."""
        reader = self.reader
        given = Given(self.store, self.buffer, size)
        if given.has(b"\0") or given.has(NEWER):
            return reader.take(given.data, is_final), False
        rows, stop, is_full = self.scanned(given)
        piece = Piece(given, rows, stop, reader.lines, reader.counts.messages + 1, self.flags)
        broken = np.flatnonzero(rows[:, 2])
        found = [found_at(piece.window, at) for at in rows[broken, 0].tolist()]
        if any(each is None or each.fields for each in found):  # a last separator is absent, or the separators differ
            return reader.take(given.data, is_final), False
        for row, line, each in zip(broken.tolist(), piece.lines(broken).tolist(), found):
            reader.line, reader.seq = line, piece.first + row
            reader.damaged(each.why if each is not None else "")
        self.note_hours(piece)
        self.messages(piece)
        reader.counts.messages += len(rows)
        reader.lines.line += piece.count
        reader.lines.is_after_cr = self.store[stop - 1 : stop] == b"\r" if stop else reader.lines.is_after_cr
        if is_final and not is_full:
            stop += reader.take(given.data[stop:], True)
        return stop, is_full

    def scanned(self, given: "Given") -> tuple[Array, int, bool]:
        """The rows, with byte 1 for | where that separates the fields; where the scan stopped; and whether there is more to scan."""
        for _ in range(2):
            if self.has_bars:
                given.put_bars()
            rows, stop, is_full = self.scan.rows(given.buffer, 0, given.size)
            given.restore()
            broken = rows[rows[:, 2] != 0, 0].astype(np.int64)
            if self.has_bars or not broken.size or not (given.buffer[broken + 9] == BAR).any():
                break
            self.has_bars = True
        return rows, stop, is_full

    def note_hours(self, piece: Piece) -> None:
        """The hours in which the messages were sent."""
        rows, column = piece.rows, COLUMNS[f.SENT]
        dated = rows[:, column + 1] - np.uint32(f.SHORTEST_TIME) <= f.LONGEST - f.SHORTEST_TIME
        at = rows[:, 0] + rows[:, column]
        at = at if dated.all() else at[dated]
        if at.size:
            day, hour = piece.seen[at], piece.seen[at + 3]  # YYYYMMDD and YMMDD-HH
            new = np.flatnonzero(np.append(True, (day[1:] != day[:-1]) | (hour[1:] != hour[:-1])))
            found = (f.hour_of(piece.buffer[place : place + f.HOUR_BYTES].tobytes()) for place in at[new].tolist())
            self.reader.hours.update(hour for hour in found if hour is not None)

    def one(self, piece: Piece, rows: Array) -> None:
        """Reads some messages one at a time."""
        reader = self.reader
        for row, line in zip(rows.tolist(), piece.lines(rows).tolist()):
            reader.line, reader.seq = line, piece.first + row
            found = found_at(piece.window, int(piece.rows[row, 0]))
            if found is not None and found.fields:
                reader.message(found.fields)

    # ------------------------------------------------------------ messages

    def messages(self, piece: Piece) -> None:
        """Counts the messages of other types, and reads reports and requests."""
        kinds, fine = piece.rows[:, 3].copy(), piece.rows[:, 2] == 0
        is_request = (kinds == D) | (kinds == F) | (kinds == G)
        is_ours = fine & (is_request | (kinds == REPORT))
        others = kinds[fine & ~is_ours]
        if others.size:
            self.rejects(piece, np.flatnonzero(fine & (kinds == REJECT)))
            for kind, count in zip(*(each.tolist() for each in np.unique(others[(others != REJECT) & (others != 0)], return_counts=True))):
                self.reader.counts.types[f.text_of(kind.to_bytes(4, "little").rstrip(b"\0"))] += count
            if not others.all():
                self.one(piece, np.flatnonzero(fine & (kinds == 0)))  # types of more than four bytes
        pick = np.flatnonzero(is_ours)
        if pick.size:
            self.ours(piece, pick, is_request[pick])

    def rejects(self, piece: Piece, rows: Array) -> None:
        """Rejected cancels and replaces: one at a time where it matters whose they are."""
        if rows.size and self.reader.takes_requests:
            self.one(piece, rows)
        else:
            self.reader.counts.cancel_rejects += rows.size

    def ours(self, piece: Piece, pick: Array, is_request: Array) -> None:
        """Reports, and requests where these count."""
        reader = self.reader
        asked = int(np.count_nonzero(is_request))
        reader.counts.reports += pick.size - asked
        reader.counts.requests += asked
        if asked < pick.size and reader.takes_reports:
            self.owned(piece, pick[~is_request], True)
        elif asked < pick.size:
            self.answers(piece, pick[~is_request])
        if asked and reader.takes_requests:
            self.owned(piece, pick[is_request], False)

    def answers(self, piece: Piece, pick: Array) -> None:
        """Counts reports that are not read, if they may be of ours."""
        table = Table(piece.buffer, piece.seen, piece.rows[pick])
        symbol, fine = table.names(55, self.symbols)
        account, also = table.names(1, self.accounts)
        fine = fine & also
        width = len(self.accounts.names)
        counts = np.bincount((symbol * width + account)[fine])
        for code in np.flatnonzero(counts).tolist():
            if self.reader.scope.may_be_ours(self.symbols.names[code // width], self.accounts.names[code % width]):
                self.reader.counts.unread += int(counts[code])
        if not fine.all():
            self.again(piece, pick[~fine])

    def owned(self, piece: Piece, pick: Array, is_report: bool) -> None:
        """The messages of one source: those of the symbols and accounts that are read."""
        reader, table = self.reader, Table(piece.buffer, piece.seen, piece.rows[pick])
        symbol, fine = table.names(55, self.symbols)
        account, also = table.names(1, self.accounts)
        fine = fine & also
        owner = self.owner_of(symbol, account, fine, reader.reports if is_report else reader.requests)
        is_read = fine & (owner >= 0)
        if not fine.all():
            self.again(piece, pick[~fine])
        if not is_read.all():
            table, pick, owner = table[is_read], pick[is_read], owner[is_read]
        if pick.size and is_report:
            reader.note_report()
            self.reports(piece, table, pick, owner)
        elif pick.size:
            self.requests(piece, table, pick, owner)

    def owner_of(self, symbol: Array, account: Array, fine: Array, book: Book) -> Array:
        """The numbers of the owners; messages of others are counted."""
        scope, shape = self.reader.scope, (len(self.symbols.names), len(self.accounts.names))
        if self.owners.shape != shape:
            grown = np.full(shape, UNKNOWN, dtype=np.int64)
            grown[: self.owners.shape[0], : self.owners.shape[1]] = self.owners
            self.owners = grown
        owner = self.owners[symbol, account]
        while (owner[fine] == UNKNOWN).any():
            at = np.flatnonzero(fine & (owner == UNKNOWN))[0]
            pair = symbol[at], account[at]
            self.owners[pair] = scope.owner(self.symbols.names[pair[0]], self.accounts.names[pair[1]])
            owner = self.owners[symbol, account]
        codes = (symbol * shape[1] + account)[fine & (owner == OTHER)]
        if codes.size:
            counts = np.bincount(codes)
            for code in np.flatnonzero(counts).tolist():
                names = self.symbols.names[code // shape[1]], self.accounts.names[code % shape[1]]
                book.others[f.text_of(names[0]), f.text_of(names[1])] += int(counts[code])
        self.steps.learn([scope.step(name) or Decimal(1) for name, _ in scope.owners])
        return owner

    # ------------------------------------------------------------ reports and requests

    def reports(self, piece: Piece, table: Table, pick: Array, owner: Array) -> None:
        kind, fine = table.byte(150)
        what = np.where(fine, WHATS[kind], 0)
        self.reader.counts.rejects += int(np.count_nonzero(kind == b"8"[0]))
        keep = (what != 0) & (what != NO_CHANGE)
        if not keep.all():
            self.again(piece, pick[what == 0])
            table, pick, owner, what = table[keep], pick[keep], owner[keep], what[keep]
        if pick.size:
            self.moved(self.reader.reports, piece, table, pick, owner, what, self.report_terms)

    def again(self, piece: Piece, rows: Array) -> None:
        """Reads messages one at a time that are counted already."""
        counts = self.reader.counts
        before = counts.reports, counts.requests, counts.rejects
        self.one(piece, rows)
        counts.reports, counts.requests, counts.rejects = before

    def requests(self, piece: Piece, table: Table, pick: Array, owner: Array) -> None:
        self.moved(self.reader.requests, piece, table, pick, owner, ASKS[table.rows[:, 3]], self.request_terms)

    def moved(self, book: Book, piece: Piece, table: Table, pick: Array, owner: Array, what: Array, terms: Any) -> None:
        """The moves of some rows. Those that are not read here are read one at a time."""
        moves = np.zeros(pick.size, dtype=MOVE)
        time, good = table.times()
        moves["time"], good = time, good & terms(moves, table, owner, what)
        nameless = self.reader.scope.nameless()
        if nameless:
            good &= ~(np.isin(owner, nameless) & np.isin(what, (f.NEW, f.ASK)))
        moves["owner"], moves["seq"], moves["file"] = owner, piece.first + pick, len(self.reader.files) - 1
        moves["line"] = piece.lines(pick)
        if not good.all():
            self.again(piece, pick[~good])
            moves, time = moves[good], time[good]
        if moves.size:
            book.parts.append(moves)
            ends = int(time.min()) // HOUR, int(time.max()) // HOUR
            self.reader.hours.update(ends if ends[1] - ends[0] < 2 else np.unique(time // HOUR).tolist())

    def report_terms(self, moves: Array, table: Table, owner: Array, what: Array) -> Array:
        """Ids and terms of reports, and which could be read."""
        sets, is_new, is_deal = what <= f.RESTATE, what == f.NEW, what == f.DEAL
        oid, there, good = table.keys(37)
        execution, also, fine = table.keys(17, 2)
        good &= there & also & fine & table.is_short(37) & self.ids(moves, table, sets & (what != f.RESTATE), None)
        rests, never, fine = self.rests(table, sets)
        wants = sets & rests
        side, sided = self.side(table)
        left, counted = table.volume(151)
        price, priced = table.prices(self.steps, owner)
        volume, good = np.where(wants, left, 0), good & fine & (sided | ~(wants & is_new)) & ((counted & priced) | ~wants)
        deals = np.flatnonzero(is_deal)
        if deals.size:
            dealt, filled = table[deals].volume(32)
            volume[deals] = dealt
            good[deals] &= filled & (dealt > 0)
        moves["oid"], moves["execution"] = oid.T, execution.T
        moves["what"] = np.where(is_new & ~rests, f.UNRESTED, what)
        moves["side"] = np.where(wants & is_new, side, ~sets & ~never)
        moves["price"], moves["volume"] = np.where(wants & good, price, 0), volume * good
        return good

    def request_terms(self, moves: Array, table: Table, owner: Array, what: Array) -> Array:
        """Ids and terms of requests, and which could be read."""
        sets = what != f.ASK_CANCEL
        good = self.ids(moves, table, np.ones(what.size, dtype=bool), what != f.ASK)
        rests, _, fine = self.rests(table, sets)
        wants = sets & rests
        side, sided = self.side(table)
        volume, counted = table.volume(38)
        price, priced = table.prices(self.steps, owner)
        good &= fine & (sided | ~sets) & ((counted & priced) | ~wants)
        unrested = np.where(what == f.ASK, f.ASK_UNRESTED, f.ASK_REPLACE_UNRESTED)
        moves["what"] = np.where(sets & ~rests, unrested, what)
        moves["side"] = np.where(sets, side, 0)
        moves["price"], moves["volume"] = np.where(wants & good, price, 0), np.where(wants & good, volume, 0)
        return good

    def ids(self, moves: Array, table: Table, needs_cl: Array, needs_orig: Any) -> Array:
        """ClOrdID and OrigClOrdID, and whether they are there where they must be."""
        cl, there, good = table.keys(11)
        orig, also, fine = table.keys(41)
        moves["cl"], moves["orig"] = cl.T, orig.T
        good = good & fine & (there | ~needs_cl)
        good &= table.is_short(11) & table.is_short(41)
        return good if needs_orig is None else good & (also | ~needs_orig)

    def rests(self, table: Table, sets: Array) -> tuple[Array, Array, Array]:
        """Which orders rest, which are IOC or FOK, and whether that could be read."""
        order_type, fine = table.byte(40)
        is_market, is_limit = order_type == f.MARKET[0], (order_type == f.LIMIT[0]) | (order_type == 0)
        force, _ = table.byte(59)
        never = (force == b"3"[0]) | (force == b"4"[0])
        return is_limit & ~never, never, ((fine & (is_market | is_limit)) | ~sets) & table.span(59)[2]

    def side(self, table: Table) -> tuple[Array, Array]:
        side, _ = table.byte(54)
        return side - 48, (side == 49) | (side == 50)

    # ------------------------------------------------------------ the result

    def settle(self) -> Settled:
        """Puts the moves in order of time, follows the orders, and sorts the changes by owner."""
        reader, scope = self.reader, self.reader.scope
        moves = Moves(reader.book)
        reader.counts.duplicates, reader.counts.moves, reader.counts.fills = moves.duplicates, len(moves), moves.fills
        self.following = following = Following(max(len(scope.owners), 1), scope.fitting(), scope.foreign())
        changes: dict[int, list[Array]] = {}
        for block in moves.blocks():
            sort_in(changes, block, following)
        made = {}
        for owner in sorted(changes, key=scope.names):
            symbol, account = scope.names(owner)
            made[symbol, account] = Timeline(symbol, account, joined(changes.pop(owner)), reader.files, reader.by == "reports")
        others = Counter(scope.names(int(moves.row(at)["owner"])) for at in following.strangers)
        return Settled(made, self.reasons(moves, following), others)

    def reasons(self, moves: Moves, following: Following) -> Reasons:
        """What could not be applied."""
        reader, reasons = self.reader, Reasons()
        long = long_texts(reader.book.moves) if following.problems else {}
        for at, why in following.problems:
            move = moves.row(at)
            place = reader.files[int(move["file"])], int(move["line"]), int(move["time"])
            keys = (move[name].tobytes() for name in ("cl", "orig", "oid"))
            cl, orig, oid = (long.get(key) or key.rstrip(b"\0") for key in keys)
            reasons.add(reason_of(why, reader.scope.names(int(move["owner"])), *place, (cl, orig, oid), int(move["volume"])))
        return reasons
