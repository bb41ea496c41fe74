"""`replay` on pipes: what it answers as its input comes, piece by piece, against the recount.

A call at a time, each answer read before the next call is written; input in pieces of one byte and of
any length; a short list cut at every byte; blocks that are no call and blocks that are longer than the
buffer, answered while the input is still open; lists and blocks as long as the limits and longer.
"""

import os
import random
import select
import subprocess
import sys

import pytest

from recount import programs
from tests import calls_text, known, months
from tests.paths import BIN
from tests.running import first_difference, words

pytestmark = pytest.mark.usefixtures("programs")

REPLAY = BIN / "replay"
LONGEST_WAIT = 60  # seconds for an answer
MANY_CALLS = 100_000


class Stream:
    """A `replay` whose input stays open: what is written to it, and what it has answered."""

    def __init__(self) -> None:
        self.child = subprocess.Popen([REPLAY], stdin=subprocess.PIPE, stdout=subprocess.PIPE, bufsize=0)
        self.came = b""

    def write(self, data: bytes) -> None:
        self.child.stdin.write(data)

    def read_to(self, length: int) -> bytes:
        """The answers, when there are so many bytes of them or no more come."""
        while len(self.came) < length:
            ready, _, _ = select.select([self.child.stdout], [], [], LONGEST_WAIT)
            if not ready:
                raise AssertionError(f"no answer within {LONGEST_WAIT} s, after {self.came[-200:]!r}")
            piece = os.read(self.child.stdout.fileno(), 65_536)
            if not piece:
                break
            self.came += piece
        return self.came

    def is_silent(self) -> bool:
        """Whether nothing more has come."""
        return not select.select([self.child.stdout], [], [], 0.05)[0]

    def end(self) -> bytes:
        """All answers, with the input closed."""
        self.child.stdin.close()
        self.read_to(sys.maxsize)
        self.child.stdout.close()
        assert self.child.wait(LONGEST_WAIT) == 0, "replay ended with another status than 0"
        return self.came


def same(actual: bytes, expected: str, what: str) -> None:
    if actual != expected.encode():
        pytest.fail(f"{what}: replay and recount: {first_difference(actual.decode(), expected)}")


def in_pieces(data: bytes, sizes: list[int], what: str) -> None:
    """The answers are those of the whole, whatever the pieces."""
    stream, at = Stream(), 0
    for size in sizes:
        stream.write(data[at : at + size])
        at += size
    stream.write(data[at:])
    same(stream.end(), programs.replay(data), what)


def at_once(data: bytes, last: str, what: str) -> None:
    """The last line comes when the first of these words are there, with the input still open, and not before."""
    stream = Stream()
    stream.write(words(12) + data[:-1])
    first = programs.replay(words(12))
    same(stream.read_to(len(first)), first, what)
    assert stream.is_silent(), f"{what}: answered before its last byte"
    stream.write(data[-1:])
    expected = f"{first}{last}\n"
    same(stream.read_to(len(expected)), expected, what)
    same(stream.end(), expected, what)


# ---------------------------------------------------------------- pieces


def test_call_by_call() -> None:
    """Each call's answer is read before the next call is written."""
    stream, so_far = Stream(), b""
    for call in known.paper_calls():
        block = calls_text.calls_bytes([call])
        so_far += block
        stream.write(block)
        expected = programs.replay(so_far)
        same(stream.read_to(len(expected)), expected, f"after {call}")
    same(stream.end(), programs.replay(so_far), "at the end of the input")


def test_pieces_of_one_byte() -> None:
    data = calls_text.calls_bytes(known.paper_calls())
    in_pieces(data, [1] * len(data), "pieces of one byte")


def test_pieces_of_any_length() -> None:
    rng = random.Random("streams")
    for _ in range(40):
        name, calls = months.any_calls(rng)
        data = calls_text.calls_bytes(calls)
        sizes = [rng.choice([1, 2, 3, 5, 7, 64, 1_000]) for _ in range(rng.randrange(200))]
        in_pieces(data, sizes, name)


def test_cut_everywhere() -> None:
    """A list cut at every byte, by one write and with its last word in pieces of one byte."""
    data = calls_text.calls_bytes(known.ask_calls()[:8])
    for length in range(len(data) + 1):
        cut, front = data[:length], max(length - 4, 0)
        in_pieces(cut, [], f"cut at byte {length}")
        in_pieces(cut, [front, 1, 1, 1, 1], f"cut at byte {length}, in pieces")


# ---------------------------------------------------------------- limits

MOST, TOP = programs.REPLAY_BLOCK, 2**32 - 1


@pytest.mark.parametrize("kind", [0, 99, TOP])
def test_no_kind(kind: int) -> None:
    at_once(words(kind), "stopped at word 2", f"kind {kind}")


@pytest.mark.parametrize("side", [0, 3, TOP])
def test_no_side(side: int) -> None:
    at_once(words(2, 0, 1, side), "stopped at word 2", f"side {side}")


@pytest.mark.parametrize(("kind", "count"), [(1, MOST - 4), (1, TOP), (13, MOST - 7), (13, TOP)])
def test_too_many_row_words(kind: int, count: int) -> None:
    """Of an open, and of a strike's open."""
    at_once(words(kind, count), "too long", f"{count} row words in a call of kind {kind}")


@pytest.mark.parametrize(("start", "length"), [(0, 4 * (MOST - 3) + 1), (4 * (MOST - 3), 1), (TOP, TOP), (TOP, 0), (0, TOP)])
def test_too_long_message(start: int, length: int) -> None:
    at_once(words(16, start, length), "too long", f"a message of {start} and {length} bytes")


@pytest.mark.parametrize("block", [
    words(1, MOST - 5, *range(MOST - 2)),
    words(13, MOST - 8, *range(MOST - 2)),
    words(16, 8, 4 * (MOST - 3) - 8) + bytes(4 * (MOST - 3)),
], ids=["open", "strike", "message"])
def test_longest_block(block: bytes) -> None:
    """As long as the buffer, after another call and before one; and cut short."""
    report = words(12)
    in_pieces(report + block + report, [], "the longest block")
    in_pieces(report + block[:-1], [4, 5, 4_000], "the longest block, cut short")


def quantum(k: int) -> bytes:
    """Twenty calls: a quantum with two orders, one amended; a report, which shows k; and its drop."""
    row = [1, 0, 86_400_000, 500, 100, 1, 600]
    orders = words(2, 0, 1, 1, 1_000, 500) + words(2, 0, 2, 2, 1_100, 500)
    amendments = b"".join(words(3, t, 1, 1_000 + (k + t) % 90, 500 + t) for t in range(15))
    return words(1, 7, *row, 1, 2_000, 65_535) + orders + amendments + words(12, 8)


def test_many_calls() -> None:
    data = b"".join(quantum(k) for k in range(MANY_CALLS // 20))
    done = subprocess.run([REPLAY], input=data, capture_output=True, check=True)
    same(done.stdout, programs.replay(data), f"{MANY_CALLS} calls")
