"""Programs of target/bin, run on bytes."""

import struct
import subprocess
from pathlib import Path

from tests.paths import BIN

LONGEST_RUN = 60  # seconds


def words(*numbers: int) -> bytes:
    """Words of 32 bits, little-endian; a negative number in two's complement."""
    return struct.pack(f"<{len(numbers)}I", *(number % 2**32 for number in numbers))


def run_program(program: Path | str, data: bytes) -> str:
    """What a program prints; a run that does not end well has a last line in brackets. A name is one of target/bin."""
    path = BIN / program if isinstance(program, str) else program
    try:
        done = subprocess.run([path], input=data, capture_output=True, timeout=LONGEST_RUN)
    except subprocess.TimeoutExpired as stopped:
        text, end = stopped.stdout or b"", f"(no end within {LONGEST_RUN} s)\n"
    else:
        text, end = done.stdout, ""
        if done.returncode:
            end = f"(exit status {done.returncode})\n"
    return text.decode(errors="replace") + end


def first_difference(one: str, other: str) -> str:
    """The first line in which two texts differ, for a message."""
    pairs = zip([*one.splitlines(), "(nothing)"], [*other.splitlines(), "(nothing)"])
    found = next(((at, *pair) for at, pair in enumerate(pairs, start=1) if pair[0] != pair[1]), None)
    return "they are the same" if found is None else f"line {found[0]}: {found[1]!r} and {found[2]!r}"
