"""The command, run in this process: its exit status, what it prints and its complaints."""

import io
import signal
import sys
from collections import namedtuple
from contextlib import redirect_stderr, redirect_stdout

from quoting import volatility
from quoting.cli import main

Done = namedtuple("Done", "status printed complaint")


class Printed(io.TextIOWrapper):
    """A standard stream that keeps what is written."""

    def __init__(self):
        super().__init__(io.BytesIO(), encoding="utf-8", newline="")

    def text(self):
        self.flush()
        return self.buffer.getvalue().decode("utf-8", "replace")


def run(*words, given=""):
    """`given` is standard input, a text or bytes."""
    data = given if isinstance(given, bytes) else given.encode()
    before, sys.stdin = sys.stdin, io.TextIOWrapper(io.BytesIO(data), encoding="utf-8", newline="")
    printed, complaint = Printed(), Printed()
    try:
        with redirect_stdout(printed), redirect_stderr(complaint):
            status = main([str(word) for word in words])
    except SystemExit as wrong_use:
        status = wrong_use.code
    finally:
        sys.stdin = before
    return Done(status, printed.text(), complaint.text())


def restore_sigint() -> None:
    """For a child, before it starts: tests that run in the background have SIGINT ignored, and so would their children."""
    signal.signal(signal.SIGINT, signal.SIG_DFL)


def prices(path):
    """The days of a file of prices."""
    return [(day.name, day.price) for day in volatility.read(path.read_text())]
