"""What the tests of `quoting watch` share: the example, calls that open a quantum and quote, and a page without a browser."""

import websockets

from quoting import inputs
from tests import browser
from tests.paths import EXAMPLES

EXAMPLE = EXAMPLES / "watch.calls"
OPEN = "open row 1 1 8:45:00 1000 150 3 60% day 3 sp 8452 lapses 2\n"
QUOTES = "add 0:00:01 1 buy 8446 1000\nadd 0:00:01 2 sell 8458 1000\n"


def blocks_of(text):
    return [placed.block for placed in inputs.calls_of("text", text.encode()).blocks]


def number(text):
    return int(text.replace(",", ""))


def origin(served):
    return f"http://127.0.0.1:{served.port}"


def connect(served, **more):
    patient = {"open_timeout": browser.PATIENCE, "ping_interval": None, "max_size": None}
    return websockets.connect(f"ws://127.0.0.1:{served.port}/live", **{"origin": origin(served), **patient, **more})
