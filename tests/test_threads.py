"""Two threads and more on one month, and on one standing: every answer is whole, and the interpreter lives."""

import subprocess
import sys

import pytest

from tests.conftest import Note
from tests.paths import ROOT

pytestmark = pytest.mark.usefixtures("library")

# In a process of their own, since a crash would end the tests. The feeder amends one order to a price and a volume that belong together,
# and adds and cancels others; readers look for a price beside another's volume, and for answers of another call.
MONTH = """
import sys, threading, time
from quoting import Month, Refused, Row
month = Month()
month.open(Row(1, 1, "8:45:00", 10, 150, 3, "60%"), day=1, sp=8452)
month.add(0, 1, "buy", 8_000, 1_000)
month.add(0, 2, "sell", 9_000, 1_000)
end, counts, wrong = time.monotonic() + float(sys.argv[1]), {}, []

def repeat(work):
    made = 0
    try:
        while time.monotonic() < end:
            made += work(made)
    except BaseException as error:
        wrong.append(f"{work.__name__}: {error!r}")
    counts[work.__name__] = made

def feed(at):
    more = 899 * (at // 3 % 2)  # within the spread's limit, and past it
    month.amend(at % 31_000_000, 1, 8_100 + more, 1_100 + more)
    month.add(at % 31_000_000, 100 + at % 50, "sell", 9_001, 5)
    month.cancel(at % 31_000_000, 100 + at % 50)
    return 3

def read_view(at):
    view = month.view()
    own = view.orders[0]
    assert own.id == 1 and own.price - own.volume == 7_000, view
    assert len(view.orders) in (2, 3) and view.orders[1].price == 9_000, view
    return 1

def read_report(at):
    report = month.report()
    assert report.is_open and report.ask == 9_000 and report.bid in (8_000, 8_100, 8_999), report
    return 1

def read_glance(at):
    glance = month.glance()
    assert glance.ask == 9_000 and glance.state == (0 if 9_000 - glance.bid <= 12 else 5), glance
    return 1

def read_copy(at):
    other = month.copy()
    assert Month.from_words(other.words()) == other and other.report().orders in (2, 3)
    return 1

def refused(at):
    try:
        month.cancel(0, 77)
    except Refused as refusal:
        assert refusal.number in (8, 11), refusal
    return 1

threads = [threading.Thread(target=repeat, args=[work]) for work in (feed, read_view, read_report, read_glance, read_copy, refused)]
sys.setswitchinterval(1e-5)
for thread in threads: thread.start()
for thread in threads: thread.join()
print(wrong or sum(counts.values()), min(counts.values()) > 0)
"""

STANDING = """
import sys, threading
from quoting import Standing
standing = Standing(4_000)
def join(first):
    for maker in range(first, 4_000, 4):
        standing.join(maker, maker % 7)
threads = [threading.Thread(target=join, args=[first]) for first in range(4)]
sys.setswitchinterval(1e-5)
for thread in threads: thread.start()
for thread in threads: thread.join()
print(standing.places == sorted(((maker, maker % 7) for maker in range(4_000)), key=lambda place: (-place[1], place[0])))
"""


def run(program: str, *words: str) -> str:
    done = subprocess.run([sys.executable, "-X", "faulthandler", "-c", program, *words], cwd=ROOT / "python", capture_output=True, text=True)
    assert done.returncode == 0, f"the interpreter ended with {done.returncode}: {done.stderr}"
    return done.stdout.strip()


def test_a_feeder_and_readers_on_one_month(note: Note) -> None:
    found = run(MONTH, "2")
    count, _, all_called = found.rpartition(" ")
    assert count.isdigit() and all_called == "True", found
    note(f"threads: {count} calls on one month in 2 s")


def test_joins_on_one_standing() -> None:
    assert run(STANDING) == "True"
