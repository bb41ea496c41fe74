"""A program or an address that gets each alarm as JSON: one at a time, with a time limit, without a shell. What fails is said on the wall."""

import json
import os
import shlex
import shutil
import subprocess
import threading
import time
import urllib.error
import urllib.request
from queue import SimpleQueue
from typing import Any, Optional

from quoting.wall.alarms import Alarm

LIMIT = 3.0  # seconds for one call
MOST_WAITING = 200
SCHEMES = ("http://", "https://")


class NoRedirect(urllib.request.HTTPRedirectHandler):
    """An alarm goes to the address that was named, and to no other."""

    def redirect_request(self, *given: Any) -> None:
        return None


def post(url: str, data: bytes) -> None:
    request = urllib.request.Request(url, data, {"Content-Type": "application/json"}, method="POST")
    opener = urllib.request.build_opener(NoRedirect, urllib.request.ProxyHandler({}))
    with opener.open(request, timeout=LIMIT) as answer:
        answer.read(1_024)


def run(words: list[str], data: bytes) -> None:
    """In a session of its own, which ends with it."""
    made = subprocess.Popen(words, stdin=subprocess.PIPE, stdout=subprocess.DEVNULL, stderr=subprocess.DEVNULL, start_new_session=True)
    try:
        made.communicate(data, LIMIT)
    except subprocess.TimeoutExpired:
        os.killpg(made.pid, 9)
        made.wait()
        raise
    if made.returncode:
        raise OSError(f"status {made.returncode}")


class Hook:
    """Calls what was named for each alarm, in a thread of its own."""

    def __init__(self, named: str) -> None:
        self.named = named
        self.words = [] if named.startswith(SCHEMES) else shlex.split(named)
        if not named.startswith(SCHEMES) and (not self.words or shutil.which(self.words[0]) is None):
            raise ValueError(f"--hook: {self.words[0] if self.words else named!r} is no program that can be run, and no http address")
        self.queue: "SimpleQueue[Optional[tuple[Alarm, bytes]]]" = SimpleQueue()
        self.failed = 0
        self.thread = threading.Thread(target=self.work, daemon=True)
        self.thread.start()

    def call(self, alarm: Alarm, desk: str, when: str) -> None:
        if self.queue.qsize() >= MOST_WAITING:
            alarm.hook, self.failed = f"hook not called: {MOST_WAITING} wait for it", self.failed + 1
            return
        alarm.hook = "hook waits"
        made = {"desk": desk, "event": alarm.kind, "number": alarm.number, "at": when, "text": alarm.text, **alarm.details}
        self.queue.put((alarm, (json.dumps(made) + "\n").encode()))

    def work(self) -> None:
        for alarm, data in iter(self.queue.get, None):
            began = time.monotonic()
            try:
                self.once(data)
            except Exception as error:  # whatever it is, the wall says so and goes on
                self.failed += 1
                alarm.hook = f"hook failed after {time.monotonic() - began:.1f} s ({reason_of(error)})"
            else:
                alarm.hook = f"hook done in {time.monotonic() - began:.1f} s"

    def once(self, data: bytes) -> None:
        if self.words:
            run(self.words, data)
        else:
            post(self.named, data)

    def end(self) -> None:
        self.queue.put(None)
        self.thread.join(LIMIT + 1)


def reason_of(error: Exception) -> str:
    if isinstance(error, (subprocess.TimeoutExpired, TimeoutError)):
        return "no answer in time"
    if isinstance(error, urllib.error.HTTPError):
        return f"answered {error.code}"
    found: Any = getattr(error, "reason", error)
    return str(getattr(found, "strerror", None) or found)


