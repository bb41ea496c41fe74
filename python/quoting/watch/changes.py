"""What pages have been sent and what has changed since: each section is encoded once, however many pages there are.

>>> changes = Changes()
>>> changes.take({"head": 1, "band": [2]}, lambda seen: ("null", None))
True
>>> first = changes.since(changes.unseen())
>>> first[0]
'{"head":1,"band":[2],"day":null}'
>>> changes.take({"head": 1, "band": [3]}, lambda seen: ("null", None)), changes.since(first[1])[0]
(True, '{"band":[3]}')
"""

import asyncio
import json
from dataclasses import dataclass
from typing import Any, Callable, Optional

Got = Any  # what a page has of the day: something that can be hashed, None at first
Day = Callable[[Got], tuple[str, Got]]  # what has changed in the day since, and what the page has then


@dataclass(frozen=True)
class Seen:
    """What a page has: the version, what it has of the day, and the day's text that it got last."""

    version: int
    day: Got
    text: str


def encoded(value: Any) -> str:
    """As JSON. What is no character (half of a pair of surrogates) could not be sent, and is replaced.

    >>> encoded(["day\\udcff", 1])
    '["day?",1]'
    """
    return json.dumps(value, ensure_ascii=False, separators=(",", ":")).encode("utf-8", "replace").decode()


class Changes:
    """The newest sections with the version at which each last changed. Of the day a page gets what it lacks."""

    def __init__(self) -> None:
        self.version = 0
        self.texts: dict[str, tuple[int, str]] = {}
        self.values: dict[str, Any] = {}  # what they were made of: the same object has not changed
        self.day: Day = lambda seen: ("null", None)
        self.days: dict[Got, tuple[str, Got]] = {}  # of this version, by what a page had before
        self.messages: dict[Seen, tuple[str, Seen]] = {}  # of this version, by what a page had before: most pages had the same
        self.woken: Optional[asyncio.Event] = None  # set at the next version

    def unseen(self) -> Seen:
        return Seen(0, None, "")

    def take(self, sections: dict[str, Any], day: Day) -> bool:
        """The sections as they are now; whether there is something new."""
        self.version += 1
        is_new = False
        for name, value in sections.items():
            if name in self.values and self.values[name] is value:
                continue
            text, self.values[name] = encoded(value), value
            if self.texts.get(name, (0, ""))[1] != text:
                self.texts[name] = self.version, text
                is_new = True
        self.day, self.days, self.messages = day, {}, {}
        if self.woken is not None:
            self.woken.set()
            self.woken = None
        return is_new

    def since(self, seen: Seen) -> tuple[str, Seen]:
        """The message for a page that has seen so much; empty where it lacks nothing."""
        if seen not in self.messages:
            self.messages[seen] = self.made_since(seen)
        return self.messages[seen]

    def made_since(self, seen: Seen) -> tuple[str, Seen]:
        if seen.day not in self.days:
            self.days[seen.day] = self.day(seen.day)
        day, has = self.days[seen.day]
        changed = [f'"{name}":{text}' for name, (version, text) in self.texts.items() if version > seen.version]
        if day != seen.text:
            changed.append(f'"day":{day}')
        return "{" + ",".join(changed) + "}" if changed else "", Seen(self.version, has, day)

    async def newer(self, seen: Seen) -> None:
        """Until there is a version after the one seen."""
        while self.version == seen.version:
            self.woken = self.woken or asyncio.Event()
            await self.woken.wait()
