"""A page over its WebSocket: it is sent what has changed, and what it sends is taken, until it goes."""

import asyncio
import json
import time
from collections import deque
from typing import Any, Callable, Protocol

from starlette.websockets import WebSocket, WebSocketDisconnect
from websockets.exceptions import ConnectionClosed

from quoting.watch.changes import Changes

MOST_CLIENTS = 100
FLOOD = 100  # messages in a second at which a page is shut out
UNREAD, UNWANTED, TOO_MANY = 1003, 1008, 1013  # closing codes of a WebSocket


class Unwanted(Exception):
    """A message that no page of ours sends; the closing code."""


def fields_of(text: str, name: str, names: set[str]) -> dict[str, Any]:
    """The fields of the one thing that a message has, by its name; whatever else is sent is unwanted."""
    try:
        given = json.loads(text)
    except (ValueError, RecursionError):
        raise Unwanted(UNREAD) from None
    found = given.get(name) if isinstance(given, dict) and len(given) == 1 else None
    if not isinstance(found, dict) or set(found) != names:
        raise Unwanted(UNWANTED)
    return found


class Shower(Protocol):
    """What pages are shown, and how many are open."""

    shown: Changes
    clients: int

    def enter(self) -> None: ...

    def leave(self) -> None: ...


class Client:
    """A page. What it may send is for its kind to say."""

    def __init__(self, socket: WebSocket, shown: Changes) -> None:
        self.socket, self.shown = socket, shown
        self.times: deque[float] = deque(maxlen=FLOOD)  # when it sent its last messages

    async def send_changes(self) -> None:
        """Sends what has changed, and awaits that it is taken: meanwhile states may be skipped."""
        seen = self.shown.unseen()
        while True:
            text, seen = self.shown.since(seen)
            if text:
                await self.socket.send_text(text)
            await self.shown.newer(seen)

    async def receive(self) -> None:
        """Takes messages until the page goes, or sends what it should not."""
        try:
            while True:
                message = await self.socket.receive()
                if message["type"] == "websocket.disconnect":
                    return
                if message.get("text") is None:
                    raise Unwanted(UNREAD)
                await self.take(message["text"])
        except Unwanted as unwanted:
            closing = asyncio.create_task(self.socket.close(unwanted.args[0]))
            while (await self.socket.receive())["type"] != "websocket.disconnect":
                pass  # what it has sent after it comes before its farewell
            await closing

    async def take(self, text: str) -> None:
        raise Unwanted(UNWANTED)

    def count(self) -> float:
        """Counts a message; when it came. A page that sends too many is shut out."""
        now = time.monotonic()
        self.times.append(now)
        if len(self.times) == FLOOD and now - self.times[0] < 1:
            raise Unwanted(UNWANTED)
        return now


async def attend(page: WebSocket, shower: Shower, client_of: Callable[[WebSocket], Client]) -> None:
    """A page from its coming to its going."""
    await page.accept()
    if shower.clients >= MOST_CLIENTS:
        await page.close(TOO_MANY)
        return
    client = client_of(page)
    shower.enter()
    sending = asyncio.create_task(client.send_changes())
    try:
        await client.receive()
    except (ConnectionClosed, WebSocketDisconnect, RuntimeError):
        pass  # the page has gone
    finally:
        shower.leave()
        sending.cancel()
        await asyncio.gather(sending, return_exceptions=True)
