"""Connections to the live page that send no request: they are closed after some seconds, and the oldest one as soon as there are too many.

uvicorn limits how long a connection may stay open after a response, but not how long it may wait before its request is complete. So idle
connections could fill the limit of all connections, and no page could be loaded.
"""

import asyncio
from typing import Any, Callable, Optional, cast

import h11

REQUEST_TIME = 10.0  # seconds that a connection may take for a request
MOST_WAITING = 64  # connections at once whose requests are not complete
INCOMPLETE = (h11.IDLE, h11.SEND_BODY)  # states of a client


class Waiting:
    """The connections whose requests are not complete, the oldest first."""

    def __init__(self, seconds: float = REQUEST_TIME, most: int = MOST_WAITING) -> None:
        self.seconds, self.most = seconds, most
        self.found: dict["Prompt", asyncio.TimerHandle] = {}

    def add(self, connection: "Prompt") -> None:
        if connection in self.found:
            return  # its time does not begin again with each byte
        self.found[connection] = asyncio.get_running_loop().call_later(self.seconds, connection.drop)
        if len(self.found) > self.most:
            next(iter(self.found)).drop()

    def remove(self, connection: "Prompt") -> None:
        timer = self.found.pop(connection, None)
        if timer is not None:
            timer.cancel()


class Prompt(asyncio.Protocol):
    """uvicorn's protocol of a connection, which is closed if its request is not complete in time."""

    def __init__(self, inner: Any, waiting: Waiting) -> None:
        self.inner, self.waiting = inner, waiting
        self.transport: Optional[asyncio.Transport] = None

    def connection_made(self, transport: asyncio.BaseTransport) -> None:
        self.transport = cast(asyncio.Transport, transport)
        self.waiting.add(self)
        self.inner.connection_made(transport)

    def data_received(self, data: bytes) -> None:
        self.inner.data_received(data)
        if self.is_incomplete():
            self.waiting.add(self)
        else:
            self.waiting.remove(self)

    def is_incomplete(self) -> bool:
        """A connection that has become a WebSocket has another protocol."""
        assert self.transport is not None
        return self.transport.get_protocol() is self and self.inner.conn.their_state in INCOMPLETE

    def drop(self) -> None:
        self.waiting.remove(self)
        if self.transport is not None:
            self.transport.abort()

    def connection_lost(self, error: Optional[Exception]) -> None:
        self.waiting.remove(self)
        self.inner.connection_lost(error)

    def eof_received(self) -> Optional[bool]:
        return cast(Optional[bool], self.inner.eof_received())

    def pause_writing(self) -> None:
        self.inner.pause_writing()

    def resume_writing(self) -> None:
        self.inner.resume_writing()


def prompt(protocol: Any, waiting: Waiting) -> Callable[..., Prompt]:
    """Makes connections for uvicorn."""
    return lambda **given: Prompt(protocol(**given), waiting)
