"""The server of the wall: its page, a WebSocket over which each page gets what has changed, the pages of the contracts, and the figures for
programs, all under the rules on host, origin and token of `quoting watch`. A page can mute contracts, and alter nothing else."""

import asyncio
import gc
import socket
import time
from pathlib import Path
from typing import Any, Callable, Optional

from starlette.applications import Starlette
from starlette.requests import Request
from starlette.responses import JSONResponse, PlainTextResponse, Response
from starlette.routing import Mount, Route, WebSocketRoute
from starlette.types import ASGIApp
from starlette.websockets import WebSocket

from quoting.wall import metrics, sections
from quoting.wall.alarms import Alarms
from quoting.wall.details import Detail
from quoting.wall.hooks import Hook
from quoting.wall.recounting import Recounts
from quoting.wall.state import MUCH, Wall
from quoting.watch import server as watch_server
from quoting.watch.changes import Changes
from quoting.watch.clients import UNWANTED, Client, Unwanted, attend, fields_of
from quoting.watch.hosts import Access
from quoting.watch.server import Guarded, Pages, files_of

PAGE = Path(__file__).resolve().parent / "page"
FIRST = "index.html"
IDLE = 0.04  # seconds between two looks at the logs, unless there is more to read already
# Seconds between two states: where a quote is lost or back, where something else came, and where only time goes on
URGENT, FRAME, SLOW = 0.05, 0.2, 0.25
MOST_MUTE = 60  # minutes
RARELY = (50_000, 20, 100)  # when garbage is collected


class Work:
    """What the server's own work takes, in seconds of a processor: reading what came, and making what is shown of it."""

    def __init__(self) -> None:
        self.slowest: dict[str, float] = {"read": 0.0, "show": 0.0}
        self.total = {"read": 0.0, "show": 0.0}
        self.count = {"read": 0, "show": 0}
        self.began = 0.0

    def begin(self) -> None:
        self.began = time.thread_time()

    def end(self, name: str) -> None:
        took = time.thread_time() - self.began
        self.slowest[name] = max(self.slowest[name], took)
        self.total[name] += took
        self.count[name] += 1

    def figures(self) -> dict[str, Any]:
        """In milliseconds."""
        return {name: {"times": self.count[name], "total": round(1_000 * self.total[name]), "slowest": round(1_000 * self.slowest[name], 1)} for name in self.count}


class Live:
    """A wall that is watched: read, checked for alarms, recounted and shown."""

    def __init__(self, wall: Wall, alarms: Alarms, hook: Optional[Hook]) -> None:
        self.wall, self.alarms, self.hook = wall, alarms, hook
        self.recounts = Recounts()
        self.shown = Changes()
        self.sections = sections.Sections(wall, alarms, self.recounts)
        self.clients = 0
        self.is_new = True  # something came since it was shown
        self.states: list[Any] = []  # of the contracts, as they were shown last
        self.made = 0.0
        self.work = Work()
        self.details = {key: Detail(wall, self.recounts, key) for key in dict.fromkeys(wall.keys.values())}

    async def read(self) -> None:
        """Reads on for ever. What was there at the start stays: the collector of garbage need not go through it again and again."""
        gc.set_threshold(*RARELY)
        while self.wall.is_reading:
            self.wall.poll()
            await asyncio.sleep(0)
        gc.freeze()
        while True:
            self.work.begin()
            size = self.wall.poll()
            self.is_new = self.is_new or size > 0
            is_refining = [running.refine_on() for running in self.wall.running.values() if running.finer is not None]
            self.work.end("read")
            if size and self.wall.states() != self.states:
                self.show_soon(URGENT)
            await asyncio.sleep(0 if size >= MUCH or any(is_refining) else IDLE)

    async def show(self) -> None:
        """Makes the sections, and what is worth an alarm."""
        while True:
            self.show_soon(FRAME if self.is_new else SLOW)
            await asyncio.sleep(URGENT)

    def show_soon(self, after: float) -> None:
        """Shows what there is, unless that was done within these seconds."""
        if time.monotonic() - self.made >= after:
            self.publish()

    def publish(self) -> None:
        self.work.begin()
        self.made, self.is_new = time.monotonic(), False
        if not self.wall.is_reading:
            self.states = self.wall.states()
            self.alarm(self.wall.tiles())
            self.recounts.forget(running.key for running in self.wall.running.values())
            self.recounts.take(self.wall.running.values())
        if self.clients:
            failed = 0 if self.hook is None else self.hook.failed
            self.shown.take(self.sections.made(failed), lambda seen: ("null", None))
        for detail in self.details.values():
            if detail.clients:
                detail.publish()
        self.work.end("show")

    def alarm(self, tiles: list[Any]) -> None:
        for alarm in self.alarms.look(tiles, self.recounts.differs()):
            if self.hook is not None and not alarm.is_silent:
                self.hook.call(alarm, self.wall.desk.maker, self.wall.local(alarm.moment).isoformat())

    def enter(self) -> None:
        self.clients += 1
        self.publish()

    def leave(self) -> None:
        self.clients -= 1

    def mute(self, key: str, minutes: int) -> None:
        for each in [key] if key else self.wall.keys.values():
            if each in self.details:
                self.alarms.mute(each, 60.0 * minutes)
        self.publish()

    def end(self) -> None:
        self.recounts.end()
        if self.hook is not None:
            self.hook.end()


# ---------------------------------------------------------------- pages


def mute_of(text: str) -> tuple[str, int]:
    """The contract (empty: all) and the minutes of a mute; whatever else is sent is unwanted."""
    asked = fields_of(text, "mute", {"key", "minutes"})
    key, minutes = asked["key"], asked["minutes"]
    if not isinstance(key, str) or type(minutes) is not int or not 0 <= minutes <= MOST_MUTE:
        raise Unwanted(UNWANTED)
    return key, minutes


class MutingClient(Client):
    """A page of the wall, which mutes contracts."""

    def __init__(self, socket: WebSocket, live: Live) -> None:
        super().__init__(socket, live.shown)
        self.live = live

    async def take(self, text: str) -> None:
        self.count()
        self.live.mute(*mute_of(text))


class WallPages:
    """The files, the pages that are open, and the figures for programs."""

    def __init__(self, live: Live, access: Access) -> None:
        self.live, self.access = live, access
        self.files = files_of(PAGE, access.token)  # read once: no request reaches the folder

    def app(self) -> ASGIApp:
        files = [Route(path, self.file, methods=["GET"]) for path in self.files]
        figures = [Route("/metrics", self.metrics, methods=["GET"]), Route("/status.json", self.status, methods=["GET"]), Route("/healthz", self.health, methods=["GET"])]
        details = [Mount(f"/contract/{key}", routes=self.detail(key)) for key in self.live.details]
        return Guarded(Starlette(routes=[*files, *figures, WebSocketRoute("/live", self.page), *details]), self.access)

    def detail(self, key: str) -> list[Any]:
        """The pages of a contract, as `quoting watch` has them."""
        pages = Pages(self.live.details[key], self.access)  # type: ignore[arg-type]

        query = f"?token={self.access.token}" if self.access.token else ""
        back = f'<body>\n<nav><a href="../../{query}">All contracts</a></nav>'.encode()

        async def file(request: Request) -> Response:
            data, kind = pages.files["/" + request.url.path.rpartition("/")[2]]
            return Response(data.replace(b"<body>", back, 1) if kind == "text/html" else data, media_type=kind)

        return [*(Route(path, file, methods=["GET"]) for path in pages.files), WebSocketRoute("/live", pages.live)]

    async def file(self, request: Request) -> Response:
        data, kind = self.files[request.url.path]
        return Response(data, media_type=kind)

    async def metrics(self, request: Request) -> Response:
        found = metrics.text(self.live.wall, self.live.recounts)
        return Response(found, media_type="text/plain; version=0.0.4")

    async def status(self, request: Request) -> Response:
        return JSONResponse({**metrics.status(self.live.wall, self.live.recounts, self.live.alarms), "work": self.live.work.figures()})

    async def health(self, request: Request) -> Response:
        is_well, text = metrics.health(self.live.wall, self.live.recounts)
        return PlainTextResponse(f"{text}\n", 200 if is_well else 503)

    async def page(self, page: WebSocket) -> None:
        await attend(page, self.live, lambda socket: MutingClient(socket, self.live))


def run(live: Live, access: Access, listening: socket.socket, say: Callable[[], None]) -> None:
    """Serves the wall until Ctrl-C; `say` prints the link, once it can be followed."""
    try:
        say()
        asyncio.run(watch_server.serve_app(WallPages(live, access).app(), [live.read(), live.show()], listening))
        raise KeyboardInterrupt
    finally:
        live.end()
