"""The server of the live page: its files, and a WebSocket over which each page gets what has changed since it last got something.

A request can alter nothing; an ask is answered on a copy of the month. Pages that are slow skip states: each is sent the newest one when
it has taken the one before.
"""

import asyncio
import logging
import re
import signal
import socket
from importlib import import_module
from pathlib import Path
from typing import Any, Awaitable, Callable, Optional

from starlette.applications import Starlette
from starlette.requests import Request
from starlette.responses import PlainTextResponse, Response
from starlette.routing import Route, WebSocketRoute
from starlette.types import ASGIApp, Message, Receive, Scope, Send
from starlette.websockets import WebSocket

from quoting.watch.changes import encoded
from quoting.watch.clients import UNWANTED, Client, Unwanted, attend, fields_of
from quoting.watch.connections import Waiting, prompt
from quoting.watch.hosts import Access
from quoting.watch.loop import Watch

PAGE = Path(__file__).resolve().parent / "page"
PALETTE = PAGE.parent.parent / "palette.css"  # which the statement has too
SHARED = (PALETTE, PAGE / "base.css", PAGE / "elements.js")  # with the wall
SIGNS = PAGE / "signs.svg"  # which both pages have in their text, at MARK
MARK = b"<!-- signs -->"
FIRST = "index.html"  # the path /
KINDS = {".html": "text/html", ".css": "text/css", ".js": "text/javascript"}
POLICY = (
    "default-src 'none'; script-src 'self'; style-src 'self'; img-src 'self' data:; connect-src 'self'; base-uri 'none'; "
    "form-action 'none'; frame-ancestors 'none'")
HEADERS = {
    "Content-Security-Policy": POLICY, "X-Content-Type-Options": "nosniff", "Referrer-Policy": "no-referrer", "Cache-Control": "no-store"}
MOST_CONNECTIONS = 400  # of pages, and of browsers that load one
MOST_BYTES = 1_024  # of a message from a page
MOST_CHARACTERS = 64  # of a field of an ask
ASKS = 10  # asks in a second that are answered
MOST_PASSES, PASS = 10, 0.2  # at the end: how often tasks are cancelled, and for how many seconds they are waited for


# ---------------------------------------------------------------- requests


class Guarded:
    """Lets in requests that have access, and puts the headers on every answer."""

    def __init__(self, app: ASGIApp, access: Access) -> None:
        self.app, self.access = app, access

    async def __call__(self, scope: Scope, receive: Receive, send: Send) -> None:
        refusal = self.refusal(scope)
        if scope["type"] == "websocket" and refusal is not None:
            await receive()
            await send({"type": "websocket.close", "code": UNWANTED})
        elif scope["type"] == "websocket":
            await self.app(scope, receive, send)
        else:
            await (refusal or self.app)(scope, receive, headed(send))

    def refusal(self, scope: Scope) -> Optional[Response]:
        given = {name.decode("latin-1"): value.decode("latin-1") for name, value in scope["headers"]}
        if "host" not in given:
            return PlainTextResponse("the request names no host\n", 400)
        if not self.access.allows_host(given["host"]):
            return PlainTextResponse("this server has another address\n", 421)
        if scope["type"] == "websocket" and not self.access.allows_origin(given.get("origin")):
            return PlainTextResponse("this page has another origin\n", 403)
        if not self.access.allows_token(scope["query_string"]):
            return PlainTextResponse("the link has a token, and this request has none or another\n", 403)
        return None


def headed(send: Send) -> Send:
    async def with_headers(message: Message) -> None:
        if message["type"] == "http.response.start":
            more = [(name.lower().encode(), value.encode()) for name, value in HEADERS.items()]
            message = {**message, "headers": [*message["headers"], *more]}
        await send(message)

    return with_headers


def files_of(folder: Path, token: Optional[str]) -> dict[str, tuple[bytes, str]]:
    """A page's files and their types by the paths of requests; where there is a token, their links to one another have it."""
    found = {each.name: each.read_bytes() for each in (*SHARED, *sorted(folder.iterdir())) if each.suffix in KINDS}
    found[FIRST] = found[FIRST].replace(MARK, SIGNS.read_bytes())
    if token is not None:
        names = "|".join(map(re.escape, found))
        links = re.compile(rf'"(?:\./)?(?:{names})(?=")'.encode())
        found = {name: links.sub(lambda link: link[0] + f"?token={token}".encode(), data) for name, data in found.items()}
    return {"/" if name == FIRST else f"/{name}": (data, KINDS[Path(name).suffix]) for name, data in found.items()}


# ---------------------------------------------------------------- pages


def ask_of(text: str) -> dict[str, Any]:
    """The fields of an ask; whatever else is sent is unwanted."""
    asked = fields_of(text, "ask", {"n", "t", "id", "price", "volume"})
    number, *fields = (asked[name] for name in ("n", "t", "id", "price", "volume"))
    if type(number) is not int or not 0 <= number < 2**53 or not all(isinstance(each, str) and len(each) <= MOST_CHARACTERS for each in fields):
        raise Unwanted(UNWANTED)
    return asked


class AskingClient(Client):
    """A page that asks about amendments."""

    def __init__(self, socket: WebSocket, watch: Watch) -> None:
        super().__init__(socket, watch.shown)
        self.watch = watch

    async def take(self, text: str) -> None:
        await self.socket.send_text(encoded({"answer": self.answer(ask_of(text))}))

    def answer(self, asked: dict[str, Any]) -> dict[str, Any]:
        now = self.count()
        if sum(now - each < 1 for each in self.times) > ASKS:
            lines = [f"At most {ASKS} asks a second are answered: ask again."]
            return {"n": asked["n"], "kind": "refused", "head": "Not asked", "lines": lines}
        return {"n": asked["n"], **self.watch.ask(asked["t"], asked["id"], asked["price"], asked["volume"])}


class Pages:
    """The files, and the pages that are open."""

    def __init__(self, watch: Watch, access: Access) -> None:
        self.watch, self.access = watch, access
        self.files = files_of(PAGE, access.token)  # read once: no request reaches the folder

    def app(self) -> ASGIApp:
        files = [Route(path, self.file, methods=["GET"]) for path in self.files]
        return Guarded(Starlette(routes=[*files, WebSocketRoute("/live", self.live)]), self.access)

    async def file(self, request: Request) -> Response:
        data, kind = self.files[request.url.path]
        return Response(data, media_type=kind)

    async def live(self, page: WebSocket) -> None:
        await attend(page, self.watch, lambda socket: AskingClient(socket, self.watch))


# ---------------------------------------------------------------- the run


def bound(address: str, port: int) -> socket.socket:
    """A socket that listens."""
    family = socket.AF_INET6 if ":" in address else socket.AF_INET
    made = socket.socket(family, socket.SOCK_STREAM)
    made.setsockopt(socket.SOL_SOCKET, socket.SO_REUSEADDR, 1)
    try:
        made.bind((address, port))
        made.listen()
    except OSError as error:
        made.close()
        why = f"{address}, port {port}: {error.strerror or error}"
        raise ValueError(f"{why}; --port names another, and --port 0 takes any that is free") from None
    return made


async def serve(watch: Watch, access: Access, listening: socket.socket) -> None:
    """Until a signal comes."""
    await serve_app(Pages(watch, access).app(), [watch.read(), watch.show()], listening)


async def serve_app(app: ASGIApp, works: list[Awaitable[Any]], listening: socket.socket) -> None:
    """Serves, with other work beside it, until a signal comes."""
    logging.getLogger("uvicorn").setLevel(logging.CRITICAL)
    uvicorn: Any = import_module("uvicorn")
    h11_protocol = import_module("uvicorn.protocols.http.h11_impl").H11Protocol
    config = uvicorn.Config(
        app, log_config=None, log_level="critical", access_log=False, lifespan="off", loop="asyncio",
        http=prompt(h11_protocol, Waiting()), limit_concurrency=MOST_CONNECTIONS, ws="websockets", ws_max_size=MOST_BYTES, ws_per_message_deflate=False, server_header=False,
        proxy_headers=False)
    server, stopped = uvicorn.Server(config), asyncio.Event()
    server.install_signal_handlers = lambda: None  # they are ours
    for number in (signal.SIGINT, signal.SIGTERM):
        asyncio.get_running_loop().add_signal_handler(number, stopped.set)
    work: list[Awaitable[Any]] = [server.serve(sockets=[listening]), *works, stopped.wait()]
    tasks = [asyncio.ensure_future(each) for each in work]
    done, _ = await asyncio.wait(tasks, return_when=asyncio.FIRST_COMPLETED)
    for each in getattr(server, "servers", []):
        each.close()  # no page comes any more
    await end_others()
    for task in done:
        task.result()  # raises what ended it, if it was an error


async def end_others() -> None:
    """Cancels all other tasks, and those that a connection which was just made starts meanwhile; connections go with them."""
    for _ in range(MOST_PASSES):
        others = asyncio.all_tasks() - {asyncio.current_task()}
        for task in others:
            task.cancel()
        if not others:
            return
        await asyncio.wait([asyncio.gather(*others, return_exceptions=True)], timeout=PASS)


def run(watch: Watch, access: Access, listening: socket.socket, say: Callable[[], None]) -> None:
    """Serves the page until Ctrl-C; `say` prints the link, once it can be followed."""
    try:
        say()
        asyncio.run(serve(watch, access, listening))
        raise KeyboardInterrupt
    finally:
        watch.end()
