"""The node's page: one server of HTTP on loopback, for reading only."""
from __future__ import annotations

import asyncio
import base64
import hashlib
import importlib.resources
import ipaddress
import json
import re
import traceback
from typing import Dict, Optional, Set, Tuple

from ..errors import ZinduroiError
from .ending import end_all
from .metrics import metrics_text
from .report import report
from .view import View

# The most bytes of a request, how many connections are served at once, and how many of them may be `/events`.
LONGEST_REQUEST = 8192
CONNECTIONS = 64
STREAMS = 32
# How many seconds a request may take to arrive, and a client to take what was written.
PATIENCE = 5.0
# Seconds between two events: the least where something changes, and the most.
SHORTEST = 0.2
LONGEST = 1.0

_REQUEST = re.compile(rb"([A-Z]{1,16}) (/[!-~]*) HTTP/1\.[01]")
_HOST = re.compile(r"(?:\[([0-9A-Fa-f:]+)\]|([^:\[\]\s]+))(?::[0-9]{1,5})?")
_TITLES = {200: "OK", 400: "Bad Request", 403: "Forbidden", 404: "Not Found", 405: "Method Not Allowed", 408: "Request Timeout",
           431: "Request Header Fields Too Large", 500: "Internal Server Error", 503: "Service Unavailable"}


class PageRefused(ZinduroiError):
    """The page's address can't be listened at."""


class Wrong(Exception):
    """A request is answered by this status and text."""

    def __init__(self, status: int, text: str) -> None:
        super().__init__(status, text)
        self.status = status
        self.text = text


class Page:
    """The server of the page, on the node's loop."""

    def __init__(self, address: Tuple[str, int], view: View) -> None:
        self._address = address
        self._view = view
        self._server: Optional[asyncio.Server] = None
        self._tasks: Set[asyncio.Task[None]] = set()
        self._changed = asyncio.Event()
        self._event = b""
        self._streams: Dict[asyncio.StreamWriter, asyncio.Event] = {}
        self._telling: Optional[asyncio.Task[None]] = None
        self._page = (importlib.resources.files(__package__) / "page.html").read_text("utf-8")
        self._policy = _policy(self._page)

    async def start(self) -> None:
        """Listens. Raises `PageRefused`."""
        host, port = self._address
        try:
            self._server = await asyncio.start_server(self._accept, host, port, limit=LONGEST_REQUEST)
        except OSError as error:
            raise PageRefused(f"page: {host} port {port}: {error.strerror or error}") from None
        self._view.tally.changed = self._changed.set
        report(f"page at http://{f'[{host}]' if ':' in host else host}:{port}/")

    async def close(self) -> None:
        """Ends all connections."""
        if self._server is not None:
            self._server.close()
        await end_all([*self._tasks, *([self._telling] if self._telling is not None else [])])

    def _accept(self, reader: asyncio.StreamReader, writer: asyncio.StreamWriter) -> None:
        if len(self._tasks) >= CONNECTIONS:
            writer.transport.abort()
            return
        task = asyncio.get_running_loop().create_task(self._serve(reader, writer))
        self._tasks.add(task)
        task.add_done_callback(self._tasks.discard)

    async def _serve(self, reader: asyncio.StreamReader, writer: asyncio.StreamWriter) -> None:
        """One request, and the end of its connection."""
        try:
            writer.transport.set_write_buffer_limits(high=0)
            try:
                await self._answer(writer, await _path(reader))
            except Wrong as wrong:
                more = "Allow: GET\r\n" if wrong.status == 405 else ""
                await self._write(writer, _answer(wrong.status, "text/plain; charset=utf-8", wrong.text + "\n", more))
            except (OSError, EOFError, asyncio.TimeoutError):
                raise
            except Exception:
                report(traceback.format_exc())
                await self._write(writer, _answer(500, "text/plain; charset=utf-8", "the node has a fault\n"))
            writer.close()
            await asyncio.wait_for(writer.wait_closed(), PATIENCE)
        except (OSError, EOFError, asyncio.TimeoutError):
            pass
        finally:
            writer.transport.abort()

    async def _answer(self, writer: asyncio.StreamWriter, path: str) -> None:
        if path == "/":
            await self._write(writer, _answer(200, "text/html; charset=utf-8", self._page, self._policy))
        elif path == "/metrics":
            await self._write(writer, _answer(200, "text/plain; version=0.0.4; charset=utf-8", await metrics_text(self._view)))
        elif path == "/health":
            may, reason = self._view.health(await self._view.look())
            await self._write(writer, _answer(200 if may else 503, "text/plain; charset=utf-8", reason + "\n"))
        elif path == "/events":
            await self._stream(writer)
        else:
            raise Wrong(404, "there are /, /events, /metrics and /health")

    async def _stream(self, writer: asyncio.StreamWriter) -> None:
        """Events until the client has gone. One that is slow gets the newest state only."""
        if len(self._streams) >= STREAMS:
            raise Wrong(503, "too many streams of events")
        news = self._streams[writer] = asyncio.Event()
        try:
            await self._write(writer, _head(200, "text/event-stream", "") + b"retry: 1000\n\n")
            if self._telling is None or self._telling.done():
                self._telling = asyncio.get_running_loop().create_task(self._tell())
            while not writer.is_closing():
                await news.wait()
                news.clear()
                await self._write(writer, self._event)
        finally:
            del self._streams[writer]

    async def _tell(self) -> None:
        """Makes events while somebody listens: after each change, and at least once a second."""
        loop = asyncio.get_running_loop()
        while self._streams:
            began = loop.time()
            self._changed.clear()
            try:
                self._event = b"data: " + json.dumps(await self._view.page()).encode("ascii") + b"\n\n"
            except Exception:
                report(traceback.format_exc())
            for news in self._streams.values():
                news.set()
            # A large state is made more seldom, so that callers don't wait for it.
            await asyncio.sleep(max(SHORTEST, 5 * (loop.time() - began)))
            try:
                await asyncio.wait_for(self._changed.wait(), max(0.0, began + LONGEST - loop.time()))
            except asyncio.TimeoutError:
                pass

    @staticmethod
    async def _write(writer: asyncio.StreamWriter, data: bytes) -> None:
        writer.write(data)
        await asyncio.wait_for(writer.drain(), PATIENCE)


async def _path(reader: asyncio.StreamReader) -> str:
    """The path of a request, if it may be answered."""
    try:
        head = await asyncio.wait_for(reader.readuntil(b"\r\n\r\n"), PATIENCE)
    except asyncio.LimitOverrunError:
        raise Wrong(431, "the request is too long") from None
    except asyncio.TimeoutError:
        raise Wrong(408, "the request took too long") from None
    first, *fields = head[:-4].split(b"\r\n")
    asked = _REQUEST.fullmatch(first)
    hosts = [value.strip() for name, _, value in (field.partition(b":") for field in fields) if name.strip().lower() == b"host"]
    if asked is None or len(hosts) != 1:
        raise Wrong(400, "the request can't be read")
    if not is_own(hosts[0].decode("ascii", "replace")):
        raise Wrong(403, "the request names another host")
    if asked[1] != b"GET":
        raise Wrong(405, "only GET is answered")
    return asked[2].decode("ascii").partition("?")[0]


def is_own(host: str) -> bool:
    """Whether the Host of a request is loopback. A page of another host whose name was made to mean this machine names that host."""
    found = _HOST.fullmatch(host)
    if found is None:
        return False
    try:
        return (found[2] or "").lower() == "localhost" or ipaddress.ip_address(found[1] or found[2]).is_loopback
    except ValueError:
        return False


def _head(status: int, kind: str, more: str) -> bytes:
    return (f"HTTP/1.1 {status} {_TITLES[status]}\r\nContent-Type: {kind}\r\nConnection: close\r\nCache-Control: no-store\r\n"
            "X-Content-Type-Options: nosniff\r\nReferrer-Policy: no-referrer\r\nCross-Origin-Resource-Policy: same-origin\r\n"
            f"{more}\r\n").encode("ascii")


def _answer(status: int, kind: str, text: str, more: str = "") -> bytes:
    body = text.encode("utf-8")
    return _head(status, kind, f"Content-Length: {len(body)}\r\n{more}") + body


def _policy(page: str) -> str:
    """What the page may do: its own style and script, and requests to its own server."""
    hashes = {}
    for name in ("style", "script"):
        inside = page[page.index(f"<{name}>") + len(name) + 2:page.index(f"</{name}>")]
        hashes[name] = base64.b64encode(hashlib.sha256(inside.encode("utf-8")).digest()).decode("ascii")
    return (f"Content-Security-Policy: default-src 'none'; style-src 'sha256-{hashes['style']}'; script-src 'sha256-{hashes['script']}'; "
            "connect-src 'self'; img-src data:; base-uri 'none'; form-action 'none'; frame-ancestors 'none'\r\n")
