"""One connection between two peers: its lines in and out, and how it ends."""
from __future__ import annotations

import asyncio
import contextlib
import socket
import ssl
import time
from typing import AsyncGenerator, Dict, Optional

from .peer_texts import LINE_LIMIT, BadLine, View

# The most bytes of a first line, and of what is written or read at once.
HELLO_LIMIT = 4096
CHUNK = 65_536


class Dropped(Exception):
    """Why a connection was ended, by a name."""


class Link:
    """One connection to a peer whose site is known."""

    def __init__(self, writer: asyncio.StreamWriter, view: View, dialed: bool) -> None:
        self.writer = writer
        self.view = view
        self.dialed = dialed
        self.since = time.monotonic()
        self.wake = asyncio.Event()
        self.gone = asyncio.Event()
        self.tells_needs = False
        self.told: Dict[int, int] = {}
        self.busy = False
        self.dropped: Optional[str] = None
        self.task = asyncio.current_task()

    def drop(self, name: str) -> None:
        """Ends the connection from elsewhere, for the reason of this name."""
        if self.dropped is None and self.task is not None:
            self.dropped = name
            self.task.cancel()

    def forgive(self) -> None:
        """Lets the task of the connection go on behind `drop`."""
        if self.task is not None:
            self.task.uncancel()


async def lines_of(reader: asyncio.StreamReader, silence: float) -> AsyncGenerator[bytes, None]:
    """The lines that come, without LF. Raises `TimeoutError` if no byte comes for too long."""
    waiting = bytearray()
    while True:
        async with asyncio.timeout(silence):
            data = await reader.read(CHUNK)
        if not data:
            return
        start = 0
        while (end := data.find(b"\n", start)) >= 0:
            waiting += data[start:end]
            if len(waiting) > LINE_LIMIT:
                raise BadLine("a line is too long")
            yield bytes(waiting)
            waiting.clear()
            start = end + 1
        waiting += data[start:]
        if len(waiting) > LINE_LIMIT:
            raise BadLine("a line is too long")


async def write(writer: asyncio.StreamWriter, data: bytes, silence: float) -> None:
    """Writes bytes. Raises `TimeoutError` if there is no room for them for too long."""
    for start in range(0, len(data), CHUNK):
        writer.write(data[start:start + CHUNK])
        async with asyncio.timeout(silence):
            await writer.drain()
        # Others get their turn, and a connection that was lost is noticed.
        await asyncio.sleep(0)


def bound(host: str, port: int) -> socket.socket:
    """A socket that listens. Raises `OSError`."""
    family = socket.getaddrinfo(host, port, type=socket.SOCK_STREAM)[0][0]
    listener = socket.create_server((host, port), family=family, backlog=64)
    listener.setblocking(False)
    return listener


async def connected(host: str, port: int, seconds: float) -> socket.socket:
    """A connection to the first address of a host that answers; each has its part of the time. Raises `OSError`, and
    `ValueError` for a name that can't be a host's."""
    loop = asyncio.get_running_loop()
    try:
        found = socket.getaddrinfo(host, port, type=socket.SOCK_STREAM, flags=socket.AI_NUMERICHOST)
    except socket.gaierror:
        found = await loop.getaddrinfo(host, port, type=socket.SOCK_STREAM)
    failure = OSError("the host has no address")
    for family, kind, protocol, _, address in found:
        end = socket.socket(family, kind, protocol)
        end.setblocking(False)
        try:
            async with asyncio.timeout(seconds / len(found)):
                await loop.sock_connect(end, address)
            return end
        except OSError as error:
            end.close()
            failure = error
        except BaseException:
            end.close()
            raise
    raise failure


async def throw_away(end: socket.socket) -> None:
    """Closes the socket of a connection that has not come to be. If a transport was made of it, that closes it at its end:
    asyncio forgets a transport of TLS that is cancelled before its first turn."""
    with contextlib.suppress(OSError):
        end.shutdown(socket.SHUT_RDWR)
    for _ in range(5):
        await asyncio.sleep(0)
    end.close()


async def first_line(reader: asyncio.StreamReader) -> bytes:
    """The first line, without LF, and nothing behind it. Raises `BadLine`, and `OSError` if the connection ends."""
    line = bytearray()
    while not line.endswith(b"\n"):
        if len(line) >= HELLO_LIMIT:
            raise BadLine("a first line is too long")
        byte = await reader.read(1)
        if not byte:
            raise ConnectionResetError("no hello")
        line += byte
    return bytes(line[:-1])


async def shut(writer: asyncio.StreamWriter, gently: bool) -> None:
    """Closes a connection; what was written before goes out first, within a second, if that is wanted."""
    end = writer.get_extra_info("socket")
    if gently:
        writer.close()
        with contextlib.suppress(OSError, asyncio.CancelledError):
            async with asyncio.timeout(1.5):
                await writer.wait_closed()
        # A transport of TLS can't be aborted once it was closed, and may wait for the other side for ever.
        if end is not None:
            with contextlib.suppress(OSError):
                end.shutdown(socket.SHUT_RDWR)
    else:
        writer.transport.abort()
    # The socket is closed behind the callbacks of the next turns.
    for _ in range(5):
        await asyncio.sleep(0)


def failure_name(error: Exception) -> str:
    """A name for the operator."""
    if isinstance(error, ssl.SSLCertVerificationError):
        return "BadCertificate"
    if isinstance(error, ssl.SSLError):
        return "Refused" if "ALERT" in (error.reason or "") else "NoTls"
    if isinstance(error, (TimeoutError, ConnectionAbortedError)):
        return "Silent"
    if isinstance(error, ConnectionError):
        return "Cut" if not isinstance(error, ConnectionRefusedError) else "Unreachable"
    return "Unreachable"
