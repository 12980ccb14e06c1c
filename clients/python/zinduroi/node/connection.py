"""A connection: its lines are answered one after the other, and its end ends its sessions."""
from __future__ import annotations

import asyncio
import socket
import time
import traceback
from typing import Callable, List, Optional, Union

from .answers import Answers, Caller
from .lines import OWN_BYTES, Cutter, Shared
from .listening import HangUps, is_hung_up, peer_pid
from .report import report

# How many bytes are read at once. No more are read before the lines in them are answered.
CHUNK = 65_536


class Connection:
    """One connection of the node. It has ended when the last holder of its other end has closed it, or one of them has shut it down
    both ways, and only then; a caller that shuts down its writing side may still be inside."""

    def __init__(self, connection: socket.socket, answers: Answers, shared: Shared, hang_ups: HangUps, stops: Callable[[], bool]) -> None:
        self._socket = connection
        self._answers = answers
        self._shared = shared
        self._hang_ups = hang_ups
        self._stops = stops
        self._ended = asyncio.Event()
        self._deaf = False
        self._busy = False
        self.caller = Caller(peer_pid(connection), lambda: self._ended.is_set() or stops())
        self.task: Optional[asyncio.Task[None]] = None
        hang_ups.watch(connection, self._hung_up)

    async def run(self) -> None:
        """Answers all lines. Behind the last one the sessions of an ended connection are left; a connection that has not ended
        is closed if it has no sessions, and else waited for."""
        try:
            await self._converse()
            if not self._stops() and not is_hung_up(self._socket) and self._answers.book.tied_to(self.caller):
                await self._ended.wait()
            if is_hung_up(self._socket):
                self._busy = True
                await self._answers.end(self.caller)
        finally:
            # Where the node ends the connection, its sessions stay, and belong to nobody.
            self._answers.release(self.caller)
            self._hang_ups.forget(self._socket)
            self._socket.close()

    def stop(self) -> None:
        """The node stops: the line in work is answered, and no more. A connection whose other end is closed already has ended by itself."""
        self.caller.wake()
        if not self._busy and self.task is not None and not self.task.done() and not is_hung_up(self._socket):
            self.task.cancel()

    def _hung_up(self) -> None:
        self._ended.set()
        self.caller.wake()

    async def _converse(self) -> None:
        """Answers lines until the other end says no more, or the node stops."""
        cutter = Cutter(self._shared)
        try:
            data = await self._receive()
            while data and not self._stops():
                await self._answer_all(cutter.feed(data))
                cutter.answered()
                data = b"" if self._stops() else await self._receive()
            if cutter.has_part():
                await self._send("refused BadWord")
        finally:
            cutter.clear()

    async def _answer_all(self, lines: List[Union[bytes, str]]) -> None:
        for line in lines:
            if not self._stops():
                self._busy = True
                began = time.monotonic()
                reply = f"refused {line}" if isinstance(line, str) else await self._answer(line)
                # A wait that the stop of the node cut short is not over: its caller goes on at the next node.
                if not (self._stops() and reply.startswith("timeout ")):
                    self._answers.tally.answered(self.caller.pid, line, reply, time.monotonic() - began)
                    await self._send(reply)
                self._busy = False
                # Neither reading, answering nor writing has to wait, so a flood would keep all others from their turn.
                await asyncio.sleep(0)

    async def _answer(self, line: bytes) -> str:
        """The reply to a line. A fault of the node's own ends neither the connection nor a session."""
        try:
            return await self._answers.answer(self.caller, line)
        except Exception:
            report(traceback.format_exc())
            return "refused NodeFault"

    async def _receive(self) -> bytes:
        try:
            return await asyncio.get_running_loop().sock_recv(self._socket, CHUNK)
        except ConnectionError:
            return b""

    async def _send(self, reply: str) -> None:
        """Writes a reply, and waits until the connection has taken it. Long ones that wait for a slow reader share one room."""
        data = reply.encode("utf-8", "replace") + b"\n"
        more = max(0, len(data) - OWN_BYTES)
        if not self._shared.take(more):
            data, more = b"refused Memory\n", 0
        try:
            if not self._deaf:
                await asyncio.get_running_loop().sock_sendall(self._socket, data)
        except OSError:
            self._deaf = True
        finally:
            self._shared.give(more)
