"""A connection to a node, for programs in Python."""
from __future__ import annotations

import contextlib
import json
import math
import os
import socket
import struct
from types import TracebackType
from typing import Any, Dict, Optional, Type

from ..errors import ZinduroiError

# The socket of a node where neither an option nor the variable ZINDUROI_SOCKET names one.
DEFAULT_SOCKET = "/run/zinduroi/node.sock"


class NodeGone(ZinduroiError):
    """No node answers at the socket, or the connection ended before the reply. Then the call may have been carried out. `status` also
    raises it where the node refuses to tell."""


class NodeClient:
    """A connection to the node at a socket. Its sessions are left when it is closed by its last holder, and a child process that
    inherits it holds it too. One thread at a time may use it.

    Raises `NodeGone` if no node answers. `timeout` is that of its `socket`, in seconds, and of the connecting too."""

    def __init__(self, path: "str | os.PathLike[str] | None" = None, timeout: Optional[float] = None) -> None:
        self.path = socket_path(path)
        self._read = b""
        self._waits = False
        try:
            self.socket = socket.socket(socket.AF_UNIX)
            try:
                if timeout is not None:
                    # With a timeout of its own a socket of Python waits for no place in the node's queue.
                    self.socket.setsockopt(socket.SOL_SOCKET, socket.SO_SNDTIMEO, struct.pack("ll", math.ceil(timeout), 0))
                self.socket.connect(self.path)
                self.socket.settimeout(timeout)
            except BaseException:
                self.socket.close()
                raise
        except OSError as error:
            raise NodeGone(f"no node answers at {self.path}: {error.strerror or error}") from None

    def ask(self, line: str) -> str:
        """The node's reply to a line. Raises `NodeGone`. If anything interrupts it, as Ctrl-C or a timeout of the socket, each further
        line raises `NodeGone`, since the late reply would be taken for its own; sessions stay until `close`."""
        if "\n" in line:
            raise ValueError("a line has no line feed in it")
        data = line.encode("utf-8", "surrogateescape") + b"\n"
        if self._waits:
            raise NodeGone(f"an earlier line to the node at {self.path} got no reply, and it may still come: close this connection")
        self._waits = True
        try:
            # A node that turned the connection away has said so, and doesn't read the line.
            with contextlib.suppress(BrokenPipeError, ConnectionResetError):
                self.socket.sendall(data)
            parts = [self._read]
            while b"\n" not in parts[-1]:
                parts.append(self.socket.recv(65536))
                if not parts[-1]:
                    raise NodeGone(f"the node at {self.path} ended")
        except TimeoutError:
            raise NodeGone(f"the node at {self.path} does not answer in time") from None
        except OSError as error:
            raise NodeGone(f"the node at {self.path} ended: {error.strerror or error}") from None
        reply, _, self._read = b"".join(parts).partition(b"\n")
        self._waits = False
        return reply.decode("utf-8", "replace")

    def status(self) -> Dict[str, Any]:
        """What the node tells of its state. Raises `NodeGone` also where it refuses that."""
        reply = self.ask("status")
        if reply.startswith("refused "):
            raise NodeGone(f"the node at {self.path} answers {reply}")
        state: Dict[str, Any] = json.loads(reply)
        return state

    def fileno(self) -> int:
        """The number of the connection's file."""
        return self.socket.fileno()

    def close(self) -> None:
        """Closes this process's end. The sessions are left if no other process holds it."""
        self.socket.close()

    def __enter__(self) -> NodeClient:
        return self

    def __exit__(self, kind: Optional[Type[BaseException]], value: Optional[BaseException],
                 trace: Optional[TracebackType]) -> None:
        self.close()


def socket_path(path: "str | os.PathLike[str] | None" = None) -> str:
    """The path that is given, or that of ZINDUROI_SOCKET, or the default one."""
    return os.fspath(path) if path is not None else os.environ.get("ZINDUROI_SOCKET") or DEFAULT_SOCKET
