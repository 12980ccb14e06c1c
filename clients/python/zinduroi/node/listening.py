"""The node's Unix socket: its path, and who holds the other end of a connection."""
from __future__ import annotations

import asyncio
import errno
import fcntl
import grp
import hashlib
import os
import pathlib
import select
import socket
import stat
import struct
from typing import Callable, Dict, Optional

from ..errors import ZinduroiError
from .config import SocketConfig

# How many connections the kernel keeps until they are accepted.
BACKLOG = 256


class SocketRefused(ZinduroiError):
    """The socket can't be made. `name` says why: `InUse` (a process listens there, or another node holds it), `NotASocket` (something
    else is at its path), `NoFolder`, `NoGroup`, or `NotMade`."""

    def __init__(self, name: str, path: pathlib.Path, cause: str = "") -> None:
        super().__init__(name, path, cause)
        self.name = name
        self.path = path
        self.cause = cause

    def __str__(self) -> str:
        return f"socket refused {self.name}: {self.path}" + (f": {self.cause}" if self.cause else "")


class Listener:
    """The socket that a node listens at. PATH`.lock` is locked as long as this is open, so a path has one node at most."""

    def __init__(self, config: SocketConfig) -> None:
        self.path = pathlib.Path(os.path.abspath(config.path))
        self._config = config
        self._lock = self._take_lock()
        self.socket: Optional[socket.socket] = None
        try:
            self._look()
        except BaseException:
            os.close(self._lock)
            raise

    def listen(self) -> socket.socket:
        """Puts the socket in its place, with its mode and group, and listens. What was made there meanwhile is refused, as a store that
        was given the same path."""
        self._look()
        # A name that is this socket's alone: nodes in containers may have one folder and the same number of their process.
        part = self.path.with_name("." + hashlib.sha256(os.fsencode(self.path.name)).hexdigest()[:7])
        made = socket.socket(socket.AF_UNIX)
        try:
            part.unlink(missing_ok=True)
            made.bind(os.fspath(part))
            os.chmod(part, self._config.mode)
            if self._config.group is not None:
                os.chown(part, -1, grp.getgrnam(self._config.group).gr_gid)
            made.listen(BACKLOG)
            made.setblocking(False)
            os.replace(part, self.path)
        except BaseException as error:
            made.close()
            part.unlink(missing_ok=True)
            if isinstance(error, OSError):
                raise SocketRefused("NotMade", self.path, str(error)) from None
            raise
        self.socket = made
        return made

    def deafen(self) -> None:
        """Turns away who connects from now on, and who was not accepted yet. The path stays taken."""
        if self.socket is not None:
            self.socket.close()

    def close(self) -> None:
        """Takes the socket away, and frees its path."""
        if self.socket is not None:
            self.socket.close()
            self.path.unlink(missing_ok=True)
        os.close(self._lock)

    def _take_lock(self) -> int:
        try:
            lock = os.open(f"{self.path}.lock", os.O_RDWR | os.O_CREAT | os.O_CLOEXEC, 0o600)
        except FileNotFoundError:
            raise SocketRefused("NoFolder", self.path) from None
        except OSError as error:
            raise SocketRefused("NotMade", self.path, error.strerror or "") from None
        try:
            fcntl.flock(lock, fcntl.LOCK_EX | fcntl.LOCK_NB)
        except OSError:
            os.close(lock)
            raise SocketRefused("InUse", self.path) from None
        return lock

    def _look(self) -> None:
        """Refuses a path that is not free, and a group that is not there. A socket at which nobody listens is free."""
        try:
            mode = os.lstat(self.path).st_mode
        except FileNotFoundError:
            mode = None
        if mode is not None and not stat.S_ISSOCK(mode):
            raise SocketRefused("NotASocket", self.path)
        if mode is not None and is_live(self.path):
            raise SocketRefused("InUse", self.path)
        if self._config.group is not None:
            try:
                grp.getgrnam(self._config.group)
            except KeyError:
                raise SocketRefused("NoGroup", self.path, self._config.group) from None


def is_live(path: pathlib.Path) -> bool:
    """Whether somebody listens at a socket. One that can't be asked counts as live."""
    with socket.socket(socket.AF_UNIX) as probe:
        probe.settimeout(2)
        return probe.connect_ex(os.fspath(path)) not in (errno.ECONNREFUSED, errno.ENOENT)


def peer_pid(connection: socket.socket) -> int:
    """The process that connected."""
    pid: int = struct.unpack("3i", connection.getsockopt(socket.SOL_SOCKET, socket.SO_PEERCRED, 12))[0]
    return pid


def is_hung_up(connection: socket.socket) -> bool:
    """Whether the last holder of the other end has closed it. One that only says no more is still there."""
    poll = select.poll()
    poll.register(connection, 0)
    return any(events & select.POLLHUP for _, events in poll.poll(0))


class HangUps:
    """Tells when the last holder of the other end of a connection has closed it, whatever is still unread."""

    def __init__(self) -> None:
        self._poll = select.epoll()
        self._loop = asyncio.get_running_loop()
        self._told: Dict[int, Callable[[], None]] = {}
        self._loop.add_reader(self._poll.fileno(), self._ready)

    def watch(self, connection: socket.socket, tell: Callable[[], None]) -> None:
        """Has a function called once, when that happens."""
        self._told[connection.fileno()] = tell
        self._poll.register(connection.fileno(), 0)

    def forget(self, connection: socket.socket) -> None:
        """Before the node closes a connection."""
        if self._told.pop(connection.fileno(), None) is not None:
            self._poll.unregister(connection.fileno())

    def close(self) -> None:
        """Ends the watch."""
        self._loop.remove_reader(self._poll.fileno())
        self._poll.close()

    def _ready(self) -> None:
        for number, events in self._poll.poll(0):
            if events & select.EPOLLHUP:
                self._poll.unregister(number)
                self._told.pop(number)()
            else:
                # An error alone is reported once, if it is asked for.
                with socket.socket(fileno=os.dup(number)) as connection:
                    connection.getsockopt(socket.SOL_SOCKET, socket.SO_ERROR)
