"""`zinduroi lock`: runs a command inside a record."""
from __future__ import annotations

import contextlib
import math
import os
import select
import signal
import subprocess
import time
from typing import Any, Callable, Dict, List, Optional, Sequence, Tuple

from .client import NodeClient, NodeGone
from .report import report

# Exit statuses, as in sysexits.h: refused for another reason than time; no node answers; the time is over; the command can't be run.
REFUSED, NO_NODE, TIME_OVER = 64, 69, 75
NOT_FOUND, NOT_RUN = 127, 126
# The seconds of a `wait` without an end, and the first and the longest pause before a node that ended is looked for again.
FOR_EVER = 999_999_999
FIRST_PAUSE, LONGEST_PAUSE = 0.05, 2.0
# How many seconds the node is waited for once the command has ended, and a command that was asked to end.
AFTERWARDS = 60.0
GRACE = 10.0
# How many seconds a node that says nothing is waited for: behind the end of the time, and each time while the command runs.
PATIENCE = 10.0
# How often a command is looked at where the kernel can't tell its end.
LOOK = 0.1
# The signals that go on to the command.
PASSED_ON = (signal.SIGTERM, signal.SIGHUP)

HELP = """Runs COMMAND inside RECORD: as the only one at all sites, or with --read beside other readers. The exit status is that of
COMMAND, 128 and the number of its signal if one ended it; else

  64  refused, not for want of time    69  no node answers    75  the time was over    126, 127  COMMAND can't be run

With --timeout a node that says nothing is waited for 10 seconds longer, and then counts as one that doesn't answer.

COMMAND has the session's fencing number in ZINDUROI_FENCE. It inherits the connection to the node, and its children do too. The
session is left once the last of them has ended, or closed it, even if `lock` itself was killed.

If the node ends meanwhile, the session stays in the site's store and nobody else gets in. COMMAND goes on, and `lock` takes the
session up again by its token once the node is back. From then on `lock` leaves it, when COMMAND and its children have ended; if
`lock` is killed then, an operator has to (`zinduroi status` lists it). With --strict COMMAND gets SIGTERM when the node ends, and
SIGKILL 10 seconds later; the status is 69. If the node does not answer within a minute after the end of COMMAND, `lock` ends, some
30 seconds later at most, and says that the session is still there."""


class Refused(Exception):
    """The node refused, or the time is over. `status` is the exit status."""

    def __init__(self, status: int, text: str) -> None:
        super().__init__(text)
        self.status = status


class Lock:
    """One run of `lock`: a session, which is entered, taken up again, and left."""

    def __init__(self, path: Optional[str], record: str, reads: bool, timeout: Optional[float], strict: bool) -> None:
        self.path = path
        self.record = record
        self.verb = "read" if reads else "write"
        self.strict = strict
        self.end = math.inf if timeout is None else time.monotonic() + timeout
        self.client: Optional[NodeClient] = None
        self.token = ""
        self.kept = False

    # Entering

    def enter(self) -> str:
        """Waits until the session is inside, and gives its fencing number. Raises `Refused` and `NodeGone`."""
        self.client = NodeClient(self.path, _patience(self.end))
        inside = False
        while True:
            try:
                if not self.token:
                    self.token = self._word("token")
                inside = inside or self._wait()
                return self._word(f"fence {self.record} -")
            except NodeGone:
                if not self.token:
                    raise
                try:
                    if time.monotonic() > self.end:
                        raise
                    inside = self._return(self.end, keep=False) in ("reader", "writer")
                except NodeGone as gone:
                    raise NodeGone(f"{gone}; a session of {self.record} may still be in the store: see zinduroi status") from None

    def _wait(self) -> bool:
        left = min(max(0.0, self.end - time.monotonic()), FOR_EVER)
        reply = self._ask(f"wait {left:.3f} {self.verb} {self.record} -", _patience(self.end))
        if reply != "admitted":
            raise Refused(TIME_OVER if reply.startswith("timeout ") else REFUSED, reply)
        return True

    def _word(self, line: str) -> str:
        """The word that a reply has behind the line's verb."""
        reply = self._ask(line, _patience(self.end))
        if reply.startswith("refused"):
            raise Refused(NO_NODE if reply == "refused TooManyConnections" else REFUSED, reply)
        return reply.split(" ")[1]

    def _ask(self, line: str, timeout: Optional[float] = None) -> str:
        assert self.client is not None
        self.client.socket.settimeout(timeout)
        reply = self.client.ask(line)
        self.client.socket.settimeout(None)
        return reply

    def close(self) -> None:
        """Closes this process's end of the connection."""
        if self.client is not None:
            self.client.close()

    # A node that ended

    def _return(self, end: float, keep: bool) -> Optional[str]:
        """Connects anew until the end, and takes up the session. Gives its phase; `None` where it is not in the store. Raises
        `NodeGone`."""
        pause = FIRST_PAUSE
        while True:
            try:
                phase = self._take_up(keep, end)
                break
            except NodeGone:
                if time.monotonic() + pause > end:
                    raise
            time.sleep(pause)
            pause = min(pause * 2, LONGEST_PAUSE)
        return phase

    def _take_up(self, keep: bool, end: float) -> Optional[str]:
        """Connects anew once, and takes up the session. A session whose command runs is kept: it doesn't hold this connection."""
        client = NodeClient(self.path, _patience(end))
        try:
            client.socket.settimeout(_patience(end))
            reply = client.ask(f"resume {self.token}" + (" keep" if keep else ""))
            if reply != "refused NoToken" and not reply.startswith("resumed "):
                raise NodeGone(f"the node at {self.path} answers {reply}")
        except NodeGone:
            client.close()
            raise
        client.socket.settimeout(None)
        self.close()
        self.client = client
        self.kept = keep and reply.startswith("resumed ")
        if reply == "refused NoToken":
            self.token = ""
            return None
        return reply.split(" ")[-1]

    # The command

    def run(self, command: Sequence[str], fence: str) -> int:
        """Runs the command, and gives the exit status."""
        lifeline, held = os.pipe()
        before = {number: signal.signal(number, signal.SIG_IGN) for number in (signal.SIGINT, signal.SIGQUIT)}
        # Where it is ignored, the command's exit status is lost.
        before[signal.SIGCHLD] = signal.signal(signal.SIGCHLD, signal.SIG_DFL)
        # A signal that comes meanwhile is for the command, and waits until it is there.
        mask = signal.pthread_sigmask(signal.SIG_BLOCK, PASSED_ON)
        process, status = self._start(command, fence, held, before, mask)
        os.close(held)
        lost = False
        if process is not None:
            found = {number: signal.signal(number, _passes_on(process)) for number in PASSED_ON}
            signal.pthread_sigmask(signal.SIG_SETMASK, mask)
            lost = self._watch(process)
            status = process.returncode if process.returncode >= 0 else 128 - process.returncode
            for number, handler in found.items():
                signal.signal(number, handler)
        else:
            signal.pthread_sigmask(signal.SIG_SETMASK, mask)
        self._leave(lifeline)
        os.close(lifeline)
        return NO_NODE if lost and self.strict else status

    def _start(self, command: Sequence[str], fence: str, held: int, before: Dict[Any, Any],
               mask: Any) -> "Tuple[Optional[subprocess.Popen[bytes]], int]":
        """Starts the command with the connection, with all files that this process inherited, such as those of an outer `lock`, and with
        the signals as they were; or gives the exit status."""
        assert self.client is not None
        files = (self.client.fileno(), held)

        def prepare() -> None:
            for file in files:
                os.set_inheritable(file, True)
            signal.pthread_sigmask(signal.SIG_SETMASK, mask)
            for number, handler in before.items():
                signal.signal(number, signal.SIG_IGN if handler == signal.SIG_IGN else signal.SIG_DFL)

        try:
            return subprocess.Popen(command, close_fds=False, env={**os.environ, "ZINDUROI_FENCE": fence}, preexec_fn=prepare), 0
        except OSError as error:
            report(f"{command[0]}: {error.strerror}")
            return None, NOT_FOUND if isinstance(error, FileNotFoundError) else NOT_RUN

    def _watch(self, process: "subprocess.Popen[bytes]") -> bool:
        """Waits for the command. Says whether the node ended meanwhile."""
        lost, due, pause = False, math.inf, FIRST_PAUSE
        ended: Optional[int] = None
        # Linux before 5.3 has none, nor has a Python that was built there; or there is no room for one more file.
        with contextlib.suppress(OSError, AttributeError):
            ended = os.pidfd_open(process.pid)
        try:
            while process.poll() is None:
                if self._waits_until_gone(ended, due):
                    lost = True
                    if self.strict:
                        _end(process)
                    due, pause = time.monotonic(), FIRST_PAUSE
                if time.monotonic() >= due and process.poll() is None:
                    try:
                        self._say_lost(self._take_up(keep=True, end=time.monotonic()))
                        due = math.inf
                    except NodeGone:
                        due, pause = time.monotonic() + pause, min(pause * 2, LONGEST_PAUSE)
        finally:
            if ended is not None:
                os.close(ended)
        return lost

    def _waits_until_gone(self, ended: Optional[int], due: float) -> bool:
        """Waits for the command's end, or for a moment where nothing tells that, or until it is due to look for the node. Says
        whether the connection was found to have ended."""
        poll = select.poll()
        if ended is not None:
            poll.register(ended, select.POLLIN)
        if due == math.inf and self.client is not None and self.token:
            poll.register(self.client.fileno(), 0)
        until = due if ended is not None else min(due, time.monotonic() + LOOK)
        found = poll.poll(None if until == math.inf else max(0.0, until - time.monotonic()) * 1000)
        return any(number != ended for number, _ in found)

    def _say_lost(self, phase: Optional[str]) -> None:
        if phase is None:
            report(f"the node knows no session of {self.record} for this command any more, which may not be alone: see zinduroi status")

    # Leaving

    def _leave(self, lifeline: int) -> None:
        """Leaves, if no child of the command lives on. Else a connection that they hold leaves when it ends; a session that was
        taken up again is left by this process, behind them."""
        poll = select.poll()
        poll.register(lifeline, 0)
        if not poll.poll(0):
            if not self._must_wait():
                return
            poll.poll()
        end = time.monotonic() + AFTERWARDS
        try:
            while True:
                try:
                    reply = self._ask(f"leave {self.record} -", _patience(end)) if self.token else ""
                    if reply.startswith("refused ") and reply != "refused NotHere":
                        report(f"the session of {self.record} is not left: {reply}. See zinduroi status")
                    return
                except NodeGone:
                    if time.monotonic() > end:
                        raise
                    self._return(end, keep=False)
        except NodeGone:
            report(f"no node answers, and the session of {self.record} is still in the store: see zinduroi status")

    def _must_wait(self) -> bool:
        """Whether the session doesn't hang on the connection that the command's children hold."""
        assert self.client is not None
        poll = select.poll()
        poll.register(self.client.fileno(), 0)
        return self.kept or bool(poll.poll(0))


def _patience(end: float) -> Optional[float]:
    """How many seconds a node may take to answer where the caller waits until this end."""
    return None if end == math.inf else max(0.0, end - time.monotonic()) + PATIENCE


def _passes_on(process: "subprocess.Popen[bytes]") -> Callable[[int, Any], None]:
    """A handler that passes a signal on to the command."""
    return lambda number, _: _send(process, number)


def _send(process: "subprocess.Popen[bytes]", number: int) -> None:
    """Sends a signal to the command, if it may: one that runs as another user is out of reach."""
    try:
        process.send_signal(number)
    except OSError as error:
        report(f"{signal.Signals(number).name} can't be sent to the command: {error.strerror}")


def _end(process: "subprocess.Popen[bytes]") -> None:
    """Has a command end: by SIGTERM, and later by SIGKILL."""
    _send(process, signal.SIGTERM)
    try:
        process.wait(GRACE)
    except subprocess.TimeoutExpired:
        _send(process, signal.SIGKILL)
        process.wait()


def run_lock(path: Optional[str], record: str, reads: bool, timeout: Optional[float], strict: bool, command: List[str]) -> int:
    """Carries out `lock`, and gives the exit status."""
    if "\n" in record:
        report(f"a record has no line feed in its name: {record!r}")
        return REFUSED
    lock = Lock(path, record, reads, timeout, strict)
    try:
        return lock.run(command, lock.enter())
    except Refused as refused:
        report(str(refused))
        return refused.status
    except NodeGone as gone:
        report(str(gone))
        return NO_NODE
    except OSError as error:
        report(f"{command[0]} can't be run: {error.strerror or error}")
        return NOT_RUN
    finally:
        lock.close()
