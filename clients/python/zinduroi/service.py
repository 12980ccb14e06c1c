"""The program `serve` as a process, two pipes to it, and the thread that keeps them in step."""
from __future__ import annotations

import contextlib
import os
import queue
import re
import signal
import subprocess
import tempfile
import threading
from typing import IO, Callable, List, Optional, Sequence, Tuple, Union

from .errors import LayoutRefused, LogRefused, ServiceEnded, StoreRefused, ZinduroiError

# The most bytes of lines that go into the pipe before their replies are read. As many go in whole or not at all, and never wait for room.
AT_ONCE = 4096

_NAMED = {"store refused ": StoreRefused, "layout refused ": LayoutRefused, "log refused ": LogRefused}


class Call:
    """Lines on their way to the service, and their replies on the way back. No other call comes between them."""

    __slots__ = ("lines", "replies", "failure", "claim", "dropped", "done", "then")

    def __init__(self, *lines: bytes, then: Optional[Callable[["Call"], None]] = None) -> None:
        self.lines = lines
        self.replies: List[str] = []
        self.failure: Optional[ZinduroiError] = None
        self.claim = threading.Lock()
        self.dropped = False
        self.done = threading.Event()
        self.then = then

    @property
    def reply(self) -> Optional[str]:
        """The reply to the last line, once it is there."""
        return self.replies[-1] if len(self.replies) == len(self.lines) else None


class Service:
    """One process of `serve`.

    A thread writes the lines of calls that wait, and reads their replies, in the order in which callers came. Exceptions that
    interrupt a caller, such as `KeyboardInterrupt`, never reach that thread; so no reply is taken for that of another call."""

    def __init__(self, command: Sequence[str]) -> None:
        self._errors: IO[bytes] = tempfile.TemporaryFile()
        # A session of its own: Ctrl-C at a terminal ends the callers, who still have to leave, and not the service.
        try:
            self._process = subprocess.Popen(command, stdin=subprocess.PIPE, stdout=subprocess.PIPE, stderr=self._errors,
                                             start_new_session=True)
        except BaseException:
            self._errors.close()
            raise
        self._calls: "queue.SimpleQueue[Optional[Call]]" = queue.SimpleQueue()
        self._held: List[Call] = []
        self._door = threading.Lock()
        self._closed = False
        self._ended: Optional[Tuple[int, str]] = None
        self._thread = threading.Thread(target=self._work, name="zinduroi service", daemon=True)
        self._thread.start()

    @property
    def pid(self) -> int:
        """The number of the process."""
        return self._process.pid

    @property
    def has_ended(self) -> bool:
        """Whether the process has ended, as far as a call has noticed."""
        return self._ended is not None

    def run(self, call: Call, stays: bool = False) -> List[str]:
        """Waits for the replies. An exception that comes meanwhile drops the call if it has not begun; else the replies are
        waited for, so that `call.reply` says what happened, and then the exception goes on. A call that `stays` is made before that.
        A further exception ends that wait; the call is made all the same."""
        try:
            self.submit(call)
            call.done.wait()
        except ZinduroiError:
            raise
        except BaseException:
            if not call.claim.acquire(blocking=False):
                call.done.wait()
            else:
                call.dropped = True
                if stays:
                    again = Call(*call.lines)
                    self.submit(again)
                    again.done.wait()
            raise
        if call.failure is not None:
            raise call.failure
        return call.replies

    def submit(self, call: Call) -> None:
        """Puts a call behind those that wait, and does not wait for it. Once it is done, `call.then` is called on the service's
        thread. Raises `ServiceEnded` after `close`."""
        with self._door:
            if self._closed:
                raise ServiceEnded(0, "it was closed") if self._ended is None else ending(*self._ended)
            self._calls.put(call)

    def close(self) -> int:
        """Serves the calls that wait, ends the service and gives its exit status."""
        with self._door:
            if not self._closed:
                self._closed = True
                self._calls.put(None)
        self._thread.join()
        return self._process.wait()

    def kill(self) -> None:
        """Ends the process at once, and with it those that it began: the program may be a script that runs it."""
        if self._ended is None:
            with contextlib.suppress(ProcessLookupError):
                os.killpg(self._process.pid, signal.SIGKILL)

    def _work(self) -> None:
        more = True
        while more:
            calls, more = self._next()
            self._carry_out(calls)
        self._end()

    def _next(self) -> Tuple[List[Call], bool]:
        """Waits for a call, and takes those behind it whose lines still go into the pipe at once; and whether more can come. Its caller
        can no longer drop a call that is taken."""
        calls, self._held = self._held, []
        size = sum(map(len, calls[0].lines)) if calls else 0
        while True:
            try:
                call = self._calls.get(block=not calls)
            except queue.Empty:
                return calls, True
            if call is None:
                return calls, False
            if call.claim.acquire(blocking=False):
                size += sum(map(len, call.lines))
                if calls and size > AT_ONCE:
                    self._held = [call]
                    return calls, True
                calls.append(call)

    def _carry_out(self, calls: List[Call]) -> None:
        """Has calls answered, and then hands them out: callers that woke up between two replies would keep this thread from the next."""
        done = 0
        try:
            if self._ended is None and calls:
                self._write(b"".join(line for call in calls for line in call.lines))
                for call in calls:
                    call.replies += [self._read() for _ in call.lines]
                    done += 1
        except (OSError, MemoryError):
            # Behind a reply that was not read no other one is known to be whose.
            self._end()
        for call in calls[done:]:
            assert self._ended is not None
            call.failure = ending(*self._ended)
        for call in calls:
            call.done.set()
            if call.then is not None:
                call.then(call)

    def _write(self, lines: bytes) -> None:
        """Writes lines. Up to `AT_ONCE` bytes go into the pipe whole or not at all."""
        stdin = self._process.stdin
        assert stdin is not None
        stdin.write(lines)
        stdin.flush()

    def _read(self) -> str:
        """Reads a reply."""
        stdout = self._process.stdout
        assert stdout is not None
        reply: bytes = stdout.readline()
        if not reply.endswith(b"\n"):
            raise BrokenPipeError
        return reply[:-1].decode("utf-8", "replace")

    def _end(self) -> None:
        """Closes the pipes, and finds out how the process ended."""
        if self._ended is not None:
            return
        for pipe in (self._process.stdin, self._process.stdout):
            try:
                assert pipe is not None
                pipe.close()
            except OSError:
                pass
        status = self._process.wait()
        with self._errors:
            self._errors.seek(0)
            self._ended = status, self._errors.read().decode("utf-8", "replace").strip()


def ending(status: int, message: str) -> ZinduroiError:
    """The exception for the end of the program."""
    record = re.search(r"^record ([0-9]+)$", message, re.MULTILINE)
    for line in message.splitlines():
        for start, kind in _NAMED.items():
            if status > 0 and line.startswith(start):
                return kind(line[len(start):], None if record is None else int(record[1]))
    return ServiceEnded(status, message)


def command(program: Union[str, Sequence[str]], *words: Optional[str]) -> List[str]:
    """The words of a command line."""
    first = [program] if isinstance(program, str) else list(program)
    return first + [word for word in words if word is not None]
