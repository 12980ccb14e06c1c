"""One site: a running service of the program, and the calls that it answers."""
from __future__ import annotations

import contextlib
import os
import subprocess
import threading
import time
from types import TracebackType
from typing import Callable, Dict, List, NamedTuple, Optional, Sequence, Tuple, Type, Union

from .errors import MissingSeats, NoSeat, Refused, TimedOut, WriterAnnounced, ZinduroiError, refusal
from .service import Call, Service, command, ending

Path = Union[str, "os.PathLike[str]"]

# The first and the longest pause, in seconds, before a caller asks again; each is half as long again as the one before.
FIRST_PAUSE = 0.005
LONGEST_PAUSE = 0.5


class Counts(NamedTuple):
    """What a site knows of a record at itself: its free seats, the seats that its sessions take, and its writers that wait or
    are inside."""

    rights: int
    inside: int
    unfinished: int


class Session(NamedTuple):
    """A session at a site: the holder, and `reader`, `waiting` or `writer`."""

    holder: int
    phase: str


class Gave(NamedTuple):
    """What `help` gave: so many seats, to this site."""

    site: int
    seats: int


class Record(NamedTuple):
    """A record of a layout: its name, its seats, and the site that has them at the start."""

    name: str
    seats: int
    home: int


class Layout(NamedTuple):
    """How many sites a layout has, and its records in their order."""

    sites: int
    records: Tuple[Record, ...]


def read_layout(layout: Optional[Path] = None, program: Union[str, Sequence[str]] = "seat_cli") -> Layout:
    """What a layout file says, or the built-in layout. The program reads it: `play --tables` of an empty script."""
    words = command(program, "play", "--tables", *_option("--layout", layout))
    ran = subprocess.run(words, stdin=subprocess.DEVNULL, capture_output=True, text=True, check=False)
    if ran.returncode != 0:
        raise ending(ran.returncode, ran.stderr.strip())
    seats: Dict[str, int] = {}
    homes: Dict[str, int] = {}
    sites = 0
    for line in ran.stdout.splitlines()[1:]:
        words = line.split()
        # The head of the table of sessions; a record may be named so too.
        if words[:2] == ["record", "site"]:
            break
        name, site, rights = words[0], int(words[1]), int(words[2])
        sites = max(sites, site + 1)
        seats[name] = seats.get(name, 0) + rights
        if rights > 0:
            homes[name] = site
    return Layout(sites, tuple(Record(name, seats[name], homes[name]) for name in seats))


class Site:
    """A site, served by a process of its own as long as this object is open. Any number of threads may use it.

    `store` is the site's file. It has to be there, unless `create` is set; then it must not be there. `group` is the name of
    the group of sites that this one belongs to: deltas of other groups are refused (`WrongGroup`). `wait` is how many seconds to
    wait while another process has the store open. `log` is a file that the site's log is appended to, for `judge`. `program` is
    the program's path, or the words of a command that ends with it. With `plain` deltas travel without a mark, so nothing finds
    out that one was damaged or is of another layout; open all sites alike. With `grow` a store that was made for fewer sites
    gets all sites of the layout, for good. `together` is how many calls that wait are committed together at most, from 1 to 256,
    and 1 where there is a log: one commit for calls of several threads takes the time of one call.

    Raises `StoreRefused`, `LayoutRefused` or `LogRefused` if the service doesn't start. Each call raises the subclass of
    `Refused` that has the name of the refusal, and `ServiceEnded` if the process ends before it replies."""

    def __init__(self, store: Path, site: int, layout: Optional[Path] = None, group: Optional[str] = None, create: bool = False,
                 wait: float = 0, log: Optional[Path] = None, program: Union[str, Sequence[str]] = "seat_cli", plain: bool = False,
                 grow: bool = False, together: int = 1) -> None:
        self.site = site
        self.store = os.fspath(store)
        self.layout = None if layout is None else os.fspath(layout)
        self.group = group
        self.program = program
        self._plain = plain
        self._log = log
        self._wait = wait
        self._together = together
        self._listeners: List[Callable[[], None]] = []
        self._opening = threading.Lock()
        self._closed = False
        self._killed = False
        self._starting: Optional[Service] = None
        self._service = self._start(create, grow, wait)

    def _start(self, create: bool, grow: bool, wait: float) -> Service:
        words = command(self.program, "serve", f"--site={self.site}", "--store", self.store,
                        *_option("--layout", self.layout), *_option("--group", self.group), "--plain" if self._plain else None,
                        "--create" if create else None, "--grow" if grow else None,
                        *_option("--wait", str(int(-(-wait // 1))) if wait > 0 else None), *_option("--log", self._log),
                        *_option("--together", str(self._together) if self._together > 1 else None))
        service = self._starting = Service(words)
        try:
            if self._killed:
                service.kill()
            # A line that can't be read changes nothing and is in no log. Its reply shows that the store is open.
            service.run(Call(b"\n"))
        except BaseException:
            service.kill()
            service.close()
            raise
        finally:
            self._starting = None
        return service

    def reopen(self, wait: Optional[float] = None) -> bool:
        """Starts the service anew if a call has found that it ended, as after a kill. Sessions that were inside are inside
        still. Says whether there was anything to do: of several threads that call this, one starts the service. Not after
        `close`."""
        with self._opening:
            if self.is_over or not self._service.has_ended:
                return False
            self._service.close()
            self._service = self._start(False, False, self._wait if wait is None else wait)
            return True

    def kill(self) -> None:
        """Ends the service at once, and one that `reopen` is starting; no other one is started. `close` is still to be called."""
        self._killed = True
        for service in (self._starting, self._service):
            if service is not None:
                service.kill()

    @property
    def is_over(self) -> bool:
        """Whether `close` or `kill` was called: the service is not started anew."""
        return self._closed or self._killed

    def close(self) -> int:
        """Ends the service, behind the calls that wait, and gives its exit status: 0, or 5 if the site froze, or that of an
        earlier end. Readers and writers that are inside stay inside."""
        with self._opening:
            self._closed = True
            return self._service.close()

    def __enter__(self) -> Site:
        return self

    def __exit__(self, kind: Optional[Type[BaseException]], value: Optional[BaseException],
                 trace: Optional[TracebackType]) -> None:
        self.close()

    @property
    def pid(self) -> int:
        """The number of the process that serves the site."""
        return self._service.pid

    # Calls

    def call(self, line: str) -> str:
        """The reply to a line, as docs/FORMATS.md has it. Raises the refusal if it is one."""
        return self._answers(_call_of(line))[0]

    def submit(self, line: bytes, then: Callable[[Call], None]) -> None:
        """Has a line answered, and does not wait. `then` gets the call, with `replies` or with `failure`, on another thread; it
        must not raise. Raises `ServiceEnded` if the site was closed."""
        if b"\n" in line:
            raise ValueError("a line has no line feed in it")
        self._service.submit(Call(line + b"\n", then=then))

    def _answers(self, call: Call, stays: bool = False) -> List[str]:
        replies = self._service.run(call, stays)
        for reply in replies:
            refused = refusal(reply)
            if refused is not None:
                raise refused
        return replies

    def announce(self, record: str, holder: int) -> int:
        """Announces a writer: it is the K-th that this site announced for the record."""
        number = int(self.call(f"announce {record} {holder}").split(" ")[1])
        self.tell_listeners()
        return number

    def leave(self, record: str, holder: int) -> str:
        """Ends a session: `reader` or `writer`, which was inside, or `withdrawn`, a writer that waited. An exception that comes
        meanwhile goes on behind the call, since nobody else would make it."""
        what = self._answers(_call_of(f"leave {record} {holder}"), stays=True)[0].split(" ")[-1]
        if what != "reader":
            self.tell_listeners()
        return what

    def give(self, record: str, site: int, seats: int) -> None:
        """Gives free seats to another site. They arrive there with a delta."""
        self.call(f"give {record} {site} {seats}")
        self.tell_listeners()

    def help(self, record: str) -> Gave:
        """Gives free seats where they help: to the site of a waiting writer; or those above an even share to the next site."""
        gave = self._help(record)
        self.tell_listeners()
        return gave

    def _help(self, record: str) -> Gave:
        """The same for an exchange, which needs not be told."""
        words = self.call(f"help {record}").split(" ")
        return Gave(int(words[1]), int(words[2]))

    def send(self) -> str:
        """A delta: all that the site knows, as a line of JSON behind its mark."""
        return self.call("send")

    def take(self, text: str) -> int:
        """Merges a delta, and gives the number of counters that rose."""
        return int(self.call(f"take {text}").split(" ")[1])

    def show(self, record: str) -> Counts:
        """The site's free seats of a record, the seats that its sessions take, and its unfinished writers."""
        return _counts_in(self.call(f"show {record}"))

    def sessions(self, record: str) -> List[Session]:
        """The sessions at the site, in order of arrival."""
        return _sessions_in(self.call(f"sessions {record}"))

    def fence(self, record: str, holder: int) -> int:
        """The fencing number of a reader or writer that is inside: greater than that of each writer that left the record
        before, at any site. Raises `NotHere` if the holder is not inside, as while a writer waits. A session has to show one
        number in all of its stay, and this one grows: so ask once. `inside.fence` does."""
        return int(self.call(f"fence {record} {holder}").split(" ")[1])

    def look(self, record: str) -> Tuple[Counts, List[Session]]:
        """What `show` and `sessions` give, of the same moment: no call of another thread comes between them."""
        shown, listed = self._answers(_call_of(f"show {record}", f"sessions {record}"))
        return _counts_in(shown), _sessions_in(listed)

    # Sessions

    def read(self, record: str, holder: int, timeout: Optional[float] = 0) -> Reading:
        """A reader, for a `with` statement: enters, and leaves at the end, whatever happens. `with .. as inside` gives its
        fencing number as `inside.fence`.

        If there is no seat, or a writer announced itself, it asks again until `timeout` seconds have passed; 0 asks once
        and raises the refusal, and `None` asks for ever. Raises `TimedOut` in the end."""
        return Reading(self, record, holder, timeout)

    def write(self, record: str, holder: int, timeout: Optional[float] = None) -> Writing:
        """A writer, for a `with` statement: announces itself, asks until its site has all seats, and leaves at the end.
        `with .. as inside` gives its fencing number as `inside.fence`.

        After `timeout` seconds, and after any exception, it withdraws. `None` asks for ever, 0 once. Raises `TimedOut` if it
        was not admitted in time, and has withdrawn. After `ServiceEnded` it may still be announced. Seats arrive only if deltas do: an `Exchange` at each site carries them."""
        return Writing(self, record, holder, timeout)

    # Listeners

    def listen(self, listener: Callable[[], None]) -> None:
        """Has a function called after each change that other sites should hear of at once: a writer was announced, or left, or
        seats were given."""
        self._listeners.append(listener)

    def tell_listeners(self) -> None:
        """Calls the functions that listen."""
        for listener in self._listeners:
            listener()


class _Visit:
    """A session for a `with` statement."""

    def __init__(self, site: Site, record: str, holder: int, timeout: Optional[float]) -> None:
        self.site = site
        self.record = record
        self.holder = holder
        self.timeout = timeout
        self._number: Optional[int] = None
        self._asking = threading.Lock()

    @property
    def fence(self) -> int:
        """The session's fencing number, to show to what the session uses; a `Fence` there compares it. It is asked for when
        this is first read, and stays the same until the next `with`. Raises `NotHere` if the session is no longer inside when
        it is asked for, as where somebody has called `leave` for it."""
        with self._asking:
            if self._number is None:
                self._number = self.site.fence(self.record, self.holder)
            return self._number

    def __exit__(self, kind: Optional[Type[BaseException]], value: Optional[BaseException],
                 trace: Optional[TracebackType]) -> None:
        self.site.leave(self.record, self.holder)

    def _begin(self, verb: str) -> None:
        """Makes a call that begins the session. If an exception interrupts it that comes from elsewhere, the session that was
        begun nevertheless is ended."""
        call = _call_of(f"{verb} {self.record} {self.holder}")
        try:
            self.site._answers(call)
        except BaseException:
            if call.reply is not None:
                if refusal(call.reply) is None:
                    self._leave_quietly()
            elif not call.dropped and call.failure is None:
                self._leave_behind(call)
            raise
        self._number = None

    def _leave_behind(self, call: Call) -> None:
        """Has the session ended behind a call that was interrupted twice: it is made, and nobody waits for its reply. If that is a
        refusal, the holder's session is none that the call began, and stays."""
        leave = _call_of(f"leave {self.record} {self.holder}")

        def drop_if_refused(call: Call) -> None:
            if call.reply is not None and refusal(call.reply) is not None:
                leave.claim.acquire(blocking=False)

        call.then = drop_if_refused
        # The reply may have come before that.
        drop_if_refused(call)
        with contextlib.suppress(ZinduroiError):
            self.site._service.submit(leave)

    def _leave_quietly(self) -> None:
        """Ends the session beside an exception that is more important."""
        try:
            self.site.leave(self.record, self.holder)
        except ZinduroiError:
            pass

    def _ask_again(self, ask: Callable[[], object], until: Tuple[Type[Refused], ...]) -> None:
        """Asks until it is not refused, by one of these refusals, or the time is over."""
        end = None if self.timeout is None else time.monotonic() + self.timeout
        pause = FIRST_PAUSE
        while True:
            try:
                ask()
                return
            except until as refused:
                last = refused
            left = pause if end is None else end - time.monotonic()
            if not left > 0:
                raise TimedOut(last) from None
            time.sleep(min(pause, left))
            pause = min(pause * 1.5, LONGEST_PAUSE)


class Reading(_Visit):
    """A reader, for a `with` statement."""

    def __enter__(self) -> Reading:
        if self.timeout == 0:
            self._begin("read")
        else:
            self._ask_again(lambda: self._begin("read"), (NoSeat, WriterAnnounced))
        return self


class Writing(_Visit):
    """A writer, for a `with` statement."""

    def __enter__(self) -> Writing:
        self._begin("announce")
        try:
            self.site.tell_listeners()
            self._ask_again(lambda: self.site.call(f"write {self.record} {self.holder}"), (MissingSeats,))
        except (Refused, TimedOut):
            # If this fails, its exception goes on: the announcement may still stand.
            self.site.leave(self.record, self.holder)
            raise
        except BaseException:
            self._leave_quietly()
            raise
        return self


def _call_of(*lines: str) -> Call:
    if any("\n" in line for line in lines):
        raise ValueError("a line has no line feed in it")
    return Call(*(line.encode("utf-8") + b"\n" for line in lines))


def _counts_in(reply: str) -> Counts:
    words = reply.split(" ")
    return Counts(int(words[1]), int(words[3]), int(words[5]))


def _sessions_in(reply: str) -> List[Session]:
    _, _, rest = reply.partition(" ")
    parts = (part.split(" ") for part in rest.split(", ")) if rest else ()
    return [Session(int(holder), phase) for holder, phase in parts]


def _option(name: str, value: Optional[Path]) -> Tuple[str, ...]:
    return () if value is None else (name, os.fspath(value))
