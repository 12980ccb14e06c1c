"""The exchange of one site: a thread that helps, sends and takes."""
from __future__ import annotations

import collections
import dataclasses
import json
import os
import pathlib
import threading
import time
from types import TracebackType
from typing import Callable, Counter, Deque, Optional, Sequence, Type

from .errors import Frozen, Memory, NoPlan, OwnRowAhead, Refused, StoreFault, ZinduroiError
from .site import Path, Site, read_layout
from .transports import Transport, TransportFailed

# The least time, in seconds, between two rounds, however many changes there are.
SHORTEST = 0.02
# A round that lasts for more seconds is told of: its transport may hang, as a folder of a server that is away.
LONG = 30.0
# How many texts are taken again for which the program found no memory: one of each site.
AGAIN = 16
# The most characters of what a failure said that are kept.
LONGEST_TEXT = 200


@dataclasses.dataclass
class Tally:
    """What an exchange has done: rounds; texts that it sent, and that it took; counters that rose; hand-overs, and the seats
    in them; by name, what the site refused and how the transport failed; and what its last failure said."""

    rounds: int = 0
    sent: int = 0
    took: int = 0
    rose: int = 0
    gave: int = 0
    seats: int = 0
    refused: Counter[str] = dataclasses.field(default_factory=collections.Counter)
    failed: Counter[str] = dataclasses.field(default_factory=collections.Counter)
    failed_text: Optional[str] = None


class Exchange:
    """Tells other sites what a site knows, and the site what others send, on a thread.

    A round takes the texts that have arrived, calls `help` for each record, and publishes the site's delta. If the site
    knows nothing new since the last round, it calls no `help` and publishes nothing, but in every `every`-th round it
    publishes anyway, in case a text was lost. Rounds are `interval` seconds apart; the next one comes at once after a
    change that others should hear of: a writer was announced, or left, or seats were given. When the transport says that a
    text has arrived, it is taken at once; if it brought something new, `help` is called, and if that gave seats, the delta
    is published at once too. Callers of the site come between any two lines of a round, but not between the two that ask for
    the state of a record.

    The site's own last text is taken too, when the exchange starts: a store that is older than what the site once
    published is found by that (`OwnRowAhead`).

    Set `helps` to `False` to have the exchange only send and take, as while a site that has announced a writer is cut off: it
    would get all free seats.

    Whatever the transport raises is counted, and tried again. `failure` says why the last round was not finished: `ServiceEnded`,
    until `Site.reopen` starts the service anew; a refusal, as `Memory`; a fault of another kind; or `OwnRowAhead`, `StoreFault` or
    `Frozen`, which end the thread. `status` is a file that gets the site's state after each round, for `python3 -m zinduroi watch`."""

    def __init__(self, site: Site, transport: Transport, interval: float = 1.0, every: int = 10,
                 records: Optional[Sequence[str]] = None, status: Optional[Path] = None) -> None:
        self.site = site
        self.transport = transport
        self.interval = interval
        self.every = every
        if records is None:
            records = [record.name for record in read_layout(site.layout, site.program).records]
        self.records = tuple(records)
        self.helps = True
        self.failure: Optional[ZinduroiError] = None
        self._status = status
        self._tally = Tally()
        self._arrived: Deque[str] = collections.deque()
        self._later: Deque[str] = collections.deque(maxlen=AGAIN)
        self._began: Optional[float] = None
        self._known: Optional[str] = None
        self._published: Optional[str] = None
        self._quiet = 0
        self._wake = threading.Event()
        self._urgent = threading.Event()
        self._closed = threading.Event()
        self._guard = threading.Lock()
        self._thread: Optional[threading.Thread] = None

    def start(self, patient: bool = False) -> Exchange:
        """Takes the texts that have arrived, and starts the thread. Raises `OwnRowAhead` if they show that the store is older
        than what the site once published, and `OSError` if the folder for texts is not there. With `patient` such a folder is
        looked for again, as one that goes away later."""
        if self._thread is None:
            self._take_all(starts=not patient)
            self.site.listen(self.wake)
            listen: Optional[Callable[[Callable[[], None]], None]] = getattr(self.transport, "listen", None)
            if listen is not None:
                listen(self._wake.set)
            self._thread = threading.Thread(target=self._work, name="zinduroi exchange", daemon=True)
            self._thread.start()
        return self

    def close(self, patience: Optional[float] = None) -> bool:
        """Ends the thread behind a last round, and closes the transport. Close the site after that. A thread that has not ended within
        `patience` seconds, as where the transport hangs, is left: it ends with the process. Says whether it has ended."""
        self._closed.set()
        self._wake.set()
        if self._thread is not None:
            self._thread.join(patience)
            if self._thread.is_alive():
                return False
        close: Optional[Callable[[], None]] = getattr(self.transport, "close", None)
        if close is not None:
            close()
        return True

    def why_failing(self) -> Optional[str]:
        """Why rounds are not finished, `None` where they are: what `failure` says, or that one lasts for long."""
        failure, began = self.failure, self._began
        if failure is not None:
            return str(failure)
        lasts = 0.0 if began is None else time.monotonic() - began
        return f"a round lasts for {lasts:.0f} seconds" if lasts > LONG else None

    def __enter__(self) -> Exchange:
        return self.start()

    def __exit__(self, kind: Optional[Type[BaseException]], value: Optional[BaseException],
                 trace: Optional[TracebackType]) -> None:
        self.close()

    def wake(self) -> None:
        """Lets the next round come at once."""
        self._urgent.set()
        self._wake.set()

    def tally(self) -> Tally:
        """What was done so far."""
        with self._guard:
            return dataclasses.replace(self._tally, refused=self._tally.refused.copy(), failed=self._tally.failed.copy())

    def _work(self) -> None:
        closed, due = False, time.monotonic()
        while not closed:
            self._wake.clear()
            closed = self._closed.is_set()
            whole = closed or self._urgent.is_set() or time.monotonic() >= due
            if whole:
                self._urgent.clear()
                due = time.monotonic() + self.interval
            self._began = time.monotonic()
            try:
                self.round() if whole else self._answer()
                self.failure = None
            except (OwnRowAhead, StoreFault, Frozen) as failure:
                self.failure = failure
                return
            except Refused as refused:
                self.failure = refused
                self._count_refusal(refused)
            except ZinduroiError as failure:
                # The service ended; `failed` has what the transport does.
                self.failure = failure
            except Exception as fault:
                # As where this process has no memory for a text.
                self.failure = ZinduroiError(f"{type(fault).__name__}: {fault}")
                self._count_failure(fault)
            self._began = None
            if not closed:
                self._closed.wait(min(SHORTEST, self.interval))
                self._wake.wait(max(0.0, due - time.monotonic()))

    def round(self) -> None:
        """One round, on the caller's thread."""
        self._count("rounds")
        self._take_all()
        text = self.site.send()
        if text != self._known:
            if self._help_all():
                text = self.site.send()
            self._known = text
        self._send(text)
        self._tell_status()

    def _answer(self) -> None:
        """Takes what has arrived, and publishes what the site gives in answer."""
        if self._take_all() > 0 and self._help_all():
            self._known = self.site.send()
            self._send(self._known)

    def _take_all(self, starts: bool = False) -> int:
        """Takes the texts that have arrived, and gives the number of counters that rose. Those that the service could not be asked
        for, as it had ended, come first, and then those for which it found no memory: their transport doesn't tell them again, and their
        sites may send no more."""
        self._arrived.extend(self._later)
        self._later.clear()
        rose = self._take_arrived()
        try:
            self._arrived.extend(self.transport.messages())
        except Exception as failed:
            # At the start a folder that is not there was mistyped, and will never be there; what no transport should raise is a fault.
            later = isinstance(failed, (OSError, TransportFailed)) and not isinstance(failed, (FileNotFoundError, NotADirectoryError))
            if starts and not later:
                raise
            self._count_failure(failed)
        return rose + self._take_arrived()

    def _take_arrived(self) -> int:
        rose = 0
        while self._arrived:
            # A line feed would end the call. With a blank in its place the program says what is wrong with the text.
            text = self._arrived[0].rstrip("\n").replace("\n", " ")
            if text != self._published:
                rose += self._take(text)
            self._arrived.popleft()
        return rose

    def _take(self, text: str) -> int:
        try:
            rose = self.site.take(text)
        except (OwnRowAhead, Frozen, StoreFault):
            raise
        except Refused as refused:
            self._count_refusal(refused)
            if isinstance(refused, Memory) and text not in self._later:
                self._later.append(text)
            return 0
        self._count("took")
        self._count("rose", rose)
        return rose

    def _help_all(self) -> bool:
        """Helps at each record in turn. Says whether seats were given."""
        gave = False
        for record in self.records if self.helps else ():
            gave = self._help(record) or gave
        return gave

    def _help(self, record: str) -> bool:
        try:
            seats = self.site._help(record).seats
        except NoPlan:
            return False
        except (Frozen, StoreFault):
            raise
        except Refused as refused:
            self._count_refusal(refused)
            return False
        self._count("gave")
        self._count("seats", seats)
        return True

    def _send(self, text: str) -> None:
        self._quiet += 1
        if text == self._published and self._quiet < self.every:
            return
        try:
            self.transport.publish(self.site.site, text)
        except Exception as failed:
            self._count_failure(failed)
            self._published = None
            return
        self._count("sent")
        self._published = text
        self._quiet = 0

    def _count(self, what: str, number: int = 1) -> None:
        with self._guard:
            setattr(self._tally, what, getattr(self._tally, what) + number)

    def _count_refusal(self, refused: Refused) -> None:
        with self._guard:
            self._tally.refused[refused.name] += 1

    def _count_failure(self, failed: Exception) -> None:
        with self._guard:
            self._tally.failed[type(failed).__name__] += 1
            self._tally.failed_text = f"{type(failed).__name__}: {failed}"[:LONGEST_TEXT]

    def _tell_status(self) -> None:
        if self._status is not None:
            try:
                write_status(self._status, {**status_of(self.site, self.records), "exchange": vars(self.tally())})
            except OSError as failed:
                self._count_failure(failed)


def status_of(site: Site, records: Sequence[str]) -> "dict[str, object]":
    """A site's state: for each record its free seats, the seats that are taken, its unfinished writers, and its sessions."""
    found = {}
    for record in records:
        counts, sessions = site.look(record)
        found[record] = {**counts._asdict(), "sessions": [list(session) for session in sessions]}
    return {"site": site.site, "time": time.time(), "records": found}


def write_status(path: Path, status: "dict[str, object]") -> None:
    """Puts a state into a file, whole or not at all."""
    part = pathlib.Path(f"{os.fspath(path)}.part")
    part.write_text(json.dumps(status) + "\n", encoding="utf-8")
    os.replace(part, path)
