"""Callers that wait: for each record, first come first served at this site.

Only the first of a queue asks the store, and those whose writer is announced already. They ask when something has changed: a
session of this site ended, a delta brought something new, or the one before has left the queue. A slow clock is a safety net."""
from __future__ import annotations

import asyncio
import itertools
from typing import Callable, Dict, List, Optional

from .book import Session
from .desk import Desk

# How many seconds the first of a queue waits before it asks again though nothing has changed.
SAFETY = 5.0

# The refusals that waiting may mend.
_MENDED = ("NoSeat", "WriterAnnounced", "MissingSeats", "TooManyWriters")


class Waiter:
    """A caller in a queue. `is_over` says whether its connection has ended, or the node stops; `is_own`, whether no other connection
    has taken up its session."""

    def __init__(self, session: Session, verb: str, is_over: Callable[[], bool], is_own: Callable[[], bool] = lambda: True) -> None:
        self.session = session
        self.verb = verb
        self.is_over = is_over
        self.is_own = is_own
        self.changed = asyncio.Event()

    def withdraws(self) -> bool:
        """Whether the end of the wait withdraws its writer. A session that was kept ends with no connection."""
        return self.session.phase == "waiting" and self.is_own() and not (self.session.kept and self.is_over())


class Queues:
    """The queues of all records."""

    def __init__(self, safety: float = SAFETY) -> None:
        self._queues: Dict[str, List[Waiter]] = {}
        self._safety = safety

    async def wait(self, desk: Desk, waiter: Waiter, seconds: float) -> str:
        """Asks until the session is admitted. Gives the answer, or `timeout` and the last refusal. Where it is not admitted nothing
        is left announced, but a kept session whose connection has ended, one that another connection has taken up, and one that the store
        does not withdraw; then the answer says why not. With 0 seconds it asks once, before the queue."""
        queue = self._queues.setdefault(waiter.session.record, [])
        queue.append(waiter)
        try:
            return await self._until_admitted(desk, waiter, queue, asyncio.get_running_loop().time() + seconds, seconds == 0)
        finally:
            queue.remove(waiter)
            self.wake(waiter.session.record)

    def wake(self, record: str) -> None:
        """Something of a record has changed at this site."""
        queue = self._queues.get(record, [])
        for waiter in queue:
            if _has_turn(waiter, queue):
                waiter.changed.set()

    def wake_all(self) -> None:
        """Something of any record may have changed."""
        for record in self._queues:
            self.wake(record)

    def words(self, record: str) -> List[str]:
        """The holders that wait for a record, in their order."""
        return [waiter.session.word for waiter in self._queues.get(record, [])]

    def first_readers(self, record: str) -> List[Session]:
        """The readers that wait for a record before any writer, in their order."""
        waiters = itertools.takewhile(lambda waiter: waiter.verb == "read", self._queues.get(record, []))
        return [waiter.session for waiter in waiters]

    async def _until_admitted(self, desk: Desk, waiter: Waiter, queue: List[Waiter], end: float, once: bool) -> str:
        last: Optional[str] = None
        while True:
            # A change may have come while it had its turn, and find it without one, as where an operator has ended its session.
            waiter.changed.clear()
            if not waiter.is_own():
                last = "refused InUse"
                break
            if once or _has_turn(waiter, queue):
                last = await _try(desk, waiter)
                if not _is_mended(last):
                    break
            if not await self._pause(waiter, end):
                last = f"timeout {last or f'refused Queued {queue.index(waiter)}'}"
                break
        refused = await desk.withdraw(waiter.session, waiter.withdraws) if waiter.withdraws() else None
        return last if refused is None or last == "refused StoreFault" else refused

    async def _pause(self, waiter: Waiter, end: float) -> bool:
        """Waits for a change. Says whether there is still time."""
        loop = asyncio.get_running_loop()
        left = end - loop.time()
        if left > 0 and not waiter.is_over():
            try:
                await asyncio.wait_for(waiter.changed.wait(), min(left, self._safety))
            except asyncio.TimeoutError:
                pass
        return loop.time() < end and not waiter.is_over()


def _has_turn(waiter: Waiter, queue: List[Waiter]) -> bool:
    """Whether a caller may ask: the first one, and each announced writer, for which the first one may be waiting."""
    return queue[0] is waiter or waiter.session.phase == "waiting"


async def _try(desk: Desk, waiter: Waiter) -> str:
    """Asks the store once; a writer announces itself first."""
    if waiter.verb == "write" and waiter.session.phase is None:
        reply = await desk.ask(waiter.session, "announce")
        if reply.startswith("refused"):
            return reply
    return await desk.ask(waiter.session, waiter.verb)


def _is_mended(reply: str) -> bool:
    words = reply.split(" ")
    return words[0] == "refused" and words[1] in _MENDED
