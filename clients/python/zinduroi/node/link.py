"""The node's link to the program: lines go there one after the other, and a service that ended is started anew."""
from __future__ import annotations

import asyncio
import time
from typing import Callable, Dict, List, Optional, Sequence, Tuple, Union

from ..errors import Refused, ZinduroiError
from ..service import Call
from ..site import Path, Site
from .report import report
from .seats import sender_of

# How many seconds a start waits for a store that another process still has: that of a node that was killed.
STORE_WAIT = 10.0
# How many calls that wait are committed together at most, where the site has no log.
TOGETHER = 128
# The longest pause, in seconds, between two starts of a service that doesn't start.
LONGEST_PAUSE = 5.0
# Replies behind which a site serves no more, and what an operator has to do.
FREEZE_MENDED = {"StoreFault": "its disk is mended, or its file is put back to its path, and the node is started again",
                 "OwnRowAhead": "its newest store is put back: this one is old, or was begun twice"}
FREEZE = tuple(f"refused {name}" for name in FREEZE_MENDED)
LOOKED_AT = 100


class Interrupted(Exception):
    """The service ended during a call, which may have been carried out, and has been started anew."""


class NodeSite(Site):
    """A site that tells when a delta has brought something new, and when a call of its own found that the service had ended, as those of
    the exchange. The operator is told, once for each service, that it has frozen; `froze` is the reply behind which it did. `last_sent` is its own last delta, and `heard` the last one that each site made, with the time when it was taken."""

    def __init__(self, store: Path, site: int, layout: Optional[Path], group: Optional[str], create: bool, log: Optional[Path],
                 program: Union[str, Sequence[str]]) -> None:
        super().__init__(store, site, layout, group, create, STORE_WAIT, log, program, together=TOGETHER if log is None else 1)
        self.merged: Callable[[], None] = lambda: None
        self.ended: Callable[[ZinduroiError], None] = lambda why: None
        self.last_sent: Optional[str] = None
        self.heard: Dict[int, Tuple[str, float]] = {}
        self.froze: Optional[str] = None

    def reopen(self, wait: Optional[float] = None) -> bool:
        opened = super().reopen(wait)
        if opened:
            self.froze = None
        return opened

    def look_at(self, reply: str) -> None:
        """Tells the operator of a reply behind which the site serves no more."""
        if self.froze is None and reply.startswith(FREEZE):
            self.froze = reply
            report(f"the store answers {reply}: nobody gets in or out at this site, until {FREEZE_MENDED[reply.split(' ')[1]]}")

    def _answers(self, call: Call, stays: bool = False) -> List[str]:
        try:
            return super()._answers(call, stays)
        except Refused as refused:
            self.look_at(str(refused))
            raise
        except ZinduroiError as why:
            self.ended(why)
            raise

    def take(self, text: str) -> int:
        rose = super().take(text)
        sender = sender_of(text)
        if sender is not None:
            self.heard[sender] = (text, time.monotonic())
        if rose > 0:
            self.merged()
        return rose

    def send(self) -> str:
        self.last_sent = super().send()
        return self.last_sent


class Link:
    """Lines of the node's callers on their way to the program. Used on the thread of the loop."""

    def __init__(self, site: NodeSite) -> None:
        self.site = site
        self.timed: Callable[[bytes, float], None] = lambda line, seconds: None
        self._loop = asyncio.get_running_loop()
        self._opening = asyncio.Lock()
        self._reviving: Optional[asyncio.Task[None]] = None
        site.ended = self._ended

    async def ask(self, line: str) -> str:
        """The reply to a line. Replies are handed out in the order in which the program wrote them. Raises `Interrupted`."""
        return await self.ask_bytes(line.encode("utf-8"))

    async def ask_bytes(self, line: bytes) -> str:
        """The reply to a line that may be anything but have an LF in it."""
        future: asyncio.Future[Call] = self._loop.create_future()
        failure: Optional[ZinduroiError]
        began = time.monotonic()
        try:
            self.site.submit(line, lambda call: self._deliver(future, call))
            call = await future
            failure = call.failure
        except ZinduroiError as closed:
            failure = closed
        if failure is None:
            self.timed(line, time.monotonic() - began)
            self.site.look_at(call.replies[0][:LOOKED_AT])
            return call.replies[0]
        await self._reopen(failure)
        raise Interrupted

    async def ask_until(self, line: str) -> str:
        """The reply to a line that changes nothing: it is asked again if it was interrupted."""
        while True:
            try:
                return await self.ask(line)
            except Interrupted:
                continue

    def _deliver(self, future: "asyncio.Future[Call]", call: Call) -> None:
        """On the service's thread: hands a call that is done to the loop, if that still runs."""
        try:
            self._loop.call_soon_threadsafe(_settle, future, call)
        except RuntimeError:
            pass

    def _ended(self, why: ZinduroiError) -> None:
        """On the exchange's thread: has the service started anew, even if no caller says a line for which that would be done."""
        try:
            self._loop.call_soon_threadsafe(self._revive, why)
        except RuntimeError:
            pass

    def _revive(self, why: ZinduroiError) -> None:
        if self._reviving is None or self._reviving.done():
            self._reviving = self._loop.create_task(self._reopen(why))

    async def _reopen(self, why: ZinduroiError) -> None:
        """Starts the service anew. Of several calls that need it one does."""
        pause = 0.1
        async with self._opening:
            while True:
                try:
                    if await asyncio.to_thread(self.site.reopen):
                        report(f"{why}; started anew")
                    elif self.site.is_over:
                        # Who asks again gets no answer any more, and is not to ask without a pause.
                        await asyncio.sleep(pause)
                    return
                except Exception as failure:
                    # Whatever it is, as a program that is being replaced: the next attempt comes.
                    report(f"the service does not start: {failure}")
                await asyncio.sleep(pause)
                pause = min(pause * 2, LONGEST_PAUSE)


def _settle(future: "asyncio.Future[Call]", call: Call) -> None:
    if not future.done():
        future.set_result(call)
