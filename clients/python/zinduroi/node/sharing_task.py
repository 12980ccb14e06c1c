"""Seat sharing: once a second the node tells its peers which seats its callers lack, and gives what `zinduroi.sharing` decides.

Nobody's exclusion rests on it: what goes wrong here costs time."""
from __future__ import annotations

import asyncio
import time
from typing import Callable, Collection, Counter, Dict, Mapping, Optional, Protocol, Tuple, runtime_checkable

from ..sharing import FRESH, LACKING, Gift, Holding, Samples, decide, lacking, records_with_writers, remember, used_lately
from ..site import Layout
from .answers import Answers
from .book import Session
from .link import Interrupted
from .report import report

# Seconds between two rounds.
PERIOD = 1.0


@runtime_checkable
class Sharer(Protocol):
    """What a transport has for this."""

    def say_lacks(self, lacks: Mapping[str, int]) -> None:
        """Tells the other sites what callers here lack."""

    def lacks(self) -> Dict[int, Tuple[Dict[str, int], float]]:
        """What each other site said that its callers lack, and how many seconds ago."""


class Sharing:
    """The sharing of one site, on the thread of the node's loop. `clock` gives seconds."""

    def __init__(self, answers: Answers, peers: Sharer, layout: Layout, clock: Callable[[], float] = time.monotonic) -> None:
        self._answers = answers
        self._peers = peers
        self._sites = layout.sites
        self._seats = {record.name: record.seats for record in layout.records}
        self._clock = clock
        self._refused: Dict[str, Dict[object, float]] = {name: {} for name in self._seats}
        self._samples: Dict[str, Samples] = {name: () for name in self._seats}
        self._readers: Counter[str] = Counter()
        self._given: Dict[str, float] = {}
        self._failed = False
        self.lacks: Dict[str, int] = {}
        self.gave: Counter[int] = Counter()
        answers.desk.asked = self.note

    async def run(self) -> None:
        """Shares until it is cancelled. A fault is reported once, until a round goes well again."""
        while True:
            try:
                await self.round()
                self._failed = False
            except Exception as fault:
                if not self._failed:
                    report(f"seats are not shared: {type(fault).__name__}: {fault}")
                self._failed = True
            await asyncio.sleep(PERIOD)

    def state(self) -> Dict[str, object]:
        """What callers here lack, by record, and how many seats were given to each site, for a status."""
        return {"lacks": self.lacks, "gave": {str(site): seats for site, seats in sorted(self.gave.items())}}

    def note(self, session: Session, verb: str, reply: str) -> None:
        """The store has answered a call of a session."""
        refused, now = self._refused[session.record], self._clock()
        if verb == "read" and reply.startswith("refused NoSeat"):
            refused[_caller(session)] = now
        elif verb == "read":
            refused.pop(_caller(session), None)
        if verb == "read" and reply == "admitted":
            self._readers[session.record] += 1
            self._remember(session.record, now)
        elif reply == "left reader":
            self._readers[session.record] -= 1

    async def round(self) -> None:
        """Says what is lacking here, and gives what others lack."""
        now = self._clock()
        self._readers = Counter(session.record for session in self._answers.book.sessions() if session.phase == "reader")
        for record in self._seats:
            self._remember(record, now)
            self._look(record, now)
        self.lacks = lacking(self._refused, now)
        self._peers.say_lacks(self.lacks)
        said = self._peers.lacks()
        wanted = {record for lacks, age in said.values() if age <= FRESH for record, seats in lacks.items() if seats > 0}
        holdings = [await self._holding(record, now) for record in self._seats if record in wanted]
        gifts = decide([it for it in holdings if it is not None], said, self._given, now)
        busy = await self._busy() if gifts else ()
        for gift in gifts:
            if gift.record not in busy:
                await self._give(gift, now)

    def _remember(self, record: str, now: float) -> None:
        """A writer has all seats, and needs none to be kept for it: only readers count."""
        self._samples[record] = remember(self._samples[record], now, self._readers[record])

    def _look(self, record: str, now: float) -> None:
        """Readers that wait behind one that lacks a seat lack one too, though the store is not asked for them. Old refusals go."""
        refused, waiting = self._refused[record], self._answers.queues.first_readers(record)
        if waiting and _caller(waiting[0]) in refused:
            refused.update({_caller(session): now for session in waiting})
        self._refused[record] = {caller: when for caller, when in refused.items() if now - when <= LACKING}

    async def _holding(self, record: str, now: float) -> Optional[Holding]:
        """What is known of a record here; `None` if the store doesn't say."""
        words = (await self._answers.link.ask_until(f"show {record}")).split(" ")
        if words[0] != "rights":
            return None
        return Holding(record, self._seats[record], self._sites, int(words[1]), int(words[3]), used_lately(self._samples[record], now),
                       self.lacks.get(record, 0), int(words[5]) > 0)

    async def _busy(self) -> Collection[str]:
        """The records with a writer that waits or is inside anywhere, as far as it is known here."""
        delta = await self._answers.link.ask_until("send")
        return self._seats if delta.startswith("refused") else records_with_writers(delta, list(self._seats))

    async def _give(self, gift: Gift, now: float) -> None:
        """Gives. A call that was interrupted is not made again: it may have been carried out."""
        self._given[gift.record] = now
        try:
            reply = await self._answers.link.ask(f"give {gift.record} {gift.site} {gift.seats}")
        except Interrupted:
            return
        if reply == "given":
            self.gave[gift.site] += gift.seats
            self._answers.link.site.tell_listeners()


def _caller(session: Session) -> object:
    """What stands for a caller that asks again: its word, or where the node chose that, the token of its connection."""
    return session.token if session.word.startswith("-") else (session.word,)
