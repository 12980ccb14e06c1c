"""What the node asks of the store for its callers, with the book kept in step with the answers.

Each `leave` of the node goes to the program from here."""
from __future__ import annotations

import asyncio
import time
from typing import Callable, Optional

from .book import Book, Session, stored_sessions
from .link import Interrupted, Link

# Seconds until the node asks again for what the program found no memory for.
MEMORY_PAUSE = 0.1

_LEFT = {"reader": "left reader", "writer": "left writer", "waiting": "withdrawn", None: "refused NotHere"}


class Desk:
    """Asks for sessions. `changed` is called with a record when a session of it has ended, which may let others in. `asked` is
    called with each session, verb and reply."""

    def __init__(self, link: Link, book: Book, changed: Callable[[str], None]) -> None:
        self.link = link
        self.book = book
        self._changed = changed
        self.asked: Callable[[Session, str, str], None] = lambda session, verb, reply: None

    async def ask(self, session: Session, verb: str) -> str:
        """The reply to `read`, `announce`, `write` or `leave` of a session. If the service ends meanwhile, the store tells whether
        the call was carried out, and it is made again if it was not. Nothing is asked for a session that was ended meanwhile. Calls
        of a session, which several connections may make, wait for each other: so what the store tells is of this one."""
        async with session.turn:
            return await self._ask_noted(session, verb)

    async def _ask_noted(self, session: Session, verb: str) -> str:
        """The same for who has the session's turn."""
        reply = await self._ask(session, verb)
        self._note(session, verb, reply)
        return reply

    async def _ask(self, session: Session, verb: str) -> str:
        while self.book.is_here(session):
            try:
                return await self.link.ask(f"{verb} {session.record} {session.number}")
            except Interrupted:
                found = await self._settle(session, verb)
                if found is not None:
                    return found
        return "refused NotAnnounced" if verb == "write" else "refused NotHere"

    async def leave(self, session: Session) -> str:
        """The reply to a `leave` of a caller that is gone or gave up. Nobody would repeat it, so it is asked again where the program
        found no memory."""
        while True:
            reply = await self.ask(session, "leave")
            if reply != "refused Memory":
                return reply
            await asyncio.sleep(MEMORY_PAUSE)

    async def withdraw(self, session: Session, is_due: Callable[[], bool]) -> Optional[str]:
        """Leaves a session whose caller gave up, if that is still due once no other call of it is under way, which may have had it enter.
        The refusal behind which it may still be in the store, or `None`."""
        while True:
            async with session.turn:
                if not is_due():
                    return None
                before, session.ending = session.ending, True
                try:
                    reply = await self._ask_noted(session, "leave")
                finally:
                    session.ending = before
            if reply != "refused Memory":
                return reply if self.book.is_here(session) else None
            await asyncio.sleep(MEMORY_PAUSE)

    def drop(self, session: Session, reply: str) -> None:
        """Forgets a session that the store has refused. After `StoreFault` it may be there, which is looked up once it is named again."""
        if session.phase is None:
            session.doubted = reply == "refused StoreFault"
            if not session.doubted:
                self.book.end(session)

    async def look(self, session: Session) -> Optional[str]:
        """Asks the store whether it has a session that is doubted, and notes that. The refusal, where it does not tell."""
        async with session.turn:
            if session.doubted and self.book.is_here(session):
                listed = await self._insist(f"sessions {session.record}")
                if listed.startswith("refused"):
                    return listed
                session.phase, session.doubted = dict(stored_sessions(listed)).get(session.number), False
                if session.phase is None:
                    self.book.end(session)
        return None

    async def _settle(self, session: Session, verb: str) -> Optional[str]:
        """The reply to a call that was interrupted; `None` where it has to be made again."""
        listed = await self._insist(f"sessions {session.record}")
        if listed.startswith("refused"):
            # Also where the store has frozen meanwhile, behind which nothing would have been carried out.
            return "refused StoreFault"
        phase = dict(stored_sessions(listed)).get(session.number)
        if verb == "leave":
            return _LEFT[session.phase] if phase is None else None
        if verb == "announce" and phase == "waiting":
            # Its number is lost. A writer that never asked for its seats is withdrawn, and announced again.
            left = await self._insist(f"leave {session.record} {session.number}")
            return None if left in _LEFT.values() else "refused StoreFault"
        return "admitted" if (verb, phase) in (("read", "reader"), ("write", "writer")) else None

    async def _insist(self, line: str) -> str:
        """The reply to a line that may be asked more than once, also where the program found no memory."""
        while True:
            reply = await self.link.ask_until(line)
            if reply != "refused Memory":
                return reply
            await asyncio.sleep(MEMORY_PAUSE)

    def _note(self, session: Session, verb: str, reply: str) -> None:
        """Writes down what a reply says."""
        if reply in ("admitted", "refused AlreadyInside") or reply.startswith("announced "):
            session.doubted = False
        if reply == "admitted":
            session.phase, session.entered = "reader" if verb == "read" else "writer", time.time()
        elif reply.startswith("announced "):
            session.phase = "waiting"
        elif reply == "refused AlreadyInside":
            # An earlier `write` was answered `StoreFault`, and carried out.
            session.phase = "writer"
        elif verb == "leave" and reply in _LEFT.values():
            self.book.end(session)
            self._changed(session.record)
        elif verb == "leave" and reply == "refused StoreFault":
            session.doubted = True
        if reply in ("left writer", "withdrawn") or reply.startswith("announced "):
            self.link.site.tell_listeners()
        self.asked(session, verb, reply)
