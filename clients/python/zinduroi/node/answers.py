"""The answer to each line of a connection."""
from __future__ import annotations

import asyncio
import contextlib
import json
import sqlite3
import time
from typing import Awaitable, Callable, Dict, Optional, Set, Tuple, Union

from .book import Book, NumbersUsedUp, Session, new_token, stored_sessions
from .desk import Desk
from .lines import BadWord, Call, Plain, Resume, parse, resumed_text
from .link import Interrupted, Link
from .waiting import Queues, Waiter
from .report import report
from .tally import Tally


# How many deltas and lists of sessions callers may ask for at once. Each may have 2 MiB, for which there is room or not only once it is there.
LONG = (b"send", b"sessions")
AT_ONCE = 4


class Caller:
    """What the node knows of a connection: its tokens, the sessions that it named `-`, and the line that waits."""

    def __init__(self, pid: int, is_over: Callable[[], bool]) -> None:
        self.pid = pid
        self.is_over = is_over
        self.chosen: Dict[str, Session] = {}
        self.waiter: Optional[Waiter] = None
        self.tokens: Set[str] = set()
        self._token: Optional[str] = None

    @property
    def token(self) -> str:
        """The token of the sessions that this connection enters."""
        if self._token is None:
            self._token = new_token()
            self.tokens.add(self._token)
        return self._token

    def adopt(self, token: str) -> None:
        """The connection has shown a token."""
        self.tokens.add(token)
        self._token = self._token or token

    def wake(self) -> None:
        """Has a line that waits look whether it is over."""
        if self.waiter is not None:
            self.waiter.changed.set()


class Answers:
    """Answers the lines of all connections. `more` gives what else a status has."""

    def __init__(self, link: Link, book: Book, records: Tuple[str, ...], more: Callable[[], Dict[str, object]]) -> None:
        self.link = link
        self.book = book
        self.records = records
        self.queues = Queues()
        self.desk = Desk(link, book, self.queues.wake)
        self.tally = Tally()
        self.group: Optional[str] = None
        self._more = more
        self._book_failure: Optional[str] = None
        self._long = asyncio.Semaphore(AT_ONCE)
        self._calls: Dict[str, Callable[[Caller, Call], Awaitable[str]]] = {
            "read": self._enter, "announce": self._enter, "write": self._write, "leave": self._leave, "fence": self._fence,
            "keep": self._keep, "evict": self._evict}

    async def answer(self, caller: Caller, line: bytes) -> str:
        """The reply to a line, without LF."""
        asked = parse(line)
        if asked is None:
            return await self._pass_on(line)
        if isinstance(asked, BadWord):
            return f"refused BadWord {asked.place}"
        if isinstance(asked, Plain):
            return f"token {caller.token}" if asked.verb == "token" else json.dumps(await self.status())
        try:
            if isinstance(asked, Resume):
                return self._resume(caller, asked)
            if asked.record not in self.records:
                return "refused NoRecord"
            return await (self._calls[asked.verb] if asked.wait is None else self._wait)(caller, asked)
        except (sqlite3.Error, NumbersUsedUp) as fault:
            self._note_book(str(fault))
            return "refused BookFault"

    async def end(self, caller: Caller) -> None:
        """The connection has ended: its sessions are left or withdrawn. Only the end of the connection itself may call this."""
        sessions = self.book.tied_to(caller)
        for session in sessions:
            session.ending = True
        for session in sessions:
            reply = await self.desk.leave(session)
            if self.book.is_here(session):
                report(f"{session.record} {session.word} is not left: {reply}")
                session.tied, session.ending = None, False

    def release(self, caller: Caller) -> None:
        """The node ends the connection: what sessions it still has belong to nobody, and are not left."""
        for session in self.book.tied_to(caller):
            session.tied, session.ending = None, False

    def book_failure(self) -> Optional[str]:
        """Why the file of sessions can't be written, so that nobody gets in; `None` where it can. It is tried once a write has failed."""
        if self._book_failure is not None:
            try:
                self.book.try_out()
                self._note_book(None)
            except (sqlite3.Error, NumbersUsedUp) as fault:
                self._note_book(str(fault))
        return self._book_failure

    def _note_book(self, failure: Optional[str]) -> None:
        """A write of the file of sessions has failed, or gone well. Of many that fail the operator is told the first."""
        before, self._book_failure = self._book_failure, failure
        if failure is not None and before is None:
            report(f"the file of sessions can't be written, and nobody gets in: {failure}")
        elif failure is None and before is not None:
            report("the file of sessions can be written again")

    async def status(self) -> Dict[str, object]:
        """The state of the site and of its sessions, for JSON. The program is asked for all records at once: one line behind the other
        would wait for the calls of others each time."""
        records: Dict[str, object] = {}
        refused = None
        replies = await asyncio.gather(*(self.link.ask_until(f"{verb} {record}") for record in self.records for verb in ("show", "sessions")))
        for record, shown, listed in zip(self.records, replies[::2], replies[1::2]):
            words = shown.split(" ")
            if words[0] == "refused" or listed.startswith("refused"):
                refused = refused or (shown if words[0] == "refused" else listed)
            else:
                records[record] = {"rights": int(words[1]), "inside": int(words[3]), "unfinished": int(words[5]),
                                   "sessions": [[self.book.word_of(record, number), phase] for number, phase in stored_sessions(listed)],
                                   "queue": self.queues.words(record)}
        sessions = [{"record": it.record, "holder": it.word, "number": it.number, "phase": it.phase, "since": it.since,
                     "entered": it.entered, "pid": it.pid,
                     "connected": it.tied is not None, "kept": it.kept, "known": it.known} for it in self.book.sessions()]
        failure = self.book_failure()
        fault = None if failure is None else f"the file of sessions can't be written: {failure}"
        if refused is not None:
            froze = self.link.site.froze
            fault = f"the store answers {refused}" + (f", behind {froze}" if froze else "")
        return {"site": self.link.site.site, "time": time.time(), "records": records, "callers": sessions, "fault": fault, **self._more()}

    # Lines of the program

    async def _pass_on(self, line: bytes) -> str:
        """The program's reply. A `give` or `help` that was interrupted is not made twice."""
        verb, _, rest = line.partition(b" ")
        while True:
            try:
                async with self._long if verb in LONG else contextlib.nullcontext():
                    reply = await self.link.ask_bytes(line)
                break
            except Interrupted:
                if verb in (b"give", b"help"):
                    return "refused Interrupted"
        if reply.startswith("merged ") and reply != "merged 0":
            self.queues.wake_all()
        elif reply == "given" or reply.startswith("gave "):
            self.link.site.tell_listeners()
        elif verb == b"sessions" and not reply.startswith("refused"):
            record, listed = rest.decode("utf-8"), stored_sessions(reply)
            shown = ", ".join(f"{self.book.word_of(record, number)} {phase}" for number, phase in listed)
            return f"{len(listed)} {shown}" if listed else reply
        return reply

    # Lines of the node

    def _new(self, caller: Caller, call: Call) -> Union[Session, str]:
        """A new session, which the store has not been asked for yet; or the refusal."""
        before = self._find(caller, call)
        if before is not None:
            return _taken(caller, before)
        session = self.book.begin(call.record, call.word, caller.token, caller, caller.pid)
        self._note_book(None)
        if call.word is None:
            caller.chosen[call.record] = session
        return session

    def _find(self, caller: Caller, call: Call) -> Optional[Session]:
        """The session that a line names."""
        session = caller.chosen.get(call.record) if call.word is None else self.book.find(call.record, call.word)
        return session if session is not None and self.book.is_here(session) else None

    def _own(self, caller: Caller, call: Call, missing: str) -> Union[Session, str]:
        """The session that a line names, if its token is one of this connection's; or the refusal."""
        session = self._find(caller, call)
        if session is None or session.ending:
            return f"refused {missing}"
        return session if session.token in caller.tokens else "refused NotYours"

    def _own_here(self, caller: Caller, call: Call) -> Union[Session, str]:
        """A writer that a line has enter, if the end of no other connection ends it; or the refusal."""
        session = self._own(caller, call, "NotAnnounced")
        return "refused InUse" if isinstance(session, Session) and _is_anothers(caller, session) else session

    async def _look(self, caller: Caller, call: Call) -> Optional[str]:
        """Has the store tell whether it has the session that a line names, where that is doubted: a caller takes `AlreadyHere` and `kept` for
        a yes. The refusal of that, or `None`."""
        session = self._find(caller, call)
        return await self.desk.look(session) if session is not None and session.doubted else None

    async def _enter(self, caller: Caller, call: Call) -> str:
        refused = await self._look(caller, call)
        if refused is not None:
            return refused
        session = self._new(caller, call)
        if isinstance(session, str):
            return session
        reply = await self.desk.ask(session, call.verb)
        self.desk.drop(session, reply)
        return _told(caller, session, reply)

    async def _wait(self, caller: Caller, call: Call) -> str:
        assert call.wait is not None
        refused = await self._look(caller, call)
        if refused is not None:
            return refused
        session = self._find(caller, call)
        if session is None:
            found = self._new(caller, call)
        elif call.verb == "write" and session.phase == "waiting":
            found = self._own_here(caller, call)
        else:
            found = _taken(caller, session)
        if isinstance(found, str):
            return found
        caller.waiter = _waiter(caller, found, call.verb)
        try:
            reply = await self.queues.wait(self.desk, caller.waiter, call.wait)
        finally:
            caller.waiter = None
        self.desk.drop(found, reply.removeprefix("timeout "))
        return _told(caller, found, reply)

    async def _write(self, caller: Caller, call: Call) -> str:
        session = self._own_here(caller, call)
        return session if isinstance(session, str) else _told(caller, session, await self.desk.ask(session, "write"))

    async def _leave(self, caller: Caller, call: Call) -> str:
        session = self._own(caller, call, "NotHere")
        return session if isinstance(session, str) else await self.desk.ask(session, "leave")

    async def _fence(self, caller: Caller, call: Call) -> str:
        session = self._find(caller, call)
        return "refused NotHere" if session is None else await self.link.ask_until(f"fence {session.record} {session.number}")

    async def _keep(self, caller: Caller, call: Call) -> str:
        refused = await self._look(caller, call)
        if refused is not None:
            return refused
        session = self._own(caller, call, "NotHere")
        if isinstance(session, str):
            return session
        if session.phase is None:
            return "refused InUse"
        self.book.keep(session)
        return f"kept {session.token}"

    async def _evict(self, caller: Caller, call: Call) -> str:
        """Ends a session that belongs to no connection, for an operator who knows that its caller is dead."""
        session = self._find(caller, call)
        if session is None or session.ending:
            return "refused NotHere"
        if session.tied is not None:
            return "refused InUse"
        session.ending = True
        try:
            return await self.desk.ask(session, "leave")
        finally:
            session.ending = False

    def _resume(self, caller: Caller, asked: Resume) -> str:
        """Takes up the sessions of a token that belong to no connection."""
        found = [session for session in self.book.of_token(asked.token) if not session.ending]
        if not found:
            return "refused NoToken"
        free = [session for session in found if session.tied is None or session.tied is caller]
        if not free:
            return "refused InUse"
        if asked.keep:
            self.book.keep(*free)
        else:
            self.book.tie(caller, *free)
        caller.adopt(asked.token)
        for session in free:
            chosen = caller.chosen.get(session.record)
            if session.word.startswith("-") and (chosen is None or not self.book.is_here(chosen)):
                caller.chosen[session.record] = session
        return resumed_text([(session.record, session.word, None if session.doubted else session.phase) for session in free])


def _waiter(caller: Caller, session: Session, verb: str) -> Waiter:
    """A line of a caller that waits."""
    return Waiter(session, verb, caller.is_over, lambda: not _is_anothers(caller, session))


def _taken(caller: Caller, session: Session) -> str:
    """What is answered to a line that would enter under the name of a session. A caller that repeats its line takes `AlreadyHere` for a yes: so
    it is answered only to whom the session belongs, where the store has it and no other connection's end ends it."""
    if session.token not in caller.tokens:
        return "refused NotYours"
    if session.ending or session.phase is None or _is_anothers(caller, session):
        return "refused InUse"
    return "refused AlreadyHere"


def _told(caller: Caller, session: Session, reply: str) -> str:
    """What a caller is told whose line was answered. If another connection has taken up the session meanwhile, it is inside for that one:
    `AlreadyInside` is a yes as well."""
    return "refused InUse" if reply in ("admitted", "refused AlreadyInside") and _is_anothers(caller, session) else reply


def _is_anothers(caller: Caller, session: Session) -> bool:
    """Whether the end of another connection ends a session."""
    return session.tied is not None and session.tied is not caller
