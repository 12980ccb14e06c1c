"""The book of a node: which sessions it knows, under which names and tokens, and which connection ends them.

The store of the site alone decides who is inside. The book says whose a session of the store is. What has to survive a crash of the
node is in a file beside the store: a row for each session, written before the store is asked for it. A row without a session
in the store means nothing and is dropped at the next start; a session of the store without a row belongs to nobody."""
from __future__ import annotations

import asyncio
import contextlib
import dataclasses
import os
import secrets
import sqlite3
import time
from typing import Dict, Iterable, List, Optional, Sequence, Tuple

# The greatest number of a holder.
LAST_NUMBER = 10**12
# Numbers are reserved in the file so many at a time.
RESERVED = 1000
# A book that is begun anew gives numbers from the time on, a thousand for each second since 2025: above those of an earlier book. A
# clock that is far ahead, past 2053, leaves a tenth of all numbers.
EPOCH = 1_735_689_600
LATEST = LAST_NUMBER // 10 * 9

_TABLES = """
CREATE TABLE IF NOT EXISTS numbers (next INTEGER NOT NULL);
CREATE TABLE IF NOT EXISTS sessions (number INTEGER PRIMARY KEY, record TEXT NOT NULL, word TEXT NOT NULL, token TEXT NOT NULL,
    kept INTEGER NOT NULL, pid INTEGER NOT NULL, since REAL NOT NULL);
"""


class NumbersUsedUp(Exception):
    """All numbers of holders have been given."""


@dataclasses.dataclass(eq=False)
class Session:
    """A session at the site. `phase` is `reader`, `waiting` or `writer` as the store last said, and `None` before it said
    anything. `doubted` holds where the store failed as it was asked for the session, or to leave it, so that it may have it or not. `tied` is the connection whose end ends it, if there is one. `known` is false where the book has no row: the session
    belongs to nobody. `ending` holds while somebody else than its caller ends it. `since` is in seconds since 1970, and `pid`
    the process that had connected. `entered` is when this node saw it admitted. `turn` is held during a call to the store."""

    record: str
    number: int
    word: str
    token: str
    phase: Optional[str] = None
    doubted: bool = False
    tied: Optional[object] = None
    kept: bool = False
    known: bool = True
    ending: bool = False
    pid: int = 0
    since: float = 0.0
    entered: Optional[float] = None
    turn: asyncio.Lock = dataclasses.field(default_factory=asyncio.Lock)


class Book:
    """The sessions of a site by record and number, and by record and word. One thread uses it. `begin`, `keep` and `tie` raise
    `sqlite3.Error` if the file can't be written, and then change nothing."""

    def __init__(self, path: "str | os.PathLike[str]") -> None:
        self._file = _open(path)
        self._by_number: Dict[Tuple[str, int], Session] = {}
        self._by_word: Dict[Tuple[str, str], Session] = {}
        self._next = max(1, self._stored_next(), min(LATEST, int((time.time() - EPOCH) * 1000)))
        self._limit = 0

    def close(self) -> None:
        """Closes the file."""
        self._file.close()

    def recall(self, stored: Dict[str, List[Tuple[int, str]]]) -> None:
        """Begins with the sessions that the store has, by record: numbers and phases. None of them is tied to a connection.
        Rows of sessions that the store has not are dropped."""
        here = {(record, number): phase for record, found in stored.items() for number, phase in found}
        rows = self._file.execute("SELECT number, record, word, token, kept, pid, since FROM sessions").fetchall()
        for number, record, word, token, kept, pid, since in rows:
            phase = here.pop((record, number), None)
            if phase is None:
                self._file.execute("DELETE FROM sessions WHERE number = ?", (number,))
            else:
                self._add(Session(record, number, word, token, phase, kept=bool(kept), pid=pid, since=since))
        for (record, number), phase in here.items():
            self._add(Session(record, number, f"?{number}", "", phase, kept=True, known=False))

    def begin(self, record: str, word: Optional[str], token: str, tied: object, pid: int) -> Session:
        """A session that the store will be asked for, with a number that no caller had. Without a word it gets `-` and the
        number. The row is in the file when this returns."""
        number = self._new_number(record)
        session = Session(record, number, f"-{number}" if word is None else word, token, tied=tied, pid=pid, since=time.time())
        self._file.execute("INSERT INTO sessions (number, record, word, token, kept, pid, since) VALUES (?, ?, ?, ?, 0, ?, ?)",
                           (number, record, session.word, token, pid, session.since))
        self._add(session)
        return session

    def end(self, session: Session) -> None:
        """The store has no such session, or no more. A row that can't be deleted means nothing."""
        session.phase = session.tied = None
        if self.is_here(session):
            del self._by_number[session.record, session.number]
            del self._by_word[session.record, session.word]
            with contextlib.suppress(sqlite3.Error):
                self._file.execute("DELETE FROM sessions WHERE number = ?", (session.number,))

    def keep(self, *sessions: Session) -> None:
        """No connection's end ends these sessions from now on. That is on the disk when this returns."""
        self._set_kept(sessions, True, None)

    def tie(self, to: object, *sessions: Session) -> None:
        """The end of this connection ends these sessions from now on."""
        self._set_kept(sessions, False, to)

    def try_out(self) -> None:
        """Writes to the file what changes nothing there. Raises as `begin` does."""
        if self._next > LAST_NUMBER:
            raise NumbersUsedUp("all numbers of holders have been given")
        with self._file:
            self._file.execute("BEGIN")
            self._file.execute("INSERT INTO numbers VALUES (0)")
            self._file.execute("DELETE FROM numbers WHERE next = 0")

    def find(self, record: str, word: str) -> Optional[Session]:
        """The session of a word."""
        return self._by_word.get((record, word))

    def word_of(self, record: str, number: int) -> str:
        """How a holder of the store is shown."""
        session = self._by_number.get((record, number))
        return f"?{number}" if session is None else session.word

    def is_here(self, session: Session) -> bool:
        """Whether the session has not ended."""
        return self._by_number.get((session.record, session.number)) is session

    def of_token(self, token: str) -> List[Session]:
        """The sessions that were entered with this token, in order of their numbers."""
        return [session for session in self.sessions() if session.known and session.token == token]

    def tied_to(self, connection: object) -> List[Session]:
        """The sessions that the end of this connection ends."""
        return [session for session in self._by_number.values() if session.tied is connection]

    def sessions(self) -> List[Session]:
        """All sessions, in order of their numbers."""
        return sorted(self._by_number.values(), key=lambda session: session.number)

    def _add(self, session: Session) -> None:
        self._by_number[session.record, session.number] = session
        self._by_word[session.record, session.word] = session

    def _set_kept(self, sessions: Sequence[Session], kept: bool, tied: Optional[object]) -> None:
        """Changes all of these sessions, or none."""
        changed = [(int(kept), session.number) for session in sessions if session.kept != kept]
        if changed:
            self._file.execute("PRAGMA synchronous = FULL")
            try:
                with self._file:
                    self._file.execute("BEGIN")
                    self._file.executemany("UPDATE sessions SET kept = ? WHERE number = ?", changed)
            finally:
                self._file.execute("PRAGMA synchronous = NORMAL")
        for session in sessions:
            session.kept, session.tied = kept, tied

    def _stored_next(self) -> int:
        row = self._file.execute("SELECT max(next) FROM numbers").fetchone()
        return int(row[0] or 0)

    def _new_number(self, record: str) -> int:
        number = self._next
        while (record, number) in self._by_number:
            number += 1
        if number > LAST_NUMBER:
            raise NumbersUsedUp("all numbers of holders have been given")
        if number >= self._limit:
            limit = number + 1 + RESERVED
            with self._file:
                self._file.execute("BEGIN")
                self._file.execute("DELETE FROM numbers")
                self._file.execute("INSERT INTO numbers VALUES (?)", (limit,))
            self._limit = limit
        self._next = number + 1
        return number


def new_token() -> str:
    """A token that nobody guesses."""
    return secrets.token_hex(16)


def stored_sessions(reply: str) -> List[Tuple[int, str]]:
    """The numbers and phases in the program's reply to `sessions NAME`."""
    _, _, rest = reply.partition(" ")
    parts: Iterable[List[str]] = (part.split(" ") for part in rest.split(", ")) if rest else ()
    return [(int(number), phase) for number, phase in parts]


def _open(path: "str | os.PathLike[str]") -> sqlite3.Connection:
    """The file of a book, made where it is not there. A commit survives the end of this process; only `keep` waits for the
    disk, since after a power failure no caller of this machine is left. It is locked until it is closed: a second node that got the
    store, as where this one's service had ended, would show callers of this one as without a connection."""
    os.close(os.open(path, os.O_RDWR | os.O_CREAT, 0o600))
    file = sqlite3.connect(path, isolation_level=None)
    try:
        file.execute("PRAGMA locking_mode = EXCLUSIVE")
        file.execute("PRAGMA journal_mode = WAL")
        file.execute("PRAGMA synchronous = NORMAL")
        file.executescript(_TABLES)
    except sqlite3.Error as fault:
        file.close()
        raise type(fault)(f"{os.fspath(path)}: {fault}") from None
    return file
