"""The lines that a node carries out itself, and how lines are cut out of what a connection sends.

Every other line goes to the program as it is."""
from __future__ import annotations

import dataclasses
import re
from typing import List, Optional, Tuple, Union

NAME = re.compile(r"[a-z][a-z0-9-]{0,15}")
SECONDS = re.compile(r"[0-9]{1,9}(\.[0-9]{1,3})?")
TOKEN = re.compile(r"[0-9a-f]{32}")
# The most bytes of a holder's word.
LONGEST_WORD = 64
# The most bytes of a line: those of the longest `take`, a delta of 2,097,152 bytes behind the longest mark.
LONGEST_LINE = 2_097_152 + 5 + 33 + 17 + 9
# What each connection may hold of a line, and what all together may hold beside that, in bytes.
OWN_BYTES = 65_536
SHARED_BYTES = 16_777_216

# The verbs with a record and a holder; those behind the bar name a session that is there.
_ENTERS = ("read", "announce")
_NAMES = ("write", "leave", "fence", "keep", "evict")


@dataclasses.dataclass(frozen=True)
class Call:
    """A line about a session: `wait` is how many seconds to ask, `None` for a plain call. `word` is `None` for `-`."""

    verb: str
    record: str
    word: Optional[str]
    wait: Optional[float] = None


@dataclasses.dataclass(frozen=True)
class Resume:
    """`resume TOKEN [keep]`"""

    token: str
    keep: bool


@dataclasses.dataclass(frozen=True)
class Plain:
    """`token` or `status`"""

    verb: str


@dataclasses.dataclass(frozen=True)
class BadWord:
    """A line of the node that can't be read: the place of its first wrong word, from 1."""

    place: int


Line = Union[Call, Resume, Plain, BadWord]


def parse(line: bytes) -> Optional[Line]:
    """What a line asks of the node; `None` for a line of the program."""
    words = line.decode("utf-8", "surrogateescape").split(" ")
    if words[0] in _ENTERS or words[0] in _NAMES:
        return _call(words, 0, None)
    if words[0] == "wait":
        return _wait(words)
    if words[0] == "resume":
        return _resume(words)
    if words[0] in ("token", "status"):
        return Plain(words[0]) if len(words) == 1 else BadWord(2)
    return None


def _wait(words: List[str]) -> Line:
    if len(words) < 2 or not SECONDS.fullmatch(words[1]):
        return BadWord(2)
    if len(words) < 3 or words[2] not in ("read", "write"):
        return BadWord(3)
    return _call(words, 2, float(words[1]))


def _resume(words: List[str]) -> Line:
    if len(words) < 2 or not TOKEN.fullmatch(words[1]):
        return BadWord(2)
    if len(words) > 2 and words[2] != "keep":
        return BadWord(3)
    return BadWord(4) if len(words) > 3 else Resume(words[1], len(words) == 3)


def _call(words: List[str], at: int, wait: Optional[float]) -> Line:
    """The call that begins at this word."""
    verb = words[at]
    enters = verb in _ENTERS or wait is not None
    if len(words) < at + 2 or not NAME.fullmatch(words[at + 1]):
        return BadWord(at + 2)
    if len(words) < at + 3 or not (fits(words[at + 2]) if enters else names(words[at + 2])):
        return BadWord(at + 3)
    if len(words) > at + 3:
        return BadWord(at + 4)
    return Call(verb, words[at + 1], None if words[at + 2] == "-" else words[at + 2], wait)


def names(word: str) -> bool:
    """Whether a word can stand for a session: 1 to 64 bytes of UTF-8 that can be printed, without blanks and commas."""
    try:
        return 0 < len(word.encode("utf-8")) <= LONGEST_WORD and word.isprintable() and " " not in word and "," not in word
    except UnicodeEncodeError:
        return False


def fits(word: str) -> bool:
    """Whether a caller can enter under this word. Those that begin with `-` and `?` are the node's, but for `-` alone."""
    return word == "-" or (names(word) and word[0] not in "-?")


class Shared:
    """How many bytes all connections together may hold beside their own."""

    def __init__(self, room: int = SHARED_BYTES) -> None:
        self.room = room

    def take(self, more: int) -> bool:
        """Takes so many bytes, if they are there."""
        if more > self.room:
            return False
        self.room -= more
        return True

    def give(self, back: int) -> None:
        """Gives bytes back."""
        self.room += back


class Cutter:
    """Cuts lines at LF. A line that is too long, or for which there is no room, is dropped as it comes and gives the name of
    its refusal in its place. A line keeps its room until it was answered."""

    def __init__(self, shared: Shared) -> None:
        self._shared = shared
        self._part = bytearray()
        self._taken = 0
        self._unanswered = 0
        self._fault: Optional[str] = None

    def feed(self, data: bytes) -> List[Union[bytes, str]]:
        """The lines that end in these bytes, without LF; a text is the name of a refusal."""
        found: List[Union[bytes, str]] = []
        *ended, rest = data.split(b"\n")
        for end in ended:
            self._add(end)
            found.append(self._fault or bytes(self._part))
            self._unanswered += self._taken
            self._part, self._taken, self._fault = bytearray(), 0, None
        self._add(rest)
        return found

    def answered(self) -> None:
        """The lines that were cut are answered."""
        self._shared.give(self._unanswered)
        self._unanswered = 0

    def has_part(self) -> bool:
        """Whether there are bytes behind the last LF."""
        return self._fault is not None or len(self._part) > 0

    def clear(self) -> None:
        """Forgets the line that has begun, and those that were cut."""
        self.answered()
        self._drop(None)

    def _add(self, data: bytes) -> None:
        if self._fault is None:
            size = len(self._part) + len(data)
            more = max(0, size - OWN_BYTES) - self._taken
            if size > LONGEST_LINE:
                self._drop("TooLong")
            elif more > 0 and not self._shared.take(more):
                self._drop("Memory")
            else:
                self._taken += max(0, more)
                self._part += data

    def _drop(self, fault: Optional[str]) -> None:
        self._shared.give(self._taken)
        self._part, self._taken, self._fault = bytearray(), 0, fault


def resumed_text(found: List[Tuple[str, str, Optional[str]]]) -> str:
    """The reply to `resume`: the number of sessions, then record, holder and phase of each; `unknown` where the store has not
    said yet whether there is such a session."""
    return f"resumed {len(found)} " + ", ".join(f"{record} {word} {phase or 'unknown'}" for record, word, phase in found)
