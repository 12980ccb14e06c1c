"""What a node counts of its answers, for its page and its metrics. One thread uses it.

Tokens are in nothing that it shows, since everybody on the machine may see the page."""
from __future__ import annotations

import bisect
import collections
import re
import time
from typing import Callable, Counter, DefaultDict, Deque, Dict, List, Optional, Sequence, Tuple, Union

from .lines import BadWord, Call, Plain, Resume, parse

# The upper bounds, in seconds, of the histograms of waits and of calls to the program.
WAIT_BOUNDS = (0.001, 0.005, 0.01, 0.05, 0.1, 0.5, 1.0, 5.0, 10.0, 30.0, 60.0, 300.0)
CALL_BOUNDS = (0.0005, 0.001, 0.0025, 0.005, 0.01, 0.025, 0.05, 0.1, 0.25, 0.5, 1.0, 5.0)
# How many answers are kept.
KEPT_ANSWERS = 100
# Recent refusals are counted in parts of so many seconds, and so many parts are kept: ten minutes.
PART = 10.0
PARTS = 60
# The most characters of a reply that are kept.
KEPT_REPLY = 120

_LOOKED_AT = 300
_PROGRAM = {"give", "help", "show", "sessions", "send", "take"}
_VERBS = _PROGRAM | {"read", "announce", "write", "leave", "fence", "keep", "evict", "resume", "token", "status"}
_VERB = {verb.encode("ascii"): verb for verb in _VERBS}
_SHOWN = re.compile(r"(give|help|show|sessions)( [a-z0-9-]{1,16}){1,3}")
_NAME = re.compile(r"[A-Za-z]{1,32}")

# An answer that was kept: when, the process, the line, its verb, and the reply.
Kept = Tuple[float, int, Union[bytes, str], str, str]


class Histogram:
    """How many values are in each range; the last range has no upper bound."""

    def __init__(self, bounds: Sequence[float]) -> None:
        self.bounds = bounds
        self.counts = [0] * (len(bounds) + 1)
        self.sum = 0.0

    def add(self, value: float) -> None:
        """Counts a value."""
        self.counts[bisect.bisect_left(self.bounds, value)] += 1
        self.sum += value


class Tally:
    """Counts answers by verb and outcome (`admitted`, `refused`, `timeout`, `other`), refusals and ends of waits by verb and name,
    and keeps the last answers. `changed` is called when something was counted that a page shows."""

    def __init__(self) -> None:
        self.began = time.time()
        self.answers: Counter[Tuple[str, str]] = collections.Counter()
        self.refusals: Counter[Tuple[str, str]] = collections.Counter()
        self.timeouts: Counter[Tuple[str, str]] = collections.Counter()
        self.waits: DefaultDict[Tuple[str, str], Histogram] = collections.defaultdict(lambda: Histogram(WAIT_BOUNDS))
        self.calls: DefaultDict[str, Histogram] = collections.defaultdict(lambda: Histogram(CALL_BOUNDS))
        self.changed: Callable[[], None] = lambda: None
        self._recent: Deque[Tuple[int, Counter[str]]] = collections.deque(maxlen=PARTS)
        self._last: Deque[Union[Kept, Dict[str, object]]] = collections.deque(maxlen=KEPT_ANSWERS)

    def answered(self, pid: int, line: Union[bytes, str], reply: str, seconds: float) -> None:
        """A line of a connection was answered after so many seconds. A text in place of the line is why it was not kept."""
        verb, waits = verb_of(line)
        outcome, name = outcome_of(reply)
        self.answers[verb, outcome] += 1
        if name is not None:
            (self.refusals if outcome == "refused" else self.timeouts)[verb, name] += 1
            self._count_recent(name)
        if waits:
            self.waits[verb, outcome].add(seconds)
        if verb != "status":
            # What is shown of it is made when somebody looks.
            self._last.append((time.time(), pid, line[:_LOOKED_AT], verb, reply[:_LOOKED_AT]))
            self.changed()

    def last(self) -> List[Dict[str, object]]:
        """The last answers, the oldest first."""
        for at, kept in enumerate(self._last):
            if isinstance(kept, tuple):
                when, pid, line, verb, reply = kept
                self._last[at] = {"at": when, "pid": pid, "line": shown_line(line), "reply": shown_reply(verb, reply)}
        return [kept for kept in self._last if isinstance(kept, dict)]

    def called(self, line: bytes, seconds: float) -> None:
        """The program has replied to a line after so many seconds."""
        self.calls[_VERB.get(line[:16].split(b" ", 1)[0], "other")].add(seconds)

    def recent(self, seconds: float) -> Counter[str]:
        """Refusals by name in the last seconds, to ten seconds."""
        first = (time.monotonic() - seconds) // PART
        total: Counter[str] = collections.Counter()
        for part, counted in self._recent:
            if part > first:
                total.update(counted)
        return total

    def _count_recent(self, name: str) -> None:
        part = int(time.monotonic() // PART)
        if not self._recent or self._recent[-1][0] != part:
            self._recent.append((part, collections.Counter()))
        self._recent[-1][1][name] += 1


def outcome_of(reply: str) -> Tuple[str, Optional[str]]:
    """What a reply says, and the name of the refusal if there is one."""
    words: List[str] = reply[:_LOOKED_AT].split(" ")
    if words[0] not in ("refused", "timeout"):
        return ("admitted" if words[0] == "admitted" else "other"), None
    place = 1 if words[0] == "refused" else 2
    name = words[place] if len(words) > place else ""
    return words[0], name if _NAME.fullmatch(name) else "other"


def verb_of(line: Union[bytes, str]) -> Tuple[str, bool]:
    """The verb of a line, and whether it waits; `other` where it has none that is known."""
    if isinstance(line, str):
        return "other", False
    words = line[:_LOOKED_AT].split(b" ", 3)
    if words[0] == b"wait":
        return {b"read": "read", b"write": "write"}.get(words[2] if len(words) > 2 else b"", "other"), True
    return _VERB.get(words[0], "other"), False


def shown_line(line: Union[bytes, str]) -> str:
    """What is shown of a line: nothing that may be a token."""
    if isinstance(line, str):
        return "(a line that was not kept)"
    asked = parse(line[:_LOOKED_AT])
    if isinstance(asked, Call):
        before = "" if asked.wait is None else f"wait {asked.wait:g} "
        return f"{before}{asked.verb} {asked.record} {asked.word or '-'}"
    if isinstance(asked, Resume):
        return "resume (token)" + (" keep" if asked.keep else "")
    if isinstance(asked, Plain):
        return asked.verb
    text = line[:_LOOKED_AT].decode("utf-8", "replace")
    verb = text.split(" ", 1)[0]
    if verb not in _VERBS and verb != "wait":
        return "(a line of another form)"
    if not isinstance(asked, BadWord) and (verb in ("send", "take") or _SHOWN.fullmatch(text)):
        return verb if verb in ("send", "take") else text
    return f"{verb} (can't be read)"


def shown_reply(verb: str, reply: str) -> str:
    """What is shown of a reply: no token, no delta, and nothing long."""
    word = reply[:_LOOKED_AT].split(" ")[0]
    if word in ("token", "kept"):
        return word
    if verb == "send" and word != "refused":
        return "(a delta)"
    return reply if len(reply) <= KEPT_REPLY else reply[:KEPT_REPLY] + " .."
