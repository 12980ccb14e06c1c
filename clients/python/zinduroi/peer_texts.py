"""What travels between peers: the lines of their protocol, and which text is due to whom. No sockets, no threads, no clock.

Each line ends with LF. `hello` is the first line of each side:

    hello {"began":N,"last":N,"site":1,"version":1}
    needs {"2":N}
    heard {"2":N}
    text {"lacks":{"a":3},"of":1,"stamp":N} TEXT
    alive

`began` and `last` are the stamps between which all texts of this run of the site are until now. `needs` names the sites whose
texts this side wants over this connection, with the stamp of what it has of each, or 0; a later one replaces it. `heard` has
stamps that this side has heard of and whose texts it lacks: their site goes on above them. `text` has the
delta TEXT of site `of` as that site published it, and the seats that its callers lack, by record. `alive` comes behind the first
texts, and then where nothing else is to be said."""
from __future__ import annotations

import dataclasses
import json
import re
from typing import Any, Dict, FrozenSet, Iterable, List, Mapping, Optional, Union

VERSION = 1

# The most sites, the most bytes of a delta with its mark, of the object in front of it, and of a whole line.
SITES = 16
TEXT_LIMIT = 2_097_152 + 128
HEAD_LIMIT = 16_384
LINE_LIMIT = TEXT_LIMIT + HEAD_LIMIT + 64

# Stamps are whole numbers below this one; a site counts its texts from the microseconds since 1970 on. A stamp that is further
# ahead of the clock than ten years is refused: a site could not count on from it.
STAMP_LIMIT = 2 ** 63
FAR_AHEAD = 10 * 366 * 86_400 * 1_000_000

ALIVE = b"alive\n"


class BadLine(ValueError):
    """A line that the protocol does not have."""


@dataclasses.dataclass(frozen=True)
class Text:
    """The text of site `of`; of two texts of a site the one with the greater stamp is newer. `lacks` are seats by record."""

    of: int
    stamp: int
    text: str
    lacks: Mapping[str, int] = dataclasses.field(default_factory=dict)


@dataclasses.dataclass(frozen=True)
class Hello:
    """The first line of a side."""

    site: int
    began: int
    last: int


@dataclasses.dataclass(frozen=True)
class Needs:
    """The sites whose texts a side wants over this connection, with the stamp that it has of each, or 0."""

    stamps: Mapping[int, int]


@dataclasses.dataclass(frozen=True)
class Heard:
    """Stamps of sites that a side has heard of, and has no text of or an older one. If it is more than the site's own last
    one, as where the clock of an earlier run was ahead, the site goes on above it."""

    stamps: Mapping[int, int]


@dataclasses.dataclass(frozen=True)
class Alive:
    """A line that only shows that a side is there; the first one comes behind the texts that were due at the start."""


Line = Union[Hello, Needs, Heard, Text, Alive]


def _encoded(word: str, value: Mapping[str, Any]) -> bytes:
    return f"{word} {json.dumps(value, separators=(',', ':'), sort_keys=True)}".encode("utf-8")


def _named(stamps: Mapping[int, int]) -> Dict[str, int]:
    return {str(site): stamp for site, stamp in stamps.items()}


def hello_line(hello: Hello) -> bytes:
    """The bytes of a hello, with LF."""
    return _encoded("hello", {"began": hello.began, "last": hello.last, "site": hello.site, "version": VERSION}) + b"\n"


def needs_line(stamps: Mapping[int, int]) -> bytes:
    """The bytes of a line `needs`, with LF."""
    return _encoded("needs", _named(stamps)) + b"\n"


def heard_line(stamps: Mapping[int, int]) -> bytes:
    """The bytes of a line `heard`, with LF."""
    return _encoded("heard", _named(stamps)) + b"\n"


def text_line(text: Text) -> bytes:
    """The bytes of a text, with LF."""
    head = _encoded("text", {"lacks": dict(text.lacks), "of": text.of, "stamp": text.stamp})
    return head + b" " + text.text.encode("utf-8") + b"\n"


def is_text(text: str) -> bool:
    """Whether a text can be sent: in UTF-8, without LF, and no longer than a delta with its mark."""
    try:
        return "\n" not in text and len(text.encode("utf-8")) <= TEXT_LIMIT
    except UnicodeEncodeError:
        return False


def line_of(line: bytes) -> Line:
    """What a line without its LF says. Raises `BadLine`."""
    word, _, rest = line.partition(b" ")
    if word == b"alive" and line == b"alive":
        return Alive()
    if word == b"text":
        return _text_of(rest)
    if word == b"needs":
        return Needs(_stamps_of(_object_of(rest)))
    if word == b"heard":
        return Heard(_stamps_of(_object_of(rest)))
    if word == b"hello":
        return _hello_of(_object_of(rest))
    raise BadLine("no such line")


def _object_of(data: bytes) -> Dict[str, Any]:
    """A small object of JSON."""
    if len(data) > HEAD_LIMIT:
        raise BadLine("an object is too long")
    try:
        found = json.loads(data)
    except (ValueError, RecursionError) as error:
        raise BadLine("no JSON") from error
    if not isinstance(found, dict):
        raise BadLine("no object")
    return found


def _number(value: object, limit: int) -> int:
    """A whole number from 0 on, below a limit."""
    if type(value) is not int or not 0 <= value < limit:
        raise BadLine("a number is wrong")
    return value


def _stamps_of(found: object) -> Dict[int, int]:
    if not isinstance(found, dict) or len(found) > SITES:
        raise BadLine("stamps are wrong")
    stamps = {}
    for name, stamp in found.items():
        if not re.fullmatch(r"[0-9]{1,2}", name, re.ASCII):
            raise BadLine("a site is wrong")
        stamps[_number(int(name), SITES)] = _number(stamp, STAMP_LIMIT)
    return stamps


def _hello_of(found: Dict[str, Any]) -> Hello:
    if found.get("version") != VERSION:
        raise BadLine("another version")
    return Hello(_number(found.get("site"), SITES), _number(found.get("began"), STAMP_LIMIT),
                 _number(found.get("last"), STAMP_LIMIT))


def checked_lacks(found: object) -> Dict[str, int]:
    """Seats by record: at most 256 names of records, and 1 to 65,535 seats of each. Raises `BadLine`."""
    if not isinstance(found, dict) or len(found) > 256:
        raise BadLine("lacks are wrong")
    for name, seats in found.items():
        if not isinstance(name, str) or not re.fullmatch(r"[a-z][a-z0-9-]{0,15}", name, re.ASCII):
            raise BadLine("a record is wrong")
        if _number(seats, 65_536) == 0:
            raise BadLine("no seat is lacking")
    return found


def _text_of(rest: bytes) -> Text:
    # The object in front has no blank, so the first one ends it.
    head, blank, body = rest.partition(b" ")
    if not blank or len(body) > TEXT_LIMIT:
        raise BadLine("a text is wrong")
    found = _object_of(head)
    try:
        text = body.decode("utf-8")
    except UnicodeDecodeError as error:
        raise BadLine("a text is not UTF-8") from error
    return Text(_number(found.get("of"), SITES), _number(found.get("stamp"), STAMP_LIMIT), text, checked_lacks(found.get("lacks")))


@dataclasses.dataclass
class View:
    """What is known of the side at the other end of a connection: its site; the stamps of its run; the sites whose texts it
    wants; and the stamp of each site's text that it has."""

    site: int
    began: int
    last: int
    needs: FrozenSet[int]
    knows: Dict[int, int]

    @classmethod
    def of(cls, hello: Hello) -> View:
        """What a hello says."""
        return cls(hello.site, hello.began, hello.last, frozenset(), {})

    def want(self, stamps: Mapping[int, int]) -> None:
        """Takes a line `needs`."""
        self.needs = frozenset(stamps)
        for site, stamp in stamps.items():
            self.saw(site, stamp)

    def saw(self, site: int, stamp: int) -> None:
        """The other side has a text of this stamp."""
        self.knows[site] = max(stamp, self.knows.get(site, 0))


class Texts:
    """The newest text of each site. `now` is a stamp of this moment, by the clock; a clock that was put back does no harm:
    a site that hears of a text of its own with a greater stamp goes on above that."""

    def __init__(self, site: int, now: int) -> None:
        self.site = site
        self.began = self.last = now
        self.newest: Dict[int, Text] = {}
        self.above: Optional[int] = None
        self._heard: Dict[int, int] = {}
        self._arrived: Dict[int, Text] = {}

    def tell(self, text: str, lacks: Mapping[str, int], now: int, again: bool = False) -> bool:
        """This site's own text from now on; whether it is to be sent: it differs from the last one, or is told `again`."""
        old = self.newest.get(self.site)
        if not again and old is not None and old.text == text and old.lacks == lacks:
            return False
        self._stamp(text, dict(lacks), now)
        return True

    def tell_again(self, now: int) -> bool:
        """Gives this site's own text a stamp above the one that another text of this site was seen with, if one was."""
        old = self.newest.get(self.site)
        if self.above is None or old is None:
            return False
        self._stamp(old.text, old.lacks, now)
        return True

    def _stamp(self, text: str, lacks: Mapping[str, int], now: int) -> None:
        above = max(self.last, now - 1, self.above or 0)
        self.last, self.above = min(above + 1, STAMP_LIMIT - 1), None
        self.newest[self.site] = Text(self.site, self.last, text, lacks)

    def take(self, text: Text, now: int) -> bool:
        """A text that arrived; whether it is new. One of this site's own from another run is new each time that it comes:
        it may show that the store is old; of several the newest one waits. Raises `BadLine` if its stamp is far ahead of the clock."""
        self.hear({text.of: text.stamp}, now)
        if text.of == self.site:
            if self.began <= text.stamp <= self.last:
                return False
            waiting = self._arrived.get(text.of)
            if waiting is not None and waiting.stamp > text.stamp:
                return False
        else:
            old = self.newest.get(text.of)
            if old is not None and old.stamp >= text.stamp:
                return False
            self.newest[text.of] = text
        self._arrived[text.of] = text
        return True

    def hear(self, stamps: Mapping[int, int], now: int) -> bool:
        """Stamps that somebody has heard of; whether the text of one is lacking here. Raises `BadLine` if one is far ahead
        of the clock."""
        if any(stamp > now + FAR_AHEAD for stamp in stamps.values()):
            raise BadLine("a stamp is far ahead")
        for site, stamp in stamps.items():
            if site != self.site:
                self._heard[site] = max(stamp, self._heard.get(site, 0))
            elif stamp > self.last:
                self.above = max(stamp, self.above or 0)
        return bool(self.lacking(stamps))

    def lacking(self, sites: Iterable[int]) -> Dict[int, int]:
        """The stamps that were heard of, of those of these sites whose texts are lacking."""
        found = {site: self._heard.get(site, 0) for site in sites if site != self.site}
        return {site: stamp for site, stamp in found.items() if stamp > self.stamps([site])[site]}

    def arrived(self) -> List[str]:
        """The texts that came since the last question."""
        texts = [text.text for text in self._arrived.values()]
        self._arrived.clear()
        return texts

    def others(self) -> List[str]:
        """The newest text of each other site."""
        return [text.text for site, text in self.newest.items() if site != self.site]

    def stamps(self, sites: Iterable[int]) -> Dict[int, int]:
        """The stamp of the newest text of each of these sites, or 0."""
        return {site: self.newest[site].stamp if site in self.newest else 0 for site in sites}

    def due(self, view: View) -> Optional[Text]:
        """A text that the other side lacks: this site's own; one that it wants; or one of the other side's own site, which is
        not of its run: it may show there that the store is old."""
        for site, text in self.newest.items():
            if site == view.site:
                foreign = not view.began <= text.stamp <= view.last
                if foreign and view.knows.get(site, 0) < text.stamp:
                    return text
            elif (site == self.site or site in view.needs) and view.knows.get(site, 0) < text.stamp:
                return text
        return None
