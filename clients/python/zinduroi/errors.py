"""Why a call was not carried out: one class for each name of a refusal.

The names and their numbers are those of docs/FORMATS.md. The text of a `Refused` is the reply of the program."""
from __future__ import annotations

from typing import ClassVar, Dict, Optional, Tuple, Type

_CLASSES: Dict[str, Type["Refused"]] = {}


class ZinduroiError(Exception):
    """Everything that this package raises by itself."""


class Refused(ZinduroiError):
    """The program answered `refused NAME ..`. A refused call has changed nothing; only after `StoreFault` it is not known
    whether the call was carried out.

    `name` is the refusal's name, and `numbers` are the numbers behind it. A subclass has its numbers as attributes too. A
    name that this package does not know is raised as a plain `Refused`."""

    fields: ClassVar[Tuple[str, ...]] = ()
    name: str
    numbers: Tuple[int, ...]

    def __init__(self, name: str, *numbers: int) -> None:
        super().__init__(name, *numbers)
        self.name = name
        self.numbers = numbers
        for field, number in zip(self.fields, numbers):
            setattr(self, field, number)

    def __init_subclass__(cls) -> None:
        super().__init_subclass__()
        _CLASSES[cls.__name__] = cls

    def __str__(self) -> str:
        return " ".join(["refused", self.name, *map(str, self.numbers)])


def refusal(reply: str) -> Optional[Refused]:
    """The exception for a reply; `None` where the reply is no refusal."""
    word, _, rest = reply.partition(" ")
    if word != "refused":
        return None
    name, *numbers = rest.split(" ")
    return _CLASSES.get(name, Refused)(name, *(int(number) for number in numbers))


class NoRecord(Refused):
    """The layout has no record of this name."""


class BadHolder(Refused):
    """The holder is above 10^12."""


class AlreadyHere(Refused):
    """The holder already has a session at this record and site."""


class NotHere(Refused):
    """The holder has no session at this record and site; to `fence`, it is not inside."""


class NotAnnounced(Refused):
    """The holder has announced no writer at this site that waits or is inside."""


class AlreadyInside(Refused):
    """The holder's writer is inside already."""


class CounterFull(Refused):
    """A counter of the record would exceed 10^12. The site will refuse such calls for ever."""


class WriterAnnounced(Refused):
    """An announced writer keeps new readers out. `site` is the least site that has one."""

    fields = ("site",)
    site: int


class NoSeat(Refused):
    """The site has no free seat. `rights` is the number of its free seats, 0."""

    fields = ("rights",)
    rights: int


class TooManyWriters(Refused):
    """64 writers of this record wait or are inside at this site."""


class MissingSeats(Refused):
    """A writer needs all `seats` of the record, and the site has `rights` of them free."""

    fields = ("rights", "seats")
    rights: int
    seats: int


class NoSite(Refused):
    """The layout has no site of this number."""


class ToSelf(Refused):
    """A site can't give seats to itself."""


class ZeroSeats(Refused):
    """No seat is to be given."""


class TooFewRights(Refused):
    """The site has `rights` free seats, fewer than are to be given."""

    fields = ("rights",)
    rights: int


class NoPlan(Refused):
    """`help` has nothing to give, or nobody to give it to."""


class NotJson(Refused):
    """The text to take is not JSON."""


class NotCanonical(Refused):
    """The text to take is JSON, but not the text of a delta."""


class NotUtf8(Refused):
    """The text to take is not UTF-8. The service answers `BadWord` in its place."""


class NoMark(Refused):
    """The text to take has no mark in front: a site that is opened with `plain`, the command `site` or an older
    program sent it, or no site did."""


class WrongGroup(Refused):
    """The text to take has the mark of another group of sites, or of none."""


class OtherRecords(Refused):
    """The text to take is of a site whose layout has other records: other names, seats, homes or problems, or the same in
    another order."""


class Damaged(Refused):
    """The text to take is not the one that was sent: some byte behind its mark, or of the mark's last word, has changed."""


class OtherLayout(Refused):
    """Row `row` of the delta names a record or site that this site's layout lacks."""

    fields = ("row",)
    row: int


class BadRow(Refused):
    """Row `row` of the delta shows what no site can have done: it is damaged or forged."""

    fields = ("row",)
    row: int


class OwnRowAhead(Refused):
    """The delta knows more of this site, at record number `record`, than the site itself: the store is older than what the
    site once sent. The site is frozen from then on. Do not go on with this store."""

    fields = ("record",)
    record: int


class TooManySeats(Refused):
    """The delta would give this site more free seats of record number `record` than the record has. Some delta is forged,
    or two stores were begun for one site."""

    fields = ("record",)
    record: int


class StoreFault(Refused):
    """The change could not be committed, or it is not known whether it was. The site is frozen from then on; whether the call
    was carried out is seen once the store is opened again."""


class Frozen(Refused):
    """The site serves no more, after `StoreFault` or `OwnRowAhead`."""


class LogFull(Refused):
    """A run of `site` has answered 65,536 calls. The service has no such limit."""


class BadWord(Refused):
    """The line can't be read. `word` is the place of the first word that is not right, counted from 1 by single blanks: one
    that can't stand there, one that is missing, or one too many. It is `None` where the reply has no number, as for a last
    line without its end."""

    fields = ("word",)
    word: Optional[int] = None


class TooLong(Refused):
    """The line, or the text to take, is longer than any delta."""


class Memory(Refused):
    """The service found no memory for this call. It goes on with the next one."""


class StartRefused(ZinduroiError):
    """What ended the program before it answered a call. `name` says why. `file` is the one that was refused, where a node tells it.
    `record` is the place of the layout's record that is at fault, counted from 1, where the program tells it."""

    what: ClassVar[str] = ""

    def __init__(self, name: str, record: Optional[int] = None) -> None:
        super().__init__(name)
        self.name = name
        self.record = record
        self.file: Optional[object] = None

    def __str__(self) -> str:
        place = f" (record {self.record})" if self.record is not None else ""
        return f"{self.what} refused {self.name}{place}" + (f": {self.file}" if self.file is not None else "")


class StoreRefused(StartRefused):
    """The store can't be used. `name` says why: `NoFolder` (its folder is not there), `NoStore` (there is none, and `create` is not
    set), `Exists` (there is one, and `create` is set), `NotAStore` (the file is no database, or another program made its
    tables), `InUse` (another process has it open), `WrongSite`, `WrongGroup` (it is of another group of sites, or of none),
    `WrongLayout` (the layout has other records, fewer sites, or more sites and `grow` is not set), `BadStore`, `WrongCounters`,
    `WrongSessions`, `Outdated` (it is older than what its site once sent) or `StoreFault`. Only `regroup` has `NoGroup` (its site is in no group) and
    `LastGeneration`."""

    what = "store"


class LayoutRefused(StartRefused):
    """The layout can't be used. `name` says why: `NotRead`, `NotToml`, `NoSite` and so on."""

    what = "layout"


class LogRefused(StartRefused):
    """The file for the log can't be used. `name` says why: `IsStore` (it is the store), `NotRead`, `InUse` (another process writes
    it), `NotALog` or `NotTranscript` (it is no log), `WrongSite` (it is the log of another site), or `WrongStore` (the store has
    more or fewer calls than the log)."""

    what = "log"


class ServiceEnded(ZinduroiError):
    """The service has ended, so the call got no reply. It may have been carried out: the store knows.

    `status` is the exit status of the program, below 0 for a signal. `message` is what it wrote to standard error."""

    def __init__(self, status: int, message: str = "") -> None:
        super().__init__(status, message)
        self.status = status
        self.message = message

    def __str__(self) -> str:
        how = f"by signal {-self.status}" if self.status < 0 else f"with status {self.status}"
        return f"the service ended {how}" + (f": {self.message}" if self.message else "")


class TimedOut(ZinduroiError, TimeoutError):
    """A reader or writer was not admitted in time. `refusal` is the last refusal. An announced writer was withdrawn."""

    def __init__(self, refusal: Refused) -> None:
        super().__init__(refusal)
        self.refusal = refusal

    def __str__(self) -> str:
        return f"not admitted in time: {self.refusal}"
