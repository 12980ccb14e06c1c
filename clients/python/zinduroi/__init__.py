"""A client for Zinduroi, a reader-writer lock for records that several sites share.

    from zinduroi import Exchange, Folder, Site

    with Site("site_0.db", 0, layout="layout.toml") as site, Exchange(site, Folder("deltas"), interval=1.0):
        with site.read("a", 7, timeout=5):
            ...                                 # other readers may be inside, at any site
        with site.write("a", 8, timeout=60) as inside:
            ...                                 # nobody else is inside, at any site; inside.fence is its number

A `Site` runs the program `seat_cli serve` beside your own, and any number of threads may use it. An `Exchange` carries
deltas between sites. The lock is advisory: a caller that goes on after its session has ended is kept out only by a `Fence` at
what it uses. A holder is a number of yours: no two callers of a record and site may have the same."""
from .errors import (AlreadyHere, AlreadyInside, BadHolder, BadRow, BadWord, CounterFull, Damaged, Frozen, LayoutRefused,
                     LogFull, LogRefused, Memory, MissingSeats, NoMark, NoPlan, NoRecord, NoSeat, NoSite, NotAnnounced,
                     NotCanonical, NotHere, NotJson, NotUtf8, OtherLayout, OtherRecords, OwnRowAhead, Refused, ServiceEnded,
                     StoreFault, StoreRefused, TimedOut, TooFewRights, TooLong, TooManySeats, TooManyWriters, ToSelf,
                     WriterAnnounced, WrongGroup, ZeroSeats, ZinduroiError)
from .exchange import Exchange, Tally
from .fence import Fence
from .site import Counts, Gave, Layout, Reading, Record, Session, Site, Writing, read_layout
from .transports import Command, Folder, Mqtt, Transport, TransportFailed

__all__ = [
    "AlreadyHere", "AlreadyInside", "BadHolder", "BadRow", "BadWord", "Command", "CounterFull", "Counts", "Damaged", "Exchange",
    "Fence", "Folder", "Frozen", "Gave", "Layout", "LayoutRefused", "LogFull", "LogRefused", "Memory", "MissingSeats", "Mqtt",
    "NoMark", "NoPlan", "NoRecord", "NoSeat", "NoSite", "NotAnnounced", "NotCanonical", "NotHere", "NotJson", "NotUtf8", "OtherLayout",
    "OtherRecords", "OwnRowAhead", "Reading", "Record", "Refused", "ServiceEnded", "Session", "Site", "StoreFault", "StoreRefused",
    "Tally", "TimedOut", "ToSelf", "TooFewRights", "TooLong", "TooManySeats", "TooManyWriters", "Transport", "TransportFailed",
    "WriterAnnounced", "WrongGroup", "Writing", "ZeroSeats", "ZinduroiError", "read_layout",
]
