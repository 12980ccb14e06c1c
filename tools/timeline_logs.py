"""Closed logs for `timeline`: reads them, orders their entries, and finds the sessions in them.

The reader checks the form of each line as docs/FORMATS.md has it ("Closed logs as text"), but not its spelling, and
not whether replies follow the rules: `judge` does that.
"""
import json
import re
from collections import defaultdict
from dataclasses import dataclass, field
from itertools import zip_longest
from typing import List, Optional, Tuple

MOST_SITES = 16
NUMBER = r"(?:0|[1-9][0-9]{0,19})"
RECORD = r"(?:[a-z][a-z0-9-]{0,15}|\?[0-9]{1,5})"
CALL = re.compile(
    rf"(?:read|announce|write|leave) {RECORD} {NUMBER}|give {RECORD} {NUMBER} {NUMBER}|help {RECORD}|send|take (?:\{{.*)")
REPLY = re.compile(
    rf"admitted|announced {NUMBER}|left reader|left writer|withdrawn|given|gave {NUMBER} {NUMBER}|merged {NUMBER}"
    rf"|refused [A-Z][A-Za-z]+(?: {NUMBER})*|\{{.*")
SESSION = re.compile(rf"({RECORD}) ({NUMBER}) (reader|waiting|writer)")
IN_DOUBT = "refused StoreFault"
# What a call with this reply makes of its holder's session; None ends it.
PHASES = {("read", "admitted"): "reader", ("announce", "announced"): "waiting", ("write", "admitted"): "writer",
          ("leave", "left"): None, ("leave", "withdrawn"): None}


class BadLog(Exception):
    """A log that can't be read; the text says where and why."""


@dataclass(frozen=True)
class Row:
    """A row of a delta; counters that are 0 at the end of `out` are left out."""
    record: int
    site: int
    announced: int
    finished: int
    taken: int
    out: Tuple[int, ...]

    def is_within(self, other):
        """Whether this row says no more than another one of the same record and site."""
        mine, theirs = ((row.announced, row.finished, row.taken, *row.out) for row in (self, other))
        return (self.record, self.site) == (other.record, other.site) and all(
            less <= more for less, more in zip_longest(mine, theirs, fillvalue=0))


@dataclass(frozen=True)
class Delta:
    """Its sender, its rows, and the number of sites that its rows know."""
    sender: int
    rows: frozenset
    sites: int


@dataclass(eq=False)
class Start:
    """The beginning of a run: the sessions at that moment, and the number of sites that it knows."""
    site: int
    place: str
    sessions: dict
    sites: Optional[int]
    column: int = 0  # its place in the order


@dataclass(eq=False)
class Entry:
    """A call and its reply; `number` counts the entries of the site from 0."""
    site: int
    place: str
    number: int
    call: str
    reply: str
    delta: Optional[Delta] = None  # what it took or sent
    sources: List["Entry"] = field(default_factory=list)  # where what it took was sent
    is_known: bool = True  # whether all that it took was sent by some entry
    is_in_doubt: bool = False
    column: int = 0  # its place in the order

    @property
    def verb(self):
        return self.call.split(" ")[0]

    @property
    def is_refused(self):
        return self.reply.startswith("refused ")


@dataclass(eq=False)
class Session:
    """A holder at a record and site: its phases, each with the item that it begins and the one that it ends with.

    None stands for the edge of the picture: the session began before the log, or was there at its end.
    """
    site: int
    record: str
    holder: str
    phases: list

    def ends(self):
        return self.phases[0][1], self.phases[-1][2]


class Logs:
    """The items of each site, which are starts and entries, in the order of its log."""

    def __init__(self):
        self.items = defaultdict(list)
        self.sites = 0

    def entries(self, site):
        return [item for item in self.items[site] if isinstance(item, Entry)]


def check(holds, reason):
    """Refuses the line with a reason, unless something holds."""
    if not holds:
        raise BadLog(reason)


def is_whole(value, most):
    """Whether this is a whole number from 0 to `most`; True is none."""
    return type(value) is int and 0 <= value <= most


def value_of(text, what):
    """The JSON value of a text; it has to be an object."""
    try:
        value = json.loads(text)
    except (ValueError, RecursionError) as error:
        raise BadLog(f"{what} is not JSON") from error
    check(type(value) is dict, f"{what} is not a JSON object")
    return value


def row_of(row):
    """A row of a delta's JSON."""
    keys = {"ann", "fin", "out", "r", "s", "taken"}
    check(type(row) is dict and set(row) == keys, "a row of the delta has other keys than ann, fin, out, r, s and taken")
    out = row["out"]
    check(type(out) is list and 1 <= len(out) <= MOST_SITES, "a row of the delta has no list `out` of 1 to 16 counters")
    counters = [row["ann"], row["fin"], row["taken"], *out]
    check(all(is_whole(n, 2**64 - 1) for n in counters), "a counter of the delta is not a whole number")
    check(is_whole(row["r"], 255) and is_whole(row["s"], MOST_SITES - 1), "a row of the delta has a wrong record or site")
    out = list(out)
    while out and out[-1] == 0:
        out.pop()
    return Row(row["r"], row["s"], row["ann"], row["fin"], row["taken"], tuple(out))


def delta_of(text):
    """The delta that a text says."""
    value = value_of(text, "the delta")
    check(set(value) == {"from", "rows", "v"} and value["v"] == 1, "the delta has other keys than from, rows and v, or v is not 1")
    check(is_whole(value["from"], MOST_SITES - 1), "the delta's `from` is not a site")
    check(type(value["rows"]) is list, "the delta's `rows` is not a list")
    rows = frozenset(map(row_of, value["rows"]))
    return Delta(value["from"], rows, max((len(row["out"]) for row in value["rows"]), default=0))


def start_of(line, place):
    """The start that a line says, with its book."""
    site, sites = line["site"], line.get("sites")
    check(is_whole(site, MOST_SITES - 1), "`site` is not a number from 0 to 15")
    check(sites is None or is_whole(sites, MOST_SITES) and site < sites, "`sites` is not a number above `site`, up to 16")
    check(type(line["book"]) is str, "`book` is not a text")
    check(type(line["sessions"]) is list, "`sessions` is not a list")
    sessions = {}
    for text in line["sessions"]:
        found = SESSION.fullmatch(text) if type(text) is str else None
        check(found, f"{json.dumps(text)} is no session: NAME H PHASE")
        sessions[found[1], found[2]] = found[3]
    return Start(site, place, sessions, sites), delta_of(line["book"])


def entry_of(line, place, site, number):
    """The entry that a line says, of the site whose run it stands in."""
    call, reply = line["call"], line["reply"]
    check(is_whole(line["pass"], 65_535), "`pass` is not a number from 0 to 65,535")
    check(type(call) is str and CALL.fullmatch(call), f"{json.dumps(call):.60} is no call")
    check(type(reply) is str and REPLY.fullmatch(reply), f"{json.dumps(reply):.60} is no reply")
    entry = Entry(site, place, number, call, reply)
    if entry.verb == "take":
        entry.delta = delta_of(call[5:])
    elif reply.startswith("{"):
        entry.delta = delta_of(reply)
    return entry


class Reader:
    """Reads the lines of closed logs one after the other."""

    def __init__(self):
        self.logs, self.site, self.counts = Logs(), None, defaultdict(int)

    def ended(self):
        """The logs that were read. A store's fault at the end of a run leaves its call in doubt."""
        for items in self.logs.items.values():
            for item, after in zip_longest(items, items[1:]):
                if isinstance(item, Entry) and item.reply == IN_DOUBT and not isinstance(after, Entry):
                    item.is_in_doubt = True
        return self.logs

    def read(self, name, file):
        """Reads a file; its first lines may go on with the run that the file before ended in."""
        for number, data in enumerate(file, 1):
            place = f"{name}, line {number}"
            try:
                self.line(data, place)
            except BadLog as error:
                raise BadLog(f"{place}: {error}") from error

    def line(self, data, place):
        """Reads a line, which begins a run or is an entry."""
        try:
            text = data.decode("utf-8")
        except UnicodeDecodeError as error:
            raise BadLog("it is not UTF-8") from error
        line = value_of(text, "it")
        if set(line) | {"sites"} == {"book", "sessions", "site", "sites"}:
            start, book = start_of(line, place)
            self.site = start.site
            self.logs.items[self.site].append(start)
            self.logs.sites = max(self.logs.sites, start.sites or 0, start.site + 1, book.sites)
            return
        check(set(line) == {"call", "pass", "reply"}, "its keys are neither those of a run (book, sessions, site, sites)"
              " nor those of an entry (call, pass, reply)")
        check(self.site is not None, "an entry stands before the first run")
        entry = entry_of(line, place, self.site, self.counts[self.site])
        self.counts[self.site] += 1
        self.logs.items[self.site].append(entry)
        if entry.verb == "send" and entry.delta:
            self.logs.sites = max(self.logs.sites, entry.delta.sites)


class Senders:
    """Finds the entries that sent what a delta has."""

    def __init__(self, logs):
        self.sent = defaultdict(list)  # by site, in the order of its log
        self.with_row = defaultdict(list)  # by site and row
        for site in range(logs.sites):
            for entry in logs.entries(site):
                if entry.verb == "send" and entry.delta:
                    self.sent[site].append(entry)
                    for row in entry.delta.rows:
                        self.with_row[site, row].append(entry)

    def with_rows(self, delta):
        """The sends of the delta's sender that have all of its rows as they are; none where there is no row to compare."""
        lists = [self.with_row[delta.sender, row] for row in delta.rows]
        shortest = min(lists, key=len) if lists else self.sent[delta.sender]
        return [entry for entry in shortest if delta.rows <= entry.delta.rows]

    def first_above(self, site, rows):
        """The first send of a site that says of these rows at least as much."""
        for entry in self.sent[site]:
            if all(any(row.is_within(other) for other in entry.delta.rows) for row in rows):
                return entry
        return None

    def whole(self, delta):
        """The first send of the delta's sender that has all of the delta; None where there is none."""
        found = self.with_rows(delta)
        return found[0] if found else self.first_above(delta.sender, delta.rows)

    def parts(self, entry):
        """For each other site of which the entry's delta has rows, the first send of that site with them; None for none."""
        rows = defaultdict(list)
        for row in entry.delta.rows:
            if row.site != entry.site:
                rows[row.site].append(row)
        return [self.first_above(site, rows[site]) for site in sorted(rows)]


class Order:
    """Puts the items of all sites into one order: each site's own, and each delta taken behind where it was sent.

    Where several items could come next, the one with the fewest items before it in the longest chain does. A
    delta is looked for at its sender. If the order has no place for that, its rows are looked for at the sites
    that they speak of, as for a join of several deltas.
    """

    def __init__(self, logs):
        self.logs, self.senders = logs, Senders(logs)
        self.items, self.levels, self.heads = [], {}, [0] * logs.sites

    def run(self):
        """All items in their order; their columns, and where each delta came from, are set."""
        for site in range(self.logs.sites):
            for entry in self.takes(site):
                whole = self.senders.whole(entry.delta)
                self.set_sources(entry, [whole] if whole else self.senders.parts(entry))
        while True:
            heads = [self.logs.items[site][at] for site, at in enumerate(self.heads) if at < len(self.logs.items[site])]
            if not heads:
                break
            self.place(min(self.ready(heads), key=lambda item: (self.level(item), item.site)))
        for site in range(self.logs.sites):
            for entry in self.takes(site):
                self.choose_latest(entry)
        return self.items

    def takes(self, site):
        return [entry for entry in self.logs.entries(site) if entry.verb == "take"]

    @staticmethod
    def set_sources(entry, found):
        entry.sources = [source for source in found if source]
        entry.is_known = None not in found

    def is_ready(self, item):
        return isinstance(item, Start) or all(source in self.levels for source in item.sources)

    def ready(self, heads):
        """The items that can come next; where there is none, one gets the sources that stand already."""
        ready = [item for item in heads if self.is_ready(item)]
        if ready:
            return ready
        parts = {item: self.senders.parts(item) for item in heads}
        honest = [item for item in heads if all(source in self.levels for source in parts[item])]
        item = min(honest or heads, key=lambda item: (self.level(item), item.site))
        self.set_sources(item, [source if source in self.levels else None for source in parts[item]])
        return [item]

    def level(self, item):
        """The number of items in the longest chain up to this one."""
        at = self.heads[item.site]
        before = [self.logs.items[item.site][at - 1]] if at > 0 else []
        before += [] if isinstance(item, Start) else item.sources
        return 1 + max((self.levels.get(other, 0) for other in before), default=0)

    def place(self, item):
        """Puts an item last. The first start of a site stands at the left edge and takes no column."""
        is_first = self.heads[item.site] == 0
        self.levels[item] = 0 if is_first else self.level(item)
        self.heads[item.site] += 1
        if not is_first:
            item.column = len(self.items)
            self.items.append(item)

    def choose_latest(self, entry):
        """Among equal texts of the sender, the delta came from the last one that stands before it in the order."""
        if len(entry.sources) == 1 and entry.sources[0].site == entry.delta.sender:
            before = [it for it in self.senders.with_rows(entry.delta) if it.column < entry.column]
            entry.sources = before[-1:] or entry.sources


class Sessions:
    """Follows the sessions of a site through the items of its log."""

    def __init__(self, items):
        self.all, self.here, self.doubtful = [], {}, None
        for item in items:
            if isinstance(item, Start):
                self.begin_run(item, item is items[0])
            else:
                self.follow(item)
            self.doubtful = item if isinstance(item, Entry) and item.reply == IN_DOUBT else None

    def change(self, key, phase, site, item):
        """From this item on, the holder at a record that `key` names is in another phase, or gone."""
        session = self.here.get(key)
        if session:
            session.phases[-1][2] = item
        if phase is None:
            self.here.pop(key, None)
        elif phase == "writer" and session and session.phases[-1][0] == "waiting":
            session.phases.append([phase, item, None])
        else:
            self.here[key] = Session(site, *key, [[phase, item, None]])
            self.all.append(self.here[key])

    def begin_run(self, start, is_first):
        """What a run begins with decides whether the call in doubt before it was carried out."""
        found = {key: session.phases[-1][0] for key, session in self.here.items()}
        for key in [*found, *(key for key in start.sessions if key not in found)]:
            if found.get(key) != start.sessions.get(key):
                is_doubtful = self.doubtful and tuple(self.doubtful.call.split(" ")[1:]) == key
                at = self.doubtful if is_doubtful else None if is_first else start
                self.change(key, start.sessions.get(key), start.site, at)

    def follow(self, entry):
        """A call that was carried out begins, changes or ends a session, or none."""
        verb, *words = entry.call.split(" ")
        outcome = verb, entry.reply.split(" ")[0]
        if outcome in PHASES:
            self.change(tuple(words), PHASES[outcome], entry.site, entry)
