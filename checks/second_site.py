"""A second reading of `play` and `site`, written from the documents alone, not from the program."""
import re

import second_reader as reader

COUNTER_LIMIT = 10**12
MOST_WRITERS = 64
MOST_CALLS = 65_536
NO_RECORD = 65_535
PHASES = (None, "reader", "waiting", "writer")
NUMBER = re.compile(rb"0|[1-9][0-9]{0,19}")
NAME = re.compile(rb"[a-z][a-z0-9-]{0,15}")


class Refused(Exception):
    """What changes nothing; its text is the refusal's name with its numbers."""


def refuse(applies, name, *numbers):
    if applies:
        raise Refused(" ".join([name, *map(str, numbers)]))


def reply(call, *parts):
    try:
        return call(*parts)
    except Refused as refusal:
        return f"refused {refusal}"


def number(word, bits=64):
    if not NUMBER.fullmatch(word) or int(word) >= 2**bits:
        raise ValueError(word)
    return int(word)


def record(word, layout):  # its place
    if not NAME.fullmatch(word):
        raise ValueError(word)
    names = [it["name"] for it in layout["record"]]
    return names.index(word.decode()) if word.decode() in names else NO_RECORD


def ask(words, layout):
    """The verb that the words of a call begin with, and what is asked with it."""
    match words:
        case [(b"read" | b"announce" | b"write" | b"leave") as verb, name, holder]:
            return verb.decode(), record(name, layout), number(holder)
        case [b"give", name, to, seats]:
            return "give", record(name, layout), number(to, 16), number(seats)
        case [b"help", name]:
            return "help", record(name, layout)
        case [b"send"]:
            return ("send",)
    raise ValueError(words)


class Site:
    """One site: the rows of its book that have left their start, and its sessions by arrival."""

    def __init__(self, layout, site, sessions=()):
        self.layout, self.site = layout, site
        self.rows = {}  # by record and site; none is changed, but another one takes its place
        self.sessions = dict(sessions)  # phase and place, by record and holder, in order of arrival

    def restarted(self, layout):
        """What a stop leaves: the own row, the seats sent here, all notices, and the sessions."""
        left = Site(layout, self.site, self.sessions)
        for (r, s), row in self.rows.items():
            start = reader.start(layout, r, s)
            kept = row | {"out": row["out"] + start["out"][len(row["out"]) :]}
            if s != self.site:
                start["out"][self.site] = row["out"][self.site]
                kept |= {"out": start["out"], "taken": 0}
            if kept != reader.start(layout, r, s):
                left.rows[r, s] = kept
        return left

    def row(self, r, s):
        return self.rows.get((r, s)) or reader.start(self.layout, r, s)

    def rights(self, r):
        """Granted, given back and received, less passed on and taken."""
        own = self.row(r, self.site)
        gained = sum(self.row(r, s)["out"][self.site] for s in range(self.layout["sites"]))
        return gained - (sum(own["out"]) - own["out"][self.site]) - own["taken"]

    def unfinished(self, r, s):
        row = self.rows.get((r, s))
        return row["ann"] - row["fin"] if row else 0

    def first_writer(self, r):
        """The least site of which an unfinished writer is known."""
        return next((s for s in range(self.layout["sites"]) if self.unfinished(r, s) > 0), None)

    def plan(self, r):
        """To which site `help` gives, and how many seats; None where it gives none."""
        sites, rights, to = self.layout["sites"], self.rights(r), self.first_writer(r)
        if to is None:
            to = (self.site + 1) % sites
            rights -= (self.layout["record"][r]["seats"] + sites - 1) // sites
        return (to, rights) if to != self.site and rights > 0 else None

    def rise(self, r, key, n, to=None):
        own = self.row(r, self.site)
        out = [m + n * (j == to) for j, m in enumerate(own["out"])]
        self.rows[r, self.site] = own | {key: out if key == "out" else own[key] + n}

    def phase(self, r, h):
        """What a holder does there; None for nothing."""
        refuse(r == NO_RECORD, "NoRecord")
        refuse(h > COUNTER_LIMIT, "BadHolder")
        return self.sessions.get((r, h), (None, 0))[0]

    def comes(self, r, h, phase):
        """A session comes, at the place behind the last one."""
        self.sessions[r, h] = (phase, next(reversed(self.sessions.values()), (None, 0))[1] + 1)

    def read(self, r, h):
        refuse(self.phase(r, h), "AlreadyHere")
        refuse(self.row(r, self.site)["taken"] + 1 > COUNTER_LIMIT, "CounterFull")
        first = self.first_writer(r) if self.layout["record"][r]["problem"] == 2 else None
        refuse(first is not None, "WriterAnnounced", first)
        refuse(self.rights(r) < 1, "NoSeat", self.rights(r))
        self.rise(r, "taken", 1)
        self.comes(r, h, "reader")
        return "admitted"

    def announce(self, r, h):
        refuse(self.phase(r, h), "AlreadyHere")
        refuse(self.row(r, self.site)["ann"] + 1 > COUNTER_LIMIT, "CounterFull")
        refuse(self.unfinished(r, self.site) >= MOST_WRITERS, "TooManyWriters")
        self.rise(r, "ann", 1)
        self.comes(r, h, "waiting")
        return f"announced {self.row(r, self.site)['ann']}"

    def write(self, r, h):
        phase = self.phase(r, h)
        refuse(phase in (None, "reader"), "NotAnnounced")
        refuse(phase == "writer", "AlreadyInside")
        rights, seats = self.rights(r), self.layout["record"][r]["seats"]
        refuse(self.row(r, self.site)["taken"] + seats > COUNTER_LIMIT, "CounterFull")
        refuse(rights < seats, "MissingSeats", rights, seats)
        self.rise(r, "taken", seats)
        self.sessions[r, h] = ("writer", self.sessions[r, h][1])
        return "admitted"

    def leave(self, r, h):
        phase = self.phase(r, h)
        refuse(phase is None, "NotHere")
        del self.sessions[r, h]
        weights = {"reader": 1, "writer": self.layout["record"][r]["seats"]}
        if phase in weights:
            self.rise(r, "out", weights[phase], self.site)
        if phase != "reader":
            self.rise(r, "fin", 1)
        return "withdrawn" if phase == "waiting" else f"left {phase}"

    def give(self, r, to, seats):
        refuse(r == NO_RECORD, "NoRecord")
        refuse(to >= self.layout["sites"], "NoSite")
        refuse(to == self.site, "ToSelf")
        refuse(seats == 0, "ZeroSeats")
        refuse(self.row(r, self.site)["out"][to] + seats > COUNTER_LIMIT, "CounterFull")
        refuse(seats > self.rights(r), "TooFewRights", self.rights(r))
        self.rise(r, "out", seats, to)
        return "given"

    def help(self, r):
        refuse(r == NO_RECORD, "NoRecord")
        refuse(self.plan(r) is None, "NoPlan")
        to, seats = self.plan(r)
        self.give(r, to, seats)
        return f"gave {to} {seats}"

    def send(self):
        """What it knows: the rows that have left their start, as the text of a delta."""
        rows = [row for _, row in sorted(self.rows.items())]
        return reader.text_of({"from": self.site, "rows": rows, "v": 1})

    def take(self, rows):
        """Takes the rows of a delta; none is one that no site can have."""
        for i, row in enumerate(rows):
            refuse(not reader.is_placed(self.layout, row), "OtherLayout", i)
        raised = []
        for row in rows:
            old = self.row(row["r"], row["s"])
            new = old if old is row else reader.greater(old, row)
            refuse(row["s"] == self.site and new != old, "OwnRowAhead", row["r"])
            raised += [(old, new)] if new != old else []
        self.rows |= {(new["r"], new["s"]): new for _, new in raised}
        risen = sum(old[key] != new[key] for old, new in raised for key in ("ann", "fin", "taken"))
        risen += sum(a != b for old, new in raised for a, b in zip(old["out"], new["out"]))
        return f"merged {risen}"

    def content(self):
        """The rows of the tables of its store: counters, sessions and notices."""
        cells, notices = [], []
        for (r, s), row in sorted(self.rows.items()):
            slots = [(100 + s, row["out"][self.site])]
            if s == self.site:
                start = reader.start(self.layout, r, s)["out"]
                slots = [(j, n) for j, n in enumerate(row["out"]) if n != start[j]]
                slots += [(200, row["taken"]), (201, row["ann"]), (202, row["fin"])]
            elif row["ann"]:
                notices.append((r, s, row["ann"], row["fin"]))
            cells += [(r, slot, n) for slot, n in slots if n]
        sessions = [(*key, PHASES.index(it), place) for key, (it, place) in self.sessions.items()]
        return sorted(cells), sorted(sessions), notices


class World:
    """The sites of a script of `play`, and the messages that they sent."""

    def __init__(self, layout, first):
        self.layout, self.messages = layout, []
        sites = [first if s < first else layout["sites"] for s in range(layout["sites"])]
        self.sites = [Site(layout | {"sites": known}, s) for s, known in enumerate(sites)]

    def answer(self, line):
        """The reply to a line; ValueError where it says no event."""
        site, *words = line.split(b" ")
        s = number(site, 16)
        match words:
            case [(b"restart" | b"grow") as verb]:
                return reply(self.happens, s, verb.decode())
            case [b"take", message]:
                return reply(self.happens, s, "take", number(message))
        return reply(self.happens, s, *ask(words, self.layout))

    def happens(self, s, verb, *parts):
        refuse(s >= len(self.sites), "NoSite")
        site = self.sites[s]
        match verb:
            case "send":
                self.messages.append([row for _, row in sorted(site.rows.items())])
                return f"sent {len(self.messages) - 1}"
            case "take":
                refuse(parts[0] >= len(self.messages), "NoMessage")
                return site.take(self.messages[parts[0]])
            case "restart" | "grow":
                grows = verb == "grow"
                refuse(grows and site.layout["sites"] == len(self.sites), "NoGrowth")
                self.sites[s] = site.restarted(self.layout if grows else site.layout)
                return "grown" if grows else "restarted"
        return getattr(site, verb)(*parts)

    def tables(self):
        seats = [("record", "site", "rights", "inside", "unfinished")]
        sessions = [("record", "site", "holder", "phase")]
        for r, it in enumerate(self.layout["record"]):
            weights = {"reader": 1, "waiting": 0, "writer": it["seats"]}
            for s, site in enumerate(self.sites):
                here = [(h, phase) for (q, h), (phase, _) in site.sessions.items() if q == r]
                inside = sum(weights[phase] for _, phase in here)
                seats.append((it["name"], s, site.rights(r), inside, site.unfinished(r, s)))
                sessions += [(it["name"], s, *one) for one in here]
        lines = ["{:16}{:>5}{:>8}{:>8}{:>12}\n".format(*it) for it in seats]
        return "".join(lines + ["{:16}{:>5}{:>15}  {}\n".format(*it) for it in sessions])


class Run:
    """A run of `site` over what the runs before it kept."""

    def __init__(self, site, layout):
        self.site, self.calls = site.restarted(layout), 0

    def answer(self, line):
        """The reply to a line; ValueError where it says no call."""
        if not line.decode("utf-8").startswith("take "):
            verb, *parts = ask(line.split(b" "), self.site.layout)
            return reply(self.serve, getattr(self.site, verb), *parts)
        fault, rows = reader.read(line[5:], self.site.layout)
        if fault in ("TooLong", "NotJson", "NotCanonical"):
            return f"refused {fault}"
        return reply(self.serve, *((refuse, True, fault) if fault else (self.site.take, rows)))

    def serve(self, call, *parts):
        refuse(self.calls == MOST_CALLS, "LogFull")
        self.calls += 1
        return call(*parts)
