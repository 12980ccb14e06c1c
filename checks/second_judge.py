"""A second reading of closed logs and of `judge`, written from the documents alone, not from the program."""
import json

import second_reader as reader
import second_site as rules

# What a reply may say, and the bits that each of its numbers fits.
REPLIES = {
    "admitted": (), "announced": (64,), "left reader": (), "left writer": (), "withdrawn": (), "given": (),
    "gave": (16, 64), "merged": (64,), "refused NoRecord": (), "refused BadHolder": (),
    "refused AlreadyHere": (), "refused NotHere": (), "refused NotAnnounced": (),
    "refused AlreadyInside": (), "refused CounterFull": (), "refused WriterAnnounced": (16,),
    "refused NoSeat": (64,), "refused TooManyWriters": (), "refused MissingSeats": (64, 32),
    "refused NoSite": (), "refused ToSelf": (), "refused ZeroSeats": (), "refused TooFewRights": (64,),
    "refused NoPlan": (), "refused OtherLayout": (64,), "refused BadRow": (64,),
    "refused OwnRowAhead": (16,), "refused Memory": (), "refused Frozen": (), "refused LogFull": (),
    "refused StoreFault": ()}
FAULT = "refused StoreFault"


def check(holds):
    if not holds:
        raise ValueError


def is_reply(text):
    if text.startswith("{"):
        return reader.decode(text.encode())[0] is None
    words = text.split(" ")
    numbers = [it for it in words if rules.NUMBER.fullmatch(it.encode())]
    bits = REPLIES.get(" ".join(words[: len(words) - len(numbers)]), (0,) * 9)
    return words[len(words) - len(numbers) :] == numbers and len(bits) == len(numbers) and all(
        int(it) < 2**most for it, most in zip(numbers, bits))


def call_of(text, layout):
    """The verb of a call, and what is asked with it; ValueError where no site's log has this text."""
    if text.startswith("take "):
        fault, _ = reader.decode(text[5:].encode())
        check(fault is None)
        return "take", text[5:].encode()
    verb, *words = text.encode().split(b" ")
    if not words:
        return rules.ask([verb], layout)
    lacks = words[0].startswith(b"?")
    r = rules.number(words[0][1:], 16) if lacks else rules.record(words[0], layout)
    check(lacks == (r >= len(layout["record"])))
    verb, _, *parts = rules.ask([verb, b"a", *words[1:]], layout)
    return verb, rules.NO_RECORD if lacks else r, *parts


class Run:
    """One run of a site: what it began with, and its calls with their replies."""

    def __init__(self, first):
        self.first, self.entries = first, []


def first_of(line, layout):
    """The site as a run begins, by the run's line."""
    check(type(line["book"]) is str and type(line["sessions"]) is list)
    known = line.get("sites", layout["sites"])
    check(reader.whole(known, 1, layout["sites"]) and reader.whole(line["site"], 0, known - 1))
    check(all(it["home"] < known for it in layout["record"]))
    first = rules.Site(layout | {"sites": known}, line["site"])
    fault, rows = reader.read(line["book"].encode(), first.layout)
    check(fault is None and all(len(row["out"]) == known for row in rows))
    first.rows = {(row["r"], row["s"]): row for row in rows}
    for place, session in enumerate(line["sessions"], 1):
        check(type(session) is str)
        name, holder, phase = session.split(" ")
        key = rules.record(name.encode(), layout), rules.number(holder.encode())
        check(key[0] != rules.NO_RECORD and key[1] <= rules.COUNTER_LIMIT)
        check(phase in rules.PHASES and key not in first.sessions)
        first.sessions[key] = (phase, place)
    check(all(may_be_stored(first, r) for r in {r for r, _ in [*first.rows, *first.sessions]}))
    check(first.send() == line["book"] and first.restarted(first.layout).rows == first.rows)
    return first


def may_be_stored(site, r):
    """Whether rights, sessions and counters of a record agree."""
    own, start = site.row(r, site.site), reader.start(site.layout, r, site.site)
    here = [phase for (q, _), (phase, _) in site.sessions.items() if q == r]
    inside = own["taken"] - (own["out"][site.site] - start["out"][site.site])
    writers = len(here) - here.count("reader")
    return site.rights(r) >= 0 and site.unfinished(r, site.site) == writers <= rules.MOST_WRITERS and (
        inside == here.count("reader") + here.count("writer") * site.layout["record"][r]["seats"])


def read_line(data, layout, logs, last):
    """Reads a line behind the run `last`; gives the run that the next line stands behind."""
    try:
        line = json.loads(data.decode("utf-8"))
    except RecursionError as deep:
        raise ValueError from deep
    check(type(line) is dict and reader.text_of(line).encode() == data)
    if set(line) | {"sites"} == {"book", "sessions", "site", "sites"}:
        first = first_of(line, layout)
        logs[first.site].append(Run(first))
        return logs[first.site][-1]
    check(set(line) == {"call", "pass", "reply"} and last and reader.whole(line["pass"], 0, 65_535))
    check(type(line["call"]) is str and type(line["reply"]) is str and is_reply(line["reply"]))
    last.entries.append((call_of(line["call"], layout), line["reply"]))
    return last


def content(site):
    """What a stop leaves, but for the places of the sessions."""
    return site.restarted(site.layout).rows, [(key, it) for key, (it, _) in site.sessions.items()]


def copied(site):
    copy = rules.Site(site.layout, site.site, site.sessions)
    copy.rows = dict(site.rows)
    return copy


def serve(site, verb, *parts):
    """The reply to a call, which changes the site; what it merged, if anything."""
    if verb != "take":
        return rules.reply(getattr(site, verb), *parts), []
    fault, rows = reader.read(parts[0], site.layout)
    if fault:
        return f"refused {fault}", []
    told = rules.reply(site.take, rows)
    return told, rows if told.startswith("merged") else []


class Replay:
    """What the log of one site says by the rules: its first fault, and what stands at the cut."""

    def __init__(self, layout, site, runs, cut):
        self.site, self.cut, self.done, self.fault, self.merges = site, cut, 0, None, []
        self.own, self.inside = [], []
        known = runs[0].first.layout if runs else layout
        self.at = self.tried = rules.Site(known, site)
        self.look()
        for run in runs:
            self.begin(run.first)
            for place, (call, reply) in enumerate(run.entries, 1):
                if not self.fault:
                    self.goes_on(call, reply, place == len(run.entries))

    def look(self):
        """Notes the own rows and the sessions, if this is the cut."""
        if self.done == self.cut:
            records = range(len(self.at.layout["record"]))
            self.own = [self.at.row(r, self.site) for r in records]
            self.inside = [(r, phase) for (r, _), (phase, _) in self.at.sessions.items()]

    def begin(self, first):
        """A run begins with what is left of the site, or of the site behind the call in doubt."""
        grows = first.layout["sites"] >= self.at.layout["sites"]
        if self.fault or not grows:
            self.fault = self.fault or f"bad joint site {self.site}"
            return
        left, tried = (content(it.restarted(first.layout)) for it in (self.at, self.tried))
        if content(first) not in (left, tried):
            self.fault = f"bad joint site {self.site}"
        elif content(first) != left:
            self.merges += self.heard
        self.at = self.tried = copied(first)
        self.look()

    def goes_on(self, call, reply, is_last):
        before = copied(self.at) if is_last and reply == FAULT else None
        told, rows = serve(self.at, *call)
        self.heard = [(self.done, rows)]
        if before and content(before) != content(self.at):
            self.at, self.tried = before, self.at
        elif told != reply:
            self.fault = f"bad reply site {self.site} at {self.done}"
        else:
            self.merges += self.heard
            self.tried = self.at
        self.done += 1
        self.look()


def is_ahead(row, own):
    """Whether a counter of a row is above that of another row; a counter that is not there is 0."""
    most = reader.greater(own, row)
    short = own | {"out": own["out"] + [0] * (len(most["out"]) - len(own["out"]))}
    return most != short


def first_ahead(layout, replays):
    for it in replays:
        for at, rows in it.merges:
            for row in rows if at < it.cut else []:
                if is_ahead(row, replays[row["s"]].own[row["r"]]):
                    name = layout["record"][row["r"]]["name"]
                    return f"exceeds site {it.site} at {at} record {name} origin {row['s']}"
    return None


def is_alone(layout, replays):
    """Whether at the cut no record holds more than its seats, and a writer inside is alone."""
    phases = [[] for _ in layout["record"]]
    for r, phase in (it for replay in replays for it in replay.inside):
        phases[r] += [phase] if phase != "waiting" else []
    return all(
        here.count("reader") + here.count("writer") * it["seats"] <= it["seats"] and ("writer" not in here or len(here) == 1)
        for here, it in zip(phases, layout["record"])
    )


def read_logs(data, layout):
    """The runs of each site; the number of the first line that is none of a log."""
    logs, last = [[] for _ in range(layout["sites"])], None
    lines = data.split(b"\n")
    for number, line in enumerate(lines[:-1] if lines[-1] == b"" else lines, 1):
        try:
            last = read_line(line, layout, logs, last)
        except ValueError:
            return None, number
    return logs, None


def answer(data, layout, cut=None):
    """What `judge` prints, its exit status, and the replayed logs where the cut is one; a cut of None is `full`."""
    logs, refused = read_logs(data, layout)
    if refused:
        return f"line {refused} refused NotTranscript\n", 4, None
    entries = [sum(len(run.entries) for run in runs) for runs in logs]
    cut = entries if cut is None else cut
    if len(cut) != len(logs) or any(n > most for n, most in zip(cut, entries)):
        return "bad cut\n", 0, None
    replays = [Replay(layout, s, runs, n) for s, (runs, n) in enumerate(zip(logs, cut))]
    verdict = next((it.fault for it in replays if it.fault), None)
    verdict = verdict or first_ahead(layout, replays) or "consistent"
    table = ["site      cut  entries  runs"]
    table += [f"{s:4}{n:9}{entries[s]:9}{len(logs[s]):6}" for s, n in enumerate(cut)]
    return "\n".join([*table, verdict, ""]), 0, replays
