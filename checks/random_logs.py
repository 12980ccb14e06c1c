"""Random closed logs of several sites, honest and forged, made by the second reading."""
import json

import random_scripts as scripts
import second_judge as second

LIMIT = scripts.LIMIT
reader, rules = second.reader, second.rules


class Run:
    """A run as it is written: what it began with, and its entries, each a call and a reply."""

    def __init__(self, first, entries=()):
        self.first, self.entries = second.copied(first), [list(it) for it in entries]


def run_line(rng, first, layout):
    line = {"book": first.send(), "site": first.site, "sites": first.layout["sites"]}
    names = [it["name"] for it in layout["record"]]
    line["sessions"] = [f"{names[r]} {h} {phase}" for (r, h), (phase, _) in first.sessions.items()]
    if line["sites"] == layout["sites"] and rng.random() < 0.3:
        del line["sites"]
    return reader.text_of(line)


def text_of(rng, logs, layout):
    """The lines of the runs of all sites, mixed, each site's own in their order."""
    lines, left = [], [list(runs) for runs in logs]
    while any(left):
        run = rng.choice([runs for runs in left if runs]).pop(0)
        lines.append(run_line(rng, run.first, layout))
        for call, reply in run.entries:
            number = rng.choice([0, 0, 0, 1, 63, 65_535])
            lines.append(reader.text_of({"call": call, "pass": number, "reply": reply}))
    return "".join(f"{line}\n" for line in lines)


def some_rows(rng, text):
    """Rows of a delta: all, or some; counters of later sites that are 0 may be left out."""
    rows = json.loads(text)["rows"]
    if rng.random() < 0.3:
        rows = [row for row in rows if rng.random() < 0.6]
    for row in rows if rng.random() < 0.1 else []:
        while len(row["out"]) > row["s"] + 1 and row["out"][-1] == 0:
            row["out"].pop()
    return rows


def delta(rng, rows):
    return reader.text_of({"from": rng.randrange(16), "rows": rows, "v": 1})


def raised(rng, layout, row, to):
    """A row that some site might have, with counters that its origin did not raise."""
    s, n = row["s"], rng.choice([1, 1, 2, layout["record"][row["r"]]["seats"], LIMIT])
    out = list(row["out"]) + [0] * (to + 1 - len(row["out"]))
    match rng.choice(["given", "given", "given", "taken", "left", "announced", "finished"]):
        case "given" if to != s:
            out[to] += n
        case "left":
            out[s] += n
            row = row | {"taken": row["taken"] + n}
        case "announced":
            row = row | {"ann": row["ann"] + n}
        case "finished":
            row = row | {"ann": max(row["ann"], row["fin"] + n), "fin": row["fin"] + n}
        case _:
            row = row | {"taken": row["taken"] + n}
    return row | {"out": out}


def lie(rng, site, layout, text):
    """A delta of which one to three rows claim more than the text does; now and then rows that no site has."""
    rows = {(row["r"], row["s"]): row for row in some_rows(rng, text)}
    for _ in range(rng.choice([1, 1, 1, 2, 3])):
        r = rng.choice([r for r, _ in rows] or [rng.randrange(len(layout["record"]))])
        key = r, rng.randrange(site.layout["sites"])
        row = raised(rng, layout, rows.get(key) or reader.start(site.layout, *key), site.site)
        if rng.random() < 0.05:
            row |= rng.choice([{"fin": row["ann"] + 1}, {"taken": LIMIT + 1}, {"out": (row["out"] + [0])[:16]}])
        rows[key] = row
    return delta(rng, [row for _, row in sorted(rows.items())][:4096])


class Story:
    """Sites that call, send, take, stop, start again and grow, and their closed logs."""

    def __init__(self, rng, length, lies):
        self.rng, self.lies, self.messages, self.moments, self.ended = rng, lies, [], [], set()
        self.layout, first = scripts.a_layout(rng)
        sites = self.layout["sites"]
        self.first = max(first, 1 + max(it["home"] for it in self.layout["record"]))
        known = [rng.randint(max(self.first, s + 1), sites) for s in range(sites)]
        if rng.random() < 0.5:
            known = [sites] * sites
        self.at = [rules.Site(self.layout | {"sites": n}, s) for s, n in enumerate(known)]
        self.logs = [[] for _ in range(sites)]
        self.records = rng.choices(range(len(self.layout["record"])), k=rng.choice([1, 2, 9]))
        while len(self.moments) < length:
            self.goes_on()
        self.gather(rng.randrange(sites), rng.choice(self.records))

    def say(self, s, call):
        """A call at a site and its entry; a site that has ended says nothing."""
        if s in self.ended:
            return "ended"
        call = call.replace("no-such-record", f"?{self.rng.choice([len(self.layout['record']), 65_535])}")
        if not self.logs[s]:
            self.logs[s].append(Run(self.at[s]))
        told, _ = second.serve(self.at[s], *second.call_of(call, self.layout))
        self.logs[s][-1].entries.append([call, told])
        self.moments.append(self.lengths())
        return told

    def lengths(self):
        return [sum(len(run.entries) for run in runs) for runs in self.logs]

    def stops(self, s, call):
        """The store stops at a call: the next run begins behind it, or before it, or there is none."""
        before = second.copied(self.at[s])
        self.say(s, call)
        if s in self.ended or second.content(before) == second.content(self.at[s]):
            return
        self.logs[s][-1].entries[-1][1] = second.FAULT
        if self.rng.random() < 0.1:
            self.ended.add(s)
        if s in self.ended or self.rng.random() < 0.5:
            self.at[s] = before
        self.starts(s)

    def starts(self, s):
        """The next run, perhaps under more sites."""
        if s in self.ended:
            return
        layout, sites = self.at[s].layout, self.layout["sites"]
        if self.rng.random() < 0.4:
            layout = layout | {"sites": self.rng.randint(layout["sites"], sites)}
        self.at[s] = self.at[s].restarted(layout)
        self.logs[s].append(Run(self.at[s]))

    def call(self, s):
        return scripts.call(self.rng, self.at[s], self.records)

    def taken(self, s):
        """A message that the site takes: a late one, or one of the newest; perhaps forged."""
        text = self.rng.choice(self.messages[-4:] + [self.rng.choice(self.messages)])
        if self.rng.random() < self.lies:
            return f"take {lie(self.rng, self.at[s], self.layout, text)}"
        return f"take {delta(self.rng, some_rows(self.rng, text))}"

    def goes_on(self):
        rng, s = self.rng, self.rng.randrange(len(self.at))
        s = max(s, rng.randrange(len(self.at)), key=lambda s: len(self.at[s].sessions))
        kinds = {"call": 60, "send": 9, "take": 20 * bool(self.messages), "stop": 2, "start": 2, "gather": 2}
        match rng.choices(*zip(*kinds.items()))[0]:
            case "call":
                self.say(s, self.call(s))
            case "send":
                self.send(s)
            case "take":
                self.say(s, self.taken(s))
            case "stop":
                take = bool(self.messages) and rng.random() < 0.4
                self.stops(s, self.taken(s) if take else self.call(s))
            case "start":
                self.starts(s)
            case "gather":
                self.gather(s, rng.choice(self.records))
        self.moments.append(self.lengths())

    def send(self, s):
        told = self.say(s, "send")
        if told != "ended":
            self.messages.append(told)

    def gather(self, s, r):
        """A writer comes; most others leave, and the other sites hand their seats over."""
        name = self.layout["record"][r]["name"]
        self.say(s, f"announce {name} {LIMIT}")
        self.send(s)
        for other in self.rng.sample(range(len(self.at)), min(len(self.at), 5)):
            for q, h in list(self.at[other].sessions):
                if q == r and h < LIMIT and self.rng.random() < 0.9:
                    self.say(other, f"leave {name} {h}")
            self.say(other, self.taken(other) if self.messages else "send")
            self.say(other, f"help {name}")
            self.send(other)
            self.say(s, self.taken(s) if self.messages else "send")
        if self.rng.random() < self.lies * 2:
            origin = self.at[s].row(r, self.rng.choice([other for other in range(self.at[s].layout["sites"])]))
            out = [n + (i == s != origin["s"]) * self.layout["record"][r]["seats"] for i, n in enumerate(origin["out"])]
            self.say(s, f"take {delta(self.rng, [origin | {'out': out}])}")
        self.say(s, f"write {name} {LIMIT}")


def a_cut(rng, story, logs):
    """Lengths: all entries, those of one moment, any, or none of a cut."""
    most = [sum(len(run.entries) for run in runs) for runs in logs]
    moment = [min(pair) for pair in zip(rng.choice(story.moments), most)]
    cut = {"full": most, "moment": moment, "any": [rng.randint(0, n) for n in most]}
    kind = rng.choices(["full", "moment", "any", "near", "above", "short"], [6, 4, 3, 3, 0.2, 0.2])[0]
    if kind in cut:
        return cut[kind]
    s = rng.randrange(len(most))
    if kind == "short":
        return rng.choice([most[:-1] or [0, 0], [*most, 0]])
    add = rng.choice([1, 2**64 - 1 - most[s]]) if kind == "above" else 0
    return [most[s] + add if i == s and add else rng.randint(max(0, n - 3), n) if i == s else n
            for i, n in enumerate(most if add else moment)]


def replayed(rng, runs, layout):
    """The runs with the replies that the rules give; a store that stopped stops again, if it can."""
    at, again = None, []
    for run in runs:
        known = run.first.layout
        at = at.restarted(max(known, at.layout, key=lambda it: it["sites"])) if at else rules.Site(known, run.first.site)
        again.append(Run(at))
        for place, (call, reply) in enumerate(run.entries, 1):
            before = second.copied(at)
            told, _ = second.serve(at, *second.call_of(call, layout))
            if reply == second.FAULT and place == len(run.entries):
                if second.content(before) != second.content(at):
                    told, at = second.FAULT, rng.choice([before, at])
            again[-1].entries.append([call, told])
    return again


def changed_reply(rng, logs, reply):
    other = rng.choice([entry[1] for runs in logs for run in runs for entry in run.entries] + [second.FAULT])
    words = reply.split(" ")
    at = rng.randrange(len(words))
    if words[at].isdigit() and rng.random() < 0.7:
        words[at] = str(rng.choice([int(words[at]) + 1, max(0, int(words[at]) - 1), 0, 2**64 - 1]))
        return " ".join(words)
    return other


def change_entry(rng, story, logs, run, k):
    """One entry dropped, moved, doubled, changed, or given another reply."""
    entries = run.entries
    match rng.choices(["delta", "reply", "drop", "swap", "twice", "end", "fault"], [9, 4, 3, 3, 1, 1, 1])[0]:
        case "delta":
            takes = [it for it in entries if it[0].startswith("take ")]
            if takes:
                entry = rng.choice(takes)
                entry[0] = "take " + lie(rng, run.first, story.layout, entry[0][5:])
        case "reply":
            entries[k][1] = changed_reply(rng, logs, entries[k][1])
        case "drop":
            del entries[k]
        case "swap":
            j = rng.choice([max(0, k - 1), rng.randrange(len(entries))])
            entries[k], entries[j] = entries[j], entries[k]
        case "twice":
            entries.insert(k, list(entries[k]))
        case "end":
            del entries[k:]
        case "fault":
            entries[rng.choice([k, -1])][1] = second.FAULT


def change_run(rng, story, runs, k):
    """One run dropped, split, joined to the one before, begun otherwise, or under another number of sites."""
    first = runs[k].first
    match rng.choice(["drop", "split", "join", "sites", "counter", "session", "session", "twice"]):
        case "drop":
            del runs[k]
        case "split":
            at = rng.randint(0, len(runs[k].entries))
            runs.insert(k + 1, Run(first, runs[k].entries[at:]))
            del runs[k].entries[at:]
        case "join" if k:
            runs[k - 1].entries += runs[k].entries
            del runs[k]
        case "sites":
            known = rng.randint(rng.choice([1, story.first, story.first]), story.layout["sites"])
            if known > first.site:
                runs[k].first = under(first, known)
        case "counter":
            key = rng.choice(list(first.rows) or [(rng.choice(story.records), first.site)])
            first.rows[key] = raised(rng, story.layout, first.row(*key), first.site)
        case "session":
            change_sessions(rng, first)
        case "twice":
            runs.insert(k, Run(first, runs[k].entries))


def under(site, known):
    """The same site under another number of sites, with the counters that these have."""
    copy = rules.Site(site.layout | {"sites": known}, site.site, site.sessions)
    for (r, s), row in site.rows.items():
        if s < known:
            copy.rows[r, s] = row | {"out": (row["out"] + [0] * known)[:known]}
    return copy


def change_sessions(rng, first):
    sessions = list(first.sessions.items())
    if sessions:
        at = rng.randrange(len(sessions))
        (key, (phase, place)), other = sessions.pop(at), rng.choice(rules.PHASES[1:])
        put = [[], [(key, (other, place))], [((key[0], key[1] + 1), (phase, place))], [(key, (phase, place))]]
        sessions[-1:-1] = rng.choice(put)
        first.sessions = dict(sessions)


def forged(rng, story):
    """Logs with one to three changes; the replies of the changed site may be made to fit."""
    logs = [[Run(run.first, run.entries) for run in runs] for runs in story.logs]
    for _ in range(rng.choice([1, 1, 1, 2, 3])):
        s = rng.choice([s for s, runs in enumerate(logs) if runs] or [None])
        if s is None:
            break
        k = rng.randrange(len(logs[s]))
        if rng.random() < 0.75 and logs[s][k].entries:
            change_entry(rng, story, logs, logs[s][k], rng.randrange(len(logs[s][k].entries)))
        else:
            change_run(rng, story, logs[s], k)
        if rng.random() < 0.6:
            logs[s] = replayed(rng, logs[s], story.layout)
    return logs


def changed_bytes(rng, data):
    """A text with a byte or a line changed, moved or gone."""
    lines = (data := data or b"{}").split(b"\n")
    at, k = rng.randrange(len(data)), rng.randrange(len(lines))
    kind = rng.randrange(5)
    if kind < 3:
        byte = bytes([rng.choice(b'0123456789 {}[]:,"\\abz?\r\n\xff')])
        return data[:at] + [byte, byte + data[at : at + 1], b""][kind] + data[at + 1 :]
    line = lines.pop(k)
    if kind == 3:
        lines.insert(rng.randrange(len(lines) + 1), line)
    return b"\n".join(lines)
