"""A second reading of `regroup` and `rebuild`, written from the documents and the definitions alone, not from the program."""
import hashlib
import re

import second_reader as reader
import second_site as rules

MOST_GENERATIONS = 1_048_575
BASE_NAME = re.compile(r"[a-z][a-z0-9-]{0,31}")
GENERATION = re.compile(r"[1-9][0-9]{0,6}")
REPLY_WORDS = {"refused", "admitted", "announced", "left", "withdrawn", "given", "gave", "merged", "rights", "fence"}
MARK = re.compile(rb"([^ ]+) ([0-9a-f]{16}) ([0-9a-f]{8}) (.*)", re.S)
MOVED = ":moved"


def generation(name):
    """The number of a group's generation, 1 where its name has none; None where no group has this name."""
    base, dot, digits = name.partition(".")
    if not BASE_NAME.fullmatch(base) or base in REPLY_WORDS:
        return None
    if not dot:
        return 1
    return int(digits) if GENERATION.fullmatch(digits) and 2 <= int(digits) <= MOST_GENERATIONS else None


def next_name(name):
    """The name behind a move; None behind the last one."""
    number = generation(name)
    return f"{name.partition('.')[0]}.{number + 1}" if number < MOST_GENERATIONS else None


def digest(data, digits):
    return hashlib.sha256(data).hexdigest()[:digits]


def layout_line(layout):
    records = (f";{it['name']},{it['seats']},{it['home']},{it['problem']}" for it in layout["record"])
    return f"{layout['sites']}{''.join(records)}"


def marked(layout, word, text):
    """A text behind the mark of sites with these records, with this word for the group."""
    records = layout_line(layout).partition(";")
    return f"{word} {digest((records[1] + records[2]).encode(), 16)} {digest(text.encode(), 8)} {text}"


def unmarked(layout, words, line):
    """The text behind a mark with one of these words for the group."""
    found = MARK.fullmatch(line)
    rules.refuse(not found, "NoMark")
    word, records, of_text, text = found.groups()
    rules.refuse(word not in [it.encode() for it in words], "WrongGroup")
    rules.refuse(records.decode() != marked(layout, "", "").split(" ")[1], "OtherRecords")
    rules.refuse(of_text.decode() != digest(text, 8), "Damaged")
    return text


def moved_text(site, group):
    """What `regroup` prints for a site of a group: all that a stop leaves of it, in the next generation."""
    return marked(site.layout, next_name(group) + MOVED, site.restarted(site.layout).send())


class BadLine(Exception):
    """What is written of a line that fits no site of the layout, once all sites that are left have one."""


class Deltas:
    """The texts of an input, one of each site that is left, and what they tell of each row."""

    def __init__(self, layout, lost, site):
        self.layout, self.lost, self.site = layout, lost, site  # lost names the site too
        self.sites = range(layout["sites"])
        self.left = [j for j in self.sites if j not in lost]
        self.texts, self.rows, self.told = {}, {}, {}  # texts in order of lines

    def take(self, text):
        """Takes a text, the first of its site."""
        fault, rows = reader.decode(text)
        rules.refuse(fault, fault)
        sender = reader.json.loads(text)["from"]
        rules.refuse(sender in self.texts, "Twice")
        self.texts[sender], self.rows[sender] = text, {(row["r"], row["s"]): row for row in rows}

    def fits(self, sender):
        """Whether the layout has the site of a text, and its rows are possible."""
        rows = self.rows[sender].values()
        return sender in self.sites and all(reader.is_placed(self.layout, it) and reader.is_valid(self.layout, it) for it in rows)

    def row(self, r, s):
        return self.told.get((r, s)) or reader.start(self.layout, r, s)

    def over(self, r, d):
        """The seats that lost site d had of the sites that are left and of the start, less those that these got of it: its
        own, or, below 0, those that it got of other lost sites."""
        had = reader.grant(self.layout, r, d) + sum(self.row(r, j)["out"][d] for j in self.left)
        return had - sum(self.row(r, d)["out"][j] for j in self.left)

    def settled(self, r):
        """The seats that lost sites give to one another: to spare and to get are numbered in order of sites."""
        spare, get = [], []
        for d in sorted(self.lost):
            over = self.over(r, d)
            spare += [(d, over)] if over > 0 else []
            get += [(d, -over)] if over < 0 else []
        given = {}
        while spare and get:
            (d, m), (j, k) = spare[0], get[0]
            n = min(m, k)
            given[d, j] = n
            spare[:1] = [(d, m - n)] if m > n else []
            get[:1] = [(j, k - n)] if k > n else []
        return given

    def rebuilt(self):
        """The site that begins again, without sessions."""
        missing = next((j for j in self.left if j not in self.texts), None)
        rules.refuse(missing is not None, "NoDelta", missing)
        unfit = next((k for k, it in enumerate(self.texts, 1) if not self.fits(it)), None)
        if unfit is not None:
            raise BadLine(f"line {unfit} refused BadDelta")
        for rows in self.rows.values():
            for place, row in rows.items():
                self.told[place] = reader.greater(self.row(*place), row)
        records = range(len(self.layout["record"]))
        full = any(-self.over(r, d) > rules.COUNTER_LIMIT for r in records for d in self.lost)
        rules.refuse(full, "CounterFull")
        rules.refuse(any(j in self.texts for j in self.lost) or any(self.acted(r) for r in records), "Acted")
        site = rules.Site(self.layout, self.site)
        for r in records:
            given = self.settled(r)
            for s in self.sites:
                row = self.row(r, s)
                out = [max(n, given.get((s, j), 0)) for j, n in enumerate(row["out"])]
                if s == self.site:
                    out[s] = reader.grant(self.layout, r, s)
                    row = row | {"taken": 0, "fin": row["ann"]}
                site.rows[r, s] = row | {"out": out}
        site = site.restarted(self.layout)
        rules.refuse(any(site.rights(r) < 0 for r in records), "Apart")
        return site

    def acted(self, r):
        """Whether the deltas show that the site did something at a record."""
        row, given = self.row(r, self.site), self.settled(r)
        others = [j for j in self.lost if j != self.site]
        return row["taken"] > 0 or row["out"][self.site] > reader.grant(self.layout, r, self.site) or any(
            row["out"][j] > given.get((self.site, j), 0) for j in others) or any(
            row["out"][j] > self.shown(r, j) for j in self.left)

    def shown(self, r, j):
        """The seats of the site that the delta of site j itself shows to be given to j."""
        row = self.rows[j].get((r, self.site))
        return row["out"][j] if row and j < len(row["out"]) else 0

    def digest(self):
        return digest(b"".join(self.texts[j] + b"\n" for j in sorted(self.texts)), 16)


def rebuild(layout, site, others, group, data):
    """What `rebuild` writes and its exit status, and the site that stands in the new store, if one is made. `others` are the
    other lost sites."""
    if len(data) > reader.INPUT_LIMIT:
        return "input refused TooLong\n", 4, None
    lines = data.split(b"\n")
    if not lines[-1]:
        lines.pop()
    words = [group + MOVED] if others else [group, group + MOVED]
    deltas = Deltas(layout, {site, *others}, site)
    for number, line in enumerate(lines, 1):
        try:
            deltas.take(unmarked(layout, words, line))
        except rules.Refused as refused:
            return f"line {number} refused {refused}\n", 4, None
    try:
        built = deltas.rebuilt()
    except BadLine as line:
        return f"{line}\n", 4, None
    except rules.Refused as refused:
        return f"input refused {refused}\n", 4, None
    shown = "".join(f"{it['name']} {show(built, r)}\n" for r, it in enumerate(layout["record"]))
    return shown + (f"texts {deltas.digest()}\n" if others else ""), 0, built


def show(site, r):
    weights = {"reader": 1, "waiting": 0, "writer": site.layout["record"][r]["seats"]}
    inside = sum(weights[phase] for (q, _), (phase, _) in site.sessions.items() if q == r)
    return f"rights {site.rights(r)} inside {inside} unfinished {site.unfinished(r, site.site)}"
