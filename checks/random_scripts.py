"""Random layouts, scripts and texts, steered by the second reading so that most are carried out."""
import json

import second_site as rules

LIMIT = rules.COUNTER_LIMIT
BAD_LINES = [
    b"", b" 0 send", b"0 send ", b"0  send", b"0 send\r", b"0 SEND", b"0\tsend", b"00 send", b"a",
    b"0 read a 01", b"0 read 0a 1", b"0 read a\xff 1", b"0 help abcdefghijklmnopq", b"65536 send",
    b"0 leave a -1", b"0 take 18446744073709551616", b"+0 grow", b"take \xff"]


def a_layout(rng):
    """Sites and records, few, several, or as many as there may be; and how many sites begin."""
    sites, records, most = rng.choice([(2, 1, 3), (rng.randint(1, 5), 4, 40), (16, 256, 65_535)])
    first = rng.choice([rng.randint(1, sites), sites, sites])
    return {"sites": sites, "record": [
        {"name": f"record-name-{r:04}", "seats": rng.randint(1, rng.choice([5, most])),
         "home": rng.randrange(first), "problem": rng.randint(1, 2)} for r in range(records)
    ]}, first


def toml(layout):
    records = ("".join(f"{key} = {json.dumps(it[key])}\n" for key in it) for it in layout["record"])
    return "[[record]]\n".join([f"sites = {layout['sites']}\n", *records])


def strange(rng, site, r):  # mostly refused
    name = rng.choice([site.layout["record"][r]["name"]] * 15 + ["no-such-record"])
    known = [h for q, h in site.sessions if q == r][:9]
    holder = rng.choice(known * 2 + [rng.randrange(9)] * 3 + [LIMIT, LIMIT + 1, 2**64 - 1])
    to = rng.choice([site.site, *range(site.layout["sites"] + 1), 65_535])
    seats = rng.choice([0, 1, site.rights(r) + 1, LIMIT, LIMIT + 1, 2**64 - 1])
    verb = rng.choice(["read", "read", "announce", "write", "write", "leave", "give", "help"])
    return f"{verb} {name}" + {"give": f" {to} {seats}", "help": ""}.get(verb, f" {holder}")


def call(rng, site, records):
    """A call at a site, most often one that is carried out."""
    r = max(rng.choices(records, k=3), key=lambda r: site.rights(r) > 0)
    it, rights, holder = site.layout["record"][r], site.rights(r), rng.randrange(10_000)
    name, to = it["name"], rng.randrange(site.layout["sites"])
    shares = {strange(rng, site, r): 4}
    if site.unfinished(r, site.site) < 3:
        shares[f"announce {name} {holder}"] = 4 if rights > 0 else 1
    if rights > 0:
        shares[f"give {name} {to} {rng.choice([1, rng.randint(1, rights), rights])}"] = 5
    if rights > 0 and (it["problem"] == 1 or site.first_writer(r) is None):
        shares[f"read {name} {rng.choice([holder] * 20 + [LIMIT])}"] = 25
    if site.plan(r):
        shares[f"help {name}"] = 8
    for (q, h), (phase, _) in rng.sample(list(site.sessions.items()), min(3, len(site.sessions))):
        other = site.layout["record"][q]["name"]
        shares[f"leave {other} {h}"] = 8
        if phase == "waiting":
            seats = site.layout["record"][q]["seats"]
            shares[f"write {other} {h}"] = 30 if site.rights(q) >= seats else 1
    return rng.choices(*zip(*shares.items()))[0]


class Script:
    """A script of `play`, with what is answered by the second reading."""

    def __init__(self, rng, length):
        self.rng, self.lines, self.replies, self.status = rng, [], [], 0
        self.layout, self.first = a_layout(rng)
        self.world = rules.World(self.layout, self.first)
        self.records = rng.choices(range(len(self.layout["record"])), k=rng.choice([2, 9, 30]))
        while len(self.lines) < length:
            self.goes_on()
        self.gather(rng.randrange(self.layout["sites"]), rng.choice(self.records))
        if rng.random() < 0.3:
            self.lines += [rng.choice(BAD_LINES), b"0 send"]
            self.replies.append(f"line {len(self.replies) + 1} refused BadWord")
            self.status = 4
        self.data = b"\n".join(self.lines) + rng.choice([b"", b"\n"])

    def say(self, s, what):
        self.lines.append(f"{s} {what}".encode())
        self.replies.append(self.world.answer(self.lines[-1]))
        return self.replies[-1]

    def goes_on(self):
        rng, sites, sent = self.rng, self.world.sites, len(self.world.messages)
        r, s = rng.choice(self.records), rng.randrange(len(sites))
        kinds = {"call": 70, "send": 8, "take": 20, "restart": 1, "grow": 0.5, "gather": 1}
        match rng.choices(*zip(*(kinds | {"crowd": 0.05}).items()))[0]:
            case "call":
                s = max(s, rng.randrange(len(sites)), key=lambda s: len(sites[s].sessions))
                self.say(s, call(rng, sites[s], self.records))
            case "take":
                newest = max(0, sent - 1 - rng.randrange(2 * len(sites)))
                any_other = rng.choice([rng.randrange(sent + 1)] * 9 + [sent, 2**64 - 1])
                self.say(s, f"take {rng.choice([newest] * 4 + [any_other])}")
            case "gather":
                self.gather(s, r)
            case "crowd":
                for n in range(130):
                    name, verb = self.layout["record"][r]["name"], "leave" if n > 65 else "announce"
                    self.say(s, f"{verb} {name} {n % 66}")
            case verb:
                self.say(rng.choice([s] * 30 + [len(sites), 65_535]), verb)

    def gather(self, s, r):
        """A writer comes; most others leave, and the other sites hand their seats over."""
        name = self.layout["record"][r]["name"]
        for h in (LIMIT, LIMIT - 1):
            self.say(s, f"announce {name} {h}")
        told = self.say(s, "send").split()[1]
        for other in self.rng.sample(range(len(self.world.sites)), len(self.world.sites)):
            for q, h in list(self.world.sites[other].sessions):
                if q == r and h < LIMIT - 1 and self.rng.random() < 0.95:
                    self.say(other, f"leave {name} {h}")
            self.say(other, f"take {told}")
            self.say(other, f"help {name}")
            self.say(s, f"take {self.say(other, 'send').split()[1]}")
        self.say(s, f"write {name} {LIMIT}")


def a_text(rng, site, texts, wild):
    """The text of a delta that a site told, or of some of its rows, one of which may be changed."""
    text = rng.choice(texts[-6:] + texts)
    kinds = {"whole": 60, "thin": 15, "odd": 6, "broken": 6, "great": wild}
    kind = rng.choices(*zip(*kinds.items()))[0]
    if kind == "whole":
        return text
    if kind == "broken":
        at = rng.randrange(len(text))
        broken = [text[:at], text[:at] + " " + text[at:], text[:at] + "7" + text[at + 1 :]]
        return rng.choice(broken * 5 + ["", " " * 2_097_153])
    rows = [row for row in json.loads(text)["rows"] if rng.random() < 0.5]
    for row in rows[:1]:
        s, out, full = row["s"], row["out"], LIMIT - rng.randrange(3)
        if kind == "thin" and not any(out[s + 1 :]):
            row["out"] = out[: s + 1]
        if kind == "great" and s != site.site:
            row["out"] = [n if j == s else rng.choice([n, full]) for j, n in enumerate(out)]
            row |= {"taken": full, "ann": full, "fin": full - (rng.random() < 0.2)}
        if kind == "odd":
            odd = [{"fin": row["ann"] + 1}, {"taken": full}, {"taken": LIMIT + 1}, {"out": out[:1]},
                   {"out": out + [0]}, {"out": out[:s] + [0] + out[s + 1 :]}, {"s": site.site}]
            row |= rng.choice(odd)
    rows.sort(key=lambda it: (it["r"], it["s"]))
    return rules.reader.text_of({"from": rng.randrange(16), "rows": rows, "v": 1})
