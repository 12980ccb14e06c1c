#!/usr/bin/env python3
"""Carries out random histories of several sites in six ways, and compares each reply with the second reading.

    worlds.py PROGRAM [EVENTS] [SEED] [CUTS]

A history has calls at sites, texts that are sent and then taken late, twice, in another order or never, sites that stop
and start again, and sites that learn of more sites. It is carried out

    by `serve`   a process for each site, which is killed, told to end or comes to the end of its input where a site stops;
                 now and then a store of before is opened again, and must refuse all once it hears of its own later past
    by rounds    all lines of each time between two stops at once, to a `serve` that commits up to 2, 7 or 256 of them together
    by `site`    a run for each such time
    by `play`    the whole history as one script
    by `judge`   the logs that `serve` wrote, whole and at random cuts, so many in each tenth world
    by `rebuild` where the sites have a group's name: behind the history one of them loses its store, the others are moved to the
                 next generation, it is built again of what they tell, and all go on

From outside, by the replies alone: after each event a writer inside a record is alone at all sites, and readers take at most
its seats; after some events, the seats that sites show as free or taken are at most the record's; and at the end, once
all have heard of all, exactly these. Stops at the first difference and leaves its files; else tells how often each reply
came.
"""
import hashlib
import json
import random
import shutil
import signal
import subprocess
import sys
import tempfile
import time
from collections import Counter
from pathlib import Path

import compare
import compare_rebuild
import random_logs as logs
import random_scripts as scripts
import second_judge as second
import second_rebuild as again
import second_site as rules

ENDS = (signal.SIGKILL, signal.SIGKILL, signal.SIGTERM, signal.SIGINT, signal.SIGHUP, None, None)
GROUP = "crew-1"


def digest(text, digits):
    return hashlib.sha256(text.encode()).hexdigest()[:digits]


def mark_in(group, layout):
    """The front of a delta's mark; nothing without marks."""
    records = "".join(";" + ",".join(str(it[key]) for key in ("name", "seats", "home", "problem")) for it in layout["record"])
    return "" if group == "--plain" else f"{group or '-'} {digest(records, 16)} "


def marked(mark, text):
    return f"{mark}{digest(text, 8)} {text}" if mark else text


def words_of(world, site, store, layout, more):
    """The arguments of `serve` at a site over a store, whose layout file is written."""
    Path(f"{store}.toml").write_text(scripts.toml(layout), "ascii")
    words = [world.program, "serve", "--site", str(site), "--store", store, "--layout", f"{store}.toml", *more]
    return words + {"": [], "--plain": ["--plain"]}.get(world.group, ["--group", world.group])


class Process:
    """A site as a process of `serve` over a store. Deltas go in and out without their marks, which are checked here."""

    def __init__(self, world, site, store, layout, more=()):
        self.what = f"{store} of site {site}"
        self.mark = mark_in(world.group, layout)
        pipe = subprocess.PIPE
        self.process = subprocess.Popen(words_of(world, site, store, layout, more), stdin=pipe, stdout=pipe, stderr=pipe)

    def marked(self, text):
        return marked(self.mark, text)

    def call(self, line):
        try:
            self.process.stdin.write((f"take {self.marked(line[5:])}" if line.startswith("take ") else line).encode() + b"\n")
            self.process.stdin.flush()
        except BrokenPipeError:
            pass
        reply = self.process.stdout.readline().decode()
        if not reply.endswith("\n"):
            sys.exit(f"{self.what}: no reply to {line:.200}\n{self.process.stderr.read().decode()}")
        reply, text = reply[:-1], reply[:-1].split(" ", 3)[-1]
        if line == "send" and text.startswith("{"):
            compare.compare(f"{self.what}: the mark", reply, self.marked(text))
            return text
        return reply

    def end(self, how=None):
        """Ends the process; gives its status and errors, where it came to the end of its input."""
        if how:
            self.process.send_signal(how)
        errors = self.process.communicate()[1].decode()
        return None if how else (self.process.returncode, errors)


class World(scripts.Script):
    """A script of `play` whose events are carried out by `serve` as they are made."""

    def __init__(self, program, rng, length, folder, counts):
        self.program, self.folder, self.counts, self.group = program, folder, counts, rng.choice(["", "--plain", GROUP])
        self.processes, self.runs, self.texts, self.copies, self.inside = {}, {}, [], [], {}
        super().__init__(rng, length)
        self.hear_all()
        for s, process in self.processes.items():
            compare.compare(f"the end of {process.what}", str(process.end()), str((0, "")))

    def open(self, s):
        store, layout = f"{self.folder}/{s}.db", self.world.sites[s].layout
        first, grows = s not in self.runs, s in self.runs and self.runs[s][-1][0] != layout
        self.processes[s] = Process(self, s, store, layout, ["--log", f"{self.folder}/{s}.log", *["--create"] * first, *["--grow"] * grows])
        self.processes[s].call("sessions no-such-record")  # so the store is there before the process may be killed
        self.runs.setdefault(s, []).append((layout, []))

    def say(self, s, what):
        before, verb = None, what.split(" ")[0]
        if s < len(self.world.sites):
            before = self.world.sites[s].restarted(self.world.sites[s].layout)
            if s not in self.processes:
                self.open(s)
        reply = super().say(s, what)
        if before is None or reply.startswith(("refused NoMessage", "refused NoGrowth")):
            return reply
        if verb in ("restart", "grow"):
            self.stop(s, before)
            return reply
        line, wanted = what, reply
        if verb == "send":
            wanted = self.world.sites[s].send()
            self.texts.append(wanted)
        if verb == "take":
            line = f"take {self.texts[int(what[5:])]}"
        told = self.processes[s].call(line)
        compare.compare(f"{self.folder}: site {s}: {line:.300}", told, wanted)
        self.runs[s][-1][1].append((line, told))
        self.look(s, what, told)
        return reply

    def stop(self, s, before):
        """A site's process ends and is started again; a store of before may be opened once more in between."""
        self.processes.pop(s).end(self.rng.choice(ENDS))
        store = f"{self.folder}/{s}.db"
        if self.rng.random() < 0.3:
            self.copies.append((s, before, f"{self.folder}/{s}.{len(self.copies)}.old"))
            copy(store, self.copies[-1][2])
        old = [it for it in self.copies if it[0] == s]
        if old and self.rng.random() < 0.3:
            self.outdated(*self.rng.choice(old))
        self.open(s)

    def outdated(self, s, state, path):
        """A store that was put back: right by what it kept, until a text tells of what the site did since."""
        copy(path, f"{path}.back")
        at, process = rules.Run(state, state.layout), Process(self, s, f"{path}.back", state.layout)
        for _ in range(self.rng.randrange(4)):
            line = scripts.call(self.rng, at.site, self.records)
            compare.compare(f"{path}: {line}", process.call(line), at.answer(line.encode()))
        ends = (0, "")
        for text in self.rng.choices(self.texts, k=2) + self.texts[-1:] if self.texts else []:
            told = process.call(f"take {text}")
            wanted = "refused Frozen" if ends[0] else at.answer(f"take {text}".encode())
            compare.compare(f"{path}: take {text:.300}", told, wanted)
            if told.startswith("refused OwnRowAhead"):
                ends = (5, "store refused Outdated\n")
                self.counts["(stores put back, and found out)"] += 1
        compare.compare(f"the end of {path}", str(process.end()), str(ends))

    def follow(self, s, what, told):
        """What is inside, by the replies alone; the record that a call named, if it has one."""
        words = what.split(" ")
        self.counts[compare.NUMBERS.sub("", told)] += 1
        names = {it["name"]: it for it in self.layout["record"]}
        record = names.get(words[1]) if len(words) > 1 else None
        if record is None:
            return None
        here = self.inside.setdefault(record["name"], {})
        if told == "admitted":
            here[s, words[2]] = 1 if words[0] == "read" else record["seats"]
        elif told.startswith("left"):
            del here[s, words[2]]
        alone = words[0] != "write" or told != "admitted" or len(here) == 1
        if sum(here.values()) > record["seats"] or not alone:
            sys.exit(f"{self.folder}: {record}: inside are {here}")
        return record

    def look(self, s, what, told):
        """The same, and at times what sites show."""
        record = self.follow(s, what, told)
        if record and self.rng.random() < 0.02:
            here, (free, taken) = self.inside[record["name"]], self.shown(record["name"])
            if free + taken > record["seats"] or taken != sum(here.values()):
                sys.exit(f"{self.folder}: {record}: {free} free, {taken} taken, inside are {here}")

    def shown(self, name):
        """The seats that are free, and those that are taken, as all sites show them that were started."""
        free = taken = 0
        for s, site in enumerate(self.world.sites):
            r = next(r for r, it in enumerate(self.layout["record"]) if it["name"] == name)
            sessions = [phase for (q, _), (phase, _) in site.sessions.items() if q == r]
            inside = sessions.count("reader") + sessions.count("writer") * self.layout["record"][r]["seats"]
            wanted = f"rights {site.rights(r)} inside {inside} unfinished {site.unfinished(r, s)}"
            if s in self.processes:
                told = self.processes[s].call(f"show {name}")
                compare.compare(f"{self.folder}: site {s}: show {name}", told, wanted)
                wanted = told
            free, taken = free + int(wanted.split()[1]), taken + int(wanted.split()[3])
        return free, taken

    def hear_all(self):
        """Each site takes what every site knows; then all seats are in sight."""
        known = [it.send() for it in self.world.sites]
        for s, site in enumerate(self.world.sites):
            if s not in self.processes:
                self.open(s)
            for text in known:
                rows = [row for row in json.loads(text)["rows"] if rules.reader.is_placed(site.layout, row)]
                line = "take " + rules.reader.text_of({"from": 0, "rows": rows, "v": 1})
                told = self.processes[s].call(line)
                compare.compare(f"{self.folder}: site {s}: {line:.300}", told, site.take(rows))
                self.runs[s][-1][1].append((line, told))
        if any(it.layout["sites"] < len(self.world.sites) for it in self.world.sites):
            return
        for record in self.layout["record"]:
            if sum(self.shown(record["name"])) != record["seats"]:
                sys.exit(f"{self.folder}: {record}: not all seats are in sight")


def copy(store, to):
    for end in ("", "-wal"):
        if Path(store + end).exists():
            shutil.copy(store + end, to + end)
        else:
            Path(to + end).unlink(missing_ok=True)


def by_play(world):
    Path(f"{world.folder}/layout.toml").write_text(scripts.toml(world.layout), "ascii")
    words = [world.program, "play", "--layout", f"{world.folder}/layout.toml"]
    words += ["--from", str(world.first)] * (world.first < world.layout["sites"])
    wanted = "".join(it + "\n" for it in world.replies)
    compare.run(words, f"{world.folder}/script", world.data, [f"{wanted}'' {world.status}"])
    world.counts["(by play)"] += len(world.replies)


def by_site(world):
    for s, runs in world.runs.items():
        for layout, calls in runs:
            store = f"{world.folder}/{s}.site.db"
            Path(f"{store}.toml").write_text(scripts.toml(layout), "ascii")
            words = [world.program, "site", "--site", str(s), "--store", store, "--layout", f"{store}.toml"]
            lines = "".join(f"{line}\n" for line, _ in calls).encode()
            compare.run(words, f"{store}.lines", lines, ["".join(f"{told}\n" for _, told in calls) + "'' 0"])
            world.counts["(by site)"] += len(calls)


def by_rounds(world):
    for s, runs in world.runs.items():
        store, before = f"{world.folder}/{s}.together.db", None
        for layout, calls in runs:
            more = ["--together", str(world.rng.choice([2, 7, 256])), *["--create"] * (before is None), *["--grow"] * (before not in (None, layout))]
            mark, before = mark_in(world.group, layout), layout
            lines = "".join((f"take {marked(mark, line[5:])}" if line.startswith("take ") else line) + "\n" for line, _ in calls)
            told = "".join((marked(mark, it) if line == "send" and it.startswith("{") else it) + "\n" for line, it in calls)
            compare.run(words_of(world, s, store, layout, more), f"{store}.lines", lines.encode(), [f"{told}'' 0"])
            world.counts["(by rounds)"] += len(calls)


def by_judge(world, cuts):
    data = b"".join(Path(f"{world.folder}/{s}.log").read_bytes() for s in sorted(world.runs))
    verdict, _ = compare.judged(world.program, world.layout, data, None, world.folder)
    compare.compare(f"{world.folder}: the logs", verdict, "consistent")
    ends = [sum(len(calls) for _, calls in world.runs.get(s, [])) for s in range(len(world.world.sites))]
    for _ in range(cuts):
        near = world.rng.random()
        cut = [round(n * min(1, max(0, near + world.rng.choice([0, 0, 0.02, 0.2]) * (world.rng.random() - 0.5)))) for n in ends]
        verdict, alone = compare.judged(world.program, world.layout, data, cut, world.folder)
        world.counts[f"(cuts {compare.VERDICTS.sub('', verdict)}{'' if alone else ', a writer not alone'})"] += 1


def by_rebuild(world):
    sites = world.world.sites
    if world.group != GROUP or any(it.layout != world.layout for it in sites):
        return
    stores, lost, name = [compare_rebuild.Store(world.program, world.folder, it) for it in sites], world.rng.choice(sites).site, again.next_name(GROUP)
    world.processes, data = {}, b""
    for store in stores:
        store.group = GROUP
        if store.site.site != lost:
            line = again.moved_text(store.site, GROUP)
            compare.compare(f"{world.folder}: regroup {store.path}", compare_rebuild.told(store.words("regroup")), f"{line}\n'' 0")
            store.group, store.site, data = name, store.site.restarted(world.layout), data + line.encode() + b"\n"
    store = stores[lost]
    store.path, store.group = f"{store.path}.again", name
    wanted, status, store.site = again.rebuild(world.layout, lost, [], name, data)
    compare.compare(f"{world.folder}: rebuild site {lost}", compare_rebuild.told(store.words("rebuild"), data), f"{wanted}'' {status}")
    world.counts["(lost sites that were built again)"] += status == 0
    if status != 0:
        return
    for here in world.inside.values():
        for place in [it for it in here if it[0] == lost]:
            del here[place]
    texts = []
    for _ in range(3 * len(stores)):
        store = world.rng.choice(stores)
        lines, at = store.some_lines(world.rng, texts, world.records, world.rng.choice([3, 12, 40])), compare_rebuild.Store("", "", store.site.restarted(world.layout))
        at.group = name
        replies = [at.answer(it) for it in lines]
        texts += store.serve(lines)
        sites[store.site.site] = store.site
        for line, told in zip(lines, replies):
            world.follow(store.site.site, line, told.split(" ", 3)[-1] if line == "send" else told)
        world.counts["(by rebuild)"] += len(lines)
    known = [f"take {again.marked(world.layout, name, it.site.send())}" for it in stores]
    for store in stores:
        store.serve(known)
        sites[store.site.site] = store.site
        store.compare_content("behind all")
    for record in world.layout["record"]:
        if sum(world.shown(record["name"])) != record["seats"]:
            sys.exit(f"{world.folder}: {record}: not all seats are in sight behind a rebuild")


def main(program, events="100000", seed="1", cuts="20"):
    rng, counts, began, worlds = random.Random(int(seed)), Counter(), time.monotonic(), 0
    while sum(n for name, n in counts.items() if name[0] != "(" or name.startswith("(by")) < int(events):
        folder = tempfile.mkdtemp(prefix="worlds.")
        world = World(program, rng, rng.choice([60, 200, 200, 1000]), folder, counts)
        by_play(world)
        by_site(world)
        by_rounds(world)
        if worlds % 10 == 0 or world.folder and rng.random() < 0.2:
            by_judge(world, int(cuts) if worlds % 10 == 0 else 0)
        by_rebuild(world)
        shutil.rmtree(folder)
        worlds += 1
    for name, times in counts.most_common():
        print(f"{times:9,} {name}")
    told = sum(n for name, n in counts.items() if name[0] != "(" or name.startswith("(by"))
    print(f"{told:,} replies in {worlds} worlds, {time.monotonic() - began:.0f} s, all alike")


if __name__ == "__main__":
    if not 2 <= len(sys.argv) <= 5:
        sys.exit(__doc__)
    main(*sys.argv[1:])
