"""What `compare.py rebuild` compares: `regroup` and `rebuild` of the program with second_rebuild.py, over random stories of `serve`.

Sites of a group do calls and take each other's deltas. Some stores are lost; the other sites are moved to the next generation,
and go on there. Then each lost site is built again, of right inputs and of many wrong ones: lines that are missing, twice,
damaged, forged, of another group or site, or made too early or too late. Compared are all that is written, the exit status, and
the rows of each store behind it."""
import json
import os
import shutil
import sqlite3
import subprocess
import sys
from contextlib import closing
from pathlib import Path

import random_scripts as scripts
import second_rebuild as again
import second_site as rules
import stand_in

GROUP = "east"
# Groups in which no store is, and how a move from one is refused.
WRONG = (("east.2", "WrongGroup"), ("eas", "WrongGroup"), ("east.1048574", "WrongGroup"), ("east.1048575", "LastGeneration"))
NAMES = ("cells", "sessions", "notices", "meta")


def told(words, data=b""):
    """What a command writes, its errors and its status."""
    if words[0].endswith("stand_in.py"):
        output, errors, status = stand_in.run(words[1:], data)
    else:
        done = subprocess.run(words, input=data, capture_output=True, check=False)
        output, errors, status = done.stdout, done.stderr, done.returncode
    return f"{output.decode()}{errors.decode()!r} {status}"


class Store:
    """A site's store, its group, and the site that has to be in it."""

    def __init__(self, program, folder, site):
        self.program, self.site, self.group = program, site, GROUP
        self.path, self.layout_file = f"{folder}/{site.site}.db", f"{folder}/layout.toml"

    def words(self, command, group=None):
        words = [self.program, command, "--site", str(self.site.site), "--store", self.path, "--layout", self.layout_file]
        return [*words, "--group", group or self.group]

    def same(self, what, found, wanted):
        if found != wanted:
            sys.exit(f"{what}\nthe program:        {found!r:.2000}\nthe second reading: {wanted!r:.2000}")

    def content(self):
        """The rows in a copy of the store, since who opens it tidies its log up."""
        for end in ("", "-wal"):
            if os.path.exists(self.path + end):
                shutil.copy(self.path + end, f"{self.path}.copy{end}")
        with closing(sqlite3.connect(f"{self.path}.copy")) as store:
            return [sorted(store.execute(f"SELECT * FROM {name}")) for name in NAMES]

    def compare_content(self, what):
        layout = self.site.layout
        meta = [("layout", again.layout_line(layout)), ("site", f"{self.site.site} {self.group}"), ("version", "2")]
        self.same(f"{what}: {self.path}", self.content(), [*map(list, self.site.content()), meta])

    def serve(self, lines, *more):
        """A run of `serve`; gives the texts that it sent."""
        self.site = self.site.restarted(self.site.layout)
        replies = [self.answer(it) for it in lines]
        Path(f"{self.path}.lines").write_text("".join(it + "\n" for it in lines))
        wanted = "".join(it + "\n" for it in replies) + "'' 0"
        words = [*self.words("serve"), *more]
        data = "".join(it + "\n" for it in lines).encode()
        for one, other in zip(told(words, data).split("\n"), wanted.split("\n")):
            self.same(f"{' '.join(words)} < {self.path}.lines", one, other)
        return [it for it in replies if it.startswith(f"{self.group} ")]

    def answer(self, line):
        if line.startswith("take "):
            return rules.reply(self.take, line[5:].encode())
        if line == "send":
            return again.marked(self.site.layout, self.group, self.site.send())
        verb, *parts = rules.ask(line.encode().split(b" "), self.site.layout)
        return rules.reply(getattr(self.site, verb), *parts)

    def take(self, marked):
        text = again.unmarked(self.site.layout, [self.group], marked)
        return self.site.take(json.loads(text)["rows"])

    def some_lines(self, rng, texts, records, number):
        """Lines for a run, most of which are carried out."""
        at, lines = Store("", "", self.site.restarted(self.site.layout)), []
        at.group = self.group
        for _ in range(number):
            line = f"take {rng.choice(texts[-8:])}" if texts and rng.random() < 0.25 else scripts.call(rng, at.site, records)
            lines.append(line)
            at.answer(line)
        return [*lines, "send"]


def a_layout(rng):
    sites = rng.choice([1, 2, 3, 3, 4, 5, 6, 16])
    records = rng.choice([1, 2, 2, 4, 4, 40] if sites < 16 else [1, 3, 256])
    return {"sites": sites, "record": [
        {"name": f"record-name-{r:04}", "seats": rng.randint(1, rng.choice([3, 9, 65_535])), "home": rng.randrange(sites),
         "problem": rng.randint(1, 2)} for r in range(records)]}


class Story:
    """Sites that were served, and of which some are lost and the others moved."""

    def __init__(self, program, rng, folder, counts):
        self.rng, self.counts = rng, counts
        self.layout = a_layout(rng)
        Path(f"{folder}/layout.toml").write_text(scripts.toml(self.layout), "ascii")
        sites = range(self.layout["sites"])
        self.stores = [Store(program, folder, rules.Site(self.layout, s)) for s in sites]
        self.records = rng.choices(range(len(self.layout["record"])), k=rng.choice([1, 3, 9]))
        self.old, self.moved, self.later = [], {}, {}
        for store in self.stores:
            self.old += store.serve(["send"], "--create")
        for _ in range(rng.choice([1, 2, 3]) * len(sites)):
            store = rng.choice(self.stores)
            self.old += store.serve(store.some_lines(rng, self.old, self.records, rng.choice([3, 12, 40])))
        self.lost = sorted(rng.sample(sites, min(len(sites), rng.choice([*[1] * 10, *[2] * 8, 3, 3, 3, 16]))))
        self.left = [s for s in sites if s not in self.lost]

    def move(self):
        """Moves the sites that are left, and has some of them served in the new group."""
        for s in self.rng.sample(self.left, len(self.left)):
            store = self.stores[s]
            wrong, refused = self.rng.choice(WRONG) if self.rng.random() < 0.2 else (None, None)
            if wrong:
                store.same("a move from another group", told(store.words("regroup", wrong)), f"'store refused {refused}\\n' 5")
                store.compare_content("behind a refused move")
            line = again.moved_text(store.site, GROUP)
            store.same(" ".join(store.words("regroup")), told(store.words("regroup")), f"{line}\n'' 0")
            store.group, store.site = again.next_name(GROUP), store.site.restarted(self.layout)
            store.compare_content("behind a move")
            self.moved[s], self.later[s] = line, [line]
            self.counts["(sites moved)"] += 1
        texts = []
        for s in self.rng.choices(self.left, k=self.rng.choice([0, 1, 3, 6])) if self.left else []:
            store = self.stores[s]
            sent = store.serve(store.some_lines(self.rng, texts, self.records, self.rng.choice([3, 12])))
            texts += sent
            self.later[s] += sent
        self.new = texts

    def a_line(self, s):
        """A wrong line in place of that of site s, or one more."""
        rng, word, text = self.rng, *self.moved[s].split(" ", 3)[::3]
        value = json.loads(text)
        rows, sites = value["rows"], self.layout["sites"]
        kind = rng.choice(["early", "other", "bytes", "bare", "from", "row", "row", "row", "row", "seats", "seats", "empty", "odd", "odd", "lost", "layout", "other"])
        if kind == "early":
            return f"{word} " + " ".join(rng.choice(self.old).split(" ")[1:])
        if kind == "other":
            parts = self.moved[s].split(" ")
            at = rng.randrange(3)
            parts[at] = [rng.choice(["east:moved", "east.3:moved", "west.2", "-"]), "0" * 16, "0" * 8][at]
            return " ".join(parts)
        if kind == "bytes":
            at = rng.randrange(len(self.moved[s]))
            return self.moved[s][:at] + rng.choice(["", " ", "0", "é"]) + self.moved[s][at + 1:]
        if kind in ("bare", "empty"):
            return text if kind == "bare" else ""
        if kind == "from":
            value["from"] = rng.randrange(16)
        if kind == "odd":
            text = rng.choice([text + " ", text[:-1], "{}", "[" * 200, text + " " * rng.choice([1, rules.reader.TEXT_LIMIT]), text + "\udcff"])
            data = text.encode("utf-8", "surrogateescape")
            return f"{word} {self.moved[s].split(' ')[1]} {again.digest(data, 8)} {text}"
        if kind == "layout":
            row = rules.reader.start(self.layout, 0, 0)
            rows.append(row | rng.choice([{"r": 255}, {"s": 15, "out": [0] * 16}, {"r": 255, "out": row["out"] + [0]}]))
            rows.sort(key=lambda it: (it["r"], it["s"]))
        if kind == "lost":  # what it knows of a lost site
            rows[:] = [row for row in rows if row["s"] not in self.lost]
        r = rng.choice(self.records)
        if kind in ("row", "seats"):
            d = rng.choice(self.lost if kind == "row" else range(sites))
            row = next((it for it in rows if (it["r"], it["s"]) == (r, d)), None) or rules.reader.start(self.layout, r, d)
            rows[:] = sorted([it for it in rows if it is not row] + [row], key=lambda it: (it["r"], it["s"]))
            n = rng.choice([1, 1, 2, 9, rules.COUNTER_LIMIT])
            row[rng.choice(["taken", "ann", "fin"])] += rng.choice([0, 0, 0, n])
            row["out"][rng.randrange(sites)] += rng.choice([0, n, n])
        return again.marked(self.layout, word, rules.reader.text_of(value))

    def an_input(self, d):
        """Lines for the building of lost site d, and the other sites that are said to be lost."""
        rng, others = self.rng, [j for j in self.lost if j != d]
        alone = not others
        lines = [rng.choice(self.later[s]) if alone and rng.random() < 0.5 else self.moved[s] for s in self.left]
        if rng.random() < 0.7:
            at = rng.randrange(len(lines) + 1)
            kind = rng.choice(["missing", "twice", *["wrong"] * 7, "late", "names", "full", "full"])
            if kind == "names":
                others = rng.choice([[], [j for j in range(self.layout["sites"]) if j != d and rng.random() < 0.5], others[1:]])
                if rng.random() < 0.5:
                    lines = [self.moved[s] for s in self.left if s not in others]
            elif not self.left or not lines[at:]:
                lines.append(rng.choice([*self.old, "", "x"]))
            elif kind == "missing":
                del lines[at]
            elif kind == "twice":
                lines.insert(rng.randrange(len(lines) + 1), rng.choice([lines[at], self.moved[self.left[at]]]))
            elif kind == "full":
                lines = [self.full(s, d) if rng.random() < 0.7 else self.moved[s] for s in self.left]
            elif kind == "late":
                lines[at] = rng.choice([*self.new, *self.old])
            else:
                lines[at] = self.a_line(self.left[at])
        rng.shuffle(lines)
        data = "\n".join(lines).encode("utf-8", "surrogateescape")
        return data + rng.choice([b"", b"\n", b"\n", b"\n" * (rules.reader.INPUT_LIMIT if rng.random() < 0.1 else 1)] if lines else [b""]), others

    def full(self, s, d):
        """The line of site s, by which it was given as many seats by lost site d as a counter holds."""
        word, text = self.moved[s].split(" ", 3)[::3]
        value, r = json.loads(text), self.records[0]
        rows = {(it["r"], it["s"]): it for it in value["rows"]}
        row = rows.setdefault((r, d), rules.reader.start(self.layout, r, d))
        row["out"][s] = rules.COUNTER_LIMIT
        return again.marked(self.layout, word, rules.reader.text_of(value | {"rows": [rows[key] for key in sorted(rows)]}))

    def build(self, d):
        """Tries inputs for lost site d, until it is built and has been served."""
        store = self.stores[d]
        store.group = again.next_name(GROUP)
        store.path += ".again"
        for _ in range(9 if self.left else 2):
            data, others = self.an_input(d)
            wanted, status, site = again.rebuild(self.layout, d, others, store.group, data)
            words = store.words("rebuild") + [it for j in others for it in ("--lost", str(j))]
            Path(f"{store.path}.input").write_bytes(data)
            store.same(f"{' '.join(words)} < {store.path}.input", told(words, data), f"{wanted}'' {status}")
            self.counts[outcome(wanted)] += 1
            if site is None:
                store.same(f"whether {store.path} is there behind a refusal", os.path.exists(store.path), False)
                continue
            store.site = site
            store.compare_content("a site that was built again")
            store.same("a second time", told(words, data), "'store refused Exists\\n' 5")
            store.compare_content("behind a refused second time")
            if self.rng.random() < 0.5:
                store.serve(store.some_lines(self.rng, [], self.records, 9))
                store.compare_content("a site that was built again and served")
            for path in (store.path, f"{store.path}-wal", f"{store.path}-shm"):
                Path(path).unlink(missing_ok=True)


def outcome(text):
    """What was written, without its numbers."""
    if "refused" not in text:
        return "built, of several" if "\ntexts " in text else "built, alone"
    words = [it for it in text.split() if not it.isdigit()]
    return " ".join(words[words.index("refused") - 1:])


# Calls under the built-in layout, one after the other: words, input, and what is written; `?` stands for any errors. Where a store
# is named that is not there, none is there behind the call, but where the status is 0.
SILENT = again.marked(rules.reader.BUILT_IN, "east.2:moved", rules.Site(rules.reader.BUILT_IN, 0).send()) + "\n"
FIXED = (
    ("ask 0 alone.db --create send", "", again.marked(rules.reader.BUILT_IN, "-", SILENT.split(" ", 3)[3][:-1]) + "\n'' 0"),
    ("ask 0 0.db --group east --create show a", "", "rights 2 inside 0 unfinished 0\n'' 0"),
    ("regroup 0 none.db --group east", "", "'store refused NoStore\\n' 5"),
    ("regroup 0 none/0.db --group east", "", "'store refused NoFolder\\n' 5"),
    ("regroup 0 alone.db --group east", "", "'store refused NoGroup\\n' 5"),
    ("regroup 1 0.db --group east", "", "'store refused WrongSite\\n' 5"),
    ("regroup 2 0.db --group east", "", "'layout refused NoSite\\n' 3"),
    ("regroup 0 0.db --group east.1", "", "'group refused BadWord\\n' 2"),
    ("regroup 0 0.db", "", "? 2"),
    ("regroup 0 0.db --group east", "", f"{SILENT}'' 0"),
    ("regroup 0 0.db --group east", "", "'store refused WrongGroup\\n' 5"),
    ("rebuild 1 1.db --group east", SILENT, "'group refused NotMoved\\n' 2"),
    ("rebuild 1 1.db", SILENT, "? 2"),
    ("rebuild 1 twice.db --group east.2 --lost 1", SILENT, f"a rights 0 inside 0 unfinished 0\ntexts {again.digest(SILENT.split(' ', 3)[3].encode(), 16)}\n'' 0"),
    ("rebuild 1 1.db --group east.2 --lost 0 --lost 0", SILENT, "input refused Acted\n'' 4"),
    ("rebuild 1 1.db --group east.2 --lost 2", SILENT, "'layout refused NoSite\\n' 3"),
    ("rebuild 2 1.db --group east.2", SILENT, "'layout refused NoSite\\n' 3"),
    ("rebuild 2 1.db --group east.2", "x\n", "line 1 refused NoMark\n'' 4"),
    ("rebuild 1 1.db --group east.2 --lost 0", SILENT, "input refused Acted\n'' 4"),
    ("rebuild 1 none/1.db --group east.2", "", "input refused NoDelta 0\n'' 4"),
    ("rebuild 1 none/1.db --group east.2", SILENT, "'store refused NoFolder\\n' 5"),
    ("rebuild 1 0.db --group east.2", "", "input refused NoDelta 0\n'' 4"),
    ("rebuild 1 0.db --group east.2", SILENT, "'store refused Exists\\n' 5"),
    ("rebuild 1 1.db --group east.2", SILENT, "a rights 0 inside 0 unfinished 0\n'' 0"),
    ("rebuild 1 1.db --group east.2", SILENT, "'store refused Exists\\n' 5"),
    ("ask 1 1.db --group east.2 sessions a", "", "0\n'' 0"),
)


def fixed(program, folder):
    """Compares the calls of the list."""
    for line, data, wanted in FIXED:
        command, site, name, *more = line.split(" ")
        path = f"{folder}/{name}"
        words, there = [program, command, "--site", site, "--store", path, *more], os.path.exists(path)
        found = told(words, data.encode())
        if wanted == "? 2":
            found = found if found.startswith("''") else f"? {found.rsplit(' ', 1)[1]}"
        at = Store(program, folder, rules.Site(rules.reader.BUILT_IN, 0))
        at.path = path
        at.same(" ".join(words), found, wanted)
        if not there and not wanted.endswith("'' 0"):
            at.same(f"whether {path} is there behind a refusal", os.path.exists(path), False)


def rebuild(program, inputs, rng, folder, counts):
    """The calls of the list, and then stories until so many inputs of `rebuild` were compared."""
    os.mkdir(f"{folder}/fixed")
    fixed(program, f"{folder}/fixed")
    while counts.total() - counts["(sites moved)"] < inputs:
        os.mkdir(f"{folder}/story")
        story = Story(program, rng, f"{folder}/story", counts)
        story.move()
        for d in story.lost:
            story.build(d)
        shutil.rmtree(f"{folder}/story")
