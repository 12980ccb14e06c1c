#!/usr/bin/env python3
"""Compares `play`, `site`, `judge` and `run` of the built program with the second reading, on random scripts and closed logs.

    compare.py play PROGRAM [EVENTS] [SEED]    each script: what it writes, and its exit status
    compare.py site PROGRAM [CALLS] [SEED]     each run over a store, and what the store then holds
    compare.py judge PROGRAM [LOGS] [SEED]     the logs of forged_logs.py, then so many forged ones and some honest ones; each as an
                                               input, and in files, which begin where a run does
    compare.py run PROGRAM [RUNS] [SEED]       each script: its closed logs, and what `judge` says
    compare.py rebuild PROGRAM [INPUTS] [SEED] `regroup` and `rebuild`, as compare_rebuild.py says

Stops at the first difference and leaves its files; else tells how often each reply or verdict came. Some runs
of `site` are killed: the next one goes on behind some call, and behind all that were answered. The
replies of `run` depend on the schedule: each log is replayed, and has the replies that were written.
"""
import json
import random
import re
import shutil
import sqlite3
import subprocess
import sys
import tempfile
import time
from collections import Counter
from contextlib import closing
from itertools import zip_longest
from pathlib import Path

import compare_rebuild
import forged_logs
import random_logs as logs
import random_scripts as scripts
import second_judge as second
import second_site as rules


NUMBERS = re.compile(r" \d+|(?<=\{).*")
NOT_ALONE = "(forged logs with a writer that is not alone, or more readers than seats)"
VERDICTS = re.compile(r" \d+| record \S+| (site|at|origin)(?= )")


def compare(what, told, wanted):
    """Ends at the first line that the program told otherwise."""
    for line, pair in enumerate(zip_longest(told.split("\n"), wanted.split("\n")), 1):
        if pair[0] != pair[1]:
            one, other = map("{!r:.900}".format, pair)
            sys.exit(f"{what}\nline {line}\nthe program:        {one}\nthe second reading: {other}")


def run(words, path, lines, outcomes):
    """What a run told, by lines, its errors and its status: one of the outcomes that may be."""
    Path(path).write_bytes(lines)
    done = subprocess.run(words, input=lines, capture_output=True, check=False)
    told = f"{done.stdout.decode()}{done.stderr.decode()!r} {done.returncode}"
    compare(f"{' '.join(words)} < {path}", told, told if told in outcomes else outcomes[0])
    return told


def play(program, events, rng, folder, counts):
    while counts.total() < events:
        script = scripts.Script(rng, rng.choice([20, 200, 200, 2000]))
        Path(f"{folder}/layout.toml").write_text(scripts.toml(script.layout), "ascii")
        words = [program, "play", "--layout", f"{folder}/layout.toml"]
        words += ["--from", str(script.first)] * (script.first < script.layout["sites"])
        wanted = "".join(it + "\n" for it in script.replies)
        if rng.random() < 0.5:
            words.append("--tables")
            wanted += script.world.tables() * (script.status == 0)
        run(words, f"{folder}/script", script.data, [f"{wanted}'' {script.status}"])
        counts.update(NUMBERS.sub("", it) for it in script.replies)


class Store:
    """A site's store, and the states that it may be in: several, after a run that was killed."""

    def __init__(self, program, path, site):
        self.program, self.path, self.states, self.layout = program, path, [site], site.layout

    def words(self):
        Path(f"{self.path}.toml").write_text(scripts.toml(self.layout), "ascii")
        words = [self.program, "site", "--site", str(self.states[0].site), "--store", self.path]
        return words + ["--layout", f"{self.path}.toml"]

    def copied(self, path):
        for end in ("", "-wal"):
            shutil.copy(self.path + end, path + end)
        return Store(self.program, path, self.states[0])

    def content(self):
        """The rows in a copy of the store, since who opens it tidies its log up."""
        names = ("cells", "sessions", "notices")
        with closing(sqlite3.connect(self.copied(f"{self.path}.copy").path)) as store:
            return tuple(sorted(store.execute(f"SELECT * FROM {name}")) for name in names)

    def brought(self, r, n):
        """Brings an empty store to where n readers and n writers have come and gone."""
        self.serve([])
        site = self.states[0]
        row = site.row(r, site.site) | {"taken": n, "ann": n, "fin": n}
        row["out"][site.site] += n
        site.rows[r, site.site] = row
        with closing(sqlite3.connect(self.path, isolation_level=None)) as store:
            store.executemany("INSERT INTO cells VALUES (?, ?, ?)", site.content()[0])

    def serve(self, lines, bad=()):
        """A run to its end, behind lines perhaps one that can't be read; gives its replies."""
        runs = [rules.Run(state, self.layout) for state in self.states]
        ends = [f"line {len(lines) + 1} refused BadWord", "'' 4"] if bad else ["'' 0"]
        outcomes = ["\n".join([*map(at.answer, lines), *ends]) for at in runs]
        told = run(self.words(), f"{self.path}.lines", b"\n".join([*lines, *bad]), outcomes)
        self.states = [at.site for at, it in zip(runs, outcomes) if it == told]
        for state in self.states:
            rows = (str(it.content()).replace(" (", "\n(") for it in (self, state))
            compare(f"store {self.path}, behind a run of {self.path}.lines", *rows)
        self.states = self.states[:1]
        return told.split("\n")[:-1]

    def killed(self, lines, seconds):
        """A run that is killed after some time, unless it has ended."""
        try:
            told = subprocess.check_output(self.words(), input=b"\n".join(lines), timeout=seconds)
        except subprocess.TimeoutExpired as expired:
            told = expired.stdout or b""
        at, replies = rules.Run(self.states[0], self.layout), []
        self.states = [at.site.restarted(self.layout)]
        for line in lines:
            replies.append(at.answer(line) + "\n")
            self.states.append(at.site.restarted(self.layout))
        compare(f"{self.path}, killed", told.decode(), "".join(replies)[: len(told)])
        del self.states[: told.count(b"\n")]


def some_lines(store, rng, texts, records, wild):
    """Lines for a run, steered by one of the states that the store may be in."""
    at, lines = rules.Run(rng.choice(store.states), store.layout), [b"send"]
    for _ in range(rng.choice([9, 40, 150] if len(store.states) == 1 else [9])):
        draw, line = rng.random(), scripts.call(rng, at.site, records)
        if draw < 0.25:
            line = "take " + scripts.a_text(rng, at.site, texts, wild) if draw < 0.2 else "send"
        lines.append(line.encode())
        at.answer(lines[-1])
    return lines


def site(program, calls, rng, folder, counts):
    while counts.total() < calls:
        layout, first = scripts.a_layout(rng)
        wild, world = rng.choice([0, 0, 20]), tempfile.mkdtemp(dir=folder)
        early, numbers = layout | {"sites": first}, rng.sample(range(first), min(first, 4))
        stores = [Store(program, f"{world}/{s}.db", rules.Site(early, s)) for s in numbers]
        homes = [r for r, it in enumerate(layout["record"]) if it["home"] in numbers] or [0]
        texts, records = [stores[0].states[0].send()], rng.choices(homes, k=rng.choice([1, 3, 9]))
        for store in stores if wild else []:
            store.brought(records[0], rules.COUNTER_LIMIT - rng.choice([0, 3, 30]))
        for turn in range(25):
            store = rng.choice(stores)
            store.layout = rng.choice([layout] + [store.layout] * 9)
            lines = some_lines(store, rng, texts, records, wild)
            if len(store.states) == 1 and rng.random() < 0.2:
                store.killed(lines, rng.choice([0.001, 0.003, 0.01]) * rng.random() * len(lines))
                counts["(runs killed)"] += len(store.states) > 1
                continue
            bad = [rng.choice(scripts.BAD_LINES), b"send"] * (rng.random() < 0.05)
            replies = store.serve(lines, bad)
            counts.update(NUMBERS.sub("", it) for it in replies)
            texts += [it for it in replies if it.startswith("{")]
            if rng.random() < 0.01:
                stores.append(store.copied(f"{world}/{store.states[0].site}_{turn}.db"))
    store = Store(program, f"{folder}/full.db", rules.Site(layout, 0))
    replies = store.serve([b"help no-such-record"] * rules.MOST_CALLS + [b"take x", b"send"])
    counts.update(NUMBERS.sub("", it) for it in replies)


def judged(program, layout, data, cut, folder):
    """What the program and the second reading say of closed logs, and whether writers are alone at the cut."""
    Path(f"{folder}/layout.toml").write_text(scripts.toml(layout), "ascii")
    told, status, replays = second.answer(data, layout, cut)
    words = [program, "judge", "--layout", f"{folder}/layout.toml"]
    words += [] if cut is None else ["--cut", ",".join(map(str, cut))]
    run(words, f"{folder}/logs", data, [f"{told}'' {status}"])
    paths, told_of_files = in_files(data, told, folder)
    run([*words, "--logs", *paths], f"{folder}/no_input", b"", [f"{told_of_files}'' {status}"])
    verdict, alone = told.split("\n")[-2], not replays or second.is_alone(layout, replays)
    if verdict == "consistent" and not alone:
        sys.exit(f"{folder}/logs: consistent, and a writer is not alone")
    return verdict, alone


def in_files(data, told, folder):
    """Files that have an input together, each from a line on that seems to begin a run, and what is to be told of them."""
    rng, lines = random.Random(data), data.split(b"\n")
    runs = [at for at, line in enumerate(lines) if at and line.startswith(b'{"book"')]
    starts = [0, *sorted(rng.sample(runs, rng.randint(0, min(4, len(runs)))))]
    paths = [f"{folder}/logs.{number}" for number in range(len(starts))]
    for path, start, end in zip(paths, starts, [*starts[1:], len(lines)]):
        text = b"\n".join(lines[start:end])
        # The last line of a file may lack its LF; an empty one has nothing else.
        Path(path).write_bytes(text + b"\n" * (end < len(lines) and (rng.random() < 0.8 or not lines[end - 1])))
    if refused := re.match(r"line (\d+)( refused NotTranscript\n)", told):
        file = max(number for number, start in enumerate(starts) if start < int(refused[1]))
        told = f"{paths[file]} line {int(refused[1]) - starts[file]}{refused[2]}"
    return paths, told


def judge(program, forgeries, rng, folder, counts):
    for layout, data, cut, verdict in forged_logs.cases():
        told, _ = judged(program, layout, data, cut, folder)
        compare(f"{folder}/logs", told, verdict)
        counts[f"{VERDICTS.sub('', told)}, by hand"] += 1
    forgeries += counts.total()
    while counts.total() - counts[NOT_ALONE] < forgeries:
        lies = rng.choice([0, 0, 0.1, 0.5])
        story = logs.Story(rng, rng.choice([10, 60, 60, 250]), lies)
        for cut in [None, rng.choice(story.moments)] if not lies else []:
            data = logs.text_of(rng, story.logs, story.layout).encode()
            compare(f"{folder}/logs", judged(program, story.layout, data, cut, folder)[0], "consistent")
            counts["consistent, honest"] += 1
            forgeries += 1
        for _ in range(9):
            told = logs.forged(rng, story) if rng.random() < 0.9 or not lies else story.logs
            data = logs.text_of(rng, told, story.layout).encode()
            if rng.random() < 0.1:
                data = logs.changed_bytes(rng, data)
            verdict, alone = judged(program, story.layout, data, logs.a_cut(rng, story, told), folder)
            counts[f"{VERDICTS.sub('', verdict)}, forged"] += 1
            counts[NOT_ALONE] += not alone


def script_of_calls(rng, layout, length):
    """Calls at random sites; which of them will be refused, only the schedule decides."""
    world = rules.World(layout, layout["sites"])
    records, lines = rng.choices(range(len(layout["record"])), k=rng.choice([1, 3, 9])), []
    for _ in range(length):
        s = rng.randrange(layout["sites"])
        lines.append(f"{s} {scripts.call(rng, world.sites[s], records)}".encode())
        world.answer(lines[-1])
    return lines


def replayed(path, layout, counts):
    """The calls of each site's caller and their replies, and how often its links sent, by a log that is replayed from its start."""
    callers, sends, at = {}, {}, None
    for line in Path(path).read_text("ascii").splitlines():
        entry = json.loads(line)
        if "book" in entry:
            s, empty = entry["site"], rules.reader.text_of({"from": entry["site"], "rows": [], "v": 1})
            start = {"book": empty, "sessions": [], "site": len(callers), "sites": layout["sites"]}
            compare(path, str(entry), str(start))
            at, callers[s], sends[s] = rules.Run(rules.Site(layout, s), layout), [], 0
            continue
        call = entry["call"].replace("?65535", "no-such-record")
        compare(f"{path}: {call}", entry["reply"], at.answer(call.encode()))
        kind = entry["reply"] if not entry["reply"].startswith("{") else "(delta)"
        counts[NUMBERS.sub("", kind)] += 1
        sends[s] += call == "send"
        if entry["pass"] == 0:
            callers[s].append((call, entry["reply"]))
    return callers, sends


def sites_at_once(program, runs, rng, folder, counts):
    layout_file, log = f"{folder}/layout.toml", f"{folder}/sites.log"
    for _ in range(runs):
        layout, _ = scripts.a_layout(rng)
        Path(layout_file).write_text(scripts.toml(layout), "ascii")
        lines = script_of_calls(rng, layout, rng.choice([0, 20, 200, 1000]))
        turns = rng.choice([1, 5, 20, 40, 1000] if layout["sites"] < 4 else [1, 5, 20, 40] if layout["sites"] < 16 else [1, 2])
        words = [program, "run", "--turns", str(turns), "--out", log, "--layout", layout_file]
        Path(f"{folder}/script").write_bytes(b"\n".join(lines))
        done = subprocess.run(words, input=b"\n".join(lines), capture_output=True, check=False)
        callers, sends = replayed(log, layout, counts)
        compare(f"sends in {log}", str(set(sends.values())), str({turns * (layout["sites"] - 1)}))
        calls = [(s, call) for s, log_of in callers.items() for call, _ in log_of]
        asked = [(s, it) for s in range(layout["sites"]) for it in lines_of(lines, s)]
        compare(f"{folder}/script", "\n".join(map(str, calls)), "\n".join(map(str, asked)))
        replies = "".join(f"{s}: {it}\n" for s, log_of in callers.items() for _, it in log_of)
        told = f"{done.stdout.decode()}{done.stderr.decode()!r} {done.returncode}"
        compare(" ".join(words), told, f"{replies}consistent\n'' 0")
        done = subprocess.run([program, "judge", "--layout", layout_file], stdin=open(log, "rb"), capture_output=True, check=False)
        told = f"{len(done.stdout.splitlines())} {done.stdout.splitlines()[-1:]} {done.returncode}"
        compare(f"judge < {log}", told, f"{layout['sites'] + 2} {[b'consistent']} 0")


def lines_of(lines, s):
    return [it.decode().split(" ", 1)[1] for it in lines if it.startswith(f"{s} ".encode())]


if __name__ == "__main__":
    default = {"play": (play, "100000", "1"), "site": (site, "20000", "1"), "judge": (judge, "10000", "1"), "run": (sites_at_once, "200", "1"),
               "rebuild": (compare_rebuild.rebuild, "3000", "1")}
    if not 3 <= len(sys.argv) <= 5 or sys.argv[1] not in default:
        sys.exit(__doc__)
    command, *numbers = default[sys.argv[1]]
    number, seed = map(int, sys.argv[3:] + numbers[len(sys.argv) - 3 :])
    folder, counts, began = tempfile.mkdtemp(prefix="compare."), Counter(), time.monotonic()
    command(sys.argv[2], number, random.Random(seed), folder, counts)
    for name, times in counts.most_common():
        print(f"{times:9,} {name}")
    told = counts.total() - counts["(runs killed)"] - counts[NOT_ALONE] - counts["(sites moved)"]
    noun, seconds = {"judge": "logs", "rebuild": "inputs"}.get(sys.argv[1], "replies"), time.monotonic() - began
    print(f"{told:,} {noun} in {seconds:.0f} s, all alike")
    shutil.rmtree(folder)
