#!/usr/bin/env python3
"""Measures `judge` on closed logs, on the whole and on half of each, beside `play` on the same events.

Run it from anywhere, once ./seat_cli has built the program: python3 bench/judge.py [FOLDER]
FOLDER keeps the inputs; without it they lie in a temporary folder, which is removed. The logs are those of the events of a
script of `play`, as checks/second_site.py answers them; a restart begins a run, and the last logs have nothing else. All runs
are on one core, and `judge` and `play` take turns. Each time is the least of six runs; memory is told by GNU time. Where `valgrind`
is there, the last columns have the instructions that a line of the logs takes, those of them that judge it once it is read, and
those that an event of the script takes: those of a run over COUNTED events less those of a run over half as many.
"""
import json
import os
import random
import shutil
import subprocess
import sys
import time
import tomllib

import join
import play

sys.path.insert(0, f"{join.TOP}/checks")
import second_site as rules  # noqa: E402

ENTRIES = 100_000
RECORDS = 256
# Fewer messages than in the scripts of `play`: a log has each delta whole, and an input has at most 16 MiB.
SHARES = (29, 29, 4, 4, 13, 13, 3.5, 4.4, 0.1)


def long_names():
    """One site with the most records, whose names have the most bytes and differ at their ends alone."""
    named = (f'[[record]]\nname = "the-record-{i:05}"\nseats = 1\nhome = 0\nproblem = 1\n' for i in range(RECORDS))
    return "sites = 1\n" + "".join(named)


def restarts():
    """As many restarts as there is room for the lines of runs without entries."""
    site = rules.World(tomllib.loads(long_names()), 1).sites[0]
    return ["0 restart\n"] * (join.LIMIT // len(run_line(site)) - 1)


LOGS = [
    ("4 sites, 4 records", play.layout(4, 4, 40), lambda: list(play.events(4, 4, 60, ENTRIES, SHARES))),
    ("60,000 sessions", play.layout(1, 1, 65_535), lambda: list(play.sessions())),
    ("runs of 256 records", long_names(), restarts),
]


def line(parts):
    return json.dumps(parts, separators=(",", ":"), sort_keys=True) + "\n"


def run_line(site):
    """The line that begins a run of a site. Without a number of sites it is the layout's."""
    sessions = [f"r{r} {holder} {phase}" for (r, holder), (phase, _) in site.sessions.items()]
    return line({"book": site.send(), "sessions": sessions, "site": site.site})


def closed_logs(toml, script):
    """The lines of the logs of all sites, one site behind another, and how many are entries."""
    layout = tomllib.loads(toml)
    world = rules.World(layout, layout["sites"])
    logs = [[run_line(site)] for site in world.sites]
    for event in script:
        site, call = event.rstrip("\n").split(" ", 1)
        at, reply = int(site), world.answer(event.rstrip("\n").encode())
        if call == "restart":
            logs[at].append(run_line(world.sites[at]))
            continue
        if call == "send":
            reply = world.sites[at].send()
        if call.startswith("take "):
            rows = world.messages[int(call[5:])]
            call = f"take {rules.reader.text_of({'from': at, 'rows': rows, 'v': 1})}"
        logs[at].append(line({"call": call, "pass": 0, "reply": reply}))
    return [it for log in logs for it in log]


def some_events(number, script):
    """The whole script, half of it, and two short beginnings: of the sessions, half of those who come, who then leave."""
    for part, count in (("whole", len(script)), ("half", len(script) // 2), ("more", play.COUNTED), ("fewer", play.COUNTED // 2)):
        middle = len(script) // 2
        yield part, script[: count // 2] + script[middle : middle + count // 2] if number else script[:count]


def make(keep):
    """Writes the inputs: apart from the measuring, since a process's peak counts that of the one it came from."""
    random.seed(1)
    os.makedirs(keep, exist_ok=True)
    for number, (_, toml, script) in enumerate(LOGS):
        with open(f"{keep}/{number}.toml", "w", encoding="ascii") as it:
            it.write(toml)
        for part, some in some_events(number, without_early_takes(script())):
            with open(f"{keep}/{number}_{part}.script", "w", encoding="ascii") as it:
                it.writelines(some)
            with open(f"{keep}/{number}_{part}.logs", "w", encoding="ascii") as it:
                it.writelines(closed_logs(toml, some))


def without_early_takes(script):
    """The events without those that take a message before there is one, which are no calls of a site."""
    sent = next((i for i, it in enumerate(script) if it.endswith(" send\n")), 0)
    return [it for i, it in enumerate(script) if i > sent or " take " not in it]


def lines_in(path):
    with open(path, "rb") as it:
        return sum(1 for _ in it)


def instructions(words, path, within=()):
    """The instructions of an entry or event, or nothing without the tool that counts them."""
    if not shutil.which("valgrind"):
        return ""
    counts = []
    for part in ("more", "fewer"):
        with open(path.format(part), "rb") as it:
            counts.append(play.instructions(words, it.readlines(), within))
    return f"{(counts[0] - counts[1]) / (play.COUNTED - play.COUNTED // 2):.0f}"


def verdict(words, path):
    with open(path, "rb") as source:
        return subprocess.run(words, stdin=source, capture_output=True, text=True, check=True).stdout.split("\n")[-2]


def measure(keep):
    subprocess.run([sys.executable, __file__, "--make", keep], check=True)
    print(f"{os.cpu_count()} cores of {join.processor()}, {time.strftime('%Y-%m-%d')}")
    print(f"times: the least of {join.ROUNDS} runs on one core, in turns")
    head = ("MB", "lines", "CPU s", "half s", "ratio", "lines/s", "peak MB", "half MB", "play s", "of play", "instr.", "judging", "play's")
    print(f"{'logs':<20}" + "".join(f"{it:>9}" for it in head))
    for number, (name, _, _) in enumerate(LOGS):
        words = [join.PROGRAM, "judge", "--layout", f"{keep}/{number}.toml"]
        other = [join.PROGRAM, "play", "--layout", f"{keep}/{number}.toml"]
        whole, half = f"{keep}/{number}_whole.logs", f"{keep}/{number}_half.logs"
        if {verdict(words, it) for it in (whole, half)} != {"consistent"}:
            sys.exit(f"{name}: not consistent")
        runs = join.in_turns((words, whole), (words, half), (other, f"{keep}/{number}_whole.script"))
        judged, part, played = (min(it) for it in runs)
        lines = lines_in(whole)
        figures = (
            f"{os.path.getsize(whole) / 1e6:.2f}", lines, f"{judged:.3f}", f"{part:.3f}", f"{judged / part:.2f}", f"{lines / judged:.0f}",
            f"{join.peak_of(words, whole):.1f}", f"{join.peak_of(words, half):.1f}", f"{played:.3f}", f"{judged / played:.2f}",
            instructions(words, f"{keep}/{number}_{{}}.logs"),
            instructions(words, f"{keep}/{number}_{{}}.logs", ["log_replay::entries::follow_one", "log_judge::stream::SiteLog::take"]),
            instructions(other, f"{keep}/{number}_{{}}.script"))
        print(f"{name:<20}" + "".join(f"{it:>9}" for it in figures), flush=True)


if __name__ == "__main__":
    join.run(make, measure)
