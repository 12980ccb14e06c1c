#!/usr/bin/env python3
"""Measures `play` on four scripts, on the whole and on half of each, beside `join` on lines of 8 rows.

Run it from anywhere, once ./seat_cli has built the program: python3 bench/play.py [FOLDER]
A message has every row that differs from the start, so with 256 records it grows with the script, and that script is short.
FOLDER keeps the inputs; without it they lie in a temporary folder, which is removed. All runs are on one core. Each
time is the least of three runs; memory is told by GNU time. The share is the time beside that of `join`, measured in
the same run. Where `valgrind` is there, the last column has the instructions that an event takes: those of a run over
COUNTED events less those of a run over half as many, by its tool callgrind, which counts the same whatever else runs.
"""
import os
import random
import re
import shutil
import subprocess
import sys
import tempfile
import time

import join

EVENTS = 200_000
SESSIONS = 60_000
COUNTED = 4_000
SHARES = (25, 25, 4, 4, 11, 10, 10, 10.9, 0.1)


def layout(records, sites, seats):
    """Records that start at different sites, under both problems in turn."""
    named = (
        f'[[record]]\nname = "r{i}"\nseats = {seats}\nhome = {i % sites}\nproblem = {1 + i % 2}\n'
        for i in range(records)
    )
    return f"sites = {sites}\n" + "".join(named)


def events(records, sites, holders, count=EVENTS, shares=SHARES):
    """Calls, messages and restarts, in the shares in which a busy store may see them."""
    kinds = ("read", "leave", "announce", "write", "give", "help", "send", "take", "restart")
    sent = 0
    for kind in random.choices(kinds, shares, k=count):
        site, record = random.randrange(sites), random.randrange(records)
        if kind == "send":
            sent += 1
            yield f"{site} send\n"
        elif kind == "take":
            yield f"{site} take {max(0, sent - 1 - random.randrange(2 * sites))}\n"
        elif kind == "restart":
            yield f"{site} restart\n"
        elif kind == "help":
            yield f"{site} help r{record}\n"
        elif kind == "give":
            yield f"{site} give r{record} {random.randrange(sites)} {random.randrange(1, 4)}\n"
        else:
            yield f"{site} {kind} r{record} {random.randrange(holders)}\n"


def sessions():
    """Readers of one site who all come, and then leave in the order in which they came."""
    for verb in ("read", "leave"):
        for holder in range(SESSIONS):
            yield f"0 {verb} r0 {holder}\n"


SCRIPTS = [
    ("4 sites, 4 records", layout(4, 4, 40), lambda: events(4, 4, 60)),
    ("16 sites, 2 records", layout(2, 16, 160), lambda: events(2, 16, 60)),
    ("16 sites, 256 records", layout(256, 16, 160), lambda: events(256, 16, 60, COUNTED)),
    ("60,000 sessions", layout(1, 1, 65_535), sessions),
]


def make(keep):
    """Writes the inputs: apart from the measuring, since a process's peak counts that of the one it came from."""
    random.seed(1)
    os.makedirs(keep, exist_ok=True)
    for number, (_, toml, lines) in enumerate(SCRIPTS):
        whole = list(lines())
        with open(f"{keep}/{number}_whole", "w", encoding="ascii") as it:
            it.writelines(whole)
        with open(f"{keep}/{number}_half", "w", encoding="ascii") as it:
            it.writelines(half(number, whole))
        with open(f"{keep}/{number}.toml", "w", encoding="ascii") as it:
            it.write(toml)
    with open(f"{keep}/join", "w", encoding="ascii") as it:
        it.writelines(join.lines_up_to_the_limit(join.eight_row_lines))
    with open(f"{keep}/join.toml", "w", encoding="ascii") as it:
        it.write(join.layout(1, 16, 9))


def half(number, lines):
    """Half of a script's events: of the sessions, half of those who come and all of these who leave."""
    if SCRIPTS[number][2] is sessions:
        quarter = len(lines) // 4
        return lines[:quarter] + lines[2 * quarter : 3 * quarter]
    return lines[: len(lines) // 2]


def first(number, lines, count):
    """So many events of a script: of the sessions, half as many who come and all of these who leave."""
    if SCRIPTS[number][2] is sessions:
        middle = len(lines) // 2
        return lines[: count // 2] + lines[middle : middle + count // 2]
    return lines[:count]


def instructions(words, lines, within=()):
    """The instructions of a run over these lines, or of its calls of these functions alone."""
    with tempfile.TemporaryFile() as script:
        script.writelines(lines)
        script.seek(0)
        tool = ["valgrind", "--tool=callgrind", "--callgrind-out-file=/dev/null", *(f"--toggle-collect={it}" for it in within)]
        ran = subprocess.run([*tool, *words], stdin=script, stdout=subprocess.DEVNULL, stderr=subprocess.PIPE, check=True)
    return int(re.search(rb"Collected : (\d+)", ran.stderr)[1])


def instructions_an_event(words, number, path):
    """The instructions that an event of the script takes, or nothing without the tool that counts them."""
    if not shutil.which("valgrind"):
        return ""
    with open(path, "rb") as script:
        lines = script.readlines()
    more, fewer = (instructions(words, first(number, lines, count)) for count in (COUNTED, COUNTED // 2))
    return f"{(more - fewer) / (COUNTED - COUNTED // 2):.0f}"


def measure(keep):
    subprocess.run([sys.executable, __file__, "--make", keep], check=True)
    print(f"{os.cpu_count()} cores of {join.processor()}, {time.strftime('%Y-%m-%d')}")
    print(f"times: the least of {join.RUNS} runs on one core")
    base, _ = join.measured([join.PROGRAM, "join", "--layout", f"{keep}/join.toml"], f"{keep}/join")
    print(f"join of lines of 8 rows: {base:.3f} s")
    head = ("MB", "CPU s", "half s", "ratio", "peak MB", "of join", "instr.")
    print(f"{'script':<25}" + "".join(f"{it:>10}" for it in head))
    for number, (name, _, _) in enumerate(SCRIPTS):
        words = [join.PROGRAM, "play", "--layout", f"{keep}/{number}.toml"]
        whole, peak = join.measured(words, f"{keep}/{number}_whole")
        part, _ = join.measured(words, f"{keep}/{number}_half")
        size = os.path.getsize(f"{keep}/{number}_whole") / 1e6
        counted = instructions_an_event(words, number, f"{keep}/{number}_whole")
        figures = (f"{size:.2f}", f"{whole:.3f}", f"{part:.3f}", f"{whole / part:.2f}", f"{peak:.1f}", f"{whole / base:.2f}", counted)
        print(f"{name:<25}" + "".join(f"{it:>10}" for it in figures))


if __name__ == "__main__":
    join.run(make, measure)
