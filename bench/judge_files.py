#!/usr/bin/env python3
"""Measures `judge --logs` on files of closed logs, which may be far longer than an input, one site's behind another's.

Run it from anywhere, once ./seat_cli has built the program: python3 bench/judge_files.py [--megabytes N] [--program PATH] [FOLDER]
FOLDER keeps the files, which have N megabytes together, 1,000 by default; without it they lie in a temporary folder, which is
removed. Four sites with four records take turns: at each one a writer and a reader come and go, and it sends all that it knows, which
the three others take. So each file but the last tells of deltas whose sites' logs come later. Half of each file is measured too.
Times are processor time of the least of two runs; memory is told by GNU time.
"""
import argparse
import os
import subprocess
import sys
import tempfile
import time

import join

SITES, SEATS, HALVES = 4, 4, (1, 2)
NAMES = "abcd"
LAYOUT = f"sites = {SITES}\n" + "".join(f'[[record]]\nname = "{name}"\nseats = {SEATS}\nhome = {home}\nproblem = 2\n' for home, name in enumerate(NAMES))


def row(s, turn):
    """The row of a site's own record behind so many turns, as a text between quotes has it; nothing before the first one."""
    if turn == 0:
        return []
    out = ",".join(str(4 + 5 * turn if at == s else 0) for at in range(SITES))
    return [f'{{\\"ann\\":{turn},\\"fin\\":{turn},\\"out\\":[{out}],\\"r\\":{s},\\"s\\":{s},\\"taken\\":{5 * turn}}}']


def delta(site, newest, turn):
    """What a site tells, or takes, when it knows this turn of one site and the turn before of the others."""
    rows = ",".join(it for s in range(SITES) for it in row(s, turn if s == newest else turn - 1))
    return f'{{\\"from\\":{site},\\"rows\\":[{rows}],\\"v\\":1}}'


def entry(call, reply):
    return f'{{"call":"{call}","pass":0,"reply":"{reply}"}}\n'


def lines(site, turn):
    """What the log of a site has of a turn."""
    name = NAMES[site]
    yield entry(f"announce {name} 9", f"announced {turn}")
    yield entry(f"write {name} 9", "admitted")
    yield entry(f"leave {name} 9", "left writer")
    yield entry(f"read {name} 7", "admitted")
    yield entry(f"leave {name} 7", "left reader")
    yield entry("send", delta(site, site, turn))
    for other in range(SITES):
        if other != site:
            yield entry(f"take {delta(site, other, turn)}", "merged 4")


def some_turns(folder, turns):
    """The layout, and a file a site of so many turns; no benchmark, but for checks/refused_commands.sh."""
    with open(f"{folder}/turns.toml", "w", encoding="ascii") as it:
        it.write(LAYOUT)
    for site in range(SITES):
        with open(f"{folder}/turns.{site}.log", "w", encoding="ascii") as it:
            it.write(run_line(site))
            it.writelines(text for turn in range(1, turns + 1) for text in lines(site, turn))


def run_line(site):
    """What a log begins with."""
    return f'{{"book":"{{\\"from\\":{site},\\"rows\\":[],\\"v\\":1}}","sessions":[],"site":{site}}}\n'


def make(keep, megabytes):
    """Writes the files: apart from the measuring, since a process's peak counts that of the one it came from."""
    os.makedirs(keep, exist_ok=True)
    with open(f"{keep}/layout.toml", "w", encoding="ascii") as it:
        it.write(LAYOUT)
    for part in HALVES:
        for site in range(SITES):
            wanted, turn = megabytes * 1_000_000 * part // (SITES * max(HALVES)), 0
            with open(f"{keep}/{part}.{site}.log", "w", encoding="ascii") as it:
                wanted -= it.write(run_line(site))
                while wanted > 0:
                    turn += 1
                    wanted -= it.write("".join(lines(site, turn)))


def run_once(words):
    """The verdict, and seconds of processor time."""
    began = os.times()
    told = subprocess.run(words, stdin=subprocess.DEVNULL, stdout=subprocess.PIPE, text=True, check=True).stdout
    ended = os.times()
    return told.splitlines()[-1], ended.children_user + ended.children_system - began.children_user - began.children_system


def measure(keep, program):
    print(f"{os.cpu_count()} cores of {join.processor()}, {time.strftime('%Y-%m-%d')}")
    print("".join(f"{it:>12}" for it in ("MB", "lines", "CPU s", "lines/s", "peak MB")) + "  verdict")
    for part in HALVES:
        paths = [f"{keep}/{part}.{site}.log" for site in range(SITES)]
        words = [program, "judge", "--layout", f"{keep}/layout.toml", "--logs", *paths]
        (verdict, first), (_, second) = run_once(words), run_once(words)
        spent, number = min(first, second), sum(lines_in(path) for path in paths)
        told = subprocess.run(["time", "-f", "%M", *words], stdin=subprocess.DEVNULL, stdout=subprocess.DEVNULL, stderr=subprocess.PIPE, text=True, check=True)
        figures = f"{sum(os.path.getsize(path) for path in paths) / 1e6:.0f}", number, f"{spent:.2f}", f"{number / spent:.0f}", f"{int(told.stderr) / 1000:.1f}"
        print("".join(f"{it:>12}" for it in figures) + f"  {verdict}", flush=True)


def lines_in(path):
    with open(path, "rb") as it:
        return sum(1 for _ in it)


def main():
    parser = argparse.ArgumentParser(description=__doc__.splitlines()[0])
    parser.add_argument("--megabytes", type=int, default=1000)
    parser.add_argument("--program", default=join.PROGRAM)
    parser.add_argument("--make", action="store_true", help=argparse.SUPPRESS)
    parser.add_argument("folder", nargs="?")
    options = parser.parse_args()
    if options.make:
        make(options.folder, options.megabytes)
        return
    with tempfile.TemporaryDirectory(prefix="judge_files.") as folder:
        keep = options.folder or folder
        subprocess.run([sys.executable, __file__, "--make", "--megabytes", str(options.megabytes), keep], check=True)
        measure(keep, os.path.abspath(options.program))


if __name__ == "__main__":
    main()
