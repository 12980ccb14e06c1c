#!/usr/bin/env python3
"""Measures `join` on inputs of about 16 MB of four shapes, on the whole and on half of each, beside `jq -c .`.

Run it from anywhere, once ./seat_cli has built the program: python3 bench/join.py [FOLDER]
FOLDER keeps the inputs; without it they lie in a temporary folder, which is removed. All runs are on one core, the
first that the script may use, and both programs take turns, so that whatever slows the core for a while slows both.
Each time is the least of six runs; the last two columns are the quotients of the least times and of the middle ones.
Memory is told by GNU time.
"""
import json
import os
import random
import statistics
import subprocess
import sys
import tempfile
import time

TOP = os.path.dirname(os.path.dirname(os.path.abspath(__file__)))
PROGRAM = f"{TOP}/crates/seat_cli/out/seat_cli"
LIMIT = 16_777_216
MOST = 10**12
RUNS = 3
ROUNDS = 6


def row(r, s, sites, seats):
    """A row of a layout whose records all start at site 0."""
    granted = seats if s == 0 else 0
    taken = random.randrange(MOST)
    out = [random.randrange(MOST) for _ in range(sites)]
    out[s] = granted + random.randrange(taken + 1)
    announced = random.randrange(MOST)
    finished = random.randrange(announced + 1)
    return {"ann": announced, "fin": finished, "out": out, "r": r, "s": s, "taken": taken}


def text(rows):
    return json.dumps({"from": 0, "rows": rows, "v": 1}, separators=(",", ":")) + "\n"


def layout(records, sites, seats):
    named = (f'[[record]]\nname = "r{i}"\nseats = {seats}\nhome = 0\nproblem = 1\n' for i in range(records))
    return f"sites = {sites}\n" + "".join(named)


def one_row_lines():
    return text([row(0, random.randrange(2), 2, 2)])


def eight_row_lines():
    return text([row(0, s, 16, 9) for s in sorted(random.sample(range(16), 8))])


def short_lines():
    return text([])


def full_deltas():
    return text([row(r, s, 16, 9) for r in range(256) for s in range(16)])


SHAPES = [
    ("no row a line", layout(1, 2, 2), short_lines),
    ("one row a line, 2 sites", layout(1, 2, 2), one_row_lines),
    ("8 rows a line, 16 sites", layout(1, 16, 9), eight_row_lines),
    ("4,096 rows a line", layout(256, 16, 9), full_deltas),
]


def lines_up_to_the_limit(make):
    lines, size = [], 0
    while True:
        line = make()
        size += len(line)
        if size > LIMIT:
            return lines
        lines.append(line)


def run_once(words, path):
    """Seconds of processor time."""
    with open(path, "rb") as source, open(os.devnull, "wb") as sink:
        child = subprocess.Popen(words, stdin=source, stdout=sink)
        _, status, used = os.wait4(child.pid, 0)
        child.returncode = os.waitstatus_to_exitcode(status)
    if child.returncode:
        sys.exit(f"{words}: status {child.returncode}")
    return used.ru_utime + used.ru_stime


def peak_of(words, path):
    """Peak memory in MB, by GNU time, since what Python begins counts Python's own peak with its own."""
    with open(path, "rb") as source:
        told = subprocess.run(["time", "-f", "%M", *words], stdin=source, stdout=subprocess.DEVNULL, stderr=subprocess.PIPE, text=True, check=True)
    return int(told.stderr) / 1024


def measured(words, path):
    """Seconds of processor time, the least of some runs, and peak memory in MB."""
    return min(run_once(words, path) for _ in range(RUNS)), peak_of(words, path)


def in_turns(*programs):
    """The seconds of each program's runs, in order."""
    return zip(*([run_once(*it) for it in programs] for _ in range(ROUNDS)))


def processor():
    with open("/proc/cpuinfo", encoding="ascii", errors="replace") as it:
        names = (line.partition(":")[2].strip() for line in it if line.startswith("model name"))
        return next(names, "a processor without a name")


def make(keep):
    """Writes the inputs."""
    random.seed(1)
    os.makedirs(keep, exist_ok=True)
    for number, (_, toml, line) in enumerate(SHAPES):
        lines = lines_up_to_the_limit(line)
        for part, some in (("whole", lines), ("half", lines[: (len(lines) + 1) // 2])):
            with open(f"{keep}/{number}_{part}", "w", encoding="ascii") as it:
                it.writelines(some)
        with open(f"{keep}/{number}.toml", "w", encoding="ascii") as it:
            it.write(toml)


def run(make, measure):
    """What the arguments ask for: to make the inputs alone, or to make and measure them on one core, in a folder or in none."""
    if not os.path.isfile(PROGRAM):
        sys.exit("run ./seat_cli --version first: the program is not built")
    if sys.argv[1:2] == ["--make"]:
        return make(sys.argv[2])
    os.sched_setaffinity(0, {min(os.sched_getaffinity(0))})
    if len(sys.argv) > 1:
        return measure(sys.argv[1])
    with tempfile.TemporaryDirectory(prefix="seat_cli_bench_") as keep:
        measure(keep)


def measure(keep):
    subprocess.run([sys.executable, __file__, "--make", keep], check=True)
    jq_version = subprocess.run(["jq", "--version"], capture_output=True, text=True, check=True).stdout.strip()
    print(f"{os.cpu_count()} cores of {processor()}, {jq_version}, {time.strftime('%Y-%m-%d')}")
    print(f"times: the least of {ROUNDS} runs on one core, in turns")
    head = ("MB", "CPU s", "half s", "ratio", "MB/s", "peak MB", "jq CPU s", "of jq", "middle")
    print(f"{'shape':<25}" + "".join(f"{it:>10}" for it in head))
    for number, (name, _, _) in enumerate(SHAPES):
        words = [PROGRAM, "join", "--layout", f"{keep}/{number}.toml"]
        whole, half = f"{keep}/{number}_whole", f"{keep}/{number}_half"
        all_runs, half_runs, jq_runs = in_turns((words, whole), (words, half), (["jq", "-c", "."], whole))
        size = os.path.getsize(whole) / 1e6
        figures = (
            f"{size:.2f}",
            f"{min(all_runs):.3f}",
            f"{min(half_runs):.3f}",
            f"{min(all_runs) / min(half_runs):.2f}",
            f"{size / min(all_runs):.0f}",
            f"{peak_of(words, whole):.1f}",
            f"{min(jq_runs):.3f}",
            f"{min(all_runs) / min(jq_runs):.3f}",
            f"{statistics.median(all_runs) / statistics.median(jq_runs):.3f}",
        )
        print(f"{name:<25}" + "".join(f"{it:>10}" for it in figures), flush=True)


if __name__ == "__main__":
    run(make, measure)
