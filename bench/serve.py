#!/usr/bin/env python3
"""Measures a call of `serve` through two pipes, beside three other ways to take and free a lock that survives a crash.

Run it from anywhere, once ./seat_cli has built the program:
    python3 bench/serve.py [--calls N] [--core C] [--program PATH] [--against PATH] [--folder F] [--runs N]
Each way makes N calls, half of them taking and half freeing, one after the other from one client, on one core; the middle
of five runs (--runs) is shown. All write to FOLDER's disk before they answer:
  serve       `read a 7` and `leave a 7` at a site over its store
  serve --log the same with a log
  Redis       SET NX and DEL with appendfsync always (redis-server, over its Unix socket)
  PostgreSQL  pg_try_advisory_lock and a row inserted in one transaction, then the row deleted and the lock freed
  sqlite3     Python's module: a row inserted or deleted, with journal_mode WAL and synchronous FULL
Those whose program is missing are left out. The program is Debian's package of that name. Then `fence a 7`, of a reader inside, and an empty
line, which changes nothing either, are asked in turns, 50 at a time: the middle of each. With --against nothing but `serve` is measured, by
two programs in turns, so that both meet whatever else the machine does meanwhile.

With --under-way 1,8,32,128 so many calls are under way at once instead: bench/under_way.py says how each way is driven.
"""

import argparse
import os
import pathlib
import shutil
import socket
import sqlite3
import statistics
import subprocess
import tempfile
import time

import under_way

TOP = pathlib.Path(__file__).resolve().parent.parent


class Lines:
    """A program that answers lines."""

    def __init__(self, words, folder):
        self.process = subprocess.Popen(words, cwd=folder, stdin=subprocess.PIPE, stdout=subprocess.PIPE, stderr=subprocess.DEVNULL, bufsize=0)

    def call(self, line):
        self.process.stdin.write(line)
        return self.process.stdout.readline()

    def close(self):
        self.process.stdin.close()
        self.process.wait()


class Serve:
    def __init__(self, options, folder, log=(), program=None):
        words = [program or options.program, "serve", "--site", "0", "--store", "site_0.db", "--create", *log]
        self.lines = Lines(words, folder)

    def take(self):
        assert self.lines.call(b"read a 7\n") == b"admitted\n"

    def free(self):
        assert self.lines.call(b"leave a 7\n") == b"left reader\n"

    def close(self):
        self.lines.close()


class Redis:
    def __init__(self, options, folder):
        at = f"{folder}/redis.sock"
        words = ["redis-server", "--port", "0", "--unixsocket", at, "--appendonly", "yes", "--appendfsync", "always", "--save", "", "--dir", folder]
        self.process = subprocess.Popen(words, stdout=subprocess.DEVNULL)
        self.socket = socket.socket(socket.AF_UNIX)
        for _ in range(200):
            if self.socket.connect_ex(at) == 0:
                break
            time.sleep(0.05)

    def call(self, *words):
        self.socket.sendall(b"*%d\r\n" % len(words) + b"".join(b"$%d\r\n%s\r\n" % (len(it), it) for it in words))
        return self.socket.recv(4096)

    def take(self):
        assert self.call(b"SET", b"a", b"7", b"NX") == b"+OK\r\n"

    def free(self):
        assert self.call(b"DEL", b"a") == b":1\r\n"

    def close(self):
        self.process.terminate()
        self.process.wait()


class PostgreSQL:
    """Through one psql, so that its client costs what a library's would, more or less."""

    def __init__(self, options, folder):
        self.bin = sorted(pathlib.Path("/usr/lib/postgresql").glob("*/bin"))[-1]
        self.folder = f"{folder}/pg"
        as_user = ["setpriv", "--reuid=postgres", "--regid=postgres", "--clear-groups"] if os.getuid() == 0 else []
        os.mkdir(self.folder)
        if as_user:
            os.chmod(folder, 0o755)
            shutil.chown(self.folder, "postgres", "postgres")
        self.as_user = as_user
        quiet = {"stdout": subprocess.DEVNULL, "stderr": subprocess.DEVNULL, "check": True}
        subprocess.run([*as_user, self.bin / "initdb", "-D", f"{self.folder}/data", "-A", "trust", "-N"], **quiet)
        words = [self.bin / "pg_ctl", "-D", f"{self.folder}/data", "-o", f"-c listen_addresses='' -k {self.folder}", "-w", "-l", f"{self.folder}/log", "start"]
        subprocess.run([*as_user, *words], **quiet)
        self.lines = Lines(["psql", "-h", self.folder, "-U", "postgres", "-q", "-A", "-t", "-v", "ON_ERROR_STOP=1"], folder)
        self.lines.call(b"CREATE TABLE held (record text PRIMARY KEY, holder bigint); SELECT 1;\n")

    def take(self):
        line = b"BEGIN; INSERT INTO held VALUES ('a', 7); SELECT pg_try_advisory_lock(7); COMMIT; \\echo done\n"
        assert self.lines.call(line) == b"t\n" and self.lines.process.stdout.readline() == b"done\n"

    def free(self):
        line = b"BEGIN; DELETE FROM held WHERE record = 'a'; SELECT pg_advisory_unlock(7); COMMIT; \\echo done\n"
        assert self.lines.call(line) == b"t\n" and self.lines.process.stdout.readline() == b"done\n"

    def close(self):
        self.lines.close()
        subprocess.run([*self.as_user, self.bin / "pg_ctl", "-D", f"{self.folder}/data", "-m", "fast", "stop"], stdout=subprocess.DEVNULL)


class Sqlite:
    def __init__(self, options, folder):
        self.connection = sqlite3.connect(f"{folder}/held.db", isolation_level=None)
        self.connection.execute("PRAGMA journal_mode = WAL")
        self.connection.execute("PRAGMA synchronous = FULL")
        self.connection.execute("CREATE TABLE held (record TEXT PRIMARY KEY, holder INTEGER)")

    def take(self):
        self.connection.execute("INSERT INTO held VALUES ('a', 7)")

    def free(self):
        self.connection.execute("DELETE FROM held WHERE record = 'a'")

    def close(self):
        self.connection.close()


def measured(make, options):
    """Median and 99th percentile of a call in microseconds, and calls a second."""
    with tempfile.TemporaryDirectory(prefix="bench_serve.", dir=options.folder) as folder:
        way = make(options, folder)
        times = []
        for _ in range(50):
            way.take()
            way.free()
        started = time.perf_counter()
        for _ in range(options.calls // 2):
            for step in (way.take, way.free):
                at = time.perf_counter()
                step()
                times.append(time.perf_counter() - at)
        took = time.perf_counter() - started
        way.close()
    times.sort()
    return statistics.median(times) * 1e6, times[len(times) * 99 // 100] * 1e6, len(times) / took


def looked_at(options):
    """The middle of `fence a 7` and of an empty line, in microseconds."""
    with tempfile.TemporaryDirectory(prefix="bench_serve.", dir=options.folder) as folder:
        site = Serve(options, folder)
        site.take()
        times = {b"fence a 7\n": [], b"\n": []}
        for turn in range(options.calls // 25):
            line = list(times)[turn % 2]
            for _ in range(50):
                at = time.perf_counter()
                reply = site.lines.call(line)
                times[line].append(time.perf_counter() - at)
                assert reply.startswith(b"fence " if line != b"\n" else b"refused ")
        site.close()
    return [statistics.median(each) * 1e6 for each in times.values()]


def main():
    parser = argparse.ArgumentParser(description=__doc__.splitlines()[0])
    parser.add_argument("--calls", type=int, default=4_000)
    parser.add_argument("--core", type=int, help="the core that all runs are held to")
    parser.add_argument("--program", default=str(TOP / "seat_cli"))
    parser.add_argument("--against", metavar="PROGRAM", help="another program, whose runs come in between")
    parser.add_argument("--folder", help="where the files are written")
    parser.add_argument("--under-way", metavar="N,..", help="measure so many calls under way at once")
    parser.add_argument("--together", type=int, help="how many calls are committed together, if not as many as are under way")
    parser.add_argument("--ways", metavar="NAME,..", help="only these of the ways with calls under way")
    parser.add_argument("--runs", type=int, default=5)
    options = parser.parse_args()
    if options.core is not None:
        os.sched_setaffinity(0, {options.core})
    if options.under_way:
        under_way.compare(options, [int(number) for number in options.under_way.split(",")])
        return
    ways = {
        "serve": Serve,
        "serve --log": lambda options, folder: Serve(options, folder, ("--log", "site_0.log")),
        "Redis": Redis if shutil.which("redis-server") else None,
        "PostgreSQL": PostgreSQL if shutil.which("psql") else None,
        "sqlite3": Sqlite,
    }
    if options.against:
        ways = {"serve": Serve, f"serve of {options.against}": lambda options, folder: Serve(options, folder, program=options.against)}
    runs = {name: [] for name, make in ways.items() if make}
    for turn in range(options.runs):
        for name in runs if turn % 2 == 0 else reversed(runs):
            runs[name].append(measured(ways[name], options))
    print("| Way | Median | 99th percentile | Calls a second |")
    print("|---|---|---|---|")
    for name, all_runs in runs.items():
        middle = sorted(all_runs)[len(all_runs) // 2]
        print(f"| {name} | {middle[0]:.0f} us | {middle[1]:.0f} us | {middle[2]:.0f} |")
    if options.against:
        return
    pairs = sorted((looked_at(options) for _ in range(5)), key=lambda pair: pair[0] - pair[1])
    print("fence, and an empty line: {:.1f} and {:.1f} us; the difference in five runs: ".format(*pairs[2])
          + ", ".join(f"{fence - empty:.1f}" for fence, empty in pairs))


if __name__ == "__main__":
    main()
