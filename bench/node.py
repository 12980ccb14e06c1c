#!/usr/bin/env python3
"""Measures how fast many connections take and free locks: by the socket of a node, beside three other programs that keep them on disk.

Run it from anywhere, once ./seat_cli has built the program: python3 bench/node.py [--program PATH] [--seconds S] [--turns N] [--folder F]
Each connection has a lock of its own, which it takes and frees again and again. All commit to FOLDER's disk before they answer:
  node        `read a HOLDER` and `leave a HOLDER`, readers of one record, at the Unix socket of `zinduroi node`
  Redis       SET NX and DEL with appendfsync always, at its Unix socket
  PostgreSQL  pg_try_advisory_lock and a row inserted in one transaction, then the row deleted and the lock freed, at its Unix socket
  etcd        a transaction that puts a key if it is not there, and one that deletes it, by the JSON of its port on loopback
The load comes from one thread of a program in C (bench/node_load.c, compiled by cc), the same for all. Each turn starts each way anew, with 1,
8 and 32 connections; the turn in the middle by calls a second is shown, and the least and the most of these. Those whose program is missing
are left out. The programs are Debian's packages redis-server, postgresql and etcd-server.
"""
import argparse
import os
import pathlib
import shutil
import socket
import subprocess
import sys
import tempfile
import time
import urllib.request

import serve

TOP = serve.TOP
CONNECTIONS = (1, 8, 32)


class Node:
    """A node with one record, whose seats suffice for all connections."""

    def __init__(self, options, folder):
        files = pathlib.Path(folder)
        (files / "layout.toml").write_text('sites = 1\n[[record]]\nname = "a"\nseats = 64\nhome = 0\nproblem = 2\n', encoding="utf-8")
        (files / "node.toml").write_text(f'site = 0\nstore = "site_0.db"\nlayout = "layout.toml"\nprogram = "{options.program}"\n'
                                         '[socket]\npath = "node.sock"\n', encoding="utf-8")
        words = [sys.executable, "-m", "zinduroi", "node", "--create", "--config", files / "node.toml"]
        self.process = subprocess.Popen(words, stderr=subprocess.DEVNULL, env={**os.environ, "PYTHONPATH": str(TOP / "clients/python")})
        self.address = str(files / "node.sock")
        wait_until(lambda: os.path.exists(self.address), self.process)

    def close(self):
        self.process.terminate()
        self.process.wait()


class Redis(serve.Redis):
    def __init__(self, options, folder):
        super().__init__(options, folder)
        self.address = f"{folder}/redis.sock"


class PostgreSQL(serve.PostgreSQL):
    def __init__(self, options, folder):
        super().__init__(options, folder)
        self.address = f"{self.folder}/.s.PGSQL.5432"


class Etcd:
    def __init__(self, options, folder):
        port, other = free_port(), free_port()
        at, peers = f"http://127.0.0.1:{port}", f"http://127.0.0.1:{other}"
        words = ["etcd", "--data-dir", f"{folder}/etcd", "--listen-client-urls", at, "--advertise-client-urls", at, "--listen-peer-urls", peers,
                 "--initial-advertise-peer-urls", peers, "--initial-cluster", f"default={peers}"]
        self.process = subprocess.Popen(words, stdout=subprocess.DEVNULL, stderr=subprocess.DEVNULL)
        self.address = str(port)
        wait_until(lambda: is_healthy(f"{at}/health"), self.process)

    def close(self):
        self.process.terminate()
        self.process.wait()


WAYS = {"node": Node, "redis": Redis, "postgresql": PostgreSQL, "etcd": Etcd}
PROGRAMS = {"node": sys.executable, "redis": "redis-server", "postgresql": "psql", "etcd": "etcd"}


def free_port():
    with socket.socket() as probe:
        probe.bind(("127.0.0.1", 0))
        return probe.getsockname()[1]


def is_healthy(address):
    try:
        with urllib.request.urlopen(address, timeout=1) as answer:
            return b"true" in answer.read()
    except OSError:
        return False


def wait_until(holds, process):
    end = time.monotonic() + 60
    while not holds():
        if process.poll() is not None or time.monotonic() > end:
            raise SystemExit(f"{process.args[0]} does not start: status {process.poll()}")
        time.sleep(0.05)


def measured(name, load, options):
    """For each number of connections: calls a second, and the median, the 99th percentile and the longest of a call in microseconds."""
    with tempfile.TemporaryDirectory(prefix="bench_node.", dir=options.folder) as folder:
        way = WAYS[name](options, folder)
        found = []
        try:
            for connections in CONNECTIONS:
                words = [load, name, way.address, str(connections), str(options.seconds)]
                calls, seconds, *times = subprocess.run(words, stdout=subprocess.PIPE, check=True).stdout.split()
                found.append((int(calls) / float(seconds), *map(int, times)))
        finally:
            way.close()
    return found


def main():
    parser = argparse.ArgumentParser(description=__doc__.splitlines()[0])
    parser.add_argument("--program", default=str(TOP / "crates/seat_cli/out/seat_cli"))
    parser.add_argument("--seconds", type=float, default=5)
    parser.add_argument("--turns", type=int, default=5)
    parser.add_argument("--ways", default=",".join(WAYS))
    parser.add_argument("--folder", help="where the files are written")
    options = parser.parse_args()
    options.program = os.path.abspath(options.program)
    with tempfile.TemporaryDirectory(prefix="bench_node.") as folder:
        load = f"{folder}/node_load"
        subprocess.run(["cc", "-O2", "-o", load, TOP / "bench/node_load.c"], check=True)
        runs = {name: [] for name in options.ways.split(",") if shutil.which(PROGRAMS[name])}
        for turn in range(options.turns):
            for name in runs:
                runs[name].append(measured(name, load, options))
                print(turn, name, *(f"{it[0]:.0f}" for it in runs[name][-1]), os.getloadavg(), file=sys.stderr, flush=True)
    print("| Way | Connections | Median | 99th percentile | Longest | Calls a second | least and most |")
    print("|---|---|---|---|---|---|---|")
    for name, turns in runs.items():
        for at, connections in enumerate(CONNECTIONS):
            each = sorted(turn[at] for turn in turns)
            rate, median, high, longest = each[len(each) // 2]
            print(f"| {name} | {connections} | {median} us | {high} us | {longest} us | {rate:.0f} | {each[0][0]:.0f} to {each[-1][0]:.0f} |")


if __name__ == "__main__":
    main()
