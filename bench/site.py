#!/usr/bin/env python3
"""Measures `site` on 20,000 calls over a store, and on half of them, beside a program that makes the same transactions
through Python's own `sqlite3`.

Run it from anywhere, once ./seat_cli has built the program: python3 bench/site.py [FOLDER]
FOLDER keeps the inputs and stores; without it they lie in a temporary folder, which is removed. A store is made new for
each run. All runs are on one core. Each time is the least of three runs, the memory, told by GNU time, the greatest. At
the end the tables of both are compared.
"""
import os
import random
import sqlite3
import subprocess
import sys
import time

import join

CALLS = 20_000
SEATS = 65_535
LAYOUT = f"""sites = 2
[[record]]
name = "a"
seats = {SEATS}
home = 0
problem = 1
[[record]]
name = "b"
seats = {SEATS}
home = 1
problem = 1
"""
TABLES = """
CREATE TABLE meta (name TEXT PRIMARY KEY NOT NULL, value TEXT NOT NULL);
CREATE TABLE cells (record INTEGER NOT NULL, slot INTEGER NOT NULL, n INTEGER NOT NULL CHECK (n >= 0),
    PRIMARY KEY (record, slot));
CREATE TABLE sessions (record INTEGER NOT NULL, holder INTEGER NOT NULL, phase INTEGER NOT NULL,
    place INTEGER NOT NULL UNIQUE, PRIMARY KEY (record, holder));
CREATE TABLE notices (record INTEGER NOT NULL, site INTEGER NOT NULL, ann INTEGER NOT NULL CHECK (ann >= 0),
    fin INTEGER NOT NULL CHECK (fin >= 0), PRIMARY KEY (record, site));
"""
# A row of a transaction, by the letter that it begins with.
ROWS = {
    "c": "INSERT INTO cells VALUES (?, ?, ?) ON CONFLICT DO UPDATE SET n = excluded.n",
    "n": "INSERT INTO notices VALUES (?, ?, ?, ?) ON CONFLICT DO UPDATE SET ann = excluded.ann, fin = excluded.fin",
    "s": "INSERT INTO sessions VALUES (?, ?, ?, ?)",
    "d": "DELETE FROM sessions WHERE record = ? AND holder = ?",
}


class Site:
    """Site 0, whose calls are all admitted: each gives a line, and the rows of its transaction."""

    def __init__(self):
        self.cells = {(0, 0): SEATS}
        self.readers, self.waiting, self.places = [], [], {}
        self.holders = 0
        self.given = self.announced = 0

    def raised(self, slot, by=1):
        n = self.cells.get((0, slot), 0) + by
        self.cells[(0, slot)] = n
        return f"c 0 {slot} {n}"

    def comes(self, holders, phase):
        self.holders += 1
        place = max(self.places.values(), default=0) + 1
        self.places[self.holders] = place
        holders.append(self.holders)
        return self.holders, f"s 0 {self.holders} {phase} {place}"

    def goes(self, holders):
        holder = holders.pop(random.randrange(len(holders)))
        del self.places[holder]
        return holder, f"d 0 {holder}"

    def read(self):
        holder, row = self.comes(self.readers, 1)
        return f"read a {holder}", [self.raised(200), row]

    def announce(self):
        holder, row = self.comes(self.waiting, 2)
        return f"announce a {holder}", [self.raised(201), row]

    def leave(self):
        holder, row = self.goes(self.readers)
        return f"leave a {holder}", [self.raised(0), row]

    def withdraw(self):
        holder, row = self.goes(self.waiting)
        return f"leave a {holder}", [self.raised(202), row]

    def give(self):
        return "give a 1 1", [self.raised(1)]

    def send(self):
        return "send", []

    def take(self):
        """Site 1 has given a seat more, and announced a writer more who has left."""
        self.given += 1
        self.announced += 1
        row = f'"ann":{self.announced},"fin":{self.announced},"out":[{self.given},{SEATS}],"r":1,"s":1,"taken":0'
        rows = [f"c 1 101 {self.given}", f"n 1 1 {self.announced} {self.announced}"]
        return f'take {{"from":1,"rows":[{{{row}}}],"v":1}}', rows

    def call(self):
        verbs, shares = [self.read, self.give, self.send, self.take], [32, 6, 10, 10]
        if len(self.readers) > 0:
            verbs.append(self.leave)
            shares.append(28)
        if len(self.waiting) < 60:
            verbs.append(self.announce)
            shares.append(7)
        if len(self.waiting) > 0:
            verbs.append(self.withdraw)
            shares.append(7)
        return random.choices(verbs, shares)[0]()


def make(keep):
    """Writes the script and its transactions: apart from the measuring, since a process's peak counts that of the one
    that it came from."""
    random.seed(1)
    os.makedirs(keep, exist_ok=True)
    site = Site()
    calls = [site.call() for _ in range(CALLS)]
    with open(f"{keep}/layout.toml", "w", encoding="ascii") as it:
        it.write(LAYOUT)
    for part, some in (("whole", calls), ("half", calls[: CALLS // 2])):
        with open(f"{keep}/{part}.script", "w", encoding="ascii") as it:
            it.writelines(f"{line}\n" for line, _ in some)
        with open(f"{keep}/{part}.rows", "w", encoding="ascii") as it:
            it.writelines(";".join(rows) + "\n" for _, rows in some if rows)


def write(store):
    """Makes the transactions of standard input, a line each."""
    connection = sqlite3.connect(store, isolation_level=None)
    connection.execute("PRAGMA journal_mode = WAL")
    connection.execute("PRAGMA synchronous = FULL")
    connection.executescript(f"BEGIN; {TABLES} COMMIT;")
    for line in sys.stdin:
        connection.execute("BEGIN")
        for row in line.rstrip("\n").split(";"):
            letter, *numbers = row.split(" ")
            connection.execute(ROWS[letter], [int(n) for n in numbers])
        connection.execute("COMMIT")
    connection.close()


def measured(words, source, output, store):
    """Wall and processor time in seconds, the least of some runs, and peak memory in MB, the greatest of them."""
    wall, seconds, peak = float("inf"), float("inf"), 0.0
    for _ in range(join.RUNS):
        for name in (store, f"{store}-wal", f"{store}-shm"):
            if os.path.exists(name):
                os.remove(name)
        with open(source, "rb") as lines, open(output, "wb") as sink:
            began = time.monotonic()
            child = subprocess.Popen(["time", "-f", "%M", "-o", f"{store}-peak", *words], stdin=lines, stdout=sink)
            _, status, used = os.wait4(child.pid, 0)
            wall = min(wall, time.monotonic() - began)
            child.returncode = os.waitstatus_to_exitcode(status)
        if child.returncode:
            sys.exit(f"{words}: status {child.returncode}")
        seconds = min(seconds, used.ru_utime + used.ru_stime)
        with open(f"{store}-peak", encoding="ascii") as told:
            peak = max(peak, int(told.read()) / 1024)
    return wall, seconds, peak


def content(store):
    """The rows of the three tables; of a session without its place, since only the order of places is told."""
    connection = sqlite3.connect(store)
    queries = ("SELECT * FROM cells ORDER BY 1, 2", "SELECT record, holder, phase FROM sessions ORDER BY place",
               "SELECT * FROM notices ORDER BY 1, 2")
    rows = [connection.execute(query).fetchall() for query in queries]
    connection.close()
    return rows


def measure(keep):
    subprocess.run([sys.executable, __file__, "--make", keep], check=True)
    print(f"{os.cpu_count()} cores of {join.processor()}, SQLite {sqlite3.sqlite_version}, {time.strftime('%Y-%m-%d')}")
    print(f"times: the least of {join.RUNS} runs on one core; memory: the greatest")
    print(f"{'program':<25}" + "".join(f"{it:>10}" for it in ("calls", "wall s", "CPU s", "peak MB")))
    for part, calls in (("whole", CALLS), ("half", CALLS // 2)):
        own, other = f"{keep}/{part}.db", f"{keep}/{part}_python.db"
        words = [join.PROGRAM, "site", "--site", "0", "--store", own, "--layout", f"{keep}/layout.toml"]
        tell("site", calls, measured(words, f"{keep}/{part}.script", f"{keep}/{part}.replies", own))
        words = [sys.executable, __file__, "--write", other]
        tell("Python's sqlite3", calls, measured(words, f"{keep}/{part}.rows", os.devnull, other))
        with open(f"{keep}/{part}.replies", encoding="ascii") as it:
            refused = [reply for reply in it if reply.startswith("refused")]
        if refused or content(own) != content(other):
            sys.exit(f"the stores differ, or calls were refused: {refused[:1]}")


def tell(name, calls, figures):
    print(f"{name:<25}{calls:>10}" + "".join(f"{it:>10.2f}" for it in figures))


if __name__ == "__main__":
    if sys.argv[1:2] == ["--write"]:
        write(sys.argv[2])
    else:
        join.run(make, measure)
