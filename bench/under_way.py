"""Measures calls of `serve` of which several are under way at once, beside Redis, PostgreSQL and etcd driven alike.

Each of N callers takes and frees a lock of its own, over and over, and makes its next call when its reply has come: so N calls are
under way all along. All ways run from one client, and all write to the folder's disk before they answer:
  serve            `read a H` and `leave a H` as lines through one pipe, each committed by itself
  serve --together the same, where up to N calls are committed together
  Redis            SET NX and DEL with appendfsync always, through one connection over its Unix socket
  PostgreSQL       a row inserted or deleted, a transaction each, through a connection over its Unix socket for each caller
  etcd             a transaction that puts a key that is not there, and a deletion, through an HTTP connection for each caller
A caller of Redis, PostgreSQL or etcd gets no lease, and none of their replies tells of other sites.
"""

import base64
import collections
import json
import os
import pathlib
import select
import shutil
import socket
import statistics
import struct
import subprocess
import tempfile
import time

# So many seats the record of `serve` has, and so many connections PostgreSQL takes.
MOST_CALLERS = 256


class Pipe:
    """Lines and their replies, in one order."""

    def __init__(self):
        self.waiting, self.rest = collections.deque(), b""

    def send(self, calls):
        self.waiting.extend(caller for caller, _ in calls)
        self.write(b"".join(self.line(caller, takes) for caller, takes in calls))

    def receive(self):
        """Which callers got their replies."""
        while True:
            self.rest += self.read()
            *replies, self.rest = self.rest.split(b"\n")
            if replies:
                return [(self.waiting.popleft(), reply) for reply in replies]


class Serve(Pipe):
    right = (b"left reader", b"admitted")

    def __init__(self, options, folder, together=None):
        super().__init__()
        layout = f'sites = 2\n[[record]]\nname = "a"\nseats = {MOST_CALLERS}\nhome = 0\nproblem = 1\n'
        pathlib.Path(folder, "layout.toml").write_text(layout)
        words = [options.program, "serve", "--site", "0", "--store", "site_0.db", "--create", "--layout", "layout.toml"]
        words += ["--together", str(together)] if together else []
        self.process = subprocess.Popen(words, cwd=folder, stdin=subprocess.PIPE, stdout=subprocess.PIPE, bufsize=0)

    def line(self, caller, takes):
        return b"%s a %d\n" % (b"read" if takes else b"leave", caller)

    def write(self, data):
        self.process.stdin.write(data)

    def read(self):
        return self.process.stdout.read(65536)

    def close(self):
        self.process.stdin.close()
        self.process.wait()


class Redis(Pipe):
    right = (b":1\r", b"+OK\r")

    def __init__(self, options, folder):
        super().__init__()
        at = f"{folder}/redis.sock"
        words = ["redis-server", "--port", "0", "--unixsocket", at, "--appendonly", "yes", "--appendfsync", "always", "--save", "", "--dir", folder]
        self.process = subprocess.Popen(words, stdout=subprocess.DEVNULL)
        self.socket = connected(socket.AF_UNIX, at)

    def line(self, caller, takes):
        words = (b"SET", b"k%d" % caller, b"1", b"NX") if takes else (b"DEL", b"k%d" % caller)
        return b"*%d\r\n" % len(words) + b"".join(b"$%d\r\n%s\r\n" % (len(it), it) for it in words)

    def write(self, data):
        self.socket.sendall(data)

    def read(self):
        return self.socket.recv(65536)

    def close(self):
        self.process.terminate()
        self.process.wait()


class Connections:
    """A connection for each caller."""

    def begin(self, sockets):
        self.sockets, self.parts = sockets, [b""] * len(sockets)
        self.callers = {it.fileno(): caller for caller, it in enumerate(sockets)}
        self.poll = select.epoll()
        for it in sockets:
            self.poll.register(it, select.EPOLLIN)

    def send(self, calls):
        for caller, takes in calls:
            self.sockets[caller].sendall(self.request(caller, takes))

    def receive(self):
        came = []
        while not came:
            for number, _ in self.poll.poll():
                caller = self.callers[number]
                self.parts[caller] += self.sockets[caller].recv(65536)
                reply = self.reply(self.parts[caller])
                if reply is not None:
                    self.parts[caller] = b""
                    came.append((caller, reply))
        return came


class PostgreSQL(Connections):
    right = (b"DELETE 1", b"INSERT 0 1")

    def __init__(self, options, folder):
        self.bin = sorted(pathlib.Path("/usr/lib/postgresql").glob("*/bin"))[-1]
        self.folder = f"{folder}/pg"
        self.as_user = ["setpriv", "--reuid=postgres", "--regid=postgres", "--clear-groups"] if os.getuid() == 0 else []
        os.mkdir(self.folder)
        if self.as_user:
            os.chmod(folder, 0o755)
            shutil.chown(self.folder, "postgres", "postgres")
        self.run("initdb", "-D", f"{self.folder}/data", "-U", "postgres", "-A", "trust", "-N")
        settings = f"-c listen_addresses='' -c max_connections={MOST_CALLERS + 10} -k {self.folder}"
        self.run("pg_ctl", "-D", f"{self.folder}/data", "-o", settings, "-w", "-l", f"{self.folder}/log", "start")
        sockets = [self.connection() for _ in range(options.callers)]
        sockets[0].sendall(query("CREATE TABLE held (record text PRIMARY KEY, holder bigint)"))
        self.parts = [b""]
        self.until_ready(sockets[0])
        self.begin(sockets)

    def run(self, program, *words):
        subprocess.run([*self.as_user, self.bin / program, *words], stdout=subprocess.DEVNULL, stderr=subprocess.DEVNULL, check=True)

    def connection(self):
        made = connected(socket.AF_UNIX, f"{self.folder}/.s.PGSQL.5432")
        words = b"user\0postgres\0database\0postgres\0\0"
        made.sendall(struct.pack("!ii", 8 + len(words), 196608) + words)
        self.until_ready(made)
        return made

    def until_ready(self, made):
        data = b""
        while self.reply(data) is None:
            data += made.recv(65536)

    def request(self, caller, takes):
        if takes:
            return query(f"INSERT INTO held VALUES ('k{caller}', {caller})")
        return query(f"DELETE FROM held WHERE record = 'k{caller}'")

    def reply(self, data):
        """The tag of the command, once the server is ready for the next."""
        tag, at = b"", 0
        while at + 5 <= len(data):
            length, = struct.unpack_from("!i", data, at + 1)
            kind, body, at = data[at:at + 1], data[at + 5:at + 1 + length], at + 1 + length
            if kind == b"C":
                tag = body.rstrip(b"\0")
            if kind == b"Z" and at <= len(data):
                return tag
        return None

    def close(self):
        self.run("pg_ctl", "-D", f"{self.folder}/data", "-m", "fast", "stop")


class Etcd(Connections):
    right = (b"deleted", b"succeeded")

    def __init__(self, options, folder):
        port, peer = (free_port() for _ in range(2))
        at = f"http://127.0.0.1:{port}"
        words = ["etcd", "--data-dir", f"{folder}/etcd", "--listen-client-urls", at, "--advertise-client-urls", at, "--log-level", "error"]
        words += ["--listen-peer-urls", f"http://127.0.0.1:{peer}", "--initial-advertise-peer-urls", f"http://127.0.0.1:{peer}"]
        words += ["--initial-cluster", f"default=http://127.0.0.1:{peer}"]
        self.process = subprocess.Popen(words, cwd=folder, stdout=subprocess.DEVNULL, stderr=subprocess.DEVNULL)
        self.begin([connected(socket.AF_INET, ("127.0.0.1", port)) for _ in range(options.callers)])
        time.sleep(1)

    def request(self, caller, takes):
        key = base64.b64encode(b"k%d" % caller).decode()
        if takes:
            asked = {"compare": [{"key": key, "target": "CREATE", "create_revision": "0"}], "success": [{"requestPut": {"key": key, "value": key}}]}
        else:
            asked = {"key": key}
        body = json.dumps(asked).encode()
        path = b"txn" if takes else b"deleterange"
        return b"POST /v3/kv/%s HTTP/1.1\r\nHost: a\r\nContent-Length: %d\r\n\r\n%s" % (path, len(body), body)

    def reply(self, data):
        head, blank, body = data.partition(b"\r\n\r\n")
        if not blank or len(body) < int(head.lower().split(b"content-length: ")[1].split(b"\r\n")[0]):
            return None
        return b"succeeded" if b'"succeeded":true' in body else b"deleted" if b'"deleted":"1"' in body else body

    def close(self):
        self.process.terminate()
        self.process.wait()


def query(text):
    data = text.encode() + b"\0"
    return b"Q" + struct.pack("!i", 4 + len(data)) + data


def connected(family, at):
    for _ in range(400):
        made = socket.socket(family)
        if made.connect_ex(at) == 0:
            return made
        made.close()
        time.sleep(0.05)
    raise SystemExit(f"nobody answers at {at}")


def free_port():
    with socket.create_server(("127.0.0.1", 0)) as it:
        return it.getsockname()[1]


def measured(make, options):
    """Calls a second, and the median and 99th percentile of a call in microseconds."""
    with tempfile.TemporaryDirectory(prefix="bench_under_way.", dir=options.folder) as folder:
        way = make(options, folder)
        takes, sent, times, calls = [True] * options.callers, [0.0] * options.callers, [], 0
        ready, started, warm = list(range(options.callers)), 0.0, 4 * options.callers + 100
        while len(times) < options.calls:
            now = time.perf_counter()
            for caller in ready:
                sent[caller] = now
            way.send([(caller, takes[caller]) for caller in ready])
            came, now, ready = way.receive(), time.perf_counter(), []
            for caller, reply in came:
                assert reply == way.right[takes[caller]], reply
                takes[caller], calls = not takes[caller], calls + 1
                ready.append(caller)
                if calls > warm:
                    times.append(now - sent[caller])
                elif calls == warm:
                    started = now
        took = time.perf_counter() - started
        way.close()
    times.sort()
    return len(times) / took, statistics.median(times) * 1e6, times[len(times) * 99 // 100] * 1e6


def compare(options, numbers):
    """Prints a table for each number of callers: the middle of five runs, in turns."""
    ways = {
        "serve": Serve,
        "serve --together": lambda options, folder: Serve(options, folder, options.together or max(2, options.callers)),
        "Redis": Redis if shutil.which("redis-server") else None,
        "PostgreSQL": PostgreSQL if shutil.which("psql") else None,
        "etcd": Etcd if shutil.which("etcd") else None,
    }
    ways = {name: make for name, make in ways.items() if make and (not options.ways or name in options.ways.split(","))}
    for number in numbers:
        options.callers = number
        runs = {name: [] for name in ways}
        for _ in range(options.runs):
            for name, make in ways.items():
                runs[name].append(measured(make, options))
        print(f"\n{number} under way\n\n| Way | Calls a second | Median | 99th percentile |\n|---|---|---|---|")
        for name, all_runs in runs.items():
            a_second, median, late = sorted(all_runs)[len(all_runs) // 2]
            print(f"| {name} | {a_second:.0f} | {median:.0f} us | {late:.0f} us |", flush=True)
