#!/usr/bin/env python3
"""An operator's day: what happens to a store and a service where the disk, other programs, the clock or a terminal get in the way.

Usage: checks/operating.py [--program PATH] [--seed S]

Tries a disk that is full, one that is or becomes read-only, a store that is moved, copied or removed while it is served, one
that sqlite3 vacuums, two services of one store, a clock that goes back, and signals at random moments to `serve`, `ask`
and `run`; checks/store.sh kills `site`. After each, all that was answered has to be in the store. Prints a line for each thing tried, and ends
with 1 where one of them went wrong. The first two need root, for a small disk in memory, and are left out without; one needs
`sqlite3`, one `cc`.
"""
import argparse
import os
import pathlib
import random
import shutil
import signal
import subprocess
import sys
import tempfile
import time

TOP = pathlib.Path(__file__).resolve().parent.parent
LAYOUT = 'sites = 1\n[[record]]\nname = "a"\nseats = 60000\nhome = 0\nproblem = 1\n'
CLOCK = """
#define _GNU_SOURCE
#include <time.h>
#include <unistd.h>
#include <sys/syscall.h>
static long calls;
int clock_gettime(clockid_t id, struct timespec *at) {
    long ended = syscall(SYS_clock_gettime, id, at);
    at->tv_sec -= 3600 * ++calls;
    return ended;
}
"""
PIPE = subprocess.PIPE
FAILED = []


def tell(holds, what):
    print(f"{'ok    ' if holds else 'FAILED'}  {what}", flush=True)
    if not holds:
        FAILED.append(what)


class Service:
    """A process of `serve`; the holders that were admitted are those that have to be kept."""

    def __init__(self, program, store, *more, env=None):
        self.program, self.store, self.admitted = program, str(store), []
        layout = f"{store}.toml" if os.access(os.path.dirname(store), os.W_OK) else f"{tempfile.gettempdir()}/operator.toml"
        try:
            pathlib.Path(layout).write_text(LAYOUT, "ascii")
        except OSError:
            layout = f"{tempfile.gettempdir()}/operator.toml"
            pathlib.Path(layout).write_text(LAYOUT, "ascii")
        self.words = ["--site", "0", "--store", self.store, "--layout", layout]
        self.process = subprocess.Popen([program, "serve", *self.words, *more], stdin=PIPE, stdout=PIPE, stderr=PIPE, env=env)

    def call(self, line):
        """The reply, or the errors and the status where there is none."""
        try:
            self.process.stdin.write(line.encode() + b"\n")
            self.process.stdin.flush()
            reply = self.process.stdout.readline().decode()
        except BrokenPipeError:
            reply = ""
        if not reply.endswith("\n"):
            return self.end()
        if line.startswith("read a ") and reply == "admitted\n":
            self.admitted.append(line[7:])
        return reply[:-1]

    def reads(self, count, first=0):
        """Readers who come; the first reply that is another one, or None."""
        for n in range(first, first + count):
            reply = self.call(f"read a {n}")
            if reply != "admitted":
                return reply
        return None

    def end(self):
        errors = self.process.communicate()[1].decode().strip()
        return f"{errors} {self.process.returncode}".strip()


def kept(program, store, *more):
    """The sessions that a store has, by `ask`, or what it says."""
    layout = f"{tempfile.gettempdir()}/operator.toml"
    pathlib.Path(layout).write_text(LAYOUT, "ascii")
    words = [program, "ask", "--site", "0", "--store", str(store), "--layout", layout, *more, "sessions", "a"]
    done = subprocess.run(words, capture_output=True, text=True, check=False)
    if done.returncode != 0:
        return f"{done.stderr.strip()} {done.returncode}"
    return [it.split(" ")[0] for it in done.stdout.strip().partition(" ")[2].split(", ") if it]


def small_disk(folder, size):
    """A disk in memory, or None for whoever may not mount one."""
    os.makedirs(folder)
    done = subprocess.run(["mount", "-t", "tmpfs", "-o", f"size={size}", "operator", folder], capture_output=True, check=False)
    return folder if done.returncode == 0 else None


def remount(folder, how):
    return subprocess.run(["mount", "-o", f"remount,{how}", folder], capture_output=True, check=False).returncode == 0


def full_disk(program, work):
    disk = small_disk(f"{work}/full", "2m")
    if disk is None:
        return print("left out: a full disk, since no disk can be mounted here")
    try:
        service = Service(program, f"{disk}/s.db", "--create")
        reply = service.reads(20_000)
        tell(reply == "refused StoreFault", f"a disk that gets full: behind {len(service.admitted)} calls {reply}")
        tell(service.call("leave a 0") == "refused Frozen", "then each call is answered Frozen")
        tell(service.end() == "5", "and the status is 5")
        remount(disk, "size=20m")
        held, last = kept(program, f"{disk}/s.db"), str(len(service.admitted))
        tell(held in (service.admitted, [*service.admitted, last]), "with room again, all that was answered is there")
        service = Service(program, f"{disk}/s.db")
        tell(service.reads(100, 30_000) is None and service.end() == "0", "and the site goes on")
        with open(f"{disk}/rest", "wb", buffering=0) as rest:
            try:
                while rest.write(bytes(4096)) == 4096:
                    pass
            except OSError:
                pass
        tell(kept(program, f"{disk}/t.db", "--create") == "store refused StoreFault 5", "no store is made on a full disk: StoreFault")
    finally:
        subprocess.run(["umount", disk], check=False)


def read_only_disk(program, work):
    disk = small_disk(f"{work}/read_only", "20m")
    if disk is None:
        return print("left out: a read-only disk, since no disk can be mounted here")
    try:
        service = Service(program, f"{disk}/s.db", "--create")
        tell(service.reads(10) is None and service.end() == "0", "ten calls before a disk becomes read-only")
        remount(disk, "ro")
        tell(kept(program, f"{disk}/s.db") == "store refused StoreFault 5", "a store on a read-only disk: StoreFault")
        remount(disk, "rw")
        tell(kept(program, f"{disk}/s.db") == service.admitted, "writable again, all is there")
    finally:
        subprocess.run(["umount", disk], check=False)


def moved(program, work):
    service = Service(program, f"{work}/moved.db", "--create")
    service.reads(10)
    for end in ("", "-wal"):
        os.rename(f"{work}/moved.db{end}", f"{work}/to.db{end}")
    tell((service.call("read a 10"), service.call("read a 11")) == ("refused StoreFault", "refused Frozen"),
         "a store that is moved while it is served: the next line is answered StoreFault, and the others Frozen")
    tell(kept(program, f"{work}/moved.db") == "store refused NoStore 5", "nothing is at the old path: NoStore")
    tell(kept(program, f"{work}/to.db") == "store refused InUse 5", "the moved store is in use")
    tell(service.end() == "5" and kept(program, f"{work}/to.db") == service.admitted, "the status is 5, and the moved store has all that was answered")


def removed(program, work):
    service = Service(program, f"{work}/removed.db", "--create")
    service.reads(10)
    for end in ("", "-wal"):
        os.remove(f"{work}/removed.db{end}")
    tell((service.call("read a 10"), service.call("read a 11"), service.end()) == ("refused StoreFault", "refused Frozen", "5"),
         "a store that is removed while it is served: the next line is answered StoreFault, the others Frozen, and the status is 5")
    tell(kept(program, f"{work}/removed.db") == "store refused NoStore 5", "nothing is kept: NoStore at the next start")


def copied(program, work, rng):
    service = Service(program, f"{work}/copied.db", "--create")
    told = set()
    for part in range(40):
        service.reads(rng.randrange(1, 60), part * 100)
        for end in ("", "-wal"):
            shutil.copy(f"{work}/copied.db{end}", f"{work}/copy.db{end}")
        held = kept(program, f"{work}/copy.db")
        told.add("all that was answered" if held == service.admitted else str(held)[:80])
    tell(told == {"all that was answered"}, f"a store that is copied between two calls has {', '.join(sorted(told))}")
    tell(service.end() == "0", "the service does not notice")


def vacuumed(program, work):
    if not shutil.which("sqlite3"):
        return print("left out: a vacuum, since there is no sqlite3")
    store = f"{work}/vacuumed.db"
    service = Service(program, store, "--create")
    service.reads(500)
    done = subprocess.run(["sqlite3", store, "VACUUM"], capture_output=True, text=True, check=False)
    tell("locked" in done.stderr, "a vacuum while the store is served: sqlite3 finds it locked")
    tell(service.reads(10, 1000) is None and service.end() == "0", "the service goes on")
    for what in ("VACUUM", "PRAGMA wal_checkpoint(TRUNCATE)", "REINDEX", "ANALYZE"):
        done = subprocess.run(["sqlite3", store, what], capture_output=True, text=True, check=False)
        held = kept(program, store)
        told = "all is there" if held == service.admitted else str(held)[:80]
        tell(done.returncode == 0 and told in ("all is there",), f"{what} while it is not: {told}")
    return None


def twice(program, work):
    service = Service(program, f"{work}/twice.db", "--create")
    service.reads(3)
    other = Service(program, f"{work}/twice.db")
    tell(other.end() == "store refused InUse 5", "a second service of a store: InUse, at once")
    began = time.monotonic()
    other = Service(program, f"{work}/twice.db", "--wait", "1")
    tell(other.end() == "store refused InUse 5" and 0.5 < time.monotonic() - began < 5, "with --wait 1 after about a second")
    began = time.monotonic()
    other = Service(program, f"{work}/twice.db", "--wait", "3")
    tell(other.end() == "store refused InUse 5" and 2.5 < time.monotonic() - began < 9, "with --wait 3 after about three")
    other = Service(program, f"{work}/twice.db", "--wait", "20")
    time.sleep(0.3)
    tell(service.end() == "0" and other.call("sessions a").startswith("3 ") and other.end() == "0", "or it is served once the first one ends")


def clock(program, work):
    if not shutil.which("cc"):
        return print("left out: a clock that goes back, since there is no cc")
    pathlib.Path(f"{work}/clock.c").write_text(CLOCK, "ascii")
    subprocess.run(["cc", "-shared", "-fPIC", "-o", f"{work}/clock.so", f"{work}/clock.c"], check=True)
    env = dict(os.environ, LD_PRELOAD=f"{work}/clock.so")
    service = Service(program, f"{work}/clock.db", "--create", env=env)
    tell(service.reads(50) is None, "a clock that goes back an hour whenever it is read: calls are answered")
    began = time.monotonic()
    other = Service(program, f"{work}/clock.db", "--wait", "1", env=env)
    tell(other.end() == "store refused InUse 5" and 0.5 < time.monotonic() - began < 5, "and --wait 1 ends after about a second")
    tell(service.end() == "0" and kept(program, f"{work}/clock.db") == service.admitted, "and all is kept")
    return None


def signals(program, work, rng):
    store, holders = f"{work}/signals.db", []
    for turn in range(60):
        service = Service(program, store, *["--create"] * (turn == 0))
        refused = service.reads(rng.randrange(40), turn * 100)
        if refused is not None:
            return tell(False, f"serve, started again behind a signal, answers {refused}")
        number = rng.choice([signal.SIGHUP, signal.SIGTERM, signal.SIGINT, signal.SIGKILL])
        if rng.random() < 0.5:  # a call in flight
            service.process.stdin.write(f"read a {turn * 100 + 99}\n".encode())
            service.process.stdin.flush()
            time.sleep(rng.choice([0, 0.0002, 0.001]))
        service.process.send_signal(number)
        service.process.communicate()
        holders += service.admitted
        held = kept(program, store)
        if held not in (holders, [*holders, str(turn * 100 + 99)]):
            return tell(False, f"signal {number} to serve: {len(holders)} were answered, {str(held)[:200]} kept")
        holders = held
    tell(True, "60 times SIGHUP, SIGTERM, SIGINT or SIGKILL to serve: all that was answered is there, at most one call more")
    words = [program, "ask", "--site", "0", "--store", store, "--layout", f"{tempfile.gettempdir()}/operator.toml"]
    began, done = time.monotonic(), 0
    kept(program, store)
    took = time.monotonic() - began
    for turn in range(100):
        holder = str(10_000 + turn)
        process = subprocess.Popen([*words, "read", "a", holder], stdout=PIPE, stderr=PIPE)
        time.sleep(rng.random() * 2 * took)
        process.send_signal(rng.choice([signal.SIGHUP, signal.SIGTERM, signal.SIGINT, signal.SIGKILL]))
        answered = process.communicate()[0] == b"admitted\n"
        done += answered
        held = kept(program, store)
        if held not in ([[*holders, holder]] if answered else [holders, [*holders, holder]]):
            return tell(False, f"a signal to ask: {str(held)[-200:]}")
        holders = held
    tell(0 < done < 100, f"100 times a signal to ask, of which {done} came behind the answer: what was answered is there")
    out, script = f"{work}/run.log", b"".join(b"0 read a %d\n0 leave a %d\n" % (n, n) for n in range(3000))
    pathlib.Path(out).write_text("before\n", "ascii")
    ended = 0
    for _ in range(40):
        process = subprocess.Popen([program, "run", "--turns", "5", "--out", out], stdin=PIPE, stdout=subprocess.DEVNULL, stderr=PIPE)
        process.stdin.write(script)
        process.stdin.close()
        time.sleep(rng.random() * 0.05)
        process.send_signal(rng.choice([signal.SIGHUP, signal.SIGTERM, signal.SIGINT, signal.SIGKILL]))
        ended += process.wait() == 0
        process.stderr.close()
        whole = pathlib.Path(out).read_bytes()
        if whole != b"before\n":
            done = subprocess.run([program, "judge"], input=whole, capture_output=True, check=False)
            if not done.stdout.endswith(b"consistent\n"):
                return tell(False, "a signal to run left a part of a log")
    tell(True, f"40 times a signal to run --out, {ended} of them too late: FILE is what it was, or whole")
    return None


def main():
    parser = argparse.ArgumentParser()
    parser.add_argument("--program", default=str(TOP / "seat_cli"))
    parser.add_argument("--seed", type=int, default=1)
    options = parser.parse_args()
    rng, program = random.Random(options.seed), os.path.abspath(options.program)
    with tempfile.TemporaryDirectory(prefix="operator.") as work:
        full_disk(program, work)
        read_only_disk(program, work)
        moved(program, work)
        removed(program, work)
        copied(program, work, rng)
        vacuumed(program, work)
        twice(program, work)
        clock(program, work)
        signals(program, work, rng)
    print(f"{len(FAILED)} went wrong")
    return 1 if FAILED else 0


if __name__ == "__main__":
    sys.exit(main())
