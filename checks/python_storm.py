#!/usr/bin/env python3
"""Three sites with eight callers each, over the client in Python and the built program, while links are cut, texts are lost,
late and repeated, and processes are killed and paused.

    checks/python_storm.py [--program PATH] [--seconds 60] [--seed 1] [--folder FOLDER]

A seed decides what is done to whom; when it hits depends on the machine. Each caller writes down when it was inside: from the
reply that admitted it to the moment before it leaves, or before somebody leaves for it once it is dead. It holds in the end that

- nobody was inside a record together with a writer, at any site, by the callers' own clocks;
- after each kill, every session that was admitted or announced was in the store, and none that had been left;
- once the links are whole, all seats are found again;
- `judge` finds the logs of the sites consistent, if they are not too long for it.

Prints what was done and how many callers were admitted, and ends with 0 where all of that holds."""
import argparse
import collections
import os
import pathlib
import random
import shutil
import signal
import subprocess
import sys
import tempfile
import threading
import time

TOP = pathlib.Path(__file__).resolve().parent.parent
sys.path.insert(0, str(TOP / "clients/python"))

from zinduroi import (Exchange, Folder, MissingSeats, NoSeat, ServiceEnded, Site, TimedOut, TransportFailed,  # noqa: E402
                      WriterAnnounced)

SITES, THREADS = 3, 8
RECORDS = {"a": (12, 0, 2), "b": (6, 1, 1)}
JUDGED = 16_777_216


# A site with its callers

class Storm:
    """A folder as a transport that loses, delays and repeats texts, and fails while the site is cut off."""

    def __init__(self, folder, site, chance):
        self.folder = Folder(folder / "deltas")
        self.cut = folder / f"cut_{site}"
        self.calm = folder / "calm"
        self.chance = chance
        self.old = []

    def publish(self, site, text):
        if self.cut.exists():
            raise TransportFailed("cut off")
        if self.calm.exists() or self.chance.random() < 0.8:
            self.folder.publish(site, text)

    def messages(self):
        if self.cut.exists():
            raise TransportFailed("cut off")
        texts = list(self.folder.messages())
        if self.calm.exists():
            return texts
        self.old = (self.old + texts)[-20:]
        texts = [text for text in texts if self.chance.random() < 0.8]
        if self.old and self.chance.random() < 0.3:
            texts.append(self.chance.choice(self.old))
        return texts


class Callers:
    """The callers of a site. Each has a file of notes: when, what, record and holder."""

    def __init__(self, site, folder, seed):
        self.site = site
        self.folder = folder
        self.seed = seed
        self.wrong = []
        self.last = {}
        self.lock = threading.Lock()
        self.notes = os.open(folder / f"notes_{site.site}", os.O_WRONLY | os.O_APPEND | os.O_CREAT, 0o644)

    def note(self, what, record, holder):
        self.last[record, holder] = what
        os.write(self.notes, f"{time.monotonic_ns()} {what} {record} {holder}\n".encode())

    def report(self, text):
        os.write(self.notes, f"{time.monotonic_ns()} wrong - {text.replace(' ', '_')}\n".encode())

    def recall(self):
        """What an earlier process wrote down."""
        for line in (self.folder / f"notes_{self.site.site}").read_text(encoding="utf-8").splitlines():
            _, what, record, holder = line.split()
            if record in RECORDS:
                self.last[record, int(holder)] = what

    def check(self, record, holder, sessions):
        """Compares what a caller knows with the store, and leaves where it is inside. Gives whether it was found."""
        last, phase = self.last.get((record, holder), "left"), sessions.get(holder)
        allowed = {"reader": ["reader"], "writer": ["writer"], "announced": ["waiting", "writer"], "left": [None],
                   "asks-reader": [None, "reader"], "asks-writer": [None, "waiting", "writer"],
                   "leaves": [None, "reader", "waiting", "writer"]}[last]
        if phase not in allowed:
            self.report(f"{record} {holder}: the last note is {last}, and the store has {phase}")
        if phase is not None:
            if phase in ("reader", "writer") and last not in ("reader", "writer", "leaves"):
                self.note(phase, record, holder)
            self.note("leaves", record, holder)
            self.site.leave(record, holder)
            self.note("left", record, holder)

    def check_all(self):
        """The same for all callers of an earlier process."""
        for record in RECORDS:
            sessions = dict(self.site.sessions(record))
            for holder in sorted({holder for name, holder in self.last if name == record} | set(sessions)):
                self.check(record, holder, sessions)

    def work(self, thread):
        """One caller, until the file `stop` is there."""
        chance = random.Random(f"{self.seed} {self.site.site} {thread}")
        while not (self.folder / "stop").exists():
            record = chance.choice(list(RECORDS))
            visit = chance.choices([self.read, self.write, self.write_by_hand], [8, 1, 1])[0]
            try:
                try:
                    visit(chance, record, thread)
                except ServiceEnded:
                    self.recover(record, thread)
            except Exception as fault:
                self.report(f"{record} {thread}: {fault!r}")
            time.sleep(chance.random() * 0.02)

    def recover(self, record, holder):
        """After the service was killed: starts it anew, and looks for the own session."""
        while True:
            try:
                if self.site.reopen(wait=60):
                    tell_pid(self.folder, self.site)
                self.check(record, holder, dict(self.site.sessions(record)))
                return
            except ServiceEnded:
                continue

    def read(self, chance, record, holder):
        self.note("asks-reader", record, holder)
        try:
            with self.site.read(record, holder, timeout=chance.random()):
                self.note("reader", record, holder)
                time.sleep(chance.random() * 0.05)
                self.note("leaves", record, holder)
        except (NoSeat, WriterAnnounced, TimedOut):
            pass
        self.note("left", record, holder)

    def write(self, chance, record, holder):
        self.note("asks-writer", record, holder)
        try:
            with self.site.write(record, holder, timeout=chance.random() * 6):
                self.note("writer", record, holder)
                time.sleep(chance.random() * 0.1)
                self.note("leaves", record, holder)
        except TimedOut:
            pass
        self.note("left", record, holder)

    def write_by_hand(self, chance, record, holder):
        """A writer without a `with` statement, which writes down that it was announced."""
        self.note("asks-writer", record, holder)
        self.site.announce(record, holder)
        self.note("announced", record, holder)
        end = time.monotonic() + chance.random() * 6
        while time.monotonic() < end:
            try:
                self.site.call(f"write {record} {holder}")
            except MissingSeats:
                time.sleep(0.05)
                continue
            self.note("writer", record, holder)
            time.sleep(chance.random() * 0.1)
            break
        self.note("leaves", record, holder)
        self.site.leave(record, holder)
        self.note("left", record, holder)


def tell_pid(folder, site):
    """Writes down which process serves the site."""
    part = folder / f"pid_{site.site}.part"
    part.write_text(str(site.pid), encoding="utf-8")
    part.rename(folder / f"pid_{site.site}")


def work(folder, number, seed, program):
    """The process of a site."""
    store = folder / f"site_{number}.db"
    with Site(store, number, folder / "layout.toml", "storm", create=not store.exists(), wait=60, log=folder / f"site_{number}.log", program=program) as site:
        tell_pid(folder, site)
        callers = Callers(site, folder, seed)
        callers.recall()
        callers.check_all()
        transport = Storm(folder, number, random.Random(f"{seed} {number} links"))
        with Exchange(site, transport, interval=0.1, records=list(RECORDS), status=folder / f"status_{number}") as exchange:
            threads = [threading.Thread(target=callers.work, args=(thread,)) for thread in range(THREADS)]
            for thread in threads:
                thread.start()
            for thread in threads:
                thread.join()
            print("idle", flush=True)
            seen = None
            for line in sys.stdin:
                if line == "end\n":
                    break
                try:
                    seen = " ".join(f"{site.show(record).rights},{len(site.sessions(record))}" for record in RECORDS)
                except ServiceEnded:
                    site.reopen(wait=60)
                print(seen, flush=True)
            if exchange.failure is not None:
                callers.report(f"the exchange failed: {exchange.failure}")
            refused = exchange.tally().refused
            if refused:
                callers.report(f"texts were refused: {dict(refused)}")


# From outside

class Machine:
    """The process of a site, from outside."""

    def __init__(self, number, folder, seed, program):
        self.number, self.folder, self.program = number, folder, program
        self.seed = seed
        self.starts = 0
        self.start()

    def start(self):
        self.starts += 1
        words = [sys.executable, __file__, "--work", str(self.folder), str(self.number), f"{self.seed}.{self.starts}", self.program]
        self.process = subprocess.Popen(words, stdin=subprocess.PIPE, stdout=subprocess.PIPE, text=True)

    def service(self):
        """The number of the process that serves the site, if it is there."""
        try:
            pid = int((self.folder / f"pid_{self.number}").read_text(encoding="utf-8"))
            if f"site_{self.number}.db" in pathlib.Path(f"/proc/{pid}/cmdline").read_text(encoding="utf-8"):
                return pid
        except OSError:
            pass
        return None

    def send(self, pid, what):
        try:
            if pid is not None:
                os.kill(pid, what)
        except ProcessLookupError:
            pass

    def kill(self):
        self.process.kill()
        self.process.communicate()
        self.start()

    def ask(self, line):
        self.process.stdin.write(line + "\n")
        self.process.stdin.flush()
        return self.process.stdout.readline().rstrip("\n")


def disturb(machines, folder, seconds, chance):
    """Cuts, kills and pauses, until the time is over. Gives how often each was done."""
    done = collections.Counter()
    end = time.monotonic() + seconds
    undo = []
    while time.monotonic() < end:
        machine = chance.choice(machines)
        what = chance.choices(["cut", "kill service", "kill site", "pause service", "pause site"], [4, 2, 1, 2, 2])[0]
        done[what] += 1
        until = time.monotonic() + 0.2 + chance.random() * 2
        if what == "cut":
            (folder / f"cut_{machine.number}").touch()
            undo.append((until + 1, lambda machine=machine: (folder / f"cut_{machine.number}").unlink(missing_ok=True)))
        elif what == "kill service":
            machine.send(machine.service(), signal.SIGKILL)
        elif what == "kill site":
            machine.kill()
        else:
            pid = machine.process.pid if what == "pause site" else machine.service()
            machine.send(pid, signal.SIGSTOP)
            undo.append((until, lambda machine=machine, pid=pid: machine.send(pid, signal.SIGCONT)))
        time.sleep(0.2 + chance.random() * 2)
        for due in [due for due in undo if due[0] <= time.monotonic()]:
            due[1]()
            undo.remove(due)
    for _, mend in undo:
        mend()
    return done


def visits(folder):
    """Who was inside: record, from, to, kind, site and holder. And what was wrong."""
    found, wrong = [], []
    for number in range(SITES):
        (folder / f"notes_{number}").touch()
        inside = {}
        for line in (folder / f"notes_{number}").read_text(encoding="utf-8").splitlines():
            when, what, record, holder = line.split(" ")
            if what == "wrong":
                wrong.append(f"site {number}: {holder}")
            elif what in ("reader", "writer"):
                inside.setdefault((record, holder), (int(when), what))
            elif what == "leaves" and (record, holder) in inside:
                began, kind = inside.pop((record, holder))
                found.append((record, began, int(when), kind, number, holder))
        wrong += [f"site {number}: {key} is inside in the end" for key in inside]
    return found, wrong


def overlaps(found):
    """The visits during which a writer was inside, other than the writer's own."""
    wrong = []
    for record in RECORDS:
        here = [visit for visit in found if visit[0] == record]
        for writer in here:
            if writer[3] == "writer":
                wrong += [(writer, other) for other in here if other is not writer and other[1] <= writer[2] and writer[1] <= other[2]]
    return wrong


def settle(machines):
    """Waits until the sites have all seats between them, and nobody is inside. Gives what is there in the end."""
    end = time.monotonic() + 120
    wanted = [f"{seats},0" for seats, _, _ in RECORDS.values()]
    while True:
        parts = [machine.ask("?").split() for machine in machines]
        sums = [f"{sum(int(part[at].split(',')[0]) for part in parts)},{sum(int(part[at].split(',')[1]) for part in parts)}"
                for at in range(len(RECORDS))]
        if sums == wanted or time.monotonic() > end:
            return sums == wanted, sums
        time.sleep(0.2)


def judge(folder, program):
    """The verdict on the logs."""
    logs = b"".join((folder / f"site_{number}.log").read_bytes() for number in range(SITES))
    if len(logs) > JUDGED:
        return True, f"not asked: the logs have {len(logs)} bytes"
    ran = subprocess.run([program, "judge", "--layout", folder / "layout.toml"], input=logs, capture_output=True, check=False)
    verdict = ran.stdout.decode().splitlines()[-1]
    return verdict == "consistent", f"{verdict}, of {len(logs)} bytes"


def storm(folder, given):
    """The whole of it. Gives whether all went well."""
    text = f"sites = {SITES}\n" + "".join(
        f'[[record]]\nname = "{name}"\nseats = {seats}\nhome = {home}\nproblem = {problem}\n' for name, (seats, home, problem) in RECORDS.items())
    (folder / "layout.toml").write_text(text, encoding="utf-8")
    (folder / "deltas").mkdir()
    machines = [Machine(number, folder, given.seed, given.program) for number in range(SITES)]
    try:
        began = time.monotonic()
        done = disturb(machines, folder, given.seconds, random.Random(given.seed))
        (folder / "stop").touch()
        (folder / "calm").touch()
        idle = [machine.process.stdout.readline() == "idle\n" for machine in machines]
        took = time.monotonic() - began
        settled, sums = settle(machines) if all(idle) else (False, "a site did not come to rest")
        for machine in machines:
            machine.process.communicate("end\n")
        statuses = [machine.process.returncode for machine in machines]
    finally:
        for machine in machines:
            machine.process.kill()
    found, wrong = visits(folder)
    both = overlaps(found)
    wrong += [f"site {number} ended with status {status}" for number, status in enumerate(statuses) if status != 0]
    counts = collections.Counter(visit[3] for visit in found)
    consistent, verdict = judge(folder, given.program)
    print(f"seed {given.seed}, {took:.0f} s: " + ", ".join(f"{what} {number}" for what, number in sorted(done.items())))
    print(f"admitted: {counts['reader']} readers and {counts['writer']} writers, {len(found) / took:.1f} a second")
    print(f"inside together with a writer: {len(both)}")
    print(f"sessions that were lost, or came back: {len(wrong)}")
    print(f"seats found again: {'all' if settled else sums}")
    print(f"judge: {verdict}")
    for line in [*map(str, both[:5]), *wrong[:10]]:
        print("FAILED ", line)
    return not both and not wrong and settled and consistent and len(counts) == 2


def main():
    if sys.argv[1:2] == ["--work"]:
        return work(pathlib.Path(sys.argv[2]), int(sys.argv[3]), sys.argv[4], sys.argv[5])
    parser = argparse.ArgumentParser(description=__doc__, formatter_class=argparse.RawDescriptionHelpFormatter)
    parser.add_argument("--program", default=str(TOP / "crates/seat_cli/out/seat_cli"))
    parser.add_argument("--seconds", type=float, default=60)
    parser.add_argument("--seed", type=int, default=1)
    parser.add_argument("--folder", type=pathlib.Path, help="where stores, logs and notes stay")
    given = parser.parse_args()
    folder = given.folder or pathlib.Path(tempfile.mkdtemp(prefix="python_storm_"))
    folder.mkdir(exist_ok=True)
    try:
        return 0 if storm(folder, given) else 1
    finally:
        if given.folder is None:
            shutil.rmtree(folder)


if __name__ == "__main__":
    sys.exit(main())
