#!/usr/bin/env python3
"""Runs three sites as processes of `serve` under load, kills them at random moments, and looks from outside.

Usage: checks/serve.py [--kills N] [--seed S] [--calls N] [--together N] [--program PATH]

Each site has a process, a store and a log. A thread for each site makes random calls through the pipes, carries deltas, and
kills its process now and then, with SIGKILL most often, at times with SIGTERM, SIGINT or SIGHUP, or by closing a pipe. It
then opens the store again and compares the sessions with what was answered: every call that was answered must be there,
and at most the one in flight beside it. Callers write down when they were inside; a writer's time must overlap nobody
else's, at any site. At the end `judge` reads the three logs, one behind another, and must find them consistent.

With --together N the sites have no log, and get many lines at once: checks/serve_together.py says what is compared.

Then two conversations of N calls run, one without a log and one with, and a process may take no more memory behind all of
them than behind the first hundredth, but for a few pages. With --together it is one, of N lines at once.
"""

import argparse
import os
import pathlib
import random
import signal
import subprocess
import sys
import tempfile
import threading
import time
import tomllib

import serve_together

TOP = pathlib.Path(__file__).resolve().parent.parent
LAYOUT = (
    "sites = 3\n"
    '[[record]]\nname = "a"\nseats = 3\nhome = 0\nproblem = 2\n'
    '[[record]]\nname = "b"\nseats = 7\nhome = 1\nproblem = 1\n'
)
RECORDS = ("a", "b")
GROUP = "crew-1"
# What the peak of memory of a long conversation may grow by, in kB.
PAGES = 256
SIGNALS = (signal.SIGKILL,) * 5 + (signal.SIGTERM, signal.SIGINT, signal.SIGHUP)


class Site(threading.Thread):
    """One site's process, and what was answered there."""

    def __init__(self, number, folder, options, shared):
        super().__init__()
        self.number, self.folder, self.options, self.shared = number, folder, options, shared
        self.random = random.Random(f"{options.seed} {number}")
        self.sessions = {record: {} for record in RECORDS}  # holder -> phase
        self.since = {}  # (record, holder) -> (when the answer came, phase)
        self.calls = self.kills = self.sigkills = 0
        self.holder = number * 1_000_000
        self.faults = []
        self.open(create=True)

    def open(self, create=False):
        words = [self.options.program, "serve", "--site", str(self.number), "--store", f"site_{self.number}.db"]
        words += ["--layout", "layout.toml", "--group", GROUP, "--wait", "30", "--log", f"site_{self.number}.log"]
        words += ["--create"] * create
        self.process = subprocess.Popen(
            words, cwd=self.folder, stdin=subprocess.PIPE, stdout=subprocess.PIPE, stderr=subprocess.PIPE, bufsize=0
        )
        self.replies = self.process.stdout

    def call(self, line):
        """The reply, or None where the process ended first."""
        try:
            self.process.stdin.write(line.encode() + b"\n")
            reply = self.replies.readline()
        except (BrokenPipeError, ValueError):
            return None
        self.calls += 1
        return reply.decode().rstrip("\n") if reply.endswith(b"\n") else None

    def carry_out(self, line):
        """Makes a call and notes what its answer says."""
        verb, record, holder = (line.split(" ") + ["", ""])[:3]
        key = (record, holder)
        if verb == "leave" and key in self.since:
            start, phase = self.since.pop(key)
            self.shared.inside(record, phase, start, time.monotonic(), key)
        reply = self.call(line)
        if reply is None:
            return None
        here = self.sessions.get(record, {})
        if reply == "admitted":
            here[holder] = "reader" if verb == "read" else "writer"
            self.since[key] = (time.monotonic(), here[holder])
        elif reply.startswith("announced"):
            here[holder] = "waiting"
        elif reply.startswith("left") or reply == "withdrawn":
            here.pop(holder, None)
        return reply

    def next_line(self):
        record = self.random.choice(RECORDS)
        here = list(self.sessions[record].items())
        kind = self.random.random()
        if kind < 0.25 or not here and kind < 0.5:
            self.holder += 1
            return f"{'read' if self.random.random() < 0.7 else 'announce'} {record} {self.holder}"
        if kind < 0.5:
            holder, phase = self.random.choice(here)
            return f"{'write' if phase == 'waiting' else 'leave'} {record} {holder}"
        if kind < 0.6 and here:
            return f"leave {record} {self.random.choice(here)[0]}"
        if kind < 0.7:
            return f"help {record}"
        if kind < 0.75:
            return f"give {record} {self.random.randrange(3)} {self.random.randrange(1, 4)}"
        if kind < 0.87:
            return "send"
        text = self.shared.text(self.random)
        return f"take {text}" if text else "send"

    def stop(self):
        """Ends the process in the middle, and opens the store again."""
        self.kills += 1
        line = self.next_line()
        in_flight = line if self.random.random() < 0.8 else None
        if in_flight:
            verb, record, holder = (line.split(" ") + ["", ""])[:3]
            if verb == "leave":
                start = self.since.pop((record, holder), None)
                if start:
                    self.shared.inside(record, start[1], start[0], time.monotonic(), (record, holder))
            try:
                self.process.stdin.write(line.encode() + b"\n")
            except BrokenPipeError:
                pass
            time.sleep(self.random.choice((0, 0, 0.0005, 0.002, 0.01)))
        if self.random.random() < 0.1:
            self.process.stdout.close()
            self.process.stdin.close()
            self.process.wait(60)
        else:
            sent = self.random.choice(SIGNALS)
            self.sigkills += sent == signal.SIGKILL
            self.process.send_signal(sent)
            self.process.wait(60)
        for pipe in (self.process.stdin, self.process.stdout, self.process.stderr):
            try:
                pipe.close()
            except BrokenPipeError:
                pass
        self.open()
        self.compare(in_flight)

    def compare(self, in_flight):
        """Whether the sessions are those that were answered, or these and the call in flight."""
        for record in RECORDS:
            reply = self.call(f"sessions {record}")
            if reply is None:
                self.faults.append(f"site {self.number} did not open again: {self.process.stderr.read().decode().strip()}")
                return
            number, _, rest = reply.partition(" ")
            found = dict(it.split(" ") for it in rest.split(", ")) if rest else {}
            if int(number) != len(found):
                self.faults.append(f"site {self.number}: {reply}")
            wanted = self.sessions[record]
            verb, at, holder = ((in_flight or "").split(" ") + ["", ""])[:3]
            possible = [dict(wanted)]
            if at == record and verb in ("read", "announce", "write", "leave"):
                other = dict(wanted)
                if verb == "leave":
                    other.pop(holder, None)
                else:
                    other[holder] = {"read": "reader", "announce": "waiting", "write": "writer"}[verb]
                possible.append(other)
            if found not in possible:
                self.faults.append(f"site {self.number} record {record}: answered {wanted}, in flight {in_flight}, found {found}")
            for h, phase in found.items():
                if phase != "waiting" and (record, h) not in self.since:
                    self.since[(record, h)] = (time.monotonic(), phase)
            self.sessions[record] = found

    def run(self):
        try:
            self.converse()
        except Exception as fault:
            self.faults.append(f"site {self.number}: {fault!r}")

    def converse(self):
        """Calls and stops, until there were enough stops or something is wrong."""
        while self.kills < self.options.kills and not self.faults:
            for _ in range(self.random.randrange(1, 40)):
                line = self.next_line()
                reply = self.carry_out(line)
                if reply is None:
                    self.faults.append(f"site {self.number} gave no answer to {line[:60]}: {self.process.stderr.read().decode().strip()}")
                    return
                if reply.startswith(GROUP + " "):
                    self.shared.put(self.number, reply)
                if reply.startswith(("refused StoreFault", "refused Frozen", "refused OwnRowAhead", "refused TooMany", "refused BadWord", "refused Memory",
                                     "refused NoMark", "refused WrongGroup", "refused OtherRecords", "refused Damaged")):
                    self.faults.append(f"site {self.number}: {line[:60]} -> {reply}")
                    return
            self.stop()
        for (record, holder), (start, phase) in self.since.items():
            self.shared.inside(record, phase, start, time.monotonic(), (record, holder))
        self.process.stdin.close()
        self.status = self.process.wait(60)
        if self.status != 0:
            self.faults.append(f"site {self.number} ended with status {self.status}")


class Shared:
    """What goes between the sites: their last deltas, and who was inside when."""

    def __init__(self):
        self.lock, self.texts, self.times = threading.Lock(), {}, []

    def put(self, number, text):
        with self.lock:
            self.texts[number] = text

    def text(self, choose):
        with self.lock:
            return choose.choice(list(self.texts.values())) if self.texts else None

    def inside(self, record, phase, start, end, who):
        with self.lock:
            self.times.append((record, phase, start, end, who))

    def overlaps(self):
        """Writers whose time overlaps somebody else's."""
        found = []
        for record in RECORDS:
            times = sorted(it for it in self.times if it[0] == record)
            writers = [it for it in times if it[1] == "writer"]
            for w in writers:
                found += [(w, it) for it in times if it is not w and it[4] != w[4] and it[2] < w[3] and w[2] < it[3]]
        return found


def peak(process):
    """The most memory that a process has taken so far, in kB."""
    status = pathlib.Path(f"/proc/{process.pid}/status").read_text()
    return int(status.split("VmHWM:")[1].split()[0])


def long_conversation(options, folder, log):
    """So many calls at one site; gives the peaks of memory behind the first hundredth and behind all, in kB."""
    words = [options.program, "serve", "--create", "--site", "0", "--store", f"long_{len(log)}.db", "--layout", "layout.toml", *log]
    process = subprocess.Popen(words, cwd=folder, stdin=subprocess.PIPE, stdout=subprocess.PIPE, bufsize=0)
    lines = [("read a 7", "admitted"), ("sessions a", "1 7 reader"), ("send", "- "), ("leave a 7", "left reader"), ("reed", "refused BadWord 1")]
    peaks = []
    for number in range(options.calls):
        line, start = lines[number % len(lines)]
        process.stdin.write(line.encode() + b"\n")
        reply = process.stdout.readline().decode()
        assert reply.startswith(start), (number, line, reply)
        if number + 1 in (options.calls // 100, options.calls):
            peaks.append(peak(process))
    process.stdin.close()
    assert process.wait(60) == 0
    return peaks


def long_rounds(options, folder):
    """The same peaks of so many calls at one site that come many at once."""
    words = [options.program, "serve", "--create", "--site", "0", "--store", "long.db", "--layout", "layout.toml", "--together", str(options.together)]
    process = subprocess.Popen(words, cwd=folder, stdin=subprocess.PIPE, stdout=subprocess.PIPE, bufsize=0)
    lines = ["read a 7", "sessions a", "leave a 7", "reed", "announce a 8", "leave a 8"]
    starts = ["admitted", "1 7 reader", "left reader", "refused BadWord 1", "announced ", "withdrawn"]
    turns = max(1, options.together // len(lines))
    data, asked, peaks = ("\n".join(lines) + "\n").encode() * turns, len(lines) * turns, []
    for number in range(max(2, options.calls // asked)):
        process.stdin.write(data)
        replies = b""
        while replies.count(b"\n") < asked:
            replies += process.stdout.read(65536)
        for reply, start in zip(replies.decode().splitlines(), starts * turns):
            assert reply.startswith(start), (number, reply, start)
        if number + 1 in (max(1, options.calls // asked // 100), max(2, options.calls // asked)):
            peaks.append(peak(process))
    process.stdin.close()
    assert process.wait(60) == 0
    return peaks


def check_together(options, folder):
    """Kills sites that get many lines at once; prints what came of it, and gives the faults."""
    shared, layout = Shared(), tomllib.loads(LAYOUT)
    sites = [serve_together.Site(number, folder, options, shared, layout, GROUP) for number in range(3)]
    started = time.monotonic()
    for it in sites:
        it.start()
    for it in sites:
        it.join()
    faults = [fault for it in sites for fault in it.faults]
    faults += [f"{writer} overlaps {other}" for writer, other in shared.overlaps()]
    writers = sum(1 for it in shared.times if it[1] == "writer")
    faults += [f"site {it.number} was stopped {it.kills} times" for it in sites if not it.faults and it.kills < options.kills]
    if writers == 0 or len(shared.times) == writers:
        faults.append(f"{len(shared.times)} sessions were inside, {writers} of them writers")
    print(f"{sum(it.kills for it in sites)} stops with up to {options.together} calls committed together, {sum(it.sigkills for it in sites)} of them by SIGKILL:")
    print(f"{sum(it.whole for it in sites)} found a round whole that was not answered, {sum(it.none for it in sites)} none, and no other;")
    print(f"{sum(it.calls for it in sites)} calls, {len(shared.times)} sessions inside, {writers} of them writers, in {time.monotonic() - started:.0f} s")
    first, last = long_rounds(options, folder)
    print(f"{options.calls} calls at one site, {options.together} at once: a peak of {first} kB behind the first hundredth, {last} kB behind all")
    return faults + ["the memory of a long conversation in rounds grows"] * (last > first + PAGES)


def told(faults, folder):
    """Prints the faults, and gives the exit status."""
    for fault in faults[:20]:
        print("FAILED", fault)
    if faults and os.environ.get("KEEP"):
        subprocess.run(["cp", "-r", folder, os.environ["KEEP"]])
    return 1 if faults else 0


def main():
    parser = argparse.ArgumentParser(description=__doc__.splitlines()[0])
    parser.add_argument("--kills", type=int, default=120, help="how often each site is stopped, more than half of the times by SIGKILL")
    parser.add_argument("--seed", default="1")
    parser.add_argument("--calls", type=int, default=200_000, help="how many calls the long conversation has")
    parser.add_argument("--together", type=int, default=1, help="how many calls are committed together at most")
    parser.add_argument("--program", default=str(TOP / "seat_cli"))
    options = parser.parse_args()
    signal.signal(signal.SIGINT, signal.SIG_DFL)  # a shell that starts this in the background has it ignored, and so would each service
    with tempfile.TemporaryDirectory(prefix="seat_cli_serve.") as folder:
        (pathlib.Path(folder) / "layout.toml").write_text(LAYOUT)
        if options.together > 1:
            return told(check_together(options, folder), folder)
        shared = Shared()
        sites = [Site(number, folder, options, shared) for number in range(3)]
        started = time.monotonic()
        for it in sites:
            it.start()
        for it in sites:
            it.join()
        faults = [fault for it in sites for fault in it.faults]
        faults += [f"{writer} overlaps {other}" for writer, other in shared.overlaps()]
        logs = b"".join((pathlib.Path(folder) / f"site_{n}.log").read_bytes() for n in range(3))
        judged = subprocess.run([options.program, "judge", "--layout", "layout.toml"], cwd=folder, input=logs, capture_output=True)
        verdict = judged.stdout.decode().splitlines()[-1:] or [judged.stderr.decode()]
        if verdict != ["consistent"]:
            faults.append(f"judge: {verdict}")
        writers = sum(1 for it in shared.times if it[1] == "writer")
        if writers == 0 or len(shared.times) == writers:
            faults.append(f"{len(shared.times)} sessions were inside, {writers} of them writers")
        print(f"{sum(it.kills for it in sites)} stops, {sum(it.sigkills for it in sites)} of them by SIGKILL,")
        print(f"{sum(it.calls for it in sites)} calls, {len(shared.times)} sessions inside,")
        print(f"{writers} of them writers, in {time.monotonic() - started:.0f} s; the logs have {logs.count(10)} lines: {verdict[0]}")
        for log in ([], ["--log", "long.log"]):
            first, last = long_conversation(options, folder, log)
            print(f"{options.calls} calls at one site{' with a log' * bool(log)}: a peak of {first} kB behind the first hundredth, {last} kB behind all")
            if last > first + PAGES:
                faults.append(f"the memory of a long conversation grows: {log}")
        return told(faults, folder)


if __name__ == "__main__":
    sys.exit(main())
