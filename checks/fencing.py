#!/usr/bin/env python3
"""Late callers at a resource that checks fencing numbers, over services of the built program.

Usage: checks/fencing.py [--program PATH] [--seed S ..] [--hand-overs N] [--without-check]

Two sites, which a third one joins, are processes of `serve`. The script carries their deltas, of which some are lost, late or
repeated, kills the services now and then as they carry out a line, and makes the line again. Callers come and go at all sites
and use one resource, which has a `Fence` of the client in Python for each record. Some callers are paused while they are
inside; an operator takes them for dead and calls `leave` for them, others come in, and then they go on with their old numbers.
Most callers are played by the script. Some are processes, which are paused by SIGSTOP and go on by SIGCONT; when their lines
come depends on the machine, so a seed does not give the same story twice.

All lines and accesses come one after the other, so it is known who is inside. For each seed, until so many writers were
admitted, it must hold that the resource lets in whoever is inside; that it refuses each late caller behind a later session
that could not be inside beside it; that a writer is alone; that numbers are those of the deltas; and that after a kill the
sessions are those that were answered. Then a resource that takes everything is tried: there late callers have to get in.
With --without-check all seeds are tried with such a resource, so the check fails.

Prints a line for each thing tried, then `N passed, M failed`, and ends with 1 where one failed.
"""
import argparse
import collections
import itertools
import json
import os
import pathlib
import random
import select
import signal
import subprocess
import sys
import tempfile
import time

TOP = pathlib.Path(__file__).resolve().parent.parent
sys.path.insert(0, str(TOP / "clients/python"))

from zinduroi import Fence  # noqa: E402

PIPE = subprocess.PIPE
# The records: their names, seats, homes and problems.
RECORDS = {"a": (4, 0, 2), "b": (3, 1, 1)}
FIRST = 2**44
# How likely a service is killed at a line, and how many callers the script plays at once.
KILLS, PLAYED = 0.003, 7
# How many hand-overs are tried without the check, at most.
WITHOUT = 100
# What says that a line had been carried out before.
AGAIN = {"read": ("refused AlreadyHere", "admitted"), "announce": ("refused AlreadyHere", "announced 0"),
         "write": ("refused AlreadyInside", "admitted"), "leave": ("refused NotHere", "left")}
TOLD = {True: 0, False: 0}


def tell(holds, what, found=""):
    """A thing that was tried, and what was found."""
    print(f"{'ok    ' if holds else 'FAILED'}  {what}" + (f": {found:.400}" if found else ""), flush=True)
    TOLD[bool(holds)] += 1


# A caller that is a process

def caller(seed, first):
    """Enters, uses the resource and leaves, again and again. Says a line for each, and reads the reply."""
    chance = random.Random(seed)

    def ask(line):
        os.write(1, line.encode() + b"\n")  # at once, since a stop may come at any moment
        reply = sys.stdin.readline()
        if not reply:
            sys.exit(0)
        return reply.rstrip("\n")

    for holder in itertools.count(first):
        who, writes = f"{chance.choice(list(RECORDS))} {holder}", chance.random() < 0.5
        reply = ask(f"{'announce' if writes else 'read'} {who}")
        for _ in range(200 if writes else 0):
            reply = ask(f"write {who}")
            if reply == "admitted":
                break
            time.sleep(0.003)
        if reply == "admitted":
            word, _, number = ask(f"fence {who}").partition(" ")
            for _ in range(chance.randrange(2, 8) if word == "fence" else 0):
                if ask(f"resource {who} {number}") != "let in":
                    break
                time.sleep(chance.random() * 0.003)
        if writes or reply == "admitted":
            ask(f"leave {who}")
        time.sleep(0.003 + chance.random() * 0.01)


class Caller:
    """Such a process, from outside."""

    def __init__(self, site, seed, first):
        self.site, self.session, self.stopped = site, None, False
        self.process = subprocess.Popen([sys.executable, __file__, "--caller", seed, str(first)], stdin=PIPE, stdout=PIPE, text=True)

    def stop(self):
        self.process.send_signal(signal.SIGSTOP)
        os.waitid(os.P_PID, self.process.pid, os.WSTOPPED)
        self.stopped = True

    def go_on(self):
        self.process.send_signal(signal.SIGCONT)
        self.stopped = False

    def end(self):
        if self.stopped:
            self.go_on()
        try:
            self.process.communicate(timeout=10)
        except subprocess.TimeoutExpired:
            self.process.kill()
            self.process.communicate()


# Sites, sessions and the resource

class Service:
    """A process of `serve`."""

    def __init__(self, words, folder):
        self.process = subprocess.Popen(words, cwd=folder, stdin=PIPE, stdout=PIPE, stderr=PIPE, bufsize=0)
        self.replies = os.fdopen(os.dup(self.process.stdout.fileno()), "rb")
        self.ended = None

    def write(self, line):
        try:
            self.process.stdin.write(line.encode() + b"\n")
        except BrokenPipeError:
            pass

    def read(self):
        """A reply, or None where the process ended first."""
        reply = self.replies.readline()
        return reply[:-1].decode() if reply.endswith(b"\n") else None

    def end(self, how=None):
        """Ends the process, and gives its status and errors."""
        if self.ended is None:
            self.process.stdin.close()
            if how is not None:
                self.process.send_signal(how)
            self.ended = self.process.wait(60), self.process.stderr.read().decode().strip()
            for pipe in (self.process.stdout, self.process.stderr, self.replies):
                pipe.close()
        return self.ended


class Session:
    """A caller's session: `new`, `waiting`, `inside` or `ended`. It is overtaken once it has ended, and another one was let in by
    the resource that could not be inside beside it."""

    def __init__(self, site, record, holder, writes):
        self.site, self.record, self.holder, self.writes = site, record, holder, writes
        self.state, self.number, self.overtaken = "new", None, False

    def __str__(self):
        return f"{'writer' if self.writes else 'reader'} {self.holder} of site {self.site} at {self.record} with {self.number}, {self.state}"

    def excludes(self, other):
        return self.record == other.record and (self.writes or other.writes)


class Resource:
    """What the sessions use, whether it checks their numbers or not."""

    def __init__(self, checks):
        self.fences = {record: Fence() for record in RECORDS} if checks else None

    def lets_in(self, session, number):
        return self.fences is None or self.fences[session.record].admits(number, session.writes)

    def start_again(self):
        """It goes on with the numbers that it has stored."""
        if self.fences is not None:
            self.fences = {record: Fence(*fence.numbers) for record, fence in self.fences.items()}


class Story:
    """What happens for one seed."""

    def __init__(self, program, folder, seed, hand_overs, checks):
        self.program, self.folder, self.wanted = program, folder, hand_overs
        self.chance = random.Random(f"fencing {seed}")
        self.seed, self.resource = seed, Resource(checks)
        self.layouts = [self.layout(sites) for sites in (2, 3)]
        self.services, self.width, self.bags = {}, {}, collections.defaultdict(list)
        self.sessions = {}  # those that wait or are inside, by record and holder
        self.played, self.late, self.callers = [], [], []
        self.due = []  # what is to happen at a later step
        self.holders = itertools.count(1)
        self.steps = self.hand_overs = 0
        self.count = collections.Counter()
        self.faults, self.lost, self.wronged = [], [], []

    def layout(self, sites):
        path = self.folder / f"{sites}.toml"
        parts = [f'[[record]]\nname = "{name}"\nseats = {seats}\nhome = {home}\nproblem = {problem}\n' for name, (seats, home, problem) in RECORDS.items()]
        path.write_text(f"sites = {sites}\n" + "".join(parts), "ascii")
        return path

    # Services

    def open(self, site, *more):
        words = [self.program, "serve", "--site", str(site), "--store", f"{site}.db", "--layout", self.layouts[self.width[site] - 2]]
        self.services[site] = Service([*words, "--group", "crew", "--wait", "30", *more], self.folder)

    def call(self, site, line):
        """The reply to a line. Now and then the process is killed behind it; if there was no reply, the line is made again."""
        service = self.services[site]
        service.write(line)
        killed = self.chance.random() < KILLS
        if killed:
            self.count["kills"] += 1
            time.sleep(self.chance.choice((0, 0, 0.001, 0.003, 0.01)))
            service.process.kill()
        reply = service.read()
        if killed:
            service.end(signal.SIGKILL)
            self.open(site)
            self.compare(site, line)
        if reply is None:
            if not killed:
                raise AssertionError(f"site {site} gave no answer to {line:.60}: {service.end(signal.SIGKILL)}")
            self.count["unanswered"] += 1
            self.services[site].write(line)
            reply = self.services[site].read() or "none"
            before, done = AGAIN.get(line.split(" ")[0], ("", ""))
            reply = done if reply == before else reply
        self.count["calls"] += 1
        return reply

    def compare(self, site, line):
        """Whether the store has the sessions that were answered, but for that of the line in flight."""
        flight = line.split(" ")[2:3]
        for record in RECORDS:
            self.services[site].write(f"sessions {record}")
            reply = self.services[site].read()
            if reply is None:
                raise AssertionError(f"site {site} did not open again: {self.services[site].end(signal.SIGKILL)}")
            rest = reply.partition(" ")[2]
            found = dict(it.split(" ") for it in rest.split(", ")) if rest else {}
            wanted = {str(it.holder): "waiting" if it.state == "waiting" else "writer" if it.writes else "reader"
                      for it in self.sessions.values() if (it.site, it.record) == (site, record)}
            if {item for item in found.items() if item[0] not in flight} != {item for item in wanted.items() if item[0] not in flight}:
                self.faults.append(f"site {site} record {record} has {found}, answered was {wanted}")

    def begin_with(self, site, width, *more):
        self.width[site] = width
        self.open(site, *more)

    def grow(self, site):
        """Starts a site again with three sites."""
        self.services[site].end(self.chance.choice((None, signal.SIGKILL)))
        self.begin_with(site, 3, "--grow")
        self.compare(site, "")

    def third_site(self):
        self.begin_with(2, 3, "--create")
        self.callers.append(Caller(2, f"{self.seed} 2", 3_000_000))
        for site in (0, 1):
            self.due.append((self.steps + self.chance.randrange(60), lambda site=site: self.grow(site)))

    # What a session does

    def say(self, session, verb):
        """A line of a session's caller, or of the operator, and what it means."""
        reply = self.call(session.site, f"{verb} {session.record} {session.holder}")
        if verb in ("read", "write") and reply == "admitted":
            self.enters(session)
        elif verb == "announce" and reply.startswith("announced"):
            session.state = "waiting"
            self.sessions[session.record, session.holder] = session
        elif verb == "leave" and session.state in ("waiting", "inside") and reply.split(" ")[0] in ("left", "withdrawn"):
            session.state = "ended"
            del self.sessions[session.record, session.holder]
        elif verb == "fence" and session.state == "inside" and reply.startswith("fence "):
            self.has_number(session, int(reply[6:]))
        elif reply.split(" ")[:2] not in self.allowed(session, verb):
            self.faults.append(f"{session}: {verb} -> {reply}")
        return reply

    @staticmethod
    def allowed(session, verb):
        """The refusals that may come."""
        if verb in ("fence", "leave") and session.state in ("ended", "waiting", "new"):
            return [["refused", "NotHere"], ["left"]] if verb == "leave" else [["refused", "NotHere"]]
        names = {"read": ("NoSeat", "WriterAnnounced"), "write": ("MissingSeats",)}.get(verb, ())
        return [["refused", name] for name in names]

    def enters(self, session):
        for other in self.sessions.values():
            if other is not session and other.state == "inside" and other.excludes(session):
                self.faults.append(f"{session} comes in beside {other}")
        session.state = "inside"
        self.sessions[session.record, session.holder] = session
        self.count["writers" if session.writes else "readers"] += 1
        self.hand_overs += session.writes

    def has_number(self, session, number):
        session.number = number
        if self.chance.random() < 0.2:
            rows = json.loads(self.call(session.site, "send").split(" ", 3)[3])["rows"]
            finished = sum(row["fin"] for row in rows if row["r"] == list(RECORDS).index(session.record))
            if number != FIRST + finished:
                self.faults.append(f"{session}, and the delta has {finished} finished writers")

    def uses(self, session, number):
        """A session uses the resource, whether it is inside or late."""
        let_in = self.resource.lets_in(session, number)
        if session.state == "inside":
            self.count["inside"] += 1
            if not let_in:
                self.wronged.append(str(session))
            for late in self.late if let_in else ():
                late.overtaken |= late.excludes(session)
        elif session.overtaken:
            self.count["overtaken"] += 1
            if let_in:
                self.lost.append(str(session))
        else:
            self.count["in time"] += let_in
        return let_in

    def ends(self, session):
        """The operator ends a session whose caller is paused."""
        if session.state == "inside":
            self.say(session, "leave")
            self.late.append(session)

    # Steps

    def begin(self):
        if len(self.played) < PLAYED:
            record, waiting = self.chance.choice(list(RECORDS)), sum(session.state == "waiting" for session in self.played)
            session = Session(self.chance.choice(list(self.services)), record, next(self.holders), self.chance.random() < 0.5 and waiting < 3)
            self.say(session, "announce" if session.writes else "read")
            self.played += [session] * (session.state != "new")

    def go_on(self):
        session = self.chance.choice(self.played) if self.played else None
        if session is None:
            return
        if session.state == "waiting":
            self.say(session, self.chance.choices(["write", "leave", "fence"], [30, 1, 1])[0])
        elif session.number is None:
            self.say(session, "fence")
        elif self.chance.random() < 0.5:
            self.uses(session, session.number)
        else:
            self.say(session, "leave")
        if session.state == "ended":
            self.played.remove(session)

    def send(self):
        """A site's delta to the others: some take it at once, some later, some never."""
        site = self.chance.choice(list(self.services))
        text = self.call(site, "send")
        for to in self.services:
            way = self.chance.random()
            if to != site and way < 0.6:
                self.take(to, text)
            elif to != site and way < 0.8:
                self.bags[to] = [*self.bags[to], text][-20:]
            else:
                self.count["lost"] += to != site

    def arrive(self):
        """A text that is late arrives, and may come again."""
        to = self.chance.choice(list(self.services))
        if self.bags[to]:
            text = self.chance.choice(self.bags[to])
            if self.chance.random() < 0.6:
                self.bags[to].remove(text)
            self.count["late"] += 1
            self.take(to, text)

    def take(self, to, text):
        reply = self.call(to, f"take {text}")
        if not reply.startswith("merged ") and not (reply.startswith("refused OtherLayout ") and self.width[to] == 2):
            self.faults.append(f"site {to}: {reply} to {text}")

    def help(self):
        self.call(self.chance.choice(list(self.services)), f"help {self.chance.choice(list(RECORDS))}")

    def pause(self):
        """A caller that the script plays is paused, and its session is ended."""
        inside = [session for session in self.played if session.state == "inside"]
        if inside:
            session = self.chance.choice(inside)
            self.played.remove(session)
            self.ends(session)
            self.count["paused"] += 1
            if session.number is None:
                self.say(session, "fence")
                self.late.remove(session)

    def come_late(self):
        """One of these goes on."""
        late = [session for session in self.late if session.holder < 1_000_000]
        if late:
            session = self.chance.choice(late)
            self.uses(session, session.number)
            if self.chance.random() < 0.3 or len(late) > 20:
                self.late.remove(session)

    def stop(self):
        """A caller's process is stopped. Soon its session is ended; later it goes on."""
        for one in self.chance.sample(self.callers, len(self.callers)):
            session = one.session
            if session is not None and session.state == "inside" and session.number is not None and not one.stopped:
                one.stop()
                self.count["stopped"] += 1
                self.due.append((self.steps + self.chance.randrange(10), lambda: self.ends(session)))
                self.due.append((self.steps + self.chance.randrange(10, 250), one.go_on))
                return

    def hear(self):
        """Answers the lines of callers' processes."""
        ready = select.select([one.process.stdout for one in self.callers], [], [], 0)[0]
        for one in [one for one in self.callers if one.process.stdout in ready]:
            verb, *words = one.process.stdout.readline().split()
            if verb in ("read", "announce"):
                one.session = Session(one.site, words[0], int(words[1]), verb == "announce")
            session = one.session
            if verb == "resource":
                late = session.state == "ended"
                reply = "let in" if self.uses(session, int(words[2])) else "refused"
                self.count["by processes"] += late
                self.count["of these refused"] += late and reply == "refused"
            else:
                reply = self.say(session, verb)
                if verb == "leave" and session in self.late:
                    self.late.remove(session)
            one.process.stdin.write(reply + "\n")
            one.process.stdin.flush()

    def happens(self):
        """Everything, until there were so many hand-overs."""
        for site in (0, 1):
            self.begin_with(site, 2, "--create")
            self.callers.append(Caller(site, f"{self.seed} {site}", (site + 1) * 1_000_000))
        steps = {self.begin: 4, self.go_on: 10, self.send: 8, self.arrive: 2, self.help: 6, self.pause: 0.5, self.come_late: 1.5, self.stop: 0.4,
                 self.resource.start_again: 0.1}
        try:
            while self.hand_overs < self.wanted and not self.faults:
                self.steps += 1
                self.hear()
                self.chance.choices(list(steps), list(steps.values()))[0]()
                for due in [due for due in self.due if due[0] <= self.steps]:
                    self.due.remove(due)
                    due[1]()
                if len(self.services) == 2 and self.hand_overs >= self.wanted // 3:
                    self.third_site()
                if self.steps > 100_000 + 1_000 * self.hand_overs:
                    self.faults.append("no writer comes in any more")
        finally:
            for one in self.callers:
                one.end()
            ended = [service.end() for service in self.services.values()]
        self.faults += [f"a service ended with {one}" for one in ended if one[0] != 0]


def told(program, seed, hand_overs, checks):
    """The story of a seed, and how long it took."""
    began = time.monotonic()
    with tempfile.TemporaryDirectory(prefix="fencing.") as folder:
        story = Story(program, pathlib.Path(folder), seed, hand_overs, checks)
        try:
            story.happens()
        except (AssertionError, OSError, ValueError, subprocess.TimeoutExpired) as error:
            story.faults.append(f"it could not go on: {type(error).__name__}: {error}")
    return story, time.monotonic() - began


def try_seed(program, seed, hand_overs, checks):
    story, took = told(program, seed, hand_overs, checks)
    count = story.count
    print(f"seed {seed}, {took:.0f} s: {story.hand_overs} hand-overs, {count['readers']} readers, {count['calls']} calls; {count['kills']} kills, "
          f"{count['unanswered']} of them before the reply; deltas: {count['lost']} lost, {count['late']} late or again", flush=True)
    tell(story.hand_overs >= hand_overs and not story.faults, "writers are alone, numbers are those of the deltas, and sessions outlive kills", "; ".join(story.faults[:3]))
    tell(count["inside"] and not story.wronged, f"{count['inside']} accesses of callers that are inside", "; ".join(story.wronged[:3]) or "all let in")
    tell(count["overtaken"] and not story.lost, f"{count['paused']} callers are paused, {count['overtaken']} accesses come behind a session that excludes them, {count['in time']} before one",
         f"{len(story.lost)} are let in that should not be, as {story.lost[0]}" if story.lost else "the former all refused")
    tell(count["stopped"] and count["by processes"], f"{count['stopped']} more callers are processes that SIGSTOP pauses",
         f"they go on with {count['by processes']} accesses, {count['of these refused']} of them refused")


def main():
    if sys.argv[1:2] == ["--caller"]:
        return caller(sys.argv[2], int(sys.argv[3]))
    parser = argparse.ArgumentParser(description=__doc__.splitlines()[0])
    parser.add_argument("--program", default=str(TOP / "crates/seat_cli/out/seat_cli"))
    parser.add_argument("--seed", nargs="+", default=["1", "2", "3"])
    parser.add_argument("--hand-overs", type=int, default=1000, help="how many writers are admitted for each seed (default: 1000)")
    parser.add_argument("--without-check", action="store_true", help="the resource takes everything, so the check fails")
    options = parser.parse_args()
    signal.alarm(1800)  # whatever a program does, this ends
    program = os.path.abspath(options.program)
    for seed in options.seed:
        try_seed(program, seed, options.hand_overs, not options.without_check)
    if not options.without_check:
        story, took = told(program, options.seed[0], min(options.hand_overs, WITHOUT), False)
        tell(story.lost and not story.faults, f"without the check {story.hand_overs} hand-overs in {took:.0f} s",
             "; ".join(story.faults[:3]) or f"exclusion is lost {len(story.lost)} times")
    print(f"{TOLD[True]} passed, {TOLD[False]} failed")
    return 1 if TOLD[False] else 0


if __name__ == "__main__":
    sys.exit(main())
