#!/usr/bin/env python3
"""Three nodes on one machine, with 32 callers each, while links are cut and nodes, services and callers are killed.

    checks/node.py [--transport folder|peers] [--program PATH] [--seconds 120] [--seed 1] [--folder FOLDER] [--plant NAME]

The callers are programs in Python, C (compiled by `cc`) and bash (over `nc`, where it is installed), and runs of `zinduroi lock`. A
seed decides what is done to whom; when it hits depends on the machine. Each caller writes down when it was inside: from the
reply that admitted it to the moment before it leaves, or before it is killed. With `--transport peers` the nodes reach each other by
`Peers`, with certificates that are made here, in namespaces of the network where `ip` can make these, else over proxies on
loopback; and somebody tries to get in, by random bytes and with a certificate of another authority. It holds in the end that

- nobody was inside a record together with a writer, at any site, by the callers' own clocks;
- no answered call was lost: behind each kill of a node a caller found its session by its token, and none that it had left;
- every session of a connection that ended while its node ran was left, and no other: not that of a `lock` that was killed while
  its command lived, and not those of a node that was killed; an operator ends those of callers that are dead;
- once the links are whole and the callers have ended, all seats are free;
- `judge` finds the logs of the sites consistent, if they are not too long for it; not with `--no-logs`;
- nobody got in from outside.

Prints what was done, how many were admitted, and how long they waited, and ends with 0 where all of that holds. With --plant
something is wrong, in the first three the nodes' rules, and the check has to fail:

    restart-leaves    a node that is started again leaves the sessions of before
    end-forgotten     the end of a connection leaves nothing
    process-ends      a session ends with the process that connected, whoever else holds the connection
    insider           over `Peers`, who tries to get in has a certificate of the nodes' own authority"""
import argparse
import asyncio
import collections
import contextlib
import json
import os
import pathlib
import random
import shutil
import signal
import subprocess
import sys
import tempfile
import time

TOP = pathlib.Path(__file__).resolve().parent.parent
sys.path.insert(0, str(TOP / "clients/python"))

from node_network import links  # noqa: E402
from zinduroi.node import NodeClient, NodeGone  # noqa: E402

SITES = 3
# How many callers of each kind a node has: in all 32. Those of bash are in C where there is no `nc`.
KINDS = {"python": 10, "c": 12, "bash": 7, "lock": 3}
RECORDS = {"a": (12, 0, 2), "b": (6, 1, 1)}
JUDGED = 16_777_216


# Wrong rules for the node

async def restart_leaves(answers):
    """What a node with this wrong rule does behind its start."""
    for session in answers.book.sessions():
        await answers.desk.ask(session, "leave")


async def process_ends(node):
    """Ends sessions of processes that are dead."""
    while True:
        await asyncio.sleep(0.05)
        for connection in list(node._connections):
            try:
                os.kill(connection.caller.pid, 0)
            except ProcessLookupError:
                await node._answers.end(connection.caller)


def plant(name):
    """Puts a wrong rule into the node of this process."""
    from zinduroi.node.answers import Answers
    from zinduroi.node.server import Node
    opens = Node._open

    async def open_and_leave(self, create):
        await opens(self, create)
        await restart_leaves(self._answers)

    async def open_and_look(self, create):
        await opens(self, create)
        self.looking = asyncio.create_task(process_ends(self))

    async def forget(self, caller):
        for session in self.book.tied_to(caller):
            session.tied = None

    if name == "restart-leaves":
        Node._open = open_and_leave
    elif name == "process-ends":
        Node._open = open_and_look
    elif name == "end-forgotten":
        Answers.end = forget


def run_node(words):
    """The process of a node, with a wrong rule or `-`."""
    from zinduroi.command_line import main as zinduroi
    plant(words[0])
    return zinduroi(["node", "--config", *words[1:]])


# A caller in Python, as the one in C

class PythonCaller:
    """Visits records until STOP is there."""

    def __init__(self, name, socket, notes, stop, seed):
        self.name, self.socket, self.stop = name, socket, pathlib.Path(stop)
        self.notes = os.open(notes, os.O_WRONLY | os.O_APPEND | os.O_CREAT, 0o644)
        self.chance = random.Random(seed)
        self.client, self.token, self.visits = None, None, 0

    def note(self, text):
        os.write(self.notes, f"{time.time_ns()} {text}\n".encode())

    def close(self):
        if self.client is not None:
            self.client.close()
            self.client = None

    def connect(self):
        """Connects, as long as STOP is not there or a session may be left."""
        self.close()
        while self.token is not None or not self.stop.exists():
            with contextlib.suppress(NodeGone):
                self.client = NodeClient(self.socket)
                return True
            time.sleep(0.1)
        return False

    def take_up(self, more=""):
        while self.connect():
            with contextlib.suppress(NodeGone):
                return self.client.ask(f"resume {self.token}{more}")
        return "refused NoToken"

    def work(self):
        while not self.stop.exists():
            self.token = None
            if self.connect():
                with contextlib.suppress(NodeGone):
                    self.visit()
            self.close()
            time.sleep(self.chance.random() * 1.2)

    def visit(self):
        record = self.chance.choice("ab")
        verb, kind = self.chance.choice([("write", "writer")] + [("read", "reader")] * 3)
        self.visits += 1
        word = self.chance.choice([f"{self.name}/{self.visits}", "-"])
        if not self.enter(record, verb, kind, word, self.chance.random() * 6):
            return
        self.note(f"in {record} {kind}")
        time.sleep(self.chance.random() * (1.5 if self.chance.random() < 0.1 else 0.08))
        end = self.chance.choice(["close", "keep", "child"] + ["leave"] * 5)
        if end == "close":
            self.note(f"out {record}")
            return
        try:
            if end == "keep":
                self.client.ask(f"keep {record} {word}")
                self.find_again(record, kind)
            elif end == "child":
                self.hand_on(record)
                return
            self.client.ask(f"fence {record} {word}")
        except NodeGone:
            self.find_again(record, kind, " keep" if end == "keep" else "")
        self.leave(record, kind, word)

    def enter(self, record, verb, kind, word, seconds):
        """Whether a session is inside."""
        self.token = self.client.ask("token").split(" ")[1]
        began = time.monotonic()
        try:
            reply = self.client.ask(f"wait {seconds:.3f} {verb} {record} {word}")
        except NodeGone:
            return self.enter_again(record, kind, word)
        if reply == "admitted":
            self.note(f"wait {(time.monotonic() - began) * 1e6:.0f}")
        elif not reply.startswith("timeout refused "):
            self.note(f"fault wait: {reply}")
        return reply == "admitted"

    def enter_again(self, record, kind, word):
        reply = self.take_up()
        while reply.endswith(" waiting"):
            try:
                self.client.ask(f"leave {record} {word}")
                return False
            except NodeGone:
                reply = self.take_up()
        if reply != "refused NoToken" and not reply.endswith(kind):
            self.note(f"fault resume behind wait: {reply}")
        return reply.endswith(kind)

    def find_again(self, record, kind, more=""):
        """The session has to be in the store, after the node has ended or behind `keep`."""
        reply = self.take_up(more)
        if not (reply.startswith(f"resumed 1 {record} ") and reply.endswith(kind)):
            self.note(f"fault the session is lost: {reply}")

    def hand_on(self, record):
        """A child holds the connection on, and this process lets it go."""
        child = os.fork()
        if child == 0:
            time.sleep(0.05)
            self.note(f"out {record}")
            os._exit(0)
        self.close()
        os.waitpid(child, 0)

    def leave(self, record, kind, word):
        self.note(f"out {record}")
        try:
            reply = self.client.ask(f"leave {record} {word}")
        except NodeGone:
            if self.take_up() != "refused NoToken":
                self.leave(record, kind, word)
            return
        if reply != f"left {kind}":
            self.note(f"fault leave: {reply}")


# A command that `lock` runs: writes down that it is inside, and when it leaves.
INSIDE = 'echo ${EPOCHREALTIME/./}000 in $2 $3 >>"$1"; sleep $((RANDOM % 2)).$((RANDOM % 10)); echo ${EPOCHREALTIME/./}000 out $2 >>"$1"'


# From outside

class Caller:
    """A caller, which is started again when it was killed. Each has a file of notes and a process group."""

    def __init__(self, world, site, kind, number):
        self.world, self.site, self.kind = world, site, kind
        self.name = f"{kind}{site}.{number}"
        self.notes = world.folder / f"notes_{self.name}"
        self.seed = f"{world.given.seed}{site}{number}"
        self.starts = 0
        self.lock_ended = False
        self.process = None

    def word(self):
        """The holder that this caller's process uses."""
        return f"{self.name}.{self.starts}"

    def start(self):
        self.starts += 1
        self.lock_ended = False
        socket, stop = str(self.world.nodes[self.site].socket), str(self.world.stop)
        seed = str(int(self.seed) * 1000 + self.starts)
        words = {"python": [sys.executable, __file__, "--call", self.word(), socket, str(self.notes), stop, seed],
                 "c": [str(self.world.folder / "node_caller"), self.word(), socket, str(self.notes), stop, seed],
                 "bash": ["bash", str(TOP / "checks/node_caller.sh"), self.word(), socket, str(self.notes), stop],
                 "lock": self.lock_words(socket)}[self.kind]
        self.process = subprocess.Popen(words, stdin=subprocess.DEVNULL, stdout=subprocess.DEVNULL, stderr=self.world.errors,
                                        start_new_session=True, env={**os.environ, "PYTHONPATH": str(TOP / "clients/python")})

    def start_again(self):
        """Starts it, unless it was started meanwhile, as the next run of `lock`."""
        if not self.is_alive():
            self.start()

    def lock_words(self, socket):
        chance = self.world.chance
        record, reads = chance.choice("ab"), chance.random() < 0.7
        return [sys.executable, "-m", "zinduroi", "lock", "--socket", socket, "--timeout", f"{2 + chance.random() * 6:.1f}",
                *["--read"] * reads, record, "--", "bash", "-c", INSIDE, "bash", str(self.notes), record, "reader" if reads else "writer"]

    def is_alive(self):
        """Whether some process of the caller is there."""
        self.process.poll()
        try:
            os.killpg(self.process.pid, 0)
            return True
        except ProcessLookupError:
            return False

    def is_inside(self):
        """Whether the last note says so."""
        lines = self.notes.read_text().splitlines() if self.notes.exists() else []
        return bool(lines) and lines[-1].split(" ")[1] == "in"

    def kill(self):
        """Kills the caller; it was inside no longer than until now."""
        with self.notes.open("a") as notes:
            notes.write(f"{time.time_ns()} killed\n")
        self.send(signal.SIGKILL)
        self.process.wait()

    def send(self, number):
        with contextlib.suppress(ProcessLookupError):
            os.killpg(self.process.pid, number)

    def renew(self):
        """Starts the next run of `lock`, once the last one has ended."""
        if self.kind == "lock" and self.process.poll() is not None and not self.is_alive() and not self.world.stop.exists():
            self.world.statuses[self.process.returncode] += 1
            self.start()


class Machine:
    """A node, from outside."""

    def __init__(self, world, site):
        self.world, self.site = world, site
        self.socket = world.folder / f"{site}.sock"
        self.config = world.folder / f"{site}.toml"
        self.config.write_text(
            f'site = {site}\nstore = "{site}.db"\nlayout = "layout.toml"\ngroup = "storm"\n'
            + f'log = "{site}.log"\n' * (not world.given.no_logs) +
            f'program = "{world.given.program}"\n'
            f'[socket]\npath = "{site}.sock"\n[exchange]\ninterval = 0.1\n{world.links.table(site)}')
        self.process = None
        self.began = 0.0
        self.start("--create")

    def start(self, *more):
        self.began = time.time()
        words = [*self.world.links.words(self.site), sys.executable, __file__, "--run-node", self.world.given.plant or "-", str(self.config), *more]
        self.process = subprocess.Popen(words, stdin=subprocess.DEVNULL, stderr=self.world.errors)

    def ask(self, line):
        """The reply; `None` while the node is away."""
        try:
            with NodeClient(self.socket) as client:
                client.socket.settimeout(30)
                return client.ask(line)
        except NodeGone:
            return None

    def status(self):
        reply = self.ask("status")
        return None if reply is None else json.loads(reply)

    def kill(self):
        self.process.kill()
        self.process.wait()

    def cut(self):
        self.world.links.cut(self.site)

    def mend(self):
        self.world.links.mend(self.site)


class World:
    """All nodes and callers of a run."""

    def __init__(self, folder, given, between):
        self.folder, self.given, self.links = folder, given, between
        self.chance = random.Random(given.seed)
        self.stop = folder / "stop"
        self.errors = (folder / "errors").open("a")
        self.wrong = []
        self.done = collections.Counter()
        self.statuses = collections.Counter()
        text = f"sites = {SITES}\n" + "".join(
            f'[[record]]\nname = "{name}"\nseats = {seats}\nhome = {home}\nproblem = {problem}\n'
            for name, (seats, home, problem) in RECORDS.items())
        (folder / "layout.toml").write_text(text, encoding="utf-8")
        subprocess.run(["cc", "-O1", "-o", folder / "node_caller", TOP / "checks/node_caller.c"], check=True)
        self.nodes = []
        self.nodes += [Machine(self, site) for site in range(SITES)]
        self.undo = []
        self.callers = [Caller(self, site, kind, number) for site in range(SITES) for number, kind in enumerate(kinds())]

    # Disturbances

    def disturb(self):
        end = time.monotonic() + self.given.seconds
        acts = {"cut": 3, "kill node": 2, "kill service": 2, "kill caller": 6, "pause caller": 5, "kill lock": 4}
        looked = 0.0
        while time.monotonic() < end:
            what = self.chance.choices(list(acts), list(acts.values()))[0]
            getattr(self, what.replace(" ", "_"))(self.chance.choice(self.nodes), 0.2 + self.chance.random() * 2)
            self.done[what] += 1
            pause = time.monotonic() + 0.1 + self.chance.random() * 0.8
            while time.monotonic() < pause:
                time.sleep(0.05)
                self.mend(time.monotonic())
                for caller in self.callers:
                    caller.renew()
            if time.monotonic() - looked > 2:
                looked = time.monotonic()
                self.look()
        self.mend(float("inf"))

    def mend(self, now):
        for due in [due for due in self.undo if due[0] <= now]:
            self.undo.remove(due)
            due[1]()

    def later(self, seconds, act):
        self.undo.append((time.monotonic() + seconds, act))

    def cut(self, node, seconds):
        node.cut()
        self.later(seconds, node.mend)

    def kill_node(self, node, seconds):
        if node.process.poll() is None:
            node.kill()
            self.later(seconds / 2, node.start)

    def kill_service(self, node, seconds):
        status = node.status()
        if status is not None and node.process.poll() is None:
            with contextlib.suppress(ProcessLookupError):
                os.kill(status["service"], signal.SIGKILL)

    def kill_caller(self, node, seconds):
        caller = self.chance.choice([it for it in self.callers if it.site == node.site])
        if caller.is_alive():
            caller.kill()
            self.later(seconds, caller.start_again)

    def pause_caller(self, node, seconds):
        caller = self.chance.choice([it for it in self.callers if it.site == node.site])
        caller.send(signal.SIGSTOP)
        process = caller.process.pid
        self.later(seconds, lambda: resume_group(process))

    def kill_lock(self, node, seconds):
        """Kills a `lock` alone: its command lives, if it was inside."""
        locks = [it for it in self.callers if it.kind == "lock" and it.process.poll() is None]
        inside = [it for it in locks if it.is_inside()]
        for caller in inside or locks[:1]:
            caller.process.kill()
            caller.process.wait()
            self.done["kill lock inside"] += bool(inside)
        if inside:
            time.sleep(0.3)
            self.look()

    # What an operator does

    def is_dead(self, holder, pid):
        """Whether nobody lives who may be inside under this holder."""
        for caller in self.callers:
            if holder.split("/")[0] == caller.word() or pid == caller.process.pid:
                return not caller.is_alive()
        try:
            os.killpg(pid, 0)
            return False
        except ProcessLookupError:
            return True

    def look(self):
        """Ends the sessions that belong to no connection and whose callers are dead, and says which should not be there."""
        for node in self.nodes:
            locks = [it for it in self.callers if it.site == node.site and it.kind == "lock" and it.is_inside() and it.is_alive()]
            began, status = node.began, node.status()
            if status is None:
                if node.process.poll() not in (None, -9):
                    self.wrong.append(f"site {node.site}: the node ended by itself, with status {node.process.returncode}")
                    node.start()
                continue
            here = {it["pid"] for it in status["callers"]}
            self.wrong += [f"{it.name}: its command lives, and its session is left" for it in locks
                           if it.process.pid not in here and it.is_inside() and it.is_alive()]
            for it in status["callers"]:
                if it["connected"] or it["phase"] is None:
                    continue
                if it["known"] and not it["kept"] and it["since"] > began:
                    self.wrong.append(f"site {node.site}: not left though its connection ended: {it}")
                if self.is_dead(it["holder"], it["pid"]):
                    reply = node.ask(f"evict {it['record']} {it['holder']}")
                    self.done["evicted"] += reply is not None and reply.startswith(("left", "withdrawn"))

    # The end

    def settle(self):
        """Waits until no session is there and all seats are free."""
        wanted = {name: seats for name, (seats, _, _) in RECORDS.items()}
        end = time.monotonic() + 90
        while True:
            self.look()
            states = [node.status() for node in self.nodes]
            if None not in states:
                found = {name: sum(state["records"][name]["rights"] for state in states) for name in RECORDS}
                left = [it for state in states for it in state["callers"]]
                if found == wanted and not left:
                    return
                if time.monotonic() > end:
                    self.wrong.append(f"in the end free seats are {found}, and sessions {left}")
                    return
            elif time.monotonic() > end:
                self.wrong.append("a node does not answer in the end")
                return
            time.sleep(0.5)

    def finish(self):
        """Lets all callers end, looks, and ends the nodes."""
        self.stop.touch()
        for caller in self.callers:
            caller.send(signal.SIGCONT)
        end = time.monotonic() + 60
        while any(caller.is_alive() for caller in self.callers) and time.monotonic() < end:
            time.sleep(0.2)
        late = [caller.name for caller in self.callers if caller.is_alive()]
        if late:
            self.wrong.append(f"callers do not end: {late}")
        self.wrong += [f"{it.name} ended by itself, with status {it.process.returncode}" for it in self.callers
                       if it.kind != "lock" and it.process.poll() not in (None, 0, -signal.SIGKILL)]
        self.settle()
        self.wrong += self.links.faults()
        self.close()

    def close(self):
        for caller in self.callers:
            if caller.process is not None and caller.is_alive():
                caller.kill()
        for node in self.nodes:
            node.process.terminate()
            try:
                status = node.process.wait(30)
            except subprocess.TimeoutExpired:
                node.kill()
                status = "none"
            if status not in (0, -9):
                self.wrong.append(f"node {node.site} ended with status {status}")


def kinds():
    """The kinds of the callers of a node, one after the other."""
    for kind, count in KINDS.items():
        yield from ["c" if kind == "bash" and shutil.which("nc") is None else kind] * count


def resume_group(process):
    with contextlib.suppress(ProcessLookupError):
        os.killpg(process, signal.SIGCONT)


# What the notes say

def visits(world):
    """Who was inside: record, from, to, kind and caller; and how long callers waited, in seconds."""
    found, waits = [], []
    for caller in world.callers:
        inside = {}
        for line in caller.notes.read_text().splitlines() if caller.notes.exists() else []:
            when, what, *words = line.split(" ")
            if what == "in":
                inside[words[0]] = (int(when), words[1])
            elif what == "out" and words[0] in inside:
                found.append((words[0], inside[words[0]][0], int(when), inside.pop(words[0])[1], caller.name))
            elif what == "killed":
                found += [(record, began, int(when), kind, caller.name) for record, (began, kind) in inside.items()]
                inside = {}
            elif what == "wait":
                waits.append(int(words[0]) / 1e6)
            elif what == "fault":
                world.wrong.append(f"{caller.name}: {' '.join(words)}")
        world.wrong += [f"{caller.name}: is inside {record} in the end" for record in inside]
    return found, sorted(waits)


def by_kind(found):
    """How many visits the callers of each kind made as readers, and as writers."""
    return collections.Counter((visit[4].rstrip("0123456789."), visit[3]) for visit in found)


def overlaps(found):
    """The visits during which a writer was inside, other than the writer's own."""
    wrong = []
    for record in RECORDS:
        here = sorted((visit for visit in found if visit[0] == record), key=lambda visit: visit[1])
        for at, visit in enumerate(here):
            for other in here[at + 1:]:
                if other[1] > visit[2]:
                    break
                if "writer" in (visit[3], other[3]):
                    wrong.append((visit, other))
    return wrong


def judge(world):
    """The verdict on the logs."""
    if world.given.no_logs:
        return "none, so calls that wait were committed together"
    logs = b"".join((world.folder / f"{site}.log").read_bytes() for site in range(SITES))
    if len(logs) > JUDGED:
        return f"not asked: the logs have {len(logs)} bytes"
    ran = subprocess.run([world.given.program, "judge", "--layout", world.folder / "layout.toml"], input=logs, capture_output=True,
                         check=False)
    verdict = ran.stdout.decode().splitlines()[-1:] or [f"status {ran.returncode}"]
    if verdict != ["consistent"]:
        world.wrong.append(f"judge: {verdict[0]}")
    return f"{verdict[0]}, of {len(logs)} bytes"


def storm(folder, given, between):
    """The whole of it. Gives whether all went well."""
    world = World(folder, given, between)
    try:
        end = time.monotonic() + 60
        while any(node.ask("token") is None for node in world.nodes):
            if time.monotonic() > end:
                raise SystemExit(f"the nodes do not start: {(folder / 'errors').read_text()}")
            time.sleep(0.1)
        began = time.monotonic()
        world.links.attack(world.stop, given.seed)
        for caller in world.callers:
            caller.start()
        world.disturb()
        seconds = time.monotonic() - began
        world.finish()
    finally:
        world.close()
        world.errors.close()
        world.wrong += [line for line in (folder / "errors").read_text().splitlines() if "may not be alone" in line or "failed" in line]
    found, waits = visits(world)
    world.wrong += [f"inside together: {pair}" for pair in overlaps(found)[:5]]
    here = by_kind(found)
    world.wrong += [f"no reader in {kind} was admitted" for kind in sorted({it.kind for it in world.callers}) if not here[kind, "reader"]]
    world.wrong += ["no writer was admitted"] * (not any(phase == "writer" for _, phase in here))
    world.wrong += [f"{world.statuses[status]} runs of lock ended with {status}" for status in world.statuses if status not in (0, 69, 75, -9)]
    verdict = judge(world)
    tell(world, found, waits, seconds, verdict)
    return not world.wrong


def tell(world, found, waits, seconds, verdict):
    print(f"{world.links.name}; seed {world.given.seed}, {seconds:.0f} s:", ", ".join(f"{what} {count}" for what, count in sorted(world.done.items())))
    print("admitted:", ", ".join(f"{count} {phase}s in {kind}" for (kind, phase), count in sorted(by_kind(found).items())))
    print("lock ended with:", dict(sorted(world.statuses.items(), key=str)))
    if waits:
        print(f"{len(waits) / seconds:.1f} admissions a second by connections; "
              f"waited {waits[len(waits) // 2] * 1000:.1f} ms in the middle, {waits[int(len(waits) * 0.99)]:.3f} s at the 99th percentile")
    print(f"logs: {verdict}")
    for fault in world.wrong[:20]:
        print("FAILED", fault)


def main():
    if sys.argv[1:2] == ["--run-node"]:
        return run_node(sys.argv[2:])
    if sys.argv[1:2] == ["--call"]:
        return PythonCaller(*sys.argv[2:]).work()
    parser = argparse.ArgumentParser(description=__doc__, formatter_class=argparse.RawDescriptionHelpFormatter)
    parser.add_argument("--program", default=str(TOP / "crates/seat_cli/out/seat_cli"))
    parser.add_argument("--transport", choices=["folder", "peers"], default="folder")
    parser.add_argument("--network", choices=["namespaces", "loopback"], help="where `Peers` run (default: namespaces where they can be made)")
    parser.add_argument("--no-logs", action="store_true", help="sites without logs, whose calls that wait are committed together")
    parser.add_argument("--seconds", type=float, default=120)
    parser.add_argument("--seed", type=int, default=1)
    parser.add_argument("--folder", type=pathlib.Path, help="where stores, logs and notes stay")
    parser.add_argument("--plant", choices=["restart-leaves", "end-forgotten", "process-ends", "insider"])
    given = parser.parse_args()
    given.program = os.path.abspath(given.program)
    folder = given.folder or pathlib.Path(tempfile.mkdtemp(prefix="node_storm_"))
    folder.mkdir(exist_ok=True)
    try:
        with contextlib.closing(links(given.transport, given.network, folder, SITES, given.plant == "insider")) as between:
            return 0 if storm(folder, given, between) else 1
    finally:
        if given.folder is None:
            shutil.rmtree(folder)


if __name__ == "__main__":
    sys.exit(main())
