"""The callers of checks/failures.py, and the resource that they write to, which checks their fencing numbers."""
import bisect
import collections
import contextlib
import pathlib
import re
import signal
import socket
import socketserver
import sqlite3
import subprocess
import sys
import threading
import time

import node

TOP = pathlib.Path(__file__).resolve().parent.parent

from zinduroi import Fence  # noqa: E402 (checks/node.py has put the client on the path)
from zinduroi.node import NodeGone  # noqa: E402

# Behind these answers it is not known, or not yet settled, what became of a call: a caller waits for the node's next run.
UNSURE = ("refused StoreFault", "refused Frozen", "refused BookFault", "refused Memory")
# The longest wait for the resource, in seconds, and how many visits are kept to look for late callers behind them.
PATIENCE = 60
KEPT = 200


# The resource

class Resource:
    """A table of SQL with the statements that docs/OPERATING.md prints, behind a socket. `log` has each access: when, record, number,
    whether it writes, who, and whether it was let in. With `checks` false everybody is."""

    def __init__(self, path, checks):
        text = (TOP / "docs/OPERATING.md").read_text(encoding="utf-8")
        table, writer, reader = re.findall(r"^    ((?:CREATE TABLE|UPDATE) fences .*)$", text, re.M)
        self.statements = {True: writer, False: reader}
        self.checks, self.log, self.lock = checks, [], threading.Lock()
        self.base = sqlite3.connect(":memory:", check_same_thread=False, isolation_level=None)
        self.base.execute(table)
        self.base.executemany("INSERT INTO fences (record) VALUES (?)", [(name,) for name in node.RECORDS])
        outer = self

        class Handler(socketserver.StreamRequestHandler):
            def handle(self):
                words = self.rfile.readline().decode().split(" ")
                if len(words) == 4:
                    let_in = outer.uses(words[0], int(words[1]), words[2] == "writer", words[3].strip())
                    self.wfile.write(b"let in\n" if let_in else b"refused\n")

        class Server(socketserver.ThreadingUnixStreamServer):
            daemon_threads, request_queue_size = True, 64

            def handle_error(self, request, client_address):
                """A caller that was killed meanwhile."""

        self.server = Server(str(path), Handler)
        threading.Thread(target=self.server.serve_forever, args=(0.1,), daemon=True).start()

    def uses(self, record, number, writes, who):
        """One access: compared, remembered and carried out in one step."""
        with self.lock:
            found = self.base.execute(self.statements[writes], {"n": number, "record": record}).rowcount
            let_in = found > 0 or not self.checks
            self.log.append((time.time_ns(), record, number, writes, who, let_in))
            return let_in

    def close(self):
        self.server.shutdown()
        self.server.server_close()
        self.base.close()

    def wrong(self, visits):
        """What the resource took or refused against its rule, or against who was inside. `visits` are those of checks/node.py: record,
        from, to, kind and caller."""
        found, fences = [], {name: Fence() for name in node.RECORDS}
        by_caller = collections.defaultdict(list)
        for record, began, ended, kind, name in sorted(visits, key=lambda it: it[1]):
            by_caller[name, record].append((began, ended, kind))
        let_in_last = {}  # the last visits of which an access was let in: record, kind and caller, by caller and time
        for when, record, number, writes, who, let_in in list(self.log):
            if fences[record].admits(number, writes) != let_in:
                found.append(f"the resource {'took' if let_in else 'refused'} {number} of {who} at {record} against its rule")
            here = by_caller[who.partition("/")[0].rpartition(".")[0], record]
            at = bisect.bisect(here, when, key=lambda it: it[0])
            if at == 0:
                continue
            began, ended, kind = here[at - 1]
            if when <= ended and not let_in:
                found.append(f"the resource refused {who}, who was inside {record}")
            elif when <= ended:
                let_in_last.pop((who, began), None)
                let_in_last[who, began] = record, kind
                if len(let_in_last) > KEPT:
                    del let_in_last[next(iter(let_in_last))]
            elif let_in:
                overtaken = [it for (it, since), of in let_in_last.items() if of[0] == record and since > ended and "writer" in (of[1], kind)]
                found += [f"the resource let in {who} at {record}, late, behind {it}" for it in overtaken[-1:]]
        return found


def use(path, record, number, kind, who):
    """An access of a caller. Whether it was let in."""
    with socket.socket(socket.AF_UNIX) as end:
        end.settimeout(PATIENCE)
        end.connect(path)
        end.sendall(f"{record} {number} {kind} {who}\n".encode())
        return end.makefile("rb").readline() == b"let in\n"


# A caller, as a process

class Visitor(node.PythonCaller):
    """Visits records, and uses the resource while it is inside, with the number that it got there. It doesn't look whether it is still
    inside: a caller that was paused goes on as if nothing had been."""

    def __init__(self, name, path, notes, stop, seed, resource, hold):
        super().__init__(name, path, notes, stop, seed)
        self.resource, self.hold = resource, pathlib.Path(hold)

    def work(self):
        while not self.stop.exists():
            self.token = None
            if self.hold.exists():
                time.sleep(0.1)
                continue
            if self.connect():
                with contextlib.suppress(NodeGone):
                    self.visit()
            self.close()
            time.sleep(self.chance.random() * 0.8)

    def take_up(self, more=""):
        while (reply := super().take_up(more)) in UNSURE:
            time.sleep(0.2)
        return reply

    def visit(self):
        record, kind = self.chance.choice("ab"), self.chance.choice(["writer", "reader", "reader"])
        self.visits += 1
        word = f"{self.name}/{self.visits}"
        self.note(f"visit {word}")
        if not self.enter(record, "write" if kind == "writer" else "read", kind, word, 1 + self.chance.random() * 6):
            return
        self.note(f"in {record} {kind}")
        kept = self.chance.random() < 0.4 and self.keep(record, kind, word)
        number = self.number(record, kind, word, kept)
        for _ in range(self.chance.randrange(1, 9) if number is not None else 0):
            if not use(self.resource, record, number, kind, word):
                break
            time.sleep(self.chance.random() * 0.25)
        if not kept and self.chance.random() < 0.2:
            self.note(f"out {record}")
            return
        self.leave(record, kind, word)

    def enter(self, record, verb, kind, word, seconds):
        self.token = self.client.ask("token").split(" ")[1]
        try:
            reply = self.client.ask(f"wait {seconds:.3f} {verb} {record} {word}")
        except NodeGone:
            return self.enter_again(record, kind, word)
        if reply in UNSURE:
            self.clear(record, word)
        elif reply != "admitted" and not reply.startswith("timeout refused "):
            self.note(f"fault wait: {reply}")
        return reply == "admitted"

    def enter_again(self, record, kind, word):
        reply = self.take_up()
        if reply.startswith("resumed 1 ") and reply.endswith(kind):
            return True
        if reply != "refused NoToken":
            self.clear(record, word)
        return False

    def again(self, record, kind, word, kept=False):
        """Takes the session up once the node is back. Whether it is there."""
        reply = self.take_up(" keep" if kept else "")
        if reply.startswith(f"resumed 1 {record} {word} ") and reply.endswith(kind):
            return True
        self.note(f"gone {record} {word}" if reply == "refused NoToken" else f"fault resume: {reply}")
        return False

    def keep(self, record, kind, word):
        """Has the session belong to no connection."""
        try:
            reply = self.client.ask(f"keep {record} {word}")
        except NodeGone:
            return self.again(record, kind, word, True)
        return reply.startswith("kept ")

    def number(self, record, kind, word, kept):
        """The session's number; `None` where it was ended meanwhile."""
        while True:
            try:
                reply = self.client.ask(f"fence {record} {word}")
            except NodeGone:
                if self.again(record, kind, word, kept):
                    continue
                return None
            if reply.startswith("fence "):
                return int(reply[6:])
            if reply not in UNSURE:
                self.note(f"gone {record} {word}" if reply == "refused NotHere" else f"fault fence: {reply}")
                return None
            time.sleep(0.2)

    def leave(self, record, kind, word):
        self.note(f"out {record}")
        while True:
            try:
                reply = self.client.ask(f"leave {record} {word}")
            except NodeGone:
                if self.take_up() == "refused NoToken":
                    return
                continue
            if reply == "refused NotHere":
                self.note(f"gone {record} {word}")
            elif reply in UNSURE:
                time.sleep(0.2)
                continue
            elif reply != f"left {kind}":
                self.note(f"fault leave: {reply}")
            return

    def clear(self, record, word):
        """Ends what may be there of a session."""
        while True:
            try:
                if self.client.ask(f"leave {record} {word}") not in UNSURE:
                    return
            except NodeGone:
                if self.take_up() == "refused NoToken":
                    return
            time.sleep(0.2)


class Caller(node.Caller):
    """A `Visitor`, from outside. `ended` are its sessions that an operator has ended while it was paused."""

    def __init__(self, world, site, number):
        super().__init__(world, site, "visitor", number)
        self.seed = f"{world.seed}{site}{number}"
        self.ended, self.stopped = set(), False
        self.read, self.at = [], 0

    def start(self):
        self.starts += 1
        world = self.world
        words = [sys.executable, __file__, self.word(), world.nodes[self.site].socket, self.notes, world.stop,
                 int(self.seed) * 1000 + self.starts, world.resource_path, world.hold]
        self.process = subprocess.Popen([str(word) for word in words], stdin=subprocess.DEVNULL, stdout=subprocess.DEVNULL,
                                        stderr=world.errors, start_new_session=True)

    def lines(self):
        """All its notes, of which the new ones are read."""
        if self.notes.exists():
            with self.notes.open("rb") as file:
                file.seek(self.at)
                new = file.read().rpartition(b"\n")
            self.at += len(new[0]) + len(new[1])
            self.read += [line.split(" ") for line in new[0].decode().splitlines()]
        return self.read

    def inside(self):
        """Record, kind and holder, where the caller is inside."""
        found = None
        for _, what, *words in reversed(self.lines()):
            if what in ("out", "killed", "gone"):
                return None
            if what == "in":
                found = words
            elif what == "visit":
                return (*found, words[0]) if found else None
        return None

    def is_inside(self):
        return self.inside() is not None

    def came_in(self, since):
        """The kinds of its visits that began since then."""
        kinds = []
        for when, what, *words in reversed(self.lines()):
            if what == "visit" and int(when) < since:
                break
            if what == "in" and int(when) > since:
                kinds.append(words[1])
        return kinds

    def current(self):
        """The holder of its last visit."""
        return next((words[0] for _, what, *words in reversed(self.lines()) if what == "visit"), None)

    def pause(self):
        self.send(signal.SIGSTOP)
        self.stopped = True
        time.sleep(0.05)

    def go_on(self):
        self.send(signal.SIGCONT)
        self.stopped = False

    def was_ended(self, when, holder):
        """An operator has ended its session, at a time before the call."""
        self.ended.add(holder)
        with self.notes.open("a") as notes:
            notes.write(f"{when} killed\n")

    def lost(self):
        """The sessions that it found gone, but for those that an operator ended."""
        return [words[1] for _, what, *words in self.lines() if what == "gone" and words[1] not in self.ended]


if __name__ == "__main__":
    Visitor(*sys.argv[1:]).work()
