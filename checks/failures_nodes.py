"""The nodes of checks/failures.py: their disks in memory, their clocks, the links between them, and what they tell an operator."""
import contextlib
import http.client
import json
import mmap
import os
import pathlib
import random
import re
import shutil
import signal
import struct
import subprocess
import sys
import threading
import time

import node
import node_network

from tests.test_peers import free_ports  # noqa: E402 (checks/node.py has put the client on the path)
from zinduroi.command_line import status_text  # noqa: E402
from zinduroi.node import NodeClient, NodeGone  # noqa: E402

TOP = pathlib.Path(__file__).resolve().parent.parent
GROUP = node_network.GROUP
# The records: those of checks/node.py, and one for sessions of the check's own.
LAYOUT = node.RECORDS | {"p": (600, 2, 1)}
DAY = 86_400


class Control:
    """How the files and the clock of a node fail: what checks/failing.c reads."""

    def __init__(self, path):
        self.path = path
        path.write_bytes(bytes(64))
        with path.open("r+b") as file:
            self.map = mmap.mmap(file.fileno(), 64)

    def put(self, at, number):
        struct.pack_into("q", self.map, 8 * at, number)

    def fail(self, number, after=0, times=-1):
        """Writes and syncs fail with this error: the first one behind so many, and so many of them."""
        self.put(1, after)
        self.put(2, times)
        self.put(0, number)

    def slow(self, seconds):
        self.put(3, int(seconds * 1e6))

    def clock(self, seconds):
        """The clock of the time of day is ahead by so much from now on."""
        self.put(4, seconds)

    def counted(self):
        """How many writes and syncs were looked at, and how many failed."""
        return struct.unpack_from("qq", self.map, 40)

    def clear(self):
        self.map[:] = bytes(64)

    def variables(self, library, under):
        return {"LD_PRELOAD": str(library), "FAILING_CONTROL": str(self.path), "FAILING_UNDER": str(under)}


@contextlib.contextmanager
def shifted(library, folder, seconds):
    """What is started meanwhile has another clock."""
    control = Control(folder / "control_shifted")
    control.clock(int(seconds))
    more = control.variables(library, folder / "none")
    os.environ.update(more)
    try:
        yield
    finally:
        for name in more:
            del os.environ[name]


class Disk:
    """A disk in memory for one store; a plain folder for whoever may not mount one."""

    def __init__(self, folder):
        self.folder = folder
        folder.mkdir()
        words = ["mount", "-t", "tmpfs", "-o", "size=16m", "failures", folder]
        self.mounted = subprocess.run(words, capture_output=True, check=False).returncode == 0

    def fill(self):
        """Takes all room."""
        with (self.folder / "filler").open("ab", buffering=0) as file, contextlib.suppress(OSError):
            while file.write(bytes(4096)) == 4096:
                pass

    def free(self):
        (self.folder / "filler").unlink(missing_ok=True)

    def remount(self, how):
        subprocess.run(["mount", "-o", f"remount,{how}", self.folder], capture_output=True, check=True)

    def close(self):
        """Takes the disk away, once the programs of killed nodes have ended."""
        end = time.monotonic() + 20
        while self.mounted:
            late = time.monotonic() > end
            gone = subprocess.run(["umount", *["--lazy"] * late, self.folder], capture_output=True, check=False).returncode == 0
            self.mounted = not gone and not late
            time.sleep(0 if gone else 0.1)


class Links(node_network.ProxyLinks):
    """`Peers` with certificates over proxies, which may be slow; and a folder for each node, in which it finds texts of the others only
    while links `reorder`: late, doubled, and older ones behind newer ones."""

    def __init__(self, folder, sites, library, seed):
        self.library, self.chance, self.reorders, self.ends = library, random.Random(seed), False, threading.Event()
        self.boxes = [folder / f"box_{site}" for site in range(sites)]
        for box in self.boxes:
            box.mkdir()
        # Certificates are older than any clock that goes back here.
        with shifted(library, folder, -3 * DAY):
            super().__init__(folder, sites, False)
        self.carrier = threading.Thread(target=self.carry, daemon=True)
        self.carrier.start()

    def table(self, site):
        return super().table(site) + f'[[transport]]\nkind = "folder"\npath = "{self.boxes[site]}"\n'

    def certify(self, site, seconds=None):
        """Gives a site a new certificate, which runs out in so many seconds, or in some weeks."""
        with shifted(self.library, self.folder, -3 * DAY if seconds is None else seconds - DAY):
            self.given[site] = self.ours.give(f"site-{site}.{GROUP}.zinduroi", days=30 if seconds is None else 1)

    def slow(self, seconds):
        for middle in self.middles.values():
            middle.pause = seconds

    def cut_off(self, site):
        """Cuts a site off, from what it once sent too."""
        self.cut(site)
        for path in self.boxes[site].iterdir():
            path.unlink()

    def carry(self):
        """Carries texts from folder to folder, as long as that is wanted."""
        kept = {site: [] for site in self.sites}
        while not self.ends.wait(0.1):
            for site in self.sites if self.reorders else ():
                with contextlib.suppress(OSError):
                    text = (self.boxes[site] / f"{site}.delta").read_text()
                    if text not in kept[site][-1:]:
                        kept[site] = [*kept[site][-30:], text]
                for to in self.sites:
                    if to != site and kept[site] and self.chance.random() < 0.6:
                        text = self.chance.choice(kept[site]) if self.chance.random() < 0.5 else kept[site][-1]
                        for _ in range(self.chance.choice((1, 1, 2))):
                            self.put(to, site, text)

    def put(self, to, site, text):
        part = self.boxes[to] / f".{site}.part"
        part.write_text(text)
        os.replace(part, self.boxes[to] / f"{site}.delta")

    def close(self):
        self.ends.set()
        self.carrier.join()
        super().close()


class Machine(node.Machine):
    """A node, from outside, over its own disk."""

    def __init__(self, world, site):
        self.world, self.site = world, site
        self.folder, self.disk = world.folder, world.disks[site]
        self.socket, self.config = self.folder / f"{site}.sock", self.folder / f"{site}.toml"
        self.layout, self.group = self.folder / "layout.toml", GROUP
        self.store = self.disk.folder / "site.db"
        self.control = Control(self.folder / f"control_{site}")
        self.errors = self.folder / f"errors_{site}"
        self.page, = free_ports(1)
        self.process, self.began, self.mark, self.call_mark, self.probes = None, 0.0, 0, (0.0, 0.0), {}
        self.write()
        self.start("--create")

    def write(self):
        """Writes the node's file."""
        self.config.write_text(
            f'site = {self.site}\nstore = "{self.store}"\nlayout = "{self.layout}"\ngroup = "{self.group}"\n'
            f'program = "{self.world.given.program}"\n[socket]\npath = "{self.socket}"\n[exchange]\ninterval = 0.2\n'
            f'[page]\naddress = "127.0.0.1:{self.page}"\n{self.world.links.table(self.site)}')

    def words(self, *more, config=None):
        plant = self.world.given.plant if self.world.given.plant == "restart-leaves" else "-"
        return [sys.executable, str(TOP / "checks/node.py"), "--run-node", plant, str(config or self.config), *more]

    def start(self, *more):
        self.began = time.time()
        self.process = self.popen(self.words(*more), self.errors)

    def popen(self, words, errors):
        """A process with the disk and the clock of this node, whose standard error goes to a file."""
        if self.world.given.plant == "silent":
            errors = os.devnull
        with open(errors, "ab") as file:
            return subprocess.Popen(words, stdin=subprocess.DEVNULL, stdout=file, stderr=file, env=self.environment())

    def environment(self):
        return {**os.environ, "PYTHONPATH": str(TOP / "clients/python"), **self.control.variables(self.world.library, self.disk.folder)}

    def stop(self):
        """Ends the node by SIGTERM, and gives its status."""
        self.process.terminate()
        try:
            return self.process.wait(40)
        except subprocess.TimeoutExpired:
            self.kill()
            return "none"

    def restart(self):
        self.stop()
        self.start()
        self.wait_up()

    def wait_up(self, seconds=90):
        end = time.monotonic() + seconds
        while self.ask("token") is None:
            if time.monotonic() > end or self.process.poll() is not None:
                raise node_failed(self)
            time.sleep(0.1)

    def ask(self, line, seconds=10):
        """The reply; `None` while the node is away."""
        with contextlib.suppress(NodeGone):
            with NodeClient(self.socket) as client:
                client.socket.settimeout(seconds)
                return client.ask(line)
        return None

    def send(self, number):
        with contextlib.suppress(ProcessLookupError):
            self.process.send_signal(number)

    def service(self):
        """The process of the program, or `None`."""
        status = self.status()
        return None if status is None else status["service"]

    def files(self):
        """The files of the store that are there."""
        return [path for path in self.disk.folder.iterdir() if path.name.startswith("site.db")]

    def copy_store(self, to):
        """A copy of the store, with its log and the file of sessions."""
        shutil.rmtree(to, ignore_errors=True)
        to.mkdir()
        for path in self.files():
            shutil.copy2(path, to / path.name)

    def put_store(self, copy):
        """Puts a copy in the place of the store."""
        self.remove_store()
        for path in copy.iterdir():
            shutil.copy2(path, self.disk.folder / path.name)

    def remove_store(self):
        for path in self.files():
            path.unlink()

    # What an operator sees

    def tells(self, where):
        """What a place tells now: `status`, `health`, `metrics`, `log`, `start` (the log of a node that has ended, with its exit status),
        `calls` or `change` (see below)."""
        if where == "log":
            return self.errors.read_text(errors="replace")[self.mark:] if self.errors.exists() else ""
        if where == "start":
            status = self.process.poll()
            return "" if status is None else f"{self.tells('log')}status {status}"
        if where == "start or change":
            return self.tells("start") or self.change()
        if where == "change":
            return self.change()
        if where == "calls":
            return self.calls()
        if where == "status":
            reply = self.ask("status", 3)
            if reply is None or reply.startswith("refused"):
                return f"zinduroi: no node answers at {self.socket}" if reply is None else reply
            state = json.loads(reply)
            return status_text(state, state["time"])  # by the node's own clock
        return self.page_tells(where)

    def page_tells(self, path):
        try:
            asked = http.client.HTTPConnection("127.0.0.1", self.page, timeout=6)
            asked.request("GET", f"/{path}")
            reply = asked.getresponse()
            return f"{reply.status} {reply.read().decode()}"
        except (OSError, http.client.HTTPException) as error:
            return f"no answer: {type(error).__name__}"

    def call_times(self):
        """How many seconds the program took for lines that change something, and how many lines, since the start."""
        text = self.page_tells("metrics")
        found = [sum(float(it) for it in re.findall(rf'^zinduroi_program_call_seconds_{what}{{verb="(?:read|leave)"}} (\S+)', text, re.M))
                 for what in ("sum", "count")]
        return found[0], found[1]

    def calls(self):
        """How long such lines take since the mark, where that is much longer than before."""
        (before, many), (total, count) = self.call_mark, self.call_times()
        if count <= many or not many:
            return ""
        now, ever = (total - before) / (count - many), before / many
        return f"program_call_seconds of read and leave: {now:.3f} s each, {ever:.3f} s before" if now > 3 * ever else ""

    def set_mark(self):
        """What is told from now on counts."""
        self.mark = self.errors.stat().st_size if self.errors.exists() else 0
        self.call_mark = self.call_times()

    def change(self):
        """What a reader who comes and goes is answered, where that is another answer than ever."""
        try:
            with NodeClient(self.socket) as client:
                client.socket.settimeout(10)
                for number in range(40):
                    for line, right in ((f"read p change{number}", "admitted"), (f"leave p change{number}", "left reader")):
                        reply = client.ask(line)
                        if reply != right and not re.match("refused (NoSeat|AlreadyHere)", reply):
                            return f"{line}: {reply}"
        except NodeGone:
            pass
        return ""

    # Sessions of the check's own

    def enter_probes(self, number):
        """Enters some sessions that belong to no connection, and leaves others: what was answered of them has to stay so."""
        self.probes = {}
        with contextlib.suppress(NodeGone), NodeClient(self.socket) as client:
            client.socket.settimeout(30)
            token = client.ask("token").partition(" ")[2]
            for at in range(4):
                holder = f"probe.{number}.{at}"
                if client.ask(f"read p {holder}") == "admitted" and client.ask(f"keep p {holder}").startswith("kept "):
                    self.probes[holder] = token
                    if at % 2 and client.ask(f"leave p {holder}") == "left reader":
                        self.probes[holder] = None

    def leave_probes(self):
        """What is wrong with those sessions now. They are left."""
        wrong, status = [], self.status()
        here = {it["holder"] for it in status["callers"] if it["phase"] == "reader"} if status is not None else set()
        for holder, token in self.probes.items():
            if (holder in here) != (token is not None):
                wrong.append(f"site {self.site}: {holder} was {'admitted' if token else 'left'}, and is {'not ' * (holder not in here)}there")
        for holder in here:
            if holder.startswith("probe."):
                self.ask(f"evict p {holder}")
        self.probes = {}
        return wrong


def node_failed(machine):
    return AssertionError(f"site {machine.site} does not start: {machine.tells('log')[-400:]}")


def stop_process(process):
    """Ends a process of the check, paused or not."""
    if process is not None and process.poll() is None:
        process.send_signal(signal.SIGCONT)
        process.kill()
        process.wait()
