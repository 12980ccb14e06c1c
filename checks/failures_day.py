"""The day of checks/failures.py: three nodes, their callers and their resource; what is seen of them from outside, and what an
operator is told."""
import collections
import contextlib
import json
import random
import re
import subprocess
import sys
import time

import node
from failures_callers import Caller, Resource
from failures_nodes import LAYOUT, Disk, Links, Machine, stop_process

# How many callers each site has.
CALLERS = 3
# How many seconds a site may take until callers are admitted again, once all is mended.
PATIENCE = 120


class Day(node.World):
    """Everything from a start of a group to its end. `wrong` has what was seen and should not be, `untold` what an operator was not told."""

    def __init__(self, folder, given, seed, number):
        self.folder, self.given, self.seed = folder, given, seed
        self.chance = random.Random(f"failures {seed} {number}")
        self.library, self.stop, self.hold = given.library, folder / "stop", folder / "hold"
        self.resource_path = folder / "resource.sock"
        self.wrong, self.untold, self.known, self.told, self.undo = [], [], set(), [], []
        self.done, self.statuses, self.moment = collections.Counter(), collections.Counter(), time.monotonic()
        self.ended, self.nodes, self.callers, self.others = contextlib.ExitStack(), [], [], []
        folder.mkdir()
        try:
            self.begin()
        except BaseException:
            self.close()
            raise

    def begin(self):
        text = f"sites = {node.SITES}\n" + "".join(
            f'[[record]]\nname = "{name}"\nseats = {seats}\nhome = {home}\nproblem = {problem}\n' for name, (seats, home, problem) in LAYOUT.items())
        (self.folder / "layout.toml").write_text(text, encoding="utf-8")
        self.errors = self.ended.enter_context((self.folder / "errors").open("a"))
        self.disks = []
        for site in range(node.SITES):
            self.disks.append(Disk(self.folder / f"disk_{site}"))
            self.ended.callback(self.disks[-1].close)
        self.links = Links(self.folder, node.SITES, self.library, self.seed)
        self.ended.callback(self.links.close)
        self.resource = Resource(self.resource_path, self.given.plant != "takes-all")
        self.ended.callback(self.resource.close)
        for site in range(node.SITES):
            self.nodes.append(Machine(self, site))
        for one in self.nodes:
            one.wait_up()
        self.callers = [Caller(self, site, number) for site in range(node.SITES) for number in range(CALLERS)]
        for caller in self.callers:
            caller.start()

    def close(self):
        """Ends all processes, and takes the disks away."""
        self.stop.touch()
        for caller in self.callers:
            if caller.process is not None and caller.is_alive():
                caller.send(9)
                caller.process.wait()
        for process in [*(one.process for one in self.nodes), *self.others]:
            stop_process(process)
        self.ended.close()

    # What happens

    def victim(self):
        return self.chance.choice(self.nodes)

    def other(self, *than):
        return self.chance.choice([one for one in self.nodes if one not in than])

    def traffic(self, seconds):
        """Callers come and go for a while."""
        time.sleep(seconds)

    def now(self):
        """From now on it counts how long an operator waits to be told."""
        self.moment = time.monotonic()

    def callers_of(self, machine):
        return [caller for caller in self.callers if caller.site == machine.site]

    def pause_inside(self, connected, seconds=25):
        """Pauses a caller that is inside, and whose session belongs to a connection or to none. Gives it, its node, record and holder."""
        end = time.monotonic() + seconds
        while time.monotonic() < end:
            caller = self.chance.choice(self.callers)
            if caller.stopped or not caller.is_inside() or not caller.is_alive():
                time.sleep(0.02)
                continue
            caller.pause()
            found, one = caller.inside(), self.nodes[caller.site]
            status = one.status() if found else None
            here = [it for it in status["callers"] if it["holder"] == found[2]] if status is not None else []
            if here and here[0]["connected"] == connected and here[0]["phase"] in ("reader", "writer"):
                return caller, one, found[0], found[2]
            caller.go_on()
        return None

    def evict(self, paused):
        """An operator ends the session of a caller that is paused, and gives the reply."""
        caller, one, record, holder = paused
        when = time.time_ns()
        reply = one.ask(f"evict {record} {holder}")
        if reply is not None and reply.startswith("left"):
            caller.was_ended(when, holder)
            self.done["evicted while paused"] += 1
        return reply

    def recover(self, one, to, lost):
        """`zinduroi recover` at the machine of a node, with yes for each question; its output and status."""
        words = [sys.executable, "-m", "zinduroi", "recover", "--to", to, "--config", one.config, "--folder", self.folder / f"recovery_{to}",
                 *(word for site in lost for word in ("--lost", str(site)))]
        ran = subprocess.run([str(word) for word in words], input="yes\n" * 8, capture_output=True, text=True, env=one.environment(), check=False)
        return f"{ran.stdout}{ran.stderr}status {ran.returncode}"

    # What an operator is told

    def watch(self, seconds, tells):
        """Looks until all of this was told: where, by which node, and words as a pattern; one that may be missing has a fourth part."""
        missing, end = list(tells), time.monotonic() + seconds
        while missing:
            for tell in list(missing):
                if self.has_told(f"{tell[0]} of site {tell[1].site}", tell[1].tells(tell[0]), tell[2]):
                    missing.remove(tell)
            if time.monotonic() > end:
                break
            time.sleep(0.2)
        for tell in missing:
            if len(tell) == 3:
                self.untold.append(f"not told within {seconds} s: {tell[0]} of site {tell[1].site}: {tell[2]}; it tells {tell[1].tells(tell[0])[-300:]!r}")

    def has_told(self, where, text, pattern):
        """Whether this was told, with the line that tells it."""
        found = re.search(pattern, text, re.M)
        if found is not None:
            began, end = text.rfind("\n", 0, found.start()) + 1, text.find("\n", found.end())
            line = text[began:end if end >= 0 else None].strip().replace("\n", " | ").replace(str(self.folder), "..")
            self.told.append((where, line[:200], time.monotonic() - self.moment))
        return found is not None

    def must_tell(self, where, text, pattern):
        if not self.has_told(where, text or "", pattern):
            self.untold.append(f"{where} does not tell {pattern}: {(text or '')[-300:]!r}")

    # What is seen from outside

    def is_dead(self, holder, pid):
        """Whether nobody is inside under this holder: its caller is dead, or has gone on to another visit."""
        for caller in self.callers:
            if holder.startswith(f"{caller.name}."):
                return not caller.is_alive() or (not caller.stopped and caller.current() != holder)
        # A `?` stands where a file of sessions was lost; then all callers of its site were killed.
        return holder.startswith(("change", "?"))

    def progress(self, since, seconds=PATIENCE, sites=range(node.SITES)):
        """Waits until callers were admitted at each of these sites, and a writer at some."""
        end = time.monotonic() + seconds
        while True:
            self.look()
            found = [(caller.site, kind) for caller in self.callers for kind in caller.came_in(since)]
            if {site for site, _ in found} >= set(sites) and "writer" in {kind for _, kind in found}:
                return
            if time.monotonic() > end:
                self.wrong.append(f"{seconds} s after all was mended callers were admitted at {sorted(set(found))} only")
                return
            time.sleep(0.5)

    def quiet(self):
        """Lets no more callers in, and looks: what was answered is there, and all seats are free in the end."""
        self.hold.touch()
        for caller in self.callers:
            if caller.stopped:
                caller.go_on()
        for one in self.nodes:
            self.wrong += one.leave_probes()
        self.settle()
        for caller in self.callers:
            if not caller.is_alive():
                self.wrong.append(f"{caller.name} has ended: {(self.folder / 'errors').read_text()[-400:]}")
        found = self.judge()
        self.hold.unlink()
        return found

    def judge(self):
        """Who was inside, and how the resource was used; what is wrong with that is in `wrong`."""
        found, _ = node.visits(self)
        self.wrong += [f"inside together: {first[4]} ({first[3]}) and {second[4]} ({second[3]}) at {first[0]}" for first, second in node.overlaps(found)]
        self.wrong += self.resource.wrong(found)
        self.wrong += [f"site {caller.site}: the session of {holder} was gone" for caller in self.callers for holder in caller.lost()]
        return found

    def news(self):
        """What is wrong and was not told before."""
        new = [it for it in dict.fromkeys(self.wrong) if it not in self.known]
        self.known.update(new)
        self.wrong = []
        return new

    def fault(self, one, number):
        """Carries out a fault, has it mended, and looks behind it. Gives what went wrong, and a line of what was seen."""
        for machine in self.nodes:
            machine.set_mark()
            machine.enter_probes(number)
        self.told, self.untold, found, accesses = [], [], [], len(self.resource.log)
        began, before = time.monotonic(), time.time_ns()
        self.now()
        try:
            for seconds, tells in one.run(self) or ():
                self.watch(seconds, tells)
            if one.void:
                for caller in self.callers:
                    caller.kill()
                found = self.judge()
            else:
                self.progress(time.time_ns())
                found = self.quiet()
        except (AssertionError, OSError, ValueError, KeyError, IndexError, TypeError, subprocess.SubprocessError) as error:
            self.untold.append(f"it could not go on: {type(error).__name__}: {error}")
        here = collections.Counter(visit[3] for visit in found if visit[2] > before)
        used = collections.Counter(it[5] for it in self.resource.log[accesses:])
        seen = (f"{time.monotonic() - began:.0f} s; {here['reader']} readers and {here['writer']} writers were inside; the resource let in "
                f"{used[True]} accesses and refused {used[False]}")
        wrong = self.news()
        if not one.void:
            return self.untold + wrong, seen
        breaches = {what: sum(what in it for it in wrong) for what in ("inside together", "session", "the resource")}
        return self.untold, (f"{seen}; what it voids: {breaches['inside together']} times callers were inside together, {breaches['session']} sessions were "
                             f"gone, {breaches['the resource']} times the resource took or refused wrongly")


def status_of(machine):
    """The state of a node, or nothing."""
    reply = machine.ask("status")
    return json.loads(reply) if reply and not reply.startswith("refused") else {}
