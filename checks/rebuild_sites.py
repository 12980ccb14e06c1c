"""Sites as processes of `serve`, for checks/rebuild.py: what is called there, what was answered, and who is inside where."""
import collections
import os
import pathlib
import subprocess
import time

import stand_in

PIPE = subprocess.PIPE
# The longest time, in seconds, between a line and the kill of its process.
IN_FLIGHT = 0.004
# .. and between the start of a move or rebuild and its kill.
KILLED = 0.03
SESSION = {"read": "reader", "announce": "waiting", "write": "writer"}


class Broken(Exception):
    """Something that may not be: `seats` that were lost or doubled, a writer who is not `alone`, or something `else`."""


def broken(applies, kind, *what):
    if applies:
        raise Broken(kind, " ".join(map(str, what)))


def start(program, words):
    if program == "stand-in":
        return stand_in.Forked(words)
    return subprocess.Popen([program, *words], stdin=PIPE, stdout=PIPE, stderr=PIPE, bufsize=0)


def run(program, words, data=b""):
    """Output, errors and status of a command."""
    if program == "stand-in":
        output, errors, status = stand_in.run(words, data)
    else:
        done = subprocess.run([program, *words], input=data, capture_output=True, check=False)
        output, errors, status = done.stdout, done.stderr, done.returncode
    return output.decode(), errors.decode().strip(), status


class Service:
    """A process of `serve`."""

    def __init__(self, program, words):
        self.process = start(program, words)
        self.replies = os.fdopen(os.dup(self.process.stdout.fileno()), "rb")

    def write(self, line):
        try:
            self.process.stdin.write(line.encode() + b"\n")
        except BrokenPipeError:
            pass

    def read(self):
        """A reply, or None where the process ended first."""
        reply = self.replies.readline()
        return reply[:-1].decode() if reply.endswith(b"\n") else None

    def end(self, kill=False):
        """Ends the process; gives its status and errors."""
        if kill:
            self.process.kill()
        self.process.stdin.close()
        errors = self.process.stderr.read().decode().strip()
        status = self.process.wait()
        for it in (self.process.stdout, self.process.stderr, self.replies):
            it.close()
        return f"{status} {errors}".strip()


class Site:
    """One site of a group, and the sessions that its answers told of."""

    def __init__(self, world, number):
        self.world, self.number = world, number
        self.group, self.known, self.service = None, None, None
        self.sessions = {name: {} for name in world.records}
        self.texts = []  # those that it sent in its group
        self.holder = number * 1_000_000

    @property
    def store(self):
        return f"{self.world.folder}/site_{self.number}.db"

    def words(self, command, group=None, known=None):
        layout = f"{self.world.folder}/layout_{known or self.known}.toml"
        return [command, "--site", str(self.number), "--store", self.store, "--layout", layout, "--group", group or self.group]

    def open(self, *more):
        self.service = Service(self.world.program, [*self.words("serve"), "--wait", "30", *more])
        if more:  # what changes the store is done before a kill may come
            self.call("send")

    def close(self, kill=False):
        ended, self.service = self.service.end(kill), None
        broken(ended != ("-9" if kill else "0"), "else", f"site {self.number} ended: {ended}")

    def call(self, line):
        self.service.write(line)
        reply = self.service.read()
        if reply is None:
            ended, self.service = self.service.end(), None
            broken(True, "else", f"site {self.number} ended at {line[:60]}: {ended}")
        self.world.calls += 1
        self.note(line, reply)
        return reply

    def note(self, line, reply):
        """What a reply says of sessions."""
        verb, record, holder = (line.split(" ", 2) + ["", ""])[:3]
        if verb == "send":
            self.texts.append(reply)
            self.world.texts.append((self.number, reply))
        if verb not in ("read", "announce", "write", "leave") or reply.startswith("refused"):
            return
        here = self.sessions[record]
        if verb == "leave":
            self.world.leaves(record, (self.number, holder))
            here.pop(holder)
        else:
            here[holder] = SESSION[verb]
            if verb != "announce":
                self.world.enters(record, (self.number, holder), here[holder])

    def die(self, line, pause):
        """Kills the process, perhaps with a line in flight, starts it again, and compares its sessions."""
        if line:
            self.service.write(line)
            time.sleep(pause)
        self.close(kill=True)
        self.open()
        verb, at, holder = ((line or "").split(" ", 2) + ["", ""])[:3]
        for record, here in self.sessions.items():
            number, _, rest = self.call(f"sessions {record}").partition(" ")
            found = dict(it.split(" ") for it in rest.split(", ")) if rest else {}
            other = dict(here)
            if at == record and verb in SESSION:
                other[holder] = SESSION[verb]
            elif at == record and verb == "leave":
                other.pop(holder, None)
            broken(found not in (here, other) or int(number) != len(found), "else",
                   f"site {self.number} record {record}: answered {here}, in flight {line}, found {found}")
            if found != here:
                self.note(line, "found")

    def kill_command(self, words, data=b""):
        """Starts a command and kills it at some moment."""
        process = start(self.world.program, words)
        try:
            process.stdin.write(data)
            process.stdin.close()
            time.sleep(self.world.rng.random() * KILLED)
        except BrokenPipeError:
            pass
        process.kill()
        self.world.done["commands killed"] += process.wait() < 0
        for it in (process.stdin, process.stdout, process.stderr):
            it.close()

    def move(self, kills):
        """Moves the site, whose service is closed, and gives the text that was printed. A killed move may leave none."""
        words = self.words("regroup")
        if kills:
            self.kill_command(words)
        text, errors, status = run(self.world.program, words)
        after = kills and (errors, status) == ("store refused WrongGroup", 5)
        broken(status != 0 and not after, "else", f"regroup of site {self.number}: {text}{errors} {status}")
        self.group, self.texts = self.world.next_group(self.group), []
        return text.rstrip("\n") or None

    def show(self, record):
        """Its free seats and those that its sessions take."""
        words = self.call(f"show {record}").split(" ")
        broken(words[0] != "rights", "else", f"site {self.number}: {' '.join(words)}")
        return int(words[1]), int(words[3])


class World:
    """The sites of a history, the texts that they sent, and who is inside."""

    def __init__(self, program, folder, rng):
        self.program, self.folder, self.rng = program, folder, rng
        self.calls, self.moment, self.done = 0, 0, collections.Counter()
        self.records = {}  # seats by name
        self.texts, self.inside, self.visits = [], {}, []

    @staticmethod
    def next_group(group):
        base, _, number = group.partition(".")
        return f"{base}.{int(number or 1) + 1}"

    def write_layouts(self, *numbers):
        """Layout files for so many sites; homes are among the first of them."""
        records = ""
        for name in "abc"[: self.rng.choice([1, 2, 2, 3])]:
            self.records[name] = self.rng.choice([1, 2, 5, 12, 40])
            home, problem = self.rng.randrange(min(numbers)), self.rng.randint(1, 2)
            records += f'[[record]]\nname = "{name}"\nseats = {self.records[name]}\nhome = {home}\nproblem = {problem}\n'
            self.inside[name] = {}
        for number in numbers:
            pathlib.Path(f"{self.folder}/layout_{number}.toml").write_text(f"sites = {number}\n{records}")

    def enters(self, record, who, phase):
        """Somebody is inside from now on: nobody else may be, where one of them writes."""
        self.done[phase] += 1
        self.moment += 1
        here = self.inside[record]
        here.pop(who, None)
        broken(here and "writer" in (phase, *(it[0] for it in here.values())), "alone", f"record {record}: {who} {phase}, {here}")
        here[who] = phase, self.moment
        broken(phase == "reader" and len(here) > self.records[record], "seats", f"record {record}: {len(here)} readers")

    def leaves(self, record, who):
        """.. and is inside no more."""
        self.moment += 1
        if who in self.inside[record]:
            phase, since = self.inside[record].pop(who)
            self.visits.append((record, phase, since, self.moment, who))

    def overlaps(self):
        """The visits of writers that overlap with another one, by the moments at which they began and ended."""
        found = []
        for record in self.records:
            times = sorted((it for it in self.visits if it[0] == record), key=lambda it: it[2])
            last, of_writer = (0, None), (0, None)
            for _, phase, since, until, who in times:
                before = max(last, of_writer, key=lambda it: it[0]) if phase == "writer" else of_writer
                if since < before[0]:
                    found.append((record, before[1], who))
                last = max(last, (until, who), key=lambda it: it[0])
                if phase == "writer":
                    of_writer = max(of_writer, (until, who), key=lambda it: it[0])
        return found
