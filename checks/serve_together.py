"""Sites that get many lines at once, and are killed with rounds of calls under way, for checks/serve.py.

Whole lines that come in one write to an idle service make rounds of N lines, and the last one of the rest. The second
implementation says what each line is answered, and what is stored behind each round. So the replies are compared one by one.
After a kill the store has to be as it was behind the last round that was answered, or behind the one that followed: never in
the midst of one.
"""

import random
import signal
import subprocess
import threading
import time

import second_rebuild as again
import second_site as rules
import stand_in

# The most bytes of lines that are written at once: a pipe takes so many whole.
AT_ONCE = 4096
SIGNALS = (signal.SIGKILL,) * 5 + (signal.SIGTERM, signal.SIGINT, signal.SIGHUP)


class Model(stand_in.Store):
    """A site of the second implementation, without a store."""

    def __init__(self, layout, number, group):
        super().__init__({"--store": "", "--site": number, "--group": group}, layout)
        self.site = rules.Site(layout, number)

    def is_at_its_path(self):
        return True

    def change(self, before):
        pass

    def commit(self):
        pass

    def copy(self):
        """The site as it is now; its rows and sessions are replaced, never changed."""
        copied = rules.Site(self.layout, self.number, self.site.sessions)
        copied.rows = dict(self.site.rows)
        return copied


class Burst:
    """Lines that are written at once, their replies, and the site before them and behind each."""

    def __init__(self, model):
        self.lines, self.replies, self.sites = [], [], [model.copy()]

    def add(self, model, line):
        self.lines.append(line)
        self.replies.append(model.answer(line.encode()))
        self.sites.append(model.copy())

    def ends(self, together):
        """How many lines were answered behind each round, from none on."""
        return [*range(0, len(self.lines), together), len(self.lines)]

    def bytes(self):
        return b"".join(line.encode() + b"\n" for line in self.lines)


class Site(threading.Thread):
    """One site's process, and the site of the second implementation that answers with it."""

    def __init__(self, number, folder, options, shared, layout, group):
        super().__init__()
        self.number, self.folder, self.options, self.shared, self.group = number, folder, options, shared, group
        self.names = [it["name"] for it in layout["record"]]
        self.random = random.Random(f"{options.seed} {number} together")
        self.model = Model(layout, number, group)
        self.holder = number * 1_000_000
        self.since = {}  # record and holder: when the reply came, and the phase
        self.calls = self.kills = self.sigkills = self.whole = self.none = 0
        self.faults = []
        self.open(create=True)

    def open(self, create=False):
        words = [self.options.program, "serve", "--site", str(self.number), "--store", f"site_{self.number}.db"]
        words += ["--layout", "layout.toml", "--group", self.group, "--wait", "30", "--together", str(self.options.together)]
        words += ["--create"] * create
        self.process = subprocess.Popen(
            words, cwd=self.folder, stdin=subprocess.PIPE, stdout=subprocess.PIPE, stderr=subprocess.PIPE, bufsize=0
        )
        self.rest = b""

    # Lines

    def next_line(self):
        """A line that most often needs what the lines before it did."""
        r = self.random.randrange(len(self.names))
        name, kind = self.names[r], self.random.random()
        here = [(h, phase) for (q, h), (phase, _) in self.model.site.sessions.items() if q == r]
        if kind < 0.25 or not here and kind < 0.6:
            self.holder += 1
            return f"{'read' if self.random.random() < 0.7 else 'announce'} {name} {self.holder}"
        if kind < 0.6:
            holder, phase = self.random.choice(here)
            return f"{'write' if phase == 'waiting' and self.random.random() < 0.7 else 'leave'} {name} {holder}"
        if kind < 0.67:
            return f"help {name}"
        if kind < 0.74:
            return f"give {name} {self.random.randrange(3)} {self.random.randrange(1, 3)}"
        if kind < 0.82:
            return self.random.choice((f"show {name}", f"sessions {name}", "reed", f"read {name}x 7"))
        text = self.shared.text(self.random)
        return f"take {text}" if text and kind < 0.95 else "send"

    def burst(self):
        """Lines for one write: a round less one, one round, some rounds."""
        together, made, size = self.options.together, Burst(self.model), 0
        few = self.random.choice((1, 2, 7, max(together - 1, 1), together, together + 1, self.random.randrange(1, 3 * together + 2)))
        while len(made.lines) < few:
            line = self.next_line()
            size += len(line) + 1
            if size > AT_ONCE:
                break
            made.add(self.model, line)
        return made

    def carry_out(self, made):
        """Has the lines answered, and compares their replies."""
        self.note_leaving(made)
        self.process.stdin.write(made.bytes())
        for line, wanted in zip(made.lines, made.replies):
            reply = self.read_reply()
            if reply != wanted:
                self.faults.append(f"site {self.number}: {line[:60]} -> {reply}, and not {wanted[:200]}")
                return
            self.calls += 1
            if reply.startswith(self.group + " "):
                self.shared.put(self.number, reply)
        self.note_inside()

    def read_reply(self):
        """The next reply, or what came of it before the process ended."""
        while b"\n" not in self.rest:
            more = self.process.stdout.read(65536)
            if not more:
                return self.rest.decode()
            self.rest += more
        reply, _, self.rest = self.rest.partition(b"\n")
        return reply.decode()

    # Times inside

    def note_leaving(self, made):
        """The time inside of those that leave ends before the line is written."""
        for line in made.lines:
            words = line.split(" ")
            key = (words[1], words[-1]) if words[0] == "leave" else None
            if key in self.since:
                start, phase = self.since.pop(key)
                self.shared.inside(key[0], phase, start, time.monotonic(), key)

    def note_inside(self):
        """The time inside of those that are there now begins, where it had not begun."""
        now = time.monotonic()
        for (r, holder), (phase, _) in self.model.site.sessions.items():
            if phase != "waiting":
                self.since.setdefault((self.names[r], str(holder)), (now, phase))

    # Ends

    def stop(self):
        """Ends the process with lines under way, opens the store again, and compares it."""
        self.kills += 1
        made = self.burst()
        self.note_leaving(made)
        self.process.stdin.write(made.bytes())
        time.sleep(self.random.choice((0, 0, 0.0002, 0.0005, 0.001, 0.003, 0.01)))
        if closes := self.random.random() < 0.1:
            self.process.stdout.close()
            self.process.stdin.close()
            answered = None
        else:
            sent = self.random.choice(SIGNALS)
            self.sigkills += sent == signal.SIGKILL
            self.process.send_signal(sent)
            answered = self.answered(made)
        self.process.wait(60)
        for pipe in (self.process.stdin, self.process.stdout, self.process.stderr):
            try:
                pipe.close()
            except BrokenPipeError:
                pass
        self.open()
        self.compare(made, None if closes else answered)

    def answered(self, made):
        """How many replies came before the end."""
        data = self.rest
        while more := self.process.stdout.read(65536):
            data += more
        *lines, _ = data.split(b"\n")
        for line, reply, wanted in zip(made.lines, lines, made.replies):
            if reply.decode() != wanted:
                self.faults.append(f"site {self.number}: {line[:60]} -> {reply.decode()[:200]}, and not {wanted[:200]}, at the end")
        self.calls += len(lines)
        return len(lines)

    def compare(self, made, answered):
        """Whether the store is as it was behind the last round that was answered, or behind the one that followed."""
        asked = ["send", *(f"sessions {name}" for name in self.names)]
        self.process.stdin.write("".join(line + "\n" for line in asked).encode())
        found = [self.read_reply() for _ in asked]
        if not found[-1] and self.process.poll() is not None:
            self.faults.append(f"site {self.number} did not open again: {self.process.stderr.read().decode().strip()}")
            return
        stored = [at for at, site in enumerate(made.sites) if self.shown(site, asked) == found]
        ends = made.ends(self.options.together)
        behind = [at for at in ends if answered is None or at >= answered]
        allowed = behind if answered is None else behind[: 1 + (behind[0] == answered)]
        fits = [at for at in allowed if at in stored]
        if not fits:
            self.faults.append(f"site {self.number}: {len(made.lines)} lines, {answered} answered, stored is what lines {stored} left, and not {allowed}: {found}")
            return
        self.whole += fits[0] != (answered or 0)
        self.none += fits[0] == (answered or 0)
        self.model.site = made.sites[fits[0]].restarted(self.model.layout)
        self.since = {key: it for key, it in self.since.items() if self.is_inside(key)}
        self.note_inside()

    def is_inside(self, key):
        return self.model.site.sessions.get((self.names.index(key[0]), int(key[1])), (None,))[0] in ("reader", "writer")

    def shown(self, site, asked):
        """What a site answers to these lines when it has been started again."""
        model = Model(self.model.layout, self.number, self.group)
        model.site = site.restarted(self.model.layout)
        return [model.answer(line.encode()) for line in asked]

    def run(self):
        try:
            self.converse()
        except Exception as fault:
            self.faults.append(f"site {self.number}: {fault!r}")

    def converse(self):
        """Bursts and stops, until there were enough stops or something is wrong."""
        while self.kills < self.options.kills and not self.faults:
            for _ in range(self.random.randrange(1, 8)):
                self.carry_out(self.burst())
                if self.faults:
                    break
            else:
                self.stop()
        for (record, holder), (start, phase) in self.since.items():
            self.shared.inside(record, phase, start, time.monotonic(), (record, holder))
        self.process.stdin.close()
        self.status = self.process.wait(60)
        if self.status != 0:
            self.faults.append(f"site {self.number} ended with status {self.status}")
