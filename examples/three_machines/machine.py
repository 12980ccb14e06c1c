"""One machine: a site, its exchange over MQTT, two readers that come and go, and a maintenance job.

    machine.py FOLDER SITE PORT     PORT is where this machine reaches the broker

Orders come line by line on standard input, and each gets a line of answer: `readers on`, `readers off`; `stay`, the readers
go in and stay there; `write SECONDS`; `give SITE SEATS`; `dead`, ends the sessions that an earlier process left; `stop`. Each
caller writes down when it was inside: from the reply that admitted it to the moment before it leaves."""
import os
import pathlib
import sys
import threading
import time

from zinduroi import Exchange, Mqtt, Site, TimedOut, TooFewRights

FOLDER, NUMBER, PORT = pathlib.Path(sys.argv[1]), int(sys.argv[2]), int(sys.argv[3])
PROGRAM = os.environ["ZINDUROI_PROGRAM"]
LAYOUT = pathlib.Path(__file__).with_name("layout.toml")
GROUP = "three-machines"
READERS = (1, 2)
WRITER = 9


class Machine:
    """The machine's callers."""

    def __init__(self, site):
        self.site = site
        self.times = os.open(FOLDER / f"times_{NUMBER}", os.O_WRONLY | os.O_APPEND | os.O_CREAT, 0o644)
        self.may_read, self.stay, self.stopped = threading.Event(), threading.Event(), threading.Event()
        self.inside = {holder: threading.Event() for holder in READERS}
        self.threads = [threading.Thread(target=self.read, args=(holder,)) for holder in READERS]

    def note(self, what, holder):
        """Writes a line of its own into the file, which stays if this process is killed."""
        os.write(self.times, f"{time.monotonic_ns()} {what} {holder}\n".encode())

    def read(self, holder):
        """A reader, again and again."""
        while not self.stopped.is_set():
            if not self.may_read.wait(0.05):
                continue
            try:
                with self.site.read("a", holder, timeout=0.2):
                    self.note("reader", holder)
                    self.inside[holder].set()
                    time.sleep(0.02)
                    while self.stay.is_set():
                        time.sleep(0.02)
                    self.inside[holder].clear()
                    self.note("leaves", holder)
            except TimedOut:
                pass

    def write(self, seconds):
        """The maintenance job."""
        try:
            with self.site.write("a", WRITER, timeout=seconds):
                self.note("writer", WRITER)
                time.sleep(0.2)
                self.note("leaves", WRITER)
        except TimedOut as late:
            return type(late.refusal).__name__
        return "done"

    def give(self, site, seats):
        """Gives seats to another machine, as soon as so many are free."""
        while True:
            try:
                return self.site.give("a", site, seats)
            except TooFewRights:
                time.sleep(0.02)

    def leave_dead(self):
        """Leaves for the callers of a process that was killed."""
        dead = self.site.sessions("a")
        for holder, _ in dead:
            self.note("leaves", holder)
            self.site.leave("a", holder)
        return ", ".join(f"{holder} {phase}" for holder, phase in dead) or "nobody"

    def obey(self, order):
        """Carries out an order, and gives the answer."""
        word, _, rest = order.partition(" ")
        if word == "write":
            return self.write(float(rest))
        if word == "dead":
            return self.leave_dead()
        if word == "give":
            self.give(*map(int, rest.split()))
        elif order == "readers on":
            self.stay.clear()
            self.may_read.set()
        elif order == "readers off":
            self.stay.clear()
            self.may_read.clear()
        elif order == "stay":
            self.stay.set()
            for inside in self.inside.values():
                inside.wait()
        return "done"

    def stop(self):
        """Waits until the readers have left."""
        self.stopped.set()
        self.stay.clear()
        for thread in self.threads:
            thread.join()


def main():
    store = FOLDER / f"site_{NUMBER}.db"
    with Site(store, NUMBER, LAYOUT, GROUP, create=not store.exists(), wait=20, log=FOLDER / f"site_{NUMBER}.log", program=PROGRAM) as site:
        with Exchange(site, Mqtt(GROUP, "127.0.0.1", PORT, timeout=1), interval=0.3, status=FOLDER / f"status_{NUMBER}"):
            machine = Machine(site)
            for thread in machine.threads:
                thread.start()
            print("ready", flush=True)
            for line in sys.stdin:
                if line == "stop\n":
                    break
                print(machine.obey(line.rstrip("\n")), flush=True)
            machine.stop()
    print("stopped", flush=True)


main()
