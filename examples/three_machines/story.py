"""What happens at three machines, in order. Prints it, and leaves it in FOLDER/output.txt too.

    story.py FOLDER"""
import os
import pathlib
import selectors
import shutil
import socket
import subprocess
import sys
import threading
import time

HERE = pathlib.Path(__file__).resolve().parent
FOLDER = pathlib.Path(sys.argv[1])
PROGRAM = os.environ["ZINDUROI_PROGRAM"]
LONG = 240


def need(condition, what):
    """Ends the story where something isn't as it has to be."""
    if not condition:
        sys.exit(f"not as it has to be: {what}")


def wait_for(condition, what):
    """Waits until something holds."""
    end = time.monotonic() + LONG
    while not condition():
        need(time.monotonic() < end, what)
        time.sleep(0.02)


def free_port():
    """A port of this computer that nobody uses."""
    with socket.socket() as probe:
        probe.bind(("127.0.0.1", 0))
        return probe.getsockname()[1]


class Broker:
    """A mosquitto of our own."""

    def __init__(self):
        self.port = free_port()
        self.config = FOLDER / "mosquitto.conf"
        self.config.write_text(f"listener {self.port} 127.0.0.1\nallow_anonymous true\npersistence false\n", encoding="utf-8")
        self.process = None

    def start(self):
        self.process = subprocess.Popen([shutil.which("mosquitto"), "-c", self.config], stdin=subprocess.DEVNULL,
                                        stdout=subprocess.DEVNULL, stderr=subprocess.DEVNULL)

    def stop(self):
        if self.process is not None:
            self.process.terminate()
            self.process.wait()
            self.process = None


class Link:
    """A machine's link to the broker: a port whose connections lead there. While it is cut, nothing passes and nobody is told."""

    def __init__(self, to):
        self.to = to
        self.whole = threading.Event()
        self.whole.set()
        self.listening = socket.create_server(("127.0.0.1", 0))
        self.port = self.listening.getsockname()[1]
        threading.Thread(target=self.accept, daemon=True).start()

    def accept(self):
        while True:
            here, _ = self.listening.accept()
            threading.Thread(target=self.carry, args=(here,), daemon=True).start()

    def carry(self, here):
        """Carries bytes in both directions until one side closes."""
        self.whole.wait()
        try:
            there = socket.create_connection(("127.0.0.1", self.to), 5)
        except OSError:
            here.close()
            return
        with here, there, selectors.DefaultSelector() as both:
            both.register(here, selectors.EVENT_READ, there)
            both.register(there, selectors.EVENT_READ, here)
            try:
                while True:
                    for key, _ in both.select():
                        data = key.fileobj.recv(65536)
                        self.whole.wait()
                        if not data:
                            return
                        key.data.sendall(data)
            except OSError:
                pass


class Machine:
    """A process of machine.py, from outside."""

    def __init__(self, number, link):
        self.number = number
        self.link = link
        self.start()

    def start(self):
        words = [sys.executable, HERE / "machine.py", FOLDER, str(self.number), str(self.link.port)]
        self.process = subprocess.Popen(words, stdin=subprocess.PIPE, stdout=subprocess.PIPE, text=True)
        self.hear("ready")

    def hear(self, wanted=None):
        line = self.process.stdout.readline().rstrip("\n")
        need(wanted in (None, line), f"machine {self.number} answers {line} in place of {wanted}")
        return line

    def order(self, words, wanted=None):
        """An order and its answer."""
        self.process.stdin.write(words + "\n")
        self.process.stdin.flush()
        return self.hear(wanted)

    def kill(self):
        self.process.kill()
        self.process.communicate()

    def stop(self):
        self.order("stop", "stopped")
        need(self.process.wait() == 0, f"machine {self.number} ends well")

    def readings(self):
        """How many readers have been inside."""
        return sum(" reader " in line for line in (FOLDER / f"times_{self.number}").read_text(encoding="utf-8").splitlines())

    def is_empty(self):
        """Whether all who have been inside have left."""
        lines = (FOLDER / f"times_{self.number}").read_text(encoding="utf-8").splitlines()
        return 2 * sum(" leaves " in line for line in lines) == len(lines)


def visits(number):
    """Who was inside at a machine, and from when to when."""
    inside, found = {}, []
    for line in (FOLDER / f"times_{number}").read_text(encoding="utf-8").splitlines():
        when, what, holder = line.split()
        if what == "leaves":
            began, kind = inside.pop(holder)
            found.append((began, int(when), kind, number, holder))
        else:
            need(holder not in inside, f"holder {holder} of machine {number} is inside once")
            inside[holder] = (int(when), what)
    need(not inside, f"all callers of machine {number} have left")
    return found


class Story:
    """The three machines."""

    def __init__(self):
        self.output = (FOLDER / "output.txt").open("w", encoding="utf-8")
        self.broker = Broker()
        self.broker.start()
        self.links = [Link(self.broker.port) for _ in range(3)]
        self.machines = [Machine(number, link) for number, link in enumerate(self.links)]

    def tell(self, text):
        print(text, flush=True)
        print(text, file=self.output, flush=True)

    def readers_work(self, *numbers):
        """Waits until readers were inside, several times, at each of these machines."""
        before = {number: self.machines[number].readings() for number in numbers}
        wait_for(lambda: all(self.machines[number].readings() >= before[number] + 3 for number in numbers), f"readers at {numbers}")

    def maintain(self, number):
        """The maintenance job of a machine gets in."""
        self.machines[number].order(f"write {LONG}", "done")
        self.tell(f"maintenance at machine {number}: inside, and out again")

    def maintain_in_vain(self, number, seconds):
        """The maintenance job of a machine gives up."""
        self.machines[number].order(f"write {seconds}", "MissingSeats")
        self.tell(f"maintenance at machine {number}: seats are missing, so it gives up and withdraws")

    def begin(self):
        for machine in self.machines:
            machine.order("readers on", "done")
        self.readers_work(0, 1, 2)
        self.tell("readers at work at machines 0, 1 and 2")
        self.maintain(2)
        self.readers_work(0, 1, 2)
        self.tell("readers at work at machines 0, 1 and 2")

    def cut_off(self):
        self.links[1].whole.clear()
        self.tell("machine 1 is cut off")
        self.maintain_in_vain(0, 4)
        self.readers_work(0, 1)
        self.tell("readers at work at machines 0 and 1; machine 2 has given its seats to machine 0, which helps machine 1 first")
        self.machines[0].order("give 2 2", "done")
        self.tell("machine 0 gives 2 seats to machine 2")
        self.readers_work(0, 1, 2)
        self.tell("readers at work at machines 0, 1 and 2")
        self.links[1].whole.set()
        self.tell("machine 1 is back")
        self.maintain(0)

    def kill(self):
        self.readers_work(2)
        self.machines[2].order("stay", "done")
        self.tell("two readers stay inside at machine 2")
        self.machines[2].kill()
        self.tell("machine 2 is killed")
        self.maintain_in_vain(1, 4)
        self.machines[2].start()
        self.tell("machine 2 starts again, and finds the sessions of its dead callers")
        dead = self.machines[2].order("dead")
        need(dead in ("1 reader, 2 reader", "2 reader, 1 reader"), f"the sessions of machine 2: {dead}")
        self.tell("machine 2 leaves for holders 1 and 2")
        self.maintain(1)
        self.machines[2].order("readers on", "done")
        self.readers_work(0, 1, 2)
        self.tell("readers at work at machines 0, 1 and 2")

    def stop_broker(self):
        self.broker.stop()
        self.tell("the broker is stopped")
        self.readers_work(0, 1, 2)
        self.tell("readers at work at machines 0, 1 and 2, each with the seats that it has")
        self.maintain_in_vain(1, 4)
        self.broker.start()
        self.tell("the broker is started again, and has forgotten all texts")
        self.maintain(1)

    def end(self):
        self.machines[1].order("stay", "done")
        for machine in self.machines:
            machine.order("readers off", "done")
        wait_for(lambda: all(machine.is_empty() for machine in self.machines), "readers that were told to stay leave behind readers off")
        for machine in self.machines:
            machine.stop()
        self.tell("all machines are stopped")
        found = [visit for number in range(3) for visit in visits(number)]
        writers = [visit for visit in found if visit[2] == "writer"]
        need(len(writers) == 4, f"four writers were inside, not {len(writers)}")
        for writer in writers:
            for other in found:
                need(other is writer or other[1] < writer[0] or writer[1] < other[0], f"{writer} and {other} are not inside at once")
        self.tell("by the callers' own clocks, nobody was inside together with one of the 4 writers")
        logs = b"".join((FOLDER / f"site_{number}.log").read_bytes() for number in range(3))
        judged = subprocess.run([PROGRAM, "judge", "--layout", HERE / "layout.toml"], input=logs, capture_output=True, check=False)
        self.tell(f"judge, of the logs of all sites: {judged.stdout.decode().splitlines()[-1]}")

    def stop(self):
        """Ends what still runs."""
        for machine in self.machines:
            machine.process.kill()
        self.broker.stop()


def main():
    story = Story()
    try:
        story.begin()
        story.cut_off()
        story.kill()
        story.stop_broker()
        story.end()
    finally:
        story.stop()


main()
