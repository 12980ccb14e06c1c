"""What the tests share: the program, folders and layouts. Every test but those of `Fence` runs over the real program: the one
that the variable ZINDUROI_PROGRAM names, or `seat_cli`."""
import hashlib
import os
import pathlib
import shutil
import socket
import subprocess
import sys
import tempfile
import time
import unittest

sys.path.insert(0, str(pathlib.Path(__file__).resolve().parent.parent))

from zinduroi import Site  # noqa: E402

PROGRAM = os.environ.get("ZINDUROI_PROGRAM", "seat_cli")
PACKAGE = pathlib.Path(__file__).resolve().parent.parent


def layout_text(sites, *records):
    """A layout: each record as name, seats, home and problem."""
    parts = [f"sites = {sites}\n"]
    for name, seats, home, problem in records:
        parts.append(f'[[record]]\nname = "{name}"\nseats = {seats}\nhome = {home}\nproblem = {problem}\n')
    return "\n".join(parts)


def digest(text, digits):
    """The first digits of a text's SHA-256."""
    return hashlib.sha256(text.encode("utf-8")).hexdigest()[:digits]


# The records of the layout that each test has: their names, seats, homes and problems, as a store has them.
RECORDS = ";a,3,0,2;b,4,1,1"


def marked(text, group="-", records=RECORDS):
    """A delta's text behind the mark that a site of this group and these records puts in front of it."""
    return f"{group} {digest(records, 16)} {digest(text, 8)} {text}"


def wait_for(condition, seconds=60):
    """Waits until something holds; whether it came to hold."""
    end = time.monotonic() + seconds
    while not condition():
        if time.monotonic() > end:
            return False
        time.sleep(0.01)
    return True


class Case(unittest.TestCase):
    """A test with a folder of its own, and a layout of three sites."""

    def setUp(self):
        self.folder = pathlib.Path(tempfile.mkdtemp(prefix="zinduroi_"))
        self.addCleanup(shutil.rmtree, self.folder, ignore_errors=True)
        self.layout = self.write_layout("layout.toml", 3, ("a", 3, 0, 2), ("b", 4, 1, 1))

    def write_layout(self, name, sites, *records):
        path = self.folder / name
        path.write_text(layout_text(sites, *records), encoding="utf-8")
        return path

    def open(self, site=0, **options):
        """A site over a store that is made if it isn't there; closed after the test."""
        store = options.pop("store", self.folder / f"{site}.db")
        options.setdefault("create", not store.exists())
        options.setdefault("layout", self.layout)
        options.setdefault("program", PROGRAM)
        made = Site(store, site, **options)
        self.addCleanup(made.close)
        return made

    def refused(self, kind, call, *words, **numbers):
        """A call is refused by this class and these numbers."""
        with self.assertRaises(kind) as caught:
            call(*words)
        self.assertIs(type(caught.exception), kind)
        self.assertEqual(caught.exception.name, kind.__name__)
        self.assertEqual({field: getattr(caught.exception, field) for field in kind.fields}, numbers)
        return caught.exception


class Broker:
    """A mosquitto on a free port of this machine, in a folder."""

    def __init__(self, folder):
        self.folder = folder
        with socket.socket() as probe:
            probe.bind(("127.0.0.1", 0))
            self.port = probe.getsockname()[1]
        self.process = None

    @staticmethod
    def program():
        """The broker's program, if it is installed."""
        return shutil.which("mosquitto") or shutil.which("mosquitto", path="/usr/sbin:/usr/local/sbin")

    def start(self):
        config = self.folder / "mosquitto.conf"
        config.write_text(f"listener {self.port} 127.0.0.1\nallow_anonymous true\npersistence false\n"
                          "message_size_limit 4194304\nmax_packet_size 4194304\n", encoding="utf-8")
        self.process = subprocess.Popen([self.program(), "-c", str(config)], stdin=subprocess.DEVNULL,
                                        stdout=subprocess.DEVNULL, stderr=subprocess.DEVNULL, start_new_session=True)
        return wait_for(self.answers, 20)

    def answers(self):
        """Whether it takes connections."""
        try:
            socket.create_connection(("127.0.0.1", self.port), 1).close()
        except OSError:
            return False
        return True

    def stop(self):
        if self.process is not None:
            self.process.terminate()
            self.process.wait()
            self.process = None
