"""A node: its lines and sessions, callers that wait, its end and its start, and the commands that use it."""
import asyncio
import contextlib
import errno
import functools
import io
import json
import os
import pathlib
import shutil
import signal
import socket
import statistics
import sqlite3
import subprocess
import sys
import threading
import time
import types
import unittest
import unittest.mock

from zinduroi import Folder, TransportFailed
from zinduroi.command_line import main
from zinduroi.node import NodeClient, NodeGone
from zinduroi.node.answers import Answers, Caller
from zinduroi.node.book import Book, stored_sessions
from zinduroi.node.connection import Connection
from zinduroi.node.desk import Desk
from zinduroi.node.config import ConfigError, SocketConfig, read_config
from zinduroi.node.lines import LONGEST_LINE, OWN_BYTES, BadWord, Call, Cutter, Plain, Resume, Shared, fits, parse, resumed_text
from zinduroi.node.link import Interrupted
from zinduroi.node.listening import HangUps, Listener
from zinduroi.node.server import Node, Several

from .common import PACKAGE, PROGRAM, Case, wait_for


class Lines(unittest.TestCase):
    """What a line asks for, and how lines are cut."""

    def test_calls(self):
        for line, asked in {
                "read a x": Call("read", "a", "x"), "announce b-1 -": Call("announce", "b-1", None), "write a 7": Call("write", "a", "7"),
                "leave a ?7": Call("leave", "a", "?7"), "fence a -5": Call("fence", "a", "-5"), "keep a x": Call("keep", "a", "x"),
                "evict a -5": Call("evict", "a", "-5"), "wait 5 read a -": Call("read", "a", None, 5.0),
                "wait 0.25 write a backup@host3": Call("write", "a", "backup@host3", 0.25), "token": Plain("token"),
                "status": Plain("status"), "resume " + "0a" * 16: Resume("0a" * 16, False),
                "resume " + "0a" * 16 + " keep": Resume("0a" * 16, True)}.items():
            self.assertEqual(parse(line.encode()), asked, line)
        for line in ("", "send", "take x", "give a 1 2", "show a", "sessions a", "Read a x", " read a x", "reading a x"):
            self.assertIsNone(parse(line.encode()), line)

    def test_wrong_words(self):
        for line, place in {
                "read": 2, "read A x": 2, "read a": 3, "read a ": 3, "read a x y": 4, "read a x ": 4, "read  a x": 2, "read a -5": 3, "read a ?5": 3,
                "read a x,y": 3, "read a x\t": 3, "leave a x\r": 3, "read a " + "x" * 65: 3, "wait": 2, "wait x": 2, "wait -1 read a x": 2,
                "wait 1e3 read a x": 2, "wait 1": 3, "wait 1 leave a x": 3, "wait 1 read": 4, "wait 1 read a": 5, "wait 1 read a x y": 6,
                "resume": 2, "resume 0A": 2, "resume " + "00" * 16 + " kept": 3, "resume " + "00" * 16 + " keep x": 4, "token x": 2,
                "status ": 2}.items():
            self.assertEqual(parse(line.encode()), BadWord(place), line)
        self.assertEqual(parse(b"read a \xff"), BadWord(3))

    def test_words(self):
        for word in ("x", "-", "7", "backup@host3", "é", "x" * 64, "é" * 32, "a-", "a?"):
            self.assertTrue(fits(word), word)
        for word in ("", "x" * 65, "é" * 33, "-x", "?x", "a b", "a,b", "a\x00", "a\u2028"):
            self.assertFalse(fits(word), word)

    def test_cutting(self):
        shared = Shared(1000)
        cutter = Cutter(shared)
        self.assertEqual(cutter.feed(b"ab"), [])
        self.assertTrue(cutter.has_part())
        self.assertEqual(cutter.feed(b"c\n\nd\ne"), [b"abc", b"", b"d"])
        self.assertEqual(cutter.feed(b"x" * 66_000), [])
        self.assertEqual(shared.room, 1000 - (66_001 - 65_536))
        self.assertEqual(cutter.feed(b"y" * 1000), [])
        self.assertEqual(shared.room, 1000)
        self.assertEqual(cutter.feed(b"z" * 70_000 + b"\nnext\n"), ["Memory", b"next"])
        self.assertFalse(cutter.has_part())
        self.assertEqual(cutter.feed(b"x" * 66_000 + b"\n"), [b"x" * 66_000])
        self.assertEqual(shared.room, 1000 - (66_000 - 65_536))
        cutter.answered()
        self.assertEqual(shared.room, 1000)
        cutter.feed(b"x" * 66_000 + b"\n")
        cutter.clear()
        self.assertEqual(shared.room, 1000)
        wide = Cutter(Shared(1 << 30))
        self.assertEqual(wide.feed(b"x" * LONGEST_LINE + b"\n"), [b"x" * LONGEST_LINE])
        self.assertEqual(wide.feed(b"x" * LONGEST_LINE), [])
        self.assertEqual(wide.feed(b"x"), [])
        self.assertEqual(wide.feed(b"\n"), ["TooLong"])

    def test_resumed_text(self):
        """A session of which the store has not said its phase is told as unknown."""
        found = [("a", "x", "reader"), ("b", "w", None)]
        self.assertEqual(resumed_text(found), "resumed 2 a x reader, b w unknown")


class Configs(Case):
    """The file of a node, and what is wrong with it."""

    def config(self, text):
        path = self.folder / "node.toml"
        path.write_text(text, encoding="utf-8")
        return path

    def test_whole(self):
        read = read_config(self.config(
            'site = 2\nstore = "s.db"\nlayout = "/l.toml"\ngroup = "crew"\nlog = "s.log"\nprogram = "bin/seat_cli"\n'
            '[socket]\npath = "s.sock"\nmode = "660"\ngroup = "users"\nconnections = 9\n[exchange]\ninterval = 2\nevery = 3\nhelps = false\n'
            '[[transport]]\nkind = "folder"\npath = "deltas"\n[[transport]]\nkind = "mqtt"\ngroup = "crew"\nhost = "h"\noptions = ["-u", "me"]\n'
            '[[transport]]\nkind = "command"\npublish = "cat"\nmessages = "true"\ntimeout = 1.5\n'))
        self.assertEqual((read.site, read.store, read.layout), (2, self.folder / "s.db", pathlib.Path("/l.toml")))
        self.assertEqual((read.group, read.log, read.program), ("crew", self.folder / "s.log", str(self.folder / "bin/seat_cli")))
        self.assertEqual((read.socket.path, read.socket.mode, read.socket.group, read.socket.connections), (self.folder / "s.sock", 0o660, "users", 9))
        self.assertEqual((read.interval, read.every, read.helps), (2.0, 3, False))
        self.assertEqual([type(make()).__name__ for make in read.transports], ["Folder", "Mqtt", "Command"])
        near = read_config(os.path.relpath(self.config('site = 0\nstore = "s.db"\nprogram = "./seat_cli"\n[socket]\npath = "s.sock"\n')))
        self.assertTrue(near.program.startswith("/"))
        self.assertEqual(os.path.normpath(near.program), str(self.folder / "seat_cli"))

    def test_faults(self):
        right = 'site = 0\nstore = "s.db"\n[socket]\npath = "s.sock"\n'
        self.assertEqual(read_config(self.config(right)).socket.mode, 0o600)
        for text, fault in {
                "site = ": "is not TOML: Invalid value (at end of document)",
                "x = 1\n" + right: "x: is not a key of this table",
                right.replace("site = 0\n", ""): "site: is missing",
                right.replace("0", "16"): "site: is not from 0 to 15: 16",
                right.replace("0", "true"): "site: is not a whole number",
                right.replace('"s.db"', "7"): "store: is not a text",
                right.replace('"s.db"', '""'): "store: is not a text without zero bytes, not empty: ''",
                'group = "Crew"\n' + right: "group: is not 1 to 32 lowercase letters, digits and -, the first a letter; behind a move also a dot and a number: 'Crew'",
                'site = 0\nstore = "s.db"\n': "socket.path: is missing",
                right + 'mode = "689"\n': "socket.mode: is not three octal digits: '689'",
                right + "mode = 660\n": "socket.mode: is not a text",
                right.replace("s.sock", "s" * 200): f"socket.path: has more than 107 bytes, or its folder more than 98: {self.folder / ('s' * 200)}",
                right + "[exchange]\ninterval = 0\n": "exchange.interval: is not from 0.02 to 86400 seconds: 0",
                right + "[exchange]\nhelp = true\n": "exchange.help: is not a key of this table",
                "transport = 7\n" + right: "transport: is not an array of tables",
                right + '[[transport]]\nkind = "pigeon"\n': "transport 1.kind: is none of command, folder, mqtt, peers: 'pigeon'",
                right + '[[transport]]\nkind = "folder"\n': "transport 1.path: is missing",
                right + '[[transport]]\nkind = "folder"\npath = "d"\n[[transport]]\nkind = "folder"\npath = "d"\nx = 1\n':
                    "transport 2.x: is not a key of this table"}.items():
            path = self.config(text)
            with self.assertRaises(ConfigError) as caught:
                read_config(path)
            self.assertEqual(str(caught.exception), f"{path}: {fault}", text)
        with self.assertRaises(ConfigError) as caught:
            read_config(self.folder / "none.toml")
        self.assertEqual(str(caught.exception), f"{self.folder / 'none.toml'}: No such file or directory")


class Books(Case):
    """The book, and its file."""

    def open_book(self):
        book = Book(self.folder / "s.db.sessions")
        self.addCleanup(book.close)
        return book

    def test_sessions(self):
        book, connection = self.open_book(), object()
        first = book.begin("a", "x", "t", connection, 7)
        second = book.begin("a", None, "t", connection, 7)
        self.assertEqual(second.number, first.number + 1)
        self.assertEqual(second.word, f"-{second.number}")
        self.assertEqual(book.tied_to(connection), [first, second])
        book.keep(first)
        self.assertEqual(book.tied_to(connection), [second])
        book.end(second)
        self.assertFalse(book.is_here(second))
        self.assertEqual(book.of_token("t"), [first])
        self.assertIsNone(book.find("b", "x"))
        self.assertGreater(book.begin("b", "x", "u", connection, 7).number, second.number)

    def test_all_or_none_are_kept(self):
        book, connection = self.open_book(), object()
        sessions = [book.begin("a", word, "t", connection, 7) for word in "xy"]
        book._file.execute("CREATE TRIGGER full BEFORE UPDATE ON sessions WHEN old.word = 'y' BEGIN SELECT RAISE(FAIL, 'full'); END")
        self.assertRaises(sqlite3.Error, book.keep, *sessions)
        self.assertEqual([(it.kept, it.tied) for it in sessions], [(False, connection)] * 2)
        numbers = {"a": [(it.number, "reader") for it in sessions]}
        book.close()
        again = self.open_book()
        again.recall(numbers)
        self.assertEqual([it.kept for it in again.sessions()], [False, False])

    def test_recall(self):
        book = self.open_book()
        kept, left, gone = (book.begin("a", word, "t", self, 7) for word in "xyz")
        book.keep(kept)
        book.close()
        again = self.open_book()
        again.recall({"a": [(kept.number, "reader"), (left.number, "waiting"), (7, "reader")], "b": [(gone.number, "reader")]})
        found = [(it.record, it.word, it.token, it.phase, it.tied, it.kept, it.known) for it in again.sessions()]
        self.assertEqual(found, [("a", "?7", "", "reader", None, True, False), ("a", "x", "t", "reader", None, True, True),
                                 ("a", "y", "t", "waiting", None, False, True), ("b", f"?{gone.number}", "", "reader", None, True, False)])
        self.assertEqual(again.of_token(""), [])
        self.assertGreater(again.begin("a", "z", "u", self, 7).number, gone.number)
        again.close()
        other = self.open_book()
        other.recall({})
        self.assertEqual(other.sessions(), [])

    def test_numbers(self):
        """A number is never given twice, whether the file is there or lost."""
        book = self.open_book()
        last = [book.begin("a", None, "t", self, 7) for _ in range(2500)][-1].number
        book.close()
        again = self.open_book()
        self.assertGreater(again.begin("a", None, "t", self, 7).number, last)
        again.close()
        os.unlink(self.folder / "s.db.sessions")
        time.sleep(3)
        self.assertGreater(self.open_book().begin("a", None, "t", self, 7).number, last)

    def test_numbers_behind_a_kill_and_a_clock_that_is_back(self):
        """A number is never given twice, however many of those were given that the file had reserved."""
        given = []
        with unittest.mock.patch("zinduroi.node.book.RESERVED", 3), unittest.mock.patch("time.time", return_value=0.0):
            for many in range(1, 8):
                book = self.open_book()
                book.recall({})
                given += [book.begin("a", None, "t", self, 7).number for _ in range(many)]
                book.close()
        self.assertEqual(len(set(given)), len(given), given)

    def test_numbers_that_can_not_be_reserved(self):
        """No number is given that the file hasn't reserved."""
        book = self.open_book()
        book._file.execute("CREATE TRIGGER full BEFORE INSERT ON numbers BEGIN SELECT RAISE(FAIL, 'full'); END")
        for _ in range(2):
            with self.assertRaises(sqlite3.Error):
                book.begin("a", "x", "t", self, 7)
        self.assertEqual(book.sessions(), [])
        book._file.execute("DROP TRIGGER full")
        book.begin("a", "x", "t", self, 7)

    def test_clock_that_is_far_ahead(self):
        """Callers get numbers, also once the clock was put back."""
        with unittest.mock.patch("time.time", return_value=4e9):
            first = self.open_book()
        number = first.begin("a", "x", "t", self, 7).number
        first.close()
        self.assertGreater(self.open_book().begin("a", "x", "t", self, 7).number, number)

    def test_book_in_use(self):
        book = self.open_book()
        with unittest.mock.patch("sqlite3.connect", functools.partial(sqlite3.connect, timeout=0.1)):
            with self.assertRaises(sqlite3.OperationalError) as caught:
                self.open_book()
        self.assertEqual(str(caught.exception), f"{self.folder}/s.db.sessions: database is locked")
        book.begin("a", "x", "t", self, 7)
        book.close()
        self.open_book()

    def test_not_a_book(self):
        (self.folder / "s.db.sessions").write_bytes(b"no database, but a text that is long enough to be looked at" * 100)
        with self.assertRaises(sqlite3.DatabaseError):
            self.open_book()

    def test_listed(self):
        self.assertEqual(stored_sessions("0"), [])
        self.assertEqual(stored_sessions("2 7 reader, 9 waiting"), [(7, "reader"), (9, "waiting")])


class StubLink:
    """A link whose service ends at the first call, with the store as it says then; later calls are admitted."""

    def __init__(self, phase):
        self.phase = phase
        self.lines = []
        self.site = self

    def tell_listeners(self):
        pass

    async def ask(self, line):
        self.lines.append(line.rsplit(" ", 1)[0])
        if len(self.lines) == 1:
            raise Interrupted
        return {"announce": "announced 1", "leave": "left reader"}.get(line.split(" ")[0], "admitted")

    async def ask_until(self, line):
        if line.startswith("leave"):
            self.lines.append("withdraw")
            return "withdrawn"
        return "0" if self.phase is None else f"2 1 reader, {self.number} {self.phase}"


class Interruptions(Case):
    """A call during which the service ended is made again, unless the store shows that it was carried out."""

    def test_settled(self):
        for verb, before, found, reply, again in (
                ("read", None, None, "admitted", ["read a"]), ("read", None, "reader", "admitted", []),
                ("announce", None, None, "announced 1", ["announce a"]), ("announce", None, "waiting", "announced 1", ["withdraw", "announce a"]),
                ("write", "waiting", "waiting", "admitted", ["write a"]), ("write", "waiting", "writer", "admitted", []),
                ("leave", "reader", None, "left reader", []), ("leave", "writer", None, "left writer", []),
                ("leave", "waiting", None, "withdrawn", []), ("leave", None, None, "refused NotHere", []),
                ("leave", "reader", "reader", "left reader", ["leave a"])):
            book, link = Book(self.folder / f"{verb}{before}{found}"), StubLink(found)
            session = book.begin("a", "x", "t", self, 7)
            session.phase, link.number = before, session.number
            desk = Desk(link, book, lambda record: None)
            with self.subTest(verb=verb, before=before, found=found):
                self.assertEqual(asyncio.run(desk.ask(session, verb)), reply)
                self.assertEqual(link.lines, [f"{verb} a", *again])
                self.assertEqual(session.phase, {"admitted": "writer" if verb == "write" else "reader", "announced 1": "waiting"}.get(reply))
                self.assertEqual(book.is_here(session), verb != "leave")
            book.close()


class ListedLink:
    """A link whose replies are a list; an exception in it is raised."""

    def __init__(self, *replies):
        self.replies, self.lines, self.site = list(replies), [], self

    def tell_listeners(self):
        pass

    async def ask(self, line):
        self.lines.append(line.split(" ")[0])
        reply = self.replies.pop(0)
        if isinstance(reply, Exception):
            raise reply
        return reply

    ask_until = ask


class Refusals(Case):
    """Where the program finds no memory for a line that nobody would repeat, the node does; and no refused writer stays announced."""

    def run_line(self, line, *replies):
        """The reply to a connection's line, and what the line and the end of the connection ask of the program, with these replies."""
        link, book = ListedLink(*replies), Book(self.folder / f"{len(list(self.folder.iterdir()))}.sessions")
        answers, caller = Answers(link, book, ("a",), dict), Caller(1, lambda: True)

        async def converse():
            reply = await answers.answer(caller, line)
            asked, link.lines = link.lines, []
            await answers.end(caller)
            return reply, asked, link.lines
        found = asyncio.run(converse())
        self.assertEqual((book.sessions(), link.replies), ([], []))
        book.close()
        return found

    def test_end_of_a_connection(self):
        self.assertEqual(self.run_line(b"read a x", "admitted", "refused Memory", "left reader"), ("admitted", ["read"], ["leave", "leave"]))

    def test_end_of_a_wait(self):
        self.assertEqual(self.run_line(b"wait 0 write a w", "announced 1", "refused MissingSeats 2 3", "refused Memory", "withdrawn"),
                         ("timeout refused MissingSeats 2 3", ["announce", "write", "leave", "leave"], []))

    def test_refused_writer(self):
        self.assertEqual(self.run_line(b"wait 9 write a w", "announced 1", "refused CounterFull", "withdrawn"),
                         ("refused CounterFull", ["announce", "write", "leave"], []))

    def test_end_of_the_service(self):
        self.assertEqual(self.run_line(b"read a x", Interrupted(), "refused Memory", "0", "admitted", "left reader"),
                         ("admitted", ["read", "sessions", "sessions", "read"], ["leave"]))


class Deltas(Case):
    """A delta may be long, and there is room for it or not only once it is there: few are asked for at once."""

    def test_sends_at_once(self):
        link, book, most = ListedLink(), Book(self.folder / "s.db.sessions"), [0, 0]

        async def ask_bytes(line):
            most[:] = [max(most[0], most[1] + 1), most[1] + 1]
            await asyncio.sleep(0.01)
            most[1] -= 1
            return {b"show a": "rights 3 inside 0 unfinished 0", b"sessions a": "0"}.get(line, "a delta")

        async def ask_all(line):
            link.ask_bytes = ask_bytes
            answers = Answers(link, book, ("a",), dict)
            return set(await asyncio.gather(*(answers.answer(Caller(1, lambda: False), line) for _ in range(50))))
        self.assertEqual((asyncio.run(ask_all(b"send")), most), ({"a delta"}, [4, 0]))
        most[:] = [0, 0]
        self.assertEqual((asyncio.run(ask_all(b"sessions a")), most), ({"0"}, [4, 0]))
        self.assertEqual((asyncio.run(ask_all(b"show a")), most), ({"rights 3 inside 0 unfinished 0"}, [50, 0]))
        book.close()


class Rooms(unittest.TestCase):
    """The room that long replies share."""

    def test_refused_reply(self):
        """A reply that finds no room gives none back, and one that has found some gives back just that."""
        shared, replies = Shared(1000), []

        async def send():
            near, far = socket.socketpair()
            with near, far, far.makefile("rb") as reader:
                near.setblocking(False)
                connection = Connection(near, None, shared, unittest.mock.Mock(), lambda: False)
                for more in (1001, 1000, 1001):
                    sending = asyncio.create_task(connection._send("x" * (OWN_BYTES + more - 1)))
                    replies.append(len(await asyncio.to_thread(reader.readline)))
                    await sending
                    self.assertEqual(shared.room, 1000)
        asyncio.run(send())
        self.assertEqual(replies, [len("refused Memory\n"), OWN_BYTES + 1000, len("refused Memory\n")])


class NodeCase(Case):
    """A test with a node, which is a process of its own. With a log each call is committed by itself; without one calls that wait are
    committed together."""

    logs = True

    def setUp(self):
        super().setUp()
        self.socket = self.folder / "0.sock"
        self.process = None
        self.clients = []
        self.addCleanup(self.end_all)

    def write_config(self, more="", socket="", site=0):
        path = self.folder / f"{site}.toml"
        log = f'log = "{site}.log"\n' if self.logs else ""
        path.write_text(f'site = {site}\nstore = "{site}.db"\nlayout = "layout.toml"\n{log}program = "{PROGRAM}"\n{more}\n'
                        f'[socket]\npath = "{site}.sock"\n{socket}\n[exchange]\ninterval = 0.05\nhelps = false\n[[transport]]\nkind = "folder"\npath = "deltas"\n')
        (self.folder / "deltas").mkdir(exist_ok=True)
        return path

    def spawn(self, config, *words):
        """A process of a node."""
        return subprocess.Popen([sys.executable, "-W", "error", "-m", "zinduroi", "node", "--config", config, *words],
                                env={**os.environ, "PYTHONPATH": str(PACKAGE)}, stderr=subprocess.PIPE, text=True)

    def start(self, more="", socket=""):
        words = [] if (self.folder / "0.db").exists() else ["--create"]
        self.process = self.spawn(self.write_config(more, socket), *words)
        self.assertTrue(wait_for(self.answers, 60), "the node does not start")

    def answers(self):
        try:
            NodeClient(self.socket).close()
        except NodeGone:
            return False
        return True

    def end(self, how=signal.SIGTERM):
        """Ends the node, and gives its exit status and what it printed."""
        self.process.send_signal(how)
        _, errors = self.process.communicate(timeout=60)
        status, self.process = self.process.returncode, None
        return status, errors

    def end_all(self):
        for client in self.clients:
            client.close()
        if self.process is not None:
            self.assertEqual(self.end()[0], 0)

    def connect(self):
        client = NodeClient(self.socket)
        client.socket.settimeout(60)
        self.clients.append(client)
        return client

    def says(self, client, *pairs):
        """A connection's lines have these replies."""
        for line, reply in pairs:
            self.assertEqual(client.ask(line), reply, line)

    def comes(self, line, reply, seconds=20):
        """A line comes to have this reply."""
        client = self.connect()
        self.assertTrue(wait_for(lambda: client.ask(line) == reply, seconds), (line, client.ask(line)))

    def asks(self, line):
        """A connection that has sent a line, and its reply by a function."""
        client = self.connect()
        client.socket.sendall(line.encode() + b"\n")
        client.socket.settimeout(60)
        return client, lambda: client.socket.recv(65536).decode().rstrip("\n")

    @staticmethod
    def rest(client):
        """What comes until the node closes the connection."""
        found = b""
        while data := client.socket.recv(65536):
            found += data
        return found.decode()

    def find_room(self):
        """A connection that is served, once there is room for it."""
        found = []

        def tries():
            client = self.connect()
            try:
                found.append(client if client.ask("show a").startswith("rights") else None)
            except NodeGone:
                return False
            return found[-1] is not None
        self.assertTrue(wait_for(tries))
        return found[-1]

    def queue(self, record):
        return json.loads(self.connect().ask("status"))["records"][record]["queue"]


class Sessions(NodeCase):
    """Whose a session is, and when it is left."""

    def test_lines(self):
        self.start()
        client = self.connect()
        self.says(client, ("read a backup@host3", "admitted"), ("read a backup@host3", "refused AlreadyHere"),
                  ("sessions a", "1 backup@host3 reader"), ("show a", "rights 2 inside 1 unfinished 0"), ("read c x", "refused NoRecord"),
                  ("fence a backup@host3", "fence 17592186044416"), ("fence a x", "refused NotHere"), ("write a x", "refused NotAnnounced"),
                  ("leave a x", "refused NotHere"), ("announce a w", "announced 1"), ("fence a w", "refused NotHere"),
                  ("write a w", "refused MissingSeats 2 3"), ("read a y", "refused WriterAnnounced 0"),
                  ("sessions a", "2 backup@host3 reader, w waiting"), ("leave a backup@host3", "left reader"), ("write a w", "admitted"),
                  ("write a w", "refused AlreadyInside"), ("sessions a", "1 w writer"), ("leave a w", "left writer"), ("sessions a", "0"),
                  ("reed", "refused BadWord 1"), ("give a 0 1", "refused ToSelf"), ("help b", "refused NoPlan"), ("take x", "refused NoMark"),
                  ("give a 1 1", "given"), ("announce c w", "refused NoRecord"), ("wait 1 read c w", "refused NoRecord"))

    def test_chosen_words(self):
        self.start()
        client, other = self.connect(), self.connect()
        self.says(client, ("write a -", "refused NotAnnounced"), ("leave a -", "refused NotHere"), ("fence a -", "refused NotHere"),
                  ("read a -", "admitted"), ("read a -", "refused AlreadyHere"), ("read b -", "refused NoSeat 0"),
                  ("fence a -", "fence 17592186044416"))
        self.says(other, ("leave a -", "refused NotHere"), ("read a -", "admitted"), ("leave a -", "left reader"))
        number = client.ask("sessions a").split(" ")[1]
        self.assertRegex(number, "^-[0-9]+$")
        self.says(other, (f"leave a {number}", "refused NotYours"), (f"fence a {number}", "fence 17592186044416"))
        self.says(client, ("leave a -", "left reader"), ("announce a -", "announced 1"), ("write a -", "admitted"), ("leave a -", "left writer"))

    def test_end_of_a_connection(self):
        self.start()
        client, other = self.connect(), self.connect()
        self.says(client, ("read a x", "admitted"), ("read a y", "admitted"), ("announce b w", "announced 1"))
        self.says(other, ("read a z", "admitted"), ("leave a x", "refused NotYours"), ("evict a x", "refused InUse"))
        client.close()
        self.comes("sessions a", "1 z reader")
        self.comes("sessions b", "0")
        self.says(other, ("leave a z", "left reader"))

    def test_shut_down(self):
        """A connection that says no more, but is not closed, has not ended; one that is shut down both ways has."""
        self.start()
        client = self.connect()
        self.says(client, ("read a x", "admitted"))
        client.socket.shutdown(socket.SHUT_WR)
        time.sleep(0.3)
        self.says(self.connect(), ("sessions a", "1 x reader"))
        client.close()
        self.comes("sessions a", "0")
        client = self.connect()
        self.says(client, ("read a x", "admitted"))
        client.socket.shutdown(socket.SHUT_RDWR)
        self.comes("sessions a", "0")
        idle, reply = self.asks("show b")
        idle.socket.shutdown(socket.SHUT_WR)
        self.assertEqual(reply(), "rights 0 inside 0 unfinished 0")
        self.assertEqual(reply(), "")

    def test_a_copy_is_held(self):
        self.start()
        client = self.connect()
        self.says(client, ("read a x", "admitted"))
        child = subprocess.Popen(["cat"], stdin=subprocess.PIPE, pass_fds=[client.fileno()])
        client.close()
        time.sleep(0.3)
        self.says(self.connect(), ("sessions a", "1 x reader"))
        child.communicate()
        self.comes("sessions a", "0")

    def test_lines_before_the_end(self):
        """The lines that a connection sent before it ended are carried out, and its sessions left behind them."""
        self.start()
        client = self.connect()
        client.socket.sendall(b"read a x\nread a y\nkeep a y\ngive a 1 1\nread a z\n")
        client.close()
        self.comes("show a", "rights 1 inside 1 unfinished 0")
        self.comes("sessions a", "1 y reader")
        client = self.connect()
        client.socket.sendall(b"leave a x\nsend a\nleave a y")
        client.socket.shutdown(socket.SHUT_WR)
        self.assertEqual(self.rest(client), "refused NotHere\nrefused BadWord 2\nrefused BadWord\n")

    def test_interrupted_line(self):
        """No reply is taken for that of a later line, and the sessions stay until the connection is closed."""
        self.start()
        self.says(self.connect(), ("read a h", "admitted"))
        client = self.connect()
        self.says(client, ("read a x", "admitted"))
        client.socket.settimeout(0.2)
        for line in ("wait 1 write a w", "leave a x"):
            with self.assertRaises(NodeGone):
                client.ask(line)
            time.sleep(1.5)
        self.comes("sessions a", "2 h reader, x reader")
        client.close()
        self.comes("sessions a", "1 h reader")

    def test_keep_and_resume(self):
        self.start()
        client, other = self.connect(), self.connect()
        token = client.ask("token").split(" ")[1]
        self.says(client, ("token", f"token {token}"), ("read a x", "admitted"), ("read a y", "admitted"), ("keep a x", f"kept {token}"),
                  ("keep a z", "refused NotHere"), ("keep a -", "refused NotHere"))
        self.says(other, ("keep a x", "refused NotYours"), ("resume " + "0" * 32, "refused NoToken"))
        client.close()
        self.comes("sessions a", "1 x reader")
        self.says(other, ("leave a x", "refused NotYours"), (f"resume {token}", "resumed 1 a x reader"), (f"resume {token}", "resumed 1 a x reader"))
        third = self.connect()
        self.says(third, (f"resume {token}", "refused InUse"))
        other.close()
        self.comes("sessions a", "0")
        self.says(third, (f"resume {token}", "refused NoToken"), ("read a v", "admitted"))
        token = third.ask("keep a v").split(" ")[1]
        self.says(third, (f"resume {token} keep", "resumed 1 a v reader"), ("leave a v", "left reader"), ("read a v", "admitted"),
                  ("keep a v", f"kept {token}"))
        self.says(self.connect(), ("evict a v", "left reader"), ("evict a v", "refused NotHere"))


    def test_resume_behind_a_session_that_was_left(self):
        """`-` then names the session that was resumed."""
        self.start()
        client, other = self.connect(), self.connect()
        self.says(client, ("read a -", "admitted"))
        token, number = client.ask("keep a -").split(" ")[1], client.ask("sessions a").split(" ")[1]
        self.says(other, ("read a -", "admitted"), ("leave a -", "left reader"), (f"resume {token}", f"resumed 1 a {number} reader"),
                  ("leave a -", "left reader"), ("sessions a", "0"))


class SessionsWithoutLog(Sessions):
    logs = False


class Restarts(NodeCase):
    """A node that ends, and one that is started again."""

    def test_sessions_of_before(self):
        self.start()
        client = self.connect()
        token = client.ask("token").split(" ")[1]
        self.says(client, ("read a x", "admitted"), ("read a -", "admitted"), ("announce b w", "announced 1"))
        other = self.connect()
        self.says(other, ("read a y", "admitted"))
        self.assertEqual(self.end(signal.SIGKILL)[0], -9)
        with self.assertRaises(NodeGone):
            client.ask("show a")
        self.start()
        number = next(it["number"] for it in json.loads(self.connect().ask("status"))["callers"] if it["holder"].startswith("-"))
        self.says(self.connect(), ("sessions a", f"3 x reader, -{number} reader, y reader"), ("sessions b", "1 w waiting"),
                  ("leave a x", "refused NotYours"), ("read a x", "refused NotYours"))
        again = self.connect()
        self.says(again, (f"resume {token}", f"resumed 3 a x reader, a -{number} reader, b w waiting"), ("leave a -", "left reader"),
                  ("token", f"token {token}"), ("leave b w", "withdrawn"))
        again.close()
        self.comes("sessions a", "1 y reader")
        time.sleep(0.3)
        self.says(self.connect(), ("sessions a", "1 y reader"), ("evict a y", "left reader"))

    def test_stop(self):
        """A stop leaves no session, but withdraws who waits, without an answer."""
        self.start()
        client = self.connect()
        self.says(client, ("read a x", "admitted"))
        _, reply = self.asks("wait 60 write a w")
        self.comes("sessions a", "2 x reader, w waiting")
        status, errors = self.end()
        self.assertEqual((status, errors), (0, f"zinduroi: site 0 at {self.socket}\n"))
        self.assertEqual(reply(), "")
        self.assertFalse(self.socket.exists())
        self.start()
        self.says(self.connect(), ("sessions a", "1 x reader"))

    def test_stop_while_the_program_hangs(self):
        """The node ends, and what was answered is in the store."""
        self.start()
        client = self.connect()
        self.says(client, ("read a x", "admitted"))
        service = json.loads(client.ask("status"))["service"]
        os.kill(service, signal.SIGSTOP)
        try:
            self.process.terminate()
            _, errors = self.process.communicate(timeout=40)
        finally:
            with contextlib.suppress(ProcessLookupError):
                os.kill(service, signal.SIGCONT)
        self.assertIn("zinduroi: the program does not answer, and is killed: what it has answered is in the store\n", errors)
        self.assertEqual(self.process.returncode, 0)
        self.start()
        self.says(self.connect(), ("sessions a", "1 x reader"))

    def test_stop_while_a_started_program_hangs(self):
        """The program has ended, and the one that is started in its place, by a script, says nothing."""
        script = self.folder / "program"
        script.write_text(f'#!/bin/sh\nif [ "$1" = serve ] && [ -e {self.folder}/hang ]; then : > {self.folder}/hangs; sleep 600; exit 1; fi\nexec {PROGRAM} "$@"\n')
        script.chmod(0o755)
        with unittest.mock.patch(f"{__name__}.PROGRAM", str(script)):
            self.start()
        client = self.connect()
        self.says(client, ("read a x", "admitted"))
        (self.folder / "hang").touch()
        os.kill(json.loads(client.ask("status"))["service"], signal.SIGKILL)
        self.assertTrue(wait_for((self.folder / "hangs").exists, 30))
        self.process.terminate()
        _, errors = self.process.communicate(timeout=40)
        self.assertIn("zinduroi: the program does not answer, and is killed: what it has answered is in the store\n", errors)
        self.assertEqual(self.process.returncode, 0)
        self.start()
        self.says(self.connect(), ("sessions a", "1 x reader"))

    def test_stop_while_the_program_hangs_at_the_start(self):
        """It has opened the store, and does not answer behind that."""
        script = self.folder / "program"
        script.write_text(f'#!/bin/sh\nif [ "$1" = serve ]; then read line; echo "refused BadWord 1"; : > {self.folder}/hangs; sleep 600; exit 1; fi\nexec {PROGRAM} "$@"\n')
        script.chmod(0o755)
        with unittest.mock.patch(f"{__name__}.PROGRAM", str(script)):
            process = self.spawn(self.write_config(), "--create")
        try:
            self.assertTrue(wait_for((self.folder / "hangs").exists, 60))
            time.sleep(0.5)
            process.terminate()
            _, errors = process.communicate(timeout=40)
        finally:
            process.kill()
            process.communicate()
        self.assertEqual(process.returncode, 0)
        self.assertIn("ended while it waited for", errors)

    def test_stop_while_a_folder_hangs(self):
        """A pipe that nobody writes to stands for a folder of a server that is away."""
        self.start()
        self.says(self.connect(), ("read a x", "admitted"))
        os.mkfifo(self.folder / "deltas" / "1.delta")
        time.sleep(1)
        self.process.terminate()
        try:
            _, errors = self.process.communicate(timeout=90)
        finally:
            self.process.kill()
            self.process.communicate()
        self.assertEqual(self.process.returncode, 0)
        self.assertIn("zinduroi: a transport does not answer, and is left: what this site knows may not have been sent\n", errors)
        (self.folder / "deltas" / "1.delta").unlink()
        self.start()
        self.says(self.connect(), ("sessions a", "1 x reader"))

    def test_start_while_a_folder_hangs(self):
        self.start()
        self.process.terminate()
        self.process.communicate(timeout=40)
        os.mkfifo(self.folder / "deltas" / "1.delta")
        process = self.process = self.spawn(self.write_config())
        self.assertRegex(process.stderr.readline(), "^zinduroi: waits for the transports .* s now\n$")
        process.terminate()
        try:
            _, errors = process.communicate(timeout=40)
        finally:
            process.kill()
            process.communicate()
        self.assertEqual(process.returncode, 0)
        self.assertIn("ended while it waited for the transports", errors)

    def test_strangers(self):
        """A session that the node doesn't know is listed, and left by an operator alone."""
        with self.open(log=self.folder / "0.log" if self.logs else None) as site:
            site.call("read a 7")
        self.start()
        client = self.connect()
        self.says(client, ("sessions a", "1 ?7 reader"), ("leave a ?7", "refused NotYours"), ("read a 7", "admitted"),
                  ("sessions a", "2 ?7 reader, 7 reader"), ("evict a ?7", "left reader"), ("evict a 7", "refused InUse"))

    def test_lost_book(self):
        self.start()
        client = self.connect()
        token = client.ask("token").split(" ")[1]
        self.says(client, ("read a x", "admitted"))
        self.end(signal.SIGKILL)
        for path in self.folder.glob("0.db.sessions*"):
            path.unlink()
        self.start()
        word = self.connect().ask("sessions a").split(" ")[1]
        self.says(self.connect(), (f"resume {token}", "refused NoToken"), (f"leave a {word}", "refused NotYours"), (f"evict a {word}", "left reader"))

    def test_service_ends(self):
        """The service is started anew, and calls that it had not answered are made again, or are found to be carried out."""
        self.start()
        client = self.connect()
        self.says(client, ("read a x", "admitted"))
        os.kill(json.loads(client.ask("status"))["service"], signal.SIGKILL)
        self.says(client, ("read a y", "admitted"), ("sessions a", "2 x reader, y reader"), ("announce b w", "announced 1"))
        client.close()
        self.comes("sessions a", "0")

    def test_service_of_an_idle_node_ends(self):
        """The exchange goes on, though no caller says a line for which the service would be started anew."""
        self.start()
        with NodeClient(self.socket) as client:
            service = json.loads(client.ask("status"))["service"]
        other, told = self.open(1), self.folder / "deltas" / "0.delta"
        self.assertTrue(wait_for(told.exists))
        other.announce("a", 9)
        os.kill(service, signal.SIGKILL)
        Folder(self.folder / "deltas").publish(1, other.send())
        self.assertTrue(wait_for(lambda: '"s":1,' in told.read_text(), 20))

    def test_second_node(self):
        """A node that gets the store of another one, whose service has ended, doesn't serve: it knows nothing of its connections."""
        self.start()
        client = self.connect()
        self.says(client, ("read a x", "admitted"))
        service = json.loads(client.ask("status"))["service"]
        os.kill(service, signal.SIGSTOP)
        config = self.folder / "second.toml"
        config.write_text(self.write_config().read_text().replace('"0.sock"', '"second.sock"'))
        second = self.spawn(config)
        self.addCleanup(second.kill)
        time.sleep(2)
        os.kill(service, signal.SIGKILL)
        errors = second.communicate(timeout=30)[1]
        # Where the first one was faster it has its store again. On a busy machine the second one says first that it waits.
        self.assertIn(f"{errors.splitlines()[-1]}\n", (f"zinduroi: {self.folder}/0.db.sessions: database is locked\n", f"zinduroi: store refused InUse: {self.folder}/0.db\n"))
        self.assertEqual(second.returncode, 1)
        self.says(client, ("sessions a", "1 x reader"))

    def test_service_that_does_not_start(self):
        """A program that is away for a moment, as one that is being replaced: what came meanwhile is carried out behind that."""
        program = self.folder / "program"
        program.symlink_to(shutil.which(PROGRAM))
        config = self.write_config()
        config.write_text(config.read_text().replace(f'"{PROGRAM}"', f'"{program}"'))
        self.process = self.spawn(config, "--create")
        self.assertTrue(wait_for(self.answers))
        client, other = self.connect(), self.connect()
        self.says(client, ("read a x", "admitted"))
        service = json.loads(client.ask("status"))["service"]
        program.rename(self.folder / "away")
        os.kill(service, signal.SIGKILL)
        client.close()
        other.socket.sendall(b"read a y\n")
        self.assertRegex([self.process.stderr.readline() for _ in range(2)][1], "the service does not start: .*No such file")
        (self.folder / "away").rename(program)
        self.assertEqual(other.socket.recv(100), b"admitted\n")
        self.comes("sessions a", "1 y reader")

    def test_socket(self):
        self.start(socket='mode = "640"')
        self.assertEqual(self.socket.stat().st_mode & 0o777, 0o640)
        second = self.spawn(self.write_config())
        self.assertEqual(second.communicate(timeout=60)[1], f"zinduroi: socket refused InUse: {self.socket}\n")
        self.assertEqual(second.returncode, 1)
        self.end(signal.SIGKILL)
        self.assertTrue(self.socket.exists())
        self.start()
        self.end()
        self.socket.write_text("")
        second = self.spawn(self.write_config())
        self.assertEqual(second.communicate(timeout=60)[1], f"zinduroi: socket refused NotASocket: {self.socket}\n")
        self.socket.unlink()
        with socket.socket(socket.AF_UNIX) as other:
            other.bind(str(self.socket))
            other.listen()
            second = self.spawn(self.write_config())
            self.assertEqual(second.communicate(timeout=60)[1], f"zinduroi: socket refused InUse: {self.socket}\n")
        for more, name in (('group = "nobody-has-this"', "NoGroup: 0.sock: nobody-has-this"),):
            second = self.spawn(self.write_config(socket=more))
            self.assertIn(name.split(":")[0], second.communicate(timeout=60)[1])

    def test_sockets_of_one_folder(self):
        """Nodes whose processes have one number, in containers of their own, start at once: each gets its own socket."""
        one, two = (Listener(SocketConfig(self.folder / name, 0o600, None, 9)) for name in ("one.sock", "two.sock"))
        self.addCleanup(one.close)
        self.addCleanup(two.close)
        replace, parts = os.replace, []

        def replace_behind(part, path):
            parts.append(part)
            if len(parts) == 1:
                two.listen()
            replace(part, path)
        with unittest.mock.patch("os.replace", replace_behind):
            one.listen()
        for listener in (one, two):
            with NodeClient(listener.path):
                accepted, _ = listener.socket.accept()
                accepted.close()

    def test_faults_of_the_start(self):
        for change, status, fault in ((("0.db", "none.db"), 1, "zinduroi: store refused NoStore: {folder}/none.db\n"),
                                      (("layout.toml", "none.toml"), 1, "zinduroi: layout refused NotRead: {folder}/none.toml\n"),
                                      (("site = 0", "site = 99"), 78, "zinduroi: {config}: site: is not from 0 to 15: 99\n")):
            with self.open():
                pass
            config = self.write_config()
            config.write_text(config.read_text().replace(*change))
            process = self.spawn(config)
            errors = process.communicate(timeout=60)[1]
            self.assertEqual((errors, process.returncode), (fault.format(config=config, folder=self.folder), status))

    def test_slow_program(self):
        """A node says that it waits for a program that doesn't answer, as a launcher that builds it first, and can be ended meanwhile."""
        slow = self.folder / "slow"
        slow.write_text(f'#!/bin/sh\nuntil [ -e "{self.folder}/go" ]; do sleep 0.1; done\nexec "{PROGRAM}" "$@"\n')
        slow.chmod(0o755)
        config = self.write_config()
        config.write_text(config.read_text().replace(f'"{PROGRAM}"', f'"{slow}"'))
        self.process = self.spawn(config, "--create")
        self.assertRegex(self.process.stderr.readline(), f"^zinduroi: waits for {slow} to read the layout, for [0-9]+ s now\n$")
        began = time.monotonic()
        self.assertEqual(self.end(), (0, f"zinduroi: ended while it waited for {slow} to read the layout\n"))
        self.assertLess(time.monotonic() - began, 10)
        self.assertFalse((self.folder / "0.db").exists())
        self.process = self.spawn(config, "--create")
        (self.folder / "go").touch()
        self.assertTrue(wait_for(self.answers))

    def test_folder_away(self):
        """A folder that is not there was mistyped at the first start; later it may be away."""
        config = self.write_config()
        (self.folder / "deltas").rmdir()
        process = self.spawn(config, "--create")
        errors = process.communicate(timeout=60)[1]
        self.assertEqual((errors, process.returncode), (f"zinduroi: [Errno 2] No such file or directory: '{self.folder}/deltas'\n", 1))
        self.assertFalse((self.folder / "0.db").exists())
        self.start()
        self.end()
        shutil.rmtree(self.folder / "deltas")
        self.process = self.spawn(config)
        self.assertTrue(wait_for(self.answers))
        (self.folder / "deltas").mkdir()
        self.says(self.connect(), ("announce a w", "announced 1"), ("leave a w", "withdrawn"))
        self.assertTrue(wait_for((self.folder / "deltas" / "0.delta").exists))
        self.assertIn("a transport fails; it is tried again", self.end()[1])


    def test_one_of_two_folders_away(self):
        """It is told, at the first start too, and the texts of the other one are taken."""
        config = self.write_config()
        config.write_text(config.read_text() + '[[transport]]\nkind = "folder"\npath = "other"\n')
        self.process = self.spawn(config, "--create")
        errors = self.process.communicate(timeout=20)[1]
        self.assertEqual((errors, self.process.returncode), (f"zinduroi: [Errno 2] No such file or directory: '{self.folder}/other'\n", 1))
        self.assertFalse((self.folder / "0.db").exists())
        (self.folder / "other").mkdir()
        self.process = self.spawn(config, "--create")
        self.assertTrue(wait_for(self.answers))
        self.end()
        shutil.rmtree(self.folder / "other")
        self.process = self.spawn(config)
        self.assertTrue(wait_for(self.answers))
        other = self.open(1)
        other.give("b", 0, 1)
        Folder(self.folder / "deltas").publish(1, other.send())
        self.comes("show b", "rights 1 inside 0 unfinished 0")
        self.assertGreater(json.loads(self.connect().ask("status"))["exchange"]["failed"]["FileNotFoundError"], 0)
        self.assertIn("a transport fails; it is tried again", self.end()[1])

    def test_messages_that_can_not_be_fetched(self):
        """A transport that publishes, and has no messages, is told beside one that has."""
        good = types.SimpleNamespace(messages=lambda: ["x", "y"])
        bad = types.SimpleNamespace(messages=lambda: (_ for _ in ()).throw(TransportFailed("away")))
        for transports in ([good, bad], [bad, good]):
            found = []
            with self.assertRaises(TransportFailed):
                found.extend(Several(transports).messages())
            self.assertEqual(found, ["x", "y"])


class RestartsWithoutLog(Restarts):
    logs = False


class Waits(NodeCase):
    """Callers that wait."""

    def test_readers_and_writers_in_order(self):
        self.start()
        holder = self.connect()
        self.says(holder, ("announce a h", "announced 1"), ("write a h", "admitted"))
        waiting = []
        for word, verb in (("r1", "read"), ("r2", "read"), ("w1", "write"), ("r3", "read"), ("w2", "write")):
            waiting.append(self.asks(f"wait 60 {verb} a {word}"))
            self.assertTrue(wait_for(lambda: self.queue("a")[-1:] == [word]))
        self.assertEqual(self.queue("a"), ["r1", "r2", "w1", "r3", "w2"])
        self.says(holder, ("leave a h", "left writer"))
        self.assertEqual([waiting[at][1]() for at in (0, 1)], ["admitted", "admitted"])
        self.comes("sessions a", "3 r1 reader, r2 reader, w1 waiting")
        waiting[0][0].close()
        waiting[1][0].close()
        self.assertEqual(waiting[2][1](), "admitted")
        self.says(self.connect(), ("sessions a", "1 w1 writer"))
        waiting[2][0].close()
        self.assertEqual(waiting[3][1](), "admitted")
        self.comes("sessions a", "2 r3 reader, w2 waiting")
        waiting[3][0].close()
        self.assertEqual(waiting[4][1](), "admitted")

    def test_time_over(self):
        self.start()
        holder = self.connect()
        self.says(holder, ("read a h", "admitted"))
        began = time.monotonic()
        self.says(self.connect(), ("wait 0 write a w", "timeout refused MissingSeats 2 3"), ("wait 0.3 write a -", "timeout refused MissingSeats 2 3"),
                  ("sessions a", "1 h reader"), ("wait 0 read b x", "timeout refused NoSeat 0"), ("wait 5 read a h", "refused NotYours"))
        self.assertGreater(time.monotonic() - began, 0.3)
        _, first = self.asks("wait 1 write a w")
        self.comes("sessions a", "2 h reader, w waiting")
        _, second = self.asks("wait 0.2 read a x")
        self.assertEqual(second(), "timeout refused Queued 1")
        self.assertEqual(first(), "timeout refused MissingSeats 2 3")
        self.says(self.connect(), ("sessions a", "1 h reader"), ("wait 0 read a x", "admitted"))

    def test_end_of_a_connection_that_waits(self):
        self.start()
        holder = self.connect()
        self.says(holder, ("read a h", "admitted"))
        writer, _ = self.asks("wait 60 write a w")
        self.comes("sessions a", "2 h reader, w waiting")
        reader, _ = self.asks("wait 60 read a r")
        self.assertTrue(wait_for(lambda: self.queue("a") == ["w", "r"]))
        writer.close()
        self.comes("sessions a", "2 h reader, r reader")
        reader.close()
        self.comes("sessions a", "1 h reader")
        self.assertEqual(self.queue("a"), [])

    def test_kept_writer_that_waits(self):
        """It doesn't end with the connection that waits for it, and is withdrawn at the end of the time."""
        self.start()
        holder, client = self.connect(), self.connect()
        self.says(holder, ("read a h", "admitted"))
        self.says(client, ("announce a w", "announced 1"))
        token = client.ask("keep a w").split(" ")[1]
        client.socket.sendall(b"wait 60 write a w\n")
        self.assertTrue(wait_for(lambda: self.queue("a") == ["w"]))
        client.close()
        self.assertTrue(wait_for(lambda: self.queue("a") == []))
        time.sleep(0.3)
        self.says(self.connect(), (f"resume {token}", "resumed 1 a w waiting"), ("wait 0.1 write a w", "timeout refused MissingSeats 2 3"),
                  ("sessions a", "1 h reader"))

    def test_announced_before(self):
        """A writer that is announced already doesn't wait for a reader that waits for it."""
        self.start()
        client, holder = self.connect(), self.connect()
        self.says(holder, ("read a h", "admitted"))
        self.says(client, ("announce a w", "announced 1"))
        reader, read = self.asks("wait 60 read a r")
        self.assertTrue(wait_for(lambda: self.queue("a") == ["r"]))
        client.socket.sendall(b"wait 60 write a w\n")
        self.assertTrue(wait_for(lambda: self.queue("a") == ["r", "w"]))
        self.says(holder, ("leave a h", "left reader"))
        self.assertEqual(client.socket.recv(100), b"admitted\n")
        self.says(client, ("leave a w", "left writer"))
        self.assertEqual(read(), "admitted")

    def test_lines_behind_a_wait(self):
        self.start()
        holder = self.connect()
        self.says(holder, ("announce a h", "announced 1"), ("write a h", "admitted"))
        client, _ = self.asks("wait 60 read a x\nshow a\nleave a x\nshow a")
        client.socket.shutdown(socket.SHUT_WR)
        self.assertTrue(wait_for(lambda: self.queue("a") == ["x"]))
        self.says(holder, ("leave a h", "left writer"))
        self.assertEqual(self.rest(client), "admitted\nrights 2 inside 1 unfinished 0\nleft reader\nrights 3 inside 0 unfinished 0\n")

    def test_woken_by_another_site(self):
        """A delta wakes who waits: with a safety net of 5 seconds, it takes less."""
        self.start()
        other = self.open(1)
        client = self.connect()
        self.says(client, ("wait 0 read b x", "timeout refused NoSeat 0"))
        _, reply = self.asks("wait 60 read b x")
        self.assertTrue(wait_for(lambda: self.queue("b") == ["x"]))
        time.sleep(0.2)
        other.give("b", 0, 1)
        began = time.monotonic()
        text = other.send()
        part = self.folder / "deltas" / "part"
        part.write_text(text + "\n")
        part.rename(self.folder / "deltas" / "1.delta")
        self.assertEqual(reply(), "admitted")
        self.assertLess(time.monotonic() - began, 4)


# A client that sends lines which the node answers by itself, and reads each reply at once; and one that connects again and again.
LINES = """
import socket, sys, threading
flood = socket.socket(socket.AF_UNIX)
flood.connect(sys.argv[1])

def drain():
    while flood.recv(1 << 20):
        pass
threading.Thread(target=drain, daemon=True).start()
while True:
    flood.sendall(b"wait\\n" * 20_000)
"""
CONNECTIONS = """
import socket, sys
while True:
    with socket.socket(socket.AF_UNIX) as flood:
        flood.connect(sys.argv[1])
"""


class Crowds(NodeCase):
    """Long lines, floods, and clients that never read: the others are served."""

    def test_others_are_served(self):
        self.start(socket="connections = 20")
        flood, deaf, long = self.connect(), self.connect(), self.connect()
        for client, data in ((flood, b"show a\n" * 200_000), (deaf, b"send\n" * 200_000), (long, b"x" * 5_000_000)):
            threading.Thread(target=self.push, args=(client.socket, data), daemon=True).start()
        time.sleep(0.5)
        client = self.connect()
        began = time.monotonic()
        for _ in range(50):
            self.says(client, ("read a x", "admitted"), ("leave a x", "left reader"))
        self.assertLess(time.monotonic() - began, 30)
        long.socket.settimeout(30)
        self.push(long.socket, b"\nshow b\n")
        found = b""
        while found.count(b"\n") < 2 and (data := long.socket.recv(100)):
            found += data
        self.assertEqual(found, b"refused TooLong\nrights 0 inside 0 unfinished 0\n")
        flood.close()
        deaf.close()
        self.comes("sessions a", "0")

    def test_floods(self):
        """Three clients that never have to wait for the node: somebody else's line takes this long in the middle, also on a busy machine."""
        self.start()
        client = self.connect()
        for script in (LINES, CONNECTIONS):
            with self.subTest(script=script):
                floods = [subprocess.Popen([sys.executable, "-c", script, self.socket], stderr=subprocess.DEVNULL) for _ in range(3)]
                times, end = [], time.monotonic() + 6
                try:
                    while time.monotonic() < end:
                        began = time.monotonic()
                        self.says(client, ("show a", "rights 3 inside 0 unfinished 0"))
                        times.append(time.monotonic() - began)
                    self.assertEqual([flood.poll() for flood in floods], [None] * 3)
                finally:
                    for flood in floods:
                        flood.kill()
                        flood.wait()
                self.assertLess(statistics.median(times), 1)

    def test_long_lines_at_once(self):
        """Lines that wait for the program have no more room than lines that are coming in."""
        self.start()
        service = json.loads(self.connect().ask("status"))["service"]
        os.kill(service, signal.SIGSTOP)
        clients = [self.connect() for _ in range(20)]
        threads = [threading.Thread(target=self.push, args=(client.socket, b"take " + b"x" * 2_000_000 + b"\n")) for client in clients]
        for thread in threads:
            thread.start()
        for thread in threads:
            thread.join()
        time.sleep(1)
        os.kill(service, signal.SIGCONT)
        replies = [client.socket.recv(100) for client in clients]
        self.assertEqual(set(replies), {b"refused NoMark\n", b"refused Memory\n"})
        self.assertLessEqual(replies.count(b"refused NoMark\n"), 8)
        self.says(self.connect(), ("take " + "x" * 2_000_000, "refused NoMark"))

    @staticmethod
    def push(to, data):
        with contextlib.suppress(OSError):
            to.sendall(data)

    def test_connection_that_can_not_be_watched(self):
        """As where the kernel has no room for that: it is closed, and the next one is served."""
        watch, errors = HangUps.watch, io.StringIO()
        faults = [OSError(errno.ENOSPC, "no room")]

        def watch_or_fail(*words):
            if faults:
                raise faults.pop()
            watch(*words)

        def talk():
            with NodeClient(self.socket) as first:
                first.socket.settimeout(10)
                self.assertRaises(NodeGone, first.ask, "show a")
            with NodeClient(self.socket) as second:
                second.socket.settimeout(10)
                self.says(second, ("show a", "rights 3 inside 0 unfinished 0"))

        async def run():
            node = Node(read_config(self.write_config()))
            running = asyncio.create_task(node.run(True))
            try:
                self.assertTrue(await asyncio.to_thread(wait_for, self.socket.exists))
                await asyncio.wait_for(asyncio.to_thread(talk), 20)
            finally:
                node.stop()
                await running
        with unittest.mock.patch.object(HangUps, "watch", watch_or_fail), contextlib.redirect_stderr(errors):
            asyncio.run(run())
        self.assertIn("zinduroi: a connection can't be served: [Errno 28] no room\n", errors.getvalue())

    def test_standard_error_that_nobody_reads(self):
        """A node serves though what it tells its operator finds no room."""
        reader, writer = os.pipe()
        os.set_blocking(writer, False)
        with contextlib.suppress(BlockingIOError):
            while True:
                os.write(writer, b"x" * 4096)
        os.set_blocking(writer, True)
        self.process = subprocess.Popen([sys.executable, "-m", "zinduroi", "node", "--config", self.write_config(), "--create"],
                                        env={**os.environ, "PYTHONPATH": str(PACKAGE)}, stderr=writer)
        self.addCleanup(os.close, reader)
        os.close(writer)
        self.assertTrue(wait_for(self.answers, 30))
        client = self.connect()
        client.socket.settimeout(10)
        self.says(client, ("read a x", "admitted"))

    def test_too_many(self):
        self.start(socket="connections = 2")
        first, second = self.find_room(), self.find_room()
        self.says(second, ("read a x", "admitted"))
        self.assertEqual(self.connect().socket.recv(100), b"refused TooManyConnections\n")
        first.close()
        self.says(self.find_room(), ("sessions a", "1 x reader"))


class CrowdsWithoutLog(Crowds):
    logs = False


class Commands(NodeCase):
    """`zinduroi lock`, `ask`, `status` and `watch`."""

    def run_command(self, *words):
        """The exit status and the output of a command of this process."""
        output, errors = io.StringIO(), io.StringIO()
        with contextlib.redirect_stdout(output), contextlib.redirect_stderr(errors):
            try:
                status = main([words[0], "--socket", str(self.socket), *words[1:]])
            except SystemExit as ended:
                status = ended.code
        return status, output.getvalue(), errors.getvalue()

    def lock(self, *words, **options):
        """A process of `lock`."""
        options = {"stdout": subprocess.PIPE, "stderr": subprocess.PIPE, "text": True, **options}
        process = subprocess.Popen([sys.executable, "-W", "error", "-m", "zinduroi", "lock", "--socket", self.socket, *words],
                                   env={**os.environ, "PYTHONPATH": str(PACKAGE)}, start_new_session=True, **options)
        self.addCleanup(self.end_group, process)
        return process

    @staticmethod
    def end_group(process):
        """Ends a `lock` and its command, if a test has failed."""
        with contextlib.suppress(ProcessLookupError):
            os.killpg(process.pid, signal.SIGKILL)
        if process.returncode is None:
            process.communicate()

    def ran(self, *words):
        process = self.lock(*words)
        output, errors = process.communicate(timeout=60)
        return process.returncode, output, errors

    def test_ask_and_status(self):
        nobody = (69, "", f"zinduroi: no node answers at {self.socket}: No such file or directory\n")
        self.assertEqual(self.run_command("ask", "show a"), nobody)
        began = time.monotonic()
        self.assertEqual(self.run_command("ask", "--wait", "0.3", "show a"), nobody)
        self.assertGreater(time.monotonic() - began, 0.3)
        self.process = self.spawn(self.write_config(), "--create")
        self.assertEqual(self.run_command("ask", "--wait", "60", "show a"), (0, "rights 3 inside 0 unfinished 0\n", ""))
        self.assertEqual(self.run_command("ask", "read", "a", "x"), (0, "admitted\n", ""))
        self.comes("sessions a", "0")
        self.assertEqual(self.run_command("ask", "leave a x"), (1, "refused NotHere\n", ""))
        self.assertEqual(self.run_command("ask", "wait 0 read b x"), (1, "timeout refused NoSeat 0\n", ""))
        client = self.connect()
        self.says(client, ("read a x", "admitted"), ("read a y", "admitted"))
        client.ask("keep a y")
        status, output, _ = self.run_command("status")
        self.assertEqual(status, 0)
        table = "record  site  free  taken  writers  age  sessions\na          0     1      2        0  0 s  x reader, y reader\n"
        self.assertTrue(output.startswith(table), output)
        self.assertIn(f"without a connection: a y reader, entered 0 s ago by process {os.getpid()}, kept", output)
        self.assertEqual(self.run_command("watch", "--once")[1].splitlines()[:2], table.splitlines())
        self.assertEqual(json.loads(self.run_command("status", "--json")[1])["site"], 0)

    def test_lock(self):
        self.assertEqual(self.ran("a", "--", "true")[0], 69)
        self.start()
        self.assertEqual(self.ran("a", "--", "sh", "-c", "echo $ZINDUROI_FENCE; exit 3"), (3, "17592186044416\n", ""))
        self.assertEqual(self.ran("--read", "a", "--", "sh", "-c", "echo $ZINDUROI_FENCE; kill -9 $$"), (137, "17592186044417\n", ""))
        self.assertEqual(self.ran("c", "--", "true"), (64, "", "zinduroi: refused NoRecord\n"))
        self.assertEqual(self.ran("a", "--", "no-such-command"), (127, "", "zinduroi: no-such-command: No such file or directory\n"))
        self.says(self.connect(), ("sessions a", "0"))
        self.says(self.connect(), ("read a x", "admitted"))
        self.assertEqual(self.ran("--timeout", "0.2", "a", "--", "true"), (75, "", "zinduroi: timeout refused MissingSeats 2 3\n"))
        self.assertEqual(self.ran("--read", "--timeout", "0", "a", "--", "true"), (0, "", ""))
        self.assertEqual(self.ran("a", "--read", "--", "echo", "--", "x"), (0, "-- x\n", ""))
        self.assertEqual([self.ran("a", "true")[0], self.ran("a", "--")[0], self.ran("--timeout", "-1", "a", "--", "true")[0]], [2, 2, 2])

    def test_closed_streams(self):
        """What a command prints is no line of the connection, and what it reads no reply, if `lock` was started with closed streams."""
        self.start()
        for number in (0, 1, 2):
            with self.subTest(closed=number):
                process = self.lock("a", "--", "sh", "-c", "echo leave a -; echo leave a - >&2; cat; touch ready; sleep 3", stdin=subprocess.DEVNULL,
                                    preexec_fn=lambda: os.close(number), cwd=self.folder)
                self.assertTrue(wait_for((self.folder / "ready").exists, 20))
                self.assertIn(" writer", self.connect().ask("sessions a"))
                self.end_group(process)
                (self.folder / "ready").unlink()
                self.comes("sessions a", "0")

    def test_files_that_lock_inherits(self):
        """The command has them too: the connection of an outer `lock`, even if the inner one is killed."""
        self.start()
        reader, writer = os.pipe()
        with open(reader, "rb") as found:
            process = self.lock("a", "--", "sh", "-c", f"echo inherited >&{writer}", pass_fds=[writer])
            os.close(writer)
            self.assertEqual((process.communicate(timeout=60)[1], found.read()), ("", b"inherited\n"))
        inner = [sys.executable, "-m", "zinduroi", "lock", "--socket", self.socket, "b", "--read", "--", "sh", "-c", "echo $PPID; read line"]
        with self.open(1) as other:
            other.give("b", 0, 1)
            Folder(self.folder / "deltas").publish(1, other.send())
        process = self.lock("a", "--", *inner, stdin=subprocess.PIPE)
        os.kill(int(process.stdout.readline()), signal.SIGKILL)
        time.sleep(1)
        self.assertEqual([self.connect().ask(f"sessions {record}").split(" ")[-1] for record in "ab"], ["writer", "reader"])
        self.assertEqual(process.communicate("\n", timeout=60), ("", ""))
        self.assertEqual(process.returncode, 137)
        self.comes("sessions a", "0")
        self.comes("sessions b", "0")

    def test_session_that_is_not_left(self):
        """A node that can't leave says so, and `lock` tells it."""
        replies = {b"token": b"token 00", b"wait": b"admitted", b"fence": b"fence 7", b"leave": b"refused Frozen"}
        with socket.socket(socket.AF_UNIX) as listening:
            listening.bind(str(self.socket))
            listening.listen()
            process = self.lock("a", "--", "sh", "-c", "exit 3")
            connection, _ = listening.accept()
            with connection:
                for line in connection.makefile("rb"):
                    connection.sendall(replies[line.split()[0]] + b"\n")
            self.assertEqual(process.communicate(timeout=60), ("", "zinduroi: the session of a is not left: refused Frozen. See zinduroi status\n"))
        self.assertEqual(process.returncode, 3)

    def test_hang_up_that_is_ignored(self):
        """As behind `nohup`: it does not keep `lock` from leaving a session that hangs on it."""
        replies = {b"token": b"token 00", b"wait": b"admitted", b"fence": b"fence 7", b"resume": b"resumed 1 a -1 writer"}
        with socket.socket(socket.AF_UNIX) as listening:
            listening.bind(str(self.socket))
            listening.listen()
            process = self.lock("a", "--", "sh", "-c", "echo inside; read line; exit 5", stdin=subprocess.PIPE,
                                preexec_fn=lambda: signal.signal(signal.SIGHUP, signal.SIG_IGN))
            for lines in (3, 1):
                connection, _ = listening.accept()
                reader = connection.makefile("rb")
                for _ in range(lines):
                    connection.sendall(replies[reader.readline().split()[0]] + b"\n")
                if lines == 3:
                    self.assertEqual(process.stdout.readline(), "inside\n")
                    reader.close()
                    connection.close()
            process.stdin.write("\n")
            process.stdin.flush()
            self.assertEqual(reader.readline(), b"leave a -\n")
            process.send_signal(signal.SIGHUP)
            time.sleep(0.3)
            connection.sendall(b"left writer\n")
            self.assertEqual(process.communicate(timeout=60), ("", ""))
            reader.close()
            connection.close()
        self.assertEqual(process.returncode, 5)

    def test_interrupts_that_are_ignored(self):
        """As of a job that a script runs in the background: the command ignores them too, and else it does not."""
        self.start()
        for handler, ended in ((signal.SIG_IGN, (0, "inside\n")), (signal.SIG_DFL, (128 + signal.SIGINT, ""))):
            def prepare(handler=handler):
                for number in (signal.SIGINT, signal.SIGQUIT):
                    signal.signal(number, handler)
            with self.subTest(handler=handler):
                process = self.lock("a", "--", "sh", "-c", "kill -INT $$; kill -QUIT $$; echo inside", preexec_fn=prepare)
                output, _ = process.communicate(timeout=60)
                self.assertEqual((process.returncode, output), ended)

    def test_killed_lock(self):
        """The session of a `lock` that was killed stays as long as its command lives."""
        self.start()
        process = self.lock("a", "--", "sh", "-c", "echo inside; read line; echo out", stdin=subprocess.PIPE)
        self.assertEqual(process.stdout.readline(), "inside\n")
        process.kill()
        process.wait()
        time.sleep(0.3)
        self.assertEqual(self.connect().ask("sessions a").split(" ")[2], "writer")
        process.stdin.write("\n")
        process.stdin.flush()
        self.assertEqual(process.stdout.readline(), "out\n")
        self.comes("sessions a", "0")
        process.communicate()

    def test_children_of_the_command(self):
        self.start()
        process = self.lock("a", "--", "sh", "-c", "sleep 6 >/dev/null 2>&1 </dev/null & echo inside")
        self.assertEqual(process.communicate(timeout=60), ("inside\n", ""))
        self.assertEqual(self.connect().ask("sessions a").split(" ")[2], "writer")
        self.comes("sessions a", "0")

    def test_node_ends_under_a_command(self):
        self.start()
        process = self.lock("a", "--", "sh", "-c", "echo inside; read line; exit 5", stdin=subprocess.PIPE)
        self.assertEqual(process.stdout.readline(), "inside\n")
        self.end(signal.SIGKILL)
        time.sleep(0.3)
        self.start()
        kept = lambda: [it["kept"] for it in json.loads(self.connect().ask("status"))["callers"]]  # noqa: E731
        self.assertTrue(wait_for(lambda: kept() == [True]))
        self.assertEqual(self.connect().ask("sessions a").split(" ")[2], "writer")
        self.assertEqual(process.communicate("\n", timeout=60), ("", ""))
        self.assertEqual(process.returncode, 5)
        self.says(self.connect(), ("sessions a", "0"))

    def test_node_ends_while_lock_waits(self):
        self.start()
        holder = self.connect()
        token = holder.ask("token").split(" ")[1]
        self.says(holder, ("read a x", "admitted"))
        process = self.lock("a", "--", "echo", "inside")
        self.assertTrue(wait_for(lambda: holder.ask("sessions a").endswith("waiting")))
        self.end(signal.SIGKILL)
        self.start()
        holder = self.connect()
        self.says(holder, (f"resume {token}", "resumed 1 a x reader"))
        self.assertTrue(wait_for(lambda: len(self.queue("a")) == 1))
        self.says(holder, ("leave a x", "left reader"))
        self.assertEqual(process.communicate(timeout=60), ("inside\n", ""))
        self.says(holder, ("sessions a", "0"))

    def test_node_loses_its_book_under_a_command(self):
        """The session is in the store, so `lock` doesn't say that it is gone."""
        self.start()
        process = self.lock("a", "--", "sh", "-c", "echo inside; read line; exit 5", stdin=subprocess.PIPE)
        self.assertEqual(process.stdout.readline(), "inside\n")
        self.end(signal.SIGKILL)
        for path in self.folder.glob("0.db.sessions*"):
            path.unlink()
        self.start()
        self.assertEqual(process.stderr.readline(), "zinduroi: the node knows no session of a for this command any more, which may not be alone: "
                         "see zinduroi status\n")
        process.communicate("\n", timeout=60)
        self.assertEqual((process.returncode, self.connect().ask("sessions a")[:3]), (5, "1 ?"))

    def test_strict(self):
        self.start()
        process = self.lock("--strict", "a", "--", "sh", "-c", "echo inside; exec sleep 100")
        self.assertEqual(process.stdout.readline(), "inside\n")
        self.end(signal.SIGKILL)
        self.start()
        process.communicate(timeout=60)
        self.assertEqual(process.returncode, 69)
        self.says(self.connect(), ("sessions a", "0"))

    def test_no_room(self):
        self.start(socket="connections = 1")
        self.find_room()
        self.assertEqual(self.ran("a", "--", "true"), (69, "", "zinduroi: refused TooManyConnections\n"))
        full = f"zinduroi: the node at {self.socket} answers refused TooManyConnections\n"
        self.assertEqual(self.run_command("status"), (69, "", full))
        self.assertEqual(self.run_command("watch", "--once"), (1, "", full))

    def test_signals(self):
        self.start()
        process = self.lock("a", "--", "sh", "-c", "trap 'echo ended; exit 4' TERM; echo inside; while :; do sleep 0.05; done")
        self.assertEqual(process.stdout.readline(), "inside\n")
        process.terminate()
        self.assertEqual(process.communicate(timeout=60)[0], "ended\n")
        self.assertEqual(process.returncode, 4)


if __name__ == "__main__":
    unittest.main()
