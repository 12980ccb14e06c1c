"""A site: each kind of call and refusal, sessions, interruptions, kills, and how a service starts and ends."""
import os
import queue
import shutil
import signal
import sqlite3
import subprocess
import sys
import textwrap
import threading
import time
import unittest
import unittest.mock

import zinduroi
from zinduroi import Counts, Gave, Record, ServiceEnded, Session, StoreRefused, TimedOut
from zinduroi.errors import refusal
from zinduroi.service import Call

from .common import PACKAGE, PROGRAM, Case, marked, wait_for


class Calls(Case):
    """Each call, and each refusal with its numbers."""

    def test_replies(self):
        site = self.open()
        self.assertEqual(site.call("read a 7"), "admitted")
        self.assertEqual(site.show("a"), Counts(2, 1, 0))
        self.assertEqual(site.announce("a", 9), 1)
        self.assertEqual(site.sessions("a"), [Session(7, "reader"), Session(9, "waiting")])
        self.assertEqual(site.leave("a", 7), "reader")
        self.assertEqual(site.call("write a 9"), "admitted")
        self.assertEqual(site.sessions("a"), [Session(9, "writer")])
        self.assertEqual(site.leave("a", 9), "writer")
        self.assertEqual(site.announce("a", 9), 2)
        self.assertEqual(site.leave("a", 9), "withdrawn")
        self.assertEqual(site.sessions("a"), [])
        self.assertIsNone(site.give("a", 1, 1))
        self.assertEqual(site.help("a"), Gave(1, 1))
        other = self.open(1)
        self.assertEqual(other.take(site.send()), 5)
        self.assertEqual(other.take(site.send()), 0)
        self.assertEqual(other.show("a"), Counts(2, 0, 0))

    def test_groups(self):
        site = self.open(group="payroll")
        site.announce("a", 9)
        text = site.send()
        bare = text.split(" ", 3)[3]
        self.assertEqual(text, marked(bare, "payroll"))
        self.assertEqual(self.open(1, group="payroll").take(text), 1)
        for other in (marked(bare), marked(bare, "stock"), marked(bare, "payroll2"), marked(bare, "payrol")):
            self.refused(zinduroi.WrongGroup, site.take, other)
        self.refused(zinduroi.WrongGroup, self.open(2).take, text)
        site.close()
        for group in (None, "stock"):
            with self.assertRaises(StoreRefused) as caught:
                self.open(group=group)
            self.assertEqual(caught.exception.name, "WrongGroup")
        self.assertEqual(self.open(group="payroll").sessions("a"), [Session(9, "waiting")])
        for group in ("Pay roll", "refused", "merged"):
            with self.assertRaises(ServiceEnded) as ended:
                self.open(store=self.folder / "other.db", group=group)
            self.assertEqual((ended.exception.status, ended.exception.message), (2, "group refused BadWord"))

    def test_marks(self):
        site, other = self.open(), self.open(1)
        site.announce("a", 9)
        text = site.send()
        bare = text.split(" ", 3)[3]
        self.assertTrue(bare.startswith('{"from":0,"rows":[{"ann":1,'), bare)
        self.assertEqual(text, marked(bare))
        words = text.split(" ")
        odd = ["A" + words[1][1:], words[1][1:], words[1] + "0"]
        for without in ("", bare, "-", " ".join(words[:3]), " ".join(words[1:]), *(" ".join(["-", records, *words[2:]]) for records in odd)):
            self.refused(zinduroi.NoMark, other.take, without)
        self.refused(zinduroi.WrongGroup, other.take, marked(bare, "x", ";a,3,0,2")[:-1])
        for records in (";b,4,1,1;a,3,0,2", ";a,3,0,2", ";a,4,0,2;b,4,1,1", ";a,3,1,2;b,4,1,1", ";a,3,0,1;b,4,1,1", ";c,3,0,2;b,4,1,1"):
            self.refused(zinduroi.OtherRecords, other.take, marked(bare, records=records)[:-1])
        other_sum = marked(bare + " ").split(" ")[2]
        for damaged in (text[:-1], text + " ", text.replace('"ann":1', '"ann":2'), text.replace(words[2], other_sum)):
            self.refused(zinduroi.Damaged, other.take, damaged)
        self.assertEqual(other.sessions("a"), [])
        self.assertEqual(other.take(text), 1)

    def test_plain(self):
        plain, other = self.open(plain=True), self.open(1)
        plain.announce("a", 9)
        text = plain.send()
        self.assertTrue(text.startswith('{"from":0,"rows":[{"ann":1,'), text)
        self.refused(zinduroi.NoMark, other.take, text)
        self.refused(zinduroi.NotJson, plain.take, other.send())
        self.assertEqual(self.open(2, plain=True).take(text), 1)
        self.assertEqual(other.take(marked(text)), 1)
        os.kill(plain.pid, signal.SIGKILL)
        with self.assertRaises(ServiceEnded):
            plain.send()
        self.assertTrue(plain.reopen(wait=10))
        self.assertEqual(plain.send(), text)
        with self.assertRaises(ServiceEnded):
            self.open(store=self.folder / "both.db", plain=True, group="payroll")
        self.assertFalse((self.folder / "both.db").exists())

    def test_refusals(self):
        site = self.open()
        refused = self.refused
        refused(zinduroi.NoRecord, site.show, "none")
        refused(zinduroi.NoRecord, site.sessions, "none")
        refused(zinduroi.NoRecord, site.announce, "none", 1)
        refused(zinduroi.BadHolder, site.announce, "a", 10**12 + 1)
        refused(zinduroi.NotHere, site.leave, "a", 1)
        refused(zinduroi.NotAnnounced, site.call, "write a 1")
        refused(zinduroi.NoSeat, site.call, "read b 1", rights=0)
        refused(zinduroi.NoSite, site.give, "a", 3, 1)
        refused(zinduroi.ToSelf, site.give, "a", 0, 1)
        refused(zinduroi.ZeroSeats, site.give, "a", 1, 0)
        refused(zinduroi.TooFewRights, site.give, "a", 1, 65536, rights=3)
        refused(zinduroi.NoPlan, site.help, "b")
        error = refused(zinduroi.BadWord, site.call, "reed a 7", word=1)
        self.assertEqual((error.name, error.numbers, str(error)), ("BadWord", (1,), "refused BadWord 1"))
        refused(zinduroi.BadWord, site.call, "", word=1)
        refused(zinduroi.BadWord, site.show, "A", word=2)
        refused(zinduroi.BadWord, site.announce, "a", -1, word=3)
        refused(zinduroi.BadWord, site.call, "read a 7 8", word=4)
        refused(zinduroi.BadWord, site.give, "a", 65536, 1, word=3)
        self.assertIsNone(refusal("refused BadWord").word)
        site.call("read a 7")
        refused(zinduroi.AlreadyHere, site.call, "read a 7")
        site.announce("a", 8)
        error = refused(zinduroi.MissingSeats, site.call, "write a 8", rights=2, seats=3)
        self.assertEqual(str(error), "refused MissingSeats 2 3")
        refused(zinduroi.WriterAnnounced, site.call, "read a 9", site=0)
        site.leave("a", 7)
        site.call("write a 8")
        refused(zinduroi.AlreadyInside, site.call, "write a 8")

    def test_texts_that_are_refused(self):
        site = self.open()
        refused = self.refused
        row = '{"ann":0,"fin":0,"out":%s,"r":%d,"s":%d,"taken":0}'
        text = '{"from":1,"rows":[%s],"v":1}'
        refused(zinduroi.NotJson, site.take, marked(""))
        refused(zinduroi.NotJson, site.take, marked("{"))
        refused(zinduroi.NotCanonical, site.take, marked('{"from": 1}'))
        refused(zinduroi.OtherLayout, site.take, marked(text % (row % ("[0,0,0]", 2, 1))), row=0)
        refused(zinduroi.OtherLayout, site.take, marked(text % (row % ("[0,0,0,0]", 0, 1))), row=0)
        refused(zinduroi.BadRow, site.take, marked(text % (row % ("[0,9,0]", 0, 1))), row=0)
        refused(zinduroi.TooManySeats, site.take, marked(text % (row % ("[1,0,0]", 0, 1))), record=0)
        refused(zinduroi.TooLong, site.take, marked("x" * 2_097_153))
        refused(zinduroi.NotJson, site.take, marked("x" * 2_097_152))
        self.assertEqual(site.show("a"), Counts(3, 0, 0))

    def test_a_line_feed_never_gets_into_a_line(self):
        site = self.open()
        with self.assertRaises(ValueError):
            site.take("x\nread a 7")
        with self.assertRaises(ValueError):
            site.submit(b"show a\nread a 7", print)
        self.assertEqual(site.sessions("a"), [])

    def test_too_many_writers(self):
        site = self.open()
        for holder in range(64):
            site.announce("a", holder)
        self.refused(zinduroi.TooManyWriters, site.announce, "a", 64)

    def test_full_counter(self):
        self.open().close()
        with sqlite3.connect(self.folder / "0.db") as store:
            store.execute(f"INSERT INTO cells VALUES (0, 201, {10**12}), (0, 202, {10**12})")
        store.close()
        self.refused(zinduroi.CounterFull, self.open().announce, "a", 1)

    def test_a_store_that_is_older(self):
        site = self.open()
        site.close()
        shutil.copy(self.folder / "0.db", self.folder / "copy.db")
        site = self.open()
        site.give("a", 1, 1)
        text = site.send()
        old = self.open(store=self.folder / "copy.db")
        self.refused(zinduroi.OwnRowAhead, old.take, text, record=0)
        self.refused(zinduroi.Frozen, old.call, "read a 7")
        self.refused(zinduroi.Frozen, old.show, "a")
        self.assertEqual(old.close(), 5)
        with self.assertRaises(StoreRefused) as caught:
            self.open(store=self.folder / "copy.db")
        self.assertEqual(caught.exception.name, "Outdated")
        self.assertEqual(site.send(), text)

    def test_a_store_that_fails(self):
        # No file may grow beyond 40 blocks of 512 bytes; a new store has more than that in its log soon.
        limited = ["sh", "-c", 'trap "" XFSZ; ulimit -f "$BLOCKS"; exec "$0" "$@"', PROGRAM]
        for blocks in (40, 80, 160, 320, 640):
            os.environ["BLOCKS"] = str(blocks)
            try:
                site = self.open(store=self.folder / f"{blocks}.db", program=limited)
                break
            except StoreRefused as refused:
                self.assertEqual(refused.name, "StoreFault")
        with self.assertRaises(zinduroi.StoreFault):
            for holder in range(64):
                site.announce("a", holder)
                site.leave("a", holder)
        self.refused(zinduroi.Frozen, site.call, "read a 7")
        self.assertEqual(site.close(), 5)
        again = self.open(store=self.folder / f"{blocks}.db")
        self.assertLessEqual(len(again.sessions("a")), 1)


class Sessions(Case):
    """Readers and writers in `with` statements."""

    def test_reader(self):
        site = self.open()
        with site.read("a", 7):
            self.assertEqual(site.sessions("a"), [Session(7, "reader")])
        with self.assertRaises(KeyError):
            with site.read("a", 7):
                raise KeyError
        self.assertEqual(site.sessions("a"), [])

    def test_refused_reader_leaves_nobody_else(self):
        site = self.open()
        with site.read("a", 7):
            with self.assertRaises(zinduroi.AlreadyHere):
                with site.read("a", 7):
                    self.fail("it is inside already")
            self.assertEqual(site.sessions("a"), [Session(7, "reader")])

    def test_reader_that_asks_again(self):
        site = self.open()
        site.announce("a", 8)
        with self.assertRaises(TimedOut) as caught:
            with site.read("a", 7, timeout=0.3):
                self.fail("a writer waits")
        self.assertIsInstance(caught.exception, TimeoutError)
        self.assertEqual(str(caught.exception.refusal), "refused WriterAnnounced 0")
        later = threading.Timer(0.3, site.leave, ("a", 8))
        later.start()
        with site.read("a", 7, timeout=60):
            self.assertEqual(site.sessions("a"), [Session(7, "reader")])
        later.join()

    def test_writer(self):
        site = self.open()
        with site.write("a", 8, timeout=0):
            self.assertEqual(site.sessions("a"), [Session(8, "writer")])
            with self.assertRaises(zinduroi.WriterAnnounced):
                with site.read("a", 7):
                    self.fail("a writer is inside")
        self.assertEqual(site.sessions("a"), [])

    def test_writer_waits_for_a_reader(self):
        site = self.open()
        site.call("read a 7")
        later = threading.Timer(0.3, site.leave, ("a", 7))
        later.start()
        with site.write("a", 8, timeout=60):
            self.assertEqual(site.sessions("a"), [Session(8, "writer")])
        later.join()
        self.assertEqual(site.show("a"), Counts(3, 0, 0))

    def test_writer_withdraws(self):
        site = self.open()
        with site.read("a", 7):
            with self.assertRaises(TimedOut) as caught:
                with site.write("a", 8, timeout=0.2):
                    self.fail("a reader is inside")
            self.assertEqual(str(caught.exception.refusal), "refused MissingSeats 2 3")
            self.assertEqual(site.sessions("a"), [Session(7, "reader")])
        with self.assertRaises(KeyError):
            with site.write("a", 8, timeout=0):
                raise KeyError
        self.assertEqual(site.show("a"), Counts(3, 0, 0))

    def test_writer_that_is_here_already(self):
        site = self.open()
        site.announce("a", 8)
        with self.assertRaises(zinduroi.AlreadyHere):
            with site.write("a", 8, timeout=0):
                self.fail("it has announced itself already")
        self.assertEqual(site.sessions("a"), [Session(8, "waiting")])

    def test_a_timeout_that_is_no_number(self):
        """It asks once, and not for ever: until somebody else has left it would."""
        for call, leaves in (("announce a 8", "read"), ("read a 8", "write")):
            site = self.open(store=self.folder / f"{leaves}.db")
            site.call(call)
            later = threading.Timer(2, site.leave, ("a", 8))
            later.start()
            with self.subTest(leaves), self.assertRaises(TimedOut):
                with getattr(site, leaves)("a", 7, timeout=float("nan")):
                    self.fail("it asked again")
            later.join()

    def test_threads(self):
        site = self.open()
        numbers, wrong = [], []

        def work(first):
            for holder in range(first, first + 4):
                numbers.append(site.announce("a", holder))
                if site.leave("a", holder) != "withdrawn":
                    wrong.append(holder)
                if site.call("sessions b") != "0" or str(site.show("b")) != "Counts(rights=0, inside=0, unfinished=0)":
                    wrong.append(holder)

        threads = [threading.Thread(target=work, args=(first,)) for first in range(0, 800, 100)]
        for thread in threads:
            thread.start()
        for thread in threads:
            thread.join()
        self.assertEqual(wrong, [])
        self.assertEqual(sorted(numbers), list(range(1, 33)))

    def test_many_lines_at_once(self):
        """Lines that wait go to the service together, each reply comes to its own call, and neither side waits for the other for ever."""
        site, done = self.open(), queue.SimpleQueue()
        lines = [(b"show a", "rights 3 inside 0 unfinished 0"), (b"take " + b"x" * 200, "refused NoMark")] * 10_000
        self.addCleanup(os.kill, site.pid, signal.SIGKILL)
        os.kill(site.pid, signal.SIGSTOP)
        for line, _ in lines:
            site.submit(line, done.put)
        os.kill(site.pid, signal.SIGCONT)
        found = [done.get(timeout=30) for _ in lines]
        self.assertEqual([(call.lines, call.replies) for call in found], [((line + b"\n",), [reply]) for line, reply in lines])


class Interruptions(Case):
    """Ctrl-C while a call waits, and while a writer waits."""

    def test_interrupted_call_stays_in_step(self):
        site = self.open()
        for line in ("read", "write"):
            os.kill(site.pid, signal.SIGSTOP)
            timers = [threading.Timer(0.3, os.kill, (os.getpid(), signal.SIGINT)), threading.Timer(0.6, os.kill, (site.pid, signal.SIGCONT))]
            for timer in timers:
                timer.start()
            with self.assertRaises(KeyboardInterrupt):
                with getattr(site, line)("a", 7):
                    self.fail("it was interrupted")
            for timer in timers:
                timer.join()
            self.assertEqual(site.show("b"), Counts(0, 0, 0))
            self.assertEqual(site.sessions("a"), [])
        self.assertEqual(site.announce("a", 1), 2)

    def test_interrupted_twice(self):
        """Nobody waits for the reply. The session that was begun is ended behind it, and one that was there before stays."""
        def interrupt(service):
            for _ in range(2):
                time.sleep(0.4)
                os.kill(os.getpid(), signal.SIGINT)
            time.sleep(0.6)
            os.kill(service, signal.SIGCONT)

        for number, (before, line, left) in enumerate(((None, "read", []), (None, "write", []), ("read a 7", "read", [Session(7, "reader")]),
                                                       ("announce a 7", "write", [Session(7, "waiting")]))):
            site = self.open(store=self.folder / f"{number}.db")
            if before is not None:
                site.call(before)
            os.kill(site.pid, signal.SIGSTOP)
            interrupting = threading.Thread(target=interrupt, args=(site.pid,))
            interrupting.start()
            with self.subTest(before=before, line=line):
                with self.assertRaises(KeyboardInterrupt):
                    with getattr(site, line)("a", 7):
                        self.fail("it was interrupted")
                self.assertTrue(interrupting.is_alive(), "it waited for the reply")
                self.assertEqual(site.sessions("a"), left)
                self.assertEqual(site.show("b"), Counts(0, 0, 0))
            interrupting.join()
            site.close()

    def test_interrupted_leave_is_made(self):
        """Ctrl-C while the end of a `with` waits behind the calls of others."""
        site = self.open()
        other = threading.Thread(target=site.show, args=("a",))
        timers = [threading.Timer(0.6, os.kill, (os.getpid(), signal.SIGINT)), threading.Timer(0.9, os.kill, (site.pid, signal.SIGCONT))]
        with self.assertRaises(KeyboardInterrupt):
            with site.read("a", 7):
                os.kill(site.pid, signal.SIGSTOP)
                for thread in (other, *timers):
                    thread.start()
                time.sleep(0.3)
        for thread in (other, *timers):
            thread.join()
        self.assertEqual(site.sessions("a"), [])

    def test_control_c_at_a_terminal(self):
        script = textwrap.dedent("""
            import sys
            from zinduroi import Site
            site = Site(sys.argv[1], 0, layout=sys.argv[2], create=True, program=sys.argv[3])
            with site.read("a", 7):
                print("inside", flush=True)
                with site.write("a", 8):
                    pass
        """)
        store = self.folder / "0.db"
        process = subprocess.Popen([sys.executable, "-c", script, store, self.layout, PROGRAM], cwd=PACKAGE, text=True,
                                   stdout=subprocess.PIPE, stderr=subprocess.PIPE, start_new_session=True)
        self.assertEqual(process.stdout.readline(), "inside\n")
        time.sleep(0.5)
        # A terminal sends it to the whole group, and so to whatever the program has started in it.
        os.killpg(process.pid, signal.SIGINT)
        _, errors = process.communicate(timeout=60)
        self.assertIn("KeyboardInterrupt", errors)
        site = self.open(wait=10)
        self.assertEqual(site.sessions("a"), [])
        self.assertEqual(site.announce("a", 1), 2)


class Together(Case):
    """Calls of several threads that are committed together."""

    def test_threads(self):
        """Each gets its own reply, and the store has all that was answered."""
        site = self.open(together=32)
        faults = []

        def work(number):
            for turn in range(20):
                holder = 1000 * number + turn
                try:
                    site.announce("a", holder)
                    site.announce("b", holder)
                    if turn % 2:
                        self.assertEqual(site.leave("b", holder), "withdrawn")
                    self.assertEqual(site.leave("a", holder), "withdrawn")
                except zinduroi.TooManyWriters:
                    if (holder, "waiting") in site.sessions("a"):
                        site.leave("a", holder)
                except BaseException as fault:
                    faults.append(fault)

        threads = [threading.Thread(target=work, args=(number,)) for number in range(24)]
        for thread in threads:
            thread.start()
        for thread in threads:
            thread.join()
        self.assertEqual(faults, [])
        left = site.sessions("b")
        self.assertEqual((site.sessions("a"), len(left)), ([], site.show("b").unfinished))
        site.close()
        self.assertEqual(self.open(together=2).sessions("b"), left)

    def test_dependent_lines(self):
        """Lines of one call that need each other, more than a round has."""
        site = self.open(together=3)
        lines = [line for holder in range(9) for line in (f"read a {holder}", f"read a {holder}", f"leave a {holder}", "show a")]
        replies = site._service.run(Call(*(line.encode() + b"\n" for line in lines)))
        self.assertEqual(replies, ["admitted", "refused AlreadyHere", "left reader", "rights 3 inside 0 unfinished 0"] * 9)

    def test_killed(self):
        """After a kill all that was answered is there."""
        site = self.open(together=32)
        for holder in range(20):
            site.announce("b", holder)
        os.kill(site.pid, signal.SIGKILL)
        with self.assertRaises(ServiceEnded):
            site.send()
        self.assertTrue(site.reopen())
        self.assertEqual(site.sessions("b"), [Session(holder, "waiting") for holder in range(20)])

    def test_beside_a_log(self):
        with self.assertRaises(ServiceEnded) as caught:
            self.open(together=2, log=self.folder / "0.log")
        self.assertEqual((caught.exception.status, caught.exception.message), (2, "together refused Log"))
        self.assertFalse((self.folder / "0.db").exists())
        self.open(together=1, log=self.folder / "0.log").close()


class Ends(Case):
    """How a service starts and ends."""

    def started(self, kind, name, **options):
        with self.assertRaises(kind) as caught:
            self.open(**options)
        self.assertEqual(caught.exception.name, name)

    def test_stores_and_layouts_that_are_refused(self):
        site = self.open()
        self.started(StoreRefused, "InUse")
        self.started(StoreRefused, "InUse", create=True)
        self.started(StoreRefused, "NoStore", store=self.folder / "none.db", create=False)
        self.assertFalse((self.folder / "none.db").exists())
        self.assertEqual(site.close(), 0)
        self.started(StoreRefused, "Exists", create=True)
        self.started(StoreRefused, "WrongSite", site=1, store=self.folder / "0.db")
        self.started(StoreRefused, "WrongLayout", layout=None)
        self.started(zinduroi.LayoutRefused, "NotRead", layout=self.folder / "none.toml")
        self.started(zinduroi.LayoutRefused, "NoSite", site=3)
        (self.folder / "text.db").write_text("this is no database, " * 100, encoding="utf-8")
        self.started(StoreRefused, "NotAStore", store=self.folder / "text.db", create=False)
        for change, name in (("UPDATE meta SET value = '3' WHERE name = 'version'", "BadStore"), ("DROP TABLE cells", "NotAStore")):
            with sqlite3.connect(self.folder / "0.db") as store:
                store.execute(change)
            store.close()
            self.started(StoreRefused, name)
        with self.assertRaises(FileNotFoundError):
            self.open(program=str(self.folder / "none"))

    def test_the_record_at_fault(self):
        layout = self.write_layout("fault.toml", 3, ("a", 3, 0, 2), ("b", 0, 1, 1))
        with self.assertRaises(zinduroi.LayoutRefused) as caught:
            self.open(layout=layout)
        self.assertEqual((caught.exception.name, caught.exception.record, str(caught.exception)),
                         ("BadSeats", 2, "layout refused BadSeats (record 2)"))

    def test_databases_that_are_no_store(self):
        foreign = self.folder / "foreign.db"
        with sqlite3.connect(foreign) as database:
            database.execute("CREATE TABLE meta (name TEXT, value TEXT)")
        database.close()
        before = foreign.read_bytes()
        for create in (True, False):
            self.started(StoreRefused, "NotAStore", store=foreign, create=create)
            self.started(StoreRefused, "NoFolder", store=self.folder / "none/0.db", create=create)
        self.assertEqual(foreign.read_bytes(), before)

    def test_a_layout_with_more_sites(self):
        site = self.open()
        site.announce("a", 9)
        site.close()
        wide = self.write_layout("wide.toml", 4, ("a", 3, 0, 2), ("b", 4, 1, 1))
        before = (self.folder / "0.db").read_bytes()
        self.started(StoreRefused, "WrongLayout", layout=wide)
        self.assertEqual((self.folder / "0.db").read_bytes(), before)
        site = self.open(layout=wide, grow=True)
        self.assertEqual(site.sessions("a"), [Session(9, "waiting")])
        site.give("a", 3, 1)
        os.kill(site.pid, signal.SIGKILL)
        with self.assertRaises(ServiceEnded):
            site.send()
        self.assertTrue(site.reopen(wait=10))
        self.assertEqual(site.show("a"), Counts(2, 0, 1))
        site.close()
        self.started(StoreRefused, "WrongLayout", grow=True)
        self.assertEqual(self.open(layout=wide).show("a"), Counts(2, 0, 1))

    def test_waiting_for_a_store_in_use(self):
        site = self.open()
        timer = threading.Timer(0.5, site.close)
        timer.start()
        self.assertEqual(self.open(wait=30).show("a"), Counts(3, 0, 0))
        timer.join()

    def test_a_part_of_a_second_to_wait_for_a_store(self):
        """The program counts whole seconds, and no part of one is lost."""
        for wait, seconds in ((0, []), (0.1, ["1"]), (1, ["1"]), (1.5, ["2"])):
            with self.subTest(wait=wait), unittest.mock.patch("zinduroi.site.Service") as service:
                zinduroi.Site(self.folder / "0.db", 0, wait=wait)
                words = service.call_args.args[0]
                self.assertEqual([word for option, word in zip(words, words[1:]) if option == "--wait"], seconds)

    def test_closed(self):
        site = self.open()
        site.call("read a 7")
        self.assertEqual(site.close(), 0)
        self.assertEqual(site.close(), 0)
        with self.assertRaises(ServiceEnded):
            site.send()
        self.assertFalse(site.reopen())
        self.assertEqual(self.open().sessions("a"), [Session(7, "reader")])

    def test_killed(self):
        site = self.open()
        with site.read("a", 7):
            os.kill(site.pid, signal.SIGKILL)
            with self.assertRaises(ServiceEnded) as caught:
                site.send()
            self.assertEqual(caught.exception.status, -9)
            with self.assertRaises(ServiceEnded):
                site.announce("a", 8)
            self.assertTrue(site.reopen(wait=10))
            self.assertFalse(site.reopen())
            self.assertEqual(site.sessions("a"), [Session(7, "reader")])
        self.assertEqual(site.sessions("a"), [])

    def test_no_memory_for_a_reply(self):
        """It ends the service, since no later reply is known to be whose; no caller waits for ever."""
        site, found = self.open(), queue.SimpleQueue()
        self.addCleanup(site._service.kill)
        with unittest.mock.patch.object(site._service, "_read", side_effect=MemoryError):
            for line in (b"read a 7", b"show a"):
                site.submit(line, found.put)
            failures = [type(found.get(timeout=20).failure) for _ in range(2)]
        self.assertEqual(failures, [ServiceEnded, ServiceEnded])
        self.assertTrue(site.reopen(wait=10))
        self.assertEqual(site.sessions("a"), [Session(7, "reader")])

    def test_killed_before_a_writer_withdraws(self):
        site = self.open()
        site.call("read a 7")
        call = site.call

        def call_and_kill(line):
            try:
                return call(line)
            finally:
                if line.startswith("write"):
                    os.kill(site.pid, signal.SIGKILL)

        site.call = call_and_kill
        with self.assertRaises(ServiceEnded):
            with site.write("a", 8, timeout=0):
                self.fail("a reader is inside")
        site.reopen(wait=10)
        self.assertEqual(site.sessions("a"), [Session(7, "reader"), Session(8, "waiting")])

    def test_caller_that_is_killed(self):
        script = textwrap.dedent("""
            import sys, time
            from zinduroi import Site
            site = Site(sys.argv[1], 0, layout=sys.argv[2], create=True, program=sys.argv[3])
            with site.read("a", 7):
                print(site.pid, flush=True)
                time.sleep(600)
        """)
        process = subprocess.Popen([sys.executable, "-c", script, self.folder / "0.db", self.layout, PROGRAM], cwd=PACKAGE,
                                   stdout=subprocess.PIPE, text=True)
        service = int(process.stdout.readline())
        process.kill()
        process.communicate()
        self.assertTrue(wait_for(lambda: not os.path.exists(f"/proc/{service}")))
        site = self.open()
        self.assertEqual(site.sessions("a"), [Session(7, "reader")])
        self.assertEqual(site.leave("a", 7), "reader")

    def test_log(self):
        logs = [self.folder / f"{number}.log" for number in range(2)]
        for turn in range(2):
            sites = [self.open(number, log=logs[number]) for number in range(2)]
            if turn == 0:
                sites[0].give("a", 1, 1)
            with sites[0].read("a", 7):
                sites[1].take(sites[0].send())
                with sites[1].read("a", 7):
                    self.refused(zinduroi.NoSeat, sites[1].call, "read a 8", rights=0)
            for site in sites:
                site.close()
        judged = subprocess.run([PROGRAM, "judge", "--layout", self.layout], input=b"".join(log.read_bytes() for log in logs),
                                capture_output=True, check=False)
        self.assertEqual(judged.stdout.decode().splitlines()[-1], "consistent")
        # A log has to begin with the store, and to have all of its calls.
        self.started(zinduroi.LogRefused, "WrongStore", log=self.folder / "later.log")
        self.open(0).close()
        self.open(0, log=logs[0]).close()
        without = self.open(0)
        without.announce("a", 1)
        without.close()
        self.started(zinduroi.LogRefused, "WrongStore", log=logs[0])
        self.started(zinduroi.LogRefused, "WrongSite", site=1, log=logs[0])

    def test_files_that_are_no_log(self):
        text, link, new = self.folder / "text.log", self.folder / "link.log", self.folder / "new.db"
        text.write_text("a text without an end of a line", encoding="utf-8")
        self.started(zinduroi.LogRefused, "NotALog", store=new, log=text)
        self.assertEqual(text.read_text(encoding="utf-8"), "a text without an end of a line")
        self.assertFalse(new.exists())
        site = self.open(log=self.folder / "0.log")
        self.started(zinduroi.LogRefused, "InUse", site=1, log=self.folder / "0.log")
        site.close()
        before = (self.folder / "0.db").read_bytes()
        link.symlink_to(self.folder / "0.db")
        self.started(zinduroi.LogRefused, "IsStore", log=link)
        self.assertEqual((self.folder / "0.db").read_bytes(), before)

    def test_layout(self):
        read = zinduroi.read_layout(self.layout, PROGRAM)
        self.assertEqual(read, zinduroi.Layout(3, (Record("a", 3, 0), Record("b", 4, 1))))
        self.assertEqual(zinduroi.read_layout(program=PROGRAM), zinduroi.Layout(2, (Record("a", 2, 0),)))
        named = self.write_layout("named.toml", 2, ("a", 2, 0, 1), ("record", 3, 1, 2), ("site", 1, 0, 1))
        self.assertEqual(zinduroi.read_layout(named, PROGRAM), zinduroi.Layout(2, (Record("a", 2, 0), Record("record", 3, 1), Record("site", 1, 0))))
        with self.assertRaises(zinduroi.LayoutRefused):
            zinduroi.read_layout(self.folder, PROGRAM)

    def test_names(self):
        self.assertEqual(repr(zinduroi.MissingSeats("MissingSeats", 1, 3)), "MissingSeats('MissingSeats', 1, 3)")
        unknown = zinduroi.errors.refusal("refused SomethingNew 1 2")
        self.assertIs(type(unknown), zinduroi.Refused)
        self.assertEqual((unknown.name, unknown.numbers, str(unknown)), ("SomethingNew", (1, 2), "refused SomethingNew 1 2"))
        self.assertIsNone(zinduroi.errors.refusal("admitted"))


if __name__ == "__main__":
    unittest.main()
