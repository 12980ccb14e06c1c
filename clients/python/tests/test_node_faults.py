"""What a node tells an operator where its store or its file of sessions fails, or its clock is wrong."""
import asyncio
import contextlib
import io
import os
import signal
import time
import unittest.mock

from zinduroi.command_line import status_text
from zinduroi.node.answers import Answers, Caller
from zinduroi.node.book import Book
from zinduroi.watch import watch_node

from .common import Case
from .test_node import ListedLink, NodeCase
from .test_page import StubLink, stub_view


class Books(Case):
    """A file of sessions that can't be written, as on a full disk: nobody gets in, and everything that tells of the node tells that."""

    def setUp(self):
        super().setUp()
        self.book = Book(self.folder / "s.db.sessions")
        self.addCleanup(self.book.close)

    def fill(self):
        """From now on no row can be added."""
        for table in ("numbers", "sessions"):
            self.book._file.execute(f"CREATE TRIGGER full_{table} BEFORE INSERT ON {table} BEGIN SELECT RAISE(FAIL, 'full'); END")

    def free(self):
        for table in ("numbers", "sessions"):
            self.book._file.execute(f"DROP TRIGGER full_{table}")

    def test_told_until_it_can_be_written(self):
        link, told = ListedLink(*["rights 3 inside 0 unfinished 0", "0"] * 3), []
        answers, caller = Answers(link, self.book, ("a",), dict), Caller(1, lambda: False)

        async def converse():
            self.assertIsNone((await answers.status())["fault"])
            self.fill()
            for _ in range(20):
                self.assertEqual(await answers.answer(caller, b"read a x"), "refused BookFault")
            self.assertEqual((await answers.status())["fault"], "the file of sessions can't be written: full")
            self.assertEqual(answers.book_failure(), "full")
            self.free()
            self.assertIsNone((await answers.status())["fault"])
        with unittest.mock.patch("zinduroi.node.answers.report", told.append):
            asyncio.run(converse())
        self.assertEqual(told, ["the file of sessions can't be written, and nobody gets in: full", "the file of sessions can be written again"])
        self.assertEqual(self.book.sessions(), [])

    def test_told_by_the_next_caller(self):
        """Who gets in again shows that it can be written."""
        link, told = ListedLink("admitted", "left reader"), []
        answers, caller = Answers(link, self.book, ("a",), dict), Caller(1, lambda: False)

        async def converse():
            self.fill()
            await answers.answer(caller, b"read a x")
            self.free()
            self.assertEqual(await answers.answer(caller, b"read a x"), "admitted")
            await answers.end(caller)
        with unittest.mock.patch("zinduroi.node.answers.report", told.append):
            asyncio.run(converse())
        self.assertEqual(told[1:], ["the file of sessions can be written again"])

    def test_numbers_stay(self):
        """A try leaves the file as it is."""
        first = self.book.begin("a", "x", "t", self, 7).number
        self.book.try_out()
        self.assertEqual(self.book._file.execute("SELECT count(*), min(next) > ? FROM numbers", (first,)).fetchone(), (1, 1))

    def test_health(self):
        async def look():
            view = stub_view(StubLink())
            view.answers.book_failure = lambda: "full"
            return view.health(await view.look())
        self.assertEqual(asyncio.run(look()), (False, "the file of sessions can't be written: full"))

    def test_health_of_a_store_that_is_too_old(self):
        """Why the store has frozen is told: an old store must not be started again, and one whose disk failed may."""
        async def look():
            link = StubLink()
            link.reply = "refused Frozen"
            view = stub_view(link)
            view.site.froze = "refused OwnRowAhead 0"
            return view.health(await view.look())
        self.assertEqual(asyncio.run(look()), (False, "the store answers: refused Frozen, behind refused OwnRowAhead 0"))


class Stores(NodeCase):
    """A store that fails while it is served."""

    def new_book(self):
        book = Book(self.folder / f"{len(list(self.folder.iterdir()))}.sessions")
        self.addCleanup(book.close)
        return book

    def test_told_once(self):
        """The node says so, whoever was answered first: a caller or the exchange."""
        self.start()
        client = self.connect()
        self.says(client, ("read a x", "admitted"))
        for name in ("0.db", "0.db-wal"):
            os.rename(self.folder / name, self.folder / f"{name}.away")
        self.assertIn(client.ask("read a y"), ("refused StoreFault", "refused Frozen"))
        self.assertEqual(client.status()["fault"], "the store answers refused Frozen, behind refused StoreFault")
        self.assertIn("nobody gets in: the store answers refused Frozen, behind refused StoreFault", status_text(client.status(), time.time()))
        client.ask("read a z")
        with contextlib.redirect_stdout(io.StringIO()) as shown:
            self.assertEqual(watch_node(str(self.socket), 1, True), 0)
        self.assertTrue(shown.getvalue().endswith("nobody gets in: the store answers refused Frozen, behind refused StoreFault\n"), shown.getvalue())
        for name in ("0.db", "0.db-wal"):
            os.rename(self.folder / f"{name}.away", self.folder / name)
        errors = self.end()[1]
        self.assertEqual(errors.count("the store answers refused StoreFault: nobody gets in or out at this site, until its disk is mended"), 1, errors)

    def test_told_of_each_service(self):
        """The service is killed behind a freeze, and the next one freezes too: the node says so again."""
        self.start()
        client = self.connect()
        for word in "xy":
            for name in ("0.db", "0.db-wal"):
                os.rename(self.folder / name, self.folder / f"{name}.away")
            self.assertIn(client.ask(f"read a {word}"), ("refused StoreFault", "refused Frozen"))
            for name in ("0.db", "0.db-wal"):
                os.rename(self.folder / f"{name}.away", self.folder / name)
            os.kill(client.status()["service"], signal.SIGKILL)
            self.comes("show a", "rights 3 inside 0 unfinished 0")
        errors = self.end()[1]
        self.assertEqual(errors.count("the store answers refused StoreFault: nobody gets in or out at this site, until its disk is mended"), 2, errors)

    def test_repeated_behind_a_fault(self):
        """Whoever was answered StoreFault and repeats its line is not told that it is inside, unless it is."""
        for repeat, done in (("read a z", "admitted"), ("wait 0 read a z", "admitted"), ("announce a z", "announced 1")):
            with self.subTest(repeat=repeat):
                link, book = ListedLink("refused StoreFault", "refused Frozen", "0", done), self.new_book()
                answers, caller = Answers(link, book, ("a",), dict), Caller(1, lambda: False)
                first = repeat.removeprefix("wait 0 ").encode()

                async def converse():
                    self.assertEqual(await answers.answer(caller, first), "refused StoreFault")
                    self.assertEqual(await answers.answer(caller, repeat.encode()), "refused Frozen")
                    self.assertEqual(await answers.answer(caller, repeat.encode()), done)
                    self.assertEqual([it.word for it in book.sessions()], ["z"])
                asyncio.run(converse())

    def test_repeated_where_it_was_carried_out(self):
        """The store has the session after all."""
        book = self.new_book()
        answers, caller = Answers(ListedLink("refused StoreFault"), book, ("a",), dict), Caller(1, lambda: False)

        async def converse():
            self.assertEqual(await answers.answer(caller, b"read a z"), "refused StoreFault")
            session, = book.sessions()
            answers.link.replies.append(f"1 {session.number} reader")
            self.assertEqual(await answers.answer(caller, b"read a z"), "refused AlreadyHere")
            self.assertEqual(session.phase, "reader")
        asyncio.run(converse())

    def test_repeated_at_a_store_that_is_away(self):
        """The same over a store whose files are moved away, and put back for a service that is started anew."""
        self.start()
        client = self.connect()
        self.says(client, ("read a x", "admitted"))
        for name in ("0.db", "0.db-wal"):
            os.rename(self.folder / name, self.folder / f"{name}.away")
        self.assertIn(client.ask("read a z"), ("refused StoreFault", "refused Frozen"))
        self.says(client, ("read a z", "refused Frozen"), ("wait 0 read a z", "refused Frozen"))
        for name in ("0.db", "0.db-wal"):
            os.rename(self.folder / f"{name}.away", self.folder / name)
        os.kill(client.status()["service"], signal.SIGKILL)
        self.comes("show a", "rights 2 inside 1 unfinished 0")
        self.says(client, ("read a z", "admitted"), ("leave a z", "left reader"), ("leave a x", "left reader"))
        self.end()


class Clocks(Case):
    """A clock that was put back."""

    def test_sessions_of_a_time_to_come(self):
        caller = {"connected": False, "known": True, "kept": False, "since": 5000.0, "pid": 7, "record": "a", "holder": "x", "phase": "reader"}
        self.assertIn("a x reader, entered 0 s ago by process 7", status_text({"records": {}, "callers": [caller]}, 1400.0))
