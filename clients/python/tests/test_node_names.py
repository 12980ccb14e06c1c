"""Whose a session's name is, what a caller that repeats its line is told, and waiting and ending in one process."""
import asyncio
import random
import socket
import types
import unittest
import unittest.mock

from zinduroi.command_line import status_text
from zinduroi.node import NodeGone
from zinduroi.node.answers import Answers, Caller
from zinduroi.node.book import Book
from zinduroi.node.connection import Connection
from zinduroi.node.ending import end_all
from zinduroi.node.lines import Shared
from zinduroi.node.link import Interrupted
from zinduroi.node.listening import HangUps
from zinduroi.node.lock import Lock

from .common import Case
from .test_node import ListedLink
from .test_node_orders import Store, StoreLink

ENTERS = (b"read a x", b"announce a x", b"wait 0 read a x", b"wait 60 write a x")


class HeldLink(ListedLink):
    """A link whose replies come once `go` is set. Some are made then."""

    def __init__(self, *replies):
        super().__init__(*replies)
        self.go = asyncio.Event()
        self.go.set()

    async def ask(self, line):
        reply = await super().ask(line)
        await self.go.wait()
        return reply() if callable(reply) else reply

    ask_until = ask


class BookCase(Case):
    def setUp(self):
        super().setUp()
        self.book = Book(self.folder / "s.db.sessions")
        self.addCleanup(self.book.close)

    def listed(self, phase):
        """A reply to `sessions` that lists the only session of the book."""
        return lambda: f"1 {self.book.sessions()[0].number} {phase}"

    def answers(self, *replies):
        return Answers(HeldLink(*replies), self.book, ("a",), dict)


class Names(BookCase):
    """`AlreadyHere` is a yes: so it is said only to whom the session belongs, and only where it stays."""

    def test_while_it_is_entered(self):
        async def converse():
            answers = self.answers("admitted", "left reader")
            first, other, friend = (Caller(number, lambda: False) for number in range(3))
            friend.adopt(first.token)
            answers.link.go.clear()
            entering = asyncio.create_task(answers.answer(first, b"read a x"))
            await asyncio.sleep(0.01)
            for line in ENTERS:
                self.assertEqual(await answers.answer(other, line), "refused NotYours")
                self.assertEqual(await answers.answer(friend, line), "refused InUse")
            answers.link.go.set()
            self.assertEqual(await entering, "admitted")
            for line in ENTERS:
                self.assertEqual(await answers.answer(first, line), "refused AlreadyHere")
                self.assertEqual(await answers.answer(other, line), "refused NotYours")
                self.assertEqual(await answers.answer(friend, line), "refused InUse")
            await answers.answer(first, b"keep a x")
            for caller, reply in ((first, "refused AlreadyHere"), (friend, "refused AlreadyHere"), (other, "refused NotYours")):
                self.assertEqual(await answers.answer(caller, b"read a x"), reply)
            self.assertEqual(answers.link.lines, ["read"])
            self.assertEqual(await answers.answer(friend, b"leave a x"), "left reader")
        asyncio.run(converse())

    def test_while_it_waits(self):
        """A line that waits has no session yet."""
        async def converse():
            answers = self.answers("refused NoSeat 0", "refused NoSeat 0")
            first, friend = Caller(1, lambda: False), Caller(2, lambda: False)
            friend.adopt(first.token)
            waiting = asyncio.create_task(answers.answer(first, b"wait 0.05 read a x"))
            await asyncio.sleep(0.01)
            for line in ENTERS:
                self.assertEqual(await answers.answer(friend, line), "refused InUse")
            self.assertEqual(await waiting, "timeout refused NoSeat 0")
            self.assertEqual(await answers.answer(friend, b"read a x"), "refused NoSeat 0")
        asyncio.run(converse())

    def test_while_it_is_left(self):
        """Its connection has ended: nobody keeps it, takes it up or finds it any more."""
        async def converse():
            answers = self.answers("admitted", "left reader", "admitted", "left reader")
            first, friend = Caller(1, lambda: False), Caller(2, lambda: False)
            friend.adopt(first.token)
            await answers.answer(first, b"read a x")
            answers.link.go.clear()
            ending = asyncio.create_task(answers.end(first))
            await asyncio.sleep(0.01)
            for line, reply in ((b"keep a x", "refused NotHere"), (b"leave a x", "refused NotHere"), (b"write a x", "refused NotAnnounced"),
                                (b"evict a x", "refused NotHere"), (f"resume {first.token}".encode(), "refused NoToken"),
                                *((line, "refused InUse") for line in ENTERS)):
                self.assertEqual(await answers.answer(friend, line), reply, line)
            answers.link.go.set()
            await ending
            self.assertEqual(await answers.answer(friend, b"read a x"), "admitted")
            self.assertEqual(await answers.answer(friend, b"leave a x"), "left reader")
        asyncio.run(converse())

    def test_where_it_can_not_be_left(self):
        """It belongs to nobody then, and can be taken up; whether the store has it still is asked."""
        async def converse():
            answers = self.answers("admitted", "refused StoreFault", self.listed("reader"), "left reader")
            first, friend = Caller(1, lambda: False), Caller(2, lambda: False)
            await answers.answer(first, b"read a x")
            await answers.end(first)
            self.assertEqual(await answers.answer(friend, f"resume {first.token}".encode()), "resumed 1 a x unknown")
            self.assertEqual(await answers.answer(friend, b"read a x"), "refused AlreadyHere")
            self.assertEqual(await answers.answer(friend, b"leave a x"), "left reader")
        with unittest.mock.patch("zinduroi.node.answers.report"):
            asyncio.run(converse())

    def test_writer_that_was_in_doubt(self):
        """Its `write` was carried out and answered `StoreFault`; a new service says so, and the node does not leave it."""
        async def converse():
            answers = self.answers("announced 1", "refused StoreFault", "refused Frozen", "refused AlreadyInside", "left writer")
            caller = Caller(1, lambda: False)
            self.assertEqual(await answers.answer(caller, b"wait 60 write a w"), "refused StoreFault")
            self.assertEqual(await answers.answer(caller, b"wait 60 write a w"), "refused AlreadyInside")
            self.assertEqual([(it.word, it.phase) for it in self.book.sessions()], [("w", "writer")])
            self.assertEqual(answers.link.lines, ["announce", "write", "leave", "write"])
            self.assertEqual(await answers.answer(caller, b"wait 60 write a w"), "refused AlreadyHere")
            await answers.end(caller)
            self.assertEqual((answers.link.replies, self.book.sessions()), ([], []))
        asyncio.run(converse())

    def test_leave_that_is_in_doubt(self):
        """It was answered `StoreFault`, or interrupted by the end of a service behind which the next one had frozen: the session may be gone,
        and is no more told of as there."""
        async def converse(*replies):
            answers = self.answers("admitted", *replies)
            caller = Caller(1, lambda: False)
            self.assertEqual(await answers.answer(caller, b"read a x"), "admitted")
            self.assertEqual(await answers.answer(caller, b"leave a x"), "refused StoreFault")
            asked = [await answers.answer(caller, line) for line in (b"keep a x", b"read a x", b"leave a x")]
            self.assertEqual(answers.link.replies, [])
            return asked
        for replies in (("refused StoreFault",), (Interrupted(), "refused Frozen")):
            self.assertEqual(asyncio.run(converse(*replies, "0", "admitted", "left reader")), ["refused NotHere", "admitted", "left reader"])
            asked = asyncio.run(converse(*replies, self.listed("reader"), "left reader"))
            self.assertRegex(asked.pop(0), "^kept [0-9a-f]{32}$")
            self.assertEqual(asked, ["refused AlreadyHere", "left reader"])

    def test_interrupted_announcement_that_can_not_be_withdrawn(self):
        """It was carried out, and the store freezes before it is withdrawn: the session is not forgotten."""
        async def converse():
            answers = self.answers(Interrupted(), self.listed("waiting"), "refused StoreFault", self.listed("waiting"), "withdrawn")
            caller = Caller(1, lambda: False)
            self.assertEqual(await answers.answer(caller, b"announce a w"), "refused StoreFault")
            self.assertEqual(await answers.answer(caller, b"announce a w"), "refused AlreadyHere")
            self.assertEqual(await answers.answer(caller, b"leave a w"), "withdrawn")
            self.assertEqual((answers.link.replies, self.book.sessions()), ([], []))
        asyncio.run(converse())

    def test_writer_of_another_connection(self):
        """Its end ends the session, so nobody else enters with it."""
        async def converse():
            answers = self.answers("admitted", "announced 1", "admitted")
            first, friend = Caller(1, lambda: False), Caller(2, lambda: False)
            for line in (b"read a r", b"keep a r", b"announce a w"):
                await answers.answer(first, line)
            self.assertEqual(await answers.answer(friend, f"resume {first.token}".encode()), "resumed 1 a r reader")
            for line in (b"write a w", b"wait 60 write a w"):
                self.assertEqual(await answers.answer(friend, line), "refused InUse")
            self.assertEqual(await answers.answer(first, b"write a w"), "admitted")
            self.assertEqual(answers.link.replies, [])
        asyncio.run(converse())

    def test_session_that_is_taken_up_during_a_line(self):
        """It is inside for the connection that took it up, whose end ends it, and not for the one whose line it was."""
        async def converse(*lines):
            answers = self.answers(*["announced 1"] * (len(lines) - 1), "admitted", "left reader")
            first, friend = Caller(1, lambda: False), Caller(2, lambda: False)
            for line in lines[:-1]:
                await answers.answer(first, line)
            answers.link.go.clear()
            entering = asyncio.create_task(answers.answer(first, lines[-1]))
            await asyncio.sleep(0.01)
            session, = self.book.sessions()
            self.book.keep(session)
            self.assertRegex(await answers.answer(friend, f"resume {first.token}".encode()), "^resumed 1 a x (waiting|unknown)$")
            answers.link.go.set()
            self.assertEqual(await entering, "refused InUse")
            await answers.end(friend)
            self.assertEqual((answers.link.lines[-1], self.book.sessions()), ("leave", []))
        for lines in ((b"read a x",), (b"announce a x", b"write a x"), (b"announce a x", b"wait 60 write a x")):
            asyncio.run(converse(*lines))

    def test_interrupted_and_frozen(self):
        """The service ended during a call, and the next one has frozen: the call may have been carried out, so it is looked up later."""
        async def converse():
            answers = self.answers(Interrupted(), "refused Frozen", "refused Frozen", "0", "admitted")
            caller = Caller(1, lambda: False)
            self.assertEqual(await answers.answer(caller, b"read a x"), "refused StoreFault")
            self.assertEqual(await answers.answer(caller, b"read a x"), "refused Frozen")
            self.assertEqual(await answers.answer(caller, b"read a x"), "admitted")
            self.assertEqual(answers.link.lines, ["read", "sessions", "sessions", "sessions", "read"])
        asyncio.run(converse())

    def test_shown_in_doubt(self):
        caller = {"connected": False, "known": True, "kept": False, "since": 1000.0, "pid": 7, "record": "a", "holder": "x", "phase": None}
        self.assertIn("a x unknown, entered 400 s ago by process 7", status_text({"records": {}, "callers": [caller]}, 1400.0))


class Waits(BookCase):
    def test_session_that_is_ended_while_it_waits(self):
        """A reader leaves, and an operator ends the writer that waits behind another caller, before the writer's line goes on: it has no
        turn any more, and waits without asking."""
        store, looks = Store(), []

        async def converse():
            answers = Answers(StoreLink(store, random.Random(1), 0), self.book, ("a",), dict)
            inside, writer, first = (Caller(number, lambda: False) for number in range(3))
            for caller, line in ((inside, b"read a h"), (writer, b"announce a w"), (writer, b"keep a w")):
                self.assertRegex(await answers.answer(caller, line), "^(admitted|announced 1|kept .*)$")
            waits = [asyncio.create_task(answers.answer(first, b"wait 60 read a r"))]
            await asyncio.sleep(0.02)
            waits.append(asyncio.create_task(answers.answer(writer, b"wait 60 write a w")))
            await asyncio.sleep(0.02)
            pause = answers.queues._pause

            async def counted(waiter, end):
                looks.append(waiter.session.word)
                return await pause(waiter, end)
            reader, ended = self.book.find("a", "h"), self.book.find("a", "w")
            # A writer of nobody keeps the first one waiting.
            store.phases = {1: "waiting"}
            with unittest.mock.patch.object(answers.queues, "_pause", counted):
                answers.desk._note(reader, "leave", "left reader")
                answers.desk._note(ended, "leave", "withdrawn")
                for _ in range(100):
                    await asyncio.sleep(0)
                self.assertLess(len(looks), 10)
                store.phases.clear()
                answers.queues.wake("a")
                self.assertEqual(await asyncio.wait_for(waits[0], 10), "admitted")
                self.assertEqual(await asyncio.wait_for(waits[1], 10), "refused NotHere")
        asyncio.run(converse())


class Given(BookCase):
    """What becomes of a writer whose line waits no more, and of a session that another connection has taken up."""

    MISSING = "refused MissingSeats 0 3"

    def test_withdrawal_that_fails(self):
        """A writer that the store has not withdrawn is not told that its time is over."""
        async def converse(reply):
            answers, caller = self.answers("announced 1", self.MISSING, reply, "withdrawn"), Caller(1, lambda: False)
            told = await answers.answer(caller, b"wait 0 write a w")
            return told, await answers.answer(caller, b"leave a w"), answers.link.lines
        for reply in ("refused StoreFault", "refused Frozen"):
            self.assertEqual(asyncio.run(converse(reply)), (reply, "withdrawn", ["announce", "write", "leave", "leave"]))

    def test_withdrawal_behind_a_fault(self):
        """The first fault is told, since the call may have been carried out."""
        async def converse():
            answers = self.answers("announced 1", "refused StoreFault", "refused Frozen")
            return await answers.answer(Caller(1, lambda: False), b"wait 0 write a w")
        self.assertEqual(asyncio.run(converse()), "refused StoreFault")

    def test_withdrawal_without_memory(self):
        async def converse():
            answers = self.answers("announced 1", self.MISSING, "refused Memory", "withdrawn")
            with unittest.mock.patch("zinduroi.node.desk.MEMORY_PAUSE", 0.01):
                told = await answers.answer(Caller(1, lambda: False), b"wait 0 write a w")
            return told, answers.link.lines, self.book.sessions()
        self.assertEqual(asyncio.run(converse()), (f"timeout {self.MISSING}", ["announce", "write", "leave", "leave"], []))

    def test_admitted_while_another_line_gives_up(self):
        """The line whose time is over does not leave what another one has had enter."""
        async def converse():
            answers = self.answers("announced 1", self.MISSING, "admitted", "left writer")
            first, friend = Caller(1, lambda: False), Caller(2, lambda: False)
            friend.adopt(first.token)
            for line in (b"announce a w", b"keep a w"):
                await answers.answer(first, line)
            waiting = asyncio.create_task(answers.answer(first, b"wait 0.1 write a w"))
            await asyncio.sleep(0.02)
            answers.link.go.clear()
            entering = asyncio.create_task(answers.answer(friend, b"write a w"))
            await asyncio.sleep(0.3)
            answers.link.go.set()
            self.assertEqual(await entering, "admitted")
            self.assertEqual(await waiting, f"timeout {self.MISSING}")
            self.assertEqual([(it.word, it.phase, it.ending) for it in self.book.sessions()], [("w", "writer", False)])
        asyncio.run(converse())

    async def taken_up(self, *replies):
        """A writer whose line waits, and that another connection has taken up."""
        answers, over = self.answers("announced 1", self.MISSING, *replies), []
        first, friend = Caller(1, lambda: bool(over)), Caller(2, lambda: False)
        for line in (b"announce a w", b"keep a w"):
            await answers.answer(first, line)
        waiting = asyncio.create_task(answers.answer(first, b"wait 60 write a w"))
        await asyncio.sleep(0.02)
        self.assertEqual(await answers.answer(friend, f"resume {first.token}".encode()), "resumed 1 a w waiting")
        return answers, first, friend, over, waiting

    def test_end_of_the_connection_that_waits(self):
        async def converse():
            answers, first, _, over, waiting = await self.taken_up("withdrawn")
            over.append(True)
            first.wake()
            await waiting
            await answers.end(first)
            self.assertEqual([it.word for it in self.book.sessions()], ["w"])
            self.assertNotIn("leave", answers.link.lines)
        asyncio.run(converse())

    def test_other_connection_that_enters(self):
        async def converse():
            answers, _, friend, _, waiting = await self.taken_up("admitted")
            self.assertEqual(await answers.answer(friend, b"write a w"), "admitted")
            answers.queues.wake("a")
            self.assertEqual(await waiting, "refused InUse")
            self.assertEqual(answers.link.lines, ["announce", "write", "write"])
        asyncio.run(converse())

    def test_already_inside_for_another_connection(self):
        """A line that was on its way as the session was taken up gets no yes."""
        async def converse():
            answers = self.answers("announced 1", "refused AlreadyInside")
            first, friend = Caller(1, lambda: False), Caller(2, lambda: False)
            for line in (b"announce a w", b"keep a w"):
                await answers.answer(first, line)
            answers.link.go.clear()
            writing = asyncio.create_task(answers.answer(first, b"write a w"))
            await asyncio.sleep(0.02)
            await answers.answer(friend, f"resume {first.token}".encode())
            answers.link.go.set()
            self.assertEqual(await writing, "refused InUse")
        asyncio.run(converse())

    def test_kept_while_it_is_withdrawn(self):
        async def converse():
            answers, over = self.answers("announced 1", self.MISSING, "withdrawn"), []
            first, friend = Caller(1, lambda: bool(over)), Caller(2, lambda: False)
            friend.adopt(first.token)
            waiting = asyncio.create_task(answers.answer(first, b"wait 60 write a w"))
            await asyncio.sleep(0.02)
            over.append(True)
            answers.link.go.clear()
            first.wake()
            await asyncio.sleep(0.02)
            self.assertEqual(await answers.answer(friend, b"keep a w"), "refused NotHere")
            answers.link.go.set()
            await waiting
            self.assertEqual(self.book.sessions(), [])
        asyncio.run(converse())

    def test_kept_while_it_is_entered(self):
        async def converse():
            answers = self.answers("refused NoSeat 0")
            first, friend = Caller(1, lambda: False), Caller(2, lambda: False)
            friend.adopt(first.token)
            waiting = asyncio.create_task(answers.answer(first, b"wait 0.1 read a x"))
            await asyncio.sleep(0.02)
            self.assertEqual(await answers.answer(friend, b"keep a x"), "refused InUse")
            self.assertEqual(await waiting, "timeout refused NoSeat 0")
        asyncio.run(converse())

    def test_writer_that_was_not_left_and_enters(self):
        """Once the store has told of a session again, nothing of it is in doubt."""
        async def converse():
            answers, caller = self.answers("announced 1", "refused StoreFault", "admitted"), Caller(1, lambda: False)
            for line in (b"announce a w", b"leave a w", b"write a w"):
                await answers.answer(caller, line)
            return await answers.answer(caller, f"resume {caller.token}".encode())
        self.assertEqual(asyncio.run(converse()), "resumed 1 a w writer")


class Stops(BookCase):
    async def connect(self, stops, *replies):
        """A connection, its other end, and what answers it."""
        answers, hang_ups = self.answers(*replies), HangUps()
        near, far = socket.socketpair()
        near.setblocking(False)
        connection = Connection(near, answers, Shared(), hang_ups, lambda: bool(stops))
        connection.task = asyncio.create_task(connection.run())
        return connection, far, hang_ups

    def test_ended_as_the_node_stops(self):
        async def converse():
            connection, far, hang_ups = await self.connect([])
            far.shutdown(socket.SHUT_WR)
            await asyncio.wait([connection.task])
            connection.stop()
            hang_ups.close()
            far.close()
        asyncio.run(converse())

    def test_hung_up_as_the_node_stops(self):
        """Who has closed its connection before the node stops is left."""
        async def converse():
            stops = []
            connection, far, hang_ups = await self.connect(stops, "admitted", "left reader")
            far.sendall(b"read a x\n")
            self.assertEqual(await asyncio.to_thread(far.recv, 100), b"admitted\n")
            await asyncio.sleep(0.02)
            far.close()
            stops.append(True)
            connection.stop()
            await asyncio.wait([connection.task])
            hang_ups.close()
            self.assertEqual(self.book.sessions(), [])
        asyncio.run(converse())


class Looks(BookCase):
    def test_all_records_at_once(self):
        """A status asks for all records at once, and gives each its own reply."""
        most = [0, 0]

        async def ask_until(line):
            most[:] = [max(most[0], most[1] + 1), most[1] + 1]
            await asyncio.sleep(0.01)
            most[1] -= 1
            verb, record = line.split(" ")
            return f"rights {ord(record) - 96} inside 0 unfinished 0" if verb == "show" else f"1 {ord(record)} reader"

        async def look():
            link = types.SimpleNamespace(ask_until=ask_until, site=types.SimpleNamespace(site=0, froze=None))
            return await Answers(link, self.book, tuple("abcdefgh"), dict).status()
        state = asyncio.run(look())
        self.assertEqual([(name, shown["rights"], shown["sessions"]) for name, shown in state["records"].items()],
                         [(name, ord(name) - 96, [[f"?{ord(name)}", "reader"]]) for name in "abcdefgh"])
        self.assertEqual(most, [16, 0])


class Ends(unittest.TestCase):
    def test_cancellation_that_is_dropped(self):
        async def stubborn():
            for _ in range(2):
                try:
                    await asyncio.sleep(60)
                except asyncio.CancelledError:
                    pass
            await asyncio.sleep(60)

        async def end():
            tasks = [asyncio.create_task(stubborn()), asyncio.create_task(asyncio.sleep(60))]
            await asyncio.sleep(0)
            await asyncio.wait_for(end_all(tasks), 10)
            await end_all([])
            return [task.cancelled() for task in tasks]
        with unittest.mock.patch("zinduroi.node.ending.AGAIN", 0.01):
            self.assertEqual(asyncio.run(end()), [True, True])


class GoneClient:
    """A connection to a node that ends during `wait`."""

    made = 0

    def __init__(self, path, timeout):
        GoneClient.made += 1
        self.socket = unittest.mock.Mock()
        if GoneClient.made > 1:
            raise NodeGone("no node answers at s: gone")

    def ask(self, line):
        if line == "token":
            return "token " + "0a" * 16
        raise NodeGone("the node at s ended")

    def close(self):
        pass


class Locks(unittest.TestCase):
    def test_time_over_without_a_node(self):
        """The node ended while it waited, and is not back in time: its writer may stand in the store."""
        GoneClient.made = 0
        with unittest.mock.patch("zinduroi.node.lock.NodeClient", GoneClient), self.assertRaises(NodeGone) as gone:
            Lock("s", "a", False, 0.2, False).enter()
        self.assertEqual(str(gone.exception), "no node answers at s: gone; a session of a may still be in the store: see zinduroi status")


if __name__ == "__main__":
    unittest.main()
