"""A node's sessions under random orders of events, in one process: calls that a service's end interrupts, connections that end while
a call is in flight, and nodes that are started again. The store is a model of one record."""
import asyncio
import pathlib
import random
import tempfile
import unittest

from zinduroi.node.answers import Answers, Caller
from zinduroi.node.book import Book, stored_sessions
from zinduroi.node.link import Interrupted

SEATS = 3
CALLERS = 6


class Store:
    """One record of one site: numbers with their phases. `may_leave` is asked before each `leave` of a session that is there."""

    def __init__(self):
        self.phases = {}
        self.may_leave = lambda number, phase: True

    def answer(self, line):
        verb, _, *rest = line.split(" ")
        if verb == "sessions":
            return f"{len(self.phases)} {', '.join(f'{number} {phase}' for number, phase in self.phases.items())}".rstrip()
        number = int(rest[0])
        return getattr(self, verb)(number, self.phases.get(number))

    def read(self, number, phase):
        if phase is not None:
            return "refused AlreadyHere"
        if set(self.phases.values()) & {"waiting", "writer"}:
            return "refused WriterAnnounced 0"
        if len(self.phases) == SEATS:
            return "refused NoSeat 0"
        self.phases[number] = "reader"
        return "admitted"

    def announce(self, number, phase):
        if phase is not None:
            return "refused AlreadyHere"
        self.phases[number] = "waiting"
        return "announced 1"

    def write(self, number, phase):
        if phase != "waiting":
            return "refused AlreadyInside" if phase == "writer" else "refused NotAnnounced"
        if set(self.phases.values()) & {"reader", "writer"}:
            return f"refused MissingSeats 0 {SEATS}"
        self.phases[number] = "writer"
        return "admitted"

    def leave(self, number, phase):
        if phase is None:
            return "refused NotHere"
        if not self.may_leave(number, phase):
            raise AssertionError(f"a leave that nobody asked for: {number} {phase}")
        del self.phases[number]
        return "withdrawn" if phase == "waiting" else f"left {phase}"


class StoreLink:
    """A link to the store: lines in their order, and a service that ends before or behind a call now and then."""

    def __init__(self, store, chance, ends):
        self.store, self.chance, self.ends = store, chance, ends
        self.site = self
        self.turn = asyncio.Lock()

    def tell_listeners(self):
        pass

    async def pause(self):
        for _ in range(self.chance.randrange(4)):
            await asyncio.sleep(0)

    async def ask(self, line):
        async with self.turn:
            await self.pause()
            if self.chance.random() < self.ends:
                raise Interrupted
            reply = self.store.answer(line)
            await self.pause()
            if self.chance.random() < self.ends:
                raise Interrupted
            return reply

    async def ask_until(self, line):
        while True:
            try:
                return await self.ask(line)
            except Interrupted:
                continue


class World:
    """A node that is started again now and then, and its callers."""

    def __init__(self, seed, folder):
        self.chance = random.Random(seed)
        self.path = folder / f"{seed}.sessions"
        self.store = Store()
        self.store.may_leave = self.may_leave
        self.run = 0
        self.asked = set()      # words of which a caller or an operator has asked that they end, or whose connection has ended
        self.trying = set()     # words that are being entered: a writer that waits may be withdrawn
        self.open_node()

    def open_node(self):
        self.run += 1
        self.book = Book(self.path)
        link = StoreLink(self.store, self.chance, self.chance.choice([0, 0, 0.1]))
        self.book.recall({"a": stored_sessions(self.store.answer("sessions a"))})
        self.answers = Answers(link, self.book, ("a",), dict)

    def may_leave(self, number, phase):
        word = self.book.word_of("a", number)
        return word in self.asked or (phase == "waiting" and word in self.trying)

    async def work(self, name):
        """One caller: connection after connection."""
        for visit in range(8):
            await Visit(self, f"{name}.{visit}").work()

    def restart(self):
        """The node dies: calls in flight are carried out or not, and what it knew is what its file has."""
        self.book.close()
        self.asked -= {word for word in self.asked if word in self.inside_words()}
        self.open_node()

    def inside_words(self):
        return {self.book.word_of("a", number) for number in self.store.phases}


class Visit:
    """A connection with one session, from its token to its end."""

    def __init__(self, world, word):
        self.world, self.word = world, word
        self.ended = False
        self.caller = Caller(1, lambda: self.ended)

    async def ask(self, line):
        return await self.world.answers.answer(self.caller, line.encode())

    async def work(self):
        world, chance = self.world, self.world.chance
        await self.ask("token")
        ender = asyncio.create_task(self.end_some_time()) if chance.random() < 0.4 else None
        verb = chance.choice(["read", "wait 0.01 read", "wait 0.01 write", "wait 0 write", "announce"])
        world.trying.add(self.word)
        reply = await self.ask(f"{verb} a {self.word}")
        world.trying.discard(self.word)
        kept = False
        if reply == "admitted":
            self.is_inside(verb)
            await world.answers.link.pause()
            if chance.random() < 0.3:
                kept = (await self.ask(f"keep a {self.word}")).startswith("kept")
            self.is_inside(verb)
        if chance.random() < 0.5:
            world.asked.add(self.word)
            await self.ask(f"leave a {self.word}")
        if ender is not None:
            await ender
        await self.end(kept)

    def is_inside(self, verb):
        """Who was told `admitted` is inside, whatever else happened."""
        phases = {self.world.book.word_of("a", number): phase for number, phase in self.world.store.phases.items()}
        wanted = "writer" if verb.endswith("write") else "reader"
        if phases.get(self.word) != wanted:
            raise AssertionError(f"{self.word} was admitted as {wanted}, and the store has {phases}")

    async def end_some_time(self):
        for _ in range(self.world.chance.randrange(30)):
            await asyncio.sleep(0)
        self.ended = True
        self.caller.wake()

    async def end(self, kept):
        """The connection ends, behind its last line."""
        if not kept:
            self.world.asked.add(self.word)
        await self.world.answers.end(self.caller)
        here = self.word in self.world.inside_words()
        if here and not kept:
            raise AssertionError(f"{self.word} is not left, though its connection has ended")


async def run_world(seed, folder):
    world = World(seed, folder)
    for _ in range(3):
        callers = [asyncio.create_task(world.work(f"{world.run}.{number}")) for number in range(CALLERS)]
        if world.chance.random() < 0.7:
            await asyncio.gather(*callers)
        else:
            for _ in range(world.chance.randrange(400)):
                await asyncio.sleep(0)
            for caller in callers:
                caller.cancel()
            found = await asyncio.gather(*callers, return_exceptions=True)
            faults = [fault for fault in found if isinstance(fault, Exception)]
            if faults:
                raise faults[0]
        before = world.inside_words()
        world.restart()
        if world.inside_words() != before:
            raise AssertionError(f"words are lost: {before}, {world.inside_words()}")
        await evict_all(world)
    world.book.close()


async def evict_all(world):
    """Nothing is left by the new node until an operator says so."""
    await asyncio.sleep(0)
    operator = Caller(2, lambda: False)
    for session in world.book.sessions():
        if session.number not in world.store.phases:
            raise AssertionError(f"{session} is not in the store")
        world.asked.add(session.word)
        reply = await world.answers.answer(operator, f"evict a {session.word}".encode())
        if not reply.startswith(("left", "withdrawn")):
            raise AssertionError(reply)
    if world.store.phases or world.book.sessions():
        raise AssertionError(f"in the end there are {world.store.phases}")


async def run_pairs(path, seeds):
    """Two connections with one token: what one says of a session comes while the other enters it, and the service ends now and then."""
    book = Book(path)
    for seed in seeds:
        chance, store = random.Random(seed), Store()
        answers = Answers(StoreLink(store, chance, 0.5), book, ("a",), dict)
        first, second = Caller(1, lambda: False), Caller(2, lambda: False)
        second.adopt(first.token)

        async def say(caller, line):
            await answers.link.pause()
            return await answers.answer(caller, line.encode())
        await asyncio.gather(say(first, chance.choice(["read a x", "announce a x", "wait 0 write a x"])), say(second, "leave a x"),
                             say(second, chance.choice(["leave a x", "write a x"])))
        known = {session.number: session.phase for session in book.sessions()}
        if known != store.phases:
            raise AssertionError(f"seed {seed}: the node knows {known}, and the store has {store.phases}")
        await answers.end(first)
        if store.phases or book.sessions():
            raise AssertionError(f"seed {seed}: in the end there are {store.phases}")
    book.close()


class Orders(unittest.TestCase):
    """Each session is left when its connection ends, and by nothing else; and who is told that it is inside is inside."""

    def test_random_orders(self):
        with tempfile.TemporaryDirectory() as folder:
            for seed in range(60):
                with self.subTest(seed=seed):
                    asyncio.run(run_world(seed, pathlib.Path(folder)))

    def test_calls_of_one_session(self):
        with tempfile.TemporaryDirectory() as folder:
            asyncio.run(run_pairs(pathlib.Path(folder) / "pairs.sessions", range(1000)))


if __name__ == "__main__":
    unittest.main()
