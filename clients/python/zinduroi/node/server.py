"""The node: it serves a site to the programs of its machine."""
from __future__ import annotations

import asyncio
import collections
import contextlib
import dataclasses
import resource
import signal
import socket
from typing import Any, Callable, Counter, Dict, Iterable, List, Optional, Set, Tuple

from ..exchange import Exchange
from ..errors import StartRefused, StoreRefused
from ..site import Layout, read_layout
from ..transports import Folder, Transport
from .answers import Answers
from .book import Book, stored_sessions
from .config import Config
from .connection import Connection
from .ending import end_all
from .lines import Shared
from .link import Link, NodeSite
from .listening import HangUps, Listener
from .page import Page
from .report import report
from .sharing_task import Sharer, Sharing
from .starting import Stopped, settled, unless_stopped
from .view import View

# How many seconds a stop waits for lines in work, and for a program that doesn't answer; and for a transport that hangs.
LAST_ANSWERS = 5.0
LAST_ROUND = 40.0
# Files that the node needs beside its connections.
OTHER_FILES = 100


class Several:
    """Several transports as one: a text goes to each, and those of all arrive."""

    def __init__(self, transports: List[Transport]) -> None:
        self._transports = transports

    def publish(self, site: int, text: str) -> None:
        """Publishes by each; then raises the failure of the last one that failed."""
        failed: Optional[Exception] = None
        for transport in self._transports:
            try:
                transport.publish(site, text)
            except Exception as failure:
                failed = failure
        if failed is not None:
            raise failed

    def messages(self) -> Iterable[str]:
        """The texts of all that could be asked; then raises why another one could not, at best that its folder is not there."""
        failed: Optional[Exception] = None
        for transport in self._transports:
            try:
                texts = list(transport.messages())
            except Exception as failure:
                failed = failure if failed is None or isinstance(failure, OSError) else failed
            else:
                yield from texts
        if failed is not None:
            raise failed

    def listen(self, listener: object) -> None:
        """Passes the listener on to those that know such."""
        for transport in self._transports:
            listen = getattr(transport, "listen", None)
            if listen is not None:
                listen(listener)

    def states(self) -> List[Any]:
        """The states of the neighbours of all."""
        return [state for transport in self._transports for state in getattr(transport, "states", list)()]

    def failures(self) -> Counter[str]:
        """How often connections to neighbours failed, by name."""
        return sum((getattr(transport, "failures", collections.Counter)() for transport in self._transports), collections.Counter())

    def close(self) -> None:
        """Closes those that have to be closed."""
        for transport in self._transports:
            close = getattr(transport, "close", None)
            if close is not None:
                close()


class Node:
    """A node from its start to its end, on one thread with a loop; the service and the exchange have threads of their own."""

    def __init__(self, config: Config) -> None:
        self.config = config
        self._listener = Listener(config.socket)
        self._site: Optional[NodeSite] = None
        self._book: Optional[Book] = None
        self._exchange: Optional[Exchange] = None
        self._link: Optional[Link] = None
        self._answers: Optional[Answers] = None
        self._hang_ups: Optional[HangUps] = None
        self._page: Optional[Page] = None
        self._transports: List[Transport] = []
        self._sharing: Optional[Tuple[Sharing, "asyncio.Task[None]"]] = None
        self._connections: Set[Connection] = set()
        self._shared = Shared()
        self._stopping = asyncio.Event()

    async def run(self, create: bool) -> None:
        """Serves until `stop` is called. With `create` the store is made, once the transports are. Raises what the site, the transports,
        the exchange or the socket raise at their start, and `Stopped` if `stop` is called meanwhile."""
        accepting: Optional[asyncio.Task[None]] = None
        try:
            await self._open(create)
            listening = self._listener.listen()
            accepting = asyncio.create_task(self._accept(listening))
            report(f"site {self.config.site} at {self._listener.path}")
            await self._stopping.wait()
        except StartRefused as refused:
            refused.file = getattr(self.config, refused.what)
            raise
        finally:
            if accepting is not None:
                await end_all([accepting])
            self._listener.deafen()
            await self._close()

    def stop(self) -> None:
        """Ends the node. Sessions stay in the store, but for those that still waited."""
        self._stopping.set()

    async def _open(self, create: bool) -> None:
        config = self.config
        layout = await unless_stopped(self._stopping, f"{config.program} to read the layout", read_layout, config.layout, config.program)
        if create:
            self._begin_transports()
        self._site = await unless_stopped(self._stopping, f"{config.program} to open the store", NodeSite, config.store, config.site,
                                          config.layout, config.group, create, config.log, config.program)
        records = tuple(record.name for record in layout.records)
        self._book = Book(f"{config.store}.sessions")
        self._link = link = Link(self._site)
        stored = {}
        for record in records:
            asked = asyncio.ensure_future(link.ask_until(f"sessions {record}"))
            listed = await settled(self._stopping, f"{config.program} to list the sessions", asked)
            if listed.startswith("refused"):
                raise StoreRefused(listed.split(" ")[1])
            stored[record] = stored_sessions(listed)
        self._book.recall(stored)
        self._answers = Answers(link, self._book, records, self._more)
        self._hang_ups = HangUps()
        self._site.merged = _on_loop(self._answers.queues.wake_all)
        await self._start_exchange(self._site, self._answers, layout, create)
        _allow_files(config.socket.connections + OTHER_FILES)
        self._answers.group = config.group
        link.timed = self._answers.tally.called
        if config.page is not None:
            page = Page(config.page, View(self._answers, layout, self._site, self._exchange))
            await page.start()
            self._page = page

    async def _start_exchange(self, site: NodeSite, answers: Answers, layout: Layout, create: bool) -> None:
        """Starts the exchange, and seat sharing where a transport can. A start that waits for peers leaves the loop to others."""
        transports = self._transports if create else self._make_transports()
        self._transports = transports
        if transports:
            transport = transports[0] if len(transports) == 1 else Several(transports)
            self._exchange = Exchange(site, transport, self.config.interval, self.config.every, answers.records)
            self._exchange.helps = self.config.helps
            await unless_stopped(self._stopping, "the transports and the program to take what has come", self._exchange.start, not create)
            if self._exchange.tally().failed:
                report("a transport fails; it is tried again")
        sharers = [transport for transport in transports if isinstance(transport, Sharer)]
        if sharers and self.config.share:
            sharing = Sharing(answers, sharers[0], layout)
            self._sharing = sharing, asyncio.create_task(sharing.run())

    def _begin_transports(self) -> None:
        """Makes the transports of a site's first start before its store is made, which what was mistyped there, as a folder that is not
        there, would leave behind."""
        self._transports = self._make_transports()
        for transport in self._transports:
            if isinstance(transport, Folder):
                transport.look()

    def _make_transports(self) -> List[Transport]:
        """Makes all transports, or none."""
        made: List[Transport] = []
        try:
            for make in self.config.transports:
                made.append(make())
        except BaseException:
            Several(made).close()
            raise
        return made

    async def _accept(self, listening: socket.socket) -> None:
        loop = asyncio.get_running_loop()
        while True:
            # Where the next one is there already nothing has to wait, and nobody else would get a turn.
            await asyncio.sleep(0)
            try:
                accepted, _ = await loop.sock_accept(listening)
            except OSError as error:
                report(f"accept: {error}")
                await asyncio.sleep(0.1)
                continue
            accepted.setblocking(False)
            if len(self._connections) >= self.config.socket.connections:
                _turn_away(accepted)
                continue
            try:
                self._begin(accepted)
            except OSError as error:
                # As where the kernel has no room to watch it. It has no session yet, and the next one comes.
                report(f"a connection can't be served: {error}")
                accepted.close()

    def _begin(self, accepted: socket.socket) -> None:
        assert self._answers is not None and self._hang_ups is not None
        connection = Connection(accepted, self._answers, self._shared, self._hang_ups, self._stopping.is_set)
        self._connections.add(connection)
        connection.task = asyncio.create_task(connection.run())
        connection.task.add_done_callback(lambda task: self._ended(connection, task))

    def _ended(self, connection: Connection, task: "asyncio.Task[None]") -> None:
        self._connections.discard(connection)
        if not task.cancelled() and task.exception() is not None:
            report(f"a connection failed: {task.exception()!r}")

    async def _close(self) -> None:
        """Answers the lines in work, and closes all in the order opposite to the start."""
        tasks = [connection.task for connection in self._connections if connection.task is not None]
        for connection in list(self._connections):
            connection.stop()
        if tasks:
            _, late = await asyncio.wait(tasks, timeout=LAST_ANSWERS)
            await end_all(late)
        await self._kill_if_it_hangs()
        if self._page is not None:
            await self._page.close()
        if self._sharing is not None:
            await end_all([self._sharing[1]])
        if self._exchange is not None:
            ended = await asyncio.to_thread(self._exchange.close, LAST_ROUND)
            if not ended and await self._kill_if_it_hangs():
                ended = await asyncio.to_thread(self._exchange.close, LAST_ANSWERS)
            if not ended:
                report("a transport does not answer, and is left: what this site knows may not have been sent")
        elif self._transports:
            await asyncio.to_thread(Several(self._transports).close)
        if self._hang_ups is not None:
            self._hang_ups.close()
        if self._book is not None:
            self._book.close()
        if self._site is not None:
            self._site.merged = lambda: None
            closing = asyncio.ensure_future(asyncio.to_thread(self._site.close))
            await asyncio.wait((closing,), timeout=LAST_ANSWERS)
            if not closing.done():
                self._kill(self._site)
            await closing
        self._listener.close()

    async def _kill_if_it_hangs(self) -> bool:
        """Kills a program that no longer answers: the exchange and the service could not be closed else. Says whether it did."""
        if self._link is None or self._site is None or self._site.is_over:
            return False
        asked = asyncio.ensure_future(self._link.ask_until("show"))
        await asyncio.wait((asked,), timeout=LAST_ANSWERS)
        if asked.done() or not asked.cancel():
            return False
        self._kill(self._site)
        return True

    @staticmethod
    def _kill(site: NodeSite) -> None:
        report("the program does not answer, and is killed: what it has answered is in the store")
        site.kill()

    def _more(self) -> Dict[str, object]:
        """What a status has beside the records."""
        assert self._site is not None
        state: Dict[str, object] = {"group": self.config.group, "connections": len(self._connections), "service": self._site.pid}
        if self._exchange is not None:
            state["exchange"] = {**vars(self._exchange.tally()), "failure": self._exchange.why_failing()}
        peers = [dataclasses.asdict(peer) for transport in self._transports for peer in getattr(transport, "states", list)()]
        if peers:
            state["peers"] = peers
        if self._sharing is not None:
            state["sharing"] = self._sharing[0].state()
        return state


def _on_loop(function: Callable[[], None]) -> Callable[[], None]:
    """A function for any thread, which has another one called on the thread of the loop."""
    loop = asyncio.get_running_loop()

    def call() -> None:
        with contextlib.suppress(RuntimeError):
            loop.call_soon_threadsafe(function)
    return call


def _turn_away(accepted: socket.socket) -> None:
    """Answers a connection that is one too many. It has no session yet."""
    with accepted:
        try:
            accepted.send(b"refused TooManyConnections\n")
        except OSError:
            pass


def _allow_files(number: int) -> None:
    """Lets the process have so many files open, as far as its limit can be raised."""
    soft, hard = resource.getrlimit(resource.RLIMIT_NOFILE)
    wanted = number if hard == resource.RLIM_INFINITY else min(number, hard)
    if soft != resource.RLIM_INFINITY and soft < wanted:
        resource.setrlimit(resource.RLIMIT_NOFILE, (wanted, hard))


async def serve(config: Config, create: bool) -> None:
    """Runs a node until SIGTERM or SIGINT."""
    node = Node(config)
    loop = asyncio.get_running_loop()
    for number in (signal.SIGTERM, signal.SIGINT):
        loop.add_signal_handler(number, node.stop)
    try:
        await node.run(create)
    except Stopped as stopped:
        report(str(stopped))
