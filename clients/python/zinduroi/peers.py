"""Deltas from site to site over TLS, without a broker."""
from __future__ import annotations

import asyncio
import collections
import contextlib
import dataclasses
import os
import random
import socket
import ssl
import threading
import time
from types import TracebackType
from typing import Any, Callable, Coroutine, Counter, Dict, Iterable, List, Mapping, Optional, Set, Tuple, Type, Union

from .peer_links import CHUNK, Dropped, Link, bound, connected, failure_name, first_line, lines_of, shut, throw_away, write
from .peer_names import Peer, Timing, check_own, is_loopback, name_of, parse_address, site_in, tls_contexts
from .peer_texts import (ALIVE, SITES, Alive, BadLine, Heard, Hello, Line, Needs, Text, Texts, View, checked_lacks,
                         heard_line, hello_line, is_text, line_of, needs_line, text_line)
from .transports import TransportFailed

# Seconds after which a site that still lacks seats says so anew.
LACKS_AGAIN = 5.0


@dataclasses.dataclass(frozen=True)
class PeerState:
    """What is known of a neighbour: seconds since the connection began (`None` without one) and since a text of its site
    came (`None` if none did), texts that were sent to it and came from it, and why its last connection ended."""

    site: int
    connected: Optional[float]
    age: Optional[float]
    sent: int
    took: int
    failure: Optional[str]


def _stamp() -> int:
    return time.time_ns() // 1000


class Peers:
    """Deltas over connections between the sites themselves: TLS 1.3, where both sides show a certificate of the operator's own
    authority that names their site (`site-2.zinduroi`, or `site-2.GROUP.zinduroi` in a group).

    `peers` has each neighbour's number, and its address, or a `Peer`, or `None` if only it connects; nobody else is let in.
    `listen` is this site's own `host:port`, needed where no peer has an address. `authority`, `certificate` and `key` are files of
    PEM. `plain=True` does without certificates, and takes addresses of loopback only: everybody on the machine can then write to
    the channel.

    A connection gets the site's last text when that changes and when the peer comes back, and never an older one. Texts of
    other sites are taken from a peer only where its `carries` names them, and are asked for only while there is no
    connection to their own site. A text that comes again is known by its stamp and goes no further.

    Threads: one of its own, from the start until `close`. Raises `ValueError` if addresses, sites or certificates don't fit,
    and `OSError` if a file can't be read or the port is in use."""

    def __init__(self, site: int, peers: Mapping[int, Union[Peer, str, None]], listen: Optional[str] = None,
                 authority: "Optional[str | os.PathLike[str]]" = None, certificate: "Optional[str | os.PathLike[str]]" = None,
                 key: "Optional[str | os.PathLike[str]]" = None, group: Optional[str] = None, plain: bool = False,
                 timing: Timing = Timing()) -> None:
        self.site = site
        self.peers = {number: peer if isinstance(peer, Peer) else Peer(peer) for number, peer in peers.items()}
        self.group = group
        self.timing = timing
        self._dial_to = {number: parse_address(peer.address) for number, peer in self.peers.items() if peer.address is not None}
        self._check_sites()
        if self.peers and not self._dial_to and listen is None:
            raise ValueError("neither this site nor a peer listens: give listen, or an address")
        files = [os.fspath(file) for file in (authority, certificate, key) if file is not None]
        self._server, self._client = self._contexts(files, plain, listen)
        self._lock = threading.Lock()
        self._texts = Texts(site, _stamp())
        self._links: Dict[int, Link] = {}
        self._lacks: Dict[str, int] = {}
        self._told = float("-inf")
        self._heard: Dict[int, float] = {}
        self._sent: Counter[int] = collections.Counter()
        self._took: Counter[int] = collections.Counter()
        self._failed: Counter[str] = collections.Counter()
        self._failures: Dict[int, str] = {}
        self._listeners: List[Callable[[], None]] = []
        self._strangers: "Dict[asyncio.Task[None], None]" = {}
        self._tasks: "Set[asyncio.Task[None]]" = set()
        self._synced: Set[int] = set()
        self._first = threading.Event()
        self._asked = False
        self._rises = False
        self._again = time.monotonic() + timing.again
        self._loop: Optional[asyncio.AbstractEventLoop] = None
        self._stop: Optional[asyncio.Event] = None
        self._listener = None if listen is None else bound(*parse_address(listen))
        self.port: Optional[int] = None if self._listener is None else self._listener.getsockname()[1]
        self._start()

    # What an exchange and a node call, on any thread

    def publish(self, site: int, text: str) -> None:
        """This site's text from now on. It goes to each peer as soon as there is a connection. Raises `TransportFailed` if it
        is no text for this transport, or this is closed."""
        if site != self.site or not is_text(text):
            raise TransportFailed("not a text of this site")
        with self._lock:
            changed = self._texts.tell(text, self._lacks, _stamp())
        self._call(self._wake_all if changed else lambda: None)

    def messages(self) -> Iterable[str]:
        """The texts that arrived since the last question; once in `again` seconds also the newest of each site that was
        handed out before, in case the site could not take it. The first call waits, `patience` seconds at most, until the
        peers that have an address were reached and sent what they have: so a store that is too old is found at the start."""
        if not self._asked:
            self._asked = True
            self._first.wait(self.timing.patience)
        with self._lock:
            texts = self._texts.arrived()
            if time.monotonic() >= self._again:
                self._again = time.monotonic() + self.timing.again
                texts += [text for text in self._texts.others() if text not in texts]
        return texts

    def listen(self, listener: Callable[[], None]) -> None:
        """Has a function called, on the transport's thread, as soon as a text has arrived."""
        self._listeners.append(listener)

    def say_lacks(self, lacks: Mapping[str, int]) -> None:
        """The seats that callers of this site lack, by record: 1 to 65,535 each, a record left out lacks none. Sent beside the
        site's text when it changes; as long as seats are lacking, call it once a second or so, and it is sent each five
        seconds. Raises `ValueError` on other numbers, and `TransportFailed` if this is closed."""
        told, now = dict(checked_lacks(dict(lacks))), time.monotonic()
        with self._lock:
            again = bool(told) and now - self._told >= LACKS_AGAIN
            self._lacks = told
            own = self._texts.newest.get(self.site)
            changed = own is not None and self._texts.tell(own.text, told, _stamp(), again)
            self._told = now if changed else self._told
        self._call(self._wake_all if changed else lambda: None)

    def lacks(self) -> Dict[int, Tuple[Dict[str, int], float]]:
        """For each other site, what it last said that its callers lack, by record, and how many seconds ago that came."""
        now = time.monotonic()
        with self._lock:
            return {site: (dict(text.lacks), now - self._heard.get(site, now))
                    for site, text in self._texts.newest.items() if site != self.site}

    def states(self) -> List[PeerState]:
        """The state of each neighbour."""
        now = time.monotonic()
        with self._lock:
            return [PeerState(number, now - self._links[number].since if number in self._links else None,
                              now - self._heard[number] if number in self._heard else None,
                              self._sent[number], self._took[number], self._failures.get(number)) for number in sorted(self.peers)]

    def failures(self) -> Counter[str]:
        """How often connections failed, by name."""
        with self._lock:
            return self._failed.copy()

    def close(self) -> None:
        """Sends the last text where there is a connection, for `linger` seconds at most, and ends the thread."""
        self._first.set()
        if self._stop is not None:
            with contextlib.suppress(TransportFailed):
                self._call(self._stop.set)
        self._thread.join()
        if self._listener is not None:
            self._listener.close()

    def __enter__(self) -> Peers:
        return self

    def __exit__(self, kind: Optional[Type[BaseException]], value: Optional[BaseException],
                 trace: Optional[TracebackType]) -> None:
        self.close()

    # The start

    def _check_sites(self) -> None:
        for number, peer in self.peers.items():
            if number == self.site or not 0 <= number < SITES:
                raise ValueError(f"site {number} can't be a peer of site {self.site}")
            if not set(peer.carries) <= set(range(SITES)) - {self.site, number}:
                raise ValueError(f"the peer {number} can't carry these sites")

    def _contexts(self, files: List[str], plain: bool,
                  listen: Optional[str]) -> Tuple[Optional[ssl.SSLContext], Optional[ssl.SSLContext]]:
        if plain:
            hosts = [host for host, _ in self._dial_to.values()] + ([] if listen is None else [parse_address(listen)[0]])
            if files or not all(map(is_loopback, hosts)):
                raise ValueError("plain goes without certificates, and only to and from addresses of loopback, as 127.0.0.1")
            return None, None
        if len(files) != 3:
            raise ValueError("authority, certificate and key are needed")
        server, client = tls_contexts(*files)
        check_own(server, client, self.site, self.group)
        return server, client

    def _start(self) -> None:
        ready = threading.Event()
        failed: List[OSError] = []

        def work() -> None:
            try:
                asyncio.run(self._main(ready))
            except OSError as error:
                if ready.is_set():
                    raise
                failed.append(error)  # as where the process has too many files open
            finally:
                ready.set()

        self._thread = threading.Thread(target=work, name="zinduroi peers", daemon=True)
        self._thread.start()
        ready.wait()
        if failed:
            if self._listener is not None:
                self._listener.close()
            raise failed[0]

    def _stopping(self) -> bool:
        return self._stop is None or self._stop.is_set()

    def _call(self, function: Callable[[], object]) -> None:
        """Has the thread call a function."""
        try:
            if self._loop is None:
                raise RuntimeError
            self._loop.call_soon_threadsafe(function)
        except RuntimeError:
            raise TransportFailed("the transport is closed") from None

    # The thread

    async def _main(self, ready: threading.Event) -> None:
        loop = asyncio.get_running_loop()
        # What asyncio would write to standard error is counted: strangers could fill a log with it.
        loop.set_exception_handler(lambda _, context: self._count("Unexpected"))
        self._loop, self._stop = loop, asyncio.Event()
        if not self._dial_to:
            self._first.set()
        if self._listener is not None:
            self._watch(self._listener)
        for number, address in self._dial_to.items():
            self._spawn(self._dial(number, *address))
        ready.set()
        await self._stop.wait()
        if self._listener is not None:
            loop.remove_reader(self._listener)
        await self._linger()
        while self._tasks:
            for task in self._tasks:
                task.cancel()
            await asyncio.gather(*self._tasks, return_exceptions=True)

    def _spawn(self, work: Coroutine[Any, Any, None]) -> "asyncio.Task[None]":
        task = asyncio.get_running_loop().create_task(work)
        self._tasks.add(task)
        task.add_done_callback(self._done)
        return task

    def _done(self, task: "asyncio.Task[None]") -> None:
        self._tasks.discard(task)
        self._strangers.pop(task, None)
        if not task.cancelled() and task.exception() is not None:
            self._count("Unexpected")

    async def _linger(self) -> None:
        """Waits until each connection has what is due to it."""
        end = time.monotonic() + self.timing.linger
        while time.monotonic() < end and any(link.busy or self._due(link) is not None for link in self._links.values()):
            await asyncio.sleep(0.01)

    def _rise(self) -> None:
        """Goes above what was heard of this site, at most once a second: two runs at once would else do so without a pause."""
        if self._texts.above is not None and not self._rises:
            self._rises = True
            asyncio.get_running_loop().call_later(1.0, self._go_above)

    def _go_above(self) -> None:
        """Goes above a text of this site that another run of it made."""
        self._rises = False
        with self._lock:
            changed = self._texts.tell_again(_stamp())
        if changed:
            self._count("OtherRun")
            self._wake_all()

    def _watch(self, listener: socket.socket) -> None:
        """Has connections accepted as they come, until the stop."""
        if not self._stopping():
            asyncio.get_running_loop().add_reader(listener, self._accept, listener)

    def _accept(self, listener: socket.socket) -> None:
        loop = asyncio.get_running_loop()
        try:
            connection, _ = listener.accept()
        except (BlockingIOError, ConnectionAbortedError):
            return
        except OSError:
            # As where the process has too many files open.
            self._count("Accept")
            loop.remove_reader(listener)
            loop.call_later(0.1, self._watch, listener)
            return
        if len(self._strangers) >= self.timing.strangers:
            oldest = next(iter(self._strangers))
            del self._strangers[oldest]
            oldest.cancel()
            self._count("TooMany")
        connection.setblocking(False)
        task = self._spawn(self._open(connection, None))
        # Where the task was ended before it began.
        task.add_done_callback(lambda _: connection.close())
        self._strangers[task] = None

    async def _open(self, end: socket.socket, dialed: Optional[int]) -> None:
        """A connection, from its handshake to its end. `dialed` is the site that this one connected to."""
        loop = asyncio.get_running_loop()
        reader = asyncio.StreamReader()
        protocol = asyncio.StreamReaderProtocol(reader)
        try:
            if dialed is None:
                transport, _ = await loop.connect_accepted_socket(lambda: protocol, end, **self._tls(self._server))
            else:
                name: Dict[str, Any] = {} if self._client is None else {"server_hostname": name_of(dialed, self.group)}
                transport, _ = await loop.create_connection(lambda: protocol, sock=end, **self._tls(self._client), **name)
        except BaseException as error:
            await throw_away(end)
            if not isinstance(error, OSError):
                raise
            self._count(failure_name(error), dialed)
            return
        await self._hold(reader, asyncio.StreamWriter(transport, protocol, reader, loop), dialed)

    def _tls(self, context: Optional[ssl.SSLContext]) -> Dict[str, Any]:
        if context is None:
            return {}
        return {"ssl": context, "ssl_handshake_timeout": self.timing.handshake, "ssl_shutdown_timeout": 1.0}

    async def _dial(self, site: int, host: str, port: int) -> None:
        """Connects to a peer whenever there is no connection to it."""
        pause = self.timing.first_pause
        while True:
            began = time.monotonic()
            link = self._links.get(site)
            if link is not None:
                await link.gone.wait()
            else:
                try:
                    await self._connect(site, host, port)
                except Exception:
                    # Whatever it is: the next attempt comes.
                    self._count("Unexpected", site)
            if time.monotonic() - began > self.timing.longest_pause:
                pause = self.timing.first_pause
            await asyncio.sleep(pause * random.uniform(0.5, 1.0))
            pause = min(2 * pause, self.timing.longest_pause)

    async def _connect(self, site: int, host: str, port: int) -> None:
        """One connection to a peer, until it ends."""
        try:
            end = await connected(host, port, self.timing.handshake)
        except (OSError, ValueError):
            self._count("Unreachable", site)
            return
        await self._open(end, site)

    async def _hold(self, reader: asyncio.StreamReader, writer: asyncio.StreamWriter, dialed: Optional[int]) -> None:
        """A connection from its first line to its end. `dialed` is the site that this one connected to."""
        link: Optional[Link] = None
        name = "Closed"
        writer.transport.set_write_buffer_limits(high=CHUNK)
        try:
            link = await self._greet(reader, writer, dialed)
            await self._talk(reader, link)
        except Dropped as dropped:
            name = str(dropped)
        except BadLine:
            name = "BadLine"
        except OSError as error:
            name = failure_name(error)
        except asyncio.CancelledError:
            if link is None or link.dropped is None or self._stopping():
                name = "Ended"
                raise
            name = link.dropped
            link.forgive()
        except Exception:
            name = "Unexpected"
        finally:
            site = dialed if link is None else link.view.site
            if link is not None:
                self._end(link)
            self._count(name, site)
            await shut(writer, gently=name == "Ended")

    async def _greet(self, reader: asyncio.StreamReader, writer: asyncio.StreamWriter, dialed: Optional[int]) -> Link:
        """Both first lines. Raises `Dropped` if the other side may not come in."""
        certified = self._certified(writer)
        with self._lock:
            hello = Hello(self.site, self._texts.began, self._texts.last)
        writer.write(hello_line(hello))
        async with asyncio.timeout(self.timing.handshake):
            await writer.drain()
            line = await first_line(reader)
        said = line_of(line)
        if not isinstance(said, Hello):
            raise BadLine("no hello")
        if (certified is not None and said.site != certified) or (dialed is not None and said.site != dialed):
            raise Dropped("WrongSite")
        if said.site not in self.peers:
            raise Dropped("NotNamed")
        link = Link(writer, View.of(said), dialed is not None)
        self._begin(link)
        return link

    def _certified(self, writer: asyncio.StreamWriter) -> Optional[int]:
        """The site that the other side's certificate names; `None` without certificates."""
        if self._server is None:
            return None
        site = site_in(writer.get_extra_info("peercert") or {}, self.group)
        if site is None or site not in self.peers:
            raise Dropped("NotNamed")
        return site

    def _needs(self, site: int) -> Dict[int, int]:
        """The sites whose texts are wanted over this peer: those that it carries and that have no connection of their own."""
        peer = self.peers.get(site)
        sites = set() if peer is None else set(peer.carries) - set(self._links)
        return self._texts.stamps(sites)

    def _begin(self, link: Link) -> None:
        """Makes a connection the one of its site. Of two the one stays that the lower site began, but a new run of the peer
        comes first. Raises `Dropped` if the other one stays."""
        site = link.view.site
        old = self._links.get(site)
        if old is not None:
            lower = self.site < site
            if old.view.began == link.view.began and old.dialed == lower and link.dialed != lower:
                raise Dropped("Second")
            self._end(old)
            old.drop("Replaced")
        with self._lock:
            self._links[site] = link
        self._strangers.pop(asyncio.current_task(), None)  # type: ignore[arg-type]
        link.tells_needs = True
        self._needs_changed(site)

    def _end(self, link: Link) -> None:
        link.gone.set()
        site = link.view.site
        with self._lock:
            ours = self._links.get(site) is link
            if ours:
                del self._links[site]
        if ours:
            self._needs_changed(site)

    def _needs_changed(self, site: int) -> None:
        """Has peers told that this site's texts are wanted over them, or no longer."""
        for number, link in self._links.items():
            if site in self.peers[number].carries:
                link.tells_needs = True
                link.wake.set()

    async def _talk(self, reader: asyncio.StreamReader, link: Link) -> None:
        """Sends and reads until one of the two ends."""
        sender = asyncio.get_running_loop().create_task(self._send(link))
        try:
            async with contextlib.aclosing(lines_of(reader, self.timing.silence)) as lines:
                async for line in lines:
                    self._take(link, line_of(line))
        finally:
            sender.cancel()
            await asyncio.gather(sender, return_exceptions=True)

    def _take(self, link: Link, line: Line) -> None:
        """What a line says."""
        if isinstance(line, Text):
            self._take_text(link, line)
        elif isinstance(line, (Needs, Heard)):
            with self._lock:
                if isinstance(line, Needs):
                    link.view.want(line.stamps)
                lacking = self._texts.hear(line.stamps, _stamp())
            self._rise()
            link.wake.set()
            if lacking:
                self._wake_all()
        elif isinstance(line, Alive):
            self._synced.add(link.view.site)
            if self._synced >= set(self._dial_to):
                self._first.set()
        else:
            raise BadLine("a second hello")

    def _take_text(self, link: Link, text: Text) -> None:
        """A text is taken of the peer's own site, of the sites that it carries, and of this site, which it gives back."""
        site = link.view.site
        if text.of not in (site, self.site) and text.of not in self.peers[site].carries:
            raise Dropped("NotCarried")
        with self._lock:
            link.view.saw(text.of, text.stamp)
            self._took[site] += 1
            new = self._texts.take(text, _stamp())
            if new:
                self._heard[text.of] = time.monotonic()
            elif text.stamp < self._needs(site).get(text.of, 0):
                # The peer does not know of ours, which came another way, nor does its site, which may have to go above it.
                link.tells_needs = True
                link.wake.set()
        self._rise()
        if new:
            self._wake_all()
            for listener in self._listeners:
                listener()

    async def _send(self, link: Link) -> None:
        """Sends what is due, as long as the connection is there; the reader of the connection is ended with it."""
        try:
            greeted = False
            while True:
                link.wake.clear()
                link.busy = True
                await self._send_due(link)
                link.busy = False
                if not greeted:
                    greeted = True
                    await write(link.writer, ALIVE, self.timing.silence)
                try:
                    async with asyncio.timeout(self.timing.beat):
                        await link.wake.wait()
                except TimeoutError:
                    await write(link.writer, ALIVE, self.timing.silence)
        except TimeoutError:
            link.drop("Stalled")
        except OSError as error:
            link.drop(failure_name(error))
        except Exception:
            link.drop("Unexpected")

    async def _send_due(self, link: Link) -> None:
        """Sends the needs, and what was heard of, if these changed, and each text that the peer lacks, the newest at the moment
        when it goes."""
        if link.tells_needs:
            link.tells_needs = False
            with self._lock:
                needs = self._needs(link.view.site)
            await write(link.writer, needs_line(needs), self.timing.silence)
        with self._lock:
            lacking = self._texts.lacking({link.view.site, *self._needs(link.view.site)})
        if lacking != link.told:
            link.told = lacking
            if lacking:
                await write(link.writer, heard_line(lacking), self.timing.silence)
        while (text := self._due(link)) is not None:
            with self._lock:
                link.view.saw(text.of, text.stamp)
                self._sent[link.view.site] += 1
            await write(link.writer, text_line(text), self.timing.silence)

    def _due(self, link: Link) -> Optional[Text]:
        with self._lock:
            return self._texts.due(link.view)

    def _wake_all(self) -> None:
        for link in self._links.values():
            link.wake.set()

    def _count(self, name: str, site: Optional[int] = None) -> None:
        with self._lock:
            self._failed[name] += 1
            if site is not None:
                self._failures[site] = name
