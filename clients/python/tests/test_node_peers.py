"""Nodes over `Peers`: what a wrong table gets, locks at two nodes, and seats that go where they are wanted."""
import asyncio
import contextlib
import json
import os
import pathlib
import re
import shutil
import signal
import subprocess
import sys
import tempfile
import time
import unittest
import unittest.mock
from types import SimpleNamespace

from zinduroi.command_line import status_text
from zinduroi.node import NodeClient, NodeGone
from zinduroi.node.book import Session
from zinduroi.node.config import ConfigError, TransportNotMade, read_config
from zinduroi.node.link import Interrupted
from zinduroi.node.sharing_task import Sharer, Sharing
from zinduroi.node.waiting import Queues, Waiter
from zinduroi.peers import Peers
from zinduroi.recovery import Plan, Recovery
from zinduroi.site import Layout, Record
from zinduroi.transports import Folder

from .common import PACKAGE, PROGRAM, Case, wait_for
from .test_peers import OPENSSL, Authority, free_ports

GROUP = "crew"


class Nodes(Case):
    """Two nodes with certificates of one authority."""

    @classmethod
    def setUpClass(cls):
        if OPENSSL is None:
            raise unittest.SkipTest("there is no openssl")
        cls.keys = pathlib.Path(tempfile.mkdtemp(prefix="zinduroi_"))
        cls.addClassCleanup(shutil.rmtree, cls.keys, ignore_errors=True)
        cls.authority = Authority(cls.keys / "ours")
        cls.given = [cls.authority.give(f"site-{site}.{GROUP}.zinduroi") for site in range(2)]

    def setUp(self):
        super().setUp()
        self.layout = self.write_layout("layout.toml", 2, ("a", 6, 0, 2), ("b", 4, 1, 1))
        self.ports = free_ports(2)
        self.processes, self.clients, self.group = {}, [], GROUP
        self.addCleanup(self.end_all)

    def table(self, site, **changes):
        """The table of the transport, with other values for some keys; `None` leaves one out."""
        certificate, key = self.given[site]
        values = {"listen": f"127.0.0.1:{self.ports[site]}", "authority": str(self.authority.certificate), "certificate": str(certificate),
                  "key": str(key), **changes}
        return '[[transport]]\nkind = "peers"\n' + "".join(f"{key} = {json.dumps(value)}\n" for key, value in values.items() if value is not None)

    def peer(self, site):
        return f'[[transport.peer]]\nsite = {site}\naddress = "127.0.0.1:{self.ports[site]}"\n'

    def write_config(self, site, exchange="", table=None):
        path = self.folder / f"{site}.toml"
        path.write_text(f'site = {site}\nstore = "{site}.db"\nlayout = "layout.toml"\ngroup = "{self.group}"\nprogram = "{PROGRAM}"\n'
                        f'[socket]\npath = "{site}.sock"\n[exchange]\ninterval = 0.1\n{exchange}\n' + (table or self.table(site) + self.peer(1 - site)))
        return path

    def spawn(self, site, *words, **config):
        return subprocess.Popen([sys.executable, "-W", "error", "-m", "zinduroi", "node", "--config", self.write_config(site, **config), *words],
                                env={**os.environ, "PYTHONPATH": str(PACKAGE)}, stderr=subprocess.PIPE, text=True)

    def start(self, site, **config):
        words = [] if (self.folder / f"{site}.db").exists() else ["--create"]
        self.processes[site] = self.spawn(site, *words, **config)
        self.assertTrue(wait_for(lambda: self.answers(site)), "the node does not start")

    def answers(self, site):
        with contextlib.suppress(NodeGone), NodeClient(self.folder / f"{site}.sock"):
            return True
        return False

    def end(self, site, how=signal.SIGTERM):
        process = self.processes.pop(site)
        process.send_signal(how)
        _, errors = process.communicate(timeout=60)
        return process.returncode, errors

    def end_all(self):
        for client in self.clients:
            client.close()
        for site in list(self.processes):
            self.assertEqual(self.end(site)[0], 0)

    def connect(self, site):
        client = NodeClient(self.folder / f"{site}.sock")
        client.socket.settimeout(60)
        self.clients.append(client)
        return client

    def status(self, site):
        return json.loads(self.connect(site).ask("status"))

    def seats(self, record):
        """Free and taken seats of both sites together."""
        shown = [self.status(site)["records"][record] for site in range(2)]
        return sum(it["rights"] + it["inside"] for it in shown)


class Faults(Nodes):
    """What is wrong with a table is told with its place and cause."""

    def made(self, *parts):
        return read_config(self.write_config(0, table="".join(parts))).transports[0]()

    def test_tables(self):
        for more, fault in {
                "peer = [7]\n": ".peer 1: is not a table",
                self.peer(1) + self.peer(1): ".peer 2.site: is that of another peer too: 1",
                self.peer(1) + "carries = [true]\n": ".peer 1.carries: is not an array of sites",
                self.peer(1) + "port = 7\n": ".peer 1.port: is not a key of this table",
                self.peer(1).replace("site = 1", "site = 16"): ".peer 1.site: is not from 0 to 15: 16"}.items():
            with self.assertRaises(ConfigError) as caught:
                self.made(self.table(0), more)
            self.assertEqual(str(caught.exception), f"{self.folder / '0.toml'}: transport 1{fault}")

    def test_constructor(self):
        foreign = Authority(self.folder / "other").give(f"site-0.{GROUP}.zinduroi")
        late = self.authority.give("late", f"site-0.{GROUP}.zinduroi", days=-1)
        none = self.folder / "none.pem"
        for kind, change, fault in (
                (ConfigError, {"listen": "nowhere"}, ": 'nowhere' is no address of the form host:port"),
                (ConfigError, {"key": None}, ": authority, certificate and key are needed"),
                (ConfigError, {"plain": True}, ": plain goes without certificates"),
                (ConfigError, {"certificate": str(self.given[1][0]), "key": str(self.given[1][1])}, f": the certificate has no name site-0.{GROUP}.zinduroi"),
                (ConfigError, {"certificate": str(foreign[0]), "key": str(foreign[1])}, ": the certificate: unable to get local issuer certificate"),
                (TransportNotMade, {"certificate": str(late[0]), "key": str(late[1])}, ": the certificate: certificate has expired, by this machine's clock"),
                (TransportNotMade, {"certificate": str(none)}, f": certificate {none} and key "),
                (TransportNotMade, {"key": str(self.given[1][1])}, ": certificate "),
                (TransportNotMade, {"authority": str(none)}, f": authority {none}: "),
                (TransportNotMade, {"listen": "host.invalid:7400"}, ".listen: ")):
            with self.subTest(change), self.assertRaises(kind) as caught:
                self.made(self.table(0, **change), self.peer(1))
            self.assertTrue(str(caught.exception).startswith(f"{self.folder / '0.toml'}: transport 1{fault}"), caught.exception)
        with self.assertRaises(ConfigError) as caught:
            self.made(self.table(0), self.peer(0))
        self.assertEqual(str(caught.exception), f"{self.folder / '0.toml'}: transport 1: site 0 can't be a peer of site 0")

    def test_statuses(self):
        self.start(0)
        for table, status, cause in ((self.table(1, listen="x"), 78, "'x' is no address"),
                                     (self.table(1, listen=f"127.0.0.1:{self.ports[0]}"), 1, "Address already in use")):
            (self.folder / "1.db").unlink(missing_ok=True)
            process = self.spawn(1, "--create", table=table + self.peer(0))
            errors = process.communicate(timeout=60)[1]
            self.assertEqual(process.returncode, status)
            self.assertFalse((self.folder / "1.db").exists())
            self.assertTrue(errors.startswith(f"zinduroi: {self.folder / '1.toml'}: transport 1: ") and cause in errors, errors)

    def test_others_are_closed(self):
        """If one transport can't be made, the ports of the others are free again."""
        config = self.write_config(1, table=self.table(1) + self.peer(0) + self.table(1) + self.peer(0))
        process = subprocess.run([sys.executable, "-W", "error", "-m", "zinduroi", "node", "--create", "--config", config], timeout=60,
                                 env={**os.environ, "PYTHONPATH": str(PACKAGE)}, capture_output=True, text=True, check=False)
        self.assertEqual(process.returncode, 1)
        self.assertIn("transport 2: [Errno 98] Address already in use", process.stderr)
        self.assertEqual(process.stderr.count("\n"), 1)


class Together(Nodes):
    """Two nodes that reach each other."""

    def lock(self, site, *words):
        process = subprocess.Popen([sys.executable, "-W", "error", "-m", "zinduroi", "lock", "--socket", self.folder / f"{site}.sock", *words],
                                   env={**os.environ, "PYTHONPATH": str(PACKAGE)}, stdout=subprocess.PIPE, stderr=subprocess.PIPE, text=True)
        self.addCleanup(process.wait)
        self.addCleanup(process.kill)
        return process

    def test_locks_exclude_each_other(self):
        for site in range(2):
            self.start(site)
        notes = self.folder / "notes"
        locks = [self.lock(site, "--timeout", "50", "a", "--", "sh", "-c", f"echo in {site} >>{notes}; sleep 0.5; echo out {site} >>{notes}")
                 for site in (0, 1, 0, 1)]
        for lock in locks:
            self.assertEqual((lock.communicate(timeout=60), lock.returncode), (("", ""), 0))
        lines = notes.read_text().splitlines()
        self.assertEqual(len(lines), 8)
        for entered, left in zip(lines[::2], lines[1::2]):
            self.assertEqual(left, entered.replace("in", "out"), lines)
        self.assertEqual({line[-1] for line in lines}, {"0", "1"})

    def test_one_node_dies(self):
        """A writer of a node that was killed keeps the other node's out, until it has left at the node that came back."""
        for site in range(2):
            self.start(site)
        holder = self.connect(1)
        token = holder.ask("token").split(" ")[1]
        self.assertEqual(holder.ask("wait 30 write a w"), "admitted")
        self.end(1, signal.SIGKILL)
        self.assertTrue(self.connect(0).ask("wait 1 write a v").startswith("timeout refused MissingSeats"))
        self.start(1)
        holder = self.connect(1)
        self.assertEqual(holder.ask(f"resume {token}"), "resumed 1 a w writer")
        self.assertEqual(holder.ask("leave a w"), "left writer")
        self.assertEqual(self.connect(0).ask("wait 30 write a v"), "admitted")

    def test_a_lost_store_is_built_again(self):
        """The nodes go on in the next generation, with the same certificates."""
        for site in range(2):
            self.start(site)
        self.assertEqual(self.connect(1).ask("wait 60 write a 9"), "admitted")
        self.end(1, signal.SIGKILL)
        self.end(0)
        for path in self.folder.glob("1.db*"):
            path.unlink()
        self.group = f"{GROUP}.2"
        for site in range(2):
            plan = Plan(site, str(self.folder / f"{site}.db"), self.group, (1,), str(self.layout), PROGRAM)
            Recovery(plan, Folder(self.folder), lambda line: None, lambda premise: True).run()
            self.start(site)
        for site in (0, 1, 0):
            client = self.connect(site)
            self.assertEqual(client.ask("wait 60 write a 9"), "admitted")
            self.assertEqual(client.ask("leave a 9"), "left writer")
        self.assertTrue(wait_for(lambda: self.seats("a") == 6))

    def test_callers_while_a_peer_is_away(self):
        """A start waits 2 seconds for a peer that is not there; then callers are served."""
        began = time.monotonic()
        self.start(0)
        self.assertLess(time.monotonic() - began, 20)
        self.assertEqual(self.connect(0).ask("read a x"), "admitted")

    def test_seats_come(self):
        """All seats are at site 0; a reader at site 1 is admitted without a writer and without `help`."""
        for site in range(2):
            self.start(site, exchange="helps = false")
        self.assertEqual(self.connect(1).ask("wait 30 read a x"), "admitted")
        self.assertTrue(wait_for(lambda: self.seats("a") == 6, 20))
        crowd = [self.connect(1) for _ in range(4)]
        for at, client in enumerate(crowd):
            client.socket.sendall(f"wait 30 read a {at}\n".encode())
        self.assertEqual([client.socket.recv(100) for client in crowd], [b"admitted\n"] * 4)
        self.assertTrue(wait_for(lambda: self.seats("a") == 6, 20))
        self.assertTrue(wait_for(lambda: self.status(1)["sharing"]["lacks"] == {}, 20))
        self.assertGreaterEqual(self.status(0)["sharing"]["gave"]["1"], 5)
        self.assertEqual(self.status(1)["records"]["a"]["inside"], 5)

    def test_switched_off(self):
        for site in range(2):
            self.start(site, exchange="helps = false\nshare = false")
        self.assertEqual(self.connect(1).ask("wait 4 read a x"), "timeout refused NoSeat 0")
        self.assertNotIn("sharing", self.status(0))


class Documents(Nodes):
    """The three files of docs/OPERATING.md, and its commands of openssl, with other ports in place of other machines."""

    TEXT = PACKAGE.parent.parent / "docs" / "OPERATING.md"

    def blocks(self):
        """The indented blocks, by their first line."""
        text = self.TEXT.read_text(encoding="utf-8")
        text = text[text.index("## Sites that reach each other"):text.index("### What it promises")]
        found = ["\n".join(line[4:] for line in part.strip("\n").split("\n")) for part in re.findall(r"(?:^(?:    .*)?\n)+", text, re.M) if part.strip()]
        return {block.split("\n")[0]: block + "\n" for block in found}

    def openssl(self, blocks):
        commands = [first for first in blocks if "openssl" in first]
        self.assertEqual(len(commands), 3)
        for site in range(3):
            for command in commands[0 if site == 0 else 1:]:
                command = command.replace("site-1", f"site-{site}").replace(f"site-{site}.zinduroi", f"site-{site}.{GROUP}.zinduroi")
                subprocess.run(["sh", "-c", command], cwd=self.folder, check=True, capture_output=True)

    @unittest.skipUnless(TEXT.exists(), "there are no documents")
    def test_three_nodes(self):
        blocks, ports = self.blocks(), free_ports(3)
        self.openssl(blocks)
        (self.folder / "layout.toml").write_text(blocks["# layout.toml"])
        for site in range(3):
            text = blocks[f"# node.toml on 10.0.0.{10 + site}"].replace("0.0.0.0:7400", f"127.0.0.1:{ports[site]}").replace("node.sock", f"{site}.sock")
            for far in range(3):
                text = text.replace(f"10.0.0.{10 + far}:7400", f"127.0.0.1:{ports[far]}")
            config = self.folder / f"{site}.toml"
            config.write_text(f'program = "{PROGRAM}"\n' + text)
            self.processes[site] = subprocess.Popen([sys.executable, "-W", "error", "-m", "zinduroi", "node", "--create", "--config", config],
                                                    env={**os.environ, "PYTHONPATH": str(PACKAGE)}, stderr=subprocess.PIPE, text=True)
        for site in range(3):
            self.assertTrue(wait_for(lambda: self.answers(site)))
        for site in (2, 0, 1):
            client = self.connect(site)
            self.assertEqual(client.ask("wait 50 write a -"), "admitted")
            self.assertTrue(self.connect((site + 1) % 3).ask("wait 0 write a -").startswith("timeout refused MissingSeats"))
            self.assertEqual(client.ask("leave a -"), "left writer")
        for site in range(3):
            text = status_text(self.status(site), time.time())
            self.assertEqual(len(re.findall(r"^peer \d: connected for \d+ s, last text \d+ s ago$", text, re.M)), 2, text)


class StubSite:
    """The site, the link and the desk of a node, with replies from a table."""

    def __init__(self, replies):
        self.replies, self.lines, self.told = replies, [], 0
        self.site = self.link = self.desk = self
        self.queues, self.sessions_here = Queues(), []
        self.book = SimpleNamespace(sessions=lambda: self.sessions_here)

    def tell_listeners(self):
        self.told += 1

    async def ask(self, line):
        self.lines.append(line)
        reply = self.replies.get(line, "given")
        if reply is Interrupted:
            raise Interrupted
        return reply

    ask_until = ask


class StubPeers:
    """What peers said, and what was said to them."""

    def __init__(self):
        self.said, self.others = [], {}

    def say_lacks(self, lacks):
        self.said.append(lacks)

    def lacks(self):
        return self.others


class Rounds(unittest.TestCase):
    """The rounds of sharing, over stubs of the site and the transport, and a clock of the test."""

    def setUp(self):
        self.now = 100.0
        self.site = StubSite({"show a": "rights 10 inside 0 unfinished 0", "send": '- 0 0 {"rows": []}'})
        self.peers = StubPeers()
        self.sharing = Sharing(self.site, self.peers, Layout(2, (Record("a", 10, 0), Record("b", 4, 1))), lambda: self.now)

    def round(self):
        self.site.lines.clear()
        asyncio.run(self.sharing.round())
        return self.site.lines

    def session(self, word, phase=None, token="t"):
        return Session("a", 1, word, token, phase)

    def test_only_peers_share(self):
        self.assertTrue(issubclass(Peers, Sharer))
        self.assertFalse(isinstance(SimpleNamespace(publish=1, messages=1), Sharer))

    def test_lacks(self):
        for word, token in (("x", "s"), ("x", "t"), ("-1", "t"), ("-2", "t"), ("-3", "u")):
            self.sharing.note(self.session(word, token=token), "read", "refused NoSeat 0")
        self.assertEqual(self.round(), [])
        self.assertEqual(self.peers.said, [{"a": 3}])
        self.sharing.note(self.session("x"), "read", "admitted")
        self.sharing.note(self.session("-4", token="u"), "read", "refused WriterAnnounced 0")
        self.round()
        self.assertEqual(self.peers.said[-1], {"a": 1})
        self.assertEqual(self.sharing.state(), {"lacks": {"a": 1}, "gave": {}})
        self.now += 5.1
        self.round()
        self.assertEqual(self.peers.said[-1], {})
        self.assertEqual(self.sharing._refused, {"a": {}, "b": {}})

    def test_who_waits_lacks_too(self):
        """Those that wait behind a reader that lacks a seat count as long as they wait; not those behind a writer."""
        async def work():
            queue = self.site.queues._queues.setdefault("a", [])
            for word, verb in (("x", "read"), ("y", "read"), ("w", "write"), ("z", "read")):
                queue.append(Waiter(self.session(word), verb, lambda: False))
            await self.sharing.round()
            self.sharing.note(queue[0].session, "read", "refused NoSeat 0")
            for _ in range(20):
                self.now += 1
                await self.sharing.round()
        asyncio.run(work())
        self.assertEqual(self.peers.said, [{}] + [{"a": 2}] * 20)

    def test_gifts(self):
        self.peers.others = {1: ({"a": 3}, 2.0)}
        self.assertEqual(self.round(), ["show a", "send", "give a 1 3"])
        self.assertEqual((self.site.told, self.sharing.state()["gave"]), (1, {"1": 3}))
        self.now += 0.5
        self.assertEqual(self.round(), ["show a"])
        self.now += 0.6
        self.assertEqual(self.round()[-1], "give a 1 3")
        self.peers.others = {1: ({"a": 3}, 16.0)}
        self.now += 2
        self.assertEqual(self.round(), [])
        self.peers.others = {1: ({"c": 3}, 1.0)}
        self.assertEqual(self.round(), [])

    def test_no_gifts(self):
        """Where a writer waits, here or elsewhere, the store does not answer, or the call was interrupted or refused."""
        self.peers.others = {1: ({"a": 3}, 2.0)}
        for replies, lines in (
                ({"show a": "rights 10 inside 0 unfinished 1"}, ["show a"]),
                ({"send": '- 0 0 {"rows": [{"r": 0, "s": 1, "ann": 1, "fin": 0}]}'}, ["show a", "send"]),
                ({"send": "refused Frozen"}, ["show a", "send"]),
                ({"show a": "refused Frozen"}, ["show a"]),
                ({"give a 1 3": Interrupted}, ["show a", "send", "give a 1 3"]),
                ({"give a 1 3": "refused TooFewRights 2"}, ["show a", "send", "give a 1 3"])):
            before = dict(self.site.replies)
            self.site.replies.update(replies)
            self.now += 10
            self.assertEqual(self.round(), lines)
            self.site.replies = before
        self.sharing.note(self.session("x"), "read", "refused NoSeat 0")
        self.now += 4
        self.assertEqual(self.round(), ["show a"])
        self.assertEqual((self.site.told, self.sharing.state()["gave"]), (0, {}))

    def test_what_was_used_stays(self):
        """Readers that were inside within a minute keep their seats; what a writer had does not count."""
        reader = self.session("x", "reader")
        for _ in range(8):
            self.sharing.note(reader, "read", "admitted")
        for _ in range(8):
            self.sharing.note(reader, "leave", "left reader")
        self.sharing.note(self.session("w", "writer"), "write", "admitted")
        self.peers.others = {1: ({"a": 9}, 2.0)}
        self.assertEqual(self.round()[-1], "give a 1 1")
        self.now += 61
        self.assertEqual(self.round()[-1], "give a 1 5")
        for _ in range(8):
            self.sharing.note(reader, "read", "admitted")
            self.sharing.note(reader, "leave", "left reader")
        self.now += 2
        self.assertEqual(self.round()[-1], "give a 1 5")
        self.site.sessions_here = [self.session(str(at), "reader") for at in range(6)] + [self.session("w", "waiting")] * 4
        self.now += 2
        self.round()
        self.site.sessions_here = []
        self.now += 2
        self.assertEqual(self.round()[-1], "give a 1 2")

    def test_faults_are_reported_once(self):
        async def work():
            task = asyncio.create_task(self.sharing.run())
            await asyncio.sleep(0.05)
            task.cancel()
            await asyncio.gather(task, return_exceptions=True)
        self.peers.lacks = lambda: 1 / 0
        with unittest.mock.patch("zinduroi.node.sharing_task.PERIOD", 0.01), tempfile.TemporaryFile("w+") as errors, contextlib.redirect_stderr(errors):
            asyncio.run(work())
            errors.seek(0)
            self.assertEqual(errors.read(), "zinduroi: seats are not shared: ZeroDivisionError: division by zero\n")


if __name__ == "__main__":
    unittest.main()
