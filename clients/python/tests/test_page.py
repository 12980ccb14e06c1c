"""The page of a node: what is counted and shown, its metrics and health, and its server of HTTP."""
import asyncio
import json
import socket
import time
import types
import unittest.mock

from zinduroi.errors import Frozen, ServiceEnded, StoreFault
from zinduroi.exchange import Tally as ExchangeTally
from zinduroi.node import page
from zinduroi.node.config import ConfigError, read_config
from zinduroi.node.metrics import Text, metrics_text
from zinduroi.node.page import Page, is_own
from zinduroi.node.seats import Share, rows_of, sender_of, shares_of
from zinduroi.node.server import Several
from zinduroi.node.tally import KEPT_ANSWERS, Histogram, Tally, shown_line, shown_reply, verb_of
from zinduroi.node.view import View
from zinduroi.peers import PeerState
from zinduroi.site import Layout, Record

from .common import Case, marked, wait_for
from .test_node import NodeCase

TOKEN = "0123456789abcdef" * 2


class Tallies(unittest.TestCase):
    """What is counted, and what is shown of lines and replies."""

    def test_counts(self):
        tally = Tally()
        for line, reply in ((b"read a x", "admitted"), (b"read a y", "refused NoSeat 0"), (b"wait 5 read a y", "timeout refused NoSeat 0"),
                            (b"wait 1 write a z", "admitted"), (b"leave a x", "left reader"), (b"x", "refused BadWord 1"), ("TooLong", "refused TooLong"),
                            (b"status", "{}"), (b"read a z", "timeout"), (b"read a z", "refused \xff\n")):
            tally.answered(7, line, reply, 0.25)
        self.assertEqual(tally.answers, {("read", "admitted"): 1, ("read", "refused"): 2, ("read", "timeout"): 2, ("write", "admitted"): 1,
                                         ("leave", "other"): 1, ("other", "refused"): 2, ("status", "other"): 1})
        self.assertEqual(tally.refusals, {("read", "NoSeat"): 1, ("other", "BadWord"): 1, ("other", "TooLong"): 1, ("read", "other"): 1})
        self.assertEqual(tally.timeouts, {("read", "NoSeat"): 1, ("read", "other"): 1})
        self.assertEqual({key: it.sum for key, it in tally.waits.items()}, {("read", "timeout"): 0.25, ("write", "admitted"): 0.25})
        self.assertEqual(tally.recent(60), {"NoSeat": 2, "BadWord": 1, "TooLong": 1, "other": 2})
        self.assertEqual([it["line"] for it in tally.last()][:5], ["read a x", "read a y", "wait 5 read a y", "wait 1 write a z", "leave a x"])

    def test_bounds(self):
        tally = Tally()
        for at in range(1000):
            tally.answered(7, f"verb{at} a".encode(), f"refused Name{at}", 0.0)
            tally.called(f"verb{at} a".encode(), 0.0)
        self.assertEqual((len(tally.last()), len(tally.answers), len(tally.calls), list(tally.refusals)), (KEPT_ANSWERS, 1, 1, [("other", "other")]))

    def test_recent(self):
        with unittest.mock.patch("zinduroi.node.tally.time.monotonic") as now:
            tally = Tally()
            for second in range(0, 1200, 10):
                now.return_value = float(second)
                tally.answered(7, b"read a x", "refused NoSeat 0", 0.0)
            self.assertEqual((tally.recent(60)["NoSeat"], tally.recent(600)["NoSeat"]), (6, 60))
            now.return_value = 1189.0 + 610
            self.assertEqual(tally.recent(600), {})

    def test_shown_lines(self):
        for line, shown in {
                b"read a x": "read a x", b"read a -": "read a -", b"wait 0.5 write a x": "wait 0.5 write a x",
                b"keep a x": "keep a x", b"give a 1 2": "give a 1 2", b"sessions a": "sessions a",
                b"show " + TOKEN.encode(): "show (can't be read)", b"resume " + TOKEN.encode(): "resume (token)",
                b"resume " + TOKEN.encode() + b" keep": "resume (token) keep", b"token": "token",
                b"resume " + TOKEN.encode() + b" x": "resume (can't be read)", TOKEN.encode(): "(a line of another form)",
                b"read a": "read (can't be read)", b"wait x": "wait (can't be read)", b"take " + b"x" * 999: "take",
                b"give a \xff": "give (can't be read)", b"": "(a line of another form)",
                "TooLong": "(a line that was not kept)"}.items():
            self.assertEqual(shown_line(line), shown, line)

    def test_verbs(self):
        for line, verb in {b"read a x": ("read", False), b"wait 5 write a x": ("write", True), b"wait 5 leave a x": ("other", True), b"wait": ("other", True),
                           b"send": ("send", False), b"sending": ("other", False), b"": ("other", False), "TooLong": ("other", False)}.items():
            self.assertEqual(verb_of(line), verb)

    def test_shown_replies(self):
        for verb, reply, shown in (("token", f"token {TOKEN}", "token"), ("keep", f"kept {TOKEN}", "kept"), ("send", marked("{}"), "(a delta)"),
                                   ("send", "refused Memory", "refused Memory"), ("sessions", "x" * 500, "x" * 120 + " .."), ("read", "admitted", "admitted")):
            self.assertEqual(shown_reply(verb, reply), shown)

    def test_histogram(self):
        text, histogram = Text(), Histogram((0.1, 1.0))
        for value in (0.05, 0.1, 0.5, 7.0):
            histogram.add(value)
        text.histogram("x_seconds", "means", [((("verb", 'a"\\\n'),), histogram)])
        at = '{verb="a\\"\\\\\\n"'
        self.assertEqual(text.whole().splitlines()[2:], [
            f'zinduroi_x_seconds_bucket{at},le="0.1"}} 2', f'zinduroi_x_seconds_bucket{at},le="1"}} 3', f'zinduroi_x_seconds_bucket{at},le="+Inf"}} 4',
            f"zinduroi_x_seconds_sum{at}}} 7.65", f"zinduroi_x_seconds_count{at}}} 4"])


class Shares(unittest.TestCase):
    """Where seats are, by what was heard."""

    layout = Layout(3, (Record("a", 8, 0),))

    def test_nothing_heard(self):
        self.assertEqual(shares_of(self.layout, {}, {}), [[Share(8, 0, 0), Share(0, 0, 0), Share(0, 0, 0)]])
        self.assertEqual(rows_of(None), {})

    def test_on_the_way(self):
        """Site 0 gave 3 seats to site 1, which used one, and 2 to site 2, which says nothing."""
        given = {"ann": 0, "fin": 0, "out": [8, 3, 2], "r": 0, "s": 0, "taken": 1}
        used = {"ann": 0, "fin": 0, "out": [0, 1, 0], "r": 0, "s": 1, "taken": 2}
        for said, shares in (({}, (Share(0, 1, 2), Share(0, 0, 2))), ({(0, 0): {**given, "out": [8, 2, 0]}}, (Share(1, 1, 1), Share(0, 0, 2))),
                             ({(0, 0): given}, (Share(2, 1, 0), Share(0, 0, 2)))):
            found = shares_of(self.layout, {(0, 0): given, (0, 1): used}, {1: said})
            self.assertEqual(found, [[Share(2, 1, 0), *shares]])
            self.assertEqual(sum(map(sum, found[0])), 8)

    def test_texts(self):
        text = '{"from":12,"rows":[{"ann":0,"fin":0,"out":[1],"r":0,"s":0,"taken":0}],"v":1}'
        self.assertEqual((sender_of(text), sender_of(marked(text, "crew"))), (12, 12))
        self.assertEqual(list(rows_of(marked(text))), [(0, 0)])
        for wrong in ("", "x", '{"rows":[]}', "x" * 300 + text):
            self.assertIsNone(sender_of(wrong))


class Configs(Case):
    """The address of a page."""

    def read(self, more):
        path = self.folder / "node.toml"
        path.write_text('site = 0\nstore = "s.db"\n[socket]\npath = "s.sock"\n' + more, encoding="utf-8")
        return read_config(path).page

    def test_addresses(self):
        self.assertIsNone(self.read(""))
        self.assertEqual(self.read('[page]\naddress = "127.0.0.1:7480"\n'), ("127.0.0.1", 7480))
        self.assertEqual(self.read('[page]\naddress = "[::1]:1"\n'), ("::1", 1))
        for address in ("0.0.0.0:7480", "[::]:7480", "192.168.1.2:7480", "localhost:7480", "127.0.0.1:0"):
            with self.assertRaisesRegex(ConfigError, "page.address: is not a port of loopback"):
                self.read(f'[page]\naddress = "{address}"\n')
        for more in ('address = "127.0.0.1"', 'address = ":7480"', "address = 7480", 'address = "127.0.0.1:7480"\nport = 1'):
            with self.assertRaisesRegex(ConfigError, "page"):
                self.read(f"[page]\n{more}\n")

    def test_hosts(self):
        for host in ("localhost", "LOCALHOST:7480", "127.0.0.1", "127.0.0.1:7480", "127.1.2.3:1", "[::1]", "[::1]:7480"):
            self.assertTrue(is_own(host), host)
        for host in ("", "attacker.example", "attacker.example:7480", "localhost.attacker.example", "127.0.0.1.attacker.example", "10.0.0.1", "0.0.0.0", "::1",
                     "[::2]", "[localhost]", "user@localhost", "localhost:x", "localhost:7480:1", "127.0.0.1 x"):
            self.assertFalse(is_own(host), host)


class StubLink:
    """A link to a store that says what `reply` is, or nothing."""

    reply = "rights 3 inside 0 unfinished 0"

    async def ask_until(self, line):
        if self.reply is None:
            await asyncio.Event().wait()
        return self.reply if line.startswith("show") or self.reply.startswith("refused") else "0"


def stub_view(link, failure=None):
    """A view of a node that is not there."""
    async def status():
        await link.ask_until("show a")
        return {"records": {"a": {"rights": 3, "inside": 0, "unfinished": 0, "sessions": [], "queue": []}}, "callers": [], "connections": 0}
    answers = types.SimpleNamespace(tally=Tally(), link=link, status=status, group=None, book_failure=lambda: None)
    exchange = types.SimpleNamespace(failure=failure, why_failing=lambda: failure and str(failure), transport=None, tally=ExchangeTally)
    return View(answers, Layout(1, (Record("a", 3, 0),)), types.SimpleNamespace(site=0, last_sent=None, heard={}, froze=None), exchange)


class Health(unittest.TestCase):
    """Whether a site may admit."""

    def test_reasons(self):
        with unittest.mock.patch("zinduroi.node.view.PATIENCE", 0.1):
            for reply, failure, found in (
                    (StubLink.reply, None, (True, "the site may admit")), (StubLink.reply, ServiceEnded(1, ""), (True, "the site may admit")),
                    ("refused Frozen", None, (False, "the store answers: refused Frozen")), (StubLink.reply, Frozen("Frozen"), (False, "the exchange has ended: refused Frozen")),
                    (StubLink.reply, StoreFault("StoreFault"), (False, "the exchange has ended: refused StoreFault")),
                    (None, None, (False, "the program has not answered for 0.1 seconds"))):
                async def look():
                    link = StubLink()
                    link.reply = reply
                    view = stub_view(link, failure)
                    return view.health(await view.look())
                may, reason = asyncio.run(look())
                self.assertEqual(may, found[0])
                self.assertTrue(reason.startswith(found[1]), reason)

    def test_one_look(self):
        """However many ask a program that doesn't answer, it is asked once; and once again when it is back."""
        async def many():
            link, asked = StubLink(), []
            view = stub_view(link)
            answer, gate = link.ask_until, asyncio.Event()

            async def slow(line):
                asked.append(line)
                await gate.wait()
                return await answer(line)
            link.ask_until = slow
            found = await asyncio.gather(*(view.look() for _ in range(20)))
            self.assertEqual(found, [None] * 20)
            text = await metrics_text(view)
            self.assertIn("zinduroi_may_admit 0\n", text)
            self.assertNotIn("zinduroi_seats{", text)
            gate.set()
            self.assertTrue(view.health(await view.look())[0])
            self.assertEqual(asked, ["show a", "show a"])
        with unittest.mock.patch("zinduroi.node.view.PATIENCE", 0.05):
            asyncio.run(many())

    def test_age_of_a_text_that_is_handed_out_again(self):
        """`Peers` does so with the text of a site that is long dead."""
        view, now = stub_view(StubLink()), time.monotonic()
        view.site.heard = {1: ("", now), 2: ("", now - 7)}
        view.exchange.transport = types.SimpleNamespace(states=lambda: [PeerState(1, None, 500.0, 0, 3, None), PeerState(3, None, None, 0, 0, None)])
        self.assertEqual({site: round(age) for site, age in view.ages().items()}, {1: 500, 2: 7})
        self.assertEqual([(it["site"], it["age"] and round(it["age"])) for it in view.peers()], [(1, 500), (3, None), (2, 7)])

    def test_several(self):
        both = Several([types.SimpleNamespace(states=lambda: [1], failures=lambda: {"X": 1}), object()])
        self.assertEqual(both.states(), [1])


def request(port, data, seconds=20):
    """All that a server sends to these bytes."""
    with socket.create_connection(("127.0.0.1", port), seconds) as client:
        client.sendall(data)
        found = b""
        while more := client.recv(65536):
            found += more
        return found.decode("utf-8")


class Slow(unittest.TestCase):
    """Clients that take nothing, and too many of them."""

    def serve(self, tests):
        """Runs a test beside a page with a large state, in one process."""
        async def run():
            view = stub_view(StubLink())
            with socket.socket() as probe:
                probe.bind(("127.0.0.1", 0))
                port = probe.getsockname()[1]

            async def large():
                return {"text": "x" * 4_000_000}
            view.page = large
            served = Page(("127.0.0.1", port), view)
            await served.start()
            try:
                await tests(served, port)
            finally:
                await served.close()
        asyncio.run(run())

    def test_takes_nothing(self):
        async def tests(served, port):
            _, writer = await asyncio.open_connection("127.0.0.1", port, limit=1024)
            writer.write(b"GET /events HTTP/1.1\r\nHost: localhost\r\n\r\n")
            reader, other = await asyncio.open_connection("127.0.0.1", port, limit=1 << 24)
            other.write(b"GET /events HTTP/1.1\r\nHost: localhost\r\n\r\n")
            for _ in range(3):
                while not (await asyncio.wait_for(reader.readline(), 10)).startswith(b"data: "):
                    pass
            for _ in range(100):
                if len(served._streams) == 1:
                    break
                await asyncio.sleep(0.05)
                reader._buffer.clear()
            self.assertEqual(len(served._streams), 1)
            writer.close()
            other.close()
        with unittest.mock.patch.object(page, "PATIENCE", 0.3):
            self.serve(tests)

    def test_fault(self):
        """A fault of the node's own is answered, and the next request too."""
        async def tests(served, port):
            with unittest.mock.patch.object(page, "metrics_text", side_effect=KeyError("x")), unittest.mock.patch.object(page, "report"):
                text = await asyncio.to_thread(request, port, b"GET /metrics HTTP/1.1\r\nHost: localhost\r\n\r\n")
            self.assertTrue(text.startswith("HTTP/1.1 500 "))
            text = await asyncio.to_thread(request, port, b"GET /health HTTP/1.1\r\nHost: [::1]:1\r\n\r\n")
            self.assertTrue(text.startswith("HTTP/1.1 200 "))
        self.serve(tests)

    def test_too_many(self):
        async def tests(served, port):
            idle = [await asyncio.open_connection("127.0.0.1", port) for _ in range(page.CONNECTIONS + 8)]
            ends = await asyncio.gather(*(reader.read() for reader, _ in idle), return_exceptions=True)
            self.assertEqual(len([end for end in ends if isinstance(end, bytes) and b" 408 " in end]), page.CONNECTIONS)
            text = await asyncio.to_thread(request, port, b"GET /health HTTP/1.1\r\nHost: localhost\r\n\r\n")
            self.assertTrue(text.startswith("HTTP/1.1 200 OK\r\n"))
            for _, writer in idle:
                writer.close()
        with unittest.mock.patch.object(page, "PATIENCE", 1.0):
            self.serve(tests)


class Served(NodeCase):
    """The page of a node."""

    def setUp(self):
        super().setUp()
        with socket.socket() as probe:
            probe.bind(("127.0.0.1", 0))
            self.port = probe.getsockname()[1]

    def start_page(self):
        self.start(socket=f'[page]\naddress = "127.0.0.1:{self.port}"')

    def get(self, path="/", host="localhost"):
        head, _, body = request(self.port, f"GET {path} HTTP/1.1\r\nHost: {host}\r\n\r\n".encode()).partition("\r\n\r\n")
        return int(head.split(" ")[1]), head, body

    def test_requests(self):
        self.start_page()
        status, head, body = self.get()
        self.assertEqual(status, 200)
        self.assertIn("Content-Security-Policy: default-src 'none';", head)
        self.assertNotRegex(body, r"https?://|src=|@import|url\(|innerHTML")
        self.assertEqual(self.get("/health")[::2], (200, "the site may admit\n"))
        self.assertEqual(self.get("/?x=1")[0], 200)
        self.assertEqual(self.get("/none")[0], 404)
        self.assertEqual(self.get("/metrics", "attacker.example")[0], 403)
        for data, status in ((b"POST / HTTP/1.1\r\nHost: localhost\r\n\r\n", 405), (b"GET / HTTP/1.1\r\n\r\n", 400), (b"\x00\xff\r\n\r\n", 400),
                             (b"GET http://localhost/ HTTP/1.1\r\nHost: localhost\r\n\r\n", 400), (b"GET / HTTP/1.1\r\nHost: localhost\r\nhost: x\r\n\r\n", 400),
                             (b"HEAD / HTTP/1.1\r\nHost: localhost\r\n\r\n", 405), (b"GET /" + b"x" * 9000 + b" HTTP/1.1\r\nHost: localhost\r\n\r\n", 431)):
            self.assertTrue(request(self.port, data).startswith(f"HTTP/1.1 {status} "), data[:60])

    def test_metrics(self):
        self.start_page()
        client = self.connect()
        for line in ("read a x", "read a y", "read a z", "read a w", "wait 0.05 read a w", f"resume {TOKEN}", "keep a x"):
            client.ask(line)
        status, head, body = self.get("/metrics")
        self.assertEqual(status, 200)
        self.assertIn("Content-Type: text/plain; version=0.0.4", head)
        for line in ('zinduroi_site_info{site="0",group=""} 1', "zinduroi_may_admit 1", 'zinduroi_admissions_total{verb="read"} 3',
                     'zinduroi_refusals_total{verb="read",name="NoSeat"} 1', 'zinduroi_refusals_total{verb="resume",name="NoToken"} 1',
                     'zinduroi_timeouts_total{verb="read",name="NoSeat"} 1', 'zinduroi_wait_seconds_count{verb="read",outcome="timeout"} 1',
                     'zinduroi_seats{record="a",state="inside"} 3', 'zinduroi_seats{record="a",state="free"} 0', 'zinduroi_sessions{record="a",phase="reader"} 3',
                     'zinduroi_sessions_without_connection{record="a",kept="yes"} 1', "zinduroi_exchange_failing 0"):
            self.assertIn(line + "\n", body)
        self.assertRegex(body, r'zinduroi_program_call_seconds_count\{verb="read"\} [1-9]')
        self.assertNotIn(TOKEN, body)

    def test_events(self):
        self.start_page()
        with socket.create_connection(("127.0.0.1", self.port), 20) as events:
            events.sendall(b"GET /events HTTP/1.1\r\nHost: localhost\r\n\r\n")
            lines = events.makefile("r", encoding="utf-8", newline="\n")

            def state():
                for line in lines:
                    if line.startswith("data: "):
                        return json.loads(line[6:])
            self.assertEqual(state()["records"][0]["callers"], [])
            client = self.connect()
            client.ask("read a <b>")
            self.assertTrue(wait_for(lambda: [it["holder"] for it in state()["records"][0]["callers"]] == ["<b>"], 20))
            token = client.ask("token").split(" ")[1]
            kept = client.ask("keep a <b>")
            self.assertEqual(kept, f"kept {token}")
            seen = [state() for _ in range(3)][-1]
            self.assertEqual([it["reply"] for it in seen["answers"]], ["admitted", "token", "kept"])
            self.assertNotIn(token, json.dumps(seen))
            self.assertEqual(seen["records"][0]["sites"][0], {"site": 0, "free": 2, "inside": 1, "way": 0, "age": None})
        self.assertEqual(self.end()[0], 0)

    def test_address_in_use(self):
        with socket.create_server(("127.0.0.1", self.port)):
            process = self.spawn(self.write_config(socket=f'[page]\naddress = "127.0.0.1:{self.port}"'), "--create")
            _, errors = process.communicate(timeout=60)
        self.assertEqual(process.returncode, 1)
        self.assertIn(f"page: 127.0.0.1 port {self.port}: ", errors)
