"""The transport `Peers`: real connections on loopback, with certificates that `openssl` makes here."""
import asyncio
import contextlib
import errno
import gc
import json
import os
import pathlib
import shutil
import socket
import ssl
import subprocess
import tempfile
import threading
import time
import types
import unittest
import unittest.mock
import warnings

import zinduroi
from zinduroi import Exchange, TransportFailed
from zinduroi.peer_names import Peer, Timing, name_of, parse_address, site_in
from zinduroi.peer_texts import LINE_LIMIT, Hello, Text, heard_line, hello_line, text_line
from zinduroi.peers import Peers

from .common import PACKAGE, Case, wait_for

OPENSSL = shutil.which("openssl")
QUICK = Timing(handshake=1.0, beat=0.1, silence=0.8, first_pause=0.02, longest_pause=0.2, patience=0.5, again=600.0, linger=1.0,
               strangers=4)
KEY = ("-newkey", "ec", "-pkeyopt", "ec_paramgen_curve:P-256", "-nodes")


class Authority:
    """An authority with its files in a folder, and the certificates that it gives."""

    def __init__(self, folder):
        self.folder = folder
        folder.mkdir()
        self.certificate = folder / "authority.pem"
        self._run("req", "-x509", *KEY, "-days", "30", "-subj", "/CN=authority", "-keyout", folder / "authority.key", "-out", self.certificate)

    @staticmethod
    def _run(*words, data=""):
        subprocess.run(["openssl", *map(str, words)], check=True, capture_output=True, input=data, text=True)

    def give(self, name, *names, days=30, by=None):
        """A key and a certificate with these names, as paths. `by` is the certificate and key of another signer."""
        key, request, made = (self.folder / f"{name}.{part}" for part in ("key", "csr", "pem"))
        signer, signing = by or (self.certificate, self.folder / "authority.key")
        extensions = "subjectAltName=" + ",".join(f"DNS:{name}" for name in names or (name,))
        self._run("req", *KEY, "-subj", f"/CN={name}", "-keyout", key, "-out", request)
        self._run("x509", "-req", "-in", request, "-CA", signer, "-CAkey", signing, "-days", days, "-extfile", "/dev/stdin", "-out", made,
                  data=extensions)
        return made, key


class Middle:
    """Passes connections on to a port, until they are cut; counts the bytes. What is read waits for `pause` seconds."""

    def __init__(self, port):
        self.to = port
        self.open, self.bytes, self.pause = True, 0, 0.0
        self.pairs, self.all, self.threads = [], [], []
        self.listener = socket.create_server(("127.0.0.1", 0))
        self.port = self.listener.getsockname()[1]
        self._begin(self._accept)

    def _begin(self, work, *words):
        thread = threading.Thread(target=work, args=words, daemon=True)
        self.threads.append(thread)
        thread.start()

    def _accept(self):
        while True:
            try:
                near, _ = self.listener.accept()
            except OSError:
                return
            try:
                if not self.open:
                    raise OSError
                far = socket.create_connection(("127.0.0.1", self.to), 1)
            except OSError:
                near.close()
                continue
            far.settimeout(None)
            self.pairs.append((near, far))
            self.all += [near, far]
            self._begin(self._pass, near, far)
            self._begin(self._pass, far, near)

    def _pass(self, source, sink):
        try:
            while data := source.recv(65_536):
                if self.pause:
                    time.sleep(self.pause)
                sink.sendall(data)
                self.bytes += len(data)
        except OSError:
            pass
        for end in (source, sink):
            try:
                end.shutdown(socket.SHUT_RDWR)
            except OSError:
                pass

    def cut(self):
        self.open = False
        pairs, self.pairs = self.pairs, []
        for pair in pairs:
            for end in pair:
                try:
                    end.shutdown(socket.SHUT_RDWR)
                except OSError:
                    pass

    def close(self):
        self.listener.shutdown(socket.SHUT_RDWR)
        self.threads[0].join()
        self.cut()
        for thread in self.threads:
            thread.join()
        for end in [self.listener, *self.all]:
            end.close()


def free_ports(number):
    """Ports that nobody uses."""
    probes = [socket.create_server(("127.0.0.1", 0)) for _ in range(number)]
    ports = [probe.getsockname()[1] for probe in probes]
    for probe in probes:
        probe.close()
    return ports


class Inbox:
    """All that a transport hands out."""

    def __init__(self, peers):
        self.peers, self.texts = peers, []

    def has(self, text):
        self.texts += self.peers.messages()
        return text in self.texts


@unittest.skipUnless(OPENSSL, "there is no openssl")
class Secure(unittest.TestCase):
    """Tests with certificates of sites 0 to 2."""

    @classmethod
    def setUpClass(cls):
        cls.folder = pathlib.Path(tempfile.mkdtemp(prefix="zinduroi_"))
        cls.addClassCleanup(shutil.rmtree, cls.folder, ignore_errors=True)
        cls.authority = Authority(cls.folder / "ours")
        cls.given = {site: cls.authority.give(name_of(site, None)) for site in range(3)}

    def setUp(self):
        self.inboxes = {}
        self.threads = threading.active_count()
        self.addCleanup(lambda: self.assertTrue(wait_for(lambda: threading.active_count() == self.threads, 5)))

    def peers(self, site, peers, listen=None, given=None, authority=None, **more):
        """A transport with this site's certificate; closed behind the test."""
        certificate, key = given or self.given[site]
        more.setdefault("timing", QUICK)
        made = Peers(site, peers, listen, (authority or self.authority).certificate, certificate, key, **more)
        self.addCleanup(lambda: self.assertEqual(made.failures()["Unexpected"], 0))
        self.addCleanup(made.close)
        return made

    def pair(self, **more):
        """Site 0, which listens, and site 1, which connects through a middle; and the middle. Site 2 may connect too."""
        first = self.peers(0, {1: None, 2: None}, "127.0.0.1:0", **more)
        middle = Middle(first.port)
        self.addCleanup(middle.close)
        return first, self.peers(1, {0: f"127.0.0.1:{middle.port}"}, **more), middle

    def context(self, given=None, authority=None):
        """What a peer that is made by hand connects with."""
        context = ssl.create_default_context(cafile=(authority or self.authority).certificate)
        if given is not None:
            context.load_cert_chain(*given)
        return context

    def connect(self, peers, given=None, **more):
        """A connection by hand."""
        plain = socket.create_connection(("127.0.0.1", peers.port), 5)
        self.addCleanup(plain.close)
        secure = self.context(given, **more).wrap_socket(plain, server_hostname=name_of(peers.site, peers.group))
        self.addCleanup(secure.close)
        return secure

    def gets(self, peers, text, seconds=5):
        inbox = self.inboxes.setdefault(peers, Inbox(peers))
        came = wait_for(lambda: inbox.has(text), seconds)
        self.assertTrue(came, (text[:60], [text[:60] for text in inbox.texts[-3:]], peers.failures(), peers.states()))
        return inbox.texts


class Carries(Secure):
    """What arrives."""

    def test_both_ways(self):
        first, second, _ = self.pair()
        heard = threading.Event()
        second.listen(heard.set)
        first.publish(0, "from 0")
        self.assertTrue(heard.wait(5))
        self.assertEqual(list(second.messages()), ["from 0"])
        self.assertEqual(list(second.messages()), [])
        second.publish(1, "from 1")
        self.gets(first, "from 1")
        state, _ = first.states()
        self.assertEqual((state.site, state.sent, state.took, state.failure), (1, 1, 1, None))
        self.assertLess(state.connected + state.age, 10)

    def test_the_same_text_is_sent_once(self):
        first, second, _ = self.pair()
        for _ in range(50):
            first.publish(0, "same")
        self.gets(second, "same")
        first.publish(0, "next")
        self.gets(second, "next")
        self.assertEqual(first.states()[0].sent, 2)

    def test_the_longest_text(self):
        first, second, _ = self.pair()
        for size in (1, 65_535, 65_536, 2_097_152 + 60):
            first.publish(0, "y" * size)
            self.gets(second, "y" * size)

    def test_not_a_text(self):
        first, _, _ = self.pair()
        for site, text in ((1, "x"), (0, "a\nb"), (0, "x" * (LINE_LIMIT + 1)), (0, "\ud800")):
            self.assertRaises(TransportFailed, first.publish, site, text)
        first.close()
        self.assertRaises(TransportFailed, first.publish, 0, "x")
        self.assertRaises(TransportFailed, first.say_lacks, {})
        first.close()

    def test_cut_and_back_brings_the_last_text_alone(self):
        first, second, middle = self.pair()
        first.publish(0, "one")
        self.gets(second, "one")
        middle.cut()
        self.assertTrue(wait_for(lambda: second.states()[0].connected is None))
        for number in range(100):
            first.publish(0, f"missed {number}")
        second.publish(1, "older of 1")
        second.publish(1, "newer of 1")
        time.sleep(0.3)
        middle.open = True
        self.assertEqual(self.gets(second, "missed 99"), ["one", "missed 99"])
        self.assertEqual(self.gets(first, "newer of 1"), ["newer of 1"])

    def test_a_silent_link_is_dropped(self):
        """The bytes stop, and nobody closes the connection."""
        first, second, middle = self.pair()
        first.publish(0, "one")
        self.gets(second, "one")
        hung = self.connect(first, self.given[2])
        hung.sendall(hello_line(Hello(2, 1, 1)))
        self.assertTrue(wait_for(lambda: first.failures()["Silent"] > 0, 5), first.failures())
        first.publish(0, "two")
        self.gets(second, "two")

    def test_a_new_run_replaces_the_old_one(self):
        """The new run of site 1 gets the text that site 0 has not changed, and the text of its old run comes back to it."""
        first, second, middle = self.pair()
        first.publish(0, "of 0")
        second.publish(1, "of 1, run 1")
        self.gets(first, "of 1, run 1")
        again = self.peers(1, {0: f"127.0.0.1:{middle.port}"})
        self.assertEqual(sorted(again.messages()), ["of 0", "of 1, run 1"])
        second.close()
        again.publish(1, "of 1, run 2")
        self.assertEqual(self.gets(first, "of 1, run 2"), ["of 1, run 1", "of 1, run 2"])

    def test_both_connect_and_one_connection_stays(self):
        ports = free_ports(2)
        sites = [self.peers(site, {1 - site: f"127.0.0.1:{ports[1 - site]}"}, f"127.0.0.1:{ports[site]}") for site in (0, 1)]
        for site in (0, 1):
            sites[site].publish(site, f"of {site}")
        for site in (0, 1):
            self.gets(sites[site], f"of {1 - site}")
        ages = [peers.states()[0].connected for peers in sites]
        time.sleep(1.0)
        for peers, age in zip(sites, ages):
            self.assertGreater(peers.states()[0].connected, 0.9)

    def test_a_second_connection_of_a_run_is_refused(self):
        """Site 0 began the connection, and it is the lower one: another one that site 1 begins is refused, unless its run is a
        new one."""
        second = self.peers(1, {0: None}, "127.0.0.1:0")
        first = self.peers(0, {1: f"127.0.0.1:{second.port}"}, "127.0.0.1:0")
        self.assertTrue(wait_for(lambda: first.states()[0].connected is not None))
        began = second._texts.began
        for run, name in ((began, "Second"), (began + 1, "Replaced")):
            secure = self.connect(first, self.given[1])
            secure.sendall(hello_line(Hello(1, run, run)))
            self.assertTrue(wait_for(lambda: first.failures()[name] > 0), first.failures())

    def test_texts_are_handed_out_again(self):
        first, second, _ = self.pair(timing=Timing(**{**vars(QUICK), "again": 0.2}))
        first.publish(0, "one")
        inbox = Inbox(second)
        self.assertTrue(wait_for(lambda: inbox.has("one") and inbox.texts.count("one") >= 3))
        self.assertEqual(first.states()[0].sent, 1)

    def test_lacks_travel_beside_the_text(self):
        first, second, _ = self.pair()
        first.say_lacks({"a": 3})
        first.publish(0, "one")
        self.gets(second, "one")
        lacks, age = second.lacks()[0]
        self.assertEqual(lacks, {"a": 3})
        self.assertLess(age, 5)
        # What is lacking still is said anew, and only then.
        sent = first.states()[0].sent
        for _ in range(3):
            first.say_lacks({"a": 3})
        first._told -= 5.0
        first.say_lacks({"a": 3})
        self.assertTrue(wait_for(lambda: first.states()[0].sent == sent + 1))
        first.say_lacks({})
        self.assertTrue(wait_for(lambda: second.lacks()[0][0] == {}))
        first._told -= 5.0
        first.say_lacks({})
        time.sleep(0.1)
        self.assertEqual(first.states()[0].sent, sent + 2)
        self.assertRaises(ValueError, first.say_lacks, {"a": -1})

    def test_lacks_that_are_said_each_second(self):
        """A second goes by before each call. The fifth one sends them anew, though those before it sent nothing."""
        first, second, _ = self.pair()
        first.publish(0, "one")
        first.say_lacks({"a": 3})
        self.assertTrue(wait_for(lambda: second.lacks().get(0, ({}, 0))[0] == {"a": 3}))
        sent = first.states()[0].sent
        for _ in range(5):
            first._told -= 1.0
            first.say_lacks({"a": 3})
        self.assertTrue(wait_for(lambda: first.states()[0].sent > sent, 20), first.states())

    def test_close_sends_the_last_text(self):
        first, second, _ = self.pair()
        second.publish(1, "one")
        self.gets(first, "one")
        second.publish(1, "z" * 2_000_000)
        second.close()
        self.gets(first, "z" * 2_000_000)

    def test_while_the_authority_is_changed(self):
        """Each site has both certificates in its file; site 1 has one of the new authority already."""
        new = Authority(self.folder / "new")
        both = self.folder / "both.pem"
        both.write_text(self.authority.certificate.read_text() + new.certificate.read_text())
        self.authority, old = Authority.__new__(Authority), self.authority
        self.authority.certificate = both
        first = self.peers(0, {1: None}, "127.0.0.1:0")
        second = self.peers(1, {0: f"127.0.0.1:{first.port}"}, given=new.give("site-1.zinduroi"))
        first.publish(0, "one")
        self.gets(second, "one")
        del self.authority
        self.assertIs(self.authority, old)

    def test_close_at_any_moment(self):
        """Both begin to connect to each other and are closed, a moment later each time: nothing is left open."""
        for number in range(12):
            ports = free_ports(2)
            sites = [self.peers(site, {1 - site: f"127.0.0.1:{ports[1 - site]}"}, f"127.0.0.1:{ports[site]}") for site in (0, 1)]
            for site, peers in enumerate(sites):
                peers.publish(site, f"{site} " + "x" * 100_000)
            time.sleep(0.005 * number)
            with warnings.catch_warnings(record=True) as caught:
                warnings.simplefilter("always")
                for peers in sites:
                    peers.close()
                gc.collect()
            self.assertEqual([str(warning.message) for warning in caught], [])

    def test_close_beside_a_peer_that_never_reads(self):
        first = self.peers(0, {1: None, 2: None}, "127.0.0.1:0", timing=Timing(**{**vars(QUICK), "silence": 60.0}))
        stalled = self.connect(first, self.given[2])
        stalled.sendall(hello_line(Hello(2, 1, 1)))
        self.assertTrue(wait_for(lambda: first.states()[1].connected is not None))
        for number in range(6):
            first.publish(0, f"{number} " + "x" * 2_000_000)
            time.sleep(0.1)
        began = time.monotonic()
        first.close()
        self.assertLess(time.monotonic() - began, 10)

    def test_in_a_group(self):
        given = [self.authority.give(name_of(site, "payroll")) for site in (0, 1)]
        first = self.peers(0, {1: None}, "127.0.0.1:0", given[0], group="payroll")
        second = self.peers(1, {0: f"127.0.0.1:{first.port}"}, given=given[1], group="payroll")
        first.publish(0, "one")
        self.gets(second, "one")
        # A certificate of no group, under the same authority.
        self.connect(first, self.given[1])
        self.assertTrue(wait_for(lambda: first.failures()["NotNamed"] > 0))


class Relays(Secure):
    """Texts over another site."""

    def line(self, carries_1={2}, carries_2={0}):
        """Sites 1 and 2 connect to site 0 and 1: a line 0 - 1 - 2 in which only neighbours are connected."""
        zero = self.peers(0, {1: Peer(None, carries_1), 2: None}, "127.0.0.1:0")
        one = self.peers(1, {0: f"127.0.0.1:{zero.port}", 2: None}, "127.0.0.1:0")
        two = self.peers(2, {1: Peer(f"127.0.0.1:{one.port}", carries_2), 0: None})
        return zero, one, two

    def test_over_one(self):
        zero, one, two = self.line()
        zero.publish(0, "of 0")
        two.publish(2, "of 2")
        self.gets(two, "of 0")
        self.gets(zero, "of 2")
        zero.say_lacks({"b": 2})
        self.assertTrue(wait_for(lambda: two.lacks().get(0, ({}, 0))[0] == {"b": 2}))
        for number in range(50):
            zero.publish(0, f"of 0, {number}")
        self.gets(two, "of 0, 49")
        self.assertEqual({state.site: state.took for state in zero.states()}, {1: 1, 2: 0})

    def test_the_age_of_a_text_that_was_carried(self):
        """It is that of the site whose text it is, and not of the one that carried it."""
        zero, _, two = self.line()
        two.publish(2, "of 2")
        self.gets(zero, "of 2")
        self.assertEqual({state.site: state.age is not None for state in zero.states()}, {1: False, 2: True})
        self.assertTrue(wait_for(lambda: zero.lacks()[2][1] > 0, 20), zero.lacks())

    def test_an_earlier_run_that_another_relay_has(self):
        """The clock of a site's earlier run was ahead. Its text comes over a second relay, and the site goes above it."""
        zero = self.peers(0, {1: Peer(None, {2}), 3: Peer(None, {2}), 2: None}, "127.0.0.1:0")
        one = self.peers(1, {0: f"127.0.0.1:{zero.port}", 2: None}, "127.0.0.1:0")
        two = self.peers(2, {1: Peer(f"127.0.0.1:{one.port}", {0}), 0: None})
        two.publish(2, "first")
        self.gets(zero, "first")
        three = self.connect(zero, self.authority.give("site-3.zinduroi"))
        three.sendall(hello_line(Hello(3, 1, 1)) + text_line(Text(2, time.time_ns() // 1000 + 3_600_000_000, "earlier run")))
        self.gets(zero, "earlier run")
        two.publish(2, "second")
        self.gets(zero, "second", 10)

    def test_not_where_nobody_named_the_relay(self):
        zero, one, two = self.line(frozenset(), frozenset())
        zero.publish(0, "of 0")
        two.publish(2, "of 2")
        self.gets(one, "of 0")
        self.gets(one, "of 2")
        time.sleep(0.3)
        self.assertEqual([list(zero.messages()), list(two.messages())], [[], []])

    def test_a_triangle_uses_no_relay(self):
        """All are connected and name each other: each text goes over each connection once at most, and none in a circle."""
        everybody = {0, 1, 2}
        ports = free_ports(3)
        sites = [self.peers(site, {other: Peer(f"127.0.0.1:{ports[other]}", everybody - {site, other}) for other in everybody - {site}},
                            f"127.0.0.1:{ports[site]}") for site in range(3)]
        self.assertTrue(wait_for(lambda: all(state.connected is not None for peers in sites for state in peers.states())))
        time.sleep(0.3)
        for number in range(20):
            for site, peers in enumerate(sites):
                peers.publish(site, f"{site} {number}")
            time.sleep(0.02)
        for site, peers in enumerate(sites):
            for other in everybody - {site}:
                self.gets(peers, f"{other} 19")
        time.sleep(0.3)
        took = [state.took for peers in sites for state in peers.states()]
        self.assertLessEqual(max(took), 22)
        time.sleep(0.5)
        self.assertEqual(took, [state.took for peers in sites for state in peers.states()])

    def test_a_relay_takes_over_when_a_link_is_cut(self):
        ports = free_ports(3)
        middle = Middle(ports[0])
        self.addCleanup(middle.close)
        zero = self.peers(0, {1: Peer(None, {2}), 2: Peer(None, {1})}, f"127.0.0.1:{ports[0]}")
        one = self.peers(1, {0: f"127.0.0.1:{ports[0]}", 2: None}, f"127.0.0.1:{ports[1]}")
        two = self.peers(2, {0: f"127.0.0.1:{middle.port}", 1: Peer(f"127.0.0.1:{ports[1]}", {0})})
        zero.publish(0, "direct")
        self.gets(two, "direct")
        middle.cut()
        self.assertTrue(wait_for(lambda: zero.states()[1].connected is None))
        zero.publish(0, "over 1")
        two.publish(2, "of 2, over 1")
        self.gets(two, "over 1")
        self.gets(zero, "of 2, over 1")
        middle.open = True
        self.assertTrue(wait_for(lambda: zero.states()[1].connected is not None))
        zero.publish(0, "direct again")
        self.gets(two, "direct again")

    def test_an_earlier_run_with_a_later_clock(self):
        """Site 0 begins again, and its clock was put back: its new text reaches site 2 over site 1 all the same."""
        zero, _, two = self.line()
        ahead = time.time_ns() // 1000 + 3_600_000_000
        with zero._lock:
            zero._texts.last = ahead
        zero.publish(0, "earlier run")
        self.gets(two, "earlier run")
        port = zero.port
        zero.close()
        zero = self.peers(0, {1: Peer(None, {2}), 2: None}, f"127.0.0.1:{port}")
        zero.publish(0, "later run")
        self.gets(two, "later run")
        self.assertIn("earlier run", list(zero.messages()))
        self.assertEqual(zero.failures()["OtherRun"], 1)

    def test_an_earlier_run_that_only_a_distant_site_has_heard(self):
        """Sites 0 and 1 begin again, and the clock of 0 was put back: only site 2 has its earlier text, and it is not connected
        to site 0."""
        zero, one, two = self.line()
        with zero._lock:
            zero._texts.last = time.time_ns() // 1000 + 3_600_000_000
        zero.publish(0, "earlier run")
        self.gets(two, "earlier run")
        ports = zero.port, one.port
        zero.close()
        one.close()
        zero = self.peers(0, {1: Peer(None, {2}), 2: None}, f"127.0.0.1:{ports[0]}")
        zero.publish(0, "later run")
        one = self.peers(1, {0: f"127.0.0.1:{ports[0]}", 2: None}, f"127.0.0.1:{ports[1]}")
        self.gets(two, "later run", 10)
        self.assertEqual(zero.failures()["OtherRun"], 1)

    def test_above_an_earlier_run_more_than_once(self):
        """A peer has heard of a text of an earlier run of site 0, and then of a later one: site 0 goes on above each."""
        zero = self.peers(0, {1: None}, "127.0.0.1:0", timing=Timing(**{**vars(QUICK), "silence": 60.0}))
        zero.publish(0, "of 0")
        one = self.connect(zero, self.given[1])
        one.sendall(hello_line(Hello(1, 1, 1)))
        for times in (1, 2):
            ahead = time.time_ns() // 1000 + times * 3_600_000_000
            one.sendall(heard_line({0: ahead}))
            self.assertTrue(wait_for(lambda: zero.failures()["OtherRun"] == times, 20), zero.failures())
            self.assertGreater(zero._texts.newest[0].stamp, ahead)

    def test_two_processes_of_one_site_make_no_storm(self):
        """Both are connected to site 1, one after the other again and again, and each takes the text of the other."""
        one = self.peers(1, {0: None}, "127.0.0.1:0")
        both = [self.peers(0, {1: f"127.0.0.1:{one.port}"}) for _ in range(2)]
        for number, peers in enumerate(both):
            peers.publish(0, f"of process {number}")
        time.sleep(3)
        self.assertGreater(one.failures()["Replaced"], 1)
        self.assertGreater(sum(peers.failures()["OtherRun"] for peers in both), 0)
        self.assertLess(one.states()[0].took + one.states()[0].sent, 3 * 2 * 20)
        self.assertLess(sum(peers.failures()["OtherRun"] for peers in both), 8)


class Strangers(Secure):
    """Whom nobody lets in; the others are served meanwhile."""

    def refused(self, first, second, name, *work):
        """Something is tried at site 0, and counted by this name; site 1 is served before, meanwhile and after."""
        first.publish(0, "before")
        self.gets(second, "before")
        for one in work:
            one()
        self.assertTrue(wait_for(lambda: first.failures()[name] >= len(work), 5), (name, first.failures()))
        first.publish(0, "behind")
        self.gets(second, "behind")
        self.assertEqual(first.failures()["Unexpected"], 0)

    def shake(self, first, *words, **more):
        """A connection by hand, which fails at once or at the first answer."""
        try:
            secure = self.connect(first, *words, **more)
            self.assertEqual(secure.recv(100), b"")
        except OSError:
            pass

    def test_a_certificate_of_another_authority(self):
        first, second, _ = self.pair()
        other = Authority(self.folder / "other")
        given = other.give("site-1.zinduroi")
        self.refused(first, second, "BadCertificate", lambda: self.shake(first, given))
        # The same from its side: it does not talk to site 0.
        stranger = self.peers(1, {0: f"127.0.0.1:{first.port}"}, given=given, authority=other)
        stranger.publish(1, "forged")
        self.assertTrue(wait_for(lambda: stranger.failures()["BadCertificate"] > 0))
        self.assertNotIn("forged", list(first.messages()))

    def test_no_certificate(self):
        first, second, _ = self.pair()
        self.refused(first, second, "NoTls", lambda: self.shake(first))

    def test_one_that_is_out_of_date(self):
        first, second, _ = self.pair()
        given = self.authority.give("late", "site-1.zinduroi", days=-1)
        self.refused(first, second, "BadCertificate", lambda: self.shake(first, given))
        with self.assertRaisesRegex(ValueError, "expired"):
            self.peers(1, {0: f"127.0.0.1:{first.port}"}, given=given)

    def test_one_that_a_site_made_itself(self):
        first, second, _ = self.pair()
        made, key = self.authority.give("forged", "site-2.zinduroi", by=self.given[1])
        chain = made.with_suffix(".chain")
        chain.write_text(made.read_text() + self.given[1][0].read_text())
        self.refused(first, second, "BadCertificate", lambda: self.shake(first, (chain, key)))

    def test_one_that_names_no_peer(self):
        first, second, _ = self.pair()
        work = []
        for number, names in enumerate((("site-7.zinduroi",), ("elsewhere",), ("*.zinduroi",), ("site-1.payroll.zinduroi",),
                                        ("site-01.zinduroi",), ("site-1.zinduroi", "site-2.zinduroi"), ("site-16.zinduroi",))):
            given = self.authority.give(f"wrong-{number}", *names)
            work.append(lambda given=given: self.shake(first, given))
        self.refused(first, second, "NotNamed", *work)

    def test_one_of_another_site_where_this_one_connects(self):
        """Site 1 connects to an address where site 2 answers."""
        two = self.peers(2, {1: None}, "127.0.0.1:0")
        one = self.peers(1, {0: f"127.0.0.1:{two.port}"})
        self.assertTrue(wait_for(lambda: one.failures()["BadCertificate"] > 1))
        two.publish(2, "of 2")
        time.sleep(0.2)
        self.assertEqual(list(one.messages()), [])

    def test_a_peer_speaks_for_its_site_alone(self):
        """Site 2's certificate, and a first line or a text of site 1."""
        first, second, _ = self.pair()

        def first_line():
            secure = self.connect(first, self.given[2])
            secure.sendall(hello_line(Hello(1, 1, 1)))
            self.shake_ends(secure)
        self.refused(first, second, "WrongSite", first_line)

        def forged():
            secure = self.connect(first, self.given[2])
            secure.sendall(hello_line(Hello(2, 1, 1)) + text_line(Text(1, 5, "forged")))
            self.shake_ends(secure)
        self.refused(first, second, "NotCarried", forged)
        self.assertNotIn("forged", list(first.messages()))

    def shake_ends(self, secure):
        """The other side ends the connection."""
        secure.settimeout(5)
        with contextlib.suppress(ConnectionError, ssl.SSLError):
            while secure.recv(1000):
                pass

    def test_lines_that_the_protocol_lacks(self):
        first, second, _ = self.pair()
        work = []
        for lines in (b"x\n", b"x" * 5000, b"alive\n", hello_line(Hello(2, 1, 1)) * 2, hello_line(Hello(2, 1, 1)) + b"text {} x\n",
                      hello_line(Hello(2, 1, 1)) + b"y" * (LINE_LIMIT + 2), os.urandom(5000),
                      hello_line(Hello(2, 1, 1)) + text_line(Text(2, 2 ** 62, "far ahead"))):
            def one(lines=lines):
                secure = self.connect(first, self.given[2])
                with contextlib.suppress(OSError):
                    secure.sendall(lines)
                self.shake_ends(secure)
            work.append(one)
        self.refused(first, second, "BadLine", *work)

    def test_random_bytes_and_other_protocols(self):
        first, second, _ = self.pair()
        work = []
        for data in (os.urandom(1), os.urandom(3000), b"GET / HTTP/1.0\r\n\r\n", b"\x16\x03\x01\x02\x00" + os.urandom(600), hello_line(Hello(1, 1, 1))):
            def one(data=data):
                with socket.create_connection(("127.0.0.1", first.port), 5) as plain:
                    plain.sendall(data)
                    plain.shutdown(socket.SHUT_WR)
                    self.shake_ends(plain)
            work.append(one)
        before = sum(first.failures().values())
        for one in work:
            one()
        self.assertTrue(wait_for(lambda: sum(first.failures().values()) >= before + len(work)), first.failures())
        first.publish(0, "behind")
        self.gets(second, "behind")
        self.assertEqual(first.failures()["Unexpected"], 0)

    def test_older_tls(self):
        first, second, _ = self.pair()
        context = self.context(self.given[1])
        context.maximum_version = ssl.TLSVersion.TLSv1_2
        with socket.create_connection(("127.0.0.1", first.port), 5) as plain:
            with self.assertRaises(ssl.SSLError):
                context.wrap_socket(plain, server_hostname="site-0.zinduroi")

    def test_handshakes_that_never_end(self):
        """More connections than strangers may have, which send nothing: the peer gets in, and they are dropped."""
        first = self.peers(0, {1: None}, "127.0.0.1:0")
        hung = [socket.create_connection(("127.0.0.1", first.port), 5) for _ in range(12)]
        for one in hung:
            self.addCleanup(one.close)
        second = self.peers(1, {0: f"127.0.0.1:{first.port}"})
        first.publish(0, "one")
        self.gets(second, "one")
        self.assertGreater(first.failures()["TooMany"], 0)
        for one in hung:
            one.settimeout(5)
            with contextlib.suppress(ConnectionError):
                self.assertEqual(one.recv(1), b"")

    def test_a_first_line_that_never_comes(self):
        first, second, _ = self.pair()

        def one():
            secure = self.connect(first, self.given[2])
            self.shake_ends(secure)
        self.refused(first, second, "Silent", one)

    def test_a_peer_that_never_reads(self):
        """Site 2 is let in and reads nothing, while long texts go to site 1; in the end site 2 is dropped."""
        first = self.peers(0, {1: None, 2: None}, "127.0.0.1:0")
        second = self.peers(1, {0: f"127.0.0.1:{first.port}"})
        stalled = self.connect(first, self.given[2])
        stalled.sendall(hello_line(Hello(2, 1, 1)))
        self.assertTrue(wait_for(lambda: first.states()[1].connected is not None))
        end, number = time.monotonic() + 20, 0
        while first.failures()["Stalled"] == 0 and time.monotonic() < end:
            with contextlib.suppress(OSError):
                stalled.sendall(b"alive\n")
            first.publish(0, f"{number} " + "x" * 2_000_000)
            self.gets(second, f"{number} " + "x" * 2_000_000)
            number += 1
        self.assertGreater(first.failures()["Stalled"], 0)
        self.assertIsNone(first.states()[1].connected)
        self.assertEqual(first.states()[1].failure, "Stalled")


class Starts(Secure):
    """What is refused at the start."""

    def test_wrong_settings(self):
        for site, peers, listen in ((0, {0: None}, None), (0, {16: None}, None), (0, {1: "nowhere"}, None), (0, {1: "a:b"}, None),
                                    (0, {1: "host:70000"}, None), (0, {1: Peer(None, {0})}, None), (0, {1: Peer(None, {1})}, None), (0, {}, "x"),
                                    (0, {1: Peer(None, {16})}, None), (0, {1: None}, None), (0, {1: Peer(None, {2}), 2: None}, None)):
            with self.subTest(peers=peers, listen=listen):
                self.assertRaises(ValueError, self.peers, site, peers, listen)

    def test_wrong_files(self):
        certificate, key = self.given[0]
        for files in ((None, certificate, key), (self.authority.certificate, certificate, None)):
            self.assertRaises(ValueError, Peers, 0, {}, None, *files)
        for files, said in (((self.folder / "none", certificate, key), "none"), ((key, certificate, key), "authority .*key"),
                            ((self.authority.certificate, self.folder / "none", key), "certificate .*none"),
                            ((self.authority.certificate, self.given[1][0], key), "certificate .*site-1.zinduroi.pem and key")):
            with self.assertRaisesRegex(OSError, said):
                Peers(0, {}, None, *files)
        other = Authority(self.folder / "third")
        with self.assertRaisesRegex(ValueError, "issuer"):
            self.peers(0, {}, authority=other)
        locked = self.folder / "locked.key"
        subprocess.run(["openssl", "ec", "-in", key, "-aes128", "-passout", "pass:secret", "-out", locked], check=True, capture_output=True)
        self.assertRaises(OSError, Peers, 0, {}, None, self.authority.certificate, certificate, locked)
        # A certificate of another site.
        with self.assertRaisesRegex(ValueError, "site-0.zinduroi"):
            self.peers(0, {}, given=self.given[1])
        with self.assertRaisesRegex(ValueError, "site-0.payroll.zinduroi"):
            self.peers(0, {}, group="payroll")
        with self.assertRaises(ValueError):
            self.peers(0, {}, given=self.authority.give("two", "site-0.zinduroi", "site-1.zinduroi"))

    def test_a_port_in_use(self):
        first = self.peers(0, {1: None}, "127.0.0.1:0")
        self.assertRaises(OSError, self.peers, 1, {0: None}, f"127.0.0.1:{first.port}")

    def test_addresses(self):
        self.assertEqual(parse_address("a.example:7"), ("a.example", 7))
        self.assertEqual(parse_address("[::1]:65535"), ("::1", 65_535))
        for wrong in ("", ":1", "a", "a:", "a:-1", "::1:7", "[::1]", "a b:1", "a:1:2", "a:1\n"):
            self.assertRaises(ValueError, parse_address, wrong)

    def test_patience(self):
        """The first question waits for peers that have an address, and no longer than it was told."""
        began = time.monotonic()
        alone = self.peers(0, {1: f"127.0.0.1:{free_ports(1)[0]}"})
        self.assertEqual(list(alone.messages()), [])
        self.assertGreater(time.monotonic() - began, 0.4)
        self.assertTrue(wait_for(lambda: alone.failures()["Unreachable"] > 1))

    def test_no_connection_came_to_be(self):
        """Whatever the cause, as a host that does not answer: only a connection can be silent."""
        for cause in (TimeoutError(), TimeoutError(errno.ETIMEDOUT, "timed out"), ConnectionResetError(), ConnectionAbortedError(),
                      OSError(errno.EHOSTUNREACH, "no route")):
            with self.subTest(cause=repr(cause)), unittest.mock.patch("zinduroi.peers.connected", side_effect=cause):
                alone = self.peers(0, {1: "127.0.0.1:1"})
                self.assertTrue(wait_for(lambda: alone.failures().total() > 1))
                self.assertEqual((set(alone.failures()), alone.states()[0].failure), ({"Unreachable"}, "Unreachable"))
                alone.close()

    def test_pauses_between_attempts(self):
        """They double from the first one on, and begin anew behind a connection that lasted."""
        pauses, now, lasts = [], [0.0], [0.0] * 4 + [1.0] + [0.0] * 2

        async def sleep(pause):
            pauses.append(round(pause, 3))
            if not lasts:
                raise asyncio.CancelledError

        async def connect(*words):
            now[0] += lasts.pop(0)
        peers = types.SimpleNamespace(timing=QUICK, _links={}, _connect=connect)
        with unittest.mock.patch("zinduroi.peers.asyncio.sleep", sleep), unittest.mock.patch("zinduroi.peers.random.uniform", return_value=1.0), \
                unittest.mock.patch("zinduroi.peers.time.monotonic", lambda: now[0]), self.assertRaises(asyncio.CancelledError):
            Peers._dial(peers, 1, "127.0.0.1", 1).send(None)
        self.assertEqual(pauses, [0.02, 0.04, 0.08, 0.16, 0.02, 0.04, 0.08])

    def test_a_host_name_that_is_none(self):
        alone = self.peers(0, {1: "x" * 70 + ".example:1", 2: "a..b:1"})
        self.assertTrue(wait_for(lambda: all(state.failure == "Unreachable" for state in alone.states())), alone.states())
        self.assertEqual(alone.failures()["Unexpected"], 0)


class Plain(unittest.TestCase):
    """Without certificates."""

    def test_on_loopback(self):
        with Peers(0, {1: None}, "127.0.0.1:0", plain=True, timing=QUICK) as first, \
                Peers(1, {0: f"127.0.0.1:{first.port}"}, plain=True, timing=QUICK) as second:
            first.publish(0, "one")
            inbox = Inbox(second)
            self.assertTrue(wait_for(lambda: inbox.has("one")))
            second.publish(1, "two")
            inbox = Inbox(first)
            self.assertTrue(wait_for(lambda: inbox.has("two")))

    def test_never_reads(self):
        with Peers(0, {1: None}, "127.0.0.1:0", plain=True, timing=QUICK) as first, \
                socket.create_connection(("127.0.0.1", first.port), 5) as stalled:
            stalled.sendall(hello_line(Hello(1, 1, 1)))
            self.assertTrue(wait_for(lambda: first.states()[0].connected is not None))
            end, number = time.monotonic() + 20, 0
            while first.failures()["Stalled"] == 0 and time.monotonic() < end:
                with contextlib.suppress(OSError):
                    stalled.sendall(b"alive\n")
                first.publish(0, f"{number} " + "x" * 2_000_000)
                number += 1
                time.sleep(0.1)
            self.assertGreater(first.failures()["Stalled"], 0, first.failures())

    def test_refused_elsewhere(self):
        for peers, listen in (({}, "0.0.0.0:0"), ({}, "[::]:0"), ({1: "192.0.2.1:7"}, None), ({1: "localhost:7"}, None), ({}, "localhost:0"),
                              ({1: "127.0.0.1:7", 2: "10.0.0.1:7"}, None)):
            with self.subTest(peers=peers, listen=listen):
                self.assertRaises(ValueError, Peers, 0, peers, listen, plain=True)
        self.assertRaises(ValueError, Peers, 0, {}, "127.0.0.1:0")
        self.assertRaises(ValueError, Peers, 0, {}, "127.0.0.1:0", "a.pem", "b.pem", "c.key", plain=True)


@unittest.skipUnless(OPENSSL, "there is no openssl")
class Exchanges(Case):
    """Sites of the real program, with their exchanges over `Peers`."""

    def setUp(self):
        super().setUp()
        self.authority = Authority(self.folder / "ours")

    def peers(self, site, peers, listen=None):
        return Peers(site, peers, listen, self.authority.certificate, *self.authority.give(f"site-{site}.zinduroi"), timing=QUICK)

    def test_a_writer_over_a_relay(self):
        """Site 1 is connected to sites 0 and 2, and these not to each other."""
        sites = [self.open(site) for site in range(3)]
        one = self.peers(1, {0: None, 2: None}, "127.0.0.1:0")
        to_one = f"127.0.0.1:{one.port}"
        others = [self.peers(site, {1: Peer(to_one, {2 - site}), 2 - site: None}) for site in (0, 2)]
        with Exchange(sites[1], one, 0.2), Exchange(sites[0], others[0], 0.2), Exchange(sites[2], others[1], 0.2) as last:
            for site in (0, 2):
                with sites[site].write("a", 9, timeout=60):
                    self.assertEqual([sites[other].show("a").inside for other in range(3)], [3 if other == site else 0 for other in range(3)])
            self.assertTrue(wait_for(lambda: last.tally().took > 0))
            self.assertEqual(last.tally().refused, {})

    def test_an_older_store_is_found_at_the_start(self):
        """Site 0 takes back its own last text from site 1, before its callers begin."""
        sites = [self.open(site) for site in range(2)]
        one = self.peers(1, {0: None}, "127.0.0.1:0")
        with Exchange(sites[1], one, 0.1) as other:
            with Exchange(sites[0], self.peers(0, {1: f"127.0.0.1:{one.port}"}), 0.1):
                self.assertTrue(wait_for(lambda: sites[1].show("a").rights > 0))
            old = self.open(0, store=self.folder / "old.db")
            exchange = Exchange(old, self.peers(0, {1: f"127.0.0.1:{one.port}"}), 0.1)
            self.addCleanup(exchange.close)
            self.assertRaises(zinduroi.OwnRowAhead, exchange.start)
            self.assertIsNone(other.failure)


class Printed(unittest.TestCase):
    """The commands that docs/OPERATING.md prints."""

    @unittest.skipUnless(OPENSSL, "there is no openssl")
    def test_three_commands_make_a_certificate(self):
        text = (PACKAGE.parent.parent / "docs" / "OPERATING.md").read_text(encoding="utf-8")
        commands = [line.strip() for line in text.split("\n") if line.startswith(("    openssl ", "    echo \"subjectAltName"))]
        self.assertEqual(len(commands), 3)
        with tempfile.TemporaryDirectory() as folder:
            for command in commands:
                subprocess.run(["sh", "-c", command], cwd=folder, check=True, capture_output=True)
            self.assertEqual(os.stat(f"{folder}/site-1.key").st_mode & 0o077, 0)
            with Peers(1, {0: None}, "127.0.0.1:0", f"{folder}/authority.pem", f"{folder}/site-1.pem", f"{folder}/site-1.key") as made:
                self.assertEqual(made.failures(), {})


class Names(unittest.TestCase):
    """The names in certificates."""

    def test_site_in(self):
        for names, group, site in ((["site-2.zinduroi"], None, 2), (["site-2.zinduroi", "host.example"], None, 2), (["site-2.zinduroi"], "g", None),
                                   (["site-2.g.zinduroi"], "g", 2), (["site-2.g.zinduroi"], None, None), (["*.zinduroi"], None, None), ([], None, None),
                                   (["site-1.zinduroi", "site-2.zinduroi"], None, None), (["site-15.zinduroi"], None, 15), (["SITE-2.zinduroi"], None, None)):
            certificate = {"subjectAltName": tuple(("DNS", name) for name in names)}
            self.assertEqual(site_in(certificate, group), site, json.dumps(names))
        self.assertIsNone(site_in({}, None))
        self.assertIsNone(site_in({"subjectAltName": (("IP Address", "site-1.zinduroi"),), "subject": ((("commonName", "site-1.zinduroi"),),)}, None))


if __name__ == "__main__":
    unittest.main()
