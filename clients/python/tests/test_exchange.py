"""Exchanges, over each transport; and the command `watch`."""
import asyncio
import contextlib
import io
import json
import os
import shutil
import subprocess
import sys
import threading
import time
import unittest
import unittest.mock

import zinduroi
from zinduroi import Command, Counts, Exchange, Folder, Mqtt, TransportFailed
from zinduroi.exchange import status_of
from zinduroi.node.config import read_config
from zinduroi.node.server import Node
from zinduroi.service import Call
from zinduroi.watch import main

from .common import PACKAGE, PROGRAM, Broker, Case, marked, wait_for


class Listed:
    """A transport whose texts are lists: what was published, and what is to arrive."""

    def __init__(self):
        self.published, self.arriving, self.broken = [], [], False

    def publish(self, site, text):
        if self.broken:
            raise TransportFailed("broken")
        self.published.append((site, text))

    def messages(self):
        if self.broken:
            raise OSError("broken")
        texts, self.arriving = self.arriving, []
        return texts


class Rounds(Case):
    """Rounds one by one."""

    def setUp(self):
        super().setUp()
        self.site = self.open()
        self.listed = Listed()
        self.exchange = Exchange(self.site, self.listed, every=4, records=["a"])

    def test_sends_what_is_new_and_every_kth_time_anyway(self):
        self.exchange.round()
        # Of three seats one is an even share, so two go to the next site before the first text is sent.
        self.assertEqual(self.site.show("a"), Counts(1, 0, 0))
        self.assertEqual(self.listed.published, [(0, self.site.send())])
        for rounds, sent in ((1, 1), (2, 1), (3, 1), (4, 2), (7, 2), (8, 3)):
            while self.exchange.tally().rounds < rounds + 1:
                self.exchange.round()
            self.assertEqual(len(self.listed.published), sent)
        self.site.call("read a 7")
        self.exchange.round()
        self.assertEqual(len(self.listed.published), 4)
        tally = self.exchange.tally()
        self.assertEqual((tally.sent, tally.gave, tally.seats, tally.took), (4, 1, 2, 0))

    def test_tries_again_after_a_failure(self):
        self.listed.broken = True
        self.exchange.round()
        self.exchange.round()
        self.assertEqual(self.exchange.tally().failed, {"OSError": 2, "TransportFailed": 2})
        self.listed.broken = False
        self.exchange.round()
        self.assertEqual(len(self.listed.published), 1)

    def test_tells_what_the_last_failure_said(self):
        self.assertIsNone(self.exchange.tally().failed_text)
        for said, told in (("no connection", "TransportFailed: no connection"), ("x" * 10_000, "TransportFailed: " + "x" * 183)):
            with unittest.mock.patch.object(self.listed, "publish", side_effect=TransportFailed(said)):
                self.exchange.round()
            self.assertEqual(self.exchange.tally().failed_text, told)

    def test_goes_on_behind_any_failure(self):
        """As where no thread can be started."""
        def fails(*words):
            raise RuntimeError("can't start new thread")
        self.listed.publish = self.listed.messages = fails
        self.exchange.round()
        self.assertEqual(self.exchange.tally().failed, {"RuntimeError": 2})

    def test_counts_what_is_refused(self):
        row = '{"from":1,"rows":[{"ann":0,"fin":0,"out":%s,"r":%d,"s":1,"taken":0}],"v":1}'
        rows = [row % ("[0,0,0]", 5), row % ("[0,9,0]", 0), row % ("[3,0,0]", 0)]
        self.listed.arriving = ["", "{}", marked("{\n}\n") + "\n", marked("{}"), marked("x y"), *map(marked, rows), marked(rows[0], "crew"),
                                marked(rows[0], records=";a,3,0,2"), self.site.send() + "\n"]
        self.exchange.round()
        tally = self.exchange.tally()
        self.assertEqual(tally.refused, {"NoMark": 2, "Damaged": 1, "NotCanonical": 1, "NotJson": 1, "OtherLayout": 1, "BadRow": 1,
                                         "TooManySeats": 1, "WrongGroup": 1, "OtherRecords": 1})
        self.assertEqual((tally.took, tally.rose), (1, 0))

    def test_counts_what_a_plain_site_refuses(self):
        plain = self.open(1, plain=True)
        self.listed.arriving = [self.site.send(), "{\n}\n", "x\ny", self.open(2, plain=True).send()]
        exchange = Exchange(plain, self.listed, records=["a"])
        exchange.round()
        self.assertEqual(exchange.tally().refused, {"NotJson": 2, "NotCanonical": 1})
        self.assertEqual(exchange.tally().took, 1)

    def test_a_text_for_which_there_was_no_memory(self):
        """Its site may send no more, and a folder doesn't tell of it again."""
        other, take, full = self.open(1), self.site.take, [True, True]
        other.take(self.site.send())
        other.give("b", 0, 1)

        def take_or_not(text):
            if full:
                full.pop()
                raise zinduroi.Memory("Memory")
            return take(text)
        self.site.take = take_or_not
        self.listed.arriving = [other.send()]
        for rights in (0, 0, 1):
            self.exchange.round()
            self.assertEqual(self.site.show("b").rights, rights)
        self.assertEqual((self.exchange.tally().took, self.exchange.tally().refused), (1, {"Memory": 2}))

    def test_need_not_help(self):
        self.exchange.helps = False
        self.exchange.round()
        self.assertEqual(self.site.show("a"), Counts(3, 0, 0))
        self.assertEqual(len(self.listed.published), 1)

    def test_does_not_take_what_it_has_just_sent(self):
        self.exchange.round()
        self.listed.arriving = [self.listed.published[0][1]]
        self.exchange.round()
        self.assertEqual(self.exchange.tally().took, 0)

    def test_an_older_store_is_found_when_the_exchange_starts(self):
        self.exchange.round()
        self.listed.arriving = [self.listed.published[0][1]]
        old = self.open(store=self.folder / "old.db")
        with self.assertRaises(zinduroi.OwnRowAhead):
            Exchange(old, self.listed, records=["a"]).start()


class Starts(Case):
    """How an exchange starts, and what wakes it."""

    def test_a_folder_that_is_not_there(self):
        site, folder = self.open(), self.folder / "none"
        exchange = Exchange(site, Folder(folder), 0.05, records=["a"])
        self.assertRaises(FileNotFoundError, exchange.start)
        with self.assertRaises(FileNotFoundError):
            with exchange:
                self.fail("there is no folder")
        with self.assertRaises(NotADirectoryError):
            Exchange(site, Folder(self.layout), records=["a"]).start()
        folder.mkdir()
        with exchange:
            self.assertTrue(wait_for(lambda: exchange.tally().sent > 0))
            folder.rename(self.folder / "gone")
            self.assertTrue(wait_for(lambda: exchange.tally().failed["FileNotFoundError"] > 2))
            (self.folder / "gone").rename(folder)
            sent = exchange.tally().sent
            self.assertTrue(wait_for(lambda: exchange.tally().sent > sent))

    def test_what_wakes_it(self):
        """Rounds are ten minutes apart, so each other one comes because a caller changed something."""
        site, listed = self.open(), Listed()
        calls = [lambda: site.give("a", 1, 1), lambda: site.help("a"), lambda: site.announce("a", 9), lambda: site.leave("a", 9)]
        with Exchange(site, listed, 600, records=[]) as exchange:
            self.assertTrue(wait_for(lambda: exchange.tally().sent == 1))
            for sent, call in enumerate(calls, 2):
                call()
                self.assertTrue(wait_for(lambda: exchange.tally().sent == sent), sent)

    def test_its_own_help_does_not_wake_it(self):
        site = self.open()
        with Exchange(site, Listed(), 600) as exchange:
            self.assertTrue(wait_for(lambda: exchange.tally().sent == 1))
            time.sleep(0.5)
            tally = exchange.tally()
        self.assertEqual((tally.rounds, tally.gave), (1, 1))

    def test_seats_and_sessions_of_a_state_agree(self):
        site, stop, wrong = self.open(), threading.Event(), []

        def visit():
            while not stop.is_set():
                with site.read("a", 7):
                    pass

        visitor = threading.Thread(target=visit)
        visitor.start()
        for _ in range(300):
            counts = status_of(site, ["a"])["records"]["a"]
            if counts["rights"] + counts["inside"] != 3 or counts["inside"] != len(counts["sessions"]):
                wrong.append(counts)
        stop.set()
        visitor.join()
        self.assertEqual(wrong, [])


class Threads(Case):
    """Three sites with an exchange each."""

    def run_sites(self, transports, interval=0.05):
        sites = [self.open(number) for number in range(3)]
        with contextlib.ExitStack() as stack:
            exchanges = [stack.enter_context(Exchange(site, transport, interval)) for site, transport in zip(sites, transports)]
            self.hand_over(sites)
            tallies = [exchange.tally() for exchange in exchanges]
        for tally in tallies:
            self.assertGreater(tally.sent, 0)
            self.assertGreater(tally.took, 0)
            self.assertEqual(tally.refused, {})
        return tallies

    def hand_over(self, sites):
        """Readers at all sites, then a writer that is alone."""
        with sites[0].read("a", 1, timeout=60), sites[1].read("a", 1, timeout=60):
            with self.assertRaises(zinduroi.TimedOut):
                with sites[2].write("a", 2, timeout=0.5):
                    self.fail("readers are inside")
        with sites[2].write("a", 2, timeout=120):
            self.assertEqual(sites[2].show("a"), Counts(0, 3, 1))
            for site in sites[:2]:
                with self.assertRaises(zinduroi.Refused):
                    with site.read("a", 1):
                        self.fail("a writer is inside")
        # The writer's seats spread again, one to each site.
        self.assertTrue(wait_for(lambda: all(site.show("a").rights == 1 for site in sites)))
        with sites[0].read("a", 1, timeout=60), sites[1].read("a", 1, timeout=60), sites[2].read("a", 1, timeout=60):
            pass

    def test_folder(self):
        tallies = self.run_sites([Folder(self.folder) for _ in range(3)])
        self.assertEqual([tally.failed for tally in tallies], [{}, {}, {}])
        self.assertEqual(sorted(path.name for path in self.folder.iterdir() if "delta" in path.name or "part" in path.name),
                         ["0.delta", "1.delta", "2.delta"])

    def test_commands(self):
        (self.folder / "texts").mkdir()
        publish = f"cat > {self.folder}/$ZINDUROI_SITE.new && mv {self.folder}/$ZINDUROI_SITE.new {self.folder}/texts/$ZINDUROI_SITE"
        tallies = self.run_sites([Command(publish, f"cat {self.folder}/texts/*") for _ in range(3)])
        self.assertLessEqual(set(tallies[0].failed), {"TransportFailed"})

    def test_mqtt(self):
        broker = self.broker()
        self.run_sites([Mqtt("test", "127.0.0.1", broker.port) for _ in range(3)], interval=0.5)

    def broker(self):
        if Broker.program() is None or shutil.which("mosquitto_pub") is None:
            self.skipTest("mosquitto and mosquitto-clients are not installed")
        broker = Broker(self.folder)
        self.assertTrue(broker.start())
        self.addCleanup(broker.stop)
        return broker

    def test_mqtt_keeps_to_its_interval(self):
        """Readers that come and go change what a site knows all the time; their own texts come back, and wake nobody."""
        broker = self.broker()
        sites = [self.open(number) for number in range(2)]
        stop = threading.Event()

        def read(site):
            while not stop.is_set():
                with contextlib.suppress(zinduroi.Refused):
                    with site.read("a", 1):
                        pass

        with contextlib.ExitStack() as stack:
            exchanges = [stack.enter_context(Exchange(site, Mqtt("test", "127.0.0.1", broker.port), 2.0)) for site in sites]
            threads = [threading.Thread(target=read, args=(site,)) for site in sites]
            for thread in threads:
                thread.start()
            self.assertTrue(wait_for(lambda: all(sum(site.show("a")[:2]) > 0 for site in sites)))
            before = [exchange.tally() for exchange in exchanges]
            time.sleep(9)
            after = [exchange.tally() for exchange in exchanges]
            stop.set()
            for thread in threads:
                thread.join()
        for early, late in zip(before, after):
            self.assertLessEqual(late.rounds - early.rounds, 6)
            self.assertLessEqual(late.sent - early.sent, 6 + late.gave - early.gave)
            self.assertGreaterEqual(late.sent - early.sent, 2)

    def test_a_broker_that_goes_away(self):
        broker = self.broker()
        here, there = self.open(0), self.open(1)
        with Exchange(here, Mqtt("g", "127.0.0.1", broker.port), 0.2, every=3) as first:
            self.assertTrue(wait_for(lambda: first.tally().sent > 0))
            broker.stop()
            self.assertTrue(wait_for(lambda: first.tally().failed["TransportFailed"] > 1))
            with Exchange(there, Mqtt("g", "127.0.0.1", broker.port), 0.2):
                here.give("a", 1, 1)
                self.assertEqual(there.show("a").rights, 0)
                broker.start()
                self.assertTrue(wait_for(lambda: there.show("a").rights > 0))

    def test_a_service_that_is_killed(self):
        site = self.open()
        with Exchange(site, Folder(self.folder), 0.05) as exchange:
            self.assertTrue(wait_for(lambda: exchange.tally().sent > 0))
            os.kill(site.pid, 9)
            self.assertTrue(wait_for(lambda: isinstance(exchange.failure, zinduroi.ServiceEnded)))
            site.reopen(wait=10)
            self.assertTrue(wait_for(lambda: exchange.failure is None))
            site.give("a", 2, 1)
            text = site.send()
            self.assertTrue(wait_for(lambda: (self.folder / "0.delta").read_text(encoding="utf-8") == text + "\n"))

    def test_a_round_that_is_refused(self):
        """`failure` says so, until a round is finished."""
        site, refused = self.open(), threading.Event()
        refused.set()
        send, site.send = site.send, lambda: site._answers(Call(b"reed\n"))[0] if refused.is_set() else send()
        with Exchange(site, Folder(self.folder), 0.05) as exchange:
            self.assertTrue(wait_for(lambda: isinstance(exchange.failure, zinduroi.BadWord)))
            refused.clear()
            self.assertTrue(wait_for(lambda: exchange.failure is None and exchange.tally().sent > 0))

    def test_a_text_that_arrives_while_the_service_is_down(self):
        """It is taken behind that, though the folder's file stays the same."""
        site, other = self.open(), self.open(1)
        exchange = Exchange(site, Folder(self.folder), records=["a"])
        other.give("b", 0, 1)
        Folder(self.folder).publish(1, other.send())
        os.kill(site.pid, 9)
        self.assertRaises(zinduroi.ServiceEnded, exchange.round)
        self.assertRaises(zinduroi.ServiceEnded, exchange.round)
        site.reopen(wait=10)
        exchange.round()
        self.assertEqual((site.show("b").rights, exchange.tally().took), (1, 1))

    def test_goes_on_behind_a_fault(self):
        """As where this process has no memory for a text."""
        site, listed, faults = self.open(), Listed(), [MemoryError("full")]
        send = site.send

        def send_or_not():
            if faults:
                raise faults[0]
            return send()
        site.send = send_or_not
        with Exchange(site, listed, interval=0.05, records=["a"]) as exchange:
            self.assertTrue(wait_for(lambda: exchange.why_failing() == "MemoryError: full"))
            faults.clear()
            self.assertTrue(wait_for(lambda: listed.published and exchange.why_failing() is None))
            self.assertGreater(exchange.tally().failed["MemoryError"], 0)

    def test_a_transport_that_hangs(self):
        site, listed, go = self.open(), Listed(), threading.Event()
        messages = listed.messages

        def messages_late():
            if listed.published:
                go.wait(60)
            return messages()
        listed.messages = messages_late
        exchange = Exchange(site, listed, interval=0.05, records=["a"]).start()
        with unittest.mock.patch("zinduroi.exchange.LONG", 0.3):
            self.assertTrue(wait_for(lambda: exchange.why_failing() is not None, 10))
            self.assertRegex(exchange.why_failing(), "^a round lasts for [0-9]+ seconds$")
        self.assertFalse(exchange.close(0.1))
        go.set()
        self.assertTrue(exchange.close())
        self.assertIsNone(exchange.why_failing())

    def test_a_site_that_freezes(self):
        site = self.open()
        other = self.open(store=self.folder / "twice.db")
        other.give("a", 1, 3)
        with Exchange(site, Folder(self.folder), 0.05) as exchange:
            (self.folder / "1.delta").write_text(other.send(), encoding="utf-8")
            self.assertTrue(wait_for(lambda: isinstance(exchange.failure, zinduroi.OwnRowAhead)))

    def test_callers_come_between_the_lines_of_a_round(self):
        names = [f"r{number}" for number in range(256)]
        layout = self.write_layout("wide.toml", 16, *((name, 65535, 0, 2) for name in names))
        site = self.open(store=self.folder / "wide.db", layout=layout)
        between = set()
        with Exchange(site, Folder(self.folder), 0.01) as exchange:
            self.assertEqual(len(exchange.records), 256)
            while exchange.tally().gave < 100:
                site.show("r0")
                between.add(exchange.tally().gave)
        # In a round that was one call there would be no answer between its first gift and its last.
        self.assertGreater(len([gave for gave in between if 0 < gave < 256]), 5)


def runs(pid):
    """Whether there is a process of this number."""
    try:
        os.kill(pid, 0)
    except ProcessLookupError:
        return False
    return True


class Nodes(Case):
    """The end of a node whose program hangs, as at a disk that does, once it was asked whether it answers: in the exchange's last round,
    or at its own end."""

    def end(self, hangs):
        """What a node says at its end; fails if that does not come. The program is a script which passes the lines on, and `hangs`."""
        program, folder = self.folder / "program", self.folder / "deltas"
        program.write_text(f'''#!/bin/sh
[ "$1" = serve ] || exec {PROGRAM} "$@"
hangs() {{ if [ "$1" = {hangs} ] && [ -e {self.folder}/hang ]; then sleep 600; fi; }}
{{ while IFS= read -r line; do hangs "${{line%% *}}"; printf "%s\\n" "$line"; done; hangs end; }} | {PROGRAM} "$@"
''', encoding="utf-8")
        program.chmod(0o755)
        folder.mkdir()
        config = self.folder / "0.toml"
        config.write_text(f'site = 0\nstore = "0.db"\nlayout = "layout.toml"\nprogram = "{program}"\n[socket]\npath = "0.sock"\n'
                          '[exchange]\ninterval = 600\n[[transport]]\nkind = "folder"\npath = "deltas"\n', encoding="utf-8")
        text = self.open(1).send()

        async def work():
            node = Node(read_config(config))
            running = asyncio.create_task(node.run(True))
            while not ((folder / "0.delta").exists() and config.with_suffix(".sock").exists()):
                self.assertFalse(running.done())
                await asyncio.sleep(0.05)
            (self.folder / "hang").touch()
            Folder(folder).publish(1, text)
            node.stop()
            await asyncio.wait((running,), timeout=20)
            ended = running.done()
            node._site.kill()
            await running
            return ended

        with unittest.mock.patch.multiple("zinduroi.node.server", LAST_ANSWERS=1.0, LAST_ROUND=2.0), \
                unittest.mock.patch("zinduroi.node.server.report") as report:
            self.assertTrue(asyncio.run(work()), "the node does not end")
        return [call.args[0].partition(",")[0] for call in report.call_args_list][1:]

    def test_in_the_last_round(self):
        self.assertEqual(self.end("take"), ["the program does not answer"])

    def test_at_its_own_end(self):
        self.assertEqual(self.end("end"), ["the program does not answer"])

    def test_not_at_all(self):
        self.assertEqual(self.end("never"), [])


class Transports(Case):
    """Transports by themselves."""

    def test_folder(self):
        folder = Folder(self.folder)
        self.assertEqual(list(folder.messages()), [])
        folder.publish(2, "x")
        (self.folder / "no.delta").write_text("y", encoding="utf-8")
        (self.folder / "3.delta").write_bytes(b"\xff\n")
        self.assertEqual(list(folder.messages()), ["x\n", "\ufffd\n"])
        self.assertEqual(list(folder.messages()), [])
        Folder(self.folder).publish(2, "x")
        self.assertEqual(list(folder.messages()), ["x\n"])
        with self.assertRaises(OSError):
            Folder(self.folder / "none").publish(0, "x")
        with self.assertRaises(OSError):
            Folder(self.folder / "none").messages()

    def test_folder_with_a_file_that_can_not_be_read(self):
        """The texts of the others are told, and none of them is lost."""
        folder = Folder(self.folder)
        folder.publish(0, "x")
        (self.folder / "1.delta").mkdir()
        folder.publish(2, "y")
        self.assertEqual(list(folder.messages()), ["x\n", "y\n"])
        self.assertRaises(IsADirectoryError, folder.messages)
        folder.publish(2, "z")
        self.assertEqual(list(folder.messages()), ["z\n"])
        self.assertRaises(IsADirectoryError, folder.messages)
        (self.folder / "1.delta").rmdir()
        self.assertEqual(list(folder.messages()), [])

    def test_command(self):
        command = Command(f"cat > {self.folder}/$ZINDUROI_SITE", f"cat {self.folder}/1", timeout=1)
        with self.assertRaises(TransportFailed):
            command.messages()
        command.publish(1, "x")
        self.assertEqual(command.messages(), ["x"])
        with self.assertRaises(TransportFailed) as caught:
            Command("echo no >&2; exit 3", "sleep 60", timeout=0.3).publish(0, "x")
        self.assertIn("no", str(caught.exception))
        before = time.monotonic()
        with self.assertRaises(TransportFailed):
            Command("", "sleep 60; true", timeout=0.3).messages()
        self.assertLess(time.monotonic() - before, 30)

    def test_command_that_leaves_a_process(self):
        """One that has the command's output, and is in no group of it, as a connection that `ssh` keeps: nobody waits for its end."""
        left = Command("setsid sleep 15 &", "setsid sleep 15 & echo x", timeout=0.5)
        began = time.monotonic()
        for call in (lambda: left.publish(1, "text"), left.messages):
            self.assertRaises(TransportFailed, call)
        self.assertLess(time.monotonic() - began, 10)

    def test_mqtt_with_large_and_odd_texts(self):
        if Broker.program() is None or shutil.which("mosquitto_pub") is None:
            self.skipTest("mosquitto and mosquitto-clients are not installed")
        broker = Broker(self.folder)
        self.assertTrue(broker.start())
        self.addCleanup(broker.stop)
        mine, theirs = Mqtt("g1", "127.0.0.1", broker.port), Mqtt("g1", "127.0.0.1", broker.port)
        self.addCleanup(mine.close)
        self.addCleanup(theirs.close)
        other = Mqtt("g2", "127.0.0.1", broker.port)
        self.addCleanup(other.close)
        mine.publish(0, "old")
        mine.publish(0, "x" * 2_097_152)
        mine.publish(15, '{"v":1} %t')
        found = []
        self.assertTrue(wait_for(lambda: found.extend(theirs.messages()) or len(found) == 2))
        self.assertEqual(sorted(map(len, found)), [10, 2_097_152])
        self.assertIn('{"v":1} %t', found)
        self.assertEqual(list(other.messages()), [])
        for bad in ("", "a b", "a/b", "+", "#"):
            with self.assertRaises(ValueError):
                Mqtt(bad)

    def test_mqtt_leaves_no_process(self):
        broker = Broker(self.folder)
        if Broker.program() is None or shutil.which("mosquitto_sub") is None:
            self.skipTest("mosquitto and mosquitto-clients are not installed")
        self.assertTrue(broker.start())
        self.addCleanup(broker.stop)
        # A command of this name that writes down its number, and becomes the real one.
        noted, pid = self.folder / "bin/mosquitto_sub", self.folder / "pid"
        noted.parent.mkdir()
        noted.write_text(f'#!/bin/sh\necho $$ > {pid}.new && mv {pid}.new {pid}\nexec {shutil.which("mosquitto_sub")} "$@"\n', encoding="utf-8")
        noted.chmod(0o755)
        script = ("import sys, time; from zinduroi import Mqtt; mqtt = Mqtt('left', '127.0.0.1', int(sys.argv[1])); mqtt.messages()\n"
                  "print('started', flush=True); time.sleep(600)")
        process = subprocess.Popen([sys.executable, "-c", script, str(broker.port)], cwd=PACKAGE, stdout=subprocess.PIPE, text=True,
                                   env={**os.environ, "PATH": f"{noted.parent}:{os.environ['PATH']}"})
        self.assertEqual(process.stdout.readline(), "started\n")
        self.assertTrue(wait_for(pid.exists))
        number = int(pid.read_text(encoding="utf-8"))
        self.assertTrue(runs(number))
        process.kill()
        process.communicate()
        self.assertTrue(wait_for(lambda: not runs(number)))

    def test_mqtt_whose_shell_was_killed(self):
        """A command of the name `mosquitto_sub`, which nobody ends any more, still has the output."""
        lasting, pid = self.folder / "bin/mosquitto_sub", self.folder / "pid"
        lasting.parent.mkdir()
        lasting.write_text(f"#!/bin/sh\necho $$ > {pid}.new && mv {pid}.new {pid}\nexec sleep 600\n", encoding="utf-8")
        lasting.chmod(0o755)
        with unittest.mock.patch.dict(os.environ, PATH=f"{lasting.parent}:{os.environ['PATH']}"):
            mqtt = Mqtt("g")
            self.assertEqual(list(mqtt.messages()), [])
            self.assertTrue(wait_for(pid.exists))
        number = int(pid.read_text(encoding="utf-8"))
        self.addCleanup(lambda: runs(number) and os.kill(number, 9))
        os.kill(mqtt._process.pid, 9)
        closing = threading.Thread(target=mqtt.close, daemon=True)
        closing.start()
        closing.join(15)
        self.assertEqual((closing.is_alive(), wait_for(lambda: not runs(number), 10)), (False, True))

    def test_mqtt_without_a_broker(self):
        broker = Broker(self.folder)
        mqtt = Mqtt("g", "127.0.0.1", broker.port)
        self.addCleanup(mqtt.close)
        if shutil.which("mosquitto_pub") is None:
            self.skipTest("mosquitto-clients is not installed")
        with self.assertRaises(TransportFailed):
            mqtt.publish(0, "x")
        with self.assertRaises(TransportFailed):
            wait_for(lambda: mqtt.messages() and False, 5)


class Watch(Case):
    """`python -m zinduroi watch`"""

    def watch(self, *words):
        output, errors = io.StringIO(), io.StringIO()
        with contextlib.redirect_stdout(output), contextlib.redirect_stderr(errors):
            try:
                status = main(["watch", "--once", *map(str, words)])
            except SystemExit as ended:
                status = ended.code
        return status, output.getvalue(), errors.getvalue()

    def test_files_of_exchanges(self):
        sites = [self.open(0), self.open(1)]
        files = [self.folder / f"{number}.status" for number in range(2)]
        sites[0].call("read a 7")
        sites[0].announce("a", 8)
        with contextlib.ExitStack() as stack:
            for site, file in zip(sites, files):
                stack.enter_context(Exchange(site, Listed(), 0.1, records=["a", "b"], status=file))
            self.assertTrue(wait_for(lambda: all(file.exists() for file in files)))
        status, output, errors = self.watch("--status", *files)
        self.assertEqual((status, errors), (0, ""))
        rows = [line.split(None, 7) for line in output.splitlines()]
        self.assertEqual(rows[0], ["record", "site", "free", "taken", "writers", "age", "sessions"])
        self.assertEqual([row[:5] for row in rows[1:]],
                         [["a", "0", "2", "1", "1"], ["a", "1", "0", "0", "0"], ["b", "0", "0", "0", "0"], ["b", "1", "2", "0", "0"]])
        self.assertEqual(rows[1][7], "7 reader, 8 waiting")
        self.assertEqual(json.loads(files[1].read_text(encoding="utf-8"))["exchange"]["gave"], 1)
        (self.folder / "bad.status").write_text("{}", encoding="utf-8")
        status, output, errors = self.watch("--status", files[0], self.folder / "bad.status", self.folder / "none.status")
        self.assertEqual(status, 1)
        self.assertIn("bad.status: not a state", output)
        self.assertIn("none.status: No such file", output)

    def test_store(self):
        site = self.open()
        site.call("read a 7")
        words = ["--site", 0, "--store", self.folder / "0.db", "--layout", self.layout, "--program", PROGRAM]
        self.assertEqual(self.watch(*words), (1, "", "zinduroi: store refused InUse\n"))
        site.close()
        status, output, _ = self.watch(*words)
        self.assertEqual(status, 0)
        self.assertEqual([line.split()[:5] for line in output.splitlines()[1:]], [["a", "0", "2", "1", "0"], ["b", "0", "0", "0", "0"]])
        wide = self.write_layout("wide.toml", 4, ("a", 3, 0, 2), ("b", 4, 1, 1))
        self.assertEqual(self.watch(*words, "--layout", wide), (1, "", "zinduroi: store refused WrongLayout\n"))
        self.assertEqual(self.watch(*words)[0], 0)
        self.assertEqual(self.watch(*words, "--store", self.folder / "none.db"), (1, "", "zinduroi: store refused NoStore\n"))
        self.assertFalse((self.folder / "none.db").exists())
        self.assertEqual(self.watch("--site", 0)[0], 2)
        self.assertEqual(self.watch("--socket", "s", "--status", "f")[0], 2)

    def test_socket_of_the_environment(self):
        with unittest.mock.patch.dict(os.environ, ZINDUROI_SOCKET=str(self.folder / "none.sock")):
            self.assertEqual(self.watch(), (1, "", f"zinduroi: no node answers at {self.folder}/none.sock: No such file or directory\n"))


if __name__ == "__main__":
    unittest.main()
