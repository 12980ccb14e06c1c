"""What the commands and a node do where their surroundings are unusual: a node or a program that says nothing, signals that are
ignored or may not be sent, an old kernel, closed streams, and words that can't be meant."""
import asyncio
import contextlib
import errno
import io
import os
import signal
import socket
import stat
import subprocess
import sys
import threading
import time
import types
import unittest
import unittest.mock

from zinduroi.command_line import main
from zinduroi.node import NodeClient, NodeGone
from zinduroi.node.config import ConfigError, SocketConfig, read_config
from zinduroi.node.listening import Listener, SocketRefused
from zinduroi.node.lock import _end, _passes_on
from zinduroi.watch import read_states

from . import test_node
from .common import PACKAGE, Case
from .test_page import StubLink, stub_view

STATE = b'{"site": 0, "time": 0, "callers": [], "records": {"a": {"rights": 1, "inside": 0, "unfinished": 0, "sessions": [], "queue": []}}}'
# A node that tells a token and its state, and the commands that print these.
SHOWN = {b"token": b"token 00", b"status": STATE}
OUTPUTS = (("ask", "token"), ("status",), ("status", "--json"), ("watch", "--once"), ("watch",))

REPLIES = {b"token": b"token 00", b"wait": b"admitted", b"fence": b"fence 7", b"leave": b"left writer"}


class StandIn(Case):
    """A node of the test's own, which answers the lines that it knows and says nothing to others."""

    run_command, lock = test_node.Commands.run_command, test_node.Commands.lock
    end_group = staticmethod(test_node.Commands.end_group)

    def setUp(self):
        super().setUp()
        self.socket = self.folder / "0.sock"

    def serve(self, replies, backlog=9, last=None):
        """`last` is a line behind whose reply a connection ends."""
        listening = socket.socket(socket.AF_UNIX)
        self.addCleanup(listening.close)
        listening.bind(str(self.socket))
        listening.listen(backlog)

        def run():
            with contextlib.suppress(OSError):
                while True:
                    connection, _ = listening.accept()
                    threading.Thread(target=self.converse, args=(connection, replies, last), daemon=True).start()
        if replies is not None:
            threading.Thread(target=run, daemon=True).start()
        # Ends the thread that accepts.
        self.addCleanup(listening.shutdown, socket.SHUT_RDWR)
        return listening

    @staticmethod
    def converse(connection, replies, last):
        with connection, connection.makefile("rb") as lines:
            for line in lines:
                verb = line.split()[0]
                if verb in replies:
                    connection.sendall(replies[verb] + b"\n")
                if verb == last:
                    break

    def ran(self, *words, **options):
        """The status and the output of `lock`."""
        process = self.lock(*words, **options)
        output, errors = process.communicate(timeout=60)
        return process.returncode, output, errors


class Silence(StandIn):
    """`lock --timeout` at a node that says nothing, from some line on."""

    def test_ends(self):
        in_store, running = "; a session of a may still be in the store: see zinduroi status", []
        for known in ((), (b"token",), (b"token", b"wait")):
            self.socket = self.folder / f"{len(known)}.sock"
            self.serve({verb: REPLIES[verb] for verb in known})
            error = f"zinduroi: the node at {self.socket} does not answer in time{in_store if known else ''}\n"
            running.append((known, self.lock("--timeout", "0.3", "a", "--", "echo", "inside"), error))
        for known, process, error in running:
            with self.subTest(known=known):
                self.assertEqual((*process.communicate(timeout=20), process.returncode), ("", error, 69))

    def test_no_place_in_the_queue(self):
        """Nobody is accepted, and the kernel's queue is full."""
        self.serve(None, backlog=0)
        with socket.socket(socket.AF_UNIX) as first:
            first.connect(str(self.socket))
            process = self.lock("--timeout", "0.3", "a", "--", "echo", "inside")
            self.assertEqual((*process.communicate(timeout=20), process.returncode),
                             ("", f"zinduroi: no node answers at {self.socket}: Resource temporarily unavailable\n", 69))

    def test_place_in_the_queue(self):
        """A connection with a timeout waits for a place."""
        listening = self.serve(None, backlog=0)
        with socket.socket(socket.AF_UNIX) as first:
            first.connect(str(self.socket))
            timer = threading.Timer(0.5, lambda: listening.accept()[0].close())
            timer.start()
            NodeClient(self.socket, 20).close()
            timer.join()

    def test_behind_the_command(self):
        """A node that doesn't answer `leave` is waited for, but not for ever; nor is the next one, which doesn't know `resume`."""
        asked = {verb: reply for verb, reply in REPLIES.items() if verb != b"leave"}
        resumed = {b"resume": b"resumed 1 a 5 writer"}
        for number, (known, last, is_left) in enumerate(((asked, None, False), ({**asked, **resumed}, None, False), (asked, b"fence", False),
                                                         ({**asked, **resumed}, b"fence", False), ({**REPLIES, **resumed}, b"fence", True))):
            self.socket = self.folder / f"{number}.sock"
            self.serve(known, last=last)
            with self.subTest(number=number), unittest.mock.patch.multiple("zinduroi.node.lock", AFTERWARDS=0.3, PATIENCE=0.3), \
                    unittest.mock.patch("zinduroi.node.lock.report") as told:
                self.assertEqual(main(["lock", "--socket", str(self.socket), "a", "--", "sh", "-c", "sleep 0.5; exit 3"]), 3)
                still = "no node answers, and the session of a is still in the store: see zinduroi status"
                self.assertEqual(told.mock_calls, [] if is_left else [unittest.mock.call(still)])

    def test_no_timeout_inside(self):
        """The connection that the command inherits has none."""
        self.serve(REPLIES)
        looks = ("import os, stat\nfor number in range(3, 20):\n    try:\n        if stat.S_ISSOCK(os.fstat(number).st_mode): print(os.get_blocking(number))\n"
                 "    except OSError: pass\n")
        self.assertEqual(self.ran("--timeout", "5", "a", "--", sys.executable, "-c", looks), (0, "True\n", ""))


class Signals(StandIn):
    """Signals that the parent of `lock` ignores, and those that it may not send."""

    def test_ended_children_that_are_ignored(self):
        """The status of the command is told, and the command ignores them too, as its parent wanted."""
        self.serve(REPLIES)
        shows = "import signal; print(signal.getsignal(signal.SIGCHLD).name)"
        for handler, command, ended in ((signal.SIG_IGN, ("sh", "-c", "exit 3"), (3, "", "")),
                                        (signal.SIG_IGN, ("sh", "-c", "kill -9 $$"), (137, "", "")),
                                        (signal.SIG_IGN, (sys.executable, "-c", shows), (0, "SIG_IGN\n", "")),
                                        (signal.SIG_DFL, (sys.executable, "-c", shows), (0, "SIG_DFL\n", ""))):
            with self.subTest(handler=handler, command=command):
                found = self.ran("a", "--", *command, preexec_fn=lambda: signal.signal(signal.SIGCHLD, handler))
                self.assertEqual(found, ended)

    def test_command_of_another_user(self):
        """A signal that may not be sent to it ends neither `lock` nor its wait."""
        told = []
        command = types.SimpleNamespace(send_signal=unittest.mock.Mock(side_effect=PermissionError(errno.EPERM, "Operation not permitted")),
                                        wait=unittest.mock.Mock(side_effect=[subprocess.TimeoutExpired("x", 1), 0]))
        command.terminate = command.kill = command.send_signal
        with unittest.mock.patch("zinduroi.node.lock.report", told.append):
            _passes_on(command)(signal.SIGHUP, None)
            _end(command)
        self.assertEqual(told, [f"{name} can't be sent to the command: Operation not permitted" for name in ("SIGHUP", "SIGTERM", "SIGKILL")])
        self.assertEqual(command.wait.call_count, 2)


class Commands(StandIn):
    """What a machine or a shell may lack, and words that can't be meant."""

    def test_old_kernel(self):
        """A kernel or a Python without `pidfd_open`: the command's end is found nevertheless."""
        self.serve(REPLIES)
        for failure in (OSError(errno.ENOSYS, "x"), PermissionError(errno.EPERM, "x"), AttributeError("x")):
            with self.subTest(failure=failure), unittest.mock.patch("zinduroi.node.lock.os.pidfd_open", side_effect=failure):
                self.assertEqual(main(["lock", "--socket", str(self.socket), "a", "--", "sh", "-c", "sleep 0.3; exit 3"]), 3)

    def test_line_feed(self):
        self.assertEqual(self.run_command("lock", "a\nb", "--", "true"), (64, "", "zinduroi: a record has no line feed in its name: 'a\\nb'\n"))

    def test_no_room_for_files(self):
        """As where the process has too many open: neither a socket nor a pipe can be made."""
        full = OSError(errno.EMFILE, "Too many open files")
        self.serve(REPLIES)
        with unittest.mock.patch("zinduroi.node.client.socket.socket", side_effect=full):
            self.assertEqual(self.run_command("lock", "a", "--", "true"), (69, "", f"zinduroi: no node answers at {self.socket}: Too many open files\n"))
        with unittest.mock.patch("zinduroi.node.lock.os.pipe", side_effect=full):
            self.assertEqual(self.run_command("lock", "a", "--", "true"), (126, "", "zinduroi: true can't be run: Too many open files\n"))

    def process(self, *words, **options):
        """The status, the output and the errors of a command in a process of its own."""
        options = {"stdout": subprocess.PIPE, "stderr": subprocess.PIPE, **options}
        environment = {**os.environ, "PYTHONPATH": str(PACKAGE), **options.pop("more", {})}
        done = subprocess.run([sys.executable, "-W", "error", "-m", "zinduroi", words[0], "--socket", self.socket, *words[1:]],
                              env=environment, timeout=60, **options)
        return done.returncode, done.stdout, done.stderr

    def test_closed_streams(self):
        """Nothing that is for standard error goes to standard output, and a reply that nobody gets is told by the status."""
        for serves, words, closed, found in (
                (False, ("ask", "token"), 2, (69, b"", b"")), (False, ("lock", "a", "--", "true"), 2, (69, b"", b"")),
                (True, ("ask", "token"), 2, (0, b"token 00\n", b"")),
                *((True, words, 1, (7, b"", b"zinduroi: standard output is closed\n")) for words in OUTPUTS)):
            with self.subTest(words=words, closed=closed, serves=serves):
                if serves and not self.socket.exists():
                    self.serve(SHOWN)
                self.assertEqual(self.process(*words, preexec_fn=lambda: os.close(closed)), found)

    def test_output_that_can_not_be_written(self):
        """A full disk, and a pipe that nobody reads."""
        self.serve(SHOWN)
        unread, pipe = os.pipe()
        os.close(unread)
        with open("/dev/full", "wb") as full, open(pipe, "wb") as broken:
            for words in OUTPUTS:
                for file, fault in ((full, b"No space left on device"), (broken, b"Broken pipe")):
                    with self.subTest(words=words, fault=fault):
                        self.assertEqual(self.process(*words, stdout=file),
                                         (7, None, b"zinduroi: standard output can't be written: " + fault + b"\n"))

    def test_words_that_the_terminal_lacks(self):
        self.serve({b"sessions": "1 ✓ reader".encode()})
        self.assertEqual(self.process("ask", "sessions a", more={"PYTHONIOENCODING": "iso-8859-1"}), (0, b"1 \\u2713 reader\n", b""))
        self.assertEqual(self.process("ask", "sessions a", more={"PYTHONIOENCODING": "utf-8"}), (0, "1 ✓ reader\n".encode(), b""))

    def test_times_of_watch(self):
        for words in (("--interval", "-1"), ("--interval", "nan"), ("--interval", "0"), ("--interval", "x"), ("--wait", "inf"), ("--wait", "-1")):
            with self.subTest(words=words), contextlib.redirect_stderr(io.StringIO()) as errors:
                with self.assertRaises(SystemExit) as ended:
                    main(["watch", "--once", *words, "--status", "none"])
                least = "0.05" if words[0] == "--interval" else "0"
                self.assertEqual(ended.exception.code, 2)
                self.assertIn(f"argument {words[0]}: not from {least} to 999999999 seconds\n", errors.getvalue())

    def test_files_that_are_no_states(self):
        path = self.folder / "0.status"
        for text in ('{"site": Infinity, "time": 0, "records": {"a": {"rights": 1, "inside": 0, "unfinished": 0, "sessions": []}}}', "[" * 100_000):
            path.write_text(text, encoding="utf-8")
            self.assertEqual(read_states([path]), ([], [f"{path}: not a state"]), text[:50])


class Configs(Case):
    """Numbers and names that a node's file can't mean."""

    def test_faults(self):
        path = self.folder / "node.toml"
        right = 'site = 0\nstore = "s.db"\n[socket]\npath = "s.sock"\n'
        huge = "group: has a number that is not from 2 to 1048575: "
        for text, fault in {
                right + f"[exchange]\ninterval = {'9' * 5000}\n": "can't be read: ",
                "a = " + "[" * 10_000 + "\n" + right: "can't be read: ",
                right + f"[exchange]\ninterval = {'9' * 400}\n": "exchange.interval: has more than 64 bits",
                right + f"[exchange]\nevery = 0x{'f' * 5000}\n": "exchange.every: has more than 64 bits",
                right + f"[exchange]\nevery = -{2**63 + 1}\n": "exchange.every: has more than 64 bits",
                right + "[exchange]\ninterval = true\n": "exchange.interval: is not a number of seconds",
                'group = "left"\n' + right: "group: is a word that begins a reply: 'left'",
                'group = "refused.2"\n' + right: "group: is a word that begins a reply: 'refused'",
                'group = "east.1"\n' + right: huge + "1",
                'group = "east.1048576"\n' + right: huge + "1048576"}.items():
            path.write_text(text, encoding="utf-8")
            with self.subTest(text=text[:80], fault=fault):
                with self.assertRaises(ConfigError) as caught:
                    read_config(path)
                self.assertEqual(str(caught.exception)[:len(f"{path}: {fault}")], f"{path}: {fault}")
        for group in ("leftover", "east.2", "east.1048575"):
            path.write_text(f'group = "{group}"\n' + right, encoding="utf-8")
            self.assertEqual(read_config(path).group, group)


class Looks(unittest.TestCase):
    """Several who look at a node at once."""

    def test_another_look_behind_the_own_one(self):
        """One that began a new look before the first one's result was handed over takes nothing from it."""
        async def look():
            view = stub_view(StubLink())
            first = asyncio.create_task(view.look())
            while view._looking is None or not view._looking.done():
                await asyncio.sleep(0)
            self.assertFalse(first.done())
            view._looked -= 1
            second = asyncio.create_task(view.look())
            return await asyncio.gather(first, second)
        for found in asyncio.run(look()):
            self.assertIsInstance(found, tuple)


class Sockets(Case):
    """The path of a node's socket."""

    def listener(self):
        made = Listener(SocketConfig(self.folder / "0.sock", 0o600, None, 9))
        self.addCleanup(made.close)
        return made

    def test_deaf(self):
        """Whoever connects to a node that ends is turned away, and its path stays taken."""
        listener = self.listener()
        listener.listen()
        waiting = NodeClient(self.folder / "0.sock")
        self.addCleanup(waiting.close)
        waiting.socket.settimeout(20)
        listener.deafen()
        with self.assertRaises(NodeGone):
            waiting.ask("token")
        with self.assertRaisesRegex(NodeGone, "Connection refused"):
            NodeClient(self.folder / "0.sock")
        with self.assertRaisesRegex(SocketRefused, "InUse"):
            self.listener()

    def test_path_that_was_taken_meanwhile(self):
        listener, path = self.listener(), self.folder / "0.sock"
        path.write_text("store")
        with self.assertRaisesRegex(SocketRefused, "NotASocket"):
            listener.listen()
        self.assertEqual(path.read_text(), "store")


class Nodes(test_node.NodeCase):
    """A node whose end or start is held up."""

    logs = False

    def test_connections_while_it_ends(self):
        """They are refused, so that their callers come again."""
        self.start()
        service = self.connect().status()["service"]
        os.kill(service, signal.SIGSTOP)
        try:
            self.process.terminate()
            time.sleep(1.5)
            self.assertIsNone(self.process.poll())
            with self.assertRaisesRegex(NodeGone, "Connection refused"):
                NodeClient(self.socket)
        finally:
            with contextlib.suppress(ProcessLookupError):
                os.kill(service, signal.SIGCONT)
        self.assertEqual(self.end()[0], 0)

    def test_store_at_the_path_of_the_socket(self):
        """The store is made, and stays."""
        config = self.write_config(socket="")
        config.write_text(config.read_text().replace('"0.sock"', '"0.db"'))
        process = self.spawn(config, "--create")
        self.addCleanup(process.kill)
        errors = process.communicate(timeout=60)[1]
        self.assertEqual((process.returncode, errors), (1, f"zinduroi: socket refused NotASocket: {self.folder / '0.db'}\n"))
        self.assertTrue(stat.S_ISREG((self.folder / "0.db").stat().st_mode))

    def test_ended_children_that_are_ignored(self):
        """The node learns that the program refuses a layout."""
        config = self.write_config()
        config.write_text(config.read_text().replace("layout.toml", "none.toml"))
        handler = signal.signal(signal.SIGCHLD, signal.SIG_IGN)
        try:
            process = self.spawn(config)
        finally:
            signal.signal(signal.SIGCHLD, handler)
        errors = process.communicate(timeout=60)[1]
        self.assertEqual((process.returncode, errors), (1, f"zinduroi: layout refused NotRead: {self.folder / 'none.toml'}\n"))


if __name__ == "__main__":
    unittest.main()
