"""How deltas travel from site to site: through a folder, through an MQTT broker, or by commands of your own.

A transport may lose, delay, repeat and reorder texts. It has to be a channel that only your sites can write to."""
from __future__ import annotations

import contextlib
import os
import pathlib
import re
import signal
import subprocess
import threading
import time
from typing import Callable, Dict, Iterable, List, Optional, Protocol, Sequence, Tuple

from .errors import ZinduroiError


class TransportFailed(ZinduroiError):
    """A text could not be published or fetched; perhaps the next one can."""


class Transport(Protocol):
    """What an `Exchange` needs. A transport may also have `listen(function)`: it then calls the function, on any thread, as soon
    as a text has arrived; and `close()`, which the exchange calls in the end."""

    def publish(self, site: int, text: str) -> None:
        """Makes a text of this site known to all others. A newer text may replace an older one of the same site: each has all
        that the older one had. Raises `TransportFailed` or `OSError` if that fails."""

    def messages(self) -> Iterable[str]:
        """The texts that have arrived since the last question, of each site at least the newest. Raises as `publish`."""


class Folder:
    """Deltas as files in a folder that all sites see, such as a network file system or a folder that is kept in step.

    The text of site I is in the file `I.delta`. It is written beside that and renamed into place, so nobody reads half of it."""

    def __init__(self, folder: "str | os.PathLike[str]") -> None:
        self.folder = pathlib.Path(folder)
        self._seen: Dict[str, Tuple[int, int, int]] = {}

    def look(self) -> None:
        """Raises `OSError` if the folder is not there, or can't be read."""
        os.scandir(self.folder).close()

    def publish(self, site: int, text: str) -> None:
        part = self.folder / f".{site}.{os.getpid()}.part"
        part.write_text(text + "\n", encoding="utf-8")
        os.replace(part, self.folder / f"{site}.delta")

    def messages(self) -> Iterable[str]:
        """The texts of all files that can be read. Why one can't be is raised where no other one has anything new."""
        texts, failed = [], None
        for path in sorted(self.folder.iterdir()):
            if re.fullmatch(r"[0-9]+\.delta", path.name):
                try:
                    text = self._newer(path)
                except OSError as error:
                    text, failed = None, error
                if text is not None:
                    texts.append(text)
        if failed is not None and not texts:
            raise failed
        return texts

    def _newer(self, path: pathlib.Path) -> Optional[str]:
        """The text of a file, unless it is the one that was read last."""
        try:
            with path.open("rb") as file:
                stat = os.fstat(file.fileno())
                mark = (stat.st_ino, stat.st_mtime_ns, stat.st_size)
                if self._seen.get(path.name) == mark:
                    return None
                text = file.read().decode("utf-8", "replace")
        except FileNotFoundError:
            return None
        self._seen[path.name] = mark
        return text


# Runs a command until it ends, or the standard input does: so it doesn't outlive a process that was killed. By SIGKILL, since
# `mosquitto_sub` may wait for ever after a SIGTERM that comes while it sends or receives.
_WHILE_READ = '"$@" </dev/null & exec >/dev/null; cat; kill -9 $! 2>/dev/null; wait'
# How many seconds `close` waits for that end, before it kills the whole group.
LAST_WAIT = 5.0


class Mqtt:
    """Deltas as retained messages of an MQTT broker, by the commands `mosquitto_pub` and `mosquitto_sub` of Debian's package
    `mosquitto-clients`. The text of site I is at the topic `zinduroi/GROUP/I`.

    `options` go to both commands, such as `["-u", "me", "-P", "secret", "--cafile", "ca.pem"]`. A text that isn't published
    within `timeout` seconds has failed. While the broker is away, `mosquitto_sub` connects anew by itself, or is started
    anew."""

    def __init__(self, group: str, host: str = "localhost", port: int = 1883, options: Sequence[str] = (),
                 timeout: float = 5.0) -> None:
        if not re.fullmatch(r"[^/+#\s\x00]+", group):
            raise ValueError("a group is a word without blanks, /, + and #")
        self._topic = f"zinduroi/{group}"
        self._to = ["-h", host, "-p", str(port), "-V", "mqttv311", *options]
        self._timeout = timeout
        self._lock = threading.Lock()
        self._newest: Dict[str, str] = {}
        self._listeners: List[Callable[[], None]] = []
        self._reader: Optional[threading.Thread] = None
        self._process: Optional[subprocess.Popen[str]] = None
        self._started = float("-inf")
        self._closed = False

    def listen(self, listener: Callable[[], None]) -> None:
        """Has a function called as soon as a text has arrived."""
        self._listeners.append(listener)

    def publish(self, site: int, text: str) -> None:
        words = ["mosquitto_pub", *self._to, "-q", "1", "-r", "-s", "-t", f"{self._topic}/{site}"]
        _run(words, text.encode("utf-8"), self._timeout)

    def messages(self) -> Iterable[str]:
        self._subscribe()
        with self._lock:
            texts = list(self._newest.values())
            self._newest.clear()
        return texts

    def _subscribe(self) -> None:
        """Starts `mosquitto_sub` if it isn't there, at most once a second."""
        if self._closed or (self._reader is not None and self._reader.is_alive()):
            return
        if time.monotonic() - self._started < 1.0:
            raise TransportFailed("mosquitto_sub has no connection")
        self._started = time.monotonic()
        words = ["mosquitto_sub", *self._to, "-q", "1", "-k", "10", "-F", "%t %p", "-t", f"{self._topic}/+"]
        self._process = subprocess.Popen(["sh", "-c", _WHILE_READ, "sh", *words], stdin=subprocess.PIPE, stdout=subprocess.PIPE,
                                         stderr=subprocess.DEVNULL, text=True, encoding="utf-8", errors="replace",
                                         start_new_session=True)
        self._reader = threading.Thread(target=self._read, args=(self._process,), name="zinduroi mqtt", daemon=True)
        self._reader.start()

    def _read(self, process: "subprocess.Popen[str]") -> None:
        assert process.stdin is not None and process.stdout is not None
        for line in process.stdout:
            topic, _, text = line.rstrip("\n").partition(" ")
            with self._lock:
                self._newest[topic] = text
            for listener in self._listeners:
                listener()
        process.stdout.close()
        process.stdin.close()
        process.wait()

    def close(self) -> None:
        """Ends `mosquitto_sub`."""
        self._closed = True
        if self._process is not None and self._process.stdin is not None:
            self._process.stdin.close()
        if self._process is not None and self._reader is not None:
            self._reader.join(LAST_WAIT)
            if self._reader.is_alive():
                # Its shell is dead, and has left it behind. The shell's number is no other's yet: the reader waits for it at its end.
                with contextlib.suppress(ProcessLookupError):
                    os.killpg(self._process.pid, signal.SIGKILL)
                self._reader.join()


class Command:
    """Deltas by two commands of yours, which a shell runs.

    `publish` gets the text on its standard input and the site's number in the variable `ZINDUROI_SITE`. `messages` prints
    the texts that it has, one a line; a text that it printed before costs a call and changes nothing. A status other than 0,
    or more than `timeout` seconds, is a failure; these last until nothing has its output any more, as a process that it leaves."""

    def __init__(self, publish: str, messages: str, timeout: float = 30.0) -> None:
        self._publish = publish
        self._messages = messages
        self._timeout = timeout

    def publish(self, site: int, text: str) -> None:
        _run(["sh", "-c", self._publish], text.encode("utf-8") + b"\n", self._timeout, {"ZINDUROI_SITE": str(site)})

    def messages(self) -> Iterable[str]:
        return _run(["sh", "-c", self._messages], b"", self._timeout).decode("utf-8", "replace").splitlines()


def _run(words: Sequence[str], data: bytes, timeout: float, more: Optional[Dict[str, str]] = None) -> bytes:
    """The output of a command that gets this input."""
    process = subprocess.Popen(words, stdin=subprocess.PIPE, stdout=subprocess.PIPE, stderr=subprocess.PIPE,
                               env={**os.environ, **(more or {})}, start_new_session=True)
    try:
        output, errors = process.communicate(data, timeout)
    except subprocess.TimeoutExpired:
        _kill_group(process)
        raise TransportFailed(f"{words[0]}: no answer in {timeout:g} s") from None
    except BaseException:
        _kill_group(process)
        raise
    if process.returncode != 0:
        why = errors.decode("utf-8", "replace").strip().splitlines()
        raise TransportFailed(f"{words[0]}: {why[-1] if why else f'status {process.returncode}'}")
    return output


def _kill_group(process: "subprocess.Popen[bytes]") -> None:
    """Kills a command and what it started. What left its group may still have its output, which nobody waits for."""
    try:
        os.killpg(process.pid, 9)
    except ProcessLookupError:
        pass
    for pipe in (process.stdin, process.stdout, process.stderr):
        assert pipe is not None
        try:
            pipe.close()
        except OSError:
            pass
    process.wait()
