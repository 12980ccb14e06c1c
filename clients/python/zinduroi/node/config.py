"""The file that configures a node: TOML, read once at its start.

Paths in it are relative to the folder of the file. A file with an error is refused as a whole, with the place and the cause."""
from __future__ import annotations

import dataclasses
import os
import pathlib
import re
import shutil
import socket
import tomllib
from typing import TYPE_CHECKING, Any, Callable, Dict, List, Optional, Tuple

from ..errors import ZinduroiError
from ..recovery import MOST_GENERATIONS
from ..transports import Command, Folder, Mqtt, Transport

if TYPE_CHECKING:
    from ..peer_names import Peer

# The most bytes of a Unix socket's path on Linux, without the zero byte behind it.
LONGEST_PATH = 107
# The most bytes that the name has under which the socket is made beside its path.
FIRST_NAME = 9
# A word that begins a reply of the program is no group's name.
REPLY_WORDS = ("refused", "admitted", "announced", "left", "withdrawn", "given", "gave", "merged", "rights", "fence")


class ConfigError(ZinduroiError):
    """The configuration can't be used. The text names the file, the place in it, and the cause."""


@dataclasses.dataclass(frozen=True)
class SocketConfig:
    """The node's socket: its path, its mode, the group that owns it (`None`: that of the process), and how many connections are
    served at once."""

    path: pathlib.Path
    mode: int
    group: Optional[str]
    connections: int


@dataclasses.dataclass(frozen=True)
class Config:
    """What the file says. `transports` make the transports of the exchange, and raise `ConfigError` or `TransportNotMade`; `interval`
    is in seconds. `page` is host and port of the page."""

    site: int
    store: pathlib.Path
    layout: Optional[pathlib.Path]
    group: Optional[str]
    log: Optional[pathlib.Path]
    program: str
    socket: SocketConfig
    transports: Tuple[Callable[[], Transport], ...]
    interval: float
    every: int
    helps: bool
    share: bool
    page: Optional[Tuple[str, int]] = None


class TransportNotMade(ZinduroiError):
    """A transport can't be made now: a file can't be read, a port is in use, or a certificate is out of date by the clock. The text
    names the place and the cause."""


class Table:
    """A table of the file, whose keys are taken one after the other; `done` refuses those that nobody took."""

    def __init__(self, file: pathlib.Path, place: str, values: Dict[str, Any]) -> None:
        self.file = file
        self.place = place
        self._left = dict(values)

    def fault(self, key: str, cause: str) -> ConfigError:
        """The error of a key, or of the table where `key` is empty."""
        place = ".".join(part for part in (self.place, key) if part)
        return ConfigError(f"{self.file}: {place}: {cause}")

    def take(self, key: str, kind: "type | Tuple[type, ...]", what: str, default: Any = ...) -> Any:
        """The value of a key, which is of this kind. Without a default the key has to be there."""
        if key not in self._left:
            if default is ...:
                raise self.fault(key, "is missing")
            return default
        value = self._left.pop(key)
        if not isinstance(value, kind) or (isinstance(value, bool) and kind is not bool):
            raise self.fault(key, f"is not {what}")
        if isinstance(value, int) and not -2**63 <= value < 2**63:
            raise self.fault(key, "has more than 64 bits")
        return value

    def text(self, key: str, default: Any = ..., form: str = r"[^\0]+", what: str = "a text without zero bytes, not empty") -> Any:
        """A text of this form."""
        value = self.take(key, str, "a text", default)
        if isinstance(value, str) and not re.fullmatch(form, value, re.DOTALL):
            raise self.fault(key, f"is not {what}: {value!r}")
        return value

    def number(self, key: str, low: int, high: int, default: Any = ...) -> int:
        """A whole number in a range."""
        value: int = self.take(key, int, "a whole number", default)
        if not low <= value <= high:
            raise self.fault(key, f"is not from {low} to {high}: {value}")
        return value

    def seconds(self, key: str, low: float, high: float, default: float) -> float:
        """A number of seconds in a range."""
        seconds = float(self.take(key, (int, float), "a number of seconds", default))
        if not low <= seconds <= high:
            raise self.fault(key, f"is not from {low:g} to {high:g} seconds: {seconds:g}")
        return seconds

    def path(self, key: str, default: Any = ...) -> Any:
        """A path, relative to the folder of the file."""
        value = self.text(key, default)
        return value if value is None else self.file.parent / value

    def table(self, key: str) -> Table:
        """A table of its own, empty where it is not there."""
        place = ".".join(part for part in (self.place, key) if part)
        return Table(self.file, place, self.take(key, dict, "a table", {}))

    def done(self) -> None:
        """Refuses the first key that is not known."""
        for key in self._left:
            raise self.fault(key, "is not a key of this table")


def _folder(table: Table) -> Callable[[], Transport]:
    path = table.path("path")
    return lambda: Folder(path)


def _mqtt(table: Table) -> Callable[[], Transport]:
    group = table.text("group", form=r"[^/+#\s\0]+", what="a word without blanks, /, + and #")
    host, port = table.text("host", "localhost"), table.number("port", 1, 65535, 1883)
    options = _texts(table, "options")
    timeout = table.seconds("timeout", 0.1, 3600, 5.0)
    return lambda: Mqtt(group, host, port, options, timeout)


def _command(table: Table) -> Callable[[], Transport]:
    publish, messages = table.text("publish"), table.text("messages")
    timeout = table.seconds("timeout", 0.1, 3600, 30.0)
    return lambda: Command(publish, messages, timeout)


def _peers(table: Table, site: int, group: Optional[str]) -> Callable[[], Transport]:
    # Here, as no other command needs TLS.
    from ..peers import Peers

    plain, listen = table.take("plain", bool, "true or false", False), table.text("listen", None)
    authority, certificate, key = (table.path(name, None) for name in ("authority", "certificate", "key"))
    peers: "Dict[int, Peer]" = {}
    for at, values in enumerate(table.take("peer", list, "an array of tables", []), 1):
        if not isinstance(values, dict):
            raise table.fault(f"peer {at}", "is not a table")
        one = Table(table.file, f"{table.place}.peer {at}", values)
        number, peer = _peer(one)
        if number in peers:
            raise one.fault("site", f"is that of another peer too: {number}")
        peers[number] = peer
    # Certificates stay as they are when the group goes on to its next generation.
    base = None if group is None else group.partition(".")[0]
    return lambda: _made(table, lambda: Peers(site, peers, listen, authority, certificate, key, base, plain))


def _peer(table: Table) -> "Tuple[int, Peer]":
    """A peer with its site."""
    from ..peer_names import Peer

    number, address = table.number("site", 0, 15), table.text("address", None)
    carries = table.take("carries", list, "an array of sites", [])
    if not all(type(carried) is int for carried in carries):
        raise table.fault("carries", "is not an array of sites")
    table.done()
    return number, Peer(address, carries)


def _made(table: Table, make: Callable[[], Transport]) -> Transport:
    """A transport. What the table can't mean is a `ConfigError`, and what may be otherwise at the next start a `TransportNotMade`."""
    # Here, as no other transport needs certificates.
    from ..peer_names import OutOfDate

    try:
        return make()
    except OutOfDate as error:
        raise TransportNotMade(str(table.fault("", f"{error}, by this machine's clock"))) from None
    except ValueError as error:
        raise table.fault("", str(error)) from None
    except OSError as error:
        fault = table.fault("listen" if isinstance(error, socket.gaierror) else "", str(error))
        raise TransportNotMade(str(fault)) from None


# Each kind of transport with the function that reads its table. The transport is made once the site is open.
TRANSPORTS: Dict[str, Callable[[Table], Callable[[], Transport]]] = {"folder": _folder, "mqtt": _mqtt, "command": _command}


def read_config(file: "str | os.PathLike[str]") -> Config:
    """What a file says. Raises `ConfigError`."""
    path = pathlib.Path(file)
    try:
        values = tomllib.loads(path.read_bytes().decode("utf-8"))
    except OSError as error:
        raise ConfigError(f"{path}: {error.strerror}") from None
    except UnicodeDecodeError as error:
        raise ConfigError(f"{path}: byte {error.start}: is not UTF-8") from None
    except tomllib.TOMLDecodeError as error:
        raise ConfigError(f"{path}: is not TOML: {error}") from None
    except (ValueError, RecursionError) as error:
        # A number of too many digits, or tables and arrays in each other too deep.
        raise ConfigError(f"{path}: can't be read: {error}") from None
    return _config(Table(path, "", values))


def _config(top: Table) -> Config:
    exchange = top.table("exchange")
    site = top.number("site", 0, 15)
    group = top.text("group", None, r"[a-z][a-z0-9-]{0,31}(\.[1-9][0-9]{0,6})?",
                     "1 to 32 lowercase letters, digits and -, the first a letter; behind a move also a dot and a number")
    base, _, number = (group or "").partition(".")
    if base in REPLY_WORDS:
        raise top.fault("group", f"is a word that begins a reply: {base!r}")
    if number and not 2 <= int(number) <= MOST_GENERATIONS:
        raise top.fault("group", f"has a number that is not from 2 to {MOST_GENERATIONS}: {number}")
    made = Config(
        site=site,
        store=top.path("store"),
        layout=top.path("layout", None),
        group=group,
        log=top.path("log", None),
        program=_program(top),
        socket=_socket(top.table("socket")),
        transports=tuple(_transports(top, site, group)),
        interval=exchange.seconds("interval", 0.02, 86400, 1.0),
        every=exchange.number("every", 1, 1_000_000, 10),
        helps=exchange.take("helps", bool, "true or false", True),
        share=exchange.take("share", bool, "true or false", True),
        page=_page(top.table("page")),
    )
    exchange.done()
    top.done()
    return made


def _socket(table: Table) -> SocketConfig:
    path = table.path("path")
    whole = os.path.abspath(path)
    if max(len(os.fsencode(whole)), len(os.fsencode(os.path.dirname(whole))) + FIRST_NAME) > LONGEST_PATH:
        raise table.fault("path", f"has more than {LONGEST_PATH} bytes, or its folder more than {LONGEST_PATH - FIRST_NAME}: {whole}")
    mode = table.text("mode", "600", r"[0-7]{3,4}", "three octal digits")
    made = SocketConfig(path, int(mode, 8), table.text("group", None), table.number("connections", 1, 65536, 512))
    table.done()
    return made


def _page(table: Table) -> Optional[Tuple[str, int]]:
    address = table.text("address", None)
    table.done()
    if address is None:
        return None
    # Here, as a node without a page needs no addresses.
    from ..peer_names import is_loopback, parse_address
    try:
        host, port = parse_address(address)
    except ValueError as error:
        raise table.fault("address", str(error)) from None
    if not is_loopback(host) or port == 0:
        raise table.fault("address", f"is not a port of loopback, as 127.0.0.1:7480 or [::1]:7480: {address!r}")
    return host, port


def _transports(top: Table, site: int, group: Optional[str]) -> List[Callable[[], Transport]]:
    readers: Dict[str, Callable[[Table], Callable[[], Transport]]] = {**TRANSPORTS, "peers": lambda table: _peers(table, site, group)}
    makers = []
    for at, values in enumerate(top.take("transport", list, "an array of tables", []), 1):
        if not isinstance(values, dict):
            raise top.fault(f"transport {at}", "is not a table")
        table = Table(top.file, f"transport {at}", values)
        kind = table.text("kind")
        if kind not in readers:
            raise table.fault("kind", f"is none of {', '.join(sorted(readers))}: {kind!r}")
        makers.append(readers[kind](table))
        table.done()
    return makers


def _texts(table: Table, key: str) -> List[str]:
    values: List[Any] = table.take(key, list, "an array of texts", [])
    if not all(isinstance(value, str) for value in values):
        raise table.fault(key, "is not an array of texts")
    return values


def _program(top: Table) -> str:
    """The program that the file names; else `seat_cli` on the PATH, or that of the repository which this file is in."""
    named: Optional[str] = top.text("program", None)
    if named is not None:
        # Absolute, since a path without a slash in it would be looked for on the PATH.
        return named if "/" not in named else os.fspath(pathlib.Path.cwd() / top.file.parent / named)
    found = shutil.which("seat_cli")
    here = pathlib.Path(__file__).resolve().parents[min(4, len(pathlib.Path(__file__).resolve().parents) - 1)]
    built = [path for path in (here / "crates/seat_cli/out/seat_cli", here / "seat_cli") if os.access(path, os.X_OK)]
    return found or (os.fspath(built[0]) if built else "seat_cli")
