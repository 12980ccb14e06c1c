"""The command `zinduroi`."""
from __future__ import annotations

import argparse
import io
import json
import os
import signal
import sys
import time
from typing import Any, Callable, Dict, List, Optional, Sequence, Tuple

from .errors import ZinduroiError
from .node.client import DEFAULT_SOCKET, NodeClient, NodeGone
from .node.lock import HELP, NO_NODE, run_lock
from .output import NOT_PRINTED, NotPrinted, print_text
from .recover import add_recover, run_recover
from .watch import add_watch, fault_lines, rows_of, run_watch, seconds, table

# The exit status of sysexits.h where the configuration is wrong.
BAD_CONFIG = 78
# The seconds between two looks for a node that has not started yet.
PAUSE = 0.1

_NODE = """Serves a site to the programs of this machine, until SIGTERM or Ctrl-C. docs/OPERATING.md has the configuration file and
what happens when a node ends: sessions stay in the store."""
_ASK = """Sends one line to the node and prints the reply; the status is 0, 1 if it was refused or its time was over, 69 where no
node answers, or 7 where the reply can't be printed. A session that the line enters ends with this command, unless a line says `keep`."""
_STATUS = """Prints a table of the node's site, and the sessions that belong to no connection: those that were kept, those of
connections to an earlier run of the node, and those that the node doesn't know. The node never leaves them by itself. Once the
caller of one is dead, `zinduroi ask evict RECORD HOLDER` does."""


def parser() -> argparse.ArgumentParser:
    """The command line."""
    made = argparse.ArgumentParser(prog="zinduroi", description="Sites of Zinduroi, a reader-writer lock for records.")
    commands = made.add_subparsers(dest="command", required=True, metavar="COMMAND")
    raw = argparse.RawDescriptionHelpFormatter
    node = commands.add_parser("node", help="serve a site to this machine", description=_NODE, formatter_class=raw)
    node.add_argument("--config", required=True, metavar="FILE", help="the configuration, in TOML")
    node.add_argument("--create", action="store_true", help="make the store first, once for each site")
    lock = commands.add_parser("lock", help="run a command inside a record", epilog=HELP, formatter_class=raw,
                               usage="zinduroi lock [--read] [--timeout S] [--strict] [--socket PATH] RECORD -- COMMAND ..")
    lock.add_argument("--read", action="store_true", help="enter as a reader; without it, as the writer")
    lock.add_argument("--timeout", type=seconds, metavar="S", help="how many seconds to wait (default: for ever)")
    lock.add_argument("--strict", action="store_true", help="end the command if the node ends")
    _add_socket(lock)
    lock.add_argument("record", metavar="RECORD", help="the name of the record")
    ask = commands.add_parser("ask", help="send a line to the node", description=_ASK, formatter_class=raw)
    _add_socket(ask)
    ask.add_argument("--wait", type=seconds, default=0.0, metavar="S", help="how many seconds to wait for a node that has not started yet")
    ask.add_argument("line", nargs="+", metavar="LINE", help="the line, or its words")
    status = commands.add_parser("status", help="print the state of the node", description=_STATUS, formatter_class=raw)
    _add_socket(status)
    status.add_argument("--json", action="store_true", help="as the node tells it")
    add_watch(commands)
    add_recover(commands)
    return made


def _add_socket(to: argparse.ArgumentParser) -> None:
    to.add_argument("--socket", metavar="PATH", help=f"the node's socket (default: ZINDUROI_SOCKET, or {DEFAULT_SOCKET})")


def main(words: Optional[Sequence[str]] = None) -> int:
    """Carries out the command line, and gives the exit status."""
    _open_streams()
    try:
        return _run(words)
    except NotPrinted as fault:
        print(f"zinduroi: {fault}", file=sys.stderr)
        return NOT_PRINTED


def _run(words: Optional[Sequence[str]]) -> int:
    """Carries out the command line, and gives the exit status. Raises `NotPrinted`."""
    made = parser()
    before, command = _split(list(sys.argv[1:] if words is None else words))
    if before[:1] == ["lock"] and not command and not {"-h", "--help"} & set(before):
        made.error("lock: give a command behind --, as in: zinduroi lock RECORD -- COMMAND")
    given = made.parse_args(before)
    if given.command == "lock":
        return _interruptible(lambda: run_lock(given.socket, given.record, given.read, given.timeout, given.strict, command))
    # Where the parent ignores it this process would do so too, and learn no exit status of its children. `lock` sees to that itself.
    signal.signal(signal.SIGCHLD, signal.SIG_DFL)
    if given.command == "watch":
        return run_watch(given, made)
    if given.command == "recover":
        return _interruptible(lambda: run_recover(given, made))
    if given.command == "node":
        return run_node(given.config, given.create)
    return _interruptible(lambda: _ask(given))


def _open_streams() -> None:
    """Opens the standard streams that are closed. A connection would get the number of one, and what a command of `lock` prints; and
    what is for a standard error that is not there would go to standard output. What the output can't show is written by its number."""
    while (number := os.open(os.devnull, os.O_RDWR)) <= 2:
        os.set_inheritable(number, True)
    os.close(number)
    if sys.stderr is None:
        sys.stderr = open(os.devnull, "w", encoding="utf-8")
    if isinstance(sys.stdout, io.TextIOWrapper):
        sys.stdout.reconfigure(errors="backslashreplace")


def _split(words: List[str]) -> Tuple[List[str], List[str]]:
    """The words of `lock` before `--`, and those of its command."""
    at = words.index("--") if words[:1] == ["lock"] and "--" in words else len(words)
    return words[:at], words[at + 1:]


def _interruptible(run: Callable[[], int]) -> int:
    """Runs a command that Ctrl-C ends without a traceback."""
    try:
        return run()
    except KeyboardInterrupt:
        return 130


def _ask(given: argparse.Namespace) -> int:
    """Carries out `ask` or `status`."""
    try:
        if given.command == "ask":
            with _connect(given.socket, given.wait) as client:
                return run_ask(client, given.line)
        with NodeClient(given.socket) as client:
            return run_status(client, given.json)
    except NodeGone as gone:
        print(f"zinduroi: {gone}", file=sys.stderr)
        return NO_NODE


def _connect(path: Optional[str], seconds: float) -> NodeClient:
    """A connection to a node, which is waited for. Raises `NodeGone` once the time is over."""
    end = time.monotonic() + seconds
    while True:
        try:
            return NodeClient(path)
        except NodeGone:
            if time.monotonic() >= end:
                raise
        time.sleep(PAUSE)


def run_node(config: str, create: bool) -> int:
    """Serves a site until a signal comes."""
    import asyncio
    import sqlite3

    from .node.config import ConfigError, read_config
    from .node.server import serve
    try:
        asyncio.run(serve(read_config(config), create))
        return 0
    except ConfigError as error:
        print(f"zinduroi: {error}", file=sys.stderr)
        return BAD_CONFIG
    except (ZinduroiError, OSError, sqlite3.Error) as error:
        print(f"zinduroi: {error}", file=sys.stderr)
        return 1


def run_ask(client: NodeClient, words: List[str]) -> int:
    """Prints the reply to a line."""
    line = " ".join(words)
    if "\n" in line:
        print("zinduroi: a line has no line feed in it", file=sys.stderr)
        return 2
    reply = client.ask(line)
    print_text(reply)
    return 1 if reply.split(" ")[0] in ("refused", "timeout") else 0


def run_status(client: NodeClient, as_json: bool) -> int:
    """Prints the state of the node."""
    state = client.status()
    print_text(json.dumps(state) if as_json else status_text(state, time.time()))
    return 0


def status_text(state: Dict[str, Any], now: float) -> str:
    """The table of a state, who waits, and the sessions of no connection."""
    lines = [table(rows_of([state], now)), *fault_lines(state)]
    for record, shown in state["records"].items():
        if shown["queue"]:
            lines.append(f"wait for {record}: {', '.join(shown['queue'])}")
    for it in state["callers"]:
        if not it["connected"]:
            of = f"entered {max(0.0, now - it['since']):.0f} s ago by process {it['pid']}" if it["known"] else "of nobody that this node knows"
            kept = ", kept" if it["known"] and it["kept"] else ""
            lines.append(f"without a connection: {it['record']} {it['holder']} {it['phase'] or 'unknown'}, {of}{kept}")
    lines += [_peer_text(it) for it in state.get("peers", [])]
    failure = state.get("exchange", {}).get("failure")
    return "\n".join(lines + ([f"exchange: {failure}"] if failure else []))


def _peer_text(peer: Dict[str, Any]) -> str:
    """A peer of the transport `Peers`."""
    here = f"connected for {peer['connected']:.0f} s" if peer["connected"] is not None else "not connected"
    age = f", last text {peer['age']:.0f} s ago" if peer["age"] is not None else ", no text yet"
    failure = f" ({peer['failure']})" if peer["connected"] is None and peer["failure"] else ""
    return f"peer {peer['site']}: {here}{failure}{age}"
