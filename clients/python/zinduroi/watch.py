"""A table of records, free seats and sessions that renews itself."""
from __future__ import annotations

import argparse
import json
import pathlib
import sys
import time
from typing import Any, Dict, List, Optional, Sequence

from .errors import ZinduroiError
from .exchange import status_of
from .node.client import NodeClient, socket_path
from .output import print_text
from .site import Site, read_layout

NOTES = """A site's store can be used by one process at a time. So there are three ways to look:

  watch [--socket PATH]        while a node serves the site: asks the node
  watch --status FILE ..       while sites are served: each Exchange writes the state of its site into the file that it was given
                               as `status`; one table for all files
  watch --site I --store FILE  while the site is not served: opens the store, and lets nobody else use it meanwhile

It renews the table every --interval seconds until Ctrl-C; with --once it prints one table."""

# The least seconds between two tables.
SHORTEST = 0.05

HEAD = ["record", "site", "free", "taken", "writers", "age", "sessions"]


def rows_of(states: Sequence[Dict[str, Any]], now: float) -> List[List[str]]:
    """The rows of the table: by record, and then by site."""
    names: Dict[str, None] = {}
    for state in states:
        names.update(dict.fromkeys(state["records"]))
    rows = []
    for name in names:
        for state in sorted(states, key=lambda state: int(state["site"])):
            if name in state["records"]:
                counts = state["records"][name]
                sessions = ", ".join(f"{holder} {phase}" for holder, phase in counts["sessions"])
                rows.append([name, str(state["site"]), str(counts["rights"]), str(counts["inside"]), str(counts["unfinished"]),
                             f"{max(0.0, now - state['time']):.0f} s", sessions])
    return rows


def table(rows: Sequence[Sequence[str]]) -> str:
    """The rows below their heads, in columns."""
    lines = [HEAD, *rows]
    widths = [max(len(line[at]) for line in lines) for at in range(len(HEAD) - 1)]
    cells = [[line[0].ljust(widths[0]), *(cell.rjust(width) for cell, width in zip(line[1:], widths[1:])), line[-1]] for line in lines]
    return "\n".join("  ".join(line).rstrip() for line in cells)


def show(text: str, once: bool) -> None:
    """Prints a table, at a terminal in place of the one before."""
    renews = not once and sys.stdout is not None and sys.stdout.isatty()
    print_text(("\033[H\033[J" if renews else "") + text)


def read_states(paths: Sequence[str]) -> "tuple[list[dict[str, Any]], list[str]]":
    """The states that files have, and what is wrong with the others."""
    states, wrong = [], []
    for path in paths:
        try:
            state = json.loads(pathlib.Path(path).read_text(encoding="utf-8"))
            rows_of([state], 0.0)
            states.append(state)
        except OSError as error:
            wrong.append(f"{path}: {error.strerror}")
        except (ValueError, KeyError, TypeError, OverflowError, RecursionError):
            wrong.append(f"{path}: not a state")
    return states, wrong


def watch_files(paths: Sequence[str], interval: float, once: bool) -> int:
    """Shows the states that files have."""
    while True:
        states, wrong = read_states(paths)
        show("\n".join([table(rows_of(states, time.time())), *wrong]), once)
        if once:
            return 1 if wrong else 0
        time.sleep(interval)


def watch_store(site: Site, interval: float, once: bool) -> int:
    """Shows the state of a site that this process serves."""
    records = [record.name for record in read_layout(site.layout, site.program).records]
    while True:
        show(table(rows_of([status_of(site, records)], time.time())), once)
        if once:
            return 0
        time.sleep(interval)


def watch_node(path: str, interval: float, once: bool) -> int:
    """Shows the state that a node tells."""
    with NodeClient(path) as client:
        while True:
            state = client.status()
            show("\n".join([table(rows_of([state], time.time())), *fault_lines(state)]), once)
            if once:
                return 0
            time.sleep(interval)


def fault_lines(state: Dict[str, Any]) -> List[str]:
    """Why nobody gets in at a node, where it tells that."""
    return [f"nobody gets in: {state['fault']}"] if state.get("fault") else []


def parser() -> argparse.ArgumentParser:
    """The command line of `watch` alone."""
    made = argparse.ArgumentParser(prog="python3 -m zinduroi", description="Looks at sites of Zinduroi.")
    add_watch(made.add_subparsers(dest="command", required=True, metavar="watch"))
    return made


def seconds(text: str) -> float:
    """A number of seconds of a command line."""
    return _seconds_from(0.0, text)


def _interval(text: str) -> float:
    return _seconds_from(SHORTEST, text)


def _seconds_from(least: float, text: str) -> float:
    try:
        given = float(text)
    except ValueError:
        given = -1.0
    if not least <= given < 1e9:
        raise argparse.ArgumentTypeError(f"not from {least:g} to 999999999 seconds")
    return given


def add_watch(commands: "argparse._SubParsersAction[argparse.ArgumentParser]") -> None:
    """Adds the command `watch`."""
    watch = commands.add_parser("watch", help="a table that renews itself", description=__doc__, epilog=NOTES,
                                formatter_class=argparse.RawDescriptionHelpFormatter)
    watch.add_argument("--socket", metavar="PATH", help="the socket of a node (default: $ZINDUROI_SOCKET, or /run/zinduroi/node.sock)")
    watch.add_argument("--status", nargs="+", metavar="FILE", help="files that exchanges write")
    watch.add_argument("--site", type=int, metavar="I", help="the site's number")
    watch.add_argument("--store", metavar="FILE", help="the site's store")
    watch.add_argument("--layout", metavar="FILE", help="the layout file")
    watch.add_argument("--group", metavar="NAME", help="the group of sites that the site belongs to")
    watch.add_argument("--wait", type=seconds, default=0.0, metavar="SECONDS", help="how long to wait for a store in use")
    watch.add_argument("--program", default="seat_cli", metavar="PATH", help="the program (default: seat_cli)")
    watch.add_argument("--interval", type=_interval, default=1.0, metavar="SECONDS", help="how often the table is renewed (default: 1)")
    watch.add_argument("--once", action="store_true", help="print one table, and end")


def main(words: Optional[Sequence[str]] = None) -> int:
    """Carries out the command line, and gives the exit status."""
    made = parser()
    return run_watch(made.parse_args(words), made)


def run_watch(given: argparse.Namespace, made: argparse.ArgumentParser) -> int:
    """Carries out `watch` as it was given, and gives the exit status."""
    named = [bool(given.socket), bool(given.status), given.site is not None and given.store is not None].count(True)
    if named > 1 or named == 0 and (given.site, given.store) != (None, None):
        made.error("give one of --socket, --status, or --site and --store")
    try:
        if named == 0 or given.socket:
            return watch_node(socket_path(given.socket or None), given.interval, given.once)
        if given.status:
            return watch_files(given.status, given.interval, given.once)
        with Site(given.store, given.site, given.layout, given.group, wait=given.wait, program=given.program) as site:
            return watch_store(site, given.interval, given.once)
    except KeyboardInterrupt:
        return 0
    except (ZinduroiError, OSError) as error:
        print(f"zinduroi: {error}", file=sys.stderr)
        return 1
