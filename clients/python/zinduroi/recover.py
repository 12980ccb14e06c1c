"""The command `zinduroi recover`."""
from __future__ import annotations

import argparse
import sys
from typing import Any, Callable, List, Optional

from .errors import ZinduroiError
from .recovery import NotDone, Plan, Recovery, before
from .transports import Command, Folder, Mqtt, Transport

# How many seconds a lost site waits for texts, since those over MQTT come only after a moment.
WAIT = 3.0

_DESCRIPTION = """Goes on without a lost store: moves the site of this machine to the next generation of its group, or builds it again if its
store is lost. Call it at each machine, with the same --to and --lost. It says what is missing; call it again then. It goes on where an
earlier call stopped. docs/OPERATING.md, "A site that dies", has the whole way."""
_EPILOG = """Texts go through a channel of this recovery alone: an empty folder that all machines see, or that you copy from machine to machine; a
new group of an MQTT broker; or two commands of yours. Only your sites may write to it.

The status is 0 if nothing is left to do here, 1 if something is missing or refused."""


def add_recover(commands: "argparse._SubParsersAction[argparse.ArgumentParser]") -> None:
    """Adds the command to a command line."""
    made = commands.add_parser("recover", help="go on without a lost store", description=_DESCRIPTION, epilog=_EPILOG)
    made.add_argument("--to", required=True, metavar="GROUP", help="the group's next generation: east.2 behind east, east.3 behind east.2")
    made.add_argument("--lost", action="append", default=[], type=int, metavar="J", help="a site whose store is lost; once for each")
    made.add_argument("--config", metavar="FILE", help="the file of this machine's node, in place of the next four")
    made.add_argument("--site", type=int, metavar="I", help="the site of this machine")
    made.add_argument("--store", metavar="FILE", help="its store")
    made.add_argument("--layout", metavar="FILE", help="the layout (default: the built-in one)")
    made.add_argument("--program", metavar="FILE", help="the program (default: seat_cli)")
    made.add_argument("--folder", metavar="PATH", help="the channel: a folder")
    made.add_argument("--mqtt", metavar="GROUP", help="the channel: a group of an MQTT broker")
    made.add_argument("--host", default="localhost", metavar="HOST", help="the broker (default: %(default)s)")
    made.add_argument("--port", type=int, default=1883, metavar="N", help="its port (default: %(default)s)")
    made.add_argument("--option", action="append", default=[], metavar="WORD", help="a word for mosquitto_pub and mosquitto_sub, as --option=-u")
    made.add_argument("--publish", metavar="COMMAND", help="the channel: a command that publishes its input as the text of site $ZINDUROI_SITE")
    made.add_argument("--messages", metavar="COMMAND", help=".. and one that prints all texts")
    made.add_argument("--wait", type=float, default=WAIT, metavar="S", help="how many seconds a lost site waits for texts (default: %(default)g)")


def run_recover(given: argparse.Namespace, made: argparse.ArgumentParser) -> int:
    """Carries out the command, and gives the exit status."""
    transport: Optional[Transport] = None
    try:
        plan = _plan(given, made)
        transport = _transport(given, made)
        Recovery(plan, transport, print, _confirm).run(given.wait)
        return 0
    except (ZinduroiError, OSError) as failure:
        print(f"zinduroi: {failure}", file=sys.stderr)
        return 1
    finally:
        close: Optional[Callable[[], None]] = getattr(transport, "close", None)
        if close is not None:
            close()


def _plan(given: argparse.Namespace, made: argparse.ArgumentParser) -> Plan:
    lost = tuple(given.lost)
    if given.config is None:
        if given.site is None or given.store is None:
            made.error("recover: give --config, or --site and --store")
        return Plan(given.site, given.store, given.to, lost, given.layout, given.program or "seat_cli")
    named: List[Any] = [given.site, given.store, given.layout, given.program]
    if any(it is not None for it in named):
        made.error("recover: --config has the site, store, layout and program")
    from .node.config import read_config
    config = read_config(given.config)
    if config.group not in (given.to, before(given.to)):
        raise NotDone(f"{given.config} names the group {config.group or '(none)'}: neither {before(given.to)} nor {given.to}")
    if config.group != given.to:
        print(f"once the site is moved or built, write group = \"{given.to}\" into {given.config}")
    if config.site in lost and config.log is not None:
        print(f"once it is built, take log out of {given.config}: a site that is built again is served without one")
    return Plan(config.site, str(config.store), given.to, lost, None if config.layout is None else str(config.layout), config.program)


def _transport(given: argparse.Namespace, made: argparse.ArgumentParser) -> Transport:
    commands = [given.publish, given.messages]
    if [given.folder is not None, given.mqtt is not None, commands != [None, None]].count(True) != 1 or commands.count(None) == 1:
        made.error("recover: give one channel: --folder, --mqtt, or --publish and --messages")
    if given.folder is not None:
        return Folder(given.folder)
    if given.mqtt is None:
        return Command(given.publish, given.messages)
    try:
        return Mqtt(given.mqtt, given.host, given.port, given.option)
    except ValueError as wrong:
        made.error(f"recover: {wrong}")


def _confirm(premise: str) -> bool:
    """Asks the operator."""
    print(f"{premise}.")
    try:
        return input("Is that so? Type yes: ").strip() == "yes"
    except EOFError:
        print()
        return False
