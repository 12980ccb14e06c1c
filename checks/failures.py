#!/usr/bin/env python3
"""A day of failures: three nodes with their callers, while disks, stores, clocks, links, certificates, nodes and callers fail.

    checks/failures.py [--program PATH] [--seconds 3600] [--seed 1] [--only FAULT ..] [--folder FOLDER] [--plant NAME]
    checks/failures.py --list

The nodes are processes over the program, with stores on small disks in memory, and reach each other by `Peers` over proxies on
loopback. Nine callers, processes too, come and go as readers and writers, and write to a resource that checks fencing numbers by
the statements of docs/OPERATING.md. A seed shuffles the table of faults (checks/failures_table.py) and picks victims and moments;
what then happens depends on the machine. Each fault is mended as docs/OPERATING.md says; behind that callers have to be admitted at all sites
again, and then no more are let in, and it has to hold that

- nobody was inside a record together with a writer, at any site, by the callers' own clocks;
- no answered call was lost: each caller found its session again, unless an operator had ended it; so do sessions of the check;
- all seats are free in the end;
- the resource took nothing that its rule refuses, refused nobody who was inside, and took nothing of a caller that was paused, and
  whose session an operator had ended, once a later session was let in that could not be inside beside it;
- the operator was told what the table says: by the node's log, `zinduroi status`, /health, /metrics or an answer.

Faults that docs/OPERATING.md forbids void the first three: of these it only looks what was told, and when; then all is begun anew.

Prints a line for each fault: how long it took, what was told and after how many seconds, and what was seen; then `N passed, M failed`,
and ends with 1 where one failed. Full and read-only disks need root; with it all mounts are in a namespace of this process. With
--plant something is wrong, and the check has to fail:

    takes-all         the resource checks no numbers
    restart-leaves    a node that is started again leaves the sessions of before
    silent            what nodes write to standard error is lost"""
import argparse
import collections
import os
import pathlib
import random
import re
import shutil
import signal
import subprocess
import sys
import tempfile
import time

TOP = pathlib.Path(__file__).resolve().parent.parent
sys.path.insert(0, str(TOP / "checks"))

import failures_machines  # noqa: E402, F401 (this and the next put their faults into the table)
import failures_stores  # noqa: E402, F401
from failures_day import Day  # noqa: E402
from failures_table import FAULTS  # noqa: E402

# A node is paused for so many seconds, in a run of ten minutes or more and in a shorter one.
PAUSES = (60, 20)


def chosen(given, day):
    """The faults of a run: those that were asked for, and can be done here."""
    found = [FAULTS[name] for name in given.only or FAULTS]
    without = [fault for fault in found if fault.disk and not all(disk.mounted for disk in day.disks)]
    for fault in without:
        print(f"left out  {fault.name}: no disk can be mounted here")
    return [fault for fault in found if fault not in without]


def carry_out(given, seed, folder, told, times):
    """Faults until the time is over, or until each was there once where the time is 0. Gives how many went well and wrong. `told` gets by
    fault and place after how many seconds an operator was told, `times` how often each fault was."""
    chance, passed, failed, days = random.Random(f"order {seed}"), 0, 0, 1
    end, day = time.monotonic() + given.seconds, Day(folder / f"day_{seed}_1", given, seed, 1)
    try:
        faults = chosen(given, day)
        waiting = chance.sample(faults, len(faults))
        while waiting:
            fault = waiting.pop()
            if day is None:
                days += 1
                day = Day(folder / f"day_{seed}_{days}", given, seed, days)
            wrong, seen = day.fault(fault, passed + failed)
            passed, failed = passed + (not wrong), failed + bool(wrong)
            print(f"{'FAILED' if wrong else 'ok    '}  {fault.name}: {seen}", flush=True)
            for where, line, seconds in day.told:
                print(f"          told behind {seconds:.1f} s by {where}: {line}")
                told[fault.name, re.sub(r" (of|at) site [0-9]", "", where)].append(seconds)
            times[fault.name] += 1
            for line in wrong[:12]:
                print(f"          FAILED {line:.600}")
            sys.stdout.flush()
            if fault.void or wrong:
                day.close()
                day = None
            if given.seconds and time.monotonic() > end:
                break
            if given.seconds and not waiting:
                waiting = chance.sample(faults, len(faults))
    finally:
        if day is not None:
            day.close()
    return passed, failed


def main():
    parser = argparse.ArgumentParser(description=__doc__, formatter_class=argparse.RawDescriptionHelpFormatter)
    parser.add_argument("--program", default=str(TOP / "crates/seat_cli/out/seat_cli"), help="the program, or stand-in")
    parser.add_argument("--seconds", type=float, default=3600, help="how long, for each seed; 0: each fault once")
    parser.add_argument("--seed", type=int, nargs="+", default=[1])
    parser.add_argument("--only", nargs="+", choices=list(FAULTS), metavar="FAULT", help="these faults alone")
    parser.add_argument("--list", action="store_true", help="print the names of all faults")
    parser.add_argument("--folder", type=pathlib.Path, help="where logs and notes stay")
    parser.add_argument("--plant", choices=["takes-all", "restart-leaves", "silent"])
    given = parser.parse_args()
    if given.list:
        print("\n".join(f"{name}{' (void)' if it.void else ''}" for name, it in FAULTS.items()))
        return 0
    alone = ["unshare", "--mount", "--propagation", "private"]
    if "FAILURES_ALONE" not in os.environ and shutil.which("unshare") and subprocess.run([*alone, "true"], capture_output=True, check=False).returncode == 0:
        os.execvpe(alone[0], [*alone, sys.executable, __file__, *sys.argv[1:]], {**os.environ, "FAILURES_ALONE": "1"})
    given.program = str(TOP / "checks/stand_in.py") if given.program == "stand-in" else os.path.abspath(given.program)
    given.pause = PAUSES[given.seconds < 600]
    signal.signal(signal.SIGTERM, lambda *_: sys.exit(143))
    signal.signal(signal.SIGALRM, lambda *_: sys.exit(142))
    signal.alarm(int(len(given.seed) * (given.seconds + 1800)))  # whatever happens, this ends
    folder = given.folder or pathlib.Path(tempfile.mkdtemp(prefix="failures_"))
    folder.mkdir(exist_ok=True)
    passed = failed = 0
    told, times = collections.defaultdict(list), collections.Counter()
    try:
        given.library = folder / "failing.so"
        subprocess.run(["cc", "-O1", "-shared", "-fPIC", "-o", given.library, TOP / "checks/failing.c"], check=True)
        for seed in given.seed:
            print(f"seed {seed}, program {given.program}", flush=True)
            here = carry_out(given, seed, folder, told, times)
            passed, failed = passed + here[0], failed + here[1]
    finally:
        if given.folder is None:
            shutil.rmtree(folder, ignore_errors=True)
        for name in times:
            places = "; ".join(f"{where}, {len(found)} times, behind {min(found):.1f} to {max(found):.1f} s" for (of, where), found in told.items() if of == name)
            print(f"{name}, {times[name]} times{': told by ' if places else ''}{places}")
        print(f"{passed} passed, {failed} failed", flush=True)
    return 1 if failed or not passed else 0


if __name__ == "__main__":
    sys.exit(main())
