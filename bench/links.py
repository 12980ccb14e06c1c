#!/usr/bin/env python3
"""Measures links between sites: two and four sites of 64 records, each with links to all others, each runner on a thread.

Run it from anywhere: python3 bench/links.py [FOLDER]
It copies the crates into FOLDER, else into a temporary folder, adds a program made of bench/links.rs, and has `rt run`
prove and build it. That takes minutes, and more where the libraries are not built yet. A program in FOLDER is used again.
At each turn of one outbox of each site a reader enters or leaves a record, so one record of the site changes in a turn.
Times are the least of three runs, less those of a run of no turns; a turn is one of an outbox or of an inbox. Four sites
make fewer turns: a log holds 65,536 entries, and a turn makes one for each help, snapshot and merge. The bytes of whole and
of thin deltas are those of one outbox of a site without peers. No run is kept on one core.
"""
import os
import re
import shutil
import subprocess
import sys
import tempfile
import time

import join

CRATE = "links_bench"
RUNS = (2, 5_000), (2, 10_000), (4, 2_000)
MEASURED = 1_000

# What is written of the program's proof.
PROOFS = {
    "ports_of/Invariants.antt": """\
use Rattle.std.proofs.Common.{All, IsSome, length}
use Rattle.links_bench.proofs.ports_of.Given as goal

abbrev pub invariant-ends : goal.invariant-ends
invariant-ends g l = All (λ p. IsSome p.link) l.ports.items

abbrev pub decreases-ends : goal.decreases-ends
decreases-ends g l = length l.ends.items
""",
    "run_ends/Answers.antt": """\
use denote.Param.{param}
use denote.Param.Send.{IsSync, sendable}
use Rattle.std.proofs.Crossing.{crosses}
use Rattle.session_book.specs.contracts.site.Site as site
use Rattle.session_book.proofs.Sharing.{site_sync}
use Rattle.session_book.proofs.pass.Pass.TheSendSync as pass
use Rattle.links_bench.proofs.run_ends.Goals as goal

pub run_links-requires-send-G : goal.run_links-requires-send-G
run_links-requires-send-G g c κs =
    let shared : IsSync (site.the_row (param 0 g.row.K) (param 1 g.row.L) g.K.Keeper g.L.Opening g.L.Ledger) = site_sync (param 0 g.row.K) g.K.Keeper (param 1 g.row.L) g.L.Opening g.L.Ledger c.type_bounds.send-K in
    let runtime : IsSync (param 2 g.row.R) = c.type_bounds.sync-R in
    search (crosses, sendable, pass.the_send) depth 60 fits 20000
""",
    "run_site/Invariants.antt": """\
use Rattle.links_bench.proofs.run_site.Given as goal

abbrev pub ghosts-run_over-L-Ledger : goal.ghosts-run_over-L-Ledger
ghosts-run_over-L-Ledger g a = record { name = a.blank.name; parts = a.blank.parts }
""",
}


def built(keep):
    """The program, made from copies of the crates and of what was built of them."""
    program = f"{keep}/crates/{CRATE}/out/{CRATE}"
    if os.path.isfile(program):
        return program
    os.makedirs(f"{keep}/.git", exist_ok=True)
    shutil.copy(f"{join.TOP}/HANDLES", keep)
    for crate in os.listdir(f"{join.TOP}/crates"):
        for part in ("src", "specs", "proofs", "out/rlib"):
            if os.path.isdir(f"{join.TOP}/crates/{crate}/{part}"):
                shutil.copytree(f"{join.TOP}/crates/{crate}/{part}", f"{keep}/crates/{crate}/{part}", symlinks=True)
    with open(f"{join.TOP}/crates.txt", encoding="utf-8") as it:
        listed = it.read()
    below = re.search(r"^exchange_tests: (.*)$", listed, re.M).group(1)
    with open(f"{keep}/crates.txt", "w", encoding="utf-8") as it:
        it.write(f"{listed}\n{CRATE}: {below}\n")
    folder = f"{keep}/crates/{CRATE}"
    os.makedirs(f"{folder}/src")
    shutil.copy(f"{join.TOP}/bench/links.rs", f"{folder}/src/main.rt")
    for name, text in PROOFS.items():
        os.makedirs(os.path.dirname(f"{folder}/proofs/{name}"))
        with open(f"{folder}/proofs/{name}", "w", encoding="utf-8") as it:
            it.write(text)
    done = subprocess.run(["rt", "run", "--", "2", "0"], cwd=folder, capture_output=True, text=True)
    if done.returncode or not os.path.isfile(program):
        sys.exit(done.stdout + done.stderr)
    return program


def measured(*words):
    """Wall and processor seconds, the least of some runs, and the numbers and the peak in MB of the last one."""
    wall, seconds, numbers, peak = float("inf"), float("inf"), [], 0
    for _ in range(join.RUNS):
        began = time.monotonic()
        child = subprocess.Popen(words, stdout=subprocess.PIPE, text=True)
        printed = child.stdout.read()
        _, status, used = os.wait4(child.pid, 0)
        child.returncode = os.waitstatus_to_exitcode(status)
        if child.returncode or not re.fullmatch(r"(\d+ ?){4}\n", printed):
            sys.exit(f"{' '.join(words)}: status {child.returncode}, {printed}")
        wall = min(wall, time.monotonic() - began)
        seconds = min(seconds, used.ru_utime + used.ru_stime)
        numbers = [int(it) for it in printed.split()]
        peak = used.ru_maxrss / 1024
    return wall, seconds, numbers, peak


def measure(keep):
    program = built(keep)
    print(f"{os.cpu_count()} cores of {join.processor()}, {time.strftime('%Y-%m-%d')}")
    head = ("turns", "deltas", "deltas/s", "CPU us/turn", "wall s", "CPU s", "peak MB", "whole B", "thin B")
    print(f"{'sites':<8}" + "".join(f"{it:>13}" for it in head))
    for sites, turns in RUNS:
        empty = measured(program, f"{sites}", "0")
        wall, seconds, (sent, taken, _, lacking), peak = measured(program, f"{sites}", f"{turns}")
        wall, seconds = wall - empty[0], seconds - empty[1]
        links = sites * (sites - 1)
        if lacking or sent != turns * links or taken != sent:
            sys.exit(f"{sent} deltas were sent and {taken} taken; {lacking} turns met want of memory")
        _, _, (whole, whole_bytes, thin, thin_bytes), _ = measured(program, f"{sites}", f"{MEASURED}", "measure")
        figures = (f"{turns:,}", f"{sent:,}", f"{sent / wall:,.0f}", f"{seconds / (2 * sent) * 1e6:.1f}", f"{wall:.2f}", f"{seconds:.2f}")
        figures += (f"{peak:.0f}", f"{whole_bytes / whole:,.0f}", f"{thin_bytes / thin:,.0f}")
        print(f"{sites:<8}" + "".join(f"{it:>13}" for it in figures), flush=True)


if __name__ == "__main__":
    if len(sys.argv) > 1:
        measure(os.path.abspath(sys.argv[1]))
    else:
        with tempfile.TemporaryDirectory(prefix="links_bench_") as folder:
            measure(folder)
