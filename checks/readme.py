#!/usr/bin/env python3
"""Runs what README.md shows, as it stands, in an empty folder: its table of calls, its quick start, its program in Python, and its
nodes.

    checks/readme.py [--program PATH]    the program is the launcher at the top of the repository, or the one at PATH

In the folder are links to the program and to the repository's `examples` and `clients`, as the quick start has them at the top of the
repository. The first and the last line of the quick start, which need the toolchain, are left out. Prints a line for each thing
tried, and ends with 0 where all of them print what they are to."""
import os
import pathlib
import re
import subprocess
import sys
import tempfile

TOP = pathlib.Path(__file__).resolve().parent.parent
LEFT_OUT = ("examples/first_look.sh", "rt ci")
# The layout of the table, and what has happened before its first line.
LAYOUT, BEFORE = "examples/three_sites.toml", ["0 give a 1 1", "0 send", "1 take 0"]
FAILED = []


def tell(holds, what, found=""):
    print(f"{'ok    ' if holds else 'FAILED'}  {what}" + ("" if holds else f"\n        {found!r:.600}"), flush=True)
    if not holds:
        FAILED.append(what)


def block(lines, start):
    """The indented lines from the first one that begins so, without their indentation."""
    at = next(at for at, line in enumerate(lines) if line.startswith("    " + start))
    until = next(n for n in range(at, len(lines)) if not lines[n].startswith("    "))
    return [line[4:] for line in lines[at:until]]


def run(folder, line):
    """What a line of a shell prints, standard error included, and its status."""
    ran = subprocess.run(["sh", "-c", line], cwd=folder, stdin=subprocess.DEVNULL, stdout=subprocess.PIPE, stderr=subprocess.STDOUT,
                         text=True, check=False, timeout=300)
    return ran.stdout, ran.returncode


# The table of calls

def played(folder, script):
    """The last reply to a script, the free seats of each site, and who is inside."""
    (folder / "script").write_text("".join(f"{line}\n" for line in script), encoding="utf-8")
    lines = run(folder, f"./seat_cli play --tables --layout {LAYOUT} < script")[0].splitlines()
    replies, tables = lines[:len(script)], [line.split() for line in lines[len(script):]]
    second = next(at for at, row in enumerate(tables) if row[:3] == ["record", "site", "holder"])
    inside = [f"{row[3]} {row[2]}" for row in tables[second + 1:] if row[3] != "waiting"]
    return replies[-1], " ".join(row[2] for row in tables[1:second]), ", ".join(inside)


def carry(script, line):
    """Adds the sending and taking that a line in brackets tells of."""
    senders, takers = (re.findall(r"[0-9]", part) for part in re.split(r"\bgo(?:es)? to\b", line))
    for sender in senders:
        number = sum(line.endswith(" send") for line in script)
        script += [f"{sender} send", *(f"{taker} take {number}" for taker in takers)]


def try_table(folder, lines):
    script, wrong, calls = list(BEFORE), [], 0
    for line in block(lines, "site and call")[1:]:
        if line.startswith("("):
            carry(script, line)
            continue
        call, *wanted = re.split(r" {2,}", line.strip())
        script.append(call)
        calls += 1
        found = played(folder, script)
        if found != (*wanted, "")[:3]:
            wrong.append((line, found))
    tell(calls > 9 and not wrong, f"the table: each of its {calls} calls is answered, and leaves seats and callers, as it says", wrong)


# The quick start

def wanted_of(line):
    """What a line of the quick start prints, as a pattern."""
    exact = {"play": (TOP / "examples/maintenance.txt"), "run": (TOP / "examples/at_once.txt")}
    verb = line.split()[1]
    if verb in exact:
        return re.escape(exact[verb].read_text(encoding="utf-8"))
    if verb == "judge":
        return r"(?s).*\nconsistent\n"
    if verb == "ask":
        return rf"rights {2 if '--site 0' in line else 0} inside 0 unfinished 0\n"
    if "python3" in line:
        session = r"\[Session\(holder=%d, phase='%s'\)\]"
        return rf"a reader at each site: {session % (8, 'reader')} {session % (7, 'reader')}\nalone at both: \[\] {session % (9, 'writer')}\n"
    return ""


def try_quick_start(folder, lines):
    (folder / "alone.py").write_text("\n".join(block(lines, "from zinduroi")) + "\n", encoding="utf-8")
    for line in block(lines, LEFT_OUT[0]):
        if line.startswith(LEFT_OUT):
            print(f"left out: {line}")
            continue
        output, status = run(folder, line)
        tell(status == 0 and re.fullmatch(wanted_of(line), output) is not None, line, (status, output))


def try_node(folder, lines):
    """The nodes, as one script."""
    script = "\n".join(block(lines, "export PATH=.:$PATH"))
    output, status = run(folder, f"{script}\nwait")
    rest = re.sub(r"zinduroi: (waits for .*|site [01] at .*/node_[01]\.sock)\n", "", output)
    wanted = ["0\n0\n" + "".join(f"{site} is in\n{site} is out\n" for site in order) for order in ((0, 1), (1, 0))]
    tell(status == 0 and rest in wanted and output.count("zinduroi: site ") == 2, "two nodes, and a lock at each", (status, output))


def main():
    program = pathlib.Path(sys.argv[sys.argv.index("--program") + 1]) if "--program" in sys.argv else TOP / "seat_cli"
    lines = (TOP / "README.md").read_text(encoding="utf-8").split("\n")
    with tempfile.TemporaryDirectory(prefix="readme.") as name:
        folder = pathlib.Path(name)
        os.symlink(program.resolve(), folder / "seat_cli")
        for part in ("examples", "clients"):
            os.symlink(TOP / part, folder / part)
        try_table(folder, lines)
        try_quick_start(folder, lines)
        try_node(folder, lines)
    print(f"{len(FAILED)} went wrong")
    return 1 if FAILED else 0


if __name__ == "__main__":
    sys.exit(main())
