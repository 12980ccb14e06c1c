#!/usr/bin/env python3
"""Runs every command of docs/GUIDE.md in a new folder and compares what it prints.

    checks/guide.py [--program PATH]            prints the commands whose output differs; the exit status is 1 then
    checks/guide.py --write [--program PATH]    puts the outputs into the page instead

A command is a line `    $ ..`; the indented lines below it, to the next command or blank line, are its output, standard error
included. An indented block below `<!-- file: NAME -->` is written to the file NAME first. The program is the launcher at
the top of the repository, or the one at PATH."""
import os
import pathlib
import re
import subprocess
import sys
import tempfile

TOP = pathlib.Path(__file__).resolve().parent.parent
PAGE = TOP / "docs/GUIDE.md"
END = "end of the output"


def files_of(lines):
    """The files that the page shows: name and text."""
    for at, line in enumerate(lines):
        found = re.fullmatch(r"<!-- file: (\S+) -->", line)
        if found:
            text = []
            for row in lines[at + 2:]:
                if row and not row.startswith("    "):
                    break
                text.append(row[4:])
            yield found[1], "\n".join(text).strip() + "\n"


def commands_of(lines):
    """Each command with the numbers of the first and the last line of its output, the latter not included."""
    for at, line in enumerate(lines):
        if line.startswith("    $ "):
            to = at + 1
            while to < len(lines) and lines[to].startswith("    ") and not lines[to].startswith("    $ "):
                to += 1
            yield line[6:], at + 1, to


def program():
    """The program that the commands run."""
    if "--program" in sys.argv:
        return pathlib.Path(sys.argv[sys.argv.index("--program") + 1]).resolve()
    return TOP / "seat_cli"


def outputs_of(commands, folder):
    """What each command prints, in one shell."""
    (folder / "bin").mkdir()
    (folder / "bin/seat_cli").symlink_to(program())
    script = "".join(f"{{ {text}\n}} 2>&1\necho; echo '{END}'\n" for text in commands)
    ran = subprocess.run(["bash", "-c", script], cwd=folder, stdin=subprocess.DEVNULL, capture_output=True, text=True, check=False,
                         env={**os.environ, "PATH": f"{folder / 'bin'}:{os.environ['PATH']}", "LC_ALL": "C"}, timeout=600)
    parts = ran.stdout.split(f"\n{END}\n")[:-1]
    if len(parts) != len(commands):
        sys.exit(f"the shell stopped: {ran.stdout[-500:]}{ran.stderr[-500:]}")
    return [part.rstrip("\n").split("\n") if part.strip("\n") else [] for part in parts]


def main():
    lines = PAGE.read_text(encoding="utf-8").split("\n")
    commands = list(commands_of(lines))
    with tempfile.TemporaryDirectory() as name:
        folder = pathlib.Path(name)
        for file, text in files_of(lines):
            (folder / file).write_text(text, encoding="utf-8")
        outputs = outputs_of([text for text, _, _ in commands], folder)
    if "--write" in sys.argv:
        for (_, start, to), output in reversed(list(zip(commands, outputs))):
            lines[start:to] = ["    " + row for row in output]
        PAGE.write_text("\n".join(lines), encoding="utf-8")
        return 0
    wrong = 0
    for (text, start, to), output in zip(commands, outputs):
        wanted = [row[4:] for row in lines[start:to]]
        if wanted != output:
            wrong += 1
            print(f"line {start}: $ {text}\n  is shown with {wanted}\n  and prints {output}")
    print(f"{len(commands)} commands, {wrong} with another output")
    return int(wrong > 0)


sys.exit(main())
