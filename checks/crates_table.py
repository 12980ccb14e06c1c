#!/usr/bin/env python3
"""Makes the table of the crates in docs/ARCHITECTURE.md out of crates.txt and the sources.

    checks/crates_table.py            writes the table into docs/ARCHITECTURE.md
    checks/crates_table.py --check    ends with 1 where the table there is another one

A line `## TITLE` in a comment of crates.txt begins a group. The comment right above a crate says what the crate promises.
"Uses" lists what the sources of the crate name in `use` lines: the crates of this repository and of the toolchain."""
import pathlib
import re
import sys

TOP = pathlib.Path(__file__).resolve().parent.parent
BEGIN, END = "<!-- crates: made by checks/crates_table.py -->\n", "<!-- end of crates -->\n"


def crates():
    """Each crate of crates.txt: its group, name, libraries and promise."""
    group, comment = "", []
    for line in (TOP / "crates.txt").read_text(encoding="utf-8").splitlines():
        if line.startswith("# ## "):
            group, comment = line[5:], []
        elif line.startswith("# "):
            comment.append(line[2:])
        elif ":" in line:
            name, libraries = line.split(":", 1)
            yield group, name.split()[0], libraries.split(), " ".join(comment)
            comment = []
        else:
            comment = []


def used(name, libraries):
    """Those of the libraries that the crate's own sources name, in the order of crates.txt."""
    text = "\n".join(file.read_text(encoding="utf-8") for file in (TOP / "crates" / name / "src").rglob("*.rt"))
    code = re.sub(r"^\s*ghost use .*$|^\s*//.*$", "", text, flags=re.M)
    named = set(re.findall(r"\b(\w+)::", code))
    return [library for library in libraries if library in named]


def table():
    lines, last = [], None
    for group, name, libraries, promise in crates():
        if not promise:
            sys.exit(f"crates.txt: no comment above {name}")
        if group != last:
            lines += ["", f"**{group}**", "", "| Crate | Uses | What it promises |", "|---|---|---|"]
            last = group
        uses = ", ".join(f"`{one}`" for one in used(name, libraries)) or "the standard library alone"
        lines.append(f"| `{name}` | {uses} | {promise} |")
    return "\n".join(lines[1:]) + "\n"


def main():
    path = TOP / "docs" / "ARCHITECTURE.md"
    text = path.read_text(encoding="utf-8")
    head, rest = text.split(BEGIN)
    _, tail = rest.split(END)
    made = head + BEGIN + "\n" + table() + "\n" + END + tail
    if "--check" in sys.argv[1:]:
        sys.exit(0 if made == text else "docs/ARCHITECTURE.md: the table of crates is not that of crates.txt")
    path.write_text(made, encoding="utf-8")


main()
