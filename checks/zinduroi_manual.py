#!/usr/bin/env python3
"""Makes the manual page docs/zinduroi.1 and the completions docs/zinduroi.bash out of the command line of the package in Python.

    checks/zinduroi_manual.py            writes both
    checks/zinduroi_manual.py --check    ends with 1 where a file there is another one"""
import argparse
import os
import pathlib
import sys
import tomllib

TOP = pathlib.Path(__file__).resolve().parent.parent
sys.path.insert(0, str(TOP / "clients" / "python"))

from manual import escaped  # noqa: E402
from zinduroi.command_line import parser  # noqa: E402

FILES = ("FILE", "PATH")


def version():
    return tomllib.loads((TOP / "clients/python/pyproject.toml").read_text(encoding="utf-8"))["project"]["version"]


def commands():
    """Each command with its one line and its parser."""
    group = next(action for action in parser()._actions if isinstance(action, argparse._SubParsersAction))
    return [(action.dest, action.help, group.choices[action.dest]) for action in group._choices_actions]


def options(of):
    """The options of a parser, without --help."""
    return [action for action in of._actions if action.option_strings and action.dest != "help"]


def usage(of):
    """The usage in one line."""
    return " ".join(of.format_usage().removeprefix("usage: ").split())


def paragraphs(text):
    """Paragraphs that are filled, but for those with a line that begins with a blank: their lines stay."""
    for part in text.strip("\n").split("\n\n"):
        kept = any(line.startswith(" ") for line in part.split("\n"))
        yield from [".PP", ".nf", escaped(part), ".fi"] if kept else [".PP", escaped(part)]


def section(name, what, of):
    """A command: its usage, what it does, its arguments, and what else its help says."""
    parts = [f'.SS "{name}: {escaped(what)}"', escaped(usage(of))]
    if of.description:
        parts += [".PP", escaped(of.description)]
    for action in of._actions:
        if action.dest != "help" and action.help:
            value = {None: f" {action.metavar}", "+": f" {action.metavar} .."}.get(action.nargs, "") if action.metavar else ""
            name = f"{action.option_strings[0]}{value}" if action.option_strings else value.strip()
            parts += [".TP", f".B {escaped(name)}", escaped(action.help % {"default": action.default})]
    return [*parts, *(paragraphs(of.epilog) if of.epilog else ())]


def manual():
    whole = parser()
    parts = [f'.TH ZINDUROI 1 "" "zinduroi {version()}"', ".SH NAME", "zinduroi \\- serves and looks at sites of Zinduroi", ".SH SYNOPSIS"]
    parts += [line for _, _, of in commands() for line in (".HP", escaped(usage(of)))]
    parts += [".SH DESCRIPTION", escaped(whole.description), ".SH COMMANDS"]
    for command in commands():
        parts += section(*command)
    parts += [".SH ENVIRONMENT", ".TP", ".B ZINDUROI_SOCKET", "the socket of the node, where no option names one"]
    parts += [".TP", ".B ZINDUROI_FENCE", "set by lock for its command: the fencing number of the session"]
    parts += [".SH FILES", ".TP", ".B /usr/share/doc/zinduroi/OPERATING.md.gz", "the configuration file, and what happens when a node ends"]
    return "\n".join([*parts, ".SH SEE ALSO", ".BR seat_cli (1)"]) + "\n"


def completions():
    every = [action for _, _, of in commands() for action in options(of) if action.nargs != 0]
    files, others = (sorted({it.option_strings[0] for it in every if (it.metavar in FILES) is wanted}) for wanted in (True, False))
    lines = ["# Completions of zinduroi for bash, made by checks/zinduroi_manual.py.", "_zinduroi() {",
             "    local word=${COMP_WORDS[COMP_CWORD]} before=${COMP_WORDS[COMP_CWORD-1]} at",
             "    if [[ ${COMP_WORDS[1]} == lock ]]; then",
             "        for ((at = 2; at < COMP_CWORD; at++)); do",
             "            if [[ ${COMP_WORDS[at]} == -- ]]; then",
             "                if ((at == COMP_CWORD - 1)); then COMPREPLY=($(compgen -c -- \"$word\")); else COMPREPLY=($(compgen -f -- \"$word\")); fi",
             "                return", "            fi", "        done", "    fi",
             "    case $before in", f"        {' | '.join(files)}) COMPREPLY=($(compgen -f -- \"$word\")); return ;;",
             f"        {' | '.join(others)}) return ;;", "    esac", "    case ${COMP_WORDS[1]} in"]
    for name, _, of in commands():
        words = sorted(action.option_strings[0] for action in options(of)) + ["--help"] + ["--"] * (name == "lock")
        lines.append(f"        {name}) COMPREPLY=($(compgen -W \"{' '.join(words)}\" -- \"$word\")) ;;")
    names = " ".join(name for name, _, _ in commands())
    lines += [f"        *) COMPREPLY=($(compgen -W \"{names} --help\" -- \"$word\")) ;;", "    esac", "}", "complete -F _zinduroi zinduroi"]
    return "\n".join(lines) + "\n"


def main():
    os.environ["COLUMNS"] = "100"
    status = 0
    for name, made in (("zinduroi.1", manual()), ("zinduroi.bash", completions())):
        path = TOP / "docs" / name
        if "--check" not in sys.argv[1:]:
            path.write_text(made, encoding="utf-8")
        elif not path.exists() or path.read_text(encoding="utf-8") != made:
            print(f"docs/{name} is not what the command line makes")
            status = 1
    return status


if __name__ == "__main__":
    sys.exit(main())
