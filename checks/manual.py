#!/usr/bin/env python3
"""Makes the manual page docs/seat_cli.1 and the completions docs/seat_cli.bash out of the program's own help.

    checks/manual.py            writes both
    checks/manual.py --check    ends with 1 where a file there is another one"""
import pathlib
import re
import subprocess
import sys

TOP = pathlib.Path(__file__).resolve().parent.parent


def help_of(*command):
    return subprocess.run([TOP / "seat_cli", *command, "--help"], capture_output=True, text=True, check=True, stdin=subprocess.DEVNULL).stdout


def version():
    return subprocess.run([TOP / "seat_cli", "--version"], capture_output=True, text=True, check=True, stdin=subprocess.DEVNULL).stdout.split()[1]


def commands():
    """The commands that the help lists, in its order."""
    listed = help_of().split("Commands:\n", 1)[1].split("\n\n", 1)[0]
    return re.findall(r"^  (\w+) ", listed, re.M)


def escaped(text):
    """A text as the manual's source has it: no line of it is a request."""
    return "\n".join("\\&" + line if line[:1] in (".", "'") else line for line in text.replace("\\", "\\e").replace("-", "\\-").split("\n"))


def manual():
    whole = help_of()
    parts = [f'.TH SEAT_CLI 1 "" "seat_cli {version()}"', ".SH NAME", f"seat_cli \\- {escaped(whole.split(chr(10))[0])}"]
    shown = [("SYNOPSIS AND OPTIONS", whole.split("\n", 2)[2])] + [(f"COMMAND {name}", help_of(name)) for name in commands()]
    for title, text in shown:
        parts += [f'.SH "{title.upper()}"', ".nf", escaped(text.rstrip("\n")), ".fi"]
    return "\n".join(parts) + "\n"


def completions():
    names = commands()
    lines = ["# Completions of seat_cli for bash, made by checks/manual.py.", "_seat_cli() {", "    local word=${COMP_WORDS[COMP_CWORD]} before=${COMP_WORDS[COMP_CWORD-1]}",
             "    case $before in", "        --layout | --out | --store) COMPREPLY=($(compgen -f -- \"$word\")); return ;;", "    esac", "    case ${COMP_WORDS[1]} in"]
    for name in names:
        options = sorted(set(re.findall(r"--[a-z]+", help_of(name).split("Options:\n", 1)[1].split("\n\n", 1)[0])))
        lines.append(f"        {name}) COMPREPLY=($(compgen -W \"{' '.join(options)}\" -- \"$word\")) ;;")
    lines += [f"        *) COMPREPLY=($(compgen -W \"{' '.join(names)} --help --version\" -- \"$word\")) ;;", "    esac", "}", "complete -F _seat_cli seat_cli"]
    return "\n".join(lines) + "\n"


def main():
    status = 0
    for name, made in (("seat_cli.1", manual()), ("seat_cli.bash", completions())):
        path = TOP / "docs" / name
        if "--check" in sys.argv[1:]:
            if not path.exists() or path.read_text(encoding="utf-8") != made:
                print(f"docs/{name} is not what the program's help makes")
                status = 1
        else:
            path.write_text(made, encoding="utf-8")
    return status


if __name__ == "__main__":
    sys.exit(main())
