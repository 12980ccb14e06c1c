#!/usr/bin/env python3
"""Tries the planted bodies of one crate together, as many in one check as stand in different functions.

    checks/planted_together.py CRATE_FOLDER

The folder is a copy of a crate, with one body a file in must-fail/. First the crate is checked as it stands. Then each
check plants a group of bodies; a body is refused if the prover names its function as not proved and points to a place in it
or in its proof. Prints `NAME: refused` for each such body and removes its file, so that what is left can be tried by
itself: a body that stands in no function, that was not named, or whose text the compiler did not take. The exit status is
2 where the crate is not proved as it stands."""
import pathlib
import re
import subprocess
import sys

HEAD = re.compile(r"^\s*(?:pub(?:\([^)]*\))?\s+)?(?:const\s+)?fn\s+(\w+)")
VERDICT = re.compile(r"^fn (\S+): (?:not proved|no proof)(.*)$", re.M)


class Body:
    """A planted body: its file, the texts that it changes, and the function and the lines of the first change."""

    def __init__(self, edit, crate):
        self.edit, self.name, self.pairs, path = edit, edit.stem, [], None
        for line in edit.read_text().split("\n"):
            if line.startswith("file: "):
                path = line[6:].strip()
            elif line.startswith("old: "):
                old = line[5:]
            elif line.startswith("new:"):
                self.pairs.append((path, old, line[4:].removeprefix(" ")))
        self.path, old, _ = self.pairs[0]
        text = (crate / self.path).read_text()
        self.function, self.first, self.last = self.place(text, text.find(old)) if text.count(old) == 1 else (None, 0, 0)

    @staticmethod
    def place(text, at):
        """The name of the function that holds a place of the text, and its first and last line."""
        lines, row = text.split("\n"), text.count("\n", 0, at)
        heads = [n for n, line in enumerate(lines) if HEAD.match(line)]
        before = [n for n in heads if n <= row]
        if not before:
            return None, 0, 0
        after = [n for n in heads if n > row]
        return HEAD.match(lines[before[-1]])[1], before[-1] + 1, after[0] if after else len(lines)

    def key(self):
        return self.path, self.function


def groups_of(bodies):
    """The bodies in groups, in none of which two stand in one function."""
    groups = []
    for body in bodies:
        group = next((it for it in groups if all(body.key() != other.key() for other in it)), None)
        if group is None:
            groups.append([body])
        else:
            group.append(body)
    return groups


def is_named(body, output):
    """Whether the prover says that the body's function is not proved, and points to a place in it or in its proof."""
    module = [it for it in pathlib.PurePath(body.path).with_suffix("").parts[1:] if it not in ("lib", "main", "mod")]
    for path, _ in VERDICT.findall(output):
        parts = path.split("::")
        if parts[-1] != body.function or parts[1 : 1 + len(module)] != module:
            continue
        proof = f"proofs/{'/'.join(parts[1:])}/"
        if re.search(rf"^(?:\./)?{re.escape(proof)}\S+: error", output, re.M):
            return True
        places = re.findall(rf"^(?:note: )?{re.escape(body.path)}:(\d+):\d+: .*not proved", output, re.M)
        if any(body.first <= int(line) <= body.last for line in places):
            return True
    return False


def check(crate):
    """What a check of the crate prints, and whether it is proved."""
    ran = subprocess.run(["rt", "check", "--jobs", "1"], cwd=crate, stdin=subprocess.DEVNULL, stdout=subprocess.PIPE,
                         stderr=subprocess.STDOUT, text=True, errors="replace")
    return ran.stdout, ran.returncode == 0


def try_group(crate, group):
    """Plants a group in the crate, and gives the bodies that are refused; those that cannot stand beside the others are left."""
    texts = {path: (crate / path).read_text() for body in group for path, _, _ in body.pairs}
    changed, planted = dict(texts), []
    for body in group:
        after = dict(changed)
        for path, old, new in body.pairs:
            after[path] = after[path].replace(old, new) if after[path].count(old) == 1 else ""
        if all(after[path] for path, _, _ in body.pairs):
            changed, planted = after, [*planted, body]
    try:
        for path, text in changed.items():
            (crate / path).write_text(text)
        output, _ = check(crate)
    finally:
        for path, text in texts.items():
            (crate / path).write_text(text)
    return [body for body in planted if is_named(body, output)]


def main():
    crate = pathlib.Path(sys.argv[1])
    bodies = [Body(it, crate) for it in sorted((crate / "must-fail").glob("*.edit"))]
    output, is_proved = check(crate)
    if not is_proved:
        print("\n".join(output.split("\n")[-4:]))
        return 2
    for group in groups_of([it for it in bodies if it.function]):
        for body in try_group(crate, group):
            print(f"{body.name}: refused", flush=True)
            body.edit.unlink()
    return 0


sys.exit(main())
