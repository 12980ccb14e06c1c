#!/usr/bin/env python3
"""Makes the lists of docs/DEFINITIONS.md and docs/PROVED.md out of the sources.

    checks/documents.py            writes the lists into both pages
    checks/documents.py --check    ends with 1 where a list there is another one

What stands above the line `<!-- made by checks/documents.py -->` of a page is written by hand and stays. DEFINITIONS.md lists the
definitions in `specs/` that some contract names, each with the comment above it. PROVED.md lists the public functions with the
first sentence of their documentation and the names of the clauses of their contracts."""
import pathlib
import re
import sys

TOP = pathlib.Path(__file__).resolve().parent.parent
MARK = "<!-- made by checks/documents.py -->\n"
CLAUSE = re.compile(r"^\s*ensures\s*(\w+)?\s*\{\s*(.*)$")
DEFINED = re.compile(r"^ *(?:abbrev pub|pub abbrev|unfoldable pub|pub record|pub data|def pub|pub def)\s+(\S+)")


def crates():
    """Each crate of crates.txt with its group and promise, tests left out."""
    group, comment = "", []
    for line in (TOP / "crates.txt").read_text(encoding="utf-8").splitlines():
        if line.startswith("# ## "):
            group, comment = line[5:], []
        elif line.startswith("# "):
            comment.append(line[2:])
        elif ":" in line:
            if not group.startswith("Tests"):
                yield group, line.split(":", 1)[0].split()[0], " ".join(comment)
            comment = []
        else:
            comment = []


def sources(crate, part, ending):
    return sorted((TOP / "crates" / crate / part).rglob(f"*{ending}"))


def passed_on():
    """The modules of specs/ that a crate passes on: crate and module, and the crate and the module that they are of."""
    found = {}
    for crate in (TOP / "crates").iterdir():
        file = crate / "specs" / "Lib.antt"
        for owner, module in re.findall(r"^pub use Rattle\.(\w+)\.specs\.([\w.]+)$", file.read_text(encoding="utf-8") if file.exists() else "", re.M):
            found[crate.name, module.split(".")[-1]] = owner, module
    return found


def cited():
    """The definitions that contracts name: the crate that they are of, its module, and the name."""
    found, passed = set(), passed_on()
    for crate in (TOP / "crates").iterdir():
        for file in sources(crate.name, "src", ".rt"):
            for use in re.findall(r"ghost use Rattle\.(\w+)\.specs\.([\w.]+)\.\{([^}]*)\}", file.read_text(encoding="utf-8")):
                at = use[0], use[1]
                while at in passed:
                    at = passed[at]
                found |= {(*at, name.split(" as ")[0].strip()) for name in use[2].split(",")}
    return found


def comment_above(lines, at):
    """The comment right above a line, as one text."""
    start = at
    while start > 0 and lines[start - 1].lstrip().startswith("-- "):
        start -= 1
    return " ".join(line.lstrip()[3:] for line in lines[start:at])


def definitions():
    named, lines = cited(), []
    for _, crate, _ in crates():
        parts = []
        for file in sources(crate, "specs", ".antt"):
            rows = file.read_text(encoding="utf-8").split("\n")
            module = ".".join(file.relative_to(TOP / "crates" / crate / "specs").with_suffix("").parts)
            told = []
            for at, row in enumerate(rows):
                found = DEFINED.match(row)
                if found and (crate, module, found[1]) in named:
                    text = comment_above(rows, at)
                    if text:
                        told.append(f"- `{found[1]}`: {text}")
            if told:
                parts += ["", f"[{file.name}](../crates/{file.relative_to(TOP / 'crates')}):", "", *told]
        if parts:
            lines += ["", f"## `{crate}`", *parts]
    return "\n".join(lines[1:]) + "\n"


def exported(crate):
    """The names that the crate's root hands on, and its public modules."""
    text = (TOP / "crates" / crate / "src" / "lib.rt").read_text(encoding="utf-8")
    names = set()
    for use in re.findall(r"^pub use (?:\w+::)*(\{[^}]*\}|\w+);", text, re.M):
        names |= set(re.findall(r"\w+", use))
    return names, set(re.findall(r"^pub mod (\w+);", text, re.M))


def first_sentence(text):
    text = re.sub(r"\[([^\]]*)\]\(\w+::[^)]*\)", r"\1", text)  # links that only rustdoc follows
    return re.split(r"(?<=[.:;])\s", text, maxsplit=1)[0].rstrip(".:;")


def functions(file, names, is_public):
    """Each public function of a file: its name, the first sentence of its documentation, and its clauses."""
    owner, shown, document, now = None, False, [], None
    text = file.read_text(encoding="utf-8")
    defined = set()  # the project's own definitions that clauses here may name
    for use in re.findall(r"ghost use Rattle\.(?!std\b)\w+\.specs\.(?!declared\b)[\w.]+\.\{([^}]*)\}", text):
        defined |= {name.split(" as ")[-1].strip() for name in use.split(",")}
    for line in text.split("\n"):
        block = re.match(r"^(?:pub )?(impl|trait)\b(?:<[^{]*?>)?\s*(?:\w+(?:<[^>]*>)? for )?(\w+)", line)
        if block:
            owner, shown = block[2], block[1] == "trait" and line.startswith("pub ")
        elif line == "}":
            owner, shown = None, False
        if now and (line.strip() in ("{", "}", "{}") or line.strip().endswith("{") and "ensures" not in line):
            yield now
            now = None
        said = re.match(r"^\s*/// ?(.*)$", line)
        begun = re.match(r"^\s*(pub )?fn (\w+)", line)
        if said:
            document.append(said[1])
            continue
        if begun and (begun[1] or shown) and (is_public or (owner or begun[2]) in names):
            name = f"{owner}::{begun[2]}" if owner else begun[2]
            now = (name, first_sentence(" ".join(document)), [])
        clause = CLAUSE.match(line)
        if now and clause:
            # what is claimed stands behind the last arrow; what is before it is quantified or assumed
            whole = re.sub(r"\([\w ]+ : [^()]*(?:\([^()]*\))?[^()]*\)", " ", clause[2])
            claim = [re.findall(r"(?<![.\w])\w+", part) for part in (whole.split("→")[-1], whole)]
            by = [word for words in claim for word in words if word in defined]
            now[2].append(clause[1] or (f"by `{by[0]}`" if by else "its value"))
        is_field = re.match(r"^\s*\w+ = .*;$", line)  # of a record that a clause builds
        if now and line.rstrip().endswith(";") and not is_field:  # a function of a trait, with its last clause
            yield now
            now = None
        if line.strip() and not line.strip().startswith(("#[", "ghost use")):
            document = []
    if now:
        yield now


def proved():
    lines, last = [], None
    for group, crate, promise in crates():
        names, modules = exported(crate) if (TOP / "crates" / crate / "src" / "lib.rt").exists() else (set(), set())
        rows = []
        for file in sources(crate, "src", ".rt"):
            is_public = file.stem in modules | {"lib"} or file.parent.name in modules
            for name, text, clauses in functions(file, names, is_public):
                if clauses:
                    clauses = ", ".join(f"`{one}`" if " " not in one else one for one in dict.fromkeys(clauses))
                    rows.append(f"| [`{name}`](../crates/{file.relative_to(TOP / 'crates')}) | {text.replace('|', '/')} | {clauses} |")
        if rows:
            if group != last:
                lines += ["", f"## {group}"]
                last = group
            lines += ["", f"**`{crate}`**: {promise}", "", "| Call | What it does | Clauses |", "|---|---|---|", *rows]
    return "\n".join(lines[1:]) + "\n"


def main():
    status = 0
    for name, made in (("DEFINITIONS.md", definitions()), ("PROVED.md", proved())):
        path = TOP / "docs" / name
        text = path.read_text(encoding="utf-8")
        if MARK not in text:
            sys.exit(f"docs/{name}: no line {MARK.strip()}")
        whole = text.split(MARK)[0] + MARK + "\n" + made
        if "--check" in sys.argv[1:]:
            if whole != text:
                print(f"docs/{name}: its list is not that of the sources")
                status = 1
        else:
            path.write_text(whole, encoding="utf-8")
    return status


if __name__ == "__main__":
    sys.exit(main())
