#!/usr/bin/env python3
"""A stand-in for the built program, over the second implementation: to try clients and checks before the program is built.

    stand_in.py serve|ask|regroup|rebuild ..    as docs/FORMATS.md has them, without logs
    stand_in.py play --tables                   of an empty script, which tells the layout

Its stores are those of the program; it does not sync them, so they survive its death and not the machine's. It is slow at
records with many sites, and looks at nothing that only a damaged store shows. Nothing that is tried over it is tried of the
program.

Other checks have it as a module too: `Forked` is such a process, without the time that a start of Python takes.
"""
import fcntl
import os
import signal
import sqlite3
import sys
import tempfile
import time
import tomllib

import second_rebuild as again
import second_reader as reader
import second_site as rules

TABLES = (
    "CREATE TABLE meta (name TEXT PRIMARY KEY NOT NULL, value TEXT NOT NULL)",
    "CREATE TABLE cells (record INTEGER NOT NULL, slot INTEGER NOT NULL, n INTEGER NOT NULL CHECK (n >= 0), PRIMARY KEY (record, slot))",
    "CREATE TABLE sessions (record INTEGER NOT NULL, holder INTEGER NOT NULL, phase INTEGER NOT NULL, place INTEGER NOT NULL UNIQUE, "
    "PRIMARY KEY (record, holder))",
    "CREATE TABLE notices (record INTEGER NOT NULL, site INTEGER NOT NULL, ann INTEGER NOT NULL CHECK (ann >= 0), "
    "fin INTEGER NOT NULL CHECK (fin >= 0), PRIMARY KEY (record, site))",
)
# The tables of a site's content: the second column of the key, and places for the columns of a row.
COLUMNS = {"cells": ("slot", "?, ?, ?"), "sessions": ("holder", "?, ?, ?, ?"), "notices": ("site", "?, ?, ?, ?")}
WIDE = {"--site", "--store", "--layout", "--group", "--wait", "--lost", "--together"}
FLAGS = {"--create", "--grow", "--plain"}


class Ends(Exception):
    """The program ends with this status, and says this on standard error."""


def refuse_store(applies, name):
    if applies:
        raise Ends(5, f"store refused {name}")


def arguments(words):
    """The options of a command, and the words behind them."""
    given, lost, rest = {}, [], list(words)
    while rest and rest[0].startswith("--"):
        name, sign, value = rest.pop(0).partition("=")
        if name == "--":
            break
        if name in FLAGS and not sign:
            given[name] = True
        elif name in WIDE and (sign or rest):
            value = value if sign else rest.pop(0)
            lost += [int(value)] if name == "--lost" else []
            given[name] = value
        else:
            raise Ends(2, f"error: unexpected argument '{name}'")
    if "--group" in given and again.generation(given["--group"]) is None:
        raise Ends(2, "group refused BadWord")
    return given, lost, rest


def read_layout(path):
    if path is None:
        return reader.BUILT_IN
    try:
        with open(path, "rb") as file:
            return tomllib.load(file)
    except (OSError, ValueError):
        raise Ends(3, "layout refused NotRead") from None


class Store:
    """A site's store, and the site that it has."""

    def __init__(self, given, layout):
        self.path, self.number, self.group = given["--store"], int(given["--site"]), given.get("--group")
        self.marks, self.layout, self.frozen, self.outdated = not given.get("--plain"), layout, False, False
        if self.number >= layout["sites"]:
            raise Ends(3, "layout refused NoSite")

    def lock(self, wait):
        """Locks the file, which is made if it is not there."""
        try:
            self.file = os.open(self.path, os.O_RDWR | os.O_CREAT, 0o644)
        except OSError:
            raise Ends(5, "store refused StoreFault") from None
        end = time.monotonic() + wait
        while True:
            try:
                return fcntl.flock(self.file, fcntl.LOCK_EX | fcntl.LOCK_NB)
            except BlockingIOError:
                refuse_store(time.monotonic() > end, "InUse")
                time.sleep(0.01)

    def connect(self):
        self.base = sqlite3.connect(self.path, timeout=0, isolation_level=None)
        try:
            self.base.execute("PRAGMA synchronous = OFF")
            return [name for name, in self.base.execute("SELECT name FROM sqlite_schema WHERE type = 'table'")]
        except sqlite3.DatabaseError as fault:
            fails = "StoreFault" if isinstance(fault, sqlite3.OperationalError) else "NotAStore"
            raise Ends(5, f"store refused {'InUse' if 'locked' in str(fault) else fails}") from None

    def is_there(self):
        """Opens the file, and says whether it has a store."""
        self.look_for_folder()
        refuse_store(os.path.exists(self.path) and not os.path.isfile(self.path), "StoreFault")
        self.lock(self.wait)
        names = self.connect()
        refuse_store(names and sorted(names) != ["cells", "meta", "notices", "sessions"], "NotAStore")
        return bool(names)

    wait = 0

    def look_for_folder(self):
        refuse_store(not os.path.isdir(os.path.dirname(self.path) or "."), "NoFolder")

    def name(self):
        return f"{self.number}{' ' + self.group if self.group else ''}"

    def make(self, site):
        """Makes the store with the content of a site, in one transaction."""
        self.base.execute("PRAGMA journal_mode = WAL")
        self.base.execute("BEGIN IMMEDIATE")
        for table in TABLES:
            self.base.execute(table)
        meta = [("version", "2"), ("site", self.name()), ("layout", again.layout_line(self.layout))]
        self.base.executemany("INSERT INTO meta VALUES (?, ?)", meta)
        self.kept = dict.fromkeys(COLUMNS, ())
        self.write(site)
        self.base.execute("COMMIT")
        self.site = site

    def load(self, grows):
        """Reads the site, and refuses a store that is not its own."""
        refuse_store(self.moves and again.next_name(self.group) is None, "LastGeneration")
        meta = dict(self.base.execute("SELECT name, value FROM meta"))
        number, _, group = meta["site"].partition(" ")
        refuse_store(int(number) != self.number, "WrongSite")
        refuse_store(not group and self.group and self.moves, "NoGroup")
        refuse_store(group != (self.group or ""), "WrongGroup")
        refuse_store("outdated" in meta, "Outdated")
        sites, semicolon, records = meta["layout"].partition(";")
        same = records == again.layout_line(self.layout).partition(";")[2] and int(sites) <= self.layout["sites"]
        refuse_store(not same or int(sites) < self.layout["sites"] and not grows, "WrongLayout")
        self.site = self.site_of(self.layout | {"sites": int(sites)}).restarted(self.layout)
        self.kept = {name: sorted(self.base.execute(f"SELECT * FROM {name}")) for name in COLUMNS}
        if int(sites) < self.layout["sites"]:
            self.base.execute("UPDATE meta SET value = ? WHERE name = 'layout'", (again.layout_line(self.layout),))

    moves = False

    def site_of(self, layout):
        """The site of the rows of the tables."""
        site = rules.Site(layout, self.number)

        def row(r, s):
            return site.rows.setdefault((r, s), reader.start(layout, r, s))

        for r, slot, n in self.base.execute("SELECT * FROM cells"):
            if slot < 100:
                row(r, self.number)["out"][slot] = n
            elif slot < 200:
                row(r, slot - 100)["out"][self.number] = n
            else:
                row(r, self.number)[("taken", "ann", "fin")[slot - 200]] = n
        for r, s, ann, fin in self.base.execute("SELECT * FROM notices"):
            row(r, s).update(ann=ann, fin=fin)
        for r, holder, phase, place in self.base.execute("SELECT * FROM sessions ORDER BY place"):
            site.sessions[r, holder] = (rules.PHASES[phase], place)
        return site

    def write(self, site):
        """Writes the rows that differ."""
        for (name, (column, places)), rows in zip(COLUMNS.items(), site.content()):
            old, new = set(self.kept[name]), set(rows)
            self.base.executemany(f"DELETE FROM {name} WHERE record = ? AND {column} = ?", [it[:2] for it in old - new])
            self.base.executemany(f"INSERT INTO {name} VALUES ({places})", list(new - old))
            self.kept[name] = rows

    def change(self, before):
        """Writes what a call changed, in the transaction of its round."""
        if (before[0], before[1]) == (self.site.rows, self.site.sessions):
            return
        if not self.base.in_transaction:
            self.base.execute("BEGIN IMMEDIATE")
        self.write(self.site)

    def commit(self):
        if self.base.in_transaction:
            self.base.execute("COMMIT")

    # Lines

    def answers(self, lines):
        """The replies to lines, behind the commit of what all of them changed. Where that fails, the first line with a change and
        all behind it are told so."""
        replies, first = [], None
        try:
            for line in lines:
                replies.append(self.answer(line))
                if first is None and self.base.in_transaction:
                    first = len(replies) - 1
            self.commit()
        except sqlite3.Error:
            first = len(replies) if first is None else first
            self.frozen = True
            replies[first:] = ["refused StoreFault"] * (len(lines) - first)
        return replies

    def answer(self, line):
        """The reply to a line: `StoreFault` where the store's file is no longer at its path."""
        if self.frozen or self.is_at_its_path():
            return self.carry_out(line)
        self.frozen = True
        return "refused StoreFault"

    def is_at_its_path(self):
        """Whether the file is at its path."""
        try:
            here, there = os.fstat(self.file), os.stat(self.path)
        except OSError:
            return False
        return (here.st_dev, here.st_ino) == (there.st_dev, there.st_ino)

    def carry_out(self, line):
        """The reply to a line, whose change is not committed yet."""
        if line.startswith(b"take "):
            return rules.reply(self.take, line[5:])
        words = line.split(b" ")
        try:
            if words[0] in (b"show", b"sessions") and len(words) == 2:
                return rules.reply(self.look, words[0], rules.record(words[1], self.layout))
            if words[0] == b"fence" and len(words) == 3:
                return rules.reply(self.fence, rules.record(words[1], self.layout), rules.number(words[2]))
            verb, *parts = rules.ask(words, self.layout)
        except ValueError:
            return "refused BadWord 1"
        if verb == "send":
            text = self.site.send()
            return "refused Frozen" if self.frozen else again.marked(self.layout, self.group or "-", text) if self.marks else text
        before = dict(self.site.rows), dict(self.site.sessions)
        reply = "refused Frozen" if self.frozen else rules.reply(getattr(self.site, verb), *parts)
        self.change(before)
        return reply

    def look(self, verb, r):
        rules.refuse(self.frozen, "Frozen")
        rules.refuse(r == rules.NO_RECORD, "NoRecord")
        if verb == b"show":
            return again.show(self.site, r)
        here = [f"{h} {phase}" for (q, h), (phase, _) in self.site.sessions.items() if q == r]
        return f"{len(here)} {', '.join(here)}".rstrip(" ")

    def fence(self, r, holder):
        rules.refuse(self.site.phase(r, holder) in (None, "waiting"), "NotHere")
        number = again.generation(self.group) if self.group else 1
        return f"fence {number * 2**44 + sum(self.site.row(r, s)['fin'] for s in range(self.layout['sites']))}"

    def take(self, text):
        if self.marks:
            text = again.unmarked(self.layout, [self.group or "-"], text)
        fault, rows = reader.read(text, self.layout)
        rules.refuse(fault and fault.split(" ")[0] not in ("OtherLayout", "BadRow"), fault)
        rules.refuse(self.frozen, "Frozen")
        rules.refuse(fault, fault)
        before = dict(self.site.rows), self.site.sessions
        try:
            merged = self.site.take(rows)
        except rules.Refused as refused:
            if str(refused).startswith("OwnRowAhead"):
                self.commit()
                self.base.execute("INSERT INTO meta VALUES ('outdated', '1')")
                self.frozen = self.outdated = True
            raise
        many = next((r for r, it in enumerate(self.layout["record"]) if self.site.rights(r) > it["seats"]), None)
        if many is not None:
            self.site.rows = before[0]
            rules.refuse(True, "TooManySeats", many)
        self.change(before)
        return merged


def opened(given, moves=False):
    """A store that is opened as `serve` opens it."""
    layout = read_layout(given.get("--layout"))
    store = Store(given, layout)
    store.wait, store.moves = int(given.get("--wait", 0)), moves
    create = given.get("--create", False)
    store.look_for_folder()
    refuse_store(not os.path.exists(store.path) and not create, "NoStore")
    there = store.is_there()
    refuse_store(there and create, "Exists")
    refuse_store(not there and not create, "NoStore")
    if there:
        store.load(given.get("--grow", False))
    else:
        store.make(rules.Site(layout, store.number))
    return store


def serve(given):
    together = int(given.get("--together", 1))
    if not 1 <= together <= 256:
        raise Ends(2, f"error: invalid value '{together}' for '--together <N>'")
    store, read, rest = opened(given), True, b""
    while read:
        read = os.read(0, 65536)
        *lines, rest = (rest + read).split(b"\n")
        for at in range(0, len(lines), together):
            write("".join(reply + "\n" for reply in store.answers(lines[at:at + together])))
    if rest:
        write("refused BadWord\n")
    store.base.close()
    if store.outdated:
        raise Ends(5, "store refused Outdated")
    return 5 if store.frozen else 0


def write(text):
    """Writes a text whole to standard output."""
    left = text.encode()
    while left:
        left = left[os.write(1, left):]


def ask(given, words):
    reply, = opened(given).answers([" ".join(words).encode()])
    print(reply)
    return 1 if reply.startswith("refused") else 0


def regroup(given):
    if "--group" not in given:
        raise Ends(2, "error: --group is required")
    store = opened(given, moves=True)
    text = again.moved_text(store.site, store.group)
    store.group = again.next_name(store.group)
    store.base.execute("UPDATE meta SET value = ? WHERE name = 'site'", (store.name(),))
    store.base.close()
    print(text)


def rebuild(given, lost):
    if "--group" not in given:
        raise Ends(2, "error: --group is required")
    if again.generation(given["--group"]) == 1:
        raise Ends(2, "group refused NotMoved")
    layout = read_layout(given.get("--layout"))
    store = Store(given, layout)
    if any(j >= layout["sites"] for j in lost):
        raise Ends(3, "layout refused NoSite")
    data = sys.stdin.buffer.read(reader.INPUT_LIMIT + 1)
    text, status, site = again.rebuild(layout, store.number, lost, store.group, data)
    if status == 0:
        refuse_store(store.is_there(), "Exists")
        store.make(site)
        store.base.close()
    sys.stdout.write(text)
    return status


def tables(given):
    layout = read_layout(given.get("--layout"))
    sys.stdout.write(rules.World(layout, layout["sites"]).tables())


def main(command="", *words):
    try:
        if command == "play" and words[:1] == ("--tables",):
            return tables(arguments(words[1:])[0])
        given, lost, rest = arguments(words)
        match command:
            case "serve":
                return serve(given)
            case "ask":
                return ask(given, rest)
            case "regroup":
                return regroup(given)
            case "rebuild":
                return rebuild(given, lost)
        raise Ends(2, __doc__)
    except Ends as ends:
        print(ends.args[1], file=sys.stderr)
        return ends.args[0]


class Forked:
    """A process of the stand-in, as `subprocess.Popen` has it."""

    def __init__(self, words, streams=None):
        """With three files for its streams, or with pipes."""
        pipes = [] if streams else [os.pipe() for _ in range(3)]
        inner = streams or [pipes[0][0], pipes[1][1], pipes[2][1]]
        outer = [] if streams else [pipes[0][1], pipes[1][0], pipes[2][0]]
        self.returncode = None
        self.pid = os.fork()
        if self.pid == 0:
            self.carry_out(words, [it if isinstance(it, int) else it.fileno() for it in inner])
        for it in inner if pipes else []:
            os.close(it)
        if pipes:
            self.stdin, self.stdout, self.stderr = (os.fdopen(it, mode, 0) for it, mode in zip(outer, ("wb", "rb", "rb")))

    def carry_out(self, words, streams):
        status = 70
        try:
            for at, it in enumerate(streams):
                os.dup2(it, at)
            os.closerange(3, 4096)
            sys.stdin, sys.stdout, sys.stderr = open(0), open(1, "w"), open(2, "w")
            status = main(*words) or 0
            sys.stdout.flush()
            sys.stderr.flush()
        except BaseException as fault:
            os.write(2, f"{fault!r}\n".encode())
        finally:
            os._exit(status)

    def wait(self):
        if self.returncode is None:
            self.returncode = os.waitstatus_to_exitcode(os.waitpid(self.pid, 0)[1])
        return self.returncode

    def kill(self):
        os.kill(self.pid, signal.SIGKILL)


def run(words, data=b""):
    """What a process writes for its input: output, errors and status."""
    with tempfile.TemporaryFile() as given, tempfile.TemporaryFile() as output, tempfile.TemporaryFile() as errors:
        given.write(data)
        given.seek(0)
        status = Forked(words, [given, output, errors]).wait()
        output.seek(0)
        errors.seek(0)
        return output.read(), errors.read(), status


if __name__ == "__main__":
    sys.exit(main(*sys.argv[1:]))
