#!/usr/bin/env python3
"""Slips of an operator, each made on the built program as an operator would make it.

Usage: checks/edge.py [--program PATH] [--only CASE ..]

Layout files that differ; a file that is moved without its -wal, one that vanishes while a start waits for it, and an old copy; two
starts that make one store; a line that a broken connection cuts; databases of other programs; stores beside other tables; files
that are no log, the store or a file of SQLite's as its log, a log for two; SQLite's log that is taken away alone; an end behind which the file alone has all; standard streams that are closed; a file that is taken away while its site is served,
or covered by another file system (where one may be mounted), or replaced while its log is read; layouts with more
sites; damaged deltas, and deltas with and without marks; names that no group can have; a folder that is not there. Of each slip
it says what was answered. The answer has to be the refusal that the documents promise, files that it promises to leave are compared byte for byte, the store is served afterwards,
and a writer who was inside is so still, alone. Prints a line for each thing tried, then `N passed, M failed`, and ends with 1 where one failed.
"""
import argparse
import os
import pathlib
import shutil
import signal
import socket
import sqlite3
import subprocess
import sys
import tempfile
import threading
import time

TOP = pathlib.Path(__file__).resolve().parent.parent
PIPE = subprocess.PIPE
# The sessions of a store that a case begins with: a writer inside.
KEPT = "1 9 writer"
# A record: its name, seats, home and problem.
A, B = ("a", 3, 0, 2), ("b", 3, 0, 2)
GROUP_WORDS = ("refused", "admitted", "announced", "left", "withdrawn", "given", "gave", "merged", "rights", "fence")
STATEMENTS = (
    "CREATE TABLE meta (name TEXT PRIMARY KEY NOT NULL, value TEXT NOT NULL)",
    "CREATE TABLE cells (record INTEGER NOT NULL, slot INTEGER NOT NULL, n INTEGER NOT NULL CHECK (n >= 0), PRIMARY KEY (record, slot))",
    "CREATE TABLE sessions (record INTEGER NOT NULL, holder INTEGER NOT NULL, phase INTEGER NOT NULL, place INTEGER NOT NULL UNIQUE, "
    "PRIMARY KEY (record, holder))",
    "CREATE TABLE notices (record INTEGER NOT NULL, site INTEGER NOT NULL, ann INTEGER NOT NULL CHECK (ann >= 0), "
    "fin INTEGER NOT NULL CHECK (fin >= 0), PRIMARY KEY (record, site))",
)
TOLD = {True: 0, False: 0}


def tell(holds, what, found=""):
    """A thing that was tried, and what was answered."""
    print(f"{'ok    ' if holds else 'FAILED'}  {what}" + (f": {found:.300}" if found else ""), flush=True)
    TOLD[bool(holds)] += 1


def answer(process):
    """What a process says until it ends, and its status where this is neither 0 nor 1."""
    output, errors = process.communicate(timeout=60)
    said = "; ".join((output + errors).decode(errors="replace").splitlines())
    return said if process.returncode in (0, 1) else f"{said} {process.returncode}".strip()


def files(*paths):
    """What files hold; None for one that is not there."""
    return [path.read_bytes() if path.exists() else None for path in paths]


def wal(store):
    return store.with_name(store.name + "-wal")


def database(path, *statements):
    """Carries out statements with Python's own SQLite, and gives the rows of the last one."""
    made = sqlite3.connect(path)
    try:
        for statement in statements:
            rows = made.execute(statement).fetchall()
        made.commit()
    finally:
        made.close()
    return rows


class Place:
    """A folder for a case, and the program."""

    def __init__(self, program, folder):
        self.program, self.folder = program, folder
        self.two = self.layout("two", 2, A)

    def layout(self, name, sites, *records):
        path = self.folder / f"{name}.toml"
        parts = [f"sites = {sites}\n"]
        parts += [f'[[record]]\nname = "{name}"\nseats = {seats}\nhome = {home}\nproblem = {problem}\n' for name, seats, home, problem in records]
        path.write_text("".join(parts), "ascii")
        return path

    def start(self, verb, store, *more, site=0, layout=None, stdin=subprocess.DEVNULL):
        words = [self.program, verb, "--site", str(site), "--store", store, "--layout", layout or self.two, *more]
        return subprocess.Popen(words, cwd=self.folder, stdin=stdin, stdout=PIPE, stderr=PIPE)

    def ask(self, store, *more, **how):
        """What one call is answered."""
        return answer(self.start("ask", store, *more, **how))

    def store(self, name, *more, **how):
        """A store with a writer inside."""
        path = self.folder / name
        service = Service(self, path, "--create", *more, **how)
        replies = [service.call(line) for line in ("announce a 9", "write a 9")]
        if replies != ["announced 1", "admitted"] or service.end() != "0":
            raise AssertionError(f"no store is made: {replies}")
        return path

    def is_kept(self, store, **how):
        """Whether a store is served, and its writer is inside alone."""
        said = self.ask(store, "sessions", "a", **how), self.ask(store, "read", "a", "5", **how)
        return said == (KEPT, "refused WriterAnnounced 0")


class Service:
    """A process of `serve`."""

    def __init__(self, place, store, *more, **how):
        self.process = place.start("serve", store, *more, stdin=PIPE, **how)
        self.ended = None

    def call(self, line):
        """The reply, or how the process ended."""
        try:
            self.process.stdin.write((line if isinstance(line, bytes) else line.encode()) + b"\n")
            self.process.stdin.flush()
            reply = self.process.stdout.readline()
        except (BrokenPipeError, ValueError):
            reply = b""
        return reply[:-1].decode(errors="replace") if reply.endswith(b"\n") else self.end()

    def end(self, how=None):
        """Ends the process, and gives its errors and status."""
        if how is not None:
            self.process.send_signal(how)
        if self.ended is None:
            _, errors = self.process.communicate(timeout=60)
            said = "; ".join(errors.decode(errors="replace").splitlines())
            self.ended = f"{said} {self.process.returncode}".strip()
        return self.ended


# Layouts that differ

def layouts(place):
    """Seats of one record that would count for another, so that two writers came in."""
    here, there = place.layout("here", 2, A, B), place.layout("there", 2, B, A)
    zero = Service(place, place.folder / "0.db", "--create", layout=here)
    one = Service(place, place.folder / "1.db", "--create", site=1, layout=there)
    said = [zero.call("give b 1 3"), one.call(f"take {zero.call('send')}"), zero.call(f"take {one.call('send')}")]
    tell(said == ["given", "refused OtherRecords", "refused OtherRecords"], "a site with the same records in another order", ", ".join(said[1:]))
    both = [service.call(line) for service in (zero, one) for line in ("announce a 9", "write a 9")]
    tell(both.count("admitted") == 1, "and of a writer at each of them one is inside", ", ".join(both[1::2]))
    tell((zero.end(), one.end()) == ("0", "0"), "both go on, and end with 0")


def other_layouts(place):
    """Each other difference, in both directions."""
    here = place.layout("here", 2, A, B)
    others = {"more seats": (("a", 4, 0, 2), B), "another home": (("a", 3, 1, 2), B), "another problem": (("a", 3, 0, 1), B), "another name": (("c", 3, 0, 2), B),
              "a record less": (A,), "a record more": (A, B, ("c", 1, 0, 1)), "seats of the second": (A, ("b", 2, 0, 2))}
    for number, (what, records) in enumerate(others.items()):
        zero = Service(place, place.folder / f"{number}.0.db", "--create", layout=here)
        one = Service(place, place.folder / f"{number}.1.db", "--create", site=1, layout=place.layout(f"there{number}", 2, *records))
        zero.call("announce a 9")
        before = [service.call("show b") for service in (zero, one)]
        said = [one.call(f"take {zero.call('send')}"), zero.call(f"take {one.call('send')}")]
        after = [service.call("show b") for service in (zero, one)]
        tell(said == ["refused OtherRecords"] * 2 and after == before, f"a site whose layout has {what}", ", ".join(said))
        zero.end()
        one.end()
    more = Service(place, place.folder / "more.db", "--create", site=1, layout=place.layout("more", 3, A, B))
    same = Service(place, place.folder / "same.db", "--create", layout=here)
    same.call("give a 1 1")
    more.call("announce a 7")
    said = [more.call(f"take {same.call('send')}"), same.call(f"take {more.call('send')}")]
    tell(said == ["merged 1", "refused OtherLayout 0"], "a site whose layout has more sites and the same records takes, and is too wide", ", ".join(said))
    more.end()
    same.end()


def client_layouts(place):
    """The same over the client in Python, whose exchanges carry all deltas."""
    sys.path.insert(0, str(TOP / "clients/python"))
    from zinduroi import Exchange, Folder, Site, TimedOut
    layouts, inside, both, lock = [place.layout("here", 2, A, B), place.layout("there", 2, B, A)], [], [], threading.Lock()
    (place.folder / "deltas").mkdir()

    def write(site):
        try:
            with site.write("a", 9, timeout=4):
                with lock:
                    inside.append(site.site)
                    both.extend(inside if len(inside) > 1 else [])
                time.sleep(3)
                with lock:
                    inside.remove(site.site)
        except TimedOut:
            pass

    sites = [Site(place.folder / f"{number}.db", number, layouts[number], create=True, program=place.program) for number in range(2)]
    exchanges = [Exchange(site, Folder(place.folder / "deltas"), 0.05).start() for site in sites]
    threads = [threading.Thread(target=write, args=(site,)) for site in sites]
    for thread in threads:
        thread.start()
    for thread in threads:
        thread.join()
    for exchange in exchanges:
        exchange.close()
    refused = [sorted(exchange.tally().refused) for exchange in exchanges]
    for site in sites:
        site.close()
    tell(not both and refused == [["OtherRecords"]] * 2, "the client, with the same records in another order at one site",
         f"the exchanges were refused {refused}, at once inside were writers of sites {both or 'none'}")


# Paths and files

def moved(place):
    store, to = place.folder / "s.db", place.folder / "to.db"
    service = Service(place, store, "--create")
    said = [service.call(line) for line in ("announce a 9", "write a 9")]
    service.end(signal.SIGKILL)
    store.rename(to)
    before = files(to, wal(to))
    said = place.ask(to, "sessions", "a")
    tell(said == "store refused NoStore 5", "a file that is moved without its -wal", said)
    tell(files(to, wal(to))[0] == before[0], "stays as it is")
    wal(to).unlink(missing_ok=True)
    wal(store).rename(wal(to))
    tell(place.is_kept(to), "with its -wal beside it all is there")


def vanished(place):
    store, to = place.store("s.db"), place.folder / "to.db"
    service = Service(place, store)
    service.call("show a")
    waiting = place.start("ask", store, "--wait", "10", "announce", "a", "7")
    time.sleep(0.5)
    for old, new in ((store, to), (wal(store), wal(to))):
        old.rename(new)
    time.sleep(0.2)
    ended = service.end()
    said = answer(waiting)
    tell((ended, said) == ("0", "store refused NoStore 5"), "a path that vanishes while a start waits for it", said)
    tell(not any(files(store, wal(store))), "and nothing is made there")
    tell(place.is_kept(to), "the moved file has all")


def restored(place):
    """An old copy that is served again, until it hears of what its site did since."""
    store, copy = place.store("s.db"), place.folder / "copy.db"
    for old, new in ((store, copy), (wal(store), wal(copy))):
        shutil.copy(old, new)
    for call in ("leave a 9", "give a 1 1", "announce a 9"):
        place.ask(store, *call.split(" "))
    text = place.ask(store, "send")
    said = place.ask(copy, "--", "take", text)
    tell(said == "refused OwnRowAhead 0; store refused Outdated 5", "an old copy that takes a delta of its own site", said)
    before = files(copy)
    said = [place.ask(copy, *call.split(" ")) for call in ("show a", "leave a 9", "send")]
    tell(said == ["store refused Outdated 5"] * 3 and files(copy) == before, "is refused from then on", ", ".join(said))
    said = place.ask(store, "sessions", "a"), place.ask(store, "show", "a"), place.ask(store, "send")
    tell(said == ("1 9 waiting", "rights 2 inside 0 unfinished 1", text), "the newer store goes on", ", ".join(said))


def created_twice(place):
    wrong, said = [], set()
    for turn in range(200):
        store = place.folder / f"{turn}.db"
        how = ["--create", *["--wait", "10"] * (turn % 2)]
        both = [answer(process) for process in [place.start("ask", store, *how, "announce", "a", holder) for holder in ("1", "2")]]
        said |= set(both)
        kept = [f"1 {holder} waiting" for holder, told in zip("12", both) if told == "announced 1"]
        if len(kept) != 1 or place.ask(store, "sessions", "a") != kept[0] or not set(both) <= {"announced 1", "store refused Exists 5", "store refused InUse 5"}:
            wrong.append(f"{both}, kept is {place.ask(store, 'sessions', 'a')}")
    tell(not wrong, "200 times two starts that make one store, each other time with --wait: one makes it", wrong[0] + f", {len(wrong)} such" if wrong else ", ".join(sorted(said)))


def missing_folder(place):
    (place.folder / "text").write_text("a letter to a friend\n")
    for more in ([], ["--create"]):
        said = place.ask(place.folder / "text/s.db", *more, "show", "a")
        tell(said == "store refused StoreFault 5", f"a path below a file{', with --create' * len(more)}", said)
        said = place.ask(place.folder / "none/s.db", *more, "show", "a")
        tell(said == "store refused NoFolder 5" and not (place.folder / "none").exists(), f"a folder that is not there{', with --create' * len(more)}", said)


# Lines that a connection cuts

def spoken(place, store, data):
    """What is answered to bytes that come through a socket and a pipe, until the connection breaks."""
    ours, theirs = socket.socketpair()
    carrier = subprocess.Popen(["cat"], stdin=theirs, stdout=PIPE)
    service = place.start("serve", store, stdin=carrier.stdout)
    theirs.close()
    carrier.stdout.close()
    ours.sendall(data)
    ours.close()
    said = answer(service)
    carrier.wait(60)
    return said


def cut_lines(place):
    """A holder whose number begins another's is inside as a writer, the other one waits."""
    store = place.folder / "s.db"
    for call in ("announce a 1", "write a 1", "announce a 12"):
        place.ask(store, *["--create"] * (not store.exists()), *call.split(" "))
    sessions = "2 1 writer, 12 waiting"
    for line in (b"leave a 12", b"announce a 77", b"give a 1 1", b"help a", b"send"):
        said = {}
        for cut in range(1, len(line) + 1):
            said.setdefault(spoken(place, store, line[:cut]), []).append(line[:cut].decode())
            said.setdefault(place.ask(store, "sessions", "a"), []).append("")
        told = "; ".join(f"{reply} to {', '.join(parts)}" if any(parts) else reply for reply, parts in said.items())
        tell(set(said) == {"refused BadWord", sessions}, f"a connection that breaks at each byte of {line.decode()}", told)
        for call in [] if place.ask(store, "sessions", "a") == sessions else ["leave a 77", "leave a 12", "announce a 1", "write a 1", "announce a 12"]:
            place.ask(store, *call.split(" "))
    said = spoken(place, store, b"sessions a\nshow a\nleave a 1")
    tell(said == f"{sessions}; rights 0 inside 3 unfinished 2; refused BadWord", "whole lines in front of one that is cut are answered", said)
    said = spoken(place, store, b"sessions a\n")
    tell(said == sessions, "a connection that breaks behind a whole line", said)


# Databases of others

def foreign(place):
    others = {
        "another program": ("CREATE TABLE orders (id INTEGER PRIMARY KEY, text TEXT)", "INSERT INTO orders VALUES (1, 'x')"),
        "another program, with a table of the same name": ("CREATE TABLE meta (key TEXT, value TEXT)", "INSERT INTO meta VALUES ('a', 'b')"),
        "another program, with the same columns and other types": tuple(it.replace("INTEGER", "TEXT") for it in STATEMENTS),
        "a view alone": ("CREATE VIEW one AS SELECT 1 AS n",),
        "a store with an index more": (*STATEMENTS, "CREATE INDEX more ON cells (n)"),
        "a store with a column more": (*STATEMENTS, "ALTER TABLE cells ADD COLUMN more INTEGER"),
        "a store without a table": STATEMENTS[:2],
        "a store whose tables stand in another order": (STATEMENTS[1], STATEMENTS[0], *STATEMENTS[2:]),
        "a store to which another table refers": (*STATEMENTS, "CREATE TABLE more (record INTEGER, slot INTEGER, FOREIGN KEY (record, slot) REFERENCES cells (record, slot))"),
    }
    for number, (what, statements) in enumerate(others.items()):
        path = place.folder / f"{number}.db"
        database(path, *statements)
        before = files(path, wal(path))
        said = [place.ask(path, *more, "announce", "a", "7") for more in ([], ["--create"])]
        kept = files(path, wal(path))[0] == before[0]
        tell(said == ["store refused NotAStore 5"] * 2 and kept, f"the database of {what}, without and with --create", f"{', '.join(said)}, {'as it was' if kept else 'changed'}")
    text = place.folder / "text"
    text.write_text("this is no database, " * 300, "ascii")
    before = files(text)
    said = [place.ask(text, *more, "announce", "a", "7") for more in ([], ["--create"])]
    tell(said == ["store refused NotAStore 5"] * 2 and files(text) == before, "a text, without and with --create", ", ".join(said))


def older_tables(place):
    """A table that was there before the store, which `site` makes; and how to go on."""
    store, new = place.folder / "s.db", place.folder / "new.db"
    database(store, "CREATE TABLE other (n INTEGER)", "INSERT INTO other VALUES (3)")
    made = place.start("site", store, stdin=PIPE)
    made.stdin.write(b"announce a 9\nwrite a 9\n")
    made.stdin.close()
    made.stdin = None
    said = answer(made)
    tell(said == "announced 1; admitted", "`site` makes its store beside a table that was there before", said)
    before = files(store)
    said = place.ask(store, "sessions", "a")
    tell(said == "store refused NotAStore 5" and files(store) == before, "`ask` does not take it", said)
    if shutil.which("sqlite3"):
        dump = subprocess.run(["sqlite3", store, ".dump meta cells sessions notices"], capture_output=True, check=True).stdout
        subprocess.run(["sqlite3", new], input=dump, check=True)
        tell(place.is_kept(new), "but its tables, once they are copied into a file of their own", place.ask(new, "sessions", "a"))
    else:
        print("left out, without sqlite3: tables that are copied into a file of their own")
    rows = database(store, "SELECT n FROM other")
    tell(rows == [(3,)], "the other table has its row")


def newer_tables(place):
    """A table that was made after the store's."""
    store = place.store("s.db")
    database(store, "CREATE TABLE other (n INTEGER)", "INSERT INTO other VALUES (3)")
    tell(place.is_kept(store), "a store beside which a table was made later", place.ask(store, "sessions", "a"))
    said = place.ask(store, "leave", "a", "9"), place.ask(store, "announce", "a", "9"), place.ask(store, "write", "a", "9")
    rows = database(store, "SELECT n FROM other")
    tell(said == ("left writer", "announced 2", "admitted") and rows == [(3,)] and place.is_kept(store), "is written, and the other table keeps its row", ", ".join(said))


def first_version(place):
    """Stores of the first version, alone and with another table."""
    rows = ("INSERT INTO meta VALUES ('version', '1'), ('site', '0'), ('layout', '2;a,3,0,2')", "INSERT INTO cells VALUES (0, 200, 3), (0, 201, 1)",
            "INSERT INTO sessions VALUES (0, 9, 3, 1)")
    store, beside = place.folder / "s.db", place.folder / "beside.db"
    database(store, *STATEMENTS[:3], *rows)
    tell(place.is_kept(store), "a store of the first version", place.ask(store, "sessions", "a"))
    tell(database(store, "SELECT value FROM meta WHERE name = 'version'") == [("2",)], "has the second one then")
    database(beside, *STATEMENTS[:3], *rows, "CREATE TABLE other (n INTEGER)")
    before = files(beside)
    said = place.ask(beside, "sessions", "a")
    tell(said == "store refused NotAStore 5" and files(beside) == before, "one with another table", said)


# Logs

def text_as_log(place):
    store, new = place.store("s.db"), place.folder / "new.db"
    texts = {"a text without an end of a line": b"a letter to a friend", "bytes": bytes(range(11, 256)) * 20, "an entry's front": b'{"call":"read a 7","pass":0,"rep'}
    for number, (what, text) in enumerate(texts.items()):
        log = place.folder / f"{number}.txt"
        log.write_bytes(text)
        before = files(store, log)
        said = place.ask(store, "--log", log, "show", "a"), place.ask(new, "--create", "--log", log, "show", "a")
        kept = files(store, log) == before and not new.exists()
        tell(said == ("log refused NotALog 8",) * 2 and kept, f"{what} as a log, of a store that is there and of a new one", f"{', '.join(said)}, {'as it was' if kept else 'changed'}")
        new.unlink(missing_ok=True)
        wal(new).unlink(missing_ok=True)
    tell(place.is_kept(store), "the store is served", place.ask(store, "sessions", "a"))


def made_through_a_link(place):
    """A new store that is made where a link leads, and whose log is refused: it is removed and the link stays, so that the command can be repeated."""
    link, real, log = place.folder / "link.db", place.folder / "there.db", place.folder / "text.txt"
    log.write_bytes(b"a letter to a friend")
    link.symlink_to(real)
    said = place.ask(link, "--create", "--log", log, "show", "a"), place.ask(link, "--create", "--log", log, "show", "a")
    tell(said == ("log refused NotALog 8",) * 2 and link.is_symlink() and not real.exists(), "a new store behind a link, whose log is refused, twice", ", ".join(said))
    said = place.ask(link, "--create", "show", "a"), place.ask(real, "show", "a")
    tell(said[0] == said[1] and said[0].startswith("rights "), "the store is made where the link leads", ", ".join(said))


def fronts_of_logs(place):
    """What a crash leaves of the line that begins a log is the front of it, which is mended."""
    place.store("s.db", "--log", place.folder / "s.log")
    line = files(place.folder / "s.log")[0].split(b"\n")[0]
    wrong = []
    for cut in range(len(line) + 1):
        store, log = place.folder / f"{cut}.db", place.folder / f"{cut}.log"
        log.write_bytes(line[:cut])
        said = place.ask(store, "--create", "--log", log, "sessions", "a")
        if said != "0" or files(log)[0].split(b"\n")[0] != line:
            wrong.append(f"{line[:cut].decode()}: {said}, {files(log)[0]}")
    tell(not wrong, f"each of {len(line) + 1} fronts of the line that begins a log", wrong[0] if wrong else "mended")


def log_is_store(place):
    store = place.store("s.db")
    (place.folder / "link.db").symlink_to(store)
    (place.folder / "link.wal").symlink_to(wal(store))
    (place.folder / "folder").symlink_to(place.folder)
    names = {"the store itself": store, "./ and its name": "./s.db", "a link to it": place.folder / "link.db", "its name in a folder that is a link": place.folder / "folder/s.db",
             "its -wal": wal(store), "a link to its -wal": place.folder / "link.wal"}
    for what, log in names.items():
        before = files(store)
        said = place.ask(store, "--log", log, "show", "a")
        kept = files(store) == before and wal(store).stat().st_size < 100  # an opening draws a new number for the empty -wal
        tell(said == "log refused IsStore 8" and kept, f"as a log {what}", f"{said}, {'as it was' if kept else 'changed'}")
    before = files(store)
    said = place.ask(place.folder / "link.db", "--log", wal(store), "show", "a")
    tell(said == "log refused IsStore 8" and files(store) == before, "as a log its -wal, where a link names the store", said)
    journals = {"the name of SQLite's journal": "s.db-journal", "that name by the whole path": place.folder / "s.db-journal", "that name in a folder that is a link": place.folder / "folder/s.db-journal"}
    for what, log in journals.items():
        said = place.ask(store, "--log", log, "show", "a"), place.ask(place.folder / "link.db", "--log", log, "show", "a")
        tell(said == ("log refused IsStore 8",) * 2 and not (place.folder / "s.db-journal").exists(), f"as a log {what}", ", ".join(said))
    new = place.folder / "new.db"
    said = place.ask(new, "--create", "--log", new, "show", "a")
    tell(said == "log refused IsStore 8" and not new.exists(), "of a store that is to be made, its name", said)
    for what, log in {"./ and its name": "./new.db", "a link to it": place.folder / "new.link"}.items():
        if not isinstance(log, str):
            log.symlink_to(new)
        said = place.ask(new, "--create", "--log", log, "show", "a"), place.ask(new, "show", "a")
        tell(said == ("log refused IsStore 8", "store refused NoStore 5"), f"of a store that is to be made, {what}", ", ".join(said))
        new.unlink(missing_ok=True)
        wal(new).unlink(missing_ok=True)
    os.link(store, place.folder / "second.db")
    before = files(store)
    said = place.ask(store, "--log", place.folder / "second.db", "show", "a")
    tell(said in ("log refused IsStore 8", "store refused StoreFault 5") and files(store) == before, "as a log a second name of the store's file", said)
    (place.folder / "second.db").unlink()
    tell(place.is_kept(store), "the store is served", place.ask(store, "sessions", "a"))


def log_of_two(place):
    log, other = place.folder / "s.log", place.folder / "1.db"
    service = Service(place, place.folder / "s.db", "--create", "--log", log)
    said = [service.call(line) for line in ("announce a 9", "write a 9")]
    before = files(log)
    said = place.ask(other, "--create", "--log", log, "announce", "a", "9", site=1)
    tell(said == "log refused InUse 8" and files(log) == before and not other.exists(), "a log that another service writes", said)
    tell(service.call("sessions a") == KEPT and service.end() == "0", "which goes on")
    judged = subprocess.run([place.program, "judge", "--layout", place.two], input=files(log)[0], capture_output=True, check=False)
    tell(judged.stdout.endswith(b"consistent\n"), "and whose log is legal", judged.stdout.decode().splitlines()[-1])


def new_log_of_two(place):
    """Two sites that begin at once with one log: it has one site's lines, whole."""
    wrong, said = [], set()
    for turn in range(60):
        log = place.folder / f"{turn}.log"
        starts = [Service(place, place.folder / f"{turn}.{site}.db", "--create", "--log", log, site=site) for site in range(2)]
        both = [service.call("announce a 9") for service in starts]
        for service, told in zip(starts, both):
            if told == "announced 1":
                service.call("leave a 9")
                service.end()
        said |= set(both)
        judged = subprocess.run([place.program, "judge", "--layout", place.two], input=files(log)[0], capture_output=True, check=False)
        verdict = judged.stdout.decode().splitlines()[-1]
        if verdict != "consistent" or both.count("announced 1") != 1:
            wrong.append(f"{both}, {verdict}")
    tell(not wrong, "60 times two sites that begin with one new log: one of them is served", wrong[0] + f", {len(wrong)} such" if wrong else ", ".join(sorted(said)))


# Layouts with more sites

def wider(place):
    store, three = place.store("s.db"), place.layout("three", 3, A)
    before = files(store)
    said = place.ask(store, "show", "a", layout=three)
    tell(said == "store refused WrongLayout 5" and files(store) == before, "a look with a layout of more sites", said)
    tell(place.is_kept(store), "the store is served under its own layout", place.ask(store, "sessions", "a"))
    tell(place.is_kept(store) and place.ask(store, "--grow", "sessions", "a") == KEPT, "--grow changes nothing where the layout is the store's own")
    said = place.ask(store, "--grow", "sessions", "a", layout=three)
    tell(said == KEPT, "with --grow it is served under the wider one", said)
    said = place.ask(store, "sessions", "a"), place.ask(store, "--grow", "sessions", "a"), place.ask(store, "sessions", "a", layout=three)
    tell(said == ("store refused WrongLayout 5", "store refused WrongLayout 5", KEPT), "and from then on under no other", ", ".join(said))
    tell(place.is_kept(store, layout=three), "its writer is inside, alone")


# Deltas on their way

def damaged(place):
    """Each digit and letter of a delta, and of its mark, as another one."""
    zero = Service(place, place.folder / "0.db", "--create")
    one = Service(place, place.folder / "1.db", "--create", site=1)
    for line in ("read a 7", "give a 1 1", "announce a 9"):
        zero.call(line)
    text, before = zero.call("send"), [one.call(line) for line in ("show a", "sessions a", "send")]
    start, said = text.find("{"), {}
    for at, old in enumerate(text):
        for new in {"0": "1", "9": "8"}.get(old, chr(ord(old) + 1)), " ", "A":
            if new != old:
                said.setdefault(one.call(f"take {text[:at]}{new}{text[at + 1:]}"), []).append(at)
    allowed = {"refused Damaged"} if start == 0 else {"refused Damaged", "refused NoMark", "refused WrongGroup", "refused OtherRecords"}
    told = ", ".join(f"{reply} {len(places)} times" for reply, places in said.items())
    tell(set(said) <= allowed and all(at < start for reply in set(said) - {"refused Damaged"} for at in said[reply]), "each byte of a delta as another one", told)
    said = [one.call(f"take {text[:cut]}") for cut in range(len(text))] + [one.call(f"take {text}{more}") for more in (" ", "}", text)]
    tell(set(said) <= {"refused Damaged", "refused NoMark"}, "each front of a delta, and a longer one", ", ".join(sorted(set(said))))
    tell([one.call(line) for line in ("show a", "sessions a", "send")] == before, "none of them changed anything")
    last = one.call(f"take {text}")
    tell(last == "merged 3" and one.call("show a") == "rights 1 inside 0 unfinished 0", "the delta itself is taken", last)
    tell(one.call("read a 5") == "refused WriterAnnounced 0" and (zero.end(), one.end()) == ("0", "0"), "and keeps readers from the writer")


def plain(place):
    marked = Service(place, place.folder / "0.db", "--create")
    bare = Service(place, place.folder / "1.db", "--create", "--plain", site=1)
    other = place.start("site", place.folder / "2.db", stdin=PIPE)
    marked.call("announce a 9")
    bare.call("announce a 8")
    said = marked.call(f"take {bare.call('send')}"), bare.call(f"take {marked.call('send')}")
    tell(said == ("refused NoMark", "refused NotJson"), "a plain delta for a site with marks, and one with a mark for a plain site", ", ".join(said))
    tell((marked.call("show a"), bare.call("show a")) == ("rights 3 inside 0 unfinished 1", "rights 0 inside 0 unfinished 1"), "change nothing")
    other.stdin.write(f"take {bare.call('send')}\nannounce a 7\nsend\n".encode())
    other.stdin.close()
    other.stdin = None
    said = answer(other).split("; ")
    said = [*said[:2], bare.call(f"take {said[-1]}")]
    tell(said == ["merged 1", "announced 1", "merged 1"], "a plain site and `site` take each other's", ", ".join(said))
    tell((marked.end(), bare.end()) == ("0", "0"), "both end with 0")
    said = place.ask(place.folder / "3.db", "--create", "--plain", "--group", "crew", "show", "a")
    tell(said == "group refused Plain 2" and not (place.folder / "3.db").exists(), "--plain beside --group", said)


def groups(place):
    said = {place.ask(place.folder / "none.db", "--create", "--group", word, "send") for word in GROUP_WORDS}
    tell(said == {"group refused BadWord 2"} and not (place.folder / "none.db").exists(), "each word that begins a reply as the name of a group", ", ".join(sorted(said)))
    store = place.store("s.db", "--group", "crew")
    database(store, "UPDATE meta SET value = '0 refused' WHERE name = 'site'")
    before = files(store)
    said = place.ask(store, "send"), place.ask(store, "--group", "crew", "send"), place.ask(store, "--group", "refused", "send")
    tell(said == ("store refused WrongGroup 5",) * 2 + ("group refused BadWord 2",) and files(store) == before, "a store of such a group", ", ".join(said))
    database(store, "UPDATE meta SET value = '0 crew' WHERE name = 'site'")
    tell(place.ask(store, "--group", "crew", "sessions", "a") == KEPT, "the store of its own group is served")


# A file that is taken away while its site is served

def taken_away(place):
    """Each way in which a path comes to lead to something else: nothing is answered that is lost with the file, of lines one by one and in rounds."""
    def move(store):
        store.rename(store.with_name("aside.db"))

    def remove(store):
        store.unlink()

    def replace(store):
        copy = store.with_name("copy.db")
        copy.write_bytes(store.read_bytes())
        copy.replace(store)

    def folder(store):
        store.unlink()
        store.mkdir()

    def file_above(store):
        above = store.parent
        above.rename(above.with_name(above.name + ".aside"))
        above.write_bytes(b"")

    for words in ((), ("--together", "8")):
        for way in (move, remove, replace, folder, file_above):
            for line in ("read a 5", "sessions a", "send", "leave a 9", "reed"):
                name = ".".join((way.__name__, line.split()[0], *words[1:]))
                (place.folder / name).mkdir()
                store = place.store(f"{name}/s.db")
                service = Service(place, store, *words)
                before = service.call("sessions a")
                way(store)
                said = service.call(line), service.call("sessions a"), service.call("leave a 9"), service.end()
                tell(before == KEPT and said == ("refused StoreFault", "refused Frozen", "refused Frozen", "5"), f"{name}: `{line}`", ", ".join(said))
    aside = place.folder / "move.read" / "aside.db"
    aside.rename(aside.with_name("s.db"))
    tell(place.is_kept(aside.with_name("s.db")), "a file that is put back is served, and its writer is inside")
    store = place.store("s.db")
    service = Service(place, store)
    move(store)
    store.with_name("aside.db").rename(store)
    said = service.call("sessions a"), service.call("read a 5"), service.end()
    tell(said == (KEPT, "refused WriterAnnounced 0", "0"), "a file that is back before the next line", ", ".join(said))


def log_taken_away(place):
    """SQLite's log is taken away alone: without it the file is an older store, so nothing more is answered; what was answered is in the file once the service has ended."""
    def move(log):
        log.rename(log.with_name("aside"))

    def remove(log):
        log.unlink()

    def replace(log):
        copy = log.with_name("copy")
        copy.write_bytes(log.read_bytes())
        copy.replace(log)

    def replace_by_nothing(log):
        copy = log.with_name("copy")
        copy.write_bytes(b"")
        copy.replace(log)

    for words in ((), ("--together", "8")):
        for way in (move, remove, replace, replace_by_nothing):
            for through in ("s.db", "link.db"):
                name = ".".join((way.__name__, through, *words[1:]))
                (place.folder / name).mkdir()
                store = place.store(f"{name}/s.db")
                store.with_name("link.db").symlink_to("s.db")
                service = Service(place, store.with_name(through), *words)
                before = service.call("leave a 9")
                way(wal(store))
                said = service.call("read a 5"), service.call("sessions a"), service.end()
                tell(before == "left writer" and said == ("refused StoreFault", "refused Frozen", "5"), f"{name}: `read a 5`", ", ".join(said))
                tell(place.ask(store, "sessions", "a") == "0", "what was answered is in the file", place.ask(store, "sessions", "a"))


def file_alone(place):
    """Behind a normal end the file alone has all, so that it may be copied without SQLite's log."""
    for what, words in {"one by one": (), "in rounds": ("--together", "8")}.items():
        store = place.store(f"{len(words)}.db")
        service = Service(place, store, *words)
        said = [service.call(line) for line in ("leave a 9", "read a 5")], service.end()
        copy = place.folder / f"copy{len(words)}.db"
        shutil.copy(store, copy)
        found = place.ask(copy, "sessions", "a")
        tell(said == (["left writer", "admitted"], "0") and found == "1 5 reader", f"the file alone, behind lines that were answered {what}", found)
    store, copy = place.store("moved.db", "--group", "crew"), place.folder / "moved.copy.db"
    line = place.start("regroup", store, "--group", "crew").communicate(timeout=60)[0].decode()
    shutil.copy(store, copy)
    said = place.ask(copy, "--group", "crew.2", "sessions", "a"), place.ask(copy, "--group", "crew", "sessions", "a")
    tell(line.startswith("crew.2:moved ") and said == (KEPT, "store refused WrongGroup 5"), "the file alone, behind a move", ", ".join(said))
    texts = place.folder / "one.text"
    texts.write_text(line, "utf-8")
    built = place.folder / "built.db"
    with open(texts, "rb") as source:
        told = answer(place.start("rebuild", built, "--group", "crew.2", site=1, stdin=source))
    shutil.copy(built, place.folder / "built.copy.db")
    said = place.ask(place.folder / "built.copy.db", "--group", "crew.2", "show", "a", site=1)
    tell(said.startswith("rights 0 inside 0"), "the file alone, of a site that was built again", f"{told}; {said}")


def waits_in_rounds(place):
    """A service of rounds waits for the file as one of single lines does, and no longer than it is told."""
    store = place.store("s.db")
    first = Service(place, store)
    first.call("show a")
    second = Service(place, store, "--together", "8", "--wait", "20")
    time.sleep(0.5)
    ended = first.end()
    said = second.call("sessions a"), second.end()
    tell((ended, *said) == ("0", KEPT, "0"), "a service of rounds that waits for another to end", ", ".join(said))
    first = Service(place, store)
    first.call("show a")
    for words in ((), ("--together", "8")):
        began = time.monotonic()
        said = Service(place, store, "--wait", "3", *words).end()
        took = time.monotonic() - began
        tell(said == "store refused InUse 5" and 2.5 < took < 5.5, f"three seconds of waiting{' in rounds' if words else ''}", f"{said} behind {took:.1f} s")
    first.end()


def closed_streams(place):
    """A standard stream that the caller has closed: no file gets what is meant for it."""
    def ended(words, stream, source=b""):
        """The status of the program without one of its streams, and what it says on the others."""
        mine = {name: PIPE for name in ("stdin", "stdout", "stderr")}
        process = subprocess.Popen([place.program, *map(str, words)], cwd=place.folder, preexec_fn=lambda: os.close(stream), **mine)
        output, errors = process.communicate(source, timeout=60)
        return process.returncode, (output + errors).decode(errors="replace")

    log = place.folder / "s.log"
    store = place.store("s.db", "--log", log)
    words = ("--site", 0, "--store", store, "--layout", place.two, "--log", log)
    said = ended(("ask", *words, "leave", "a", "9"), 1)
    again = place.ask(store, "--log", log, "sessions", "a")
    tell(said[0] == 7 and again == "0" and b"\nleft" not in files(log)[0], "a call whose reply can't be written, at a site with a log", f"{said}, then {again}")
    said = ended(("serve", *words), 0)
    tell(said[0] == 7, "a service without standard input", str(said))
    out = place.folder / "run.log"
    said = ended(("run", "--out", out), 1, b"0 read a 7\n0 leave a 7\n")
    tell(said[0] == 7 and not out.exists() and not out.with_name("run.log.part").exists(), "a run whose replies can't be written", str(said))


def out_takes_its_place(place):
    """FILE of `run --out` is written beside it and then takes its place, also where an empty file stands there."""
    out = place.folder / "run.log"
    for what, text in {"an empty file": b"", "a file": b"before\n"}.items():
        out.write_bytes(text)
        before = out.stat().st_ino
        with open(out, "rb") as held:  # so that its number is not given to the next one
            done = subprocess.run([place.program, "run", "--out", out], input=b"0 read a 7\n0 leave a 7\n", capture_output=True, check=False)
            kept = held.read()
        tell(done.returncode == 0 and out.stat().st_ino != before and kept == text and out.stat().st_size > 0, f"closed logs in the place of {what}", str(done.returncode))


def link_that_turns(place):
    """A path that is a link: what counts is the file where it leads."""
    store, other, link = place.store("s.db"), place.store("other.db"), place.folder / "link.db"
    link.symlink_to("s.db")
    first = place.ask(link, "sessions", "a")
    if first != KEPT:
        tell(first.startswith("store refused"), "a store behind a link is refused", first)
        return
    service = Service(place, link)
    kept = service.call("sessions a")
    link.unlink()
    link.symlink_to("other.db")
    said = service.call("leave a 9"), service.call("sessions a"), service.end()
    tell(kept == KEPT and said == ("refused StoreFault", "refused Frozen", "5"), "a link that leads to another store", ", ".join(said))
    tell(place.is_kept(store) and place.is_kept(other), "both stores are as they were")


def other_file_system(place):
    """At the path of a store another file system is mounted, whose file there has the store's number and the store's bytes."""
    top, mounts = place.folder / "top", []
    top.mkdir()

    def mount():
        tried = subprocess.run(["mount", "-t", "tmpfs", "none", top], capture_output=True, check=False)
        mounts.extend([top] * (tried.returncode == 0))
        return tried.returncode == 0

    try:
        if not mount():
            print("left out: two file systems, since none may be mounted here")
            return
        store = place.store("top/s.db")
        service = Service(place, store)
        before, number, text = service.call("sessions a"), store.stat().st_ino, store.read_bytes()
        if not mount():
            raise AssertionError("a second file system is not mounted")
        for other in range(100_000):
            made = top / str(other)
            made.write_bytes(text)
            if made.stat().st_ino >= number:
                break
        made.rename(store)
        tell(store.stat().st_ino == number, "another file system has a file with the store's number at the store's path", str(number))
        said = service.call("read a 5"), service.call("sessions a"), service.call("leave a 9"), service.end()
        tell(before == KEPT and said == ("refused StoreFault", "refused Frozen", "refused Frozen", "5"), "which is not taken for the store", ", ".join(said))
        subprocess.run(["umount", mounts.pop()], check=True)
        tell(place.is_kept(store), "the store is served once it is there again", place.ask(store, "sessions", "a"))
    finally:
        for mounted in mounts:
            subprocess.run(["umount", "-l", mounted], check=False)


def replaced_while_its_log_is_read(place):
    """Another store comes to the path of a new one, whose log is refused behind that: it stays. The log is a terminal, so that it ends when it is told to."""
    other, new = place.store("other.db"), place.folder / "new.db"
    kept = files(other)
    ours, theirs = os.openpty()
    start = place.start("ask", new, "--create", "--log", os.ttyname(theirs), "show", "a")
    late = time.monotonic() + 20
    while not (wal(new).exists() and wal(new).stat().st_size > 0) and start.poll() is None and time.monotonic() < late:
        time.sleep(0.01)
    time.sleep(0.5)
    is_read = start.poll() is None
    other.replace(new)
    os.write(ours, b"a letter to a friend\n\x04")
    said = answer(start)
    os.close(theirs)
    os.close(ours)
    tell(is_read and said == "log refused NotTranscript 8" and files(new) == kept, "another store at the path of a new one whose log is refused", f"{said}, {'as it was' if files(new) == kept else 'changed'}")
    tell(place.is_kept(new), "that store is served", place.ask(new, "sessions", "a"))


def taken_away_with_a_log(place):
    """The log has no entry of a line that was not carried out."""
    store, log = place.folder / "s.db", place.folder / "s.log"
    service = Service(place, store, "--create", "--log", str(log))
    service.call("announce a 9")
    service.call("write a 9")
    before = files(log)
    store.rename(place.folder / "aside.db")
    said = service.call("leave a 9"), service.end()
    tell(said == ("refused StoreFault", "5") and files(log) == before, "a line at a site with a log", ", ".join(said))
    (place.folder / "aside.db").rename(store)
    again = Service(place, store, "--log", str(log))
    said = again.call("sessions a"), again.end()
    tell(said == (KEPT, "0"), "the store and the log go together again", ", ".join(said))


CASES = (layouts, other_layouts, client_layouts, moved, vanished, taken_away, log_taken_away, file_alone, waits_in_rounds, closed_streams, out_takes_its_place,
         link_that_turns, other_file_system, taken_away_with_a_log,
         replaced_while_its_log_is_read, restored, created_twice, missing_folder, cut_lines, foreign, older_tables,
         newer_tables, first_version, text_as_log, made_through_a_link, fronts_of_logs, log_is_store, log_of_two, new_log_of_two, wider, damaged, plain, groups)


def main():
    parser = argparse.ArgumentParser(description=__doc__.splitlines()[0])
    parser.add_argument("--program", default=str(TOP / "seat_cli"))
    parser.add_argument("--only", nargs="+", choices=[case.__name__ for case in CASES], help="the cases to try")
    options = parser.parse_args()
    signal.alarm(1800)  # whatever a program does, this ends
    for case in CASES:
        if options.only and case.__name__ not in options.only:
            continue
        print(case.__name__, flush=True)
        with tempfile.TemporaryDirectory(prefix="edge.") as folder:
            try:
                case(Place(os.path.abspath(options.program), pathlib.Path(folder)))
            except Exception as error:  # a case that can't go on has failed
                tell(False, f"{case.__name__} could not go on", f"{type(error).__name__}: {error}")
    print(f"{TOLD[True]} passed, {TOLD[False]} failed")
    return 1 if TOLD[False] else 0


if __name__ == "__main__":
    sys.exit(main())
