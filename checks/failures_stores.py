"""Faults of disks, stores and clocks, for the table in checks/failures_table.py."""
import copy
import errno
import re
import time

from failures_nodes import DAY, free_ports
from failures_table import FROZEN, IN_LOG, NOT_ADMITTING, OUT_OF_DATE, fault


# Disks

def writable_again(day, one):
    """Behind a disk that failed: a store that has frozen needs a new start of the node, a file of sessions alone does not."""
    if "the store answers" in one.tells("health") or "exchange has ended" in one.tells("health"):
        one.restart()
    else:
        day.now()
        yield 30, [("health", one, "^200 "), ("log", one, "the file of sessions can be written again")]


@fault("a full disk", disk=True)
def full_disk(day):
    one = day.victim()
    one.disk.fill()
    yield 60, [("change", one, FROZEN), ("health", one, NOT_ADMITTING), ("log", one, IN_LOG)]
    one.disk.free()
    yield from writable_again(day, one)


@fault("a disk that is full when the node starts", disk=True)
def full_start(day):
    one = day.victim()
    one.stop()
    one.disk.fill()
    one.set_mark()
    day.now()
    one.start()
    yield 60, [("start or change", one, f"{FROZEN}|store refused StoreFault|disk is full")]
    one.disk.free()
    one.restart()


@fault("a disk that is read-only while its store is served")
def read_only(day):
    one = day.victim()
    one.control.fail(errno.EROFS)
    yield 60, [("change", one, FROZEN), ("health", one, NOT_ADMITTING), ("log", one, IN_LOG)]
    one.control.clear()
    yield from writable_again(day, one)


@fault("a disk that is read-only when the node starts", disk=True)
def read_only_start(day):
    one = day.victim()
    one.stop()
    one.disk.remount("ro")
    day.now()
    one.start()
    yield 60, [("start", one, "store refused StoreFault")]
    one.disk.remount("rw")
    one.start()
    one.wait_up()


@fault("a slow disk")
def slow_disk(day):
    one = day.victim()
    one.change()
    one.set_mark()
    one.control.slow(day.chance.choice([0.05, 0.1]))
    yield 60, [("calls", one, "seconds")]
    day.traffic(5)
    one.control.clear()


@fault("an error at the n-th write")
def one_error(day):
    one = day.victim()
    one.control.fail(errno.EIO, day.chance.randrange(80), 1)
    end = time.monotonic() + 40
    while not one.control.counted()[1] and time.monotonic() < end:
        one.change()
    if not one.control.counted()[1]:
        one.control.clear()
        raise AssertionError("no write failed")
    day.now()
    # A write of the file of sessions, or into the database behind the commit, may fail without a consequence.
    yield 10, [("change", one, FROZEN, "perhaps"), ("health", one, NOT_ADMITTING, "perhaps"), ("log", one, IN_LOG, "perhaps")]
    one.control.clear()
    one.restart()


# Stores

@fault("a store that is moved while it is served")
def moved(day):
    one = day.victim()
    away = one.disk.folder / "away"
    away.mkdir()
    files = [path for path in one.files() if "sessions" not in path.name]
    for path in files:
        path.rename(away / path.name)
    yield 30, [("change", one, FROZEN), ("health", one, NOT_ADMITTING), ("log", one, IN_LOG)]
    one.stop()
    for path in files:
        (away / path.name).rename(path)
    away.rmdir()
    one.start()
    one.wait_up()


@fault("a store that is copied, and put back before any call")
def put_back(day):
    one = day.victim()
    one.stop()
    copied = day.folder / "copied"
    one.copy_store(copied)
    one.put_store(copied)
    one.start()
    one.wait_up()


def wrong_start(day, one, words, put, back):
    """A start of a node with something that is not its own: it is refused, and behind that all is put back."""
    one.stop()
    kept = day.folder / f"kept_{one.site}"
    one.copy_store(kept)
    put()
    one.set_mark()
    day.now()
    one.start()
    yield 60, [("start", one, words)]
    back(kept)
    one.start()
    one.wait_up()


@fault("the store of another site at the path")
def other_site(day):
    one = day.victim()
    theirs = day.folder / "theirs"
    day.other(one).copy_store(theirs)
    yield from wrong_start(day, one, "store refused WrongSite", lambda: one.put_store(theirs), one.put_store)


@fault("a layout file of another layout")
def other_layout(day):
    one, right = day.victim(), day.folder / "layout.toml"
    text = right.read_text()
    wrong = day.folder / "other_layout.toml"
    wrong.write_text(text.replace("sites = 3", "sites = 4") if day.chance.random() < 0.5 else text.replace("seats = 12", "seats = 13"))

    def set_layout(path):
        one.layout = path
        one.write()
    yield from wrong_start(day, one, "store refused WrongLayout", lambda: set_layout(wrong), lambda kept: set_layout(right))


@fault("a node's file with another group")
def other_group(day):
    one = day.victim()
    right = one.group

    def set_group(name):
        one.group = name
        one.write()
    # The certificate is looked at behind the store.
    yield from wrong_start(day, one, "store refused WrongGroup", lambda: set_group("calm"), lambda kept: set_group(right))


def age(day, one):
    """Makes the copy of a store old: callers of its site come and go."""
    old = day.folder / "old"
    one.stop()
    one.copy_store(old)
    one.start()
    one.wait_up()
    day.progress(time.time_ns(), sites=[one.site])
    one.stop()
    one.set_mark()
    day.now()
    return old


@fault("an old store that is served, peers at hand", void=True)
def old_store(day):
    one = day.victim()
    one.put_store(age(day, one))
    one.start()
    yield 60, [("start", one, "OwnRowAhead")]
    one.set_mark()
    one.start()
    yield 60, [("start", one, "store refused Outdated")]


@fault("an old store that is served, cut off", void=True)
def old_store_alone(day):
    one = day.victim()
    old = age(day, one)
    day.links.cut_off(one.site)
    one.put_store(old)
    one.start()
    one.wait_up()
    day.traffic(5)
    one.set_mark()
    one.mend()
    day.now()
    yield 90, [("health", one, "^503 .*OwnRowAhead"), ("log", one, "OwnRowAhead"), ("status", one, "^nobody gets in: .*OwnRowAhead"), ("change", one, "refused Frozen")]
    one.stop()
    one.set_mark()
    day.now()
    one.start()
    yield 60, [("start", one, "store refused Outdated")]


@fault("a store that is made again, peers at hand", void=True)
def made_again(day):
    one = day.victim()
    one.stop()
    one.remove_store()
    one.set_mark()
    day.now()
    one.start("--create")
    yield 60, [("start", one, "OwnRowAhead")]


@fault("a store that is made again, cut off", void=True)
def made_again_alone(day):
    one = day.victim()
    one.stop()
    one.remove_store()
    day.links.cut_off(one.site)
    one.start("--create")
    one.wait_up()
    one.change()
    one.set_mark()
    one.mend()
    day.now()
    yield 90, [("log", one, "OwnRowAhead"), ("health", one, "^503 .*OwnRowAhead"), ("status", one, "^nobody gets in: .*OwnRowAhead")]


def twin_of(day, one):
    """A second node of a site, over a copy of its store; it only connects. Both are ended yet."""
    one.stop()
    twin = copy.copy(one)
    twin.disk = copy.copy(one.disk)
    twin.disk.folder = one.disk.folder / "twin"
    twin.store, twin.page = twin.disk.folder / "site.db", free_ports(1)[0]
    twin.socket, twin.config, twin.errors = (day.folder / f"twin.{part}" for part in ("sock", "toml", "errors"))
    one.copy_store(twin.disk.folder)
    twin.write()
    box = day.folder / "box_twin"
    box.mkdir()
    text = re.sub(r"^listen = .*\n", "", twin.config.read_text(), flags=re.M)
    twin.config.write_text(text.replace(str(day.links.boxes[one.site]), str(box)))
    return twin


def start_twin(day, twin):
    twin.start()
    day.others.append(twin.process)
    twin.set_mark()


class Both:
    """Two nodes of a site: what either tells."""

    def __init__(self, *nodes):
        self.nodes, self.site = nodes, nodes[0].site

    def tells(self, where):
        return "\n".join(node.tells(where) for node in self.nodes)


@fault("two stores of one site, peers at hand", void=True)
def two_stores(day):
    one = day.victim()
    twin = twin_of(day, one)
    one.start()
    one.wait_up()
    day.progress(time.time_ns(), sites=[one.site])
    day.now()
    start_twin(day, twin)
    yield 60, [("start", twin, "OwnRowAhead")]


@fault("two stores of one site, both cut off at first", void=True)
def two_stores_alone(day):
    one = day.victim()
    twin = twin_of(day, one)
    day.links.cut_off(one.site)
    one.start()
    start_twin(day, twin)
    one.wait_up()
    twin.wait_up()
    twin.change()
    one.change()
    day.traffic(5)
    one.mend()
    day.now()
    both = Both(one, twin)
    yield 90, [("log", both, "OwnRowAhead"), ("health", both, "^503 .*OwnRowAhead"), ("metrics", both, '"OtherRun"} [1-9]', "perhaps"),
               ("status", both, "^nobody gets in: .*OwnRowAhead")]


# Clocks

def jump(day, seconds):
    one = day.victim()
    one.control.clock(seconds)
    day.traffic(6)
    day.must_tell(f"status of site {one.site}", one.tells("status"), "^a +")
    one.control.clear()
    day.traffic(2)


@fault("a clock that jumps an hour ahead and back")
def clock_ahead(day):
    jump(day, 3600)


@fault("a clock that jumps an hour back and ahead")
def clock_back(day):
    jump(day, -3600)


@fault("a clock that jumps twelve years ahead")
def clock_far(day):
    one = day.victim()
    other = day.other(one)
    one.control.clock(12 * 365 * DAY)
    yield 60, [("status", other, rf"^peer {one.site}: not connected \((BadLine|Refused|BadCertificate|Cut|Closed)")]
    one.control.clear()
    one.restart()


@fault("a start with the clock an hour back")
def start_back(day):
    one = day.victim()
    one.stop()
    one.control.clock(-3600)
    one.start()
    one.wait_up()
    day.traffic(5)
    one.control.clear()


@fault("a start with the clock an hour ahead, then one with the right clock")
def start_ahead(day):
    one = day.victim()
    one.stop()
    one.control.clock(3600)
    one.start()
    one.wait_up()
    day.traffic(5)
    one.stop()
    one.control.clear()
    one.start()
    one.wait_up()
    # Sessions of before have times that are to come.
    one.began = float("inf")


@fault("a start with the clock outside the time of its certificate")
def start_late(day):
    one = day.victim()
    one.stop()
    one.control.clock(day.chance.choice([40 * DAY, -10 * DAY]))
    one.set_mark()
    day.now()
    one.start()
    yield 60, [("start", one, OUT_OF_DATE)]
    one.control.clear()
    one.start()
    one.wait_up()
