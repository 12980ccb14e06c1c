"""Faults of links, certificates, nodes, sites and callers, for the table in checks/failures_table.py."""
import os
import re
import signal
import time

from failures_nodes import free_ports
from failures_table import FROZEN, IN_LOG, NOT_ADMITTING, OUT_OF_DATE, fault
from rebuild_sites import World

NO_NODE = "no node answers"


# Links

@fault("links that are cut")
def cut(day):
    one = day.victim()
    other = day.other(one)
    one.cut()
    yield 30, [("status", other, rf"^peer {one.site}: not connected"), ("metrics", other, f'^zinduroi_peer_connected{{peer="{one.site}"}} 0')]
    day.traffic(day.chance.randrange(2, 12))
    one.mend()


@fault("links that are slow")
def slow_links(day):
    day.links.slow(day.chance.choice([0.3, 1.0, 2.0]))
    day.traffic(15)
    day.links.slow(0.0)


@fault("links that double and reorder texts")
def reorder(day):
    for one in day.nodes:
        one.cut()
    day.links.reorders = True
    began = time.time_ns()
    day.traffic(10)
    day.progress(began)
    day.links.reorders = False
    for one in day.nodes:
        one.mend()


@fault("a certificate that runs out")
def certificate(day):
    one = day.victim()
    other = day.other(one)
    day.links.certify(one.site, 30)
    ends = time.monotonic() + 31
    one.restart()
    day.traffic(max(0.0, ends - time.monotonic()))
    day.must_tell(f"behind its end, status of site {other.site}", other.tells("status"), f"^peer {one.site}: connected")
    one.cut()
    day.traffic(1)
    one.mend()
    day.now()
    yield 60, [("status", other, rf"^peer {one.site}: not connected \((BadCertificate|Refused)"), ("metrics", other, "^zinduroi_peer_failures_total.*BadCertificate"),
               ("status", one, rf"^peer {other.site}: not connected \((BadCertificate|Refused|Cut|Closed)")]
    one.stop()
    one.set_mark()
    day.now()
    one.start()
    yield 60, [("start", one, OUT_OF_DATE)]
    day.links.certify(one.site)
    one.start()
    one.wait_up()


# Nodes and programs

@fault("a node that is killed")
def killed(day):
    one = day.victim()
    one.kill()
    yield 10, [("status", one, NO_NODE)]
    day.traffic(day.chance.random() * 3)
    one.start()
    one.wait_up()
    yield 3, [("status", one, "^without a connection: .* by process", "perhaps")]


@fault("a node that is killed, while another one is cut off")
def killed_and_cut(day):
    one = day.victim()
    cut_off = day.other(one)
    third = day.other(one, cut_off)
    cut_off.cut()
    one.kill()
    yield 30, [("status", third, f"^peer {site}: not connected") for site in (one.site, cut_off.site)]
    day.traffic(day.chance.random() * 5)
    one.start()
    one.wait_up()
    day.traffic(day.chance.random() * 5)
    cut_off.mend()


@fault("a program that is killed")
def program_killed(day):
    one = day.victim()
    os.kill(one.service(), signal.SIGKILL)
    yield 30, [("log", one, "the service ended by signal 9; started anew")]


@fault("a node that is paused")
def paused(day):
    one = day.victim()
    other, end = day.other(one), time.monotonic() + day.given.pause
    one.send(signal.SIGSTOP)
    try:
        yield 40, [("status", other, rf"^peer {one.site}: not connected \((Silent|Stalled)"), ("status", one, NO_NODE), ("health", one, "no answer")]
        day.traffic(max(0.0, end - time.monotonic()))
    finally:
        one.send(signal.SIGCONT)


@fault("a program that is paused")
def program_paused(day):
    one = day.victim()
    service = one.service()
    os.kill(service, signal.SIGSTOP)
    try:
        yield 30, [("health", one, "^503 the program has not answered")]
    finally:
        os.kill(service, signal.SIGCONT)


@fault("a node that is killed while its program is paused")
def killed_over_paused(day):
    one = day.victim()
    service = one.service()
    os.kill(service, signal.SIGSTOP)
    try:
        one.kill()
        one.set_mark()
        day.now()
        one.start()
        yield 60, [("start", one, "store refused InUse: .*\nstatus 1$")]
    finally:
        os.kill(service, signal.SIGKILL)
    one.start()
    one.wait_up()


@fault("a node that is started twice")
def twice(day):
    one = day.victim()
    other = day.folder / "second.toml"
    other.write_text(one.config.read_text().replace(str(one.socket), str(day.folder / "second.sock")).replace(f":{one.page}", f":{free_ports(1)[0]}"))
    for config, words in ((one.config, "socket refused InUse"), (other, "store refused InUse")):
        errors = day.folder / "second_errors"
        errors.unlink(missing_ok=True)
        day.now()
        process = one.popen(one.words(config=config), errors)
        day.others.append(process)
        status = process.wait(60)
        day.must_tell("the second start", f"{errors.read_text() if errors.exists() else ''} status {status}".replace("\n", ""), f"{words}.* status 1")


# Lost sites

def recovered(day, lost):
    """Moves the sites that are left while the others serve, and builds the lost ones again."""
    to = World.next_group(day.nodes[0].group)
    (day.folder / f"recovery_{to}").mkdir()
    numbers = [one.site for one in lost]
    left = [one for one in day.nodes if one not in lost]
    for one in day.chance.sample(left, len(left)):
        day.must_tell(f"recover at site {lost[0].site}", day.recover(lost[0], to, numbers), f"^site {one.site}: no text of its move yet")
        one.stop()
        day.must_tell(f"recover at site {one.site}", day.recover(one, to, numbers), f"site {one.site} is in {to}$")
        serve(day, one, to)
        day.traffic(day.chance.random() * 3)
    for one in lost:
        day.must_tell(f"recover at site {one.site}", day.recover(one, to, numbers), f"site {one.site} is built again in {to}$")
        serve(day, one, to)


def serve(day, one, group):
    one.group = group
    one.write()
    one.start()
    one.wait_up()


def lose(day, one):
    """A store is gone while it is served, and so are the callers of its site."""
    one.remove_store()
    day.now()
    yield 30, [("change", one, FROZEN), ("health", one, NOT_ADMITTING), ("log", one, IN_LOG)]
    for caller in day.callers_of(one):
        caller.kill()
    one.kill()
    one.probes = {}
    one.remove_store()


@fault("a site that is lost in the middle of a hand-over, and built again; twice")
def lost(day):
    for _ in range(2):
        one, end = day.victim(), time.monotonic() + 20
        while not any(re.search("^wait for ", other.tells("status"), re.M) for other in day.nodes if other is not one) and time.monotonic() < end:
            time.sleep(0.1)
        yield from lose(day, one)
        day.now()
        recovered(day, [one])
        for caller in day.callers_of(one):
            caller.start()
        day.traffic(day.chance.random() * 3)


@fault("two sites that are lost, and built again")
def two_lost(day):
    both = day.chance.sample(day.nodes, 2)
    for one in both:
        yield from lose(day, one)
    day.now()
    recovered(day, both)
    for one in both:
        for caller in day.callers_of(one):
            caller.start()


@fault("a file of sessions that is lost with its node's callers")
def book_lost(day):
    one = day.victim()
    one.kill()
    for caller in day.callers_of(one):
        caller.kill()
    for path in one.files():
        if "sessions" in path.name:
            path.unlink()
    day.now()
    one.start()
    one.wait_up()
    # Those of the check's own are among them.
    one.probes = {}
    yield 10, [("status", one, r"^without a connection: p \?[0-9]+ reader, of nobody that this node knows")]
    for caller in day.callers_of(one):
        caller.start()


# Callers

def let_others_in(day, held):
    """Lets others in, and then has paused callers go on."""
    day.progress(time.time_ns(), sites={caller.site for caller in day.callers if not caller.stopped})
    day.traffic(1)
    for item in held:
        item[0].go_on()
    day.traffic(2)


@fault("callers that are paused inside, kept, and go on behind a leave")
def paused_kept(day):
    held = [it for it in (day.pause_inside(False) for _ in range(3)) if it]
    if not held:
        raise AssertionError("no caller was inside with a session that is kept")
    day.now()
    yield 10, [("status", it[1], f"^without a connection: {it[2]} {it[3]} ") for it in held]
    for it in held:
        day.must_tell(f"evict at site {it[1].site}", day.evict(it), "^left")
    let_others_in(day, held)


@fault("callers that are paused inside, and go on behind their node's end and a leave")
def paused_connected(day):
    it = day.pause_inside(True)
    if it is None:
        raise AssertionError("no caller was inside")
    day.must_tell(f"evict at site {it[1].site}", day.evict(it), "^refused InUse")
    it[1].kill()
    it[1].start()
    it[1].wait_up()
    day.now()
    yield 10, [("status", it[1], f"^without a connection: {it[2]} {it[3]} ")]
    day.must_tell(f"evict at site {it[1].site}", day.evict(it), "^left")
    let_others_in(day, [it])


@fault("callers that are killed inside")
def callers_killed(day):
    killed = 0
    for _ in range(3):
        it = day.pause_inside(True, 10)
        if it is not None:
            killed += 1
            it[0].kill()
            it[0].stopped = False
            day.traffic(0.5)
            it[0].start()
    if killed == 0:
        raise AssertionError("no caller was inside")
