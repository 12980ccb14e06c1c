#!/usr/bin/env python3
"""Random histories in which sites lose their stores and are built again, over processes of `serve`.

Usage: checks/rebuild.py [--program PATH] [--seed S ..] [--histories N] [--calls N] [--forged] [--folder FOLDER]

A history has 2 to 16 sites. Callers come and go at all of them; the script carries deltas, of which some are lost, late or
repeated, cuts links, kills services as they carry out a line, and adds a site. At a random moment one to three stores are
deleted. The sites that are left are moved to the next generation at different times, and each goes on to serve; texts of
the old group go on arriving. Each lost site is built again while the others serve. Then so many calls are made; now and then
stores are lost a second time. Moves and rebuilds are killed, too.

All lines come one after the other, so a seed gives the same history again, but for what a kill finds. It must hold that nobody
is inside together with a writer, by the times at which callers came and went; that `show` of all sites never tells of more
seats than a record has; that texts of another group are refused, and no other is; that after a kill the sessions are those
that were answered; that fencing numbers grow; and in the end, once everybody has left and all texts were carried, that all
seats are there, and that readers and a writer get in at every site.

Then histories are tried in which sites are built again of texts from before the move, with the mark written by hand: until in
one of them seats are lost or doubled. With --forged all histories are such, so the check fails. With `--program stand-in` all
runs over checks/stand_in.py: then nothing is said of the program.

Prints a line for each seed, and ends with 1 where something went wrong."""
import argparse
import collections
import pathlib
import random
import shutil
import sys
import tempfile
import time

from rebuild_sites import Broken, IN_FLIGHT, Site, World, broken, run

TOP = pathlib.Path(__file__).resolve().parent.parent
# How many histories with a mark by hand are tried, at most.
FORGED = 100


def joined(lines):
    return "".join(it + "\n" for it in lines).encode()


class History(World):
    """One history."""

    def __init__(self, program, folder, rng, calls, forged):
        super().__init__(program, folder, rng)
        self.after, self.forged = calls, forged
        self.most = rng.choice([2, 3, 3, 4, 4, 5, 6, 8, 12, 16])
        self.first = max(1, self.most - rng.choice([0, 0, 1, 1, 2]))
        self.write_layouts(*{self.first, self.most})
        self.sites = [Site(self, number) for number in range(self.most)]
        self.grows, self.may_grow = self.first == self.most, True
        self.cuts, self.newest, self.fences = set(), "east", collections.Counter()
        for site in self.sites[: self.first]:
            self.begin(site, "east", self.first)

    def begin(self, site, group, known):
        """Starts a site that never began."""
        site.group, site.known = group, known
        site.open("--create")
        self.done["sites begun"] += 1

    def served(self):
        return [it for it in self.sites if it.service]

    # What happens while sites are served

    def events(self, number):
        """So many random lines, and what else happens meanwhile."""
        while number > 0 and self.served():
            what, served = self.rng.random(), self.served()
            site = self.rng.choice(served)
            if what < 0.006:
                site.die(self.a_line(site) if self.rng.random() < 0.8 else None, self.rng.random() * IN_FLIGHT)
                self.done["services killed"] += 1
            elif what < 0.016:
                self.cut()
            elif what < 0.026:
                self.look()
            elif what < 0.029:
                self.grow(site)
            else:
                self.carry_out(site, self.a_line(site))
                number -= 1

    def cut(self):
        """Cuts a link, or mends all."""
        if self.rng.random() < 0.3 or len(self.sites) < 2:
            self.cuts = set()
        else:
            self.cuts.add(frozenset(self.rng.sample(range(len(self.sites)), 2)))
            self.done["links cut"] += 1

    def look(self):
        """All sites together never have more seats than the record."""
        for record, seats in self.records.items():
            found = [site.show(record) for site in self.served()]
            total = sum(map(sum, found))
            broken(total > seats, "seats", f"record {record}: {total} of {seats} seats, by site {found}")

    def grow(self, site):
        """A site is started with all sites of the layout, or one of the new ones begins."""
        if not self.grows and not self.may_grow:
            return
        if site.known < self.most:
            self.grows = True
            site.close()
            site.known = self.most
            site.open("--grow")
            self.done["sites grown"] += 1
        elif self.missing() and self.may_grow:
            self.begin(self.rng.choice(self.missing()), site.group, self.most)

    def missing(self):
        """The sites that never began."""
        return [it for it in self.sites if it.group is None]

    def a_line(self, site):
        rng, kind = self.rng, self.rng.random()
        record = rng.choice(list(self.records))
        here = list(site.sessions[record].items())
        if kind < 0.2:
            site.holder += 1
            return f"{'read' if rng.random() < 0.9 or here else 'announce'} {record} {site.holder}"
        if kind < 0.42 and here:
            holder, phase = rng.choice(here)
            return f"{'write' if phase == 'waiting' and rng.random() < 0.8 else 'leave'} {record} {holder}"
        if kind < 0.54:
            return f"help {record}"
        if kind < 0.57:
            return f"give {record} {rng.randrange(site.known)} {rng.randrange(1, 4)}"
        text = self.a_text(site)
        return "send" if kind < 0.72 or text is None else f"take {text}"

    def a_text(self, site):
        """A text that arrives: mostly a late one, of any group, if its link is not cut."""
        if not self.texts:
            return None
        recent = self.texts[-2 * self.most:]
        sender, text = self.rng.choice(recent if self.rng.random() < 0.85 else self.texts)
        return None if frozenset({sender, site.number}) in self.cuts else text

    def carry_out(self, site, line):
        reply = site.call(line)
        verb, record, holder = (line.split(" ", 2) + ["", ""])[:3]
        if verb == "take":
            group = record
            allowed = "refused OtherLayout" if site.known < self.most else "merged"
            foreign = group != site.group
            right = reply == "refused WrongGroup" if foreign else reply.startswith(("merged ", allowed))
            self.done["texts of another group refused"] += foreign
            broken(not right, "else", f"site {site.number} in {site.group}: {line[:40]} .. -> {reply}")
        elif reply.startswith("refused "):
            wrong = reply.startswith(("refused StoreFault", "refused Frozen", "refused BadWord", "refused Memory", "refused CounterFull"))
            broken(wrong, "else", f"site {site.number}: {line} -> {reply}")
        elif reply == "admitted":
            self.compare_fence(site, record, holder)
        return reply

    def compare_fence(self, site, record, holder):
        """The number of a session is greater than that of each writer that left before."""
        word, _, number = site.call(f"fence {record} {holder}").partition(" ")
        broken(word != "fence" or int(number) <= self.fences[record], "else", f"fence {record} {holder} at site {site.number}: {word} {number}")
        if site.sessions[record][holder] == "writer":
            self.fences[record] = int(number)

    # Losses

    def lose(self):
        """Loses one to three stores, has the other sites moved, and has the lost ones built again. Now and then one more is lost
        meanwhile."""
        began = [it for it in self.sites if it.group]
        most = max(1, len(began) - (self.rng.random() < 0.95))
        lost = self.rng.sample(began, min(self.rng.choice([1, 1, 1, 2, 2, 3]), most))
        self.hand_on(lost)
        self.delete(lost)
        while lost:
            one_more = self.build_all(lost)
            lost = [it for it in lost if not it.service] + one_more if one_more else []
            self.delete(one_more)
        self.may_grow = True

    def delete(self, lost):
        """Deletes stores, and has the callers of these sites end."""
        for site in lost:
            site.close(kill=True)
            for path in pathlib.Path(self.folder).glob(f"site_{site.number}.db*"):
                path.unlink()
            for record, here in site.sessions.items():
                for holder in here:
                    self.leaves(record, (site.number, holder))
                site.sessions[record] = {}
            self.done["stores deleted"] += 1

    def build_all(self, lost):
        """Has the sites that are left moved and the lost ones built; gives the sites that were lost meanwhile."""
        self.may_grow = False
        self.events(self.rng.randrange(100))
        moved = self.move_all(lost)
        digests, early = set(), {s: self.rng.choice(texts[: len(texts) // 2 + 1]) for s, texts in self.early.items() if texts}
        for site in self.rng.sample(lost, len(lost)):
            self.events(self.rng.choice([0, 5, 40, 100]))
            if self.rng.random() < 0.08 and len(self.served()) > 1:
                self.done["stores deleted before a rebuild"] += 1
                return [self.rng.choice(self.served())]
            for giver in self.rng.choices(self.served(), k=self.rng.choice([0, 0, 4])) if self.served() else []:
                self.give(giver, self.rng.choice(lost), self.rng.choice(list(self.records)))
            digests.add(self.rebuild(site, lost, moved, early))
            self.look()
        broken(len(digests - {None}) > 1 and not self.forged, "else", f"built of different texts: {digests}")
        return []

    def hand_on(self, lost):
        """Now and then the sites that will be lost hand seats on before, to one another and to others."""
        left = [it for it in self.served() if it not in lost]
        record = self.rng.choice(list(self.records))
        if len(lost) > 1 and left and self.rng.random() < 0.5:
            self.give(lost[0], lost[1], record)
            self.give(lost[1], self.rng.choice(left), record)
        for site in self.rng.choices(lost, k=8) if self.forged or self.rng.random() < 0.5 else []:
            self.give(site, self.rng.choice(self.served()), self.rng.choice(list(self.records)))

    def give(self, site, other, record):
        """A site gives another one some of its free seats, perhaps all."""
        free = site.show(record)[0]
        self.carry_out(site, f"give {record} {other.number} {self.rng.choice([max(1, free), self.rng.randint(1, max(1, free))])}")
        text = site.call("send")
        if other.service and other is not site:
            self.carry_out(other, f"take {text}")

    def move_all(self, lost):
        """Moves the sites that are left, one by one, while the others serve; gives the texts that were printed. Where one was
        lost by a kill, and several sites are lost, all are moved once more."""
        while True:
            self.newest, moved, old = self.next_group(self.newest), {}, self.newest
            self.early = {it.number: it.texts for it in self.sites}
            waiting = self.rng.sample([it for it in self.sites if it not in lost], len(self.sites) - len(lost))
            for site in waiting:
                self.events(self.rng.choice([0, 5, 40, 100]))
                if site.group is None and not self.grows:
                    continue
                if site.group is None and len(lost) == 1:
                    self.begin(site, self.newest, self.most)
                    continue
                if site.group is None:
                    self.begin(site, old, self.most)
                if site.group != self.newest:
                    moved[site.number] = self.move(site)
            if len(lost) == 1 or None not in moved.values():
                return moved

    def move(self, site):
        site.close(kill=self.rng.random() < 0.5)
        text = site.move(self.rng.random() < 0.1)
        if self.rng.random() < 0.2 and site.known < self.most and self.grows:
            site.known = self.most
            site.open("--grow")
        else:
            site.open()
        self.done["sites moved"] += 1
        return text

    def rebuild(self, site, lost, moved, early):
        """Builds a lost site again; gives the digest of the texts."""
        alone, others = len(lost) == 1, [it.number for it in lost if it is not site]
        site.group, site.known = self.newest, self.most if self.grows else self.first
        lines = [self.a_delta(it, alone, moved) for it in self.sites if it.group and it not in lost]
        words = site.words("rebuild") + [it for j in others for it in ("--lost", str(j))]
        if self.forged:
            text, errors, status = run(self.program, words, joined(self.by_hand(it, alone, early) for it in lines))
            self.done["rebuilds of forged texts"] += status == 0
            self.done["forged texts refused"] += status != 0
        if not self.forged or status != 0:
            self.rng.shuffle(lines)
            data = joined(it for _, it in lines)
            kills = self.rng.random() < 0.1
            if kills:
                site.kill_command(words, data)
            text, errors, status = run(self.program, words, data)
            if kills and (errors, status) == ("store refused Exists", 5):
                text, status = "", 0
        broken(status != 0, "else", f"rebuild of site {site.number}, {len(lost)} lost: {text}{errors} {status}")
        site.texts = []
        site.open()
        self.done["sites built again"] += 1
        return text.splitlines()[-1] if others and text else None

    def a_delta(self, site, alone, moved):
        """The number of a site, and a text that it made in the new group."""
        texts = [moved[site.number]] if moved.get(site.number) else []
        if alone:
            texts += site.texts
            if not texts or self.rng.random() < 0.3:
                texts.append(site.call("send"))
        return site.number, self.rng.choice(texts)

    def by_hand(self, line, alone, early):
        """Such a line, or a text from before the move behind the mark of the new group."""
        number, text = line
        return f"{self.newest}{'' if alone else ':moved'} {early[number].split(' ', 1)[1]}" if number in early else text

    # The end

    def settle(self):
        """Everybody leaves, and all texts are carried: then all seats are there."""
        self.cuts, self.grows = set(), True
        for site in self.sites:
            if site.group is None:
                self.begin(site, self.newest, self.most)
            elif site.known < self.most:
                self.grow(site)
        for site in self.sites:
            for record, here in site.sessions.items():
                for holder in list(here):
                    self.carry_out(site, f"leave {record} {holder}")
        for _ in range(2):
            self.exchange()
        for record, seats in self.records.items():
            found = [site.show(record) for site in self.sites]
            broken(sum(map(sum, found)) != seats, "seats", f"record {record}: {found} of {seats} seats in the end")
            for site, (free, _) in zip(self.sites, found):
                reply = self.carry_out(site, f"read {record} 1")
                broken(free > 0 and reply != "admitted", "else", f"a reader of {record} at site {site.number} with {free} seats: {reply}")
                self.carry_out(site, f"leave {record} 1")

    def exchange(self):
        """Each site takes what each other one sends."""
        sent = [(site, site.call("send")) for site in self.sites]
        for site in self.sites:
            for sender, text in sent:
                if sender is not site:
                    self.carry_out(site, f"take {text}")

    def visit(self, site, record):
        """A writer gets in at a site."""
        site.holder += 1
        self.carry_out(site, f"announce {record} {site.holder}")
        text = site.call("send")
        for other in self.sites:
            if other is not site:
                self.carry_out(other, f"take {text}")
                self.carry_out(other, f"help {record}")
                self.carry_out(site, f"take {other.call('send')}")
        reply = self.carry_out(site, f"write {record} {site.holder}")
        broken(reply != "admitted", "seats", f"a writer of {record} at site {site.number}: {reply}")
        self.carry_out(site, f"leave {record} {site.holder}")

    def story(self):
        self.events(self.rng.choice([30, 100, 300, 600]))
        self.lose()
        self.events(self.after)
        if self.rng.random() < 0.25:
            self.lose()
            self.events(self.rng.choice([0, 100, 300]))
            self.done["histories with a second loss"] += 1
        self.settle()
        for record in self.records:
            for site in self.rng.sample(self.sites, len(self.sites)):
                self.visit(site, record)
        self.look()
        overlaps = self.overlaps()
        broken(overlaps, "alone", str(overlaps[:3]))
        for site in self.sites:
            site.close()


def history(given, seed, number, forged, done):
    """Carries out a history; gives what went wrong, or None."""
    folder = tempfile.mkdtemp(prefix="rebuild.", dir=given.folder)
    made = None
    try:
        made = History(given.program, folder, random.Random(f"{seed} {number} {forged}"), given.calls, forged)
        made.story()
        return None
    except Broken as fault:
        return fault
    finally:
        if made is not None:
            done += collections.Counter({"calls": made.calls}) + made.done
            for site in made.served():
                site.service.process.kill()
                site.service.end()
        if given.folder is None:
            shutil.rmtree(folder)


def main():
    parser = argparse.ArgumentParser(description=__doc__, formatter_class=argparse.RawDescriptionHelpFormatter)
    parser.add_argument("--program", default=str(TOP / "crates/seat_cli/out/seat_cli"))
    parser.add_argument("--seed", nargs="+", default=["1"])
    parser.add_argument("--histories", type=int, default=100, help="how many for each seed")
    parser.add_argument("--calls", type=int, default=1000, help="how many calls are made once all sites are built again")
    parser.add_argument("--forged", action="store_true")
    parser.add_argument("--folder", help="where the stores of each history stay")
    given = parser.parse_args()
    wrong = 0
    for seed in given.seed:
        began, done, faults = time.monotonic(), collections.Counter(), 0
        for number in range(given.histories):
            fault = history(given, seed, number, given.forged, done)
            if fault:
                print(f"FAILED  seed {seed}, history {number}: {fault.args[0]}: {fault.args[1]}", flush=True)
                faults += 1
        wrong += faults
        print(f"seed {seed}: {given.histories} histories in {time.monotonic() - began:.0f} s, {faults} went wrong; "
              + ", ".join(f"{what} {number:,}" for what, number in sorted(done.items())), flush=True)
    if not given.forged:
        done, faults = collections.Counter(), []
        while not faults and done["histories"] < FORGED:
            fault = history(argparse.Namespace(**vars(given) | {"calls": min(given.calls, 100)}), "forged", done["histories"], True, done)
            done["histories"] += 1
            faults += [fault] if fault and fault.args[0] in ("seats", "alone") else []
        print(f"{'ok    ' if faults else 'FAILED'}  texts from before the move, marked by hand: " + (
            f"in history {done['histories']} {faults[0].args[1]}" if faults else f"nothing went wrong in {FORGED} histories"))
        wrong += not faults
    return 1 if wrong else 0


if __name__ == "__main__":
    sys.exit(main())
