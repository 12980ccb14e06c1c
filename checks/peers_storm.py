#!/usr/bin/env python3
"""Four sites over the transport `Peers`, each connected to each other one, whose links are cut and mended, and which end and begin
again, at random; then only the links of a line 0 - 1 - 2 - 3 are there, and texts go over two relays.

    checks/peers_storm.py [--seed S] [--seconds N]

Texts are counters, so the program is not needed; `openssl` is. At no site an older text of a site may come behind a newer one, in the
end each site has the last text of each other one within 20 seconds, nothing unexpected was counted, and no thread or open file is
left. Ends with 0 where that was so."""
import argparse
import os
import pathlib
import random
import sys
import tempfile
import threading
import time

TOP = pathlib.Path(__file__).resolve().parent.parent
sys.path.insert(0, str(TOP / "clients" / "python"))

from tests.test_peers import QUICK, Authority, Middle, free_ports  # noqa: E402
from zinduroi.peers import Peer, Peers  # noqa: E402

SITES = range(4)
PAIRS = [(near, far) for near in SITES for far in SITES if near != far]


class Storm:
    """The sites, and the links between them."""

    def __init__(self, folder):
        authority = Authority(folder / "authority")
        self.authority = authority.certificate
        self.given = [authority.give(f"site-{site}.zinduroi") for site in SITES]
        self.ports = free_ports(len(SITES))
        self.links = {pair: Middle(self.ports[pair[1]]) for pair in PAIRS}
        self.numbers, self.newest = [0 for _ in SITES], [{} for _ in SITES]
        self.older = self.cuts = self.starts = self.unexpected = 0
        self.sites = [self.begin(site) for site in SITES]

    def begin(self, site):
        peers = {far: Peer(f"127.0.0.1:{self.links[site, far].port}", set(SITES) - {site, far}) for far in SITES if far != site}
        return Peers(site, peers, f"127.0.0.1:{self.ports[site]}", self.authority, *self.given[site], timing=QUICK)

    def publish(self, site, size=0):
        self.numbers[site] += 1
        self.sites[site].publish(site, f"{site} {self.numbers[site]} " + "x" * size)

    def look(self, site):
        """Takes what arrived at a site."""
        for text in self.sites[site].messages():
            of, number = map(int, text.split(" ")[:2])
            if of != site:
                self.older += number < self.newest[site].get(of, 0)
                self.newest[site][of] = number

    def restart(self, site):
        self.end(site)
        self.sites[site], self.newest[site] = self.begin(site), {}
        self.publish(site)
        self.starts += 1

    def end(self, site):
        self.sites[site].close()
        self.unexpected += self.sites[site].failures()["Unexpected"]

    def step(self):
        """One of the random things that happen."""
        for site in SITES:
            if random.random() < 0.5:
                self.publish(site, random.choice([10, 10, 1000, 200_000]))
            self.look(site)
        chance, link = random.random(), random.choice(list(self.links.values()))
        if chance < 0.2:
            link.cut()
            self.cuts += 1
        elif chance < 0.5:
            link.open = True
        elif chance < 0.53:
            self.restart(random.choice(SITES))
        time.sleep(0.02)

    def have_all(self):
        for site in SITES:
            self.look(site)
        return all(self.newest[near].get(far) == self.numbers[far] for near, far in PAIRS)

    def settle(self):
        """Leaves only the links of the line, and waits; the seconds that it took, or `None`."""
        for (near, far), link in self.links.items():
            if abs(near - far) == 1:
                link.open = True
            else:
                link.cut()
        for site in SITES:
            self.publish(site)
        began = time.monotonic()
        while not self.have_all():
            if time.monotonic() - began > 20:
                return None
            time.sleep(0.01)
        return time.monotonic() - began

    def close(self):
        for site in SITES:
            self.end(site)
        for link in self.links.values():
            link.close()


def main():
    parser = argparse.ArgumentParser(description=__doc__, formatter_class=argparse.RawDescriptionHelpFormatter)
    parser.add_argument("--seed", type=int, default=1)
    parser.add_argument("--seconds", type=float, default=30)
    given = parser.parse_args()
    random.seed(given.seed)
    files = len(os.listdir("/proc/self/fd"))
    with tempfile.TemporaryDirectory() as folder:
        storm = Storm(pathlib.Path(folder))
        end = time.monotonic() + given.seconds
        while time.monotonic() < end:
            storm.step()
        took = storm.settle()
        storm.close()
    left = threading.active_count() - 1 + len(os.listdir("/proc/self/fd")) - files
    print(f"{sum(storm.numbers)} texts, {storm.cuts} cuts, {storm.starts} starts; all there after "
          f"{'more than 20' if took is None else f'{took:.2f}'} s; {storm.older} came behind a newer one, {storm.unexpected} unexpected "
          f"failures, {left} threads and files left")
    return 0 if took is not None and storm.older == storm.unexpected == left == 0 else 1


if __name__ == "__main__":
    sys.exit(main())
