"""What is between the nodes of checks/node.py: a folder, or `Peers` over namespaces of the network or over proxies on loopback. With
`Peers` somebody also tries to get in."""
import collections
import contextlib
import json
import os
import pathlib
import random
import socket
import ssl
import subprocess
import sys
import time

TOP = pathlib.Path(__file__).resolve().parent.parent
sys.path.insert(0, str(TOP / "clients/python"))

from tests.test_peers import Authority, Middle, free_ports  # noqa: E402
from zinduroi.peer_texts import Hello, hello_line  # noqa: E402

GROUP = "storm"
PORT = 7400


class FolderLinks:
    """A folder, to which each node has a link."""

    name = "a folder"

    def __init__(self, folder, sites):
        (folder / "deltas").mkdir()
        self.links = [folder / f"link_{site}" for site in range(sites)]
        for site in range(sites):
            self.mend(site)

    def table(self, site):
        """The transport, for a node's file."""
        return f'[[transport]]\nkind = "folder"\npath = "link_{site}"\n'

    def words(self, site):
        """What the command of a node begins with."""
        return []

    def cut(self, site):
        self.links[site].unlink(missing_ok=True)

    def mend(self, site):
        if not self.links[site].is_symlink():
            self.links[site].symlink_to("deltas")

    def attack(self, stop, seed):
        """Starts who tries to get in."""

    def faults(self):
        """What was wrong with that."""
        return []

    def close(self):
        """Takes all away."""


class PeersLinks:
    """`Peers` with certificates that are made here; `address` tells where one node reaches another one."""

    def __init__(self, folder, sites, insider):
        self.folder, self.sites = folder, range(sites)
        self.ours = ours = Authority(folder / "ours")
        theirs = Authority(folder / "theirs")
        self.authority = ours.certificate
        self.given = [ours.give(f"site-{site}.{GROUP}.zinduroi") for site in self.sites]
        self.other = (ours if insider else theirs).give(f"site-0.{GROUP}.zinduroi")
        self.attacker = None

    def table(self, site):
        certificate, key = self.given[site]
        lines = ["[[transport]]", 'kind = "peers"', f'listen = "{self.listens(site)}"', f'authority = "{self.authority}"',
                 f'certificate = "{certificate}"', f'key = "{key}"']
        for far in self.sites:
            if far != site:
                lines += ["[[transport.peer]]", f"site = {far}", f'address = "{self.address(site, far)}"']
        return "\n".join(lines) + "\n"

    def attack(self, stop, seed):
        words = [*self.outside(), sys.executable, __file__, str(self.folder / "attack"), str(stop), str(seed), *map(str, self.other),
                 *[self.listens(site) for site in self.sites]]
        self.attacker = subprocess.Popen(words, stdin=subprocess.DEVNULL, start_new_session=True)

    def faults(self):
        """Each kind of attempt was made, and none let anybody in."""
        status = self.attacker.wait(60)
        found = json.loads((self.folder / "attack").read_text()) if status == 0 else {}
        print("who tried to get in:", ", ".join(f"{what} {count}" for what, count in sorted(found.items())))
        wrong = [f"attempts that were not made: {kind}" for kind in KINDS if found.get(f"{kind}, turned away", 0) == 0]
        return wrong + [f"let in: {what.removesuffix(', let in')}" for what in found if what.endswith("let in")]

    def close(self):
        if self.attacker is not None and self.attacker.poll() is None:
            self.attacker.kill()
            self.attacker.wait()


class ProxyLinks(PeersLinks):
    """Nodes on loopback, between which this process passes bytes on."""

    name = "Peers over proxies on loopback"

    def __init__(self, folder, sites, insider):
        super().__init__(folder, sites, insider)
        self.ports = free_ports(sites)
        self.middles = {(near, far): Middle(self.ports[far]) for near in self.sites for far in self.sites if near != far}
        self.away = set()

    def listens(self, site):
        return f"127.0.0.1:{self.ports[site]}"

    def address(self, near, far):
        return f"127.0.0.1:{self.middles[near, far].port}"

    def words(self, site):
        return []

    outside = lambda self: []  # noqa: E731

    def cut(self, site):
        self.away.add(site)
        for pair, middle in self.middles.items():
            if site in pair:
                middle.cut()

    def mend(self, site):
        self.away.discard(site)
        for pair, middle in self.middles.items():
            middle.open = not self.away & set(pair)

    def close(self):
        super().close()
        for middle in self.middles.values():
            middle.close()


class NamespaceLinks(PeersLinks):
    """Each node in a namespace of the network, all of them at a bridge in another one. Raises `OSError` or
    `subprocess.CalledProcessError` where such can't be made, and leaves none behind."""

    name = "Peers over namespaces of the network"

    def __init__(self, folder, sites, insider):
        self.hub, self.made, self.attacker = f"zinduroi{os.getpid()}", [], None
        try:
            self._make(sites)
        except BaseException:
            self.close()
            raise
        super().__init__(folder, sites, insider)

    def _make(self, sites):
        self._add(self.hub)
        run("ip", "-n", self.hub, "link", "add", "bridge", "type", "bridge")
        run("ip", "-n", self.hub, "address", "add", "10.77.0.254/24", "dev", "bridge")
        run("ip", "-n", self.hub, "link", "set", "bridge", "up")
        for site in range(sites):
            name = f"{self.hub}.{site}"
            self._add(name)
            run("ip", "-n", self.hub, "link", "add", f"to{site}", "type", "veth", "peer", "name", "eth0", "netns", name)
            run("ip", "-n", self.hub, "link", "set", f"to{site}", "master", "bridge", "up")
            run("ip", "-n", name, "address", "add", f"10.77.0.{site + 1}/24", "dev", "eth0")
            run("ip", "-n", name, "link", "set", "eth0", "up")

    def _add(self, name):
        run("ip", "netns", "add", name)
        self.made.append(name)

    def listens(self, site):
        return f"10.77.0.{site + 1}:{PORT}"

    def address(self, near, far):
        return self.listens(far)

    def words(self, site):
        return ["ip", "netns", "exec", f"{self.hub}.{site}"]

    def outside(self):
        return ["ip", "netns", "exec", self.hub]

    def cut(self, site):
        run("ip", "-n", self.hub, "link", "set", f"to{site}", "down")

    def mend(self, site):
        run("ip", "-n", self.hub, "link", "set", f"to{site}", "up")

    def close(self):
        super().close()
        while self.made:
            with contextlib.suppress(OSError, subprocess.CalledProcessError):
                run("ip", "netns", "delete", self.made.pop())


def run(*words):
    subprocess.run(words, check=True, capture_output=True, stdin=subprocess.DEVNULL)


def links(transport, network, folder, sites, insider):
    """What the options ask for. Without a word for the network, namespaces where they can be made. An `insider` who tries to get in
    has a certificate of the nodes' own authority."""
    if transport == "folder":
        return FolderLinks(folder, sites)
    if network != "loopback":
        try:
            return NamespaceLinks(folder, sites, insider)
        except (OSError, subprocess.CalledProcessError) as error:
            if network == "namespaces":
                raise SystemExit(f"no namespaces: {getattr(error, 'stderr', None) or error}") from None
    return ProxyLinks(folder, sites, insider)


# Who tries to get in, as a process of its own

KINDS = ("random bytes", "another authority", "no certificate", "no TLS")


def attempt(kind, end, contexts, chance):
    """One attempt, over a connection. Whether the node said anything that it says to a peer."""
    hello = hello_line(Hello(chance.randrange(3), 7, 7))
    if kind in contexts:
        with contexts[kind].wrap_socket(end) as secure:
            secure.sendall(hello)
            return bool(secure.recv(4096))
    end.sendall(hello if kind == "no TLS" else chance.randbytes(chance.choice([1, 100, 70_000])))
    data = end.recv(4096)
    # Outside TLS a node may say why it ends the connection: an alert, which begins with 21.
    return bool(data) and data[0] != 21


def attack(notes, stop, seed, certificate, key, *addresses):
    """Tries until STOP is there, and writes down how often."""
    chance, done = random.Random(int(seed)), collections.Counter()
    contexts = {}
    for kind in ("another authority", "no certificate"):
        contexts[kind] = ssl.SSLContext(ssl.PROTOCOL_TLS_CLIENT)
        contexts[kind].check_hostname, contexts[kind].verify_mode = False, ssl.CERT_NONE
    contexts["another authority"].load_cert_chain(certificate, key)
    while not os.path.exists(stop):
        host, port = chance.choice(addresses).rsplit(":", 1)
        kind = chance.choice(KINDS)
        try:
            with socket.create_connection((host, int(port)), 1) as end:
                end.settimeout(1)
                try:
                    done[f"{kind}, {'let in' if attempt(kind, end, contexts, chance) else 'turned away'}"] += 1
                except OSError:
                    done[f"{kind}, turned away"] += 1
        except OSError:
            done["not reached"] += 1
        time.sleep(chance.random() * 0.3)
    pathlib.Path(notes).write_text(json.dumps(done))


if __name__ == "__main__":
    attack(*sys.argv[1:])
