#!/usr/bin/env python3
"""The page of a node in headless Chromium while seats go from site to site.

Usage: checks/page.py [--program PATH] [--pictures FOLDER]

Starts two nodes over a folder, opens the page of the first by `chromedriver`, and has callers enter, wait, be refused and leave, seats
be given to a node that does not run, and a writer get all seats at the other site. What the page says then is compared: texts, the
parts of the bars, and that callers' texts are shown as texts. At 360 and 1,600 pixels, in light and dark, nothing may stick out and each
text needs a contrast of 4.5; the pictures of these are put into FOLDER, to be looked at. `promtool check metrics` reads /metrics where
it is installed. Prints a line for each thing tried, and ends with 1 where one of them went wrong. Needs Debian's `chromium` and `chromium-driver`.
"""
import argparse
import base64
import http.client
import json
import os
import pathlib
import shutil
import signal
import socket
import subprocess
import sys
import tempfile
import time

TOP = pathlib.Path(__file__).resolve().parent.parent
sys.path.insert(0, str(TOP / "clients" / "python"))

from zinduroi.node import NodeClient, NodeGone  # noqa: E402

LAYOUT = ('sites = 2\n[[record]]\nname = "a"\nseats = 4\nhome = 0\nproblem = 2\n'
          '[[record]]\nname = "payroll-2026"\nseats = 6\nhome = 1\nproblem = 1\n')
FAILED = []
SHOWN = """
const part = record => {
  const found = {sites: {}, callers: {}, waits: record.querySelector(".waits").textContent};
  for (const track of record.querySelectorAll(".seats .track")) {
    const row = track.closest("tr").previousElementSibling;
    const words = [...row.cells].map(cell => cell.textContent);
    const widths = {};
    const whole = track.getBoundingClientRect().width;
    for (const piece of track.querySelectorAll("span")) widths[piece.className] = Math.round(100 * piece.getBoundingClientRect().width / whole);
    found.sites[parseInt(words[0])] = {inside: words[1], free: words[2], way: words[3], bar: widths, label: track.getAttribute("aria-label")};
  }
  for (const row of record.querySelectorAll(".callers tbody tr")) found.callers[row.cells[0].textContent] = [row.cells[1].textContent, row.cells[2].textContent];
  return found;
};
const rows = id => [...document.getElementById(id).tBodies[0].rows].map(row => [...row.cells].map(cell => cell.textContent));
const records = {};
for (const card of document.querySelectorAll("article.record")) records[card.dataset.record] = part(card);
return {records, state: document.getElementById("state").textContent, peers: rows("peers"), refused: rows("refused"), log: rows("log"),
  lost: !document.getElementById("lost").hidden, bold: document.querySelectorAll("b, img, script[src]").length};
"""
FAULTS = """
const faults = [];
const numbers = text => text.match(/[0-9.]+/g).map(Number);
const light = ([red, green, blue]) => [[red, 0.2126], [green, 0.7152], [blue, 0.0722]].map(([value, weight]) =>
  weight * (value / 255 <= 0.04045 ? value / 255 / 12.92 : ((value / 255 + 0.055) / 1.055) ** 2.4)).reduce((one, other) => one + other);
const behind = element => {
  for (let at = element; at; at = at.parentElement) {
    const color = numbers(getComputedStyle(at).backgroundColor);
    if (color.length === 3 || color[3] > 0) return color;
  }
  return [255, 255, 255];
};
for (const element of document.querySelectorAll("body *")) {
  const own = [...element.childNodes].some(node => node.nodeType === 3 && node.textContent.trim());
  if (!own || element.closest("script, noscript") || element.offsetParent === null) continue;
  const [one, other] = [light(numbers(getComputedStyle(element).color)), light(behind(element))].sort((a, b) => b - a);
  if ((one + 0.05) / (other + 0.05) < 4.5) faults.push(`contrast of ${element.textContent.slice(0, 40)}`);
  const box = element.getBoundingClientRect();
  if (!element.closest(".scroll") && (box.right > innerWidth + 0.5 || box.left < -0.5)) faults.push(`outside: ${element.textContent.slice(0, 40)}`);
}
if (document.documentElement.scrollWidth > innerWidth) faults.push(`wider than ${innerWidth}: ${document.documentElement.scrollWidth}`);
const scroll = document.querySelector(".scroll");
if (scroll.scrollWidth > scroll.clientWidth) faults.push("the log is wider than its place");
return faults;
"""


def tell(holds, what, found=None):
    print(f"{'ok    ' if holds else 'FAILED'}  {what}" + ("" if holds or found is None else f": {found}"), flush=True)
    if not holds:
        FAILED.append(what)


def free_port():
    with socket.socket() as probe:
        probe.bind(("127.0.0.1", 0))
        return probe.getsockname()[1]


def wait_for(condition, seconds=30):
    """Waits until something holds; whether it came to hold."""
    end = time.monotonic() + seconds
    while not condition():
        if time.monotonic() > end:
            return False
        time.sleep(0.05)
    return True


class Node:
    """A node of the check, a process of its own."""

    def __init__(self, folder, site, program):
        self.folder, self.site, self.port, self.process = folder, site, free_port(), None
        self.socket = folder / f"{site}.sock"
        self.config = folder / f"{site}.toml"
        self.config.write_text(f'site = {site}\nstore = "{site}.db"\nlayout = "layout.toml"\ngroup = "crew"\nprogram = "{program}"\n'
                               f'[socket]\npath = "{site}.sock"\n[page]\naddress = "127.0.0.1:{self.port}"\n'
                               '[exchange]\ninterval = 0.2\n[[transport]]\nkind = "folder"\npath = "deltas"\n', "utf-8")

    def start(self):
        create = [] if (self.folder / f"{self.site}.db").exists() else ["--create"]
        self.process = subprocess.Popen([sys.executable, "-m", "zinduroi", "node", "--config", self.config, *create], stderr=subprocess.DEVNULL,
                                        env={**os.environ, "PYTHONPATH": str(TOP / "clients" / "python")})
        if not wait_for(self.answers, 60):
            raise SystemExit(f"page.py: node {self.site} does not start")

    def answers(self):
        try:
            NodeClient(self.socket).close()
        except NodeGone:
            return False
        return True

    def end(self):
        if self.process is not None:
            self.process.send_signal(signal.SIGTERM)
            self.process.wait(60)
            self.process = None

    def get(self, path, **headers):
        """Status and text of a request."""
        connection = http.client.HTTPConnection("127.0.0.1", self.port, timeout=20)
        try:
            connection.request("GET", path, headers=headers)
            answer = connection.getresponse()
            return answer.status, answer.read().decode("utf-8")
        finally:
            connection.close()


class Browser:
    """Headless Chromium, driven by chromedriver over its protocol."""

    def __init__(self, folder):
        self.port = free_port()
        self.process = subprocess.Popen(["chromedriver", f"--port={self.port}"], stdout=subprocess.DEVNULL, stderr=subprocess.DEVNULL, cwd=folder)
        words = ["--headless=new", "--no-first-run", "--disable-background-networking", "--disable-component-update", "--disable-gpu",
                 "--disable-dev-shm-usage", "--host-resolver-rules=MAP * ~NOTFOUND, EXCLUDE 127.0.0.1", f"--user-data-dir={folder / 'browser'}"]
        if os.geteuid() == 0:
            words.append("--no-sandbox")
        wait_for(lambda: socket.socket().connect_ex(("127.0.0.1", self.port)) == 0)
        made = self.ask("POST", "/session", {"capabilities": {"alwaysMatch": {
            "goog:chromeOptions": {"args": words}, "goog:loggingPrefs": {"browser": "ALL"}}}})
        self.session = f"/session/{made['sessionId']}"

    def ask(self, method, path, body=None):
        connection = http.client.HTTPConnection("127.0.0.1", self.port, timeout=120)
        try:
            connection.request(method, path, None if body is None else json.dumps(body), {"Content-Type": "application/json"})
            value = json.loads(connection.getresponse().read())["value"]
        finally:
            connection.close()
        if isinstance(value, dict) and "error" in value:
            raise SystemExit(f"page.py: the browser: {value['error']}: {value['message']}")
        return value

    def open(self, address):
        self.ask("POST", f"{self.session}/url", {"url": address})

    def run(self, script):
        return self.ask("POST", f"{self.session}/execute/sync", {"script": script, "args": []})

    def command(self, name, **values):
        return self.ask("POST", f"{self.session}/goog/cdp/execute", {"cmd": name, "params": values})

    def look(self, width, scheme, picture):
        """Faults at this width and colour scheme; the whole page as a picture."""
        self.command("Emulation.setDeviceMetricsOverride", width=width, height=900, deviceScaleFactor=1, mobile=False)
        self.command("Emulation.setScrollbarsHidden", hidden=True)
        self.command("Emulation.setEmulatedMedia", features=[{"name": "prefers-color-scheme", "value": scheme}])
        time.sleep(1.5)
        faults = self.run(FAULTS)
        picture.write_bytes(base64.b64decode(self.command("Page.captureScreenshot", captureBeyondViewport=True)["data"]))
        return faults

    def messages(self):
        """What the page's console says."""
        return [it["message"] for it in self.ask("POST", f"{self.session}/se/log", {"type": "browser"})]

    def end(self):
        self.ask("DELETE", self.session)
        self.process.terminate()
        self.process.wait(20)


class Story:
    """The hand-over, and what the page has to say at each step."""

    def __init__(self, first, second, browser, pictures):
        self.first, self.second, self.browser, self.pictures = first, second, browser, pictures
        self.clients = []

    def connect(self, node):
        client = NodeClient(node.socket)
        client.socket.settimeout(60)
        self.clients.append(client)
        return client

    def comes(self, what, condition):
        """The page comes to say something."""
        seen = []

        def holds():
            seen[:] = [self.browser.run(SHOWN)]
            try:
                return condition(seen[0])
            except (KeyError, IndexError, TypeError):
                return False
        tell(wait_for(holds), what, seen)
        return seen[0]

    @staticmethod
    def has(page, record, site, inside, free, way, seats):
        """Whether a row has these numbers, in words and in its bar."""
        row = page["records"][record]["sites"][str(site)]
        bar = {name: round(100 * value / seats) for name, value in (("inside", inside), ("free", free), ("way", way)) if value > 0}
        return ((row["inside"], row["free"], row["way"]) == (str(inside), str(free), str(way)) and row["bar"].keys() == bar.keys()
                and all(abs(row["bar"][name] - value) <= 1 for name, value in bar.items())
                and row["label"] == f"{inside} inside, {free} free, {way} on the way, of {seats}")

    def run(self):
        self.browser.open(f"http://127.0.0.1:{self.first.port}/")
        self.comes("the page says that the site may admit", lambda page: page["state"].endswith("May admit"))
        self.comes("seats go to the other site in even parts", lambda page: self.has(page, "a", 0, 0, 2, 0, 4) and self.has(page, "a", 1, 0, 2, 0, 4))
        self.callers()
        self.on_the_way()
        self.writer()
        self.looks()
        metrics(self.first)
        tell(not (said := self.browser.messages()), "the page's console says nothing", said)
        self.first.end()
        self.comes("the page says that the node has gone", lambda page: page["lost"])
        self.first.start()
        self.comes("and goes on when it is back", lambda page: not page["lost"] and page["state"].endswith("May admit"))

    def callers(self):
        self.reader, self.marked = self.connect(self.first), self.connect(self.first)
        self.reader.ask("read a backup@host3")
        self.comes("who is inside, and since when", lambda page: page["records"]["a"]["callers"]["backup@host3"][0] == "reader"
                   and " ago" in page["records"]["a"]["callers"]["backup@host3"][1] and self.has(page, "a", 0, 1, 1, 0, 4))
        self.marked.ask("read a <b>bold</b><img/src=x>")
        self.comes("a caller's text is shown as text", lambda page: "<b>bold</b><img/src=x>" in page["records"]["a"]["callers"] and page["bold"] == 0)
        self.connect(self.first).ask("read a third")
        self.comes("what was refused, by name", lambda page: ["NoSeat", "1", "1"] in page["refused"])
        self.comes("the log of answers", lambda page: page["log"][0][2] == "read a third" and page["log"][0][3].startswith("refused NoSeat"))
        self.waiting = self.connect(self.first)
        self.waiting.socket.sendall("wait 600 read a wäiting\n".encode("utf-8"))
        self.comes("who waits", lambda page: page["records"]["a"]["waits"] == "Wait in this order: wäiting")
        token = self.connect(self.first).ask("token").split(" ")[1]
        page = self.comes("an answer with a token", lambda page: page["log"][0][2:] == ["token", "token"])
        tell(token not in json.dumps(page), "no token is shown")

    def on_the_way(self):
        self.second.end()
        self.connect(self.first).ask("give payroll-2026 1 2")
        self.comes("seats that were given to a node that doesn't run are on the way", lambda page: page["records"]["payroll-2026"]["sites"]["1"]["way"] == "2"
                   and self.has(page, "payroll-2026", 1, 0, 3, 2, 6))
        self.look(360, "dark", "way")
        self.look(1600, "light", "way")
        self.second.start()
        self.comes("and free once it runs", lambda page: [sum(int(row[name]) for row in page["records"]["payroll-2026"]["sites"].values())
                                                           for name in ("inside", "free", "way")] == [0, 6, 0])
        tell(self.browser.run(SHOWN)["peers"][0][0] == "1", "the other site, with the age of its delta")

    def writer(self):
        self.payer = self.connect(self.second)
        self.payer.socket.sendall(b"wait 600 write a payer\n")
        late = self.connect(self.first)
        tell(wait_for(lambda: late.ask("read a fourth").startswith("refused WriterAnnounced")), "readers are kept out by a writer at the other site")
        self.comes("that too by name", lambda page: any(row[0] == "WriterAnnounced" for row in page["refused"]))
        for client in (self.waiting, self.reader, self.marked):
            client.close()
        tell(self.payer.socket.recv(100) == b"admitted\n", "the writer is let in when all readers have gone")
        self.comes("all seats are inside at the other site", lambda page: self.has(page, "a", 1, 4, 0, 0, 4) and self.has(page, "a", 0, 0, 0, 0, 4))

    def looks(self):
        keeper = self.connect(self.first)
        keeper.ask("read payroll-2026 " + "a-holder-with-a-word-of-sixty-four-bytes".ljust(64, "x"))
        self.connect(self.first).ask("announce payroll-2026 <i>writer</i>")
        for width in (360, 1600):
            for scheme in ("light", "dark"):
                self.look(width, scheme, "page")

    def look(self, width, scheme, name):
        faults = self.browser.look(width, scheme, self.pictures / f"{name}_{width}_{scheme}.png")
        tell(not faults, f"{width} pixels, {scheme}", faults)


def metrics(node):
    """What /metrics and /health say, and who may ask."""
    status, text = node.get("/metrics")
    tell(status == 200 and 'zinduroi_refusals_total{verb="read",name="NoSeat"} ' in text, "/metrics counts the refusal", text)
    if shutil.which("promtool"):
        ran = subprocess.run(["promtool", "check", "metrics"], input=text, capture_output=True, text=True, check=False)
        tell(ran.returncode == 0, "promtool takes it", ran.stderr + ran.stdout)
    else:
        print("left out, without promtool: whether it takes the metrics")
    tell(node.get("/health") == (200, "the site may admit\n"), "/health")
    tell(node.get("/", Host="attacker.example")[0] == 403, "a request that names another host is refused")


def main():
    made = argparse.ArgumentParser(description=__doc__.split("\n", 1)[0])
    made.add_argument("--program", default=str(TOP / "crates" / "seat_cli" / "out" / "seat_cli"))
    made.add_argument("--pictures", type=pathlib.Path)
    given = made.parse_args()
    missing = [name for name in ("chromium", "chromedriver") if shutil.which(name) is None]
    if missing:
        raise SystemExit(f"page.py: needs {', '.join(missing)}")
    folder = pathlib.Path(tempfile.mkdtemp(prefix="page_"))
    pictures = given.pictures or pathlib.Path(tempfile.mkdtemp(prefix="pictures_"))
    pictures.mkdir(parents=True, exist_ok=True)
    (folder / "layout.toml").write_text(LAYOUT, "utf-8")
    (folder / "deltas").mkdir()
    nodes, browser = [Node(folder, site, os.path.abspath(given.program)) for site in (0, 1)], None
    try:
        for node in nodes:
            node.start()
        browser = Browser(folder)
        Story(*nodes, browser, pictures).run()
    finally:
        if browser is not None:
            browser.end()
        for node in nodes:
            node.end()
        shutil.rmtree(folder, ignore_errors=True)
    print(f"pictures in {pictures}")
    return 1 if FAILED else 0


if __name__ == "__main__":
    sys.exit(main())
