#!/usr/bin/env python3
"""Runs tools/timeline on closed logs, and checks what its pictures show.

    checks/timeline.py [-v]

It needs no built program: the logs come from examples/, from scripts as `play` has them, which the second implementation
carries out, from the random and forged logs that `judge` is compared on, and from lines by hand. A picture that has to
change is made anew by `tools/timeline examples/maintenance.log --out examples/maintenance.svg`.
"""
import ast
import io
import json
import random
import subprocess
import sys
import tempfile
import unittest
from pathlib import Path
from xml.etree import ElementTree

TOP = Path(__file__).resolve().parent.parent
TOOL = TOP / "tools/timeline"
sys.path.insert(0, str(TOP / "tools"))

import forged_logs  # noqa: E402
import random_logs  # noqa: E402
import second_judge as second  # noqa: E402
import timeline_logs  # noqa: E402
import timeline_picture  # noqa: E402

SEED, HONEST, FORGED = 1, 120, 120
THREE = {"sites": 3, "record": [{"name": "a", "seats": 3, "home": 0, "problem": 2}]}
TWO = {"sites": 2, "record": [{"name": "a", "seats": 2, "home": 0, "problem": 1}]}
RUN = b'{"book":"{\\"from\\":0,\\"rows\\":[],\\"v\\":1}","sessions":[],"site":0,"sites":2}\n'


def logs_of(script, layout):
    """The closed logs of a script of `play`, as the second implementation carries it out."""
    sites = [second.rules.Site(layout, s) for s in range(layout["sites"])]
    lines, messages, rng = [[] for _ in sites], [], random.Random(SEED)
    for line in script.strip().split("\n"):
        word, call = line.strip().split(" ", 1)
        s = int(word)
        if call == "restart":
            sites[s] = sites[s].restarted(layout)
        if call == "restart" or not lines[s]:
            lines[s].append(random_logs.run_line(rng, sites[s], layout))
        if call != "restart":
            call = f"take {messages[int(call[5:])]}" if call.startswith("take") else call
            reply, _ = second.serve(sites[s], *second.call_of(call, layout))
            messages += [reply] if call == "send" else []
            lines[s].append(second.reader.text_of({"call": call, "pass": 0, "reply": reply}))
    return "".join(f"{line}\n" for log in lines for line in log).encode()


class Drawn:
    """A picture, and what of it the tests look at."""

    def __init__(self, data, cut=None, width=None):
        reader = timeline_logs.Reader()
        reader.read("a log", io.BytesIO(data))
        self.logs = reader.ended()
        self.items = timeline_logs.Order(self.logs).run()
        self.picture = timeline_picture.Picture(self.logs, self.items, "a log", cut, str(cut), width)
        self.text = self.picture.draw()
        self.tree = ElementTree.fromstring(self.text)

    def all(self, name, kind):
        """The elements of a name whose class has a word."""
        return [it for it in self.tree.iter(f"{{http://www.w3.org/2000/svg}}{name}") if kind in it.get("class", "").split(" ")]

    def bars(self, kind):
        """Site, record, holder, left and right end of each bar; those of the legend are none."""
        return [(int(it.get("data-site")), it.get("data-record"), it.get("data-holder"), float(it.get("x")),
                 float(it.get("x")) + float(it.get("width"))) for it in self.all("rect", kind) if it.get("data-site")]

    def arrows(self):
        """From and to of each arrow, its class, and where it begins and ends."""
        for it in self.all("path", "delta"):
            path = it.get("d").replace("M", "").split(" ")
            yield it.get("data-from"), it.get("data-to"), it.get("class"), float(path[0]), float(path[-2].replace("L", ""))

    def words(self):
        return [it.text for it in self.tree.iter("{http://www.w3.org/2000/svg}text")]

    def boxes(self):
        """Where each text is, as far as its width is known: left, top, right and bottom; the marks of calls aside."""
        sizes = {"title": 19, "subtitle": 12.5, "site": 13}
        for it in self.tree.iter("{http://www.w3.org/2000/svg}text"):
            if it.get("class") == "mark":
                continue
            size = sizes.get(it.get("class"), 11)
            width, x, y = timeline_picture.measure(it.text, size), float(it.get("x")), float(it.get("y"))
            x -= {"start": 0, "middle": width / 2, "end": width}[it.get("text-anchor")]
            yield x, y - size * 0.75, x + width, y + size * 0.2, it.text


def meet(one, other):
    return one[0] < other[2] and other[0] < one[2] and one[1] < other[3] and other[1] < one[3]


class Facts(unittest.TestCase):
    """What holds of every picture, and of those of consistent logs."""

    def forward(self, drawn):
        """Arrows and bars go to the right, and the calls of each site stand in the order of its log."""
        for *names, first, last in drawn.arrows():
            self.assertLess(first, last, names)
        for kind in ("reader", "waiting", "writer"):
            for *names, first, last in drawn.bars(kind):
                self.assertLess(first, last, names)
        self.assertEqual([item.column for item in drawn.items], list(range(len(drawn.items))))
        for items in drawn.logs.items.values():
            columns = [item.column for item in items[1:]]
            self.assertEqual(columns, sorted(columns))

    def apart(self, drawn):
        """No two texts overlap, and none leaves the picture."""
        boxes = sorted(drawn.boxes())
        for at, one in enumerate(boxes):
            self.assertTrue(0 <= one[0] and one[2] <= drawn.picture.width, one)
            for other in boxes[at + 1:]:
                if other[0] >= one[2]:
                    break
                self.assertFalse(meet(one, other), (one, other))

    def alone(self, drawn, layout):
        """At no place of the picture a record has more inside than its seats; a writer takes them all."""
        for it in layout["record"]:
            inside = [(first, last, 1) for _, name, _, first, last in drawn.bars("reader") if name == it["name"]]
            inside += [(first, last, it["seats"]) for _, name, _, first, last in drawn.bars("writer") if name == it["name"]]
            changes = sorted([(first, seats) for first, _, seats in inside] + [(last, -seats) for _, last, seats in inside])
            total = 0
            for _, seats in changes:
                total += seats
                self.assertLessEqual(total, it["seats"], it["name"])

    def test_random_consistent_logs(self):
        rng, writers, arrows = random.Random(SEED), 0, 0
        for _ in range(HONEST):
            story = random_logs.Story(rng, rng.choice([10, 60, 60, 250]), 0)
            data = random_logs.text_of(rng, story.logs, story.layout).encode()
            drawn = Drawn(data, rng.choice([None, [0] * story.layout["sites"], story.lengths()]), rng.choice([None, None, 400]))
            self.forward(drawn)
            self.apart(drawn)
            self.alone(drawn, story.layout)
            self.assertNotIn("delta that no log has sent", drawn.words())
            writers, arrows = writers + len(drawn.bars("writer")), arrows + len(list(drawn.arrows()))
        self.assertGreater(writers, 30)
        self.assertGreater(arrows, 1_000)

    def test_random_forged_logs(self):
        rng, found = random.Random(SEED), 0
        for _ in range(FORGED):
            story = random_logs.Story(rng, rng.choice([10, 60]), 0.3)
            logs = random_logs.forged(rng, story)
            drawn = Drawn(random_logs.text_of(rng, logs, story.layout).encode())
            self.forward(drawn)
            self.apart(drawn)
            found += bool(drawn.all("line", "unsent"))
        self.assertGreater(found, 20)

    def test_forged_logs_by_hand(self):
        for layout, data, cut, verdict in forged_logs.cases():
            cut = cut if cut and len(cut) == layout["sites"] else None
            try:
                drawn = Drawn(data, cut)
            except timeline_logs.BadLog:
                self.assertIn("NotTranscript", verdict)
                continue
            self.forward(drawn)
            if verdict == "consistent" and cut is None:
                self.alone(drawn, layout)

    def test_random_bytes(self):
        rng, refused = random.Random(SEED), 0
        story = random_logs.Story(rng, 60, 0)
        for _ in range(400):
            try:
                Drawn(random_logs.changed_bytes(rng, random_logs.text_of(rng, story.logs, story.layout).encode()))
            except timeline_logs.BadLog as error:
                self.assertRegex(str(error), r"^a log, line \d+: ")
                refused += 1
        self.assertGreater(refused, 100)


class Logs(unittest.TestCase):
    """Pictures of small logs."""

    def names(self, drawn, kind):
        return [(site, record, holder) for site, record, holder, _, _ in drawn.bars(kind)]

    def test_one_site(self):
        drawn = Drawn(logs_of("0 read a 7\n0 read a 8\n0 read a 9\n0 leave a 7", TWO))
        self.assertEqual(self.names(drawn, "reader"), [(0, "a", "7"), (0, "a", "8")])
        self.assertIn("read a 9: NoSeat 0", drawn.words())
        (*_, left, right), (*_, last) = drawn.bars("reader")
        self.assertLess(left, right)
        self.assertEqual(last, drawn.picture.edges[1])

    def test_two_sites(self):
        script = "1 announce a 5\n1 send\n0 read a 7\n0 take 0\n0 leave a 7\n0 help a\n0 send\n1 take 1\n1 write a 5\n1 leave a 5"
        drawn = Drawn(logs_of(script, TWO))
        self.assertEqual([it[:3] for it in drawn.arrows()], [("1:1", "0:1", "delta merged"), ("0:4", "1:2", "delta merged")])
        (reader,), (waiting,), (writer,) = map(drawn.bars, ("reader", "waiting", "writer"))
        self.assertLess(reader[4], writer[3])
        self.assertEqual(waiting[4], writer[3])
        self.assertIn("2 seats of a to site 1", drawn.words())

    def test_a_writer_withdraws(self):
        drawn = Drawn(logs_of("1 announce a 5\n1 leave a 5\n1 send", TWO))
        self.assertEqual((len(drawn.bars("waiting")), drawn.bars("writer")), (1, []))
        self.assertLess(drawn.bars("waiting")[0][4], drawn.picture.edges[1])

    def test_a_restart(self):
        drawn = Drawn(logs_of("0 read a 7\n0 restart\n0 restart\n0 leave a 7", TWO))
        self.assertEqual(len(drawn.bars("reader")), 1)  # the session lasts
        self.assertEqual(len([it for it in drawn.all("line", "restart") if it.get("y2") != it.get("y1")]), 3)  # one is the legend's

    def in_doubt(self, kept):
        """A store's fault at `read a 7`, and a run behind it that has the session or not."""
        first, _, second_run = logs_of("0 read a 7\n0 restart", TWO).splitlines()
        entry = b'{"call":"read a 7","pass":0,"reply":"refused StoreFault"}'
        return Drawn(b"\n".join([first, entry, second_run if kept else first]))

    def test_a_call_in_doubt(self):
        drawn = self.in_doubt(True)
        self.assertEqual(drawn.bars("reader")[0][3], drawn.picture.x(0))
        self.assertEqual(self.in_doubt(False).bars("reader"), [])
        self.assertIn("read a 7: in doubt", drawn.words())

    def test_the_last_send_before(self):
        """Equal texts: an arrow begins at the last of them that stands before it."""
        drawn = Drawn(logs_of("0 send\n0 send\n1 send\n1 send\n1 send\n1 take 0", TWO))
        self.assertEqual([it[:3] for it in drawn.arrows()], [("0:1", "1:3", "delta nothing")])

    def test_a_part_of_what_was_sent(self):
        """A delta with some rows of what was sent, one with all counters of an earlier state, and one that is joined."""
        script = "0 announce a 5\n0 give a 1 1\n0 send\n1 take 0\n1 announce a 6\n1 send\n2 send"
        data = logs_of(script, THREE).decode()
        whole = json.loads(json.loads(data.splitlines()[-3])["reply"])
        takes = [whole | {"rows": whole["rows"][1:]}, whole | {"rows": [whole["rows"][0] | {"ann": 0}]}, whole | {"from": 2}]
        entries = [{"call": f"take {second.reader.text_of(it)}", "pass": 0, "reply": "merged 1"} for it in takes]
        drawn = Drawn((data + "".join(f"{second.reader.text_of(it)}\n" for it in entries)).encode())
        self.assertEqual([it[:2] for it in drawn.arrows()], [
            ("0:2", "1:0"), ("1:2", "2:1"), ("1:2", "2:2"), ("0:2", "2:3"), ("1:2", "2:3")])

    def taken(self, script, change):
        """Whence the arrows come, if site 1 takes what `change` makes of the last delta that was sent."""
        data = logs_of(script + "\n1 send", TWO).decode().splitlines()
        last = json.loads([it for it in data if '"send"' in it and '"from\\":0' in it][-1])["reply"]
        entry = {"call": f"take {second.reader.text_of(change(json.loads(last)))}", "pass": 0, "reply": "merged 1"}
        return [it[0] for it in Drawn("\n".join([*data, second.reader.text_of(entry)]).encode()).arrows() if it[1].startswith("1:")]

    def test_counters_and_rows_are_compared(self):
        """What is left out is 0; one more than was sent was not sent; two rows have to come from one send."""
        def with_rows(*counters):
            return lambda delta: delta | {"rows": [row | it for row, it in zip(delta["rows"], counters)]}
        self.assertEqual(self.taken("0 read a 7\n0 send\n0 send", with_rows({"out": [2]})), ["0:2"])
        self.assertEqual(self.taken("0 give a 1 1\n0 send", with_rows({"out": [2, 2]})), [])
        script = "1 announce a 6\n1 send\n0 give a 1 1\n0 take 0\n0 send\n0 read a 7\n0 send\n1 announce a 8\n1 send\n0 take 3\n0 send"
        self.assertEqual(self.taken(script, with_rows({}, {"ann": 1})), ["0:4"])
        self.assertEqual(self.taken(script, with_rows({"taken": 0}, {})), ["0:6"])

    def test_a_forged_delta(self):
        story = "1:\ntake a0 [2,1] -> merged 1\nread a 8 -> admitted"
        data = "".join(f"{second.reader.text_of(it)}\n" for it in forged_logs.lines_of(story, TWO)).encode()
        drawn = Drawn(data)
        self.assertEqual((list(drawn.arrows()), self.names(drawn, "reader")), ([], [(1, "a", "8")]))
        self.assertIn("delta that no log has sent", drawn.words())

    def test_deltas_that_go_around(self):
        """Each of two sites claims to have merged what the other sent later."""
        rows = [second.reader.text_of({"from": s, "rows": [forged_logs.row_of(f"a{s} [2,0] ann 1" if s == 0 else "a1 [0,0] ann 1")], "v": 1}) for s in (0, 1)]
        lines = []
        for s in (0, 1):
            lines.append({"book": forged_logs.delta(s, ""), "sessions": [], "site": s, "sites": 2})
            lines += [{"call": call, "pass": 0, "reply": reply} for call, reply in (
                (f"take {rows[1 - s]}", "merged 1"), ("announce a 5", "announced 1"), ("send", rows[s]))]
        drawn = Drawn("".join(f"{second.reader.text_of(it)}\n" for it in lines).encode())
        self.assertEqual(len(list(drawn.arrows())), 1)
        self.assertEqual(drawn.words().count("delta that no log has sent"), 2)  # one is the legend's

    def test_a_cut(self):
        data = (TOP / "examples/maintenance.log").read_bytes()
        kinds = [[it[2] for it in Drawn(data, cut).arrows()] for cut in ([8, 6, 0], [0, 6, 0], [8, 0, 0])]
        self.assertEqual(kinds, [["delta merged"] * 3, ["delta merged", "delta behind", "delta behind"], ["delta behind"] + ["delta merged"] * 2])
        whole, early = (Drawn(data, cut).all("polyline", "cut")[0].get("points") for cut in ([8, 6, 0], [0, 6, 0]))
        self.assertEqual(len({it.split(",")[0] for it in whole.split(" ")}), 1)  # upright
        self.assertEqual(len({it.split(",")[0] for it in early.split(" ")}), 2)

    def test_an_empty_log(self):
        drawn = Drawn(b"")
        self.assertIn("0 calls at 0 sites, as logged in a log", drawn.words())
        self.assertIn("no calls", Drawn(RUN).words())

    def test_a_run_that_begins_with_a_session(self):
        drawn = Drawn(logs_of("0 read a 7\n0 restart\n0 leave a 7", TWO).split(b"\n", 2)[2])
        self.assertEqual(drawn.bars("reader")[0][3], drawn.picture.edges[0])


BROKEN = [
    (b"x\n", "line 1: it is not JSON"),
    (b"\n", "line 1: it is not JSON"),
    (b"\xff\n", "line 1: it is not UTF-8"),
    (b"[" * 100_000, "line 1: it is not JSON"),
    (b"7\n", "line 1: it is not a JSON object"),
    (b'{"call":"send"}\n', "line 1: its keys are neither those of a run"),
    (b'{"call":"send","pass":0,"reply":"given"}\n', "line 1: an entry stands before the first run"),
    (RUN + b'{"call":"sned","pass":0,"reply":"given"}\n', 'line 2: "sned" is no call'),
    (RUN + b'{"call":"read A 1","pass":0,"reply":"admitted"}\n', 'line 2: "read A 1" is no call'),
    (RUN + b'{"call":"read a 1","pass":0,"reply":"yes"}\n', 'line 2: "yes" is no reply'),
    (RUN + b'{"call":"read a 1","pass":65536,"reply":"admitted"}\n', "line 2: `pass` is not a number"),
    (RUN + b'{"call":"take {}","pass":0,"reply":"merged 1"}\n', "line 2: the delta has other keys"),
    (RUN + b'{"call":"take {","pass":0,"reply":"merged 1"}\n', "line 2: the delta is not JSON"),
    (RUN.replace(b'"site":0', b'"site":2'), "line 1: `sites` is not a number above `site`"),
    (RUN.replace(b'"site":0', b'"site":true'), "line 1: `site` is not a number"),
    (RUN.replace(b"[],\\", b"[1],\\"), "line 1: a row of the delta has other keys"),
    (RUN.replace(b'"sessions":[]', b'"sessions":["a 7"]'), 'line 1: "a 7" is no session'),
    (RUN[:-20], "line 1: it is not JSON"),
]


class Command(unittest.TestCase):
    """The tool as it is called."""

    def called(self, *words, data=b""):
        ran = subprocess.run([sys.executable, "-B", TOOL, *words], input=data, capture_output=True, check=False)
        return ran.returncode, ran.stdout.decode(), ran.stderr.decode()

    def test_the_example(self):
        wanted = (TOP / "examples/maintenance.svg").read_text("utf-8")
        self.assertEqual(self.called(TOP / "examples/maintenance.log"), (0, wanted, ""))
        ElementTree.fromstring(wanted)

    def test_files_and_output(self):
        first, other = (TOP / "examples/maintenance.log").read_bytes().split(b'{"book":"{\\"from\\":1')
        with tempfile.TemporaryDirectory() as folder:
            logs = [Path(folder, name) for name in ("site <0>.log", "1.log")]
            logs[0].write_bytes(first)
            out = Path(folder, "out.svg")
            self.assertEqual(self.called(logs[0], "-", "--out", out, "--cut=8,6,0", data=b'{"book":"{\\"from\\":1' + other), (0, "", ""))
            words = [it.text for it in ElementTree.parse(out).iter()]
            self.assertIn("14 calls at 3 sites, as logged in site <0>.log, standard input", words)
            self.assertIn("cut 8,6,0", words)
            status, _, errors = self.called(logs[0], logs[1])
            self.assertEqual((status, errors), (1, f"timeline: {logs[1]}: No such file or directory\n"))
            self.assertEqual(self.called(logs[0], "--out", folder)[::2], (1, f"timeline: {folder}: Is a directory\n"))

    def test_broken_lines(self):
        for data, wanted in BROKEN:
            status, output, errors = self.called(data=data)
            self.assertEqual((status, output), (1, ""), wanted)
            self.assertTrue(errors.startswith(f"timeline: standard input, {wanted}") and errors.count("\n") == 1, (wanted, errors))

    def test_wrong_arguments(self):
        log = TOP / "examples/maintenance.log"
        for words, wanted in (
            (["--cut", "8,6"], "it has 2 numbers, and the logs have 3 sites"), (["--cut", "9,6,0"], "site 0 has 8 calls, not 9"),
            (["--cut", "8,06,0"], "a cut is `full`"), (["--cut", ""], "a cut is `full`"), (["--cut", "8,6,0" + ",0" * 14], "it has 17 numbers"),
            (["--width", "90"], "a width is a number"), (["--width", "1e4"], "a width is a number"), (["--depth", "3"], "unrecognized")):
            status, output, errors = self.called(log, *words)
            self.assertEqual((status, output), (2, ""), words)
            self.assertIn(wanted, errors)

    def test_a_cut_of_more_sites_than_are_seen(self):
        status, picture, _ = self.called("--cut", "0,0,0", data=RUN.replace(b',"sites":2', b""))
        self.assertEqual((status, picture.count("no log")), (0, 2))
        self.assertIn("at 3 sites", picture)

    def test_width(self):
        _, picture, _ = self.called(TOP / "examples/maintenance.log", "--width", "640", "--cut", "full")
        self.assertEqual(ElementTree.fromstring(picture).get("width"), "640")

    def test_python_3_9_can_read_it(self):
        for name in ("timeline", "timeline_logs.py", "timeline_picture.py"):
            tree = ast.parse((TOP / "tools" / name).read_text("utf-8"), feature_version=(3, 9))
            for it in ast.walk(tree):
                if isinstance(it, ast.FunctionDef):
                    self.assertLess(it.end_lineno - it.lineno, 40, it.name)


if __name__ == "__main__":
    unittest.main()
