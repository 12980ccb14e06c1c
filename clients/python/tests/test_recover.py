"""`zinduroi recover`: sites that are moved and built again, step by step, and from wherever an earlier call stopped."""
import os
import random
import shlex
import shutil
import subprocess
import sys
import threading
import unittest
import unittest.mock

from zinduroi import Command, Folder, NoPlan, StoreRefused
from zinduroi.command_line import main
from zinduroi.recovery import NotDone, Plan, Recovery, before, generation

from tests.common import PACKAGE, PROGRAM, Broker, Case, wait_for

OLD, NEW = "east", "east.2"


class Recoveries(Case):
    """Three sites of a group, and a channel."""

    def setUp(self):
        super().setUp()
        self.channel = self.folder / "channel"
        self.channel.mkdir()
        self.said = []

    def store(self, site):
        return self.folder / f"{site}.db"

    def begin(self, *sites):
        """Sites that began, of which 0 gave two seats of `a` to 1, and 1 one of these to 2."""
        opened = {site: self.open(site, group=OLD) for site in sites}
        if {0, 1} <= set(sites):
            opened[0].give("a", 1, 2)
            opened[1].take(opened[0].send())
        if {1, 2} <= set(sites):
            opened[1].give("a", 2, 1)
            opened[2].take(opened[1].send())
        for site in opened.values():
            site.close()

    def lose(self, *sites):
        for site in sites:
            for path in self.folder.glob(f"{site}.db*"):
                path.unlink()

    def recovery(self, site, *lost, to=NEW, transport=None, confirm=lambda premise: True, layout=None, program=PROGRAM):
        plan = Plan(site, str(self.store(site)), to, lost, str(layout or self.layout), program)
        return Recovery(plan, transport or Folder(self.channel), self.said.append, confirm)

    def run_at(self, site, *lost, **more):
        self.said.clear()
        self.recovery(site, *lost, **more).run()
        return "\n".join(self.said)

    def refused_at(self, part, site, *lost, **more):
        with self.assertRaises(NotDone) as caught:
            self.run_at(site, *lost, **more)
        self.assertIn(part, str(caught.exception))

    def words(self, command, site, group):
        return [PROGRAM, command, f"--site={site}", "--store", str(self.store(site)), "--layout", str(self.layout), "--group", group]

    def serve_all(self, group=NEW):
        """All sites in a group: no seat is missing, and a writer gets in at each."""
        sites = [self.open(site, group=group) for site in range(3)]
        for _ in range(2):
            texts = [site.send() for site in sites]
            for site in sites:
                for text in texts:
                    site.take(text)
        self.assertEqual([site.show("a").rights for site in sites], self.rights)
        self.assertEqual(sum(site.show("b").rights for site in sites), 4)
        for number, site in enumerate(sites):
            site.announce("a", 9)
            for other in sites:
                if other is not site:
                    other.take(site.send())
                    try:
                        other.help("a")
                    except NoPlan:
                        pass
                    site.take(other.send())
            self.assertEqual(site.call("write a 9"), "admitted", number)
            site.leave("a", 9)
        for site in sites:
            site.close()

    rights = [1, 1, 1]

    # One lost site

    def test_a_lost_site_is_built_again(self):
        self.begin(0, 1, 2)
        self.lose(1)
        self.refused_at("once these sites are moved", 1, 1)
        self.assertIn("site 0: no text of its move yet\nsite 2: no text of its move yet\nsite 1: is lost", "\n".join(self.said))
        said = self.run_at(0, 1)
        self.assertIn("site 0 is in east.2", said)
        self.assertIn("site 2: no text of its move yet\nsite 1: is lost\nto do at the machine of each such site", said)
        with self.assertRaises(StoreRefused) as refused:
            self.open(0, group=OLD)
        self.assertEqual(refused.exception.name, "WrongGroup")
        self.refused_at("once these sites are moved", 1, 1)
        self.assertFalse(self.store(1).exists())
        self.run_at(2, 1)
        said = self.run_at(1, 1)
        self.assertIn("a rights 1 inside 0 unfinished 0", said)
        self.assertIn("site 1 is built again in east.2", said)
        self.serve_all()
        self.refused_at("Nothing is built over a file", 1, 1, to="east.3")
        self.refused_at("the site is not lost", 0, 0)

    def test_a_second_call_changes_nothing(self):
        self.begin(0, 1, 2)
        self.lose(2)
        for site in (0, 1, 2):
            self.run_at(site, 2)
        texts = {path.name: path.read_text() for path in self.channel.iterdir()}
        for site in (2, 1, 0):
            self.run_at(site, 2)
        self.assertEqual({path.name: path.read_text() for path in self.channel.iterdir()}, texts)
        self.serve_all()

    def test_it_is_not_built_twice(self):
        self.begin(0, 1, 2)
        self.lose(1)
        for site in (0, 2, 1):
            self.run_at(site, 1)
        self.lose(1)
        self.refused_at("was built again in east.2 before", 1, 1)
        self.refused_at("not confirmed", 0, 1, to="east.3", confirm=lambda premise: False)
        self.assertIn("site 0 is in east.2", self.run_at(0, 1))
        for site in (0, 2):
            self.run_at(site, 1, to="east.3")
        self.run_at(1, 1, to="east.3")
        self.serve_all("east.3")

    def test_what_tells_of_a_move_that_came_before_the_loss(self):
        """What its store still has beside it tells of the move; else the operator has to."""
        self.begin(0, 1, 2)
        self.lose(1)
        for site in (0, 2, 1):
            self.run_at(site, 1)
        for path in (self.store(2), self.store(2).with_name("2.db-wal")):
            path.unlink(missing_ok=True)
        self.refused_at("was moved to east.2 before it was lost", 2, 2)
        asked = []
        self.run_at(0, 2, confirm=asked.append)
        for site in (0, 1):
            os.remove(f"{self.store(site)}.{NEW}.{'texts' if site == 1 else 'moved'}")
        self.assertEqual(asked, [])
        self.refused_at("a later one does only where this is so", 0, 2, confirm=asked.append)
        self.assertEqual(asked, ["Site 2 was never in east.2 before, on no machine: neither moved there nor built again there"])
        self.assertFalse(self.store(2).exists())

    def test_a_launcher_that_warns(self):
        """What it says on standard error is not taken for the name of a refusal."""
        launcher = self.folder / "launcher"
        launcher.write_text(f'#!/bin/sh\necho "seat_cli: the sources are newer than the program" >&2\nexec {shlex.quote(PROGRAM)} "$@"\n')
        launcher.chmod(0o755)
        self.begin(0, 1, 2)
        self.lose(1)
        with self.open(0, group=OLD):
            self.refused_at("it is served", 0, 1, program=str(launcher))
        for site in (0, 2, 1):
            self.run_at(site, 1, program=str(launcher))
        self.assertIn("a rights 1 inside 0 unfinished 0", "\n".join(self.said))
        asked = []
        self.refused_at("not confirmed", 0, 1, to="east.3", program=str(launcher), confirm=asked.append)
        self.assertEqual(asked, ["Each site that is left is in east.2 by now: no store of one is still in east"])
        self.serve_all()

    def test_the_question_is_asked_where_the_store_does_not_tell(self):
        """Without memory for an answer nobody knows whether the site is in the old group."""
        self.begin(0, 1, 2)
        self.lose(1)
        for site in (0, 2, 1):
            self.run_at(site, 1)
        asked = []
        self.refused_at("not confirmed", 0, 1, to="east.3", program=self.program("ask", "echo memory >&2; exit 6"), confirm=asked.append)
        self.assertEqual(len(asked), 1)

    def test_whose_the_files_are(self):
        self.begin(0, 1, 2)
        self.lose(1)
        self.assertNotIn("another user", self.run_at(0, 1))
        with unittest.mock.patch("os.geteuid", lambda: os.getuid() + 1):
            self.assertIn("belongs to another user", self.run_at(2, 1))

    def test_each_premise_has_to_be_confirmed(self):
        self.begin(0, 1, 2)
        self.lose(1)
        for site in (0, 2):
            self.run_at(site, 1)
        for kept in range(4):
            asked = []
            self.refused_at("not confirmed", 1, 1, confirm=lambda premise, asked=asked: asked.append(premise) or len(asked) <= kept)
            self.assertEqual(len(asked), kept + 1)
            self.assertFalse(self.store(1).exists())

    def test_a_site_that_never_began(self):
        self.begin(0, 1)
        self.lose(1)
        self.run_at(0, 1)
        self.refused_at("If the site never began: seat_cli ask --create --site 2", 2, 1)
        self.begin(2)
        self.run_at(2, 1)
        self.run_at(1, 1)
        self.rights = [1, 2, 0]
        self.serve_all()

    def test_sessions_stay_at_the_sites_that_are_left(self):
        self.begin(0, 1, 2)
        with self.open(0, group=OLD) as site:
            site.call("read a 7")
        self.lose(1)
        for site in (0, 2, 1):
            self.run_at(site, 1)
        with self.open(0, group=NEW) as site:
            self.assertEqual(site.sessions("a"), [(7, "reader")])

    # Stores that can't be moved, and channels that are not there

    def test_stores_that_are_not_moved(self):
        self.begin(0, 1, 2)
        self.lose(1)
        with self.open(0, group=OLD):
            self.refused_at("it is served", 0, 1)
        self.refused_at("it is neither in east.2 nor in east.3", 0, 1, to="east.3")
        other = self.write_layout("other.toml", 3, ("a", 3, 0, 2), ("b", 5, 1, 1))
        self.refused_at("made for another layout", 0, 1, layout=other)
        shutil.copy(self.store(2), self.store(0))
        self.refused_at("WrongSite", 0, 1)
        self.assertEqual(list(self.channel.iterdir()), [])

    def test_a_file_at_the_place_of_the_lost_store(self):
        self.begin(0, 1, 2)
        kept = self.store(1).read_bytes()
        for site in (0, 2):
            self.run_at(site, 1)
        self.refused_at("can't be opened as a store of site 1 in east.2", 1, 1)
        self.assertEqual(self.store(1).read_bytes(), kept)

    def test_texts_that_are_none(self):
        self.begin(0, 1, 2)
        self.lose(1)
        for site in (0, 2):
            self.run_at(site, 1)
        right = (self.channel / "2.delta").read_text()
        for wrong in ("", "x", right.replace(":moved", ""), right.replace("east.2", "east"), right.replace('"out":[0', '"out":[9'), right[:-3]):
            (self.channel / "2.delta").write_text(wrong)
            if wrong.startswith("east.2 "):
                # A delta of the new group is no text of a move.
                self.assertEqual(self.recovery(1, 1)._gather(), True)
                self.assertEqual(self.recovery(1, 1, 0)._gather(), False)
            else:
                self.refused_at("once these sites are moved", 1, 1)
        (self.channel / "2.delta").write_text(right)
        self.run_at(1, 1)

    def test_wrong_plans(self):
        self.assertEqual([generation(name) for name in ("east", "east.2", "a.1048575")], [1, 2, 1048575])
        self.assertEqual([before(name) for name in ("east.2", "east.3", "e-1.10")], ["east", "east.2", "e-1.9"])
        for name in ("", "East", "1east", "east.1", "east.02", "east.", "east.2.3", "east.1048576", "e" * 33):
            with self.assertRaises(NotDone):
                generation(name)
        self.refused_at("the first generation", 0, 1, to="east")
        self.refused_at("no site 3", 0, 3)
        self.refused_at("no site 3", 3, 0)
        self.refused_at("once", 0, 1, 1)

    def test_a_channel_that_goes_away(self):
        self.begin(0, 1, 2)
        self.lose(1)
        gone = Folder(self.folder / "gone")
        self.refused_at("can't be fetched", 0, 1, transport=gone)
        self.open(0, group=OLD).close()

        class Half(Folder):
            def publish(self, site, text):
                raise OSError("full")

        self.refused_at("can't be published", 0, 1, transport=Half(self.channel))
        self.run_at(0, 1)
        self.run_at(2, 1)
        self.refused_at("can't be fetched", 1, 1, transport=gone)
        self.refused_at("can't be published", 1, 1, transport=Half(self.channel))
        self.run_at(1, 1)
        self.assertEqual((self.channel / "1.delta").read_text(), "east.2:built 1 1\n")
        self.serve_all()

    # Calls that stopped

    def test_the_text_of_a_move_was_lost(self):
        self.begin(0, 1, 2)
        self.lose(1)
        subprocess.run(self.words("regroup", 0, OLD), stdout=subprocess.DEVNULL, check=True)
        with self.open(0, group=NEW):
            self.refused_at("it is served", 0, 1)
        self.run_at(0, 1)
        self.assertTrue((self.channel / "0.delta").read_text().startswith("east.2 "))
        self.refused_at("move all again", 0, 1, 2)
        self.run_at(2, 1)
        self.run_at(1, 1)
        self.serve_all()

    def test_the_text_of_a_move_was_lost_and_several_sites_are(self):
        self.begin(0, 1, 2)
        self.lose(0, 1)
        subprocess.run(self.words("regroup", 2, OLD), stdout=subprocess.DEVNULL, check=True)
        self.refused_at("move all again: the same calls with --to east.3", 2, 0, 1)
        self.run_at(2, 0, 1, to="east.3")
        for site in (0, 1):
            self.run_at(site, 0, 1, to="east.3")
        self.rights = [2, 0, 1]
        self.serve_all("east.3")

    def test_the_call_died_behind_the_move(self):
        self.begin(0, 1, 2)
        self.lose(0, 1)
        with open(f"{self.store(2)}.{NEW}.moved.part", "wb") as part:
            subprocess.run(self.words("regroup", 2, OLD), stdout=part, check=True)
        self.run_at(2, 0, 1)
        self.assertTrue((self.channel / "2.delta").read_text().startswith("east.2:moved "))

    def test_the_call_died_while_the_store_was_made(self):
        self.begin(0, 1, 2)
        self.lose(1)
        self.store(1).touch()
        for site in (0, 2, 1):
            self.run_at(site, 1)
        self.serve_all()

    def test_calls_that_are_killed(self):
        self.begin(0, 1, 2)
        self.lose(1)
        chance, kills = random.Random(1), 0
        for site in (0, 2, 1):
            words = [sys.executable, "-m", "zinduroi", "recover", "--to", NEW, "--lost", "1", "--site", str(site), "--store", str(self.store(site)),
                     "--layout", str(self.layout), "--program", PROGRAM, "--folder", str(self.channel), "--wait", "0"]
            # Those of up to two seconds end in the middle of a call, or behind it.
            for longest in (0.06, 0.12, 0.25, 0.5, 1.0, 2.0, 600.0):
                call = subprocess.Popen(words, stdin=subprocess.PIPE, stdout=subprocess.DEVNULL, cwd=PACKAGE, start_new_session=True)
                call.stdin.write(b"yes\n" * 4)
                call.stdin.close()
                try:
                    call.wait(longest if longest > 2 else longest * (0.5 + chance.random() / 2))
                    break
                except subprocess.TimeoutExpired:
                    os.killpg(call.pid, 9)
                    call.wait()
                    kills += 1
            self.assertEqual(call.returncode, 0)
        self.assertGreaterEqual(kills, 3)
        self.serve_all()

    def program(self, command, script):
        """A program that carries out this command by a script of sh, in which `real` is the program; all others itself."""
        path = self.folder / f"{command}-program"
        path.write_text(f'#!/bin/sh\nreal() {{ {shlex.quote(PROGRAM)} "$@"; }}\n[ "$1" = {command} ] || {{ real "$@"; exit $?; }}\n{script}\n')
        path.chmod(0o755)
        return str(path)

    def test_a_move_that_ends_with_a_fault(self):
        self.begin(0, 1, 2)
        self.lose(1)
        for site, lost in ((0, (1,)), (2, (0, 1))):
            self.run_at(site, *lost, program=self.program("regroup", 'real "$@"; exit 7'))
            self.assertTrue((self.channel / f"{site}.delta").read_text().startswith("east.2:moved "))

    def test_a_move_of_which_it_is_not_known(self):
        self.begin(0, 1, 2)
        self.lose(1)
        for script in ("echo io >&2; exit 7", "echo store refused StoreFault >&2; exit 5", "kill -9 $$", 'real "$@" > /dev/null; exit 7'):
            self.refused_at("it is not known whether site 0 was moved", 0, 1, program=self.program("regroup", script))
        self.assertIn("site 0 is in east.2", self.run_at(0, 1))
        self.assertTrue((self.channel / "0.delta").read_text().startswith("east.2 "))
        self.refused_at("was not moved: NoLayout", 2, 1, program=self.program("regroup", "echo NoLayout >&2; exit 3"))

    def test_a_site_of_no_group(self):
        with self.open(0):
            pass
        self.refused_at("NoGroup (it is in no group", 0, 1)

    def test_a_site_that_sends_no_text(self):
        self.begin(0, 1, 2)
        subprocess.run(self.words("regroup", 0, OLD), stdout=subprocess.DEVNULL, check=True)
        program = self.program("ask", 'for last; do true; done; [ "$last" = send ] || { real "$@"; exit $?; }\necho refused Memory; exit 1')
        self.refused_at("it sends none: refused Memory", 0, 1, program=program)
        self.assertEqual(list(self.channel.iterdir()), [])
        self.run_at(0, 1)

    def test_a_refused_input_leaves_no_texts(self):
        self.begin(0, 1, 2)
        self.lose(1)
        for site in (0, 2):
            self.run_at(site, 1)
        self.refused_at("was not built: input refused CounterFull", 1, 1, program=self.program("rebuild", "echo input refused CounterFull; exit 4"))
        self.assertFalse(os.path.exists(f"{self.store(1)}.{NEW}.texts"))

    def test_a_building_of_which_it_is_not_known(self):
        """Its store may be there, so it may be built at no other machine."""
        self.begin(0, 1, 2)
        self.lose(1)
        for site in (0, 2):
            self.run_at(site, 1)
        for script in ("echo io >&2; exit 7", "echo store refused StoreFault >&2; exit 5", "kill -9 $$", 'real "$@" > /dev/null; exit 7'):
            self.refused_at("it is not known whether site 1 was built", 1, 1, program=self.program("rebuild", script))
        self.assertIn("site 1 is built again", self.run_at(1, 1))
        self.serve_all()

    # Several lost sites

    def test_a_store_that_is_built_of_other_texts(self):
        self.begin(0, 1, 2)
        self.lose(0, 1)
        self.run_at(2, 0, 1)
        program = self.program("rebuild", 'real "$@" | sed "s/^texts .*/texts 0123456789abcdef/"')
        self.refused_at("was built of other texts than those in", 1, 0, 1, program=program)
        self.refused_at("don't serve it", 1, 0, 1)

    def test_two_lost_sites_are_built_of_the_same_texts(self):
        self.begin(0, 1, 2)
        self.lose(0, 1)
        self.run_at(2, 0, 1)
        said = self.run_at(1, 0, 1)
        self.assertIn("a rights 0 inside 0 unfinished 0", said)
        self.assertIn("site 0: is still to be built", said)
        self.assertRegex(said, r"texts [0-9a-f]{16}")
        self.assertRegex((self.channel / "1.delta").read_text(), r"^east\.2:built 1 0,1 [0-9a-f]{16}\n$")
        with self.open(2, group=NEW) as site:
            site.call("read a 7")
            site.leave("a", 7)
        said = self.run_at(0, 0, 1)
        self.assertIn("a rights 2 inside 0 unfinished 0", said)
        self.assertNotIn("still to be built", said)
        self.rights = [2, 0, 1]
        self.serve_all()

    def test_another_list_of_lost_sites(self):
        self.begin(0, 1, 2)
        self.lose(0, 1)
        self.run_at(2, 0, 1)
        self.run_at(1, 0, 1)
        self.refused_at("another list of lost sites (0,1)", 0, 0)
        self.refused_at("was built of the texts of sites 2, and here 0, 2 are left", 1, 1)
        self.assertRegex((self.channel / "1.delta").read_text(), r"^east\.2:built 1 0,1 ")
        (self.channel / "1.delta").write_text("east.2:built 1 0,1 0123456789abcdef\n")
        self.refused_at("built again of other texts", 0, 0, 1)

    def test_a_store_that_turns_up(self):
        self.begin(0, 1, 2)
        self.run_at(0, 1)
        self.run_at(2, 1)
        self.refused_at("can't be opened as a store of site 1 in east.2", 1, 1)
        said = self.run_at(1)
        self.assertIn("site 0: is moved, and its text is here\nsite 2: is moved, and its text is here", said)
        self.serve_all()

    def move_old_store(self, site, *lost):
        """Moves a store that has turned up elsewhere; why that is refused."""
        plan = Plan(site, str(self.folder / "old.db"), NEW, lost, str(self.layout), PROGRAM)
        with self.assertRaises(NotDone) as caught:
            Recovery(plan, Folder(self.channel), self.said.append, lambda premise: True).run()
        self.open(site, store=self.folder / "old.db", group=OLD).close()
        return str(caught.exception)

    def test_a_store_that_turns_up_too_late(self):
        """Its site was built without it, or another one was."""
        for lost in ((1,), (0, 1)):
            with self.subTest(lost):
                self.lose(0, 1, 2, "old")
                for path in self.channel.iterdir():
                    path.unlink()
                self.begin(0, 1, 2)
                for path in self.folder.glob(f"{lost[0]}.db*"):
                    shutil.copy(path, self.folder / f"old.db{path.name[4:]}")
                self.lose(*lost)
                for site in sorted({0, 1, 2} - set(lost)) + [1]:
                    self.run_at(site, *lost)
                note = (self.channel / "1.delta").read_text()
                self.assertIn(f"site 1 was built again in east.2 without {self.folder / 'old.db'}", self.move_old_store(lost[0], *lost[1:]))
                self.assertEqual((self.channel / "1.delta").read_text(), note)

    def test_a_site_that_was_built_is_not_moved(self):
        self.begin(0, 1, 2)
        self.lose(1)
        for site in (0, 2, 1):
            self.run_at(site, 1)
        note = (self.channel / "1.delta").read_text()
        self.refused_at("name the site by --lost", 1)
        os.remove(f"{self.store(1)}.{NEW}.texts")
        self.refused_at("name the site by --lost", 1)
        self.assertEqual((self.channel / "1.delta").read_text(), note)
        self.serve_all()

    def test_a_store_that_turns_up_and_is_served(self):
        """What a building that failed has left is not taken for a store."""
        self.begin(0, 1, 2)
        for path in self.folder.glob("1.db*"):
            path.rename(self.folder / f"kept{path.name[4:]}")
        for site in (0, 2):
            self.run_at(site, 1)
        self.refused_at("it is not known whether site 1 was built", 1, 1, program=self.program("rebuild", "echo io >&2; exit 7"))
        for path in self.folder.glob("kept*"):
            path.rename(self.folder / f"1.db{path.name[4:]}")
        with self.open(1, group=OLD):
            self.refused_at("is served: end its node", 1)
            self.refused_at("is served, and it is not known in which group", 1, 1)
        self.assertIn("site 1 is in east.2", self.run_at(1))

    def test_a_store_that_was_moved_and_turns_up_too_late(self):
        """Its text was never told, and another store was built in its place."""
        self.begin(0, 1, 2)
        with open(f"{self.store(1)}.{NEW}.moved.part", "wb") as part:
            subprocess.run(self.words("regroup", 1, OLD), stdout=part, check=True)
        (self.channel / "1.delta").write_text("east.2:built 1 1\n")
        self.refused_at("was built again in east.2 without", 1)
        self.assertEqual((self.channel / "1.delta").read_text(), "east.2:built 1 1\n")

    def test_a_note_that_comes_behind_the_first_look(self):
        """Another operator has built the site while this one answered."""
        self.begin(0, 1, 2)
        self.lose(1)
        for site in (0, 2):
            self.run_at(site, 1)
        note = self.channel / "1.delta"
        self.refused_at("was built again in east.2 before", 1, 1, confirm=lambda premise: note.write_text("east.2:built 1 1\n") > 0)
        self.assertFalse(self.store(1).exists())

    def test_a_note_that_can_not_be_read(self):
        self.begin(0, 1, 2)
        self.lose(1)
        for site in (0, 2):
            self.run_at(site, 1)
        (self.channel / "1.delta").mkdir()
        self.refused_at("can't be fetched", 1, 1)
        self.assertFalse(self.store(1).exists())
        (self.channel / "2.delta").unlink()
        (self.channel / "2.delta").mkdir()
        self.refused_at("can't be fetched", 0, 1)

    def test_what_is_left_of_an_earlier_building(self):
        """The program has told here what the site got: so it was built, and served perhaps."""
        self.begin(0, 1, 2)
        self.lose(1)
        for site in (0, 2, 1):
            self.run_at(site, 1)
        (self.channel / "1.delta").unlink()
        for ending in ("", "-wal", "-shm"):
            self.store(1).with_name(f"1.db{ending}").unlink(missing_ok=True)
        self.refused_at("was built again in east.2 here before", 1, 1)
        self.assertFalse(self.store(1).exists())

    def test_whether_the_group_has_gone_on_is_asked(self):
        self.begin(0, 1, 2)
        self.lose(1)
        for site in (0, 2):
            self.run_at(site, 1)
        self.refused_at("not confirmed", 1, 1, confirm=lambda premise: "no site has gone on to east.3" not in premise)
        self.assertFalse(self.store(1).exists())

    def test_two_calls_at_once(self):
        self.begin(0, 1, 2)
        self.lose(1)
        program = self.program("regroup", f"while [ ! -e {self.folder}/go ]; do sleep 0.1; done\nreal \"$@\"")
        first = self.recovery(0, 1, program=program)
        said = []
        first.say = said.append
        working = threading.Thread(target=first.run)
        working.start()
        self.assertTrue(wait_for(lambda: os.path.exists(f"{self.store(0)}.{NEW}.moved.part")))
        self.refused_at("another call is at work", 0, 1)
        (self.folder / "go").touch()
        working.join()
        self.assertIn("site 0 is in east.2", said)
        self.run_at(0, 1)

    def test_a_site_that_is_lost_behind_its_move(self):
        self.begin(0, 1, 2)
        self.lose(1)
        self.run_at(0, 1)
        self.run_at(2, 1)
        self.lose(2)
        for site in (1, 2):
            self.refused_at("site 2 was in east.2 when it was lost. Move all sites that are left on to east.3", site, 1, 2)
        self.refused_at("site 2 was in east.2 when it was lost", 2, 2)
        for site in (0, 2, 1):
            self.run_at(site, 1, 2, to="east.3")
        self.rights = [1, 2, 0]
        self.serve_all("east.3")

    # The command, its channels and its questions

    def recover(self, site, *more, answers="yes\n" * 4):
        words = [sys.executable, "-m", "zinduroi", "recover", "--to", NEW, "--lost", "1", *more]
        if "--config" not in more:
            words += ["--site", str(site), "--store", str(self.store(site)), "--layout", str(self.layout), "--program", PROGRAM]
        ran = subprocess.run(words, input=answers, capture_output=True, text=True, cwd=PACKAGE, check=False)
        return ran.returncode, ran.stdout + ran.stderr

    def test_the_command(self):
        self.begin(0, 1, 2)
        self.lose(1)
        config = self.folder / "node.toml"
        text = f'site = 0\nstore = "0.db"\nlayout = "layout.toml"\ngroup = "GROUP"\nlog = "0.log"\nprogram = "{PROGRAM}"\n[socket]\npath = "s"\n'
        config.write_text(text.replace("GROUP", "west"))
        self.assertEqual(self.recover(0, "--config", str(config), "--folder", str(self.channel))[0], 1)
        for group in (OLD, NEW):
            config.write_text(text.replace("GROUP", group))
            status, said = self.recover(0, "--config", str(config), "--folder", str(self.channel))
            self.assertEqual(status, 0, said)
            self.assertEqual('write group = "east.2" into' in said, group == OLD)
            self.assertNotIn("take log out", said)
        config.write_text(text.replace("GROUP", NEW).replace("site = 0", "site = 1").replace("0.db", "1.db"))
        status, said = self.recover(1, "--config", str(config), "--folder", str(self.channel))
        self.assertEqual((status, "site 2: no text of its move yet" in said, "take log out of" in said), (1, True, True), said)
        self.assertEqual(self.recover(2, "--folder", str(self.channel))[0], 0)
        for answers in ("", "yes\n" * 3, "y\n", "yes\nno\nyes\nyes\n"):
            self.assertEqual(self.recover(1, "--folder", str(self.channel), answers=answers)[0], 1)
            self.assertFalse(self.store(1).exists())
        status, said = self.recover(1, "--folder", str(self.channel))
        self.assertEqual((status, said.count("Is that so? Type yes: ")), (0, 4), said)
        self.serve_all()

    def test_wrong_arguments(self):
        right = ["recover", "--to", NEW, "--lost", "1", "--site", "0", "--store", "s"]
        for words in (right, [*right, "--folder", "f", "--mqtt", "g"], [*right, "--publish", "p"], right[:-2] + ["--folder", "f"],
                      [*right, "--config", "c", "--folder", "f"], [right[0], *right[3:], "--folder", "f"]):
            with self.assertRaises(SystemExit) as ended:
                main(words)
            self.assertEqual(ended.exception.code, 2)

    def test_over_commands(self):
        self.begin(0, 1, 2)
        self.lose(1)
        texts = self.folder / "texts"
        texts.mkdir()
        channel = Command(f'cat > {texts}/"$ZINDUROI_SITE"', f"cat {texts}/* 2>/dev/null; true")
        for site in (0, 2, 1):
            self.run_at(site, 1, transport=channel)
        self.serve_all()

    @unittest.skipUnless(Broker.program(), "mosquitto is not installed")
    def test_over_a_broker(self):
        broker = Broker(self.folder)
        self.addCleanup(broker.stop)
        self.assertTrue(broker.start())
        self.begin(0, 1, 2)
        self.lose(1)
        for site in (0, 2, 1):
            status, said = self.recover(site, "--mqtt", "east-2-moved", "--port", str(broker.port), "--wait", "30")
            self.assertEqual(status, 0, said)
        self.serve_all()


if __name__ == "__main__":
    unittest.main()
