"""Fencing numbers: what a resource remembers, which needs no program, and what a site tells of whoever is inside."""
import os
import random
import signal
import sqlite3
import sys
import threading
import unittest

import zinduroi
from zinduroi import Fence

from .common import PACKAGE, Case

# What the numbers of a group begin with.
FIRST = 2**44


def allows(old, new):
    """Whether a resource that has let in one session lets in another: `allows` of Resource.antt. A session is its number, and
    whether it writes."""
    return new[0] >= old[0] if new[1] else not old[1] or new[0] > old[0]


class Resources(unittest.TestCase):
    """`Fence`, without the program."""

    def tried(self, *shown):
        """What is answered to sessions, one after the other, each a number and whether it writes."""
        fence = Fence()
        return [fence.admits(*one) for one in shown]

    def test_what_comes_after_what(self):
        reader, writer = False, True
        self.assertEqual(self.tried((1, reader), (0, reader)), [True, True])
        self.assertEqual(self.tried((0, writer), (0, reader)), [True, False])
        self.assertEqual(self.tried((0, reader), (0, writer)), [True, True])
        self.assertEqual(self.tried((1, reader), (0, writer)), [True, False])
        self.assertEqual(self.tried((0, writer), (1, reader)), [True, True])
        self.assertEqual(self.tried((5, writer), (5, writer), (4, writer), (6, writer), (5, writer)), [True, True, False, True, False])

    def test_numbers(self):
        fence = Fence()
        self.assertEqual(fence.numbers, (0, None))
        self.assertTrue(fence.admits(FIRST, False))
        self.assertEqual(fence.numbers, (FIRST, None))
        self.assertTrue(fence.admits(FIRST + 1, True))
        self.assertTrue(fence.admits(FIRST + 3, False))
        self.assertTrue(fence.admits(FIRST + 2, False))
        self.assertFalse(fence.admits(FIRST + 1, False))
        self.assertFalse(fence.admits(FIRST + 2, True))
        self.assertEqual(fence.numbers, (FIRST + 3, FIRST + 1))

    def test_two_numbers_are_as_good_as_all(self):
        chance = random.Random(1)
        for _ in range(500):
            fence, let_in = Fence(), []
            for _ in range(chance.randrange(20)):
                new = chance.randrange(6), chance.random() < 0.5
                admitted = fence.admits(*new)
                self.assertEqual(admitted, all(allows(old, new) for old in let_in), (let_in, new))
                let_in += [new] * admitted
                fence = Fence(*fence.numbers)

    def test_statements(self):
        # Those of docs/OPERATING.md do the same.
        table = "CREATE TABLE fences (record TEXT PRIMARY KEY, greatest BIGINT NOT NULL DEFAULT 0, of_writers BIGINT NOT NULL DEFAULT 0)"
        writer = "UPDATE fences SET greatest = :n, of_writers = :n WHERE record = :record AND greatest <= :n"
        reader = ("UPDATE fences SET greatest = CASE WHEN greatest < :n THEN :n ELSE greatest END "
                  "WHERE record = :record AND of_writers < :n")
        page = PACKAGE.parent.parent / "docs" / "OPERATING.md"
        if page.exists():
            for statement in (table, writer, reader):
                self.assertIn(f"\n    {statement}\n", page.read_text(encoding="utf-8"))
        chance, base = random.Random(2), sqlite3.connect(":memory:", isolation_level=None)
        self.addCleanup(base.close)
        base.execute(table)
        for record in map(str, range(200)):
            base.execute("INSERT INTO fences (record) VALUES (?)", (record,))
            fence = Fence()
            for _ in range(chance.randrange(20)):
                number, writes = FIRST + chance.randrange(6), chance.random() < 0.5
                changed = base.execute(writer if writes else reader, {"n": number, "record": record}).rowcount
                self.assertEqual(changed == 1, fence.admits(number, writes))
                kept = base.execute("SELECT greatest, of_writers FROM fences WHERE record = ?", (record,)).fetchone()
                self.assertEqual(kept, (fence.numbers[0], fence.numbers[1] or 0))

    def test_threads(self):
        # Threads change in the middle of whatever can be interrupted.
        self.addCleanup(sys.setswitchinterval, sys.getswitchinterval())
        sys.setswitchinterval(1e-6)
        fence, lost = Fence(), []

        def show(first):
            for number in range(first, 20_000, 4):
                if fence.admits(number, True) and min(fence.numbers) < number:
                    lost.append(number)

        threads = [threading.Thread(target=show, args=(first,)) for first in range(4)]
        for thread in threads:
            thread.start()
        for thread in threads:
            thread.join()
        self.assertEqual((lost, fence.numbers), ([], (19_999, 19_999)))


class Numbers(Case):
    """`fence` of a site, and of a session."""

    def test_replies(self):
        site = self.open()
        with site.read("a", 7) as inside:
            self.assertEqual(site.call("fence a 7"), f"fence {FIRST}")
            self.assertEqual((site.fence("a", 7), inside.fence), (FIRST, FIRST))
            site.announce("a", 8)
            self.refused(zinduroi.NotHere, site.fence, "a", 8)
        site.call("write a 8")
        self.assertEqual(site.fence("a", 8), FIRST)
        site.leave("a", 8)
        self.refused(zinduroi.NotHere, site.fence, "a", 8)
        with site.write("a", 8, timeout=0) as inside:
            self.assertEqual(inside.fence, FIRST + 1)
        self.refused(zinduroi.NoRecord, site.fence, "none", 7)
        self.refused(zinduroi.BadHolder, site.fence, "a", 10**12 + 1)
        self.refused(zinduroi.BadWord, site.fence, "a", -1, word=3)
        self.refused(zinduroi.BadWord, site.call, "fence a", word=3)

    def test_a_session_has_one_number(self):
        site = self.open()
        visit = site.read("a", 7)
        with visit as inside:
            self.assertIs(inside, visit)
            number = inside.fence
            # A writer that withdraws has finished too.
            site.announce("a", 8)
            site.leave("a", 8)
            self.assertEqual((inside.fence, site.fence("a", 7)), (number, number + 1))
        self.assertEqual(inside.fence, number)
        with visit as inside:
            self.assertEqual(inside.fence, number + 1)

    def test_a_session_that_somebody_ended(self):
        site = self.open()
        with self.assertRaises(zinduroi.NotHere):
            with site.write("a", 8, timeout=0) as inside:
                site.leave("a", 8)
                self.refused(zinduroi.NotHere, lambda: inside.fence)
        with self.assertRaises(zinduroi.NotHere):
            with site.write("a", 8, timeout=0) as inside:
                number = inside.fence
                site.leave("a", 8)
                self.assertEqual(inside.fence, number)

    def test_other_sites_and_restarts(self):
        here, there = self.open(), self.open(1)
        with here.write("a", 8, timeout=0) as writer:
            self.assertEqual(writer.fence, FIRST)
        here.give("a", 1, 1)
        there.take(here.send())
        os.kill(there.pid, signal.SIGKILL)
        with self.assertRaises(zinduroi.ServiceEnded):
            there.send()
        there.reopen(wait=10)
        with there.read("a", 7) as reader, here.read("a", 7) as other:
            self.assertEqual((reader.fence, other.fence), (FIRST + 1, FIRST + 1))

    def test_a_late_writer(self):
        site, fence = self.open(), Fence()
        late = site.write("a", 8, timeout=0).__enter__()
        self.assertTrue(fence.admits(late.fence, True))
        site.leave("a", 8)
        self.assertTrue(fence.admits(late.fence, True))
        with site.read("a", 7) as reader:
            self.assertTrue(fence.admits(reader.fence, False))
            self.assertFalse(fence.admits(late.fence, True))
            self.assertTrue(fence.admits(reader.fence, False))
        with site.write("a", 9, timeout=0) as writer:
            self.assertTrue(fence.admits(writer.fence, True))
            self.assertFalse(fence.admits(reader.fence, False))
            self.assertFalse(fence.admits(late.fence, True))


if __name__ == "__main__":
    unittest.main()
