"""The policy for seats that other sites lack, as tables; and what it does over time, with several sites."""
import unittest

from .common import PACKAGE  # noqa: F401, puts the package on the path
from zinduroi.sharing import (FRESH, INTERVAL, LACKING, LATELY, Gift, Holding, decide, even_share, gifts_of, lacking, records_with_writers,
                              remember, spare_seats, used_lately)


def holding(free, inside=0, used=0, seats=30, sites=3, **more):
    return Holding("a", seats, sites, free, inside, used, **more)


class Tables(unittest.TestCase):
    def test_spare_seats(self):
        for free, inside, used, spare in ((10, 0, 0, 10), (10, 0, 4, 6), (10, 4, 4, 10), (10, 3, 4, 9), (3, 0, 9, 0), (0, 5, 9, 0), (5, 9, 2, 5)):
            self.assertEqual(spare_seats(holding(free, inside, used)), spare, (free, inside, used))

    def test_gifts(self):
        for name, given, askers, want in (
                ("nobody asks", holding(10), {}, []),
                ("half of what is spare stays", holding(10), {1: 99}, [(1, 5)]),
                ("no more than half of the lack, as another site gives too", holding(10), {1: 5}, [(1, 3)]),
                ("one seat", holding(10), {1: 1}, [(1, 1)]),
                ("the last spare seat", holding(1), {1: 1}, [(1, 1)]),
                ("nothing free", holding(0), {1: 1}, []),
                ("all was used lately", holding(4, 2, 6), {1: 9}, []),
                ("what was used lately stays", holding(10, 0, 4), {1: 99}, [(1, 3)]),
                ("two ask: a third each, who lacks most first", holding(9), {1: 5, 2: 99}, [(2, 3), (1, 3)]),
                ("two ask for one spare seat", holding(1), {2: 5, 1: 5}, [(1, 1)]),
                ("never more than an even share", holding(30), {1: 99}, [(1, 10)]),
                ("a writer waits", holding(10, writers=True), {1: 5}, []),
                ("its own callers lack seats", holding(10, lacks=1), {1: 5}, []),
                ("sixteen sites, of which fifteen give", holding(2, seats=32, sites=16), {1: 16}, [(1, 1)]),
                ("all others ask", holding(3, seats=4, sites=2), {1: 9}, [(1, 2)]),
                ("more ask than there are sites", holding(10, sites=1), {1: 9, 2: 9}, [(1, 4), (2, 4)])):
            with self.subTest(name):
                self.assertEqual(gifts_of(given, askers), [Gift("a", site, seats) for site, seats in want])

    def test_never_too_much(self):
        """For all small numbers: what stays serves what was used lately, and no asker gets more than an even share or its lack."""
        for free in range(8):
            for inside in range(4):
                for used in range(8):
                    for askers in ({1: 1}, {1: 3}, {1: 2, 2: 7}, {1: 9, 2: 9, 3: 1}):
                        given = holding(free, inside, used, seats=12, sites=4)
                        gifts = gifts_of(given, askers)
                        left = free - sum(gift.seats for gift in gifts)
                        self.assertGreaterEqual(left + inside, min(used, free + inside))
                        for gift in gifts:
                            self.assertTrue(0 < gift.seats <= min(even_share(12, 4), askers[gift.site]))

    def test_decide(self):
        both = [holding(10), Holding("b", 30, 3, 10, 0, 0)]
        half = [Gift("a", 1, 2)]
        for name, lacks, given, now, want in (
                ("nobody said anything", {}, {}, 0.0, []),
                ("of one record", {1: ({"a": 4}, 1.0)}, {}, 0.0, half),
                ("of both", {1: ({"a": 4, "b": 2}, 1.0)}, {}, 0.0, half + [Gift("b", 1, 1)]),
                ("too long ago", {1: ({"a": 4}, FRESH + 0.1)}, {}, 0.0, []),
                ("given less than an interval ago", {1: ({"a": 4, "b": 2}, 1.0)}, {"a": 5.0}, 5.0 + INTERVAL / 2, [Gift("b", 1, 1)]),
                ("given an interval ago", {1: ({"a": 4}, 1.0)}, {"a": 5.0}, 5.0 + INTERVAL, half),
                ("no such record, and none lacking", {1: ({"c": 4, "a": 0}, 1.0)}, {}, 0.0, [])):
            with self.subTest(name):
                self.assertEqual(decide(both, lacks, given, now), want)

    def test_what_was_used_lately(self):
        samples = ()
        for now, inside, used in ((0, 2, 2), (1, 5, 5), (2, 3, 5), (3, 4, 5), (1 + LATELY, 0, 5), (2 + LATELY, 0, 4), (3.5 + LATELY, 0, 0)):
            samples = remember(samples, now, inside)
            self.assertEqual(used_lately(samples, now), used, now)
        for now in range(1000):
            samples = remember(samples, now / 100, now % 7)
        self.assertLess(len(samples), 10)
        self.assertEqual(used_lately((), 0.0), 0)

    def test_lacking(self):
        refused = {"a": {"x": 1.0, "y": 2.0, 7: 1.0 - LACKING}, "b": {}, "c": {number: 2.0 for number in range(70_000)}}
        self.assertEqual(lacking(refused, 2.0), {"a": 2, "c": 65_535})
        self.assertEqual(lacking(refused, 2.1 + LACKING), {})

    def test_records_with_writers(self):
        row = '{"ann":%d,"fin":%d,"out":[1],"r":%d,"s":1,"taken":0}'
        delta = '{"from":0,"rows":[%s],"v":1}' % ",".join((row % (2, 1, 1), row % (3, 3, 0)))
        for text in (delta, "payroll 0123456789abcdef 01234567 " + delta):
            self.assertEqual(records_with_writers(text, ["a", "b"]), {"b"})
        for text in ("", "x", "{", "{}", '{"rows":[{}]}', '{"rows":[%s]}' % (row % (1, 0, 7)), '{"rows":7}', "[" * 9999 + "{"):
            self.assertEqual(records_with_writers(text, ["a"]), set())


class World:
    """Sites with readers that want to be inside, round by round: each round a site admits whom it can, `help` passes on what
    is above an even share, and the policy gives. Gifts arrive in the next round."""

    def __init__(self, seats, free):
        self.seats, self.free, self.sites = seats, list(free), len(free)
        self.inside, self.samples, self.given = [0] * self.sites, [()] * self.sites, [{} for _ in free]
        self.gifts = 0

    def round(self, now, wanted):
        lacks = {}
        for site in range(self.sites):
            change = min(wanted[site] - self.inside[site], self.free[site])
            self.inside[site] += change
            self.free[site] -= change
            self.samples[site] = remember(self.samples[site], now, self.inside[site])
            lacks[site] = wanted[site] - self.inside[site]
        arriving = [0] * self.sites
        for site in range(self.sites):
            over = self.free[site] - even_share(self.seats, self.sites)
            if over > 0:
                self.free[site] -= over
                arriving[(site + 1) % self.sites] += over
            known = Holding("a", self.seats, self.sites, self.free[site], self.inside[site], used_lately(self.samples[site], now), lacks[site])
            said = {other: ({"a": lacks[other]}, 0.5) for other in range(self.sites) if other != site}
            for gift in decide([known], said, self.given[site], now):
                self.given[site]["a"] = now
                self.free[site] -= gift.seats
                arriving[gift.site] += gift.seats
                self.gifts += 1
        for site in range(self.sites):
            self.free[site] += arriving[site]
        return lacks


class Rounds(unittest.TestCase):
    """What comes of it."""

    def test_a_busy_site_gets_what_others_do_not_use(self):
        world = World(180, [60, 60, 60])
        for now in range(8):
            lacks = world.round(float(now), [150, 10, 10])
        self.assertEqual((world.inside, lacks), ([150, 10, 10], {0: 0, 1: 0, 2: 0}))

    def test_no_seat_is_lost(self):
        world = World(31, [31, 0, 0, 0, 0])
        for now in range(200):
            world.round(float(now), [(now * 7 + site * 5) % 13 for site in range(5)])
            self.assertEqual(sum(world.free) + sum(world.inside), 31)
            self.assertGreaterEqual(min(world.free), 0)
        self.assertGreater(world.gifts, 0)

    def test_two_busy_sites_do_not_push_seats_back_and_forth(self):
        """More readers than seats: each keeps what it uses, and gifts end."""
        world = World(20, [10, 10])
        for now in range(30):
            world.round(float(now), [15, 15])
        self.assertEqual((world.inside, world.gifts), ([10, 10], 0))

    def test_when_the_demand_moves(self):
        """It moves from site 0 to site 1: within the time that a site looks back for, and a few rounds."""
        world = World(30, [10, 10, 10])
        for now in range(20):
            world.round(float(now), [24, 0, 0])
        self.assertEqual(world.inside, [24, 0, 0])
        for now in range(20, 20 + int(LATELY) + 10):
            world.round(float(now), [0, 24, 0])
        self.assertEqual(world.inside, [0, 24, 0])
        gifts = world.gifts
        for now in range(100, 200):
            world.round(float(now), [0, 24, 0])
        self.assertEqual(world.gifts, gifts)


if __name__ == "__main__":
    unittest.main()
