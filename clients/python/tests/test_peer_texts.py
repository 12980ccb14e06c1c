"""The lines between peers, and which text is due to whom: no connection is made here."""
import json
import unittest

from .common import PACKAGE  # noqa: F401, puts the package on the path
from zinduroi.peer_texts import (FAR_AHEAD, HEAD_LIMIT, SITES, STAMP_LIMIT, TEXT_LIMIT, Alive, BadLine, Heard, Hello, Needs, Text, Texts,
                                 View,
                                 checked_lacks, heard_line, hello_line, line_of, needs_line, text_line)

NOW = 1_000_000


def text(of, stamp, body="x"):
    return Text(of, stamp, body)


class Lines(unittest.TestCase):
    """Lines out and in again."""

    def test_each_kind(self):
        for made, line in (
                (Hello(3, 5, 7), hello_line(Hello(3, 5, 7))),
                (Needs({0: 0, 15: 9}), needs_line({0: 0, 15: 9})),
                (Heard({3: 9}), heard_line({3: 9})),
                (Alive(), b"alive\n"),
                (Text(2, 9, 'g 0123 {"v":1} \u00e9', {"a": 3}), text_line(Text(2, 9, 'g 0123 {"v":1} \u00e9', {"a": 3}))),
                (Text(0, 1, "x" * TEXT_LIMIT), text_line(Text(0, 1, "x" * TEXT_LIMIT)))):
            self.assertEqual(line.count(b"\n"), 1)
            self.assertEqual(line_of(line[:-1]), made)

    def test_wrong_lines(self):
        head = {"lacks": {}, "of": 1, "stamp": 2}
        heads = [{**head, "of": SITES}, {**head, "of": -1}, {**head, "of": True}, {**head, "of": "1"}, {**head, "stamp": STAMP_LIMIT},
                 {**head, "stamp": 1.0}, {**head, "lacks": []}, {**head, "lacks": {"a": 0}}, {**head, "lacks": {"A": 1}},
                 {**head, "lacks": {"a": 65_536}}, {**head, "lacks": {"a": "1"}}, {**head, "lacks": {"a\n": 1}}, {"of": 1}]
        lines = [b"text " + json.dumps(wrong, separators=(",", ":")).encode() + b" x" for wrong in heads]
        lines += [b"", b"alive ", b"alive x", b"Hello {}", b"hello", b"hello {}", b"hello []", b"hello " + b"[" * 9_000,
                  b'hello {"began":1,"last":1,"site":1,"version":2}', b'hello {"began":1,"last":1,"site":16,"version":1}',
                  b'hello {"began":1,"last":-1,"site":1,"version":1}', b"hello " + b"9" * 9_000, b"hello " + b" " * HEAD_LIMIT + b"{}",
                  b'needs {"16":0}', b'needs {"a":0}', b'needs {"1":null}', b'needs {"\xd9\xa1":1}', b"needs 1", b"needs \xff",
                  b"text", b'text {"lacks":{},"of":1,"stamp":2}', b'text {"lacks":{},"of":1,"stamp":2} \xff',
                  b'text {"lacks":{},"of":1,"stamp":2} ' + b"x" * (TEXT_LIMIT + 1), b'text {"lacks":{},"of":1,"stamp":NaN} x']
        for line in lines:
            with self.subTest(line[:60]):
                self.assertRaises(BadLine, line_of, line)

    def test_lacks(self):
        self.assertEqual(checked_lacks({"a": 1, "b-2": 65_535}), {"a": 1, "b-2": 65_535})
        self.assertRaises(BadLine, checked_lacks, {f"a{number}": 1 for number in range(257)})


class Newest(unittest.TestCase):
    """The newest text of each site."""

    def test_own_texts_count_up(self):
        texts = Texts(0, NOW)
        self.assertTrue(texts.tell("x", {}, NOW))
        self.assertFalse(texts.tell("x", {}, NOW + 9))
        self.assertTrue(texts.tell("x", {"a": 1}, NOW + 9))
        self.assertEqual(texts.newest[0].stamp, NOW + 9)
        # The clock was put back.
        self.assertTrue(texts.tell("y", {"a": 1}, 5))
        self.assertEqual(texts.newest[0].stamp, NOW + 10)
        self.assertEqual((texts.began, texts.last), (NOW, NOW + 10))

    def test_others_are_replaced_by_newer_ones_alone(self):
        texts = Texts(0, NOW)
        for stamp, body, new in ((5, "a", True), (5, "b", False), (4, "c", False), (6, "d", True)):
            self.assertEqual(texts.take(text(1, stamp, body), NOW), new)
        self.assertEqual(texts.arrived(), ["d"])
        self.assertEqual(texts.arrived(), [])
        self.assertEqual(texts.others(), ["d"])
        self.assertEqual(texts.stamps([1, 2]), {1: 6, 2: 0})

    def test_its_own_text_of_an_earlier_run(self):
        texts = Texts(0, NOW)
        texts.tell("new", {}, NOW)
        self.assertFalse(texts.take(text(0, texts.last), NOW))
        self.assertTrue(texts.take(text(0, NOW - 1, "old"), NOW))
        self.assertEqual(texts.arrived(), ["old"])
        self.assertFalse(texts.tell_again(NOW))
        # The earlier run's clock was ahead.
        self.assertTrue(texts.take(text(0, NOW + 500, "old"), NOW))
        self.assertEqual(texts.arrived(), ["old"])
        self.assertTrue(texts.tell_again(NOW))
        self.assertEqual(texts.newest[0], Text(0, NOW + 501, "new"))
        self.assertFalse(texts.tell_again(NOW))
        self.assertEqual(texts.others(), [])

    def test_an_older_text_of_its_own_hides_no_newer_one(self):
        for stamps, found in (((NOW - 5, NOW - 1), NOW - 1), ((NOW - 1, NOW - 5), NOW - 1), ((NOW - 1, NOW + 5, NOW - 5), NOW + 5)):
            texts = Texts(0, NOW)
            for stamp in stamps:
                texts.take(text(0, stamp, str(stamp)), NOW)
            self.assertEqual(texts.arrived(), [str(found)])
            # Once it was asked for, an older one is told too.
            self.assertTrue(texts.take(text(0, NOW - 5, "old"), NOW))
            self.assertEqual(texts.arrived(), ["old"])

    def test_what_was_heard_of(self):
        texts = Texts(0, NOW)
        texts.take(text(1, 5), NOW)
        for stamps, lacking in (({1: 5, 2: 0}, {}), ({1: 4}, {}), ({1: 7, 2: 3}, {1: 7, 2: 3}), ({1: 6}, {1: 7}), ({0: NOW}, {})):
            self.assertEqual(texts.hear(stamps, NOW), bool(lacking))
            self.assertEqual(texts.lacking(stamps), lacking)
        self.assertIsNone(texts.above)
        texts.take(text(1, 7), NOW)
        self.assertEqual(texts.lacking([0, 1, 2]), {2: 3})
        texts.tell("x", {}, NOW)
        self.assertFalse(texts.hear({0: NOW + 50}, NOW))
        self.assertTrue(texts.tell_again(NOW))
        self.assertEqual(texts.last, NOW + 51)
        self.assertRaises(BadLine, texts.hear, {1: NOW + FAR_AHEAD + 1}, NOW)

    def test_stamps_far_ahead(self):
        texts = Texts(0, NOW)
        for of in (0, 1):
            self.assertRaises(BadLine, texts.take, text(of, NOW + FAR_AHEAD + 1), NOW)
            self.assertTrue(texts.take(text(of, NOW + FAR_AHEAD), NOW))
        texts.tell("x", {}, NOW)
        self.assertEqual(texts.last, NOW + FAR_AHEAD + 1)


class Due(unittest.TestCase):
    """What is due to the other side."""

    def setUp(self):
        self.texts = Texts(0, NOW)
        self.view = View.of(Hello(1, 100, 200))

    def send(self):
        """Sends all that is due, and gives the sites and stamps of it."""
        sent = []
        while (due := self.texts.due(self.view)) is not None:
            self.view.saw(due.of, due.stamp)
            sent.append((due.of, due.stamp))
        return sent

    def test_its_own_text_once_and_the_newest_alone(self):
        self.assertEqual(self.send(), [])
        self.texts.tell("x", {}, NOW)
        self.texts.tell("y", {}, NOW)
        self.assertEqual(self.send(), [(0, NOW + 2)])
        self.assertEqual(self.send(), [])

    def test_others_only_where_they_are_wanted_and_not_known(self):
        for site in (1, 2, 3):
            self.texts.take(text(site, 150), NOW)
        self.assertEqual(self.send(), [])
        self.view.want({2: 150, 3: 149})
        self.assertEqual(self.send(), [(3, 150)])
        self.texts.take(text(2, 151), NOW)
        self.texts.take(text(3, 151), NOW)
        self.view.want({2: 0})
        self.assertEqual(self.send(), [(2, 151)])

    def test_what_the_peer_sent_does_not_go_back(self):
        self.view.want({2: 0})
        self.view.saw(2, 7)
        self.texts.take(text(2, 7), NOW)
        self.assertEqual(self.send(), [])

    def test_a_text_of_the_peers_earlier_run_goes_back_once(self):
        for stamp, sent in ((99, [(1, 99)]), (150, []), (201, [(1, 201)])):
            texts, self.view = Texts(0, NOW), View.of(Hello(1, 100, 200))
            texts.take(text(1, stamp), NOW)
            self.texts = texts
            self.assertEqual(self.send(), sent)
            self.assertEqual(self.send(), [])


if __name__ == "__main__":
    unittest.main()
