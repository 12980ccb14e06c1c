#!/usr/bin/env python3
"""Closed logs with forged deltas, made by hand, each with its verdict and the reason for it.

    forged_logs.py [NUMBER]    prints the logs of one case, or the names of all

The verdicts were reasoned from docs/FORMATS.md. `checks/compare.py judge` compares them with the program and the second
reading. A line `I:` begins a run of site I, which may know fewer sites (`I/M:`), and begin with rows and sessions (`I: ROWS | SESSIONS`).
A row `a0 [2,1] taken 1` is that of site 0 at record a; other counters are 0.
"""
import sys

import second_reader as reader

ONE = {"name": "a", "seats": 2, "home": 0, "problem": 1}
# Two sites; two sites and a second record, of site 1; three sites, where a waiting writer keeps readers out.
TWO = {"sites": 2, "record": [ONE]}
PAIR = {"sites": 2, "record": [ONE, {"name": "b", "seats": 3, "home": 1, "problem": 2}]}
THREE = {"sites": 3, "record": [{"name": "a", "seats": 3, "home": 0, "problem": 2}]}

GIVEN = "0:\ngive a 1 1 -> given\n"
WRITER = "0:\nannounce a 5 -> announced 1\nwrite a 5 -> admitted\n"
DOUBT = "0:\ngive a 1 1 -> refused StoreFault\n"

CASES = [
    # Site 0 has no log, so it did nothing: it has its two seats, and every other counter is 0.
    ("a seat that was never given", TWO, "1:\ntake a0 [2,1] -> merged 1\nread a 8 -> admitted", None,
     "exceeds site 1 at 0 record a origin 0"),
    ("the same, and the cut ends before it is merged", TWO, "1:\ntake a0 [2,1] -> merged 1\nread a 8 -> admitted", [0, 0],
     "consistent"),
    ("a seat that was never taken", TWO, "1:\ntake a0 [2,0] taken 1 -> merged 1", None, "exceeds site 1 at 0 record a origin 0"),
    ("a writer that was never announced", TWO, "1:\ntake a0 [2,0] ann 1 -> merged 1", None,
     "exceeds site 1 at 0 record a origin 0"),
    ("a writer that never came and went", TWO, "1:\ntake a0 [2,0] ann 1 fin 1 -> merged 2", None,
     "exceeds site 1 at 0 record a origin 0"),
    ("a reader that never came and went", TWO, "1:\ntake a0 [3,0] taken 1 -> merged 2", None,
     "exceeds site 1 at 0 record a origin 0"),
    ("as many seats as a counter may have", TWO, "1:\ntake a0 [2,1000000000000] -> merged 1", None,
     "exceeds site 1 at 0 record a origin 0"),
    ("one more than a counter may have: no site has it, and it is refused", TWO,
     "1:\ntake a0 [2,0] taken 1000000000001 -> refused BadRow 0", None, "consistent"),
    ("the same, merged", TWO, "1:\ntake a0 [2,0] taken 1000000000001 -> merged 1", None, "bad reply site 1 at 0"),
    ("a seat given back that was never taken: no site has it", TWO, "1:\ntake a0 [3,0] -> merged 1", None, "bad reply site 1 at 0"),
    ("a record that the layout lacks", TWO, "1:\ntake b0 [2,1] -> merged 1", None, "bad reply site 1 at 0"),
    ("the own row is ahead: it is refused, and nothing was merged", TWO, "1:\ntake a1 [0,0] taken 1 -> refused OwnRowAhead 0", None,
     "consistent"),
    ("the own row is ahead, merged", TWO, "1:\ntake a1 [0,0] taken 1 -> merged 1", None, "bad reply site 1 at 0"),
    ("a forged row and an own one: all or none, so nothing was merged", TWO,
     "1:\ntake a0 [2,1]; a1 [0,0] ann 1 -> refused OwnRowAhead 0\nread a 8 -> refused NoSeat 0", None, "consistent"),
    ("the same, and the log says that the first row was merged", TWO, "1:\ntake a0 [2,1]; a1 [0,0] ann 1 -> merged 1", None,
     "bad reply site 1 at 0"),
    ("a row that says nothing", TWO, "1:\ntake a0 [2,0] -> merged 0", None, "consistent"),
    ("a forged seat, of which the reply tells nothing", TWO, "1:\ntake a0 [2,1] -> merged 0", None, "bad reply site 1 at 0"),
    ("a forged seat, which is refused without a reason", TWO, "1:\ntake a0 [2,1] -> refused OwnRowAhead 0", None,
     "bad reply site 1 at 0"),
    # Site 0 gave one seat to site 1, at its entry 0.
    ("the seat was given", TWO, GIVEN + "1:\ntake a0 [2,1] -> merged 1\nread a 8 -> admitted", None, "consistent"),
    ("the cut ends before it is given", TWO, GIVEN + "1:\ntake a0 [2,1] -> merged 1", [0, 1], "exceeds site 1 at 0 record a origin 0"),
    ("two seats are claimed, one was given", TWO, GIVEN + "1:\ntake a0 [2,2] -> merged 1\nread a 8 -> admitted\nread a 9 -> admitted",
     None, "exceeds site 1 at 0 record a origin 0"),
    ("two were given, one is claimed", TWO, "0:\ngive a 1 2 -> given\n1:\ntake a0 [2,1] -> merged 1", None, "consistent"),
    ("first the true row, then a forged one", TWO, GIVEN + "1:\ntake a0 [2,1] -> merged 1\ntake a0 [2,2] -> merged 1", None,
     "exceeds site 1 at 1 record a origin 0"),
    ("the cut ends between them", TWO, GIVEN + "1:\ntake a0 [2,1] -> merged 1\ntake a0 [2,2] -> merged 1", [1, 1], "consistent"),
    ("first a forged row, then one that says nothing new", TWO, GIVEN + "1:\ntake a0 [2,2] -> merged 1\ntake a0 [2,1] -> merged 0",
     None, "exceeds site 1 at 0 record a origin 0"),
    ("the seat was given, and a reader is claimed who never came", TWO, GIVEN + "1:\ntake a0 [2,1] taken 1 -> merged 2", None,
     "exceeds site 1 at 0 record a origin 0"),
    # The writer of site 0 is inside, with both seats.
    ("two writers", TWO, WRITER + "1:\ntake a0 [2,2] -> merged 1\nannounce a 6 -> announced 1\nwrite a 6 -> admitted", None,
     "exceeds site 1 at 0 record a origin 0"),
    ("two writers, and the cut ends before the second", TWO,
     WRITER + "1:\ntake a0 [2,2] -> merged 1\nannounce a 6 -> announced 1\nwrite a 6 -> admitted", [2, 2],
     "exceeds site 1 at 0 record a origin 0"),
    ("two writers, and the cut ends before what was forged", TWO,
     WRITER + "1:\ntake a0 [2,2] -> merged 1\nannounce a 6 -> announced 1\nwrite a 6 -> admitted", [2, 0], "consistent"),
    ("two writers without a forged row", TWO, WRITER + "1:\nannounce a 6 -> announced 1\nwrite a 6 -> admitted", None,
     "bad reply site 1 at 1"),
    ("a reader beside the writer", TWO, WRITER + "1:\ntake a0 [2,1] -> merged 1\nread a 8 -> admitted", None,
     "exceeds site 1 at 0 record a origin 0"),
    ("site 1 gives forged seats back, and a reader comes beside the writer", TWO,
     WRITER + "take a1 [1,0] -> merged 1\nread a 8 -> admitted\n1:\ntake a0 [2,1] -> merged 1\ngive a 0 1 -> given", None,
     "exceeds site 1 at 0 record a origin 0"),
    ("the same, and the cut has nothing of site 1", TWO,
     WRITER + "take a1 [1,0] -> merged 1\nread a 8 -> admitted\n1:\ntake a0 [2,1] -> merged 1\ngive a 0 1 -> given", [4, 0],
     "exceeds site 0 at 2 record a origin 1"),
    # Which place is named: the least, by site, entry, record and origin.
    ("a row of a third site", THREE, "2:\ntake a1 [0,0,1] -> merged 1", None, "exceeds site 2 at 0 record a origin 1"),
    ("the sender's row is true, that of a third site forged", THREE,
     "0:\ngive a 2 1 -> given\n2:\ntake a0 [3,0,1]; a1 [0,0,1] -> merged 2", None, "exceeds site 2 at 0 record a origin 1"),
    ("rows of two origins are forged", THREE, "2:\ntake a0 [3,0,1]; a1 [0,0,1] -> merged 2", None, "exceeds site 2 at 0 record a origin 0"),
    ("two records: the record comes before the origin", PAIR,
     "0:\ntake a1 [0,0] ann 1; b1 [1,3] -> merged 2", None, "exceeds site 0 at 0 record a origin 1"),
    ("only the second record's row is forged", PAIR, "1:\nannounce a 6 -> announced 1\n0:\ntake a1 [0,0] ann 1; b1 [1,3] -> merged 2", None,
     "exceeds site 0 at 0 record b origin 1"),
    ("both sites merged forged rows: the site comes before the entry", TWO,
     "1:\ntake a0 [2,1] -> merged 1\n0:\nread a 7 -> admitted\ntake a1 [0,0] ann 1 -> merged 1", None, "exceeds site 0 at 1 record a origin 1"),
    ("that of site 0 is behind the cut", TWO,
     "1:\ntake a0 [2,1] -> merged 1\n0:\nread a 7 -> admitted\ntake a1 [0,0] ann 1 -> merged 1", [1, 1],
     "exceeds site 1 at 0 record a origin 0"),
    ("a wrong reply behind the cut comes before what is forged within it", TWO,
     "1:\ntake a0 [2,1] -> merged 1\nread a 8 -> refused NoSeat 1", [0, 1], "bad reply site 1 at 1"),
    # A waiting writer keeps new readers out: a forged row lets one in, or keeps one out.
    ("a writer is said to have gone", THREE,
     "1:\nannounce a 5 -> announced 1\n0:\ntake a1 [0,0,0] ann 1 fin 1 -> merged 2\nread a 2 -> admitted", None,
     "exceeds site 0 at 0 record a origin 1"),
    ("it went, within the cut", THREE,
     "1:\nannounce a 5 -> announced 1\nleave a 5 -> withdrawn\n0:\ntake a1 [0,0,0] ann 1 fin 1 -> merged 2\nread a 2 -> admitted", None,
     "consistent"),
    ("it went, behind the cut", THREE,
     "1:\nannounce a 5 -> announced 1\nleave a 5 -> withdrawn\n0:\ntake a1 [0,0,0] ann 1 fin 1 -> merged 2\nread a 2 -> admitted",
     [2, 1, 0], "exceeds site 0 at 0 record a origin 1"),
    ("a writer is said to wait", THREE, "0:\ntake a2 [0,0,0] ann 1 -> merged 1\nread a 1 -> refused WriterAnnounced 2", None,
     "exceeds site 0 at 0 record a origin 2"),
    ("a writer is said to wait, and a reader comes all the same", THREE, "0:\ntake a2 [0,0,0] ann 1 -> merged 1\nread a 1 -> admitted",
     None, "bad reply site 0 at 1"),
    # How runs begin.
    ("a run begins with a row that no site can have", TWO, "1:\ntake a0 [2,1] -> merged 1\n1: a0 [0,1]\nread a 8 -> admitted", None,
     "line 3 refused NotTranscript"),
    ("the next run has the forged seat", TWO, "1:\ntake a0 [2,1] -> merged 1\n1: a0 [2,1]\nread a 8 -> admitted", None,
     "exceeds site 1 at 0 record a origin 0"),
    ("a run begins with a seat that nobody sent", TWO, "1:\n1: a0 [2,1]\nread a 8 -> admitted", None, "bad joint site 1"),
    ("the first run begins with a seat that nobody sent", TWO, "1: a0 [2,1]\nread a 8 -> admitted", None, "bad joint site 1"),
    ("a run begins with seats taken at another site, which no site stores", TWO, "1: a0 [2,0] taken 1", None, "line 1 refused NotTranscript"),
    ("a run begins with a reader without a seat", TWO, "0: | a 7 reader", None, "line 1 refused NotTranscript"),
    ("the first run begins with a reader and its seat", TWO, "0: a0 [2,0] taken 1 | a 7 reader", None, "bad joint site 0"),
    # Calls in doubt.
    ("the store failed at a forged row, and the next run has it", TWO, "1:\ntake a0 [2,1] -> refused StoreFault\n1: a0 [2,1]", None,
     "exceeds site 1 at 0 record a origin 0"),
    ("the store failed at a forged row, and the next run lacks it", TWO, "1:\ntake a0 [2,1] -> refused StoreFault\n1:", None, "consistent"),
    ("the store failed at a forged row, and no run follows", TWO, "1:\ntake a0 [2,1] -> refused StoreFault", None, "consistent"),
    ("the store failed at a row of which nothing is stored", TWO, "1:\ntake a0 [2,0] taken 1 -> refused StoreFault\n1:", None,
     "bad reply site 1 at 0"),
    ("the giver's store failed, and its next run has the seat given", TWO, DOUBT + "0: a0 [2,1]\n1:\ntake a0 [2,1] -> merged 1", None,
     "consistent"),
    ("the giver's next run lacks it", TWO, DOUBT + "0:\n1:\ntake a0 [2,1] -> merged 1", None, "exceeds site 1 at 0 record a origin 0"),
    ("no run of the giver follows", TWO, DOUBT + "1:\ntake a0 [2,1] -> merged 1", None, "exceeds site 1 at 0 record a origin 0"),
    ("the giver's next run has it, and the cut ends before the call", TWO, DOUBT + "0: a0 [2,1]\n1:\ntake a0 [2,1] -> merged 1", [0, 1],
     "exceeds site 1 at 0 record a origin 0"),
    ("the store failed, and the run goes on", TWO, DOUBT + "read a 7 -> refused Frozen\n1:\ntake a0 [2,1] -> merged 1", None,
     "bad reply site 0 at 0"),
    # Site 0 began when there was no other site.
    ("a row of a site that the run does not know is refused", TWO, "0/1:\ntake a1 [0,0] ann 1 -> refused OtherLayout 0", None, "consistent"),
    ("such a row, merged", TWO, "0/1:\ntake a1 [0,0] ann 1 -> merged 1", None, "bad reply site 0 at 0"),
    ("a row of fewer sites", TWO, "0/1:\nread a 7 -> admitted\n1:\ntake a0 [2] taken 1 -> merged 1", None, "consistent"),
    ("a forged row of fewer sites", TWO, "0/1:\nread a 7 -> admitted\n1:\ntake a0 [2] taken 2 -> merged 1", None,
     "exceeds site 1 at 0 record a origin 0"),
    ("the site grows, and gives", TWO, "0/1:\n0:\ngive a 1 1 -> given\n1:\ntake a0 [2,1] -> merged 1", None, "consistent"),
    ("it gives before it grows", TWO, "0/1:\ngive a 1 1 -> given\n0: a0 [2,1]\n1:\ntake a0 [2,1] -> merged 1", None, "bad reply site 0 at 0"),
    ("it knows fewer sites than before", TWO, "0:\n0/1:\n1:\ntake a0 [2,1] -> merged 1", None, "bad joint site 0"),
    ("it knows more sites than there are", TWO, "0/3:\ntake a0 [2,1] -> merged 1", None, "line 1 refused NotTranscript"),
    ("it does not know itself", TWO, "0:\n1/1:\ntake a0 [2,1] -> merged 1", None, "line 2 refused NotTranscript"),
    ("it does not know the home of a record", PAIR, "0/1:\nread a 7 -> admitted", None, "line 1 refused NotTranscript"),
]


def row_of(text):
    """The row that `a0 [2,1] taken 1` says."""
    place, out, *counters = text.split()
    row = {"ann": 0, "fin": 0, "out": [int(n) for n in out[1:-1].split(",")], "r": ord(place[0]) - ord("a"), "s": int(place[1:]), "taken": 0}
    return row | {key: int(n) for key, n in zip(counters[::2], counters[1::2])}


def delta(site, text):
    rows = [row_of(it) for it in text.split(";") if it.strip()]
    return reader.text_of({"from": site, "rows": rows, "v": 1})


def lines_of(story, layout):
    """The lines of closed logs."""
    for line in story.strip().split("\n"):
        call, arrow, reply = line.partition(" -> ")
        if not arrow:
            start, _, kept = line.partition(":")
            site, _, sites = start.partition("/")
            rows, _, sessions = kept.partition("|")
            first = {"book": delta(int(site), rows), "site": int(site), "sites": int(sites or layout["sites"])}
            yield first | {"sessions": [it.strip() for it in sessions.split(",") if it.strip()]}
            continue
        verb, _, rows = call.partition(" ")
        call = f"take {delta(0, rows)}" if verb == "take" else call
        yield {"call": call, "pass": 0, "reply": reply}


def cases():
    """The layout, the text, the cut and the verdict of each case."""
    for _, layout, story, cut, verdict in CASES:
        text = "".join(f"{reader.text_of(it)}\n" for it in lines_of(story, layout))
        yield layout, text.encode(), cut, verdict


if __name__ == "__main__":
    if len(sys.argv) == 2:
        _, text, cut, verdict = list(cases())[int(sys.argv[1])]
        print(f"{text.decode()}cut {cut or 'full'}: {verdict}")
    for number, (name, *_) in enumerate(CASES if len(sys.argv) == 1 else []):
        print(f"{number:3} {name}")
