"""The text of `/metrics`, in the text form of Prometheus."""
from __future__ import annotations

import collections
from typing import Any, Dict, Iterable, List, Tuple

from .tally import Histogram
from .view import State, View

Labels = Tuple[Tuple[str, object], ...]


class Text:
    """Lines of metrics, each behind its help and type."""

    def __init__(self) -> None:
        self._lines: List[str] = []

    def add(self, name: str, kind: str, means: str, values: Iterable[Tuple[Labels, float]]) -> None:
        """A metric of this kind (`counter` or `gauge`) with its values by labels."""
        self._head(name, kind, means)
        self._lines += [f"zinduroi_{name}{_labels(labels)} {_number(value)}" for labels, value in values]

    def histogram(self, name: str, means: str, values: Iterable[Tuple[Labels, Histogram]]) -> None:
        """A histogram, by labels."""
        self._head(name, "histogram", means)
        for labels, histogram in values:
            total = 0
            for bound, count in zip([*map(_number, histogram.bounds), "+Inf"], histogram.counts):
                total += count
                self._lines.append(f"zinduroi_{name}_bucket{_labels((*labels, ('le', bound)))} {total}")
            self._lines.append(f"zinduroi_{name}_sum{_labels(labels)} {_number(histogram.sum)}")
            self._lines.append(f"zinduroi_{name}_count{_labels(labels)} {total}")

    def whole(self) -> str:
        """All lines."""
        return "\n".join(self._lines) + "\n"

    def _head(self, name: str, kind: str, means: str) -> None:
        self._lines += [f"# HELP zinduroi_{name} {means}", f"# TYPE zinduroi_{name} {kind}"]


def _labels(labels: Labels) -> str:
    escaped = (str(value).replace("\\", "\\\\").replace('"', '\\"').replace("\n", "\\n") for _, value in labels)
    return "{" + ",".join(f'{name}="{value}"' for (name, _), value in zip(labels, escaped)) + "}" if labels else ""


def _number(value: float) -> str:
    return str(int(value)) if value == int(value) else repr(float(value))


async def metrics_text(view: View) -> str:
    """All metrics of a node. What only the store knows is left out while the program doesn't answer."""
    looked = await view.look()
    text = Text()
    text.add("site_info", "gauge", "The number of the site and its group; always 1.",
             [((("site", view.site.site), ("group", view.answers.group or "")), 1)])
    text.add("start_time_seconds", "gauge", "When the node was started, in seconds since 1970.", [((), view.tally.began)])
    text.add("may_admit", "gauge", "1 if the site may admit, 0 if /health says why not.", [((), view.health(looked)[0])])
    _answers(text, view)
    if looked is not None:
        _store(text, view, looked[1])
    _exchange(text, view)
    _peers(text, view)
    return text.whole()


def _answers(text: Text, view: View) -> None:
    tally = view.tally
    text.add("answers_total", "counter", "Answers to lines of callers.", _by(tally.answers, "verb", "outcome"))
    text.add("admissions_total", "counter", "Callers that were admitted.",
             [((("verb", verb),), tally.answers[verb, "admitted"]) for verb in ("read", "write")])
    text.add("refusals_total", "counter", "Answers that refused a line, by the name of the refusal.", _by(tally.refusals, "verb", "name"))
    text.add("timeouts_total", "counter", "Waits whose time was over, or whose caller had gone, by the name of the last refusal.", _by(tally.timeouts, "verb", "name"))
    text.histogram("wait_seconds", "How long lines with wait took until they were answered.", _by(tally.waits, "verb", "outcome"))
    text.histogram("program_call_seconds", "How long the program took for lines of callers, with what it committed.",
                   [((("verb", verb),), tally.calls[verb]) for verb in sorted(tally.calls)])


def _store(text: Text, view: View, status: State) -> None:
    shares, site = view.shares(), view.site.site
    seats: List[Tuple[Labels, float]] = []
    for at, record in enumerate(view.layout.records):
        shown = status["records"].get(record.name)
        if shown is not None:
            sites, rest = view.split(at, shown, shares)
            others = [share for other, share in sites.items() if other != site]
            states = {"free": shown["rights"], "inside": shown["inside"], "way": sum(share.way for share in others),
                      "elsewhere": sum(share.free + share.inside for share in others) + rest}
            seats += [((("record", record.name), ("state", state)), value) for state, value in states.items()]
    phases = collections.Counter((caller["record"], caller["phase"] or "asking") for caller in status["callers"])
    alone = collections.Counter((caller["record"], "yes" if caller["kept"] and caller["known"] else "no")
                                for caller in status["callers"] if not caller["connected"])
    each = sorted(status["records"].items())
    text.add("seats", "gauge", "Seats of a record: free or inside at this site; on the way to another one; or elsewhere.", seats)
    text.add("sessions", "gauge", "Sessions at this site.", _by(phases, "record", "phase"))
    text.add("sessions_without_connection", "gauge", "Sessions whose caller has no connection, and whether it asked for that.",
             _by(alone, "record", "kept"))
    text.add("queued_callers", "gauge", "Callers that wait at this site.", [((("record", name),), len(shown["queue"])) for name, shown in each])
    text.add("unfinished_writers", "gauge", "Writers that this site announced and that have not ended.",
             [((("record", name),), shown["unfinished"]) for name, shown in each])
    text.add("connections", "gauge", "Connections at the socket.", [((), status["connections"])])


def _exchange(text: Text, view: View) -> None:
    if view.exchange is None:
        return
    done = view.exchange.tally()
    text.add("exchange_rounds_total", "counter", "Rounds of the exchange.", [((), done.rounds)])
    text.add("deltas_sent_total", "counter", "Deltas that were sent.", [((), done.sent)])
    text.add("deltas_taken_total", "counter", "Deltas of other sites that were taken.", [((), done.took)])
    text.add("deltas_refused_total", "counter", "Deltas and hand-overs that the program refused, by the name of the refusal.",
             _by(done.refused, "name"))
    text.add("counters_risen_total", "counter", "Counters that rose by deltas.", [((), done.rose)])
    text.add("handovers_total", "counter", "Times that seats were given to other sites by help.", [((), done.gave)])
    text.add("seats_given_total", "counter", "Seats that were given by help.", [((), done.seats)])
    text.add("transport_failures_total", "counter", "Failures of the transports, by name.", _by(done.failed, "name"))
    text.add("exchange_failing", "gauge", "1 if the last round of the exchange was not finished, or one lasts for over half a minute.",
             [((), view.exchange.why_failing() is not None)])


def _peers(text: Text, view: View) -> None:
    ages = [((("peer", peer["site"]),), peer["age"]) for peer in view.peers() if peer["age"] is not None]
    text.add("peer_delta_age_seconds", "gauge", "Seconds since the last delta that the peer made came; none before the first one.", ages)
    near = [((("peer", peer["site"]),), peer) for peer in view.peers() if "sent" in peer]
    if near:
        text.add("peer_connected", "gauge", "1 if there is a connection to the peer.", [(at, peer["connected"] is not None) for at, peer in near])
        text.add("peer_texts_sent_total", "counter", "Texts that were sent to the peer.", [(at, peer["sent"]) for at, peer in near])
        text.add("peer_texts_taken_total", "counter", "Texts that came from the peer.", [(at, peer["took"]) for at, peer in near])
        text.add("peer_failures_total", "counter", "Failures of connections with peers, by name.", _by(view.failures(), "name"))


def _by(values: Dict[Any, Any], *names: str) -> List[Tuple[Labels, Any]]:
    """The values of a dictionary, with the parts of its keys as labels."""
    return [(tuple(zip(names, key if isinstance(key, tuple) else (key,))), values[key]) for key in sorted(values)]
