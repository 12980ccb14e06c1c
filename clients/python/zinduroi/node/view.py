"""What the page, the metrics and the health of a node show, as one state."""
from __future__ import annotations

import asyncio
import time
from typing import Any, Dict, List, Optional, Tuple

from ..errors import Frozen, OwnRowAhead, StoreFault
from ..exchange import Exchange
from ..site import Layout
from .answers import Answers
from .link import NodeSite
from .seats import Rows, Share, rows_of, shares_of
from .tally import Tally

# How many seconds the program may take to answer before a look says that it doesn't.
PATIENCE = 3.0
# A look at the store is used again for so many seconds.
FRESH = 0.2
# How many sessions, and callers in a queue, are shown of a record.
SHOWN = 100

State = Dict[str, Any]


class View:
    """Looks at a node. However many ask, the store is asked by one look at a time."""

    def __init__(self, answers: Answers, layout: Layout, site: NodeSite, exchange: Optional[Exchange]) -> None:
        self.answers = answers
        self.tally: Tally = answers.tally
        self.layout = layout
        self.site = site
        self.exchange = exchange
        self._looking: Optional[asyncio.Task[Tuple[str, State]]] = None
        self._looked = 0.0
        self._texts: Dict[int, Tuple[str, Rows]] = {}

    async def look(self) -> Optional[Tuple[str, State]]:
        """The reply to `show` of the first record, which says whether the site may admit, and the status. `None` where the
        program doesn't answer in time."""
        if self._looking is None or (self._looking.done() and time.monotonic() - self._looked > FRESH):
            self._looking = asyncio.create_task(self._ask())
        looking = self._looking
        done, _ = await asyncio.wait([looking], timeout=PATIENCE)
        return looking.result() if done else None

    async def _ask(self) -> Tuple[str, State]:
        shown = await self.answers.link.ask_until(f"show {self.layout.records[0].name}")
        state = await self.answers.status()
        self._looked = time.monotonic()
        return shown, state

    def health(self, looked: Optional[Tuple[str, State]]) -> Tuple[bool, str]:
        """Whether the site may admit, and why not."""
        if looked is None:
            return False, f"the program has not answered for {PATIENCE:g} seconds"
        if looked[0].startswith("refused"):
            return False, f"the store answers: {looked[0]}" + (f", behind {self.site.froze}" if self.site.froze else "")
        unwritten = self.answers.book_failure()
        if unwritten is not None:
            return False, f"the file of sessions can't be written: {unwritten}"
        failure = None if self.exchange is None else self.exchange.failure
        if isinstance(failure, (Frozen, OwnRowAhead, StoreFault)):
            return False, f"the exchange has ended: {failure}"
        return True, "the site may admit"

    def shares(self) -> List[List[Share]]:
        """For each record and site its seats, by the last delta of this site and of each other. None before there is one."""
        own = self.site.last_sent
        if own is None:
            return []
        said = {site: self._rows(site, text) for site, (text, _) in dict(self.site.heard).items()}
        return shares_of(self.layout, self._rows(self.site.site, own), said)

    def ages(self) -> Dict[int, float]:
        """Seconds since a delta that a site made came. `Peers` hands out the newest ones again from time to time, and knows itself when
        they came."""
        now = time.monotonic()
        ages = {site: now - at for site, (_, at) in dict(self.site.heard).items()}
        return {**ages, **{state.site: state.age for state in self._states() if state.age is not None}}

    def peers(self) -> List[Dict[str, Any]]:
        """The neighbours of the transport `Peers`; then the other sites of which a delta came."""
        ages = self.ages()
        listed = [{**vars(state), "age": ages.get(state.site)} for state in self._states()]
        known = {state["site"] for state in listed}
        return listed + [{"site": site, "age": ages[site]} for site in sorted(ages) if site not in known and site != self.site.site]

    def _states(self) -> List[Any]:
        states = getattr(None if self.exchange is None else self.exchange.transport, "states", None)
        return list(states()) if states is not None else []

    def failures(self) -> Dict[str, int]:
        """How often connections to neighbours failed, by name."""
        failures = getattr(None if self.exchange is None else self.exchange.transport, "failures", None)
        return dict(failures()) if failures is not None else {}

    async def page(self) -> State:
        """The state for the page."""
        looked = await self.look()
        may, reason = self.health(looked)
        status: State = looked[1] if looked is not None else {}
        minute, ten = self.tally.recent(60), self.tally.recent(600)
        return {"site": self.site.site, "group": self.answers.group, "time": time.time(), "began": self.tally.began, "may": may, "reason": reason,
                "connections": status.get("connections"), "exchange": status.get("exchange"),
                "records": self._records(status), "peers": self.peers(),
                "refused": [[name, minute[name], ten[name]] for name in sorted(ten, key=lambda name: (-ten[name], name))],
                "answers": self.tally.last()}

    def _records(self, status: State) -> List[State]:
        shares, ages = self.shares(), self.ages()
        callers: Dict[str, List[State]] = {}
        for caller in status.get("callers", ()):
            callers.setdefault(caller["record"], []).append(caller)
        found = []
        for at, record in enumerate(self.layout.records):
            shown = status.get("records", {}).get(record.name)
            if shown is not None:
                here = sorted(callers.get(record.name, ()), key=lambda it: it["phase"] not in ("reader", "writer"))
                sites, rest = self.split(at, shown, shares)
                found.append({"name": record.name, "seats": record.seats, "unfinished": shown["unfinished"], "rest": rest,
                              "sites": [{"site": site, "free": share.free, "inside": share.inside, "way": share.way, "age": ages.get(site) if site != self.site.site else None}
                                        for site, share in sites.items()],
                              "callers": here[:SHOWN], "more": max(0, len(here) - SHOWN), "queue": shown["queue"][:SHOWN],
                              "queued": len(shown["queue"])})
        return found

    def split(self, at: int, shown: State, shares: List[List[Share]]) -> Tuple[Dict[int, Share], int]:
        """The seats of a record by site, and those of which it is not known where they are. What the store says of this site is
        exact; of others it is what they said last."""
        sites = dict(enumerate(shares[at])) if shares else {}
        sites[self.site.site] = Share(shown["rights"], shown["inside"], 0)
        rest = self.layout.records[at].seats - sum(sum(share) for share in sites.values())
        return dict(sorted(sites.items())), max(0, rest)

    def _rows(self, site: int, text: str) -> Rows:
        """The rows of a site's text, which are read once."""
        kept = self._texts.get(site)
        if kept is None or kept[0] is not text:
            kept = self._texts[site] = (text, rows_of(text))
        return kept[1]
