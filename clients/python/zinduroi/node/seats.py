"""Where the seats of each record are, by what a site has heard. Pure functions over the texts of deltas."""
from __future__ import annotations

import json
import re
from typing import Any, Dict, List, Mapping, NamedTuple, Optional, Tuple

from ..site import Layout

_FROM = re.compile(r'\{"from":([0-9]{1,2}),')

# The rows of a delta, by record and site.
Rows = Dict[Tuple[int, int], Dict[str, Any]]


class Share(NamedTuple):
    """What is known of a site's seats of a record: free ones, those of its sessions, and those that were given to it and that its own
    last delta doesn't show yet."""

    free: int
    inside: int
    way: int


def sender_of(delta: str) -> Optional[int]:
    """The site that made a delta, which may have its mark in front."""
    found = _FROM.search(delta, 0, 200)
    return None if found is None else int(found[1])


def rows_of(delta: Optional[str]) -> Rows:
    """The rows of a delta that the program made or took; none without one."""
    if delta is None:
        return {}
    return {(row["r"], row["s"]): row for row in json.loads(delta[delta.index("{"):])["rows"]}


def shares_of(layout: Layout, book: Rows, said: Mapping[int, Rows]) -> List[List[Share]]:
    """For each record of the layout and each site its share. `book` has the rows of this site's own delta, `said` those of the last
    delta of each other site. `way` is right for the others only: this site's own delta shows all that it has."""
    return [[_share(record, seats.seats if seats.home == site else 0, site, layout.sites, book, said.get(site, {}))
             for site in range(layout.sites)] for record, seats in enumerate(layout.records)]


def _share(record: int, first: int, site: int, sites: int, book: Rows, said: Rows) -> Share:
    own = book.get((record, site))
    out, taken = (own["out"], own["taken"]) if own is not None else ([0] * sites, 0)
    stays = out[site] if own is not None else first
    gave = sum(seats for to, seats in enumerate(out) if to != site)
    others = [giver for giver in range(sites) if giver != site]
    got = sum(_given(book, record, giver, site) for giver in others)
    late = sum(max(0, _given(book, record, giver, site) - _given(said, record, giver, site)) for giver in others)
    has = max(0, stays + got - gave - taken)
    way = min(late, has)
    return Share(has - way, max(0, taken - (stays - first)), way)


def _given(rows: Rows, record: int, giver: int, site: int) -> int:
    """The seats that a site gave to another one, as these rows have it."""
    row = rows.get((record, giver))
    return int(row["out"][site]) if row is not None and site < len(row["out"]) else 0
