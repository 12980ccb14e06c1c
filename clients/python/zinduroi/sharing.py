"""Seats go where they are wanted: which free seats one site gives to sites that lack them.

Pure functions over what one site knows: no clock, no socket, no call. Times are seconds of one clock that never goes back. A wrong
decision costs time and nothing else: seats that were given can be used at the other site alone, and a writer still needs all."""
from __future__ import annotations

import dataclasses
import json
from typing import Collection, Dict, List, Mapping, Sequence, Set, Tuple

# Seconds between two gifts of a record by a site.
INTERVAL = 1.0

# Seconds that a site looks back for the most seats that it used at once.
LATELY = 60.0

# Seconds for which a refused reader counts as lacking a seat.
LACKING = 5.0

# Seconds for which what a peer said that it lacks is believed. A site that lacks seats says so anew every five seconds.
FRESH = 15.0

Samples = Tuple[Tuple[float, int], ...]


@dataclasses.dataclass(frozen=True)
class Holding:
    """What a site knows of one record: its name, its seats and the number of sites, as in the layout; the site's free seats
    and the seats that its sessions take, as in `show`; the most seats that were taken lately; how many seats its own
    callers lack; and whether a writer waits anywhere, as far as it knows."""

    record: str
    seats: int
    sites: int
    free: int
    inside: int
    used: int
    lacks: int = 0
    writers: bool = False


@dataclasses.dataclass(frozen=True)
class Gift:
    """Seats of a record to give to a site."""

    record: str
    site: int
    seats: int


def even_share(seats: int, sites: int) -> int:
    """What `help` leaves to a site: all seats divided by the sites, rounded up."""
    return -(-seats // sites)


def spare_seats(holding: Holding) -> int:
    """The free seats that the site did not need lately: with the others it could still serve as many at once as it did."""
    needed = max(0, holding.used - holding.inside)
    return max(0, holding.free - needed)


def gifts_of(holding: Holding, askers: Mapping[int, int]) -> List[Gift]:
    """What to give of one record to the sites that lack seats, each with their number.

    Nothing while a writer waits, whose seats `help` gathers, or while the site's own callers lack seats. Else the spare seats
    are divided evenly among this site and those that ask. Each of these gets its part at most, no more than an even share of the
    record's seats, which `help` would pass on, and no more than its lack divided by the sites that don't ask, as each of
    them gives. Who lacks most comes first."""
    if holding.writers or holding.lacks > 0 or not askers:
        return []
    left = spare_seats(holding)
    part = min(-(-left // (len(askers) + 1)), even_share(holding.seats, holding.sites))
    givers = max(1, holding.sites - len(askers))
    gifts = []
    for site, lacks in sorted(askers.items(), key=lambda asker: (-asker[1], asker[0])):
        seats = min(part, -(-lacks // givers), left)
        if seats > 0:
            gifts.append(Gift(holding.record, site, seats))
            left -= seats
    return gifts


def decide(holdings: Sequence[Holding], lacks: Mapping[int, Tuple[Mapping[str, int], float]], given: Mapping[str, float],
           now: float) -> List[Gift]:
    """What to give of all records. `lacks` is what each peer said, by record, and how many seconds ago, as `Peers.lacks` has it;
    `given` is when this site last gave of a record by this policy. Give what it says, and put `now` into `given` for each
    record of which something was given."""
    gifts = []
    for holding in holdings:
        if now - given.get(holding.record, float("-inf")) < INTERVAL:
            continue
        askers = {site: said.get(holding.record, 0) for site, (said, age) in lacks.items() if age <= FRESH}
        gifts += gifts_of(holding, {site: seats for site, seats in askers.items() if seats > 0})
    return gifts


def remember(samples: Samples, now: float, inside: int) -> Samples:
    """Adds the seats that are taken now to what is known of the last minute. To be called at each admission and once a
    second or so; the samples are few, as one that a later one reaches is dropped."""
    kept = [(time, number) for time, number in samples if now - time <= LATELY and number > inside]
    return (*kept, (now, inside))


def used_lately(samples: Samples, now: float) -> int:
    """The most seats that were taken at once in the last minute."""
    return max((number for time, number in samples if now - time <= LATELY), default=0)


def lacking(refused: Mapping[str, Mapping[object, float]], now: float) -> Dict[str, int]:
    """The seats that a site's callers lack, by record, as `Peers.say_lacks` wants them. `refused` has for each record its
    callers that were last answered `NoSeat`, and when; one that was admitted or gave up since is left out."""
    counted = {record: sum(now - time <= LACKING for time in callers.values()) for record, callers in refused.items()}
    return {record: min(number, 65_535) for record, number in counted.items() if number > 0}


def records_with_writers(delta: str, names: Sequence[str]) -> Set[str]:
    """The records of which a writer waits or is inside, as far as the site knows whose delta this is, with or without its
    mark. `names` are the records in the layout's order. A text that is no delta has none."""
    try:
        rows: Collection[Dict[str, int]] = json.loads(delta[delta.index("{"):])["rows"]
        return {names[row["r"]] for row in rows if row["ann"] > row["fin"]}
    except (ValueError, KeyError, IndexError, TypeError, RecursionError):
        return set()
