"""The table of faults of checks/failures.py. Each is a function of the day: it does the fault, yields what an operator must be told meanwhile,
and has the fault mended as docs/OPERATING.md says. What it yields is a time in seconds, and a list of where, which node, and words; a
fourth word says that it may be missing.

Behind each fault all holds that the check looks for, but behind those that are `void`: what docs/OPERATING.md forbids. Of these it is only
looked what was told, and the group is begun anew.

checks/failures_stores.py has those of disks, stores and clocks, checks/failures_machines.py those of links, nodes, sites and callers."""
import dataclasses
from typing import Any, Callable

FAULTS = {}
# Answers of a site that serves no more or can't write, and what /health says of it.
FROZEN = "refused (StoreFault|Frozen|BookFault)"
NOT_ADMITTING = "^503 .*(StoreFault|Frozen|file of sessions)"
IN_LOG = "(file of sessions|StoreFault).*nobody gets in"
OUT_OF_DATE = r"certificate (has expired|is not yet valid), by this machine's clock\nstatus 1$"


@dataclasses.dataclass(frozen=True)
class Fault:
    """A fault by its name. `disk` says that it needs a disk that can be filled and made read-only."""

    name: str
    run: Callable[[Any], Any]
    void: bool = False
    disk: bool = False


def fault(name, **more):
    """Puts a function into the table."""
    def add(run):
        FAULTS[name] = Fault(name, run, **more)
        return run
    return add
