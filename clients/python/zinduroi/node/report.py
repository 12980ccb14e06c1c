"""What the node tells its operator, on standard error."""
from __future__ import annotations

import select
import sys

# A pipe that has room for anything has room for so many bytes; a character has four at most.
ROOM = 4096


def report(text: str) -> None:
    """Prints a line. A standard error that nobody reads any more, or not now, stops nothing: what it has no room for is dropped."""
    line = f"zinduroi: {text}\n"
    try:
        for start in range(0, len(line), ROOM // 4):
            if _has_room():
                print(line[start:start + ROOM // 4], end="", file=sys.stderr, flush=True)
    except OSError:
        pass


def _has_room() -> bool:
    """Whether a write goes on at once."""
    try:
        number = sys.stderr.fileno()
    except (AttributeError, OSError, ValueError):
        return True
    poll = select.poll()
    poll.register(number, select.POLLOUT)
    return bool(poll.poll(0))
