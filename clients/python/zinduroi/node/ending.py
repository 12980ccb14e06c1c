"""What the node's end waits for: tasks that are cancelled."""
from __future__ import annotations

import asyncio
from typing import Any, Iterable

# Seconds until a task that has not ended is cancelled again.
AGAIN = 1.0


async def end_all(tasks: "Iterable[asyncio.Task[Any]]") -> None:
    """Cancels tasks until they have ended, whatever they raise. Once may not do: `asyncio.wait_for` of Python 3.11 drops a cancellation
    that comes just behind what it waits for."""
    ended = set(tasks)
    left = ended
    while left:
        for task in left:
            task.cancel()
        _, left = await asyncio.wait(left, timeout=AGAIN)
    await asyncio.gather(*ended, return_exceptions=True)
