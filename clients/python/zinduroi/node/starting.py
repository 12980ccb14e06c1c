"""What the node's start waits for: a program that may not answer, as one that is built first or one on a machine that is busy."""
from __future__ import annotations

import asyncio
import threading
import time
from typing import Any, Callable, TypeVar

from .report import report

# After how many seconds the node says what it waits for, and how often it says so again.
SLOW = 5.0
AGAIN = 60.0

Made = TypeVar("Made")


class Stopped(Exception):
    """The node was ended during its start."""


async def unless_stopped(stopping: asyncio.Event, what: str, function: Callable[..., Made], *words: Any) -> Made:
    """What a function gives that may take long, or what it raises. It runs on a thread of its own. Raises `Stopped` once `stopping` is set;
    then nobody waits for the function, and what it began ends with the process."""
    loop = asyncio.get_running_loop()
    done: asyncio.Future[Made] = loop.create_future()

    def work() -> None:
        try:
            made = function(*words)
        except BaseException as error:
            _tell(loop, done, error)
        else:
            _tell(loop, done, made)

    threading.Thread(target=work, name="zinduroi start", daemon=True).start()
    return await settled(stopping, what, done)


async def settled(stopping: asyncio.Event, what: str, done: "asyncio.Future[Made]") -> Made:
    """What a future or a task gives or raises. The operator is told what the node waits for. Raises `Stopped` once `stopping` is set, and
    cancels it."""
    stopped = asyncio.ensure_future(stopping.wait())
    began, due = time.monotonic(), SLOW
    try:
        while True:
            await asyncio.wait((done, stopped), timeout=began + due - time.monotonic(), return_when=asyncio.FIRST_COMPLETED)
            if done.done():
                return done.result()
            if stopped.done():
                raise Stopped(f"ended while it waited for {what}")
            report(f"waits for {what}, for {time.monotonic() - began:.0f} s now")
            due += AGAIN
    finally:
        stopped.cancel()
        done.cancel()


def _tell(loop: asyncio.AbstractEventLoop, done: "asyncio.Future[Any]", found: Any) -> None:
    """Hands what was made, or the error, to the loop, if that still runs."""
    def settle() -> None:
        if not done.done():
            if isinstance(found, BaseException):
                done.set_exception(found)
            else:
                done.set_result(found)

    try:
        loop.call_soon_threadsafe(settle)
    except RuntimeError:
        pass
