"""What keeps late callers from a resource: fencing numbers, compared where the resource is."""
from __future__ import annotations

import threading
from typing import Optional, Tuple


class Fence:
    """What a resource remembers of the sessions of one record that it let in: the greatest number, and the greatest of a
    writer, `None` if there was none. Whoever is inside is let in. Whoever has left is refused, once a later session was let in
    that could not be inside beside it. Each session has to show one number in all of its stay.

    Both numbers can be given, as `numbers` gave them: a resource that starts again has to go on with what it remembered. Any
    number of threads may ask. Hold a lock of your own from `admits` until the access is over and the numbers are stored; else
    a later session may come between."""

    def __init__(self, greatest: int = 0, of_writers: Optional[int] = None) -> None:
        self._greatest = greatest
        self._of_writers = of_writers
        self._lock = threading.Lock()

    @property
    def numbers(self) -> Tuple[int, Optional[int]]:
        """The greatest number that was let in, and the greatest of a writer."""
        with self._lock:
            return self._greatest, self._of_writers

    def admits(self, number: int, writes: bool) -> bool:
        """Whether to let in a session that shows this number, a writer or a reader; remembers it if so. A writer is let in if
        its number is no less than the greatest, a reader if it is above the greatest of a writer."""
        with self._lock:
            if writes:
                admitted = number >= self._greatest
            else:
                admitted = self._of_writers is None or number > self._of_writers
            if admitted:
                self._greatest = max(self._greatest, number)
                self._of_writers = number if writes else self._of_writers
            return admitted
