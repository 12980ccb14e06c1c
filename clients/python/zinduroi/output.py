"""What the commands print."""
from __future__ import annotations

import os
import sys

# The exit status where it can't be printed, as that of the program.
NOT_PRINTED = 7


class NotPrinted(Exception):
    """Standard output is closed, or can't be written."""


def print_text(text: str) -> None:
    """Prints a text and a line feed at once. Raises `NotPrinted`."""
    if sys.stdout is None:
        raise NotPrinted("standard output is closed")
    try:
        print(text, flush=True)
    except OSError as error:
        # Else the interpreter tries at its end what is left, and tells of that once more.
        with open(os.devnull, "wb") as nowhere:
            os.dup2(nowhere.fileno(), sys.stdout.fileno())
        raise NotPrinted(f"standard output can't be written: {error.strerror}") from None
