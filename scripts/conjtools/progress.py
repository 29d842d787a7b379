"""How far a script is, on standard error where that is a terminal: one line that is kept up to date."""

from __future__ import annotations

import sys
import time
from collections.abc import Callable

SECONDS_BETWEEN = 0.1
CLEAR = "\r\x1b[K"


def progress(script: str, what: str, total: int) -> Callable[[int], None]:
    """A function that tells how many of so many are done."""
    if not sys.stderr.isatty():
        return lambda done: None
    told_at = 0.0

    def tell(done: int) -> None:
        nonlocal told_at
        now = time.monotonic()
        if done >= total:
            sys.stderr.write(CLEAR)
        elif now - told_at >= SECONDS_BETWEEN:
            told_at = now
            sys.stderr.write(f"{CLEAR}{script}: {done:,} of {total:,} {what}")
        sys.stderr.flush()

    return tell


def clear_line() -> None:
    """Takes the line away, before a fault is told."""
    if sys.stderr.isatty():
        sys.stderr.write(CLEAR)
