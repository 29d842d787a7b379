"""A window cut into parts."""

from __future__ import annotations

from conjtools.epochs import SECOND
from conjtools.report import Window

MINUTE = 60 * SECOND


def parts_of(window: Window, minutes: int) -> tuple[Window, ...]:
    """Windows of so many minutes each, one behind the other from the first tick on. The last ends with the window: it is at most this
    long and one tick, so that a window of whole minutes with its last tick has no part of a single tick."""
    length = minutes * MINUTE
    count = max(1, -(-(window.last - window.first) // length))
    firsts = [window.first + place * length for place in range(count)]
    return tuple(Window(first, last - 1) for first, last in zip(firsts, firsts[1:])) + (Window(firsts[-1], window.last),)
