"""When an object has a state: spans of ticks, both ends included, in order and apart."""

from __future__ import annotations

from collections.abc import Sequence
from typing import TYPE_CHECKING

from conjtools.report import Report, Window

if TYPE_CHECKING:
    from conjtools.oem import Ephemeris

Spans = tuple[tuple[int, int], ...]


def joined(spans: Sequence[tuple[int, int]]) -> Spans:
    """Spans that are in order of time, those that meet or follow without a gap as one."""
    whole: list[tuple[int, int]] = []
    for first, last in spans:
        if whole and first <= whole[-1][1] + 1:
            whole[-1] = (whole[-1][0], max(whole[-1][1], last))
        else:
            whole.append((first, last))
    return tuple(whole)


def within(spans: Sequence[tuple[int, int]], window: Window) -> Spans:
    """The parts of spans that lie in the window."""
    cut = ((max(first, window.first), min(last, window.last)) for first, last in spans)
    return tuple((first, last) for first, last in cut if first <= last)


def covered_by(ephemeris: Ephemeris, window: Window) -> Spans:
    """The spans of the window at which an ephemeris gives a state: its useable spans."""
    return within(joined([(segment.first, segment.last) for segment in ephemeris.segments]), window)


def coverage(report: Report, ephemerides: Sequence[Ephemeris]) -> list[Spans]:
    """The spans of the window at which each object has a state: as the report tells them, else by the ephemerides."""
    return [
        covered_by(ephemeris, report.window) if told.covered is None else within(joined(told.covered), report.window)
        for told, ephemeris in zip(report.objects, ephemerides)
    ]


def gaps(spans: Spans, window: Window) -> Spans:
    """The spans of the window at which an object has no state."""
    found: list[tuple[int, int]] = []
    tick = window.first
    for first, last in spans:
        if tick < first:
            found.append((tick, first - 1))
        tick = last + 1
    if tick <= window.last:
        found.append((tick, window.last))
    return tuple(found)


def is_whole(spans: Spans, window: Window) -> bool:
    """Whether an object has a state at each tick of the window."""
    return not gaps(spans, window)


def meets(spans: Spans, first: int, last: int) -> bool:
    """Whether the spans hold a tick from the first to the last."""
    return any(start <= last and first <= end for start, end in spans)


def common(a: Spans, b: Spans) -> Spans:
    """The spans at which two objects both have a state."""
    return tuple(sorted((max(p, r), min(q, s)) for p, q in a for r, s in b if max(p, r) <= min(q, s)))
