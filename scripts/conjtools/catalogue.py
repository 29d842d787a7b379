"""The states of all objects side by side, and the pieces between them: which piece an object uses at which tick.

The piece at a tick is the last pair of neighbouring states that holds the tick and whose segment may be used there (docs/MODEL.md).
"""

from __future__ import annotations

from array import array
from bisect import bisect_left, bisect_right
from collections.abc import Iterator, Sequence
from dataclasses import dataclass

import numpy as np
import numpy.typing as npt

from conjtools.oem import Ephemeris


@dataclass(frozen=True)
class Pieces:
    """The pieces of one object in order of time: the first and the last tick at which each is used (none where the last comes before
    the first), and the number of the first piece among those of all objects."""

    firsts: array[int]
    lasts: array[int]
    offset: int

    def at(self, tick: int) -> int | None:
        """The place of the piece at a tick, or nothing where the object has no state."""
        place = bisect_right(self.firsts, tick) - 1
        return place if place >= 0 and tick <= self.lasts[place] else None

    def next_tick(self, tick: int) -> int | None:
        """The first tick with a state from this one on."""
        if self.at(tick) is not None:
            return tick
        place = bisect_left(self.firsts, tick)
        return self.firsts[place] if place < len(self.firsts) else None


@dataclass(frozen=True)
class Catalogue:
    """The n states of all objects, ticks (n,) and places and rates (n, 6) in nm and nm/s; for each piece the place of its earlier
    state; and the pieces of each object."""

    times: npt.NDArray[np.int64]
    states: npt.NDArray[np.int64]
    piece_states: npt.NDArray[np.int64]
    objects: tuple[Pieces, ...]


@dataclass(frozen=True)
class CommonRun:
    """Consecutive ticks at which each of two objects uses one piece; the pieces by their numbers among those of all objects."""

    piece_a: int
    piece_b: int
    first: int
    last: int


def catalogue_of(ephemerides: Sequence[Ephemeris]) -> Catalogue:
    """The catalogue of some ephemerides."""
    times: list[npt.NDArray[np.int64]] = []
    states: list[npt.NDArray[np.int64]] = []
    piece_states: list[npt.NDArray[np.int64]] = []
    objects: list[Pieces] = []
    state_count = piece_count = 0
    for ephemeris in ephemerides:
        starts: list[npt.NDArray[np.int64]] = []
        ends: list[npt.NDArray[np.int64]] = []
        for segment in ephemeris.segments:
            start = np.maximum(segment.times[:-1], segment.first)
            end = np.minimum(segment.times[1:], segment.last)
            used = np.flatnonzero(start <= end)
            starts.append(start[used])
            ends.append(end[used])
            piece_states.append(used + state_count)
            times.append(segment.times)
            states.append(segment.states)
            state_count += len(segment.times)
        objects.append(pieces_of(np.concatenate(starts), np.concatenate(ends), piece_count))
        piece_count += len(objects[-1].firsts)
    if not ephemerides:
        return Catalogue(np.empty(0, np.int64), np.empty((0, 6), np.int64), np.empty(0, np.int64), ())
    return Catalogue(np.concatenate(times), np.concatenate(states), np.concatenate(piece_states), tuple(objects))


def pieces_of(starts: npt.NDArray[np.int64], ends: npt.NDArray[np.int64], offset: int) -> Pieces:
    """The pieces that cover the ticks from these starts to these ends, which both rise: of two that cover a tick the later is used."""
    ends = ends.copy()
    ends[:-1] = np.minimum(ends[:-1], starts[1:] - 1)
    return Pieces(array("q", starts.tolist()), array("q", ends.tolist()), offset)


def common_runs(a: Pieces, b: Pieces, first: int, last: int) -> Iterator[CommonRun]:
    """The runs of common ticks of two objects from the first tick to the last, in order."""
    tick = first
    while tick <= last:
        place_a, place_b = a.at(tick), b.at(tick)
        if place_a is None or place_b is None:
            next_a, next_b = a.next_tick(tick), b.next_tick(tick)
            if next_a is None or next_b is None:
                return
            tick = max(next_a, next_b)
            continue
        end = min(a.lasts[place_a], b.lasts[place_b], last)
        yield CommonRun(a.offset + place_a, b.offset + place_b, tick, end)
        tick = end + 1
