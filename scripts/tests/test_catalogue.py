"""Pieces and runs of common ticks, against the definition: the last pair of neighbouring states that holds the tick and whose segment
may be used there."""

from __future__ import annotations

import random
import unittest

from tests.support import need_numpy

need_numpy()

import numpy as np  # noqa: E402

from conjtools.catalogue import catalogue_of, common_runs  # noqa: E402
from conjtools.oem import Ephemeris, Segment  # noqa: E402


def track(*segments: tuple[int, int, list[int]]) -> Ephemeris:
    """An ephemeris at rest: of each segment the useable span and the ticks of its states."""
    arcs = [Segment(first, last, np.array(times, np.int64), np.zeros((len(times), 6), np.int64), ()) for first, last, times in segments]
    return Ephemeris("a.oem", "A", "A", "EME2000", tuple(arcs))


def piece_by_definition(ephemeris: Ephemeris, tick: int) -> tuple[int, int] | None:
    """The segment and the place of the earlier state of the last piece that covers the tick."""
    found = [
        (number, place)
        for number, arc in enumerate(ephemeris.segments)
        for place in range(len(arc.times) - 1)
        if arc.times[place] <= tick <= arc.times[place + 1] and arc.first <= tick <= arc.last
    ]
    return found[-1] if found else None


def random_track(draw: random.Random) -> Ephemeris:
    """Segments with gaps or shared ticks, whose nodes reach beyond their useable spans."""
    segments, at = [], draw.randrange(5)
    for _ in range(draw.randrange(1, 4)):
        first = at + draw.choice((0, 0, 1, 4))
        last = first + draw.randrange(0, 12)
        low, high = first - draw.randrange(4), last + draw.randrange(4)
        inner = draw.sample(range(low + 1, high), min(max(0, high - low - 1), draw.randrange(4)))
        segments.append((first, last, sorted({low, high if high > low else low + 1, *inner})))
        at = last
    return track(*segments)


class PieceAtATick(unittest.TestCase):
    def test_by_the_definition(self) -> None:
        draw = random.Random(3)
        for _ in range(300):
            ephemeris = random_track(draw)
            catalogue = catalogue_of([ephemeris])
            offsets = np.cumsum([0] + [len(arc.times) for arc in ephemeris.segments])
            for tick in range(-6, 50):
                place = catalogue.objects[0].at(tick)
                wanted = piece_by_definition(ephemeris, tick)
                state = None if place is None else int(catalogue.piece_states[place])
                self.assertEqual(state, None if wanted is None else offsets[wanted[0]] + wanted[1], (ephemeris, tick))

    def test_a_shared_tick_belongs_to_the_later_segment(self) -> None:
        pieces = catalogue_of([track((0, 10, [0, 10]), (10, 20, [10, 20]))]).objects[0]
        self.assertEqual([pieces.at(tick) for tick in (0, 9, 10, 20, 21)], [0, 0, 1, 1, None])


class CommonRuns(unittest.TestCase):
    def test_they_hold_each_common_tick_once(self) -> None:
        draw = random.Random(5)
        for _ in range(300):
            first, second = random_track(draw), random_track(draw)
            catalogue = catalogue_of([first, second])
            a, b = catalogue.objects
            low, high = draw.randrange(-5, 20), draw.randrange(10, 45)
            runs = list(common_runs(a, b, low, high))
            ticks = [tick for run in runs for tick in range(run.first, run.last + 1)]
            wanted = [tick for tick in range(low, high + 1) if piece_by_definition(first, tick) and piece_by_definition(second, tick)]
            self.assertEqual(ticks, wanted)
            for run in runs:
                for tick in (run.first, run.last):
                    self.assertEqual((a.at(tick), b.at(tick)), (run.piece_a - a.offset, run.piece_b - b.offset))


if __name__ == "__main__":
    unittest.main()
