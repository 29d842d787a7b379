"""Distances and speeds: against closed forms, and against the interpolant in exact fractions."""

from __future__ import annotations

import math
import random
import unittest
from dataclasses import replace
from fractions import Fraction

from tests.support import CROSSING_REPORT, SAMPLES, USUAL_REPORT, catalogue_report, need_numpy

need_numpy()

import numpy as np  # noqa: E402

from conjtools.catalogue import Catalogue, CommonRun, catalogue_of, common_runs  # noqa: E402
from conjtools.curves import curve_of, spans_between, thinned  # noqa: E402
from conjtools.motion import PairMotion, approaches, distances_at, least_distances, runs_of  # noqa: E402
from conjtools.oem import Ephemeris, Segment, read_oem  # noqa: E402
from conjtools.report import Encounter, Kind, Report, ReportObject, Span, Window, read_report  # noqa: E402

MIDNIGHT = 1_735_689_600_000_000
State = tuple[int, tuple[int, ...]]


def sample(name: str, text: str) -> tuple[Report, Catalogue]:
    """A folder of samples with its report."""
    report = read_report("screen.report", text.encode("ascii"))
    return report, catalogue_of([read_oem(told.file, (SAMPLES / name / told.file).read_bytes()) for told in report.objects])


def track(states: list[State]) -> Ephemeris:
    """An ephemeris of one segment by its ticks, places in nm and rates in nm/s."""
    times = np.array([tick for tick, _ in states], np.int64)
    arc = Segment(int(times[0]), int(times[-1]), times, np.array([numbers for _, numbers in states], np.int64), ())
    return Ephemeris("a.oem", "A", "A", "EME2000", (arc,))


def exact_place(start: State, end: State, tick: int) -> list[Fraction]:
    """The cubic Hermite interpolant between two states in nm, by its basis polynomials."""
    span = Fraction(end[0] - start[0], 10**6)
    s = Fraction(tick - start[0], end[0] - start[0])
    basis = (2 * s**3 - 3 * s**2 + 1, (s**3 - 2 * s**2 + s) * span, 3 * s**2 - 2 * s**3, (s**3 - s**2) * span)
    return [basis[0] * start[1][k] + basis[1] * start[1][k + 3] + basis[2] * end[1][k] + basis[3] * end[1][k + 3] for k in range(3)]


def exact_distance(a: tuple[State, State], b: tuple[State, State], tick: int) -> float:
    """The distance in m, rounded once."""
    square = sum((p - q) ** 2 for p, q in zip(exact_place(*a, tick), exact_place(*b, tick)))
    scale = 10**12
    return math.isqrt(int(square * scale**2)) / scale / 1e9


class Crossing(unittest.TestCase):
    """One object moves along y at 7.5 km/s at x = 7,000 km, the other along z at x = 7,001 km; both are at 0 there at 00:00:30."""

    def setUp(self) -> None:
        self.report, self.catalogue = sample("crossing", CROSSING_REPORT)

    @staticmethod
    def distance(tick: int) -> float:
        """In m: one km along x, and 7.5 km/s along each of the other two."""
        seconds = (tick - MIDNIGHT - 30_000_000) / 1e6
        return math.sqrt(1000.0**2 + 2 * (7500.0 * seconds) ** 2)

    def test_curve_is_the_closed_form(self) -> None:
        (encounter,), (approach,) = self.report.encounters, approaches(self.catalogue, self.report, lambda done: None)
        assert approach is not None
        curve = curve_of(self.catalogue, self.report, 1, approach)
        ((ticks, distances),) = curve.stretches
        self.assertGreaterEqual(len(ticks), 241)
        for tick, distance in zip(ticks.tolist(), distances.tolist()):
            self.assertAlmostEqual(distance, self.distance(tick), delta=1e-6)
        self.assertTrue({encounter.first, encounter.closest, encounter.last} <= set(ticks.tolist()))

    def test_approach(self) -> None:
        (approach,) = approaches(self.catalogue, self.report, lambda done: None)
        assert approach is not None
        self.assertEqual((approach.least_tick, approach.least, approach.distance), (MIDNIGHT + 30_000_000, 1000.0, 1000.0))
        self.assertAlmostEqual(approach.speed, 7500 * math.sqrt(2), delta=1e-6)

    def test_threshold_is_met_at_the_ends_of_the_span(self) -> None:
        (encounter,) = self.report.encounters
        a, b = self.catalogue.objects
        runs = runs_of(list(common_runs(a, b, encounter.first - 1, encounter.last + 1)))
        ticks = np.array([encounter.first - 1, encounter.first, encounter.last, encounter.last + 1], np.int64)
        before, first, last, behind = distances_at(self.catalogue, runs.part(np.zeros(4, np.int64)), ticks)
        self.assertTrue(first <= 5000 < before and last <= 5000 < behind)


class Samples(unittest.TestCase):
    def test_miss_distances_are_met(self) -> None:
        """The report's distance holds at its time, and nothing in the encounter is more than a millimetre nearer."""
        for name, text in (("catalogue", catalogue_report()), ("usual", USUAL_REPORT)):
            report, catalogue = sample(name, text)
            for encounter, approach in zip(report.encounters, approaches(catalogue, report, lambda done: None)):
                assert approach is not None
                self.assertAlmostEqual(approach.distance, encounter.miss / 1e9, delta=1e-6)
                self.assertLessEqual(approach.least, approach.distance + 1e-6)
                self.assertGreaterEqual(approach.least, encounter.miss / 1e9 - 1.001e-3)


class Exactly(unittest.TestCase):
    def test_distances_of_staggered_pieces(self) -> None:
        """Near and far from the Earth, with steps from a second to an hour, to a few nm."""
        draw = random.Random(2)
        for size, reach in ((7e15, 1e12), (4.2e16, 1e12), (4.9e17, 1e12), (7e15, 1e16)):
            for step in (10**6, 60 * 10**6, 3600 * 10**6):
                base = [int(draw.uniform(-size, size)) for _ in range(3)]
                rate = [int(draw.uniform(-1e13, 1e13)) for _ in range(3)]
                pairs: list[tuple[State, State]] = []
                for shift in (0, step // 3):
                    states = []
                    for tick in (shift, shift + step):
                        place = [base[k] + rate[k] * tick // 10**6 + int(draw.uniform(-reach, reach)) for k in range(3)]
                        states.append((tick, (*place, *(rate[k] + int(draw.uniform(-1e12, 1e12)) for k in range(3)))))
                    pairs.append((states[0], states[1]))
                catalogue = catalogue_of([track(list(pair)) for pair in pairs])
                runs = runs_of([CommonRun(0, 1, step // 3, step)])
                for _ in range(20):
                    tick = draw.randrange(step // 3, step + 1)
                    found = float(PairMotion(catalogue, runs).distances(np.array([[tick - step // 3]], np.float64))[0, 0])
                    self.assertAlmostEqual(found, exact_distance(pairs[0], pairs[1], tick), delta=2e-7)

    def test_least_distance_is_that_of_all_ticks(self) -> None:
        """Short pieces, each tick tried; the objects pass head-on, so that a microsecond changes the distance by millimetres."""
        draw = random.Random(4)
        for _ in range(40):
            step, tracks = 2000, []
            for sign in (1, -1):
                middle = draw.randrange(step)
                places = [tuple(int(sign * 7.5e9 * (tick - middle) / 1e3) + draw.randrange(-3000, 3000) for _ in range(3)) for tick in (0, step)]
                rates = tuple(int(sign * 7.5e12) + draw.randrange(-10**9, 10**9) for _ in range(3))
                tracks.append(track([(0, (*places[0], *rates)), (step, (*places[1], *rates))]))
            catalogue = catalogue_of(tracks)
            runs = runs_of([CommonRun(0, 1, 0, step)])
            all_ticks = PairMotion(catalogue, runs).distances(np.arange(step + 1, dtype=np.float64)[None, :])[0]
            least, ticks = least_distances(catalogue, runs)
            self.assertEqual((float(least[0]), int(ticks[0])), (float(all_ticks.min()), int(all_ticks.argmin())))

    def test_speed_is_the_rate_of_change(self) -> None:
        """At a state the interpolants have the rates of the file."""
        _, catalogue = sample("crossing", CROSSING_REPORT)
        motion = PairMotion(catalogue, runs_of([CommonRun(0, 1, MIDNIGHT, MIDNIGHT + 60_000_000)]))
        for offset in (0.0, 6e7):
            self.assertAlmostEqual(float(motion.speeds(np.array([[offset]]))[0, 0]), 7500 * math.sqrt(2), delta=1e-6)


class Gaps(unittest.TestCase):
    def test_curve_is_broken_where_data_lack(self) -> None:
        """Two points rest a kilometre apart; the first has no state from second 10 to second 20."""

        def rest(x: int, seconds: tuple[int, ...]) -> Segment:
            return track([(second * 10**6, (x, 0, 0, 0, 0, 0)) for second in seconds]).segments[0]

        first = Ephemeris("a.oem", "A", "A", "EME2000", (rest(7 * 10**15, (0, 10)), rest(7 * 10**15, (20, 30))))
        second = Ephemeris("b.oem", "B", "B", "EME2000", (rest(7 * 10**15 + 10**12, (0, 15, 30)),))
        catalogue = catalogue_of([first, second])
        span = Span(Kind.NEAR, 2 * 10**6, 8 * 10**6)
        encounter = Encounter(1, 2, Kind.NEAR, span.first, 10**12, False, (span,))
        report = Report(Window(0, 30 * 10**6), 5 * 10**12, (ReportObject("a.oem", "A", "A"), ReportObject("b.oem", "B", "B")), (encounter,))
        (approach,) = approaches(catalogue, report, lambda done: None)
        assert approach is not None
        stretches = curve_of(catalogue, report, 1, approach).stretches
        self.assertEqual([(int(ticks[0]), int(ticks[-1])) for ticks, _ in stretches], [(0, 10**7), (2 * 10**7, 3 * 10**7)])
        for _, distances in stretches:
            self.assertLess(float(abs(distances - 1000).max()), 1e-9)

    def test_an_encounter_without_states_has_no_approach(self) -> None:
        report, catalogue = sample("crossing", CROSSING_REPORT)
        (encounter,) = report.encounters
        late = replace(encounter, spans=(Span(Kind.NEAR, encounter.first, MIDNIGHT + 60_000_001),))
        self.assertEqual(approaches(catalogue, replace(report, encounters=(late, encounter)), lambda done: None)[0], None)


class SpansOfThePair(unittest.TestCase):
    def test_those_of_its_other_encounters_in_the_view(self) -> None:
        def encounter(a: int, b: int, *ends: tuple[Kind, int, int]) -> Encounter:
            return Encounter(a, b, Kind.NEAR, ends[0][1], 0, False, tuple(Span(*end) for end in ends))

        near, undecided = Kind.NEAR, Kind.UNDECIDED
        told = (
            encounter(1, 2, (near, 0, 100)), encounter(1, 3, (near, 0, 9), (undecided, 10, 12)), encounter(1, 3, (near, 20, 29)),
            encounter(1, 3, (near, 40, 49)), encounter(2, 3, (near, 0, 100)),
        )  # fmt: skip
        report = Report(Window(0, 100), 5 * 10**12, (), told)
        self.assertEqual(spans_between(report, 3, 5, 40), (Span(near, 5, 9), Span(undecided, 10, 12), Span(near, 20, 29), Span(near, 40, 40)))
        self.assertEqual(spans_between(report, 3, 13, 39), (Span(near, 20, 29),))
        self.assertEqual(spans_between(report, 5, 0, 200), (Span(near, 0, 100),))


class ManyPoints(unittest.TestCase):
    def test_thinned_curve_keeps_its_extremes(self) -> None:
        ticks = np.arange(100_000, dtype=np.int64)
        values = np.sin(ticks / 3000.0) + (ticks == 77_777) * 5
        kept_ticks, kept = thinned(ticks, values, 0, 99_999)
        self.assertLess(len(kept), 1700)
        self.assertEqual((kept.max(), kept.min(), int(kept_ticks[0]), int(kept_ticks[-1])), (values.max(), values.min(), 0, 99_999))
        self.assertTrue((np.diff(kept_ticks) > 0).all())


if __name__ == "__main__":
    unittest.main()
