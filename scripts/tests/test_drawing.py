"""Drawings: where things stand, and how numbers are written."""

from __future__ import annotations

import math
import re
import unittest

from tests.support import CROSSING_REPORT, SAMPLES, need_numpy

need_numpy()

from conjtools import drawing  # noqa: E402
from conjtools.catalogue import catalogue_of  # noqa: E402
from conjtools.curves import curve_of  # noqa: E402
from conjtools.motion import approaches  # noqa: E402
from conjtools.oem import read_oem  # noqa: E402
from conjtools.page import duration_text, metres_short  # noqa: E402
from conjtools.report import read_report  # noqa: E402


class Texts(unittest.TestCase):
    def test_metres_to_the_nearest_millimetre(self) -> None:
        for nm, text in ((0, "0.000"), (499_999, "0.000"), (500_000, "0.001"), (1_200_000_242_980, "1,200.000"), (2_999_999_007_728, "2,999.999")):
            self.assertEqual(drawing.metres_text(nm), text)

    def test_metres_in_full(self) -> None:
        self.assertEqual([metres_short(nm) for nm in (5 * 10**12, 1, 10**15, 5_002_250_000_000)], ["5,000", "0.000000001", "1,000,000", "5,002.25"])

    def test_durations(self) -> None:
        minute = 60 * 10**6
        told = [duration_text(ticks) for ticks in (0, 10**6 - 1, minute, 61 * minute, 1440 * minute + 1, 2 * 1440 * minute)]
        self.assertEqual(told, ["0 s", "0.999999 s", "1 min", "1 h 1 min", "1 d 0.000001 s", "2 d"])

    def test_round_numbers_of_an_axis(self) -> None:
        self.assertEqual(drawing.ticks_between(-1.05, 1.05, 6), [-1.0, -0.5, 0.0, 0.5, 1.0])
        self.assertEqual(drawing.ticks_between(0, 15.1, 5), [0, 5, 10, 15])
        self.assertEqual([drawing.number_text(value, 0.5) for value in (-0.5, -0.0, 0.5)], ["\N{MINUS SIGN}0.5", "0.0", "0.5"])
        self.assertEqual(drawing.number_text(20_000, 5_000), "20,000")


class Crossing(unittest.TestCase):
    def test_points_spans_and_threshold_stand_at_their_places(self) -> None:
        """By the scales that the drawing tells, each point is at the exact distance, to a tenth of a pixel."""
        report = read_report("screen.report", CROSSING_REPORT.encode())
        catalogue = catalogue_of([read_oem(told.file, (SAMPLES / "crossing" / told.file).read_bytes()) for told in report.objects])
        (encounter,), (approach,) = report.encounters, approaches(catalogue, report, lambda done: None)
        assert approach is not None
        svg = drawing.curve_svg(encounter, curve_of(catalogue, report, 1, approach), report.pair_threshold(encounter), 'a "name"')
        low, high = (float(text) for text in re.findall(r'data-times="([^,]*),([^"]*)"', svg)[0])
        (top,) = (float(text) for text in re.findall(r'data-top="([^"]*)"', svg))
        self.assertEqual((low, high), (-1.385640, 1.385640), "a span's length before it and behind it")

        def across(seconds: float) -> float:
            return 50 + (seconds - low) / (high - low) * (400 - 50 - 12)

        def up(metres: float) -> float:
            return 250 - 42 - metres / top * (250 - 42 - 12)

        (points,) = re.findall(r'<polyline class="curve" points="([^"]*)"', svg)
        for pair in points.split(" "):
            x, y = (float(text) for text in pair.split(","))
            seconds = low + (x - 50) / 338 * (high - low)
            slope = 7500 * math.sqrt(2) / top * 196 / (338 / (high - low))
            self.assertAlmostEqual(y, up(math.hypot(1000, 7500 * math.sqrt(2) * seconds)), delta=0.06 + 0.06 * slope)
        (rectangle,) = re.findall(r'<rect class="near" x="([^"]*)" y="12.0" width="([^"]*)"', svg)
        self.assertAlmostEqual(float(rectangle[0]), across(-0.461880), delta=0.051)
        self.assertAlmostEqual(float(rectangle[1]), across(0.461880) - across(-0.461880), delta=0.051)
        (limit,) = re.findall(r'<line class="threshold" x1="50.0" y1="([^"]*)"', svg)
        self.assertAlmostEqual(float(limit), up(5000), delta=0.051)
        self.assertIn('aria-label="a &quot;name&quot;"', svg)


if __name__ == "__main__":
    unittest.main()
