"""When objects have states: by ephemerides, and as a report tells it."""

from __future__ import annotations

import unittest
from dataclasses import replace

from tests.support import SAMPLES, USUAL_REPORT, need_numpy

need_numpy()

from conjtools.coverage import common, coverage, covered_by, gaps, is_whole, joined, meets, within  # noqa: E402
from conjtools.epochs import read_epoch  # noqa: E402
from conjtools.oem import read_oem  # noqa: E402
from conjtools.report import Window, read_report  # noqa: E402


class Spans(unittest.TestCase):
    def test_joined(self) -> None:
        self.assertEqual(joined([(0, 10), (10, 20), (21, 30), (32, 40)]), ((0, 30), (32, 40)))

    def test_within_and_gaps_split_the_window(self) -> None:
        window = Window(5, 35)
        spans = within(((0, 10), (20, 30)), window)
        self.assertEqual(spans, ((5, 10), (20, 30)))
        self.assertEqual(gaps(spans, window), ((11, 19), (31, 35)))
        self.assertEqual(gaps((), window), ((5, 35),))
        self.assertEqual(gaps(((5, 35),), window), ())

    def test_whole(self) -> None:
        for spans, whole in ((((5, 35),), True), (((5, 34),), False), (((6, 35),), False), (((5, 19), (21, 35)), False), ((), False)):
            self.assertEqual(is_whole(spans, Window(5, 35)), whole)
        self.assertTrue(is_whole((), Window(6, 5)), "a window without a tick")

    def test_common(self) -> None:
        self.assertEqual(common(((0, 10), (20, 30)), ((5, 25),)), ((5, 10), (20, 25)))
        self.assertTrue(meets(((0, 10), (20, 30)), 10, 12))
        self.assertFalse(meets(((0, 10), (20, 30)), 11, 19))


class Samples(unittest.TestCase):
    def test_useable_spans_of_the_usual_files(self) -> None:
        """The imager is useable from 12:01 to 12:09; the relay's two segments meet at the manoeuvre."""
        report = read_report("screen.report", USUAL_REPORT.encode())
        tracks = [read_oem(told.file, (SAMPLES / "usual" / told.file).read_bytes()) for told in report.objects]
        noon = read_epoch("2025-02-14T12:00:00")

        def minutes(first: int, last: int) -> tuple[int, int]:
            return noon + first * 60_000_000, noon + last * 60_000_000

        self.assertEqual(covered_by(tracks[0], report.window), (minutes(1, 9),))
        self.assertEqual(coverage(report, tracks), [(minutes(1, 9),), (minutes(0, 10),)])
        told = replace(report, objects=(replace(report.objects[0], covered=()), replace(report.objects[1], covered=(minutes(0, 3), minutes(4, 20)))))
        self.assertEqual(coverage(told, tracks), [(), (minutes(0, 3), minutes(4, 10))])


if __name__ == "__main__":
    unittest.main()
