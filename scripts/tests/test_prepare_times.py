"""Epochs, time systems, leap seconds and the Earth's file."""
from __future__ import annotations

import tempfile
import unittest
from fractions import Fraction
from pathlib import Path

try:
    import erfa  # type: ignore[import]  # noqa: F401
    import numpy as np
    import sgp4  # type: ignore[import]  # noqa: F401
except ModuleNotFoundError as missing:
    raise unittest.SkipTest(f"{missing.name} is missing: apt-get install python3-numpy python3-erfa python3-sgp4") from None

from conjtools.prepare.earth_orientation import read_earth_orientation
from conjtools.prepare.epochs import BadEpoch, read_label, stretches, tai_of_utc, utc_of_tick, utc_text
from conjtools.prepare.faults import Refused
from conjtools.prepare.time_scales import TimeSystem, own_time, own_time_of_ticks, tai_time
from tests.prepare_truth import Earth, days_1970, earth_of, write

SECOND = 10**15


class Epochs(unittest.TestCase):
    """Texts of epochs."""

    def test_months_and_days_of_the_year_say_the_same(self) -> None:
        # 1 March 2024 is day 61 of a leap year and 19783 days behind 1 January 1970.
        for text in ("2024-03-01T12:00:00.25", "2024-061T12:00:00.25Z", "2024-03-01T12:00:00.250000000000000000"):
            label = read_label(text)
            self.assertEqual((label.day, label.rest), (19783, 43_200 * SECOND + SECOND // 4))

    def test_what_is_no_epoch(self) -> None:
        for text in ("2024-02-30T00:00:00", "2023-366T00:00:00", "2024-000T00:00:00", "1971-12-31T00:00:00", "2100-01-01T00:00:00", "2024-01-01 00:00:00",
                     "2024-01-01T24:00:00", "2024-01-01T00:60:00", "2024-01-01T00:00:60", "2024-01-01T00:00:61", "2024-01-01T00:00:00.0000000000000001",
                     "2024-1-1T0:0:0", ""):
            with self.subTest(text), self.assertRaises(BadEpoch):
                read_label(text)

    def test_leap_seconds_of_2016(self) -> None:
        before, leap, behind = (tai_of_utc(read_label(text)) for text in ("2016-12-31T23:59:59", "2016-12-31T23:59:60", "2017-01-01T00:00:00"))
        self.assertEqual((leap - before, behind - leap), (SECOND, SECOND))
        with self.assertRaises(BadEpoch):
            tai_of_utc(read_label("2015-12-31T23:59:60"))

    def test_the_27_leap_seconds(self) -> None:
        # IERS Bulletin C: TAI - UTC was 10 s from 1972 on and is 37 s since 2017.
        self.assertEqual([stretch.ahead for stretch in stretches()], list(range(10, 38)))
        starts = [utc_text(stretch.first - stretch.ahead * 10**6)[:10] for stretch in stretches()]
        self.assertEqual((starts[1], starts[9], starts[14], starts[25], starts[27]), ("1972-07-01", "1980-01-01", "1988-01-01", "2012-07-01", "2017-01-01"))

    def test_the_microseconds_of_a_leap_second_are_no_ticks(self) -> None:
        last = tai_of_utc(read_label("2016-12-31T23:59:59.999999")) // 10**9
        self.assertEqual(utc_text(utc_of_tick(last)), "2016-12-31T23:59:59.999999")
        for later in (1, 500_000, 10**6, 10**6 + 1):
            self.assertEqual(utc_text(utc_of_tick(last + later)), "2017-01-01T00:00:00.000000")
        self.assertEqual(utc_text(utc_of_tick(last + 10**6 + 2)), "2017-01-01T00:00:00.000001")


class Systems(unittest.TestCase):
    """Time systems."""

    def setUp(self) -> None:
        held = tempfile.TemporaryDirectory()
        self.addCleanup(held.cleanup)
        self.folder = Path(held.name)

    def test_one_instant_in_five_systems(self) -> None:
        # On 1 January 2020 TAI - UTC = 37 s, GPS = UTC + 18 s, TT = UTC + 69.184 s (IERS Bulletin C 58).
        texts = {TimeSystem.UTC: "2020-01-01T00:00:00", TimeSystem.TAI: "2020-01-01T00:00:37", TimeSystem.GPS: "2020-01-01T00:00:18",
                 TimeSystem.TT: "2020-01-01T00:01:09.184"}
        self.assertEqual({own_time(system, text) for system, text in texts.items()}, {own_time(TimeSystem.UTC, "2020-001T00:00:00Z")})

    def test_the_epoch_of_gps_time(self) -> None:
        # 6 January 1980, 0h: GPS time was UTC (IS-GPS-200).
        self.assertEqual(own_time(TimeSystem.GPS, "1980-01-06T00:00:00"), own_time(TimeSystem.UTC, "1980-01-06T00:00:00"))

    def test_ut1_runs_straight_between_days_and_over_a_leap_second(self) -> None:
        # UT1 - UTC jumps from -0.4 to +0.6 s at the leap second of 2016; UT1 - TAI goes on from -36.4 to -36.4.
        day = days_1970(2016, 12, 31)
        earth = read_earth_orientation(write(self.folder, "finals", Earth(day, (0.0,) * 3, (0.0,) * 3, (-0.4, 0.6, 0.598), (0.0,) * 3, (0.0,) * 3).finals()))
        ticks = np.array([(day * 86400 + 36) * 10**6, (day * 86400 + 36 + 86401) * 10**6, (day * 86400 + 37 + 86400 + 43200) * 10**6])
        whole, part = own_time_of_ticks(TimeSystem.UT1, earth, ticks)
        exact = [Fraction(int(a)) + Fraction(float(b)) - int(tick) for a, b, tick in zip(whole, part, ticks)]
        for found, expected in zip(exact, (-36_400_000, -36_400_000, -36_401_000)):
            self.assertLess(abs(found - expected), Fraction(1, 10**9))
        for tick, a, b in zip(ticks.tolist(), whole.tolist(), part.tolist()):
            own = (a * 10**9) + round(b * 1e9)
            self.assertLess(abs(tai_time(TimeSystem.UT1, earth, own) - tick), Fraction(1, 10**8))

    def test_the_form_of_the_earths_file(self) -> None:
        # The line of 6 April 2004 in the form of readme.finals2000A, with made-up errors.
        line = " 4 4 5 53100.00 I -0.140682 0.000050  0.333309 0.000050  I-0.4399619 0.0000100  1.5563 0.0050  I    -0.205     .100    -0.136     .100"
        second = line.replace(" 4 4 5 53100.00", " 4 4 6 53101.00")
        earth = read_earth_orientation(write(self.folder, "finals", line + "\n" + second + "\n"))
        self.assertEqual(earth.ut1, (-324399619, -324399619))
        np.testing.assert_allclose(earth.pole[0], np.array([-0.140682, 0.333309]) * np.pi / 648000, rtol=1e-15)
        np.testing.assert_allclose(earth.correction[1], np.array([-0.205e-3, -0.136e-3]) * np.pi / 648000, rtol=1e-15)

    def test_days_without_values_end_the_file(self) -> None:
        text = earth_of(days_1970(2024, 1, 1), 4).finals()
        blank = "24 1 5 60314.00"
        earth = read_earth_orientation(write(self.folder, "finals", text + blank + "\n"))
        self.assertEqual(len(earth.ticks), 4)

    def test_predicted_days_and_days_without_corrections_are_told(self) -> None:
        lines = earth_of(days_1970(2024, 1, 1), 5).finals().splitlines()
        lines[3:] = [(line[:16] + "P" + line[17:57] + "P" + line[58:]) for line in lines[3:]]
        lines[4] = lines[4][:95]
        earth = read_earth_orientation(write(self.folder, "finals", "\n".join(lines) + "\n"))
        third = int(earth.ticks[2])
        self.assertEqual(earth.remarks(third), [])
        self.assertEqual(earth.remarks(third + 1), ["the values of finals from 2024-01-04 on are predictions"])
        self.assertEqual(earth.remarks(int(earth.ticks[4]))[1:], ["the values of finals from 2024-01-05 on have no corrections of the celestial pole"])
        self.assertEqual(earth.correction[4].tolist(), [0.0, 0.0])

    def test_bad_files_of_the_earth(self) -> None:
        good = earth_of(days_1970(2024, 1, 1), 4).finals().splitlines()
        cases = {"follow": (2, [good[0], good[2]]), "fixed columns": (2, [good[0], good[1].replace("60311", "6x311")]), "fewer": (1, good[:1]),
                 "its fixed": (1, [good[0][:18] + "      nan" + good[0][27:]]), "with its": (1, [good[0][:58] + "    1E+300" + good[0][68:]]),
                 "form finals2000A": (1, [good[0][:58] + " 12.345678" + good[0][68:]]), "from 1972": (1, [good[0].replace("60310", "41316")])}
        for word, (line, lines) in cases.items():
            with self.subTest(word), self.assertRaises(Refused) as caught:
                read_earth_orientation(write(self.folder, "finals", "\n".join(lines) + "\n"))
            self.assertEqual(caught.exception.line, line)
            self.assertIn(word, caught.exception.what)


if __name__ == "__main__":
    unittest.main()
