"""Frames against published cases, erfa's own reference values, and erfa at single instants."""
from __future__ import annotations

import tempfile
import unittest
from fractions import Fraction
from pathlib import Path

try:
    import erfa  # type: ignore[import]
    import numpy as np
    import sgp4  # type: ignore[import]  # noqa: F401
except ModuleNotFoundError as missing:
    raise unittest.SkipTest(f"{missing.name} is missing: apt-get install python3-numpy python3-erfa python3-sgp4") from None

from conjtools.prepare.earth_orientation import EarthOrientation, read_earth_orientation
from conjtools.prepare.epochs import read_label, tai_of_utc
from conjtools.prepare.frames import (BENDING, GRID_SLACK, HOUR, INTERMEDIATE_HOURLY, OF_DATE_HOURLY, SERIES_SLACK, TEME_HOURLY, Hourly, OfDate, about_z, bias,
                                      earth_angle, frame_turn, intermediate, pole_motion)
from conjtools.prepare.segments import Frame
from tests.prepare_truth import Earth, Floats, days_1970, earth_of, matrix, matrix_rate, write

# 6 April 2004, 07:51:28.386009 UTC: Vallado, Fundamentals of Astrodynamics and Applications, example 3-15, and AIAA 2006-6753, appendix C, km and km/s.
ITRF = np.array([-1033.4793830, 7901.2952754, 6380.3565958])
ITRF_RATE = np.array([-3.225636520, -2.872451450, 5.531924446])
PEF = np.array([-1033.4750312, 7901.3055856, 6380.3445327])
TEME = np.array([5094.1801621, 6127.6446596, 6380.3445327])
TEME_RATE = np.array([-4.746131494, 0.785818041, 5.531931288])
TOD = np.array([5094.5147804, 6127.3664612, 6380.3445328])
TOD_RATE = np.array([-4.746088567, 0.786077222, 5.531931288])
MOD = np.array([5094.0290167, 6127.8709363, 6380.2478885])
MOD_RATE = np.array([-4.746262495, 0.786014149, 5.531791025])
J2000 = np.array([5102.50960000, 6123.01152000, 6378.13630000])
J2000_RATE = np.array([-4.74321960, 0.79053659, 5.53375619])
GCRF = np.array([5102.5089579, 6123.0114007, 6378.1369282])
GCRF_RATE = np.array([-4.743220157, 0.790536497, 5.533755728])
POLE = (-0.140682, 0.333309, -0.4399619, -0.205, -0.136)
"""Pole in arc seconds, UT1 - UTC in seconds, corrections to IAU 2000 in milliarcseconds."""


def tick_of(text: str) -> int:
    """Microseconds of TAI of an epoch in UTC."""
    return tai_of_utc(read_label(text)) // 10**9


def tick_of_tt(day: float) -> int:
    """The tick of a modified Julian date in TT, to the nearest microsecond."""
    return round((Fraction(str(day)) - 40587) * 86_400_000_000) - 32_184_000


class Frames(unittest.TestCase):
    """Rotations to EME2000."""

    def setUp(self) -> None:
        held = tempfile.TemporaryDirectory()
        self.addCleanup(held.cleanup)
        self.folder = Path(held.name)

    def earth(self, earth: Earth) -> EarthOrientation:
        """A file of these values, as it is read."""
        return read_earth_orientation(write(self.folder, "finals", earth.finals()))

    def vallado(self) -> tuple[np.ndarray[tuple[int], np.dtype[np.int64]], EarthOrientation]:
        """The instant and the Earth of the published case."""
        same = Earth(days_1970(2004, 4, 5), *(((value,) * 4) for value in POLE))
        return np.array([tick_of("2004-04-06T07:51:28.386009")]), self.earth(same)

    def test_itrf_to_gcrf_of_the_published_case_within_two_centimetres(self) -> None:
        # The book keeps its Julian dates in one double each, 40 microseconds apart, in which the Earth turns by 2 cm there.
        tick, earth = self.vallado()
        turns = frame_turn(Frame.ITRF, None, None, earth).at(tick)
        place = bias().T @ turns.matrix()[0] @ ITRF
        rate = bias().T @ (turns.matrix()[0] @ ITRF_RATE + turns.rate()[0] @ ITRF)
        self.assertLess(float(np.linalg.norm(place - GCRF)) * 1000, 0.02)
        self.assertLess(float(np.linalg.norm(rate - GCRF_RATE)) * 1000, 2e-5)

    def test_pole_of_the_published_case_within_a_millimetre(self) -> None:
        tick, earth = self.vallado()
        self.assertLess(float(np.linalg.norm(pole_motion(earth, tick)[0].T @ ITRF - PEF)) * 1000, 0.001)

    def test_teme_tod_and_mod_to_j2000_of_the_published_case_within_a_millimetre(self) -> None:
        # For rates the book takes precession and nutation as standing still: they turn by 1e-11 radians a second, 0.1 mm/s there.
        tick, _ = self.vallado()
        cases = {Frame.TEME: (TEME, TEME_RATE), Frame.TOD: (TOD, TOD_RATE), Frame.MOD: (MOD, MOD_RATE)}
        for frame, (place, rate) in cases.items():
            with self.subTest(frame):
                turns = frame_turn(frame, None, None if frame is Frame.TEME else OfDate.IAU1976, None).at(tick)
                self.assertLess(float(np.linalg.norm(turns.matrix()[0] @ place - J2000)) * 1000, 0.001)
                self.assertLess(float(np.linalg.norm(turns.matrix()[0] @ rate - J2000_RATE)) * 1000, 2e-5)
                self.assertLess(float(np.linalg.norm(turns.rate()[0] @ place)) * 1000, 1e-4)

    def test_teme_of_the_published_case_from_itrf_by_sidereal_time(self) -> None:
        # Independent of precession and nutation: PEF to TEME is the Greenwich mean sidereal time of 1982.
        tick, earth = self.vallado()
        place = frame_turn(Frame.TEME, None, None, None).at(tick).matrix()[0] @ TEME
        fixed = frame_turn(Frame.ITRF, None, None, earth).at(tick).matrix()[0] @ ITRF
        # IAU 1976/1980 without corrections against IAU 2006/2000A: the corrections are 0.052 and 0.004 arc seconds, the bias 0.02.
        self.assertLess(float(np.linalg.norm(place - fixed)) / float(np.linalg.norm(place)) * 648000 / np.pi, 0.06)

    def test_bias_is_erfas_reference_value(self) -> None:
        # eraBp06, test of liberfa.
        self.assertAlmostEqual(bias()[0][1], -0.7078368960971557145e-7, delta=1e-20)
        self.assertAlmostEqual(bias()[0][2], 0.8056213977613185606e-7, delta=1e-20)

    def test_frames_of_date_are_erfas_reference_values(self) -> None:
        # eraPnm80, eraPmat76, eraPnm06a and eraPmat06 at the modified Julian date 50123.9999 of TT, tests of liberfa: rows of the matrices.
        known = {(Frame.TOD, OfDate.IAU1976): (0.9999995831934611169, 0.8373654045728124011e-3, 0.3639121916933106191e-3),
                 (Frame.MOD, OfDate.IAU1976): (0.9999995504328350733, 0.8696632209480960785e-3, 0.3779153474959888345e-3),
                 (Frame.TOD, OfDate.IAU2006): (0.9999995832794205484, 0.8372382772630962111e-3, 0.3639684771140623099e-3),
                 (Frame.MOD, OfDate.IAU2006): (0.9999995505176007047, 0.8695404617348208406e-3, 0.3779735201865589104e-3)}
        for (frame, models), row in known.items():
            found = frame_turn(frame, None, models, None).at(np.array([tick_of_tt(50123.9999)])).matrix()[0]
            back = (bias().T if models is OfDate.IAU2006 else np.eye(3)) @ found
            with self.subTest(frame=frame, models=models):
                np.testing.assert_allclose(back[:, 0], row, rtol=0, atol=3e-14)

    def test_intermediate_pole_is_erfas_reference_value(self) -> None:
        # eraXys06a at the modified Julian date 53736 of TT.
        found = INTERMEDIATE_HOURLY.at(np.array([tick_of_tt(53736.0)]))[0]
        np.testing.assert_allclose(found, (0.5791308482835292617e-3, 0.4020580099454020310e-4, -0.1220032294164579896e-7), rtol=0, atol=2e-14)

    def test_earth_rotation_angle_is_erfas(self) -> None:
        # eraEra00 at the modified Julian date 54388 of UT1 is 0.4022837240028158102, and at others erfa's to the roundings of its days.
        day = 54388 - 40587
        zero = self.earth(Earth(day - 2, *(((value,) * 5) for value in (0.0, 0.0, 0.0, 0.0, 0.0))))
        angle, _ = earth_angle(zero, np.array([(day * 86400 + 33) * 10**6]))
        self.assertAlmostEqual(float(angle[0]), 0.4022837240028158102, delta=1e-14)
        ticks = (day * 86400 + np.arange(0, 86400, 617)) * 10**6
        angles, rates = earth_angle(zero, ticks)
        by_erfa = erfa.era00(2440587.5 + day, (ticks / 1e6 - 33 - day * 86400) / 86400)
        np.testing.assert_allclose(np.cos(angles - by_erfa), 1.0, rtol=0, atol=1e-15)
        np.testing.assert_allclose(np.sin(angles - by_erfa), 0.0, rtol=0, atol=1e-13)
        self.assertAlmostEqual(float(rates[0]), 7.292115146706979e-5, delta=1e-19)

    def test_whole_rotations_are_those_of_single_instants(self) -> None:
        first = days_1970(2008, 9, 18)
        earth = earth_of(first, 5)
        read = self.earth(earth)
        ticks = (first * 86400 + 33) * 10**6 + np.arange(3_000_000_000, 4 * 86_400_000_000, 20_123_456_789)
        kinds = {"ITRF": (Frame.ITRF, None), "TEME": (Frame.TEME, None), "TOD76": (Frame.TOD, OfDate.IAU1976), "MOD06": (Frame.MOD, OfDate.IAU2006)}
        for name, (frame, models) in kinds.items():
            turns = frame_turn(frame, None, models, read).at(ticks)
            for tick, found, rate in zip(ticks.tolist(), turns.matrix(), turns.rate()):
                with self.subTest(name, tick=tick):
                    np.testing.assert_allclose(found, matrix(name, Fraction(tick, 10**6), earth), rtol=0, atol=1e-13 if name == "ITRF" else 3e-14)
                    np.testing.assert_allclose(rate, matrix_rate(name, Fraction(tick, 10**6), earth), rtol=0, atol=2e-14)

    def test_slow_rotations_bend_less_than_is_said(self) -> None:
        # Second differences over an hour, at every eleventh day from 1972 to 2099; that over an hour is the second derivative to a part in a thousand.
        ticks = np.arange(days_1970(1972, 1, 2) * 24, days_1970(2099, 12, 30) * 24, 11 * 24 + 5) * HOUR
        for hourly in (TEME_HOURLY, OF_DATE_HOURLY[Frame.TOD, OfDate.IAU1976], OF_DATE_HOURLY[Frame.MOD, OfDate.IAU2006]):
            second = hourly.function(ticks + HOUR) - 2 * hourly.function(ticks) + hourly.function(ticks - HOUR)
            size = np.linalg.norm(second.reshape(-1, 3, 3), axis=(1, 2)).max() / (HOUR / 1e6) ** 2
            self.assertLess(float(size), BENDING / 2)

    def test_celestial_pole_bends_less_than_is_said(self) -> None:
        ticks = np.arange(days_1970(1972, 1, 2) * 24, days_1970(2099, 12, 30) * 24, 29 * 24 + 5) * HOUR
        second = intermediate(ticks + HOUR) - 2 * intermediate(ticks) + intermediate(ticks - HOUR)
        self.assertLess(float(np.abs(second).max()) / (HOUR / 1e6) ** 2, BENDING / 4)

    def test_between_hours_nothing_is_missed_by_more_than_is_said(self) -> None:
        ticks = days_1970(1972, 1, 2) * 24 * HOUR + np.arange(0, 127 * 365 * 24 * HOUR, 101 * 24 * HOUR + 1_234_567_891)
        for function in (TEME_HOURLY.function, OF_DATE_HOURLY[Frame.TOD, OfDate.IAU2006].function, intermediate):
            missed = np.linalg.norm(Hourly(function).at(ticks) - function(ticks), axis=1).max()
            self.assertLess(float(missed), GRID_SLACK + SERIES_SLACK)

    def test_a_frame_of_epoch_is_held_fast(self) -> None:
        epoch = tick_of("2004-04-06T07:51:28.386009")
        turn = frame_turn(Frame.TEME, Fraction(epoch), None, None)
        later = turn.at(np.array([epoch + 10**12]))
        np.testing.assert_allclose(later.matrix()[0], matrix("TEME", Fraction(epoch, 10**6)), rtol=0, atol=1e-14)
        self.assertEqual(float(np.abs(later.rate()).max()), 0.0)

    def test_about_z_turns_the_axes(self) -> None:
        turned: Floats = about_z(np.array([np.pi / 2]))[0] @ np.array([1.0, 0.0, 0.0])
        np.testing.assert_allclose(turned, [0.0, -1.0, 0.0], atol=1e-16)


if __name__ == "__main__":
    unittest.main()
