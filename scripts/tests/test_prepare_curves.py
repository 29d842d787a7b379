"""The cubics that `scripts/prepare` writes, against the declared interpolants in exact fractions and against the truth."""
from __future__ import annotations

import random
import re
import tempfile
import unittest
from fractions import Fraction
from pathlib import Path

try:
    import erfa  # type: ignore[import]  # noqa: F401
    import numpy as np
    import sgp4  # type: ignore[import]  # noqa: F401
except ModuleNotFoundError as missing:
    raise unittest.SkipTest(f"{missing.name} is missing: apt-get install python3-numpy python3-erfa python3-sgp4") from None

from conjtools.prepare.earth_orientation import read_earth_orientation
from conjtools.prepare.faults import Refused
from conjtools.prepare.frames import OfDate
from conjtools.prepare.objects import Prepared, Settings, prepare_file
from conjtools.prepare.segments import Method, Wanted
from tests.prepare_truth import (DAY, START, Earth, Written, cubic_at, days_1970, declared, distance, earth_of, even, label, matrix, micros, states_of,
                                 truth, utc_ahead, write, write_kvn)

COMMENT = re.compile(r"^COMMENT PREPARED FROM (?P<file>.+); (?P<method>LAGRANGE|HERMITE) (?P<degree>\d+)(?P<origin>| BY OPTION| LOWERED FROM \d+) "
                     r"IN (?P<frame>[^,]+), (?P<system>[A-Z0-9]+); WITHIN (?P<bound>\d+\.\d{9}) m$", re.MULTILINE)


class Curves(unittest.TestCase):
    """Files of each form."""

    def setUp(self) -> None:
        held = tempfile.TemporaryDirectory()
        self.addCleanup(held.cleanup)
        self.folder = Path(held.name)

    def prepared(self, text: str, earth: Earth | None = None, models: OfDate | None = None, within: float = 1.0, method: Method | None = None,
                 degree: int | None = None) -> Prepared:
        """What comes of a text."""
        orientation = read_earth_orientation(write(self.folder, "finals", earth.finals())) if earth is not None else None
        settings = Settings(within * 1e9, models, Wanted(method, degree, False, orientation))
        found = prepare_file(write(self.folder, "in.oem", text), settings)
        self.assertEqual(len(found), 1)
        return found[0]

    def compare(self, name: str, frame: str, system: str, method: str, degree: int, written: Written, earth: Earth | None, prepared: Prepared,
                samples: int = 60) -> tuple[float, float]:
        """The greatest distance of the cubics from the declared interpolant, and the bound that is stated. Each is also compared with the truth."""
        comments = list(COMMENT.finditer(prepared.text))
        self.assertEqual(len(comments), len(prepared.rows))
        bound = max(float(comment["bound"]) for comment in comments)
        new = states_of(prepared.text)
        new_times, new_states = [micros(epoch) for epoch, _ in new], [numbers for _, numbers in new]
        old_states = [numbers for _, numbers in states_of(written.text)]
        old_times = [tai if system != "UT1" else tai + Fraction(earth.at(tai)[2]) for tai in written.times]  # type: ignore[union-attr]
        draw = random.Random(7)
        worst = 0.0
        for _ in range(samples):
            at = draw.randrange(int(new_times[0]), int(new_times[-1]))
            tai = Fraction(at, 10**6) + utc_ahead(at // 10**6 // DAY)
            own = tai if system != "UT1" else tai + Fraction(earth.at(tai)[2])  # type: ignore[union-attr]
            place = matrix(frame, tai, earth) @ np.array([float(x) for x in declared(old_times, old_states, method, degree, own)])
            cubic = np.array([float(x) for x in cubic_at(new_times, new_states, Fraction(at))])
            real = np.array(truth(name, tai)[0])
            worst = max(worst, distance(cubic, place))
            self.assertLessEqual(distance(cubic, real), distance(place, real) + bound + 1e-6)
        self.assertLessEqual(worst, bound + 1e-6)
        return worst, bound

    def tight(self, name: str, frame: str, system: str, method: str, degree: int, step: int, count: int, models: OfDate | None = None,
              with_earth: bool = False) -> None:
        """A file of a form is followed within a metre, and the bound is no more than twice what is seen."""
        earth = earth_of(START[name] - 2, 6) if with_earth else None
        start = Fraction(START[name] * DAY + utc_ahead(START[name]) + 3600 * 20)
        written = write_kvn(name, frame, system, method, degree, even(start, Fraction(step), count), earth, digits=12 if system == "UT1" else 6)
        worst, bound = self.compare(name, frame, system, method, degree, written, earth, self.prepared(written.text, earth, models))
        self.assertLessEqual(bound, 1.0)
        self.assertGreater(2 * worst, bound)

    def test_lagrange_7_in_teme_and_utc(self) -> None:
        self.tight("iss", "TEME", "UTC", "LAGRANGE", 7, 240, 60)

    def test_lagrange_8_in_icrf_and_tt(self) -> None:
        self.tight("vanguard", "ICRF", "TT", "LAGRANGE", 8, 240, 60)

    def test_hermite_7_in_itrf_and_gps_over_midnight(self) -> None:
        self.tight("iss", "ITRF", "GPS", "HERMITE", 7, 600, 30, with_earth=True)

    def test_lagrange_9_in_itrf_and_tai_of_a_molniya(self) -> None:
        self.tight("molniya", "ITRF", "TAI", "LAGRANGE", 9, 300, 100, with_earth=True)

    def test_geostationary_in_itrf_hours_apart(self) -> None:
        self.tight("geo", "ITRF", "UTC", "HERMITE", 5, 5400, 12, with_earth=True)

    def test_navigation_satellite_in_itrf_every_quarter_of_an_hour(self) -> None:
        self.tight("gps", "ITRF", "GPS", "LAGRANGE", 8, 900, 40, with_earth=True)

    def test_lagrange_7_in_ut1(self) -> None:
        self.tight("iss", "TEME", "UT1", "LAGRANGE", 7, 120, 100, with_earth=True)

    def test_frames_of_date(self) -> None:
        for frame, models in (("TOD76", OfDate.IAU1976), ("MOD76", OfDate.IAU1976), ("TOD06", OfDate.IAU2006), ("MOD06", OfDate.IAU2006)):
            with self.subTest(frame):
                self.tight("iss", frame, "TAI", "LAGRANGE", 7, 240, 30, models)

    def follow(self, name: str, frame: str, system: str, method: str, degree: int, times: list[Fraction], within: float = 1.0, digits: int = 9,
               lines: tuple[str, ...] = (), samples: int = 60) -> Prepared:
        """A file is followed within a bound, as `conj` reads it."""
        day = int(times[0] // DAY)
        earth = earth_of(day - 2, 6) if frame == "ITRF" else None
        written = write_kvn(name, frame, system, method, degree, times, earth, digits, lines)
        prepared = self.prepared(written.text, earth, OfDate.IAU2006, within)
        self.assertLessEqual(self.compare(name, frame, system, method, degree, written, earth, prepared, samples)[1], within)
        self.check_profile(prepared.text)
        return prepared

    def check_profile(self, text: str) -> None:
        """Segments have two nodes or more, in whole microseconds, that rise by at most an hour with no leap second between; they follow one another."""
        end = Fraction(0)
        for segment in text.split("META_STOP\n")[1:]:
            ticks = [micros(epoch) for epoch, _ in states_of(segment)]
            self.assertGreaterEqual(len(ticks), 2)
            self.assertGreaterEqual(ticks[0], end)
            end = ticks[-1]
            for earlier, later in zip(ticks, ticks[1:]):
                self.assertEqual((earlier.denominator, later.denominator), (1, 1))
                self.assertTrue(0 < later - earlier <= 3_600_000_000)
                self.assertEqual(utc_ahead(int(earlier) // 10**6 // DAY), utc_ahead(int(later) // 10**6 // DAY))

    def test_no_tick_is_beyond_the_bound_in_exact_fractions(self) -> None:
        # In EME2000 and TAI nothing but polynomials stands between the file and what is written.
        start = Fraction(START["vanguard"] * DAY + utc_ahead(START["vanguard"]))
        draw = random.Random(17)
        for method, degree, within in (("LAGRANGE", 7, 1.0), ("HERMITE", 5, 0.001), ("LAGRANGE", 4, 0.00001)):
            with self.subTest(method, degree=degree):
                written = write_kvn("vanguard", "EME2000", "TAI", method, degree, even(start, Fraction(30), 12))
                prepared = self.prepared(written.text, within=within)
                bound = Fraction(COMMENT.search(prepared.text)["bound"])  # type: ignore[index]
                self.assertLessEqual(bound, Fraction(within))
                new, old = states_of(prepared.text), [numbers for _, numbers in states_of(written.text)]
                ticks, states = [micros(epoch) for epoch, _ in new], [numbers for _, numbers in new]
                for at in [draw.randrange(int(ticks[0]), int(ticks[-1])) for _ in range(200)]:
                    place = declared(list(written.times), old, method, degree, Fraction(at, 10**6) + utc_ahead(START["vanguard"]))
                    square = sum((a - b) ** 2 for a, b in zip(place, cubic_at(ticks, states, Fraction(at))))
                    self.assertLessEqual(square * 10**6, bound**2)

    def around_new_year_2009(self, step: str, before: int, count: int) -> list[Fraction]:
        """Times round the leap second at the end of 2008, 33 s before it and 34 s behind it."""
        leap = days_1970(2009, 1, 1) * DAY + 33
        return even(leap - Fraction(step) * before, Fraction(step), count)

    def test_a_leap_second_within_an_interval_parts_segments(self) -> None:
        for system in ("UTC", "TAI"):
            with self.subTest(system):
                prepared = self.follow("iss", "TEME", system, "LAGRANGE", 7, [time + 100 for time in self.around_new_year_2009("240", 4, 9)])
                self.assertEqual(prepared.rows[0].last % (DAY * 10**6), DAY * 10**6 - 1)
                self.assertEqual(prepared.rows[1].first % (DAY * 10**6), 0)
                self.assertIn("\n2008-12-31T23:59:59.999999 ", prepared.text)
                self.assertIn("\nSTART_TIME = 2009-01-01T00:00:00.000000\n", prepared.text)

    def test_cubics_in_utc_that_would_be_copied_are_parted_at_a_leap_second(self) -> None:
        prepared = self.follow("iss", "EME2000", "UTC", "HERMITE", 3, [time + 7 for time in self.around_new_year_2009("60", 5, 9)])
        self.assertEqual(len(prepared.rows), 2)

    def test_a_node_within_a_leap_second(self) -> None:
        written = write_kvn("iss", "EME2000", "TAI", "HERMITE", 3, [time + Fraction(1, 4) for time in self.around_new_year_2009("60", 5, 9)], None, 6)
        utc = {micros(epoch): epoch for epoch, _ in states_of(written.text)}
        text = written.text.replace("TIME_SYSTEM = TAI", "TIME_SYSTEM = UTC")
        for tai, epoch in utc.items():
            leap = (days_1970(2009, 1, 1) * DAY + 33) * 10**6
            seconds = Fraction(tai, 10**6) - (33 if tai < leap else 34)
            new = "2008-12-31T23:59:60.25" if leap <= tai < leap + 10**6 else f"{'2008-12-31' if tai < leap else '2009-01-01'}T" + clock(seconds % DAY)
            text = text.replace(epoch, new)
        self.assertIn("\n2008-12-31T23:59:60.25 ", text)
        prepared = self.prepared(text)
        self.compare("iss", "EME2000", "UTC", "HERMITE", 3, written, None, prepared)
        self.check_profile(prepared.text)
        self.assertEqual([row.bound < 30 for row in prepared.rows], [True, True])

    def test_nodes_between_microseconds(self) -> None:
        for system, frame, method, degree in (("GPS", "ICRF", "LAGRANGE", 7), ("UTC", "ITRF", "HERMITE", 7), ("TT", "EME2000", "HERMITE", 3)):
            with self.subTest(system):
                start = Fraction(START["iss"] * DAY + utc_ahead(START["iss"])) + Fraction(1234567, 10**10)
                self.follow("iss", frame, system, method, degree, even(start, Fraction("60.0000004321"), 40), digits=10)

    def test_kinks_of_low_degrees(self) -> None:
        start = Fraction(START["iss"] * DAY + utc_ahead(START["iss"]))
        for degree, frame in ((1, "EME2000"), (2, "TEME"), (3, "ITRF"), (1, "ITRF")):
            with self.subTest(frame, degree=degree):
                prepared = self.follow("iss", frame, "UTC", "LAGRANGE", degree, even(start, Fraction(60), 12))
                self.assertLess(len(states_of(prepared.text)), 12 * 40)

    def test_uneven_nodes_and_odd_and_even_degrees(self) -> None:
        draw = random.Random(5)
        start = Fraction(START["vanguard"] * DAY + utc_ahead(START["vanguard"]))
        times = [start]
        for _ in range(40):
            times.append(times[-1] + Fraction(draw.randrange(20 * 10**6, 300 * 10**6), 10**6))
        for method, degree in (("LAGRANGE", 5), ("LAGRANGE", 6), ("LAGRANGE", 10), ("HERMITE", 5), ("HERMITE", 9), ("HERMITE", 3), ("HERMITE", 15)):
            with self.subTest(method, degree=degree):
                self.follow("vanguard", "TOD06", "TT", method, degree, times, samples=25)

    def test_a_tenth_of_a_millimetre(self) -> None:
        start = Fraction(START["gps"] * DAY + utc_ahead(START["gps"]))
        for frame in ("EME2000", "GCRF", "MOD06", "ITRF"):
            with self.subTest(frame):
                self.follow("gps", frame, "GPS", "LAGRANGE", 9, even(start, Fraction(900), 24), within=1e-4)

    def test_a_bound_that_cannot_be_kept_is_refused(self) -> None:
        # 3e-14 radians at 400,000 km are 12 micrometres.
        rows = "".join(f"2025-01-01T0{i}:00:00 {400000 + i} {i} 0 0 0.001 0\n" for i in range(4))
        head = write_kvn("geo", "TEME", "UTC", "HERMITE", 3, even(Fraction(START["geo"] * DAY + 33), Fraction(3600), 3), None, 0).text.split("META_STOP\n")[0]
        head = re.sub(r"_TIME = .*T", "_TIME = 2025-01-01T", head)
        with self.assertRaises(Refused) as caught:
            self.prepared(head + "META_STOP\n" + rows, within=0.00001)
        self.assertIn("a larger --within may do", caught.exception.what)

    def test_nodes_that_are_too_close_for_their_degree_are_refused(self) -> None:
        rows = "".join(f"2025-01-01T00:00:00.{i:015d} {7000 + i % 2} {i} 0 0 7.5 0\n" for i in range(26)) + "2025-01-01T01:00:00 7000 0 0 0 7.5 0\n"
        written = write_kvn("geo", "EME2000", "UTC", "LAGRANGE", 25, even(Fraction(START["geo"] * DAY + 33), Fraction(3600), 1), None, 0)
        head = re.sub(r"_TIME = .*T", "_TIME = 2025-01-01T", written.text.split("META_STOP\n")[0])
        with self.assertRaises(Refused) as caught:
            self.prepared(head + "META_STOP\n" + rows)
        self.assertEqual(caught.exception.line, 14)

    def test_a_useable_span_within_intervals(self) -> None:
        start = Fraction(START["iss"] * DAY + utc_ahead(START["iss"]))
        lines = (f"USEABLE_START_TIME = {label('GPS', start + Fraction('250.5'), None)}",
                 f"USEABLE_STOP_TIME = {label('GPS', start + Fraction('3000.0000004'), None, 7)}")
        prepared = self.follow("iss", "TEME", "GPS", "LAGRANGE", 7, even(start, Fraction(240), 20), lines=lines)
        begin = (START["iss"] * DAY * 10**6) + 250_500_000
        self.assertEqual([(row.first, row.last) for row in prepared.rows], [(begin, begin - 250_500_000 + 3_000_000_000)])

    def test_coverage_of_the_earths_file(self) -> None:
        start = Fraction(START["iss"] * DAY + utc_ahead(START["iss"]))
        written = write_kvn("iss", "ITRF", "UTC", "LAGRANGE", 7, even(start, Fraction(240), 20), earth_of(START["iss"] - 2, 6))
        with self.assertRaises(Refused) as caught:
            self.prepared(written.text, earth_of(START["iss"] - 4, 5))
        self.assertIn("is not covered by finals", caught.exception.what)


def clock(seconds: Fraction) -> str:
    """A time of the day with six decimals."""
    whole, part = divmod(round(seconds * 10**6), 10**6)
    return f"{whole // 3600:02d}:{whole // 60 % 60:02d}:{whole % 60:02d}.{part:06d}"


if __name__ == "__main__":
    unittest.main()
