"""The two files of `samples/provider`, whose orbits are known in closed form."""
from __future__ import annotations

import math
import unittest
from fractions import Fraction
from pathlib import Path

try:
    import erfa  # type: ignore[import]  # noqa: F401
    import numpy as np
    import sgp4  # type: ignore[import]  # noqa: F401
except ModuleNotFoundError as missing:
    raise unittest.SkipTest(f"{missing.name} is missing: apt-get install python3-numpy python3-erfa python3-sgp4") from None

from conjtools.prepare.earth_orientation import read_earth_orientation
from conjtools.prepare.objects import Settings, prepare_file
from conjtools.prepare.segments import Wanted
from tests.prepare_truth import Floats, cubic_at, micros, states_of

SAMPLE = Path(__file__).resolve().parents[2] / "samples" / "provider"
GRAVITY = 398600.4418
MEETING = micros("2025-02-14T12:20:00")


def circular(radius: float, tilt: float, at: Fraction) -> Floats:
    """A place in km in EME2000 on a circular orbit that is at its node, 40 degrees from the equinox, when the two meet."""
    angle = math.sqrt(GRAVITY / radius**3) * float(at - MEETING) / 1e6
    node, along = math.radians(40), math.radians(tilt)
    first = np.array([math.cos(node), math.sin(node), 0.0])
    second = np.array([-math.sin(node) * math.cos(along), math.cos(node) * math.cos(along), math.sin(along)])
    return np.asarray(radius * (math.cos(angle) * first + math.sin(angle) * second))


class Sample(unittest.TestCase):
    """Lagrange in ITRF and GPS, and Hermite in TEME and TT, of a place of 6 decimals."""

    def setUp(self) -> None:
        wanted = Wanted(None, None, False, read_earth_orientation(SAMPLE / "finals2000A"))
        self.found = [prepare_file(SAMPLE / name, Settings(1e9, None, wanted))[0] for name in ("polar.oem", "carrier.xml")]

    def curve(self, number: int, at: Fraction) -> Floats:
        states = states_of(self.found[number].text)
        return np.array([float(x) for x in cubic_at([micros(epoch) for epoch, _ in states], [numbers for _, numbers in states], at)])

    def test_they_meet_at_800_metres(self) -> None:
        self.assertAlmostEqual(float(np.linalg.norm(self.curve(0, MEETING) - self.curve(1, MEETING))), 0.8, delta=1e-6)

    def test_both_follow_their_orbits(self) -> None:
        # In the middle of the files the declared interpolants themselves err by less than two metres.
        for number, radius, tilt in ((0, 6900.0, 97.6), (1, 6900.8, 51.6)):
            for seconds in range(-200, 200, 7):
                at = MEETING + seconds * 10**6
                self.assertLess(float(np.linalg.norm(self.curve(number, at) - circular(radius, tilt, at))) * 1000, self.found[number].rows[0].bound / 1e9 + 2.0)
            self.assertLess(float(np.linalg.norm(self.curve(number, MEETING) - circular(radius, tilt, MEETING))) * 1000, 0.001)


if __name__ == "__main__":
    unittest.main()
