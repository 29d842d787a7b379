"""Covariances that are turned into RTN."""
from __future__ import annotations

import tempfile
import unittest
from fractions import Fraction
from pathlib import Path

try:
    import erfa  # type: ignore[import]  # noqa: F401
    import numpy as np
    import sgp4  # type: ignore[import]  # noqa: F401
except ModuleNotFoundError as missing:
    raise unittest.SkipTest(f"{missing.name} is missing: apt-get install python3-numpy python3-erfa python3-sgp4") from None

from conjtools.prepare.earth_orientation import read_earth_orientation
from conjtools.prepare.faults import Refused
from conjtools.prepare.objects import Settings, prepare_file
from conjtools.prepare.segments import Wanted
from tests.prepare_truth import DAY, START, Floats, earth_of, even, label, matrix, matrix_rate, truth, utc_ahead, write, write_kvn

BEGIN = Fraction(START["iss"] * DAY + utc_ahead(START["iss"]))
EARTH = earth_of(START["iss"] - 2, 6)


def block(epoch: str, frame: str, full: Floats) -> str:
    """A covariance block of a full matrix (6, 6)."""
    rows = "".join(" ".join(f"{full[row, column]:.16E}" for column in range(row + 1)) + "\n" for row in range(6))
    return f"COVARIANCE_START\nEPOCH = {epoch}\n" + (f"COV_REF_FRAME = {frame}\n" if frame else "") + rows + "COVARIANCE_STOP\n"


def matrices_of(text: str) -> list[Floats]:
    """The full matrices of an ephemeris."""
    found = []
    for part in text.split("COV_REF_FRAME = RTN\n")[1:]:
        full = np.zeros((6, 6))
        for row, line in enumerate(part.splitlines()[:6]):
            full[row, :row + 1] = [float(number) for number in line.split()]
        found.append(np.asarray(full + full.T - np.diag(np.diag(full))))
    return found


class Covariances(unittest.TestCase):
    """Matrices of 100 m by 300 m by 20 m, and of rates, given in RTN and written in other frames."""

    def setUp(self) -> None:
        held = tempfile.TemporaryDirectory()
        self.addCleanup(held.cleanup)
        self.folder = Path(held.name)
        draw = np.random.default_rng(3)
        shape = draw.normal(size=(6, 6)) * np.array([0.1, 0.3, 0.02, 1e-5, 3e-5, 2e-6])[:, None]
        self.rtn = shape @ shape.T

    def turned_back(self, frame: str, tai: Fraction) -> Floats:
        """The matrix in a frame, by the truth's state and erfa at its instant."""
        place, rate = (np.array(values) for values in truth("iss", tai))
        radial = place / np.linalg.norm(place)
        normal = np.cross(place, rate) / np.linalg.norm(np.cross(place, rate))
        axes = np.stack([radial, np.cross(normal, radial), normal])
        to_rtn = np.kron(np.eye(2), axes)
        full = np.kron(np.eye(2), matrix(frame, tai, EARTH))
        full[3:, :3] = matrix_rate(frame, tai, EARTH)
        back = np.linalg.inv(to_rtn @ full)
        return np.asarray(back @ self.rtn @ back.T)

    def prepared(self, text: str, keep: bool = True) -> list[Floats]:
        orientation = read_earth_orientation(write(self.folder, "finals", EARTH.finals()))
        found, = prepare_file(write(self.folder, "a.oem", text), Settings(1e9, None, Wanted(None, None, False, orientation, keep)))
        return matrices_of(found.text)

    def ephemeris(self, frame: str, covariance: str) -> str:
        return write_kvn("iss", frame, "UTC", "LAGRANGE", 7, even(BEGIN, Fraction(120), 20), EARTH).text + covariance

    def test_a_covariance_in_the_frame_of_the_ephemeris_between_its_nodes(self) -> None:
        at = BEGIN + 500
        for frame in ("EME2000", "TEME", "ITRF"):
            for name in ("", frame):
                with self.subTest(frame, named=name):
                    found, = self.prepared(self.ephemeris(frame, block(label("UTC", at, None), name, self.turned_back(frame, at))))
                    scale = np.sqrt(np.outer(np.diag(self.rtn), np.diag(self.rtn)))
                    self.assertLess(float(np.abs((found - self.rtn) / scale).max()), 1e-6)

    def test_a_covariance_in_another_frame_that_is_read(self) -> None:
        at = BEGIN + 240
        found, = self.prepared(self.ephemeris("ITRF", block(label("UTC", at, None), "GCRF", self.turned_back("GCRF", at))))
        self.assertLess(float(np.abs(found - self.rtn).max() / np.abs(self.rtn).max()), 1e-6)

    def test_a_covariance_outside_the_states_has_no_axes(self) -> None:
        text = self.ephemeris("TEME", block(label("UTC", BEGIN - 1, None), "", self.rtn))
        with self.assertRaises(Refused) as caught:
            self.prepared(text)
        self.assertIn("--without-covariances", caught.exception.what)
        self.assertEqual(self.prepared(text, keep=False), [])

    def test_a_covariance_in_rtn_may_be_outside_the_states(self) -> None:
        found, = self.prepared(self.ephemeris("TEME", block(label("UTC", BEGIN - 1, None), "rtn", self.rtn)))
        np.testing.assert_allclose(found, self.rtn, rtol=1e-15)


if __name__ == "__main__":
    unittest.main()
