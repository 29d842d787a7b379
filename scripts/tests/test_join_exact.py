"""The exact bound on a squared distance: by hand, and against exact fractions."""

from __future__ import annotations

import random
import unittest
from fractions import Fraction

from tests.parts import at, write_drifting
from tests.support import SAMPLES, FolderCase, need_numpy, oem, segment

need_numpy()

import numpy as np  # noqa: E402

from conjtools.join.exact import ceil_root, ends_at, square_bound  # noqa: E402
from conjtools.oem import Ephemeris, Segment, read_oem  # noqa: E402


def short(start: tuple[int, int], end: tuple[int, int], ticks: int) -> Ephemeris:
    """An object between two states of x, each a place and a rate, so many ticks apart from tick 0 on; y and z are 0."""
    states = np.array([[start[0], 0, 0, start[1], 0, 0], [end[0], 0, 0, end[1], 0, 0]], dtype=np.int64)
    return Ephemeris("a.oem", "SAT A", "2025-001A", "EME2000", (Segment(0, ticks, np.array([0, ticks], dtype=np.int64), states, ()),))


class Enclosures(unittest.TestCase):
    def test_a_step_of_one_nanometre(self) -> None:
        # From 0 to 1 nm without rates in three ticks: the controls are 0, 0, 1, 1. At tick 1 the first level is 0, 1/3, 1, which is 0, 0, 1
        # rounded down and 0, 1, 1 rounded up. Down, the second level is 0, 1/3, so 0, 0, and the third 0. Up, it is 1/3, 1, so 1, 1, and
        # then 1. At tick 2 they are 0, 2/3, 1, then 0, 0 and 0 down, and 1, 1 and 1 up.
        step = short((0, 0), (1, 0), 3)
        self.assertEqual([ends_at(step, tick) for tick in range(4)], [((low, high), (0, 0), (0, 0)) for low, high in ((0, 0), (0, 1), (0, 1), (1, 1))])

    def test_negative_places_are_rounded_outward_too(self) -> None:
        step = short((0, 0), (-1, 0), 3)
        self.assertEqual(ends_at(step, 1), ((-1, 0), (0, 0), (0, 0)))

    def test_uniform_motion_in_whole_nanometres(self) -> None:
        # 3 nm a tick: each level moves by whole nm.
        moving = short((10, 3_000_000), (40, 3_000_000), 10)
        self.assertEqual([ends_at(moving, tick) for tick in (0, 4, 10)], [((x, x), (0, 0), (0, 0)) for x in (10, 22, 40)])

    def test_the_exact_place_is_enclosed(self) -> None:
        draw = random.Random(1)
        for _ in range(200):
            ticks = draw.randint(1, 3_600_000_000)
            places = [draw.randint(-5 * 10**17, 5 * 10**17) for _ in range(2)]
            rates = [draw.randint(-2 * 10**13, 2 * 10**13) for _ in range(2)]
            tick = draw.randint(0, ticks)
            found = ends_at(short((places[0], rates[0]), (places[1], rates[1]), ticks), tick)
            assert found is not None
            s = Fraction(tick, ticks)
            step = Fraction(ticks, 10**6)
            # The cubic Hermite form, by its four basis polynomials.
            exact = (
                (1 + 2 * s) * (1 - s) ** 2 * places[0] + s * (1 - s) ** 2 * rates[0] * step
                + s * s * (3 - 2 * s) * places[1] + s * s * (s - 1) * rates[1] * step
            )  # fmt: skip
            low, high = found[0]
            self.assertLessEqual(low, exact)
            self.assertLessEqual(exact, high)
            self.assertLessEqual(high - low, 6)

    def test_bound_takes_the_greatest_square(self) -> None:
        # At tick 1 one is from 0 to 1 and the other from -1 to 0: at most 2 apart, so 4. Against one that rests at 5 it is 5 - 0.
        one, other, resting = short((0, 0), (1, 0), 3), short((0, 0), (-1, 0), 3), short((5, 0), (5, 0), 3)
        self.assertEqual([square_bound(one, other, 1), square_bound(other, one, 1)], [4, 4])
        self.assertEqual([square_bound(one, resting, 1), square_bound(resting, one, 1)], [25, 25])

    def test_ceil_root(self) -> None:
        self.assertEqual([ceil_root(n) for n in (0, 1, 2, 4, 5, 10**24, 10**24 + 1)], [0, 1, 2, 2, 3, 10**12, 10**12 + 1])


class Ephemerides(FolderCase):
    def test_reports_of_the_samples(self) -> None:
        # The miss distances that the proved program gave; docs/GUIDE.md has those of crossing and catalogue.
        for folder, first, second, seconds, miss in (
            ("crossing", "a", "b", "30", 10**12), ("resting", "a", "b", "0", 5 * 10**12),
            ("catalogue", "demo-01", "demo-07", "860.400009", 1_200_000_242_980), ("catalogue", "demo-03", "demo-08", "527.249910", 4_300_000_380_337),
            ("catalogue", "demo-10", "demo-11", "780", 2_999_999_007_728), ("catalogue", "demo-22", "demo-26", "0", 4_661_569_771_985),
        ):  # fmt: skip
            with self.subTest(f"{folder} {first}"):
                a, b = (read_oem(name, (SAMPLES / folder / name).read_bytes()) for name in (f"{first}.oem", f"{second}.oem"))
                bound = square_bound(a, b, at(seconds))
                assert bound is not None
                self.assertEqual(ceil_root(bound), miss)

    def test_drifting(self) -> None:
        # At 60 s the state itself is used: 500 nm along y and 10^12 nm along x. Just before, 501 nm are enclosed by the piece that ends there.
        files = write_drifting(self.folder / "files")
        a, b = (read_oem(name, (files / name).read_bytes()) for name in ("a.oem", "b.oem"))
        self.assertEqual(square_bound(a, b, at(60)), 10**24 + 500**2)
        before = square_bound(a, b, at("59.999999"))
        assert before is not None
        self.assertGreaterEqual(before, 10**24 + 501**2)
        self.assertEqual([ceil_root(before), ceil_root(10**24 + 500**2)], [10**12 + 1] * 2)

    def test_the_later_of_two_segments_at_a_shared_tick(self) -> None:
        start, middle, end = (f"2025-01-01T00:0{minute}:00" for minute in range(3))
        rows = [f"{start} 7000 0 0 0 0 0", f"{middle} 7000 0 0 0 0 0"]
        further = segment([f"{middle} 7001 0 0 0 0 0", f"{end} 7001 0 0 0 0 0"], middle, end)
        ephemeris = read_oem("a.oem", (oem(rows, start, middle) + further).encode())
        found = [ends_at(ephemeris, at(seconds)) for seconds in ("59.999999", "60", "120", "120.000001", "-1")]
        self.assertEqual(found, [
            ((7000 * 10**12,) * 2, (0, 0), (0, 0)), ((7001 * 10**12,) * 2, (0, 0), (0, 0)), ((7001 * 10**12,) * 2, (0, 0), (0, 0)), None, None,
        ])  # fmt: skip
        self.assertIsNone(square_bound(ephemeris, ephemeris, at(121)))


if __name__ == "__main__":
    unittest.main()
