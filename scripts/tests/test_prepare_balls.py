"""Ball arithmetic against exact fractions."""
from __future__ import annotations

import random
import unittest
from fractions import Fraction

try:
    import numpy as np
except ModuleNotFoundError:
    raise unittest.SkipTest("numpy is missing: apt-get install python3-numpy") from None

from conjtools.prepare.balls import Ball, apart, bernstein, exactly, inverse, nearly, of_parts, product, reach, stack, turned


def holds(ball: Ball, exact: list[Fraction]) -> bool:
    """Whether each number lies in its ball, and the ball is narrow."""
    return all(abs(Fraction(float(mid)) - number) <= Fraction(float(rad)) for mid, rad, number in zip(ball.mid.ravel(), ball.rad.ravel(), exact))


class Balls(unittest.TestCase):
    """Each operation holds what exact arithmetic gives."""

    def setUp(self) -> None:
        self.draw = random.Random(11)

    def numbers(self, count: int) -> list[Fraction]:
        """Fractions of many sizes that doubles do not hold."""
        return [Fraction(self.draw.randrange(-10**20, 10**20), 3 * 10**self.draw.randrange(0, 25)) for _ in range(count)]

    @staticmethod
    def ball(numbers: list[Fraction]) -> Ball:
        return nearly(np.array([float(number) for number in numbers]))

    def test_sums_products_and_inverses_hold_the_exact_ones(self) -> None:
        first, second = self.numbers(500), self.numbers(500)
        a, b = self.ball(first), self.ball(second)
        self.assertTrue(holds(a + b, [x + y for x, y in zip(first, second)]))
        self.assertTrue(holds(a - b, [x - y for x, y in zip(first, second)]))
        self.assertTrue(holds(a * b, [x * y for x, y in zip(first, second)]))
        self.assertTrue(holds(inverse(a), [1 / x for x in first]))
        self.assertTrue(holds((a - b) * (a + b) + a * b, [x * x - y * y + x * y for x, y in zip(first, second)]))

    def test_a_ball_that_holds_zero_has_no_inverse(self) -> None:
        with self.assertRaises(ZeroDivisionError):
            inverse(Ball(np.array([1e-17]), np.array([1e-16])))

    def test_whole_numbers_beyond_53_bits_and_fractions(self) -> None:
        whole = [self.draw.randrange(-5 * 10**17, 5 * 10**17) for _ in range(300)]
        part = [Fraction(self.draw.randrange(-10**9, 10**9), 2 * 10**9) for _ in range(300)]
        ball = of_parts(np.array(whole, np.int64), np.array([float(number) for number in part]))
        self.assertTrue(holds(ball, [x + y for x, y in zip(whole, part)]))
        self.assertLessEqual(float(ball.rad.max()), 64.0)
        small = of_parts(np.array([10**15], np.int64), np.array([0.0]))
        self.assertEqual((float(small.mid[0]), float(small.rad[0]) < 0.2), (1e15, True))

    def test_differences_of_times_with_fractions(self) -> None:
        later = [(self.draw.randrange(10**15, 2 * 10**15), Fraction(self.draw.randrange(10**9), 10**9)) for _ in range(300)]
        earlier = [(whole - self.draw.randrange(3), Fraction(self.draw.randrange(10**9), 10**9)) for whole, _ in later]
        parts = [(np.array([whole for whole, _ in times], np.int64), np.array([float(part) for _, part in times])) for times in (later, earlier)]
        self.assertTrue(holds(apart(parts[0], parts[1]), [a + x - b - y for (a, x), (b, y) in zip(later, earlier)]))

    def test_products_of_polynomials(self) -> None:
        first, second = self.numbers(4), self.numbers(7)
        exact = [sum((first[i] * second[k - i] for i in range(4) if 0 <= k - i < 7), Fraction(0)) for k in range(10)]
        self.assertTrue(holds(product(self.ball(first)[None, :], self.ball(second)[None, :])[0], exact))

    def test_turning_by_matrices_of_polynomials(self) -> None:
        matrix = [[self.numbers(2) for _ in range(3)] for _ in range(3)]
        vector = [self.numbers(3) for _ in range(3)]
        exact = [sum((matrix[i][j][a] * vector[j][k - a] for j in range(3) for a in range(2) if 0 <= k - a < 3), Fraction(0))
                 for i in range(3) for k in range(4)]
        found = turned(Ball(*(np.array([[[getattr(self.ball(entry), side) for entry in row] for row in matrix]]) for side in ("mid", "rad"))),
                       Ball(*(np.array([[getattr(self.ball(row), side) for row in vector]]) for side in ("mid", "rad"))))
        self.assertTrue(holds(found[0], exact))

    def test_bernstein_points_of_degree_three(self) -> None:
        # Of 1 + 2u + 3u^2 + 4u^3 on [0, 1]: 1, 1 + 2/3, 1 + 4/3 + 1, 10.
        self.assertTrue(holds(bernstein(exactly(np.array([1.0, 2.0, 3.0, 4.0]))), [Fraction(1), Fraction(5, 3), Fraction(10, 3), Fraction(10)]))

    def test_no_point_of_a_curve_is_beyond_its_reach(self) -> None:
        for _ in range(50):
            curve = [self.numbers(6) for _ in range(3)]
            limit = float(reach(stack([self.ball([row[k] for row in curve]) for k in range(6)])[None, ...])[0])
            for step in range(11):
                u = Fraction(step, 10)
                square = sum(sum(row[k] * u**k for k in range(6)) ** 2 for row in curve)
                self.assertLessEqual(square, Fraction(limit) ** 2)

    def test_the_reach_of_a_straight_line_is_that_of_its_further_end(self) -> None:
        line = Ball(np.array([[[0.0, 3.0], [0.0, 4.0], [0.0, 12.0]]]), np.zeros((1, 3, 2)))
        self.assertAlmostEqual(float(reach(line)[0]), 13.0, places=12)


if __name__ == "__main__":
    unittest.main()
