"""Ball arithmetic: arrays of numbers, each known to lie within a radius of a middle.

Each operation rounds to nearest (IEEE 754, 53 bits). The radius of a result is the radius that exact arithmetic would give
and the rounding of the middle, at most UNIT times its size; the few roundings of the radius itself are covered by GROW, and
an underflow by LEAST. So what holds of all numbers in the operands' balls holds of the result's (van der Hoeven, Ball
arithmetic, 2009).
"""
from __future__ import annotations

from dataclasses import dataclass
from math import comb
from typing import Any, Union

import numpy as np
from numpy.typing import NDArray

Floats = NDArray[np.float64]
Wholes = NDArray[np.int64]

UNIT = 2.0**-53
GROW = 1.0 + 2.0**-48
LEAST = 1e-300


@dataclass(frozen=True)
class Ball:
    """Middles and radii, two arrays of one shape."""

    mid: Floats
    rad: Floats

    def __getitem__(self, index: Any) -> Ball:
        return Ball(self.mid[index], self.rad[index])

    def __neg__(self) -> Ball:
        return Ball(-self.mid, self.rad)

    def __add__(self, other: Ball) -> Ball:
        mid = self.mid + other.mid
        return Ball(mid, (self.rad + other.rad + UNIT * np.abs(mid)) * GROW)

    def __sub__(self, other: Ball) -> Ball:
        mid = self.mid - other.mid
        return Ball(mid, (self.rad + other.rad + UNIT * np.abs(mid)) * GROW)

    def __mul__(self, other: Ball) -> Ball:
        mid = self.mid * other.mid
        size = np.abs(other.mid)
        return Ball(mid, (np.abs(self.mid) * other.rad + self.rad * (size + other.rad) + UNIT * np.abs(mid)) * GROW + LEAST)

    @property
    def width(self) -> int:
        """The length of the last axis."""
        return int(self.mid.shape[-1])

    def most(self) -> Floats:
        """The greatest size of the numbers in each ball, rounded up."""
        return np.asarray((np.abs(self.mid) + self.rad) * GROW, np.float64)


Number = Union[float, Floats]


def exactly(numbers: Number) -> Ball:
    """Numbers that doubles hold exactly."""
    mid = np.asarray(numbers, np.float64)
    return Ball(mid, np.zeros_like(mid))


def nearly(numbers: Number) -> Ball:
    """Numbers of which doubles are the nearest, or miss it by one place at most."""
    mid = np.asarray(numbers, np.float64)
    return Ball(mid, np.abs(mid) * (2 * UNIT) * GROW + LEAST)


def of_parts(whole: Wholes, part: Floats, slack: float = 0.0) -> Ball:
    """Whole numbers and fractions of one. Each fraction is the nearest double of what is meant, or misses it by the slack."""
    first = whole.astype(np.float64)
    rest = (whole - first.astype(np.int64)).astype(np.float64)
    return exactly(first) + Ball(rest + part, (UNIT * (np.abs(rest + part) + np.abs(part)) + slack) * GROW + LEAST)


def apart(later: tuple[Wholes, Floats], earlier: tuple[Wholes, Floats]) -> Ball:
    """Differences of numbers that are whole numbers and the nearest doubles of fractions below one."""
    slack = 4 * UNIT if bool(later[1].any()) or bool(earlier[1].any()) else 0.0
    return of_parts(later[0] - earlier[0], later[1] - earlier[1], slack)


def inverse(ball: Ball) -> Ball:
    """One over numbers whose balls do not hold 0."""
    least = np.abs(ball.mid) - ball.rad
    if not bool(np.all(least > 0.0)):
        raise ZeroDivisionError("a ball holds 0")
    mid = 1.0 / ball.mid
    return Ball(mid, (ball.rad / (np.abs(ball.mid) * least * (1.0 - 8 * UNIT)) + UNIT * np.abs(mid)) * GROW + LEAST)


def stack(balls: list[Ball]) -> Ball:
    """Balls side by side along a new last axis."""
    return Ball(np.stack([ball.mid for ball in balls], axis=-1), np.stack([ball.rad for ball in balls], axis=-1))


def pad(ball: Ball, before: int, behind: int) -> Ball:
    """Zeros before and behind the last axis."""
    wide = [(0, 0)] * (ball.mid.ndim - 1) + [(before, behind)]
    return Ball(np.pad(ball.mid, wide), np.pad(ball.rad, wide))


def convolved(first: Floats, second: Floats) -> Floats:
    """The product of two polynomials in floating point, of which the first has fewer coefficients."""
    width, length = first.shape[-1], second.shape[-1]
    result = np.zeros((*np.broadcast_shapes(first.shape[:-1], second.shape[:-1]), width + length - 1))
    for power in range(width):
        result[..., power:power + length] += first[..., power:power + 1] * second
    return result


def product(first: Ball, second: Ball) -> Ball:
    """The product of two polynomials, coefficients along the last axis from the constant on.

    A sum of k products has an error of at most about k UNIT times the sum of their sizes (Higham, Accuracy and Stability, 3.1)."""
    if first.width > second.width:
        return product(second, first)
    slack = (first.width + 4) * UNIT
    size, reached = np.abs(first.mid), np.abs(second.mid)
    rad = convolved(size, second.rad + slack * reached) + convolved(first.rad, reached + second.rad)
    return Ball(convolved(first.mid, second.mid), rad * (1.0 + 64 * UNIT) + LEAST)


def total(first: Ball, second: Ball) -> Ball:
    """The sum of two polynomials of any degrees."""
    width = max(first.width, second.width)
    return pad(first, 0, width - first.width) + pad(second, 0, width - second.width)


def applied(matrix: Floats, vector: Floats) -> Floats:
    """Matrices of polynomials (n, 3, 3, k) on vectors of polynomials (n, 3, m), in floating point."""
    width, length = matrix.shape[-1], vector.shape[-1]
    result = np.zeros((len(vector), 3, width + length - 1))
    for power in range(width):
        result[..., power:power + length] += matrix[..., power] @ vector
    return result


def turned(matrix: Ball, vector: Ball) -> Ball:
    """Matrices of polynomials (n, 3, 3, k) on vectors of polynomials (n, 3, m): (n, 3, k + m - 1)."""
    slack = (3 * matrix.width + 4) * UNIT
    size, reached = np.abs(matrix.mid), np.abs(vector.mid)
    rad = applied(size, vector.rad + slack * reached) + applied(matrix.rad, reached + vector.rad)
    return Ball(applied(matrix.mid, vector.mid), rad * (1.0 + 64 * UNIT) + LEAST)


def bernstein(polynomial: Ball) -> Ball:
    """The Bernstein coefficients on [0, 1] of polynomials in powers: the i-th is the sum over k of C(i,k)/C(n,k) a_k (Farouki 2012)."""
    degree = polynomial.width - 1
    matrix = np.array([[comb(i, k) / comb(degree, k) for i in range(degree + 1)] for k in range(degree + 1)], np.float64)
    mid = polynomial.mid @ matrix
    slack = np.abs(polynomial.mid) @ matrix
    return Ball(mid, (polynomial.rad @ matrix * (1.0 + 64 * UNIT) + slack * ((2 * degree + 8) * UNIT)) * (1.0 + 64 * UNIT) + LEAST)


def reach(vector: Ball) -> Floats:
    """The greatest length on [0, 1] of vectors of polynomials (n, 3, k), rounded up: no Bernstein point is further away, and their hull holds the curve."""
    size = bernstein(vector).most()
    return np.asarray(np.sqrt(np.sum(size * size, axis=1)).max(axis=-1) * (1.0 + 64 * UNIT), np.float64)
