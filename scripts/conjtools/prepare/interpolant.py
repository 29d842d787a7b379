"""The declared interpolant of a segment: which nodes it goes through around an instant, and its polynomials.

Between node j and the next, an interpolant through m nodes goes through those from j - k on, where k is (m - 1) / 2 rounded down:
as many up to j as behind it, and one more up to j where m is odd. Near an end, where there are fewer, the first or the last m
are taken. The standard leaves this open. A polynomial is in Newton's form; of a Hermite interpolant each node stands twice.
"""
from __future__ import annotations

from dataclasses import dataclass

import numpy as np

from .balls import Ball, Floats, Wholes, apart, exactly, inverse, nearly, of_parts, product, stack
from .segments import Method, Segment, parts_of


@dataclass(frozen=True)
class Pieces:
    """The polynomials between nodes, of n neighbouring pairs of them. `start` is the time of the first of each pair in microseconds, whole numbers and
    fractions, and `place` its place in whole nm (n, 3). `nodes` are the times of the nodes since `start` (n, k) in units of `scale`
    microseconds, and `coefficients` (n, 3, k) the divided differences of the places in nm less `place`."""

    start: tuple[Wholes, Floats]
    place: Wholes
    nodes: Ball
    coefficients: Ball
    scale: float


def first_nodes(pairs: Wholes, nodes: int, count: int) -> Wholes:
    """The first node of the interpolant, for pairs by the number of their first node."""
    return np.clip(pairs - (nodes - 1) // 2, 0, count - nodes)


def pieces_of(segment: Segment, pairs: Wholes) -> Pieces:
    """The polynomials of some pairs of neighbouring nodes."""
    interpolation = segment.interpolation
    wholes, parts = parts_of(segment.own)
    hermite = interpolation.method is Method.HERMITE
    steps = np.arange(interpolation.nodes)
    numbers = first_nodes(pairs, interpolation.nodes, len(wholes))[:, None] + (np.repeat(steps, 2) if hermite else steps)[None, :]
    scale = float(2.0 ** np.ceil(np.log2(max(float(np.diff(wholes).max()), 1.0))))
    times = apart((wholes[numbers], parts[numbers]), (wholes[pairs][:, None], parts[pairs][:, None])) * exactly(1.0 / scale)
    at_rest = of_parts(segment.places[numbers] - segment.places[pairs][:, None, :], segment.place_parts[numbers])
    rates = of_parts(segment.rates[numbers], segment.rate_parts[numbers]) * nearly(scale / 1e6)
    column = swapped(at_rest)
    orders = [column]
    for order in range(1, numbers.shape[1]):
        column = next_differences(column, times, order, swapped(rates) if hermite and order == 1 else None)
        orders.append(column)
    left = pairs - numbers[:, 0]
    taken, least = paths(2 * left + 1 if hermite else left, numbers.shape[1])
    rows = np.arange(len(pairs))
    coefficients = stack([differences[rows, :, least[:, order]] for order, differences in enumerate(orders)])
    return Pieces((wholes[pairs], parts[pairs]), segment.places[pairs], times[rows[:, None], taken], coefficients, scale)


def paths(starts: Wholes, count: int) -> tuple[Wholes, Wholes]:
    """In which order Newton's form takes the nodes of each piece, by their numbers among `count`: from the start on the next one to the right and to the
    left in turn, as long as there are. So each divided difference is one of neighbours, and small. Also the least number of those that are taken."""
    found: dict[int, tuple[list[int], list[int]]] = {}
    for start in np.unique(starts).tolist():
        taken, low, high = [start], start, start
        least = [start]
        while len(taken) < count:
            rightwards = high + 1 < count and (low == 0 or high - start <= start - low)
            low, high = (low, high + 1) if rightwards else (low - 1, high)
            taken.append(high if rightwards else low)
            least.append(low)
        found[start] = taken, least
    return (np.array([found[start][0] for start in starts.tolist()]), np.array([found[start][1] for start in starts.tolist()]))


def swapped(ball: Ball) -> Ball:
    """(n, k, 3) as (n, 3, k)."""
    return Ball(np.swapaxes(ball.mid, 1, 2), np.swapaxes(ball.rad, 1, 2))


def next_differences(column: Ball, times: Ball, order: int, rates: Ball | None) -> Ball:
    """The divided differences of the next order; of two times that are one node, its rate."""
    steps = times[:, order:] - times[:, :-order]
    if rates is None:
        return (column[..., 1:] - column[..., :-1]) * inverse(steps)[:, None, :]
    same = np.arange(steps.width) % 2 == 0
    safe = Ball(np.where(same, 1.0, steps.mid), np.where(same, 0.0, steps.rad))
    quotient = (column[..., 1:] - column[..., :-1]) * inverse(safe)[:, None, :]
    return Ball(np.where(same, rates.mid[..., :-1], quotient.mid), np.where(same, rates.rad[..., :-1], quotient.rad))


def restricted(pieces: Pieces, which: Wholes, first: Ball, length: Ball) -> Ball:
    """Polynomials in powers of u on [0, 1] (m, 3, k): of the pieces `which`, from `first` microseconds behind their start on, over `length`."""
    begin = (first * exactly(1.0 / pieces.scale))[:, None]
    stretch = (length * exactly(1.0 / pieces.scale))[:, None, None]
    coefficients = pieces.coefficients[which]
    shifts = begin - pieces.nodes[which]
    polynomial = coefficients[..., -1:]
    for number in range(coefficients.width - 2, -1, -1):
        shift = shifts[:, None, number:number + 1]
        linear = Ball(np.concatenate([shift.mid, stretch.mid], -1), np.concatenate([shift.rad, stretch.rad], -1))
        polynomial = product(polynomial, linear)
        constant = polynomial[..., :1] + coefficients[..., number:number + 1]
        polynomial.mid[..., :1], polynomial.rad[..., :1] = constant.mid, constant.rad
    return polynomial
