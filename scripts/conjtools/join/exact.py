"""The bound on the squared distance at a tick by which the closest approach is decided (docs/MODEL.md), in whole numbers.

Each coordinate of each object is enclosed by de Casteljau's algorithm at the tick, every quotient rounded down for the lower end and up
for the upper end. The bound is the greatest square that the difference of the two enclosures takes on each axis, summed over the axes.
"""

from __future__ import annotations

import math
from collections.abc import Callable

import numpy as np

from conjtools.oem import Ephemeris

CONTROL_UNITS = 3_000_000  # in a nanometre

Ends = tuple[int, int]
Controls = tuple[int, int, int, int]
Divide = Callable[[int, int], int]


def down(number: int, divisor: int) -> int:
    """The greatest whole number that is at most the quotient."""
    return number // divisor


def up(number: int, divisor: int) -> int:
    """The least whole number that is at least the quotient."""
    return -(-number // divisor)


def controls_of(start: int, start_rate: int, end: int, end_rate: int, ticks: int) -> Controls:
    """The Bezier control values, in 1/3000000 nm, of the cubic between two places (nm) with rates (nm/s) that are so many ticks apart."""
    first, last = CONTROL_UNITS * start, CONTROL_UNITS * end
    return first, first + start_rate * ticks, last - end_rate * ticks, last


def casteljau(divide: Divide, controls: Controls, ticks: int, at: int) -> int:
    """The place in nm, `at` of `ticks` ticks on the way; each level divides by the ticks, the first also by the unit of the controls."""
    values = list(controls)
    divisor = ticks * CONTROL_UNITS
    while len(values) > 1:
        values = [divide(before * (ticks - at) + behind * at, divisor) for before, behind in zip(values, values[1:])]
        divisor = ticks
    return values[0]


def ends_at(ephemeris: Ephemeris, tick: int) -> tuple[Ends, Ends, Ends] | None:
    """The enclosure of each coordinate at a tick in nm, or nothing where there is no state."""
    for segment in reversed(ephemeris.segments):
        if segment.first <= tick <= segment.last:
            place = min(int(np.searchsorted(segment.times, tick, side="right")), len(segment.times) - 1) - 1
            start, ticks = int(segment.times[place]), int(segment.times[place + 1] - segment.times[place])
            before, behind = segment.states[place].tolist(), segment.states[place + 1].tolist()
            x, y, z = (
                (casteljau(down, controls, ticks, tick - start), casteljau(up, controls, ticks, tick - start))
                for controls in (controls_of(before[axis], before[axis + 3], behind[axis], behind[axis + 3], ticks) for axis in range(3))
            )
            return x, y, z
    return None


def square_bound(a: Ephemeris, b: Ephemeris, tick: int) -> int | None:
    """The bound on the squared distance of two objects at a tick in nm², or nothing where not both have a state."""
    first, second = ends_at(a, tick), ends_at(b, tick)
    if first is None or second is None:
        return None
    bound = 0
    for (low, high), (other_low, other_high) in zip(first, second):
        bound += max(low - other_high, high - other_low, other_high - low, other_low - high) ** 2
    return bound


def ceil_root(number: int) -> int:
    """The least whole number whose square is at least this one."""
    return math.isqrt(number - 1) + 1 if number > 0 else 0
