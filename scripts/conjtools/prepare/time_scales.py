"""The time systems that are read, and how each runs against TAI.

Interpolation is done in the file's own scale. UTC is counted by elapsed seconds, which is TAI; TAI, TT and GPS run as TAI does
(TT = TAI + 32.184 s, GPS = TAI - 19 s; CCSDS 502.0-B-2, annex A). UT1 runs by itself, straight between the days of its file.
"""
from __future__ import annotations

from enum import Enum
from fractions import Fraction

import numpy as np

from .balls import Floats, Wholes
from .earth_orientation import EarthOrientation
from .epochs import MICRO, SECOND, BadEpoch, count_of, read_label, tai_of_utc


class TimeSystem(Enum):
    """The time systems."""

    UTC = "UTC"
    TAI = "TAI"
    TT = "TT"
    GPS = "GPS"
    UT1 = "UT1"


AHEAD = {TimeSystem.TAI: 0, TimeSystem.TT: 32_184 * SECOND // 1000, TimeSystem.GPS: -19 * SECOND}
"""Femtoseconds that a scale is ahead of TAI."""


def own_time(system: TimeSystem, text: str) -> int:
    """Femtoseconds of the scale in which is interpolated, at an epoch: UT1 of one in UT1, else TAI."""
    label = read_label(text)
    if system is TimeSystem.UTC:
        return tai_of_utc(label)
    return count_of(label) - AHEAD.get(system, 0)


def tai_time(system: TimeSystem, orientation: EarthOrientation | None, own: int) -> Fraction:
    """Microseconds of TAI at a time of the own scale."""
    if system is not TimeSystem.UT1:
        return Fraction(own, MICRO)
    assert orientation is not None
    found = orientation.tai_of_ut1(Fraction(own, MICRO))
    if not orientation.covers(int(found), -(-found.numerator // found.denominator)):
        raise BadEpoch(f"UT1 is not told by {orientation.file} on this day")
    return found


def own_time_of_ticks(system: TimeSystem, orientation: EarthOrientation | None, ticks: Wholes) -> tuple[Wholes, Floats]:
    """Microseconds of the own scale at ticks, as whole numbers and fractions of one."""
    if system is not TimeSystem.UT1:
        return ticks, np.zeros(len(ticks))
    assert orientation is not None
    exact = orientation.ut1_of_ticks(ticks)
    return np.array([top // below for top, below in exact], np.int64), np.array([top % below / below for top, below in exact])
