"""Rotations from the frames that are read to EME2000, by the models of the IAU as erfa has them.

- GCRF and ICRF: the frame bias of IAU 2006.
- ITRF: IAU 2006/2000A by the celestial intermediate origin, with pole, UT1 and celestial pole corrections of the IERS (IERS
  Conventions 2010, chapter 5), and the frame bias.
- TEME: the equation of the equinoxes of IAU 1994, IAU 1980 nutation and IAU 1976 precession, without corrections, so that Greenwich mean
  sidereal time of 1982 leads from TEME to the Earth (Vallado and others, AIAA 2006-6753).
- TOD and MOD: by IAU 1976/1980, or by IAU 2006/2000A and the frame bias.

A rotation is A(t) Z(-angle(t)) W(t), with Z a turn of the axes about z. A, precession and nutation, is slow; so is W, the pole's
motion; the angle is that of the Earth's rotation, and grows evenly within a day. A is computed at whole hours and interpolated between
by a cubic.
"""
from __future__ import annotations

from dataclasses import dataclass, field
from enum import Enum
from fractions import Fraction
from typing import Callable

import erfa  # type: ignore[import]
import numpy as np

from .balls import Floats, Wholes
from .earth_orientation import EarthOrientation
from .epochs import DAY_MICROS
from .segments import OF_DATE, Frame

JD_1970 = 2440587.5
TT_AHEAD = 32_184_000
"""Microseconds that TT is ahead of TAI."""
HOUR = 3_600_000_000
GRID_SLACK = 2e-14
"""Radians by which the cubic between hours misses A: h^4 3/128 times its fourth derivative, below 4e-27 rad/s^4."""
SERIES_SLACK = 1e-14
"""Radians for the roundings of a rotation in doubles: some tens of places of 53 bits."""
BENDING = 2e-16
"""The second derivative of A W less the Earth's rotation is below this, rad/s^2: the nutation of 13.66 days has 3e-17, all terms together below 1e-16."""
EARTH_START, START_DIGITS = 7790572732640, 13
EARTH_TURN, TURN_DIGITS = 100273781191135448, 17
EARTH_EPOCH = 10957 * DAY_MICROS + DAY_MICROS // 2
"""The Earth is turned by 0.7790572732640 at 2000-01-01T12:00:00 of UT1, and by 1.00273781191135448 a day of UT1 (IAU 2000, resolution B1.8)."""
EARTH_RATE = 2 * np.pi * EARTH_TURN / 10**TURN_DIGITS / 86400
"""The same in radians a second."""
RATE_STEP = 60_000_000
"""Microseconds to both sides by which the rate of a slow rotation is taken."""


class OfDate(Enum):
    """Which models TOD and MOD are of."""

    IAU1976 = "iau1976"
    IAU2006 = "iau2006"


def two_part(micros: Floats | Wholes, whole: Wholes) -> tuple[Floats, Floats]:
    """A Julian date in two parts of days and the microseconds in them."""
    return JD_1970 + whole.astype(np.float64), np.asarray(micros / DAY_MICROS, np.float64)


def terrestrial(ticks: Wholes) -> tuple[Floats, Floats]:
    """TT at ticks as a Julian date in two parts."""
    counts = ticks + TT_AHEAD
    return two_part(counts % DAY_MICROS, counts // DAY_MICROS)


def bias() -> Floats:
    """GCRF to EME2000: the frame bias of IAU 2006."""
    return np.asarray(erfa.bp06(2451545.0, 0.0)[0], np.float64)


def transposed(matrices: Floats) -> Floats:
    """The inverses of rotations (n, 3, 3)."""
    return np.swapaxes(matrices, -1, -2)


def about_z(angles: Floats) -> Floats:
    """Turns of the axes about z (n, 3, 3)."""
    cosine, sine, zero = np.cos(angles), np.sin(angles), np.zeros_like(angles)
    return np.stack([np.stack([cosine, sine, zero], -1), np.stack([-sine, cosine, zero], -1), np.stack([zero, zero, zero + 1.0], -1)], -2)


def teme(ticks: Wholes) -> Floats:
    """TEME to EME2000 (n, 9)."""
    date = terrestrial(ticks)
    longitude, obliquity_change = erfa.nut80(*date)
    obliquity = erfa.obl80(*date)
    to_mod = transposed(erfa.numat(obliquity, longitude, obliquity_change))
    return np.asarray(transposed(erfa.pmat76(*date)) @ to_mod @ about_z(-erfa.eqeq94(*date))).reshape(-1, 9)


def of_date(function: Callable[[Floats, Floats], Floats], after: Floats) -> Callable[[Wholes], Floats]:
    """The inverse of an erfa matrix of TT, and then a fixed rotation (n, 9)."""
    return lambda ticks: np.asarray(after @ transposed(function(*terrestrial(ticks)))).reshape(-1, 9)


def intermediate(ticks: Wholes) -> Floats:
    """X, Y and s of the celestial intermediate pole and origin, IAU 2006/2000A (n, 3)."""
    return np.stack(erfa.xys06a(*terrestrial(ticks)), -1)


@dataclass(frozen=True)
class Hourly:
    """A smooth function of ticks that is computed at whole hours and interpolated by the cubic through the two before and the two behind."""

    function: Callable[[Wholes], Floats]
    kept: dict[int, Floats] = field(default_factory=dict)

    def at(self, ticks: Wholes) -> Floats:
        """Its values (n, k)."""
        hours = ticks // HOUR
        needed = np.unique(np.concatenate([hours + shift for shift in (-1, 0, 1, 2)]))
        missing = np.array([hour for hour in needed.tolist() if hour not in self.kept], np.int64)
        if len(missing):
            self.kept.update(zip(missing.tolist(), self.function(missing * HOUR)))
        table = np.stack([self.kept[hour] for hour in needed.tolist()])
        place = np.searchsorted(needed, hours)
        part = ((ticks - hours * HOUR) / HOUR)[:, None]
        weights = (-part * (part - 1) * (part - 2) / 6, (part + 1) * (part - 1) * (part - 2) / 2,
                   -(part + 1) * part * (part - 2) / 2, (part + 1) * part * (part - 1) / 6)
        return np.asarray(sum(weight * table[place + shift] for weight, shift in zip(weights, (-1, 0, 1, 2))), np.float64)


@dataclass(frozen=True)
class Turns:
    """Rotations to EME2000 at ticks: A and W with their rates a second (n, 3, 3), the Earth's angle (n) and its rate (n)."""

    slow: Floats
    slow_rate: Floats
    angle: Floats
    angle_rate: Floats
    pole: Floats
    pole_rate: Floats

    def matrix(self) -> Floats:
        """The whole rotation (n, 3, 3)."""
        return np.asarray(self.slow @ about_z(-self.angle) @ self.pole)

    def rate(self) -> Floats:
        """Its rate a second (n, 3, 3)."""
        spin = about_z(-self.angle)
        cross = np.array([[0.0, -1.0, 0.0], [1.0, 0.0, 0.0], [0.0, 0.0, 0.0]]) * self.angle_rate[:, None, None]
        return np.asarray(self.slow_rate @ spin @ self.pole + self.slow @ (cross @ spin) @ self.pole + self.slow @ spin @ self.pole_rate)


@dataclass(frozen=True)
class FrameTurn:
    """How a frame is turned to EME2000.

    `fixed` is a rotation that does not change, None of one that does; `identity` says that there is nothing to turn. `earth` is
    given of a frame that turns with the Earth."""

    fixed: Floats | None
    slow: Callable[[Wholes], Floats]
    earth: EarthOrientation | None = None

    @property
    def identity(self) -> bool:
        """Whether the frame is EME2000."""
        return self.fixed is not None and bool(np.array_equal(self.fixed, np.eye(3)))

    def at(self, ticks: Wholes) -> Turns:
        """The rotation at ticks."""
        none = np.zeros((len(ticks), 3, 3))
        one = none + np.eye(3)
        flat = np.zeros(len(ticks))
        if self.fixed is not None:
            return Turns(none + self.fixed, none, flat, flat, one, none)
        slow, slow_rate = with_rate(self.slow, ticks)
        if self.earth is None:
            return Turns(slow, slow_rate, flat, flat, one, none)
        earth = self.earth
        pole, pole_rate = with_rate(lambda at: transposed(pole_motion(earth, at)), ticks)
        angle, angle_rate = earth_angle(earth, ticks)
        return Turns(slow, slow_rate, angle, angle_rate, pole, pole_rate)


def with_rate(function: Callable[[Wholes], Floats], ticks: Wholes) -> tuple[Floats, Floats]:
    """Matrices at ticks and their rates a second."""
    return function(ticks), (function(ticks + RATE_STEP) - function(ticks - RATE_STEP)) / (2 * RATE_STEP / 1e6)


def pole_motion(earth: EarthOrientation, ticks: Wholes) -> Floats:
    """The terrestrial intermediate frame to ITRF (n, 3, 3)."""
    pole = earth.between(earth.pole, ticks)
    return np.asarray(erfa.pom00(pole[:, 0], pole[:, 1], erfa.sp00(*terrestrial(ticks))), np.float64)


def earth_angle(earth: EarthOrientation, ticks: Wholes) -> tuple[Floats, Floats]:
    """The Earth rotation angle (IAU 2000), its fraction of a turn in exact fractions, and its rate a second of TAI in the day behind each tick."""
    turns = []
    for top, below in earth.ut1_of_ticks(ticks):
        day = below * DAY_MICROS
        passed = EARTH_START * day * 10 ** (TURN_DIGITS - START_DIGITS) + EARTH_TURN * (top - EARTH_EPOCH * below)
        whole = day * 10**TURN_DIGITS
        turns.append(passed % whole / whole)
    slopes = np.array([float(earth.slope(cell)) for cell in earth.cells(ticks).tolist()])
    return 2 * np.pi * np.array(turns), EARTH_RATE * (1.0 + slopes)


TEME_HOURLY = Hourly(teme)
INTERMEDIATE_HOURLY = Hourly(intermediate)
OF_DATE_HOURLY = {
    (Frame.TOD, OfDate.IAU1976): Hourly(of_date(lambda *date: erfa.pnm80(*date), np.eye(3))),
    (Frame.MOD, OfDate.IAU1976): Hourly(of_date(lambda *date: erfa.pmat76(*date), np.eye(3))),
    (Frame.TOD, OfDate.IAU2006): Hourly(of_date(lambda *date: erfa.pnm06a(*date), bias())),
    (Frame.MOD, OfDate.IAU2006): Hourly(of_date(lambda *date: erfa.pmat06(*date), bias())),
}


def matrices(hourly: Hourly) -> Callable[[Wholes], Floats]:
    """A function of rotations that is kept by the hour."""
    return lambda ticks: hourly.at(ticks).reshape(-1, 3, 3)


def celestial(earth: EarthOrientation) -> Callable[[Wholes], Floats]:
    """The celestial intermediate frame to EME2000 (n, 3, 3)."""
    def function(ticks: Wholes) -> Floats:
        pole = INTERMEDIATE_HOURLY.at(ticks)
        change = earth.between(earth.correction, ticks)
        return np.asarray(bias() @ transposed(erfa.c2ixys(pole[:, 0] + change[:, 0], pole[:, 1] + change[:, 1], pole[:, 2])))
    return function


def frame_turn(frame: Frame, epoch: Fraction | None, models: OfDate | None, earth: EarthOrientation | None) -> FrameTurn:
    """How a frame is turned to EME2000; one of date is held fast at an epoch in microseconds of TAI, where one is given."""
    if frame is Frame.EME2000:
        return FrameTurn(np.eye(3), lambda ticks: np.zeros(0))
    if frame is Frame.GCRF:
        return FrameTurn(bias(), lambda ticks: np.zeros(0))
    if frame is Frame.ITRF:
        assert earth is not None
        return FrameTurn(None, celestial(earth), earth)
    if frame is Frame.TEME:
        hourly = TEME_HOURLY
    else:
        assert frame in OF_DATE and models is not None
        hourly = OF_DATE_HOURLY[frame, models]
    if epoch is not None:
        return FrameTurn(hourly.function(np.array([round(epoch)], np.int64)).reshape(3, 3), lambda ticks: np.zeros(0))
    return FrameTurn(None, matrices(hourly))
