"""How the Earth is turned: pole, UT1 and the corrections of the celestial pole, read from a file of the IERS.

The form is that of finals2000A.all and finals2000A.daily (IERS Rapid Service, readme.finals2000A): fixed columns, one line a day
at 0h UTC. The values of Bulletin A are taken. Between two days each of them runs straight, UT1 as UT1 - TAI, so that a leap
second is no step.
"""
from __future__ import annotations

import re
from bisect import bisect_right
from dataclasses import dataclass
from decimal import Decimal
from fractions import Fraction
from functools import cached_property
from pathlib import Path

import numpy as np

from .balls import Floats, Wholes
from .epochs import DAY_MICROS, ahead_on, utc_of_tick, utc_text
from .faults import Refused

MJD_1970 = 40587
FIRST_MJD = 41317
"""1 January 1972."""
NUMBER = re.compile(r"[+-]?(?:[0-9]+\.?[0-9]*|\.[0-9]+)")
COLUMNS = ((8, 15, 99999), (19, 27, 2), (38, 46, 2), (59, 68, 1), (98, 106, 100), (117, 125, 100))
"""Day, pole in arc seconds, UT1 - UTC in seconds, dX and dY in milliarcseconds: first and last column, and the greatest size."""
ARC_SECOND = np.pi / 648000


@dataclass(frozen=True)
class EarthOrientation:
    """Values at 0h UTC of days that follow one another: `ticks` of TAI, UT1 - TAI in tenths of microseconds, the rest in radians.

    Those of `observed` days are observed, the rest predicted; those of `corrected` days have corrections of the celestial pole."""

    file: str
    ticks: Wholes
    ut1: tuple[int, ...]
    pole: Floats
    correction: Floats
    observed: int
    corrected: int

    def cells(self, ticks: Wholes) -> Wholes:
        """The day in which each tick lies; that of the first and last day for those that lie before and behind."""
        return np.clip(np.searchsorted(self.ticks, ticks, side="right") - 1, 0, len(self.ticks) - 2)

    def covers(self, first: int, last: int) -> bool:
        """Whether all ticks from a first to a last one lie between two days."""
        return int(self.ticks[0]) <= first and last <= int(self.ticks[-1])

    def remarks(self, last: int) -> list[str]:
        """What is to be said of the values up to a last tick."""
        found = []
        for count, what in ((self.observed, "are predictions"), (self.corrected, "have no corrections of the celestial pole")):
            if count < len(self.ticks) and last > int(self.ticks[max(count - 1, 0)]):
                found.append(f"the values of {self.file} from {utc_text(utc_of_tick(int(self.ticks[count])))[:10]} on {what}")
        return found

    def between(self, values: Floats, ticks: Wholes) -> Floats:
        """Values (days, k) at ticks, straight between days: (n, k)."""
        cells = self.cells(ticks)
        part = ((ticks - self.ticks[cells]) / (self.ticks[cells + 1] - self.ticks[cells]))[:, None]
        return np.asarray(values[cells] * (1.0 - part) + values[cells + 1] * part, np.float64)

    def slope(self, cell: int) -> Fraction:
        """How much UT1 gains on TAI in a day, per microsecond."""
        return Fraction(self.ut1[cell + 1] - self.ut1[cell], 10 * int(self.ticks[cell + 1] - self.ticks[cell]))

    def ut1_of_ticks(self, ticks: Wholes) -> list[tuple[int, int]]:
        """Microseconds of UT1 at ticks, exactly, as numerators and denominators."""
        found = []
        for tick, cell in zip(ticks.tolist(), self.cells(ticks).tolist()):
            start, length = int(self.ticks[cell]), int(self.ticks[cell + 1] - self.ticks[cell])
            gain = self.ut1[cell] * length + (self.ut1[cell + 1] - self.ut1[cell]) * (tick - start)
            found.append((10 * length * tick + gain, 10 * length))
        return found

    @cached_property
    def starts(self) -> tuple[int, ...]:
        """UT1 at each day's 0h UTC, in tenths of microseconds."""
        return tuple(10 * tick + ut1 for tick, ut1 in zip(self.ticks.tolist(), self.ut1))

    def tai_of_ut1(self, micros: Fraction) -> Fraction:
        """Microseconds of TAI at an epoch of UT1, which grows with TAI."""
        cell = min(max(bisect_right(self.starts, 10 * micros) - 1, 0), len(self.starts) - 2)
        start, length = int(self.ticks[cell]), int(self.ticks[cell + 1] - self.ticks[cell])
        return start + (10 * micros - self.starts[cell]) * Fraction(length, self.starts[cell + 1] - self.starts[cell])


class NoNumber(ValueError):
    """Columns that hold something else than a number of the size that they should have."""


def columns(line: str, first: int, last: int, most: int) -> Decimal | None:
    """The number in columns counted from 1, at most so large in size, or None where they are blank."""
    text = line[first - 1:last].strip()
    if text and (NUMBER.fullmatch(text) is None or abs(Decimal(text)) > most):
        raise NoNumber
    return Decimal(text) if text else None


def read_earth_orientation(path: Path) -> EarthOrientation:
    """The days of a file that have a pole and UT1."""
    name = path.name
    try:
        lines = path.read_text("ascii").splitlines()
    except OSError as fault:
        raise Refused(name, 0, f"cannot be read: {fault.strerror}") from None
    except UnicodeDecodeError:
        raise Refused(name, 0, "is no text of the form finals2000A") from None
    days: list[int] = []
    ut1: list[int] = []
    angles: list[tuple[float, float, float, float]] = []
    observed = corrected = 0
    for number, line in enumerate(lines, 1):
        if not line.strip():
            continue
        try:
            mjd, x, y, offset, dx, dy = (columns(line, *where) for where in COLUMNS)
        except NoNumber:
            raise Refused(name, number, "the line is not of the form finals2000A, with its fixed columns") from None
        if mjd is None or mjd < FIRST_MJD:
            raise Refused(name, number, "the line has no day from 1972 on in columns 8 to 15")
        if x is None or y is None or offset is None:
            break
        day = int(mjd) - MJD_1970
        if days and day != days[-1] + 1:
            raise Refused(name, number, "the day does not follow the one before")
        days.append(day)
        ut1.append(int((offset - ahead_on(day)) * 10**7))
        angles.append((float(x), float(y), float(dx or 0) / 1000, float(dy or 0) / 1000))
        observed += line[16:17] != "P" and line[57:58] != "P"
        corrected += dx is not None and dy is not None
    if len(days) < 2:
        raise Refused(name, len(lines), "the file has fewer than two days with a pole and UT1")
    table = np.array(angles) * ARC_SECOND
    ticks = np.array([day * DAY_MICROS + ahead_on(day) * 10**6 for day in days], np.int64)
    return EarthOrientation(name, ticks, tuple(ut1), table[:, :2], table[:, 2:], observed, corrected)
