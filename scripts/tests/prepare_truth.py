"""Orbits to dense truth, ephemerides written from them in every frame and time system, and curves read by other means than the script's.

Element sets: the verification set of Vallado, Crawford, Hujsak and Kelso, AIAA 2006-6753, and the International Space Station of
20 September 2008 (CelesTrak's description of the form). Frames by erfa at each instant; interpolants and cubics in exact fractions.
"""
from __future__ import annotations

from dataclasses import dataclass
from fractions import Fraction
from functools import lru_cache
from pathlib import Path

import erfa  # type: ignore[import]
import numpy as np
from numpy.typing import NDArray
from sgp4.api import Satrec  # type: ignore[import]

Floats = NDArray[np.float64]

ELEMENTS = {
    "iss": ("1 25544U 98067A   08264.51782528 -.00002182  00000-0 -11606-4 0  2927",
            "2 25544  51.6416 247.4627 0006703 130.5360 325.0288 15.72125391563537"),
    "vanguard": ("1 00005U 58002B   00179.78495062  .00000023  00000-0  28098-4 0  4753",
                 "2 00005  34.2682 348.7242 1859667 331.7664  19.3264 10.82419157413667"),
    "molniya": ("1 08195U 75081A   06176.33215444  .00000099  00000-0  11873-3 0   813",
                "2 08195  64.1586 279.0717 6877146 264.7651  20.2257  2.00491383225656"),
    "geo": ("1 28626U 05008A   06176.46683397 -.00000205  00000-0  10000-3 0  2190",
            "2 28626   0.0019 286.9433 0000335  13.7918  55.6504  1.00270176  4891"),
    "gps": ("1 28129U 03058A   06175.57071136 -.00000104  00000-0  10000-3 0   459",
            "2 28129  54.7298 324.8098 0048506 266.2640  93.1663  2.00562768 18443"),
}
ARC_SECOND = np.pi / 648000
AHEAD = {"TAI": Fraction(0), "TT": Fraction(32184, 1000), "GPS": Fraction(-19)}
DAY = 86400


def days_1970(year: int, month: int, day: int) -> int:
    """Days from 1970-01-01, by erfa's calendar."""
    return int(erfa.cal2jd(year, month, day)[1]) - 40587


START = {"iss": days_1970(2008, 9, 20), "vanguard": days_1970(2000, 6, 28), "molniya": days_1970(2006, 6, 26), "geo": days_1970(2006, 6, 26),
         "gps": days_1970(2006, 6, 25)}
"""The day on which each ephemeris begins."""


def utc_ahead(day: int) -> int:
    """TAI - UTC in seconds, by erfa.dat."""
    year, month, number, _ = erfa.jd2cal(2440587.5, day)
    return int(erfa.dat(year, month, number, 0.0))


def dates(seconds: Fraction, ahead: Fraction) -> tuple[float, float]:
    """A Julian date in two parts of seconds since 1970, moved on."""
    day, rest = divmod(seconds + ahead, DAY)
    return 2440587.5 + day, float(rest / DAY)


def r3(angle: float) -> Floats:
    """Rotation of the axes about z."""
    return np.array([[np.cos(angle), np.sin(angle), 0.0], [-np.sin(angle), np.cos(angle), 0.0], [0.0, 0.0, 1.0]])


@dataclass(frozen=True)
class Earth:
    """Pole (arc seconds), UT1 - UTC (seconds) and celestial pole corrections (milliarcseconds) at 0h UTC of days since 1970."""

    first: int
    x: tuple[float, ...]
    y: tuple[float, ...]
    ut1: tuple[float, ...]
    dx: tuple[float, ...]
    dy: tuple[float, ...]

    def at(self, tai: Fraction) -> tuple[float, float, float, float, float]:
        """Pole in radians, UT1 - TAI in seconds and corrections in radians at seconds of TAI since 1970, straight between midnights."""
        starts = [(self.first + i) * DAY + utc_ahead(self.first + i) for i in range(len(self.x))]
        cell = max(i for i in range(len(starts) - 1) if starts[i] <= tai or i == 0)
        part = float((tai - starts[cell]) / (starts[cell + 1] - starts[cell]))

        def value(values: list[float]) -> float:
            return values[cell] + (values[cell + 1] - values[cell]) * part
        offsets = [ut1 - utc_ahead(self.first + i) for i, ut1 in enumerate(self.ut1)]
        return (value(list(self.x)) * ARC_SECOND, value(list(self.y)) * ARC_SECOND, value(offsets),
                value(list(self.dx)) * ARC_SECOND / 1000, value(list(self.dy)) * ARC_SECOND / 1000)

    def finals(self) -> str:
        """The values as lines of finals2000A."""
        lines = []
        for i in range(len(self.x)):
            year, month, day, _ = erfa.jd2cal(2440587.5, self.first + i)
            line = [" "] * 188

            def put(column: int, text: str) -> None:
                line[column - 1:column - 1 + len(text)] = list(text)
            put(1, f"{year % 100:2d}{month:2d}{day:2d}")
            put(8, f"{self.first + i + 40587:8.2f}")
            put(17, f"I {self.x[i]:9.6f}  .000050")
            put(38, f"{self.y[i]:9.6f}  .000050")
            put(58, f"I{self.ut1[i]:10.7f}  .0000100")
            put(96, f"I {self.dx[i]:9.3f}     .100")
            put(117, f"{self.dy[i]:9.3f}     .100")
            lines.append("".join(line).rstrip())
        return "\n".join(lines) + "\n"


def earth_of(first: int, days: int) -> Earth:
    """Made-up values of the usual size that bend at each midnight."""
    steps = range(days)
    return Earth(first, tuple(0.05 + 0.0021 * i - 0.0002 * i * i for i in steps), tuple(0.31 - 0.0013 * i + 0.0003 * i * i for i in steps),
                 tuple(round(-0.31 - 0.0011 * i + 0.00012 * i * i, 7) for i in steps), tuple(round(0.11 + 0.07 * (-1) ** i, 3) for i in steps),
                 tuple(round(-0.21 + 0.05 * (-1) ** i, 3) for i in steps))


def matrix(frame: str, tai: Fraction, earth: Earth | None = None) -> Floats:
    """A frame to EME2000 at seconds of TAI since 1970: erfa at this instant."""
    tt = dates(tai, AHEAD["TT"])
    bias = erfa.bp06(2451545.0, 0.0)[0]
    if frame in ("EME2000", "J2000"):
        return np.eye(3)
    if frame in ("GCRF", "ICRF"):
        return np.asarray(bias)
    if frame == "TEME":
        return np.asarray(erfa.pnm80(*tt).T @ r3(-erfa.eqeq94(*tt)))
    if frame == "TOD76":
        return np.asarray(erfa.pnm80(*tt).T)
    if frame == "MOD76":
        return np.asarray(erfa.pmat76(*tt).T)
    if frame == "TOD06":
        return np.asarray(bias @ erfa.pnm06a(*tt).T)
    if frame == "MOD06":
        return np.asarray(bias @ erfa.pmat06(*tt).T)
    assert frame == "ITRF" and earth is not None
    x, y, ut1, dx, dy = earth.at(tai)
    cx, cy, s = erfa.xys06a(*tt)
    ut = dates(tai, Fraction(ut1))
    return np.asarray(bias @ erfa.c2tcio(erfa.c2ixys(cx + dx, cy + dy, s), erfa.era00(*ut), erfa.pom00(x, y, erfa.sp00(*tt))).T)


def matrix_rate(frame: str, tai: Fraction, earth: Earth | None = None) -> Floats:
    """Its rate a second, by a difference of the fourth order."""
    if frame in ("EME2000", "J2000", "GCRF", "ICRF"):
        return np.zeros((3, 3))
    near, far = (matrix(frame, tai + step, earth) - matrix(frame, tai - step, earth) for step in (2, 4))
    return np.asarray((8 * near - far) / (12 * 2))


@lru_cache(maxsize=None)
def satellite(name: str) -> Satrec:
    """A satellite by its elements."""
    return Satrec.twoline2rv(*ELEMENTS[name])


@lru_cache(maxsize=None)
def truth(name: str, tai: Fraction) -> tuple[tuple[float, ...], tuple[float, ...]]:
    """Place in km and rate in km/s in EME2000 at seconds of TAI since 1970: SGP4 by elapsed seconds, turned from TEME."""
    utc = tai - utc_ahead(START[name])
    fault, place, rate = satellite(name).sgp4(2440587.5 + utc // DAY, float(utc % DAY / DAY))
    assert fault == 0
    turn = matrix("TEME", tai)
    return tuple(turn @ place), tuple(turn @ rate + matrix_rate("TEME", tai) @ place)


def label(system: str, tai: Fraction, earth: Earth | None, digits: int = 6) -> str:
    """An epoch of a time system at seconds of TAI, which are such that it ends after the digits."""
    if system == "UTC":
        day = int((tai - 10) // DAY)
        seconds = tai - utc_ahead(day)
        if int(seconds // DAY) != day:
            seconds = tai - utc_ahead(day + 1)
    elif system == "UT1":
        assert earth is not None
        seconds = tai + Fraction(earth.at(tai)[2])
    else:
        seconds = tai + AHEAD[system]
    scaled = round(seconds * 10**digits)
    day, rest = divmod(scaled, DAY * 10**digits)
    whole, part = divmod(rest, 10**digits)
    year, month, number, _ = erfa.jd2cal(2440587.5, int(day))
    return f"{year:04d}-{month:02d}-{number:02d}T{whole // 3600:02d}:{whole // 60 % 60:02d}:{whole % 60:02d}.{part:0{digits}d}"


def state_in(name: str, frame: str, tai: Fraction, earth: Earth | None) -> tuple[Floats, Floats]:
    """A state of the truth in a frame."""
    place, rate = (np.array(values) for values in truth(name, tai))
    turn, turn_rate = matrix(frame, tai, earth), matrix_rate(frame, tai, earth)
    there = turn.T @ place
    return there, turn.T @ (rate - turn_rate @ there)


@dataclass(frozen=True)
class Written:
    """An ephemeris that is written: its text and its times in seconds of TAI."""

    text: str
    times: tuple[Fraction, ...]


NAMES = {"TOD76": "TOD", "MOD76": "MOD", "TOD06": "TOD", "MOD06": "MOD"}


def write_kvn(name: str, frame: str, system: str, method: str, degree: int, times: list[Fraction], earth: Earth | None = None, digits: int = 6,
              lines: tuple[str, ...] = ()) -> Written:
    """An OEM in KVN of a satellite at times; `lines` stand in its metadata."""
    rows = []
    for tai in times:
        place, rate = state_in(name, frame, tai, earth)
        rows.append(f"{label(system, tai, earth, digits)} {' '.join(f'{x:.9f}' for x in place)} {' '.join(f'{x:.12f}' for x in rate)}")
    head = ["CCSDS_OEM_VERS = 2.0", "CREATION_DATE = 2025-01-01T00:00:00", "ORIGINATOR = TEST", "META_START", f"OBJECT_NAME = {name.upper()}",
            f"OBJECT_ID = {name.upper()}-1", "CENTER_NAME = EARTH", f"REF_FRAME = {NAMES.get(frame, frame)}", f"TIME_SYSTEM = {system}",
            f"START_TIME = {rows[0].split()[0]}", f"STOP_TIME = {rows[-1].split()[0]}", *lines]
    if method:
        head += [f"INTERPOLATION = {method}", f"INTERPOLATION_DEGREE = {degree}"]
    return Written("\n".join([*head, "META_STOP", *rows]) + "\n", tuple(times))


def even(start: Fraction, step: Fraction, count: int) -> list[Fraction]:
    """Times at even steps."""
    return [start + step * i for i in range(count + 1)]


def states_of(text: str) -> list[tuple[str, list[Fraction]]]:
    """Epochs and numbers of the states of a KVN text, exactly."""
    return [(fields[0], [Fraction(number) for number in fields[1:7]]) for fields in (line.split() for line in text.splitlines())
            if len(fields) in (7, 10) and fields[0][:1].isdigit()]


def micros(text: str) -> Fraction:
    """Microseconds since 1970 of an epoch as it is labelled."""
    date, time = text.rstrip("Z").split("T")
    hour, minute, second = time.split(":")
    day = days_1970(*(int(part) for part in date.split("-")))
    return 10**6 * (day * DAY + int(hour) * 3600 + int(minute) * 60 + Fraction(second))


def lagrange(times: list[Fraction], values: list[Fraction], at: Fraction) -> Fraction:
    """The value of the polynomial through all values: Lagrange's own formula."""
    total = Fraction(0)
    for i, value in enumerate(values):
        weight = Fraction(1)
        for j, other in enumerate(times):
            if j != i:
                weight *= (at - other) / (times[i] - other)
        total += weight * value
    return total


def hermite(times: list[Fraction], values: list[Fraction], rates: list[Fraction], at: Fraction) -> Fraction:
    """The value of the polynomial with all values and rates: Hermite's formula by Lagrange's basis."""
    total = Fraction(0)
    for i, value in enumerate(values):
        basis, slope = Fraction(1), Fraction(0)
        for j, other in enumerate(times):
            if j != i:
                basis *= (at - other) / (times[i] - other)
                slope += 1 / (times[i] - other)
        total += basis * basis * ((1 - 2 * (at - times[i]) * slope) * value + (at - times[i]) * rates[i])
    return total


def declared(times: list[Fraction], states: list[list[Fraction]], method: str, degree: int, at: Fraction) -> list[Fraction]:
    """The place of the declared interpolant in the file's frame, in km: the nodes that are nearest to the middle of the interval, the earlier of two equals."""
    pair = max(i for i in range(len(times) - 1) if times[i] <= at or i == 0)
    nodes = degree + 1 if method == "LAGRANGE" else (degree + 1) // 2
    low = pair + 1 - nodes // 2 - nodes % 2
    low = min(max(low, 0), len(times) - nodes)
    chosen = range(low, low + nodes)
    own = [times[i] for i in chosen]
    if method == "LAGRANGE":
        return [lagrange(own, [states[i][axis] for i in chosen], at) for axis in range(3)]
    return [hermite(own, [states[i][axis] for i in chosen], [states[i][axis + 3] for i in chosen], at) for axis in range(3)]


def cubic_at(times: list[Fraction], states: list[list[Fraction]], at: Fraction) -> list[Fraction]:
    """The place of the cubic that `conj` reads, in km, at microseconds: that of the last interval that holds the tick."""
    pair = max(i for i in range(len(times) - 1) if times[i] <= at)
    length = (times[pair + 1] - times[pair]) / 10**6
    u = (at - times[pair]) / (times[pair + 1] - times[pair])
    first, last = states[pair], states[pair + 1]
    return [(1 + 2 * u) * (1 - u) ** 2 * first[i] + u * (1 - u) ** 2 * length * first[i + 3]
            + u * u * (3 - 2 * u) * last[i] - u * u * (1 - u) * length * last[i + 3] for i in range(3)]


def distance(first: Floats, second: Floats) -> float:
    """Metres between places in km."""
    return float(np.linalg.norm(first - second)) * 1000


def write(folder: Path, name: str, text: str) -> Path:
    """A file of a test."""
    path = folder / name
    path.write_text(text, "ascii")
    return path


