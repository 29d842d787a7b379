"""A made-up folder in which all is known by hand: many straight tracks that cross.

Each object of the first kind moves along y at 7.5 km/s, at a height z of its own, each of the second kind along z, at a y of its own, and all
start so that each of the first passes each of the second: at the time (y + z) / 7.5 km/s after the start, at the distance of their x. Objects
of one kind stay far apart. All times are whole milliseconds.
"""

from __future__ import annotations

import math
from dataclasses import dataclass
from pathlib import Path

from conjtools.epochs import epoch_text

START = 1_735_689_600_000_000
SPEED = 7_500_000_000_000
THRESHOLD = 5 * 10**12
APART = 30_000_000
NM_PER_TICK = 7_500_000


@dataclass(frozen=True)
class Crossing:
    """When two objects (numbered from 1) cross, in ticks, and how far apart, in nm."""

    a: int
    b: int
    tick: int
    miss: int


def offset(place: int, spacing: int) -> int:
    """Where an object stands on the axis of its kind, as the ticks that the others need to there; a few ms off a regular grid."""
    return place * spacing + place * place * 7 % 113 * 1000


def height(place: int, kind: int) -> int:
    """The x of an object in nm, from 7,000 km to 7,004.999 km."""
    return 7_000 * 10**12 + (place * 1237 + kind * 411) % 5000 * 10**9


def crossings(first: int, second: int, spacing: int = APART) -> list[Crossing]:
    """All crossings of so many objects of both kinds, in order of pair."""
    return [
        Crossing(i + 1, first + j + 1, START + offset(i, spacing) + offset(j, spacing // 2), abs(height(i, 0) - height(j, 1)))
        for i in range(first)
        for j in range(second)
    ]


def end_of(first: int, second: int, spacing: int = APART) -> int:
    """A tick behind all crossings."""
    seconds = -(-(offset(first, spacing) + offset(second, spacing // 2)) // 10**6)
    return START + (seconds + 60) * 10**6


def kilometres(nm: int) -> str:
    """A length in km with twelve decimals."""
    return f"{'-' if nm < 0 else ''}{abs(nm) // 10**12}.{abs(nm) % 10**12:012}"


def names(place: int, kind: int) -> tuple[str, str, str]:
    """The file, the designator and the name of an object."""
    letter = "AB"[kind]
    return f"{letter.lower()}{place:04}.oem", f"2099-{place % 900 + 1:03}{letter}", f"{('ALONG Y', 'ALONG Z')[kind]} {place:04}"


def ephemeris(place: int, kind: int, last: int, spacing: int) -> str:
    """An object that moves uniformly, with a state each half hour."""
    _, designator, name = names(place, kind)
    stands = offset(place, spacing if kind == 0 else spacing // 2) * NM_PER_TICK
    ticks = [*range(START, last, 1800 * 10**6), last]
    rows = ""
    for tick in ticks:
        moved = (tick - START) * NM_PER_TICK - stands
        y, z = (moved, stands) if kind == 0 else (stands, moved)
        rates = "7.5 0.0" if kind == 0 else "0.0 7.5"
        rows += f"{epoch_text(tick)} {kilometres(height(place, kind))} {kilometres(y)} {kilometres(z)} 0.0 {rates}\n"
    return (
        "CCSDS_OEM_VERS = 2.0\nCREATION_DATE = 2025-01-01T00:00:00\nORIGINATOR = TEST\nMETA_START\n"
        f"OBJECT_NAME = {name}\nOBJECT_ID = {designator}\nCENTER_NAME = EARTH\nREF_FRAME = EME2000\nTIME_SYSTEM = UTC\n"
        f"START_TIME = {epoch_text(START)}\nSTOP_TIME = {epoch_text(last)}\nINTERPOLATION = HERMITE\nINTERPOLATION_DEGREE = 3\nMETA_STOP\n{rows}"
    )


def half_length(miss: int) -> int:
    """For how many ticks before and behind a crossing the distance is at most the threshold: it grows by 7.5 km/s along two axes."""
    return math.isqrt((THRESHOLD**2 - miss**2) // (2 * NM_PER_TICK**2))


def report(first: int, second: int, last: int, spacing: int = APART) -> str:
    """The report of all crossings."""
    text = f"CONJ-REPORT 1\nWINDOW {epoch_text(START)} {epoch_text(last)}\nTHRESHOLD {THRESHOLD}\n"
    for number in range(first + second):
        file, designator, name = names(number if number < first else number - first, int(number >= first))
        text += f"OBJECT {number + 1}\nFILE {file}\nID {designator}\nNAME {name}\n"
    lines = []
    for number, told in enumerate(crossings(first, second, spacing), 1):
        half = half_length(told.miss)
        low, high = max(START, told.tick - half), told.tick + half
        lines.append(f"ENCOUNTER {number} {told.a} {told.b} NEAR {epoch_text(told.tick)} {told.miss} NOCOV\n")
        lines.append(f"SPAN NEAR {epoch_text(low)} {epoch_text(high)}\n")
    return text + "".join(lines) + "END\n"


def write_folder(folder: Path, first: int, second: int, spacing: int = APART) -> list[Crossing]:
    """Writes the ephemerides and the report into a folder, and gives the crossings."""
    last = end_of(first, second, spacing)
    for kind, count in ((0, first), (1, second)):
        for place in range(count):
            (folder / names(place, kind)[0]).write_text(ephemeris(place, kind, last, spacing), "ascii")
    (folder / "screen.report").write_text(report(first, second, last, spacing), "ascii")
    return crossings(first, second, spacing)
