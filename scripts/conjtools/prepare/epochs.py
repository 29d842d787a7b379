"""Epochs as texts, as femtoseconds of their own scale, and as whole microseconds of TAI and UTC.

A count runs from 1970-01-01T00:00:00 of its scale, in days of 86,400 seconds. A tick is a whole microsecond of TAI here; in UTC
it is written less the leap seconds (IERS Bulletin C, as erfa has them).
"""
from __future__ import annotations

import re
from bisect import bisect_right
from dataclasses import dataclass
from datetime import date, timedelta
from functools import lru_cache

import erfa  # type: ignore[import]

SECOND = 10**15
"""Femtoseconds in a second."""
MICRO = 10**9
"""Femtoseconds in a microsecond."""
DAY_SECONDS = 86400
DAY_MICROS = DAY_SECONDS * 10**6
FIRST_YEAR, LAST_YEAR = 1972, 2099

EPOCH = re.compile(r"(\d{4})-(?:(\d\d)-(\d\d)|(\d{3}))T(\d\d):(\d\d):(\d\d)(?:\.(\d*))?Z?", re.ASCII)
ORIGIN = date(1970, 1, 1)


class BadEpoch(ValueError):
    """A text that says no epoch; the message says why."""


@dataclass(frozen=True)
class Label:
    """An epoch as it is written: the day since 1970-01-01, and the femtoseconds since its midnight, 86,400 s or more in a leap second."""

    day: int
    rest: int


@lru_cache(maxsize=4096)
def day_number(year: str, month: str | None, day: str | None, day_of_year: str | None) -> int:
    """The days from 1970-01-01 to a date as it is written."""
    if not FIRST_YEAR <= int(year) <= LAST_YEAR:
        raise BadEpoch(f"the year {year} is not from {FIRST_YEAR} to {LAST_YEAR}")
    try:
        if day_of_year is None:
            return (date(int(year), int(month or 0), int(day or 0)) - ORIGIN).days
        found = date(int(year), 1, 1) + timedelta(days=int(day_of_year) - 1)
    except ValueError:
        raise BadEpoch("there is no such day") from None
    if found.year != int(year):
        raise BadEpoch("there is no such day")
    return (found - ORIGIN).days


def read_label(text: str) -> Label:
    """An epoch of CCSDS 502.0-B-2, by month or by day of the year."""
    match = EPOCH.fullmatch(text)
    if match is None:
        raise BadEpoch(f"{text!r} is no epoch of the form YYYY-MM-DDThh:mm:ss.d or YYYY-DDDThh:mm:ss.d")
    year, month, day, day_of_year, hour, minute, second, fraction = match.groups()
    number = day_number(year, month, day, day_of_year)
    if int(hour) > 23 or int(minute) > 59 or int(second) > 60:
        raise BadEpoch(f"{text!r} has no such time of the day")
    digits = (fraction or "").rstrip("0")
    if len(digits) > 15:
        raise BadEpoch(f"{text!r} is finer than a femtosecond")
    if second == "60" and (hour, minute) != ("23", "59"):
        raise BadEpoch(f"{text!r} has a second 60 that is not at the end of a day")
    seconds = int(hour) * 3600 + int(minute) * 60 + int(second)
    return Label(number, seconds * SECOND + int(digits.ljust(15, "0")))


@dataclass(frozen=True)
class Stretch:
    """UTC from one leap second to the next: ticks of TAI, both included, and the seconds that TAI is ahead."""

    first: int
    last: int
    ahead: int


@lru_cache(maxsize=None)
def stretches() -> tuple[Stretch, ...]:
    """All stretches from 1972 to 2099."""
    starts = [((date(int(year), int(month), 1) - ORIGIN).days, int(ahead))
              for year, month, ahead in erfa.leap_seconds.get() if int(year) >= FIRST_YEAR]
    ends = [day for day, _ in starts[1:]] + [(date(LAST_YEAR + 1, 1, 1) - ORIGIN).days]
    return tuple(Stretch(day * DAY_MICROS + ahead * 10**6, end * DAY_MICROS + ahead * 10**6 - 1, ahead)
                 for (day, ahead), end in zip(starts, ends))


@lru_cache(maxsize=None)
def stretch_days() -> tuple[int, ...]:
    """The first day of each stretch."""
    return tuple((stretch.first - stretch.ahead * 10**6) // DAY_MICROS for stretch in stretches())


@lru_cache(maxsize=65536)
def ahead_on(day: int) -> int:
    """The seconds that TAI is ahead of UTC on a day."""
    return stretches()[bisect_right(stretch_days(), day) - 1].ahead


def tai_of_utc(label: Label) -> int:
    """Femtoseconds of TAI of an epoch in UTC."""
    ahead = ahead_on(label.day)
    if label.rest >= DAY_SECONDS * SECOND and ahead_on(label.day + 1) == ahead:
        raise BadEpoch("the day has no second 60")
    return (label.day * DAY_SECONDS + ahead) * SECOND + label.rest


def count_of(label: Label) -> int:
    """Femtoseconds of an epoch in a scale without leap seconds."""
    if label.rest >= DAY_SECONDS * SECOND:
        raise BadEpoch("only UTC has a second 60")
    return label.day * DAY_SECONDS * SECOND + label.rest


def utc_of_tick(tick: int) -> int:
    """Microseconds of UTC of a tick; within a leap second the midnight that follows."""
    for stretch in reversed(stretches()):
        if tick >= stretch.first:
            return min(tick, stretch.last + 1) - stretch.ahead * 10**6
    raise BadEpoch("the time is before 1972")


@lru_cache(maxsize=4096)
def day_text(day: int) -> str:
    """The date of a day since 1970-01-01."""
    return (ORIGIN + timedelta(days=day)).isoformat()


def utc_text(micros: int) -> str:
    """An epoch with six decimals of microseconds of UTC."""
    day, rest = divmod(micros, DAY_MICROS)
    seconds, fraction = divmod(rest, 10**6)
    minutes, second = divmod(seconds, 60)
    return f"{day_text(day)}T{minutes // 60:02d}:{minutes % 60:02d}:{second:02d}.{fraction:06d}"
