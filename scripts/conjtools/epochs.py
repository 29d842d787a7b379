"""Epochs as ticks: whole microseconds since 1970-01-01T00:00:00 UTC, of days of 86,400 seconds, from 1972 to 2099.

The texts are those of CCSDS 502.0-B-2 in the profile of docs/FORMATS.md.
"""

from __future__ import annotations

import functools
import re
from datetime import date, timedelta
from enum import Enum

SECOND = 1_000_000
DAY = 86_400 * SECOND
FIRST_YEAR, LAST_YEAR = 1972, 2099
EPOCH_DAY = date(1970, 1, 1).toordinal()

CALENDAR = re.compile(r"(\d{4})-(\d\d)-(\d\d)T(\d\d):(\d\d):(\d\d)", re.ASCII)
ORDINAL = re.compile(r"(\d{4})-(\d{3})T(\d\d):(\d\d):(\d\d)", re.ASCII)
FRACTION = re.compile(r"(?:\.(\d+))?Z?", re.ASCII)
WRITTEN = re.compile(r"(\d{4}-\d\d-\d\d)T(\d\d):(\d\d):(\d\d)\.(\d{6})", re.ASCII)

# IERS Bulletin C: a leap second stands at the end of each of these days.
JUNE_LEAPS = (1972, 1981, 1982, 1983, 1985, 1992, 1993, 1994, 1997, 2012, 2015)
DECEMBER_LEAPS = (1972, 1973, 1974, 1975, 1976, 1977, 1978, 1979, 1987, 1989, 1990, 1995, 1998, 2005, 2008, 2016)


class EpochCause(Enum):
    """Why a text is no epoch."""

    FORM = "Form"
    RANGE = "Range"
    SECOND_SIXTY = "SecondSixty"
    TOO_FINE = "TooFine"


class EpochFault(ValueError):
    """A text that is no epoch, with the cause."""

    def __init__(self, cause: EpochCause) -> None:
        super().__init__(cause.value)
        self.cause = cause


def day_number(day: date) -> int:
    """Days from 1970-01-01 to a day."""
    return day.toordinal() - EPOCH_DAY


@functools.lru_cache(maxsize=4096)
def day_of_date(year: int, month: int, day: int) -> int | None:
    """The day with this date, counted from 1970-01-01, where there is one in the years of ticks."""
    if not FIRST_YEAR <= year <= LAST_YEAR:
        return None
    try:
        return day_number(date(year, month, day))
    except ValueError:
        return None


@functools.lru_cache(maxsize=4096)
def day_of_ordinal(year: int, ordinal: int) -> int | None:
    """The day with this place in its year, counted from 1970-01-01, where there is one in the years of ticks."""
    if not FIRST_YEAR <= year <= LAST_YEAR or ordinal < 1:
        return None
    day = date(year, 1, 1) + timedelta(days=ordinal - 1)
    return day_number(day) if day.year == year else None


def leap_ticks() -> tuple[int, ...]:
    """The first tick of each day that follows a leap second, in order."""
    days = [date(year, 7, 1) for year in JUNE_LEAPS] + [date(year + 1, 1, 1) for year in DECEMBER_LEAPS]
    return tuple(sorted(day_number(day) * DAY for day in days))


LEAP_TICKS = leap_ticks()


def leap_lies_between(earlier: int, later: int) -> bool:
    """Whether a leap second lies between two ticks."""
    return earlier < LEAP_TICKS[-1] and any(earlier < tick <= later for tick in LEAP_TICKS)


def read_epoch(text: str) -> int:
    """The tick that an epoch text says, as `YYYY-MM-DDThh:mm:ss` or `YYYY-DDDThh:mm:ss` with decimals and `Z` or without."""
    match = CALENDAR.match(text)
    if match:
        year, month, day_of_month, hour, minute, second = (int(group) for group in match.groups())
        day = day_of_date(year, month, day_of_month)
    else:
        match = ORDINAL.match(text)
        if not match:
            raise EpochFault(EpochCause.FORM)
        year, ordinal, hour, minute, second = (int(group) for group in match.groups())
        day = day_of_ordinal(year, ordinal)
    ending = FRACTION.fullmatch(text, match.end())
    if not ending:
        raise EpochFault(EpochCause.FORM)
    if day is None or hour > 23 or minute > 59 or second > 60:
        raise EpochFault(EpochCause.RANGE)
    if second == 60:
        raise EpochFault(EpochCause.SECOND_SIXTY)
    decimals = ending.group(1) or ""
    if decimals[6:].strip("0"):
        raise EpochFault(EpochCause.TOO_FINE)
    return day * DAY + ((hour * 60 + minute) * 60 + second) * SECOND + int(decimals[:6].ljust(6, "0"))


@functools.lru_cache(maxsize=4096)
def date_text(day: int) -> str:
    """YYYY-MM-DD of a day that is counted from 1970-01-01."""
    return date.fromordinal(day + EPOCH_DAY).isoformat()


def epoch_text(tick: int) -> str:
    """A tick as `YYYY-MM-DDThh:mm:ss.ffffff`, the one form in which `conj` writes epochs."""
    day, rest = divmod(tick, DAY)
    seconds, micros = divmod(rest, SECOND)
    minutes, second = divmod(seconds, 60)
    hour, minute = divmod(minutes, 60)
    return f"{date_text(day)}T{hour:02}:{minute:02}:{second:02}.{micros:06}"


@functools.lru_cache(maxsize=4096)
def midnight_of(day: str) -> int:
    """The first tick of a day that is written as YYYY-MM-DD."""
    return read_epoch(f"{day}T00:00:00")


def read_written_epoch(text: str) -> int:
    """The tick of a text that has the form of `epoch_text`, and no other."""
    match = WRITTEN.fullmatch(text)
    if not match:
        raise EpochFault(EpochCause.FORM)
    day, hour, minute, second, micros = match.groups()
    if hour > "23" or minute > "59" or second > "59":
        return read_epoch(text)
    return midnight_of(day) + ((int(hour) * 60 + int(minute)) * 60 + int(second)) * SECOND + int(micros)
