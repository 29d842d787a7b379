"""What a run of the workflow is asked, as its configuration says it."""

from __future__ import annotations

from collections.abc import Mapping
from dataclasses import dataclass
from datetime import datetime, timezone
from enum import Enum

from conjtools.epochs import EpochFault, read_epoch
from conjtools.faults import InputFault
from conjtools.report import Window

CONFIGURATION = "configuration"
DAY_IN_MINUTES = 1440
DEFAULT_SUFFIX = ".oem"
DEFAULT_MEMORY = 2000
MOST_THREADS = 16
MOST_MINUTES = 20_160
MOST_MEMORY = 10_000_000
MOST_RETRIES = 100


class Option(Enum):
    """What an option of the program is: with a value or without, and of which commands."""

    VALUE = "has a value, of screen and check"
    FLAG = "has no value, of screen and check"
    SCREEN_VALUE = "has a value, of screen alone"
    SCREEN_FLAG = "has no value, of screen alone"


OPTIONS = {
    "threshold": Option.VALUE,
    "sizes": Option.VALUE,
    "primaries": Option.VALUE,
    "suffix": Option.VALUE,
    "as-hermite3": Option.FLAG,
    "large": Option.FLAG,
    "brief": Option.FLAG,
    "originator": Option.SCREEN_VALUE,
    "cells": Option.SCREEN_VALUE,
    "cert-version": Option.SCREEN_VALUE,
    "rtn": Option.SCREEN_FLAG,
    "coverage": Option.FLAG,
    "must-cover": Option.SCREEN_FLAG,
}
# Options whose values are names of files that tell something of objects and are no ephemerides.
FILES_BESIDE = ("sizes", "primaries")
KEYS = ("folder", "from", "to", "part_minutes", "options", "results", "page", "threads", "memory_mb", "retries", "program")


@dataclass(frozen=True)
class Settings:
    """The folder of the ephemerides, the whole window, the length of a part in minutes, the options of the program by their names with
    their values (an empty text: a flag), the folder of the results, whether a page is made, threads and MB of memory of a part, how often a part
    that failed is tried again, and the program."""

    folder: str
    window: Window
    part_minutes: int
    options: tuple[tuple[str, str], ...]
    results: str
    page: bool
    threads: int
    memory_mb: int
    retries: int
    program: str

    @property
    def suffix(self) -> str:
        """How the names of ephemerides end."""
        return dict(self.options).get("suffix", DEFAULT_SUFFIX)

    @property
    def beside(self) -> frozenset[str]:
        """The names of the files that are read beside the ephemerides."""
        return files_beside(self.options)

    def screen_words(self) -> list[str]:
        """The options of the program's command `screen`."""
        return words_of(self.options)

    def check_words(self) -> list[str]:
        """The options of the program's command `check`, by which it asks for the same case."""
        return words_of(tuple((name, value) for name, value in self.options if OPTIONS[name] in (Option.VALUE, Option.FLAG)))


def files_beside(options: tuple[tuple[str, str], ...]) -> frozenset[str]:
    """The names of the files, by these options, that tell the sizes of objects and which are primaries."""
    return frozenset(value for name, value in options if name in FILES_BESIDE)


def words_of(options: tuple[tuple[str, str], ...]) -> list[str]:
    """Options as words of a command line; one with a value is one word, so that no value is taken for an option."""
    return [f"--{name}={value}" if value else f"--{name}" for name, value in options]


def read_settings(told: Mapping[str, object], default_program: str) -> Settings:
    """What a configuration says; InputFault where it says what cannot be."""
    for key in told:
        if key not in KEYS:
            raise refuse(f"{key}: no such setting; there are {', '.join(KEYS)}")
    window = Window(epoch_of(told, "from"), epoch_of(told, "to"))
    if window.first > window.last:
        raise refuse("to: comes before from")
    return Settings(
        text_of(told, "folder"),
        window,
        count_of(told, "part_minutes", DAY_IN_MINUTES, 1, MOST_MINUTES),
        options_of(told.get("options")),
        text_of(told, "results"),
        truth_of(told, "page", True),
        count_of(told, "threads", 1, 1, MOST_THREADS),
        count_of(told, "memory_mb", DEFAULT_MEMORY, 1, MOST_MEMORY),
        count_of(told, "retries", 1, 0, MOST_RETRIES),
        text_of(told, "program", default_program),
    )


def as_told(told: Mapping[str, object]) -> dict[str, object]:
    """A configuration as it can stand in JSON."""
    return {key: in_utc(value).isoformat() if isinstance(value, datetime) else value for key, value in told.items()}


def refuse(cause: str) -> InputFault:
    """A fault of the configuration."""
    return InputFault(CONFIGURATION, 0, cause)


def text_of(told: Mapping[str, object], key: str, default: str = "") -> str:
    """A text that is not empty and has no control character, and does not begin as an option does."""
    value = told.get(key)
    text = default if value is None else value
    if not isinstance(text, str) or not text or text.startswith("-") or not text.isprintable():
        raise refuse(f"{key}: a path is wanted, not: {text!r}")
    return text


def count_of(told: Mapping[str, object], key: str, default: int, least: int, most: int) -> int:
    """A whole number."""
    value = told.get(key)
    number = default if value is None else value
    if not isinstance(number, int) or isinstance(number, bool) or not least <= number <= most:
        raise refuse(f"{key}: a whole number from {least} to {most} is wanted, not: {number!r}")
    return number


def truth_of(told: Mapping[str, object], key: str, default: bool) -> bool:
    """True or false."""
    value = told.get(key)
    if value is not None and not isinstance(value, bool):
        raise refuse(f"{key}: true or false is wanted, not: {value!r}")
    return default if value is None else value


def epoch_of(told: Mapping[str, object], key: str) -> int:
    """The tick of an epoch. YAML reads one that stands without quotes as a time of its own kind, and so it may come."""
    value = told.get(key)
    text = value if isinstance(value, str) else in_utc(value).isoformat() if isinstance(value, datetime) else ""
    try:
        return read_epoch(text.replace(" ", "T"))
    except EpochFault as fault:
        raise refuse(f"{key}: an epoch as 2025-01-01T00:00:00 is wanted ({fault.cause.value}), not: {value!r}") from None


def in_utc(value: datetime) -> datetime:
    """A time without a zone: that of UTC."""
    return value if value.tzinfo is None else value.astimezone(timezone.utc).replace(tzinfo=None)


def options_of(value: object) -> tuple[tuple[str, str], ...]:
    """The options of the program that are given, in order of their names."""
    if value is None:
        return ()
    if not isinstance(value, Mapping):
        raise refuse(f"options: names with values are wanted, not: {value!r}")
    given: list[tuple[str, str]] = []
    for name, told in value.items():
        if name not in OPTIONS:
            raise refuse(f"options: {name}: no such option here; there are {', '.join(OPTIONS)}")
        if OPTIONS[name] in (Option.FLAG, Option.SCREEN_FLAG):
            if not isinstance(told, bool):
                raise refuse(f"options: {name}: true or false is wanted, not: {told!r}")
            if told:
                given.append((name, ""))
        elif told is not None:
            if isinstance(told, bool) or not isinstance(told, (str, int)) or not str(told) or not str(told).isprintable():
                raise refuse(f"options: {name}: a value is wanted, not: {told!r}")
            given.append((name, str(told)))
    return tuple(sorted(given))
