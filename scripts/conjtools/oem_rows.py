"""The rows of nodes that are written alike, read many at a time. What is not plain is left to the reader of single rows."""

from __future__ import annotations

import functools
import re

import numpy as np
import numpy.typing as npt

from conjtools.epochs import LEAP_TICKS, EpochFault, read_epoch

LARGEST_COORDINATE = 500_000 * 10**12
LARGEST_RATE = 20 * 10**12
LONGEST_STEP = 3_600_000_000
PLACES = 12

FIRST_NUMBER = re.compile(rb"[+-]?\d+\.(\d+)([Ee])?")
ACCELERATIONS = re.compile(rb"(?:[+-]?\d{1,9}\.\d{1,18}(?:[Ee][+-]?\d{1,2})? )*")


@functools.lru_cache(maxsize=65_536)
def cached_epoch(text: bytes) -> int:
    """The tick of an epoch text. Many ephemerides of a catalogue have states at the same epochs."""
    return read_epoch(text.decode("ascii"))


@functools.lru_cache(maxsize=64)
def numbers_form(decimals: int, with_exponent: bool) -> re.Pattern[bytes]:
    """Numbers with so many decimals, with an exponent or without, and a space behind each."""
    whole = rb"\d" if with_exponent else rb"\d{1,6}"
    exponent = rb"E[+-]\d\d" if with_exponent else rb""
    return re.compile(rb"(?:[+-]?%b\.\d{%d}%b )+" % (whole, decimals, exponent))


def read_plain_numbers(fields: list[bytes]) -> npt.NDArray[np.int64] | None:
    """Numbers in units of 10^-12, each as the nearest whole one, halves away from zero; nothing where they are not written alike."""
    match = FIRST_NUMBER.match(fields[0])
    if not match:
        return None
    decimals, with_exponent = len(match.group(1)), bool(match.group(2))
    if decimals > (16 if with_exponent else PLACES):
        return None
    text = b" ".join(fields) + b" "
    if not numbers_form(decimals, with_exponent).fullmatch(text):
        return None
    text = text.replace(b".", b"")
    whole_numbers: npt.NDArray[np.int64] = np.fromstring(text.replace(b"E", b" ").decode("ascii"), dtype=np.int64, sep=" ")
    if not with_exponent:
        return whole_numbers * np.int64(10 ** (PLACES - decimals))
    return scaled(whole_numbers[0::2], whole_numbers[1::2] + (PLACES - decimals))


def scaled(digits: npt.NDArray[np.int64], powers: npt.NDArray[np.int64]) -> npt.NDArray[np.int64] | None:
    """Numbers of up to 17 digits times powers of ten, each as the nearest whole one; nothing where one leaves 64 bits."""
    if len(powers) and (powers.max() > 6 or powers.min() < -17):
        return None
    sizes = np.abs(digits)
    raised = np.power(10, np.clip(powers, 0, 6))
    if np.any(sizes > 9 * 10**17 // raised):
        return None
    divisors = np.power(10, np.clip(-powers, 0, 17))
    quotients, rests = np.divmod(sizes * raised, divisors)
    rounded: npt.NDArray[np.int64] = np.sign(digits) * (quotients + (rests >= divisors - rests))
    return rounded


def read_plain_rows(rows: list[bytes]) -> tuple[npt.NDArray[np.int64], npt.NDArray[np.int64]] | None:
    """The ticks (n,) and the states (n, 6), in nm and nm/s, of rows that are written alike and have no fault; nothing of others."""
    if len(rows) < 2:
        return None
    fields = [row.split() for row in rows]
    counts = set(map(len, fields))
    if counts != {7} and counts != {10}:
        return None
    columns = [list(column) for column in zip(*fields)]
    try:
        times = np.array([cached_epoch(text) for text in columns[0]], dtype=np.int64)
    except EpochFault:
        return None
    numbers = [read_plain_numbers(column) for column in columns[1:7]]
    found = [column for column in numbers if column is not None]
    if len(found) < 6 or not all(ACCELERATIONS.fullmatch(b" ".join(column) + b" ") for column in columns[7:]):
        return None
    states = np.stack(found, axis=1)
    steps = np.diff(times)
    sizes = np.abs(states)
    plain = steps.min() > 0 and steps.max() <= LONGEST_STEP and times[0] >= LEAP_TICKS[-1]
    within = sizes[:, :3].max() <= LARGEST_COORDINATE and sizes[:, 3:].max() <= LARGEST_RATE
    return (times, states) if plain and within else None
