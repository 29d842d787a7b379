"""Writes an object as one OEM that `conj` reads: UTC, EME2000, cubic Hermite."""
from __future__ import annotations

from dataclasses import dataclass

from .balls import Wholes
from .epochs import utc_text
from .message import Message

NM = 10**12
"""Nanometres in a kilometre."""


@dataclass(frozen=True)
class Span:
    """A segment that is written: microseconds of UTC (n), places in nm and rates in nm/s (n, 3), the useable span, covariances by epoch, and its comment."""

    ticks: Wholes
    places: Wholes
    rates: Wholes
    first: int
    last: int
    covariances: tuple[tuple[int, tuple[str, ...]], ...]
    comment: str


def kilometres(number: int) -> str:
    """Whole nm as km, or nm/s as km/s."""
    whole, part = divmod(abs(number), NM)
    return f"{'-' if number < 0 else ''}{whole}.{part:012d}"


def ephemeris_text(message: Message, name: str, designator: str, spans: list[Span]) -> str:
    """The whole file."""
    lines = ["CCSDS_OEM_VERS = 2.0", f"CREATION_DATE = {message.header['CREATION_DATE'].text}", f"ORIGINATOR = {message.header['ORIGINATOR'].text}"]
    for span in spans:
        lines += span_lines(name, designator, span)
    return "\n".join(lines) + "\n"


def span_lines(name: str, designator: str, span: Span) -> list[str]:
    """The lines of a segment."""
    first, last = int(span.ticks[0]), int(span.ticks[-1])
    lines = ["META_START", f"COMMENT {span.comment}", f"OBJECT_NAME = {name}", f"OBJECT_ID = {designator}", "CENTER_NAME = EARTH", "REF_FRAME = EME2000",
             "TIME_SYSTEM = UTC", f"START_TIME = {utc_text(first)}"]
    if (first, last) != (span.first, span.last):
        lines += [f"USEABLE_START_TIME = {utc_text(span.first)}", f"USEABLE_STOP_TIME = {utc_text(span.last)}"]
    lines += [f"STOP_TIME = {utc_text(last)}", "INTERPOLATION = HERMITE", "INTERPOLATION_DEGREE = 3", "META_STOP"]
    lines += [f"{utc_text(tick)} {' '.join(kilometres(number) for number in (*place, *rate))}"
              for tick, place, rate in zip(span.ticks.tolist(), span.places.tolist(), span.rates.tolist())]
    if span.covariances:
        lines.append("COVARIANCE_START")
        for tick, numbers in span.covariances:
            lines += [f"EPOCH = {utc_text(tick)}", "COV_REF_FRAME = RTN"]
            lines += [" ".join(numbers[row * (row + 1) // 2:(row + 1) * (row + 2) // 2]) for row in range(6)]
        lines.append("COVARIANCE_STOP")
    return lines
