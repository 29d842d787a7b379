"""An ephemeris message as it is written: texts and the lines on which they stand, of both notations."""
from __future__ import annotations

from dataclasses import dataclass

METADATA = ("OBJECT_NAME", "OBJECT_ID", "CENTER_NAME", "REF_FRAME", "REF_FRAME_EPOCH", "TIME_SYSTEM", "START_TIME", "USEABLE_START_TIME",
            "USEABLE_STOP_TIME", "STOP_TIME", "INTERPOLATION", "INTERPOLATION_DEGREE")
"""The keys of a segment's metadata (CCSDS 502.0-B-2, table 5-3)."""
NEEDED = ("OBJECT_NAME", "OBJECT_ID", "CENTER_NAME", "REF_FRAME", "TIME_SYSTEM", "START_TIME", "STOP_TIME")
HEADER = ("CREATION_DATE", "ORIGINATOR", "CLASSIFICATION", "MESSAGE_ID")
VERSIONS = ("1.0", "2.0", "3.0")


@dataclass(frozen=True)
class Given:
    """A value and its line."""

    text: str
    line: int


@dataclass(frozen=True)
class StateLine:
    """A state: its epoch and its numbers, place in km and rate in km/s."""

    epoch: str
    numbers: tuple[str, ...]
    line: int


@dataclass(frozen=True)
class MatrixLines:
    """A covariance: its epoch, its frame where one is given, and the 21 numbers of its lower triangle, row by row."""

    epoch: Given
    frame: Given | None
    numbers: tuple[str, ...]


@dataclass(frozen=True)
class SegmentLines:
    """A segment: its metadata by key, the line where that ends, its states and covariances."""

    keys: dict[str, Given]
    line: int
    states: tuple[StateLine, ...]
    matrices: tuple[MatrixLines, ...]


@dataclass(frozen=True)
class Message:
    """A message: the file's name, its header by key and its segments."""

    file: str
    header: dict[str, Given]
    segments: tuple[SegmentLines, ...]
