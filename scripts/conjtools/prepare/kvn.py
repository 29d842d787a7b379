"""Reads the key-value notation (CCSDS 502.0-B-1, B-2 and B-3)."""
from __future__ import annotations

import re
from dataclasses import dataclass, field
from enum import Enum, auto

from .faults import Refused
from .message import HEADER, METADATA, NEEDED, VERSIONS, Given, MatrixLines, Message, SegmentLines, StateLine

PAIR = re.compile(r"([A-Z][A-Z0-9_]*)[ \t]*=[ \t]*(.*)", re.ASCII)


class Stage(Enum):
    """Where in a message a line stands."""

    HEADER = auto()
    METADATA = auto()
    STATES = auto()
    MATRICES = auto()
    BEHIND = auto()


@dataclass
class Matrix:
    """A covariance that is being read."""

    epoch: Given
    frame: Given | None = None
    rows: list[list[str]] = field(default_factory=list)


@dataclass
class Reading:
    """What was read so far."""

    file: str
    stage: Stage = Stage.HEADER
    header: dict[str, Given] = field(default_factory=dict)
    segments: list[SegmentLines] = field(default_factory=list)
    keys: dict[str, Given] = field(default_factory=dict)
    keys_end: int = 0
    states: list[StateLine] = field(default_factory=list)
    matrices: list[MatrixLines] = field(default_factory=list)
    matrix: Matrix | None = None

    def refuse(self, line: int, what: str) -> Refused:
        return Refused(self.file, line, what)


def read_kvn(file: str, text: str) -> Message:
    """The message that a text says."""
    reading = Reading(file)
    number = 0
    for number, raw in enumerate(text.split("\n"), 1):
        line = raw.strip(" \t\r")
        if not line or line == "COMMENT" or line.startswith(("COMMENT ", "COMMENT\t")):
            continue
        if reading.stage is Stage.STATES and "=" not in line and "_START" not in line:
            fields = line.split()
            reading.states.append(StateLine(fields[0], tuple(fields[1:]), number))
            continue
        if not line.isascii() or not line.replace("\t", " ").isprintable():
            raise reading.refuse(number, "a byte that is not printable ASCII")
        read_line(reading, number, line)
    if reading.stage not in (Stage.STATES, Stage.BEHIND):
        raise reading.refuse(number, "the file ends before the states of a segment, or within its covariances")
    close_segment(reading)
    return Message(file, reading.header, tuple(reading.segments))


def read_line(reading: Reading, number: int, line: str) -> None:
    """A line that is no state."""
    pair = PAIR.fullmatch(line)
    if not reading.header and (pair is None or pair[1] != "CCSDS_OEM_VERS"):
        raise reading.refuse(number, "an OEM begins with CCSDS_OEM_VERS")
    if pair is not None:
        read_pair(reading, pair[1], Given(pair[2].replace("\t", " "), number))
    elif line in MARKS:
        MARKS[line](reading, number)
    elif reading.stage is Stage.MATRICES:
        read_row(reading, number, line.split())
    else:
        raise reading.refuse(number, f"{line[:40]!r} may not stand here")


def read_pair(reading: Reading, key: str, value: Given) -> None:
    """A key with its value."""
    if reading.stage is Stage.HEADER:
        if key == "CCSDS_OEM_VERS" and value.text not in VERSIONS:
            raise reading.refuse(value.line, f"the version {value.text} is not 1.0, 2.0 or 3.0")
        keep_key(reading, reading.header, (*HEADER, "CCSDS_OEM_VERS"), key, value)
    elif reading.stage is Stage.METADATA:
        keep_key(reading, reading.keys, METADATA, key, value)
    elif reading.stage is Stage.MATRICES and key == "EPOCH":
        close_matrix(reading, value.line)
        reading.matrix = Matrix(value)
    elif reading.stage is Stage.MATRICES and key == "COV_REF_FRAME":
        if reading.matrix is None or reading.matrix.rows or reading.matrix.frame is not None:
            raise reading.refuse(value.line, "COV_REF_FRAME stands once between EPOCH and the first row")
        reading.matrix.frame = value
    else:
        raise reading.refuse(value.line, f"{key} may not stand here")


def keep_key(reading: Reading, keys: dict[str, Given], known: tuple[str, ...], key: str, value: Given) -> None:
    """Keeps a key of a header or of metadata."""
    if key not in known:
        raise reading.refuse(value.line, f"{key} is not known here")
    if key in keys:
        raise reading.refuse(value.line, f"{key} was given before")
    keys[key] = value


def start_metadata(reading: Reading, number: int) -> None:
    """META_START."""
    if reading.stage is Stage.HEADER:
        for key in HEADER[:2]:
            if key not in reading.header:
                raise reading.refuse(number, f"the header has no {key}")
    elif reading.stage in (Stage.STATES, Stage.BEHIND):
        close_segment(reading)
    else:
        raise reading.refuse(number, "META_START may not stand here")
    reading.stage = Stage.METADATA


def stop_metadata(reading: Reading, number: int) -> None:
    """META_STOP."""
    if reading.stage is not Stage.METADATA:
        raise reading.refuse(number, "META_STOP may not stand here")
    for key in NEEDED:
        if key not in reading.keys:
            raise reading.refuse(number, f"the metadata has no {key}")
    reading.keys_end = number
    reading.stage = Stage.STATES


def start_matrices(reading: Reading, number: int) -> None:
    """COVARIANCE_START."""
    if reading.stage is not Stage.STATES:
        raise reading.refuse(number, "COVARIANCE_START may not stand here")
    reading.stage = Stage.MATRICES


def stop_matrices(reading: Reading, number: int) -> None:
    """COVARIANCE_STOP."""
    if reading.stage is not Stage.MATRICES:
        raise reading.refuse(number, "COVARIANCE_STOP may not stand here")
    close_matrix(reading, number)
    reading.stage = Stage.BEHIND


MARKS = {"META_START": start_metadata, "META_STOP": stop_metadata, "COVARIANCE_START": start_matrices, "COVARIANCE_STOP": stop_matrices}


def read_row(reading: Reading, number: int, fields: list[str]) -> None:
    """A row of a covariance: the i-th has i numbers."""
    if reading.matrix is None or len(reading.matrix.rows) == 6:
        raise reading.refuse(number, "a row of a covariance without its EPOCH")
    reading.matrix.rows.append(fields)
    if len(fields) != len(reading.matrix.rows):
        raise reading.refuse(number, f"row {len(reading.matrix.rows)} of a covariance has {len(fields)} numbers")


def close_matrix(reading: Reading, number: int) -> None:
    """The end of a covariance, where one is being read."""
    matrix = reading.matrix
    if matrix is None:
        return
    if len(matrix.rows) != 6:
        raise reading.refuse(number, f"the covariance before has {len(matrix.rows)} rows of 6")
    reading.matrices.append(MatrixLines(matrix.epoch, matrix.frame, tuple(text for row in matrix.rows for text in row)))
    reading.matrix = None


def close_segment(reading: Reading) -> None:
    """The end of a segment."""
    reading.segments.append(SegmentLines(reading.keys, reading.keys_end, tuple(reading.states), tuple(reading.matrices)))
    reading.keys, reading.states, reading.matrices = {}, [], []
