"""Orbit Ephemeris Messages (CCSDS 502.0-B-2, key-value notation), read as `conj` reads them with `--as-hermite3`.

A file is taken, or refused with the line and the cause, by the rules of docs/FORMATS.md. Places are in nm and rates in nm/s,
each the nearest whole number; times are ticks.
"""

from __future__ import annotations

import re
from array import array
from collections.abc import Callable
from dataclasses import dataclass

import numpy as np
import numpy.typing as npt

from conjtools.epochs import EpochFault, leap_lies_between
from conjtools.faults import InputFault
from conjtools.kvn import MARKS, KvnFault, LineKind, checked_lines, is_decimal, is_file_name, kind_of, read_scaled, split_pair
from conjtools.oem_rows import LARGEST_COORDINATE, LARGEST_RATE, LONGEST_STEP, PLACES, cached_epoch, read_plain_rows

LARGEST_FILE = 67_108_864
VERSIONS = (b"1.0", b"2.0", b"3.0")
FRAMES = ("EME2000", "GCRF")
HEADER_KEYS = (b"CREATION_DATE", b"ORIGINATOR", b"CLASSIFICATION", b"MESSAGE_ID")
NEEDED_KEYS = (b"OBJECT_NAME", b"OBJECT_ID", b"CENTER_NAME", b"REF_FRAME", b"TIME_SYSTEM", b"START_TIME", b"STOP_TIME")
EPOCH_KEYS = (b"START_TIME", b"STOP_TIME", b"USEABLE_START_TIME", b"USEABLE_STOP_TIME")
UNUSED_KEYS = (b"REF_FRAME_EPOCH", b"INTERPOLATION", b"INTERPOLATION_DEGREE")

# What `scripts/prepare` says of a segment: how far its cubic is from the curve that was declared, in metres (docs/PREPARE.md).
PREPARED = re.compile(rb"^COMMENT PREPARED FROM [^\r\n]*; WITHIN (\d{1,9}\.\d{9}) m\r?$", re.MULTILINE)


@dataclass(frozen=True)
class Segment:
    """The first and the last useable tick, the ticks of its n states in order of time, the states (n, 6), each a place in nm and a rate
    in nm/s, and the epochs of the covariances in RTN."""

    first: int
    last: int
    times: npt.NDArray[np.int64]
    states: npt.NDArray[np.int64]
    covariances: tuple[int, ...]


@dataclass(frozen=True)
class Ephemeris:
    """One object: the name of its file, its name, designator and frame, its segments in order of time, and the greatest bound in nm
    that its comments tell of cubics that were prepared, if they tell one."""

    file: str
    name: str
    designator: str
    frame: str
    segments: tuple[Segment, ...]
    prepared: int | None = None


@dataclass(frozen=True)
class Metadata:
    """What the metadata of a segment says that is used."""

    name: str
    designator: str
    frame: str
    first: int
    last: int


@dataclass
class Cursor:
    """The lines of a file that say something, each with its number, and how far they are read. Behind the last stands an empty
    text at the end of the file, which counts as one line more."""

    file: str
    lines: list[tuple[int, bytes]]
    place: int = 0

    def line(self) -> tuple[int, bytes]:
        return self.lines[self.place]

    def refuse(self, cause: str) -> InputFault:
        return InputFault(self.file, self.lines[self.place][0], cause)


def read_oem(file: str, content: bytes) -> Ephemeris:
    """What the bytes of the file with this name say; InputFault where they are refused."""
    cursor = cursor_of(file, content)
    read_header(cursor)
    first: Metadata | None = None
    segments: list[Segment] = []
    while cursor.line()[1] or not segments:
        metadata = read_metadata(cursor, first)
        first = first or metadata
        segments.append(read_segment(cursor, metadata, segments[-1].last if segments else 0))
    assert first is not None
    return Ephemeris(file, first.name, first.designator, first.frame, tuple(segments), prepared_within(content))


def read_first_metadata(file: str, content: bytes) -> Metadata:
    """What the metadata of the first segment says, by bytes that reach to its end at least; InputFault where it is refused."""
    cursor = cursor_of(file, content)
    read_header(cursor)
    return read_metadata(cursor, None)


def cursor_of(file: str, content: bytes) -> Cursor:
    """The lines of a file that say something, from the first on."""
    if not is_file_name(file):
        raise InputFault(file, 0, "Name")
    try:
        lines = checked_lines(content)
    except KvnFault as fault:
        raise InputFault(file, fault.line, fault.cause) from None
    telling = [(number, text) for number, text in enumerate(lines, 1) if text]
    return Cursor(file, telling + [(len(lines) + 1, b"")])


def prepared_within(content: bytes) -> int | None:
    """The greatest bound in nm that comments tell of prepared cubics, if there is one."""
    return max((int(bound.replace(b".", b"")) for bound in PREPARED.findall(content)), default=None)


def read_header(cursor: Cursor) -> None:
    """The lines up to META_START, at which the cursor then stands."""
    text = cursor.line()[1]
    if not text:
        raise cursor.refuse("Missing")
    key, value = split_pair(text)
    if kind_of(text) is not LineKind.PAIR or key != b"CCSDS_OEM_VERS":
        raise cursor.refuse("Order")
    if value not in VERSIONS:
        raise cursor.refuse("Version")
    given = {b"CCSDS_OEM_VERS"}
    cursor.place += 1
    while (text := cursor.line()[1]) != b"META_START":
        if not text:
            raise cursor.refuse("Missing")
        if kind_of(text) is not LineKind.PAIR:
            raise cursor.refuse("Order")
        key = split_pair(text)[0]
        if key in given:
            raise cursor.refuse("Twice")
        if key not in HEADER_KEYS:
            raise cursor.refuse("Unknown")
        given.add(key)
        cursor.place += 1
    if not {b"CREATION_DATE", b"ORIGINATOR"} <= given:
        raise cursor.refuse("Missing")


def read_metadata(cursor: Cursor, first: Metadata | None) -> Metadata:
    """The lines from META_START to META_STOP, behind which the cursor then stands; `first` is what the first segment said."""
    if cursor.line()[1] != b"META_START":
        raise cursor.refuse("Order")
    cursor.place += 1
    texts: dict[bytes, str] = {}
    epochs: dict[bytes, int] = {}
    while (text := cursor.line()[1]) != b"META_STOP":
        if not text:
            raise cursor.refuse("Missing")
        if kind_of(text) is not LineKind.PAIR:
            raise cursor.refuse("Order")
        key, value = split_pair(text)
        if key in texts:
            raise cursor.refuse("Twice")
        texts[key] = metadata_value(cursor, key, value, first)
        if key in EPOCH_KEYS:
            epochs[key] = epoch_of(cursor, value)
        cursor.place += 1
    if any(key not in texts for key in NEEDED_KEYS):
        raise cursor.refuse("Missing")
    cursor.place += 1
    start = epochs.get(b"USEABLE_START_TIME", epochs[b"START_TIME"])
    stop = epochs.get(b"USEABLE_STOP_TIME", epochs[b"STOP_TIME"])
    return Metadata(texts[b"OBJECT_NAME"], texts[b"OBJECT_ID"], texts[b"REF_FRAME"], start, stop)


def metadata_value(cursor: Cursor, key: bytes, value: bytes, first: Metadata | None) -> str:
    """What a key of the metadata says, where it may be said."""
    if key in (b"OBJECT_NAME", b"OBJECT_ID"):
        label = value.replace(b"\t", b" ").decode("ascii")
        if not label:
            raise cursor.refuse("Missing")
        if first is not None and label != (first.name if key == b"OBJECT_NAME" else first.designator):
            raise cursor.refuse("ObjectChanged")
        return label
    word = value.decode("ascii").upper()
    if key == b"CENTER_NAME" and word != "EARTH":
        raise cursor.refuse("Center")
    if key == b"REF_FRAME" and (word not in FRAMES or first is not None and word != first.frame):
        raise cursor.refuse("Frame")
    if key == b"TIME_SYSTEM" and word != "UTC":
        raise cursor.refuse("TimeSystem")
    if key not in NEEDED_KEYS + EPOCH_KEYS + UNUSED_KEYS:
        raise cursor.refuse("Unknown")
    return word


def epoch_of(cursor: Cursor, text: bytes) -> int:
    try:
        return cached_epoch(text)
    except EpochFault as fault:
        raise cursor.refuse(f"Epoch {fault.cause.value}") from None


def read_segment(cursor: Cursor, metadata: Metadata, end_before: int) -> Segment:
    """The nodes and the covariances behind the metadata; the segment before is useable up to `end_before`."""
    times, states = read_nodes(cursor)
    text = cursor.line()[1]
    if text not in (b"", b"META_START", b"COVARIANCE_START"):
        raise cursor.refuse("Order")
    if len(times) < 2:
        raise cursor.refuse("TooFewNodes")
    if not times[0] <= metadata.first <= metadata.last <= times[-1]:
        raise cursor.refuse("UseableSpan")
    if metadata.first < end_before:
        raise cursor.refuse("SegmentsOverlap")
    covariances = read_covariances(cursor) if text == b"COVARIANCE_START" else ()
    return Segment(metadata.first, metadata.last, times, states, covariances)


def read_nodes(cursor: Cursor) -> tuple[npt.NDArray[np.int64], npt.NDArray[np.int64]]:
    """The ticks and the states of the rows at the cursor, which then stands behind them."""
    lines, start = cursor.lines, cursor.place
    stop = start
    while (text := lines[stop][1]) and b"=" not in text and text not in MARKS:
        stop += 1
    plain = read_plain_rows([text for _, text in lines[start:stop]])
    if plain is None:
        times: array[int] = array("q")
        states: array[int] = array("q")
        for cursor.place in range(start, stop):
            read_node(cursor, lines[cursor.place][1], times, states)
        plain = np.array(times, dtype=np.int64), np.array(states, dtype=np.int64).reshape(-1, 6)
    cursor.place = stop
    return plain


def read_node(cursor: Cursor, text: bytes, times: array[int], states: array[int]) -> None:
    """Adds the node of a row, which may be of any form."""
    fields = text.split()
    if len(fields) not in (7, 10):
        raise cursor.refuse("Fields")
    tick = epoch_of(cursor, fields[0])
    x, y, z, x_rate, y_rate, z_rate = (figure_of(cursor, field) for field in fields[1:7])
    if not all(map(is_decimal, fields[7:])):
        raise cursor.refuse("Number")
    if x is None or y is None or z is None or max(x, y, z, -x, -y, -z) > LARGEST_COORDINATE:
        raise cursor.refuse("CoordinateRange")
    if x_rate is None or y_rate is None or z_rate is None or max(x_rate, y_rate, z_rate, -x_rate, -y_rate, -z_rate) > LARGEST_RATE:
        raise cursor.refuse("RateRange")
    if times:
        before = times[-1]
        if tick <= before:
            raise cursor.refuse("TimesFall")
        if tick - before > LONGEST_STEP:
            raise cursor.refuse("StepTooLong")
        if leap_lies_between(before, tick):
            raise cursor.refuse("LeapSecond")
    times.append(tick)
    states.extend((x, y, z, x_rate, y_rate, z_rate))


def figure_of(cursor: Cursor, text: bytes) -> int | None:
    """A number in units of 10^-12, or nothing where it is past every range."""
    try:
        figure = read_scaled(text, PLACES)
    except OverflowError:
        return None
    if figure is None:
        raise cursor.refuse("Number")
    return figure


def read_covariances(cursor: Cursor) -> tuple[int, ...]:
    """The lines from COVARIANCE_START to COVARIANCE_STOP, behind which the cursor then stands: the epochs of the matrices in RTN."""
    epochs: list[int] = []
    epoch: int | None = None
    framed = in_rtn = False
    rows = 6
    cursor.place += 1
    while (text := cursor.line()[1]) != b"COVARIANCE_STOP":
        if not text:
            raise cursor.refuse("Missing")
        kind = kind_of(text)
        if kind is LineKind.MARK:
            raise cursor.refuse("Order")
        if kind is LineKind.ROW:
            fields = text.split()
            if epoch is None or rows == 6 or len(fields) != rows + 1:
                raise cursor.refuse("MatrixForm")
            if not all(map(is_decimal, fields)):
                raise cursor.refuse("Number")
            rows += 1
        else:
            key, value = split_pair(text)
            if key == b"EPOCH":
                if rows < 6:
                    raise cursor.refuse("MatrixForm")
                if epoch is not None and in_rtn:
                    epochs.append(epoch)
                epoch, framed, in_rtn, rows = epoch_of(cursor, value), False, False, 0
            elif key == b"COV_REF_FRAME":
                if epoch is None or framed or rows > 0:
                    raise cursor.refuse("MatrixForm")
                framed, in_rtn = True, value.upper() == b"RTN"
            else:
                raise cursor.refuse("Unknown")
        cursor.place += 1
    if rows < 6:
        raise cursor.refuse("MatrixForm")
    if epoch is not None and in_rtn:
        epochs.append(epoch)
    cursor.place += 1
    return tuple(epochs)


def read_all(names: list[str], content_of: Callable[[str], bytes], told: Callable[[int], None]) -> list[Ephemeris]:
    """The ephemerides of these files, in order; `told` is called with how many are read."""
    ephemerides: list[Ephemeris] = []
    for name in names:
        content = content_of(name)
        if len(content) > LARGEST_FILE:
            raise InputFault(name, 0, f"more than {LARGEST_FILE:,} bytes")
        ephemeris = read_oem(name, content)
        if ephemerides and ephemeris.frame != ephemerides[0].frame:
            raise InputFault(name, 0, "MixedFrames")
        ephemerides.append(ephemeris)
        told(len(ephemerides))
    return ephemerides
