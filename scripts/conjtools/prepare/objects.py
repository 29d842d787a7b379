"""One object after another: its segments as `conj` takes them, with the bound that each keeps."""
from __future__ import annotations

from dataclasses import dataclass
from fractions import Fraction
from math import ceil, floor
from pathlib import Path

import numpy as np

from .covariances import in_rtn
from .cubics import LONGEST, cubics, limits_kept_in
from .ephemeris_text import Span, ephemeris_text
from .epochs import stretches, utc_of_tick
from .faults import Refused
from .frames import FrameTurn, OfDate, frame_turn
from .kvn import read_kvn
from .message import Message
from .segments import Frame, Interpolation, Method, Segment, Wanted, read_objects
from .time_scales import TimeSystem
from .xml_form import read_xml

LARGEST_FILE = 1 << 28
MARK = b"\xef\xbb\xbf"
"""The byte order mark that some editors put before a text."""


@dataclass(frozen=True)
class Settings:
    """What the command line asks: the bound in nm, the models of TOD and MOD, and what is given for files that do not say it."""

    within: float
    models: OfDate | None
    wanted: Wanted


@dataclass(frozen=True)
class Row:
    """A line of the table: a segment that is written. The bound is in nm."""

    file: str
    name: str
    designator: str
    source: str
    line: int
    interpolation: Interpolation
    frame: str
    system: TimeSystem
    first: int
    last: int
    read: int
    written: int
    covariances: int
    copied: bool
    bound: float


@dataclass(frozen=True)
class Prepared:
    """An object: the name of its file, its text, its rows, and what is to be said of it."""

    file: str
    text: str
    rows: tuple[Row, ...]
    notes: tuple[str, ...]


def read_messages(path: Path) -> tuple[Message, ...]:
    """The messages of a file, in the notation in which it is."""
    try:
        with path.open("rb") as stream:
            data = stream.read(LARGEST_FILE + 1)
    except OSError as fault:
        raise Refused(path.name, 0, f"cannot be read: {fault.strerror}") from None
    if len(data) > LARGEST_FILE:
        raise Refused(path.name, 0, f"the file has more than {LARGEST_FILE} bytes")
    if data.removeprefix(MARK).lstrip().startswith(b"<"):
        return read_xml(path.name, data)
    return (read_kvn(path.name, data.removeprefix(MARK).decode("latin-1")),)


def prepare_file(path: Path, settings: Settings) -> list[Prepared]:
    """The objects of a file."""
    objects = read_objects(read_messages(path), settings.wanted)
    if not path.name.isascii() or not path.name.isprintable():
        raise Refused(path.name, 0, "the name is not printable ASCII, which is what conj reads: give the file another")
    names = [f"{path.stem}.oem"] if len(objects) == 1 else [f"{path.stem}-{number}.oem" for number in range(1, len(objects) + 1)]
    for name in names:
        if len(name) > 200:
            raise Refused(path.name, 0, "the name is longer than the 200 bytes that conj reads: give the file another")
    return [prepare_object(name, message, segments, settings) for name, (message, segments) in zip(names, objects)]


def prepare_object(file: str, message: Message, segments: list[Segment], settings: Settings) -> Prepared:
    """One object."""
    spans: list[Span] = []
    rows: list[Row] = []
    notes: list[str] = []
    for segment in segments:
        for span, bound, copied in spans_of(segment, settings, notes):
            spans.append(span)
            rows.append(Row(file, segment.name, segment.designator, segment.file, segment.line, segment.interpolation, frame_words(segment, settings.models),
                            segment.system, span.first, span.last, len(segment.own), len(span.ticks), len(span.covariances), copied, bound))
    if not spans:
        raise Refused(message.file, segments[0].line, f"the object {segments[0].name} is useable for less than a microsecond")
    first = segments[0]
    return Prepared(file, ephemeris_text(message, first.name, first.designator, spans), tuple(rows), tuple(notes))


def frame_words(segment: Segment, models: OfDate | None) -> str:
    """The frame as the comment names it."""
    words = segment.frame_name
    if segment.frame in (Frame.TOD, Frame.MOD) and models is not None:
        words += f" BY {models.name}"
    return words + (" OF EPOCH" if segment.frame_epoch is not None else "")


def metres(bound: float) -> str:
    """A bound in nm as metres with nine decimals, rounded up."""
    whole = ceil(bound)
    return f"{whole // 10**9}.{whole % 10**9:09d}"


def comment(segment: Segment, models: OfDate | None, bound: float) -> str:
    """The comment that tells where a segment comes from."""
    interpolation = segment.interpolation
    return (f"PREPARED FROM {segment.file}; {interpolation.method.value} {interpolation.degree}{interpolation.origin} "
            f"IN {frame_words(segment, models)}, {segment.system.value}; WITHIN {metres(bound)} m")


def spans_of(segment: Segment, settings: Settings, notes: list[str]) -> list[tuple[Span, float, bool]]:
    """What is written of a segment: a span for each stretch between leap seconds, its bound, and whether it is copied."""
    earth = settings.wanted.orientation
    if segment.frame in (Frame.TOD, Frame.MOD) and settings.models is None:
        raise Refused(segment.file, segment.line, f"{segment.frame.value} does not say its models: --of-date iau1976 or --of-date iau2006 does")
    turn = frame_turn(segment.frame, segment.frame_epoch, settings.models, earth)
    if segment.frame is Frame.ITRF and earth is not None and not earth.covers(ceil(segment.first), floor(segment.last)):
        raise Refused(segment.file, segment.line, f"the useable span is not covered by {earth.file}")
    if earth is not None and (segment.frame is Frame.ITRF or segment.system is TimeSystem.UT1):
        notes += [f"{segment.file}: line {segment.line}: {remark}" for remark in earth.remarks(ceil(segment.last))]
    covariances = tuple((utc_of_tick(round(item.time)), in_rtn(segment, turn, settings.models, earth, item)) for item in segment.covariances)
    found: list[tuple[Span, float, bool]] = []
    for stretch in stretches():
        first, last = max(ceil(segment.first), stretch.first), min(floor(segment.last), stretch.last)
        if first == last:
            notes.append(f"{segment.file}: line {segment.line}: the one microsecond {first} of TAI is left out")
        if first >= last:
            continue
        ahead = stretch.ahead * 10**6
        copied = is_copied(segment, turn, stretch.first, stretch.last)
        if copied:
            ticks = np.array([int(time) for time in segment.times], np.int64)
            places, rates, bound = segment.places, segment.rates, rounding(segment)
            limits_kept_in(segment, places, rates)
        else:
            new = cubics(segment, turn, earth, first, last, settings.within)
            ticks, places, rates, bound = new.ticks, new.places, new.rates, float(new.bounds.max())
        found.append((Span(ticks - ahead, places, rates, first - ahead, last - ahead, covariances, comment(segment, settings.models, bound)), bound, copied))
    return found


def is_copied(segment: Segment, turn: FrameTurn, first: int, last: int) -> bool:
    """Whether the segment already is what `conj` reads, but for its epochs' texts."""
    if not turn.identity or segment.system is TimeSystem.UT1 or (segment.interpolation.method, segment.interpolation.degree) != (Method.HERMITE, 3):
        return False
    whole = all(time.denominator == 1 for time in segment.times)
    steps = all(later - earlier <= LONGEST for earlier, later in zip(segment.times, segment.times[1:]))
    return whole and steps and first <= segment.times[0] and segment.times[-1] <= last


def rounding(segment: Segment) -> float:
    """How far the cubics between rounded states may be from those between the states, in nm: no weight of places is above 1, the weights of both
    rates together are at most a quarter of the interval."""
    if not segment.place_parts.any() and not segment.rate_parts.any():
        return 0.0
    place = float(np.sqrt((segment.place_parts**2).sum(axis=1)).max())
    rate = float(np.sqrt((segment.rate_parts**2).sum(axis=1)).max())
    longest = max(later - earlier for earlier, later in zip(segment.times, segment.times[1:]))
    return (place + rate * float(Fraction(longest, 4 * 10**6))) * (1 + 1e-12)
