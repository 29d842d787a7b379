"""What a segment of an ephemeris says, by its subject: object, frame, time system, declared interpolation, states."""
from __future__ import annotations

import re
from dataclasses import dataclass
from enum import Enum
from fractions import Fraction

import numpy as np

from .balls import Floats, Wholes
from .earth_orientation import EarthOrientation
from .epochs import MICRO, BadEpoch
from .faults import Refused
from .message import Given, MatrixLines, Message, SegmentLines, StateLine
from .numbers import BadNumber, matrix_value, whole_and_part
from .time_scales import TimeSystem, own_time, tai_time


class Method(Enum):
    """How is interpolated."""

    LAGRANGE = "LAGRANGE"
    HERMITE = "HERMITE"


class Frame(Enum):
    """The frames that are read."""

    EME2000 = "EME2000"
    GCRF = "GCRF"
    TEME = "TEME"
    TOD = "TOD"
    MOD = "MOD"
    ITRF = "ITRF"


OF_DATE = (Frame.TEME, Frame.TOD, Frame.MOD)
FRAMES = ((r"EME2000|J2000", Frame.EME2000), (r"(GCRF|ICRF)[1-3]?", Frame.GCRF), (r"TEME(OFDATE|OFEPOCH)?", Frame.TEME),
          (r"TOD(_EARTH)?|TOE_EARTH", Frame.TOD), (r"MOD(_EARTH)?|MOE_EARTH", Frame.MOD), (r"ITRF(-?([0-9]{2}|[0-9]{4}))?", Frame.ITRF))
OF_EPOCH = ("TEMEOFEPOCH", "TOE_EARTH", "MOE_EARTH")
HIGHEST_DEGREE = 25


@dataclass(frozen=True)
class Wanted:
    """What the command line says of files that do not say it, and of the Earth."""

    method: Method | None
    degree: int | None
    lower_degree: bool
    orientation: EarthOrientation | None
    keep_covariances: bool = True


@dataclass(frozen=True)
class Interpolation:
    """Method and degree, and where they come from, in the words of the comment."""

    method: Method
    degree: int
    origin: str = ""

    @property
    def nodes(self) -> int:
        """How many nodes it goes through."""
        return self.degree + 1 if self.method is Method.LAGRANGE else (self.degree + 1) // 2


@dataclass(frozen=True)
class Covariance:
    """A covariance: its epoch in microseconds of TAI, its frame as it is written (empty: the ephemeris' own), and its numbers as they are written."""

    time: Fraction
    frame: str
    numbers: tuple[str, ...]
    line: int


@dataclass(frozen=True)
class Segment:
    """A segment. `own` are its nodes' times in femtoseconds of the scale of interpolation; places (n, 3) in nm and rates (n, 3) in nm/s
    are whole numbers and fractions; first and last are the useable span in microseconds of TAI."""

    file: str
    line: int
    name: str
    designator: str
    frame: Frame
    frame_name: str
    frame_epoch: Fraction | None
    system: TimeSystem
    interpolation: Interpolation
    own: tuple[int, ...]
    times: tuple[Fraction, ...]
    places: Wholes
    place_parts: Floats
    rates: Wholes
    rate_parts: Floats
    first: Fraction
    last: Fraction
    covariances: tuple[Covariance, ...]


def frame_of(name: str) -> Frame | None:
    """The frame of a name, in letters of either case."""
    return next((frame for pattern, frame in FRAMES if re.fullmatch(pattern, name.upper(), re.ASCII)), None)


def known_frame(file: str, given: Given) -> Frame:
    """The frame of a segment."""
    frame = frame_of(given.text)
    if frame is None:
        raise Refused(file, given.line, f"the frame {given.text} is not read: EME2000, J2000, GCRF, ICRF, TEME, TOD, MOD and ITRF are")
    return frame


def time_system(file: str, given: Given, wanted: Wanted) -> TimeSystem:
    """The time system of a segment."""
    try:
        system = TimeSystem(given.text.upper())
    except ValueError:
        raise Refused(file, given.line, f"the time system {given.text} is not read: UTC, TAI, TT, GPS and UT1 are") from None
    if system is TimeSystem.UT1 and wanted.orientation is None:
        raise Refused(file, given.line, "UT1 needs --eop with a file of the form finals2000A")
    return system


def declared(file: str, lines: SegmentLines, wanted: Wanted) -> Interpolation:
    """The interpolation that a segment declares, or that is given for those that do not."""
    method_given, degree_given = lines.keys.get("INTERPOLATION"), lines.keys.get("INTERPOLATION_DEGREE")
    linear = method_given is not None and method_given.text.upper() == "LINEAR"
    if method_given is None:
        method = wanted.method
    elif method_given.text.upper() in ("LAGRANGE", "LINEAR"):
        method = Method.LAGRANGE
    elif method_given.text.upper() == "HERMITE":
        method = Method.HERMITE
    else:
        raise Refused(file, method_given.line, f"the interpolation {method_given.text} is not read: LAGRANGE, HERMITE and LINEAR are")
    degree = 1 if linear else wanted.degree
    if degree_given is not None:
        if re.fullmatch(r"[0-9]{1,4}", degree_given.text, re.ASCII) is None:
            raise Refused(file, degree_given.line, f"the degree {degree_given.text!r} is no whole number")
        degree = int(degree_given.text)
    if method is None or degree is None:
        missing = "no interpolation" if method_given is None else "no degree of interpolation"
        raise Refused(file, lines.line, f"the segment declares {missing}: say which with --method lagrange or hermite and --degree N")
    line = degree_given.line if degree_given is not None else lines.line
    if not 1 <= degree <= HIGHEST_DEGREE or (linear and degree != 1):
        raise Refused(file, line,
                      f"a {'linear interpolation' if linear else method.value} of degree {degree} is not read: from 1 to {1 if linear else HIGHEST_DEGREE}")
    if method is Method.HERMITE and degree == 1:
        raise Refused(file, line, "a Hermite interpolant of degree 1 goes through one node, and jumps from each to the next")
    if method is Method.HERMITE and degree % 2 == 0:
        raise Refused(file, line, f"a Hermite interpolant of places and rates has odd degree, and not {degree}; "
                                  f"of {degree // 2} nodes it has {degree - 1}, of {degree // 2 + 1} it has {degree + 1}")
    given = method_given is None or (degree_given is None and not linear)
    return Interpolation(method, degree, " BY OPTION" if given else "")


def fitted(file: str, lines: SegmentLines, interpolation: Interpolation, wanted: Wanted) -> Interpolation:
    """The interpolation with as many nodes as there are, where that may be."""
    count = len(lines.states)
    if count >= interpolation.nodes:
        return interpolation
    if not wanted.lower_degree:
        raise Refused(file, lines.line,
                      f"{interpolation.method.value} of degree {interpolation.degree} goes through {interpolation.nodes} nodes, and the segment has "
                                        f"{count}: --lower-degree takes the highest degree that they allow")
    degree = count - 1 if interpolation.method is Method.LAGRANGE else 2 * count - 1
    return Interpolation(interpolation.method, degree, f" LOWERED FROM {interpolation.degree}")


@dataclass(frozen=True)
class Clock:
    """Reads the epochs of a segment."""

    file: str
    system: TimeSystem
    orientation: EarthOrientation | None

    def own(self, text: str, line: int) -> int:
        """Femtoseconds of the scale of interpolation."""
        try:
            return own_time(self.system, text)
        except BadEpoch as fault:
            raise Refused(self.file, line, str(fault)) from None

    def tai(self, own: int, line: int) -> Fraction:
        """Microseconds of TAI."""
        try:
            return tai_time(self.system, self.orientation, own)
        except BadEpoch as fault:
            raise Refused(self.file, line, str(fault)) from None


def read_states(clock: Clock, states: tuple[StateLine, ...]) -> tuple[list[int], list[list[tuple[int, float]]]]:
    """Times, and six numbers of each state as whole numbers and fractions."""
    own: list[int] = []
    rows: list[list[tuple[int, float]]] = []
    for state in states:
        if len(state.numbers) not in (6, 9):
            raise Refused(clock.file, state.line, f"a state has an epoch and 6 or 9 numbers, and not {len(state.numbers)}")
        time = clock.own(state.epoch, state.line)
        if own and time <= own[-1]:
            raise Refused(clock.file, state.line, "the state is not later than the one before")
        own.append(time)
        try:
            rows.append([whole_and_part(text) for text in state.numbers[:6]])
            for text in state.numbers[6:]:
                matrix_value(text)
        except BadNumber as fault:
            raise Refused(clock.file, state.line, str(fault)) from None
    return own, rows


def read_covariance(clock: Clock, lines: MatrixLines) -> Covariance:
    """A covariance."""
    for text in lines.numbers:
        try:
            matrix_value(text)
        except BadNumber as fault:
            raise Refused(clock.file, lines.epoch.line, f"the covariance of this epoch: {fault}") from None
    time = clock.tai(clock.own(lines.epoch.text, lines.epoch.line), lines.epoch.line)
    return Covariance(time, lines.frame.text if lines.frame is not None else "", lines.numbers, lines.epoch.line)


def read_segment(file: str, lines: SegmentLines, wanted: Wanted) -> Segment:
    """A segment of a message."""
    keys = lines.keys
    for key in ("OBJECT_NAME", "OBJECT_ID"):
        if not keys[key].text:
            raise Refused(file, keys[key].line, f"{key} is empty")
    if keys["CENTER_NAME"].text.upper() != "EARTH":
        raise Refused(file, keys["CENTER_NAME"].line, f"the center {keys['CENTER_NAME'].text} is not read: EARTH is")
    frame = known_frame(file, keys["REF_FRAME"])
    clock = Clock(file, time_system(file, keys["TIME_SYSTEM"], wanted), wanted.orientation)
    epoch = frame_epoch(clock, keys, frame)
    if frame is Frame.ITRF and wanted.orientation is None:
        raise Refused(file, keys["REF_FRAME"].line, "ITRF needs --eop with a file of the form finals2000A")
    if len(lines.states) < 2:
        raise Refused(file, lines.line, "the segment has fewer than two states")
    interpolation = fitted(file, lines, declared(file, lines, wanted), wanted)
    own, rows = read_states(clock, lines.states)
    first, last = (useable_end(clock, keys, f"USEABLE_{key}", key) for key in ("START_TIME", "STOP_TIME"))
    times = tuple(clock.tai(time, state.line) for time, state in zip(own, lines.states))
    if not (times[0] <= first[0] <= last[0] <= times[-1]):
        what = "ends before it begins" if first[0] > last[0] else "does not lie between the first state and the last"
        raise Refused(file, (last if times[0] <= first[0] else first)[1], f"the useable span {what}: let USEABLE_START_TIME and USEABLE_STOP_TIME do so")
    wholes = np.array([[number for number, _ in row] for row in rows], np.int64)
    parts = np.array([[part for _, part in row] for row in rows])
    covariances = tuple(read_covariance(clock, matrix) for matrix in lines.matrices) if wanted.keep_covariances else ()
    return Segment(file, lines.line, keys["OBJECT_NAME"].text, keys["OBJECT_ID"].text, frame, keys["REF_FRAME"].text.upper(), epoch, clock.system,
                   interpolation,
                   tuple(own), times, wholes[:, :3], parts[:, :3], wholes[:, 3:], parts[:, 3:], first[0], last[0], covariances)


def frame_epoch(clock: Clock, keys: dict[str, Given], frame: Frame) -> Fraction | None:
    """The epoch of a frame of date that is held fast, in microseconds of TAI; None of one that turns."""
    given = keys.get("REF_FRAME_EPOCH")
    name = keys["REF_FRAME"]
    if frame is Frame.ITRF and given is not None:
        raise Refused(clock.file, given.line, "an ITRF of an epoch is not read")
    if frame not in OF_DATE:
        return None
    if given is None:
        if name.text.upper() in OF_EPOCH:
            raise Refused(clock.file, name.line, f"{name.text} needs REF_FRAME_EPOCH")
        return None
    return clock.tai(clock.own(given.text, given.line), given.line)


def useable_end(clock: Clock, keys: dict[str, Given], useable: str, whole: str) -> tuple[Fraction, int]:
    """One end of the useable span, and its line."""
    for key in (useable, whole):
        if key in keys:
            clock.own(keys[key].text, keys[key].line)
    given = keys.get(useable, keys[whole])
    return clock.tai(clock.own(given.text, given.line), given.line), given.line


def read_objects(messages: tuple[Message, ...], wanted: Wanted) -> list[tuple[Message, list[Segment]]]:
    """The segments of each object, in order of its first, with the message that has it."""
    found: dict[tuple[str, str], tuple[Message, list[Segment]]] = {}
    for message in messages:
        for lines in message.segments:
            segment = read_segment(message.file, lines, wanted)
            _, segments = found.setdefault((segment.name, segment.designator), (message, []))
            if segments and segment.first < segments[-1].last:
                raise Refused(message.file, lines.line, "the useable span begins before that of the segment before has ended")
            segments.append(segment)
    return list(found.values())


def parts_of(times: tuple[int, ...]) -> tuple[Wholes, Floats]:
    """Femtoseconds as whole microseconds and fractions of one."""
    whole = [time // MICRO for time in times]
    return np.array(whole, np.int64), np.array([(time % MICRO) / MICRO for time in times])
