"""Covariances as `conj` uses them: in RTN, in km and km/s.

A covariance in RTN stays as it is written. One in a frame that is read is turned: to EME2000 with the frame's own rotation and
its rate, and then to the axes of the place and rate at its epoch, taken as not turning (CCSDS 508.0-B-1): R along the place, N along
the orbit's angular momentum, T completes them.
"""
from __future__ import annotations

from dataclasses import replace
from math import ceil

import numpy as np

from .balls import Floats, apart, exactly
from .earth_orientation import EarthOrientation
from .faults import Refused
from .frames import FrameTurn, OfDate, Turns, frame_turn
from .interpolant import pieces_of, restricted
from .numbers import matrix_value
from .segments import OF_DATE, Covariance, Frame, Method, Segment, frame_of
from .time_scales import own_time_of_ticks

IN_RTN = ("RTN", "RSW")
"""Names of the same axes (CCSDS 502.0-B-2, annex A)."""


def in_rtn(segment: Segment, turn: FrameTurn, models: OfDate | None, earth: EarthOrientation | None, covariance: Covariance) -> tuple[str, ...]:
    """The 21 numbers of a covariance in RTN."""
    name = covariance.frame.upper()
    if name in IN_RTN:
        return covariance.numbers
    tick = round(covariance.time)
    if not segment.times[0] <= covariance.time <= segment.times[-1]:
        raise Refused(segment.file, covariance.line,
                      "the covariance is outside the states, so that it has no RTN: --without-covariances leaves all of them out")
    own = turn if name in ("", segment.frame_name) else covariance_turn(segment, models, earth, covariance)
    if own.earth is not None and not own.earth.covers(tick, tick):
        raise Refused(segment.file, covariance.line, f"the epoch of the covariance is not covered by {own.earth.file}")
    jacobian = sixfold(own.at(np.array([tick], np.int64)))
    axes = rtn_axes(*state_at(segment, turn, earth, tick))
    full = np.zeros((6, 6))
    full[:3, :3] = full[3:, 3:] = axes
    return tuple(f"{value:.15E}" for value in lower(full @ jacobian @ symmetric(covariance.numbers) @ jacobian.T @ full.T))


def covariance_turn(segment: Segment, models: OfDate | None, earth: EarthOrientation | None, covariance: Covariance) -> FrameTurn:
    """How the frame of a covariance is turned, where that is another than the ephemeris'."""
    frame = frame_of(covariance.frame)
    if frame is None or (frame is Frame.ITRF and earth is None) or (frame in OF_DATE and frame is not Frame.TEME and models is None):
        raise Refused(segment.file, covariance.line, f"a covariance in {covariance.frame} is not turned into RTN: --without-covariances leaves all of them out")
    return frame_turn(frame, None, models, earth)


def symmetric(numbers: tuple[str, ...]) -> Floats:
    """The matrix (6, 6) of a lower triangle."""
    matrix = np.zeros((6, 6))
    matrix[np.tril_indices(6)] = [matrix_value(text) for text in numbers]
    return np.asarray(matrix + matrix.T - np.diag(np.diag(matrix)), np.float64)


def lower(matrix: Floats) -> list[float]:
    """The lower triangle of a matrix (6, 6), row by row."""
    return [float(value) for value in matrix[np.tril_indices(6)]]


def sixfold(turns: Turns) -> Floats:
    """What turns place and rate together (6, 6)."""
    full = np.zeros((6, 6))
    full[:3, :3] = full[3:, 3:] = turns.matrix()[0]
    full[3:, :3] = turns.rate()[0]
    return full


def state_at(segment: Segment, turn: FrameTurn, earth: EarthOrientation | None, tick: int) -> tuple[Floats, Floats]:
    """Place in nm and rate in nm/s at a tick, in EME2000: interpolated as declared, a Lagrange interpolant's rates by themselves."""
    place, derivative = value_at(segment, earth, tick)
    rate = derivative
    if segment.interpolation.method is Method.LAGRANGE:
        rate, _ = value_at(replace(segment, places=segment.rates, place_parts=segment.rate_parts), earth, tick)
    turns = turn.at(np.array([tick], np.int64))
    matrix = turns.matrix()[0]
    return np.asarray(matrix @ place), np.asarray(matrix @ rate + turns.rate()[0] @ place)


def value_at(segment: Segment, earth: EarthOrientation | None, tick: int) -> tuple[Floats, Floats]:
    """The declared interpolant of the places at a tick and its derivative a second, in the segment's own frame."""
    node_ticks = np.array([ceil(time) for time in segment.times], np.int64)
    pair = int(np.clip(np.searchsorted(node_ticks, tick, side="right") - 1, 0, len(node_ticks) - 2))
    pieces = pieces_of(segment, np.array([pair]))
    first = apart(own_time_of_ticks(segment.system, earth, np.array([tick], np.int64)), pieces.start)
    polynomial = restricted(pieces, np.array([0]), first, exactly(np.array([1e6]))).mid[0]
    return segment.places[pair].astype(np.float64) + polynomial[:, 0], polynomial[:, 1]


def rtn_axes(place: Floats, rate: Floats) -> Floats:
    """The axes R, T, N as rows (3, 3)."""
    radial = place / np.linalg.norm(place)
    normal = np.cross(place, rate)
    normal = normal / np.linalg.norm(normal)
    return np.stack([radial, np.cross(normal, radial), normal])
