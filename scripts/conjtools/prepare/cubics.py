"""The cubics that stand for a declared interpolant: where their nodes are, and how far each of them is from it.

The curve that is meant is the declared interpolant, in its own frame and scale of time, turned to EME2000. On each interval
between new nodes it is a polynomial, and where the frame turns a polynomial and a remainder: the slow rotations A and W are taken
straight between the interval's ends, which misses them by at most h^2/8 times their second derivative, and the Earth's rotation by
its Taylor polynomial about the middle. The difference to the cubic through the new nodes, as they are written in whole nm and nm/s,
is a polynomial; no place of it is further from 0 than the furthest of its Bernstein points. All of it is done in ball arithmetic.
"""
from __future__ import annotations

from dataclasses import dataclass
from math import ceil, factorial

import numpy as np

from .balls import GROW, UNIT, Ball, Floats, Wholes, apart, exactly, nearly, of_parts, pad, product, reach, stack, total, turned
from .earth_orientation import EarthOrientation
from .faults import Refused
from .frames import BENDING, GRID_SLACK, SERIES_SLACK, FrameTurn, Turns
from .interpolant import Pieces, pieces_of, restricted
from .segments import Segment
from .time_scales import TimeSystem, own_time_of_ticks

LONGEST = 3_600_000_000
"""The longest interval of microseconds that `conj` takes."""
GAIN = 0.9
"""Where parting an interval leaves more than this part of the worst bound, roundings are what is left of it."""
MOST_INTERVALS = 1_000_000
"""A segment that needs more intervals is refused."""
CHUNK = 256
"""So many intervals are worked on at a time."""
SPARE = 0.85
"""The part of the bound that is aimed at."""
LEAST_REMAINDER = 0.01
"""The Taylor polynomial of the Earth's rotation is of a degree that misses a place by no more nm than this."""


@dataclass(frozen=True)
class Cubics:
    """New nodes at ticks (n + 1), places in nm and rates in nm/s (n + 1, 3), and how far each cubic may be from the curve that is meant, in nm (n)."""

    ticks: Wholes
    places: Wholes
    rates: Wholes
    bounds: Floats


@dataclass(frozen=True)
class Task:
    """A segment over some ticks. Piece j is used from `node_ticks[j]` on."""

    segment: Segment
    turn: FrameTurn
    earth: EarthOrientation | None
    node_ticks: Wholes
    pairs: Wholes
    pieces: Pieces


def task_of(segment: Segment, turn: FrameTurn, earth: EarthOrientation | None, first: int, last: int) -> Task:
    """A segment from a first to a last tick."""
    node_ticks = np.array([ceil(time) for time in segment.times], np.int64)
    low = int(np.clip(np.searchsorted(node_ticks, first, side="right") - 1, 0, len(node_ticks) - 2))
    high = int(np.clip(np.searchsorted(node_ticks, last, side="left"), low + 1, len(node_ticks) - 1))
    pairs = np.arange(low, high)
    return Task(segment, turn, earth, node_ticks, pairs, pieces_of(segment, pairs))


def first_ticks(task: Task, first: int, last: int) -> Wholes:
    """Where new nodes have to be: the ends, the old nodes, each midnight at which the Earth's values bend, and no more than an hour apart."""
    inner = task.node_ticks[(task.node_ticks > first) & (task.node_ticks < last)]
    marks = [np.array([first, last], np.int64), inner]
    if task.earth is not None and (task.turn.earth is not None or task.segment.system is TimeSystem.UT1):
        midnights = task.earth.ticks
        marks.append(midnights[(midnights > first) & (midnights < last)])
    ticks = np.unique(np.concatenate(marks))
    return divided(ticks, -(-np.diff(ticks) // LONGEST))


def divided(ticks: Wholes, counts: Wholes) -> Wholes:
    """Each interval in so many parts that are as even as whole ticks allow."""
    counts = np.minimum(counts, np.maximum(np.diff(ticks), 1))
    owner = np.repeat(np.arange(len(counts)), counts)
    part = np.arange(len(owner)) - np.repeat(np.cumsum(counts) - counts, counts)
    inner = ticks[owner] + np.diff(ticks)[owner] * part // counts[owner]
    return np.append(inner, ticks[-1])


def cubics(segment: Segment, turn: FrameTurn, earth: EarthOrientation | None, first: int, last: int, within: float) -> Cubics:
    """Cubics from a first to a later last tick that are within so many nm of the curve that is meant."""
    try:
        with np.errstate(over="raise", invalid="raise", divide="raise"):
            return close_enough(task_of(segment, turn, earth, first, last), first, last, within)
    except (FloatingPointError, ZeroDivisionError):
        raise Refused(segment.file, segment.line, "the nodes lie so that the interpolant cannot be computed") from None


def close_enough(task: Task, first: int, last: int, within: float) -> Cubics:
    """Parts intervals by the fourth root of what they miss, and then those that still miss too much towards their ends, where rates may bend."""
    found = measured(task, first_ticks(task, first, last))
    late = found.bounds > within
    if bool(late.any()):
        ratio = np.where(late, found.bounds / (SPARE * within), 0.0)
        counts = np.clip(np.ceil(ratio**0.25), 1, 64).astype(np.int64)
        found = measured(task, divided(found.ticks, counts))
        late = found.bounds > within
    while bool(late.any()):
        worst = float(found.bounds.max())
        found = measured(task, graded(found.ticks, found.bounds / within, task.node_ticks))
        late = found.bounds > within
        if bool(late.any()) and float(found.bounds.max()) > GAIN * worst:
            raise too_far(task, within)
    return found


def graded(ticks: Wholes, ratios: Floats, node_ticks: Wholes) -> Wholes:
    """Ticks with new ones in the intervals of ratios above one: a half, and from an end that is an old node, where rates may bend, a quarter and so on, about
    as often as the ratio has to be halved."""
    lengths = np.diff(ticks)
    bent = np.isin(ticks, node_ticks)
    marks = [ticks]
    for power in range(1, 40):
        wanted = (ratios > (1.0 if power == 1 else 2.0**power)) & (lengths >> power > 0)
        if not bool(wanted.any()):
            break
        first = wanted & bent[:-1] if power > 1 else wanted
        last = wanted & bent[1:] if power > 1 else np.zeros_like(wanted)
        marks += [ticks[:-1][first] + (lengths[first] >> power), ticks[1:][last] - (lengths[last] >> power)]
    return np.unique(np.concatenate(marks))


def too_far(task: Task, within: float) -> Refused:
    """The refusal of a bound that cannot be kept."""
    return Refused(task.segment.file, task.segment.line, f"the segment cannot be followed within {within / 1e9:g} m by cubics: a larger --within may do")


def measured(task: Task, ticks: Wholes) -> Cubics:
    """The cubics between ticks."""
    if len(ticks) > MOST_INTERVALS:
        raise Refused(task.segment.file, task.segment.line, f"the segment needs more than {MOST_INTERVALS} intervals: a larger --within needs fewer")
    which = np.clip(np.searchsorted(task.node_ticks, ticks[:-1], side="right") - 1, int(task.pairs[0]), int(task.pairs[-1])) - int(task.pairs[0])
    own = own_time_of_ticks(task.segment.system, task.earth, ticks)
    whole, part = own
    start = task.pieces.start
    first = apart((whole[:-1], part[:-1]), (start[0][which], start[1][which]))
    length = apart((whole[1:], part[1:]), (whole[:-1], part[:-1]))
    polynomial = restricted(task.pieces, which, first, length)
    turns = task.turn.at(ticks)
    places, rates = nodes_of(task, ticks, which, polynomial, turns)
    limits_kept_in(task.segment, places, rates)
    bounds = [bound_of(task, ticks, which, polynomial, turns, places, rates, slice(at, min(at + CHUNK, len(which)))) for at in range(0, len(which), CHUNK)]
    return Cubics(ticks, places, rates, np.concatenate(bounds))


def nodes_of(task: Task, ticks: Wholes, which: Wholes, polynomial: Ball, turns: Turns) -> tuple[Wholes, Wholes]:
    """Places and rates of the curve at ticks, rounded; where two pieces meet, the mean of their rates."""
    seconds = (np.diff(ticks) / 1e6)[:, None]
    powers = np.arange(polynomial.width)
    begin, finish = polynomial.mid[..., 0], polynomial.mid.sum(axis=-1)
    rate_begin, rate_finish = polynomial.mid[..., 1] / seconds, (polynomial.mid * powers).sum(axis=-1) / seconds
    base = np.concatenate([task.pieces.place[which], task.pieces.place[which[-1:]]])
    away = np.concatenate([begin, finish[-1:]])
    rate = np.concatenate([rate_begin[:1], (rate_finish[:-1] + rate_begin[1:]) / 2, rate_finish[-1:]])
    if task.turn.identity:
        return base + np.rint(away).astype(np.int64), np.rint(rate).astype(np.int64)
    place = base.astype(np.float64) + away
    matrix = turns.matrix()
    turned_place = np.einsum("nij,nj->ni", matrix, place)
    turned_rate = np.einsum("nij,nj->ni", matrix, rate) + np.einsum("nij,nj->ni", turns.rate(), place)
    return np.rint(turned_place).astype(np.int64), np.rint(turned_rate).astype(np.int64)


def limits_kept_in(segment: Segment, places: Wholes, rates: Wholes) -> None:
    """Places and rates are such as `conj` reads."""
    if int(np.abs(places).max()) > 500_000 * 10**12:
        raise Refused(segment.file, segment.line, "a coordinate in EME2000 is beyond 500000 km, which conj does not read")
    if int(np.abs(rates).max()) > 20 * 10**12:
        raise Refused(segment.file, segment.line, "a rate in EME2000 is beyond 20 km/s, which conj does not read")


def bound_of(task: Task, ticks: Wholes, which: Wholes, polynomial: Ball, turns: Turns, places: Wholes, rates: Wholes, part: slice) -> Floats:
    """How far the cubics of some intervals may be from the curve that is meant, in nm."""
    behind = slice(part.start + 1, part.stop + 1)
    length = np.diff(ticks)[part]
    meant = polynomial[part]
    base = task.pieces.place[which[part]]
    written = cubic(places[part], places[behind], rates[part], rates[behind], length)
    if task.turn.identity:
        offset = of_parts(base - places[part], np.zeros(base.shape))
        return reach(total(total(meant, offset[..., None]), -written))
    meant = total(meant, of_parts(base, np.zeros(base.shape))[..., None])
    size = reach(meant)
    curve, missed = turned_curve(task.turn, turns, part, length, meant, float(size.max()))
    origin = of_parts(places[part], np.zeros(base.shape))
    return np.asarray((reach(total(total(curve, -origin[..., None]), -written)) + missed * size) * GROW, np.float64)


def cubic(place: Wholes, next_place: Wholes, rate: Wholes, next_rate: Wholes, length: Wholes) -> Ball:
    """The cubic Hermite interpolant less its first place, in powers of u (n, 3, 4)."""
    away = of_parts(next_place - place, np.zeros(place.shape))
    seconds = nearly(length / 1e6)[:, None]
    begin = of_parts(rate, np.zeros(rate.shape)) * seconds
    finish = of_parts(next_rate, np.zeros(rate.shape)) * seconds
    twice = begin + finish + begin
    third = begin + finish - (away + away)
    second = (away + away + away) - twice
    return stack([exactly(np.zeros(place.shape)), begin, second, third])


def straight(matrices: Floats, part: slice) -> Ball:
    """Matrices straight between the ends of intervals, in powers of u (n, 3, 3, 2)."""
    first, last = exactly(matrices[part]), exactly(matrices[part.start + 1:part.stop + 1])
    return stack([first, last - first])


def turned_curve(turn: FrameTurn, turns: Turns, part: slice, length: Wholes, curve: Ball, size: float) -> tuple[Ball, Floats]:
    """Curves in a frame, turned to EME2000, and by which part of its length each may be missed."""
    if turn.fixed is not None:
        return turned(exactly(turns.slow[part])[..., None], curve), np.zeros(len(length))
    seconds = length / 1e6
    missed = BENDING * seconds * seconds / 8 + GRID_SLACK + SERIES_SLACK
    if turn.earth is not None:
        curve = turned(straight(turns.pole, part), curve)
        rate = turns.angle_rate[part]
        cosine, sine, remainder = spin(turns.angle[part], rate, seconds, size)
        x, y, z = curve[:, 0], curve[:, 1], curve[:, 2]
        east, north = product(cosine, x) - product(sine, y), product(sine, x) + product(cosine, y)
        up = pad(z, 0, cosine.width - 1)
        curve = Ball(np.stack([east.mid, north.mid, up.mid], 1), np.stack([east.rad, north.rad, up.rad], 1))
        missed = missed + remainder
    return turned(straight(turns.slow, part), curve), np.asarray(missed * (1.0 + 1e-6), np.float64)


def spin(angle: Floats, rate: Floats, seconds: Floats, size: float) -> tuple[Ball, Ball, Floats]:
    """Cosine and sine of an angle that grows evenly, as Taylor polynomials about the middle in powers of u (n, k), and their remainder."""
    half = rate * seconds / 2
    most = float(half.max())
    degree = next(number for number in range(2, 40) if most ** (number + 1) / factorial(number + 1) * size < LEAST_REMAINDER)
    growth = stack([nearly(-half), nearly(2 * half)])
    middle = angle + half
    power, cosine, sine = exactly(np.ones((len(half), 1))), exactly(np.ones((len(half), 1))), exactly(np.zeros((len(half), 1)))
    for number in range(1, degree + 1):
        power = product(power, growth)
        sign = -1.0 if number % 4 in (2, 3) else 1.0
        term = power * nearly(np.array([sign / factorial(number)]))
        cosine, sine = (total(cosine, term), sine) if number % 2 == 0 else (cosine, total(sine, term))
    start_cosine, start_sine = nearly(np.cos(middle))[:, None], nearly(np.sin(middle))[:, None]
    remainder = half ** (degree + 1) / factorial(degree + 1) * (1.0 + 64 * UNIT)
    both_cosine, both_sine = total(start_cosine * cosine, -(start_sine * sine)), total(start_sine * cosine, start_cosine * sine)
    return both_cosine, both_sine, np.asarray(remainder, np.float64)
