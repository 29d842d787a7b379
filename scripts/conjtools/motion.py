"""How two objects move past each other, in floating point, by the cubic Hermite interpolants that `conj` screens (docs/MODEL.md).

Places are taken as differences of whole nm from a state nearby before they become floating point, so that what is rounded is small.
"""

from __future__ import annotations

from collections.abc import Callable, Sequence
from dataclasses import dataclass

import numpy as np
import numpy.typing as npt

from conjtools.catalogue import Catalogue, CommonRun, common_runs
from conjtools.report import Encounter, Report

Ints = npt.NDArray[np.int64]
Floats = npt.NDArray[np.float64]

NM_PER_METRE = 1e9
SAMPLES_PER_RUN = 33
GOLDEN = (5**0.5 - 1) / 2
GOLDEN_STEPS = 60
RUNS_AT_ONCE = 4096


@dataclass(frozen=True)
class Runs:
    """Runs of common ticks as arrays (n,): the numbers of the pieces of both objects, the first and the last tick."""

    piece_a: Ints
    piece_b: Ints
    first: Ints
    last: Ints

    def part(self, chosen: slice | Ints) -> Runs:
        """Some of them."""
        return Runs(self.piece_a[chosen], self.piece_b[chosen], self.first[chosen], self.last[chosen])


@dataclass(frozen=True)
class Approach:
    """What floating point says of an encounter: the distance in m and the relative speed in m/s at the report's time of closest
    approach, and the least distance in m at its whole microseconds with the tick where it is."""

    distance: float
    speed: float
    least: float
    least_tick: int


def runs_of(found: Sequence[CommonRun]) -> Runs:
    """Runs as arrays."""
    columns = np.array([(run.piece_a, run.piece_b, run.first, run.last) for run in found], dtype=np.int64).reshape(-1, 4)
    return Runs(columns[:, 0], columns[:, 1], columns[:, 2], columns[:, 3])


def controls(catalogue: Catalogue, pieces: Ints, origin: Ints) -> tuple[Floats, Ints, Ints]:
    """Of n pieces the Bezier control points (n, 4, 3) in nm from the origins (n, 3), the first ticks (n,) and the lengths in ticks (n,)."""
    states = catalogue.piece_states[pieces]
    start, end = catalogue.states[states], catalogue.states[states + 1]
    ticks = catalogue.times[states + 1] - catalogue.times[states]
    thirds = (ticks / 3e6)[:, None]
    first, last = (start[:, :3] - origin).astype(np.float64), (end[:, :3] - origin).astype(np.float64)
    points = np.stack([first, first + start[:, 3:] * thirds, last - end[:, 3:] * thirds, last], axis=1)
    return points, catalogue.times[states], ticks


def coefficients(points: Floats) -> Floats:
    """The coefficients (4, n, 1, 3) of n cubics with Bezier control points (n, 4, 3), by powers of the fraction of their lengths."""
    p0, p1, p2, p3 = (points[:, k, None, :] for k in range(4))
    return np.stack([p0, 3 * (p1 - p0), 3 * ((p2 - p1) - (p1 - p0)), (p3 - p0) - 3 * (p2 - p1)])


def places(cubics: Floats, fractions: Floats) -> Floats:
    """The places (n, k, 3) of n cubics with coefficients (4, n, 1, 3) at fractions (n, k) of their lengths."""
    s = fractions[:, :, None]
    sums: Floats = ((cubics[3] * s + cubics[2]) * s + cubics[1]) * s + cubics[0]
    return sums


def rates(cubics: Floats, fractions: Floats, ticks: Ints) -> Floats:
    """The rates (n, k, 3), in nm per tick, of n cubics of these lengths at fractions (n, k)."""
    s = fractions[:, :, None]
    slopes: Floats = ((3 * cubics[3] * s + 2 * cubics[2]) * s + cubics[1]) / ticks[:, None, None]
    return slopes


def lengths_of(vectors: Floats) -> Floats:
    """The lengths (n, k) of vectors (n, k, 3)."""
    lengths: Floats = np.sqrt(np.einsum("nkx,nkx->nk", vectors, vectors))
    return lengths


class PairMotion:
    """The relative motion of the two objects of n runs: what `distances` and `speeds` need, made once."""

    def __init__(self, catalogue: Catalogue, runs: Runs) -> None:
        origin = catalogue.states[catalogue.piece_states[runs.piece_a]][:, :3]
        points_a, self.start_a, self.ticks_a = controls(catalogue, runs.piece_a, origin)
        points_b, self.start_b, self.ticks_b = controls(catalogue, runs.piece_b, origin)
        self.cubics_a, self.cubics_b = coefficients(points_a), coefficients(points_b)
        self.first = runs.first

    def fractions(self, offsets: Floats) -> tuple[Floats, Floats]:
        """The fractions (n, k) of both pieces at offsets (n, k) in ticks from the first ticks of the runs."""
        a = ((self.first - self.start_a)[:, None] + offsets) / self.ticks_a[:, None]
        b = ((self.first - self.start_b)[:, None] + offsets) / self.ticks_b[:, None]
        return a, b

    def distances(self, offsets: Floats) -> Floats:
        """The distances (n, k) in m at offsets (n, k) in ticks from the first ticks of the runs."""
        a, b = self.fractions(offsets)
        lengths: Floats = lengths_of(places(self.cubics_b, b) - places(self.cubics_a, a)) / NM_PER_METRE
        return lengths

    def speeds(self, offsets: Floats) -> Floats:
        """The relative speeds (n, k) in m/s there."""
        a, b = self.fractions(offsets)
        difference = rates(self.cubics_b, b, self.ticks_b) - rates(self.cubics_a, a, self.ticks_a)
        lengths: Floats = lengths_of(difference) * (1e6 / NM_PER_METRE)
        return lengths


def least_distances(catalogue: Catalogue, runs: Runs) -> tuple[Floats, Ints]:
    """The least distance (n,) in m at the whole ticks of each run, and the ticks (n,) where it is.

    The squared distance is a polynomial of degree 6 in time. Its least sample of 33 is refined between the neighbouring samples by the
    golden section, and the whole ticks on both sides are tried.
    """
    motion = PairMotion(catalogue, runs)
    length = (runs.last - runs.first).astype(np.float64)[:, None]
    steps = np.linspace(0, 1, SAMPLES_PER_RUN)
    samples = np.rint(length * steps)
    best = motion.distances(samples).argmin(axis=1)[:, None]
    low = np.take_along_axis(samples, np.maximum(best - 1, 0), axis=1)
    high = np.take_along_axis(samples, np.minimum(best + 1, SAMPLES_PER_RUN - 1), axis=1)
    middle = np.take_along_axis(samples, best, axis=1)
    for _ in range(GOLDEN_STEPS):
        reach = GOLDEN * (high - low)
        left, right = high - reach, low + reach
        values = motion.distances(np.concatenate([left, right], axis=1))
        lower = (values[:, 0] < values[:, 1])[:, None]
        low, high = np.where(lower, low, left), np.where(lower, right, high)
        if (high - low).max(initial=0) < 0.5:
            break
    ends = np.concatenate([middle, np.floor(low), np.floor(low) + 1, np.floor(low) + 2], axis=1)
    ends = np.clip(ends, 0, length)
    values = motion.distances(ends)
    place = values.argmin(axis=1)[:, None]
    offsets = np.take_along_axis(ends, place, axis=1)[:, 0].astype(np.int64)
    return np.take_along_axis(values, place, axis=1)[:, 0], runs.first + offsets


def approaches(catalogue: Catalogue, report: Report, told: Callable[[int], None]) -> list[Approach | None]:
    """What floating point says of each encounter, or nothing of one at whose ticks not both objects have states; `told` is called
    with how many are done."""
    found: list[Approach | None] = []
    batch: list[tuple[Encounter, list[CommonRun]]] = []
    waiting = 0
    for encounter in report.encounters:
        runs = list(common_runs(catalogue.objects[encounter.a - 1], catalogue.objects[encounter.b - 1], encounter.first, encounter.last))
        batch.append((encounter, runs))
        waiting += len(runs)
        if waiting >= RUNS_AT_ONCE:
            found.extend(approaches_of(catalogue, batch))
            told(len(found))
            batch, waiting = [], 0
    found.extend(approaches_of(catalogue, batch))
    told(len(found))
    return found


def is_whole(encounter: Encounter, runs: Sequence[CommonRun]) -> bool:
    """Whether the runs hold all ticks of the encounter."""
    return sum(run.last - run.first + 1 for run in runs) == encounter.last - encounter.first + 1


def approaches_of(catalogue: Catalogue, batch: Sequence[tuple[Encounter, list[CommonRun]]]) -> list[Approach | None]:
    """The same of some encounters with their runs."""
    whole = [(encounter, runs) for encounter, runs in batch if is_whole(encounter, runs)]
    if not whole:
        return [None] * len(batch)
    all_runs = runs_of([run for _, runs in whole for run in runs])
    least, ticks = least_distances(catalogue, all_runs)
    starts = np.cumsum([0] + [len(runs) for _, runs in whole])
    holding = np.array(
        [start + next(i for i, run in enumerate(runs) if run.last >= encounter.closest) for start, (encounter, runs) in zip(starts, whole)]
    )
    at = all_runs.part(holding)
    motion = PairMotion(catalogue, at)
    offsets = (np.array([encounter.closest for encounter, _ in whole]) - at.first).astype(np.float64)[:, None]
    distances, speeds = motion.distances(offsets)[:, 0], motion.speeds(offsets)[:, 0]
    told: list[Approach] = []
    for number, (start, end) in enumerate(zip(starts[:-1], starts[1:])):
        place = start + int(least[start:end].argmin())
        told.append(Approach(float(distances[number]), float(speeds[number]), float(least[place]), int(ticks[place])))
    in_order = iter(told)
    return [next(in_order) if is_whole(encounter, runs) else None for encounter, runs in batch]


def distances_at(catalogue: Catalogue, runs: Runs, ticks: Ints) -> Floats:
    """The distances (n,) in m at ticks (n,), each of which lies in the run (n,) with the same place."""
    return PairMotion(catalogue, runs).distances((ticks - runs.first).astype(np.float64)[:, None])[:, 0]
