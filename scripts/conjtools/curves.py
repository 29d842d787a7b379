"""The curve of an encounter: the distance of its objects over the time round the closest approach, as points."""

from __future__ import annotations

from dataclasses import dataclass
from itertools import chain, takewhile

import numpy as np

from conjtools.catalogue import Catalogue, common_runs
from conjtools.motion import Approach, Floats, Ints, distances_at, runs_of
from conjtools.report import Encounter, Report, Span, Window

SECOND = 1_000_000
LEAST_SAMPLES, MOST_SAMPLES = 241, 20_000
SAMPLES_PER_RUN = 8
COLUMNS = 400
LONGEST_MARGIN = 1800 * SECOND
SHORTEST_MARGIN = 1000


@dataclass(frozen=True)
class Curve:
    """Stretches of common ticks without a gap, each as ticks (k,) and distances (k,) in m; the ticks from which and to which it is
    drawn; and the spans of the pair there, also those of its other encounters."""

    stretches: tuple[tuple[Ints, Floats], ...]
    first: int
    last: int
    spans: tuple[Span, ...]


def view_of(encounter: Encounter, approach: Approach, threshold: int, window: Window) -> tuple[int, int]:
    """The first and the last tick to draw: those of the encounter, with a margin on both sides in which the distance grows well beyond
    the threshold (nm), within the window."""
    length = encounter.last - encounter.first
    crossing = int(min(threshold / 1e9 / max(approach.speed, 1e-9), LONGEST_MARGIN / SECOND) * SECOND)
    margin = max(length, min(crossing, max(20 * length, SECOND)), SHORTEST_MARGIN)
    return max(window.first, encounter.first - margin), min(window.last, encounter.last + margin)


def spans_between(report: Report, number: int, first: int, last: int) -> tuple[Span, ...]:
    """The spans from one tick to another of the pair of an encounter. The encounters of a pair follow one another in a report."""
    pair = report.encounters[number - 1].a, report.encounters[number - 1].b
    before = takewhile(lambda other: (other.a, other.b) == pair, reversed(report.encounters[: number - 1]))
    behind = takewhile(lambda other: (other.a, other.b) == pair, report.encounters[number - 1 :])
    spans = (span for encounter in chain(before, behind) for span in encounter.spans if span.first <= last and first <= span.last)
    return tuple(sorted((Span(span.kind, max(span.first, first), min(span.last, last)) for span in spans), key=lambda span: span.first))


def curve_of(catalogue: Catalogue, report: Report, number: int, approach: Approach) -> Curve:
    """The curve of the encounter with this number."""
    encounter = report.encounters[number - 1]
    first, last = view_of(encounter, approach, report.pair_threshold(encounter), report.window)
    a, b = catalogue.objects[encounter.a - 1], catalogue.objects[encounter.b - 1]
    runs = runs_of(list(common_runs(a, b, first, last)))
    count = min(max(LEAST_SAMPLES, SAMPLES_PER_RUN * len(runs.first)), MOST_SAMPLES)
    breaks = np.flatnonzero(runs.first[1:] != runs.last[:-1] + 1)
    ends = np.concatenate([runs.first[:1], runs.last[breaks], runs.first[breaks + 1], runs.last[-1:]])
    marked = [encounter.closest, approach.least_tick, *(tick for span in encounter.spans for tick in (span.first, span.last))]
    ticks = np.unique(np.concatenate([np.linspace(first, last, count).astype(np.int64), ends, np.array(marked, dtype=np.int64)]))
    places = np.searchsorted(runs.first, ticks, side="right") - 1
    held = (places >= 0) & (ticks <= runs.last[places])
    ticks, places = ticks[held], places[held]
    distances = distances_at(catalogue, runs.part(places), ticks)
    stretch_of_run = np.searchsorted(breaks, np.arange(len(runs.first)), side="left")
    cuts = np.flatnonzero(np.diff(stretch_of_run[places])) + 1
    stretches = zip(np.split(ticks, cuts), np.split(distances, cuts))
    return Curve(tuple(thinned(times, values, first, last) for times, values in stretches), first, last, spans_between(report, number, first, last))


def thinned(ticks: Ints, distances: Floats, first: int, last: int) -> tuple[Ints, Floats]:
    """Of many points the first, the last, the least and the greatest in each of 400 columns: a curve that looks the same."""
    if len(ticks) <= 4 * COLUMNS:
        return ticks, distances
    columns = (ticks - first) * COLUMNS // max(1, last - first + 1)
    starts = np.flatnonzero(np.diff(columns, prepend=-1))
    kept: list[int] = []
    for start, end in zip(starts, [*starts[1:], len(ticks)]):
        part = distances[start:end]
        kept.extend({start, end - 1, start + int(part.argmin()), start + int(part.argmax())})
    chosen = np.unique(np.array(kept))
    return ticks[chosen], distances[chosen]
