"""About how long the rest of a proof takes on this machine, from what was proved so far.

The crates are laid out over the processors as the gate does it: each when those below it are proved, that one first behind which most waits. In
this layout time is counted in lines. How far the gate has come in it, and how long it took to come so far, tell how long the rest takes. So it is
seen that towards the end one crate at a time is left, and most processors wait.
"""

from __future__ import annotations

import heapq
import math
from collections.abc import Mapping
from dataclasses import dataclass, field

from conjtools.proving.crates import Crates

# Before so many crates are proved nothing is said of the rest.
LEAST_PROVED = 3
MINUTE = 60


@dataclass
class Forecast:
    """What was proved so far, and what that says of the rest."""

    crates: Crates
    weights: Mapping[str, float]
    processors: int
    proved: set[str] = field(default_factory=set)
    kept: set[str] = field(default_factory=set)

    @property
    def done(self) -> int:
        """How many crates are done."""
        return len(self.proved | self.kept)

    def seconds_left(self, seconds: float) -> float | None:
        """How long the rest takes, where what is proved took so many seconds; nothing where too little is proved to tell."""
        if len(self.proved) < LEAST_PROVED:
            return None
        ends = layout({name: libraries for name, libraries in self.crates.items() if name not in self.kept}, self.weights, self.processors)
        come, whole = place_of(sum(self.weights[name] for name in self.proved), ends, self.weights), ends[-1][0]
        return seconds * (whole - come) / come if come > 0 else None


def layout(crates: Crates, weight: Mapping[str, float], processors: int) -> list[tuple[float, str]]:
    """When each crate ends, in order, where so many processors do a line each in a unit of time."""
    behind = waits_behind(crates, weight)
    lacks = {name: {library for library in libraries if library in crates} for name, libraries in crates.items()}
    now, at_work, ends = 0.0, list[tuple[float, str]](), list[tuple[float, str]]()
    while lacks or at_work:
        ready = sorted((name for name in lacks if not lacks[name]), key=lambda name: -behind[name])
        for name in ready[: processors - len(at_work)]:
            del lacks[name]
            heapq.heappush(at_work, (now + weight[name], name))
        now, ended = heapq.heappop(at_work)
        ends.append((now, ended))
        for left in lacks.values():
            left.discard(ended)
    return ends


def waits_behind(crates: Crates, weight: Mapping[str, float]) -> dict[str, float]:
    """Of each crate the weight of the longest chain that begins with it and goes up."""
    above: dict[str, list[str]] = {name: [] for name in crates}
    for name, libraries in crates.items():
        for library in libraries:
            if library in crates:
                above[library].append(name)
    found: dict[str, float] = {}

    def chain(name: str) -> float:
        if name not in found:
            found[name] = weight[name] + max(map(chain, above[name]), default=0)
        return found[name]

    for name in crates:
        chain(name)
    return found


def place_of(done: float, ends: list[tuple[float, str]], weight: Mapping[str, float]) -> float:
    """The time in a layout at which so much of it is done, between two ends by even steps."""
    summed, before = 0.0, 0.0
    for end, name in ends:
        if weight[name] > 0 and done <= summed + weight[name]:
            return before + (end - before) * (done - summed) / weight[name]
        summed, before = summed + weight[name], end
    return before


def told(seconds: float) -> str:
    """A length of time as it is told of what is still to come: in whole minutes, upwards."""
    minutes = max(1, math.ceil(seconds / MINUTE))
    return f"about {minutes} minute{'s' if minutes > 1 else ''} left"
