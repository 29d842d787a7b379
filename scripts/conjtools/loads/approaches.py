"""Loads that are dear to screen: much touches, or is halved long. Each is `NAME(folder, seed, size)`, the same for the same seed and size."""

from __future__ import annotations

import math
import random
from pathlib import Path

from conjtools.loads.texts import HEADER, KM, MINUTE, MM, SECOND, THRESHOLD, Place, covariances, epoch, matrix, metadata, node, put, resting
from conjtools.loads.texts import slots_for, times, triple

FASTEST = 20 * KM
# So many primaries are gone through one by one, each with all other objects.
FEW = 64
FLEET = "fleet.txt"


def resting_together(folder: Path, seed: int, size: int) -> None:
    """So many objects at rest at one place, for as long as so many may be screened: each pair touches in each minute, so that from 32 objects on there are
    more cells than any limit allows. The place is within a bucket of space, on a side, on an edge or at a corner: there, coordinates are multiples of
    2,000 km."""
    draw = random.Random(seed)
    last = (slots_for(size) - 1) * MINUTE
    corners = draw.randrange(4)
    place = [8000 * KM if axis < corners else draw.randrange(6500, 7500) * KM for axis in range(3)]
    draw.shuffle(place)
    for number in range(size):
        put(folder, f"{number:04}.oem", resting(f"REST {number}", place, last))


def thin_objects(folder: Path, seed: int, size: int) -> None:
    """So many objects that swing along one axis, 800,000 km each hour, 20 km apart on another: their boxes are long in each slot and never touch."""
    put_thin(folder, random.Random(seed), size)


def few_primaries(folder: Path, seed: int, size: int) -> None:
    """The same, and a file that names as many of them as primaries as are few."""
    draw = random.Random(seed)
    put_thin(folder, draw, size)
    put(folder, FLEET, "".join(f"THIN-{number}\n" for number in draw.sample(range(size), min(FEW, size))))


def put_thin(folder: Path, draw: random.Random, size: int) -> None:
    """Writes so many objects that swing along one axis."""
    long, apart, _ = draw.sample(range(3), 3)
    last = (slots_for(size) - 1) * MINUTE
    for number, rank in enumerate(draw.sample(range(size), size)):
        rows = []
        for hour, time in enumerate(times(last)):
            place = [0, 0, 0]
            place[long] = (400_000 if hour % 2 else -400_000) * KM
            place[apart] = 20 * KM * rank
            rows.append(node(time, place))
        put(folder, f"{number:04}.oem", HEADER + metadata(f"THIN {number}", 0, last, f"THIN-{number}") + "".join(rows))


def fast_objects(folder: Path, seed: int, size: int) -> None:
    """So many objects, each hour at another place of the space that is taken and with the greatest rates: boxes of some thousand kilometres on each axis
    in each slot, so that each meets many buckets."""
    draw = random.Random(seed)
    last = (slots_for(size) - 1) * MINUTE
    for number in range(size):
        rows = []
        for time in times(last):
            place = [draw.randrange(-450_000, 450_001) * KM for _ in range(3)]
            rows.append(node(time, place, [draw.choice((-FASTEST, FASTEST)) for _ in range(3)]))
        put(folder, f"{number:04}.oem", HEADER + metadata(f"FAST {number}", 0, last) + "".join(rows))


def close_nodes(folder: Path, seed: int, size: int) -> None:
    """Two objects at rest, a kilometre apart, of so many nodes with a microsecond between them: each tick is a piece of its own."""
    draw = random.Random(seed)
    first = draw.randrange(MINUTE - size)
    for name, x in (("a", 7000), ("b", 7001)):
        with open(folder / f"{name}.oem", "w", encoding="ascii", newline="\n") as file:
            file.write(HEADER + metadata(f"CLOSE {name}", first, first + size - 1))
            for number in range(size):
                second, part = divmod(first + number, SECOND)
                file.write(f"2025-001T00:00:{second:02}.{part:06} {x} 0 0 0 0 0\n")


def short_spans(folder: Path, seed: int, size: int) -> None:
    """Two objects at rest, a kilometre apart, of so many segments: two nodes each, of which one tick is useable, with a tick between two segments."""
    draw = random.Random(seed)
    start = draw.randrange(MINUTE)
    for name, x in (("a", 7000), ("b", 7001)):
        with open(folder / f"{name}.oem", "w", encoding="ascii", newline="\n") as file:
            file.write(HEADER)
            for number in range(size):
                tick = start + 2 * number
                rows = f"{epoch(tick)} {x} 0 0 0 0 0\n{epoch(tick + SECOND)} {x} 0 0 0 0 0\n"
                file.write(metadata(f"SHORT {name}", tick, tick) + rows)


def together_for_a_tick(folder: Path, seed: int, size: int) -> None:
    """So many objects at one place, all useable at one tick: each pair touches there."""
    draw = random.Random(seed)
    tick = draw.randrange(MINUTE)
    place = [draw.randrange(5000 * KM) for _ in range(3)]
    rows = node(0, place) + node(MINUTE, place)
    for number in range(size):
        put(folder, f"{number:04}.oem", HEADER + metadata(f"TICK {number}", tick, tick) + rows)


def long_file_names(folder: Path, seed: int, size: int) -> None:
    """So many objects at one place for a minute, each with a covariance, and with 200 bytes in the names of file, object and designator: a message a pair."""
    draw = random.Random(seed)
    for number in range(size):
        name = f"{number:04}{draw.choice('abcdefgh') * 192}"
        text = resting(f"{name}NAME", (7000 * KM, 0, 0), MINUTE, f"{name}CODE") + covariances([matrix(draw, 0)])
        put(folder, f"{name}.oem", text)


def at_the_threshold(folder: Path, seed: int, size: int) -> None:
    """Two objects for so many minutes, one round the other on a circle 0.15 mm beyond the threshold, an hour and a half a round, with a node each minute.

    The cubic of an arc of t radians lies within the circle, by at most t^4 / 384 of its radius, here 0.31 mm: the distance is within 0.16 mm of the
    threshold at each tick, on its one side and on the other in turn."""
    draw = random.Random(seed)
    last = size * MINUTE
    start, turn, radius = draw.random() * 2 * math.pi, 2 * math.pi / 90, THRESHOLD + 3 * MM // 20
    center = (7000 * KM, 0, 0)
    put(folder, "a.oem", resting("CENTER", center, last))
    with open(folder / "b.oem", "w", encoding="ascii", newline="\n") as file:
        file.write(HEADER + metadata("CIRCLE", 0, last))
        for minute in range(size + 1):
            angle = start + minute * turn
            away = (0, round(radius * math.cos(angle)), round(radius * math.sin(angle)))
            rate = (0, round(-radius * turn / 60 * math.sin(angle)), round(radius * turn / 60 * math.cos(angle)))
            file.write(node(minute * MINUTE, moved(center, away), rate))


def moved(place: Place, way: Place) -> tuple[int, ...]:
    return tuple(at + by for at, by in zip(place, way))


def near_misses(folder: Path, seed: int, size: int) -> None:
    """Two objects, one of which passes the other once a minute for so many minutes, each time at more than the threshold by less than a millimetre.

    It passes along x, as far away on y as on z, so that the two are within the threshold on each axis, and turns where the seed says."""
    draw = random.Random(seed)
    last = size * MINUTE
    center, nearest = (7000 * KM, 0, 0), math.isqrt(THRESHOLD**2 // 2) + 1
    put(folder, "a.oem", resting("PASSED", center, last))
    with open(folder / "b.oem", "w", encoding="ascii", newline="\n") as file:
        file.write(HEADER + metadata("PASSING", 0, last))
        for minute in range(size + 1):
            miss = nearest + draw.randrange(10, 7 * MM // 10)
            away = (draw.randrange(2 * KM, 20 * KM) * (1 if minute % 2 else -1), miss, miss)
            file.write(f"{epoch(minute * MINUTE)} {triple(moved(center, away))} 0 0 0\n")
