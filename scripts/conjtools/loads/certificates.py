"""Loads for a check: certificates that are dear to read or to decide. Each is `NAME(folder, seed, size)`, the same for the same seed and size."""

from __future__ import annotations

import random
from collections.abc import Iterable, Iterator
from itertools import islice
from pathlib import Path

from conjtools.loads.texts import KM, MINUTE, Place, certificate_head, near_cell, put, resting, slots_for

FARTHEST = 10**18
CERTIFICATE = "screen.cert"
ALL_SPACE = (-FARTHEST, FARTHEST) * 3
# How many objects many_cells has.
CELL_OBJECTS = 64


def put_certificate(folder: Path, parts: Iterable[str]) -> None:
    with open(folder / CERTIFICATE, "w", encoding="ascii", newline="\n") as file:
        file.writelines(parts)
        file.write("END\n")


def put_objects(folder: Path, places: Iterable[Place], last: int) -> None:
    for number, place in enumerate(places, 1):
        put(folder, f"{number:04}.oem", resting(f"OBJECT {number}", place, last))


def wide_head(objects: int, last: int) -> str:
    """The first lines of a certificate of version 2: no sizes, and shells that part no pair."""
    sizes = "".join(f"SIZE {number} 0\n" for number in range(1, objects + 1))
    shells = "".join(f"SHELL {number} 0 {FARTHEST}\n" for number in range(1, objects + 1))
    return certificate_head(2, objects, last) + sizes + shells


def box(number: int, first: int, last: int, area: Place) -> str:
    return f"BOX {number} {first} {last} {' '.join(map(str, area))}\n"


def all_cells(objects: int, slots: int) -> Iterator[str]:
    """Near cells for each pair and slot, in order."""
    for first in range(1, objects + 1):
        for second in range(first + 1, objects + 1):
            for slot in range(slots):
                yield near_cell(first, second, slot * MINUTE, slot * MINUTE + MINUTE - 1)


def wide_case(folder: Path, draw: random.Random, objects: int, cells: int) -> None:
    """Objects at rest within a kilometre, for as long as so many are taken, and a certificate in which each pair is looked at in each slot, with so many
    cells that pass."""
    slots = slots_for(objects)
    last = slots * MINUTE - 1
    put_objects(folder, ((7000 * KM + draw.randrange(KM), draw.randrange(KM), draw.randrange(KM)) for _ in range(objects)), last)
    boxes = (box(number, 0, slots - 1, ALL_SPACE) for number in range(1, objects + 1))
    put_certificate(folder, [wide_head(objects, last), *boxes, *islice(all_cells(objects, slots), cells)])


def touching_everywhere(folder: Path, seed: int, size: int) -> None:
    """So many objects, and a certificate without cells in which each pair is looked at in each slot."""
    wide_case(folder, random.Random(seed), size, 0)


def many_cells(folder: Path, seed: int, size: int) -> None:
    """64 objects, and a certificate in which each pair is looked at in each slot, with so many cells that pass: fewer than are wanted."""
    wide_case(folder, random.Random(seed), CELL_OBJECTS, size)


def thin_boxes(folder: Path, seed: int, size: int) -> None:
    """So many objects at rest, 20 km apart on one axis, and a certificate whose boxes reach all along another in each slot, and never touch."""
    draw = random.Random(seed)
    slots = slots_for(size)
    last = slots * MINUTE - 1
    long, apart, third = draw.sample(range(3), 3)
    places, boxes = [], []
    for number, rank in enumerate(draw.sample(range(size), size), 1):
        place = [0, 0, 0]
        place[long], place[apart], place[third] = 7000 * KM + draw.randrange(KM), 20 * KM * rank, draw.randrange(KM)
        ends = [[at, at] for at in place]
        ends[long] = [-FARTHEST, FARTHEST]
        places.append(place)
        boxes.append(box(number, 0, slots - 1, [*ends[0], *ends[1], *ends[2]]))
    put_objects(folder, places, last)
    put_certificate(folder, [wide_head(size, last), *boxes])


def two_objects(folder: Path, last: int) -> None:
    put_objects(folder, ((7000 * KM, 0, 0), (7001 * KM, 0, 0)), last)


def one_long_line(folder: Path, seed: int, size: int) -> None:
    """A certificate of so many bytes, almost all of them the digits of its threshold."""
    draw = random.Random(seed)
    two_objects(folder, MINUTE - 1)
    head = "".join(certificate_head(1, 2, MINUTE - 1).splitlines(keepends=True)[:2]) + "THRESHOLD "
    block = bytes(draw.choices(b"123456789", k=1 << 16)) * 16
    with open(folder / CERTIFICATE, "wb") as file:
        left = size - file.write(head.encode("ascii")) - 1
        while left > 0:
            left -= file.write(block[:left])
        file.write(b"\n")


def short_lines(folder: Path, seed: int, size: int) -> None:
    """A certificate of so many bytes, of the shortest lines that may stand in any number."""
    draw = random.Random(seed)
    two_objects(folder, MINUTE - 1)
    line = f"SHELL {draw.randrange(1, 3)} NONE\n"
    with open(folder / CERTIFICATE, "w", encoding="ascii", newline="\n") as file:
        left = size - file.write(certificate_head(1, 2, MINUTE - 1)) - len("END\n")
        while left >= len(line):
            left -= file.write(line * min(left // len(line), 1 << 16))
        file.write("END\n")


def cells_of_one_pair(folder: Path, seed: int, size: int) -> None:
    """Two objects at rest for so many ticks, and a certificate with a cell for each tick."""
    first, second = random.Random(seed).sample((7000, 7001), 2)
    put_objects(folder, ((first * KM, 0, 0), (second * KM, 0, 0)), size - 1)
    lines = [certificate_head(1, 2, size - 1)]
    for number, x in enumerate((first, second), 1):
        lines.append(f"SHELL {number} {x * KM} {x * KM}\n")
    for number, x in enumerate((first, second), 1):
        lines.append(f"BOX {number} 0 {x * KM} {x * KM} 0 0 0 0\n")
    put_certificate(folder, (*lines, *(near_cell(1, 2, tick, tick) for tick in range(size))))


def many_sizes(folder: Path, seed: int, size: int) -> None:
    """Two objects, and a certificate of version 2 with so many lines of sizes."""
    draw = random.Random(seed)
    two_objects(folder, MINUTE - 1)
    line = f"SIZE {draw.randrange(1, 3)} 0\n"
    put_certificate(folder, [certificate_head(2, 2, MINUTE - 1), "SIZE 1 0\nSIZE 2 0\n", line * (size - 2)])
