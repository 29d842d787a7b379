"""The loads, what each is run with, how it ends, and what it may cost.

How it ends is due by the formats and limits, and not by what a program did. Each bound says why in a few words.
"""

from __future__ import annotations

from collections.abc import Callable
from dataclasses import dataclass
from pathlib import Path

from conjtools.loads.approaches import (
    FEW,
    FLEET,
    at_the_threshold,
    close_nodes,
    fast_objects,
    few_primaries,
    long_file_names,
    near_misses,
    resting_together,
    short_spans,
    thin_objects,
    together_for_a_tick,
)
from conjtools.loads.certificates import (
    CELL_OBJECTS,
    CERTIFICATE,
    cells_of_one_pair,
    many_cells,
    many_sizes,
    one_long_line,
    short_lines,
    thin_boxes,
    touching_everywhere,
)
from conjtools.loads.reading import (
    OBJECTS_OF_NODES,
    ONE_OBJECT,
    crowded_folder,
    crowded_updates,
    late_fault,
    line_ends,
    long_comments,
    long_epochs,
    long_numbers,
    long_object_name,
    many_matrices,
    many_nodes,
    matrices_alone,
    nodes_outside,
    sizes_alone,
    small_files,
    updated_files,
)
from conjtools.loads.texts import KM, LARGEST_FILE, OBJECTS_TIMES_SLOTS

Maker = Callable[[Path, int, int], None]
Amount = Callable[[int], int]

MIB = 1 << 20
# What a program stands in that does nothing, and what its parent did when it was started.
IDLE = 32 * MIB
# Bytes of what is kept, as docs/LIMITS.md has them or as its types are, with room for a list that has doubled: a node, a matrix, the box of an object in a
# slot with its line in the certificate, a leaf with its lines in report and certificate, an encounter with its lines.
NODE, MATRIX, BOX, LEAF, ENCOUNTER = 112, 512, 256, 160, 160


@dataclass(frozen=True)
class Due:
    """How a run ends: its status, its line on standard error, and whole lines of the summary or the certificate."""

    status: int
    error: str = ""
    lines: tuple[str, ...] = ()


@dataclass(frozen=True)
class Bound:
    """What a run may cost, and why: processor time as a multiple of reading the same bytes, memory as a multiple of the largest file and further bytes by
    the load's size, and what it may write by the load's size."""

    multiple: int
    files: float
    kept: Amount
    reason: str
    written: Amount | None = None


@dataclass(frozen=True)
class Run:
    """A command over the folder of a load, with its options, and the numbers of workers, if it is to be compared by them."""

    command: str
    options: tuple[str, ...]
    due: Callable[[Path, int], Due]
    workers: tuple[int, ...] = ()


@dataclass(frozen=True)
class Load:
    """A generator, its greatest size, what is run over its folder, and the bound of each run."""

    make: Maker
    greatest: int
    runs: tuple[Run, ...]
    bound: Bound

    @property
    def name(self) -> str:
        return self.make.__name__


def pairs(objects: int) -> int:
    return objects * (objects - 1) // 2


def nothing(size: int) -> int:
    return 0


def places(size: int) -> int:
    """Bytes of the boxes where objects times slots are as many as are taken."""
    return OBJECTS_TIMES_SLOTS * BOX


# ---- what is due


def ends_well(*lines: str) -> Callable[[Path, int], Due]:
    return lambda folder, size: Due(0, "", lines)


def ends_with(status: int, error: str, *lines: str) -> Callable[[Path, int], Due]:
    return lambda folder, size: Due(status, error, lines)


def untiled(objects: Amount, cells: Amount) -> Callable[[Path, int], Due]:
    """Behind the head of four lines stand three lines for each object, and then the cells; cells are wanted behind the last."""
    return lambda folder, size: Due(1, f"conj: not accepted: line {4 + 3 * objects(size) + cells(size) + 1}: Untiled\n")


def segments_are_encounters(folder: Path, size: int) -> Due:
    """Between two segments of the second object there is a second without a state, and all are near: each is an encounter with a message."""
    count = (folder / "b.oem").read_bytes().count(b"META_START")
    return Due(0, "", (f"ENCOUNTERS {count}", f"MESSAGES {count}"))


def fault_in_the_last_line(folder: Path, size: int) -> Due:
    comments = (size - len(ONE_OBJECT)) // len("COMMENT x\n")
    return Due(3, f"conj: a.oem: line {ONE_OBJECT.count(chr(10)) + comments + 1}: Kvn NotPrintable\n")


def screens(*lines: str, workers: tuple[int, ...] = ()) -> Run:
    return Run("screen", (), ends_well(*lines), workers)


def checks(due: Callable[[Path, int], Due]) -> tuple[Run, ...]:
    return (Run("check", ("--cert", CERTIFICATE), due),)


def screens_again(*lines: str, workers: tuple[int, ...] = ()) -> Run:
    return Run("rescreen", A_MINUTE, ends_well(*lines), workers)


A_MINUTE = ("--from", "2025-01-01T00:00:00", "--to", "2025-01-01T00:01:00")
ALL_UPDATED = Run("rescreen", A_MINUTE, lambda folder, size: Due(0, "", (f"PAIRS {pairs(size)}", f"PARTED {pairs(size)}", "KEPT 0")), (1, 4, 16))
AT_7000_KM = f"SHELL 1 {7000 * KM} {7000 * KM}"
ALL_PARTED = Run("screen", (), lambda folder, size: Due(0, "", (f"PAIRS {pairs(size)}", f"PARTED {pairs(size)}")), (1, 4, 16))
ALL_PASS = Run("screen", (), lambda folder, size: Due(0, "", (f"PAIRS {pairs(size)}", "MESSAGES 0")))
FEW_PASS = Run("screen", ("--primaries", FLEET), lambda folder, size: Due(0, "", (f"PAIRS {pairs(size) - pairs(max(0, size - FEW))}", "TOUCHING 0")), (1, 4))
ALL_NEAR = Run("screen", (), lambda folder, size: Due(0, "", (f"ENCOUNTERS {pairs(size)}", f"NEAR {pairs(size)}")))
ALL_TOLD = Run("screen", (), lambda folder, size: Due(0, "", (f"ENCOUNTERS {pairs(size)}", f"MESSAGES {pairs(size)}")))
ALL_SHORT = Run("screen", (), lambda folder, size: Due(0, "", (f"ENCOUNTERS {size}", "FAR 0", "MESSAGES 0")))
TOO_MANY_CELLS = Run("screen", (), ends_with(6, "conj: limit: Cells 4000000\n"), (1, 4, 16))
MORE_THAN_ONE_CELL = Run("screen", ("--cells", "1"), ends_with(6, "conj: limit: Cells 1\n"))
# The same as a whole sky, slab by slab.
LARGE_TOO_MANY_CELLS = Run("screen", ("--large", "--cells", "4000000"), ends_with(6, "conj: limit: Cells 4000000\n"), (1, 4, 16))
LARGE_ALL_NEAR = Run("screen", ("--large",), ALL_NEAR.due, (1, 4))
LARGE_MISSES = Run("screen", ("--large",), ends_well("NEAR 0", "MESSAGES 0"))

# Multiples of reading are of 0.2 seconds or more, so that 10 are at least two seconds.
LOADS = (
    # reading
    Load(line_ends, LARGEST_FILE, (screens("OBJECTS 1", "PAIRS 0"),), Bound(20, 4, nothing, "a line a byte, none of them kept")),
    Load(long_comments, LARGEST_FILE, (screens("OBJECTS 1", "PAIRS 0"),), Bound(5, 4, nothing, "each byte is looked at a few times")),
    Load(late_fault, LARGEST_FILE, (Run("screen", (), fault_in_the_last_line),), Bound(10, 4, nothing, "one pass finds it")),
    Load(matrices_alone, LARGEST_FILE // 2, (screens("ENCOUNTERS 3", "MESSAGES 3", workers=(1, 4)),),
         Bound(40, 4, lambda size: 3 * size // 84 * MATRIX, "numbers are parsed, and 512 bytes kept of 84")),
    Load(many_nodes, 2_000_000, (screens("OBJECTS 1", "PAIRS 0"),), Bound(40, 4, lambda size: size * NODE, "a hull a node, for the shell and for a box")),
    Load(nodes_outside, 4_000_000, (Run("screen", ("--large", *A_MINUTE), ends_well(f"OBJECTS {OBJECTS_OF_NODES}")),),
         Bound(30, 4, lambda size: size // OBJECTS_OF_NODES * NODE + MIB, "the nodes of one file at a time, and those that the window needs")),
    Load(small_files, 2_000, (ALL_PARTED,), Bound(5, 4, lambda size: size * 4096 + 16 * MIB, "shells part all pairs; a file stands in room of its size")),
    Load(long_numbers, LARGEST_FILE // 2, (screens("OBJECTS 1", AT_7000_KM),), Bound(5, 4, nothing, "each digit is looked at a few times")),
    Load(long_epochs, LARGEST_FILE // 2, (screens("OBJECTS 1", AT_7000_KM),), Bound(5, 4, nothing, "each digit is looked at a few times")),
    Load(sizes_alone, LARGEST_FILE // 4, (Run("screen", ("--sizes", "sizes.txt"), ends_well("OBJECTS 2", "PARTED 1")),),
         Bound(60, 4, lambda size: size // 8 * 128, "two million designators are put into a tree")),
    Load(crowded_folder, 100_000, (screens("OBJECTS 2", "PARTED 1"),), Bound(5, 4, lambda size: size * 512, "a name is asked for its end")),
    Load(updated_files, 2_000, (ALL_UPDATED,), Bound(10, 4, lambda size: 2 * size * 4096 + 16 * MIB, "shells part all pairs, before updates and after them")),
    Load(crowded_updates, 100_000, (screens_again("OBJECTS 2", "PARTED 1", "KEPT 0"),),
         Bound(5, 4, lambda size: size * 1024, "a name is kept, its file is found empty, and no object has it")),
    Load(many_matrices, LARGEST_FILE // 4, (Run("screen", (), segments_are_encounters),),
         Bound(40, 4, lambda size: size // 84 * MATRIX + size // 3 // 400 * ENCOUNTER, "a matrix is found in the logarithm of their number")),
    Load(long_object_name, MIB, (Run("screen", (), segments_are_encounters),),
         Bound(10, 8, nothing, "a message has the name once, and one message stands in memory", lambda size: 202 * size + 200 * 8192)),
    # approaches
    Load(resting_together, 2_000, (TOO_MANY_CELLS, MORE_THAN_ONE_CELL, LARGE_TOO_MANY_CELLS), Bound(80, 4, places, "boxes of all slots, and then a refusal")),
    Load(thin_objects, 2_000, (screens("TOUCHING 0", "FAR 0"),), Bound(120, 4, places, "hulls of all slots, and a sweep where few meet")),
    Load(few_primaries, 2_000, (FEW_PASS,), Bound(120, 4, places, "hulls of all slots, and in each the pairs of so many objects")),
    Load(fast_objects, 400, (ALL_PASS,), Bound(150, 4, places, "a box stands in up to 64 buckets in each slot")),
    Load(close_nodes, 300_000, (screens("ENCOUNTERS 1", "FAR 0", "MESSAGES 0"),), Bound(40, 4, lambda size: size * (2 * NODE + LEAF), "a leaf a tick")),
    Load(short_spans, 40_000, (ALL_SHORT,), Bound(20, 4, lambda size: size * (4 * NODE + LEAF + ENCOUNTER), "an encounter a segment")),
    Load(together_for_a_tick, 1_400, (ALL_NEAR, LARGE_ALL_NEAR), Bound(60, 4, lambda size: pairs(size) * (LEAF + ENCOUNTER), "an encounter a pair")),
    Load(long_file_names, 80, (ALL_TOLD,),
         Bound(10, 4, lambda size: pairs(size) * ENCOUNTER, "a message a pair", lambda size: pairs(size) * 8192 + 16 * MIB)),
    Load(at_the_threshold, 20_160, (screens("PAIRS 1", "MESSAGES 0"),), Bound(20, 4, lambda size: size * 16 * LEAF, "a few leaves a minute")),
    Load(near_misses, 20_160, (screens("NEAR 0", "MESSAGES 0"), LARGE_MISSES), Bound(40, 4, lambda size: size * 64 * LEAF, "some thirty leaves a minute")),
    # certificates
    Load(touching_everywhere, 2_000, checks(untiled(lambda size: size, nothing)), Bound(80, 4, places, "hulls of all slots, and no list of pairs")),
    Load(many_cells, 1_000_000, checks(untiled(lambda size: CELL_OBJECTS, lambda size: size)), Bound(80, 4, places, "hulls of all slots, and a gap a line")),
    Load(thin_boxes, 2_000, checks(ends_with(0, "", "ACCEPTED")), Bound(80, 4, places, "hulls of all slots, and a sweep where few meet")),
    Load(one_long_line, 1 << 30, checks(ends_with(1, "conj: not accepted: line 3: Text Range\n")), Bound(40, 1.5, nothing, "each digit is looked at")),
    Load(short_lines, 1 << 28, checks(ends_with(1, "conj: not accepted: line 5: ShellOf\n")), Bound(40, 4, nothing, "a line has 13 bytes and is kept in 32")),
    Load(cells_of_one_pair, 2_000_000, checks(ends_with(0, "", "ACCEPTED")), Bound(60, 1.5, lambda size: 64 * size, "a gap a line, kept in some 40 bytes")),
    Load(many_sizes, 4_000_000, checks(ends_with(1, "conj: not accepted: line 7: SizeOf\n")), Bound(10, 1.5, lambda size: 32 * size, "a size a line")),
)
