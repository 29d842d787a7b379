"""The objects of the whole window, and their ephemerides where the joining needs them."""

from __future__ import annotations

import functools
from collections.abc import Sequence
from dataclasses import replace
from pathlib import Path

from conjtools.join.encounters import SquareBound
from conjtools.join.exact import square_bound
from conjtools.join.parts import Part, content_of
from conjtools.oem import Ephemeris, read_first_metadata, read_oem
from conjtools.progress import progress
from conjtools.report import ReportObject, check_object

HEAD_BYTES = 65_536
KEPT_EPHEMERIDES = 64


def check_files(part: Part, folder: Path) -> None:
    """The folder has the file of each object of a report, and it is of this object."""
    tell = progress("join", "ephemerides", len(part.report.objects))
    for number, told in enumerate(part.report.objects, 1):
        path = folder / told.file
        try:
            metadata = read_first_metadata(str(path), head_of(path))
        except OSError as error:
            raise part.refuse(told.line + 1, f"{path}: {error.strerror}") from None
        check_object(part.report_file, told, metadata.designator, metadata.name)
        tell(number)


def head_of(path: Path) -> bytes:
    """The whole lines of a file up to the end of its first metadata at least, or the whole file."""
    with path.open("rb") as file:
        head = file.read(HEAD_BYTES)
        if b"META_STOP" in head and len(head) == HEAD_BYTES:
            return head[: head.rindex(b"\n") + 1]
        return head + file.read()


def bounds_by(part: Part, folder: Path) -> SquareBound:
    """The bounds on squared distances of the objects of a report, by the ephemerides of a folder, each of which is read when it is needed."""

    @functools.lru_cache(maxsize=KEPT_EPHEMERIDES)
    def ephemeris_of(number: int) -> Ephemeris:
        told = part.report.objects[number - 1]
        return read_oem(told.file, content_of(folder / told.file))

    return lambda a, b, tick: square_bound(ephemeris_of(a), ephemeris_of(b), tick)


def joined_objects(parts: Sequence[Part]) -> tuple[ReportObject, ...]:
    """The objects, with the spans of the whole window at which each has a state, where the reports tell them."""
    same = zip(*(part.report.objects for part in parts))
    return tuple(replace(told[0], covered=joined_covered([one.covered for one in told])) for told in same)


def joined_covered(parts: Sequence[tuple[tuple[int, int], ...] | None]) -> tuple[tuple[int, int], ...] | None:
    """The spans of all parts, those as one that follow without a gap across a border."""
    whole: list[tuple[int, int]] = []
    for covered in parts:
        if covered is None:
            return None
        if whole and covered and whole[-1][1] + 1 == covered[0][0]:
            whole[-1] = (whole[-1][0], covered[0][1])
            covered = covered[1:]
        whole.extend(covered)
    return tuple(whole)
