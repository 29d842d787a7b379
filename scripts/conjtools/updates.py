"""Folders in which some files are updates of others (docs/FORMATS.md, "Files that are updates"): the files that then stand, and what
`conj rescreen` has to put by what `conj screen` puts of these."""

from __future__ import annotations

import shutil
from collections.abc import Mapping
from dataclasses import dataclass
from pathlib import Path

from conjtools.report import Report, encounter_text, read_report

SUFFIX, UPDATE = ".oem", ".new"
REPORT, CHANGED = "screen.report", "changed.report"
REPORT_TITLE, CHANGED_TITLE = "CONJ-REPORT 1\n", "CONJ-CHANGED 1\n"


@dataclass(frozen=True)
class Names:
    """How the names of ephemerides end, and how those of their updates go on behind that; the files of sizes and of primaries are neither."""

    suffix: str = SUFFIX
    update: str = UPDATE
    sizes: str | None = None
    primaries: str | None = None

    def is_beside(self, name: str) -> bool:
        """Whether a file of this name tells something of objects."""
        return name in (self.sizes, self.primaries)

    def updated(self, name: str) -> str | None:
        """The name that a file of this name updates, if it is an update."""
        stem = name.removesuffix(self.update)
        return stem if stem != name and stem.endswith(self.suffix) and not self.is_beside(name) else None

    def is_base(self, name: str) -> bool:
        """Whether a file of this name is an ephemeris that is no update."""
        return name.endswith(self.suffix) and not self.is_beside(name) and self.updated(name) is None


def make_updated(folder: Path, place: Path, names: Names) -> None:
    """Makes a folder of the files of another one in which no file is an update: each stands in the place of what it updates."""
    place.mkdir()
    paths = [path for path in folder.iterdir() if path.is_file()]
    for path in paths:
        if names.updated(path.name) is None:
            shutil.copy(path, place)
    for path in paths:
        name = names.updated(path.name)
        if name is not None:
            stands = place / name
            shutil.copy(path, stands)
            if not path.stat().st_size:
                stands.unlink()


def make_unchanged(folder: Path, place: Path, names: Names) -> None:
    """Makes a folder of those files of another one that its updates leave as they are, or replace by the same bytes."""
    place.mkdir()
    for path in folder.iterdir():
        if path.is_file() and names.updated(path.name) is None and is_unchanged(folder, path.name, names):
            shutil.copy(path, place)


def is_unchanged(folder: Path, name: str, names: Names) -> bool:
    """Whether a base file, or a file that is no ephemeris, stands with the same bytes among the updated files."""
    update = folder / (name + names.update)
    return not names.is_base(name) or not update.is_file() or update.read_bytes() == (folder / name).read_bytes()


def unchanged_files(folder: Path, names: Names) -> frozenset[str]:
    """The names of the ephemerides that stand with the same bytes among the updated files."""
    files = (path.name for path in folder.iterdir() if path.is_file())
    return frozenset(name for name in files if names.is_base(name) and is_unchanged(folder, name, names))


def counts(summary: bytes) -> dict[str, int]:
    """The counts of a summary by their names."""
    return {name: int(number) for name, number in (line.split(" ") for line in summary.decode("ascii").splitlines())}


def kept_pairs(summary: bytes) -> int:
    """How many pairs the filter keeps, by the summary of a screening."""
    told = counts(summary)
    return told["PAIRS"] - told["PARTED"]


def summary_parts(summary: bytes) -> tuple[bytes, bytes]:
    """The lines of a summary of a screening, and the line that tells how many objects do not cover the window, or nothing."""
    counted, word, count = summary.partition(b"UNCOVERED ")
    return counted, word + count


def changed_text(report: Report, unchanged: frozenset[str]) -> str:
    """The report of those pairs alone of which a file is not unchanged."""
    encounters = [told for told in report.encounters if not {report.objects[told.a - 1].file, report.objects[told.b - 1].file} <= unchanged]
    head = Report(report.window, report.threshold, report.objects, ()).text().removeprefix(REPORT_TITLE).removesuffix("END\n")
    return CHANGED_TITLE + head + "".join(encounter_text(number, told) for number, told in enumerate(encounters, 1)) + "END\n"


@dataclass(frozen=True)
class Put:
    """What a run put: its pieces by their names, and its summary."""

    pieces: Mapping[str, bytes]
    summary: bytes


def differences_from_screening(again: Put, screened: Put, kept: int) -> list[str]:
    """In what a screening again put something else than a screening of the updated files, where so many kept pairs are unchanged."""
    found = [
        f"{name} is not that of the updated files"
        for name in sorted(again.pieces.keys() | screened.pieces.keys())
        if again.pieces.get(name) != screened.pieces.get(name)
    ]
    counted, uncovered = summary_parts(screened.summary)
    wanted = counted + b"KEPT %d\n" % kept + uncovered
    if again.summary != wanted:
        found.append(f"the summary is {again.summary!r} in place of {wanted!r}")
    return found


def differences_of_changed(changed: Put, screened: Put, kept: int, unchanged: frozenset[str]) -> list[str]:
    """In what a run that told changed pairs alone put something else than their part of a screening of the updated files."""
    report = read_report(REPORT, screened.pieces[REPORT])
    text = changed_text(report, unchanged)
    found = []
    if changed.pieces != {CHANGED: text.encode("ascii")}:
        found.append(f"{sorted(changed.pieces)} are not the report of the changed pairs")
    count = text.count("\nENCOUNTER ")
    wanted = f"OBJECTS {len(report.objects)}\nENCOUNTERS {count}\nKEPT {kept}\n".encode("ascii") + summary_parts(screened.summary)[1]
    if changed.summary != wanted:
        found.append(f"the summary is {changed.summary!r} in place of {wanted!r}")
    return found
