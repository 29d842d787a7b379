"""The command line of `scripts/prepare`."""
from __future__ import annotations

import argparse
import csv
import io
import os
import shutil
import sys
from collections.abc import Iterator
from concurrent.futures import ProcessPoolExecutor
from dataclasses import dataclass
from decimal import Decimal, InvalidOperation
from pathlib import Path

from .earth_orientation import read_earth_orientation
from .epochs import utc_text
from .faults import Refused, WrongUsage
from .frames import OfDate
from .objects import Prepared, Row, Settings, metres, prepare_file
from .segments import HIGHEST_DEGREE, Method, Wanted

TABLE = "prepared.csv"
MOST_NODES = 2_000_000
"""So many nodes over all files are what `conj` takes (docs/LIMITS.md)."""
MOST_OBJECTS = 2_000
NOTATIONS = (".oem", ".xml")


@dataclass(frozen=True)
class Outcome:
    """What came of an input: the names that were written, their rows and notes, or why it is refused."""

    written: tuple[str, ...] = ()
    rows: tuple[Row, ...] = ()
    notes: tuple[str, ...] = ()
    refused: Refused | None = None


def parser() -> argparse.ArgumentParser:
    """The words that are taken."""
    words = argparse.ArgumentParser(prog="prepare", allow_abbrev=False,
                                    description="Makes ephemerides that conj reads (UTC, EME2000, cubic Hermite) from OEM files as other tools "
                                    "write them, and shows how closely each follows the interpolation that its file declares. docs/PREPARE.md says how.")
    words.add_argument("inputs", nargs="+", type=Path, metavar="IN", help="an OEM in KVN or XML; of a folder its files that end with .oem or .xml")
    words.add_argument("--out", required=True, type=Path, metavar="DIR", help="the folder for the ephemerides and prepared.csv; nothing in it is written over")
    words.add_argument("--within", default="1", metavar="METRES", help="how far a cubic may be from the declared interpolant, 0.00001 to 1000; left out: 1")
    words.add_argument("--eop", type=Path, metavar="FILE", help="how the Earth is turned, in the form finals2000A of the IERS: needed for ITRF and UT1")
    words.add_argument("--method", choices=[method.value.lower() for method in Method], help="the interpolation of files that declare none")
    words.add_argument("--degree", type=int, metavar="N", help="its degree, for files that declare none")
    words.add_argument("--lower-degree", action="store_true", help="let segments with too few nodes take the highest degree that they allow")
    words.add_argument("--of-date", choices=[models.value for models in OfDate], help="precession and nutation of TOD and MOD, which their files do not say")
    words.add_argument("--without-covariances", action="store_true", help="leave all covariances out")
    words.add_argument("--workers", type=int, default=1, metavar="N", help="files that are worked on at a time, 1 to 16; left out: 1")
    return words


def settings_of(given: argparse.Namespace) -> Settings:
    """What the words ask."""
    try:
        within = Decimal(given.within)
    except InvalidOperation:
        raise WrongUsage("--within is no number") from None
    if not within.is_finite() or not Decimal("0.00001") <= within <= 1000:
        raise WrongUsage("--within is from 0.00001 to 1000 metres")
    if not 1 <= given.workers <= 16:
        raise WrongUsage("--workers is from 1 to 16")
    if given.degree is not None and not 1 <= given.degree <= HIGHEST_DEGREE:
        raise WrongUsage(f"--degree is from 1 to {HIGHEST_DEGREE}")
    method = Method(given.method.upper()) if given.method else None
    if method is Method.HERMITE and given.degree is not None and given.degree % 2 == 0:
        raise WrongUsage("--degree of a Hermite interpolant is odd")
    orientation = read_earth_orientation(given.eop) if given.eop is not None else None
    models = OfDate(given.of_date) if given.of_date else None
    return Settings(float(within) * 1e9, models, Wanted(method, given.degree, given.lower_degree, orientation, not given.without_covariances))


def input_files(inputs: list[Path]) -> list[Path]:
    """The files that are read, those of a folder in byte order of names."""
    files: list[Path] = []
    for path in inputs:
        if path.is_dir():
            found = sorted((file for file in path.iterdir() if file.suffix in NOTATIONS and file.is_file()), key=lambda file: os.fsencode(file.name))
            if not found:
                raise Refused(str(path), 0, "the folder has no file that ends with .oem or .xml")
            files += found
        else:
            files.append(path)
    return files


def work(path: Path, parts: Path, settings: Settings) -> Outcome:
    """Prepares one input, and writes what comes of it into the folder of parts."""
    try:
        found = prepare_file(path, settings)
    except Refused as refused:
        return Outcome(refused=refused)
    for prepared in found:
        try:
            with (parts / prepared.file).open("x", encoding="ascii", errors="replace") as stream:
                stream.write(prepared.text)
        except FileExistsError:
            return Outcome(refused=Refused(path.name, 0, f"{prepared.file} would be written twice: give the inputs other names"))
    return Outcome(written_names(found), tuple(row for prepared in found for row in prepared.rows),
                   tuple(note for prepared in found for note in prepared.notes))


def written_names(found: list[Prepared]) -> tuple[str, ...]:
    """The names of files."""
    return tuple(prepared.file for prepared in found)


def outcomes(files: list[Path], parts: Path, settings: Settings, workers: int) -> Iterator[Outcome]:
    """What comes of each input, in order."""
    if workers == 1 or len(files) == 1:
        yield from (work(path, parts, settings) for path in files)
        return
    with ProcessPoolExecutor(min(workers, len(files))) as pool:
        yield from pool.map(work, files, [parts] * len(files), [settings] * len(files), chunksize=max(1, min(8, len(files) // workers)))


def table_text(rows: list[Row]) -> str:
    """prepared.csv."""
    text = io.StringIO()
    table = csv.writer(text, lineterminator="\n")
    table.writerow(["file", "object_name", "object_id", "source", "source_line", "method", "degree", "degree_from", "frame", "time_system",
                    "first_utc", "last_utc", "nodes_read", "nodes_written", "covariances", "copied", "within_m"])
    for row in rows:
        table.writerow([row.file, row.name, row.designator, row.source, row.line, row.interpolation.method.value, row.interpolation.degree,
                        row.interpolation.origin.strip().lower() or "file", row.frame, row.system.value, utc_text(row.first),
                        utc_text(row.last), row.read, row.written, row.covariances, "yes" if row.copied else "no", metres(row.bound)])
    return text.getvalue()


def summary(rows: list[Row]) -> str:
    """What is printed."""
    counts = {"OBJECTS": len({row.file for row in rows}), "SEGMENTS": len(rows), "NODES_READ": nodes_read(rows),
              "NODES_WRITTEN": sum(row.written for row in rows),
              "COVARIANCES": sum(row.covariances for row in rows), "COPIED": sum(row.copied for row in rows)}
    for row in rows:
        kind = f"FROM_{row.interpolation.method.value}_{row.interpolation.degree}"
        counts[kind] = counts.get(kind, 0) + 1
    lines = [f"{key} {count}" for key, count in counts.items()]
    return "\n".join([*lines, f"WITHIN {metres(max(row.bound for row in rows))} m"])


def nodes_read(rows: list[Row]) -> int:
    """The nodes of all segments that were read, each once."""
    return sum({(row.file, row.source, row.line): row.read for row in rows}.values())


def limit_notes(rows: list[Row]) -> list[str]:
    """Where `conj` would meet its limits."""
    nodes, objects = sum(row.written for row in rows), len({row.file for row in rows})
    notes = [f"{nodes} nodes are more than the {MOST_NODES} that conj takes without --large: a larger --within needs fewer"] if nodes > MOST_NODES else []
    return notes + ([f"{objects} objects are more than the {MOST_OBJECTS} that conj takes without --large"] if objects > MOST_OBJECTS else [])


def run(given: argparse.Namespace) -> str:
    """Does what the words ask, and gives what is to be printed."""
    settings = settings_of(given)
    files = input_files(given.inputs)
    out: Path = given.out
    made = not out.exists()
    if not made and not out.is_dir():
        raise WrongUsage(f"--out {out} is no folder")
    out.mkdir(parents=True, exist_ok=True)
    parts = out / f".prepare-{os.getpid()}"
    try:
        parts.mkdir()
        rows, notes = prepare_all(files, parts, settings, given.workers)
        put_in_place(parts, out)
        made = False
    finally:
        shutil.rmtree(parts, ignore_errors=True)
        if made:
            out.rmdir()
    for note in notes + limit_notes(rows):
        print(f"prepare: {note}", file=sys.stderr)
    return summary(rows)


def prepare_all(files: list[Path], parts: Path, settings: Settings, workers: int) -> tuple[list[Row], list[str]]:
    """Writes all that comes of the inputs into the folder of parts, and gives the rows and notes."""
    rows: list[Row] = []
    notes: list[str] = []
    for outcome in outcomes(files, parts, settings, workers):
        if outcome.refused is not None:
            raise outcome.refused
        rows += outcome.rows
        notes += outcome.notes
    (parts / TABLE).write_text(table_text(rows), "utf-8")
    return rows, notes


def put_in_place(parts: Path, out: Path) -> None:
    """Moves what was written to its place, where no name is taken; the table comes last."""
    names = sorted(part.name for part in parts.iterdir() if part.name != TABLE) + [TABLE]
    for name in names:
        if os.path.lexists(out / name):
            raise Refused(str(out / name), 0, "stands there already, and nothing is written over: name another --out")
    for name in names:
        (parts / name).rename(out / name)


def main(words: list[str]) -> int:
    """Runs the command, and gives its exit status."""
    given = parser().parse_args(words)
    try:
        print(run(given))
        return 0
    except WrongUsage as fault:
        print(f"prepare: {fault}", file=sys.stderr)
        return 2
    except Refused as refused:
        print(f"prepare: {refused}", file=sys.stderr)
        return 3
    except (OSError, MemoryError) as fault:
        print(f"prepare: {fault or 'out of memory'}", file=sys.stderr)
        return 1
    except KeyboardInterrupt:
        print("prepare: stopped, and nothing is written", file=sys.stderr)
        return 1
