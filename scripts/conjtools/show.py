"""`scripts/show`: pictures and tables of a report."""

from __future__ import annotations

import argparse
import os
from collections.abc import Mapping, Sequence
from pathlib import Path

from conjtools.catalogue import catalogue_of
from conjtools.cdm import check_message, message_name, message_of
from conjtools.changes import Changes, compare
from conjtools.command import Parser, read_file, run
from conjtools.coverage import coverage
from conjtools.curves import Curve, curve_of
from conjtools.faults import InputFault, RunFault, UsageFault
from conjtools.motion import Approach, approaches
from conjtools.oem import Ephemeris, read_all
from conjtools.output import write_all
from conjtools.page import Content, page_text
from conjtools.progress import progress
from conjtools.report import Encounter, Report, check_object, read_report
from conjtools.tables import csv_text, json_text, rows_of

NAME = "show"
REPORT = "screen.report"
CERTIFICATES = ("screen.cert", "screen.cert2")
DEFAULT_PAGE = "screen.html"
DEFAULT_MOST = 24
TOLERANCE = 1.5e-3

DESCRIPTION = """Makes a page of a report of `conj screen`: the encounters as a timeline and a table that can be sorted and filtered, the
distance over time for the nearest, and when each object has data. The page needs no network. Its curves are drawn in floating point and
illustrate the report, which decides."""


def count_from(text: str) -> int:
    """A count from 0 to 1,000."""
    if not text.isdecimal() or not text.isascii() or len(text) > 9 or int(text) > 1000:
        raise argparse.ArgumentTypeError(f"not a number from 0 to 1000: {text}")
    return int(text)


def parser() -> Parser:
    """The words that the script takes."""
    words = Parser(prog="scripts/show", description=DESCRIPTION, allow_abbrev=False)
    words.add_argument("folder", metavar="DIR", type=Path, help="the folder with the ephemerides that were screened")
    words.add_argument("--results", metavar="NEW", type=Path, help="the folder with the report and the messages; left out: DIR")
    words.add_argument("--out", metavar="FILE", type=Path, default=Path(DEFAULT_PAGE), help=f"the page; left out: {DEFAULT_PAGE} in the current folder")
    words.add_argument("--csv", metavar="FILE", type=Path, help="write the table as CSV too")
    words.add_argument("--json", metavar="FILE", type=Path, help="write the table as JSON too, as lists of objects")
    most_help = f"draw the curves of the N nearest encounters; left out: {DEFAULT_MOST}"
    words.add_argument("--most", metavar="N", type=count_from, default=DEFAULT_MOST, help=most_help)
    words.add_argument("--since", metavar="OLD_REPORT", type=Path, help="compare with an older report: what came, went and changed")
    return words


def read_objects(report: Report, folder: Path) -> list[Ephemeris]:
    """The ephemerides that the report names, each of which has to be of the object that it names."""
    lines = {told.file: told.line for told in report.objects}
    ephemerides = read_all(
        [told.file for told in report.objects],
        lambda name: read_file(folder / name, REPORT, lines[name] + 1),
        progress(NAME, "ephemerides", len(report.objects)),
    )
    for told, ephemeris in zip(report.objects, ephemerides):
        check_object(REPORT, told, ephemeris.designator, ephemeris.name)
    return ephemerides


def check_messages(report: Report, results: Path) -> None:
    """Each message that the report tells is there, and of its encounter."""
    tell = progress(NAME, "messages", len(report.encounters))
    for number, encounter in enumerate(report.encounters, 1):
        if encounter.has_message:
            name = message_name(number)
            check_message(name, read_file(results / name, REPORT, encounter.line), message_of(report, number))
        tell(number)


def check_approach(number: int, encounter: Encounter, approach: Approach | None) -> Approach:
    """What floating point says of an encounter agrees with the report, to a millimetre and a half."""
    if approach is None:
        raise InputFault(REPORT, encounter.line, f"encounter {number}: not both objects have a state at all of its times")
    miss = encounter.miss / 1e9
    for what, distance in (("distance at the closest approach", approach.distance), ("least distance", approach.least)):
        if abs(distance - miss) > TOLERANCE:
            raise RunFault(f"{REPORT}: line {encounter.line}: encounter {number}: the drawn {what} is {distance:.6f} m, and the report says {miss:.6f} m")
    return approach


def nearest(report: Report, most: int) -> list[int]:
    """The numbers of the nearest encounters, in order of their miss distances."""
    return sorted(range(1, len(report.encounters) + 1), key=lambda number: (report.encounters[number - 1].miss, number))[:most]


def changes_since(path: Path | None, report: Report, covered: Sequence[tuple[tuple[int, int], ...]]) -> Changes | None:
    """The changes since an older report, if one is named."""
    if path is None:
        return None
    return compare(report, covered, read_report(str(path), read_file(path, str(path))))


def check_outputs(words: argparse.Namespace, kept: Mapping[Path, set[str]]) -> None:
    """Each file that is written is another one, and none of those with these names in these folders."""
    paths: list[Path] = [path for path in (words.out, words.csv, words.json) if path is not None]
    if len({path.resolve() for path in paths}) < len(paths):
        raise UsageFault("two of --out, --csv and --json are the same file")
    for path in paths:
        place = path.resolve()
        if any(place.parent == folder.resolve() and place.name in names for folder, names in kept.items()):
            raise UsageFault(f"{path} is not written over: it is read, or belongs to the run")


def files_of_run(report: Report, words: argparse.Namespace) -> dict[Path, set[str]]:
    """The files of a run, by their folders: its ephemerides, its report with the certificates, its messages, and the older report."""
    messages = {message_name(number) for number, encounter in enumerate(report.encounters, 1) if encounter.has_message}
    kept: dict[Path, set[str]] = {words.folder: {told.file for told in report.objects}}
    kept.setdefault(words.results or words.folder, set()).update(messages, (REPORT, *CERTIFICATES))
    if words.since is not None:
        kept.setdefault(words.since.parent, set()).add(words.since.name)
    return kept


def results_link(results: Path, page: Path) -> str:
    """How the folder of the results is reached from the page, with `/` behind it, or nothing where it is the page's own."""
    way = os.path.relpath(results.resolve(), page.resolve().parent)
    return "" if way == "." else way + "/"


def show(words: argparse.Namespace) -> None:
    """Reads what is named, and writes what is asked for."""
    check_outputs(words, {})
    results: Path = words.results or words.folder
    report = read_report(REPORT, read_file(results / REPORT, REPORT))
    check_outputs(words, files_of_run(report, words))
    ephemerides = read_objects(report, words.folder)
    check_messages(report, results)
    covered = coverage(report, ephemerides)
    changes = changes_since(words.since, report, covered)
    catalogue = catalogue_of(ephemerides)
    found = approaches(catalogue, report, progress(NAME, "encounters", len(report.encounters)))
    checked = [check_approach(number, encounter, approach) for number, (encounter, approach) in enumerate(zip(report.encounters, found), 1)]
    curves: dict[int, Curve] = {}
    numbers = nearest(report, words.most)
    tell = progress(NAME, "curves", len(numbers))
    for number in numbers:
        curves[number] = curve_of(catalogue, report, number, checked[number - 1])
        tell(len(curves))
    folder = words.folder.resolve().name
    prepared = [ephemeris.prepared for ephemeris in ephemerides]
    content = Content(folder, report, checked, covered, prepared, curves, changes, str(words.since), results_link(results, words.out))
    texts = {words.out: page_text(content)}
    if words.csv is not None or words.json is not None:
        rows = rows_of(report, checked, changes)
        if words.csv is not None:
            texts[words.csv] = csv_text(rows, changes is not None)
        if words.json is not None:
            texts[words.json] = json_text(report, rows, covered, changes)
    write_all(texts)


def main(arguments: Sequence[str]) -> int:
    """Runs the script with these words, and gives its exit status."""
    return run(NAME, lambda: show(parser().parse_args(arguments)))
