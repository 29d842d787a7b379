"""`scripts/join`: the reports of parts of a window as one."""

from __future__ import annotations

import argparse
import time
from collections.abc import Sequence
from pathlib import Path

from conjtools.command import Parser, run
from conjtools.epochs import EpochFault, read_epoch
from conjtools.faults import UsageFault
from conjtools.join.certificates import list_text
from conjtools.join.encounters import joined_encounters
from conjtools.join.messages import write_messages
from conjtools.join.objects import bounds_by, check_files, joined_objects
from conjtools.join.parts import ANSWER, CHECKSUM, REPORT, SUMMARY, check_agreement, check_tiling, in_order, read_certificates, read_part
from conjtools.join.summary import whole_summary
from conjtools.new_directory import need_free, new_directory
from conjtools.report import Report, Window

NAME = "join"
WHOLE_SUMMARY, CERTIFICATES = "summary.txt", "certificates.txt"

DESCRIPTION = f"""Joins the parts of a window, each screened and checked by itself, into one report of the whole window with its messages. The
folder of a part has what `conj screen` wrote ({REPORT}, the certificate and the messages), {SUMMARY} (what it printed), {ANSWER} (what
`conj check` printed) and {CHECKSUM} (the certificate's checksum at the check). docs/SCALE.md says what is joined and what is refused."""


def epoch(text: str) -> int:
    """The tick of an epoch."""
    try:
        return read_epoch(text)
    except EpochFault as fault:
        raise argparse.ArgumentTypeError(f"not an epoch ({fault.cause.value}): {text}") from None


def parser() -> Parser:
    """The words that the script takes."""
    words = Parser(prog="scripts/join", description=DESCRIPTION, allow_abbrev=False)
    words.add_argument("--parts", metavar="DIR", type=Path, nargs="+", required=True, help="the folders of the parts, in any order")
    words.add_argument("--files", metavar="FOLDER", type=Path, required=True, help="the folder with the ephemerides that were screened")
    words.add_argument("--out", metavar="NEW", type=Path, required=True, help="the directory that is made; nothing has this name before")
    words.add_argument("--from", dest="first", metavar="EPOCH", type=epoch, help="the first tick that the parts have to reach; left out: theirs")
    words.add_argument("--to", dest="last", metavar="EPOCH", type=epoch, help="the last tick that the parts have to reach; left out: theirs")
    created_help = "the CREATION_DATE of the messages; left out: the time at which the script began"
    words.add_argument("--created", metavar="EPOCH", type=epoch, help=created_help)
    return words


def check_paths(words: argparse.Namespace) -> None:
    """The paths can stand in the list of certificates, a line each."""
    for path in (*words.parts, words.out):
        if not path.resolve().as_posix().isprintable() or "\\" in str(path.resolve()):
            raise UsageFault(f"a path with a control character or a backslash cannot be listed: {str(path)!r}")


def join(words: argparse.Namespace) -> str:
    """Joins the parts, and gives the summary of the whole window."""
    created: int = time.time_ns() // 1000 if words.created is None else words.created
    check_paths(words)
    out: Path = words.out
    need_free(out)
    parts = in_order([read_part(folder) for folder in words.parts])
    check_tiling(parts, words.first, words.last)
    check_agreement(parts)
    check_files(parts[0], words.files)
    certificates = read_certificates(parts)
    window = Window(parts[0].window.first, parts[-1].window.last)
    encounters = joined_encounters(parts, bounds_by(parts[0], words.files))
    report = Report(window, parts[0].report.threshold, joined_objects(parts), tuple(told.encounter for told in encounters))
    summary = whole_summary([part.counts for part in parts], report)
    with new_directory(out) as folder:
        write_messages(encounters, window, created, folder)
        (folder / WHOLE_SUMMARY).write_bytes(summary.encode("ascii"))
        listed = list(zip((part.window for part in parts), certificates))
        (folder / CERTIFICATES).write_bytes(list_text(window, listed, out))
        (folder / REPORT).write_bytes(report.text().encode("ascii"))
    return summary


def main(arguments: Sequence[str]) -> int:
    """Runs the script with these words, and gives its exit status."""
    return run(NAME, lambda: print(join(parser().parse_args(arguments)), end=""))
