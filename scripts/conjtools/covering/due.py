"""How a run ends that is asked what objects cover, by how the same run ends that is not: `--coverage` adds lines to the report and one to the summary,
`--must-cover` refuses the first object that leaves out a tick, behind the limits of window and slots and before anything is searched."""

from __future__ import annotations

from collections.abc import Callable, Collection, Mapping
from dataclasses import dataclass, replace

from conjtools.covering.model import Covering
from conjtools.report import read_report
from conjtools.terminal import Ended
from conjtools.updates import CHANGED, CHANGED_TITLE, REPORT, REPORT_TITLE

COVERAGE, MUST_COVER = "--coverage", "--must-cover"
# What the statuses say, by docs/FORMATS.md.
DONE, FILE_REFUSED, BEYOND_A_LIMIT = 0, 3, 6
BEFORE_THE_FILES_ARE_READ = (2, 3, 4)
LIMIT_OF_THE_SEARCH = b"conj: limit: Cells "
COVERED = b"COVERED "


@dataclass(frozen=True)
class Outcome:
    """How a run ended, and what then stands of the pieces that runs put, by their names."""

    ended: Ended
    pieces: Mapping[str, bytes]


def is_told_before(ended: Ended) -> bool:
    """Whether a run ended by a cause that is tried before it is asked what objects cover."""
    if ended.status == BEYOND_A_LIMIT:
        return not ended.error.startswith(LIMIT_OF_THE_SEARCH)
    return ended.status in BEFORE_THE_FILES_ARE_READ


def with_coverage(report: bytes, covering: Covering) -> bytes:
    """A report that does not tell what objects cover, of a whole run or of changed pairs alone, with the lines that tell it; a ValueError where it is of
    other files or of another window."""
    text = report.decode("ascii")
    title = CHANGED_TITLE if text.startswith(CHANGED_TITLE) else REPORT_TITLE
    plain = read_report(REPORT, (REPORT_TITLE + text.removeprefix(title)).encode("ascii"))
    if plain.window != covering.window:
        raise ValueError(f"the window is {plain.window}, and by the files {covering.window}")
    files = [told.file for told in plain.objects]
    if files != list(covering.spans):
        raise ValueError(f"the objects are of {files}, and the files are {list(covering.spans)}")
    objects = tuple(replace(told, covered=covering.spans[told.file]) for told in plain.objects)
    return (title + replace(plain, objects=objects).text().removeprefix(REPORT_TITLE)).encode("ascii")


def due_of(plain: Outcome, stood: Mapping[str, bytes], covering: Callable[[], Covering], asked: Collection[str]) -> Outcome:
    """How a run with these words ends, by how it ends without them; `stood` are the pieces that stood before it."""
    if is_told_before(plain.ended):
        return plain
    refusal = covering().refusal if MUST_COVER in asked else None
    if refusal is not None:
        return Outcome(Ended(FILE_REFUSED, b"", refusal), stood)
    if COVERAGE not in asked or plain.ended.status != DONE:
        return plain
    told = {name: with_coverage(data, covering()) if name in (REPORT, CHANGED) else data for name, data in plain.pieces.items()}
    return Outcome(replace(plain.ended, output=plain.ended.output + b"UNCOVERED %d\n" % covering().uncovered), told)


def differences_of_covering(told: Outcome, plain: Outcome, stood: Mapping[str, bytes], covering: Callable[[], Covering], asked: Collection[str]) -> list[str]:
    """In what a run with these words is not what is due by how it ends without them."""
    try:
        due = due_of(plain, stood, covering, asked)
    except ValueError as wrong:
        return [f"without {' '.join(asked)}: {wrong}"]
    return [f"with {' '.join(asked)}: {what}" for what in differences_of_outcomes(told, due)]


def differences_of_outcomes(told: Outcome, due: Outcome) -> list[str]:
    """In what a run did not end, or did not put, what is due."""
    found = differences_of_ending(told.ended, due.ended)
    for name in sorted(told.pieces.keys() | due.pieces.keys()):
        if told.pieces.get(name) != due.pieces.get(name):
            found.append(f"{name} is not as it is due: {first_difference(told.pieces.get(name, b''), due.pieces.get(name, b''))}")
    return found


def differences_of_ending(ended: Ended, due: Ended) -> list[str]:
    """In what a run did not end as it is due, but for what it put."""
    return [
        f"{what} is {mine!r} in place of {wanted!r}"
        for what, mine, wanted in (
            ("the status", ended.status, due.status),
            ("standard output", ended.output, due.output),
            ("standard error", ended.error, due.error),
        )
        if mine != wanted
    ]


def first_difference(mine: bytes, wanted: bytes) -> str:
    """The first line in which two texts differ."""
    ours, theirs = mine.split(b"\n"), wanted.split(b"\n")
    number = next((place for place, (one, other) in enumerate(zip(ours, theirs), 1) if one != other), min(len(ours), len(theirs)) + 1)
    return f"line {number}: {b''.join(ours[number - 1 : number])!r} in place of {b''.join(theirs[number - 1 : number])!r}"


def first_covered_line(report: bytes) -> int | None:
    """The number of the first line of a report that tells what an object covers, if there is one."""
    return next((number for number, line in enumerate(report.split(b"\n"), 1) if line.startswith(COVERED)), None)
