"""The summary of a run, which `screen` prints: that of each part, and that of the whole window."""

from __future__ import annotations

from collections.abc import Mapping, Sequence
from enum import Enum

from conjtools.coverage import is_whole
from conjtools.faults import InputFault
from conjtools.report import NUMBER, Report


class Whole(Enum):
    """How a count of the whole window comes of the counts of its parts."""

    SAME = "the same in each part"
    SUM = "their sum"
    ENCOUNTERS = "the encounters of the joined report"
    MESSAGES = "those of them with a message"
    UNCOVERED = "the objects of the joined report that do not cover the whole window"


# NEAR and UNDECIDED are sums that one run over the whole window would have too. The other sums are not (docs/SCALE.md).
COUNTS = {
    "OBJECTS": Whole.SAME, "PAIRS": Whole.SAME, "PARTED": Whole.SUM, "TOUCHING": Whole.SUM, "ROOTS": Whole.SUM, "SPLITS": Whole.SUM,
    "LEAVES": Whole.SUM, "FAR": Whole.SUM, "NEAR": Whole.SUM, "UNDECIDED": Whole.SUM, "ENCOUNTERS": Whole.ENCOUNTERS,
    "MESSAGES": Whole.MESSAGES, "UNCOVERED": Whole.UNCOVERED,
}  # fmt: skip
# The last line stands where the report tells what objects cover.
UNCOVERED = "UNCOVERED"
ALWAYS = tuple(word for word in COUNTS if word != UNCOVERED)

Counts = Mapping[str, int]


def line_of(word: str) -> int:
    """The line of a summary, from 1, with this word."""
    return list(COUNTS).index(word) + 1


def message_count(report: Report) -> int:
    """How many encounters of a report have a message."""
    return sum(encounter.has_message for encounter in report.encounters)


def tells_coverage(report: Report) -> bool:
    """Whether a report tells what its objects cover. One without objects does not say."""
    return any(told.covered is not None for told in report.objects)


def uncovered_count(report: Report) -> int:
    """How many objects of a report that tells it have no state at some tick of the window."""
    return sum(told.covered is not None and not is_whole(told.covered, report.window) for told in report.objects)


def words_of(lines: Sequence[str]) -> tuple[str, ...]:
    """The words that the lines of a summary have to have: whether the last is among them it says itself."""
    behind = "".join(lines[len(ALWAYS) : len(ALWAYS) + 1])
    return tuple(COUNTS) if behind.startswith(f"{UNCOVERED} ") else ALWAYS


def read_summary(file: str, content: bytes) -> Counts:
    """The counts of a summary; InputFault, by the name of the file, where it is none."""
    lines = content.decode("ascii", "replace").split("\n")
    counts: dict[str, int] = {}
    words = words_of(lines)
    for number, word in enumerate(words, 1):
        key, _, figure = lines[number - 1].partition(" ") if number <= len(lines) else ("", "", "")
        if key != word or not NUMBER.fullmatch(figure) or len(figure) > 20:
            raise InputFault(file, number, f"{word} and a number are wanted, as screen prints them")
        counts[word] = int(figure)
    if lines[len(words) :] != [""]:
        raise InputFault(file, len(words) + 1, "the summary is cut, or goes on behind its last line")
    return counts


def check_summary(file: str, counts: Counts, report: Report) -> None:
    """A summary counts what the report of the same run has; InputFault, by the name of the summary's file, where it does not."""
    due = {"OBJECTS": len(report.objects), "ENCOUNTERS": len(report.encounters), "MESSAGES": message_count(report)}
    if report.objects and (UNCOVERED in counts) != tells_coverage(report):
        raise InputFault(file, line_of(UNCOVERED), f"{UNCOVERED} has to stand where the report tells what objects cover, and there alone")
    if UNCOVERED in counts:
        due[UNCOVERED] = uncovered_count(report)
    for word, count in due.items():
        if counts[word] != count:
            raise InputFault(file, line_of(word), f"{word} is {counts[word]}, and the report has {count}")


def whole_summary(parts: Sequence[Counts], report: Report) -> str:
    """The summary of the whole window by those of its parts, which have the same words, and the joined report."""
    counted = {Whole.ENCOUNTERS: len(report.encounters), Whole.MESSAGES: message_count(report), Whole.UNCOVERED: uncovered_count(report)}
    text = ""
    for word in parts[0]:
        rule = COUNTS[word]
        count = parts[0][word] if rule is Whole.SAME else counted.get(rule, sum(counts[word] for counts in parts))
        text += f"{word} {count}\n"
    return text
