"""Conjunction Data Messages (CCSDS 508.0-B-1, key-value notation) as `conj` writes them: what shows whose message a file is."""

from __future__ import annotations

import re
from collections.abc import Sequence
from dataclasses import dataclass

from conjtools.epochs import EpochFault, read_written_epoch
from conjtools.faults import InputFault
from conjtools.report import Report, ReportObject

HEADING = (
    "CCSDS_CDM_VERS", "CREATION_DATE", "ORIGINATOR", "MESSAGE_ID", "TCA", "MISS_DISTANCE", "START_SCREEN_PERIOD", "STOP_SCREEN_PERIOD",
)  # fmt: skip
RELATIVE = tuple(f"RELATIVE_{what}_{axis}" for what in ("POSITION", "VELOCITY") for axis in "RTN")
RELATIVE_AT = HEADING.index("MISS_DISTANCE") + 1
SIDE_LINES = 37
SIDE = ("OBJECT", "OBJECT_DESIGNATOR", "CATALOG_NAME", "OBJECT_NAME", "INTERNATIONAL_DESIGNATOR", "EPHEMERIS_NAME")
METRES = re.compile(r"(0|[1-9]\d*)\.(\d{9}) \[m\]", re.ASCII)
RELATIVE_VALUE = re.compile(r"-?(0|[1-9]\d*)\.\d{9} \[m(/s)?\]", re.ASCII)


@dataclass(frozen=True)
class MessageSide:
    """What a message says of one object."""

    designator: str
    name: str
    file: str


@dataclass(frozen=True)
class Message:
    """A message: its number, the tick of closest approach, the miss distance in nm, and both objects."""

    number: int
    closest: int
    miss: int
    sides: tuple[MessageSide, MessageSide]


def message_name(number: int) -> str:
    """The name of the file with the message of an encounter."""
    return f"{number:06}.cdm"


def message_of(report: Report, number: int) -> Message:
    """What the message of the encounter with this number says."""
    encounter = report.encounters[number - 1]
    sides = told_side(report.objects[encounter.a - 1]), told_side(report.objects[encounter.b - 1])
    return Message(number, encounter.closest, encounter.miss, sides)


def told_side(told: ReportObject) -> MessageSide:
    """What a message says of an object."""
    return MessageSide(told.designator, told.name, told.file)


def check_message(file: str, content: bytes, expected: Message) -> None:
    """The message in a file says this; InputFault, by the name of the file, where it does not."""
    if read_message(file, content) != expected:
        raise InputFault(file, 0, f"the message is not of encounter {expected.number} of the report")


def heading_of(lines: Sequence[str]) -> tuple[str, ...]:
    """The keys of the heading of a message, with those of the relative state where it tells that."""
    if len(lines) > RELATIVE_AT and lines[RELATIVE_AT].startswith(f"{RELATIVE[0]} = "):
        return (*HEADING[:RELATIVE_AT], *RELATIVE, *HEADING[RELATIVE_AT:])
    return HEADING


def read_message(file: str, content: bytes) -> Message:
    """What a message says; InputFault, by the name of the file, where it is none."""
    text = content.decode("ascii", "replace")
    lines = text.split("\n")
    heading = heading_of(lines)
    count = len(heading) + 2 * SIDE_LINES
    if len(lines) != count + 1 or lines[count]:
        raise InputFault(file, min(len(lines), count), "the message is cut, or goes on behind its last line")
    keys = (*heading, *SIDE)
    values = [value_of(file, place + 1, lines[place], key) for place, key in enumerate(keys)]
    second_at = len(heading) + SIDE_LINES
    second = [value_of(file, second_at + place + 1, lines[second_at + place], key) for place, key in enumerate(SIDE)]
    try:
        closest = read_written_epoch(values[4])
    except EpochFault:
        raise InputFault(file, 5, f"not an epoch: {values[4]}") from None
    metres = METRES.fullmatch(values[5])
    if not metres:
        raise InputFault(file, 6, f"not a distance in metres: {values[5]}")
    for place in range(RELATIVE_AT, RELATIVE_AT + len(heading) - len(HEADING)):
        if not RELATIVE_VALUE.fullmatch(values[place]):
            raise InputFault(file, place + 1, f"not in metres, or metres per second: {values[place]}")
    number = values[3].rpartition("_")[2]
    if not number.isdigit() or len(number) > 10:
        raise InputFault(file, 4, f"not the name of a message: {values[3]}")
    return Message(int(number), closest, int(metres[1] + metres[2]), (side_of(values[len(heading) :]), side_of(second)))


def value_of(file: str, number: int, line: str, key: str) -> str:
    """The value of a line that has to begin with a key."""
    if not line.startswith(f"{key} = "):
        raise InputFault(file, number, f"{key} is wanted")
    return line[len(key) + 3 :]


def side_of(values: list[str]) -> MessageSide:
    """An object by the values of its first lines."""
    return MessageSide(values[1], values[3], values[5])
