"""Messages of parts (CCSDS 508.0-B-1) as those of the whole window: what depends on the run, its window or the number is written anew."""

from __future__ import annotations

import re
from collections.abc import Sequence
from pathlib import Path

from conjtools.cdm import check_message, heading_of, message_name, message_of
from conjtools.epochs import epoch_text
from conjtools.faults import InputFault
from conjtools.join.encounters import Joined, Source
from conjtools.join.parts import content_of
from conjtools.progress import progress
from conjtools.report import Window

ORIGINATOR = re.compile(r"[A-Za-z0-9_-]{1,40}")


def write_messages(encounters: Sequence[Joined], window: Window, created: int, folder: Path) -> None:
    """Writes the messages of the encounters of the whole window, all made at one tick, into a folder."""
    tell = progress("join", "messages", len(encounters))
    originator = ""
    for number, told in enumerate(encounters, 1):
        if told.source.encounter.has_message:
            lines = read_lines(told.source)
            name = value_of(lines, "ORIGINATOR")
            if originator and name != originator:
                raise refuse(told.source, lines, "ORIGINATOR", f"{name}, and {originator} in messages before")
            originator = name
            (folder / message_name(number)).write_bytes("\n".join(lines_of_run(lines, originator, number, window, created)).encode("ascii"))
        tell(number)


def path_of(source: Source) -> Path:
    """The message of an encounter of a part."""
    return source.part.folder / message_name(source.number)


def refuse(source: Source, lines: Sequence[str], key: str, cause: str) -> InputFault:
    """A fault of a line of the heading."""
    return InputFault(str(path_of(source)), heading_of(lines).index(key) + 1, f"{key} is {cause}")


def read_lines(source: Source) -> list[str]:
    """The lines of a message that is of its encounter, its part and its number, with an empty text behind the last."""
    path = path_of(source)
    content = content_of(path)
    check_message(str(path), content, message_of(source.part.report, source.number))
    try:
        lines = content.decode("ascii").split("\n")
    except UnicodeDecodeError:
        raise InputFault(str(path), 0, "a byte is not ASCII") from None
    originator = value_of(lines, "ORIGINATOR")
    if not ORIGINATOR.fullmatch(originator):
        raise refuse(source, lines, "ORIGINATOR", f"not of the form: {originator}")
    for key, value in run_values(originator, source.number, source.part.window).items():
        if value_of(lines, key) != value:
            raise refuse(source, lines, key, f"{value_of(lines, key)}, and {value} is wanted")
    return lines


def value_of(lines: Sequence[str], key: str) -> str:
    """The value of a line of the heading."""
    return lines[heading_of(lines).index(key)][len(key) + 3 :]


def run_values(originator: str, number: int, window: Window) -> dict[str, str]:
    """What depends on the number of a message and on the window, by the keys."""
    return {
        "MESSAGE_ID": f"{originator}_{number:06}",
        "START_SCREEN_PERIOD": epoch_text(window.first),
        "STOP_SCREEN_PERIOD": epoch_text(window.last),
    }


def lines_of_run(lines: Sequence[str], originator: str, number: int, window: Window, created: int) -> list[str]:
    """The lines of a message as one run over the window writes them at this number, begun at this tick."""
    whole = list(lines)
    for key, value in {"CREATION_DATE": epoch_text(created), **run_values(originator, number, window)}.items():
        whole[heading_of(whole).index(key)] = f"{key} = {value}"
    return whole
