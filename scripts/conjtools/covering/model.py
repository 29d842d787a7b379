"""Which ticks of a window the objects of a folder cover, by the texts of their files alone (docs/FORMATS.md, "Parts" and "Report"): an object has a
state at the ticks of the useable spans of its segments, and at no others."""

from __future__ import annotations

import os
from collections.abc import Mapping
from dataclasses import dataclass
from pathlib import Path

from conjtools.coverage import Spans, gaps, is_whole, joined, within
from conjtools.epochs import epoch_text, read_epoch
from conjtools.kvn import checked_lines, split_pair
from conjtools.report import Window
from conjtools.updates import Names

# Where there is no ephemeris an end of the window that is left out is 1972-01-01T00:00:00.
WITHOUT_FILES = 63_072_000_000_000


@dataclass(frozen=True)
class Covering:
    """A window, and the covered spans in it of each object, by the names of their files in order."""

    window: Window
    spans: Mapping[str, Spans]

    @property
    def uncovered(self) -> int:
        """How many objects have no state at some tick of the window."""
        return sum(not is_whole(spans, self.window) for spans in self.spans.values())

    @property
    def refusal(self) -> bytes | None:
        """The fault line of the first object that has no state at some tick of the window, with the first such tick."""
        for file, spans in self.spans.items():
            left_out = gaps(spans, self.window)
            if left_out:
                return f"conj: {file}: line 0: Uncovered {epoch_text(left_out[0][0])}\n".encode("ascii")
        return None


def useable_spans(content: bytes) -> Spans:
    """The useable span of each segment of an ephemeris, in order. The ephemeris is one that is taken: nothing is refused here."""
    spans: list[tuple[int, int]] = []
    told: dict[bytes, str] = {}
    for line in checked_lines(content):
        if line == b"META_START":
            told = {}
        elif line == b"META_STOP":
            spans.append((useable_end(told, b"START_TIME"), useable_end(told, b"STOP_TIME")))
        elif b"=" in line:
            key, value = split_pair(line)
            told[key] = value.decode("ascii")
    return tuple(spans)


def useable_end(told: Mapping[bytes, str], key: bytes) -> int:
    """An end of the useable span of a segment, by what its metadata tells: the useable one, or else that of the segment."""
    return read_epoch(told.get(b"USEABLE_" + key, told[key]))


def standing_files(folder: Path, names: Names, with_updates: bool) -> dict[str, bytes]:
    """The ephemerides of a folder by their names; where files may be updates, those that then stand."""
    contents = {path.name: path.read_bytes() for path in folder.iterdir() if path.is_file()}
    if not with_updates:
        return {name: content for name, content in contents.items() if name.endswith(names.suffix) and not names.is_beside(name)}
    standing = {name: content for name, content in contents.items() if names.is_base(name)}
    for name, content in contents.items():
        updated = names.updated(name)
        if updated is not None:
            standing.pop(updated, None)
            if content:
                standing[updated] = content
    return standing


def covering_of(files: Mapping[str, bytes], first: int | None, last: int | None) -> Covering:
    """What the objects of these files cover of the window from a first to a last tick, each of which may be left out."""
    useable = {name: useable_spans(files[name]) for name in sorted(files, key=os.fsencode)}
    return covering_by(useable, first, last)


def covering_by(useable: Mapping[str, Spans], first: int | None, last: int | None) -> Covering:
    """The same by the useable spans of each object."""
    starts = [span[0] for spans in useable.values() for span in spans]
    stops = [span[1] for spans in useable.values() for span in spans]
    window = Window(
        min(starts, default=WITHOUT_FILES) if first is None else first,
        max(stops, default=WITHOUT_FILES) if last is None else last,
    )
    return Covering(window, {name: within(joined(spans), window) for name, spans in useable.items()})
