"""Folders of made-up objects at rest near each other, whose useable spans are drawn: they share a tick, follow one another, leave out a tick or more, or
there is one tick alone. The window begins and ends where they do, or beside that. What they cover is known by how they are made."""

from __future__ import annotations

import random
from collections.abc import Mapping, Sequence
from dataclasses import dataclass
from pathlib import Path

from conjtools.coverage import Spans
from conjtools.covering.model import Covering, covering_by
from conjtools.epochs import epoch_text
from conjtools.loads.texts import FIRST_TICK, HEADER, KM, MINUTE, SECOND, metadata, node, put

# How many ticks behind the end of a segment the next one begins: 0 shares the tick, 1 follows, 2 leaves out one.
STEPS = (0, 0, 1, 1, 2, 2, 3, 10 * SECOND, MINUTE - 1, MINUTE, MINUTE + 1)
LENGTHS = (0, 0, 1, 2, SECOND, 30 * SECOND, MINUTE - 1, MINUTE, MINUTE + 1)
# How far the first and the last state lie outside of the useable span.
BEYOND = (0, 0, 1, SECOND)
MOST_OBJECTS, MOST_SEGMENTS = 5, 4
NEAREST = 7000 * KM
SIZES = "sizes.txt"


@dataclass(frozen=True)
class MadeUp:
    """Texts of ephemerides and of updates by the names of files, the useable spans in ticks of each object that then stands by its file, a file of
    sizes where there is one, and the ends of the window in ticks, each of which may be left out."""

    texts: Mapping[str, str]
    useable: Mapping[str, Spans]
    sizes: str | None
    first: int | None
    last: int | None

    @property
    def covering(self) -> Covering:
        """What the objects cover."""
        return covering_by(dict(sorted(self.useable.items())), self.first, self.last)

    @property
    def options(self) -> list[str]:
        """The options of a run over them."""
        window = (("--from", self.first), ("--to", self.last))
        ends = [word for name, tick in window if tick is not None for word in (name, epoch_text(tick))]
        return ends if self.sizes is None else [*ends, "--sizes", SIZES]

    def write(self, folder: Path) -> None:
        """Writes the files into a folder."""
        for name, text in self.texts.items():
            put(folder, name, text)
        if self.sizes is not None:
            put(folder, SIZES, self.sizes)


def drawn_spans(draw: random.Random) -> Spans:
    """Useable spans of one to four segments."""
    first = FIRST_TICK + MINUTE + draw.choice((-1, 0, 0, 0, 1, SECOND, MINUTE))
    spans: list[tuple[int, int]] = []
    for _ in range(draw.randint(1, MOST_SEGMENTS)):
        spans.append((first, first + draw.choice(LENGTHS)))
        first = spans[-1][1] + draw.choice(STEPS)
    return tuple(spans)


def resting_text(draw: random.Random, number: int, spans: Spans) -> str:
    """An ephemeris of an object at rest, so many kilometres further out than the nearest. The useable span of a segment is told as such, or is all of
    the segment."""
    text = HEADER
    for first, last in spans:
        before, behind = first - draw.choice(BEYOND), last + draw.choice(BEYOND)
        behind = max(behind, before + 1)
        head = metadata(f"OBJECT {number}", before - FIRST_TICK, behind - FIRST_TICK, f"2025-{number:03}A")
        if (before, behind) == (first, last) or draw.random() < 0.5:
            ends = f"START_TIME = {epoch_text(first)}\nSTOP_TIME = {epoch_text(last)}\n"
        else:
            ends = f"START_TIME = {epoch_text(before)}\nUSEABLE_STOP_TIME = {epoch_text(last)}\nSTOP_TIME = {epoch_text(behind)}\nUSEABLE_START_TIME = {epoch_text(first)}\n"
        place = (NEAREST + number * KM, 0, 0)
        lines = head.splitlines(keepends=True)
        at = next(place for place, line in enumerate(lines) if line.startswith("START_TIME"))
        text += "".join([*lines[:at], ends, *lines[at + 2 :]]) + node(before - FIRST_TICK, place) + node(behind - FIRST_TICK, place)
    return text


def drawn_end(draw: random.Random, ends: Sequence[int]) -> int:
    """An end of a window: the end of a useable span, or a tick or more beside it."""
    return draw.choice(ends) + draw.choice((-MINUTE, -2, -1, 0, 0, 0, 1, 2, MINUTE))


def drawn_window(draw: random.Random, useable: Mapping[str, Spans], is_wanted: bool) -> tuple[int | None, int | None]:
    """The ends of a window, which may both be wanted."""
    ends = [tick for spans in useable.values() for span in spans for tick in span] or [FIRST_TICK]
    first, last = drawn_end(draw, ends), drawn_end(draw, ends)
    if is_wanted:
        return min(first, last), max(first, last)
    return draw.choice(((None, None), (first, None), (None, last), (min(first, last), max(first, last))))


def drawn_sizes(draw: random.Random) -> str | None:
    """A file of sizes of some objects, or none."""
    if draw.random() < 0.5:
        return None
    return "".join(f"2025-{number:03}A {draw.randint(0, 9)}\n" for number in range(1, MOST_OBJECTS + 1) if draw.random() < 0.7)


def made_up(draw: random.Random) -> MadeUp:
    """A folder without updates."""
    useable = {f"{number}.oem": drawn_spans(draw) for number in range(1, draw.randint(1, MOST_OBJECTS) + 1)}
    texts = {name: resting_text(draw, number, spans) for number, (name, spans) in enumerate(useable.items(), 1)}
    return MadeUp(texts, useable, drawn_sizes(draw), *drawn_window(draw, useable, False))


def made_up_with_updates(draw: random.Random) -> MadeUp:
    """A folder in which some files are updates: of some that stand, of some that do not, and some that take a file away."""
    texts: dict[str, str] = {}
    useable: dict[str, Spans] = {}
    for number in range(1, draw.randint(1, MOST_OBJECTS) + 1):
        name = f"{number}.oem"
        for file, share in ((name, 0.8), (f"{name}.new", 0.6)):
            if draw.random() < share:
                useable[name] = drawn_spans(draw)
                texts[file] = resting_text(draw, number, useable[name])
                if file != name and draw.random() < 0.2:
                    texts[file] = ""
                    del useable[name]
    return MadeUp(texts, useable, drawn_sizes(draw), *drawn_window(draw, useable, True))
