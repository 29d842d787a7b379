"""What a run puts that is asked for a whole sky, by what the same run puts that is asked for a certificate in brief: the same, also where both ends of the
window are given, so that the states that it does not need are let go (docs/LIMITS.md). And folders in which letting one go too many would show."""

from __future__ import annotations

import random
from collections.abc import Mapping
from dataclasses import dataclass
from pathlib import Path

from conjtools.coverage import Spans
from conjtools.covering.due import Outcome, differences_of_outcomes
from conjtools.covering.made_up import drawn_spans
from conjtools.epochs import epoch_text
from conjtools.loads.texts import FIRST_TICK, HEADER, KM, MINUTE, SECOND, covariances, matrix, metadata, node, put
from conjtools.report import Window

LARGE = "--large"
# How far an end of a window lies from a tick at which something changes.
BESIDE = (-MINUTE, -SECOND, -1, 0, 0, 0, 1, SECOND, MINUTE)
# Ticks between two neighbouring nodes.
STEPS = (1, 2, SECOND, 10 * SECOND, MINUTE)
LEAST_OBJECTS, MOST_OBJECTS, MOST_BEYOND, MOST_BETWEEN = 2, 4, 3, 4
CENTER = (7000 * KM, 0, 0)
# A segment begins where it likes: within so much of the center on each axis, at a rate of so much.
WIDTH, RATE = 4 * KM, KM // 10


def differences_of_whole_sky(told: Outcome, brief: Outcome) -> list[str]:
    """In what a run that is asked for a whole sky does not end as the same run that is asked for a certificate in brief."""
    return [f"with {LARGE}: {what}" for what in differences_of_outcomes(told, brief)]


def window_words(window: Window) -> tuple[str, ...]:
    """A window as words of a run."""
    return "--from", epoch_text(window.first), "--to", epoch_text(window.last)


def drawn_window(draw: random.Random, window: Window) -> Window:
    """A window in another one, or somewhat about it: from one tick up to all of it."""
    ends = sorted(drawn_tick(draw, window) for _ in range(2))
    return Window(ends[0], ends[1])


def drawn_tick(draw: random.Random, window: Window) -> int:
    """An end of a window, or a tick in it of whole minutes, of whole seconds or of any microsecond; or a tick beside that."""
    inside = draw.randint(window.first, window.last)
    at = draw.choice((window.first, window.last, inside - inside % draw.choice((1, SECOND, MINUTE))))
    return at + draw.choice(BESIDE)


@dataclass(frozen=True)
class Jumping:
    """Objects near each other whose segments have nothing to do with one another, so that it shows which of them holds at a tick: the texts of their
    files by name, and a window."""

    texts: Mapping[str, str]
    window: Window

    def write(self, folder: Path) -> None:
        """Writes the files into a folder."""
        for name, text in self.texts.items():
            put(folder, name, text)


def jumping(draw: random.Random) -> Jumping:
    """Objects that jump, and a window that ends at or beside the ends of their useable spans, at or beside their nodes, or anywhere."""
    texts: dict[str, str] = {}
    ticks: list[int] = []
    for number in range(1, draw.randint(LEAST_OBJECTS, MOST_OBJECTS) + 1):
        spans = drawn_spans(draw)
        texts[f"{number}.oem"], nodes = jumping_text(draw, number, spans)
        ticks += [*nodes, *(tick for span in spans for tick in span)]
    ends = sorted(draw.choice(ticks) + draw.choice(BESIDE) for _ in range(2))
    return Jumping(texts, Window(ends[0], ends[1]))


def jumping_text(draw: random.Random, number: int, spans: Spans) -> tuple[str, list[int]]:
    """An ephemeris of an object, each of whose segments begins anew, and the ticks of its nodes."""
    text, nodes = HEADER, list[int]()
    for first, last in spans:
        times = node_times(draw, first, last)
        head = metadata(f"OBJECT {number}", times[0] - FIRST_TICK, times[-1] - FIRST_TICK, f"2025-{number:03}A").splitlines(keepends=True)
        at = next(place for place, line in enumerate(head) if line.startswith("STOP_TIME"))
        useable = [f"USEABLE_START_TIME = {epoch_text(first)}\n", f"USEABLE_STOP_TIME = {epoch_text(last)}\n"]
        text += "".join([*head[:at], useable[0], useable[1], *head[at:]])
        text += "".join(node(time - FIRST_TICK, drawn_place(draw), [draw.randint(-RATE, RATE) for _ in range(3)]) for time in times)
        if draw.random() < 0.5:
            text += covariances([matrix(draw, (first - FIRST_TICK) // SECOND * SECOND)])
        nodes += times
    return text, nodes


def node_times(draw: random.Random, first: int, last: int) -> list[int]:
    """The ticks of two nodes or more, in order, between whose first and last a useable span lies; some before it, some in it, some behind it."""
    before, behind = draw.choice((first, first - 1)), draw.choice((last, last + 1))
    times = {before, max(behind, before + 1)}
    times |= {draw.randint(first, last) for _ in range(draw.randint(0, MOST_BETWEEN))}
    for _ in range(draw.randint(0, MOST_BEYOND)):
        times.add(min(times) - draw.choice(STEPS))
    for _ in range(draw.randint(0, MOST_BEYOND)):
        times.add(max(times) + draw.choice(STEPS))
    return sorted(times)


def drawn_place(draw: random.Random) -> list[int]:
    """A place near the center."""
    return [at + draw.randint(-WIDTH, WIDTH) for at in CENTER]
