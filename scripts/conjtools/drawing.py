"""Drawings as inline SVG."""

from __future__ import annotations

import html
import math
from dataclasses import dataclass

from conjtools.curves import Curve
from conjtools.epochs import epoch_text
from conjtools.report import Encounter, Kind

WIDTH, HEIGHT = 400.0, 250.0
LEFT, RIGHT, TOP, BOTTOM = 50.0, 12.0, 12.0, 42.0
LEAST_SHADE = 1.2


@dataclass(frozen=True)
class Unit:
    """A unit of an axis: its name, and how much it is."""

    name: str
    size: float


@dataclass(frozen=True)
class Scale:
    """How numbers from `low` to `high` become places from `start` to `end`."""

    low: float
    high: float
    start: float
    end: float

    def at(self, value: float) -> float:
        """The place of a number."""
        return self.start + (value - self.low) / (self.high - self.low) * (self.end - self.start)


def time_unit(seconds: float) -> Unit:
    """The unit for an axis over so many seconds."""
    if seconds < 0.01:
        return Unit("milliseconds", 1e-3)
    if seconds <= 300:
        return Unit("seconds", 1)
    if seconds <= 3 * 3600:
        return Unit("minutes", 60)
    return Unit("hours", 3600) if seconds <= 5 * 86400 else Unit("days", 86400)


def length_unit(metres: float) -> Unit:
    """The unit for an axis up to so many metres."""
    return Unit("km", 1000) if metres >= 2000 else Unit("m", 1)


def nice_step(span: float, most: int) -> float:
    """The least of 1, 2 or 5 times a power of ten that goes into a span at most so many times."""
    power = 10.0 ** math.floor(math.log10(span / most))
    return next(step for step in (power, 2 * power, 5 * power, 10 * power) if span / step <= most)


def ticks_between(low: float, high: float, most: int) -> list[float]:
    """Round numbers from one number to another."""
    step = nice_step(high - low, most)
    first = math.ceil(low / step - 1e-9)
    return [number * step for number in range(first, math.floor(high / step + 1e-9) + 1)]


def number_text(value: float, step: float) -> str:
    """A round number with the decimals that its step needs."""
    decimals = max(0, -math.floor(math.log10(step) + 1e-9))
    text = f"{value:,.{decimals}f}"
    return text[1:] if text.strip("-0.,") == "" and text.startswith("-") else text.replace("-", "\N{MINUS SIGN}")


def metres_text(nm: int) -> str:
    """A length in metres with three decimals and separators, rounded to the nearest millimetre."""
    millimetres = (nm + 500_000) // 1_000_000
    return f"{millimetres // 1000:,}.{millimetres % 1000:03}"


def line(x1: float, y1: float, x2: float, y2: float, style: str) -> str:
    """A straight line."""
    return f'<line class="{style}" x1="{x1:.1f}" y1="{y1:.1f}" x2="{x2:.1f}" y2="{y2:.1f}"/>'


def text(x: float, y: float, style: str, words: str) -> str:
    """A text at a place."""
    return f'<text class="{style}" x="{x:.1f}" y="{y:.1f}">{html.escape(words)}</text>'


def shades(encounter: Encounter, curve: Curve, times: Scale) -> str:
    """The spans of the pair, shaded, with their times as tooltips; the undecided ones, which are short, over the others."""
    drawn: list[str] = []
    for span in sorted(curve.spans, key=lambda span: span.kind is Kind.UNDECIDED):
        left = times.at((span.first - encounter.closest) / 1e6)
        right = times.at((span.last - encounter.closest) / 1e6)
        style = "near" if span.kind is Kind.NEAR else "undecided"
        told = f"{style}: {epoch_text(span.first)} to {epoch_text(span.last)}"
        width = max(right - left, LEAST_SHADE)
        drawn.append(
            f'<rect class="{style}" x="{left:.1f}" y="{TOP:.1f}" width="{width:.1f}" height="{HEIGHT - TOP - BOTTOM:.1f}">'
            f"<title>{told}</title></rect>"
        )
    return "".join(drawn)


def polylines(encounter: Encounter, curve: Curve, times: Scale, lengths: Scale) -> str:
    """The curve, each stretch without a gap as one line."""
    drawn: list[str] = []
    for ticks, distances in curve.stretches:
        points = " ".join(
            f"{times.at((tick - encounter.closest) / 1e6):.1f},{lengths.at(distance):.1f}"
            for tick, distance in zip(ticks.tolist(), distances.tolist())
        )
        drawn.append(f'<polyline class="curve" points="{points}"/>')
    return "".join(drawn)


def axes(times: Scale, lengths: Scale, time: Unit, length: Unit) -> str:
    """Both axes with round numbers, grid lines and titles."""
    bottom, right = HEIGHT - BOTTOM, WIDTH - RIGHT
    drawn: list[str] = []
    low, high = times.low / time.size, times.high / time.size
    for value in ticks_between(low, high, 6):
        x = times.at(value * time.size)
        drawn.append(line(x, TOP, x, bottom, "grid") + text(x, bottom + 14, "middle", number_text(value, nice_step(high - low, 6))))
    top = lengths.high / length.size
    for value in ticks_between(0, top, 5):
        y = lengths.at(value * length.size)
        drawn.append(line(LEFT, y, right, y, "grid") + text(LEFT - 5, y + 4, "end", number_text(value, nice_step(top, 5))))
    drawn.append(line(LEFT, bottom, right, bottom, "axis") + line(LEFT, TOP, LEFT, bottom, "axis"))
    drawn.append(text((LEFT + right) / 2, HEIGHT - 8, "middle", f"{time.name} from the closest approach"))
    middle = (TOP + bottom) / 2
    drawn.append(f'<text class="middle" transform="translate(12,{middle:.1f}) rotate(-90)">distance ({length.name})</text>')
    return "".join(drawn)


def label_place(words: str, y: float, encounter: Encounter, curve: Curve, times: Scale, lengths: Scale) -> tuple[float, float, str]:
    """Where the words of the threshold, drawn at y, stand clear of the curve, if there is such a place: to the right or to the left,
    above the threshold or below."""
    width = 5.7 * len(words)
    points = [
        (times.at((tick - encounter.closest) / 1e6), lengths.at(distance))
        for ticks, distances in curve.stretches
        for tick, distance in zip(ticks.tolist(), distances.tolist())
    ]
    right, left = WIDTH - RIGHT - 3, LEFT + 4
    spots = [(right, y - 4, "end"), (left, y - 4, "start"), (right, y + 12, "end"), (left, y + 12, "start")]

    def hits(x: float, at: float, side: str) -> int:
        start = x - width if side == "end" else x
        return sum(start - 3 <= px <= start + width + 3 and at - 11 <= py <= at + 3 for px, py in points)

    return min(spots, key=lambda spot: hits(*spot))


def curve_svg(encounter: Encounter, curve: Curve, threshold: int, label: str) -> str:
    """The drawing of an encounter: its distance over time, its threshold (nm), its spans and its closest approach."""
    limit = threshold / 1e9
    top = max([1.15 * limit] + [float(distances.max()) for _, distances in curve.stretches]) * 1.03
    start, end = (curve.first - encounter.closest) / 1e6, (curve.last - encounter.closest) / 1e6
    times = Scale(start, max(end, start + 1e-6), LEFT, WIDTH - RIGHT)
    lengths = Scale(0, top, HEIGHT - BOTTOM, TOP)
    y, miss = lengths.at(limit), lengths.at(encounter.miss / 1e9)
    unit = length_unit(limit)
    words = f"threshold {limit / unit.size:.4g} {unit.name}"
    x, words_y, side = label_place(words, y, encounter, curve, times, lengths)
    marks = line(LEFT, y, WIDTH - RIGHT, y, "threshold") + text(x, words_y, f"{side} threshold-label", words)
    point = (
        f'<circle class="closest" cx="{times.at(0):.1f}" cy="{miss:.1f}" r="3.5">'
        f"<title>{metres_text(encounter.miss)} m at {epoch_text(encounter.closest)}</title></circle>"
    )
    head = (
        f'<svg class="distance" viewBox="0 0 {WIDTH:.0f} {HEIGHT:.0f}" role="img" aria-label="{html.escape(label, quote=True)}" '
        f'data-times="{times.low:.6f},{times.high:.6f}" data-top="{top:.6f}">'
    )
    drawn = shades(encounter, curve, times) + axes(times, lengths, time_unit(end - start), length_unit(top)) + marks
    return head + drawn + polylines(encounter, curve, times, lengths) + point + "</svg>"
