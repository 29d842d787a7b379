"""What came, what went and what changed from an older report to a newer one.

Objects are the same where designator and file name are. Encounters are the same where they are of the same pair and overlap in time;
of several that overlap those that share most time belong together, each with at most one.
"""

from __future__ import annotations

from collections import defaultdict
from collections.abc import Sequence
from dataclasses import dataclass
from enum import Enum

from conjtools.coverage import Spans, common, meets
from conjtools.report import Encounter, Report, ReportObject

ObjectKey = tuple[str, str]


class Change(Enum):
    """What became of an encounter."""

    CAME = "came"
    WENT = "went"
    CHANGED = "changed"
    SAME = "same"


class Cause(Enum):
    """Why an encounter stands in one report alone: what the other report does not reach, or else the distance; and where nothing tells
    when the objects of the other report had data, one of these two."""

    NONE = ""
    WINDOW = "window"
    OBJECT = "object"
    DATA = "data"
    DISTANCE = "distance"
    DISTANCE_OR_DATA = "distance or data"


@dataclass(frozen=True)
class Comparison:
    """An encounter of the newer report by its number (from 1), with that of the older which it was, if any; or of the older alone."""

    change: Change
    cause: Cause
    new_number: int | None
    old_number: int | None


@dataclass(frozen=True)
class Changes:
    """The encounters of the newer report in order, then those that went; and the objects that came and went."""

    older: Report
    encounters: tuple[Comparison, ...]
    objects_came: tuple[ReportObject, ...]
    objects_went: tuple[ReportObject, ...]

    def count(self, change: Change, cause: Cause | None = None) -> int:
        """How many encounters there are of which this is so."""
        return sum(told.change is change and cause in (None, told.cause) for told in self.encounters)


def key_of(told: ReportObject) -> ObjectKey:
    """What makes an object the same in two reports."""
    return told.designator, told.file


def keys_of(report: Report, encounter: Encounter) -> tuple[ObjectKey, ObjectKey]:
    """The objects of an encounter. Objects stand in order of their files in every report, and so do these two."""
    return key_of(report.objects[encounter.a - 1]), key_of(report.objects[encounter.b - 1])


def overlap(p: Encounter, q: Encounter) -> int:
    """How many ticks two encounters share, or none."""
    return max(0, min(p.last, q.last) - max(p.first, q.first) + 1)


def matched(newer: Report, older: Report) -> dict[int, int]:
    """The number of the older encounter that each newer one was, for those that were there."""
    by_pair: dict[tuple[ObjectKey, ObjectKey], list[int]] = defaultdict(list)
    for number, encounter in enumerate(older.encounters, 1):
        by_pair[keys_of(older, encounter)].append(number)
    shared: list[tuple[int, int, int]] = []
    for number, encounter in enumerate(newer.encounters, 1):
        for old_number in by_pair.get(keys_of(newer, encounter), ()):
            ticks = overlap(encounter, older.encounters[old_number - 1])
            if ticks:
                shared.append((-ticks, number, old_number))
    found: dict[int, int] = {}
    taken: set[int] = set()
    for _, number, old_number in sorted(shared):
        if number not in found and old_number not in taken:
            found[number] = old_number
            taken.add(old_number)
    return found


def told_coverage(report: Report) -> list[Spans] | None:
    """When the objects of a report have states, where the report tells it."""
    if any(told.covered is None for told in report.objects):
        return None
    return [told.covered or () for told in report.objects]


def cause_of(report: Report, encounter: Encounter, other: Report, covered: Sequence[Spans] | None) -> Cause:
    """Why the other report, whose objects have states at these spans where that is known, does not have an encounter."""
    if encounter.last < other.window.first or other.window.last < encounter.first:
        return Cause.WINDOW
    places = {key_of(told): place for place, told in enumerate(other.objects)}
    a, b = (places.get(key) for key in keys_of(report, encounter))
    if a is None or b is None:
        return Cause.OBJECT
    if covered is None:
        return Cause.DISTANCE_OR_DATA
    return Cause.DISTANCE if meets(common(covered[a], covered[b]), encounter.first, encounter.last) else Cause.DATA


def is_same(newer: Encounter, older: Encounter) -> bool:
    """Whether all that a report says of an encounter is the same."""
    return (newer.mark, newer.closest, newer.miss, newer.has_message, newer.spans) == (
        older.mark, older.closest, older.miss, older.has_message, older.spans,
    )  # fmt: skip


def compare(newer: Report, covered: Sequence[Spans], older: Report) -> Changes:
    """The changes from an older report to a newer one, whose objects have states at these spans."""
    matches = matched(newer, older)
    old_covered = told_coverage(older)
    found: list[Comparison] = []
    for number, encounter in enumerate(newer.encounters, 1):
        old_number = matches.get(number)
        if old_number is None:
            found.append(Comparison(Change.CAME, cause_of(newer, encounter, older, old_covered), number, None))
        else:
            change = Change.SAME if is_same(encounter, older.encounters[old_number - 1]) else Change.CHANGED
            found.append(Comparison(change, Cause.NONE, number, old_number))
    taken = set(matches.values())
    for number, encounter in enumerate(older.encounters, 1):
        if number not in taken:
            found.append(Comparison(Change.WENT, cause_of(older, encounter, newer, covered), None, number))
    new_keys, old_keys = {key_of(told) for told in newer.objects}, {key_of(told) for told in older.objects}
    came = tuple(told for told in newer.objects if key_of(told) not in old_keys)
    went = tuple(told for told in older.objects if key_of(told) not in new_keys)
    return Changes(older, tuple(found), came, went)
