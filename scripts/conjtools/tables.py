"""The table of encounters for spreadsheets and programs: as CSV, and as lists of objects in JSON.

Names of columns have their units. Times are ISO 8601 in UTC; lengths are exact decimals of whole nm.
"""

from __future__ import annotations

import csv
import io
import json
from collections.abc import Mapping, Sequence
from decimal import Decimal

from conjtools.cdm import message_name
from conjtools.changes import Change, Changes, Comparison
from conjtools.coverage import Spans
from conjtools.epochs import epoch_text
from conjtools.motion import Approach
from conjtools.report import Encounter, Kind, Report, ReportObject

Cell = str | int | bool | Decimal | None
Row = dict[str, Cell]
Json = Mapping[str, object]

OBJECT_COLUMNS = ("name", "designator", "file", "primary")
VALUE_COLUMNS = (
    "time_of_closest_approach_utc", "miss_distance_m", "pair_threshold_m", "first_utc", "last_utc", "length_s", "relative_speed_m_per_s",
    "mark", "message",
)  # fmt: skip
CHANGE_COLUMNS = (
    "change", "change_cause", "old_encounter", "old_time_of_closest_approach_utc", "old_miss_distance_m", "old_length_s", "old_mark",
    "time_change_s", "miss_distance_change_m",
)  # fmt: skip


def columns(with_changes: bool) -> tuple[str, ...]:
    """The names of the columns, in order."""
    objects = tuple(f"object_{place}_{name}" for place in (1, 2) for name in OBJECT_COLUMNS)
    return ("encounter", *objects, *VALUE_COLUMNS, *(CHANGE_COLUMNS if with_changes else ()))


def metres(nm: int) -> Decimal:
    """A length in metres, exactly."""
    return Decimal(nm).scaleb(-9)


def seconds(ticks: int) -> Decimal:
    """A time in seconds, exactly."""
    return Decimal(ticks).scaleb(-6)


def object_cells(place: int, told: ReportObject) -> Row:
    """The cells of one of the two objects of an encounter."""
    cells: tuple[Cell, ...] = (told.name, told.designator, told.file, told.primary)
    return {f"object_{place}_{name}": cell for name, cell in zip(OBJECT_COLUMNS, cells)}


def both_objects(report: Report, encounter: Encounter) -> Row:
    """The cells of both objects of an encounter."""
    return object_cells(1, report.objects[encounter.a - 1]) | object_cells(2, report.objects[encounter.b - 1])


def encounter_row(report: Report, number: int, approach: Approach) -> Row:
    """The row of the encounter with this number."""
    encounter = report.encounters[number - 1]
    return {
        "encounter": number,
        **both_objects(report, encounter),
        "time_of_closest_approach_utc": epoch_text(encounter.closest),
        "miss_distance_m": metres(encounter.miss),
        "pair_threshold_m": metres(report.pair_threshold(encounter)),
        "first_utc": epoch_text(encounter.first),
        "last_utc": epoch_text(encounter.last),
        "length_s": seconds(encounter.last - encounter.first),
        "relative_speed_m_per_s": Decimal(f"{approach.speed:.6f}"),
        "mark": encounter.mark.value,
        "message": message_name(number) if encounter.has_message else None,
    }


def change_cells(report: Report, changes: Changes, told: Comparison) -> Row:
    """The cells that tell what became of an encounter."""
    cells: Row = dict.fromkeys(CHANGE_COLUMNS)
    cells |= {"change": told.change.value, "change_cause": told.cause.value or None, "old_encounter": told.old_number}
    if told.old_number is not None:
        old = changes.older.encounters[told.old_number - 1]
        cells |= {
            "old_time_of_closest_approach_utc": epoch_text(old.closest),
            "old_miss_distance_m": metres(old.miss),
            "old_length_s": seconds(old.last - old.first),
            "old_mark": old.mark.value,
        }
        if told.new_number is not None:
            new = report.encounters[told.new_number - 1]
            cells |= {"time_change_s": seconds(new.closest - old.closest), "miss_distance_change_m": metres(new.miss - old.miss)}
    return cells


def rows_of(report: Report, approaches: Sequence[Approach], changes: Changes | None) -> list[Row]:
    """The rows of all encounters, and behind them those of the older report that went."""
    rows = [encounter_row(report, number, approach) for number, approach in enumerate(approaches, 1)]
    if changes is None:
        return rows
    with_changes = [row | change_cells(report, changes, told) for row, told in zip(rows, changes.encounters)]
    for told in changes.encounters[len(rows) :]:
        assert told.change is Change.WENT and told.old_number is not None
        gone: Row = dict.fromkeys(columns(True))
        with_changes.append(
            gone | both_objects(changes.older, changes.older.encounters[told.old_number - 1]) | change_cells(report, changes, told)
        )
    return with_changes


def csv_cell(cell: Cell) -> str:
    """A cell as CSV has it: nothing as an empty text, decimals in full."""
    if cell is None:
        return ""
    if isinstance(cell, bool):
        return "true" if cell else "false"
    return format(cell, "f") if isinstance(cell, Decimal) else str(cell)


def csv_text(rows: Sequence[Row], with_changes: bool) -> str:
    """The table as CSV (RFC 4180), with a header."""
    names = columns(with_changes)
    text = io.StringIO()
    writer = csv.writer(text, lineterminator="\r\n")
    writer.writerow(names)
    writer.writerows([csv_cell(row[name]) for name in names] for row in rows)
    return text.getvalue()


def json_cell(cell: Cell) -> object:
    """A cell as JSON has it: a decimal as the nearest number."""
    return float(cell) if isinstance(cell, Decimal) else cell


def misses_of_objects(report: Report) -> list[list[int]]:
    """The miss distances of the encounters of each object, in nm."""
    misses: list[list[int]] = [[] for _ in report.objects]
    for encounter in report.encounters:
        misses[encounter.a - 1].append(encounter.miss)
        misses[encounter.b - 1].append(encounter.miss)
    return misses


def json_objects(report: Report, covered: Sequence[Spans]) -> list[Json]:
    """What is told of each object."""
    return [
        {
            "object": number,
            **object_keys(told),
            "covered": [{"first_utc": epoch_text(first), "last_utc": epoch_text(last)} for first, last in spans],
            "encounters": len(misses),
            "least_miss_distance_m": float(metres(min(misses))) if misses else None,
        }
        for number, (told, spans, misses) in enumerate(zip(report.objects, covered, misses_of_objects(report)), 1)
    ]


def object_keys(told: ReportObject) -> Json:
    """What tells an object apart, and its size."""
    size = None if told.size is None else float(metres(told.size))
    return {"name": told.name, "designator": told.designator, "file": told.file, "size_m": size, "primary": told.primary}


def summary(report: Report) -> Json:
    """The head of a report, and its counts."""
    return {
        "window_first_utc": epoch_text(report.window.first),
        "window_last_utc": epoch_text(report.window.last),
        "threshold_m": float(metres(report.threshold)),
        "objects": len(report.objects),
        "encounters": len(report.encounters),
        "near": sum(encounter.mark is Kind.NEAR for encounter in report.encounters),
        "undecided": sum(encounter.mark is Kind.UNDECIDED for encounter in report.encounters),
        "messages": sum(encounter.has_message for encounter in report.encounters),
    }


def json_text(report: Report, rows: Sequence[Row], covered: Sequence[Spans], changes: Changes | None) -> str:
    """The table as JSON: what the report says at its head, and lists of encounters and objects."""
    told: dict[str, object] = {
        "report": summary(report),
        "encounters": [{name: json_cell(cell) for name, cell in row.items()} for row in rows],
        "objects": json_objects(report, covered),
    }
    if changes is not None:
        told["older_report"] = summary(changes.older)
        told["objects_came"] = [object_keys(told) for told in changes.objects_came]
        told["objects_went"] = [object_keys(told) for told in changes.objects_went]
    return "{\n" + ",\n".join(f"{json.dumps(name)}: {json_lines(value)}" for name, value in told.items()) + "\n}\n"


def json_lines(value: object) -> str:
    """JSON of a list with each of its elements in a line, of anything else in one line."""
    if not isinstance(value, list) or not value:
        return json.dumps(value)
    return "[\n" + ",\n".join(map(json.dumps, value)) + "\n]"
