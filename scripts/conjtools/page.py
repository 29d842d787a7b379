"""The page of a report: one HTML file that needs no network and nothing beside it but the messages that it links."""

from __future__ import annotations

import html
import json
from collections.abc import Sequence
from dataclasses import dataclass
from decimal import Decimal
from pathlib import Path
from string import Template
from urllib.parse import quote

from conjtools import drawing
from conjtools.cdm import message_name
from conjtools.changes import Cause, Change, Changes, Comparison
from conjtools.coverage import Spans, gaps, is_whole
from conjtools.curves import Curve
from conjtools.epochs import epoch_text
from conjtools.motion import Approach
from conjtools.report import Encounter, Kind, Report, ReportObject

PARTS = Path(__file__).parent / "page"
SCRIPTS = ("basics", "texts", "tables", "encounters", "address", "timeline", "curves", "objects", "went", "start")
CAUSE_TEXTS = {
    Cause.NONE: "",
    Cause.WINDOW: "outside the other window",
    Cause.OBJECT: "object not in the other report",
    Cause.DATA: "no data in the other report",
    Cause.DISTANCE: "beyond the threshold in the other report",
    Cause.DISTANCE_OR_DATA: "beyond the threshold or no data in the other report",
}
CAUSES = tuple(CAUSE_TEXTS)


@dataclass(frozen=True)
class Content:
    """All that a page shows: the report, what floating point says of each encounter, of each object the covered spans and, where its file
    was prepared, the bound in nm, the curves by the numbers of their encounters, the changes since an older report, and where the results
    lie as seen from the page."""

    folder: str
    report: Report
    approaches: Sequence[Approach]
    covered: Sequence[Spans]
    prepared: Sequence[int | None]
    curves: dict[int, Curve]
    changes: Changes | None
    older_name: str
    results: str


def page_text(content: Content) -> str:
    """The whole page."""
    report = content.report
    fields = {
        "title": html.escape(f"Close approaches: {content.folder}"),
        "heading": html.escape(f"Close approaches: {content.folder}"),
        "style": (PARTS / "style.css").read_text("utf-8").strip(),
        "script": "\n\n".join((PARTS / f"{name}.js").read_text("utf-8").strip() for name in SCRIPTS),
        "facts": facts(content),
        "report_link": html.escape(link(content.results, "screen.report")),
        "report_name": "screen.report",
        "changes": changes_section(content),
        "change_filter": CHANGE_FILTER if content.changes else "",
        "primary_filter": PRIMARY_FILTER if any(told.primary for told in report.objects) else "",
        "object_primary_filter": OBJECT_PRIMARY_FILTER if any(told.primary for told in report.objects) else "",
        "curves_heading": curves_heading(content),
        "curves": "\n".join(figure(content, number) for number in content.curves) or "<p>There are none.</p>",
        "objects_summary": objects_summary(content),
        "data": script_json(data(content)),
    }
    return Template((PARTS / "page.html").read_text("utf-8")).substitute(fields)


CHANGE_FILTER = (
    '<label>Change <select name="change"><option value="">all</option><option value="came">came</option>'
    '<option value="changed">changed</option><option value="same">same</option></select></label>'
)
PRIMARY_FILTER = '<label class="tick"><input type="checkbox" name="primary"> with a primary object</label>'
OBJECT_PRIMARY_FILTER = '<label class="tick"><input type="checkbox" name="primary"> primary</label>'


def link(results: str, name: str) -> str:
    """The address of a file of the results."""
    return quote(results) + quote(name)


def script_json(value: object) -> str:
    """JSON that can stand in a script element: no text in it can end the element."""
    return json.dumps(value, separators=(",", ":")).replace("<", "\\u003c").replace(">", "\\u003e").replace("&", "\\u0026")


# ---- the head


def plural(count: int, word: str) -> str:
    """A count with its word."""
    return f"{count:,} {word}" + ("" if count == 1 else "s")


def duration_text(ticks: int) -> str:
    """A time in days, hours, minutes and seconds, those that are not 0."""
    whole, micros = divmod(ticks, 10**6)
    minutes, seconds = divmod(whole, 60)
    hours, minutes = divmod(minutes, 60)
    days, hours = divmod(hours, 24)
    parts = [f"{count} {unit}" for count, unit in ((days, "d"), (hours, "h"), (minutes, "min")) if count]
    if micros:
        parts.append(f"{seconds}.{micros:06}".rstrip("0") + " s")
    elif seconds or not parts:
        parts.append(f"{seconds} s")
    return " ".join(parts)


def metres_short(nm: int) -> str:
    """A length in metres with the decimals that it has."""
    text = f"{Decimal(nm).scaleb(-9):,f}"
    return text.rstrip("0").rstrip(".") if "." in text else text


def fact(name: str, value: str, small: str = "", style: str = "") -> str:
    """A fact of the head."""
    more = f"<small>{html.escape(small)}</small>" if small else ""
    return f'<div class="{style}"><dt>{html.escape(name)}</dt><dd>{html.escape(value)}{more}</dd></div>'


def readable(tick: int) -> str:
    """An epoch with a space between day and time."""
    return epoch_text(tick).replace("T", " ")


def lacking_text(content: Content) -> str:
    """How many objects do not cover the window, where some do not."""
    lacking = len(lacking_objects(content))
    return f", {lacking:,} {'does' if lacking == 1 else 'do'} not cover the window" if lacking else ""


def lacking_objects(content: Content) -> set[int]:
    """The numbers of the objects that have no state at some tick of the window."""
    return {place for place, spans in enumerate(content.covered, 1) if not is_whole(spans, content.report.window)}


def facts(content: Content) -> str:
    """The facts of the head: window, threshold, counts, the nearest encounter."""
    report = content.report
    window, objects = report.window, len(report.objects)
    near = sum(encounter.mark is Kind.NEAR for encounter in report.encounters)
    messages = sum(encounter.has_message for encounter in report.encounters)
    sized = any(told.size is not None for told in report.objects)
    length = "empty" if window.last < window.first else duration_text(window.last - window.first)
    told = [
        fact("Window (UTC)", readable(window.first), f"to {readable(window.last)}, {length}", "time"),
        fact("Threshold", f"{metres_short(report.threshold)} m", "and the sizes of both objects" if sized else "of each pair"),
        fact("Objects", f"{objects:,}", plural(objects * (objects - 1) // 2, "pair") + lacking_text(content)),
        fact("Encounters", f"{len(report.encounters):,}", f"{near:,} near, {len(report.encounters) - near:,} undecided"),
        fact("Messages", f"{messages:,}", "where both objects have a covariance"),
    ]
    if report.encounters:
        nearest = min(report.encounters, key=lambda encounter: encounter.miss)
        told.append(fact("Nearest", f"{drawing.metres_text(nearest.miss)} m", names_of(report, nearest)))
    return "\n".join(told)


def names_of(report: Report, encounter: Encounter) -> str:
    """The names of both objects of an encounter."""
    return f"{report.objects[encounter.a - 1].name} \N{EN DASH} {report.objects[encounter.b - 1].name}"


# ---- curves


def curves_heading(content: Content) -> str:
    """What the curves are of."""
    drawn, count = len(content.curves), len(content.report.encounters)
    return "Distance over time" if drawn == count else f"Distance over time, the {drawn:,} nearest of {count:,}"


def figure(content: Content, number: int) -> str:
    """The curve of an encounter, with what the report says of it."""
    report, encounter = content.report, content.report.encounters[number - 1]
    a, b = report.objects[encounter.a - 1], report.objects[encounter.b - 1]
    names = names_of(report, encounter)
    label = f"Encounter {number}, {names}: distance over time, {drawing.metres_text(encounter.miss)} m at {epoch_text(encounter.closest)}"
    svg = drawing.curve_svg(encounter, content.curves[number], report.pair_threshold(encounter), label)
    message = ""
    if encounter.has_message:
        name = message_name(number)
        message = f', <a href="{html.escape(link(content.results, name))}">{name}</a>'
    mark = "" if encounter.mark is Kind.NEAR else ", undecided"
    speed = content.approaches[number - 1].speed
    return (
        f'<figure id="curve-{number}"><figcaption><strong>{number}. {html.escape(names)}</strong>'
        f"<span>{html.escape(a.designator)} \N{EN DASH} {html.escape(b.designator)}</span>"
        f"<span>{readable(encounter.closest)}{mark}{message}</span>"
        f"<span>{drawing.metres_text(encounter.miss)} m at {speed:,.3f} m/s</span></figcaption>{svg}</figure>"
    )


# ---- objects


def objects_summary(content: Content) -> str:
    """How many objects have encounters and gaps, and how many neither."""
    report = content.report
    met = {place for encounter in report.encounters for place in (encounter.a, encounter.b)}
    lacking = lacking_objects(content)
    neither = len(report.objects) - len(met | lacking)
    source = "the report" if any(told.covered is not None for told in report.objects) else "the useable spans of the ephemerides"
    return (
        f"With encounters: {len(met):,} of {plural(len(report.objects), 'object')}. Without data in a part of the window, where nothing can "
        f"be found: {len(lacking):,}. With neither encounters nor gaps, listed only when asked for: {neither:,}. When an object has a state "
        f"is told by {source}.{prepared_text(content)}"
    )


def prepared_text(content: Content) -> str:
    """How many files were prepared, and how far they may be from what was declared."""
    bounds = [bound for bound in content.prepared if bound is not None]
    if not bounds:
        return ""
    return (
        f" Prepared from other interpolations: {len(bounds):,}; by their comments each is within {metres_short(max(bounds))} m of the curve that its "
        "provider declared."
    )


# ---- changes


def changes_section(content: Content) -> str:
    """What came, went and changed since an older report."""
    changes = content.changes
    if changes is None:
        return ""
    report, older = content.report, changes.older
    rows = [("came", Change.CAME), ("changed", Change.CHANGED), ("same", Change.SAME), ("went", Change.WENT)]
    counted = "".join(f"<tr><th scope=\"row\">{name}</th><td>{counts_text(changes, change)}</td></tr>" for name, change in rows)
    limits = "" if older.threshold == report.threshold else f" Its threshold was {metres_short(older.threshold)} m."
    went = '<div id="went-table" class="needs-script"></div>' if changes.count(Change.WENT) else ""
    return (
        '<section aria-labelledby="changes-heading"><h2 id="changes-heading">Changes</h2>'
        f"<p>Since <strong>{html.escape(content.older_name)}</strong>, whose window was {readable(older.window.first)} to "
        f"{readable(older.window.last)}.{limits} Encounters are the same where they are of the same objects and overlap in time.</p>"
        f'<table class="changes-table"><caption>Encounters</caption><tbody>{counted}</tbody></table>'
        f"{object_list('Objects that came', changes.objects_came)}{object_list('Objects that went', changes.objects_went)}{went}</section>"
    )


def counts_text(changes: Changes, change: Change) -> str:
    """How many encounters came or went, by cause."""
    parts = [(changes.count(change, cause), CAUSE_TEXTS[cause]) for cause in CAUSES if cause is not Cause.NONE]
    causes = "; ".join(f"{text}: {count:,}" for count, text in parts if count)
    return f"{changes.count(change):,}" + (f" <small>{html.escape(causes)}</small>" if causes else "")


def object_list(heading: str, objects: Sequence[ReportObject]) -> str:
    """Objects that stand in one report alone."""
    if not objects:
        return ""
    items = "".join(f"<li>{html.escape(told.name)} ({html.escape(told.designator)}, {html.escape(told.file)})</li>" for told in objects)
    return f"<details><summary>{heading}: {len(objects):,}</summary><ul>{items}</ul></details>"


# ---- what the script of the page reads


def data(content: Content) -> dict[str, object]:
    """The tables as columns: ticks from the first of the window, lengths in nm, speeds in mm/s, objects by their places from 0."""
    report, encounters = content.report, content.report.encounters
    told: dict[str, object] = {
        "window": [report.window.first, report.window.last],
        "threshold": report.threshold,
        "sizes": any(told.size is not None for told in report.objects),
        "prepared": any(bound is not None for bound in content.prepared),
        "messages": quote(content.results),
        "drawn": list(content.curves),
        "drawing": [drawing.LEFT, drawing.RIGHT, drawing.TOP, drawing.BOTTOM],
        "causes": [CAUSE_TEXTS[cause] for cause in CAUSES],
        "older": content.changes is not None,
        "objects": {
            "name": [told.name for told in report.objects],
            "designator": [told.designator for told in report.objects],
            "file": [told.file for told in report.objects],
            "size": [told.size for told in report.objects],
            "primary": [int(told.primary) for told in report.objects],
            "covered": [[tick for span in spans for tick in span] for spans in content.covered],
            "missing": [next((first for first, _ in gaps(spans, report.window)), None) for spans in content.covered],
            "prepared": list(content.prepared),
        },
        "encounters": {
            "a": [encounter.a - 1 for encounter in encounters],
            "b": [encounter.b - 1 for encounter in encounters],
            "closest": [encounter.closest - report.window.first for encounter in encounters],
            "before": [encounter.closest - encounter.first for encounter in encounters],
            "after": [encounter.last - encounter.closest for encounter in encounters],
            "miss": [encounter.miss for encounter in encounters],
            "speed": [round(approach.speed * 1000) for approach in content.approaches],
            "mark": [int(encounter.mark is Kind.UNDECIDED) for encounter in encounters],
            "message": [int(encounter.has_message) for encounter in encounters],
        }
        | (change_columns(content.changes, len(encounters)) if content.changes else {}),
    }
    if content.changes:
        told["went"] = went_columns(content.changes)
    return told


def change_columns(changes: Changes, count: int) -> dict[str, Sequence[int | None]]:
    """What became of each encounter of the newer report."""
    order = [Change.SAME, Change.CHANGED, Change.CAME]
    told = changes.encounters[:count]
    old = [changes.older.encounters[one.old_number - 1] if one.old_number else None for one in told]
    return {
        "change": [order.index(one.change) for one in told],
        "cause": [CAUSES.index(one.cause) for one in told],
        "oldMiss": [encounter.miss if encounter else None for encounter in old],
        "oldClosest": [encounter.closest if encounter else None for encounter in old],
    }


def went_columns(changes: Changes) -> dict[str, list[int] | list[str]]:
    """The encounters of the older report that went."""
    went: list[tuple[Comparison, int]] = [(told, told.old_number) for told in changes.encounters if told.change is Change.WENT and told.old_number]
    old = [changes.older.encounters[number - 1] for _, number in went]
    first = [changes.older.objects[encounter.a - 1] for encounter in old]
    second = [changes.older.objects[encounter.b - 1] for encounter in old]
    return {
        "number": [number for _, number in went],
        "name1": [told.name for told in first],
        "name2": [told.name for told in second],
        "designator1": [told.designator for told in first],
        "designator2": [told.designator for told in second],
        "closest": [encounter.closest for encounter in old],
        "miss": [encounter.miss for encounter in old],
        "length": [encounter.last - encounter.first for encounter in old],
        "mark": [int(encounter.mark is Kind.UNDECIDED) for encounter in old],
        "cause": [CAUSES.index(told.cause) for told, _ in went],
    }
