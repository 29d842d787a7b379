"""The report of a run, `screen.report`, in the form of docs/FORMATS.md: read strictly, and written back byte for byte."""

from __future__ import annotations

import re
from dataclasses import dataclass, field
from enum import Enum

from conjtools.epochs import EpochFault, epoch_text, read_written_epoch
from conjtools.faults import InputFault
from conjtools.kvn import is_file_name

NUMBER = re.compile(r"0|[1-9]\d*", re.ASCII)
LEAST_THRESHOLD, LARGEST_THRESHOLD = 10**9, 10**15
LARGEST_SIZE = 10**12
LARGEST_DISTANCE = 2**64
MOST_OBJECTS = 1_000_000


class Kind(Enum):
    """What a span or an encounter is: within the threshold, or within a millimetre of it."""

    NEAR = "NEAR"
    UNDECIDED = "UNDECIDED"


@dataclass(frozen=True)
class Window:
    """The ticks from the first to the last, both included; none where the first is behind the last."""

    first: int
    last: int


@dataclass(frozen=True)
class Span:
    """Consecutive ticks of one kind, both ends included."""

    kind: Kind
    first: int
    last: int


@dataclass(frozen=True)
class ReportObject:
    """An object: its file, designator and name, its radius in nm where sizes are told, whether it is primary, and the spans of ticks
    (first and last) at which it has a state, where the report tells them. `line` is the number of its first line."""

    file: str
    designator: str
    name: str
    size: int | None = None
    primary: bool = False
    covered: tuple[tuple[int, int], ...] | None = None
    line: int = field(default=0, compare=False)


@dataclass(frozen=True)
class Encounter:
    """An encounter of the objects with the numbers a and b, counted from 1: its mark, the tick of closest approach, the miss distance
    in nm, whether it has a message, and its spans in order of time. `line` is the number of its first line."""

    a: int
    b: int
    mark: Kind
    closest: int
    miss: int
    has_message: bool
    spans: tuple[Span, ...]
    line: int = field(default=0, compare=False)

    @property
    def first(self) -> int:
        """Its first tick."""
        return self.spans[0].first

    @property
    def last(self) -> int:
        """Its last tick."""
        return self.spans[-1].last


@dataclass(frozen=True)
class Report:
    """A whole report; the threshold is in nm. Objects and encounters are numbered from 1."""

    window: Window
    threshold: int
    objects: tuple[ReportObject, ...]
    encounters: tuple[Encounter, ...]

    def pair_threshold(self, encounter: Encounter) -> int:
        """The threshold of a pair in nm: that of the run and the sizes of both objects."""
        return self.threshold + (self.objects[encounter.a - 1].size or 0) + (self.objects[encounter.b - 1].size or 0)

    def text(self) -> str:
        """The text of the report, as it was read."""
        head = f"CONJ-REPORT 1\nWINDOW {epoch_text(self.window.first)} {epoch_text(self.window.last)}\nTHRESHOLD {self.threshold}\n"
        objects = "".join(object_text(number, told) for number, told in enumerate(self.objects, 1))
        encounters = "".join(encounter_text(number, told) for number, told in enumerate(self.encounters, 1))
        return f"{head}{objects}{encounters}END\n"


def check_object(file: str, told: ReportObject, designator: str, name: str) -> None:
    """An object of a report has this designator and this name; InputFault, by the name of the report's file, where it has not."""
    if told.designator != designator:
        raise InputFault(file, told.line + 2, f"ID is {told.designator}, and that of {told.file} is {designator}")
    if told.name != name:
        raise InputFault(file, told.line + 3, f"NAME is {told.name}, and that of {told.file} is {name}")


def object_text(number: int, told: ReportObject) -> str:
    """The lines of an object."""
    size = "" if told.size is None else f"SIZE {told.size}\n"
    primary = "PRIMARY\n" if told.primary else ""
    return f"OBJECT {number}\nFILE {told.file}\nID {told.designator}\nNAME {told.name}\n{size}{primary}{covered_text(told.covered)}"


def covered_text(covered: tuple[tuple[int, int], ...] | None) -> str:
    """The lines that tell when an object has a state."""
    if covered is None:
        return ""
    if not covered:
        return "COVERED NONE\n"
    return "".join(f"COVERED {epoch_text(first)} {epoch_text(last)}\n" for first, last in covered)


def encounter_text(number: int, told: Encounter) -> str:
    """The lines of an encounter."""
    message = "CDM" if told.has_message else "NOCOV"
    spans = "".join(f"SPAN {span.kind.value} {epoch_text(span.first)} {epoch_text(span.last)}\n" for span in told.spans)
    return f"ENCOUNTER {number} {told.a} {told.b} {told.mark.value} {epoch_text(told.closest)} {told.miss} {message}\n{spans}"


@dataclass
class Reader:
    """The lines of a report and how far they are read; `file` is the name that faults tell."""

    file: str
    lines: list[str]
    place: int = 0

    def refuse(self, cause: str, back: int = 0) -> InputFault:
        """A fault at the next line, or so many lines before it."""
        return InputFault(self.file, self.place + 1 - back, cause)

    def next_word(self) -> str:
        """The first word of the next line, and nothing at the end."""
        return self.lines[self.place].partition(" ")[0] if self.place < len(self.lines) else ""

    def take(self, key: str) -> str:
        """What stands behind the key and a space in the next line, which is then read."""
        if self.place >= len(self.lines):
            raise self.refuse(f"the report is cut: {key} is wanted")
        line = self.lines[self.place]
        if not line.startswith(key + " "):
            raise self.refuse(f"{key} is wanted")
        self.place += 1
        return line[len(key) + 1 :]

    def number(self, text: str, least: int, most: int) -> int:
        """A number of the line that was just read."""
        if not NUMBER.fullmatch(text) or len(text) > 20 or not least <= int(text) <= most:
            raise self.refuse(f"not a number from {least} to {most}: {text}", back=1)
        return int(text)

    def epoch(self, text: str) -> int:
        """An epoch of the line that was just read."""
        try:
            return read_written_epoch(text)
        except EpochFault as fault:
            raise self.refuse(f"not an epoch ({fault.cause.value}): {text}", back=1) from None

    def epochs(self, text: str) -> tuple[int, int]:
        """Two epochs of the line that was just read."""
        first, _, last = text.partition(" ")
        return self.epoch(first), self.epoch(last)


def read_report(file: str, content: bytes) -> Report:
    """What the bytes of a report say; InputFault, by the name of the file, where they are none."""
    reader = Reader(file, report_lines(file, content))
    if reader.next_word() != "CONJ-REPORT":
        raise reader.refuse("not a report: CONJ-REPORT is wanted")
    if reader.take("CONJ-REPORT") != "1":
        raise reader.refuse("a report of another version; version 1 is read", back=1)
    window = Window(*reader.epochs(reader.take("WINDOW")))
    threshold = reader.number(reader.take("THRESHOLD"), LEAST_THRESHOLD, LARGEST_THRESHOLD)
    objects = read_objects(reader, window)
    encounters = read_encounters(reader, window, len(objects))
    if reader.place >= len(reader.lines):
        raise reader.refuse("the report is cut: END is wanted")
    if reader.lines[reader.place] != "END":
        raise reader.refuse("OBJECT, ENCOUNTER or END is wanted" if not encounters else "ENCOUNTER, SPAN or END is wanted")
    reader.place += 1
    if reader.place < len(reader.lines):
        raise reader.refuse("the report goes on behind END")
    return Report(window, threshold, objects, encounters)


def report_lines(file: str, content: bytes) -> list[str]:
    """The lines of a report: printable ASCII, and LF behind each."""
    *lines, rest = content.split(b"\n")
    printable = bytes(range(32, 127))
    if content.translate(None, printable + b"\n"):
        for number, line in enumerate([*lines, rest], 1):
            if line.translate(None, printable):
                raise InputFault(file, number, "a byte is not printable ASCII")
    if rest:
        raise InputFault(file, len(lines) + 1, "the report is cut: the last line has no LF")
    return [line.decode("ascii") for line in lines]


def read_objects(reader: Reader, window: Window) -> tuple[ReportObject, ...]:
    """The lines of all objects."""
    objects: list[ReportObject] = []
    while reader.next_word() == "OBJECT":
        told = read_object(reader, len(objects) + 1, window)
        if objects:
            check_follows(reader, objects[-1], told)
        objects.append(told)
    return tuple(objects)


def check_follows(reader: Reader, before: ReportObject, told: ReportObject) -> None:
    """Objects stand in byte order of their files, and either all tell their sizes, or their spans, or none does."""
    if told.file <= before.file:
        raise InputFault(reader.file, told.line + 1, "objects are not in order of their files")
    if (told.size is None) != (before.size is None):
        raise InputFault(reader.file, told.line, "SIZE stands for some objects and not for others")
    if (told.covered is None) != (before.covered is None):
        raise InputFault(reader.file, told.line, "COVERED stands for some objects and not for others")


def read_object(reader: Reader, number: int, window: Window) -> ReportObject:
    """The lines of the object with this number."""
    line = reader.place + 1
    if reader.number(reader.take("OBJECT"), 1, MOST_OBJECTS) != number:
        raise reader.refuse(f"object {number} is wanted", back=1)
    file = reader.take("FILE")
    if not is_file_name(file) or "/" in file:
        raise reader.refuse(f"not a file's name: {file}", back=1)
    designator = read_label(reader, "ID")
    name = read_label(reader, "NAME")
    size = reader.number(reader.take("SIZE"), 0, LARGEST_SIZE) if reader.next_word() == "SIZE" else None
    primary = reader.next_word() == "PRIMARY"
    if primary:
        if reader.lines[reader.place] != "PRIMARY":
            raise reader.refuse("PRIMARY stands alone")
        reader.place += 1
    return ReportObject(file, designator, name, size, primary, read_covered(reader, window), line)


def read_label(reader: Reader, key: str) -> str:
    """A name or a designator: one or more letters, none of them a blank at an end."""
    label = reader.take(key)
    if not label or label != label.strip(" "):
        raise reader.refuse(f"{key} is empty or has outer blanks", back=1)
    return label


def read_covered(reader: Reader, window: Window) -> tuple[tuple[int, int], ...] | None:
    """The lines that tell when an object has a state, where there are any: spans in the window, with a tick or more between two."""
    if reader.next_word() != "COVERED":
        return None
    spans: list[tuple[int, int]] = []
    while reader.next_word() == "COVERED":
        text = reader.take("COVERED")
        if text == "NONE" and not spans:
            break
        first, last = reader.epochs(text)
        if first > last or spans and first <= spans[-1][1] + 1:
            raise reader.refuse("covered spans are empty or not in order of time, or follow one another without a gap", back=1)
        if first < window.first or window.last < last:
            raise reader.refuse("the covered span leaves the window", back=1)
        spans.append((first, last))
    return tuple(spans)


def read_encounters(reader: Reader, window: Window, objects: int) -> tuple[Encounter, ...]:
    """The lines of all encounters."""
    encounters: list[Encounter] = []
    while reader.next_word() == "ENCOUNTER":
        told = read_encounter(reader, len(encounters) + 1, objects, window)
        if encounters:
            before = encounters[-1]
            if (told.a, told.b) < (before.a, before.b) or (told.a, told.b) == (before.a, before.b) and told.first <= before.last + 1:
                raise InputFault(reader.file, told.line, "encounters are not in order of pair and time, or follow one another without a gap")
        encounters.append(told)
    return tuple(encounters)


def read_encounter(reader: Reader, number: int, objects: int, window: Window) -> Encounter:
    """The lines of the encounter with this number."""
    line = reader.place + 1
    words = reader.take("ENCOUNTER").split(" ")
    if len(words) != 7:
        raise reader.refuse("an encounter has seven fields", back=1)
    if words[0] != str(number):
        raise reader.refuse(f"encounter {number} is wanted", back=1)
    a, b = reader.number(words[1], 1, objects), reader.number(words[2], 1, objects)
    if a >= b:
        raise reader.refuse("the first object does not come before the second", back=1)
    mark, closest = read_kind(reader, words[3]), reader.epoch(words[4])
    miss = reader.number(words[5], 0, LARGEST_DISTANCE)
    if words[6] not in ("CDM", "NOCOV"):
        raise reader.refuse(f"not CDM or NOCOV: {words[6]}", back=1)
    spans = read_spans(reader, window)
    told = Encounter(a, b, mark, closest, miss, words[6] == "CDM", spans, line)
    if not told.first <= closest <= told.last:
        raise InputFault(reader.file, line, "the closest approach is not in the encounter")
    if (mark is Kind.NEAR) != any(span.kind is Kind.NEAR for span in spans):
        raise InputFault(reader.file, line, f"marked {mark.value}, and the spans are not so")
    return told


def read_kind(reader: Reader, word: str) -> Kind:
    """A kind in the line that was just read."""
    try:
        return Kind(word)
    except ValueError:
        raise reader.refuse(f"not NEAR or UNDECIDED: {word}", back=1) from None


def read_spans(reader: Reader, window: Window) -> tuple[Span, ...]:
    """The spans of an encounter: without gaps, of another kind than the one before, and in the window."""
    spans: list[Span] = []
    while not spans or reader.next_word() == "SPAN":
        word, _, text = reader.take("SPAN").partition(" ")
        kind = read_kind(reader, word)
        first, last = reader.epochs(text)
        if not window.first <= first <= last <= window.last:
            raise reader.refuse("the span is empty or leaves the window", back=1)
        if spans and (first != spans[-1].last + 1 or kind is spans[-1].kind):
            raise reader.refuse("spans of an encounter follow without a gap, each of another kind than the one before", back=1)
        spans.append(Span(kind, first, last))
    return tuple(spans)
