"""Reads the XML notation (CCSDS 505.0-B), one `oem` or an `ndm` of several."""
from __future__ import annotations

from dataclasses import dataclass, field
from xml.parsers import expat

from .faults import Refused
from .message import HEADER, METADATA, NEEDED, VERSIONS, Given, MatrixLines, Message, SegmentLines, StateLine

STATE = ("X", "Y", "Z", "X_DOT", "Y_DOT", "Z_DOT")
ACCELERATION = ("X_DDOT", "Y_DDOT", "Z_DDOT")
MATRIX = tuple(f"C{STATE[row]}_{STATE[column]}" for row in range(6) for column in range(row + 1))
"""CX_X, CY_X, CY_Y and so on, in the order of the lower triangle."""
UNITS = {**{key: {"km"} for key in STATE[:3]}, **{key: {"km/s"} for key in STATE[3:]}, **{key: {"km/s**2"} for key in ACCELERATION},
         **{f"C{a}_{b}": {"km**2" if "DOT" not in a + b else "km**2/s**2" if "DOT" in a and "DOT" in b else "km**2/s"} for a in STATE for b in STATE}}
PARENTS = {"oem": (None, "ndm"), "ndm": (None,), "header": ("oem",), "body": ("oem",), "segment": ("body",), "metadata": ("segment",), "data": ("segment",),
           "stateVector": ("data",), "covarianceMatrix": ("data",)}
"""Which element may stand in which."""


@dataclass
class Element:
    """An element that is open: its name and line, its text, and the values that it holds."""

    name: str
    line: int
    text: list[str] = field(default_factory=list)
    values: dict[str, Given] = field(default_factory=dict)


@dataclass
class Reading:
    """What was read so far."""

    file: str
    parser: expat.XMLParserType
    open: list[Element] = field(default_factory=list)
    messages: list[Message] = field(default_factory=list)
    header: dict[str, Given] = field(default_factory=dict)
    segments: list[SegmentLines] = field(default_factory=list)
    keys: dict[str, Given] = field(default_factory=dict)
    states: list[StateLine] = field(default_factory=list)
    matrices: list[MatrixLines] = field(default_factory=list)

    def refuse(self, what: str) -> Refused:
        return Refused(self.file, self.parser.CurrentLineNumber, what)


def read_xml(file: str, data: bytes) -> tuple[Message, ...]:
    """The messages that a text says."""
    parser = expat.ParserCreate(namespace_separator=" ")
    reading = Reading(file, parser)
    parser.StartElementHandler = lambda name, attributes: start(reading, name.split(" ")[-1], attributes)
    parser.EndElementHandler = lambda name: end(reading, name.split(" ")[-1])
    parser.CharacterDataHandler = lambda text: reading.open[-1].text.append(text) if reading.open else None
    parser.StartDoctypeDeclHandler = lambda *_: refuse_doctype(reading)
    try:
        parser.Parse(data, True)
    except expat.ExpatError as fault:
        raise Refused(file, fault.lineno, f"no well-formed XML: {expat.ErrorString(fault.code)}") from None
    except (LookupError, ValueError):
        raise Refused(file, parser.CurrentLineNumber, "the encoding that the XML names is not read: write it in UTF-8") from None
    if not reading.messages:
        raise Refused(file, parser.CurrentLineNumber, "the file has no oem element")
    return tuple(reading.messages)


def refuse_doctype(reading: Reading) -> None:
    """A document type could bring in other files."""
    raise reading.refuse("a document type is not read")


def start(reading: Reading, name: str, attributes: dict[str, str]) -> None:
    """An element begins."""
    parent = reading.open[-1].name if reading.open else None
    if name in PARENTS:
        if parent not in PARENTS[name]:
            raise reading.refuse(f"the element {name} may not stand in {parent}")
    elif parent not in ("header", "metadata", "data", "stateVector", "covarianceMatrix") and not (parent == "ndm" and name in ("MESSAGE_ID", "COMMENT")):
        raise reading.refuse(f"the element {name} is not that of an OEM")
    if name == "oem":
        version = attributes.get("version", "")
        if version not in VERSIONS:
            raise reading.refuse(f"the version {version!r} is not 1.0, 2.0 or 3.0")
        reading.header, reading.segments = {}, []
    elif name == "segment":
        reading.keys, reading.states, reading.matrices = {}, [], []
    units = attributes.get("units")
    if units is not None and units not in UNITS.get(name, {units}):
        raise reading.refuse(f"{name} in {units}: only {' '.join(UNITS[name])} is read")
    reading.open.append(Element(name, reading.parser.CurrentLineNumber))


def end(reading: Reading, name: str) -> None:
    """An element ends."""
    element = reading.open.pop()
    text = "".join(element.text).strip()
    if name in ENDS:
        if text:
            raise reading.refuse(f"text between the elements of {name}")
        ENDS[name](reading, element)
    elif name not in PARENTS and name != "COMMENT" and reading.open[-1].name != "ndm":
        values = reading.open[-1].values
        if name in values:
            raise reading.refuse(f"{name} was given before")
        values[name] = Given(" ".join(text.split()), element.line)


def check(reading: Reading, element: Element, needed: tuple[str, ...], known: tuple[str, ...]) -> None:
    """An element has the needed values and only known ones."""
    for key in needed:
        if key not in element.values:
            raise Refused(reading.file, element.line, f"{element.name} has no {key}")
    for key, value in element.values.items():
        if key not in known:
            raise Refused(reading.file, value.line, f"{key} is not known in {element.name}")
        if not value.text.isascii() or not value.text.isprintable():
            raise Refused(reading.file, value.line, f"{key} has a byte that is not printable ASCII")


def end_header(reading: Reading, element: Element) -> None:
    """</header>"""
    check(reading, element, HEADER[:2], HEADER)
    reading.header = element.values


def end_metadata(reading: Reading, element: Element) -> None:
    """</metadata>"""
    check(reading, element, NEEDED, METADATA)
    reading.keys = element.values


def end_state(reading: Reading, element: Element) -> None:
    """</stateVector>"""
    check(reading, element, ("EPOCH", *STATE), ("EPOCH", *STATE, *ACCELERATION))
    given = element.values
    reading.states.append(StateLine(given["EPOCH"].text, tuple(given[key].text for key in (*STATE, *ACCELERATION) if key in given), element.line))


def end_matrix(reading: Reading, element: Element) -> None:
    """</covarianceMatrix>"""
    check(reading, element, ("EPOCH", *MATRIX), ("EPOCH", "COV_REF_FRAME", *MATRIX))
    given = element.values
    reading.matrices.append(MatrixLines(given["EPOCH"], given.get("COV_REF_FRAME"), tuple(given[key].text for key in MATRIX)))


def end_data(reading: Reading, element: Element) -> None:
    """</data>"""
    check(reading, element, (), ())


def end_segment(reading: Reading, element: Element) -> None:
    """</segment>"""
    if not reading.keys:
        raise Refused(reading.file, element.line, "the segment has no metadata")
    reading.segments.append(SegmentLines(reading.keys, element.line, tuple(reading.states), tuple(reading.matrices)))


def end_message(reading: Reading, element: Element) -> None:
    """</oem>"""
    if not reading.header or not reading.segments:
        raise Refused(reading.file, element.line, "the oem has no header or no segment")
    reading.messages.append(Message(reading.file, reading.header, tuple(reading.segments)))


ENDS = {"header": end_header, "metadata": end_metadata, "stateVector": end_state, "covarianceMatrix": end_matrix, "data": end_data,
        "segment": end_segment, "oem": end_message}
