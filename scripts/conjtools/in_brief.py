"""What a run puts that is asked for a certificate in brief, by what the same run puts with one of version 2 (docs/FORMATS.md, "In brief"), and what one
accepted certificate may say where another one of the same case is accepted too."""

from __future__ import annotations

from collections import defaultdict
from collections.abc import Iterable, Iterator, Mapping, Sequence
from dataclasses import dataclass
from itertools import pairwise

from conjtools.coverage import Spans, common, joined
from conjtools.covering.due import DONE, Outcome, differences_of_ending, first_difference
from conjtools.report import Window

BRIEF = "--brief"
CERTIFICATE = "screen.cert"
TITLE, TITLE_IN_BRIEF = "CONJ-CERT 2", "CONJ-CERT 3"
# How a certificate in brief is refused where none is asked for.
UNASKED = b"conj: not accepted: line 1: Text Form\n"
MINUTE = 60_000_000
FAR, NEAR, UNDECIDED = "F", "N", "U"

Pair = tuple[int, int]


@dataclass(frozen=True)
class Cell:
    """What a certificate says of a pair at some ticks, both ends included."""

    pair: Pair
    first: int
    last: int
    kind: str


@dataclass(frozen=True)
class Certificate:
    """A certificate of any version: its lines but those of boxes and cells, and its cells."""

    head: tuple[str, ...]
    window: Window
    cells: tuple[Cell, ...]

    def slot_of(self, cell: Cell) -> int:
        """The slot of a cell, which is that of its first tick."""
        return (cell.first - self.window.first) // MINUTE


def read_certificate(data: bytes) -> Certificate:
    """A certificate that a run put; a ValueError where it is none."""
    lines = data.decode("ascii").split("\n")
    if lines[-2:] != ["END", ""]:
        raise ValueError("the certificate has no end")
    words = [line.split(" ") for line in lines[:-2]]
    cells = tuple(Cell((int(a), int(b)), int(first), int(last), kind) for _, a, b, first, last, kind in (told for told in words if told[0] == "CELL"))
    windows = [told[1:] for told in words if told[0] == "WINDOW"]
    if len(windows) != 1:
        raise ValueError(f"the certificate has {len(windows)} windows")
    ((first, last),) = windows
    head = tuple(line for line, told in zip(lines, words) if told[0] not in ("BOX", "CELL"))
    return Certificate(head, Window(int(first), int(last)), cells)


def differences_in_brief(told: Outcome, plain: Outcome) -> list[str]:
    """In what a run that is asked for a certificate in brief does not end as it is due, by how it ends with one of version 2."""
    found = differences_of_ending(told.ended, plain.ended)
    for name in sorted(told.pieces.keys() | plain.pieces.keys()):
        mine, wanted = told.pieces.get(name), plain.pieces.get(name)
        if name == CERTIFICATE and plain.ended.status == DONE and mine is not None and wanted is not None:
            found += differences_of_certificates(mine, wanted)
        elif mine != wanted:
            found.append(f"{name} is not as it is due: {first_difference(mine or b'', wanted or b'')}")
    return [f"with {BRIEF}: {what}" for what in found]


def differences_of_certificates(brief: bytes, full: bytes) -> list[str]:
    """In what a certificate in brief is not the one that is due where one of version 2 is this. Cells that are far may be those of a root that is left out
    where no other of their pair and slot is near or undecided, and else of one that is not."""
    try:
        mine, whole = read_certificate(brief), read_certificate(full)
    except ValueError as wrong:
        return [str(wrong)]
    found: list[str] = []
    if mine.head != (TITLE_IN_BRIEF, *whole.head[1:]) or whole.head[:1] != (TITLE,):
        found.append(f"its head is {mine.head!r}, and that of version 2 {whole.head!r}")
    due, told = set(whole.cells), set(mine.cells)
    found += [f"it tells {cell}, which version 2 does not" for cell in mine.cells if cell not in due][:1]
    found += [f"it does not tell {cell}" for cell in whole.cells if cell.kind != FAR and cell not in told][:1]
    met = {(whole.slot_of(cell), cell.pair) for cell in whole.cells if cell.kind != FAR}
    found += [f"it tells {cell}, and all of its pair and slot is far" for cell in mine.cells if (mine.slot_of(cell), cell.pair) not in met][:1]
    order = [(mine.slot_of(cell), cell.pair, cell.first) for cell in mine.cells]
    found += [f"{later} stands behind {earlier}" for earlier, later in pairwise(order) if earlier >= later][:1]
    return found


def told_spans(cells: Iterable[Cell], kinds: str) -> Mapping[Pair, Spans]:
    """The ticks of each pair at which cells say one of these kinds."""
    found: defaultdict[Pair, list[tuple[int, int]]] = defaultdict(list)
    for cell in cells:
        if cell.kind in kinds:
            found[cell.pair].append((cell.first, cell.last))
    return {pair: joined(sorted(spans)) for pair, spans in found.items()}


def beyond(inner: Spans, outer: Spans) -> Spans:
    """The parts of spans that are in no other ones."""
    return tuple(left for span in inner for left in left_of(span, outer))


def left_of(span: tuple[int, int], outer: Sequence[tuple[int, int]]) -> Iterator[tuple[int, int]]:
    first, last = span
    for start, end in common((span,), tuple(outer)):
        if first < start:
            yield first, start - 1
        first = end + 1
    if first <= last:
        yield first, last


def differences_of_accepted(one: bytes, other: bytes) -> list[str]:
    """In what two certificates that are both accepted for a case cannot both be true: a tick that one says is near is near or undecided by the other."""
    found: list[str] = []
    for mine, theirs in ((one, other), (other, one)):
        near, may_be = told_spans(read_certificate(mine).cells, NEAR), told_spans(read_certificate(theirs).cells, NEAR + UNDECIDED)
        found += [f"pair {pair} is near at {left}" for pair, spans in near.items() for left in beyond(spans, may_be.get(pair, ()))]
    return found[:1]
