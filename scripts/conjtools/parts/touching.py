"""What of an ephemeris matters in a window: its digest there, which stays where nothing changed that can change a byte of the report, the
certificate or the messages of the window.

By docs/MODEL.md and docs/FORMATS.md these depend, of one file, on

- its name, its designator and its name of the object, in the list of all objects (`report_objects`), and its frame;
- the segments whose useable span has a tick of the window, and of each of them on that part of the span, the states between which the
  object is there, and the covariances that may be told there: those with epochs in that part, the latest before it, and the first.

Rows and covariances are taken as they are written, so that a change of digits counts, though it may change no whole nanometre; one row
more is taken on each side than is needed. Of a text that is not understood here all bytes count, in every window: whether it is taken
the program decides.
"""

from __future__ import annotations

import hashlib
from bisect import bisect_right
from collections.abc import Sequence
from dataclasses import dataclass

from conjtools.faults import InputFault
from conjtools.kvn import MARKS, LineKind, kind_of, split_pair
from conjtools.oem import Cursor, Metadata, cursor_of, epoch_of, read_header, read_metadata
from conjtools.oem_rows import cached_epoch
from conjtools.epochs import EpochFault
from conjtools.report import Report, Window

DIGEST_BYTES = 16
ROWS_BEYOND = 1


@dataclass(frozen=True)
class MatrixText:
    """A covariance: its epoch, whether it is in the frame that is used, and its lines."""

    at: int
    used: bool
    lines: tuple[bytes, ...]


@dataclass(frozen=True)
class SegmentText:
    """A segment: its first and last useable tick, its rows in order of time as they are written, and its covariances in their order."""

    first: int
    last: int
    rows: tuple[bytes, ...]
    matrices: tuple[MatrixText, ...]


def digest_of(*texts: bytes) -> bytes:
    """A digest of some texts, each with its length, so that no two lists of texts run together into one."""
    digest = hashlib.blake2b(digest_size=DIGEST_BYTES)
    for text in texts:
        digest.update(b"%d\n" % len(text))
        digest.update(text)
    return digest.digest()


def report_objects(report: Report) -> bytes:
    """What the report of each window says of all objects: files, designators, names and sizes, and which are primary."""
    told = [(one.file, one.designator, one.name, "" if one.size is None else str(one.size), str(one.primary)) for one in report.objects]
    return digest_of(*(text.encode("ascii") for one in told for text in one))


def file_digests(name: str, content: bytes, windows: Sequence[Window]) -> list[bytes]:
    """The digest of a file in each of these windows."""
    try:
        frame, segments = read_segments(name, content)
        return [digest_of(frame, *(text for segment in segments for text in texts_in(segment, window))) for window in windows]
    except (InputFault, EpochFault):
        return [digest_of(b"not understood", content)] * len(windows)


def texts_in(segment: SegmentText, window: Window) -> list[bytes]:
    """What of a segment matters in a window."""
    first, last = max(segment.first, window.first), min(segment.last, window.last)
    if first > last:
        return []
    rows, ends = segment.rows, range(len(segment.rows))
    # The state before the first tick has to have a follower, and the state behind the last tick is told too: the tick of a state belongs
    # to the piece behind it.
    before = bisect_right(ends, first, key=lambda place: row_epoch(rows[place])) - 2
    behind = bisect_right(ends, last, key=lambda place: row_epoch(rows[place])) + 1
    taken = rows[max(0, before - ROWS_BEYOND) : behind + ROWS_BEYOND]
    matrices = matrices_in(segment.matrices, first, last)
    return [b"SEGMENT %d %d %d %d" % (first, last, len(taken), len(matrices)), b"\n".join(taken), *(b"\n".join(one.lines) for one in matrices)]


def matrices_in(matrices: Sequence[MatrixText], first: int, last: int) -> list[MatrixText]:
    """The covariances that may be told from the first tick to the last: of those in the frame that is used the first, those that are the
    latest at the first tick, and those behind them."""
    used = [one for one in matrices if one.used]
    begin = max((one.at for one in used if one.at <= first), default=first)
    return used[:1] + [one for one in used if begin <= one.at <= last]


def row_epoch(row: bytes) -> int:
    """The tick of a row."""
    return cached_epoch(row.split(None, 1)[0])


def read_segments(name: str, content: bytes) -> tuple[bytes, list[SegmentText]]:
    """The frame and the segments of an ephemeris; InputFault or EpochFault where it is not understood."""
    cursor = cursor_of(name, content)
    read_header(cursor)
    first: Metadata | None = None
    segments: list[SegmentText] = []
    while cursor.line()[1] or not segments:
        metadata = read_metadata(cursor, first)
        first = first or metadata
        rows = read_rows(cursor)
        matrices = read_matrices(cursor) if cursor.line()[1] == b"COVARIANCE_START" else ()
        segments.append(SegmentText(metadata.first, metadata.last, rows, matrices))
    assert first is not None
    return first.frame.encode("ascii"), segments


def read_rows(cursor: Cursor) -> tuple[bytes, ...]:
    """The rows at the cursor, which then stands behind them; a segment has two at least."""
    lines, start = cursor.lines, cursor.place
    stop = start
    while (text := lines[stop][1]) and b"=" not in text and text not in MARKS:
        stop += 1
    cursor.place = stop
    if stop - start < 2:
        raise cursor.refuse("TooFewNodes")
    return tuple(text for _, text in lines[start:stop])


def read_matrices(cursor: Cursor) -> tuple[MatrixText, ...]:
    """The covariances from COVARIANCE_START to COVARIANCE_STOP, behind which the cursor then stands."""
    matrices: list[MatrixText] = []
    cursor.place += 1
    while (text := cursor.line()[1]) != b"COVARIANCE_STOP":
        if not text or kind_of(text) is not LineKind.PAIR or split_pair(text)[0] != b"EPOCH":
            raise cursor.refuse("MatrixForm")
        matrices.append(read_matrix(cursor))
    cursor.place += 1
    return tuple(matrices)


def read_matrix(cursor: Cursor) -> MatrixText:
    """The covariance whose EPOCH is at the cursor, which then stands behind it."""
    begin = cursor.place
    at = epoch_of(cursor, split_pair(cursor.line()[1])[1])
    cursor.place += 1
    used = True
    key, frame = split_pair(cursor.line()[1])
    if key == b"COV_REF_FRAME":
        used = frame.upper() == b"RTN"
        cursor.place += 1
    for _ in range(6):
        text = cursor.line()[1]
        if not text or kind_of(text) is not LineKind.ROW:
            raise cursor.refuse("MatrixForm")
        cursor.place += 1
    return MatrixText(at, used, tuple(text for _, text in cursor.lines[begin : cursor.place]))
