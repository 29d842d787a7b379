"""The parts of a window: what stands in the folder of each, and that they are of one task and tile the window."""

from __future__ import annotations

from collections.abc import Sequence
from dataclasses import dataclass
from pathlib import Path

from conjtools.epochs import SECOND, epoch_text
from conjtools.faults import InputFault
from conjtools.join.certificates import Certificate, read_certificate, read_checksum
from conjtools.join.summary import UNCOVERED, Counts, check_summary, line_of, read_summary
from conjtools.report import Report, Window, read_report

REPORT, CERTIFICATE = "screen.report", "screen.cert"
SUMMARY, ANSWER, CHECKSUM = "screen.out", "check.out", "screen.cert.sha256"
ACCEPTED = b"ACCEPTED\n"
SLOT = 60 * SECOND
WINDOW_LINE, THRESHOLD_LINE = 2, 3


@dataclass(frozen=True)
class Part:
    """A part: its folder, its report, the counts of its summary, and the checksum of the certificate that was checked."""

    folder: Path
    report: Report
    counts: Counts
    checked: str

    @property
    def report_file(self) -> str:
        """The name of its report, by which faults tell it."""
        return str(self.folder / REPORT)

    @property
    def window(self) -> Window:
        """Its window."""
        return self.report.window

    def refuse(self, line: int, cause: str) -> InputFault:
        """A fault at a line of its report."""
        return InputFault(self.report_file, line, cause)


def content_of(path: Path) -> bytes:
    """The bytes of a file of a part."""
    try:
        return path.read_bytes()
    except OSError as error:
        raise InputFault(str(path), 0, error.strerror or "cannot be read") from None


def read_part(folder: Path) -> Part:
    """What stands in the folder of a part, but for its messages and the bytes of its certificate."""
    check_answer(str(folder / ANSWER), content_of(folder / ANSWER))
    checked = read_checksum(str(folder / CHECKSUM), content_of(folder / CHECKSUM), CERTIFICATE)
    report = read_report(str(folder / REPORT), content_of(folder / REPORT))
    counts = read_summary(str(folder / SUMMARY), content_of(folder / SUMMARY))
    check_summary(str(folder / SUMMARY), counts, report)
    return Part(folder, report, counts, checked)


def check_answer(file: str, content: bytes) -> None:
    """What `conj check` printed is that the certificate is accepted."""
    if content != ACCEPTED:
        first = content.decode("ascii", "replace").partition("\n")[0]
        told = "".join(letter if " " <= letter <= "~" else "?" for letter in first[:200])
        raise InputFault(file, 1, f"the certificate was not accepted: ACCEPTED is wanted, and nothing else, not: {told}")


def in_order(parts: Sequence[Part]) -> list[Part]:
    """The parts in order of their windows."""
    return sorted(parts, key=lambda part: (part.window.first, part.window.last))


def check_tiling(parts: Sequence[Part], first: int | None, last: int | None) -> None:
    """The parts, in order, tile the window from its first to its last tick (left out: their own), each from a whole minute of it on."""
    begin = parts[0].window.first
    if first is not None and first != begin:
        raise parts[0].refuse(WINDOW_LINE, f"the window begins at {epoch_text(first)}, and its first part at {epoch_text(begin)}")
    for part in parts:
        if part.window.first > part.window.last:
            raise part.refuse(WINDOW_LINE, "the part has no tick")
    for before, part in zip(parts, parts[1:]):
        if part.window.first != before.window.last + 1:
            what = "a gap" if part.window.first > before.window.last else "an overlap"
            ends = f"{before.report_file} ends at {epoch_text(before.window.last)}"
            raise part.refuse(WINDOW_LINE, f"{what}: the part begins at {epoch_text(part.window.first)}, and {ends}")
        if (part.window.first - begin) % SLOT:
            raise part.refuse(WINDOW_LINE, f"the part does not begin a whole number of minutes behind {epoch_text(begin)}")
    if last is not None and last != parts[-1].window.last:
        end = epoch_text(parts[-1].window.last)
        raise parts[-1].refuse(WINDOW_LINE, f"the window ends at {epoch_text(last)}, and its last part at {end}")


def check_agreement(parts: Sequence[Part]) -> None:
    """All parts have one threshold, the same objects with the same sizes, and as many pairs."""
    model = parts[0]
    for part in parts[1:]:
        if part.report.threshold != model.report.threshold:
            raise part.refuse(THRESHOLD_LINE, f"THRESHOLD is {part.report.threshold}, and {model.report.threshold} in {model.report_file}")
        check_objects(model, part)
        if part.counts["PAIRS"] != model.counts["PAIRS"]:
            told = f"PAIRS is {part.counts['PAIRS']}, and {model.counts['PAIRS']} in {model.folder / SUMMARY}"
            raise InputFault(str(part.folder / SUMMARY), line_of("PAIRS"), told)
        if part.counts.keys() != model.counts.keys():
            raise InputFault(str(part.folder / SUMMARY), line_of(UNCOVERED), f"{UNCOVERED} stands here or in {model.folder / SUMMARY}, and not in both")


def check_objects(model: Part, part: Part) -> None:
    """A part tells the same of the objects as another, but for when they have states."""
    if len(part.report.objects) != len(model.report.objects):
        raise part.refuse(0, f"{len(part.report.objects)} objects, and {len(model.report.objects)} in {model.report_file}")
    for number, (told, other) in enumerate(zip(part.report.objects, model.report.objects), 1):
        values = (
            ("FILE", 1, told.file, other.file), ("ID", 2, told.designator, other.designator), ("NAME", 3, told.name, other.name),
            ("SIZE", 4, told.size, other.size), ("PRIMARY", 0, told.primary, other.primary),
            ("COVERED", 0, told.covered is not None, other.covered is not None),
        )  # fmt: skip
        for word, behind, mine, others in values:
            if mine != others:
                line = told.line if mine is None else told.line + behind
                raise part.refuse(line, f"{word} of object {number} is not that in {model.report_file}")


def read_certificates(parts: Sequence[Part]) -> list[Certificate]:
    """The certificates of the parts: those that were checked, of their reports, and of one version."""
    certificates = [read_certificate(part.folder / CERTIFICATE, part.report, part.checked) for part in parts]
    for certificate in certificates:
        if certificate.version != certificates[0].version:
            told = f"version {certificate.version}, and {certificates[0].version} in {certificates[0].path}"
            raise InputFault(str(certificate.path), 1, told)
    return certificates
