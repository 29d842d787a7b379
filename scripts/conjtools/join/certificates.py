"""Certificates of parts: that each is the one which was checked, and the list of them beside the joined report."""

from __future__ import annotations

import hashlib
import os
import re
from collections.abc import Sequence
from dataclasses import dataclass
from pathlib import Path

from conjtools.epochs import epoch_text
from conjtools.faults import InputFault
from conjtools.report import Report, Window

# A line of sha256sum: the checksum, a space, a space or `*`, and the file.
CHECKSUM_LINE = re.compile(rb"([0-9a-f]{64}) [ *]([^\n]+)\n")
VERSION_LINE = re.compile(rb"CONJ-CERT (\d{1,4})\n")
LONGEST_LINE = 200

HEAD = """# Each part of the window was screened and checked by itself: its certificate says why its report leaves nothing out, and was accepted.
# The windows of the parts follow one another without a gap or an overlap, so that each tick of the whole window lies in one of them.
# What is certified is every part; there is no certificate of the whole window. In this folder, sha256sum --check certificates.txt holds
# the certificates against this list.
"""


@dataclass(frozen=True)
class Certificate:
    """A certificate: its file, its version, and the checksum of its bytes in hexadecimal digits."""

    path: Path
    version: int
    checksum: str


def read_checksum(file: str, content: bytes, name: str) -> str:
    """The checksum that a file as `sha256sum` writes it has for a file of this name; InputFault where it has another form."""
    match = CHECKSUM_LINE.fullmatch(content)
    if not match:
        raise InputFault(file, 1, f"not one line of sha256sum of {name}")
    if match[2].rpartition(b"/")[2] != os.fsencode(name):
        raise InputFault(file, 1, f"the checksum is not of {name}")
    return match[1].decode("ascii")


def read_certificate(path: Path, report: Report, checked: str) -> Certificate:
    """The certificate of a report as it stands now; InputFault where it is another than that which was checked, or than the report's."""
    try:
        with path.open("rb") as file:
            head = [file.readline(LONGEST_LINE) for _ in range(4)]
            file.seek(0)
            checksum = hashlib.file_digest(file, "sha256").hexdigest()
    except OSError as error:
        raise InputFault(str(path), 0, error.strerror or "cannot be read") from None
    if checksum != checked:
        raise InputFault(str(path), 0, f"not the certificate that was checked: its checksum is {checksum}, and that at the check was {checked}")
    version = VERSION_LINE.fullmatch(head[0])
    if not version:
        raise InputFault(str(path), 1, "not a certificate: CONJ-CERT is wanted")
    for number, wanted in enumerate(head_lines(report), 2):
        if head[number - 1] != wanted.encode("ascii"):
            raise InputFault(str(path), number, f"not the certificate of the report: {wanted.strip()} is wanted")
    return Certificate(path, int(version[1]), checksum)


def head_lines(report: Report) -> tuple[str, str, str]:
    """The lines behind the first of the certificate of a report."""
    return f"WINDOW {report.window.first} {report.window.last}\n", f"THRESHOLD {report.threshold}\n", f"OBJECTS {len(report.objects)}\n"


def list_text(window: Window, parts: Sequence[tuple[Window, Certificate]], folder: Path) -> bytes:
    """The list of the certificates, to stand in a folder: lines that `sha256sum --check` takes there, and comments with the windows."""
    text = HEAD + f"# WINDOW {window_text(window)}\n"
    for number, (part, certificate) in enumerate(parts, 1):
        text += f"# PART {number} {window_text(part)}\n{certificate.checksum}  {path_from(folder, certificate.path)}\n"
    return os.fsencode(text)


def window_text(window: Window) -> str:
    """The first and the last tick of a window."""
    return f"{epoch_text(window.first)} {epoch_text(window.last)}"


def path_from(folder: Path, path: Path) -> str:
    """How a file is reached from a folder."""
    return os.path.relpath(path.resolve(), folder.parent.resolve() / folder.name)
