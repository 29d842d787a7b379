"""Parts of a window for the tests of joining: three objects at rest, and two that drift past each other.

Ticks are told as seconds from the start of the window, as `at(59.999999)`.
"""

from __future__ import annotations

import hashlib
from collections.abc import Sequence
from dataclasses import dataclass
from decimal import Decimal
from pathlib import Path

from conjtools.epochs import epoch_text
from tests.support import message, oem, segment

START = 1_735_689_600_000_000
THRESHOLD = 5 * 10**12
OBJECTS = (("a.oem", "2025-001A", "SAT A"), ("b.oem", "2025-002A", "SAT B"), ("c.oem", "2025-003A", "SAT C"))


def at(seconds: str | int) -> int:
    """The tick so many seconds behind the start of the window."""
    return START + int(Decimal(seconds) * 10**6)


def when(seconds: str | int) -> str:
    """The same as an epoch."""
    return epoch_text(at(seconds))


def metres(nm: int) -> str:
    """A distance in metres with nine decimals."""
    return f"{nm // 10**9}.{nm % 10**9:09}"


def head(first: int, last: int, objects: tuple[tuple[str, str, str], ...] = OBJECTS, sizes: tuple[int, ...] = ()) -> str:
    """The lines of a report in front of its encounters."""
    text = f"CONJ-REPORT 1\nWINDOW {epoch_text(first)} {epoch_text(last)}\nTHRESHOLD {THRESHOLD}\n"
    for number, (file, designator, name) in enumerate(objects, 1):
        text += f"OBJECT {number}\nFILE {file}\nID {designator}\nNAME {name}\n" + (f"SIZE {sizes[number - 1]}\n" if sizes else "")
    return text


@dataclass(frozen=True)
class Told:
    """An encounter by the texts of its lines: the numbers of its objects, the seconds of its closest approach, the distance in nm, its
    spans as `NEAR 1 2`, and whether it has a message."""

    a: int
    b: int
    closest: str | int
    miss: int
    spans: tuple[str, ...]
    has_message: bool = False

    def text(self, number: int) -> str:
        """Its lines."""
        mark = "NEAR" if any(span.startswith("NEAR") for span in self.spans) else "UNDECIDED"
        word = "CDM" if self.has_message else "NOCOV"
        text = f"ENCOUNTER {number} {self.a} {self.b} {mark} {when(self.closest)} {self.miss} {word}\n"
        for span in self.spans:
            kind, first, last = span.split(" ")
            text += f"SPAN {kind} {when(first)} {when(last)}\n"
        return text

    def message(self, number: int, first: int, last: int) -> str:
        """Its message in a run over this window."""
        sides = [(designator, name, file) for file, designator, name in (OBJECTS[self.a - 1], OBJECTS[self.b - 1])]
        text = message(number, when(self.closest), metres(self.miss), sides[0], sides[1])
        text = text.replace("START_SCREEN_PERIOD = 2025-01-01T00:00:00.000000", f"START_SCREEN_PERIOD = {epoch_text(first)}")
        return text.replace("STOP_SCREEN_PERIOD = 2025-01-01T00:01:00.000000", f"STOP_SCREEN_PERIOD = {epoch_text(last)}")


def report(first: int, last: int, encounters: tuple[Told, ...], sizes: tuple[int, ...] = ()) -> str:
    """A report of the three objects."""
    return head(first, last, sizes=sizes) + "".join(told.text(number) for number, told in enumerate(encounters, 1)) + "END\n"


def summary(objects: int, sums: tuple[int, int, int, int, int, int, int, int], encounters: int, messages: int) -> str:
    """A summary; the sums are those from PARTED to UNDECIDED."""
    words = ("PARTED", "TOUCHING", "ROOTS", "SPLITS", "LEAVES", "FAR", "NEAR", "UNDECIDED")
    counted = "".join(f"{word} {count}\n" for word, count in zip(words, sums))
    return f"OBJECTS {objects}\nPAIRS {objects * (objects - 1) // 2}\n{counted}ENCOUNTERS {encounters}\nMESSAGES {messages}\n"


def certificate(first: int, last: int, objects: int = 3) -> str:
    """A certificate's head and end. Joining reads no more of it."""
    return f"CONJ-CERT 1\nWINDOW {first} {last}\nTHRESHOLD {THRESHOLD}\nOBJECTS {objects}\nEND\n"


def checksum(content: bytes) -> str:
    """The line of `sha256sum` of a certificate."""
    return f"{hashlib.sha256(content).hexdigest()}  screen.cert\n"


def write_part(folder: Path, first: int, last: int, encounters: tuple[Told, ...], sizes: tuple[int, ...] = ()) -> Path:
    """Writes what stands in the folder of a part, with the sums 1 to 8 in its summary."""
    folder.mkdir()
    messages = {f"{number:06}.cdm": told.message(number, first, last) for number, told in enumerate(encounters, 1) if told.has_message}
    cert = certificate(first, last)
    texts = {
        "screen.report": report(first, last, encounters, sizes),
        "screen.out": summary(3, (1, 2, 3, 4, 5, 6, 7, 8), len(encounters), len(messages)),
        "screen.cert": cert,
        "screen.cert.sha256": checksum(cert.encode()),
        "check.out": "ACCEPTED\n",
        **messages,
    }
    for name, text in texts.items():
        (folder / name).write_bytes(text.encode("ascii"))
    return folder


def write_files(folder: Path) -> Path:
    """Writes the ephemerides of the three objects, which rest one kilometre apart from each other along x."""
    folder.mkdir()
    for place, (file, designator, name) in enumerate(OBJECTS):
        rows = [f"{when(seconds)} {7000 + place} 0 0 0 0 0" for seconds in (0, 1800, 3600)]
        (folder / file).write_text(oem(rows, when(0), when(3600), name, designator), "ascii")
    return folder


def write_drifting(folder: Path) -> Path:
    """Writes the ephemerides of SAT A, which rests, and of SAT B, one kilometre from it along x. It moves along y at one millimetre a second,
    which is one nm a tick, and is nearest 60.0005 seconds behind the start. There is a state each minute."""
    folder.mkdir()
    for place, (file, designator, name) in enumerate(OBJECTS[:2]):
        rows = []
        for seconds in (0, 60, 120):
            y = (seconds * 10**6 - 60_000_500) * place
            rows.append(f"{when(seconds)} {7000 + place} {'-' if y < 0 else ''}0.{abs(y):012} 0 0 {place * 1e-6:.6f} 0")
        (folder / file).write_text(oem(rows, when(0), when(120), name, designator), "ascii")
    return folder


def write_resting(path: Path, designator: str, place: int, useable: Sequence[tuple[int, int]]) -> None:
    """Writes an ephemeris of an object at rest so many kilometres along x, with a segment for each of these useable spans of ticks, whose two
    states are a second before and a second behind it."""
    texts: list[str] = []
    for first, last in useable:
        rows = [f"{epoch_text(tick)} {place} 0 0 0 0 0" for tick in (first - 10**6, last + 10**6)]
        more = f"USEABLE_START_TIME = {epoch_text(first)}\nUSEABLE_STOP_TIME = {epoch_text(last)}\n"
        made = segment if texts else oem
        texts.append(made(rows, epoch_text(first - 10**6), epoch_text(last + 10**6), designator, designator, more))
    path.write_text("".join(texts), "ascii")
