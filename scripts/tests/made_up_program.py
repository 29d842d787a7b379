#!/usr/bin/python3
"""Stands in for `conj` where the workflow is tested and not the program: it reads the same folders by the same words, finds no encounter,
and its certificate says of each object what it is in the window, by which its check decides. Its reports tell what objects cover, and which are
primaries, where they are asked to, and a check has to be asked for the same. It has a fault where a file asks for one.

`FAULTS` names a folder. A file `COMMAND-FIRST` in it, as `screen-2025-01-01T00:10:00.000000`, has the fault of the run with this window:
the signal by which it ends, or text that it says as it ends with status 5. The file is taken away, so that the next run is well.
"""

from __future__ import annotations

import os
import re
import signal
import sys
from dataclasses import replace
from pathlib import Path

sys.path.insert(0, str(Path(__file__).resolve().parents[1]))

from conjtools.epochs import EpochFault, epoch_text, read_epoch  # noqa: E402
from conjtools.report import Report, ReportObject, Window  # noqa: E402
from tests.made_up_covering import covered, left_out, useable  # noqa: E402

COUNTS = ("PARTED", "TOUCHING", "ROOTS", "SPLITS", "LEAVES", "FAR", "NEAR", "UNDECIDED", "ENCOUNTERS", "MESSAGES")
MINUTE = 60_000_000


def read_file(path: Path) -> tuple[ReportObject, list[tuple[int, str]]]:
    """An object, and its rows by their ticks; status 3 where a row is none."""
    text = path.read_text("ascii")
    if "CENTER_NAME = EARTH" not in text:
        refuse(f"{path.name}: line 7: Center")
    names = dict(re.findall(r"^(OBJECT_NAME|OBJECT_ID) = (.*)$", text, re.MULTILINE))
    rows: list[tuple[int, str]] = []
    for number, line in enumerate(text.splitlines(), 1):
        if line and "=" not in line and "_ST" not in line and not line.startswith("COMMENT"):
            try:
                rows.append((read_epoch(line.split()[0]), line))
            except EpochFault as wrong:
                refuse(f"{path.name}: line {number}: Epoch {wrong.cause.value}")
    return ReportObject(path.name, names["OBJECT_ID"], names["OBJECT_NAME"]), rows


def refuse(what: str) -> None:
    """Ends as where a file is refused."""
    print(f"conj: {what}", file=sys.stderr)
    sys.exit(3)


def certificate(window: Window, rows: list[list[tuple[int, str]]]) -> str:
    """A certificate of the window: its head, and of each object the rows from a minute before the window to a minute behind it."""
    head = f"CONJ-CERT 1\nWINDOW {window.first} {window.last}\nTHRESHOLD {5 * 10**12}\nOBJECTS {len(rows)}\n"
    states = (line for one in rows for at, line in one if window.first - MINUTE <= at <= window.last + MINUTE)
    return head + "".join(f"STATE {line}\n" for line in states) + "END\n"


def spans_of(path: Path, window: Window) -> tuple[tuple[int, int], ...]:
    """The covered spans of the object of a file."""
    return tuple(covered(useable(path.read_text("ascii")), window.first, window.last))


def with_primaries(objects: tuple[ReportObject, ...], file: str, names: list[str]) -> tuple[ReportObject, ...]:
    """The objects, those that a file names as primaries."""
    known = {one.designator for one in objects}
    for number, name in enumerate(names, 1):
        if name not in known:
            refuse(f"{file}: line {number}: Primaries Unknown")
    return tuple(replace(one, primary=one.designator in names) for one in objects)


def pairs_told(objects: tuple[ReportObject, ...]) -> int:
    """How many pairs are looked at: all, or where some objects are primaries those with one of them."""
    count, others = len(objects), sum(not one.primary for one in objects)
    return (count * (count - 1) - (others * (others - 1) if others < count else 0)) // 2


def fault(command: str, window: Window) -> None:
    """Ends as the folder of faults asks."""
    path = Path(os.environ.get("FAULTS", "/nowhere")) / f"{command}-{epoch_text(window.first)}"
    if not path.exists() or window.first == window.last:
        return
    told = path.read_text("ascii")
    path.unlink()
    if told.isdecimal():
        os.kill(os.getpid(), signal.Signals(int(told)))
    print(told, file=sys.stderr)
    sys.exit(5)


def main(words: list[str]) -> int:
    """Screens or checks."""
    command, folder, *rest = words
    options = dict(word[2:].partition("=")[::2] for word in rest)
    window = Window(read_epoch(options["from"]), read_epoch(options["to"]))
    files = [read_file(path) for path in sorted(Path(folder).glob("*.oem")) if path.name != options.get("primaries")]
    fault(command, window)
    text = certificate(window, [rows for _, rows in files])
    objects = tuple(one for one, _ in files)
    if "primaries" in options:
        objects = with_primaries(objects, options["primaries"], (Path(folder) / options["primaries"]).read_text("ascii").splitlines())
    if "coverage" in options:
        objects = tuple(replace(one, covered=spans_of(Path(folder) / one.file, window)) for one in objects)
    report = Report(window, 5 * 10**12, objects, ()).text()
    if command == "check":
        place = Path(options["cert-dir"])
        if (place / "screen.cert").read_text("ascii") != text or (place / options["report"]).read_text("ascii") != report:
            print("conj: not accepted: line 5: ShellOf", file=sys.stderr)
            return 1
        print("ACCEPTED")
        return 0
    out = Path(options["out"])
    out.mkdir()
    (out / "screen.report").write_text(report, "ascii")
    (out / "screen.cert").write_text(text, "ascii")
    print(f"OBJECTS {len(files)}\nPAIRS {pairs_told(objects)}\n" + "".join(f"{word} 0\n" for word in COUNTS), end="")
    if "coverage" in options:
        print(f"UNCOVERED {sum(bool(left_out(list(one.covered or ()), window.first, window.last)) for one in objects)}")
    return 0


if __name__ == "__main__":
    sys.exit(main(sys.argv[1:]))
