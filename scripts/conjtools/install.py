"""`scripts/install`: the proved program and its manual page in the folders of a system or a user."""

from __future__ import annotations

import os
import shutil
import subprocess
import tempfile
from dataclasses import dataclass
from pathlib import Path

from conjtools.command import Parser, run
from conjtools.faults import RunFault
from conjtools.new_directory import sync_file

ROOT = Path(__file__).resolve().parents[2]
# What the launcher keeps: the proved program, and a line for the sources that it was proved of.
PROGRAM, SOURCES = Path(".conj", "program"), Path(".conj", "sources")
PAGE = Path("docs", "conj.1")
SOURCES_NOW = (Path("scripts", "sources"), "proved")


@dataclass(frozen=True)
class Piece:
    """A file that is installed: where it comes from, its place below the prefix, and its mode."""

    origin: Path
    place: Path
    mode: int


PIECES = (Piece(PROGRAM, Path("bin", "conj"), 0o755), Piece(PAGE, Path("share", "man", "man1", "conj.1"), 0o644))


def main(words: list[str]) -> int:
    """The status of a run of the script."""
    return run("install", lambda: install_as_told(words))


def install_as_told(words: list[str]) -> None:
    """Installs, and tells of each file."""
    parser = Parser(prog="scripts/install", description="Puts the proved program into PREFIX/bin/conj and its manual page into PREFIX/share/man/man1/conj.1.")
    parser.add_argument("prefix", metavar="PREFIX", type=Path, help="as /usr/local, or $HOME/.local; folders that are missing are made")
    prefix: Path = parser.parse_args(words).prefix
    need_proved()
    try:
        install(prefix)
    except OSError as error:
        raise RunFault(f"{error.filename or prefix}: {error.strerror}") from None
    for piece in PIECES:
        print(prefix / piece.place)


def need_proved() -> None:
    """RunFault where the launcher has not proved the sources as they are now."""
    built = ROOT / PROGRAM
    try:
        sources = (ROOT / SOURCES).read_text("ascii")
    except FileNotFoundError:
        sources = ""
    script, kind = SOURCES_NOW
    now = subprocess.run([ROOT / script, kind], stdout=subprocess.PIPE, text=True, check=True).stdout
    if not built.is_file() or sources != now:
        why = "is of other sources than these" if sources and built.is_file() else "is not there"
        raise RunFault(f"the proved program {why}: {ROOT / 'conj'} --version proves and builds it")


def install(prefix: Path) -> None:
    """Puts each file beside its place, and when all are there renames them. OSError where the system refuses."""
    parts: list[tuple[Path, Path]] = []
    try:
        for piece in PIECES:
            place = prefix / piece.place
            place.parent.mkdir(parents=True, exist_ok=True)
            if place.is_dir():
                raise RunFault(f"{place}: is a directory")
            parts.append((part_of(piece, place), place))
        for part, place in parts:
            os.replace(part, place)
    finally:
        for part, _ in parts:
            part.unlink(missing_ok=True)


def part_of(piece: Piece, place: Path) -> Path:
    """The file of a piece, whole and on the disk, beside its place."""
    number, name = tempfile.mkstemp(prefix=f".{place.name}.", dir=place.parent)
    part = Path(name)
    try:
        with open(number, "wb") as file, (ROOT / piece.origin).open("rb") as origin:
            shutil.copyfileobj(origin, file)
        part.chmod(piece.mode)
        sync_file(part)
    except BaseException:
        part.unlink()
        raise
    return part
