"""The programs' crates as crates.txt lists them, and about how much of a proof each is."""

from __future__ import annotations

from collections.abc import Iterable, Mapping
from pathlib import Path

# Of each crate the libraries that it names.
Crates = Mapping[str, tuple[str, ...]]

# What a crate is made of, and the first of these, its code, which each crate above it reads too.
CODE = "src"
FOLDERS = (CODE, "specs", "proofs")
# To read a line of code of a crate below costs about a tenth of what it costs to prove a line.
READING = 0.1


def read_crates(root: Path) -> Crates:
    """The programs and the crates that they stand on. Tests stand in crates of their own, on which none stands."""
    lines = [line.partition("#")[0].strip() for line in (root / "crates.txt").read_text(encoding="utf-8").splitlines()]
    named = {name.strip(): libraries.split() for name, _, libraries in (line.partition(":") for line in lines if line)}
    wanted = [name for name in named if is_program(root, name)]
    for name in wanted:
        wanted += [library for library in named[name] if library in named and library not in wanted]
    return {name: tuple(named[name]) for name in wanted}


def is_program(root: Path, name: str) -> bool:
    """Whether a crate is a program."""
    return (root / "crates" / name / CODE / "main.rt").is_file()


def all_below(crates: Crates, name: str) -> set[str]:
    """The crates of these on which one stands, near and far."""
    found: set[str] = set()
    left = list(crates[name])
    while left:
        library = left.pop()
        if library in crates and library not in found:
            found.add(library)
            left += crates[library]
    return found


def weights(root: Path, crates: Crates) -> dict[str, float]:
    """About how much work each crate is, in lines: of its code, its definitions and its proofs, and of what it reads of the crates below."""
    lines = {name: {folder: lines_below(root / "crates" / name / folder) for folder in FOLDERS} for name in crates}
    return {name: sum(lines[name].values()) + READING * sum(lines[below][CODE] for below in all_below(crates, name)) for name in crates}


def lines_below(folder: Path) -> int:
    """How many lines the files of a folder have."""
    return sum(path.read_bytes().count(b"\n") for path in files_below(folder))


def files_below(folder: Path) -> Iterable[Path]:
    """The files of a folder and of those in it."""
    return (path for path in folder.rglob("*") if path.is_file())
