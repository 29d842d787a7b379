"""`scripts/manual`: writes the manual page."""

from __future__ import annotations

from pathlib import Path

from conjtools.command import Parser, run
from conjtools.manual.page import PAGE, page
from conjtools.output import write_all

ROOT = Path(__file__).resolve().parents[3]


def main(words: list[str]) -> int:
    """The status of a run of the script."""
    return run("manual", lambda: write(words))


def write(words: list[str]) -> None:
    """Writes the page of this checkout."""
    Parser(prog="scripts/manual", description=f"Makes {PAGE} of what conj --help prints and of docs/FORMATS.md.").parse_args(words)
    write_all({ROOT / PAGE: page(ROOT)})
