"""Tables of a document in Markdown."""

from __future__ import annotations

import re
from pathlib import Path

from conjtools.faults import RunFault

CELL = re.compile(r"(?<!\\)\|")


def section(path: Path, heading: str) -> str:
    """The text between a heading and the next one."""
    try:
        text = path.read_text("utf-8")
    except OSError as error:
        raise RunFault(f"{path}: {error.strerror}") from None
    found = re.search(rf"^#+ {re.escape(heading)}$\n(.*?)(?=^#+ |\Z)", text, re.DOTALL | re.MULTILINE)
    if found is None:
        raise RunFault(f"{path}: no section {heading}")
    return found[1]


def paragraphs(text: str) -> list[str]:
    """The paragraphs of a text that are no table, each in one line."""
    return [" ".join(one.split()) for one in re.split(r"\n\s*\n", text) if one.strip() and not one.strip().startswith("|")]


def rows(text: str) -> list[list[str]]:
    """The cells of the first table of a text, without its head."""
    table = re.search(r"^\|.*\n\|[ :|-]+\|\n((?:\|.*\n)+)", text, re.MULTILINE)
    if table is None:
        raise RunFault("a section of a document has no table")
    return [[cell.strip() for cell in CELL.split(line.strip())[1:-1]] for line in table[1].splitlines()]
