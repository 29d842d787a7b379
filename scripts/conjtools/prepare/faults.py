"""What is refused, and how it is told."""
from __future__ import annotations


class Refused(Exception):
    """An input that is not taken: its file, its line (0 where no line is at fault) and what is wrong."""

    def __init__(self, file: str, line: int, what: str) -> None:
        super().__init__(file, line, what)
        self.file = file
        self.line = line
        self.what = what

    def __str__(self) -> str:
        return f"{self.file}: line {self.line}: {self.what}"


class WrongUsage(Exception):
    """Words of the command line that do not go together."""
