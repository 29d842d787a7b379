"""Why a script ends: a refused input, or a fault of another kind, each with its exit status."""

from __future__ import annotations

from dataclasses import dataclass


@dataclass(eq=False)
class InputFault(Exception):
    """An input is refused: the file by its name, the number of its line (0: the file as a whole), and the cause."""

    file: str
    line: int
    cause: str

    def __str__(self) -> str:
        return f"{self.file}: line {self.line}: {self.cause}"


class UsageFault(Exception):
    """The words of the command line ask for what cannot be."""


class RunFault(Exception):
    """The script cannot do what was asked, though its words and inputs are good."""
