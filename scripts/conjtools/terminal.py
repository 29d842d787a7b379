"""Runs of a program with standard error at a terminal, and in what they may differ from the same runs without one."""

from __future__ import annotations

import os
import pty
import re
import select
import subprocess
import tempfile
import termios
import time
from collections.abc import Iterator, Sequence
from dataclasses import dataclass

# What a terminal is given: a line that says how far a run has come, in place of the last one; nothing in its place; and lines that stay.
SHOWN = re.compile(rb"\r\x1b\[\?7l(?P<passing>[^\r\n\x1b]*)\x1b\[K\x1b\[\?7h|(?P<wiped>\r\x1b\[K)|(?P<line>[^\r\n]*\n)")
TOLD = re.compile(rb"^(?:conj: warning|hint): .*\n", re.MULTILINE)
WARNED = re.compile(rb"^conj: warning: .*\n", re.MULTILINE)
REFUSED = re.compile(rb"conj: (?P<file>[^\n]+?): line \d+: [A-Z][A-Za-z]*(?: [A-Z][A-Za-z]*){0,2}\n")
# An object that does not cover the window is told alone.
UNCOVERED = re.compile(rb"conj: [^\n]+: line 0: Uncovered [-0-9T:.]+\n")
REFUSING_STATUS = 3
# The words that ask for more to be told, and the commands that take them.
TELLING = ("--warnings", "--all-faults")
TELLING_COMMANDS = ("screen", "rescreen", "check", "rewrite")


@dataclass(frozen=True)
class Ended:
    """How a run ended: its status, and what it wrote to standard output and to standard error."""

    status: int
    output: bytes
    error: bytes


@dataclass(frozen=True)
class Shown:
    """What a terminal was given: the lines that stay, and those that said how far the run had come."""

    lines: bytes
    passing: tuple[bytes, ...]


def run_at_terminal(words: Sequence[str], seconds: float) -> Ended:
    """Runs a program whose standard error is a terminal. One that lasts longer is killed, which is a TimeoutExpired."""
    ours, theirs = pty.openpty()
    with tempfile.TemporaryFile() as output, open(ours, "rb", buffering=0) as terminal:
        try:
            leave_line_ends(theirs)
            process = subprocess.Popen(words, stdin=subprocess.DEVNULL, stdout=output, stderr=theirs)
        finally:
            os.close(theirs)
        with process:
            try:
                error = b"".join(given_to(terminal.fileno(), time.monotonic() + seconds))
                status = process.wait(seconds)
            except subprocess.TimeoutExpired:
                process.kill()
                raise
        output.seek(0)
        return Ended(status, output.read(), error)


def leave_line_ends(terminal: int) -> None:
    """Has a terminal give the bytes that are written as they are."""
    modes = termios.tcgetattr(terminal)
    modes[1] &= ~termios.OPOST
    termios.tcsetattr(terminal, termios.TCSANOW, modes)


def given_to(terminal: int, deadline: float) -> Iterator[bytes]:
    """What is written to a terminal until nobody has it open."""
    while True:
        left = deadline - time.monotonic()
        if left <= 0 or not select.select([terminal], [], [], left)[0]:
            raise subprocess.TimeoutExpired("a run at a terminal", left)
        try:
            yield os.read(terminal, 1 << 16)
        except OSError:
            return


def read_shown(given: bytes) -> Shown:
    """What a terminal was given; a ValueError where a line that passes is not taken away before another one."""
    lines: list[bytes] = []
    passing: list[bytes] = []
    stands = False
    at = 0
    while at < len(given):
        piece = SHOWN.match(given, at)
        if piece is None:
            raise ValueError(f"a terminal cannot show {given[at : at + 100]!r}")
        at = piece.end()
        if piece["line"] is not None:
            if stands:
                raise ValueError(f"{piece['line']!r} is written behind {passing[-1]!r}")
            lines.append(piece["line"])
        elif piece["passing"] is not None:
            passing.append(piece["passing"])
        stands = piece["passing"] is not None
    if stands:
        raise ValueError(f"{passing[-1]!r} is left")
    return Shown(b"".join(lines), tuple(passing))


def differences_at_terminal(plain: Ended, told: Ended) -> list[str]:
    """In what a run at a terminal is not the same run without one, but for lines that warn, that help and that pass."""
    try:
        lines = read_shown(told.error).lines
    except ValueError as wrong:
        return [str(wrong)]
    return different(plain, told, TOLD.sub(b"", lines))


def differences_with_words(plain: Ended, told: Ended) -> list[str]:
    """In what a run with the words that ask for more is not the same run without them, but for lines that warn and that refuse other files."""
    error = WARNED.sub(b"", told.error)
    if plain.status != REFUSING_STATUS or UNCOVERED.fullmatch(plain.error):
        return different(plain, told, error)
    files = [line["file"] for line in REFUSED.finditer(error)]
    if len(set(files)) != len(files) or REFUSED.sub(b"", error):
        return [f"standard error has {error[:300]!r}"]
    return different(plain, told, error[: len(plain.error)])


def different(plain: Ended, told: Ended, error: bytes) -> list[str]:
    """In what a run differs from another, with this in place of what it wrote to standard error."""
    found = []
    if told.status != plain.status:
        found.append(f"status {told.status} in place of {plain.status}")
    if told.output != plain.output:
        found.append(f"standard output has {told.output[:100]!r} in place of {plain.output[:100]!r}")
    if error != plain.error:
        found.append(f"standard error has {error[:300]!r} in place of {plain.error[:300]!r}")
    return found
