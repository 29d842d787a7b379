"""What the scripts have in common as commands: words, and how a fault is told and which exit status it has."""

from __future__ import annotations

import argparse
import sys
from collections.abc import Callable
from pathlib import Path
from typing import NoReturn

from conjtools.faults import InputFault, RunFault, UsageFault
from conjtools.progress import clear_line

STATUS_RUN, STATUS_USAGE, STATUS_INPUT = 1, 2, 3


class Parser(argparse.ArgumentParser):
    """A parser whose faults are one line."""

    def error(self, message: str) -> NoReturn:
        raise UsageFault(message)


def read_file(path: Path, named: str, line: int = 0) -> bytes:
    """The bytes of a file; where it cannot be read, InputFault at the line that names it."""
    try:
        return path.read_bytes()
    except OSError as error:
        raise InputFault(named, line, f"{path}: {error.strerror}") from None


def run(name: str, action: Callable[[], None]) -> int:
    """Does what a script is asked, and gives its exit status; a fault is told in one line."""
    try:
        action()
    except UsageFault as fault:
        return failed(name, fault, STATUS_USAGE)
    except InputFault as fault:
        return failed(name, fault, STATUS_INPUT)
    except RunFault as fault:
        return failed(name, fault, STATUS_RUN)
    except MemoryError:
        return failed(name, "out of memory", STATUS_RUN)
    except KeyboardInterrupt:
        return failed(name, "stopped", STATUS_RUN)
    return 0


def failed(name: str, fault: object, status: int) -> int:
    """Tells a fault in one line."""
    clear_line()
    print(f"{name}: {fault}", file=sys.stderr)
    return status
