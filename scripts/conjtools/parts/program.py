"""The program that screens and checks: how it is started, and which it is."""

from __future__ import annotations

import hashlib
import os
import shutil
import socket
import subprocess
from collections.abc import Sequence
from pathlib import Path

from conjtools.faults import RunFault

# The launcher of a checkout, beside which this stands, starts the program that it has built, or the one without proof where that is set.
LISTING = "crates.txt"
BUILT, BUILT_UNPROVED = Path(".conj", "program"), Path(".conj", "unproved", "program")
UNPROVED = "CONJ_UNPROVED"
SIGNAL_STATUS = 128


def node_name() -> str:
    """The machine that this runs on, by the name that Slurm gives it where it does."""
    return os.environ.get("SLURMD_NODENAME") or socket.gethostname()


def checksum_of(path: Path) -> str:
    """The SHA-256 of a file in hexadecimal digits."""
    with path.open("rb") as file:
        return hashlib.file_digest(file, "sha256").hexdigest()


def program_checksum(program: str) -> str:
    """The checksums of what is started: a file, and where it is the launcher of a checkout the program that this starts."""
    found = shutil.which(program)
    if found is None:
        raise RunFault(f"{program}: no such program")
    path = Path(found).resolve()
    built = path.parent / (BUILT if os.environ.get(UNPROVED, "0") == "0" else BUILT_UNPROVED)
    if (path.parent / LISTING).exists() and not built.exists():
        raise RunFault(f"{program}: not built yet, and each part would build it: run {program} --version once")
    try:
        return " ".join(checksum_of(one) for one in (path, built) if one.exists())
    except OSError as error:
        raise RunFault(f"{error.filename}: {error.strerror}") from None


def run_program(words: Sequence[str], out: Path, errors: Path) -> int:
    """Runs the program with its standard output and its standard errors in two files, and gives its status; 128 and its number for a
    signal. A limit of a file's size is told to the program by the write that fails, as its launcher has it."""
    try:
        with out.open("wb") as said, errors.open("wb") as faults:
            status = subprocess.run(words, stdin=subprocess.DEVNULL, stdout=said, stderr=faults, restore_signals=False).returncode
    except OSError as error:
        raise RunFault(f"{error.filename or words[0]}: {error.strerror}") from None
    return status if status >= 0 else SIGNAL_STATUS - status


def told_by(words: Sequence[str], status: int, errors: Path) -> str:
    """One line that says how a run of the program failed, by what it said."""
    try:
        lines = errors.read_text("ascii", "replace").splitlines()
    except OSError:
        lines = []
    return f"{Path(words[0]).name} {words[1]} ended with status {status}" + "".join(f": {line}" for line in lines[-2:])
