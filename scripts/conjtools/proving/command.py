"""`scripts/prove`: the gate over a copy of the programs' crates, told crate by crate."""

from __future__ import annotations

import os
import re
import shutil
import subprocess
import sys
import tempfile
import time
from pathlib import Path

from conjtools.proving.crates import Crates, is_program, read_crates, weights
from conjtools.proving.forecast import Forecast, told

ROOT = Path(__file__).resolve().parents[3]
USAGE = """Proves the programs and the crates that they stand on, and builds the programs.

    scripts/prove

It runs the gate (`rt ci`) over a copy of the programs' crates without their edits: edits and the crates of tests take most of the gate's
time and are no part of a program. The gate proves each crate from nothing, as many at a time as there are processors and as memory holds, that one first
behind which most waits, and takes over what an earlier run on this machine has proved of the same files, where the kit keeps it. Then it builds each
program.
The copy stands in the folder for temporary files (TMPDIR).

Each crate that is done is told by a line `done: NAME is proved, K of N crates`, among all that the gate says, with about how many minutes the rest takes
when enough is proved to tell. It ends with status 0 where all are proved and built, else with the gate's.
"""

# What is no part of a program.
LEFT_OUT = shutil.ignore_patterns("out", "must-fail")
# What the gate says of a crate that is proved, was proved by an earlier run, or is not proved.
SAID = re.compile(rb"rt: (\w+) (?:(?P<proved>proved$)|(?P<kept>is kept:)|(?P<failed>NOT PROVED))")


def main(words: list[str]) -> int:
    """The status of a run of the script."""
    if words:
        print(USAGE, file=sys.stderr)
        return 1
    crates = read_crates(ROOT)
    with tempfile.TemporaryDirectory(prefix="conj-proofs-") as place:
        folder = Path(place)
        copy_sources(crates, folder)
        status = run_gate(crates, folder)
        if status == 0:
            for name in crates:
                if is_program(ROOT, name):
                    bring_program(name, folder)
        return status


def copy_sources(crates: Crates, folder: Path) -> None:
    """Copies what the gate reads."""
    shutil.copy(ROOT / "HANDLES", folder)
    (folder / "crates.txt").write_text("".join(f"{name}: {' '.join(libraries)}\n" for name, libraries in crates.items()), encoding="utf-8")
    for name in crates:
        shutil.copytree(ROOT / "crates" / name, folder / "crates" / name, ignore=LEFT_OUT)
    # The gate wants to stand at the top of a repository.
    (folder / ".git").mkdir()


def run_gate(crates: Crates, folder: Path) -> int:
    """Passes on what the gate says, and tells of each crate that is done. The gate's status."""
    forecast = Forecast(crates, weights(folder, crates), len(os.sched_getaffinity(0)))
    begun, fails = time.monotonic(), False
    with subprocess.Popen(["rt", "ci"], cwd=folder, stdin=subprocess.DEVNULL, stdout=subprocess.PIPE, stderr=subprocess.STDOUT) as gate:
        assert gate.stdout is not None
        for line in gate.stdout:
            sys.stdout.buffer.write(line)
            if said := SAID.match(line):
                fails = fails or said["failed"] is not None
                if done := note(forecast, said):
                    left = None if fails else forecast.seconds_left(time.monotonic() - begun)
                    sys.stdout.buffer.write(done_line(forecast, done, left).encode())
            sys.stdout.flush()
    return gate.returncode


def note(forecast: Forecast, said: re.Match[bytes]) -> str:
    """Notes what the gate says of a crate, and what is told of one that is done: that it is proved, or was."""
    name = said[1].decode()
    if name not in forecast.crates or said["failed"]:
        return ""
    if said["proved"]:
        forecast.proved.add(name)
        return f"{name} is proved"
    forecast.kept.add(name)
    return f"{name} was proved before"


def done_line(forecast: Forecast, done: str, left: float | None) -> str:
    """The line that tells of a crate that is done, with so many seconds left."""
    rest = f", {told(left)}" if left is not None and forecast.done < len(forecast.crates) else ""
    return f"done: {done}, {forecast.done} of {len(forecast.crates)} crates{rest}\n"


def bring_program(name: str, folder: Path) -> None:
    """Puts a program where the gate at the top of the checkout builds it, whole at any time."""
    program = Path("crates", name, "out", name)
    place = ROOT / program
    place.parent.mkdir(exist_ok=True)
    part = place.with_name(f".{name}.{os.getpid()}.part")
    try:
        shutil.copy(folder / program, part)
        os.replace(part, place)
    finally:
        part.unlink(missing_ok=True)
