"""Runs a program over hostile loads, and holds for each how it ends and what it costs."""

from __future__ import annotations

import os
import random
import resource
import shutil
import subprocess
import sys
import tempfile
import traceback
from collections.abc import Callable
from dataclasses import dataclass
from pathlib import Path

from conjtools.loads.table import IDLE, LOADS, MIB, Bound, Due, Load, Maker, Run

# Seconds of processor time that reading is taken to need at least: what is tiny is read in no time.
LEAST_READING = 0.2
# Processor time and memory with more workers, as a multiple of those with one, and the memory that each of them may stand in.
MORE_WORKERS = 2
WORKER = 4 * MIB
# A run may have this many times its bound of time before it is ended, and this much room of addresses.
PATIENCE = 2
ADDRESSES = 12 << 30
# Seconds on the clock after which a run that waits for something is ended.
LONGEST_WAIT = 600
RUN_ALONE = Path(__file__).with_name("run_alone.py")


@dataclass(frozen=True)
class Spent:
    """How a run ended, and the processor time in seconds and the most memory in bytes that it took."""

    status: int
    output: bytes
    error: bytes
    seconds: float
    memory: int


def spent(words: list[str], most_seconds: float | None = None) -> Spent:
    """Runs a command; one that takes far more processor time than it may is ended by a signal."""
    most = 0 if most_seconds is None else int(most_seconds) + 1
    told, telling = os.pipe()
    with open(told, "rb") as told_file, tempfile.TemporaryFile() as output, tempfile.TemporaryFile() as error:
        limits = [str(number) for number in (telling, ADDRESSES, LONGEST_WAIT, most)]
        runner = [sys.executable, "-I", "-S", str(RUN_ALONE), *limits, *words]
        try:
            subprocess.run(runner, stdin=subprocess.DEVNULL, stdout=output, stderr=error, pass_fds=(telling,), check=True)
        finally:
            os.close(telling)
        status, seconds, memory = told_file.read().split()
        output.seek(0)
        error.seek(0)
        return Spent(int(status), output.read(1 << 16), error.read(1 << 16), float(seconds), int(memory))


def made_apart(make: Maker, folder: Path, seed: int, size: int) -> None:
    """Makes a load in a process of its own, which gives its memory back when it ends."""
    child = os.fork()
    if child == 0:
        status = 1
        try:
            make(folder, seed, size)
            status = 0
        except BaseException:
            traceback.print_exc()
        finally:
            os._exit(status)
    _, state = os.waitpid(child, 0)
    if state:
        raise RuntimeError(f"{make.__name__} of seed {seed} and size {size} could not be made")


def reading(folder: Path) -> float:
    """Processor seconds in which `cat` reads all files of a folder."""
    words = ["find", str(folder), "-type", "f", "-exec", "cat", "{}", "+"]
    times = []
    for _ in range(2):
        before = resource.getrusage(resource.RUSAGE_CHILDREN)
        subprocess.run(words, stdout=subprocess.DEVNULL, check=True)
        after = resource.getrusage(resource.RUSAGE_CHILDREN)
        times.append(after.ru_utime + after.ru_stime - before.ru_utime - before.ru_stime)
    return max(min(times), LEAST_READING)


def file_sizes(folder: Path) -> dict[str, int]:
    return {entry.name: entry.stat().st_size for entry in os.scandir(folder)}


def has_line(folder: Path, output: bytes, line: str) -> bool:
    """Whether a line stands on standard output, or else in the certificate."""
    wanted = line.encode("ascii") + b"\n"
    if (b"\n" + output).find(b"\n" + wanted) >= 0:
        return True
    certificate = folder / "screen.cert"
    if not certificate.exists():
        return False
    with open(certificate, "rb") as lines:
        return any(found == wanted for found in lines)


def ending_faults(folder: Path, due: Due, run: Spent) -> list[str]:
    """What is not as it is due at the end of a run."""
    if run.status != due.status:
        return [f"status {run.status} in place of {due.status}, with {run.error[:200]!r} on standard error"]
    faults = []
    if run.error != due.error.encode("ascii"):
        faults.append(f"{run.error[:200]!r} on standard error in place of {due.error!r}")
    faults += [f"no line {line!r} in {run.output[:300]!r}" for line in due.lines if not has_line(folder, run.output, line)]
    return faults


@dataclass(frozen=True)
class Allowed:
    """The bounds of a load at its size: seconds, bytes of memory, and bytes that are written, if they are bounded."""

    seconds: float
    memory: int
    written: int | None


def allowed(bound: Bound, base: float, largest: int, size: int) -> Allowed:
    memory = IDLE + int(bound.files * largest) + bound.kept(size)
    return Allowed(bound.multiple * base, memory, None if bound.written is None else bound.written(size))


def cost_faults(bounds: Allowed, run: Spent, base: float, written: int) -> list[str]:
    """Which bounds a run does not keep, with figures."""
    faults = []
    if run.seconds > bounds.seconds:
        ended = ", when it was ended" if run.status < 0 else ""
        faults.append(f"{run.seconds:.2f} s, {run.seconds / base:.0f} times reading, bound {bounds.seconds / base:.0f}{ended}")
    if run.memory > bounds.memory:
        faults.append(f"{run.memory / MIB:.0f} MiB of memory, bound {bounds.memory / MIB:.0f}")
    if bounds.written is not None and written > bounds.written:
        faults.append(f"{written:,} bytes written, bound {bounds.written:,}")
    return faults


def worker_faults(alone: Spent, run: Spent, workers: int) -> list[str]:
    """What a run with several workers took beyond twice what it took with one."""
    faults = []
    if run.seconds > MORE_WORKERS * alone.seconds + LEAST_READING:
        faults.append(f"{run.seconds:.2f} s of processor time in place of {alone.seconds:.2f} with one worker, bound {MORE_WORKERS} times")
    if run.memory > MORE_WORKERS * alone.memory + IDLE + workers * WORKER:
        faults.append(f"{run.memory / MIB:.0f} MiB of memory in place of {alone.memory / MIB:.0f} with one worker, bound {MORE_WORKERS} times")
    return faults


@dataclass
class Held:
    """What was measured of a load: the dearest of its runs, and what was not held."""

    seconds: float
    memory: int
    by_workers: list[str]
    faults: list[str]


def hold_run(program: str, folder: Path, load: Load, run: Run, size: int, base: float, held: Held) -> None:
    """One command over a made folder, by each number of workers that it is compared with."""
    made = file_sizes(folder)
    bounds = allowed(load.bound, base, max(made.values()), size)
    due = run.due(folder, size)
    alone: Spent | None = None
    for workers in run.workers or (None,):
        words = [program, run.command, str(folder), *run.options, *(() if workers is None else ("--workers", str(workers)))]
        most = bounds.seconds if alone is None else min(bounds.seconds, MORE_WORKERS * alone.seconds + LEAST_READING)
        ended = spent(words, PATIENCE * most)
        now = file_sizes(folder)
        told = f"{' '.join([run.command, *words[3:]])}: "
        faults = [] if ended.status < 0 else ending_faults(folder, due, ended)
        faults += cost_faults(bounds, ended, base, sum(now[name] for name in now.keys() - made.keys()))
        if alone is not None and workers is not None:
            faults += worker_faults(alone, ended, workers)
        if ended.status < 0 and not faults:
            faults.append(f"it ended by signal {-ended.status} after {ended.seconds:.2f} s of processor time")
        held.faults += [told + fault for fault in faults]
        held.seconds, held.memory = max(held.seconds, ended.seconds), max(held.memory, ended.memory)
        if workers is not None:
            held.by_workers.append(f"{workers}: {ended.seconds:.2f} s {ended.memory / MIB:.0f} MiB")
            alone = alone or ended
        for name in now.keys() - made.keys():
            (folder / name).unlink()


def hold_load(program: str, load: Load, seed: int, ground: Path, told: Callable[[str], None]) -> bool:
    """Makes a load at a size drawn from the seed, from a quarter of the greatest on, and holds its runs; gives whether all was held."""
    draw = random.Random(f"{seed} {load.name}")
    size = draw.randrange(max(load.greatest // 4, 2), load.greatest + 1)
    folder = ground / load.name
    folder.mkdir()
    try:
        made_apart(load.make, folder, draw.randrange(1 << 32), size)
        count, base = sum(file_sizes(folder).values()), reading(folder)
        held = Held(0.0, 0, [], [])
        for run in load.runs:
            hold_run(program, folder, load, run, size, base, held)
    finally:
        shutil.rmtree(folder)
    workers = f"; by workers {', '.join(held.by_workers)}" if held.by_workers else ""
    told(f"{load.name}: {count:,} bytes, {held.seconds:.2f} s, {held.seconds / base:.1f} times reading, {held.memory / MIB:.0f} MiB{workers}")
    for fault in held.faults:
        told(f"  {load.name} of size {size:,}: {fault}")
    return not held.faults


def load_names() -> set[str]:
    return {load.name for load in LOADS}


def run_loads(program: str, seed: int, ground: Path, told: Callable[[str], None], names: tuple[str, ...] = ()) -> int:
    """All loads, or those with the names, one after another; gives how many did not hold."""
    return sum(not hold_load(program, load, seed, ground, told) for load in LOADS if not names or load.name in names)
