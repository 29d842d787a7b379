"""Processes that a trial starts and ends. Each is known by its number and the time at which it began, so that no other is ever ended."""

from __future__ import annotations

import contextlib
import os
import secrets
import signal
import subprocess
import time
from collections.abc import Callable, Mapping, Sequence
from dataclasses import dataclass
from pathlib import Path

from conjtools.faults import RunFault

PID_SUFFIX = ".pid"
# All that a trial starts has this word of the environment, with the trial's own token behind it, and so has what is started from there.
WORD = "CONJ_TRIAL"
TOKEN_BYTES = 16
TOKEN_FILE = "token"
PATIENCE_SECONDS = 10.0
# What this process started itself, by numbers.
STARTED: dict[int, subprocess.Popen[bytes]] = {}
PARENT_FIELD, START_FIELD = 1, 19  # of /proc/PID/stat behind the name in parentheses, counted from 0


@dataclass(frozen=True)
class Process:
    """A process: its number and the time at which it began, as the system counts it."""

    pid: int
    begun: str

    def runs(self) -> bool:
        """Whether it still runs."""
        return begun_at(self.pid) == self.begun


def stat_of(pid: int) -> tuple[str, list[str]]:
    """The name of a process and the fields behind it; OSError where there is none."""
    front, _, behind = Path(f"/proc/{pid}/stat").read_text("ascii", "replace").rpartition(")")
    return front.partition("(")[2], behind.split()


def begun_at(pid: int) -> str | None:
    """When a process began, as the system counts it, or nothing where there is none that still runs."""
    try:
        fields = stat_of(pid)[1]
    except OSError:
        return None
    return None if fields[0] in "ZX" else fields[START_FIELD]


def up_to(pid: int, name: str) -> list[Process]:
    """A process and those from which it descends, up to the one of a name, which is not among them, or to the first of the system."""
    found: list[Process] = []
    with contextlib.suppress(OSError):
        while pid > 1:
            told, fields = stat_of(pid)
            if told == name:
                break
            found.append(Process(pid, fields[START_FIELD]))
            pid = int(fields[PARENT_FIELD])
    return found


def token_of(folder: Path) -> str:
    """The token of the trial in a folder, which is made where there is none."""
    path = folder / TOKEN_FILE
    if not path.exists():
        path.write_text(secrets.token_hex(TOKEN_BYTES), "ascii")
    return path.read_text("ascii")


def end_strays(token: str) -> None:
    """Kills what has the token of a trial and still runs, as jobs do whose daemon was killed."""
    wanted = f"{WORD}={token}".encode("ascii")
    for path in Path("/proc").glob("[0-9]*/environ"):
        with contextlib.suppress(OSError):
            if wanted in path.read_bytes().split(b"\0") and int(path.parent.name) != os.getpid():
                os.kill(int(path.parent.name), signal.SIGKILL)


def start(name: str, words: Sequence[str], folder: Path, environment: Mapping[str, str]) -> int:
    """Starts a process in a session of its own, with what it says in NAME.log and its number and beginning in NAME.pid."""
    with (folder / f"{name}.log").open("ab") as log:
        process = subprocess.Popen(words, stdin=subprocess.DEVNULL, stdout=log, stderr=log, start_new_session=True, env=dict(environment))
    STARTED[process.pid] = process
    (folder / f"{name}{PID_SUFFIX}").write_text(f"{process.pid} {begun_at(process.pid)}\n", "ascii")
    return process.pid


def send(path: Path, how: signal.Signals) -> None:
    """Sends a signal to the process of a file NAME.pid; RunFault where it does not run."""
    number, begun = path.read_text("ascii").split()
    if not Process(int(number), begun).runs():
        raise RunFault(f"{path}: it does not run any more")
    os.kill(int(number), how)


def end(path: Path) -> None:
    """Ends the process of a file NAME.pid, if it still runs, and takes the file away."""
    with contextlib.suppress(OSError, ValueError, subprocess.TimeoutExpired):
        number, begun = path.read_text("ascii").split()
        pid = int(number)
        for how in (signal.SIGTERM, signal.SIGKILL):
            if begun_at(pid) != begun:
                break
            os.kill(pid, how)
            wait_until(lambda: begun_at(pid) != begun, PATIENCE_SECONDS)
        if begun_at(pid) is None and pid in STARTED:
            STARTED.pop(pid).wait(PATIENCE_SECONDS)
    path.unlink(missing_ok=True)


def end_all(folder: Path) -> None:
    """Ends all that was started in a folder, the last first."""
    for path in sorted(folder.glob(f"*{PID_SUFFIX}"), key=lambda path: path.stat().st_mtime_ns, reverse=True):
        end(path)


def wait_until(holds: Callable[[], bool], seconds: float) -> bool:
    """Whether something holds within so many seconds."""
    stop = time.monotonic() + seconds
    while not holds():
        if time.monotonic() > stop:
            return False
        time.sleep(0.05)
    return True
