"""Whether the files of a folder stayed as they are while something ran.

A stamp is what the system says of a file: its size, when its bytes and when its entry last changed, and its number. The system gives
these times, and a change of the bytes cannot leave them, but within one step of its clock. So a survey waits until the last change is a
while ago before it reads. Stamps are compared within one run of the workflow alone; from one run to the next contents are compared.
"""

from __future__ import annotations

import os
import time
from collections.abc import Callable, Collection, Mapping
from pathlib import Path

from conjtools.faults import RunFault

# The size in bytes, the times of the last change of the bytes and of the entry in ns since 1970, and the number of the file.
Stamp = tuple[int, int, int, int]

SETTLED_SECONDS = 2.0
PATIENCE_SECONDS = 60.0


def names_of(folder: Path, suffix: str, beside: Collection[str]) -> list[str]:
    """The files of a folder that the program reads, in byte order of names: the ephemerides, and those with the names beside."""
    try:
        names = os.listdir(folder)
    except OSError as error:
        raise RunFault(f"{folder}: {error.strerror}") from None
    return sorted((name for name in names if name.endswith(suffix) or name in beside), key=os.fsencode)


def stamps_of(folder: Path, suffix: str, beside: Collection[str]) -> dict[str, Stamp]:
    """The stamp of each file that the program reads."""
    stamps: dict[str, Stamp] = {}
    for name in names_of(folder, suffix, beside):
        try:
            told = os.stat(folder / name)
        except OSError as error:
            raise RunFault(f"{folder / name}: {error.strerror}") from None
        stamps[name] = (told.st_size, told.st_mtime_ns, told.st_ctime_ns, told.st_ino)
    return stamps


def settled(stamps_now: Callable[[], dict[str, Stamp]]) -> dict[str, Stamp]:
    """The stamps once no file changed for a while; RunFault where files go on changing."""
    end = time.monotonic() + PATIENCE_SECONDS
    while True:
        stamps = stamps_now()
        newest = max((stamp[2] for stamp in stamps.values()), default=0)
        if time.time() - newest / 1e9 >= SETTLED_SECONDS:
            return stamps
        if time.monotonic() > end:
            raise RunFault("ephemerides go on changing; wait until they are written, and run again")
        time.sleep(0.1)


def check_same(before: Mapping[str, Stamp], now: Mapping[str, Stamp], when: str) -> None:
    """RunFault where a file came, went or changed; `when` says since when."""
    changed = sorted(name for name in before.keys() | now.keys() if before.get(name) != now.get(name))
    if changed:
        more = f" and {len(changed) - 1} more" if len(changed) > 1 else ""
        raise RunFault(f"ephemerides changed {when}: {changed[0]}{more}; run again, and what they touch is made anew")
