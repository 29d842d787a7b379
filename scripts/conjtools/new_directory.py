"""A directory that is there whole or not at all: it is filled under another name beside its place, and then renamed."""

from __future__ import annotations

import contextlib
import fcntl
import os
import shutil
from collections.abc import Iterator
from concurrent.futures import ThreadPoolExecutor
from pathlib import Path

from conjtools.faults import RunFault

SYNCING_THREADS = 8


@contextlib.contextmanager
def new_directory(path: Path) -> Iterator[Path]:
    """Gives the directory that is to be filled. It takes its name when all that is in it is on the disk, and is taken away again where
    something fails. RunFault where something has the name already, or another run fills it, or the system refuses."""
    with told_faults(path):
        need_free(path)
        part = path.with_name(f".{path.name}.part")
        held = made(part)
        try:
            yield part
            sync(part)
            need_free(path)
            os.rename(part, path)
            sync_directory(path.parent)
        except BaseException:
            if leads_to(part, held):
                shutil.rmtree(part, ignore_errors=True)
            raise
        finally:
            os.close(held)


@contextlib.contextmanager
def told_faults(path: Path) -> Iterator[None]:
    """What the system refuses is told with the file that it is about."""
    try:
        yield
    except OSError as error:
        raise RunFault(f"{error.filename or path}: {error.strerror}") from None


def need_free(path: Path) -> None:
    """RunFault where something has this name, be it a link that leads nowhere."""
    if path.name in ("", "..") or os.path.lexists(path):
        raise RunFault(f"{path}: exists already")


def made(part: Path) -> int:
    """The open directory that is filled, held against other runs. What an earlier run left under its name is taken away."""
    try:
        part.mkdir()
    except FileExistsError:
        clear(part)
        part.mkdir()
    held = os.open(part, os.O_RDONLY | os.O_DIRECTORY | os.O_NOFOLLOW)
    if try_hold(held) is False or not leads_to(part, held):
        os.close(held)
        raise other_run(part)
    return held


def clear(part: Path) -> None:
    """Takes away what an earlier run left, where no run fills it."""
    held = os.open(part, os.O_RDONLY | os.O_DIRECTORY | os.O_NOFOLLOW)
    try:
        if not try_hold(held) or not leads_to(part, held):
            raise other_run(part)
        shutil.rmtree(part)
    finally:
        os.close(held)


def try_hold(held: int) -> bool | None:
    """Whether this run now holds an open directory; nothing where the file system has no locks."""
    try:
        fcntl.flock(held, fcntl.LOCK_EX | fcntl.LOCK_NB)
    except BlockingIOError:
        return False
    except OSError:
        return None
    return True


def other_run(part: Path) -> RunFault:
    """The fault where another run fills a directory, or may do so."""
    return RunFault(f"{part}: another run is writing there")


def leads_to(path: Path, held: int) -> bool:
    """Whether an open directory has this path."""
    try:
        return os.path.samestat(os.lstat(path), os.fstat(held))
    except OSError:
        return False


def sync(directory: Path) -> None:
    """Brings the files of a directory to the disk, and then the directory."""
    with ThreadPoolExecutor(SYNCING_THREADS) as threads:
        for _ in threads.map(sync_file, sorted(directory.iterdir())):
            pass
    sync_directory(directory)


def sync_file(path: Path) -> None:
    """Brings a file to the disk."""
    with path.open("rb") as file:
        os.fsync(file.fileno())


def sync_directory(path: Path) -> None:
    """Brings a directory to the disk, where the file system can."""
    held = os.open(path, os.O_RDONLY | os.O_DIRECTORY)
    try:
        with contextlib.suppress(OSError):
            os.fsync(held)
    finally:
        os.close(held)
