"""Screening and checking a part. A result takes its place whole, with a record of what it is; what is not as it should be is put aside,
so that the next run makes it anew."""

from __future__ import annotations

import os
import re
import shutil
from collections.abc import Mapping, Sequence
from dataclasses import dataclass
from pathlib import Path

from conjtools.epochs import epoch_text
from conjtools.faults import RunFault
from conjtools.output import write_all
from conjtools.parts.plan import CHECKED, REFUSED, RESULT, SCREENED, Part, Plan, folder_of
from conjtools.parts.program import checksum_of, node_name, run_program, told_by
from conjtools.parts.stamps import Stamp, check_same, stamps_of

CERTIFICATE, REPORT = "screen.cert", "screen.report"
SCREEN_OUT, SCREEN_ERRORS = "screen.out", "screen.err"
CHECK_OUT, CHECK_ERRORS, CHECK_SUM = "check.out", "check.err", "screen.cert.sha256"
ACCEPTED = "ACCEPTED\n"
NOT_ACCEPTED = 1
NODE_LINE = re.compile(r"# screened on (\S+)")
SUM_LINE = re.compile(r"([0-9a-f]{64})  (\S+)")


@dataclass(frozen=True)
class Record:
    """What stands in `screened`: the node that screened, and the checksums of the files of the result by their names."""

    node: str
    sums: Mapping[str, str]


def record_text(node: str, sums: Mapping[str, str]) -> str:
    """The text of a record, which `sha256sum --check` reads too."""
    return f"# screened on {node}\n" + "".join(f"{checksum}  {name}\n" for name, checksum in sums.items())


def read_record(result: Path) -> Record:
    """The record of a result; RunFault where it is not whole."""
    try:
        first, *lines = (result / SCREENED).read_text("ascii").splitlines()
    except (OSError, ValueError):
        raise RunFault(f"{result}: no record of what was screened") from None
    node = NODE_LINE.fullmatch(first)
    matches = [SUM_LINE.fullmatch(line) for line in lines]
    sums = {match[2]: match[1] for match in matches if match}
    if not node or len(sums) != len(lines):
        raise RunFault(f"{result / SCREENED}: not a record")
    return Record(node[1], sums)


def window_words(part: Part) -> list[str]:
    """The window of a part as words of the program."""
    return [f"--from={epoch_text(part.window.first)}", f"--to={epoch_text(part.window.last)}"]


def check_stamps(plan: Plan, stamps: Mapping[str, Stamp], when: str) -> None:
    """RunFault where the ephemerides are not those of the survey."""
    settings = plan.settings
    check_same(stamps, stamps_of(Path(settings.folder), settings.suffix, settings.beside), when)


def screen(plan: Plan, stamps: Mapping[str, Stamp], part: Part, threads: int) -> bool:
    """Screens a part, and lets the result take its place when it is whole and the ephemerides stayed as they are. Whether it did: one that
    another attempt placed meanwhile stays, since it may be checked already."""
    settings, folder = plan.settings, folder_of(plan.results, part.name)
    check_stamps(plan, stamps, "since the survey")
    folder.mkdir(parents=True, exist_ok=True)
    clear_attempts(folder)
    before = placed_at(folder / RESULT)
    attempt = folder / f"attempt-{node_name()}-{os.getpid()}"
    out, errors = folder / f"{attempt.name}.out", folder / f"{attempt.name}.err"
    words = [settings.program, "screen", settings.folder, *settings.screen_words(), *window_words(part), f"--workers={threads}", f"--out={attempt}"]
    try:
        status = run_program(words, out, errors)
        if status:
            raise RunFault(told_by(words, status, errors))
        check_stamps(plan, stamps, "while the part was screened")
        out.rename(attempt / SCREEN_OUT)
        errors.rename(attempt / SCREEN_ERRORS)
        sums = {path.name: checksum_of(path) for path in sorted(attempt.iterdir())}
        write_synced(attempt / SCREENED, record_text(node_name(), sums))
        return take_place(attempt, folder / RESULT, before)
    except OSError as error:
        raise RunFault(f"{error.filename or attempt}: {error.strerror}") from None
    finally:
        shutil.rmtree(attempt, ignore_errors=True)
        out.unlink(missing_ok=True)
        errors.unlink(missing_ok=True)


def clear_attempts(folder: Path) -> None:
    """Takes away what attempts left that were killed. One that still runs somewhere fails by it, and has no need to go on."""
    for path in folder.iterdir():
        if path.name.lstrip(".").startswith("attempt-"):
            if path.is_dir():
                shutil.rmtree(path, ignore_errors=True)
            else:
                path.unlink(missing_ok=True)


def write_synced(path: Path, text: str) -> None:
    """Writes a file and brings it to the disk."""
    with path.open("w", encoding="ascii", newline="") as file:
        file.write(text)
        file.flush()
        os.fsync(file.fileno())


def placed_at(result: Path) -> tuple[int, int] | None:
    """Which record a result has, by its number and time; nothing where it has none."""
    try:
        found = (result / SCREENED).stat()
    except OSError:
        return None
    return found.st_ino, found.st_mtime_ns


def take_place(attempt: Path, result: Path, before: tuple[int, int] | None) -> bool:
    """Gives a whole result its name, unless another took it that has not the record `before`; whether it did. An empty directory may stand
    there; what else stands there is taken away."""
    if placed_at(result) not in (None, before):
        return False
    if result.exists() and any(result.iterdir()):
        shutil.rmtree(result)
    try:
        os.rename(attempt, result)
    except OSError:
        if placed_at(result) is None:
            raise
        return False
    return True


def put_aside(folder: Path) -> None:
    """Moves a result that cannot be taken beside its place, where the last of them stays, so that the part is made anew."""
    refused = folder / REFUSED
    shutil.rmtree(refused, ignore_errors=True)
    os.rename(folder / RESULT, refused)


def put_aside_unrecorded(results: Path, parts: Sequence[Part]) -> None:
    """Puts aside the results of parts that stand without their record, as where an attempt that was lost began late."""
    for part in parts:
        folder = folder_of(results, part.name)
        if (folder / RESULT).exists() and any((folder / RESULT).iterdir()):
            try:
                read_record(folder / RESULT)
            except RunFault:
                put_aside(folder)


def checked_record(folder: Path) -> Record:
    """The record of a result whose files are what was screened; else RunFault, and the result is put aside."""
    try:
        record = read_record(folder / RESULT)
    except RunFault as fault:
        if not (folder / RESULT).exists():
            raise
        put_aside(folder)
        raise RunFault(f"{fault}; it is put aside as {folder / REFUSED}, and the next run screens the part anew") from None
    for name, checksum in record.sums.items():
        try:
            same = checksum_of(folder / RESULT / name) == checksum
        except FileNotFoundError:
            same = False
        if not same:
            put_aside(folder)
            raise RunFault(f"{name} is not what was screened; it is put aside as {folder / REFUSED}, and the next run screens the part anew")
    return record


def check(plan: Plan, stamps: Mapping[str, Stamp], part: Part) -> None:
    """Checks a part, its certificate and its report, by a process of its own, and writes beside its result what the program said and of which bytes."""
    settings, folder = plan.settings, folder_of(plan.results, part.name)
    result = folder / RESULT
    certificate = result / CERTIFICATE
    check_stamps(plan, stamps, "since the survey")
    try:
        record = checked_record(folder)
        before = checksum_of(certificate)
        said, errors = folder / CHECK_OUT, folder / CHECK_ERRORS
        beside = [f"--cert-dir={result}", f"--report={REPORT}"]
        words = [settings.program, "check", settings.folder, *settings.check_words(), *window_words(part), *beside]
        status = run_program(words, said, errors)
        after = checksum_of(certificate)
        check_stamps(plan, stamps, "while the part was checked")
        if after != before or status == NOT_ACCEPTED:
            put_aside(folder)
            told = told_by(words, status, errors) if after == before else f"{CERTIFICATE} changed while it was checked"
            raise RunFault(f"{told}; it is put aside as {folder / REFUSED}, and the next run screens the part anew")
        if status or said.read_bytes() != ACCEPTED.encode():
            raise RunFault(told_by(words, status, errors))
        texts = {CHECK_OUT: ACCEPTED, CHECK_ERRORS: errors.read_text("ascii", "replace"), CHECK_SUM: f"{before}  {CERTIFICATE}\n"}
        write_all({result / name: text for name, text in texts.items()})
        write_all({result / CHECKED: f"# screened on {record.node}\n# checked on {node_name()}\n{before}  {CERTIFICATE}\n"})
        said.unlink()
        errors.unlink()
    except OSError as error:
        raise RunFault(f"{error.filename or result}: {error.strerror}") from None


def confirm(plan: Plan, stamps: Mapping[str, Stamp]) -> None:
    """RunFault, with the parts, where one is not checked, or where a file is not what was screened and checked; and where ephemerides
    changed, by which closest approaches at borders are told apart."""
    check_stamps(plan, stamps, "since the survey")
    faults: list[str] = []
    for part in plan.parts:
        folder = folder_of(plan.results, part.name)
        try:
            record = checked_record(folder)
            if (folder / RESULT / CHECK_SUM).read_text("ascii") != f"{record.sums[CERTIFICATE]}  {CERTIFICATE}\n":
                raise RunFault(f"{CHECK_SUM} is of another certificate")
        except (OSError, KeyError):
            faults.append(f"{part.name}: not checked")
        except RunFault as fault:
            faults.append(f"{part.name}: {fault}")
    if faults:
        raise RunFault("; ".join(faults))
