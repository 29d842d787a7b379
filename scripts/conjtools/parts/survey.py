"""The survey: the program takes the ephemerides or refuses them, and each part gets a name that says what it is made of."""

from __future__ import annotations

import hashlib
import json
import tempfile
from collections.abc import Mapping, Sequence
from concurrent.futures import ProcessPoolExecutor
from functools import partial
from pathlib import Path

from conjtools.epochs import epoch_text
from conjtools.faults import RunFault
from conjtools.oem import prepared_within
from conjtools.output import write_all
from conjtools.parts.doing import put_aside_unrecorded
from conjtools.parts.plan import KEY_DIGITS, PLAN, STAMPS, Part, plan_text, stamps_text
from conjtools.parts.program import program_checksum, run_program, told_by
from conjtools.parts.settings import Settings
from conjtools.parts.stamps import check_same, settled, stamps_of
from conjtools.parts.touching import DIGEST_BYTES, digest_of, file_digests, report_objects
from conjtools.parts.windows import parts_of
from conjtools.report import Report, Window, read_report

# Part of each name. It changes where the same names would stand for other results.
FORM = "conj part 1"
FILES_AT_ONCE = 8


def survey(settings: Settings, told: Mapping[str, object], threads: int) -> None:
    """Writes the plan and the stamps of the ephemerides into the folder of the results."""
    results, folder = Path(settings.results), Path(settings.folder)
    program = program_checksum(settings.program)
    results.mkdir(parents=True, exist_ok=True)
    stamps = settled(partial(stamps_of, folder, settings.suffix, settings.beside))
    report = taken(settings, threads)
    windows = parts_of(settings.window, settings.part_minutes)
    names = [name for name in stamps if name not in settings.beside]
    if names != [one.file for one in report.objects]:
        raise RunFault(f"{folder}: the program took other files than those whose names end with {settings.suffix}")
    task = digest_of(FORM.encode(), program.encode(), json.dumps(settings.screen_words()).encode(), report_objects(report))
    keys, prepared = keys_of(folder, names, windows, task, threads)
    check_same(stamps, stamps_of(folder, settings.suffix, settings.beside), "during the survey")
    digits = max(4, len(str(len(windows))))
    parts = tuple(Part(f"{place:0{digits}}-{key}", window) for place, (key, window) in enumerate(zip(keys, windows), 1))
    whole = digest_of(*(part.name.encode() for part in parts), prepared.encode()).hex()[:KEY_DIGITS]
    put_aside_unrecorded(results, parts)
    write_all({results / STAMPS: stamps_text(stamps), results / PLAN: plan_text(told, parts, whole)})


def taken(settings: Settings, threads: int) -> Report:
    """The report of the window's first tick, for which the program reads all files as for any other; RunFault where it refuses one."""
    instant = epoch_text(settings.window.first)
    with tempfile.TemporaryDirectory(prefix="survey-", dir=settings.results) as holder:
        place = Path(holder)
        words = [settings.program, "screen", settings.folder, *settings.screen_words(), f"--from={instant}", f"--to={instant}"]
        words += [f"--workers={threads}", f"--out={place / 'out'}"]
        status = run_program(words, place / "said", place / "errors")
        if status:
            raise RunFault(told_by(words, status, place / "errors"))
        return read_report("screen.report", (place / "out" / "screen.report").read_bytes())


def keys_of(folder: Path, names: Sequence[str], windows: Sequence[Window], task: bytes, threads: int) -> tuple[list[str], str]:
    """The key of each window: a digest of the task, the window, and each file in it; and the bounds that prepared files tell, which the
    page shows."""
    digests = [hashlib.blake2b(digest_of(task, b"%d %d" % (window.first, window.last)), digest_size=DIGEST_BYTES) for window in windows]
    prepared: list[int | None] = []
    with ProcessPoolExecutor(threads) as pool:
        for texts, bound in pool.map(partial(read_file, folder, windows), names, chunksize=FILES_AT_ONCE):
            prepared.append(bound)
            for digest, text in zip(digests, texts):
                digest.update(text)
    return [digest.hexdigest()[:KEY_DIGITS] for digest in digests], json.dumps(prepared)


def read_file(folder: Path, windows: Sequence[Window], name: str) -> tuple[list[bytes], int | None]:
    """The digest of a file in each window, and the bound of a prepared file."""
    try:
        content = (folder / name).read_bytes()
    except OSError as error:
        raise RunFault(f"{folder / name}: {error.strerror}") from None
    return file_digests(name, content, windows), prepared_within(content)
