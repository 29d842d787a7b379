"""What is done when all of a plan stands: its results get the name by which they are found, and those of earlier plans are taken away."""

from __future__ import annotations

import os
import shutil
from pathlib import Path

from conjtools.faults import RunFault
from conjtools.parts.plan import LATEST, PARTS, WHOLE, Plan


def publish(plan: Plan) -> None:
    """Lets `latest` lead to the joined results, and takes away parts and joined results that are not of the plan."""
    results = plan.results
    if not (results / WHOLE / plan.whole).is_dir():
        return
    link = results / f".{LATEST}.part"
    try:
        link.unlink(missing_ok=True)
        link.symlink_to(Path(WHOLE) / plan.whole)
        os.replace(link, results / LATEST)
        keep(results / WHOLE, {plan.whole})
        keep(results / PARTS, {part.name for part in plan.parts})
    except OSError as error:
        raise RunFault(f"{error.filename or results}: {error.strerror}") from None


def keep(folder: Path, names: set[str]) -> None:
    """Takes away the directories of a folder but for those with these names."""
    for path in folder.iterdir():
        if path.name not in names and path.is_dir() and not path.is_symlink():
            shutil.rmtree(path, ignore_errors=True)
