"""Where a part is checked: on another node of a Slurm cluster than the one that screened it, where another is up."""

from __future__ import annotations

import subprocess
from pathlib import Path

from conjtools.faults import RunFault
from conjtools.parts.doing import read_record

UP = ("sinfo", "--noheader", "--Node", "--responding", "--states=idle,mixed,allocated", "--format=%N")


def nodes_up() -> set[str]:
    """The nodes that are up, and none where there is no Slurm."""
    try:
        run = subprocess.run(UP, capture_output=True, text=True, timeout=30, check=True)
    except (OSError, subprocess.SubprocessError):
        return set()
    return set(run.stdout.split())


def exclusion(screened: Path) -> str:
    """The option by which `sbatch` keeps a check off the node that screened; `screened` is the record. Nothing where no other node is up."""
    try:
        node = read_record(screened.parent).node
    except RunFault:
        return ""
    others = nodes_up()
    return f"--exclude={node}" if node in others and len(others) > 1 else ""
