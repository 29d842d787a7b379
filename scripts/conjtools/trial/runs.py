"""Runs of the workflow in a trial, and what stands in their results."""

from __future__ import annotations

import json
import re
import subprocess
import time
from collections.abc import Mapping, Sequence
from dataclasses import dataclass
from pathlib import Path

from conjtools.faults import RunFault
from conjtools.parts.plan import CHECKED, JOINED, PARTS, PLAN, RESULT, WHOLE, Plan, read_plan
from conjtools.report import read_report

TOP = Path(__file__).resolve().parents[3]
SNAKEFILE = TOP / "workflow" / "Snakefile"
PROFILES = TOP / "workflow" / "profiles"
CREATED = re.compile(rb"^CREATION_DATE = .*$", re.MULTILINE)
NODE = re.compile(r"# (screened|checked) on (\S+)")


@dataclass(frozen=True)
class Run:
    """How a run of the workflow ended, what it said, and how long it took in seconds."""

    status: int
    said: str
    seconds: float


@dataclass(frozen=True)
class Workflow:
    """A folder in which the workflow is run, the words behind `snakemake`, and the environment."""

    folder: Path
    words: tuple[str, ...]
    environment: Mapping[str, str]

    @property
    def results(self) -> Path:
        """Where its results go."""
        return self.folder / "results"

    def plan(self) -> Plan:
        """The plan of its last survey."""
        return read_plan(self.results / PLAN)

    def joined(self) -> Path:
        """Where the joined results of the last plan stand, or would stand."""
        return self.results / WHOLE / self.plan().whole / JOINED

    def start(self, *more: str) -> subprocess.Popen[str]:
        """Starts a run."""
        words = ["/usr/bin/snakemake", "--snakefile", str(SNAKEFILE), "--configfile", "config.yaml", "--nocolor", *self.words, *more]
        return subprocess.Popen(
            words, cwd=self.folder, env=dict(self.environment), stdin=subprocess.DEVNULL, stdout=subprocess.PIPE, stderr=subprocess.STDOUT, text=True
        )

    def run(self, *more: str) -> Run:
        """A run from its start to its end."""
        return ended(self.start(*more), time.monotonic())


def ended(process: subprocess.Popen[str], begun: float) -> Run:
    """What became of a run that was started at a time of the clock."""
    said = process.communicate()[0]
    return Run(process.returncode, said, time.monotonic() - begun)


def workflow(folder: Path, configuration: Mapping[str, object], words: Sequence[str], environment: Mapping[str, str]) -> Workflow:
    """A folder in which the workflow is run with a configuration."""
    folder.mkdir(parents=True, exist_ok=True)
    told: dict[str, object] = {**configuration, "results": "results"}
    (folder / "config.yaml").write_text(json.dumps(told, indent=1) + "\n", "utf-8")
    return Workflow(folder, tuple(words), environment)


def local_words(processors: int) -> tuple[str, ...]:
    """The words for the processors of this machine."""
    return "--profile", str(PROFILES / "local"), "--cores", str(processors)


def slurm_words() -> tuple[str, ...]:
    """The words for a Slurm cluster."""
    return "--profile", str(PROFILES / "slurm"), "--latency-wait", "20"


def own_slurm_words() -> tuple[str, ...]:
    """The words for a Slurm cluster by Snakemake's own way, which looks after jobs each second here."""
    going = ("--keep-going", "--rerun-incomplete", "--show-failed-logs")
    return "--slurm", "--jobs", "200", *going, "--latency-wait", "20", "--max-status-checks-per-second", "1"


def need_success(run: Run, what: str) -> None:
    """RunFault, with the last lines of what it said, where a run failed."""
    if run.status:
        lines = [line for line in run.said.splitlines() if line.strip()]
        raise RunFault(f"{what} ended with status {run.status}:\n" + "\n".join(lines[-40:]))


def nodes_of(flow: Workflow) -> list[tuple[str, str]]:
    """For each part the nodes that screened and checked it."""
    told = [dict(NODE.findall((flow.results / PARTS / part.name / RESULT / CHECKED).read_text("ascii"))) for part in flow.plan().parts]
    return [(one["screened"], one["checked"]) for one in told]


def difference(one: Path, other: Path) -> str | None:
    """How the reports and messages of two folders of results differ, but for the CREATION_DATE of messages; nothing where they are equal."""
    names = [sorted(path.name for path in folder.iterdir() if path.suffix == ".cdm") for folder in (one, other)]
    if names[0] != names[1]:
        return f"{len(names[0])} messages in {one} and {len(names[1])} in {other}"
    if (one / "screen.report").read_bytes() != (other / "screen.report").read_bytes():
        return f"the reports in {one} and {other} differ"
    for name in names[0]:
        if CREATED.sub(b"", (one / name).read_bytes()) != CREATED.sub(b"", (other / name).read_bytes()):
            return f"{name} in {one} and {other} differ"
    return None


def need_equal(one: Path, other: Path) -> None:
    """RunFault where the results in two folders are not equal."""
    told = difference(one, other)
    if told:
        raise RunFault(told)


def counted(folder: Path) -> str:
    """What the report in a folder has, in words."""
    report = read_report("screen.report", (folder / "screen.report").read_bytes())
    messages = sum(encounter.has_message for encounter in report.encounters)
    return f"{len(report.objects)} objects, {len(report.encounters)} encounters, {messages} messages"
