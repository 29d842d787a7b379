"""`scripts/try-slurm`: the workflow on the processors of this machine and through a Slurm cluster of this machine."""

from __future__ import annotations

import argparse
import fcntl
import os
import shutil
import signal
import subprocess
import sys
import tempfile
import time
from collections.abc import Iterator, Sequence
from contextlib import contextmanager
from dataclasses import dataclass
from pathlib import Path

from conjtools.command import Parser, run
from conjtools.epochs import epoch_text
from conjtools.faults import RunFault, UsageFault
from conjtools.parts.program import program_checksum
from conjtools.parts.settings import DEFAULT_SUFFIX, OPTIONS, Option, files_beside, words_of
from conjtools.report import read_report
from conjtools.trial.cluster import NODE_MEMORY, bring_up, missing_programs, take_down
from conjtools.trial.daemons import TOKEN_FILE, WORD, end_strays, token_of
from conjtools.trial.faults import FAULTS, NODE_FAULTS, Fault, Trial, program_that_waits
from conjtools.trial.runs import TOP, Workflow, counted, local_words, need_equal, need_success, nodes_of, own_slurm_words, slurm_words, workflow

NAME = "try-slurm"
MARK_FILE, LOCK_FILE = "mark", "lock"
MARK = "made by scripts/try-slurm"
FIRST_MADE_UP = "2025-01-01T00:00:00"
PACKAGES = "apt-get install snakemake slurm-wlm munge python3-numpy"
FAULT_NAMES = tuple(fault.name for fault in (*FAULTS, *NODE_FAULTS))
LEAST_PARTS = 3

DESCRIPTION = f"""Sets up a Slurm cluster on this machine alone, runs the workflow on its processors and through the cluster, compares the joined
reports with each other and with that of one run, and takes the cluster down. Everything stands in one folder of its own. It ends only
processes that it started, also those of a trial that was broken off. It needs root and Debian's packages: {PACKAGES}."""


@dataclass(frozen=True)
class Task:
    """What is screened: the folder, the first and the last tick as epochs, or nothing for those that the program takes, and the options."""

    folder: Path
    first: str | None
    last: str | None
    options: tuple[tuple[str, str], ...]


@dataclass(frozen=True)
class Counter:
    """Reads a number between two."""

    least: int
    most: int

    def __call__(self, text: str) -> int:
        if not text.isdecimal() or not text.isascii() or not self.least <= int(text[:9]) <= self.most:
            raise argparse.ArgumentTypeError(f"not a number from {self.least} to {self.most}: {text}")
        return int(text)


def option_from(text: str) -> tuple[str, str]:
    """An option of the program and its value, an empty text for one that has none."""
    name, sign, value = text.partition("=")
    if name not in OPTIONS or name == "threshold":
        raise argparse.ArgumentTypeError(f"not an option that a part may have: {name}")
    if bool(sign) != (OPTIONS[name] in (Option.VALUE, Option.SCREEN_VALUE)) or (sign and not value):
        raise argparse.ArgumentTypeError(f"{name}: this option {OPTIONS[name].value.partition(',')[0]}")
    return name, value


def parser() -> Parser:
    """The words that the script takes."""
    words = Parser(prog="scripts/try-slurm", description=DESCRIPTION, allow_abbrev=False)
    words.add_argument("--folder", metavar="DIR", type=Path, help="the ephemerides; left out: a made-up catalogue")
    words.add_argument("--from", dest="first", metavar="EPOCH", help="the first tick of the window, with --folder; left out: that of all ephemerides")
    words.add_argument("--to", dest="last", metavar="EPOCH", help="its last tick, with --folder; left out: that of all ephemerides")
    option_help = "an option of the program as the workflow takes it, without its dashes, as large or suffix=.txt; may be given again"
    words.add_argument("--option", dest="options", metavar="NAME[=VALUE]", type=option_from, action="append", default=[], help=option_help)
    words.add_argument("--objects", metavar="N", type=Counter(2, 2000), default=60, help="objects of the made-up catalogue; left out: 60")
    words.add_argument("--minutes", metavar="N", type=Counter(4, 1440), default=120, help="its minutes; left out: 120")
    words.add_argument("--part-minutes", metavar="N", type=Counter(1, 20160), default=30, help="the length of a part; left out: 30")
    words.add_argument("--threshold", metavar="METRES", type=Counter(1, 1_000_000), default=5000, help="left out: 5000")
    words.add_argument("--nodes", metavar="N", type=Counter(2, 16), default=2, help="nodes of the cluster; left out: 2")
    words.add_argument("--processors", metavar="N", type=Counter(1, 64), default=2, help="processors of each node; left out: 2")
    words.add_argument("--threads", metavar="N", type=Counter(1, 16), default=2, help="threads of a part; left out: 2")
    words.add_argument("--memory-mb", metavar="N", type=Counter(1, NODE_MEMORY), default=4000, help="MB of memory of a part; left out: 4000")
    words.add_argument("--no-page", action="store_true", help="make no page, for which all ephemerides are held in memory")
    words.add_argument("--own", action="store_true", help="run the workflow by Snakemake's own --slurm too")
    faults_help = f"then make runs fail, and see that each fault is told and mended; all, or these: {', '.join(FAULT_NAMES)}"
    words.add_argument("--faults", metavar="NAME", nargs="*", choices=FAULT_NAMES, help=faults_help)
    place_help = "the folder of the trial, which is made, and emptied where an earlier trial made it; left out: try-slurm-USER among temporary files"
    words.add_argument("--place", metavar="DIR", type=Path, help=place_help)
    words.add_argument("--keep", action="store_true", help="leave the folder of the trial when it went well")
    words.add_argument("--down", action="store_true", help="take down what an earlier trial left, and nothing else")
    return words


@contextmanager
def place_of_trial(place: Path) -> Iterator[Path]:
    """The folder of the trial, empty and held against other trials; what an earlier one left running is ended."""
    place = place.resolve()
    if place.exists() and (not (place / MARK_FILE).exists() or (place / MARK_FILE).read_text("ascii") != MARK):
        raise UsageFault(f"{place} is there, and was not made by a trial")
    place.mkdir(parents=True, exist_ok=True)
    (place / MARK_FILE).write_text(MARK, "ascii")
    with (place / LOCK_FILE).open("w") as lock:
        try:
            fcntl.flock(lock, fcntl.LOCK_EX | fcntl.LOCK_NB)
        except BlockingIOError:
            raise RunFault(f"{place}: another trial is running") from None
        clear(place)
        try:
            yield place
        finally:
            # What is taken down is taken down whole, however often one is told to end.
            for told in (signal.SIGTERM, signal.SIGINT):
                signal.signal(told, signal.SIG_IGN)
            stop(place)


def stop(place: Path) -> None:
    """Ends all that the trial in a folder started."""
    take_down(place / "cluster")
    end_strays(token_of(place))


def clear(place: Path) -> None:
    """Ends what an earlier trial left running, and takes away what it left."""
    stop(place)
    for line in Path("/proc/mounts").read_text("utf-8", "replace").splitlines():
        target = line.split()[1]
        if target.startswith(f"{place}/"):
            subprocess.run(["umount", "--lazy", target], check=False)
    for path in place.iterdir():
        if path.name not in (MARK_FILE, LOCK_FILE, TOKEN_FILE):
            if path.is_dir() and not path.is_symlink():
                shutil.rmtree(path)
            else:
                path.unlink()


def program_of() -> Path:
    """The program that is tried."""
    program = Path(os.environ.get("CONJ_PROGRAM") or TOP / "conj").resolve()
    program_checksum(str(program))
    return program


def task_of(words: argparse.Namespace, place: Path, program: Path) -> Task:
    """What is screened: a copy of the folder that is named, since faults write into it, or a made-up catalogue."""
    folder, options = place / "ephemerides", (("threshold", str(words.threshold)), *words.options)
    if words.folder is not None:
        if not words.folder.is_dir():
            raise UsageFault(f"{words.folder}: no such folder")
        suffix, beside = dict(options).get("suffix", DEFAULT_SUFFIX), files_beside(options)
        shutil.copytree(words.folder, folder, ignore=lambda _, names: [name for name in names if not name.endswith(suffix) and name not in beside])
        return Task(folder, words.first, words.last, options)
    if words.first or words.last or words.options:
        raise UsageFault("--from, --to and --option want --folder")
    folder.mkdir()
    subprocess.run([program, "generate", str(folder), f"--objects={words.objects}", f"--minutes={words.minutes}"], check=True, stdout=subprocess.DEVNULL)
    hours, minutes = divmod(words.minutes, 60)
    last = f"2025-01-01T{hours:02}:{minutes:02}:00" if hours < 24 else "2025-01-02T00:00:00"
    return Task(folder, FIRST_MADE_UP, last, options)


def tell(what: str) -> None:
    """A line of what the trial found."""
    print(f"{NAME}: {what}", flush=True)


def one_run(task: Task, words: argparse.Namespace, place: Path, program: Path) -> Path:
    """The results of one run over the whole window."""
    out = place / "one"
    begun = time.monotonic()
    ends = [f"--{name}={epoch}" for name, epoch in (("from", task.first), ("to", task.last)) if epoch is not None]
    told = [str(program), "screen", str(task.folder), *words_of(task.options), *ends]
    done = subprocess.run([*told, f"--workers={words.threads}", f"--out={out}"], stdin=subprocess.DEVNULL, capture_output=True, text=True)
    if done.returncode:
        raise RunFault(f"one run over the whole window ended with status {done.returncode}: {done.stderr.strip()}")
    tell(f"one run over the whole window: {counted(out)}, {time.monotonic() - begun:.1f} s")
    return out


def trial(words: argparse.Namespace, place: Path) -> None:
    """The runs of the trial, and what they found."""
    program = program_of()
    task = task_of(words, place, program)
    one = one_run(task, words, place, program)
    window = read_report("screen.report", (one / "screen.report").read_bytes()).window
    with_faults = words.faults is not None
    waiting = program_that_waits(place / "holder", program) if with_faults else program
    configuration = {
        "folder": str(task.folder), "from": epoch_text(window.first), "to": epoch_text(window.last), "part_minutes": words.part_minutes,
        "options": {name: value or True for name, value in task.options}, "threads": words.threads, "memory_mb": words.memory_mb, "retries": 0,
        "page": not with_faults and not words.no_page, "program": str(waiting),
    }  # fmt: skip
    here = workflow(place / "local", configuration, local_words(words.nodes * words.processors), {**os.environ, WORD: token_of(place)})
    local = here.run()
    need_success(local, "the run on the processors of this machine")
    need_equal(here.joined(), one)
    tell(f"on the processors of this machine: {len(here.plan().parts)} parts, {local.seconds:.1f} s; report and messages equal those of one run")
    if with_faults:
        try_faults(Trial(here, place / "holder", one), asked_for(words, FAULTS))
    cluster_place = place / "cluster"
    cluster_place.mkdir()
    cluster = bring_up(cluster_place, words.nodes, words.processors, token_of(place))
    # Snakemake asks what became of its jobs each ten seconds, and where CI is true each second.
    flow = workflow(place / "slurm", configuration, slurm_words(), {**cluster.environment, "CI": "true"})
    run_through(flow, one, "through Slurm")
    if words.own:
        run_through(workflow(place / "own", configuration, own_slurm_words(), cluster.environment), one, "by Snakemake's own --slurm")
    if with_faults:
        try_faults(Trial(flow, place / "holder", one, cluster), asked_for(words, NODE_FAULTS))


def run_through(flow: Workflow, one: Path, how: str) -> None:
    """A run of the workflow through the cluster, whose results have to be those of one run, each part checked on another node."""
    run_of_flow = flow.run()
    need_success(run_of_flow, f"the run {how}")
    need_equal(flow.joined(), one)
    tell(f"{how}: {run_of_flow.seconds:.1f} s; report and messages equal those of one run")
    tell("nodes that screened and checked: " + ", ".join(f"{screened} {checked}" for screened, checked in nodes_of(flow)))
    same = [place for place, (screened, checked) in enumerate(nodes_of(flow), 1) if screened == checked]
    if same:
        raise RunFault(f"parts {same} were checked on the node that screened them")


def asked_for(words: argparse.Namespace, faults: Sequence[Fault]) -> list[Fault]:
    """Those faults that are named, and all where none is."""
    return [fault for fault in faults if not words.faults or fault.name in words.faults]


def try_faults(told: Trial, faults: Sequence[Fault]) -> None:
    """Makes runs fail, one fault after the other."""
    if len(told.flow.plan().parts) < LEAST_PARTS:
        raise UsageFault("--faults wants three parts at least")
    for fault in faults:
        try:
            tell(f"{fault.what}: {fault.make(told)}")
        except RunFault as failed:
            raise RunFault(f"{fault.what}: {failed}") from None


def act(words: argparse.Namespace) -> None:
    """Does what the words ask."""
    missing = missing_programs()
    if missing:
        raise RunFault(f"{', '.join(missing)}: not there: {PACKAGES}")
    place = words.place or Path(tempfile.gettempdir()) / f"{NAME}-{os.getuid()}"
    with place_of_trial(place) as folder:
        if words.down:
            tell("nothing is left running")
            return
        trial(words, folder)
    if not words.keep:
        shutil.rmtree(place)


def main(arguments: Sequence[str]) -> int:
    """Runs the script with these words, and gives its exit status."""
    signal.signal(signal.SIGTERM, lambda *_: sys.exit(1))
    return run(NAME, lambda: act(parser().parse_args(arguments)))
