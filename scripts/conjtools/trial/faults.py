"""What is made to fail in a trial: each fault has to be told by its part, nothing may be joined, and the next run has to mend it."""

from __future__ import annotations

import os
import re
import shutil
import signal
import subprocess
import time
from collections.abc import Callable, Iterable, Iterator, Sequence
from contextlib import contextmanager
from dataclasses import dataclass
from pathlib import Path

from conjtools.epochs import epoch_text
from conjtools.faults import RunFault
from conjtools.parts.plan import CHECKED, PARTS, PLAN, RESULT, SCREENED, WHOLE, Part
from conjtools.parts.program import checksum_of
from conjtools.trial.cluster import Cluster, need_lost, set_state, silence, wait_for_nodes, wake
from conjtools.trial.daemons import Process, up_to, wait_until
from conjtools.trial.runs import TOP, Run, Workflow, ended, need_equal, need_success, nodes_of

HOLD_SECONDS = 900.0
# A disk has whole pages.
PAGE = 4096
VICTIM, OTHER = 1, 2
# What runs a job of Slurm, above all of its processes.
JOB_KEEPER = "slurmstepd"

# Stands for the program: it notes each call, and waits where it is asked to. FOLDER and PROGRAM are put in.
HELD_PROGRAM = """#!/bin/sh
for word; do
    case $word in
    --from=*) from=${word#--from=} ;;
    --to=*) to=${word#--to=} ;;
    esac
done
call=$1-$from-$to
echo "$call" >>'FOLDER/calls'
if mv 'FOLDER'/hold/"$call" 'FOLDER'/held/"$call.$$" 2>/dev/null; then
    echo "$$ ${SLURMD_NODENAME:-}" >'FOLDER'/held/"$call.node.part" && mv 'FOLDER'/held/"$call.node.part" 'FOLDER'/held/"$call.node"
    while [ -e 'FOLDER'/held/"$call.$$" ]; do sleep 0.05; done
fi
exec 'PROGRAM' "$@"
"""


@dataclass(frozen=True)
class Held:
    """A run of the program that waits: its process, its node, and the file whose going lets it go on."""

    pid: int
    node: str
    file: Path

    def release(self) -> None:
        """Lets it go on."""
        self.file.unlink(missing_ok=True)


@dataclass(frozen=True)
class Trial:
    """A workflow that ran to its end once, the folder of the program that can be held, the results that are right, and the cluster where
    it runs through one."""

    flow: Workflow
    holder: Path
    right: Path
    cluster: Cluster | None = None

    def nodes(self) -> Cluster:
        """The cluster."""
        if self.cluster is None:
            raise RunFault("no cluster is up")
        return self.cluster

    def part(self, place: int) -> Part:
        """A part by its place, counted from 0."""
        return self.flow.plan().parts[place]

    def forget(self, places: Iterable[int]) -> None:
        """Takes parts and the joined results away, so that the next run makes them."""
        for place in places:
            shutil.rmtree(self.flow.results / PARTS / self.part(place).name, ignore_errors=True)
        shutil.rmtree(self.flow.results / WHOLE, ignore_errors=True)

    def has(self, record: str, place: int) -> bool:
        """Whether a part has a record of the result."""
        return (self.flow.results / PARTS / self.part(place).name / RESULT / record).exists()

    def is_checked(self, place: int) -> bool:
        """Whether a part is screened and checked."""
        return self.has(CHECKED, place)

    def by_hand(self, step: str, place: int) -> None:
        """Does a step of a part outside of the workflow."""
        words = [str(TOP / "scripts" / "parts"), step, "--plan", str(Path("results") / PLAN), "--part", self.part(place).name]
        run = subprocess.run(words, cwd=self.flow.folder, env=dict(self.flow.environment), stdin=subprocess.DEVNULL, capture_output=True, text=True)
        if run.returncode:
            raise RunFault(f"{step} by hand ended with status {run.returncode}: {run.stderr.strip()}")

    def call(self, command: str, place: int) -> str:
        """How a run of the program for a part is noted."""
        window = self.part(place).window
        return f"{command}-{epoch_text(window.first)}-{epoch_text(window.last)}"

    def calls(self) -> list[str]:
        """The runs of the program for parts since this was asked last, in order of their names."""
        path = self.holder / "calls"
        lines = path.read_text("ascii").split() if path.exists() else []
        path.unlink(missing_ok=True)
        wanted = {self.call(command, place) for command in ("screen", "check") for place in range(len(self.flow.plan().parts))}
        return sorted(line for line in lines if line in wanted)

    def size(self, place: int) -> int:
        """How many bytes the files of a part's result have."""
        return sum(path.stat().st_size for path in (self.flow.results / PARTS / self.part(place).name / RESULT).iterdir())

    def owed(self) -> list[str]:
        """The runs of the program for parts that the next run has to make."""
        places = range(len(self.flow.plan().parts))
        screens = [self.call("screen", place) for place in places if not self.has(SCREENED, place)]
        return screens + [self.call("check", place) for place in places if not self.has(SCREENED, place) or not self.is_checked(place)]

    def standing(self) -> dict[str, str]:
        """The checksums of all that stands: of results of parts, and joined."""
        folders = [*self.flow.results.glob(f"{PARTS}/*/{RESULT}"), self.flow.joined()]
        return {str(path.relative_to(self.flow.results)): checksum_of(path) for folder in folders for path in sorted(folder.rglob("*")) if path.is_file()}

    def hold(self, command: str, place: int) -> Callable[[], Held]:
        """Lets the next run of the program for a part wait; what is given waits for it in turn."""
        call = self.call(command, place)
        (self.holder / "held" / f"{call}.node").unlink(missing_ok=True)
        (self.holder / "hold" / call).touch()

        def held() -> Held:
            told = self.holder / "held" / f"{call}.node"
            if not wait_until(told.exists, HOLD_SECONDS):
                raise RunFault(f"{call} was not begun")
            words = told.read_text("ascii").split()
            return Held(int(words[0]), words[1] if len(words) > 1 else "", self.holder / "held" / f"{call}.{words[0]}")

        return held

    def need_told(self, run: Run, place: int, *texts: str) -> None:
        """RunFault unless a run failed, told it by the part, joined nothing, and left the other part alone."""
        name = self.part(place).name
        for text in (name, *texts):
            if text not in run.said:
                raise RunFault(f"not told: {text}\n{run.said[-3000:]}")
        if run.status == 0 or self.flow.joined().exists():
            raise RunFault("the run did not fail, or something was joined")
        if not self.is_checked(OTHER):
            raise RunFault("the other part was not made")

    def need_lost(self, run: Run, place: int) -> None:
        """RunFault unless a run told that the job which screened a part was lost."""
        if not re.search(rf"Error in rule screen:\n(?: .*\n)*? .*{self.part(place).name}/", run.said):
            raise RunFault(f"not told as lost: {self.part(place).name}\n{run.said[-3000:]}")

    def need_elsewhere(self, place: int, node: str) -> None:
        """RunFault where the node that was lost screened or checked a part after all."""
        if node in nodes_of(self.flow)[place]:
            raise RunFault(f"{self.part(place).name} is of {node}, which was lost")

    def need_mended(self, wanted: Iterable[str]) -> float:
        """RunFault unless the next run ends well, with the right results, by just these runs of the program for parts."""
        self.calls()
        run = self.flow.run()
        need_success(run, "the next run")
        need_equal(self.flow.joined(), self.right)
        made, right = self.calls(), sorted(wanted)
        if made != right:
            raise RunFault(f"the next run made {made}, and {right} is wanted")
        return run.seconds


@dataclass(frozen=True)
class Fault:
    """What is made to fail: its name, what it is in words, and what makes it and says how it went."""

    name: str
    what: str
    make: Callable[[Trial], str]


def both(trial: Trial) -> list[str]:
    """The runs of the program that make the part anew which had the fault."""
    return [trial.call("check", VICTIM), trial.call("screen", VICTIM)]


def part_killed(trial: Trial) -> str:
    """The program is killed in the middle of screening a part."""
    trial.forget((VICTIM, OTHER))
    held = trial.hold("screen", VICTIM)
    begun, process = time.monotonic(), trial.flow.start()
    program = held()
    shell = os.readlink(f"/proc/{program.pid}/exe")
    program.release()
    # The program ends within some milliseconds, so nothing waits between two looks.
    late = time.monotonic() + HOLD_SECONDS
    while executable(program.pid) == shell and time.monotonic() < late:
        pass
    try:
        os.kill(program.pid, signal.SIGKILL)
    except ProcessLookupError:
        raise RunFault("the program came to its end before it could be killed") from None
    trial.need_told(ended(process, begun), VICTIM, "ended with status 137")
    return told(trial.need_mended(both(trial)))


def executable(pid: int) -> str:
    """What a process executes."""
    try:
        return os.readlink(f"/proc/{pid}/exe")
    except OSError:
        return ""


def node_down(trial: Trial) -> str:
    """A node is taken from the cluster while it screens a part."""
    trial.forget((VICTIM, OTHER))
    held = trial.hold("screen", VICTIM)
    begun, process = time.monotonic(), trial.flow.start()
    program = held()
    set_state(trial.nodes(), program.node, "down")
    run = ended(process, begun)
    program.release()
    trial.need_told(run, VICTIM, "Error in rule screen")
    seconds = trial.need_mended(both(trial))
    set_state(trial.nodes(), program.node, "resume")
    wait_for_nodes(trial.nodes(), trial.nodes().nodes)
    return f"{told(seconds)}, on the nodes that are left"


def node_silent(trial: Trial, how: signal.Signals, *more: str) -> tuple[Held, list[Process], Run]:
    """A run of the workflow, with more words, in which a node stops answering while it screens a part: what is held there, the processes of
    the job, which run on, and the run."""
    trial.forget((VICTIM, OTHER))
    held = trial.hold("screen", VICTIM)
    trial.calls()
    begun, process = time.monotonic(), trial.flow.start(*more)
    program = held()
    job = up_to(program.pid, JOB_KEEPER)
    silence(trial.nodes(), program.node, how)
    run = ended(process, begun)
    need_lost(trial.nodes(), program.node)
    trial.need_lost(run, VICTIM)
    return program, job, run


def goes_on(trial: Trial, program: Held, job: Sequence[Process], well: bool) -> None:
    """Lets the attempt that was lost go on to its end, well or by a fault, on its node, which still does not answer; nothing that stands may
    change by it."""
    before = trial.standing()
    if not well:
        os.kill(program.pid, signal.SIGKILL)
    program.release()
    if not wait_until(lambda: not any(one.runs() for one in job), HOLD_SECONDS):
        raise RunFault("the attempt that was lost does not come to its end")
    after = trial.standing()
    if after != before:
        names = sorted(name for name in before.keys() | after.keys() if before.get(name) != after.get(name))
        raise RunFault(f"the attempt that was lost changed what stands: {', '.join(names)}")


def node_killed(trial: Trial) -> str:
    """The daemon of a node is killed while the node screens a part, and nothing is tried again within the run."""
    program, job, run = node_silent(trial, signal.SIGKILL)
    if run.status == 0 or trial.flow.joined().exists():
        raise RunFault("the run did not fail, or something was joined")
    seconds = trial.need_mended(trial.owed())
    trial.need_elsewhere(VICTIM, program.node)
    goes_on(trial, program, job, True)
    wake(trial.nodes(), program.node, signal.SIGKILL)
    return f"{told(seconds)}, on another node, while the lost attempt still ran; it came to its end and changed nothing"


def node_hangs(trial: Trial) -> str:
    """The daemon of a node hangs while the node screens a part, which is tried again within the run."""
    program, job, run = node_silent(trial, signal.SIGSTOP, "--config", "retries=1")
    need_success(run, "the run that tries again")
    need_equal(trial.flow.joined(), trial.right)
    trial.need_elsewhere(VICTIM, program.node)
    if trial.calls().count(trial.call("screen", VICTIM)) != 2:
        raise RunFault("the part was not screened twice")
    goes_on(trial, program, job, False)
    trial.need_mended([])
    wake(trial.nodes(), program.node, signal.SIGSTOP)
    return f"told by its part, tried again on another node within the run, in {run.seconds:.0f} s; the lost attempt failed late and changed nothing"


@contextmanager
def small_disk(folder: Path, size: int) -> Iterator[None]:
    """A file system of its own with so many bytes of room at a folder."""
    folder.mkdir(parents=True, exist_ok=True)
    run = subprocess.run(["mount", "-t", "tmpfs", "-o", f"size={size}", "trial", str(folder)], capture_output=True, text=True)
    if run.returncode:
        raise RunFault(f"a small disk cannot be mounted, which root alone may: {run.stderr.strip()}")
    try:
        yield
    finally:
        subprocess.run(["umount", "--lazy", str(folder)], check=False)


def disk_full(trial: Trial) -> str:
    """The disk of one part has room for half of its result."""
    size = max(trial.size(VICTIM) // 2, PAGE)
    trial.forget((VICTIM, OTHER))
    with small_disk(trial.flow.results / PARTS / trial.part(VICTIM).name, size):
        run = trial.flow.run()
        trial.need_told(run, VICTIM, "ended with status 5", "No space left on device")
    return told(trial.need_mended(both(trial)))


def certificate_damaged(trial: Trial) -> str:
    """A byte of a certificate is another one when it is checked than when it was screened."""
    trial.forget((VICTIM, OTHER))
    trial.by_hand("screen", VICTIM)
    damage(trial.flow.results / PARTS / trial.part(VICTIM).name / RESULT / "screen.cert")
    trial.need_told(trial.flow.run(), VICTIM, "check: screen.cert is not what was screened")
    return told(trial.need_mended(both(trial)))


def certificate_damaged_later(trial: Trial) -> str:
    """A byte of a certificate is another one when it is joined than when it was checked."""
    trial.forget((VICTIM, OTHER))
    trial.by_hand("screen", VICTIM)
    trial.by_hand("check", VICTIM)
    damage(trial.flow.results / PARTS / trial.part(VICTIM).name / RESULT / "screen.cert")
    trial.need_told(trial.flow.run(), VICTIM, "screen.cert is not what was screened")
    return told(trial.need_mended(both(trial)))


def ephemerides_changed(trial: Trial) -> str:
    """An ephemeris is written anew, with the same bytes, while a part is checked."""
    trial.forget((VICTIM, OTHER))
    held = trial.hold("check", VICTIM)
    begun, process = time.monotonic(), trial.flow.start()
    program = held()
    wait_until(lambda: trial.is_checked(OTHER), HOLD_SECONDS)
    settings = trial.flow.plan().settings
    path = min(path for path in Path(settings.folder).iterdir() if path.name.endswith(settings.suffix))
    path.write_bytes(path.read_bytes())
    program.release()
    trial.need_told(ended(process, begun), VICTIM, f"ephemerides changed while the part was checked: {path.name}")
    return told(trial.need_mended([trial.call("check", VICTIM)]))


def damage(path: Path) -> None:
    """Turns a bit of a file, in the middle."""
    content = bytearray(path.read_bytes())
    content[len(content) // 2] ^= 1
    path.write_bytes(bytes(content))


def told(seconds: float) -> str:
    """What is said of a fault that is mended."""
    return f"told by its part, nothing joined, mended by the next run in {seconds:.0f} s"


# What becomes of files does not depend on how parts are run: this is tried on the processors of this machine, and the rest through Slurm.
FAULTS = (
    Fault("killed", "a part is killed in the middle", part_killed),
    Fault("disk-full", "the disk of a part is full", disk_full),
    Fault("damaged", "a certificate is damaged between screening and checking", certificate_damaged),
    Fault("damaged-later", "a certificate is damaged between checking and joining", certificate_damaged_later),
    Fault("changed", "an ephemeris is written while a part is checked", ephemerides_changed),
)
NODE_FAULTS = (
    Fault("killed-job", "a part is killed in the middle, through Slurm", part_killed),
    Fault("node-down", "a node is taken away", node_down),
    Fault("node-killed", "a node stops answering, killed", node_killed),
    Fault("node-hangs", "a node stops answering, and hangs", node_hangs),
)


def program_that_waits(folder: Path, program: Path) -> Path:
    """Makes the folder of a program that can be held, and gives the program."""
    for name in ("hold", "held"):
        (folder / name).mkdir(parents=True, exist_ok=True)
    path = folder / "conj"
    path.write_text(HELD_PROGRAM.replace("FOLDER", str(folder)).replace("PROGRAM", str(program)), "utf-8")
    path.chmod(0o755)
    return path

