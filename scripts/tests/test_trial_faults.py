"""What a trial asks of its runs, without a cluster: what a run owes, what stands, how a lost part is told, and which faults are made."""

from __future__ import annotations

import os
import signal
import subprocess
import time
import unittest
from pathlib import Path

from tests.support import FolderCase, need_numpy

need_numpy()

from conjtools.epochs import epoch_text  # noqa: E402
from conjtools.faults import RunFault, UsageFault  # noqa: E402
from conjtools.parts.plan import PARTS, PLAN, RESULT, Part, plan_text  # noqa: E402
from conjtools.report import Window  # noqa: E402
from conjtools.trial.command import asked_for, parser  # noqa: E402
from conjtools.trial.daemons import PID_SUFFIX, Process, begun_at, send, up_to, wait_until  # noqa: E402
from conjtools.trial.faults import FAULTS, NODE_FAULTS, Held, Trial, goes_on  # noqa: E402
from conjtools.trial.runs import Run, Workflow  # noqa: E402

MINUTE = 60_000_000
START = 1_735_689_600_000_000


class TrialCase(FolderCase):
    """The results of a run with three parts, of which the first is checked and the second screened."""

    def setUp(self) -> None:
        super().setUp()
        told = {
            "folder": "files", "from": epoch_text(START), "to": epoch_text(START + 3 * MINUTE), "results": "results", "part_minutes": 1, "program": "conj",
        }  # fmt: skip
        self.parts = tuple(Part(f"000{place}-0", Window(START + place * MINUTE, START + (place + 1) * MINUTE - 1)) for place in range(3))
        self.results = self.folder / "results"
        self.results.mkdir()
        (self.results / PLAN).write_text(plan_text(told, self.parts, "0"), "ascii")
        self.trial = Trial(Workflow(self.folder, (), {}), self.folder / "holder", self.folder / "right")
        for place, records in enumerate((("screened", "checked"), ("screened",))):
            result = self.result(place)
            result.mkdir(parents=True)
            for record in records:
                (result / record).write_text(record, "ascii")

    def result(self, place: int) -> Path:
        """Where the result of a part stands."""
        return self.results / PARTS / self.parts[place].name / RESULT


class Owed(TrialCase):
    def test_what_the_next_run_has_to_make(self) -> None:
        self.assertEqual(self.trial.owed(), [self.trial.call("screen", 2), self.trial.call("check", 1), self.trial.call("check", 2)])
        (self.result(0) / "screened").unlink()
        self.assertEqual(self.trial.owed()[:2], [self.trial.call("screen", 0), self.trial.call("screen", 2)])

    def test_how_large_a_result_is(self) -> None:
        self.assertEqual([self.trial.size(place) for place in (0, 1)], [len("screenedchecked"), len("screened")])

    def test_what_stands(self) -> None:
        before = self.trial.standing()
        self.assertEqual(sorted(before), [f"parts/0000-0/result/{name}" for name in ("checked", "screened")] + ["parts/0001-0/result/screened"])
        (self.results / PARTS / self.parts[2].name / "attempt-n1-1").mkdir(parents=True)
        self.assertEqual(self.trial.standing(), before)
        (self.result(1) / "screened").write_text("other", "ascii")
        self.assertNotEqual(self.trial.standing(), before)

    def test_a_part_that_is_told_as_lost(self) -> None:
        lost = "Error in rule screen:\n    jobid: 5\n    output: results/parts/0001-0/result/screened\n    shell:\n"
        other = lost.replace("0001-0", "0002-0")
        self.trial.need_lost(Run(1, f"{other}\n[Mon]\n{lost}", 1.0), 1)
        for said in ("", other, f"{other}\nError in rule check:\n    output: results/parts/0001-0/result/checked\n"):
            with self.assertRaises(RunFault):
                self.trial.need_lost(Run(1, said, 1.0), 1)

    def test_the_node_that_was_lost(self) -> None:
        for place in (0, 1, 2):
            self.result(place).mkdir(parents=True, exist_ok=True)
            (self.result(place) / "checked").write_text(f"# screened on n{place}\n# checked on n3\n", "ascii")
        self.trial.need_elsewhere(1, "n2")
        for node in ("n1", "n3"):
            with self.assertRaises(RunFault):
                self.trial.need_elsewhere(1, node)


class LateAttempt(TrialCase):
    def late(self, script: str, well: bool) -> None:
        """An attempt that waits until it is let go on, and then does what a script says."""
        file = self.folder / "held"
        file.touch()
        process = subprocess.Popen(["sh", "-c", f"while [ -e {file} ]; do sleep 0.05; done; {script}"])
        self.addCleanup(process.wait)
        goes_on(self.trial, Held(process.pid, "n1", file), up_to(process.pid, "nothing")[:1], well)
        self.assertFalse(file.exists())

    def test_one_that_changes_nothing(self) -> None:
        self.late("exit 0", True)
        self.late("sleep 100", False)

    def test_one_that_takes_a_record_away(self) -> None:
        with self.assertRaises(RunFault) as caught:
            self.late(f"rm {self.result(0)}/screened", True)
        self.assertIn("changed what stands: parts/0000-0/result/screened", str(caught.exception))


class Processes(FolderCase):
    def test_those_up_to_a_name(self) -> None:
        found = up_to(os.getpid(), "nothing of this name")
        self.assertEqual(found[0], Process(os.getpid(), str(begun_at(os.getpid()))))
        self.assertIn(os.getppid(), [one.pid for one in found] or [os.getppid()])
        name = Path(f"/proc/{os.getpid()}/comm").read_text("ascii").strip()
        self.assertEqual(up_to(os.getpid(), name), [])
        self.assertFalse(Process(os.getpid(), "0").runs())

    def test_a_signal_goes_to_the_process_that_was_started(self) -> None:
        process = subprocess.Popen(["sleep", "100"])
        self.addCleanup(process.wait)
        self.addCleanup(process.kill)
        path = self.folder / f"a{PID_SUFFIX}"
        path.write_text(f"{process.pid} {begun_at(process.pid)}\n", "ascii")
        send(path, signal.SIGSTOP)
        state = Path(f"/proc/{process.pid}/stat")
        self.assertTrue(wait_until(lambda: ") T " in state.read_text("ascii"), 20.0))
        path.write_text(f"{process.pid} 0\n", "ascii")
        with self.assertRaises(RunFault):
            send(path, signal.SIGCONT)
        time.sleep(0.1)
        self.assertIn(") T ", state.read_text("ascii"))


class Words(unittest.TestCase):
    def test_which_faults_are_made(self) -> None:
        self.assertIsNone(parser().parse_args([]).faults)
        every = parser().parse_args(["--faults"])
        self.assertEqual((asked_for(every, FAULTS), asked_for(every, NODE_FAULTS)), (list(FAULTS), list(NODE_FAULTS)))
        some = parser().parse_args(["--faults", "node-hangs", "killed"])
        self.assertEqual([fault.name for faults in (FAULTS, NODE_FAULTS) for fault in asked_for(some, faults)], ["killed", "node-hangs"])
        with self.assertRaises(UsageFault):
            parser().parse_args(["--faults", "node"])

    def test_options_of_the_program(self) -> None:
        told = parser().parse_args(["--option", "large", "--option=suffix=.txt"])
        self.assertEqual(told.options, [("large", ""), ("suffix", ".txt")])
        for text in ("larger", "large=1", "suffix", "suffix=", "threshold=5"):
            with self.assertRaises(UsageFault):
                parser().parse_args(["--option", text])


if __name__ == "__main__":
    unittest.main()
