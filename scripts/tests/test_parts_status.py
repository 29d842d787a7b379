"""workflow/profiles/slurm/status: what became of a job of Slurm, by commands of Slurm that are made up for it."""

from __future__ import annotations

import os
import subprocess
import unittest

from tests.support import ROOT, FolderCase

STATUS = ROOT / "workflow" / "profiles" / "slurm" / "status"
COMMAND = """#!/bin/sh
echo "$0 $*" >>calls
cat "$0.told" 2>/dev/null
"""


class Status(FolderCase):
    def setUp(self) -> None:
        super().setUp()
        for name in ("scontrol", "sacct", "scancel"):
            (self.folder / name).write_text(COMMAND, "ascii")
            (self.folder / name).chmod(0o755)

    def told(self, scontrol: str, sacct: str = "") -> str:
        """What is said of a job of which `scontrol` and `sacct` say so."""
        (self.folder / "scontrol.told").write_text(scontrol, "ascii")
        (self.folder / "sacct.told").write_text(sacct, "ascii")
        environment = {**os.environ, "PATH": f"{self.folder}:{os.environ['PATH']}"}
        run = subprocess.run([str(STATUS), "7"], cwd=self.folder, env=environment, capture_output=True, text=True, check=True)
        return run.stdout.strip()

    def test_what_the_controller_says(self) -> None:
        for state, said in (
            ("COMPLETED", "success"), ("PENDING", "running"), ("CONFIGURING", "running"), ("RUNNING", "running"), ("COMPLETING", "running"),
            ("NODE_FAIL", "failed"), ("FAILED", "failed"), ("CANCELLED", "failed"), ("TIMEOUT", "failed"), ("OUT_OF_MEMORY", "failed"),
        ):  # fmt: skip
            with self.subTest(state):
                self.assertEqual(self.told(f"JobId=7 JobName=conj-screen JobState={state} Reason=None Dependency=(null)\n"), said)
        self.assertNotIn("scancel", (self.folder / "calls").read_text("ascii"))

    def test_a_job_whose_nodes_are_all_down_is_given_up(self) -> None:
        self.assertEqual(self.told("JobId=7 JobState=PENDING Reason=ReqNodeNotAvail,_UnavailableNodes:n1 Dependency=(null)\n"), "failed")
        self.assertIn(f"{self.folder}/scancel 7\n", (self.folder / "calls").read_text("ascii"))

    def test_a_controller_that_does_not_answer_is_asked_again(self) -> None:
        self.assertEqual(self.told("slurm_load_jobs error: Unable to contact slurm controller (connect failure)\n"), "running")

    def test_a_job_that_the_controller_forgot(self) -> None:
        for sacct, said in (("COMPLETED\n", "success"), (" NODE_FAIL\n", "failed"), ("", "failed")):
            self.assertEqual(self.told("slurm_load_jobs error: Invalid job id specified\n", sacct), said)


if __name__ == "__main__":
    unittest.main()
