"""workflow/Snakefile on the processors of this machine, with a program that is made up for it."""

from __future__ import annotations

import json
import os
import shutil
import subprocess
import unittest
from pathlib import Path

from tests.support import ROOT, SAMPLES, FolderCase, need_numpy

need_numpy()

from conjtools.parts.plan import PARTS, WHOLE, Plan, read_plan  # noqa: E402

PROGRAM = Path(__file__).with_name("made_up_program.py")
SNAKEMAKE = Path("/usr/bin/snakemake")
# Notes the rule of a job, does it, and says its number.
SUBMIT = r"""#!/bin/sh
sed -n 's/^# properties = .*"rule": "\([a-z]*\)".*/\1/p' "$1" >>submitted
sh "$1" >/dev/null 2>&1
echo 1
"""


class Workflow(FolderCase):
    def setUp(self) -> None:
        if not SNAKEMAKE.exists():
            raise unittest.SkipTest("snakemake is missing: apt-get install snakemake")
        if not (ROOT / "scripts" / "join").exists():
            raise unittest.SkipTest("scripts/join is not there")
        super().setUp()
        self.files = self.folder / "files"
        self.files.mkdir()
        for number in (1, 2):
            shutil.copy(SAMPLES / "catalogue" / f"demo-0{number}.oem", self.files)
        (self.folder / "faults").mkdir()
        self.configure()

    def configure(self, **more: object) -> None:
        """Writes the configuration."""
        told = {
            "folder": "files", "from": "2025-01-01T00:00:00", "to": "2025-01-01T00:30:00", "part_minutes": 15, "options": {"threshold": 5000},
            "results": "results", "threads": 1, "retries": 0, "program": str(PROGRAM), **more,
        }  # fmt: skip
        (self.folder / "config.yaml").write_text(json.dumps(told), "utf-8")

    def run_workflow(self, *more: str) -> subprocess.CompletedProcess[str]:
        """A run of the workflow."""
        words = [str(SNAKEMAKE), "--snakefile", str(ROOT / "workflow" / "Snakefile"), "--profile", str(ROOT / "workflow" / "profiles" / "local")]
        return subprocess.run(
            [*words, "--configfile", "config.yaml", "--cores", "2", "--nocolor", *more], cwd=self.folder, stdin=subprocess.DEVNULL, capture_output=True,
            text=True, env={**os.environ, "FAULTS": str(self.folder / "faults"), "CI": "true"},
        )  # fmt: skip

    def plan(self) -> Plan:
        """The plan of the last survey."""
        return read_plan(self.folder / "results" / "plan.json")

    def made(self, run: subprocess.CompletedProcess[str]) -> list[str]:
        """The rules that ran, in order of their names."""
        lines = (line.strip() for line in run.stderr.splitlines())
        return sorted(line.rstrip(":").split()[1] for line in lines if line.startswith(("rule ", "checkpoint ")))

    def test_a_fault_is_told_and_mended_and_what_is_not_touched_stays(self) -> None:
        (self.folder / "faults" / "screen-2025-01-01T00:15:00.000000").write_text("conj: write fault", "ascii")
        run = self.run_workflow()
        self.assertNotEqual(run.returncode, 0)
        results = self.folder / "results"
        first, second = ((results / PARTS / part.name) for part in self.plan().parts)
        self.assertIn(f"parts: part 2 of 2 ({second.name}): screen: made_up_program.py screen ended with status 5: conj: write fault", run.stderr)
        self.assertTrue((first / "result" / "checked").exists())
        self.assertFalse((results / WHOLE).exists())

        run = self.run_workflow()
        self.assertEqual(run.returncode, 0, run.stderr)
        self.assertEqual(self.made(run), ["check", "join", "screen", "show", "survey"])
        whole = results / "latest"
        self.assertEqual(whole.resolve(), (results / WHOLE / self.plan().whole).resolve())
        self.assertIn("WINDOW 2025-01-01T00:00:00.000000 2025-01-01T00:30:00.000000\n", (whole / "joined" / "screen.report").read_text("ascii"))
        self.assertIn("<html", (whole / "screen.html").read_text("utf-8"))

        (results / PARTS / second.name / "result" / "screened").unlink()
        shutil.rmtree(results / WHOLE)
        run = self.run_workflow()
        self.assertEqual(run.returncode, 0, run.stderr)
        self.assertEqual(self.made(run), ["check", "join", "screen", "show", "survey"], "a record that was taken away")

        path = self.files / "demo-01.oem"
        path.write_text(path.read_text("ascii").replace("2025-01-01T00:03:00 ", "2025-01-01T00:03:00 0"), "ascii")
        run = self.run_workflow()
        self.assertEqual(run.returncode, 0, run.stderr)
        self.assertEqual(self.made(run), ["check", "join", "screen", "show", "survey"])
        self.assertEqual((self.plan().parts[0].name == first.name, self.plan().parts[1].name == second.name), (False, True))
        self.assertEqual(sorted(path.name for path in (results / PARTS).iterdir()), sorted(part.name for part in self.plan().parts))

    def test_what_objects_cover_in_both_parts(self) -> None:
        """The first object covers a quarter of an hour over the border. A check of a report that tells it has to be asked for it."""
        self.hold_covering(str(PROGRAM))

    @unittest.skipUnless(os.environ.get("CONJ_PROGRAM"), "CONJ_PROGRAM names no program")
    def test_what_objects_cover_by_the_program(self) -> None:
        program = os.path.abspath(os.environ["CONJ_PROGRAM"])
        joined = self.hold_covering(program)
        words = [program, "screen", str(self.files), "--from", "2025-01-01T00:00:00", "--to", "2025-01-01T00:30:00", "--coverage", "--out", "one"]
        one = subprocess.run(words, cwd=self.folder, capture_output=True, check=True)
        self.assertEqual((joined / "screen.report").read_bytes(), (self.folder / "one" / "screen.report").read_bytes())
        self.assertEqual((joined / "summary.txt").read_bytes().splitlines()[-1], one.stdout.splitlines()[-1])

    def test_primaries_in_both_parts(self) -> None:
        """A check is asked for the same primaries as the screening."""
        self.hold_primaries(str(PROGRAM))

    @unittest.skipUnless(os.environ.get("CONJ_PROGRAM"), "CONJ_PROGRAM names no program")
    def test_primaries_by_the_program(self) -> None:
        program = os.path.abspath(os.environ["CONJ_PROGRAM"])
        joined = self.hold_primaries(program)
        words = [program, "screen", str(self.files), "--from", "2025-01-01T00:00:00", "--to", "2025-01-01T00:30:00", "--primaries", "fleet.txt", "--out", "one"]
        subprocess.run(words, cwd=self.folder, capture_output=True, check=True)
        self.assertEqual((joined / "screen.report").read_bytes(), (self.folder / "one" / "screen.report").read_bytes())

    def hold_primaries(self, program: str) -> Path:
        """Runs the workflow over three objects of which the second is a primary, holds what is told of it, and gives the folder of the joined report."""
        shutil.copy(SAMPLES / "catalogue" / "demo-03.oem", self.files)
        (self.files / "fleet.txt").write_text("2099-002A\n", "ascii")
        self.configure(options={"primaries": "fleet.txt"}, program=program)
        run = self.run_workflow()
        self.assertEqual(run.returncode, 0, run.stderr)
        whole = self.folder / "results" / "latest"
        text = (whole / "joined" / "screen.report").read_text("ascii")
        self.assertEqual((text.count("\nPRIMARY\n"), text.count("\nID 2099-002A\nNAME DEMO 02\nPRIMARY\n")), (1, 1))
        self.assertTrue((whole / "joined" / "summary.txt").read_text("ascii").startswith("OBJECTS 3\nPAIRS 2\n"))
        self.assertIn('name="primary"', (whole / "screen.html").read_text("utf-8"))
        return (whole / "joined").resolve()

    def hold_covering(self, program: str) -> Path:
        """Runs the workflow with `coverage`, holds what it tells of the first object, and gives the folder of the joined report."""
        path = self.files / "demo-01.oem"
        ends = "USEABLE_START_TIME = 2025-01-01T00:05:00\nUSEABLE_STOP_TIME = 2025-01-01T00:20:00\nMETA_STOP\n"
        path.write_text(path.read_text("ascii").replace("META_STOP\n", ends), "ascii")
        self.configure(options={"coverage": True}, program=program)
        run = self.run_workflow()
        self.assertEqual(run.returncode, 0, run.stderr)
        whole = self.folder / "results" / "latest"
        text = (whole / "joined" / "screen.report").read_text("ascii")
        spans = [line for line in text.splitlines() if line.startswith("COVERED")]
        self.assertEqual(spans, [f"COVERED 2025-01-01T00:{first}:00.000000 2025-01-01T00:{last}:00.000000" for first, last in (("05", "20"), ("00", "30"))])
        self.assertTrue((whole / "joined" / "summary.txt").read_text("ascii").endswith("\nUNCOVERED 1\n"))
        self.assertIn("1 does not cover the window", (whole / "screen.html").read_text("utf-8"))
        return (whole / "joined").resolve()

    def test_a_job_of_a_cluster_is_tried_again_by_another_job(self) -> None:
        """It is the run that tries again, so that another node can be taken, and not the job by itself."""
        self.configure(part_minutes=60, retries=1, page=False)
        (self.folder / "faults" / "screen-2025-01-01T00:00:00.000000").write_text("conj: write fault", "ascii")
        submit = self.folder / "submit"
        submit.write_text(SUBMIT, "ascii")
        submit.chmod(0o755)
        run = self.run_workflow("--cluster", str(submit), "--jobs", "1", "--latency-wait", "5")
        self.assertEqual(run.returncode, 0, run.stderr)
        self.assertIn("Error in rule screen", run.stderr)
        self.assertEqual((self.folder / "submitted").read_text("ascii").split(), ["survey", "screen", "screen", "check", "join"])


if __name__ == "__main__":
    unittest.main()
