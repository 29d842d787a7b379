"""Surveying, screening, checking and confirming parts, by a program that is made up for it."""

from __future__ import annotations

import hashlib
import os
import re
import shutil
import subprocess
import time
import unittest
import unittest.mock
from collections.abc import Callable, Sequence
from pathlib import Path

from tests.support import SAMPLES, FolderCase, need_numpy

need_numpy()

from conjtools.faults import RunFault  # noqa: E402
from conjtools.parts.doing import check, confirm, read_record, screen  # noqa: E402
from conjtools.parts.plan import PARTS, Part, Plan, read_plan, read_stamps  # noqa: E402
from conjtools.parts.program import program_checksum, run_program  # noqa: E402
from conjtools.parts.publish import publish  # noqa: E402
from conjtools.parts.settings import read_settings  # noqa: E402
from conjtools.parts.stamps import Stamp, check_same, settled, stamps_of  # noqa: E402
from conjtools.parts.survey import survey  # noqa: E402

PROGRAM = Path(__file__).with_name("made_up_program.py")
LONG_AGO = time.time() - 3600


class PartsCase(FolderCase):
    """A copy of samples/catalogue, half an hour in parts of ten minutes."""

    def setUp(self) -> None:
        super().setUp()
        shorter = unittest.mock.patch("conjtools.parts.stamps.SETTLED_SECONDS", 0.02)
        shorter.start()
        self.addCleanup(shorter.stop)
        self.files = self.folder / "files"
        self.files.mkdir()
        for number in (1, 2, 3):
            shutil.copy(SAMPLES / "catalogue" / f"demo-0{number}.oem", self.files)
        self.faults = self.folder / "faults"
        self.faults.mkdir()
        os.environ["FAULTS"] = str(self.faults)
        self.addCleanup(os.environ.pop, "FAULTS")
        self.results = self.folder / "results"

    def surveyed(self, **more: object) -> Plan:
        """The plan of a survey."""
        told = {
            "folder": str(self.files), "from": "2025-01-01T00:00:00", "to": "2025-01-01T00:30:00", "part_minutes": 10, "results": str(self.results),
            "program": str(PROGRAM), **more,
        }  # fmt: skip
        survey(read_settings(told, ""), told, 1)
        return read_plan(self.results / "plan.json")

    def stamps(self) -> dict[str, Stamp]:
        """The stamps of the last survey."""
        return read_stamps(self.results / "plan.json")

    def result(self, part: Part) -> Path:
        """Where the result of a part stands."""
        return self.results / PARTS / part.name / "result"

    def change(self, old: str, new: str) -> None:
        """Changes a text that stands in demo-02.oem once."""
        path = self.files / "demo-02.oem"
        text = path.read_text("ascii")
        self.assertEqual(text.count(old), 1)
        path.write_text(text.replace(old, new), "ascii")

    def refused(self, said: str, act: object, *words: object) -> None:
        """What is done and refused, and what is said of it."""
        assert callable(act)
        with self.assertRaises(RunFault) as caught:
            act(*words)
        self.assertIn(said, str(caught.exception))


class Survey(PartsCase):
    def names(self, **more: object) -> list[str]:
        """The names of the parts of a survey."""
        return [part.name for part in self.surveyed(**more).parts]

    def test_parts_are_named_by_what_they_are_made_of(self) -> None:
        names = self.names()
        self.assertEqual([name[:5] for name in names], ["0001-", "0002-", "0003-"])
        self.assertTrue(all(re.fullmatch(r"\d{4}-[0-9a-f]{16}", name) for name in names))
        self.assertEqual(self.names(), names)
        self.assertEqual(len({name[5:] for name in names}), 3)
        row = re.search(r"^2025-01-01T00:15:00 (\S+)", (self.files / "demo-02.oem").read_text("ascii"), re.MULTILINE)
        assert row
        self.change(row[0], f"{row[0]}1")
        changed = self.names()
        self.assertEqual([old == new for old, new in zip(names, changed)], [True, False, True])
        self.change(f"{row[0]}1", row[0])
        self.assertEqual(self.names(), names)

    def test_what_touches_all(self) -> None:
        names = self.names()
        self.assertNotEqual(self.names(options={"threshold": 6000})[0], names[0])
        self.assertNotEqual(self.names(to="2025-01-01T00:31:00")[2], names[2])
        self.assertEqual(self.names(to="2025-01-01T00:31:00")[:2], names[:2], "the first parts are the same in a longer window")
        shutil.copy(SAMPLES / "catalogue" / "demo-04.oem", self.files)
        self.assertTrue(set(self.names()).isdisjoint(names))
        (self.files / "demo-04.oem").unlink()
        self.assertEqual(self.names(), names)
        other = self.folder / "other"
        other.write_text(f"#!/bin/sh\nexec '{PROGRAM}' \"$@\"\n", "ascii")
        other.chmod(0o755)
        self.assertTrue(set(self.names(program=str(other))).isdisjoint(names))

    def test_primaries_touch_all(self) -> None:
        """Another file that says the same touches nothing; the file of primaries is no ephemeris, whatever its name."""
        fleet = self.files / "fleet.oem"
        options = {"primaries": fleet.name}
        fleet.write_text("2099-001A\n", "ascii")
        names = self.names(options=options)
        self.assertEqual(list(self.stamps()), ["demo-01.oem", "demo-02.oem", "demo-03.oem", fleet.name])
        fleet.write_text("2099-002A\n2099-001A\n", "ascii")
        both = self.names(options=options)
        self.assertTrue(set(both).isdisjoint(names))
        fleet.write_text("2099-001A\n2099-002A\n", "ascii")
        self.assertEqual(self.names(options=options), both)
        fleet.write_text("2099-001A\n2099-009A\n", "ascii")
        self.refused("ended with status 3: conj: fleet.oem: line 2: Primaries Unknown", lambda: self.surveyed(options=options))
        fleet.unlink()
        self.assertTrue(set(self.names()).isdisjoint(names + both))

    def test_files_that_are_refused(self) -> None:
        self.change("CENTER_NAME = EARTH", "CENTER_NAME = MOON")
        self.refused("ended with status 3: conj: demo-02.oem: line", self.surveyed)
        self.assertFalse((self.results / "plan.json").exists())
        self.assertEqual(list(self.results.iterdir()), [])

    def test_a_launcher_that_has_built_nothing(self) -> None:
        (self.folder / "crates.txt").touch()
        launcher = self.folder / "conj"
        shutil.copy(PROGRAM, launcher)
        self.refused("not built yet", lambda: self.surveyed(program=str(launcher)))

    def test_a_launcher_has_built_a_program_with_its_proof_and_one_without(self) -> None:
        (self.folder / "crates.txt").touch()
        launcher = self.folder / "conj"
        shutil.copy(PROGRAM, launcher)
        built = {name: self.folder / ".conj" / name for name in ("program", "unproved/program")}
        for name, path in built.items():
            path.parent.mkdir(exist_ok=True)
            path.write_text(name, "ascii")
        proved = program_checksum(str(launcher))
        self.assertEqual(proved, " ".join(hashlib.sha256(path.read_bytes()).hexdigest() for path in (launcher, built["program"])))
        with unittest.mock.patch.dict(os.environ, {"CONJ_UNPROVED": "1"}):
            unproved = program_checksum(str(launcher))
            self.assertEqual(unproved, " ".join(hashlib.sha256(path.read_bytes()).hexdigest() for path in (launcher, built["unproved/program"])))
            built["unproved/program"].unlink()
            self.refused("not built yet", lambda: program_checksum(str(launcher)))
        self.assertEqual(program_checksum(str(launcher)), proved)


class Stamps(PartsCase):
    def test_each_change_is_seen(self) -> None:
        beside = {"sizes.txt", "fleet.txt"}
        before = stamps_of(self.files, ".oem", beside)
        self.assertEqual(list(before), ["demo-01.oem", "demo-02.oem", "demo-03.oem"])
        path = self.files / "demo-02.oem"
        content = path.read_bytes()
        path.write_bytes(content)
        os.utime(path, ns=(before[path.name][1], before[path.name][1]))
        self.refused("ephemerides changed since then: demo-02.oem;", check_same, before, stamps_of(self.files, ".oem", ()), "since then")
        for name in beside:
            (self.files / name).touch()
        path.unlink()
        self.refused("demo-02.oem and 2 more;", check_same, before, stamps_of(self.files, ".oem", beside), "since")
        check_same(before, dict(before), "since")

    def test_waits_until_the_last_change_is_a_while_ago(self) -> None:
        told = iter([{"a": (1, 0, int(time.time() * 1e9), 1)}, {"a": (1, 0, int(LONG_AGO * 1e9), 2)}])
        self.assertEqual(settled(lambda: next(told))["a"][3], 2)


class Doing(PartsCase):
    def setUp(self) -> None:
        super().setUp()
        self.plan = self.surveyed()
        self.part = self.plan.parts[1]

    def screened(self) -> Path:
        """The result of a part that is screened."""
        screen(self.plan, self.stamps(), self.part, 1)
        return self.result(self.part)

    def checked(self) -> Path:
        """The result of a part that is screened and checked."""
        result = self.screened()
        check(self.plan, self.stamps(), self.part)
        return result

    def left(self) -> list[str]:
        """What stands in the folder of the part."""
        return sorted(path.name for path in (self.results / PARTS / self.part.name).iterdir())

    def test_what_stands_behind(self) -> None:
        """The files that `scripts/join` reads, with checksums by another program."""
        result = self.checked()
        self.assertEqual(self.left(), ["result"])
        certificate = (result / "screen.cert").read_bytes()
        self.assertEqual((result / "screen.cert.sha256").read_text("ascii"), f"{hashlib.sha256(certificate).hexdigest()}  screen.cert\n")
        self.assertEqual((result / "check.out").read_text("ascii"), "ACCEPTED\n")
        self.assertIn("WINDOW 2025-01-01T00:10:00.000000 2025-01-01T00:19:59.999999\n", (result / "screen.report").read_text("ascii"))
        self.assertEqual((result / "screen.out").read_text("ascii").split("\n")[0], "OBJECTS 3")
        self.assertEqual(sorted(read_record(result).sums), ["screen.cert", "screen.err", "screen.out", "screen.report"])
        run = subprocess.run(["sha256sum", "--check", "--quiet", "screened", "checked"], cwd=result, capture_output=True, text=True)
        self.assertEqual((run.returncode, run.stdout), (0, ""), run.stderr)

    def test_a_run_that_fails_leaves_nothing(self) -> None:
        for told, said in (("conj: write fault", "screen ended with status 5: conj: write fault"), ("9", "screen ended with status 137")):
            (self.faults / "screen-2025-01-01T00:10:00.000000").write_text(told, "ascii")
            self.refused(said, self.screened)
            self.assertEqual(self.left(), [])
        self.checked()

    def test_what_a_killed_attempt_left_is_taken_away(self) -> None:
        folder = self.results / PARTS / self.part.name
        (folder / "attempt-node-1").mkdir(parents=True)
        (folder / ".attempt-node-1.part").mkdir()
        (folder / "attempt-node-1.out").touch()
        (folder / "result").mkdir()
        (folder / "result" / "screen.report").write_text("half", "ascii")
        self.checked()
        self.assertEqual(self.left(), ["result"])

    def test_a_damaged_file_is_put_aside(self) -> None:
        for name in ("screen.cert", "screen.report", "screen.out"):
            result = self.screened()
            content = bytearray((result / name).read_bytes())
            content[-1] ^= 1
            (result / name).write_bytes(bytes(content))
            self.refused(f"{name} is not what was screened", check, self.plan, self.stamps(), self.part)
            self.assertEqual(self.left(), ["refused"])
        result = self.screened()
        (result / "screen.cert").unlink()
        self.refused("screen.cert is not what was screened", check, self.plan, self.stamps(), self.part)
        self.checked()

    def test_a_result_without_its_record_is_put_aside(self) -> None:
        """As where the job of a lost attempt fails late, and takes away what it was to make."""
        for act in (lambda: check(self.plan, self.stamps(), self.part), lambda: confirm(self.plan, self.stamps())):
            for text in (None, "# screened\n"):
                record = self.checked() / "screened"
                if text is None:
                    record.unlink()
                else:
                    record.write_text(text, "ascii")
                self.refused("the next run screens the part anew", act)
                self.assertEqual(self.left(), ["refused"])
        self.refused("no record of what was screened", check, self.plan, self.stamps(), self.part)

    def test_the_survey_puts_aside_what_has_no_record(self) -> None:
        stands = self.plan.parts[0]
        screen(self.plan, self.stamps(), stands, 1)
        (self.checked() / "screened").unlink()
        self.result(self.plan.parts[2]).mkdir(parents=True)
        self.surveyed()
        self.assertEqual(self.left(), ["refused"])
        self.assertTrue((self.result(stands) / "screened").exists())
        self.assertFalse((self.results / PARTS / self.plan.parts[2].name / "refused").exists())

    def late(self, meanwhile: Callable[[], object]) -> bool:
        """An attempt in which something happens while the program runs; whether its result took its place."""

        def slow(words: Sequence[str], out: Path, errors: Path) -> int:
            meanwhile()
            return run_program(words, out, errors)

        with unittest.mock.patch("conjtools.parts.doing.run_program", slow):
            return screen(self.plan, self.stamps(), self.part, 1)

    def test_an_attempt_that_is_late_changes_nothing(self) -> None:
        """It was lost, and goes on when another has screened the part, which is checked too."""
        result = self.result(self.part)
        stood: list[dict[str, int]] = []

        def files() -> dict[str, int]:
            return {path.name: path.stat().st_ino for path in result.iterdir()}

        def meanwhile() -> None:
            with unittest.mock.patch("conjtools.parts.doing.run_program", run_program):
                self.checked()
            stood.append(files())

        self.assertFalse(self.late(meanwhile))
        self.assertIn("checked", stood[0])
        self.assertEqual(files(), stood[0])
        self.assertEqual(self.left(), ["result"])

    def test_a_part_that_is_screened_again_by_hand(self) -> None:
        """What stood before takes no place from it; nor does what has no record."""
        result = self.checked()
        stood = (result / "screened").stat().st_ino
        self.assertTrue(self.late(lambda: None))
        self.assertNotEqual((result / "screened").stat().st_ino, stood)
        self.assertFalse((result / "checked").exists())
        (result / "screened").unlink()
        self.assertTrue(self.late(lambda: None))
        self.assertEqual(self.left(), ["result"])

    def test_a_certificate_that_is_not_accepted_is_put_aside(self) -> None:
        """Its record fits it, so that the program alone sees it."""
        result = self.screened()
        certificate = (result / "screen.cert").read_bytes().replace(b"STATE", b"STALE", 1)
        old = hashlib.sha256((result / "screen.cert").read_bytes()).hexdigest()
        (result / "screen.cert").write_bytes(certificate)
        record = (result / "screened").read_text("ascii").replace(old, hashlib.sha256(certificate).hexdigest())
        (result / "screened").write_text(record, "ascii")
        self.refused("ended with status 1: conj: not accepted: line 5: ShellOf", check, self.plan, self.stamps(), self.part)
        self.assertEqual([name for name in self.left() if name == "result"], [])

    def test_a_check_that_fails_otherwise_keeps_the_result(self) -> None:
        self.screened()
        (self.faults / "check-2025-01-01T00:10:00.000000").write_text("conj: out of memory", "ascii")
        self.refused("check ended with status 5: conj: out of memory", check, self.plan, self.stamps(), self.part)
        self.assertFalse((self.result(self.part) / "checked").exists())
        check(self.plan, self.stamps(), self.part)

    def test_ephemerides_that_change(self) -> None:
        self.screened()
        stamps = self.stamps()
        path = self.files / "demo-03.oem"
        path.write_bytes(path.read_bytes())
        self.refused("ephemerides changed since the survey: demo-03.oem", screen, self.plan, stamps, self.part, 1)
        self.refused("ephemerides changed since the survey: demo-03.oem", check, self.plan, stamps, self.part)
        self.assertEqual(self.surveyed().parts, self.plan.parts, "the same content")
        check(self.plan, self.stamps(), self.part)

    def test_confirm(self) -> None:
        for part in self.plan.parts:
            screen(self.plan, self.stamps(), part, 1)
        for part in self.plan.parts[:2]:
            check(self.plan, self.stamps(), part)
        self.refused(f"{self.plan.parts[2].name}: not checked", confirm, self.plan, self.stamps())
        check(self.plan, self.stamps(), self.plan.parts[2])
        confirm(self.plan, self.stamps())
        report = self.result(self.part) / "screen.report"
        report.write_bytes(report.read_bytes().replace(b"DEMO", b"DOME", 1))
        self.refused(f"{self.part.name}: screen.report is not what was screened", confirm, self.plan, self.stamps())
        self.assertEqual(self.left(), ["refused"])

    def test_publish(self) -> None:
        publish(self.plan)
        self.assertFalse((self.results / "latest").exists())
        for name in (self.plan.whole, "older"):
            (self.results / "whole" / name).mkdir(parents=True)
        for name in (self.part.name, "0009-0000"):
            (self.results / PARTS / name).mkdir(parents=True)
        publish(self.plan)
        self.assertEqual(os.readlink(self.results / "latest"), f"whole/{self.plan.whole}")
        self.assertEqual([path.name for folder in ("whole", PARTS) for path in (self.results / folder).iterdir()], [self.plan.whole, self.part.name])


if __name__ == "__main__":
    unittest.main()
