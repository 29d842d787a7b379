"""`scripts/join` as it is run: what it writes, byte for byte, and each refusal with its place."""

from __future__ import annotations

import contextlib
import fcntl
import io
import os
import re
import resource
import shutil
import subprocess
import time
import unittest
from dataclasses import dataclass
from pathlib import Path

from tests.parts import OBJECTS, Told, at, certificate, checksum, report, summary, when, write_drifting, write_files, write_part
from tests.support import RELATIVE_STATE, ROOT, FolderCase, need_numpy, oem

need_numpy()

from conjtools.epochs import read_written_epoch  # noqa: E402
from conjtools.join.command import main  # noqa: E402

JOIN = ROOT / "scripts" / "join"
CREATED = "2025-02-03T04:05:06.000007"

# The parts: two minutes, one minute, and the tick behind. The pair of SAT A and SAT B meets across both borders.
FIRST, SECOND, THIRD = (at(0), at("119.999999")), (at(120), at("179.999999")), (at(180), at(180))
FIRST_TOLD = (
    Told(1, 2, 30, 2_000_000_000_000, ("NEAR 20 40",), True), Told(1, 2, "119.999999", 3_000_000_000_500, ("NEAR 110 119.999999",), True),
    Told(2, 3, 60, 4_000_000_000_000, ("NEAR 50 70",)),
)  # fmt: skip
SECOND_TOLD = (
    Told(1, 2, 150, 2_500_000_000_123, ("NEAR 120 160", "UNDECIDED 160.000001 179.999999"), True),
    Told(1, 3, 140, 1_000_000_000_007, ("NEAR 130 150",), True),
)  # fmt: skip
THIRD_TOLD = (Told(1, 2, 180, 5_000_000_400_000, ("UNDECIDED 180 180",), True),)
WHOLE_TOLD = (
    FIRST_TOLD[0], Told(1, 2, 150, 2_500_000_000_123, ("NEAR 110 160", "UNDECIDED 160.000001 180"), True), SECOND_TOLD[1], FIRST_TOLD[2],
)  # fmt: skip


@dataclass(frozen=True)
class Run:
    """How a run ended, and what it said."""

    returncode: int
    stdout: str
    stderr: str


class JoinCase(FolderCase):
    """Runs of the script in a folder of their own, which is the current one, with the ephemerides in `files`."""

    def setUp(self) -> None:
        super().setUp()
        self.addCleanup(os.chdir, os.getcwd())
        os.chdir(self.folder)
        write_files(Path("files"))

    def run_join(self, *words: str) -> Run:
        """A run within this process."""
        with contextlib.redirect_stdout(io.StringIO()) as said, contextlib.redirect_stderr(io.StringIO()) as faults:
            try:
                status = main(words)
            except SystemExit as end:
                status = int(end.code or 0)
        return Run(status, said.getvalue(), faults.getvalue())

    def join(self, *parts: str, more: tuple[str, ...] = ()) -> Run:
        """A run over these parts into `whole`."""
        return self.run_join("--parts", *parts, "--files", "files", "--out", "whole", *more)

    def refused(self, *parts: str, line: str, status: int = 3, more: tuple[str, ...] = ()) -> None:
        """The run ends with this one line, and nothing is written."""
        before = sorted(os.listdir())
        self.assertEqual(self.join(*parts, more=more), Run(status, "", f"join: {line}\n"))
        self.assertEqual(sorted(os.listdir()), before)

    def write_three(self) -> None:
        """Writes the three parts."""
        for name, window, told in (("p1", FIRST, FIRST_TOLD), ("p2", SECOND, SECOND_TOLD), ("p3", THIRD, THIRD_TOLD)):
            write_part(Path(name), *window, told)

    def tell_covered(self, part: str, uncovered: int, *lines: str) -> None:
        """Has a part tell what each object covers, and how many do not cover its window."""
        for (_, _, name), told in zip(OBJECTS, lines):
            self.change(f"{part}/screen.report", f"NAME {name}\n", f"NAME {name}\n{told}")
        with open(f"{part}/screen.out", "a", encoding="ascii") as file:
            file.write(f"UNCOVERED {uncovered}\n")

    def change(self, name: str, old: str, new: str) -> None:
        """Changes a text that stands once in a file."""
        text = Path(name).read_bytes().decode("ascii")
        self.assertEqual(text.count(old), 1)
        Path(name).write_bytes(text.replace(old, new).encode("ascii"))


class Whole(JoinCase):
    def test_three_parts_in_any_order(self) -> None:
        self.write_three()
        whole_summary = summary(3, (3, 6, 9, 12, 15, 18, 21, 24), 4, 3)
        self.assertEqual(self.join("p3", "p1", "p2", more=("--created", CREATED)), Run(0, whole_summary, ""))
        names = ["000001.cdm", "000002.cdm", "000003.cdm", "certificates.txt", "screen.report", "summary.txt"]
        self.assertEqual(sorted(os.listdir("whole")), names)
        self.assertEqual(Path("whole/screen.report").read_bytes().decode(), report(at(0), at(180), WHOLE_TOLD))
        self.assertEqual(Path("whole/summary.txt").read_bytes().decode(), whole_summary)
        for number in (1, 2, 3):
            # The messages of a run over the whole window, but for its time.
            wanted = WHOLE_TOLD[number - 1].message(number, at(0), at(180))
            wanted = wanted.replace("CREATION_DATE = 2025-01-02T00:00:00.000000", f"CREATION_DATE = {CREATED}")
            self.assertEqual(Path(f"whole/{number:06}.cdm").read_bytes().decode(), wanted)

    def test_the_list_of_certificates(self) -> None:
        self.write_three()
        self.join("p1", "p2", "p3")
        sums = [checksum(certificate(*window).encode())[:64] for window in (FIRST, SECOND, THIRD)]
        lines = Path("whole/certificates.txt").read_bytes().decode().split("\n")
        windows = [f"{when(0)} {when('119.999999')}", f"{when(120)} {when('179.999999')}", f"{when(180)} {when(180)}"]
        wanted = [f"# WINDOW {when(0)} {when(180)}"]
        for number, (window, told) in enumerate(zip(windows, sums), 1):
            wanted += [f"# PART {number} {window}", f"{told}  ../p{number}/screen.cert"]
        self.assertEqual(lines[4:], [*wanted, ""])
        self.assertTrue(all(line.startswith("# ") for line in lines[:4]))
        self.assertEqual(subprocess.run(["sha256sum", "--check", "--strict", "--quiet", "certificates.txt"], cwd="whole", check=False).returncode, 0)
        self.change("p2/screen.cert", "END", "end")
        checked = subprocess.run(["sha256sum", "--check", "certificates.txt"], cwd="whole", capture_output=True, check=False)
        self.assertEqual(checked.returncode, 1)
        self.assertIn(b"../p2/screen.cert: FAILED\n", checked.stdout)

    def test_one_part(self) -> None:
        write_part(Path("p1"), *FIRST, FIRST_TOLD)
        self.assertEqual(self.join("p1").returncode, 0)
        self.assertEqual(Path("whole/screen.report").read_bytes(), Path("p1/screen.report").read_bytes())
        self.assertEqual(Path("whole/summary.txt").read_bytes(), Path("p1/screen.out").read_bytes())

    def test_the_relative_state_of_a_message(self) -> None:
        write_part(Path("p1"), *FIRST, FIRST_TOLD)
        self.change("p1/000001.cdm", "START_SCREEN_PERIOD", f"{RELATIVE_STATE}START_SCREEN_PERIOD")
        self.assertEqual(self.join("p1", more=("--created", CREATED)).returncode, 0)
        wanted = Path("p1/000001.cdm").read_text("ascii").replace("CREATION_DATE = 2025-01-02T00:00:00.000000", f"CREATION_DATE = {CREATED}")
        self.assertEqual(Path("whole/000001.cdm").read_text("ascii"), wanted)
        self.assertEqual(wanted.count("\n"), 88)
        shutil.rmtree("whole")
        self.change("p1/000001.cdm", f"START_SCREEN_PERIOD = {when(0)}", f"START_SCREEN_PERIOD = {when(1)}")
        self.refused("p1", line=f"p1/000001.cdm: line 13: START_SCREEN_PERIOD is {when(1)}, and {when(0)} is wanted")

    def test_one_creation_date_that_is_the_time_of_the_run(self) -> None:
        self.write_three()
        before = time.time()
        self.join("p1", "p2", "p3")
        dates = {Path(f"whole/00000{number}.cdm").read_text("ascii").split("\n")[1] for number in (1, 2, 3)}
        self.assertEqual(len(dates), 1)
        created = read_written_epoch(dates.pop().removeprefix("CREATION_DATE = ")) / 1e6
        self.assertLessEqual(before - 1e-3, created)
        self.assertLessEqual(created, time.time())

    def test_sizes_and_messages_that_the_nearer_part_does_not_have(self) -> None:
        sizes = (1_500_000_000, 0, 750_000_000)
        write_part(Path("p1"), *FIRST, (FIRST_TOLD[1],), sizes)
        told = Told(1, 2, 130, 2_999_999_999_999, ("NEAR 120 140",))
        write_part(Path("p2"), *SECOND, (told, SECOND_TOLD[1]), sizes)
        self.assertEqual(self.join("p1", "p2").returncode, 0)
        whole = (Told(1, 2, 130, 2_999_999_999_999, ("NEAR 110 140",)), SECOND_TOLD[1])
        self.assertEqual(Path("whole/screen.report").read_bytes().decode(), report(at(0), at("179.999999"), whole, sizes))
        self.assertEqual(sorted(path.name for path in Path("whole").glob("*.cdm")), ["000002.cdm"])

    def test_primaries_stay_and_are_those_of_each_part(self) -> None:
        """The first and the third object, of which each pair has one."""
        self.write_three()
        wanted = report(at(0), at(180), WHOLE_TOLD)
        for name in ("SAT A", "SAT C"):
            for part in ("p1", "p2", "p3"):
                self.change(f"{part}/screen.report", f"NAME {name}\n", f"NAME {name}\nPRIMARY\n")
            wanted = wanted.replace(f"NAME {name}\n", f"NAME {name}\nPRIMARY\n")
        self.assertEqual(self.join("p1", "p2", "p3").returncode, 0)
        self.assertEqual(Path("whole/screen.report").read_bytes().decode(), wanted)
        shutil.rmtree("whole")
        self.change("p3/screen.report", "NAME SAT C\nPRIMARY\n", "NAME SAT C\n")
        self.refused("p1", "p2", "p3", line="p3/screen.report: line 13: PRIMARY of object 3 is not that in p1/screen.report")

    def test_same_distance_is_decided_by_the_ephemerides(self) -> None:
        shutil.rmtree("files")
        write_drifting(Path("files"))
        halves = ((at(0), at("59.999999"), "59.999999", "NEAR 0 59.999999"), (at(60), at(120), "60", "NEAR 60 120"))
        for number, (first, last, closest, span) in enumerate(halves, 1):
            folder = write_part(Path(f"d{number}"), first, last, (Told(1, 2, closest, 10**12 + 1, (span,)),))
            text = (folder / "screen.report").read_text("ascii")
            (folder / "screen.report").write_text(re.sub(r"OBJECT 3\n.*\n.*\n.*\n", "", text), "ascii")
            (folder / "screen.out").write_text(summary(2, (1,) * 8, 1, 0), "ascii")
            cert = certificate(first, last, 2)
            (folder / "screen.cert").write_text(cert, "ascii")
            (folder / "screen.cert.sha256").write_text(checksum(cert.encode()), "ascii")
        self.assertEqual(self.join("d1", "d2").returncode, 0)
        self.assertIn(Told(1, 2, 60, 10**12 + 1, ("NEAR 0 120",)).text(1) + "END\n", Path("whole/screen.report").read_text("ascii"))

    def test_covered_spans_are_joined_at_borders(self) -> None:
        self.write_three()
        covered = {
            "p1": (f"COVERED {when(0)} {when(20)}\nCOVERED {when(30)} {when('119.999999')}\n", "COVERED NONE\n", f"COVERED {when(1)} {when(2)}\n"),
            "p2": (f"COVERED {when(120)} {when('179.999999')}\n", f"COVERED {when(121)} {when(130)}\n", "COVERED NONE\n"),
            "p3": (f"COVERED {when(180)} {when(180)}\n", f"COVERED {when(180)} {when(180)}\n", "COVERED NONE\n"),
        }
        for number, (part, spans) in enumerate(covered.items()):
            self.tell_covered(part, 3 - number, *spans)
        self.assertEqual(self.join("p1", "p2", "p3").returncode, 0)
        text = Path("whole/screen.report").read_text("ascii")
        self.assertIn("MESSAGES 3\nUNCOVERED 3\n", Path("whole/summary.txt").read_text("ascii"))
        for lines in (
            f"NAME SAT A\nCOVERED {when(0)} {when(20)}\nCOVERED {when(30)} {when(180)}\nOBJECT",
            f"NAME SAT B\nCOVERED {when(121)} {when(130)}\nCOVERED {when(180)} {when(180)}\nOBJECT",
            f"NAME SAT C\nCOVERED {when(1)} {when(2)}\nENCOUNTER",
        ):  # fmt: skip
            self.assertIn(lines, text)

    def test_objects_that_do_not_cover_the_whole_window(self) -> None:
        """SAT A leaves out a tick of the first part, SAT B some of the second and all of the third, and SAT C none."""
        self.write_three()
        ends = [f"{when(0)} {when('119.999999')}", f"{when(120)} {when('179.999999')}", f"{when(180)} {when(180)}"]
        first, second, third = (f"COVERED {window}\n" for window in ends)
        self.tell_covered("p1", 1, f"COVERED {when('0.000001')} {when('119.999999')}\n", first, first)
        self.tell_covered("p2", 1, second, f"COVERED {when(120)} {when(130)}\nCOVERED {when('130.000002')} {when('179.999999')}\n", second)
        self.tell_covered("p3", 1, third, "COVERED NONE\n", third)
        run = self.join("p1", "p2", "p3")
        self.assertEqual((run.returncode, run.stderr), (0, ""))
        self.assertEqual(run.stdout, summary(3, (3, 6, 9, 12, 15, 18, 21, 24), 4, 3) + "UNCOVERED 2\n")
        self.assertEqual(run.stdout, Path("whole/summary.txt").read_text("ascii"))
        self.assertEqual(re.findall(r"^(?:NAME|COVERED) .*\n", Path("whole/screen.report").read_text("ascii"), re.MULTILINE), [
            "NAME SAT A\n", f"COVERED {when('0.000001')} {when(180)}\n",
            "NAME SAT B\n", f"COVERED {when(0)} {when(130)}\n", f"COVERED {when('130.000002')} {when('179.999999')}\n",
            "NAME SAT C\n", f"COVERED {when(0)} {when(180)}\n",
        ])  # fmt: skip

    def test_parts_without_objects(self) -> None:
        """Their reports do not say whether they were asked what objects cover; their summaries do."""
        for name, window in (("p1", FIRST), ("p2", SECOND)):
            write_part(Path(name), *window, ())
            text = Path(f"{name}/screen.report").read_text("ascii")
            Path(f"{name}/screen.report").write_text(text[: text.index("OBJECT 1")] + "END\n", "ascii")
            Path(f"{name}/screen.out").write_text(summary(0, (0,) * 8, 0, 0) + "UNCOVERED 0\n", "ascii")
            cert = certificate(*window, 0)
            Path(f"{name}/screen.cert").write_text(cert, "ascii")
            Path(f"{name}/screen.cert.sha256").write_text(checksum(cert.encode()), "ascii")
        self.assertEqual(self.join("p1", "p2"), Run(0, summary(0, (0,) * 8, 0, 0) + "UNCOVERED 0\n", ""))
        shutil.rmtree("whole")
        self.change("p2/screen.out", "UNCOVERED 0\n", "")
        self.refused("p1", "p2", line="p2/screen.out: line 13: UNCOVERED stands here or in p1/screen.out, and not in both")

    def test_paths_of_the_list_lead_from_the_new_directory(self) -> None:
        os.mkdir("deep")
        write_part(Path("deep/p1"), *FIRST, ())
        os.symlink("deep", "link")
        run = self.run_join("--parts", "link/p1", "--files", str(self.folder / "files"), "--out", "deep/new/")
        self.assertEqual((run.returncode, run.stderr), (0, ""))
        self.assertIn("  ../p1/screen.cert\n", Path("deep/new/certificates.txt").read_text("ascii"))

    def test_launcher(self) -> None:
        write_part(Path("p1"), *FIRST, FIRST_TOLD)
        words = [str(JOIN), "--parts", "p1", "--files", "files", "--out", "whole"]
        first = subprocess.run(words, capture_output=True, text=True, check=False)
        self.assertEqual((first.returncode, first.stdout, first.stderr), (0, Path("p1/screen.out").read_text("ascii"), ""))
        again = subprocess.run(words, capture_output=True, text=True, check=False)
        self.assertEqual((again.returncode, again.stdout, again.stderr), (1, "", "join: whole: exists already\n"))


class Refusals(JoinCase):
    def setUp(self) -> None:
        super().setUp()
        self.write_three()

    def test_windows_that_do_not_tile(self) -> None:
        tell = "p{}/screen.report: line 2: {}: the part begins at {}, and p1/screen.report ends at " + when("119.999999")
        self.refused("p1", "p3", line=tell.format(3, "a gap", when(180)))
        write_part(Path("p4"), at(60), at("179.999999"), ())
        self.refused("p4", "p1", line=tell.format(4, "an overlap", when(60)))
        write_part(Path("p5"), at("119.999999"), at("179.999999"), ())
        self.refused("p1", "p5", line=tell.format(5, "an overlap", when("119.999999")))
        self.refused("p1", "p1", line=tell.format(1, "an overlap", when(0)))

    def test_a_part_that_begins_within_a_minute(self) -> None:
        write_part(Path("q1"), at(0), at("90.499999"), ())
        write_part(Path("q2"), at("90.5"), at(120), ())
        self.refused("q1", "q2", line=f"q2/screen.report: line 2: the part does not begin a whole number of minutes behind {when(0)}")

    def test_minutes_count_from_the_first_tick_of_the_window(self) -> None:
        write_part(Path("q1"), at("0.25"), at("60.249999"), ())
        write_part(Path("q2"), at("60.25"), at(70), ())
        self.assertEqual(self.join("q1", "q2").returncode, 0)

    def test_the_window_that_is_asked_for(self) -> None:
        self.refused("p1", "p2", more=("--from", when(-60)),
                     line=f"p1/screen.report: line 2: the window begins at {when(-60)}, and its first part at {when(0)}")
        self.refused("p1", "p2", more=("--to", when(180)),
                     line=f"p2/screen.report: line 2: the window ends at {when(180)}, and its last part at {when('179.999999')}")
        self.assertEqual(self.join("p1", "p2", "p3", more=("--from", "2025-01-01T00:00:00", "--to", "2025-001T00:03:00Z")).returncode, 0)

    def test_an_empty_window(self) -> None:
        write_part(Path("q1"), at(1), at(0), ())
        self.refused("q1", line="q1/screen.report: line 2: the part has no tick")

    def test_parts_of_different_tasks(self) -> None:
        for old, new, line in (
            ("THRESHOLD 5000000000000", "THRESHOLD 5000000000001", "3: THRESHOLD is 5000000000001, and 5000000000000 in p1/screen.report"),
            ("FILE b.oem", "FILE bb.oem", "9: FILE of object 2 is not that in p1/screen.report"),
            ("ID 2025-002A", "ID 2025-002B", "10: ID of object 2 is not that in p1/screen.report"),
            ("NAME SAT C", "NAME SAT D", "15: NAME of object 3 is not that in p1/screen.report"),
            ("NAME SAT A\n", "NAME SAT A\nPRIMARY\n", "4: PRIMARY of object 1 is not that in p1/screen.report"),
        ):
            with self.subTest(new):
                kept = Path("p2/screen.report").read_bytes()
                self.change("p2/screen.report", old, new)
                self.refused("p1", "p2", line=f"p2/screen.report: line {line}")
                Path("p2/screen.report").write_bytes(kept)
        write_part(Path("q2"), *SECOND, (), (1, 2, 3))
        self.refused("p1", "q2", line="q2/screen.report: line 8: SIZE of object 1 is not that in p1/screen.report")
        write_part(Path("q1"), *FIRST, (), (1, 2, 4))
        self.refused("q1", "q2", line="q2/screen.report: line 18: SIZE of object 3 is not that in q1/screen.report")
        self.refused("q1", "p2", line="p2/screen.report: line 4: SIZE of object 1 is not that in q1/screen.report")
        self.tell_covered("p2", 3, *["COVERED NONE\n"] * 3)
        self.refused("p1", "p2", line="p2/screen.report: line 4: COVERED of object 1 is not that in p1/screen.report")

    def test_another_number_of_objects(self) -> None:
        text = re.sub(r"OBJECT 3\n.*\n.*\n.*\n", "", Path("p3/screen.report").read_text("ascii"))
        Path("p3/screen.report").write_text(text, "ascii")
        self.change("p3/screen.out", "OBJECTS 3", "OBJECTS 2")
        self.refused("p1", "p2", "p3", line="p3/screen.report: line 0: 2 objects, and 3 in p1/screen.report")

    def test_a_check_that_did_not_accept(self) -> None:
        wanted = "p2/check.out: line 1: the certificate was not accepted: ACCEPTED is wanted, and nothing else, not: "
        for content, told in (
            (b"", ""), (b"conj: not accepted: line 11: Untiled\n", "conj: not accepted: line 11: Untiled"), (b"ACCEPTED", "ACCEPTED"),
            (b"ACCEPTED\nREWRITTEN\n", "ACCEPTED"), (b"\xff\x1b[2J\n", "??[2J"),
        ):  # fmt: skip
            Path("p2/check.out").write_bytes(content)
            self.refused("p1", "p2", "p3", line=wanted + told)
        os.remove("p2/check.out")
        self.refused("p1", "p2", "p3", line="p2/check.out: line 0: No such file or directory")

    def test_another_certificate_than_was_checked(self) -> None:
        self.change("p2/screen.cert", "END", "CELL 1 2 3 4 F\nEND")
        now, then = checksum(Path("p2/screen.cert").read_bytes())[:64], checksum(certificate(*SECOND).encode())[:64]
        self.refused("p1", "p2", "p3",
                     line=f"p2/screen.cert: line 0: not the certificate that was checked: its checksum is {now}, and that at the check was {then}")
        os.remove("p2/screen.cert")
        self.refused("p1", "p2", "p3", line="p2/screen.cert: line 0: No such file or directory")

    def test_a_certificate_of_another_report(self) -> None:
        for old, new, line in (
            ("CONJ-CERT 1", "CONJ-CART 1", "1: not a certificate: CONJ-CERT is wanted"),
            (f"WINDOW {SECOND[0]}", f"WINDOW {SECOND[0] + 1}", f"2: not the certificate of the report: WINDOW {SECOND[0]} {SECOND[1]} is wanted"),
            ("THRESHOLD 5", "THRESHOLD 6", "3: not the certificate of the report: THRESHOLD 5000000000000 is wanted"),
            ("OBJECTS 3", "OBJECTS 4", "4: not the certificate of the report: OBJECTS 3 is wanted"),
            ("CONJ-CERT 1", "CONJ-CERT 2", "1: version 2, and 1 in p1/screen.cert"),
        ):
            with self.subTest(new):
                cert = certificate(*SECOND).replace(old, new)
                Path("p2/screen.cert").write_text(cert, "ascii")
                Path("p2/screen.cert.sha256").write_text(checksum(cert.encode()), "ascii")
                self.refused("p1", "p2", "p3", line=f"p2/screen.cert: line {line}")

    def test_checksums_of_another_form(self) -> None:
        digits = checksum(certificate(*SECOND).encode())[:64]
        for text, told in (
            ("", "not one line of sha256sum of screen.cert"), (digits + "\n", "not one line of sha256sum of screen.cert"),
            (f"{digits}  screen.cert\n" * 2, "not one line of sha256sum of screen.cert"),
            (f"{digits}  screen.cert2\n", "the checksum is not of screen.cert"),
        ):  # fmt: skip
            Path("p2/screen.cert.sha256").write_text(text, "ascii")
            self.refused("p1", "p2", "p3", line=f"p2/screen.cert.sha256: line 1: {told}")
        Path("p2/screen.cert.sha256").write_text(f"{digits} *some/where/screen.cert\n", "ascii")
        self.assertEqual(self.join("p1", "p2", "p3").returncode, 0)

    def test_a_summary_of_another_run(self) -> None:
        for old, new, line in (
            ("OBJECTS 3", "OBJECTS 4", "1: OBJECTS is 4, and the report has 3"),
            ("PAIRS 3", "PAIRS 2", "2: PAIRS is 2, and 3 in p1/screen.out"),
            ("ENCOUNTERS 2", "ENCOUNTERS 1", "11: ENCOUNTERS is 1, and the report has 2"),
            ("MESSAGES 2", "MESSAGES 0", "12: MESSAGES is 0, and the report has 2"),
            ("TOUCHING 2\n", "", "4: TOUCHING and a number are wanted, as screen prints them"),
            ("LEAVES 5", "LEAVES five", "7: LEAVES and a number are wanted, as screen prints them"),
            ("MESSAGES 2\n", "MESSAGES 2", "13: the summary is cut, or goes on behind its last line"),
            ("MESSAGES 2\n", "MESSAGES 2\nCHECK ACCEPTED\n", "13: the summary is cut, or goes on behind its last line"),
            ("MESSAGES 2\n", "MESSAGES 2\nUNCOVERED 0\n", "13: UNCOVERED has to stand where the report tells what objects cover, and there alone"),
            ("MESSAGES 2\n", "MESSAGES 2\nUNCOVERED \n", "13: UNCOVERED and a number are wanted, as screen prints them"),
            ("MESSAGES 2\n", "MESSAGES 2\nUNCOVERED 0\nKEPT 0\n", "14: the summary is cut, or goes on behind its last line"),
        ):  # fmt: skip
            with self.subTest(new):
                kept = Path("p2/screen.out").read_bytes()
                self.change("p2/screen.out", old, new)
                self.refused("p1", "p2", "p3", line=f"p2/screen.out: line {line}")
                Path("p2/screen.out").write_bytes(kept)

    def test_a_report_that_is_none(self) -> None:
        self.change("p2/screen.report", "CONJ-REPORT 1", "CONJ-REPORT 2")
        self.refused("p1", "p2", line="p2/screen.report: line 1: a report of another version; version 1 is read")
        Path("p2/screen.report").write_bytes(Path("p1/screen.report").read_bytes()[:-4])
        self.refused("p1", "p2", line="p2/screen.report: line 22: the report is cut: END is wanted")
        self.refused("p1", "p5", line="p5/check.out: line 0: No such file or directory")

    def test_messages_that_are_not_of_their_encounter(self) -> None:
        for old, new, line in (
            ("TCA = 2025-01-01T00:02:30", "TCA = 2025-01-01T00:02:31", "0: the message is not of encounter 1 of the report"),
            ("MISS_DISTANCE = 2500.000000123", "MISS_DISTANCE = 2500.000000124", "0: the message is not of encounter 1 of the report"),
            ("OBJECT_NAME = SAT B", "OBJECT_NAME = SAT C", "0: the message is not of encounter 1 of the report"),
            ("MESSAGE_ID = CONJ_000001", "MESSAGE_ID = CONJ_000002", "0: the message is not of encounter 1 of the report"),
            ("MESSAGE_ID = CONJ_000001", "MESSAGE_ID = CONJ_0000001", "4: MESSAGE_ID is CONJ_0000001, and CONJ_000001 is wanted"),
            ("MESSAGE_ID = CONJ_000001", "MESSAGE_ID = OTHER_000001", "4: MESSAGE_ID is OTHER_000001, and CONJ_000001 is wanted"),
            ("ORIGINATOR = CONJ", "ORIGINATOR = C ONJ", "3: ORIGINATOR is not of the form: C ONJ"),
            (f"START_SCREEN_PERIOD = {when(120)}", f"START_SCREEN_PERIOD = {when(0)}",
             f"7: START_SCREEN_PERIOD is {when(0)}, and {when(120)} is wanted"),
            (f"STOP_SCREEN_PERIOD = {when('179.999999')}", f"STOP_SCREEN_PERIOD = {when(180)}",
             f"8: STOP_SCREEN_PERIOD is {when(180)}, and {when('179.999999')} is wanted"),
            ("OBJECT = OBJECT2\n", "", "82: the message is cut, or goes on behind its last line"),
        ):  # fmt: skip
            with self.subTest(new):
                kept = Path("p2/000001.cdm").read_bytes()
                self.change("p2/000001.cdm", old, new)
                self.refused("p1", "p2", "p3", line=f"p2/000001.cdm: line {line}")
                Path("p2/000001.cdm").write_bytes(kept)
        os.remove("p2/000001.cdm")
        self.refused("p1", "p2", "p3", line="p2/000001.cdm: line 0: No such file or directory")

    def test_a_summary_that_does_not_count_what_objects_cover(self) -> None:
        self.tell_covered("p2", 1, *[f"COVERED {when(120)} {when('179.999999')}\n"] * 2, f"COVERED {when(120)} {when('179.999998')}\n")
        for old, new, line in (
            ("UNCOVERED 1", "UNCOVERED 0", "13: UNCOVERED is 0, and the report has 1"),
            ("UNCOVERED 1\n", "", "13: UNCOVERED has to stand where the report tells what objects cover, and there alone"),
        ):
            kept = Path("p2/screen.out").read_bytes()
            self.change("p2/screen.out", old, new)
            self.refused("p2", line=f"p2/screen.out: line {line}")
            Path("p2/screen.out").write_bytes(kept)
        self.assertEqual(self.join("p2").returncode, 0)

    def test_a_message_that_is_not_needed_may_be_any(self) -> None:
        # The encounters 2 of p1 and 1 of p3 end in that of p2.
        os.remove("p1/000002.cdm")
        os.remove("p3/000001.cdm")
        self.assertEqual(self.join("p1", "p2", "p3").returncode, 0)

    def test_originators_that_differ(self) -> None:
        for number in (1, 2):
            name = f"p2/00000{number}.cdm"
            self.change(name, "ORIGINATOR = CONJ\n", "ORIGINATOR = OPS\n")
            self.change(name, "MESSAGE_ID = CONJ_", "MESSAGE_ID = OPS_")
        self.refused("p1", "p2", "p3", line="p2/000001.cdm: line 3: ORIGINATOR is OPS, and CONJ in messages before")

    def test_ephemerides_of_other_objects(self) -> None:
        Path("files/b.oem").unlink()
        self.refused("p1", "p2", "p3", line="p1/screen.report: line 9: files/b.oem: No such file or directory")
        rows = [f"{when(0)} 7001 0 0 0 0 0", f"{when(60)} 7001 0 0 0 0 0"]
        for name, designator, line in (
            ("SAT B", "2025-002B", "10: ID is 2025-002A, and that of b.oem is 2025-002B"),
            ("SAT X", "2025-002A", "11: NAME is SAT B, and that of b.oem is SAT X"),
        ):
            Path("files/b.oem").write_text(oem(rows, when(0), when(60), name, designator), "ascii")
            self.refused("p1", "p2", "p3", line=f"p1/screen.report: line {line}")
        Path("files/b.oem").write_text("CCSDS_OEM_VERS = 2.0\nWRONG = 1\n", "ascii")
        self.refused("p1", "p2", "p3", line="files/b.oem: line 2: Unknown")

    def test_distances_that_the_ephemerides_do_not_give(self) -> None:
        # SAT A and SAT B rest one kilometre apart, so that the bound is 10^24 and prints 10^12.
        write_part(Path("q1"), *FIRST, (Told(1, 2, 115, 10**12, ("NEAR 110 119.999999",)),))
        write_part(Path("q2"), *SECOND, (Told(1, 2, 120, 10**12, ("NEAR 120 130",)),))
        self.assertEqual(self.join("q1", "q2").returncode, 0)
        self.assertIn(f"ENCOUNTER 1 1 2 NEAR {when(115)} {10**12} NOCOV\n", Path("whole/screen.report").read_text("ascii"))
        shutil.rmtree("whole")
        for name in ("q1", "q2"):
            self.change(f"{name}/screen.report", f" {10**12} NOCOV", f" {10**12 + 1} NOCOV")
        told = f"encounter 1: by the ephemerides the miss distance is {10**12} nm, and the report says {10**12 + 1}"
        self.refused("q1", "q2", line=f"q1/screen.report: line 16: {told}")

    def test_words(self) -> None:
        for words, told in (
            ((), "the following arguments are required: --parts, --files, --out"),
            (("--parts", "p1", "--files", "files"), "the following arguments are required: --out"),
            (("--parts", "p1", "--files", "files", "--out", "w", "--created", "now"), "argument --created: not an epoch (Form): now"),
            (("--parts", "p1", "--files", "files", "--out", "w", "--to", "1900-01-01T00:00:00"),
             "argument --to: not an epoch (Range): 1900-01-01T00:00:00"),
        ):  # fmt: skip
            self.assertEqual(self.run_join(*words), Run(2, "", f"join: {told}\n"))
        self.assertEqual(self.run_join("--parts", "p1", "--files", "files", "--out", "a\nb"),
                         Run(2, "", "join: a path with a control character or a backslash cannot be listed: 'a\\nb'\n"))


class Places(JoinCase):
    def setUp(self) -> None:
        super().setUp()
        self.write_three()

    def test_nothing_has_the_name(self) -> None:
        Path("whole").mkdir()
        self.refused("p1", status=1, line="whole: exists already")
        Path("whole").rmdir()
        Path("whole").write_text("kept")
        self.refused("p1", status=1, line="whole: exists already")
        self.assertEqual(Path("whole").read_text(), "kept")
        Path("whole").unlink()
        os.symlink("nowhere", "whole")
        self.refused("p1", status=1, line="whole: exists already")
        for name in (".", "..", "/"):
            self.assertEqual(self.run_join("--parts", "p1", "--files", "files", "--out", name), Run(1, "", f"join: {name}: exists already\n"))

    def test_a_folder_that_is_not_there(self) -> None:
        run = self.run_join("--parts", "p1", "--files", "files", "--out", "no/whole")
        self.assertEqual(run, Run(1, "", "join: no/.whole.part: No such file or directory\n"))

    def test_what_an_earlier_run_left_is_taken_away(self) -> None:
        Path(".whole.part").mkdir()
        Path(".whole.part/000009.cdm").write_text("left")
        self.assertEqual(self.join("p1", "p2", "p3").returncode, 0)
        self.assertNotIn("000009.cdm", os.listdir("whole"))
        self.assertFalse(Path(".whole.part").exists())

    def test_another_run_that_is_writing(self) -> None:
        Path(".whole.part").mkdir()
        held = os.open(".whole.part", os.O_RDONLY)
        self.addCleanup(os.close, held)
        fcntl.flock(held, fcntl.LOCK_EX)
        self.refused("p1", status=1, line=".whole.part: another run is writing there")

    def test_a_write_that_fails(self) -> None:
        def few_bytes() -> None:
            resource.setrlimit(resource.RLIMIT_FSIZE, (500, 500))

        words = [str(JOIN), "--parts", "p1", "--files", "files", "--out", "whole"]
        run = subprocess.run(words, capture_output=True, text=True, check=False, preexec_fn=few_bytes)
        self.assertEqual((run.returncode, run.stdout, run.stderr), (1, "", "join: whole: File too large\n"))
        self.assertEqual(sorted(os.listdir()), ["files", "p1", "p2", "p3"])

    def test_a_file_in_the_way(self) -> None:
        Path(".whole.part").write_text("kept")
        self.refused("p1", status=1, line=".whole.part: Not a directory")
        self.assertEqual(Path(".whole.part").read_text(), "kept")


if __name__ == "__main__":
    unittest.main()
