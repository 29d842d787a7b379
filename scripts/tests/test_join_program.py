"""Parts that the program screens and checks, joined, against its one run over the whole window: the same report to the byte.

CONJ_PROGRAM names the program; without it these tests are skipped.
"""

from __future__ import annotations

import contextlib
import hashlib
import io
import os
import re
import subprocess
import unittest
from pathlib import Path

from tests.parts import at, when, write_drifting, write_resting
from tests.support import FolderCase, need_numpy

need_numpy()

from conjtools.epochs import epoch_text  # noqa: E402
from conjtools.join.command import main  # noqa: E402
from conjtools.join.summary import read_summary  # noqa: E402
from conjtools.report import read_report  # noqa: E402

PROGRAM = os.path.abspath(os.environ["CONJ_PROGRAM"]) if os.environ.get("CONJ_PROGRAM") else ""
CREATED = re.compile(rb"^CREATION_DATE = \S+$", re.MULTILINE)
MICROSECOND = 1


@unittest.skipUnless(PROGRAM, "CONJ_PROGRAM names no program: set it to a built one, as .conj/program is")
class Program(FolderCase):
    def conj(self, *words: str) -> bytes:
        """What a run of the program prints."""
        return subprocess.run([PROGRAM, *words], capture_output=True, check=True, cwd=self.folder).stdout

    def screen(self, name: str, first: int, last: int, options: tuple[str, ...], more: tuple[str, ...]) -> Path:
        """Screens a window of the folder `files` into a new directory, and has it checked; `more` are options of `screen` alone."""
        window = ("--from", epoch_text(first), "--to", epoch_text(last))
        folder = self.folder / name
        printed = self.conj("screen", "files", "--out", name, *window, *options, *more)
        (folder / "screen.out").write_bytes(printed)
        digest = hashlib.sha256((folder / "screen.cert").read_bytes()).hexdigest()
        (folder / "screen.cert.sha256").write_text(f"{digest}  screen.cert\n", "ascii")
        (folder / "check.out").write_bytes(self.conj("check", "files", "--cert-dir", name, "--report", "screen.report", *window, *options))
        return folder

    def compare(self, borders: list[int], last: int, options: tuple[str, ...] = (), more: tuple[str, ...] = ()) -> tuple[int, int]:
        """Joins parts that begin at these ticks, the last of which ends at `last`, and holds them against one run: how many encounters
        there are, and how many of the parts' are joined to others."""
        whole = self.screen("whole", borders[0], last, options, more)
        ends = [border - MICROSECOND for border in borders[1:]] + [last]
        parts = [self.screen(f"p{number}", first, end, options, more) for number, (first, end) in enumerate(zip(borders, ends), 1)]
        joined = self.folder / "joined"
        words = ["--parts", *map(str, reversed(parts)), "--files", str(self.folder / "files"), "--out", str(joined)]
        with contextlib.redirect_stdout(io.StringIO()) as said:
            self.assertEqual(main(words), 0)
        self.assertEqual(said.getvalue(), (joined / "summary.txt").read_text("ascii"))
        self.assertEqual((joined / "screen.report").read_bytes(), (whole / "screen.report").read_bytes())
        messages = sorted(path.name for path in whole.glob("*.cdm"))
        self.assertEqual(sorted(path.name for path in joined.glob("*.cdm")), messages)
        for name in messages:
            mine, others = (CREATED.sub(b"CREATION_DATE", (folder / name).read_bytes()) for folder in (joined, whole))
            self.assertEqual(mine, others)
        counts, one_run = (read_summary("summary", path.read_bytes()) for path in (joined / "summary.txt", whole / "screen.out"))
        self.assertEqual(counts.keys(), one_run.keys())
        for word in counts.keys() - {"PARTED", "TOUCHING", "ROOTS", "SPLITS", "LEAVES", "FAR"}:
            self.assertEqual(counts[word], one_run[word], word)
        told = sum(len(read_report("part", (part / "screen.report").read_bytes()).encounters) for part in parts)
        return counts["ENCOUNTERS"], told - counts["ENCOUNTERS"]

    def test_two_that_are_nearest_half_a_millisecond_behind_the_border(self) -> None:
        write_drifting(self.folder / "files")
        self.assertEqual(self.compare([at(0), at(60)], at(120)), (1, 1))
        self.assertIn(f"ENCOUNTER 1 1 2 NEAR {when(60)} {10**12 + 1} ", (self.folder / "joined" / "screen.report").read_text("ascii"))

    def test_made_up_catalogue(self) -> None:
        (self.folder / "files").mkdir()
        self.conj("generate", "files", "--objects", "150", "--minutes", "30")
        encounters, at_borders = self.compare([at(0), at(600), at(660), at(1500)], at(1800), ("--threshold", "500000"), ("--originator", "OPS_7"))
        self.assertGreater(encounters, 100)
        self.assertGreater(at_borders, 10)

    def test_sizes_and_a_certificate_of_version_2_from_within_a_minute_on(self) -> None:
        (self.folder / "files").mkdir()
        self.conj("generate", "files", "--objects", "120", "--minutes", "20", "--seed", "7")
        sizes = "".join(f"GEN-{number:05} {number * 8}.125\n" for number in range(1, 121, 2))
        (self.folder / "files" / "sizes.txt").write_text(sizes, "ascii")
        borders = [at("17.25") + minutes * 60_000_000 for minutes in (0, 3, 11)]
        options = ("--threshold", "700000", "--sizes", "sizes.txt")
        encounters, at_borders = self.compare(borders, at("1111.000003"), options, ("--cert-version", "2"))
        self.assertGreater(encounters, 50)
        self.assertGreater(at_borders, 5)

    def test_primaries(self) -> None:
        (self.folder / "files").mkdir()
        self.conj("generate", "files", "--objects", "120", "--minutes", "20", "--seed", "7")
        (self.folder / "files" / "fleet.txt").write_text("".join(f"GEN-{number:05}\n" for number in range(5, 121, 10)), "ascii")
        encounters, at_borders = self.compare([at(0), at(180), at(660)], at(1200), ("--threshold", "700000", "--primaries", "fleet.txt"))
        self.assertGreater(encounters, 20)
        self.assertGreater(at_borders, 2)
        self.assertEqual((self.folder / "joined" / "screen.report").read_bytes().count(b"\nPRIMARY\n"), 12)

    def test_what_objects_cover(self) -> None:
        """Five objects at rest beside each other, over a border at each minute: one that covers all by two segments that meet there; one with a gap
        of a tick at the first border; one that ends a tick before the second, with nothing in the third part; one of a single tick; one of none."""
        files = self.folder / "files"
        files.mkdir()
        spans = (
            ((at(-5), at(60)), (at(60), at(200))), ((at(0), at(60) - 2), (at(60), at(180))), ((at(0), at(120) - 1),), ((at(60) - 1, at(60) - 1),),
            ((at(181), at(200)),),
        )  # fmt: skip
        for place, useable in enumerate(spans):
            write_resting(files / f"{place}.oem", f"2025-00{place}A", 7000 + place, useable)
        self.compare([at(0), at(60), at(120)], at(180), ("--coverage",))
        lines = re.findall("^(?:OBJECT|COVERED) .*$", (self.folder / "joined" / "screen.report").read_text("ascii"), re.MULTILINE)
        first, last = when(0), when(180)
        self.assertEqual(lines, [
            "OBJECT 1", f"COVERED {first} {last}", "OBJECT 2", f"COVERED {first} {when('59.999998')}", f"COVERED {when(60)} {last}",
            "OBJECT 3", f"COVERED {first} {when('119.999999')}", "OBJECT 4", f"COVERED {when('59.999999')} {when('59.999999')}",
            "OBJECT 5", "COVERED NONE",
        ])  # fmt: skip
        self.assertTrue((self.folder / "joined" / "summary.txt").read_text("ascii").endswith("\nUNCOVERED 4\n"))


if __name__ == "__main__":
    unittest.main()
