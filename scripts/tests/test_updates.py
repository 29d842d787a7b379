"""Files that are updates of others, and what a screening again is held against: of folders made up here, and of the program where it is named."""

from __future__ import annotations

import os
import re
import shutil
import subprocess
import unittest
from pathlib import Path

from conjtools.report import read_report
from conjtools.updates import (
    CHANGED,
    Names,
    Put,
    changed_text,
    counts,
    differences_from_screening,
    differences_of_changed,
    kept_pairs,
    make_unchanged,
    make_updated,
    unchanged_files,
)
from tests.support import CATALOGUE_ENCOUNTERS, SAMPLES, FolderCase, catalogue_report

PROGRAM = os.path.abspath(os.environ["CONJ_PROGRAM"]) if os.environ.get("CONJ_PROGRAM") else ""
SECONDS = 60
USUAL = Names()
MOMENT = re.compile(rb"^CREATION_DATE = .*$", re.MULTILINE)
HALF_AN_HOUR = ("--from", "2025-01-01T00:00:00", "--to", "2025-01-01T00:30:00")
SUMMARY = b"OBJECTS 3\nPAIRS 3\nPARTED 2\n"


class NamesOfUpdates(unittest.TestCase):
    def test_what_stands_before_the_update_suffix_has_the_suffix(self) -> None:
        for name, updated in (("a.oem.new", "a.oem"), (".oem.new", ".oem"), ("a.oem", None), ("a.new", None), ("a.oem.new.new", None), (".new", None)):
            with self.subTest(name):
                self.assertEqual(USUAL.updated(name), updated)

    def test_a_name_of_both_forms_is_that_of_an_update(self) -> None:
        names = Names(suffix="mm", update="m")
        self.assertEqual((names.updated("amm"), names.is_base("amm")), (None, True))
        self.assertEqual((names.updated("ammm"), names.is_base("ammm")), ("amm", False))

    def test_the_file_of_sizes_is_neither(self) -> None:
        for name in ("a.oem", "a.oem.new"):
            names = Names(sizes=name)
            self.assertEqual((names.updated(name), names.is_base(name)), (None, False))


class Folders(FolderCase):
    def made(self, **files: str) -> Path:
        folder = self.folder / "folder"
        folder.mkdir()
        for name, text in files.items():
            (folder / name.replace("_", ".")).write_text(text, "ascii")
        return folder

    def told(self, place: Path) -> dict[str, str]:
        return {path.name: path.read_text("ascii") for path in place.iterdir()}

    def test_updates_stand_in_the_places_of_what_they_update(self) -> None:
        folder = self.made(a_oem="A", a_oem_new="Z", b_oem="B", b_oem_new="", c_oem_new="C", d_oem="D", d_oem_new="D", e_oem_new="", sizes_txt="S")
        make_updated(folder, self.folder / "updated", USUAL)
        self.assertEqual(self.told(self.folder / "updated"), {"a.oem": "Z", "c.oem": "C", "d.oem": "D", "sizes.txt": "S"})

    def test_files_that_stay_as_they_are(self) -> None:
        folder = self.made(a_oem="A", a_oem_new="Z", b_oem="B", b_oem_new="", d_oem="D", d_oem_new="D", e_oem="E", sizes_txt="S")
        make_unchanged(folder, self.folder / "unchanged", USUAL)
        self.assertEqual(self.told(self.folder / "unchanged"), {"d.oem": "D", "e.oem": "E", "sizes.txt": "S"})
        self.assertEqual(unchanged_files(folder, USUAL), {"d.oem", "e.oem"})

    def test_of_other_suffixes(self) -> None:
        folder = self.made(a_oem="A", a_oem_new="Z", b_oem="B")
        (folder / "a.oem~").write_text("Y", "ascii")
        make_updated(folder, self.folder / "updated", Names(update="~"))
        self.assertEqual(self.told(self.folder / "updated"), {"a.oem": "Y", "a.oem.new": "Z", "b.oem": "B"})


class WhatIsDue(unittest.TestCase):
    def test_counts(self) -> None:
        self.assertEqual(counts(SUMMARY), {"OBJECTS": 3, "PAIRS": 3, "PARTED": 2})
        self.assertEqual(kept_pairs(SUMMARY), 1)

    def test_the_same_with_one_line_more(self) -> None:
        screened = Put({"screen.report": b"R"}, SUMMARY)
        self.assertEqual(differences_from_screening(Put({"screen.report": b"R"}, SUMMARY + b"KEPT 1\n"), screened, 1), [])
        for again in (
            Put({"screen.report": b"R"}, SUMMARY),
            Put({"screen.report": b"R"}, SUMMARY + b"KEPT 2\n"),
            Put({"screen.report": b"Q"}, SUMMARY + b"KEPT 1\n"),
            Put({}, SUMMARY + b"KEPT 1\n"),
            Put({"screen.report": b"R", "000001.cdm": b""}, SUMMARY + b"KEPT 1\n"),
        ):
            with self.subTest(again):
                self.assertEqual(len(differences_from_screening(again, screened, 1)), 1)

    def test_the_report_of_changed_pairs(self) -> None:
        text = catalogue_report()
        report = read_report("screen.report", text.encode("ascii"))
        files = frozenset(told.file for told in report.objects)
        objects = text.removeprefix("CONJ-REPORT 1\n").removesuffix(f"{CATALOGUE_ENCOUNTERS}END\n")
        self.assertEqual(changed_text(report, frozenset()), f"CONJ-CHANGED 1\n{objects}{CATALOGUE_ENCOUNTERS}END\n")
        self.assertEqual(changed_text(report, files), f"CONJ-CHANGED 1\n{objects}END\n")
        # The encounters of objects 3 and 8, and of 10 and 11.
        _, _, *middle = re.split(r"(?=ENCOUNTER )", CATALOGUE_ENCOUNTERS)
        second, third, _ = middle
        encounters = second.replace("ENCOUNTER 2", "ENCOUNTER 1") + third.replace("ENCOUNTER 3", "ENCOUNTER 2")
        due = f"CONJ-CHANGED 1\n{objects}{encounters}END\n"
        unchanged = files - {"demo-08.oem", "demo-10.oem"}
        self.assertEqual(changed_text(report, unchanged), due)
        screened = Put({"screen.report": text.encode("ascii")}, b"")
        summary = b"OBJECTS 26\nENCOUNTERS 2\nKEPT 7\n"
        self.assertEqual(differences_of_changed(Put({CHANGED: due.encode("ascii")}, summary), screened, 7, unchanged), [])
        self.assertEqual(len(differences_of_changed(Put({}, summary), screened, 7, unchanged)), 1)
        self.assertEqual(len(differences_of_changed(Put({CHANGED: due.encode("ascii")}, summary), screened, 8, unchanged)), 1)


@unittest.skipUnless(PROGRAM, "CONJ_PROGRAM names no program")
class OfTheProgram(FolderCase):
    def run_in(self, folder: Path, command: str, *options: str) -> Put:
        """What a command over a folder puts, without the moments at which messages were made."""
        before = {path.name for path in folder.iterdir()}
        ended = subprocess.run([PROGRAM, command, str(folder), *HALF_AN_HOUR, *options], capture_output=True, timeout=SECONDS)
        self.assertEqual((ended.returncode, ended.stderr), (0, b""))
        new = [path for path in folder.iterdir() if path.name not in before]
        pieces = {path.name: MOMENT.sub(b"", path.read_bytes()) for path in new}
        for path in new:
            path.unlink()
        return Put(pieces, ended.stdout)

    def test_updates_of_the_catalogue(self) -> None:
        folder = self.folder / "catalogue"
        shutil.copytree(SAMPLES / "catalogue", folder, ignore=shutil.ignore_patterns("screen.*"))
        shutil.copy(folder / "demo-02.oem", folder / "demo-07.oem.new")
        shutil.copy(folder / "demo-08.oem", folder / "demo-09a.oem.new")
        (folder / "demo-10.oem.new").write_bytes(b"")
        make_updated(folder, self.folder / "updated", USUAL)
        make_unchanged(folder, self.folder / "unchanged", USUAL)
        screened = self.run_in(self.folder / "updated", "screen")
        kept = kept_pairs(self.run_in(self.folder / "unchanged", "screen").summary)
        for workers in ("1", "4"):
            again = self.run_in(folder, "rescreen", "--workers", workers)
            self.assertEqual(differences_from_screening(again, screened, kept), [])
        changed = self.run_in(folder, "rescreen", "--changed")
        self.assertEqual(differences_of_changed(changed, screened, kept, unchanged_files(folder, USUAL)), [])
        results = self.folder / "results"
        self.run_in(folder, "rescreen", "--out", str(results))
        checked = self.run_in(folder, "check", "--update", ".new", "--cert-dir", str(results), "--report", "screen.report")
        self.assertEqual(checked.summary, b"ACCEPTED\n")


if __name__ == "__main__":
    unittest.main()
