"""The command line of `scripts/prepare`: files, names, exit statuses, the table and the summary."""
from __future__ import annotations

import contextlib
import csv
import io
import subprocess
import tempfile
import unittest
from pathlib import Path

try:
    import erfa  # type: ignore[import]  # noqa: F401
    import numpy  # noqa: F401
except ModuleNotFoundError as missing:
    raise unittest.SkipTest(f"{missing.name} is missing: apt-get install python3-numpy python3-erfa") from None

from conjtools.prepare.command import main
from tests.test_prepare_reading import KVN, XML

SCRIPT = Path(__file__).resolve().parent.parent / "prepare"


class Command(unittest.TestCase):
    """Runs."""

    def setUp(self) -> None:
        held = tempfile.TemporaryDirectory()
        self.addCleanup(held.cleanup)
        self.folder = Path(held.name)
        self.out = self.folder / "out"

    def put(self, name: str, text: str = KVN) -> str:
        (self.folder / name).write_text(text, "ascii")
        return str(self.folder / name)

    def run_words(self, *words: str) -> tuple[int, str, str]:
        """Status, standard output and standard error."""
        out, err = io.StringIO(), io.StringIO()
        with contextlib.redirect_stdout(out), contextlib.redirect_stderr(err):
            try:
                status = main(list(words))
            except SystemExit as stop:
                status = int(str(stop.code))
        return status, out.getvalue(), err.getvalue()

    def names(self) -> list[str]:
        return sorted(path.name for path in self.out.iterdir())

    def test_files_are_named_after_their_inputs(self) -> None:
        status, out, err = self.run_words(self.put("a.oem"), self.put("b.xml", XML), self.put("c.v2.txt"), "--out", str(self.out))
        self.assertEqual((status, err), (0, ""))
        self.assertEqual(self.names(), ["a.oem", "b.oem", "c.v2.oem", "prepared.csv"])
        self.assertIn("OBJECTS 3\nSEGMENTS 3\nNODES_READ 12\nNODES_WRITTEN 12\nCOVARIANCES 3\nCOPIED 0\nFROM_LAGRANGE_3 3\nWITHIN 0.0000000", out)

    def test_the_table(self) -> None:
        self.run_words(self.put("a.oem"), "--out", str(self.out))
        row, = csv.DictReader((self.out / "prepared.csv").read_text().splitlines())
        within = row.pop("within_m")
        self.assertEqual(row, {"file": "a.oem", "object_name": "SAT A", "object_id": "2025-001A", "source": "a.oem", "source_line": "16",
                               "method": "LAGRANGE", "degree": "3", "degree_from": "file", "frame": "EME2000", "time_system": "UTC",
                               "first_utc": "2025-01-01T00:00:00.000000", "last_utc": "2025-01-01T00:03:00.000000", "nodes_read": "4",
                               "nodes_written": "4", "covariances": "1", "copied": "no"})
        # The cubic through four nodes is followed but for what is rounded, and the comment has the same bound.
        self.assertLess(float(within), 1e-7)
        self.assertIn(f"; WITHIN {within} m\n", (self.out / "a.oem").read_text())

    def test_a_folder_stands_for_its_files(self) -> None:
        for name in ("b.oem", "a.xml", "notes.txt"):
            self.put(name, XML if name == "a.xml" else KVN)
        status, out, _ = self.run_words(str(self.folder), "--out", str(self.out))
        self.assertEqual((status, self.names()), (0, ["a.oem", "b.oem", "prepared.csv"]))

    def test_several_workers_write_the_same(self) -> None:
        inputs = [self.put(f"{number}.oem", KVN.replace("225.5", f"225.{number}")) for number in range(1, 6)]
        self.run_words(*inputs, "--out", str(self.out))
        other = self.folder / "other"
        self.assertEqual(self.run_words(*inputs, "--out", str(other), "--workers", "3")[0], 0)
        self.assertEqual({path.name: path.read_bytes() for path in self.out.iterdir()}, {path.name: path.read_bytes() for path in other.iterdir()})

    def test_nothing_is_written_where_an_input_is_refused(self) -> None:
        good, bad = self.put("a.oem"), self.put("b.oem", KVN.replace("= UTC", "= TDB"))
        for workers in ("1", "2"):
            status, out, err = self.run_words(good, bad, "--out", str(self.out), "--workers", workers)
            self.assertEqual((status, out), (3, ""))
            self.assertEqual(err, "prepare: b.oem: line 11: the time system TDB is not read: UTC, TAI, TT, GPS and UT1 are\n")
            self.assertFalse(self.out.exists())

    def test_nothing_is_written_over(self) -> None:
        self.out.mkdir()
        (self.out / "b.oem").write_text("kept")
        (self.out / "readme").write_text("kept")
        status, _, err = self.run_words(self.put("a.oem"), self.put("b.oem"), "--out", str(self.out))
        self.assertEqual((status, self.names()), (3, ["b.oem", "readme"]))
        self.assertIn("b.oem: line 0: stands there already", err)
        self.assertEqual((self.out / "b.oem").read_text(), "kept")
        self.assertEqual(self.run_words(self.put("a.oem"), "--out", str(self.out))[0], 0)
        self.assertEqual(self.run_words(self.put("c.oem"), "--out", str(self.out))[0], 3)

    def test_an_input_is_never_written_over(self) -> None:
        path = self.put("a.oem")
        self.assertEqual(self.run_words(path, "--out", str(self.folder))[0], 3)
        self.assertEqual(Path(path).read_text(), KVN)
        self.assertEqual([item.name for item in self.folder.iterdir()], ["a.oem"])

    def test_two_inputs_of_one_stem_are_refused(self) -> None:
        status, _, err = self.run_words(self.put("a.oem"), self.put("a.xml", XML), "--out", str(self.out))
        self.assertEqual((status, self.out.exists()), (3, False))
        self.assertEqual(err, "prepare: a.xml: line 0: a.oem would be written twice: give the inputs other names\n")

    def test_names_that_conj_does_not_read(self) -> None:
        (self.folder / "caf\u00e9.oem").write_text(KVN)
        status, _, err = self.run_words(str(self.folder / "caf\u00e9.oem"), "--out", str(self.out))
        self.assertEqual(status, 3)
        self.assertIn("printable ASCII", err)

    def test_words_that_are_wrong(self) -> None:
        path = self.put("a.oem")
        for words in (["--within", "0"], ["--within", "x"], ["--within", "nan"], ["--within", "2000"], ["--degree", "26"], ["--method", "spline"],
                      ["--workers", "0"],
                      ["--of-date", "iau2000"], ["--method", "hermite", "--degree", "4"], ["--out", path]):
            with self.subTest(words):
                status, out, err = self.run_words(path, "--out", str(self.out), *words)
                self.assertEqual((status, out, self.out.exists()), (2, "", False))
                self.assertIn("prepare:", err.splitlines()[-1])
        self.assertEqual(self.run_words(path)[0], 2)

    def test_a_bad_file_of_the_earth(self) -> None:
        status, _, err = self.run_words(self.put("a.oem"), "--out", str(self.out), "--eop", self.put("eop", "x\n"))
        self.assertEqual((status, err.startswith("prepare: eop: line 1: ")), (3, True))

    def test_the_launcher(self) -> None:
        done = subprocess.run([str(SCRIPT), self.put("a.oem"), "--out", str(self.out)], capture_output=True, text=True, check=False)
        self.assertEqual((done.returncode, done.stderr, self.names()), (0, "", ["a.oem", "prepared.csv"]))
        done = subprocess.run([str(SCRIPT), "--help"], capture_output=True, text=True, check=False)
        self.assertIn("usage: prepare", done.stdout)


if __name__ == "__main__":
    unittest.main()
