"""Runs at a terminal, and in what they differ from runs without one: of programs made up here, and of the program itself where it is named."""

from __future__ import annotations

import os
import shutil
import subprocess
import sys
import unittest

from conjtools.terminal import Ended, Shown, differences_at_terminal, differences_with_words, read_shown, run_at_terminal
from tests.support import SAMPLES, FolderCase

PROGRAM = os.path.abspath(os.environ["CONJ_PROGRAM"]) if os.environ.get("CONJ_PROGRAM") else ""
LINE = b"\r\x1b[?7l%s\x1b[K\x1b[?7h"
WIPED = b"\r\x1b[K"
FAULT = b"conj: a.oem: line 8: Frame\n"
HINT = b"hint: the frame is not EME2000 or GCRF, or it changes\n"
WARNING = b"conj: warning: files that are not taken, though their names are nearly right: 1, first b.OEM\n"
SECONDS = 60


def made_up(code: str) -> list[str]:
    return [sys.executable, "-c", f"import os, sys, time\n{code}"]


class AtATerminal(unittest.TestCase):
    def test_standard_error_alone_is_one(self) -> None:
        ended = run_at_terminal(made_up("print(os.isatty(0), os.isatty(1), os.isatty(2))"), SECONDS)
        self.assertEqual(ended, Ended(0, b"False False True\n", b""))

    def test_bytes_and_status_come_as_they_are(self) -> None:
        ended = run_at_terminal(made_up("os.write(2, b'\\r\\x1b[Ka\\n' * 30000); os.write(1, b'b\\n'); sys.exit(3)"), SECONDS)
        self.assertEqual(ended, Ended(3, b"b\n", b"\r\x1b[Ka\n" * 30000))

    def test_a_run_that_lasts_is_killed(self) -> None:
        for code in ("time.sleep(60)", "os.close(2); time.sleep(60)"):
            with self.subTest(code), self.assertRaises(subprocess.TimeoutExpired):
                run_at_terminal(made_up(code), 0.5)


class WhatIsShown(unittest.TestCase):
    def test_lines_that_stay_and_lines_that_pass(self) -> None:
        given = LINE % b"conj: begins" + LINE % b"conj: 1 of 2 files read" + WIPED + WARNING + LINE % b"conj: 9 bytes written" + WIPED + FAULT
        passing = (b"conj: begins", b"conj: 1 of 2 files read", b"conj: 9 bytes written")
        self.assertEqual(read_shown(given), Shown(WARNING + FAULT, passing))
        self.assertEqual(read_shown(b""), Shown(b"", ()))

    def test_a_line_that_passes_is_taken_away(self) -> None:
        line = LINE % b"conj: begins"
        for given, told in ((line, "left"), (line + FAULT, "is written behind"), (FAULT + line, "left"), (b"conj", "cannot show")):
            with self.subTest(given), self.assertRaisesRegex(ValueError, told):
                read_shown(given)


class Differences(unittest.TestCase):
    def test_a_terminal_is_told_more(self) -> None:
        plain = Ended(3, b"", FAULT)
        told = LINE % b"conj: begins" + WIPED + WARNING + HINT + FAULT + HINT + HINT
        self.assertEqual(differences_at_terminal(plain, Ended(3, b"", told)), [])

    def test_and_else_the_same(self) -> None:
        plain = Ended(3, b"", FAULT)
        for told, what in (
            (Ended(0, b"", FAULT), "status 0"),
            (Ended(3, b"x", FAULT), "standard output"),
            (Ended(3, b"", HINT), "standard error"),
            (Ended(3, b"", FAULT + b"more\n"), "standard error"),
            (Ended(3, b"", FAULT + LINE % b"conj: begins"), "left"),
        ):
            with self.subTest(told):
                (difference,) = differences_at_terminal(plain, told)
                self.assertIn(what, difference)

    def test_words_tell_warnings_and_other_files(self) -> None:
        other = FAULT.replace(b"a.oem", b"b.oem")
        self.assertEqual(differences_with_words(Ended(3, b"", FAULT), Ended(3, b"", WARNING + FAULT + other)), [])
        self.assertEqual(differences_with_words(Ended(0, b"OBJECTS 0\n", b""), Ended(0, b"OBJECTS 0\n", WARNING)), [])

    def test_and_nothing_else(self) -> None:
        refused, taken = Ended(3, b"", FAULT), Ended(0, b"", b"")
        for plain, error in (
            (refused, b""),
            (refused, FAULT + FAULT),
            (refused, FAULT.replace(b"a.oem", b"b.oem") + FAULT),
            (refused, FAULT + HINT),
            (taken, FAULT),
            (taken, HINT),
        ):
            with self.subTest(error):
                told = Ended(plain.status, plain.output, error)
                self.assertEqual(len(differences_with_words(plain, told)), 1)


@unittest.skipUnless(PROGRAM, "CONJ_PROGRAM names no program")
class OfTheProgram(FolderCase):
    def test_a_refused_file(self) -> None:
        ended = run_at_terminal([PROGRAM, "screen", str(SAMPLES / "provider")], SECONDS)
        lines = read_shown(ended.error).lines.splitlines()
        self.assertEqual((ended.status, ended.output, lines[0]), (3, b"", b"conj: polar.oem: line 8: Frame"))
        self.assertEqual([line[:6] for line in lines[1:]], [b"hint: ", b"hint: "])

    def test_all_faults_and_warnings(self) -> None:
        folder = self.folder / "refused"
        folder.mkdir()
        text = (SAMPLES / "crossing" / "a.oem").read_bytes()
        (folder / "a.oem").write_bytes(text.replace(b"EME2000", b"ITRF"))
        (folder / "b.oem").write_bytes(text)
        (folder / "c.oem").write_bytes(text.replace(b"= UTC", b"= GPS"))
        (folder / "d.OEM").write_bytes(text)
        words = [PROGRAM, "screen", str(folder)]
        plain = self.ended(words)
        self.assertEqual(plain, Ended(3, b"", b"conj: a.oem: line 8: Frame\n"))
        told = self.ended([*words, "--all-faults", "--warnings"])
        self.assertEqual(differences_with_words(plain, told), [])
        self.assertEqual(told.error.splitlines()[-1], b"conj: c.oem: line 9: TimeSystem")
        self.assertIn(b"conj: warning: files that are not taken", told.error)
        self.assertEqual(differences_at_terminal(plain, run_at_terminal(words, SECONDS)), [])

    def test_what_is_put_is_the_same(self) -> None:
        put = []
        for place in ("plain", "terminal"):
            folder = self.folder / place
            shutil.copytree(SAMPLES / "resting", folder, ignore=shutil.ignore_patterns("screen.*"))
            words = [PROGRAM, "screen", str(folder)]
            ended = self.ended(words) if place == "plain" else run_at_terminal(words, SECONDS)
            self.assertEqual(ended.status, 0)
            put.append((ended.output, {path.name: path.read_bytes() for path in folder.iterdir()}))
        self.assertEqual(put[0], put[1])

    def ended(self, words: list[str]) -> Ended:
        ran = subprocess.run(words, capture_output=True, timeout=SECONDS)
        return Ended(ran.returncode, ran.stdout, ran.stderr)


if __name__ == "__main__":
    unittest.main()
