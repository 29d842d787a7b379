"""What objects cover by the texts of their files, what is due by that, and how `scripts/stress` holds runs to it: of a program that is made up here
and errs, and of the program where it is named."""

from __future__ import annotations

import os
import random
import shutil
import unittest
from importlib.machinery import SourceFileLoader
from importlib.util import module_from_spec, spec_from_loader
from pathlib import Path
from typing import Any
from unittest.mock import patch

from conjtools.covering.due import Outcome, differences_of_covering, due_of, first_covered_line, with_coverage
from conjtools.covering.made_up import SIZES, made_up, made_up_with_updates
from conjtools.covering.model import Covering, covering_of, standing_files, useable_spans
from conjtools.epochs import epoch_text, read_epoch
from conjtools.report import Window
from conjtools.terminal import Ended, differences_with_words
from conjtools.updates import Names, Put, differences_from_screening
from tests.support import CROSSING_REPORT, ROOT, SAMPLES, SIZED_REPORT, FolderCase, oem, segment

PROGRAM = os.path.abspath(os.environ["CONJ_PROGRAM"]) if os.environ.get("CONJ_PROGRAM") else ""
MADE_UP = Path(__file__).with_name("made_up_covering.py")
MIDNIGHT = read_epoch("2025-01-01T00:00:00")
MINUTE = 60_000_000
WINDOW = Window(MIDNIGHT, MIDNIGHT + MINUTE)
A, B = "a.oem", "b.oem"


def load_stress() -> Any:
    """The script as a module."""
    loader = SourceFileLoader("stress", str(ROOT / "scripts" / "stress"))
    spec = spec_from_loader("stress", loader)
    assert spec is not None
    module = module_from_spec(spec)
    loader.exec_module(module)
    return module


STRESS = load_stress()


def at(tick: int) -> str:
    """The epoch so many ticks behind midnight."""
    return epoch_text(MIDNIGHT + tick)


def rows(*ticks: int) -> list[str]:
    """States at rest."""
    return [f"{at(tick)} 7000 0 0 0 0 0" for tick in ticks]


def useable(first: int, last: int) -> str:
    """The lines of a useable span."""
    return f"USEABLE_START_TIME = {at(first)}\nUSEABLE_STOP_TIME = {at(last)}\n"


class Texts(FolderCase):
    def test_useable_spans(self) -> None:
        """Of the first segment the times that are called useable, of the second its own; an epoch of a covariance is none of them."""
        text = oem(rows(0, 20), at(0), at(20), more=useable(3, 17)) + segment(rows(17, 40), at(17), at(40))
        text += f"COVARIANCE_START\nEPOCH = {at(5)}\n" + "".join(" ".join(["1"] * size) + "\n" for size in range(1, 7)) + "COVARIANCE_STOP\n"
        spans = ((MIDNIGHT + 3, MIDNIGHT + 17), (MIDNIGHT + 17, MIDNIGHT + 40))
        self.assertEqual(useable_spans(text.encode()), spans)
        lines = text.replace("\n", "\r\n").replace("META_STOP", "COMMENT START_TIME = 2030-01-01T00:00:00\r\n\tMETA_STOP")
        self.assertEqual(useable_spans(lines.encode()), spans)

    def test_of_the_samples(self) -> None:
        files = {path.name: path.read_bytes() for path in (SAMPLES / "usual").glob("*.oem")}
        noon = read_epoch("2025-02-14T12:00:00")
        covering = covering_of(files, None, None)
        imager, relay = ((noon + MINUTE, noon + 9 * MINUTE),), ((noon, noon + 10 * MINUTE),)
        self.assertEqual(covering, Covering(Window(noon, noon + 10 * MINUTE), {"imager.oem": imager, "relay.oem": relay}))
        self.assertEqual((covering.uncovered, covering.refusal), (1, b"conj: imager.oem: line 0: Uncovered 2025-02-14T12:00:00.000000\n"))
        within = covering_of(files, noon + MINUTE, noon + 9 * MINUTE)
        self.assertEqual((within.uncovered, within.refusal), (0, None))
        beyond = covering_of(files, noon + 10 * MINUTE + 1, None)
        self.assertEqual((beyond.spans, beyond.uncovered, beyond.refusal), ({"imager.oem": (), "relay.oem": ()}, 0, None), "a window without a tick")

    def test_a_tick_that_is_left_out(self) -> None:
        head, first = oem(rows(0, 20), at(0), at(20)), MIDNIGHT
        for start, spans in ((20, ((first, first + 40),)), (21, ((first, first + 40),)), (22, ((first, first + 20), (first + 22, first + 40)))):
            text = head + segment(rows(start, 40), at(start), at(40))
            covering = covering_of({A: text.encode()}, first, first + 40)
            self.assertEqual(covering.spans, {A: spans})
            self.assertEqual(covering.refusal, f"conj: a.oem: line 0: Uncovered {at(21)}\n".encode() if start == 22 else None)

    def test_the_first_file_that_leaves_one_out(self) -> None:
        short, long = (oem(rows(0, last), at(0), at(last)).encode() for last in (20, 40))
        for files, named in (({A: long, B: short}, B), ({B: short, A: short}, A), ({"Z.oem": short, A: short}, "Z.oem")):
            self.assertEqual(covering_of(files, None, MIDNIGHT + 40).refusal, f"conj: {named}: line 0: Uncovered {at(21)}\n".encode())

    def test_files_that_stand(self) -> None:
        for name, text in (("a.oem", "A"), ("a.oem.new", "Z"), ("b.oem", "B"), ("b.oem.new", ""), ("c.oem.new", "C"), ("d.oem", "D"), ("sizes.oem", "S")):
            (self.folder / name).write_text(text, "ascii")
        (self.folder / "e.oem").mkdir()
        names = Names(sizes="sizes.oem")
        self.assertEqual(standing_files(self.folder, names, False), {"a.oem": b"A", "b.oem": b"B", "d.oem": b"D"})
        self.assertEqual(standing_files(self.folder, names, True), {"a.oem": b"Z", "c.oem": b"C", "d.oem": b"D"})

    def test_made_up_folders_say_what_they_were_made_of(self) -> None:
        seen: set[tuple[bool, int]] = set()
        for seed in range(40):
            for make, with_updates in ((made_up, False), (made_up_with_updates, True)):
                made = make(random.Random(seed))
                folder = self.folder / f"{seed}-{with_updates}"
                folder.mkdir()
                made.write(folder)
                names = Names(sizes=None if made.sizes is None else SIZES)
                covering = covering_of(standing_files(folder, names, with_updates), made.first, made.last)
                self.assertEqual((list(covering.spans), covering), (list(made.covering.spans), made.covering), (seed, with_updates))
                seen.add((with_updates, min(covering.uncovered, 2)))
        self.assertEqual(seen, {(with_updates, count) for with_updates in (False, True) for count in (0, 1, 2)})


COVERING = Covering(WINDOW, {A: ((MIDNIGHT, MIDNIGHT + 20), (MIDNIGHT + 22, MIDNIGHT + MINUTE)), B: ()})
A_LINES = f"COVERED {at(0)} {at(20)}\nCOVERED {at(22)} {at(MINUTE)}\n"
TOLD = CROSSING_REPORT.replace("NAME SAT A\n", f"NAME SAT A\n{A_LINES}").replace("NAME SAT B\n", "NAME SAT B\nCOVERED NONE\n")
REFUSAL = f"conj: a.oem: line 0: Uncovered {at(21)}\n".encode()
SUMMARY = b"OBJECTS 2\nMESSAGES 1\n"


class WhatIsDue(unittest.TestCase):
    def test_lines_of_a_report(self) -> None:
        self.assertEqual(with_coverage(CROSSING_REPORT.encode(), COVERING), TOLD.encode())
        sized = SIZED_REPORT.replace("SIZE 1500000000\n", f"SIZE 1500000000\n{A_LINES}").replace("SIZE 750000000\n", "SIZE 750000000\nCOVERED NONE\n")
        self.assertEqual(with_coverage(SIZED_REPORT.encode(), COVERING), sized.encode())
        changed, told = (text.replace("CONJ-REPORT 1", "CONJ-CHANGED 1").encode() for text in (CROSSING_REPORT, TOLD))
        self.assertEqual(with_coverage(changed, COVERING), told)
        self.assertEqual((first_covered_line(CROSSING_REPORT.encode()), first_covered_line(TOLD.encode())), (None, 8))

    def test_a_report_of_other_files_or_of_another_window(self) -> None:
        for other in (Covering(Window(MIDNIGHT, MIDNIGHT + MINUTE + 1), COVERING.spans), Covering(WINDOW, {A: ()}), Covering(WINDOW, {B: (), A: ()})):
            with self.assertRaises(ValueError):
                with_coverage(CROSSING_REPORT.encode(), other)

    def due(self, ended: Ended, asked: tuple[str, ...], covering: Covering = COVERING) -> Outcome:
        """What is due where a run ends so without these words."""
        pieces = {"screen.report": CROSSING_REPORT.encode(), "screen.cert": b"C"} if ended.status == 0 else {"screen.cert": b"old"}
        return due_of(Outcome(ended, pieces), {"screen.cert": b"old"}, lambda: covering, asked)

    def test_how_a_run_ends(self) -> None:
        well = Ended(0, SUMMARY, b"")
        told = Outcome(Ended(0, SUMMARY + b"UNCOVERED 2\n", b""), {"screen.report": TOLD.encode(), "screen.cert": b"C"})
        refused = Outcome(Ended(3, b"", REFUSAL), {"screen.cert": b"old"})
        self.assertEqual(self.due(well, ("--coverage",)), told)
        self.assertEqual(self.due(well, ("--must-cover",)), refused)
        self.assertEqual(self.due(well, ("--coverage", "--must-cover")), refused)
        whole = Covering(WINDOW, {name: ((WINDOW.first, WINDOW.last),) for name in (A, B)})
        self.assertEqual(self.due(well, ("--must-cover",), whole).ended, well)
        self.assertEqual(self.due(well, ("--coverage", "--must-cover"), whole).ended.output, SUMMARY + b"UNCOVERED 0\n")

    def test_causes_before_and_behind(self) -> None:
        for status, error, is_before in (
            (2, b"conj: usage: Words\n", True), (3, b"conj: b.oem: line 0: MixedFrames\n", True), (4, b"conj: read fault\n", True),
            (6, b"conj: limit: Slots 4000001\n", True), (6, b"conj: limit: Window 1209600000001\n", True), (6, b"conj: limit: FileBytes a.oem\n", True),
            (6, b"conj: limit: Cells 3\n", False), (5, b"conj: write fault\n", False),
        ):  # fmt: skip
            ended = Ended(status, b"", error)
            self.assertEqual(self.due(ended, ("--must-cover",)).ended, ended if is_before else Ended(3, b"", REFUSAL))
            self.assertEqual(self.due(ended, ("--coverage",)).ended, ended)

    def test_the_files_are_not_looked_at_where_one_is_refused(self) -> None:
        def covering() -> Covering:
            raise AssertionError("a file that is refused was read")

        plain = Outcome(Ended(3, b"", b"conj: a.oem: line 1: Order\n"), {})
        self.assertEqual(due_of(plain, {}, covering, ("--must-cover",)), plain)

    def test_differences(self) -> None:
        plain = Outcome(Ended(0, SUMMARY, b""), {"screen.report": CROSSING_REPORT.encode()})
        due = due_of(plain, {}, lambda: COVERING, ("--coverage",))
        self.assertEqual(differences_of_covering(due, plain, {}, lambda: COVERING, ("--coverage",)), [])
        without_a_tick = TOLD.replace(at(MINUTE) + "\nOBJECT", at(MINUTE - 1) + "\nOBJECT").encode()
        for told, what in (
            (Outcome(due.ended, {**due.pieces, "screen.report": without_a_tick}), "screen.report is not as it is due: line 9: "),
            (Outcome(Ended(0, SUMMARY + b"UNCOVERED 1\n", b""), due.pieces), "standard output"),
            (Outcome(due.ended, {**due.pieces, "000001.cdm": b"M"}), "000001.cdm"),
            (Outcome(Ended(5, due.ended.output, b""), due.pieces), "the status"),
            (Outcome(Ended(0, due.ended.output, b"conj\n"), due.pieces), "standard error"),
        ):
            (difference,) = differences_of_covering(told, plain, {}, lambda: COVERING, ("--coverage",))
            self.assertIn(what, difference)
        (difference,) = differences_of_covering(due, plain, {}, lambda: Covering(WINDOW, {}), ("--coverage",))
        self.assertIn("the objects are of", difference)

    def test_the_line_of_a_summary_of_a_screening_again(self) -> None:
        screened = Put({}, SUMMARY + b"UNCOVERED 2\n")
        self.assertEqual(differences_from_screening(Put({}, SUMMARY + b"KEPT 1\nUNCOVERED 2\n"), screened, 1), [])
        self.assertEqual(len(differences_from_screening(Put({}, SUMMARY + b"UNCOVERED 2\nKEPT 1\n"), screened, 1)), 1)

    def test_an_object_that_does_not_cover_the_window_is_told_alone(self) -> None:
        plain = Ended(3, b"", REFUSAL)
        self.assertEqual(differences_with_words(plain, plain), [])
        self.assertEqual(len(differences_with_words(plain, Ended(3, b"", REFUSAL + b"conj: b.oem: line 8: Frame\n"))), 1)


class OfAMadeUpProgram(FolderCase):
    """An object that leaves out one tick, one that ends before the window does, one of none in it, and one that covers all by segments that meet."""

    ERRING = (
        ("without the last tick", ("--coverage",)), ("over a gap", ("--coverage",)), ("beyond the window", ("--coverage",)),
        ("nothing of none", ("--coverage",)), ("counts those of none", ("--coverage",)), ("another file", ("--must-cover",)),
        ("a tick later", ("--must-cover",)), ("over a gap", ("--must-cover",)), ("written all the same", ("--must-cover",)),
        ("behind the search", ("--must-cover",)),
    )  # fmt: skip

    def setUp(self) -> None:
        super().setUp()
        self.files = self.folder / "files"
        self.files.mkdir()
        objects = {
            "a": oem(rows(0, 20), at(0), at(20)) + segment(rows(22, MINUTE), at(22), at(MINUTE)),
            "b": oem(rows(-5, MINUTE), at(-5), at(MINUTE), more=useable(-3, 40)),
            "c": oem(rows(-9, -1), at(-9), at(-1)),
            "d": oem(rows(-9, 20), at(-9), at(20)) + segment(rows(20, 21), at(20), at(21)) + segment(rows(22, MINUTE + 9), at(22), at(MINUTE + 9)),
        }
        for name, text in objects.items():
            (self.files / f"{name}.oem").write_text(text, "ascii")
        self.options = ["--from", at(0), "--to", at(MINUTE)]

    def hold(self, fault: str, asked: tuple[str, ...], command: str = "screen", more: tuple[str, ...] = ()) -> None:
        """Holds a run of the program that errs so."""
        folder = self.folder / "folder"
        shutil.copytree(self.files, folder)
        words = [command, str(folder), *self.options, *more]
        try:
            with patch.dict(os.environ, COVERING_FAULT=fault):
                ended = STRESS.hold_run(str(MADE_UP), words, folder)
                STRESS.hold_covering(str(MADE_UP), words, asked, folder, self.files, STRESS.outcome_of(ended, folder))
        finally:
            shutil.rmtree(folder)

    def test_it_is_held_where_it_does_not_err(self) -> None:
        for asked in STRESS.COVERING_WORDS:
            self.hold("", asked)
        self.hold("", ("--must-cover",), more=("--cells", "1"))
        (self.files / "a.oem.new").write_text(oem(rows(0, MINUTE), at(0), at(MINUTE)), "ascii")
        for asked in STRESS.COVERING_WORDS:
            self.hold("", asked, "rescreen")

    def test_each_error_is_found(self) -> None:
        for fault, asked in self.ERRING:
            with self.subTest(fault, asked=asked), self.assertRaises(STRESS.Broken):
                self.hold(fault, asked, more=("--cells", "1") if fault == "behind the search" else ())

    def test_a_base_that_is_told_for_its_update_is_found(self) -> None:
        (self.files / "a.oem").rename(self.files / "d.oem.new")
        for name in "bc":
            (self.files / f"{name}.oem").unlink()
        for asked in STRESS.COVERING_WORDS[:2]:
            with self.subTest(asked), self.assertRaises(STRESS.Broken):
                self.hold("the base", asked, "rescreen")

    def test_made_up_folders(self) -> None:
        STRESS.what_made_up_objects_cover(str(MADE_UP), self.folder, 1)


@unittest.skipUnless(PROGRAM, "CONJ_PROGRAM names no program")
class OfTheProgram(FolderCase):
    def test_what_it_tells(self) -> None:
        for obstacle in (
            STRESS.checks_of_what_objects_cover, STRESS.words_of_other_commands, STRESS.causes_before_and_behind_what_is_not_covered,
            STRESS.what_updated_files_cover,
        ):  # fmt: skip
            with self.subTest(obstacle.__name__):
                obstacle(PROGRAM, self.folder)

    def test_made_up_folders(self) -> None:
        STRESS.what_made_up_objects_cover(PROGRAM, self.folder, 6)


if __name__ == "__main__":
    unittest.main()
