"""Runs that are told primaries held against those that look at all pairs, by parts of reports, certificates and summaries that are written out here, and
how `scripts/stress` holds the program to it where it is named."""

from __future__ import annotations

import os
import random
import unittest

from conjtools.covering.due import Outcome
from conjtools.primaries import (
    Fleet,
    Refusal,
    can_be_named,
    certificate_of_primaries,
    designators_in,
    differences_of_primaries,
    drawn_fleet,
    first_line_of_other_primaries,
    read_primaries,
    report_of_primaries,
    secondary_files,
    summary_of_primaries,
    told_numbers,
    with_number,
    without_unknown,
)
from conjtools.report import read_report
from conjtools.terminal import Ended
from conjtools.updates import Names
from tests.parts import Told, at, report, summary
from tests.support import FolderCase, oem
from tests.test_covering import STRESS

PROGRAM = os.path.abspath(os.environ["CONJ_PROGRAM"]) if os.environ.get("CONJ_PROGRAM") else ""
KNOWN = ("2025-001A", "2025-002A", "2025-003A")
# Four encounters of three objects; the last two have the third.
ALL_TOLD = (
    Told(1, 2, 30, 2_000_000_000_000, ("NEAR 20 40",), True), Told(1, 2, 150, 3_000_000_000_500, ("NEAR 145 155",)),
    Told(1, 3, 140, 1_000_000_000_007, ("NEAR 130 150",), True), Told(2, 3, 60, 4_000_000_000_000, ("NEAR 50 70",), True),
)  # fmt: skip
WHOLE = report(at(0), at(180), ALL_TOLD)
OF_THE_THIRD = report(at(0), at(180), ALL_TOLD[2:]).replace("NAME SAT C\n", "NAME SAT C\nPRIMARY\n")
HEAD = f"CONJ-CERT 3\nWINDOW {at(0)} {at(180)}\nTHRESHOLD 5000000000000\nOBJECTS 3\nSIZE 1 0\nSIZE 2 0\nSIZE 3 0\n"
SHELLS = "SHELL 1 7000000000000000 7000000000000000\nSHELL 2 7005000000000000 7005000000000000\nSHELL 3 NONE\n"
CELLS = ("CELL 1 2 0 9 N\n", "CELL 1 3 0 9 F\n", "CELL 1 3 10 19 N\n", "CELL 2 3 0 9 U\n", "CELL 1 2 20 29 N\n")


def certificate(*cells: str, primaries: str = "") -> bytes:
    return (HEAD + primaries + SHELLS + "".join(cells) + "END\n").encode()


def message(number: int, words: str) -> bytes:
    return f"CCSDS_CDM_VERS = 1.0\n\nMESSAGE_ID = CONJ_{number:06}\nCOMMENT {words}\n".encode()


PLAIN = Outcome(
    Ended(0, summary(3, (1, 8, 9, 4, 13, 6, 5, 2), 4, 3).encode(), b""),
    {
        "screen.report": WHOLE.encode(), "screen.cert": certificate(*CELLS),
        "000001.cdm": message(1, "of 1 and 2"), "000003.cdm": message(3, "of 1 and 3"), "000004.cdm": message(4, "of 2 and 3"),
    },
)  # fmt: skip
# Those of the first two objects alone.
OTHERS = summary(2, (0, 3, 4, 1, 5, 2, 3, 0), 2, 1).encode()
FLEET = Fleet("fleet.txt", b"COMMENT our satellite\n2025-003A\n")
DUE = Outcome(
    Ended(0, b"OBJECTS 3\nPAIRS 2\nPARTED 1\nTOUCHING 5\nROOTS 5\nSPLITS 3\nLEAVES 8\nFAR 4\nNEAR 2\nUNDECIDED 2\nENCOUNTERS 2\nMESSAGES 2\n", b""),
    {
        "screen.report": OF_THE_THIRD.encode(), "screen.cert": certificate(*CELLS[1:4], primaries="PRIMARY 3\n"),
        "000001.cdm": message(1, "of 1 and 3"), "000002.cdm": message(2, "of 2 and 3"),
    },
)  # fmt: skip


class Files(FolderCase):
    def test_what_a_file_names(self) -> None:
        for content, named in (
            (b"2025-001A", {"2025-001A"}),
            (b" \t2025-003A\t\r\n\nCOMMENT 2025-002A\n2025-001A \n", {"2025-001A", "2025-003A"}),
            (b"2025-001A\nCOMMENT \x07\xff\n", {"2025-001A"}),
        ):
            with self.subTest(content):
                self.assertEqual(read_primaries(content, KNOWN), named)

    def test_how_a_file_is_refused(self) -> None:
        for content, line, cause in REFUSED:
            with self.subTest(content):
                self.assertEqual(read_primaries(content, KNOWN), Refusal(line, cause))

    def test_rows_of_the_obstacle_are_refused_as_they_say(self) -> None:
        for content, told in STRESS.REFUSED_FLEETS:
            if content is not None:
                with self.subTest(content):
                    found = read_primaries(content, KNOWN[:2])
                    assert isinstance(found, Refusal)
                    self.assertEqual(told, f"line {found.line}: {found.cause}".encode())

    def test_lines_of_no_object_are_left_out(self) -> None:
        content = b"COMMENT x\n2025-001A\n\t2025-003A \r\n\n2025-002A"
        self.assertEqual(read_primaries(without_unknown(content, KNOWN[1:]), KNOWN[1:]), {"2025-002A", "2025-003A"})
        self.assertEqual(read_primaries(without_unknown(content, ()), ()), Refusal(0, "NoPrimaries"))

    def test_what_is_drawn(self) -> None:
        draw = random.Random(1)
        drawn = [read_primaries(drawn_fleet(draw, (*KNOWN, KNOWN[0])), KNOWN) for _ in range(2000)]
        causes = {found.cause for found in drawn if isinstance(found, Refusal)}
        self.assertLessEqual({"NoPrimaries", "Primaries Form", "Primaries Twice", "Primaries Unknown", "Primaries Kvn NotPrintable"}, causes)
        sizes = [len(found) for found in drawn if not isinstance(found, Refusal)]
        self.assertTrue(all(sizes.count(size) > 100 for size in (1, 2, 3)), sizes)

    def test_designators_of_ephemerides(self) -> None:
        rows = ["2025-01-01T00:00:00 7000 0 0 0 0 0", "2025-01-01T00:01:00 7000 0 0 0 0 0"]
        files = {number: oem(rows, rows[0][:19], rows[1][:19], "SAT", designator).encode() for number, designator in enumerate(KNOWN)}
        self.assertEqual(designators_in({str(number): text for number, text in files.items()}), list(KNOWN))
        self.assertEqual(designators_in({"a": b"\x07", "b": b"OBJECT_NAME = B\n", "c": b"OBJECT_ID = X Y\nOBJECT_ID = Z\n"}), ["X Y"])
        told = {designator: can_be_named(designator) for designator in ("2025-001A", "X Y", "A=B", "COMMENT", "META_START", "COMMENTS")}
        self.assertEqual([designator for designator, can_be in told.items() if can_be], ["2025-001A", "COMMENTS"])

    def test_the_file_of_primaries_is_no_ephemeris(self) -> None:
        names = Names(sizes="s.oem", primaries="p.oem.new")
        self.assertEqual([name for name in ("a.oem", "s.oem", "p.oem", "p.oem.new") if names.is_base(name)], ["a.oem", "p.oem"])
        self.assertEqual([names.updated(name) for name in ("a.oem.new", "s.oem.new", "p.oem.new")], ["a.oem", "s.oem", None])


REFUSED = (
    (b"", 0, "NoPrimaries"),
    (b"COMMENT 2025-001A\n\n", 0, "NoPrimaries"),
    (b"2025-001A\n2025-002A 1\n", 2, "Primaries Form"),
    (b"A = 1\n", 1, "Primaries Form"),
    (b"COVARIANCE_STOP\n", 1, "Primaries Form"),
    (b"2025-001A\n\n2025-001A\n", 3, "Primaries Twice"),
    (b"2025-004A\n2025-004A\n", 1, "Primaries Unknown"),
    (b"2025-004A\na = 1\n", 2, "Primaries Kvn NoLineForm"),
    (b"2025-004A\nA\x00\n", 2, "Primaries Kvn NotPrintable"),
)


class Parts(unittest.TestCase):
    def test_of_a_report(self) -> None:
        whole = read_report("screen.report", WHOLE.encode())
        self.assertEqual(told_numbers(whole, {"2025-003A"}), [3, 4])
        self.assertEqual(report_of_primaries(whole, {"2025-003A"}).text(), OF_THE_THIRD)
        self.assertEqual(secondary_files(whole, {"2025-003A"}), [whole.objects[0].file, whole.objects[1].file])
        both = report_of_primaries(whole, set(KNOWN[:2])).text()
        self.assertEqual((both.count("\nPRIMARY\n"), both.count("\nENCOUNTER ")), (2, 4))

    def test_of_a_certificate(self) -> None:
        whole = certificate(*CELLS)
        self.assertEqual(certificate_of_primaries(whole, {3}), certificate(*CELLS[1:4], primaries="PRIMARY 3\n"))
        self.assertEqual(certificate_of_primaries(whole, {2, 1}), certificate(*CELLS, primaries="PRIMARY 1\nPRIMARY 2\n"))

    def test_of_a_message(self) -> None:
        self.assertEqual(with_number(message(12, "MESSAGE_ID = X_000012"), 7), message(7, "MESSAGE_ID = X_000012"))
        self.assertEqual(with_number(b"MESSAGE_ID = A_1_000012\n", 1_234_567), b"MESSAGE_ID = A_1_1234567\n")

    def test_of_a_summary(self) -> None:
        self.assertEqual(summary_of_primaries(PLAIN.ended.output, OTHERS), DUE.ended.output)
        told = summary_of_primaries(PLAIN.ended.output + b"UNCOVERED 3\n", OTHERS + b"UNCOVERED 2\n")
        self.assertEqual(told, DUE.ended.output + b"UNCOVERED 3\n")

    def test_lines_of_other_primaries(self) -> None:
        """Behind a head of four lines and the sizes of ten objects."""
        none: list[int] = []
        for told, due, line in (([3], none, 15), ([3, 5], [3], 16), ([3], [3, 5], 16), ([3, 5], [3, 6], 16), ([1], [2], 15)):
            self.assertEqual(first_line_of_other_primaries(10, told, due), line)


class Runs(unittest.TestCase):
    def test_what_is_due(self) -> None:
        self.assertEqual(differences_of_primaries(DUE, PLAIN, FLEET, OTHERS), [])

    def test_what_is_not(self) -> None:
        def put(name: str, data: bytes) -> Outcome:
            return Outcome(DUE.ended, {**DUE.pieces, name: data})

        for told, words in (
            (put("screen.report", WHOLE.encode()), "screen.report is not"),
            (put("screen.report", OF_THE_THIRD.replace("PRIMARY\n", "").encode()), "screen.report is not"),
            (put("screen.cert", certificate(*CELLS[1:4])), "screen.cert is not"),
            (put("screen.cert", certificate(*CELLS, primaries="PRIMARY 3\n")), "screen.cert is not"),
            (put("screen.cert", certificate(*CELLS[1:3], primaries="PRIMARY 3\n")), "screen.cert is not"),
            (put("000002.cdm", message(4, "of 2 and 3")), "000002.cdm is not"),
            (put("000003.cdm", message(3, "of 1 and 2")), "000003.cdm is not"),
            (Outcome(Ended(0, PLAIN.ended.output, b""), DUE.pieces), "standard output"),
            (Outcome(Ended(6, DUE.ended.output, b""), DUE.pieces), "the status"),
        ):
            with self.subTest(words):
                (difference,) = differences_of_primaries(told, PLAIN, FLEET, OTHERS)
                self.assertIn(words, difference)

    def test_a_file_that_is_refused(self) -> None:
        fleet = Fleet("our.txt", b"2025-003A\n2025-009A\n")
        refused = Outcome(Ended(3, b"", b"conj: our.txt: line 2: Primaries Unknown\n"), {})
        self.assertEqual(differences_of_primaries(refused, PLAIN, fleet, None), [])
        self.assertNotEqual(differences_of_primaries(DUE, PLAIN, fleet, None), [])
        wrong = Outcome(Ended(3, b"", b"conj: our.txt: line 1: Primaries Unknown\n"), {})
        self.assertEqual(len(differences_of_primaries(wrong, PLAIN, fleet, None)), 1)

    def test_a_run_that_ends_before_and_one_that_ends_behind(self) -> None:
        """A file that is refused is refused with primaries too; a limit of leaves may be one of all pairs alone."""
        before = Outcome(Ended(3, b"", b"conj: a.oem: line 1: Order\n"), {})
        self.assertEqual(differences_of_primaries(before, before, FLEET, None), [])
        self.assertEqual(len(differences_of_primaries(Outcome(Ended(0, b"", b""), {}), before, FLEET, None)), 2)
        behind = Outcome(Ended(6, b"", b"conj: limit: Cells 3\n"), {})
        self.assertEqual(differences_of_primaries(DUE, behind, FLEET, None), [])


@unittest.skipUnless(PROGRAM, "CONJ_PROGRAM names no program")
class OfTheProgram(FolderCase):
    def test_obstacles(self) -> None:
        for obstacle in (
            STRESS.few_primaries_and_many, STRESS.causes_of_primaries, STRESS.words_of_primaries,
            STRESS.file_of_primaries_with_the_suffix_of_ephemerides, STRESS.primaries_by_what_was_and_what_is,
        ):  # fmt: skip
            with self.subTest(obstacle.__name__):
                obstacle(PROGRAM, self.folder)


if __name__ == "__main__":
    unittest.main()
