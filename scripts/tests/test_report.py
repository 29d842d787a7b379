"""Reports: read, written back byte for byte, and refused at the line where they are none."""

from __future__ import annotations

import unittest

from conjtools.faults import InputFault
from conjtools.report import Kind, Report, Span, Window, read_report
from tests.support import CROSSING_ENCOUNTER, CROSSING_HEAD, CROSSING_OBJECTS, CROSSING_REPORT, RESTING_REPORT, SIZED_REPORT, USUAL_REPORT, catalogue_report

MIDNIGHT = 1_735_689_600_000_000
MORE = CROSSING_REPORT.replace("NAME SAT A\n", "NAME SAT A\nSIZE 0\nPRIMARY\nCOVERED NONE\n").replace(
    "NAME SAT B\n",
    "NAME SAT B\nSIZE 1000000000000\nCOVERED 2025-01-01T00:00:00.000000 2025-01-01T00:00:30.000000\n"
    "COVERED 2025-01-01T00:00:31.000000 2025-01-01T00:01:00.000000\n",
)


def read(text: str) -> Report:
    """A report by its text."""
    return read_report("screen.report", text.encode("latin-1"))


class Reading(unittest.TestCase):
    def test_texts_are_written_back(self) -> None:
        for text in (CROSSING_REPORT, SIZED_REPORT, USUAL_REPORT, RESTING_REPORT, catalogue_report(), MORE, CROSSING_HEAD + "END\n"):
            self.assertEqual(read(text).text(), text)

    def test_crossing(self) -> None:
        report = read(CROSSING_REPORT)
        self.assertEqual((report.window, report.threshold), (Window(MIDNIGHT, MIDNIGHT + 60_000_000), 5 * 10**12))
        told = [(one.file, one.designator, one.name) for one in report.objects]
        self.assertEqual(told, [("a.oem", "2025-001A", "SAT A"), ("b.oem", "2025-002A", "SAT B")])
        (encounter,) = report.encounters
        self.assertEqual((encounter.a, encounter.b, encounter.mark, encounter.has_message), (1, 2, Kind.NEAR, True))
        self.assertEqual((encounter.closest, encounter.miss, encounter.line), (MIDNIGHT + 30_000_000, 10**12, 12))
        self.assertEqual(encounter.spans, (Span(Kind.NEAR, MIDNIGHT + 29_538_120, MIDNIGHT + 30_461_880),))

    def test_pair_threshold_has_both_sizes(self) -> None:
        report = read(SIZED_REPORT)
        self.assertEqual(report.pair_threshold(report.encounters[0]), 5_002_250_000_000)

    def test_spans_of_two_kinds(self) -> None:
        encounter = read(catalogue_report()).encounters[3]
        self.assertEqual([span.kind for span in encounter.spans], [Kind.NEAR, Kind.UNDECIDED])
        self.assertEqual(encounter.last, MIDNIGHT + 939_111_328)

    def test_lines_that_may_stand_behind_an_object(self) -> None:
        first, second = read(MORE).objects
        self.assertEqual((first.primary, first.size, first.covered), (True, 0, ()))
        self.assertEqual((second.primary, second.size), (False, 10**12))
        self.assertEqual(second.covered, ((MIDNIGHT, MIDNIGHT + 30_000_000), (MIDNIGHT + 31_000_000, MIDNIGHT + 60_000_000)))


class Refused(unittest.TestCase):
    def refused(self, text: str, line: int) -> None:
        with self.assertRaises(InputFault) as caught:
            read(text)
        self.assertEqual((caught.exception.file, caught.exception.line), ("screen.report", line), caught.exception.cause)

    def swapped(self, old: str, new: str, line: int) -> None:
        with self.subTest(old=old, new=new):
            self.assertIn(old, CROSSING_REPORT)
            self.refused(CROSSING_REPORT.replace(old, new, 1), line)

    def test_each_cut(self) -> None:
        """Whatever stands before the end of a report is none, and the fault is at the line that is cut or wanting."""
        for size in range(len(CROSSING_REPORT)):
            text = CROSSING_REPORT[:size]
            self.refused(text, text.count("\n") + 1)

    def test_head(self) -> None:
        self.swapped("CONJ-REPORT 1", "CONJ-REPORT 2", 1)
        self.swapped("CONJ-REPORT 1", "CONJ-CERT 1", 1)
        self.swapped("WINDOW 2025-01-01T00:00:00.000000", "WINDOW 2025-01-01T00:00:00", 2)
        self.swapped("WINDOW 2025", "WINDOW  2025", 2)
        self.swapped("THRESHOLD 5000000000000", "THRESHOLD 05000000000000", 3)
        self.swapped("THRESHOLD 5000000000000", "THRESHOLD 999999999", 3)
        self.swapped("THRESHOLD 5000000000000\n", "", 3)

    def test_objects(self) -> None:
        self.swapped("OBJECT 2", "OBJECT 3", 8)
        self.swapped("FILE a.oem", "FILE ", 5)
        self.swapped("FILE a.oem", "FILE ../a.oem", 5)
        self.swapped("FILE a.oem", "FILE c.oem", 9)
        self.swapped("ID 2025-001A", "ID  2025-001A", 6)
        self.swapped("NAME SAT A\n", "", 7)
        self.swapped("NAME SAT A\n", "NAME SAT A\nSIZE 1\n", 9)
        self.swapped("NAME SAT A\n", "NAME SAT A\nPRIMARY yes\n", 8)
        self.swapped("NAME SAT A\n", "NAME SAT A\nPRIMARY\nSIZE 1\n", 9)
        self.swapped("NAME SAT A\n", "NAME SAT A\nCOVERED NONE\n", 9)
        self.swapped("NAME SAT A\n", "NAME SAT A\nCOVERED NONE\nCOVERED NONE\n", 9)
        self.swapped("NAME SAT A\n", "NAME SAT A\nCOVERED 2025-01-01T00:00:01.000000 2025-01-01T00:00:00.000000\n", 8)
        for first, last in (("2024-12-31T23:59:59.999999", "2025-01-01T00:00:01.000000"), ("2025-01-01T00:00:00.000000", "2025-01-01T00:01:00.000001")):
            self.swapped("NAME SAT A\n", f"NAME SAT A\nCOVERED {first} {last}\n", 8)
        for behind in ("01.000000", "01.000001"):
            spans = f"COVERED 2025-01-01T00:00:00.000000 2025-01-01T00:00:01.000000\nCOVERED 2025-01-01T00:00:{behind} 2025-01-01T00:00:02.000000\n"
            self.swapped("NAME SAT A\n", f"NAME SAT A\n{spans}", 9)
        self.swapped("NAME SAT A\n", "NAME SAT \xc4\n", 7)
        self.swapped("NAME SAT A\n", "NAME SAT A\r\n", 7)

    def test_encounters(self) -> None:
        self.swapped("ENCOUNTER 1", "ENCOUNTER 2", 12)
        self.swapped("ENCOUNTER 1 1 2", "ENCOUNTER 1 2 1", 12)
        self.swapped("ENCOUNTER 1 1 2", "ENCOUNTER 1 1 3", 12)
        self.swapped("2 NEAR", "2 FAR", 12)
        self.swapped("2 NEAR", "2 UNDECIDED", 12)
        self.swapped("1000000000000 CDM", "-1 CDM", 12)
        self.swapped("1000000000000 CDM", "1000000000000 YES", 12)
        self.swapped("1000000000000 CDM", "1000000000000", 12)
        self.swapped("T00:00:30.000000 1", "T00:00:31.000000 1", 12)
        self.swapped("SPAN NEAR", "SPAN FAR", 13)
        self.swapped("29.538120", "31.538120", 13)
        self.swapped("00:30.461880", "01:30.461880", 13)
        self.swapped("30.461880\n", "30.461880\nSPAN NEAR 2025-01-01T00:00:30.461881 2025-01-01T00:00:30.461882\n", 14)
        self.swapped("30.461880\n", "30.461880\nSPAN UNDECIDED 2025-01-01T00:00:30.461882 2025-01-01T00:00:30.461882\n", 14)
        self.swapped(CROSSING_ENCOUNTER, CROSSING_ENCOUNTER + CROSSING_ENCOUNTER.replace("ENCOUNTER 1", "ENCOUNTER 2"), 14)
        self.swapped(CROSSING_OBJECTS, "", 4)

    def test_end(self) -> None:
        self.refused(CROSSING_REPORT + "END\n", 15)
        self.refused(CROSSING_REPORT + "\n", 15)
        self.swapped("END", "END ", 14)
        self.swapped("END", "OBJECT 3", 14)


if __name__ == "__main__":
    unittest.main()
