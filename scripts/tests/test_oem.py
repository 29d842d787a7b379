"""Ephemerides: what is taken, and each fault of docs/FORMATS.md with its line."""

from __future__ import annotations

import random
import unittest
from fractions import Fraction

from tests.support import SAMPLES, need_numpy, oem, segment

need_numpy()

from conjtools.epochs import read_epoch  # noqa: E402
from conjtools.faults import InputFault  # noqa: E402
from conjtools.oem import read_oem  # noqa: E402

START, STOP = "2025-01-01T00:00:00", "2025-01-01T00:01:00"
ROWS = [f"{START} 7000 -225 0 0 7.5 0", f"{STOP} 7000 225 0 0 7.5 0"]
SMALL = oem(ROWS, START, STOP)
NODE_TIMES = [1_735_689_600_000_000, 1_735_689_660_000_000]
COVARIANCE = "COVARIANCE_START\nEPOCH = 2025-01-01T00:00:00\nCOV_REF_FRAME = RTN\n1\n0 1\n0 0 1\n0 0 0 1\n0 0 0 0 1\n0 0 0 0 0 1\nCOVARIANCE_STOP\n"
USUAL_TOOL = """CCSDS_OEM_VERS = 2.0
COMMENT  produced by flight dynamics
CREATION_DATE  = 2025-001T06:00:00.000Z
ORIGINATOR     = OPS

META_START
OBJECT_NAME          = DEMO SAT
OBJECT_ID            = 2025-007B
CENTER_NAME          = Earth
REF_FRAME            = EME2000
TIME_SYSTEM          = UTC
START_TIME           = 2025-001T00:00:00.000Z
USEABLE_START_TIME   = 2025-001T00:00:30.000Z
STOP_TIME            = 2025-001T00:02:00.000Z
INTERPOLATION        = Lagrange
INTERPOLATION_DEGREE = 7
META_STOP

COMMENT  positions in km
2025-001T00:00:00.000Z  7.0E+03  0.0  0.0  0.0  7.5E+00  0.0  0.0 0.0 0.0
2025-001T00:01:00.000Z  6985.8   449.7  0.0  -0.48  7.48  0.0  0.0 0.0 0.0
2025-001T00:02:00.000Z  6943.2   897.5  0.0  -0.96  7.44  0.0  0.0 0.0 0.0

COVARIANCE_START
EPOCH = 2025-001T00:00:00.000Z
COV_REF_FRAME = RTN
1.0e-04
0.0 1.0e-04
0.0 0.0 1.0e-04
0.0 0.0 0.0 1.0e-10
0.0 0.0 0.0 0.0 1.0e-10
0.0 0.0 0.0 0.0 0.0 1.0e-10
COVARIANCE_STOP
""".replace("\n", "\r\n")


def nanometres(text: str) -> int:
    """A number in km as whole nm, halves away from zero, by exact fractions."""
    value = Fraction(text) * 10**12
    size = (2 * abs(value) + 1) // 2
    return -size if value < 0 else size


class Reading(unittest.TestCase):
    def test_small_file(self) -> None:
        track = read_oem("a.oem", SMALL.encode())
        self.assertEqual((track.file, track.name, track.designator, track.frame), ("a.oem", "SAT A", "2025-001A", "EME2000"))
        (arc,) = track.segments
        self.assertEqual((arc.first, arc.last, arc.times.tolist(), arc.covariances), (*NODE_TIMES, NODE_TIMES, ()))
        states = [[7 * 10**15, -225 * 10**12, 0, 0, 75 * 10**11, 0], [7 * 10**15, 225 * 10**12, 0, 0, 75 * 10**11, 0]]
        self.assertEqual(arc.states.tolist(), states)

    def test_file_of_a_usual_tool_with_another_interpolation(self) -> None:
        (arc,) = read_oem("u.oem", USUAL_TOOL.encode()).segments
        self.assertEqual((arc.first, arc.last), (1_735_689_630_000_000, 1_735_689_720_000_000))
        self.assertEqual(arc.states[0].tolist(), [7 * 10**15, 0, 0, 0, 75 * 10**11, 0])
        self.assertEqual(arc.states[1].tolist(), [69858 * 10**11, 4497 * 10**11, 0, -48 * 10**10, 748 * 10**10, 0])
        self.assertEqual(arc.covariances, (1_735_689_600_000_000,))

    def test_rows_read_together_are_the_single_numbers(self) -> None:
        """Numbers of several forms, each form alone and all of them mixed, by exact fractions."""
        draw = random.Random(11)
        forms = ("%.6f", "%.12f", "%.1f", "%21.14E", "%.9E", "%d", "%.15f", "%+.3f")
        for choice in (*((form,) for form in forms), forms):
            rows, wanted = [], []
            for minute in range(30):
                numbers = [draw.choice(choice) % (draw.uniform(-1, 1) * size) for size in (42000, 42000, 42000, 8, 8, 1e-3)]
                rows.append(f"2025-01-01T00:{minute:02}:00 " + " ".join(numbers))
                wanted.append([nanometres(text.strip()) for text in numbers])
            (arc,) = read_oem("a.oem", oem(rows, START, "2025-01-01T00:29:00").encode()).segments
            self.assertEqual(arc.states.tolist(), wanted, choice)

    def test_halves_go_away_from_zero(self) -> None:
        """In the rows that are read together too."""
        texts = ["7.0000000000005E+03", "-7.0000000000005E+03", "1.0000000000025E+00", "-1.0000000000025E+00", "4.9999999999999E-13", "5.0000000000000E-13"]
        rows = [f"2025-01-01T00:0{minute}:00 " + " ".join(texts) for minute in (0, 1)]
        (arc,) = read_oem("a.oem", oem(rows, START, STOP).encode()).segments
        self.assertEqual(arc.states[0].tolist(), [nanometres(text) for text in texts])
        self.assertEqual(arc.states[0].tolist()[:4], [7000000000000500, -7000000000000500, 1000000000003, -1000000000003])

    def test_segments_share_a_tick(self) -> None:
        second = ["2025-01-01T00:01:00 7000 225 0 0 7.5 0", "2025-01-01T00:02:00.5 7000 675 0 0 7.5 0"]
        text = SMALL + COVARIANCE + segment(second, STOP, "2025-01-01T00:02:00", more="REF_FRAME_EPOCH = any\n")
        track = read_oem("a.oem", text.encode())
        self.assertEqual([(arc.first, arc.last) for arc in track.segments], [tuple(NODE_TIMES), (NODE_TIMES[1], NODE_TIMES[1] + 60_000_000)])

    def test_tabs_in_names_are_spaces(self) -> None:
        self.assertEqual(read_oem("a.oem", SMALL.replace("SAT A", "SAT\tA").encode()).name, "SAT A")

    def test_bounds_of_prepared_cubics_are_told_by_the_greatest(self) -> None:
        first = "COMMENT PREPARED FROM polar.oem; LAGRANGE 7 IN ITRF2020, GPS; WITHIN 0.403043314 m\r\n"
        second = "COMMENT PREPARED FROM polar.oem; LAGRANGE 7 IN ITRF2020, GPS; WITHIN 12.000000001 m\n"
        self.assertIsNone(read_oem("a.oem", SMALL.encode()).prepared)
        self.assertEqual(read_oem("a.oem", (SMALL + first + second).encode()).prepared, 12_000_000_001)
        self.assertIsNone(read_oem("a.oem", (SMALL + "COMMENT PREPARED BY HAND; WITHIN 1 m\n").encode()).prepared)

    def test_samples_are_taken(self) -> None:
        for path in SAMPLES.glob("*/*.oem"):
            if path.parent.name != "provider":
                self.assertEqual(read_oem(path.name, path.read_bytes()).file, path.name)

    def test_file_in_another_frame_is_refused(self) -> None:
        with self.assertRaises(InputFault) as caught:
            read_oem("polar.oem", (SAMPLES / "provider" / "polar.oem").read_bytes())
        self.assertEqual(str(caught.exception), "polar.oem: line 8: Frame")


class Faults(unittest.TestCase):
    def refused(self, text: str, line: int, cause: str, file: str = "a.oem") -> None:
        with self.subTest(cause=cause, line=line), self.assertRaises(InputFault) as caught:
            read_oem(file, text.encode("latin-1"))
        self.assertEqual((caught.exception.line, caught.exception.cause), (line, cause))

    def swapped(self, old: str, new: str, line: int, cause: str) -> None:
        self.assertIn(old, SMALL)
        self.refused(SMALL.replace(old, new), line, cause)

    def test_file_and_lines_as_such(self) -> None:
        self.refused(SMALL, 0, "Name", file="")
        self.refused(SMALL, 0, "Name", file="a" * 201)
        self.swapped("SAT A", "SAT \xc4", 5, "Kvn NotPrintable")
        self.refused(SMALL.replace("TEST", "\x01").replace("META_START", "no = 1"), 3, "Kvn NotPrintable")
        self.swapped("CENTER_NAME", "Center_NAME", 7, "Kvn NoLineForm")

    def test_header(self) -> None:
        self.refused("", 1, "Missing")
        self.refused("META_START\n", 1, "Order")
        self.swapped("VERS = 2.0", "VERS = 4.0", 1, "Version")
        self.swapped("ORIGINATOR = TEST\n", "", 3, "Missing")
        self.swapped("ORIGINATOR = TEST", "CCSDS_OEM_VERS = 2.0", 3, "Twice")
        self.swapped("ORIGINATOR = TEST", "OWNER = TEST", 3, "Unknown")
        self.swapped("ORIGINATOR = TEST", "a row", 3, "Order")
        self.refused("CCSDS_OEM_VERS = 1.0\nCREATION_DATE = x\n\n", 4, "Missing")

    def test_metadata(self) -> None:
        self.swapped("OBJECT_NAME = SAT A", "OBJECT_NAME =", 5, "Missing")
        self.swapped("OBJECT_ID = 2025-001A\n", "", 13, "Missing")
        self.swapped("OBJECT_ID = 2025-001A", "OBJECT_NAME = SAT A", 6, "Twice")
        self.swapped("OBJECT_ID = 2025-001A", "OBJECT = A", 6, "Unknown")
        self.swapped("= EARTH", "= MOON", 7, "Center")
        self.swapped("= EME2000", "= ITRF", 8, "Frame")
        self.swapped("= UTC", "= TAI", 9, "TimeSystem")
        self.swapped("STOP_TIME = 2025", "STOP_TIME = 1925", 11, "Epoch Range")
        self.swapped("START_TIME = 2025-01-01T00:00:00", "START_TIME = today", 10, "Epoch Form")
        self.swapped("META_STOP", "META_START", 14, "Order")

    def test_nodes(self) -> None:
        first, second = ROWS
        for row, cause in (
            ("2025-01-01T00:01:00 7000 225 0 0 7.5", "Fields"), ("2025-01-01T00:01:00 7000 225 0 0 7.5 0 1", "Fields"),
            ("2025-01-01T00:00:60 7000 225 0 0 7.5 0", "Epoch SecondSixty"), ("2025-01-01T00:01:00.0000001 7000 225 0 0 7.5 0", "Epoch TooFine"),
            ("2025-01-01T00:01:00 7000 x 0 0 7.5 0", "Number"), ("2025-01-01T00:01:00 9E99 0 0 0 7.5 x", "Number"),
            ("2025-01-01T00:01:00 7000 225 0 0 7.5 0 1 2 1E100", "Number"), ("2025-01-01T00:01:00 500000.0000000000005 225 0 0 7.5 0", "CoordinateRange"),
            ("2025-01-01T00:01:00 7E30 225 0 0 7.5 0", "CoordinateRange"), ("2025-01-01T00:01:00 7000 225 0 0 7.5 -20.000000000001", "RateRange"),
            ("2025-01-01T00:00:00 7000 225 0 0 7.5 0", "TimesFall"), ("2025-01-01T01:00:00.000001 7000 225 0 0 7.5 0", "StepTooLong"),
        ):  # fmt: skip
            self.refused(SMALL.replace(second, row), 16, cause)
        read_oem("a.oem", SMALL.replace(second, "2025-01-01T00:01:00 -500000.0000000000004 225 0 0 -20 20").encode())
        self.refused(SMALL.replace(second + "\n", ""), 16, "TooFewNodes")
        self.refused(SMALL.replace(first, "A = 1"), 15, "Order")
        ends = "2016-12-31T23:59:30.0", "2017-01-01T00:00:00.0"
        self.refused(oem([f"{end} 7000.0 0.0 0.0 0.0 7.5 0.0" for end in ends], *ends), 16, "LeapSecond")

    def test_faults_of_rows_that_are_written_alike(self) -> None:
        """The first fault decides, though the rows are read together."""
        rows = [f"2025-01-01T00:{minute:02}:00.000 7000.000 {minute}.000 0.000 0.000000 7.500000 0.000000" for minute in range(9)]
        for place, old, new, cause in (
            (4, "7000.000", "700000.000", "CoordinateRange"), (5, "7.500000", "27.500000", "RateRange"), (3, "00:03", "00:02", "TimesFall"),
            (6, "00:06", "03:06", "StepTooLong"), (2, "00:02:00", "00:02:60", "Epoch SecondSixty"), (7, "7000.000", "70.00.00", "Number"),
        ):  # fmt: skip
            changed = [row.replace(old, new) if number == place else row for number, row in enumerate(rows)]
            self.refused(oem(changed, START, "2025-01-01T00:08:00"), 15 + place, cause)

    def test_segments(self) -> None:
        self.refused(oem(ROWS, START, "2025-01-01T00:01:00.000001"), 17, "UseableSpan")
        self.refused(oem(ROWS, STOP, START), 17, "UseableSpan")
        early = segment(ROWS, "2025-01-01T00:00:59.999999", STOP)
        self.refused(SMALL + early, 30, "SegmentsOverlap")
        self.refused(SMALL + segment(ROWS, START, STOP, name="SAT B"), 18, "ObjectChanged")
        self.refused(SMALL + segment(ROWS, START, STOP).replace("EME2000", "GCRF"), 21, "Frame")

    def test_covariances(self) -> None:
        read_oem("a.oem", (SMALL + COVARIANCE).encode())
        for old, new, line, cause in (
            ("EPOCH = 2025-01-01T00:00:00\n", "", 18, "MatrixForm"), ("COV_REF_FRAME", "FRAME", 19, "Unknown"), ("0 0 0 1\n", "0 0 0\n", 23, "MatrixForm"),
            ("0 0 0 0 0 1\n", "", 25, "MatrixForm"), ("0 0 0 0 0 1\n", "0 0 0 0 0 1\n1\n", 26, "MatrixForm"), ("0 0 1\n", "0 0 one\n", 22, "Number"),
            ("RTN\n", "RTN\nCOV_REF_FRAME = RTN\n", 20, "MatrixForm"), ("COVARIANCE_STOP\n", "", 26, "Missing"), ("COVARIANCE_STOP", "META_STOP", 26, "Order"),
            ("EPOCH = 2025", "EPOCH = 1925", 18, "Epoch Range"), ("COVARIANCE_STOP\n", "COVARIANCE_STOP\nrow\n", 27, "Order"),
        ):  # fmt: skip
            self.refused(SMALL + COVARIANCE.replace(old, new, 1), line, cause)

    def test_only_covariances_in_rtn_are_kept(self) -> None:
        for frame, kept in (("RTN", 1), ("rtn", 1), ("RSW", 0), ("EME2000", 0)):
            (arc,) = read_oem("a.oem", (SMALL + COVARIANCE.replace("= RTN", f"= {frame}")).encode()).segments
            self.assertEqual(len(arc.covariances), kept)
        (arc,) = read_oem("a.oem", (SMALL + COVARIANCE.replace("COV_REF_FRAME = RTN\n", "")).encode()).segments
        self.assertEqual(arc.covariances, ())

    def test_epoch_of_a_node_is_exact(self) -> None:
        row = "2025-032T00:00:00.000001Z 7000 225 0 0 7.5 0"
        (arc,) = read_oem("a.oem", oem(["2025-031T23:59:59.5 7000 0 0 0 7.5 0", row], "2025-031T23:59:59.5", "2025-032T00:00:00").encode()).segments
        self.assertEqual(arc.times[1], read_epoch("2025-02-01T00:00:00.000001"))


if __name__ == "__main__":
    unittest.main()
