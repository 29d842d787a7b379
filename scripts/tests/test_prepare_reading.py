"""Both notations of an OEM, what they say, and what is refused."""
from __future__ import annotations

import tempfile
import unittest
from fractions import Fraction
from pathlib import Path

try:
    import erfa  # type: ignore[import]  # noqa: F401
    import numpy  # noqa: F401
except ModuleNotFoundError as missing:
    raise unittest.SkipTest(f"{missing.name} is missing: apt-get install python3-numpy python3-erfa") from None

from conjtools.prepare.faults import Refused
from conjtools.prepare.message import Message
from conjtools.prepare.numbers import BadNumber, whole_and_part
from conjtools.prepare.objects import Prepared, Settings, prepare_file, read_messages
from conjtools.prepare.frames import OfDate
from conjtools.prepare.segments import Method, Wanted

KVN = """CCSDS_OEM_VERS = 2.0
COMMENT a comment
CREATION_DATE = 2025-01-01T00:00:00
ORIGINATOR = TEST

META_START
OBJECT_NAME = SAT A
OBJECT_ID = 2025-001A
CENTER_NAME = Earth
REF_FRAME = EME2000
TIME_SYSTEM = UTC
START_TIME = 2025-01-01T00:00:00
STOP_TIME = 2025-001T00:03:00Z
INTERPOLATION = Lagrange
INTERPOLATION_DEGREE = 3
META_STOP
2025-01-01T00:00:00 7000 -225 0 0 7.5 0
2025-01-01T00:01:00 7000 225.5 0 0 7.5 0 1e-3 0 0
2025-01-01T00:02:00 +7000. 675 0 0 7.5E0 .0
2025-01-01T00:03:00 7000 1125 0 0 7.5 0
COVARIANCE_START
EPOCH = 2025-01-01T00:00:00
COV_REF_FRAME = RTN
1
0 1
0 0 1
0 0 0 1e-4
0 0 0 0 1e-4
0 0 0 0 0 1.50e-04
COVARIANCE_STOP
"""

STATES = "".join(f"<stateVector><EPOCH>2025-01-01T00:0{i}:00</EPOCH><X units='km'>7000</X><Y>{y}</Y><Z>0</Z><X_DOT>0</X_DOT><Y_DOT units='km/s'>7.5</Y_DOT>"
                 f"<Z_DOT>0</Z_DOT></stateVector>\n" for i, y in enumerate(("-225", "225.5", "675", "1125")))
TRIANGLE = [(a, b) for i, a in enumerate(("X", "Y", "Z", "X_DOT", "Y_DOT", "Z_DOT")) for b in ("X", "Y", "Z", "X_DOT", "Y_DOT", "Z_DOT")[:i + 1]]
VALUES = ("1", "0", "1", "0", "0", "1", "0", "0", "0", "1e-4", "0", "0", "0", "0", "1e-4", "0", "0", "0", "0", "0", "1.50e-04")
XML = f"""<?xml version="1.0" encoding="UTF-8"?>
<oem xmlns:xsi="http://www.w3.org/2001/XMLSchema-instance" xsi:noNamespaceSchemaLocation="ndmxml-1.0-master.xsd" id="CCSDS_OEM_VERS" version="2.0">
<header><COMMENT>a comment</COMMENT><CREATION_DATE>2025-01-01T00:00:00</CREATION_DATE><ORIGINATOR>TEST</ORIGINATOR></header>
<body><segment><metadata>
<OBJECT_NAME>SAT A</OBJECT_NAME><OBJECT_ID>2025-001A</OBJECT_ID><CENTER_NAME>Earth</CENTER_NAME>
<REF_FRAME>EME2000</REF_FRAME>
<TIME_SYSTEM>UTC</TIME_SYSTEM><START_TIME>2025-01-01T00:00:00</START_TIME><STOP_TIME>2025-001T00:03:00Z</STOP_TIME>
<INTERPOLATION>Lagrange</INTERPOLATION><INTERPOLATION_DEGREE>3</INTERPOLATION_DEGREE>
</metadata><data>
{STATES}<covarianceMatrix><EPOCH>2025-01-01T00:00:00</EPOCH><COV_REF_FRAME>RTN</COV_REF_FRAME>
{''.join(f'<C{a}_{b}>{value}</C{a}_{b}>' for (a, b), value in zip(TRIANGLE, VALUES))}</covarianceMatrix>
</data></segment></body></oem>
"""
PLAIN = Settings(1e9, None, Wanted(None, None, False, None))


class Reading(unittest.TestCase):
    """What files say."""

    def setUp(self) -> None:
        held = tempfile.TemporaryDirectory()
        self.addCleanup(held.cleanup)
        self.folder = Path(held.name)

    def put(self, text: str, name: str = "a.oem") -> Path:
        path = self.folder / name
        path.write_bytes(text.encode("latin-1"))
        return path

    def prepared(self, text: str, settings: Settings = PLAIN) -> list[Prepared]:
        return prepare_file(self.put(text), settings)

    def refused(self, text: str, line: int, words: str, settings: Settings = PLAIN) -> None:
        """The text is refused at a line with these words."""
        with self.assertRaises(Refused) as caught:
            self.prepared(text, settings)
        self.assertIn(words, caught.exception.what)
        self.assertEqual((caught.exception.file, caught.exception.line), ("a.oem", line))

    def test_both_notations_say_the_same(self) -> None:
        def said(message: Message) -> object:
            return ({key: value.text for key, value in message.header.items() if key != "CCSDS_OEM_VERS"},
                    [({key: value.text for key, value in segment.keys.items()},
                      [(state.epoch, [float(number) for number in state.numbers[:6]]) for state in segment.states],
                      [(matrix.epoch.text, matrix.frame and matrix.frame.text, matrix.numbers) for matrix in segment.matrices])
                     for segment in message.segments])
        kvn, = read_messages(self.put(KVN))
        xml, = read_messages(self.put(XML, "a.xml"))
        self.assertEqual(said(kvn), said(xml))

    def test_an_ndm_of_two_messages_has_two_objects(self) -> None:
        body = XML[XML.index("<oem"):]
        other = body.replace("SAT A", "SAT B").replace("2025-001A", "2025-002A")
        found = prepare_file(self.put(f"<?xml version='1.0'?>\n<ndm>{body}{other}</ndm>", "both.xml"), PLAIN)
        self.assertEqual([(item.file, item.rows[0].name, item.rows[0].designator) for item in found],
                         [("both-1.oem", "SAT A", "2025-001A"), ("both-2.oem", "SAT B", "2025-002A")])

    def test_lines_that_end_with_cr_lf_and_other_versions(self) -> None:
        for text in (KVN.replace("\n", "\r\n"), KVN.replace("VERS = 2.0", "VERS = 1.0"), KVN.replace("VERS = 2.0", "VERS = 3.0"),
                     "\ufeff".encode().decode("latin-1") + XML, "\ufeff".encode().decode("latin-1") + KVN, KVN.replace(" = ", "="),
                     KVN.replace(" 7000", "\t7000")):
            self.assertEqual(self.prepared(text)[0].rows[0].read, 4)

    def test_objects_of_one_kvn_file_are_parted_by_name_and_designator(self) -> None:
        segment = KVN[KVN.index("META_START"):]
        other = segment.replace("2025-001A", "2025-009A")
        later = segment.replace("T00:0", "T01:0")
        found = self.prepared(KVN + other + later)
        self.assertEqual([(item.file, len(item.rows)) for item in found], [("a-1.oem", 2), ("a-2.oem", 1)])

    def test_a_covariance_in_rtn_keeps_its_digits(self) -> None:
        text = self.prepared(KVN)[0].text
        rows = "1\n0 1\n0 0 1\n0 0 0 1e-4\n0 0 0 0 1e-4\n0 0 0 0 0 1.50e-04\n"
        self.assertIn(f"EPOCH = 2025-01-01T00:00:00.000000\nCOV_REF_FRAME = RTN\n{rows}COVARIANCE_STOP\n", text)
        self.assertIn("COV_REF_FRAME = RTN", self.prepared(KVN.replace("= RTN", "= RSW"))[0].text)

    def test_kilometres_are_read_to_the_last_digit(self) -> None:
        # Halves of a nanometre go away from zero, as conj takes them.
        self.assertEqual(whole_and_part("7000.0000000000005"), (7_000_000_000_000_001, -0.5))
        self.assertEqual(whole_and_part("-1.5E-12"), (-2, 0.5))
        self.assertEqual(whole_and_part("42164.123456789012345"), (42_164_123_456_789_012, 0.345))
        for text in ("1e6", "nan", "1e5000", "1,5", "0x1", "", "1e", "--1", "1_0"):
            with self.subTest(text), self.assertRaises(BadNumber):
                whole_and_part(text)
        self.assertEqual(whole_and_part("1e-5000"), (0, 0.0))

    def test_a_file_without_interpolation_needs_one(self) -> None:
        text = KVN.replace("INTERPOLATION = Lagrange\nINTERPOLATION_DEGREE = 3\n", "")
        self.refused(text, 14, "--method lagrange or hermite and --degree N")
        found, = self.prepared(text, Settings(1e9, None, Wanted(Method.HERMITE, 5, False, None)))
        self.assertIn("; HERMITE 5 BY OPTION IN EME2000, UTC; WITHIN ", found.text)
        self.refused(KVN.replace("INTERPOLATION_DEGREE = 3\n", ""), 15, "no degree")
        found, = self.prepared(KVN.replace("INTERPOLATION_DEGREE = 3\n", ""), Settings(1e9, None, Wanted(Method.HERMITE, 2, False, None)))
        self.assertIn("; LAGRANGE 2 BY OPTION IN", found.text)

    def test_what_is_given_does_not_change_what_is_declared(self) -> None:
        found, = self.prepared(KVN, Settings(1e9, None, Wanted(Method.HERMITE, 5, False, None)))
        self.assertIn("; LAGRANGE 3 IN EME2000, UTC; WITHIN ", found.text)

    def test_too_few_nodes_are_refused_or_lower_the_degree(self) -> None:
        text = KVN.replace("DEGREE = 3", "DEGREE = 7")
        self.refused(text, 16, "goes through 8 nodes, and the segment has 4: --lower-degree")
        found, = self.prepared(text, Settings(1e9, None, Wanted(None, None, True, None)))
        self.assertIn("; LAGRANGE 3 LOWERED FROM 7 IN EME2000, UTC; WITHIN ", found.text)
        found, = self.prepared(text.replace("Lagrange", "HERMITE").replace("= 7\n", "= 9\n"), Settings(1e9, None, Wanted(None, None, True, None)))
        self.assertIn("; HERMITE 7 LOWERED FROM 9 IN EME2000, UTC; WITHIN ", found.text)

    def test_linear_is_lagrange_of_degree_one(self) -> None:
        found, = self.prepared(KVN.replace("Lagrange", "LINEAR").replace("INTERPOLATION_DEGREE = 3\n", ""))
        self.assertIn("; LAGRANGE 1 IN EME2000, UTC; WITHIN ", found.text)

    def test_what_is_refused_with_its_line(self) -> None:
        cases = [("OBJECT_NAME = SAT A", "OBJECT_NAME =", 7, "OBJECT_NAME is empty"), ("= Earth", "= MOON", 9, "center MOON"),
                 ("= EME2000", "= B1950", 10, "frame B1950"), ("= EME2000", "= ITRF2014", 10, "ITRF needs --eop"), ("= EME2000", "= ITRFX", 10, "is not read"),
                 ("= EME2000", "= TEMEOFEPOCH", 10, "needs REF_FRAME_EPOCH"), ("= EME2000", "= TOD", 16, "--of-date"),
                 ("= UTC", "= TDB", 11, "time system TDB"), ("= UTC", "= UT1", 11, "UT1 needs --eop"),
                 ("2025-01-01T00:00:00\nSTOP", "2024-12-31T23:59:59\nSTOP", 12, "useable span does not lie"),
                 ("2025-001T00:03:00Z", "2025-001T00:03:00.000001Z", 13, "does not lie"),
                 ("Lagrange", "SPLINE", 14, "interpolation SPLINE"), ("DEGREE = 3", "DEGREE = three", 15, "no whole number"),
                 ("DEGREE = 3", "DEGREE = 0", 15, "is not read"),
                 ("DEGREE = 3", "DEGREE = 26", 15, "from 1 to 25"),
                 ("Lagrange\nINTERPOLATION_DEGREE = 3", "HERMITE\nINTERPOLATION_DEGREE = 6", 15, "odd degree"),
                 ("Lagrange\nINTERPOLATION_DEGREE = 3", "HERMITE\nINTERPOLATION_DEGREE = 1", 15, "through one node"),
                 ("225.5 0 0", "225.5x 0 0", 18, "is no number"), ("225.5 0 0", "1000000 0 0", 18, "million"),
                 ("7.5 0 1e-3 0 0", "7.5 0 1e-3 0", 18, "6 or 9 numbers"),
                 ("T00:01:00 7000", "T00:00:00 7000", 18, "not later"), ("T00:01:00 7000", "T00:61:00 7000", 18, "no such time"),
                 ("T00:01:00 7000", "T00:01:60 7000", 18, "second 60"),
                 ("META_STOP", "SPEED = 3\nMETA_STOP", 16, "SPEED is not known"), ("META_STOP", "TIME_SYSTEM = UTC\nMETA_STOP", 16, "given before"),
                 ("TIME_SYSTEM = UTC\n", "", 15, "no TIME_SYSTEM"), ("ORIGINATOR = TEST\n", "", 5, "no ORIGINATOR"),
                 ("VERS = 2.0", "VERS = 4.0", 1, "version 4.0"),
                 ("CCSDS_OEM_VERS", "CCSDS_OPM_VERS", 1, "begins with CCSDS_OEM_VERS"), ("0 0 1\n", "0 0 1 0\n", 26, "row 3 of a covariance has 4"),
                 ("1\n0 1\n", "1\n", 25, "row 2 of a covariance has 3"),
                 ("0 0 0 0 0 1.50e-04\n", "", 29, "5 rows of 6"), ("1e-4\n0", "1e-x\n0", 22, "no number"),
                 ("COVARIANCE_STOP\n", "", 30, "within its covariances"),
                 ("EPOCH = 2025-01-01T00:00:00\n", "", 22, "COV_REF_FRAME stands"), ("SAT A", "SAT \xe9", 7, "printable")]
        for old, new, line, words in cases:
            with self.subTest(new):
                self.assertIn(old, KVN)
                self.refused(KVN.replace(old, new, 1), line, words)

    def test_what_is_refused_of_xml_with_its_line(self) -> None:
        cases = [("<Y>225.5</Y>", "", 11, "stateVector has no Y"), ("units='km'", "units='m'", 10, "X in m"),
                 ("version=\"2.0\"", "version=\"2.5\"", 2, "version"),
                 ("<REF_FRAME>EME2000</REF_FRAME>", "<REF_FRAME>EME2000", 7, "TIME_SYSTEM is not that of an OEM"),
                 ("</segment>", "</segments>", 16, "mismatched"),
                 ("<REF_FRAME>EME2000</REF_FRAME>", "<REF_FRAME>CIRS</REF_FRAME>", 6, "frame CIRS"),
                 ("<data>", "<data><speed>3</speed>", 9, "speed is not known"),
                 ("<?xml version=\"1.0\" encoding=\"UTF-8\"?>", "<!DOCTYPE oem [<!ENTITY a 'b'>]>", 1, "document type"),
                 ("<header>", "<headed>", 3, "not that of an OEM"),
                 ("UTF-8", "UTF-8nan", 1, "encoding"), ("UTF-8", "cp932", 1, "encoding"),
                 ("<COV_REF_FRAME>RTN", "<COV_REF_FRAME>LVLH_X", 14, "not turned into RTN"),
                 ("<COV_REF_FRAME>RTN</COV_REF_FRAME>", "<X>1</X>", 14, "X is not known")]
        for old, new, line, words in cases:
            with self.subTest(new):
                self.assertIn(old, XML)
                with self.assertRaises(Refused) as caught:
                    prepare_file(self.put(XML.replace(old, new, 1), "a.xml"), PLAIN)
                self.assertIn(words, caught.exception.what)
                self.assertEqual(caught.exception.line, line)

    def test_segments_that_overlap_are_refused(self) -> None:
        segment = KVN[KVN.index("META_START"):]
        self.refused(KVN + segment, 41, "before that of the segment before has ended")

    def test_the_useable_span_is_kept_and_nodes_outside_it_are_gone_through(self) -> None:
        # Of y = t^3 (km, minutes) the cubic through four nodes is itself, also between the second and the third.
        rows = "".join(f"2025-01-01T00:0{i}:00 7000 {i**3} 0 0 0.01 0\n" for i in range(4))
        text = KVN[:KVN.index("2025-01-01T00:00:00 7000")] + rows
        text = text.replace("META_STOP", "USEABLE_START_TIME = 2025-01-01T00:01:00\nUSEABLE_STOP_TIME = 2025-01-01T00:02:00\nMETA_STOP")
        found, = self.prepared(text)
        states = [line.split() for line in found.text.splitlines() if line.startswith("2025")]
        self.assertEqual([(state[0], Fraction(state[2]), Fraction(state[5])) for state in states],
                         [("2025-01-01T00:01:00.000000", 1, Fraction(3, 60)), ("2025-01-01T00:02:00.000000", 8, Fraction(12, 60))])
        self.assertLess(found.rows[0].bound, 5.0)

    def test_a_cubic_in_utc_and_eme2000_is_copied(self) -> None:
        text = KVN.replace("Lagrange", "HERMITE").replace("META_STOP", "USEABLE_START_TIME = 2025-01-01T00:00:30\nMETA_STOP")
        found, = self.prepared(text)
        self.assertEqual(found.rows[0].bound, 0.0)
        self.assertIn("; HERMITE 3 IN EME2000, UTC; WITHIN 0.000000000 m\n", found.text)
        self.assertIn("USEABLE_START_TIME = 2025-01-01T00:00:30.000000\nUSEABLE_STOP_TIME = 2025-01-01T00:03:00.000000\n", found.text)
        self.assertIn("2025-01-01T00:01:00.000000 7000.000000000000 225.500000000000 0.000000000000 0.000000000000 7.500000000000 0.000000000000\n", found.text)

    def test_digits_beyond_a_nanometre_are_in_the_bound_of_a_copy(self) -> None:
        text = KVN.replace("Lagrange", "HERMITE").replace("225.5", "225.5000000000004")
        found, = self.prepared(text)
        self.assertAlmostEqual(found.rows[0].bound, 0.4, places=9)

    def test_a_frame_of_date_at_an_epoch_is_held_fast(self) -> None:
        text = KVN.replace("= EME2000", "= TOD").replace("TIME_SYSTEM", "REF_FRAME_EPOCH = 2025-01-01T00:00:00\nTIME_SYSTEM")
        found, = self.prepared(text, Settings(1e9, OfDate.IAU2006, PLAIN.wanted))
        self.assertIn("IN TOD BY IAU2006 OF EPOCH, UTC;", found.text)

    def test_a_file_that_is_not_there_and_one_that_is_empty(self) -> None:
        with self.assertRaises(Refused) as caught:
            prepare_file(self.folder / "none.oem", PLAIN)
        self.assertEqual(str(caught.exception), "none.oem: line 0: cannot be read: No such file or directory")
        self.refused("", 1, "the file ends before")

    def test_an_object_beyond_what_conj_reads(self) -> None:
        self.refused(KVN.replace("-225 0", "-225 600000"), 16, "beyond 500000 km")
        self.refused(KVN.replace("0 7.5 0\n", "0 25 0\n").replace("Lagrange", "HERMITE"), 16, "beyond 20 km/s")


if __name__ == "__main__":
    unittest.main()
