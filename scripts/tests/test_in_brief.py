"""Certificates in brief held against those of version 2, and two that are both accepted against each other."""

from __future__ import annotations

import unittest

from conjtools.covering.due import Outcome
from conjtools.in_brief import Cell, beyond, differences_in_brief, differences_of_accepted, differences_of_certificates, read_certificate, told_spans
from conjtools.report import Window
from conjtools.terminal import Ended

FIRST = 1735689600000000
MINUTE = 60_000_000
HEAD = """WINDOW 1735689600000000 1735689660000000
THRESHOLD 5000000000000
OBJECTS 3
SIZE 1 0
SIZE 2 0
SIZE 3 0
SHELL 1 7000000000000000 7000000000000000
SHELL 2 7005000000000000 7005000000000000
SHELL 3 NONE
"""
BOXES = "BOX 1 1735689600000000 1 1 2 2 3 3\n"


def cell(a: int, b: int, first: int, last: int, kind: str) -> str:
    """The line of a cell, its ticks from the window's start."""
    return f"CELL {a} {b} {FIRST + first} {FIRST + last} {kind}\n"


# A pair whose first minute is one root with a near part, and its last tick another one; a second pair that is far.
FAR_PART, NEAR_PART, LAST = cell(1, 2, 0, 29_999_999, "F"), cell(1, 2, 30_000_000, MINUTE - 1, "N"), cell(1, 2, MINUTE, MINUTE, "U")
FAR_PAIR = cell(1, 3, 0, MINUTE - 1, "F")


def full(*cells: str) -> bytes:
    return ("CONJ-CERT 2\n" + HEAD + BOXES + "".join(cells) + "END\n").encode()


def brief(*cells: str, head: str = HEAD) -> bytes:
    return ("CONJ-CERT 3\n" + head + "".join(cells) + "END\n").encode()


FULL = full(FAR_PART, NEAR_PART, LAST, FAR_PAIR)
IN_BRIEF = brief(FAR_PART, NEAR_PART, LAST)


class Certificates(unittest.TestCase):
    def test_reading(self) -> None:
        told = read_certificate(FULL)
        self.assertEqual(told.window, Window(FIRST, FIRST + MINUTE))
        self.assertEqual(told.head, ("CONJ-CERT 2", *HEAD.splitlines()))
        self.assertEqual(told.cells[2], Cell((1, 2), FIRST + MINUTE, FIRST + MINUTE, "U"))
        self.assertEqual([told.slot_of(cell) for cell in told.cells], [0, 0, 1, 0])

    def test_what_is_none(self) -> None:
        for data in (b"", FULL[:-1], FULL.replace(b"WINDOW", b"WINDOWS"), FULL.replace(b" N\n", b"\n"), FULL.replace(b"CELL 1", b"CELL x")):
            with self.subTest(data), self.assertRaises(ValueError):
                read_certificate(data)

    def test_one_that_is_due(self) -> None:
        self.assertEqual(differences_of_certificates(IN_BRIEF, FULL), [])
        self.assertEqual(differences_of_certificates(brief(), full(FAR_PAIR)), [])

    def test_those_that_are_not(self) -> None:
        later = cell(2, 3, 0, 5, "N")
        for wrong, whole, words in (
            (brief(FAR_PART, LAST), FULL, "does not tell"),
            (brief(FAR_PART, NEAR_PART), FULL, "does not tell"),
            (brief(FAR_PART, NEAR_PART, FAR_PAIR, LAST), FULL, "all of its pair and slot is far"),
            (brief(FAR_PART, NEAR_PART, LAST, cell(1, 2, 0, 9, "F")), FULL, "which version 2 does not"),
            (brief(NEAR_PART, FAR_PART, LAST), FULL, "stands behind"),
            (brief(FAR_PART, NEAR_PART, LAST, later), full(FAR_PART, NEAR_PART, LAST, later), "stands behind"),
            (brief(FAR_PART, NEAR_PART, LAST, LAST), FULL, "stands behind"),
            (brief(FAR_PART, NEAR_PART, LAST, head=HEAD.replace("SIZE 2 0", "SIZE 2 1")), FULL, "its head"),
            (FULL, FULL, "its head"),
            (b"CONJ-CERT 3\n", FULL, "no end"),
        ):
            with self.subTest(wrong):
                found = differences_of_certificates(wrong, whole)
                self.assertTrue(any(words in what for what in found), found)


def outcome(certificate: bytes, status: int = 0, report: bytes = b"report") -> Outcome:
    return Outcome(Ended(status, b"summary", b""), {"screen.cert": certificate, "screen.report": report})


class Runs(unittest.TestCase):
    def test_all_but_the_certificate_is_alike(self) -> None:
        plain = outcome(FULL)
        self.assertEqual(differences_in_brief(outcome(IN_BRIEF), plain), [])
        for told, words in (
            (outcome(IN_BRIEF, report=b"another"), "screen.report"),
            (outcome(IN_BRIEF, status=6), "the status"),
            (outcome(brief(FAR_PART, LAST)), "does not tell"),
            (Outcome(plain.ended, {"screen.report": b"report"}), "screen.cert is not"),
        ):
            with self.subTest(words):
                (difference,) = differences_in_brief(told, plain)
                self.assertIn(words, difference)

    def test_what_stood_stands_where_a_run_fails(self) -> None:
        stood = outcome(FULL, status=6)
        self.assertEqual(differences_in_brief(stood, stood), [])
        (difference,) = differences_in_brief(outcome(IN_BRIEF, status=6), stood)
        self.assertIn("screen.cert is not", difference)


class Accepted(unittest.TestCase):
    def test_parts_that_are_in_no_other(self) -> None:
        for inner, outer, left in (
            (((0, 9),), (), ((0, 9),)),
            (((0, 9),), ((0, 9),), ()),
            (((0, 9),), ((3, 4), (6, 20)), ((0, 2), (5, 5))),
            (((0, 1), (5, 9)), ((1, 6),), ((0, 0), (7, 9))),
        ):
            with self.subTest(inner=inner, outer=outer):
                self.assertEqual(beyond(inner, outer), left)

    def test_spans_by_pair(self) -> None:
        cells = read_certificate(FULL).cells
        self.assertEqual(told_spans(cells, "NU"), {(1, 2): ((FIRST + 30_000_000, FIRST + MINUTE),)})

    def test_what_two_may_say(self) -> None:
        halves = full(FAR_PART, cell(1, 2, 30_000_000, 40_000_000, "N"), cell(1, 2, 40_000_001, MINUTE - 1, "U"), LAST)
        self.assertEqual(differences_of_accepted(FULL, IN_BRIEF), [])
        self.assertEqual(differences_of_accepted(halves, IN_BRIEF), [])
        for other in (brief(FAR_PART, LAST), brief(cell(1, 2, 0, MINUTE - 1, "N"), LAST), full(FAR_PART, cell(1, 2, 30_000_001, MINUTE - 1, "N"))):
            with self.subTest(other):
                (difference,) = differences_of_accepted(FULL, other)
                self.assertIn("pair (1, 2) is near at", difference)


if __name__ == "__main__":
    unittest.main()
