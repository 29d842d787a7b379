"""What came, went and changed between two reports."""

from __future__ import annotations

import unittest
from dataclasses import replace

from tests.support import need_numpy

need_numpy()

from conjtools.changes import Cause, Change, compare  # noqa: E402
from conjtools.report import Encounter, Kind, Report, ReportObject, Span, Window  # noqa: E402

OBJECTS = {letter: ReportObject(f"{letter}.oem", f"2025-{letter}", f"SAT {letter}") for letter in "abcd"}


def report(letters: str, window: tuple[int, int], *encounters: tuple[str, int, int, int]) -> Report:
    """A report of some objects; of each encounter its two objects, its first and last tick, and the miss distance."""
    told = []
    for pair, first, last, miss in encounters:
        a, b = (letters.index(letter) + 1 for letter in pair)
        told.append(Encounter(a, b, Kind.NEAR, first, miss, False, (Span(Kind.NEAR, first, last),)))
    return Report(Window(*window), 5 * 10**12, tuple(OBJECTS[letter] for letter in letters), tuple(told))


def everywhere(letters: str) -> list[tuple[tuple[int, int], ...]]:
    """Each object has a state at all times."""
    return [((-(10**9), 10**9),) for _ in letters]


class Comparing(unittest.TestCase):
    def test_each_change_and_cause(self) -> None:
        older = report(
            "abc", (0, 100),
            ("ab", 10, 20, 7), ("ab", 30, 40, 8), ("ab", 50, 60, 9), ("ac", 5, 9, 1), ("bc", 70, 80, 2),
        )  # fmt: skip
        newer = report("abd", (10, 200), ("ab", 10, 20, 7), ("ab", 35, 45, 8), ("ab", 90, 95, 3), ("ab", 150, 160, 4), ("ad", 90, 95, 5))
        changes = compare(newer, everywhere("abd"), older)
        told = [(one.change, one.cause, one.new_number, one.old_number) for one in changes.encounters]
        self.assertEqual(
            told,
            [
                (Change.SAME, Cause.NONE, 1, 1),
                (Change.CHANGED, Cause.NONE, 2, 2),
                (Change.CAME, Cause.DISTANCE_OR_DATA, 3, None),
                (Change.CAME, Cause.WINDOW, 4, None),
                (Change.CAME, Cause.OBJECT, 5, None),
                (Change.WENT, Cause.DISTANCE, None, 3),
                (Change.WENT, Cause.WINDOW, None, 4),
                (Change.WENT, Cause.OBJECT, None, 5),
            ],
        )
        self.assertEqual(([one.file for one in changes.objects_came], [one.file for one in changes.objects_went]), (["d.oem"], ["c.oem"]))
        self.assertEqual((changes.count(Change.CAME), changes.count(Change.CAME, Cause.OBJECT)), (3, 1))

    def test_objects_are_matched_by_designator_and_file_not_by_number(self) -> None:
        older = report("bcd", (0, 100), ("bd", 10, 20, 7))
        newer = report("abcd", (0, 100), ("bd", 12, 22, 7))
        self.assertEqual([one.change for one in compare(newer, everywhere("abcd"), older).encounters], [Change.CHANGED])

    def test_of_several_that_overlap_the_longest_belongs_together(self) -> None:
        older = report("ab", (0, 100), ("ab", 10, 50, 7))
        newer = report("ab", (0, 100), ("ab", 10, 15, 7), ("ab", 20, 50, 8))
        changes = compare(newer, everywhere("ab"), older)
        self.assertEqual([(one.change, one.old_number) for one in changes.encounters], [(Change.CAME, None), (Change.CHANGED, 1)])

    def test_encounters_that_share_one_tick_are_the_same(self) -> None:
        older = report("ab", (0, 100), ("ab", 10, 20, 7))
        for first, change in ((20, Change.CHANGED), (21, Change.CAME)):
            newer = report("ab", (0, 100), ("ab", first, 30, 7))
            self.assertEqual(compare(newer, everywhere("ab"), older).encounters[0].change, change)

    def test_lack_of_data_is_told(self) -> None:
        older = report("ab", (0, 100), ("ab", 10, 20, 7))
        newer = report("ab", (0, 100))
        (went,) = compare(newer, [((0, 5), (25, 100)), ((0, 100),)], older).encounters
        self.assertEqual((went.change, went.cause), (Change.WENT, Cause.DATA))
        for spans, cause in ((((0, 15),), Cause.DISTANCE), (((0, 9), (21, 30)), Cause.DATA)):
            told = replace(newer, objects=tuple(replace(one, covered=spans) for one in newer.objects))
            (came,) = compare(older, everywhere("ab"), told).encounters
            self.assertEqual((came.change, came.cause), (Change.CAME, cause), "the older report tells its data")


if __name__ == "__main__":
    unittest.main()
