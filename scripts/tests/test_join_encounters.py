"""Encounters of parts as those of the whole window: what meets at a border, and which closest approach is taken."""

from __future__ import annotations

import unittest
from pathlib import Path

from tests.parts import Told, at, report, write_drifting
from tests.support import FolderCase, need_numpy

need_numpy()

from conjtools.faults import InputFault  # noqa: E402
from conjtools.join.encounters import SquareBound, joined_encounters  # noqa: E402
from conjtools.join.exact import square_bound  # noqa: E402
from conjtools.join.parts import Part  # noqa: E402
from conjtools.oem import read_oem  # noqa: E402
from conjtools.report import Encounter, encounter_text, read_report  # noqa: E402

# The windows of four parts: three minutes, one minute, two minutes, and the tick behind.
FIRST = (at(0), at("179.999999"))
SECOND = (at(180), at("239.999999"))
THIRD = (at(240), at("359.999999"))
FOURTH = (at(360), at(360))
WINDOWS = (FIRST, SECOND, THIRD, FOURTH)


def parts_of(*told: tuple[Told, ...]) -> list[Part]:
    """Parts with these encounters."""
    return [
        Part(Path(f"p{number}"), read_report("screen.report", report(*window, encounters).encode()), {}, "")
        for number, (window, encounters) in enumerate(zip(WINDOWS, told), 1)
    ]


def unused(a: int, b: int, tick: int) -> int | None:
    """No bound is asked for."""
    raise AssertionError((a, b, tick))


def told_bounds(bounds: dict[int, int]) -> SquareBound:
    """Bounds at the ticks so many seconds behind the start, for the pair of the first two objects."""
    at_ticks = {at(seconds): bound for seconds, bound in bounds.items()}
    return lambda a, b, tick: at_ticks.get(tick) if (a, b) == (1, 2) else None


class JoiningCase(unittest.TestCase):
    """What the joined encounters of some parts are held against."""

    def check(self, parts: tuple[tuple[Told, ...], ...], wanted: tuple[Told, ...], bound: SquareBound = unused) -> None:
        """The joined encounters of the parts are these."""
        found = [told.encounter for told in joined_encounters(parts_of(*parts), bound)]
        texts = [encounter_text(number, told) for number, told in enumerate(found, 1)]
        self.assertEqual(texts, [told.text(number) for number, told in enumerate(wanted, 1)])

    def sources(self, *parts: tuple[Told, ...], bound: SquareBound = unused) -> list[tuple[str, int]]:
        """The part and the number there of the encounter whose closest approach each joined one has."""
        return [(str(told.source.part.folder), told.source.number) for told in joined_encounters(parts_of(*parts), bound)]


class Meeting(JoiningCase):
    def test_near_on_both_sides(self) -> None:
        early = Told(1, 2, "179.999999", 9000, ("NEAR 170 179.999999",), True)
        late = Told(1, 2, 190, 8999, ("NEAR 180 200",))
        whole = ("NEAR 170 200",)
        self.check(((early,), (late,)), (Told(1, 2, 190, 8999, whole),))
        self.assertEqual(self.sources((early,), (late,)), [("p2", 1)])
        self.check(((Told(1, 2, "179.999999", 8998, early.spans, True),), (late,)), (Told(1, 2, "179.999999", 8998, whole, True),))

    def test_kinds_that_differ_stay_two_spans(self) -> None:
        near, undecided = ("NEAR 170 179.999999",), ("UNDECIDED 180 200",)
        self.check(((Told(1, 2, 175, 5, near),), (Told(1, 2, 190, 6, undecided),)), (Told(1, 2, 175, 5, near + undecided),))
        undecided, near = ("UNDECIDED 170 179.999999",), ("NEAR 180 200",)
        self.check(((Told(1, 2, 175, 6, undecided),), (Told(1, 2, 190, 5, near),)), (Told(1, 2, 190, 5, undecided + near),))

    def test_undecided_on_both_sides(self) -> None:
        early, late = Told(1, 2, 175, 7, ("UNDECIDED 170 179.999999",)), Told(1, 2, 190, 6, ("UNDECIDED 180 200",))
        self.check(((early,), (late,)), (Told(1, 2, 190, 6, ("UNDECIDED 170 200",)),))

    def test_the_mark_is_near_where_any_span_is(self) -> None:
        # The nearer closest approach is in the part that has no near span.
        early = Told(1, 2, 175, 6, ("UNDECIDED 170 179.999999",))
        late = Told(1, 2, 190, 7, ("UNDECIDED 180 185", "NEAR 185.000001 195", "UNDECIDED 195.000001 200"))
        whole = ("UNDECIDED 170 185", "NEAR 185.000001 195", "UNDECIDED 195.000001 200")
        self.check(((early,), (late,)), (Told(1, 2, 175, 6, whole),))

    def test_spans_that_meet_inside(self) -> None:
        early = Told(1, 2, 150, 3, ("NEAR 140 160", "UNDECIDED 160.000001 179.999999"))
        late = Told(1, 2, 220, 4, ("UNDECIDED 180 210", "NEAR 210.000001 230"))
        self.check(((early,), (late,)), (Told(1, 2, 150, 3, ("NEAR 140 160", "UNDECIDED 160.000001 210", "NEAR 210.000001 230")),))

    def test_what_does_not_meet(self) -> None:
        for early, late in (
            (Told(1, 2, 175, 5, ("NEAR 170 179.999998",)), Told(1, 2, 190, 5, ("NEAR 180 200",))),
            (Told(1, 2, 175, 5, ("NEAR 170 179.999999",)), Told(1, 2, 190, 5, ("NEAR 180.000001 200",))),
            (Told(1, 2, 175, 5, ("NEAR 170 179.999999",)), Told(1, 3, 190, 5, ("NEAR 180 200",))),
            (Told(1, 3, 175, 5, ("NEAR 170 179.999999",)), Told(2, 3, 190, 5, ("NEAR 180 200",))),
        ):  # fmt: skip
            self.check(((early,), (late,)), (early, late))

    def test_order_of_pair_and_time(self) -> None:
        first = (
            Told(1, 2, 10, 5, ("NEAR 5 15",)), Told(1, 2, 170, 6, ("NEAR 165 179.999999",)), Told(2, 3, 100, 7, ("NEAR 90 110",), True),
        )  # fmt: skip
        second = (Told(1, 2, 185, 8, ("NEAR 180 190",)), Told(1, 2, 200, 9, ("NEAR 195 205",)), Told(1, 3, 220, 10, ("NEAR 215 225",)))
        third = (Told(1, 2, 250, 11, ("NEAR 245 255",)), Told(2, 3, 300, 12, ("NEAR 295 305",)))
        self.check((first, second, third), (
            first[0], Told(1, 2, 170, 6, ("NEAR 165 190",)), second[1], third[0], second[2], first[2], third[1],
        ))  # fmt: skip
        self.assertEqual(self.sources(first, second, third), [("p1", 1), ("p1", 2), ("p2", 2), ("p3", 1), ("p2", 3), ("p1", 3), ("p3", 2)])

    def test_over_four_parts(self) -> None:
        told = (
            Told(1, 2, 100, 9, ("NEAR 90 179.999999",)), Told(1, 2, 190, 8, ("NEAR 180 200", "UNDECIDED 200.000001 239.999999")),
            Told(1, 2, 240, 7, ("UNDECIDED 240 300", "NEAR 300.000001 359.999999"), True), Told(1, 2, 360, 8, ("NEAR 360 360",)),
        )  # fmt: skip
        whole = ("NEAR 90 200", "UNDECIDED 200.000001 300", "NEAR 300.000001 360")
        self.check(tuple((one,) for one in told), (Told(1, 2, 240, 7, whole, True),))
        self.assertEqual(self.sources(*((one,) for one in told)), [("p3", 1)])

    def test_a_part_of_one_tick_between(self) -> None:
        windows = ((at(0), at("59.999999")), (at(60), at("119.999999")), (at(120), at(120)))
        told = (Told(1, 2, 50, 9, ("NEAR 40 59.999999",)), Told(1, 2, 90, 5, ("NEAR 60 119.999999",)), Told(1, 2, 120, 6, ("NEAR 120 120",)))
        parts = [Part(Path("p"), read_report("r", report(*window, (one,)).encode()), {}, "") for window, one in zip(windows, told)]
        self.assertEqual([encounter_text(1, found.encounter) for found in joined_encounters(parts, unused)], [Told(1, 2, 90, 5, ("NEAR 40 120",)).text(1)])

    def test_no_encounters(self) -> None:
        self.check(((), (), ()), ())


class SameDistance(JoiningCase):
    EARLY = Told(1, 2, 175, 10**12 + 1, ("NEAR 170 179.999999",))
    LATE = Told(1, 2, 190, 10**12 + 1, ("NEAR 180 200",), True)

    def test_by_the_bounds(self) -> None:
        # Squares from (10^12)^2 + 1 to (10^12 + 1)^2 print the same.
        most = (10**12 + 1) ** 2
        for bounds, place in ((((10**24 + 2), (10**24 + 1)), 1), (((10**24 + 1), (10**24 + 2)), 0), ((most, most - 1), 1), ((most, most), 0)):
            bound = told_bounds({175: bounds[0], 190: bounds[1]})
            chosen = (self.EARLY, self.LATE)[place]
            wanted = Told(1, 2, chosen.closest, chosen.miss, ("NEAR 170 200",), chosen.has_message)
            self.check(((self.EARLY,), (self.LATE,)), (wanted,), bound)

    def test_three_of_which_two_print_the_least(self) -> None:
        middle = Told(1, 2, 200, 10**12 + 2, ("NEAR 180 239.999999",))
        last = Told(1, 2, 250, 10**12 + 1, ("NEAR 240 260",))
        for behind, part in ((8, "p3"), (9, "p1")):
            bound = told_bounds({175: 10**24 + 9, 250: 10**24 + behind})
            self.assertEqual(self.sources((self.EARLY,), (middle,), (last,), bound=bound), [(part, 1)])

    def test_bounds_that_do_not_print_so_are_refused(self) -> None:
        # A bound of 10^24 prints 10^12, one above (10^12 + 1)^2 prints 10^12 + 2; the last has no state at the second tick.
        good, above = 10**24 + 1, (10**12 + 1) ** 2 + 1
        for bounds, part in (({175: 10**24, 190: good}, "p1"), ({175: good, 190: above}, "p2"), ({175: good}, "p2")):
            with self.assertRaises(InputFault) as caught:
                joined_encounters(parts_of((self.EARLY,), (self.LATE,)), told_bounds(bounds))
            # The head of a report of three objects has 15 lines.
            self.assertEqual((caught.exception.file, caught.exception.line), (f"{part}/screen.report", 16))


class Drifting(FolderCase):
    def test_nearest_half_a_millisecond_behind_the_border(self) -> None:
        # One run says 60.000000: the earlier tick prints the same distance, and its bound is greater.
        files = write_drifting(self.folder / "files")
        a, b = (read_oem(name, (files / name).read_bytes()) for name in ("a.oem", "b.oem"))
        windows = ((at(0), at("59.999999")), (at(60), at(120)))
        told = (
            Told(1, 2, "59.999999", 10**12 + 1, ("NEAR 0 59.999999",)), Told(1, 2, 60, 10**12 + 1, ("NEAR 60 120",)),
        )  # fmt: skip
        parts = [Part(Path("p"), read_report("r", report(*window, (one,)).encode()), {}, "") for window, one in zip(windows, told)]
        found: list[Encounter] = [one.encounter for one in joined_encounters(parts, lambda first, second, tick: square_bound(a, b, tick))]
        self.assertEqual([encounter_text(1, one) for one in found], [Told(1, 2, 60, 10**12 + 1, ("NEAR 0 120",)).text(1)])


if __name__ == "__main__":
    unittest.main()
