"""`scripts/prove`: which crates it proves, what it tells of each that is done, and about how long the rest takes."""

from __future__ import annotations

import re

from conjtools.proving.crates import all_below, read_crates, weights
from conjtools.proving.forecast import Forecast, layout, place_of, told, waits_behind
from tests.checkouts import CheckoutCase
from tests.support import FolderCase

# A chain of 10, 20 and 5 lines, and two crates of 15 and 10 beside it.
CRATES = {"a": (), "b": ("a", "kit"), "c": ("b",), "d": (), "e": ()}
LINES = {"a": 10.0, "b": 20.0, "c": 5.0, "d": 15.0, "e": 10.0}


class Crates(CheckoutCase):
    def test_those_of_the_program(self) -> None:
        crates = read_crates(self.root)
        self.assertEqual(crates, {"conj": ("top", "low"), "top": ("left", "right"), "low": (), "left": ("low", "kit"), "right": ("low",)})
        self.assertEqual(all_below(crates, "top"), {"left", "right", "low"})
        self.assertEqual(all_below(crates, "low"), set())

    def test_weights_are_their_lines_and_a_tenth_of_the_code_below(self) -> None:
        found = weights(self.root, read_crates(self.root))
        # The code of low is 10 lines, that of left 20, of right 30, of top 5.
        by_hand = {"low": 60, "left": 20 + 1, "right": 40 + 1, "top": 15 + 6, "conj": 1 + 6.5}
        self.assertEqual({name: round(weight, 9) for name, weight in found.items()}, by_hand)


class Layout(FolderCase):
    def test_one_processor(self) -> None:
        # Behind a wait 35 lines, behind b 25, behind d 15, behind e 10.
        self.assertEqual(waits_behind(CRATES, LINES), {"a": 35, "b": 25, "c": 5, "d": 15, "e": 10})
        self.assertEqual(layout(CRATES, LINES, 1), [(10, "a"), (30, "b"), (45, "d"), (55, "e"), (60, "c")])

    def test_two_processors(self) -> None:
        # a and d begin; b takes the place of a at 10, e that of d at 15; c follows b at 30.
        self.assertEqual(layout(CRATES, LINES, 2), [(10, "a"), (15, "d"), (25, "e"), (30, "b"), (35, "c")])

    def test_the_chain_is_left_however_many_processors_there_are(self) -> None:
        self.assertEqual(layout(CRATES, LINES, 64)[-1], (35, "c"))

    def test_place(self) -> None:
        ends = layout(CRATES, LINES, 2)
        for done, place in ((0, 0), (5, 5), (10, 10), (17.5, 12.5), (25, 15), (35, 25), (45, 27.5), (55, 30), (60, 35)):
            self.assertEqual(place_of(done, ends, LINES), place, done)


class Rest(FolderCase):
    def forecast(self, proved: str, kept: str = "", processors: int = 2) -> Forecast:
        return Forecast(CRATES, LINES, processors, set(proved), set(kept))

    def test_nothing_before_the_first_are_proved(self) -> None:
        self.assertIsNone(self.forecast("").seconds_left(100))
        self.assertIsNone(self.forecast("ad").seconds_left(100))
        self.assertIsNone(self.forecast("", "abd").seconds_left(100))

    def test_by_what_was_proved_so_far(self) -> None:
        # Behind a, d and e 35 lines are done, which the layout has at 25 of 35.
        self.assertEqual(self.forecast("ade").seconds_left(100), 100 * 10 / 25)
        self.assertEqual(self.forecast("ade").seconds_left(1000), 1000 * 10 / 25)
        # By one processor they are done between b and the end of d: at 35 of 60.
        self.assertAlmostEqual(self.forecast("ade", processors=1).seconds_left(100) or 0, 100 * 25 / 35)

    def test_what_an_earlier_run_proved_is_no_part_of_it(self) -> None:
        # Without a the layout has d and b at first: d ends at 15, b at 20, e and c at 25. Behind b, d and e 45 lines are done, which are all but c.
        forecast = self.forecast("bde", "a")
        self.assertEqual(forecast.done, 4)
        left = forecast.seconds_left(100)
        self.assertIsNotNone(left)
        self.assertLessEqual(left or 0, 100 * 5 / 20)

    def test_all_is_done(self) -> None:
        self.assertEqual(self.forecast("abcde").seconds_left(100), 0)
        self.assertEqual(self.forecast("cde", "ab").seconds_left(100), 0)

    def test_it_is_told_in_minutes(self) -> None:
        for seconds, text in ((0.0, "1 minute"), (59.0, "1 minute"), (60.0, "1 minute"), (61.0, "2 minutes"), (1700.0, "29 minutes")):
            self.assertEqual(told(seconds), f"about {text} left")


class Prove(CheckoutCase):
    def prove(self, *said: str) -> list[str]:
        """The lines that tell of crates, of a run in which the gate says these."""
        self.say(*said)
        ended = self.run_script("scripts/prove")
        self.assertEqual((ended.returncode, ended.stderr), (0, ""))
        self.assertEqual([line for line in ended.stdout.splitlines() if not line.startswith("done: ")], list(said))
        return [line.removeprefix("done: ") for line in ended.stdout.splitlines() if line.startswith("done: ")]

    def test_of_each_crate_that_is_done(self) -> None:
        lines = self.prove("== low", "fn low::f: proved", "rt: low proved", "rt: left proved", "rt: right: trying its must-fail edits (1)",
                           "rt: low_tests proved", "rt: low: its tests are proved", "rt: right proved", "rt: top proved", "rt: conj proved")  # fmt: skip
        self.assertEqual([re.sub(r", about \d+ minutes? left$", ", left", line) for line in lines], [
            "low is proved, 1 of 5 crates", "left is proved, 2 of 5 crates", "right is proved, 3 of 5 crates, left",
            "top is proved, 4 of 5 crates, left", "conj is proved, 5 of 5 crates",
        ])  # fmt: skip

    def test_what_was_kept_is_done_at_once(self) -> None:
        kept = "is kept: an earlier run on this machine proved the same files over the same libraries"
        self.assertEqual(self.prove(*(f"rt: {name} {kept}" for name in ("low", "left", "right", "top", "conj"))), [
            f"{name} was proved before, {number} of 5 crates" for number, name in enumerate(("low", "left", "right", "top", "conj"), 1)
        ])  # fmt: skip
        self.assertEqual(self.prove(f"rt: low {kept}", "rt: left proved", "rt: low proved"), [
            "low was proved before, 1 of 5 crates", "left is proved, 2 of 5 crates", "low is proved, 2 of 5 crates",
        ])  # fmt: skip

    def test_nothing_is_said_of_the_rest_where_one_is_not_proved(self) -> None:
        lines = self.prove("rt: low proved", "rt: left proved", "rt: right NOT PROVED", "rt: top NOT PROVED: its library right failed", "rt: conj proved")
        self.assertEqual(lines[-1], "conj is proved, 3 of 5 crates")

    def test_the_gate_reads_no_tests_and_no_edits(self) -> None:
        (self.root / "crates" / "low" / "must-fail").mkdir()
        (self.told / "look").touch()
        self.prove("rt: low proved")
        self.assertEqual(self.calls(), ["ci"])
        read = (self.told / "read").read_text("utf-8").splitlines()
        self.assertIn("crates/low/src/text", read)
        self.assertEqual([path for path in read if "low_tests" in path or "must-fail" in path], [])
        self.assertEqual(list(self.temporary.iterdir()), [])

    def test_the_gates_status_is_its_own(self) -> None:
        (self.told / "fails").touch()
        self.assertEqual(self.run_script("scripts/prove").returncode, 4)
        self.assertFalse((self.root / "crates" / "conj" / "out").exists())

    def test_words_are_refused(self) -> None:
        ended = self.run_script("scripts/prove", "conj")
        self.assertEqual((ended.returncode, ended.stdout, self.calls()), (1, "", []))
        self.assertIn("scripts/prove", ended.stderr)
