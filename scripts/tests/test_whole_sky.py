"""Runs of a whole sky held against those in brief, the folders that they are held over, and how `scripts/stress` holds the program to it where it is named."""

from __future__ import annotations

import os
import random
import unittest

from conjtools.covering.due import Outcome
from conjtools.covering.model import covering_of, standing_files
from conjtools.epochs import read_epoch
from conjtools.report import Window
from conjtools.terminal import Ended
from conjtools.updates import Names
from conjtools.whole_sky import LARGE, differences_of_whole_sky, drawn_window, jumping, node_times, window_words
from tests.support import FolderCase
from tests.test_covering import STRESS

try:
    from conjtools.oem import read_oem
except ImportError:
    HAS_NUMPY = False
else:
    HAS_NUMPY = True

PROGRAM = os.path.abspath(os.environ["CONJ_PROGRAM"]) if os.environ.get("CONJ_PROGRAM") else ""
MIDNIGHT = read_epoch("2025-01-01T00:00:00")
MINUTE = 60_000_000


def outcome(status: int = 0, error: bytes = b"", **pieces: bytes) -> Outcome:
    return Outcome(Ended(status, b"summary", error), {f"screen.{name}": data for name, data in pieces.items()})


class Differences(unittest.TestCase):
    def test_all_is_alike(self) -> None:
        brief = outcome(report=b"report", cert=b"a\nb\n")
        self.assertEqual(differences_of_whole_sky(brief, brief), [])
        for told, words in (
            (outcome(report=b"report", cert=b"a\nc\n"), "screen.cert is not as it is due: line 2"),
            (outcome(report=b"report"), "screen.cert is not as it is due"),
            (outcome(report=b"another", cert=b"a\nb\n"), "screen.report is not as it is due"),
            (outcome(6, report=b"report", cert=b"a\nb\n"), "the status is 6 in place of 0"),
            (outcome(0, b"x", report=b"report", cert=b"a\nb\n"), "standard error"),
        ):
            with self.subTest(words):
                (difference,) = differences_of_whole_sky(told, brief)
                self.assertTrue(difference.startswith(f"with {LARGE}: {words}"), difference)


class Windows(unittest.TestCase):
    def test_as_words(self) -> None:
        words = window_words(Window(MIDNIGHT, MIDNIGHT + 1))
        self.assertEqual(words, ("--from", "2025-01-01T00:00:00.000000", "--to", "2025-01-01T00:00:00.000001"))

    def test_drawn_ones_lie_in_or_about_it(self) -> None:
        draw, whole = random.Random(1), Window(MIDNIGHT, MIDNIGHT + 10 * MINUTE)
        drawn = [drawn_window(draw, whole) for _ in range(2000)]
        for window in drawn:
            self.assertTrue(whole.first - 2 * MINUTE <= window.first <= window.last <= whole.last + MINUTE)
        self.assertIn(whole, drawn)
        self.assertTrue(any(window.first == window.last for window in drawn))
        self.assertTrue(any(whole.first < window.first and window.last < whole.last for window in drawn))


class Objects(FolderCase):
    def test_a_useable_span_lies_between_two_nodes(self) -> None:
        draw = random.Random(1)
        inner, outer = 0, 0
        for _ in range(500):
            first = MIDNIGHT + draw.randrange(100)
            last = first + draw.choice((0, 1, MINUTE))
            times = node_times(draw, first, last)
            self.assertEqual(times, sorted(set(times)))
            self.assertGreaterEqual(len(times), 2)
            self.assertTrue(times[0] <= first and last <= times[-1])
            inner += sum(first < time < last for time in times)
            outer += sum(time < first or last < time for time in times)
        self.assertTrue(inner > 200 and outer > 1000)

    @unittest.skipUnless(HAS_NUMPY, "needs python3-numpy: apt-get install python3-numpy")
    def test_each_file_is_read_and_jumps(self) -> None:
        seen = {"segments": 0, "jumps": 0, "outside": 0, "covariances": 0}
        for number in range(40):
            made = jumping(random.Random(number))
            folder = self.folder / str(number)
            folder.mkdir()
            made.write(folder)
            self.assertLessEqual(made.window.first, made.window.last)
            covering = covering_of(standing_files(folder, Names(), False), made.window.first, made.window.last)
            self.assertEqual(list(covering.spans), sorted(made.texts))
            for name in made.texts:
                segments = read_oem(name, (folder / name).read_bytes()).segments
                seen["segments"] += len(segments)
                seen["covariances"] += sum(len(segment.covariances) for segment in segments)
                seen["jumps"] += sum(later.states[0].tolist() != earlier.states[-1].tolist() for earlier, later in zip(segments, segments[1:]))
                seen["outside"] += sum(segment.times[0] < made.window.first or made.window.last < segment.times[-1] for segment in segments)
        self.assertTrue(all(count > 50 for count in seen.values()), seen)


@unittest.skipUnless(PROGRAM, "CONJ_PROGRAM names no program")
class OfTheProgram(FolderCase):
    def test_what_it_puts(self) -> None:
        STRESS.what_jumping_objects_leave(PROGRAM, self.folder, 6)

    def test_words_and_limits(self) -> None:
        for obstacle in (STRESS.words_of_a_whole_sky, STRESS.limits_of_a_whole_sky, STRESS.more_objects_than_as_a_rule):
            with self.subTest(obstacle.__name__):
                obstacle(PROGRAM, self.folder)


if __name__ == "__main__":
    unittest.main()
