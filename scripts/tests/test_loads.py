"""Hostile loads, at small sizes: what their files hold, that a seed gives the same bytes, and how a bound is held."""

from __future__ import annotations

import re
import sys
import unittest
from pathlib import Path

from conjtools.epochs import read_epoch
from conjtools.kvn import read_scaled
from conjtools.loads import approaches, certificates, reading, texts
from conjtools.loads.measure import Allowed, Spent, allowed, cost_faults, ending_faults, hold_load, made_apart, run_loads, spent
from conjtools.loads.table import IDLE, LOADS, MIB, Bound, Due, Load, Maker, Run
from tests.support import FolderCase

try:
    from conjtools.oem import Ephemeris, read_oem
except ImportError:
    HAS_NUMPY = False
else:
    HAS_NUMPY = True

# A small size for each load: bytes, objects, nodes, minutes or lines, as the load counts.
SMALL = {
    "line_ends": 400_000, "long_comments": 4000, "late_fault": 4000, "matrices_alone": 4000, "many_nodes": 250, "small_files": 5, "nodes_outside": 250,
    "long_numbers": 4000, "long_epochs": 4000, "sizes_alone": 800, "crowded_folder": 7, "updated_files": 5, "crowded_updates": 7,
    "many_matrices": 6000, "long_object_name": 1000, "resting_together": 5, "thin_objects": 5, "few_primaries": 70, "fast_objects": 5, "close_nodes": 50,
    "short_spans": 6, "together_for_a_tick": 4, "long_file_names": 3, "at_the_threshold": 90, "near_misses": 20, "touching_everywhere": 5, "many_cells": 30,
    "thin_boxes": 5, "one_long_line": 3_000_000, "short_lines": 4000, "cells_of_one_pair": 20, "many_sizes": 20,
}  # fmt: skip
KM = 10**12


class LoadCase(FolderCase):
    def made(self, make: Maker, size: int, seed: int = 1, where: str = "made") -> Path:
        folder = self.folder / where
        folder.mkdir()
        make(folder, seed, size)
        return folder

    def text(self, make: Maker, size: int, name: str = certificates.CERTIFICATE) -> list[str]:
        return (self.made(make, size) / name).read_text("ascii").splitlines()


def bytes_of(folder: Path) -> dict[str, bytes]:
    return {path.name: path.read_bytes() for path in folder.iterdir()}


class Generators(LoadCase):
    def test_every_load_has_a_small_size(self) -> None:
        self.assertEqual(sorted(SMALL), sorted(load.name for load in LOADS))

    def test_a_seed_gives_the_same_bytes_and_another_seed_others(self) -> None:
        for load in LOADS:
            with self.subTest(load.name):
                size = SMALL[load.name]
                first, again = (bytes_of(self.made(load.make, size, 1, f"{load.name}-{place}")) for place in "ab")
                self.assertEqual(first, again)
                others = (bytes_of(self.made(load.make, size, seed, f"{load.name}-{seed}")) for seed in range(2, 12))
                self.assertTrue(any(other != first for other in others))

    def test_files_of_so_many_bytes(self) -> None:
        for make, name in (
            (reading.line_ends, "a.oem"),
            (certificates.one_long_line, certificates.CERTIFICATE),
        ):
            size = SMALL[make.__name__]
            self.assertEqual((self.made(make, size, 1, make.__name__) / name).stat().st_size, size)

    def test_no_ephemeris_is_larger_than_is_taken(self) -> None:
        """By a row's length: nodes of half seconds have 30 and 32 bytes, nodes of microseconds 46 at most, a segment of one tick 500 at most."""
        sizes = {load.name: load.greatest for load in LOADS}
        self.assertLess(sizes["many_nodes"] // 2 * 62 + 1000, texts.LARGEST_FILE)
        self.assertLess(sizes["close_nodes"] * 46 + 1000, texts.LARGEST_FILE)
        self.assertLess(sizes["short_spans"] * 500 + 1000, texts.LARGEST_FILE)
        for name in ("line_ends", "long_comments", "late_fault", "matrices_alone", "many_matrices"):
            self.assertLessEqual(sizes[name], texts.LARGEST_FILE)

    def test_a_length_as_kilometres_is_read_again(self) -> None:
        for length in (0, 1, -1, KM, 7000 * KM + 5, -450_000 * KM, 123_456_789):
            self.assertEqual(read_scaled(texts.kilometres(length).encode(), 12), length)

    def test_epochs(self) -> None:
        self.assertEqual(texts.epoch(0), "2025-01-01T00:00:00")
        self.assertEqual(texts.epoch(86_400_000_001), "2025-01-02T00:00:00.000001")
        self.assertEqual(texts.FIRST_TICK, read_epoch("2025-01-01T00:00:00"))
        self.assertEqual(texts.times(2 * texts.HOUR + 1), [0, texts.HOUR, 2 * texts.HOUR, 2 * texts.HOUR + 1])
        self.assertEqual(texts.times(2 * texts.HOUR), [0, texts.HOUR, 2 * texts.HOUR])

    def test_as_many_slots_as_are_taken(self) -> None:
        self.assertEqual([texts.slots_for(objects) for objects in (2000, 1999, 199, 198, 2)], [2000, 2001, 20_100, 20_160, 20_160])


@unittest.skipUnless(HAS_NUMPY, "needs python3-numpy: apt-get install python3-numpy")
class Ephemerides(LoadCase):
    def tracks(self, make: Maker) -> list[Ephemeris]:
        folder = self.made(make, SMALL[make.__name__], 3, make.__name__)
        return [read_oem(path.name, path.read_bytes()) for path in sorted(folder.glob("*.oem"))]

    def test_every_ephemeris_is_read_but_for_the_one_with_a_fault(self) -> None:
        for load in LOADS:
            with self.subTest(load.name):
                if load.make is reading.late_fault:
                    with self.assertRaisesRegex(Exception, "Kvn NotPrintable"):
                        self.tracks(load.make)
                else:
                    self.assertTrue(self.tracks(load.make))

    def test_the_fault_is_in_the_line_that_is_due(self) -> None:
        folder = self.made(reading.late_fault, 4000)
        due = next(load for load in LOADS if load.make is reading.late_fault).runs[0].due(folder, 4000)
        with self.assertRaises(Exception) as refused:
            read_oem("a.oem", (folder / "a.oem").read_bytes())
        self.assertEqual((due.status, due.error), (3, f"conj: {refused.exception}\n"))

    def test_nodes_of_half_seconds(self) -> None:
        (track,) = self.tracks(reading.many_nodes)
        times = track.segments[0].times.tolist()
        self.assertEqual(times, [texts.FIRST_TICK + 500_000 * number for number in range(250)])

    def test_nodes_of_several_objects_together(self) -> None:
        tracks = self.tracks(reading.nodes_outside)
        self.assertEqual([len(track.segments[0].times) for track in tracks], [250 // reading.OBJECTS_OF_NODES] * reading.OBJECTS_OF_NODES)

    def test_long_forms_are_all_seven_thousand_kilometres(self) -> None:
        for make in (reading.long_numbers, reading.long_epochs):
            (track,) = self.tracks(make)
            states = track.segments[0].states.tolist()
            self.assertGreaterEqual(len(states), 2)
            self.assertEqual(states, [[7000 * KM, 0, 0, 0, 0, 0]] * len(states))

    def test_matrices_fill_their_files(self) -> None:
        for track in self.tracks(reading.matrices_alone):
            self.assertGreater(84 * len(track.segments[0].covariances) + 1000, 4000)

    def test_a_partner_with_a_second_between_its_segments(self) -> None:
        for make in (reading.many_matrices, reading.long_object_name):
            first, second = self.tracks(make)
            starts = [segment.first for segment in second.segments]
            self.assertEqual([segment.last - segment.first for segment in second.segments], [1_000_000] * len(starts))
            self.assertEqual(starts, [texts.FIRST_TICK + 2_000_000 * number for number in range(len(starts))])
            self.assertTrue(first.segments[0].first <= starts[0] and second.segments[-1].last <= first.segments[0].last)
        self.assertEqual((len(first.name), len(second.segments)), (1000, 200))

    def test_nodes_of_microseconds_and_spans_of_one_tick(self) -> None:
        for track in self.tracks(approaches.close_nodes):
            times = track.segments[0].times.tolist()
            self.assertEqual([later - earlier for earlier, later in zip(times, times[1:])], [1] * 49)
        for track in self.tracks(approaches.short_spans):
            self.assertTrue(all(segment.first == segment.last for segment in track.segments))
            self.assertEqual([later.first - earlier.last for earlier, later in zip(track.segments, track.segments[1:])], [2] * 5)
        tracks = self.tracks(approaches.together_for_a_tick)
        self.assertEqual(len({(track.segments[0].first, track.segments[0].last, track.segments[0].states.tobytes()) for track in tracks}), 1)

    def test_objects_at_one_place(self) -> None:
        tracks = self.tracks(approaches.resting_together)
        self.assertEqual(len(tracks), 5)
        self.assertEqual(len({track.segments[0].states.tobytes() for track in tracks}), 1)
        self.assertEqual(tracks[0].segments[0].last - tracks[0].segments[0].first, (20_160 - 1) * 60_000_000)

    def test_swinging_objects_stay_twenty_kilometres_apart_on_an_axis(self) -> None:
        states = [track.segments[0].states for track in self.tracks(approaches.thin_objects)]
        (apart,) = (axis for axis in range(3) if all(len(set(state[:, axis].tolist())) == 1 for state in states) and len({int(s[0, axis]) for s in states}) > 1)
        self.assertEqual(sorted(int(state[0, apart]) for state in states), [20 * KM * rank for rank in range(5)])

    def test_few_primaries(self) -> None:
        """As many of them as are few, each an object, and no two the same; all of fewer objects."""
        for size, count in ((70, 64), (5, 5)):
            folder = self.made(approaches.few_primaries, size, where=str(size))
            named = (folder / approaches.FLEET).read_text("ascii").split()
            self.assertEqual((len(named), len(set(named))), (count, count))
            self.assertLessEqual(set(named), {read_oem(path.name, path.read_bytes()).designator for path in folder.glob("*.oem")})

    def test_rates_at_the_limit(self) -> None:
        for track in self.tracks(approaches.fast_objects):
            self.assertEqual(set(abs(track.segments[0].states[:, 3:]).flatten().tolist()), {20 * KM})

    def test_a_circle_at_the_threshold(self) -> None:
        """Each node is 0.15 mm beyond the threshold but for its rounding, and the middle of each piece t^4 / 384 of the radius further in."""
        center, circle = (track.segments[0] for track in self.tracks(approaches.at_the_threshold))
        at = [complex(y, z) for y, z in (circle.states[:, 1:3] - center.states[0, 1:3]).tolist()]
        rates = [complex(y, z) for y, z in circle.states[:, 4:6].tolist()]
        for place, later, rate, rate_later in zip(at, at[1:], rates, rates[1:]):
            self.assertAlmostEqual(abs(place), 5 * KM + 150_000, delta=2)
            middle = (place + later) / 2 + (rate - rate_later) * 60 / 8
            self.assertAlmostEqual(5 * KM + 150_000 - abs(middle), 5 * KM * 0.0698131700797732**4 / 384, delta=100)

    def test_passes_miss_by_less_than_a_millimetre(self) -> None:
        center, passing = (track.segments[0] for track in self.tracks(approaches.near_misses))
        away = (passing.states[:, :3] - center.states[0, :3]).tolist()
        self.assertEqual([x > 0 for x, _, _ in away], [minute % 2 == 1 for minute in range(21)])
        self.assertTrue(all((5 * KM) ** 2 < y * y + z * z < (5 * KM + 10**6) ** 2 and max(y, z) < 5 * KM for _, y, z in away))


class Certificates(LoadCase):
    def numbers(self, lines: list[str], word: str) -> list[list[str]]:
        return [line.split()[1:] for line in lines if line.startswith(f"{word} ")]

    def test_each_pair_is_looked_at_and_cells_are_wanted(self) -> None:
        lines = self.text(certificates.many_cells, 30)
        self.assertEqual(lines[:4], ["CONJ-CERT 2", "WINDOW 1735689600000000 1736899199999999", "THRESHOLD 5000000000000", "OBJECTS 64"])
        self.assertEqual(self.numbers(lines, "SIZE"), [[str(number), "0"] for number in range(1, 65)])
        self.assertEqual(self.numbers(lines, "SHELL"), [[str(number), "0", str(10**18)] for number in range(1, 65)])
        self.assertEqual({tuple(box[1:]) for box in self.numbers(lines, "BOX")}, {("0", "20159", *(str(-(10**18)), str(10**18)) * 3)})
        self.assertEqual(lines[196], "CELL 1 2 1735689600000000 1735689659999999 N")
        self.assertEqual(lines[225:], ["CELL 1 2 1735691340000000 1735691399999999 N", "END"])
        load = next(load for load in LOADS if load.name == "many_cells")
        self.assertEqual(load.runs[0].due(self.folder, 30).error, f"conj: not accepted: line {len(lines)}: Untiled\n")

    def test_thin_boxes_never_touch(self) -> None:
        lines = self.text(certificates.thin_boxes, 5)
        boxes = [list(map(int, box[3:])) for box in self.numbers(lines, "BOX")]
        lengths = [tuple(most - least for least, most in zip(box[::2], box[1::2])) for box in boxes]
        self.assertEqual({tuple(sorted(length)) for length in lengths}, {(0, 0, 2 * 10**18)})
        ranks = [sorted(box[2 * axis] for box in boxes) for axis in range(3)]
        self.assertIn([20 * KM * rank for rank in range(5)], ranks)

    def test_one_long_line(self) -> None:
        lines = self.text(certificates.one_long_line, 3_000_000)
        self.assertEqual(lines[:2], ["CONJ-CERT 1", "WINDOW 1735689600000000 1735689659999999"])
        self.assertTrue(re.fullmatch(r"THRESHOLD [1-9]{2999900,}", lines[2]))
        self.assertEqual(len(lines), 3)

    def test_short_lines(self) -> None:
        lines = self.text(certificates.short_lines, 4000)
        self.assertEqual(len(set(lines[4:-1])), 1)
        self.assertTrue(re.fullmatch("SHELL [12] NONE", lines[4]))
        self.assertEqual(lines[-1], "END")

    def test_a_cell_each_tick(self) -> None:
        lines = self.text(certificates.cells_of_one_pair, 20)
        self.assertEqual(lines[1], "WINDOW 1735689600000000 1735689600000019")
        self.assertEqual(lines[8:-1], [f"CELL 1 2 {tick} {tick} N" for tick in range(1735689600000000, 1735689600000020)])

    def test_sizes_of_two_objects_and_more(self) -> None:
        lines = self.text(certificates.many_sizes, 20)
        self.assertEqual(lines[4:6], ["SIZE 1 0", "SIZE 2 0"])
        self.assertEqual([lines[0], len(self.numbers(lines, "SIZE")), lines[-1]], ["CONJ-CERT 2", 20, "END"])


def program_of(folder: Path, body: str) -> str:
    """A program of a few lines of Python, in the place of the one that is measured."""
    path = folder / "program"
    path.write_text(f"#!{sys.executable}\nimport sys\n{body}\n")
    path.chmod(0o755)
    return str(path)


def small_load(bound: Bound, due: Due = Due(0), workers: tuple[int, ...] = ()) -> Load:
    run = Run("screen", (), lambda folder, size: due, workers)
    return Load(reading.small_files, 4, (run,), bound)


class Holding(LoadCase):
    def hold(self, body: str, load: Load) -> tuple[bool, list[str]]:
        told: list[str] = []
        ground = self.folder / "ground"
        ground.mkdir()
        return hold_load(program_of(self.folder, body), load, 1, ground, told.append), told

    def test_a_program_within_its_bounds(self) -> None:
        held, told = self.hold("print('OBJECTS 1')", small_load(Bound(10, 4, lambda size: 0, ""), Due(0, "", ("OBJECTS 1",))))
        self.assertTrue(held)
        self.assertEqual(len(told), 1)
        self.assertRegex(told[0], r"^small_files: [\d,]+ bytes, \d\.\d\d s, \d\.\d times reading, \d+ MiB$")

    def test_a_program_that_works_on_is_ended(self) -> None:
        held, told = self.hold("while True: pass", small_load(Bound(1, 4, lambda size: 0, "")))
        self.assertFalse(held)
        self.assertRegex(told[1], r"screen: [\d.]+ s, \d+ times reading, bound 1, when it was ended$")

    def test_memory_beyond_its_bound(self) -> None:
        held, told = self.hold("x = bytes(b'x' * 100_000_000)", small_load(Bound(20, 4, lambda size: 0, "")))
        self.assertFalse(held)
        self.assertRegex(told[1], r"screen: \d{3} MiB of memory, bound 32$")

    def test_another_end(self) -> None:
        held, told = self.hold("print('x', file=sys.stderr); sys.exit(3)", small_load(Bound(20, 4, lambda size: 0, "")))
        self.assertFalse(held)
        self.assertIn("status 3 in place of 0, with b'x\\n' on standard error", told[1])

    def test_more_workers_that_take_more_than_twice_as_long(self) -> None:
        body = "import time\nwhile time.process_time() < (2.0 if sys.argv[-1] == '4' else 0.1): pass"
        held, told = self.hold(body, small_load(Bound(20, 4, lambda size: 0, ""), workers=(1, 4)))
        self.assertFalse(held)
        self.assertEqual(len(told), 2)
        self.assertRegex(told[1], r"screen --workers 4: [\d.]+ s of processor time in place of [\d.]+ with one worker, bound 2 times$")

    def test_bounds_by_hand(self) -> None:
        bounds = allowed(Bound(10, 4, lambda size: 56 * size, "", lambda size: 3 * size), 0.2, 1000, 10)
        self.assertEqual(bounds, Allowed(2.0, IDLE + 4000 + 560, 30))
        run = Spent(0, b"", b"", 2.5, IDLE + 4560 + MIB)
        self.assertEqual(
            cost_faults(bounds, run, 0.2, 31), ["2.50 s, 12 times reading, bound 10", "33 MiB of memory, bound 32", "31 bytes written, bound 30"]
        )
        self.assertEqual(cost_faults(bounds, Spent(0, b"", b"", 2.0, IDLE), 0.2, 30), [])

    def test_lines_of_the_summary_or_the_certificate(self) -> None:
        (self.folder / "screen.cert").write_text("CONJ-CERT 1\nSHELL 1 2 3\nEND\n")
        run = Spent(0, b"OBJECTS 12\nPAIRS 1\n", b"", 0.1, 0)
        self.assertEqual(ending_faults(self.folder, Due(0, "", ("OBJECTS 12", "PAIRS 1", "SHELL 1 2 3")), run), [])
        for line in ("OBJECTS 1", "AIRS 1", "SHELL 1 2", "NEAR 0"):
            self.assertEqual(len(ending_faults(self.folder, Due(0, "", (line,)), run)), 1)

    def test_a_run_is_measured_with_its_threads_and_children(self) -> None:
        busy = "import time\nwhile time.process_time() < 0.3: pass"
        self.assertGreaterEqual(spent([sys.executable, "-c", busy]).seconds, 0.3)

    def test_what_the_measuring_process_stands_in_is_not_counted(self) -> None:
        stands = b"x" * (8 * IDLE)
        self.assertLess(spent([sys.executable, "-I", "-S", "-c", "pass"]).memory, IDLE)
        self.assertEqual(len(stands), 8 * IDLE)

    def test_a_program_that_is_not_there(self) -> None:
        ended = spent([str(self.folder / "no program")])
        self.assertEqual((ended.status, ended.output), (127, b""))
        self.assertIn(b"no program: ", ended.error)

    def test_a_load_that_cannot_be_made(self) -> None:
        def fails(folder: Path, seed: int, size: int) -> None:
            sys.stderr = open("/dev/null", "w")
            raise OSError("no room")

        with self.assertRaisesRegex(RuntimeError, "fails of seed 1 and size 2 could not be made"):
            made_apart(fails, self.folder, 1, 2)

    def test_loads_by_name(self) -> None:
        told: list[str] = []
        program = program_of(self.folder, "print('OBJECTS 2\\nPARTED 1')")
        self.assertEqual(run_loads(program, 1, self.folder, told.append, ("no such load",)), 0)
        self.assertEqual(told, [])


if __name__ == "__main__":
    unittest.main()
