"""A window cut into parts, and what a configuration of the workflow says."""

from __future__ import annotations

import unittest
from datetime import datetime, timedelta, timezone

from conjtools.faults import InputFault
from conjtools.parts.settings import OPTIONS, Settings, as_told, read_settings
from conjtools.parts.windows import parts_of
from conjtools.report import Window

MINUTE = 60_000_000
MIDNIGHT = 1_735_689_600_000_000  # 2025-01-01, 20,089 days of 86,400 seconds behind 1970-01-01


class Parts(unittest.TestCase):
    def lengths(self, ticks: int, minutes: int) -> list[tuple[int, int]]:
        """The parts of a window from tick 7 on with so many ticks behind the first, each as its first tick and its ticks behind that."""
        return [(part.first - 7, part.last - part.first) for part in parts_of(Window(7, 7 + ticks), minutes)]

    def test_whole_minutes_and_the_last_tick(self) -> None:
        """Two hours and the tick behind them in parts of one hour are two, the second with that tick."""
        self.assertEqual(self.lengths(120 * MINUTE, 60), [(0, 60 * MINUTE - 1), (60 * MINUTE, 60 * MINUTE)])

    def test_what_is_left_is_a_shorter_part(self) -> None:
        self.assertEqual(self.lengths(61 * MINUTE, 60), [(0, 60 * MINUTE - 1), (60 * MINUTE, MINUTE)])
        self.assertEqual(self.lengths(60 * MINUTE + 1, 60), [(0, 60 * MINUTE - 1), (60 * MINUTE, 1)])

    def test_one_part(self) -> None:
        for ticks in (0, 1, 60 * MINUTE - 1, 60 * MINUTE):
            self.assertEqual(self.lengths(ticks, 60), [(0, ticks)])

    def test_parts_tile_the_window(self) -> None:
        for ticks in (0, 1, MINUTE - 1, MINUTE, MINUTE + 1, 10 * MINUTE - 1, 10 * MINUTE, 10 * MINUTE + 1, 1_234_567_890):
            for minutes in (1, 2, 3, 7):
                parts = parts_of(Window(MIDNIGHT, MIDNIGHT + ticks), minutes)
                self.assertEqual((parts[0].first, parts[-1].last), (MIDNIGHT, MIDNIGHT + ticks))
                self.assertTrue(all(before.last + 1 == part.first for before, part in zip(parts, parts[1:])))
                self.assertTrue(all(part.first <= part.last and (part.first - MIDNIGHT) % MINUTE == 0 for part in parts))


class Configuration(unittest.TestCase):
    TOLD: dict[str, object] = {"folder": "in", "from": "2025-01-01T00:00:00", "to": "2025-01-02T00:00:00", "results": "out"}

    def read(self, **more: object) -> Settings:
        """The settings with some told otherwise."""
        return read_settings({**self.TOLD, **more}, "conj")

    def refused(self, said: str, **more: object) -> None:
        """A configuration that is refused, and what is said of it."""
        with self.assertRaises(InputFault) as caught:
            self.read(**more)
        self.assertEqual(str(caught.exception)[: len("configuration: line 0: ")], "configuration: line 0: ")
        self.assertIn(said, str(caught.exception))

    def test_left_out(self) -> None:
        settings = self.read()
        self.assertEqual(settings.window, Window(MIDNIGHT, MIDNIGHT + 86_400_000_000))
        self.assertEqual((settings.part_minutes, settings.suffix, settings.beside, settings.program), (1440, ".oem", frozenset(), "conj"))
        self.assertEqual((settings.screen_words(), settings.check_words()), ([], []))

    def test_options_of_both_commands_and_of_screen_alone(self) -> None:
        told = {"threshold": 300, "originator": "ME", "as-hermite3": True, "large": False, "sizes": "-s.txt", "cells": None}
        settings = self.read(options=told)
        self.assertEqual(settings.screen_words(), ["--as-hermite3", "--originator=ME", "--sizes=-s.txt", "--threshold=300"])
        self.assertEqual(settings.check_words(), ["--as-hermite3", "--sizes=-s.txt", "--threshold=300"])
        self.assertEqual(settings.beside, {"-s.txt"})

    def test_a_check_is_asked_for_the_same_primaries(self) -> None:
        settings = self.read(options={"primaries": "fleet.txt", "sizes": "sizes.txt", "rtn": True})
        self.assertEqual(settings.screen_words(), ["--primaries=fleet.txt", "--rtn", "--sizes=sizes.txt"])
        self.assertEqual(settings.check_words(), ["--primaries=fleet.txt", "--sizes=sizes.txt"])
        self.assertEqual(settings.beside, {"fleet.txt", "sizes.txt"})

    def test_a_check_is_asked_what_objects_cover_and_not_that_they_have_to(self) -> None:
        settings = self.read(options={"coverage": True, "must-cover": True})
        self.assertEqual(settings.screen_words(), ["--coverage", "--must-cover"])
        self.assertEqual(settings.check_words(), ["--coverage"])

    def test_options_are_those_of_the_documents(self) -> None:
        """Each option of docs/FORMATS.md that screen has and a configuration does not set otherwise."""
        self.assertEqual(
            set(OPTIONS),
            {"threshold", "sizes", "primaries", "suffix", "as-hermite3", "large", "brief", "originator", "cells", "cert-version", "rtn"}
            | {"coverage", "must-cover"},
        )

    def test_epochs_without_quotes(self) -> None:
        """YAML reads these as times; one with a zone is told in UTC."""
        zone = timezone(timedelta(hours=1))
        settings = self.read(**{"from": datetime(2025, 1, 1), "to": datetime(2025, 1, 1, 1, 0, 0, 5, zone)})
        self.assertEqual(settings.window, Window(MIDNIGHT, MIDNIGHT + 5))
        self.assertEqual(as_told({"from": datetime(2025, 1, 1, 0, 0, 30)}), {"from": "2025-01-01T00:00:30"})

    def test_refused(self) -> None:
        self.refused("colour: no such setting", colour=1)
        self.refused("folder: a path is wanted", folder="")
        self.refused("folder: a path is wanted", folder="--out")
        self.refused("from: an epoch", **{"from": "yesterday"})
        self.refused("to: comes before from", to="2024-12-31T00:00:00")
        self.refused("part_minutes: a whole number from 1", part_minutes=0)
        self.refused("part_minutes: a whole number from 1", part_minutes=1.5)
        self.refused("threads: a whole number from 1 to 16", threads=17)
        self.refused("threads: a whole number from 1 to 16", threads=True)
        self.refused("page: true or false is wanted", page="no")
        self.refused("options: from: no such option here", options={"from": "x"})
        self.refused("options: as-hermite3: true or false", options={"as-hermite3": 1})
        self.refused("options: threshold: a value", options={"threshold": True})


if __name__ == "__main__":
    unittest.main()
