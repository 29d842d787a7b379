"""A directory that is there whole or not at all."""

from __future__ import annotations

import os
import unittest
from pathlib import Path

from conjtools.faults import RunFault
from conjtools.new_directory import new_directory
from tests.support import FolderCase


class NewDirectory(FolderCase):
    def test_it_takes_its_name_at_the_end(self) -> None:
        path = self.folder / "new"
        with new_directory(path) as part:
            self.assertEqual(part, self.folder / ".new.part")
            (part / "a").write_text("first")
            self.assertFalse(path.exists())
        self.assertEqual(os.listdir(self.folder), ["new"])
        self.assertEqual((path / "a").read_text(), "first")

    def test_nothing_stands_where_something_fails(self) -> None:
        for fault, wanted in ((ValueError(), ValueError), (KeyboardInterrupt(), KeyboardInterrupt), (OSError(28, "No space left", "a"), RunFault)):
            with self.assertRaises(wanted), new_directory(self.folder / "new") as part:
                (part / "a").write_text("first")
                raise fault
            self.assertEqual(os.listdir(self.folder), [])

    def test_a_name_that_is_taken_meanwhile(self) -> None:
        path = self.folder / "new"
        with self.assertRaises(RunFault) as caught, new_directory(path):
            path.mkdir()
        self.assertEqual(str(caught.exception), f"{path}: exists already")
        self.assertEqual(os.listdir(self.folder), ["new"])

    def test_a_second_run_at_once(self) -> None:
        with new_directory(self.folder / "new") as part:
            (part / "a").write_text("first")
            with self.assertRaises(RunFault) as caught, new_directory(self.folder / "new"):
                pass
            self.assertEqual(str(caught.exception), f"{part}: another run is writing there")
        self.assertEqual((self.folder / "new" / "a").read_text(), "first")

    def test_what_is_not_its_own_stays(self) -> None:
        path = self.folder / "new"
        with self.assertRaises(RunFault), new_directory(path) as part:
            part.rename(self.folder / "moved")
            Path(part).mkdir()
            raise OSError(5, "Input/output error", "a")
        self.assertEqual(sorted(os.listdir(self.folder)), [".new.part", "moved"])


if __name__ == "__main__":
    unittest.main()
