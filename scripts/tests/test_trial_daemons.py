"""Processes that a trial starts and ends: no other is ended."""

from __future__ import annotations

import os
import subprocess
import unittest
from pathlib import Path

from tests.support import FolderCase

from conjtools.trial.cluster import configuration
from conjtools.trial.daemons import WORD, begun_at, end, end_all, end_strays, start, token_of, wait_until


class Daemons(FolderCase):
    def started(self, name: str) -> int:
        """A process that would run for long."""
        return start(name, ["sleep", "100"], self.folder, os.environ)

    def ended(self, pid: int) -> bool:
        """Whether a process ends within some seconds."""
        return wait_until(lambda: begun_at(pid) is None, 20.0)

    def test_what_was_started_is_ended(self) -> None:
        pids = [self.started("a"), self.started("b")]
        self.assertTrue(all(begun_at(pid) for pid in pids))
        end_all(self.folder)
        self.assertTrue(all(self.ended(pid) for pid in pids))
        self.assertEqual([path for path in self.folder.iterdir() if path.suffix == ".pid"], [])

    def test_another_process_with_the_number_is_left(self) -> None:
        """The number was given to another process since, which began at another time."""
        pid = self.started("a")
        path = self.folder / "other.pid"
        path.write_text(f"{pid} {int(begun_at(pid) or 0) + 1}\n", "ascii")
        end(path)
        self.assertFalse(path.exists())
        self.assertIsNotNone(begun_at(pid))
        end(self.folder / "a.pid")
        self.assertTrue(self.ended(pid))

    def test_files_that_say_nothing(self) -> None:
        for text in ("", "x y", "1"):
            path = self.folder / "none.pid"
            path.write_text(text, "ascii")
            end(path)
            self.assertFalse(path.exists())

    def test_strays_are_those_with_the_token(self) -> None:
        token = token_of(self.folder)
        self.assertEqual((token_of(self.folder), len(token)), (token, 32))
        mine = subprocess.Popen(["sleep", "100"], env={**os.environ, WORD: token})
        other = subprocess.Popen(["sleep", "100"], env={**os.environ, WORD: token[::-1] + "0"})
        wait_until(lambda: b"sleep" in Path(f"/proc/{mine.pid}/cmdline").read_bytes(), 20.0)
        end_strays(token)
        self.assertEqual(mine.wait(20), -9)
        self.assertIsNone(other.poll())
        other.kill()
        other.wait()


class Configuration(FolderCase):
    def test_nodes_have_ports_and_places_of_their_own(self) -> None:
        lines = configuration(self.folder, ("n1", "n2"), 3).splitlines()
        nodes = [line for line in lines if line.startswith("NodeName=")]
        self.assertEqual([line.split()[0] for line in nodes], ["NodeName=n1", "NodeName=n2"])
        self.assertEqual(len({word for line in nodes for word in line.split() if word.startswith("Port=")}), 2)
        self.assertTrue(all("CPUs=3 " in line for line in nodes))
        self.assertIn(f"SlurmdSpoolDir={self.folder}/spool-%n", lines)


if __name__ == "__main__":
    unittest.main()
