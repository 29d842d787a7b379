"""The relative states in the messages of a made-up catalogue, held against the miss distances beside them in exact whole numbers.

CONJ_PROGRAM names the program; without it these tests are skipped.
"""

from __future__ import annotations

import os
import re
import subprocess
import tempfile
import unittest
from pathlib import Path

PROGRAM = os.path.abspath(os.environ["CONJ_PROGRAM"]) if os.environ.get("CONJ_PROGRAM") else ""
# Each value is within one millimetre of the exact one, and so is the miss distance, which is rounded up: in nm.
ROOM = 2_000_000
LINE = re.compile(rb"^(MISS_DISTANCE|RELATIVE_POSITION_[RTN]) = (-?\d+)\.(\d{9}) \[m\]$", re.MULTILINE)


def lengths_in(message: bytes) -> dict[str, int]:
    """The miss distance and the relative position of a message, in nm."""
    return {key.decode(): int(whole + digits) for key, whole, digits in LINE.findall(message)}


@unittest.skipUnless(PROGRAM, "CONJ_PROGRAM names no program: set it to a built one, as .conj/program is")
class RelativeStates(unittest.TestCase):
    def run_program(self, *words: str) -> str:
        run = subprocess.run([PROGRAM, *words], capture_output=True, text=True)
        self.assertEqual((run.returncode, run.stderr), (0, ""))
        return run.stdout

    def test_a_relative_position_is_as_long_as_the_miss_distance(self) -> None:
        with tempfile.TemporaryDirectory() as place:
            made, put = Path(place, "made"), Path(place, "put")
            made.mkdir()
            self.run_program("generate", str(made), "--objects", "120", "--minutes", "40", "--seed", "5")
            summary = self.run_program("screen", str(made), "--threshold", "200000", "--rtn", "--out", str(put))
            messages = [path.read_bytes() for path in sorted(put.glob("*.cdm"))]
            self.assertEqual(summary.splitlines()[-1], f"MESSAGES {len(messages)}")
            self.assertGreater(len(messages), 20)
            for message in messages:
                lengths = lengths_in(message)
                self.assertEqual(len(lengths), 4)
                miss = lengths.pop("MISS_DISTANCE")
                square = sum(value * value for value in lengths.values())
                self.assertLessEqual(max(miss - ROOM, 0) ** 2, square)
                self.assertLessEqual(square, (miss + ROOM) ** 2)
