"""Messages: whose they are, and what is none."""

from __future__ import annotations

import unittest

from conjtools.cdm import Message, MessageSide, message_name, read_message
from conjtools.faults import InputFault
from tests.support import CROSSING_MESSAGE, RELATIVE_STATE

MISS_DISTANCE = "MISS_DISTANCE = 1000.000000000 [m]\n"
TOLD_MESSAGE = CROSSING_MESSAGE.replace(MISS_DISTANCE, MISS_DISTANCE + RELATIVE_STATE)


class Messages(unittest.TestCase):
    def test_crossing(self) -> None:
        sides = MessageSide("2025-001A", "SAT A", "a.oem"), MessageSide("2025-002A", "SAT B", "b.oem")
        self.assertEqual(CROSSING_MESSAGE.count("\n"), 82)
        self.assertEqual(read_message("000001.cdm", CROSSING_MESSAGE.encode()), Message(1, 1_735_689_630_000_000, 10**12, sides))

    def test_relative_state(self) -> None:
        self.assertEqual(TOLD_MESSAGE.count("\n"), 88)
        self.assertEqual(read_message("000001.cdm", TOLD_MESSAGE.encode()), read_message("000001.cdm", CROSSING_MESSAGE.encode()))
        for old, new, line in (
            ("RELATIVE_POSITION_N = 0.000000000 [m]\n", "", 88), ("_T = -7500.000000000", "_T = 7500", 11), ("POSITION_T", "VELOCITY_T", 8),
            ("OBJECT_NAME = SAT B", "NAME = SAT B", 55), ("START_SCREEN", "STOP_SCREEN", 13),
        ):  # fmt: skip
            with self.subTest(old), self.assertRaises(InputFault) as caught:
                read_message("000001.cdm", TOLD_MESSAGE.replace(old, new, 1).encode())
            self.assertEqual(caught.exception.line, line)

    def test_names(self) -> None:
        self.assertEqual([message_name(number) for number in (1, 999_999, 1_234_567)], ["000001.cdm", "999999.cdm", "1234567.cdm"])

    def test_refused(self) -> None:
        for old, new, line in (
            ("TCA = 2025", "TCA = 25", 5), ("1000.000000000 [m]", "1000.0 [m]", 6), ("1000.000000000 [m]", "1000.000000000", 6),
            ("MESSAGE_ID = CONJ_000001", "MESSAGE_ID = CONJ", 4), ("OBJECT_NAME = SAT B", "NAME = SAT B", 49), ("OBJECT = OBJECT1\n", "", 82),
        ):  # fmt: skip
            with self.subTest(old), self.assertRaises(InputFault) as caught:
                read_message("000001.cdm", CROSSING_MESSAGE.replace(old, new).encode())
            self.assertEqual(caught.exception.line, line)


if __name__ == "__main__":
    unittest.main()
