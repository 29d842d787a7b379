"""Epochs, against the calendar of the standard library."""

from __future__ import annotations

import unittest
from datetime import datetime, timedelta, timezone

from conjtools.epochs import EpochCause, EpochFault, epoch_text, leap_lies_between, read_epoch, read_written_epoch

BEGIN = datetime(1970, 1, 1, tzinfo=timezone.utc)


def micros(*parts: int) -> int:
    """Microseconds since 1970-01-01 by the standard library."""
    return (datetime(*parts, tzinfo=timezone.utc) - BEGIN) // timedelta(microseconds=1)  # type: ignore[arg-type, misc]


class Reading(unittest.TestCase):
    def test_calendar_and_ordinal_forms(self) -> None:
        self.assertEqual(read_epoch("2025-01-01T00:00:00"), 1_735_689_600_000_000)
        self.assertEqual(read_epoch("2025-001T00:00:29.5Z"), 1_735_689_629_500_000)
        self.assertEqual(read_epoch("2024-366T23:59:59.999999"), micros(2024, 12, 31, 23, 59, 59, 999999))
        self.assertEqual(read_epoch("1972-02-29T12:34:56.1000000000Z"), micros(1972, 2, 29, 12, 34, 56, 100000))

    def test_each_fault(self) -> None:
        for text, cause in (
            ("2025-01-01", EpochCause.FORM), ("2025-01-01T00:00:00.", EpochCause.FORM), ("2025-01-01T00:00:00z", EpochCause.FORM),
            ("2025-01-01T00:00:00.5ZZ", EpochCause.FORM), ("2025-01-01t00:00:00", EpochCause.FORM), ("", EpochCause.FORM),
            ("1971-12-31T00:00:00", EpochCause.RANGE), ("2100-01-01T00:00:00", EpochCause.RANGE), ("2025-02-29T00:00:00", EpochCause.RANGE),
            ("2025-366T00:00:00", EpochCause.RANGE), ("2025-000T00:00:00", EpochCause.RANGE), ("2025-01-01T24:00:00", EpochCause.RANGE),
            ("2025-01-01T00:60:00", EpochCause.RANGE), ("2025-01-01T00:00:61", EpochCause.RANGE), ("2016-12-31T23:59:60", EpochCause.SECOND_SIXTY),
            ("2025-01-01T00:00:00.0000001", EpochCause.TOO_FINE),
        ):  # fmt: skip
            with self.subTest(text), self.assertRaises(EpochFault) as caught:
                read_epoch(text)
            self.assertEqual(caught.exception.cause, cause)

    def test_written_form_alone(self) -> None:
        self.assertEqual(read_written_epoch("2025-01-01T00:00:29.500000"), 1_735_689_629_500_000)
        self.assertEqual(read_written_epoch("2099-12-31T23:59:59.999999"), micros(2099, 12, 31, 23, 59, 59, 999999))
        for text, cause in (
            ("2025-01-01T00:00:29.5", EpochCause.FORM), ("2025-01-01T00:00:29.500000Z", EpochCause.FORM), ("2025-001T00:00:29.500000", EpochCause.FORM),
            ("2025-02-30T00:00:00.000000", EpochCause.RANGE), ("1971-12-31T00:00:00.000000", EpochCause.RANGE),
            ("2025-01-01T24:00:00.000000", EpochCause.RANGE), ("2025-01-01T00:60:00.000000", EpochCause.RANGE),
            ("2025-01-01T00:00:60.000000", EpochCause.SECOND_SIXTY),
        ):  # fmt: skip
            with self.subTest(text), self.assertRaises(EpochFault) as caught:
                read_written_epoch(text)
            self.assertEqual(caught.exception.cause, cause)


class Writing(unittest.TestCase):
    def test_as_the_standard_library(self) -> None:
        for parts in ((1972, 1, 1), (2000, 2, 29, 23, 59, 59, 1), (2099, 12, 31, 23, 59, 59, 999999), (2025, 7, 4, 5, 6, 7, 89)):
            text = datetime(*parts).isoformat(timespec="microseconds")  # type: ignore[arg-type]
            self.assertEqual(epoch_text(micros(*parts)), text)


class LeapSeconds(unittest.TestCase):
    def test_ends_of_days(self) -> None:
        """IERS Bulletin C: the last was at the end of 2016."""
        self.assertTrue(leap_lies_between(1_483_228_799_999_999, 1_483_228_800_000_000))
        self.assertFalse(leap_lies_between(1_483_228_800_000_000, 4_000_000_000_000_000))
        self.assertTrue(leap_lies_between(micros(2015, 6, 30, 23, 59), micros(2015, 7, 1, 0, 1)))
        self.assertFalse(leap_lies_between(micros(2014, 6, 30, 23, 59), micros(2014, 7, 1, 0, 1)))


if __name__ == "__main__":
    unittest.main()
