"""Lines and numbers, against exact fractions."""

from __future__ import annotations

import random
import unittest
from fractions import Fraction

from conjtools.kvn import KvnFault, checked_lines, is_decimal, read_scaled


def nearest(value: Fraction) -> int:
    """The nearest whole number, halves away from zero."""
    size = (2 * abs(value) + 1) // 2
    return -size if value < 0 else size


class Numbers(unittest.TestCase):
    def test_texts_that_are_numbers(self) -> None:
        for text in ("7000", "-225", "+0.5", ".5", "5.", "7.0E+03", "-4.8e-1", "1e4", "0.0000000000005", "-0.0000000000015", "00012.50", "1E-9999"):
            with self.subTest(text):
                self.assertEqual(read_scaled(text.encode(), 12), nearest(Fraction(text) * 10**12) if text != "1E-9999" else 0)

    def test_many_numbers_as_fractions(self) -> None:
        draw = random.Random(7)
        for _ in range(2000):
            text = f"{draw.choice('+- ').strip()}{draw.randrange(10**6)}.{draw.randrange(10**draw.randrange(1, 20))}E{draw.randrange(-14, 4)}"
            self.assertEqual(read_scaled(text.encode(), 12), nearest(Fraction(text) * 10**12), text)

    def test_texts_that_are_none(self) -> None:
        for text in (b"", b"-", b".", b"E5", b"1E", b"1E+", b"1E12345", b"1.2.3", b"0x1", b"1_0", b"nan", b"1e5.0", b"--1"):
            with self.subTest(text):
                self.assertIsNone(read_scaled(text, 12))
                self.assertFalse(is_decimal(text))

    def test_beyond_every_range(self) -> None:
        for text in (b"1E25", b"9" * 5000, b"1E9999"):
            with self.assertRaises(OverflowError):
                read_scaled(text, 12)
        self.assertEqual(read_scaled(b"1E24", 12), 10**36)
        self.assertEqual(read_scaled(b"0" * 9000 + b"1." + b"0" * 9000 + b"1", 12), 10**12)

    def test_decimals_are_below_ten_to_the_hundred(self) -> None:
        self.assertTrue(is_decimal(b"9.99999999999999999E99"))
        self.assertFalse(is_decimal(b"9.999999999999999999E99"), "it rounds to 10^100")
        self.assertFalse(is_decimal(b"1E100"))
        self.assertTrue(is_decimal(b"0E9999"))
        self.assertTrue(is_decimal(b"1E-9999"))


class Lines(unittest.TestCase):
    def test_endings_blanks_and_comments(self) -> None:
        content = b"A = 1\r\n\r\n \t COMMENT \xff\x00\r anything\n\t1 2\t3 \nCOMMENTS = 1\nlast"
        self.assertEqual(checked_lines(content), [b"A = 1", b"", b"", b"1 2\t3", b"COMMENTS = 1", b"last"])
        self.assertEqual(checked_lines(b""), [])
        self.assertEqual(checked_lines(b"\n"), [b""])

    def test_first_fault_over_the_file(self) -> None:
        for content, line, cause in (
            (b"A = 1\nB\x80\n", 2, "Kvn NotPrintable"), (b"one\rtwo\n", 1, "Kvn NotPrintable"), (b"A = 1\nlast\r", 2, "Kvn NotPrintable"),
            (b"ok\nkey = 1\n\x01", 2, "Kvn NoLineForm"), (b" = 1\n", 1, "Kvn NoLineForm"), (b"COMMENT\nCOMMENTS here = 1\n", 2, "Kvn NoLineForm"),
        ):  # fmt: skip
            with self.subTest(content), self.assertRaises(KvnFault) as caught:
                checked_lines(content)
            self.assertEqual((caught.exception.line, caught.exception.cause), (line, cause))


if __name__ == "__main__":
    unittest.main()
